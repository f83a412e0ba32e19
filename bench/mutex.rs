// The same calls with a plain mutex round the same data: one for the list, one for each row, one for the events.
use std::sync::{Arc, Mutex};
use std::time::Instant;
const TIMES: usize = 1_000_000;
#[derive(Clone)] struct Info { thread: u8, write: bool, commit: bool, held: [u16; 4], len: u8, pos: u64, set: [u64; 20] }
struct Row { value: i64, number: u64, last_write: Option<Info>, reads: [Option<Info>; 16] }
struct State { owners: [u16; 256], words: [i64; 256], live: u32 }
struct Table { list: Mutex<State>, events: Mutex<Vec<(u8, u64)>>, rows: Vec<Mutex<Row>> }
fn info(t: u8, pos: u64) -> Info { Info { thread: t, write: true, commit: false, held: [0; 4], len: 0, pos, set: [0; 20] } }
fn work(which: usize, t: &Table, id: u8, var: usize, mine: &mut Vec<[u64; 5]>) {
    for k in 0..TIMES {
        match which {
            2 => { let mut s = t.list.lock().unwrap(); s.live = s.live.wrapping_add(1); }
            3 => { let mut s = t.list.lock().unwrap(); s.words[0] = k as i64; let mut e = t.events.lock().unwrap(); e.push((id, k as u64)); mine.push([e.len() as u64, k as u64, 0, 0, 0]); }
            4 => { let mut r = t.rows[var].lock().unwrap(); r.value = std::hint::black_box(r.value); }
            5 => { let mut r = t.rows[var].lock().unwrap(); r.value = k as i64; r.number += 1; let n = r.number; r.last_write = Some(info(id, n)); for x in r.reads.iter_mut() { *x = None; } mine.push([n, k as u64, 0, 0, 0]); }
            6 => { let e = t.events.lock().unwrap(); std::hint::black_box(e.get(0).copied()); }
            _ => {}
        }
    }
}
fn main() {
    let a: Vec<String> = std::env::args().collect();
    let four = a.get(1).map_or(false, |s| s == "4"); let which = a.len() - 1;
    let rows = (0..1024).map(|_| Mutex::new(Row { value: 0, number: 0, last_write: None, reads: Default::default() })).collect();
    let t = Arc::new(Table { list: Mutex::new(State { owners: [0; 256], words: [0; 256], live: 1 }), events: Mutex::new(vec![(0, 0)]), rows });
    let start = Instant::now();
    let hs: Vec<_> = (0..if four { 4 } else { 1 }).map(|i| { let t = t.clone(); std::thread::spawn(move || { let mut mine = Vec::new(); work(which, &t, i as u8, i, &mut mine); mine.len() }) }).collect();
    for h in hs { h.join().unwrap(); }
    eprintln!("{}", start.elapsed().as_nanos() as f64 / TIMES as f64);
    let s = t.list.lock().unwrap(); std::hint::black_box((s.owners[0], s.live));
}
