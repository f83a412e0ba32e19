// The baseline `lazy`: a race checker for goldi traces by lazily computed Goldilocks locksets, after the
// published algorithm: one global list of synchronisation events; an access record per variable for the last
// write and for each thread's last read since; at an access the short cuts first (both commits,
// same thread, a monitor that both held, a walk over the two threads' events alone), then the walk
// over the whole window. `rustc --edition 2021 -O base_lazy.rs` with base_ft.rs beside it (its text reader only).
// Unverified; it assumes a well-formed trace.
//
//   base_lazy < trace               as base_ft; also --repeat N
//   GL_MEMO=0                       a walked lockset is thrown away (the published plain form);
//                                   by default it is kept in the record and the next walk goes on there
//   GL_TWO=0                        without the walk over the two threads' events
//
#[path = "base_ft.rs"]
mod text;
use self::text::{ids, num, verdict, Rd};

const T: usize = 16;
const NV: usize = 1024;

#[derive(Clone, Copy, PartialEq)]
#[repr(u8)]
enum K { Acq, Rel, VRead, VWrite, Fork, Join, Commit }

#[derive(Clone, Copy)]
struct Ev { k: K, t: u8, arg: u16, at: u32 } // for a commit: arg variables from `at` in `vars`

// bits: words 0..4 monitors, 4..8 volatiles, 8..24 variables; threads apart
#[derive(Clone)]
struct Set { th: u32, b: [u64; 24] }
const VO: usize = 256;
const XO: usize = 512;
impl Set {
    #[inline(always)]
    fn has(&self, i: usize) -> bool { self.b[i >> 6] >> (i & 63) & 1 == 1 }
    #[inline(always)]
    fn add(&mut self, i: usize) { self.b[i >> 6] |= 1 << (i & 63) }
}

struct Info {
    t: u8,
    commit: bool,
    nheld: u8,
    after: u16,            // threads once found in the set: they stay there (kept with the walks)
    held: [u16; 4],
    pos: u32,              // the walk goes on here; without a set it starts here
    start: (u32, u16),     // the variables of the access's own commit
    set: Option<Box<Set>>, // lockset after all events before pos; None: the starting set
}

struct Row { w: Option<Info>, r: Vec<Info> }

pub struct Lazy {
    list: Vec<Ev>,
    of: [Vec<u32>; T], // positions of each thread's events
    vars: Vec<u16>,
    rows: Vec<Row>,
    owned: [Vec<(u16, u32)>; T], // monitors owned, rising, with depth
    memo: bool,
    two: bool,
    spare: Vec<Box<Set>>,
}

#[inline(always)]
fn apply(s: &mut Set, e: Ev, vars: &[u16]) {
    let t = 1u32 << e.t;
    match e.k {
        K::Acq => if s.has(e.arg as usize) { s.th |= t },
        K::Rel => if s.th & t != 0 { s.add(e.arg as usize) },
        K::VRead => if s.has(VO + e.arg as usize) { s.th |= t },
        K::VWrite => if s.th & t != 0 { s.add(VO + e.arg as usize) },
        K::Fork => if s.th & t != 0 { s.th |= 1 << e.arg },
        K::Join => if s.th >> e.arg & 1 != 0 { s.th |= t },
        K::Commit => {
            let x = &vars[e.at as usize..e.at as usize + e.arg as usize];
            if s.th & t == 0 && x.iter().any(|&v| s.has(XO + v as usize)) { s.th |= t }
            if s.th & t != 0 { for &v in x { s.add(XO + v as usize) } }
        }
    }
}

struct Q<'a> { t: u8, commit: Option<&'a [u16]>, held: [u16; 4], nheld: u8 }

#[inline(always)]
fn passes(s: &Set, q: &Q) -> bool {
    s.th >> q.t & 1 != 0 || q.commit.map_or(false, |x| x.iter().any(|&v| s.has(XO + v as usize)))
}

impl Lazy {
    pub fn new() -> Lazy {
        Lazy {
            list: Vec::with_capacity(1 << 14),
            of: Default::default(),
            vars: Vec::new(),
            rows: (0..NV).map(|_| Row { w: None, r: Vec::new() }).collect(),
            owned: Default::default(),
            memo: std::env::var("GL_MEMO").map_or(true, |v| v != "0"),
            two: std::env::var("GL_TWO").map_or(true, |v| v != "0"),
            spare: Vec::new(),
        }
    }
    #[inline]
    fn event(&mut self, k: K, t: usize, arg: usize) {
        self.of[t].push(self.list.len() as u32);
        self.list.push(Ev { k, t: t as u8, arg: arg as u16, at: 0 });
    }
    pub fn acq(&mut self, t: usize, m: usize) {
        let o = &mut self.owned[t];
        match o.binary_search_by_key(&(m as u16), |p| p.0) {
            Ok(i) => o[i].1 += 1, // entered again: no new edge
            Err(i) => {
                o.insert(i, (m as u16, 1));
                self.event(K::Acq, t, m)
            }
        }
    }
    pub fn rel(&mut self, t: usize, m: usize) {
        let o = &mut self.owned[t];
        let i = o.binary_search_by_key(&(m as u16), |p| p.0).unwrap();
        o[i].1 -= 1;
        if o[i].1 == 0 {
            o.remove(i);
            self.event(K::Rel, t, m)
        }
    }
    pub fn vr(&mut self, t: usize, f: usize) { self.event(K::VRead, t, f) }
    pub fn vw(&mut self, t: usize, f: usize) { self.event(K::VWrite, t, f) }
    pub fn fork(&mut self, t: usize, u: usize) { self.event(K::Fork, t, u) }
    pub fn join(&mut self, t: usize, u: usize) { self.event(K::Join, t, u) }

    #[inline]
    fn held(&self, t: usize) -> ([u16; 4], u8) {
        let mut h = [0; 4];
        let n = self.owned[t].len().min(4);
        for i in 0..n { h[i] = self.owned[t][i].0 }
        (h, n as u8)
    }

    /// Is the recorded access ordered before the question's, or excepted?
    fn before(list: &[Ev], of: &[Vec<u32>; T], vars: &[u16], i: &mut Info, q: &Q, memo: bool, two: bool,
              spare: &mut Vec<Box<Set>>) -> bool {
        if i.commit && q.commit.is_some() || i.t == q.t || i.after >> q.t & 1 != 0 { return true }
        for a in 0..i.nheld as usize {
            for b in 0..q.nheld as usize {
                if i.held[a] == q.held[b] { return true }
            }
        }
        if let Some(s) = &i.set { if passes(s, q) { return true } }
        let mut s = match (&i.set, spare.pop()) {
            (Some(s), Some(mut n)) => { (*n).clone_from(s); n }
            (Some(s), None) => s.clone(),
            (None, b) => {
                let mut n = b.unwrap_or_else(|| Box::new(Set { th: 0, b: [0; 24] }));
                n.th = 1 << i.t;
                n.b = [0; 24];
                for &v in &vars[i.start.0 as usize..i.start.0 as usize + i.start.1 as usize] { n.add(XO + v as usize) }
                n
            }
        };
        if passes(&s, q) { spare.push(s); return true }
        if two {
            // the events of the two threads alone, in list order
            let (a, b) = (&of[i.t as usize], &of[q.t as usize]);
            let mut x = a.partition_point(|&p| p < i.pos);
            let mut y = b.partition_point(|&p| p < i.pos);
            let mut r: Option<Box<Set>> = None;
            while x < a.len() || y < b.len() {
                // with nothing of the asking thread left a plain access can learn no more
                let p = if y >= b.len() && q.commit.is_none() { break }
                    else if y >= b.len() { x += 1; a[x - 1] }
                    else if x < a.len() && a[x] < b[y] { x += 1; a[x - 1] } else { y += 1; b[y - 1] };
                let r = r.get_or_insert_with(|| match spare.pop() { Some(mut n) => { (*n).clone_from(&s); n } None => s.clone() });
                apply(r, list[p as usize], vars);
                if r.th >> q.t & 1 != 0 { break }
            }
            let mut yes = false;
            if let Some(r) = r {
                yes = passes(&r, q);
                if memo && r.th >> q.t & 1 != 0 { i.after |= 1 << q.t }
                spare.push(r);
            }
            if yes { spare.push(s); return true }
        }
        let mut p = i.pos as usize;
        let want = 1u32 << q.t;
        while p < list.len() {
            apply(&mut s, list[p], vars);
            p += 1;
            if s.th & want != 0 { break }
        }
        let yes = passes(&s, q);
        if memo {
            i.after |= s.th as u16;
            i.pos = p as u32;
            if let Some(old) = i.set.replace(s) { spare.push(old) }
        } else { spare.push(s) }
        yes
    }

    pub fn read(&mut self, t: usize, x: usize) -> bool {
        let (held, nheld) = self.held(t);
        let q = Q { t: t as u8, commit: None, held, nheld };
        self.ask(&q, x, false) && { self.note(&q, x, false, (0, 0)); true }
    }
    pub fn write(&mut self, t: usize, x: usize) -> bool {
        let (held, nheld) = self.held(t);
        let q = Q { t: t as u8, commit: None, held, nheld };
        self.ask(&q, x, true) && { self.note(&q, x, true, (0, 0)); true }
    }
    fn ask(&mut self, q: &Q, x: usize, write: bool) -> bool {
        let row = &mut self.rows[x];
        if let Some(w) = &mut row.w {
            if !Lazy::before(&self.list, &self.of, &self.vars, w, q, self.memo, self.two, &mut self.spare) { return false }
        }
        if write {
            for r in &mut row.r {
                if !Lazy::before(&self.list, &self.of, &self.vars, r, q, self.memo, self.two, &mut self.spare) { return false }
            }
        }
        true
    }
    fn note(&mut self, q: &Q, x: usize, write: bool, start: (u32, u16)) {
        let row = &mut self.rows[x];
        let i = Info { t: q.t, commit: q.commit.is_some(), nheld: q.nheld, held: q.held, after: 0,
                       pos: self.list.len() as u32, start, set: None };
        let spare = &mut self.spare;
        if write {
            for mut r in row.r.drain(..) { if let Some(s) = r.set.take() { spare.push(s) } }
            if let Some(mut w) = row.w.replace(i) { if let Some(s) = w.set.take() { spare.push(s) } }
        } else if let Some(r) = row.r.iter_mut().find(|r| r.t == q.t) {
            if let Some(s) = r.set.take() { spare.push(s) }
            *r = i
        } else { row.r.push(i) }
    }
    pub fn commit(&mut self, t: usize, reads: &[u16], writes: &[u16]) -> bool {
        let mut all = [0u16; 16];
        let (mut n, mut a, mut b) = (0, 0, 0);
        while a < reads.len() || b < writes.len() {
            let v = match (reads.get(a), writes.get(b)) {
                (Some(&p), Some(&w)) => p.min(w),
                (Some(&p), None) => p,
                (None, Some(&w)) => w,
                _ => unreachable!(),
            };
            a += (reads.get(a) == Some(&v)) as usize;
            b += (writes.get(b) == Some(&v)) as usize;
            all[n] = v;
            n += 1;
        }
        let all = &all[..n];
        let (held, nheld) = self.held(t);
        let q = Q { t: t as u8, commit: Some(all), held, nheld };
        for &v in all {
            if !self.ask(&q, v as usize, writes.binary_search(&v).is_ok()) { return false }
        }
        let at = self.vars.len() as u32;
        self.vars.extend_from_slice(all);
        self.of[t].push(self.list.len() as u32);
        self.list.push(Ev { k: K::Commit, t: t as u8, arg: n as u16, at });
        for &v in all { self.note(&q, v as usize, writes.binary_search(&v).is_ok(), (at, n as u16)) }
        true
    }
}

pub fn check(text: &[u8]) -> (Vec<u8>, u32) {
    let mut out = Vec::with_capacity(text.len());
    let mut s = Lazy::new();
    let mut races = 0;
    let mut r = Rd { b: text, i: 0, line: 0 };
    while r.i < text.len() {
        r.line += 1;
        if let Some(first) = r.word() {
            let t = num(first);
            let op = r.word().unwrap_or(b"");
            let ok = match op {
                b"rd" => { let x = r.num(); Some(s.read(t, x)) }
                b"wr" => { let x = r.num(); Some(s.write(t, x)) }
                b"commit" => {
                    let (mut a, mut b) = ([0; 16], [0; 16]);
                    r.word();
                    let rs = ids(r.word().unwrap_or(b"-"), &mut a);
                    r.word();
                    let ws = ids(r.word().unwrap_or(b"-"), &mut b);
                    Some(s.commit(t, rs, ws))
                }
                _ => {
                    let k = r.num();
                    match op {
                        b"acq" => s.acq(t, k),
                        b"rel" => s.rel(t, k),
                        b"vr" => s.vr(t, k),
                        b"vw" => s.vw(t, k),
                        b"fork" => s.fork(t, k),
                        b"join" => s.join(t, k),
                        _ => {}
                    }
                    None
                }
            };
            if let Some(ok) = ok {
                verdict(&mut out, r.line, ok);
                races += !ok as u32;
            }
        }
        r.skip();
    }
    out.extend_from_slice(format!("races {races}\n").as_bytes());
    (out, races)
}

#[allow(dead_code)]
fn main() {
    text::drive(check)
}
