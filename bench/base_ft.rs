// The baseline `ft`: an online race checker for goldi traces in the manner of FastTrack (epochs and vector clocks):
// one epoch for the last write, one epoch or a read vector for the reads since, vector clocks
// for threads, monitors, volatiles and the commits of a variable.
// Single file, `rustc --edition 2021 -O base_ft.rs`. Unverified; it assumes a well-formed trace.
//
//   base_ft < trace                 verdicts as `goldi check` writes them; status 6 if a race, else 0
//   base_ft --repeat N < trace      the same, and on stderr "pass_ns MIN MEDIAN" over N in-process passes
//   base_ft --text N < trace        the same, but the passes timed only read the text and write `ok`
//
// Rules that differ from the textbook: a refused access leaves no trace in the state; a volatile
// write only releases (it joins, it never overwrites) and a volatile read only acquires; a commit
// acquires from, then releases to, a clock of each of its variables; an access that is part of a
// commit never conflicts with another commit's.

use std::io::{Read, Write};

pub const T: usize = 16;
pub const NV: usize = 1024;
pub const NM: usize = 256;
type Vc = [u32; T];

#[inline(always)]
fn join(a: &mut Vc, b: &Vc) {
    for i in 0..T {
        // clocks stay below 2^27, so the signed compare of SSE2 serves
        a[i] = (a[i] as i32).max(b[i] as i32) as u32;
    }
}

// An epoch packs clock << 5 | commit << 4 | thread; 0 is "none" because clocks start at 1.
const SHARED: u32 = u32::MAX;
#[inline(always)]
fn ep(clock: u32, commit: bool, t: usize) -> u32 {
    clock << 5 | (commit as u32) << 4 | t as u32
}
#[inline(always)]
fn ordered(e: u32, c: &Vc) -> bool {
    e >> 5 <= c[(e & 15) as usize]
}
#[inline(always)]
fn plain(e: u32) -> bool {
    e & 16 == 0
}

#[derive(Clone, Copy)]
struct Var {
    w: u32,
    r: u32,  // 0, an epoch, or SHARED
    rv: u32, // index of the read vector while r == SHARED, kept for reuse (0: none yet)
    cv: u32, // index of the clock of the variable's last commit (0: none yet)
    ce: u32, // epoch of that commit
}

pub struct Ft {
    c: [Vc; T],
    l: Box<[Vc; NM]>,
    depth: [u32; NM],
    v: Box<[Vc; NM]>,
    x: Box<[Var; NV]>,
    rvs: Vec<Vc>, // read vectors; entry = packed epoch of that thread or 0
    cvs: Vec<Vc>,
    uses: Vec<u32>, // variables that point to that clock
    free: Vec<u32>,
}

impl Ft {
    pub fn new() -> Ft {
        let mut c = [[0; T]; T];
        for t in 0..T {
            c[t][t] = 1;
        }
        Ft {
            c,
            l: Box::new([[0; T]; NM]),
            depth: [0; NM],
            v: Box::new([[0; T]; NM]),
            x: Box::new([Var { w: 0, r: 0, rv: 0, cv: 0, ce: 0 }; NV]),
            rvs: vec![[0; T]],
            cvs: vec![[0; T]],
            uses: vec![0],
            free: Vec::new(),
        }
    }
    #[inline]
    pub fn acq(&mut self, t: usize, m: usize) {
        if self.depth[m] == 0 {
            join(&mut self.c[t], &self.l[m]);
        }
        self.depth[m] += 1;
    }
    #[inline]
    pub fn rel(&mut self, t: usize, m: usize) {
        self.depth[m] -= 1;
        if self.depth[m] == 0 {
            self.l[m] = self.c[t];
            self.c[t][t] += 1;
        }
    }
    #[inline]
    pub fn vr(&mut self, t: usize, f: usize) {
        join(&mut self.c[t], &self.v[f]);
    }
    #[inline]
    pub fn vw(&mut self, t: usize, f: usize) {
        join(&mut self.v[f], &self.c[t]);
        self.c[t][t] += 1;
    }
    #[inline]
    pub fn fork(&mut self, t: usize, u: usize) {
        let ct = self.c[t];
        join(&mut self.c[u], &ct);
        self.c[t][t] += 1;
    }
    #[inline]
    pub fn join(&mut self, t: usize, u: usize) {
        let cu = self.c[u];
        join(&mut self.c[t], &cu);
    }
    #[inline(always)]
    fn put_read(&mut self, t: usize, x: usize, commit: bool) {
        let c = &self.c[t];
        let e = ep(c[t], commit, t);
        let var = &mut self.x[x];
        if var.r == SHARED {
            self.rvs[var.rv as usize][t] = e;
        } else if var.r == 0 || ordered(var.r, c) {
            var.r = e;
        } else {
            if var.rv == 0 {
                var.rv = self.rvs.len() as u32;
                self.rvs.push([0; T]);
            } else {
                self.rvs[var.rv as usize] = [0; T];
            }
            let rv = &mut self.rvs[var.rv as usize];
            rv[(var.r & 15) as usize] = var.r;
            rv[t] = e;
            var.r = SHARED;
        }
    }
    /// true: performed; false: it would complete a race and is not performed.
    #[inline]
    pub fn read(&mut self, t: usize, x: usize) -> bool {
        let c = &self.c[t];
        let var = &self.x[x];
        let e = ep(c[t], false, t);
        if var.r == e || (var.r == SHARED && self.rvs[var.rv as usize][t] == e) {
            return true;
        }
        if !ordered(var.w, c) {
            return false;
        }
        self.put_read(t, x, false);
        true
    }
    #[inline]
    pub fn write(&mut self, t: usize, x: usize) -> bool {
        let c = &self.c[t];
        let var = &mut self.x[x];
        let e = ep(c[t], false, t);
        if var.w == e {
            return true;
        }
        if !ordered(var.w, c) {
            return false;
        }
        if var.r == SHARED {
            let rv = &self.rvs[var.rv as usize];
            let mut bad = false;
            for u in 0..T {
                bad |= (rv[u] >> 5) as i32 > c[u] as i32;
            }
            if bad {
                return false;
            }
        } else if !ordered(var.r, c) {
            return false;
        }
        var.w = e;
        var.r = 0;
        true
    }
    /// `reads` and `writes` are strictly rising and together name at most 16 variables.
    pub fn commit(&mut self, t: usize, reads: &[u16], writes: &[u16]) -> bool {
        // merged, with a mask of the written ones
        let (mut all, mut n, mut wm) = ([0u16; 16], 0, 0u32);
        let (mut a, mut b) = (0, 0);
        while a < reads.len() || b < writes.len() {
            let p = if a < reads.len() { reads[a] } else { u16::MAX };
            let q = if b < writes.len() { writes[b] } else { u16::MAX };
            let v = p.min(q);
            a += (p == v) as usize;
            b += (q == v) as usize;
            wm |= ((q == v) as u32) << n;
            all[n & 15] = v;
            n += 1;
        }
        let all = &all[..n];
        // One clock per commit, shared by its variables. A commit is the first release at its
        // epoch, so who knows the epoch knows the clock and needs no join.
        let mut c = self.c[t];
        for &x in all {
            let var = &self.x[x as usize];
            if var.cv != 0 && !ordered(var.ce, &c) {
                join(&mut c, &self.cvs[var.cv as usize]);
            }
        }
        for (k, &x) in all.iter().enumerate() {
            let var = &self.x[x as usize];
            if plain(var.w) && !ordered(var.w, &c) {
                return false;
            }
            if wm >> k & 1 == 1 {
                if var.r == SHARED {
                    let rv = &self.rvs[var.rv as usize];
                    let mut bad = false;
                    for u in 0..T {
                        bad |= (rv[u] & 16 == 0) & ((rv[u] >> 5) as i32 > c[u] as i32);
                    }
                    if bad {
                        return false;
                    }
                } else if plain(var.r) && !ordered(var.r, &c) {
                    return false;
                }
            }
        }
        self.c[t] = c;
        let e = ep(c[t], true, t);
        let i = if n == 0 {
            0
        } else if let Some(i) = self.free.pop() {
            self.cvs[i as usize] = c;
            self.uses[i as usize] = n as u32;
            i
        } else {
            self.cvs.push(c);
            self.uses.push(n as u32);
            self.cvs.len() as u32 - 1
        };
        for (k, &x) in all.iter().enumerate() {
            let var = &mut self.x[x as usize];
            let old = std::mem::replace(&mut var.cv, i) as usize;
            var.ce = e;
            if wm >> k & 1 == 1 {
                var.w = e;
                var.r = 0;
            } else {
                self.put_read(t, x as usize, true);
            }
            if old != 0 {
                self.uses[old] -= 1;
                if self.uses[old] == 0 {
                    self.free.push(old as u32);
                }
            }
        }
        self.c[t][t] += 1;
        true
    }
}

// ---------------------------------------------------------------- text in, text out

pub struct Rd<'a> {
    pub b: &'a [u8],
    pub i: usize,
    pub line: u32,
}
impl<'a> Rd<'a> {
    /// Next word of the current line, or None at its end (comment, line feed or end of text).
    #[inline]
    pub fn word(&mut self) -> Option<&'a [u8]> {
        let b = self.b;
        let mut i = self.i;
        while i < b.len() && (b[i] == b' ' || b[i] == b'\t' || b[i] == b'\r') {
            i += 1;
        }
        let s = i;
        while i < b.len() && b[i] > b' ' && b[i] != b'#' {
            i += 1;
        }
        self.i = i;
        if s == i { None } else { Some(&b[s..i]) }
    }
    #[inline]
    pub fn num(&mut self) -> usize {
        num(self.word().unwrap_or(b"0"))
    }
    /// Skips the rest of the line with its line feed.
    #[inline]
    pub fn skip(&mut self) {
        let b = self.b;
        let mut i = self.i;
        while i < b.len() && b[i] != b'\n' {
            i += 1;
        }
        self.i = i + 1;
    }
}
#[inline]
pub fn num(w: &[u8]) -> usize {
    let mut n = 0;
    for &c in w {
        n = n * 10 + (c & 15) as usize;
    }
    n
}
#[inline]
pub fn ids<'a>(w: &[u8], out: &'a mut [u16; 16]) -> &'a [u16] {
    if w == b"-" {
        return &out[..0];
    }
    let (mut k, mut n) = (0, 0u16);
    for &c in w {
        if c == b',' {
            out[k] = n;
            k += 1;
            n = 0;
        } else {
            n = n * 10 + (c & 15) as u16;
        }
    }
    out[k] = n;
    &out[..k + 1]
}
#[inline]
pub fn verdict(out: &mut Vec<u8>, line: u32, ok: bool) {
    let mut d = [0u8; 10];
    let mut k = 10;
    let mut n = line;
    loop {
        k -= 1;
        d[k] = b'0' + (n % 10) as u8;
        n /= 10;
        if n == 0 {
            break;
        }
    }
    out.extend_from_slice(&d[k..]);
    out.extend_from_slice(if ok { b" ok\n" } else { b" race\n" });
}

pub fn check(text: &[u8]) -> (Vec<u8>, u32) {
    pass::<true>(text)
}
/// JUDGE false: reads the text and writes `ok` everywhere, without a detector (the text's own cost).
fn pass<const JUDGE: bool>(text: &[u8]) -> (Vec<u8>, u32) {
    let mut out = Vec::with_capacity(text.len());
    let mut s = Ft::new();
    let mut races = 0;
    let mut r = Rd { b: text, i: 0, line: 0 };
    while r.i < text.len() {
        r.line += 1;
        if let Some(first) = r.word() {
            let t = num(first);
            let op = r.word().unwrap_or(b"");
            let ok = match op {
                b"rd" => {
                    let x = r.num();
                    Some(if JUDGE { s.read(t, x) } else { x < NV })
                }
                b"wr" => {
                    let x = r.num();
                    Some(if JUDGE { s.write(t, x) } else { x < NV })
                }
                b"commit" => {
                    let (mut a, mut b) = ([0; 16], [0; 16]);
                    r.word();
                    let rs = ids(r.word().unwrap_or(b"-"), &mut a);
                    r.word();
                    let ws = ids(r.word().unwrap_or(b"-"), &mut b);
                    Some(if JUDGE { s.commit(t, rs, ws) } else { *std::hint::black_box(&(rs, ws)) != (&[5000], &[]) })
                }
                _ => {
                    let k = r.num();
                    if JUDGE {
                        match op {
                            b"acq" => s.acq(t, k),
                            b"rel" => s.rel(t, k),
                            b"vr" => s.vr(t, k),
                            b"vw" => s.vw(t, k),
                            b"fork" => s.fork(t, k),
                            b"join" => s.join(t, k),
                            _ => {}
                        }
                    } else {
                        std::hint::black_box(k);
                    }
                    None
                }
            };
            if let Some(ok) = ok {
                verdict(&mut out, r.line, ok);
                races += !ok as u32;
            }
        }
        r.skip();
    }
    out.extend_from_slice(format!("races {races}\n").as_bytes());
    (out, races)
}

/// Shared by both baselines: reads stdin, runs `check`, writes, ends with the status.
pub fn drive(check: fn(&[u8]) -> (Vec<u8>, u32)) -> ! {
    let args: Vec<String> = std::env::args().collect();
    let mut text = Vec::new();
    std::io::stdin().read_to_end(&mut text).unwrap();
    if args.len() == 3 && (args[1] == "--repeat" || args[1] == "--text") {
        let n: usize = args[2].parse().unwrap();
        let check = if args[1] == "--text" { pass::<false> } else { check };
        let mut ns: Vec<u128> = (0..n.max(1))
            .map(|_| {
                let at = std::time::Instant::now();
                std::hint::black_box(check(std::hint::black_box(&text)));
                at.elapsed().as_nanos()
            })
            .collect();
        ns.sort();
        eprintln!("pass_ns {} {}", ns[0], ns[ns.len() / 2]);
    }
    let (out, races) = check(&text);
    std::io::stdout().write_all(&out).unwrap();
    std::process::exit(if races > 0 { 6 } else { 0 })
}

#[allow(dead_code)]
fn main() {
    drive(check)
}
