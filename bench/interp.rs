// A small unverified interpreter for goldi's program text, all on one OS thread: the price of the
// dispatch loop by itself, and of the same loop with a detector in it. `rustc --edition 2021 -O interp.rs` with
// base_ft.rs and base_lazy.rs beside it.
//
//   interp run  [--det none|ft|lazy] [--steps N] [--slice N] [--stats] < prog
//   interp load --size N [--det ...] [--stats]          the bank (eight threads that move money round), without text
//   interp text --size N                                the bank as program text
//   interp p2   --size N                                P2 with N increments each, as program text
//
// Threads run in turn, `--slice` instructions each (default 1,000; 0: one until it ends or blocks),
// so one run is one fixed schedule. The texts that it writes are those of `goldi run` and `goldi load`.
// --stats: instructions, ns, ns per instruction, accesses, events on stderr. --steps 0: no limit.
// It assumes a valid program (names are looked up, nothing else is refused) and no list of events is
// kept for det none and ft; det lazy keeps it for ever.
#[path = "base_ft.rs"]
mod ft;
#[path = "base_lazy.rs"]
mod lazy;

use std::collections::HashMap;
use std::io::Read;

#[derive(Clone, Copy)]
enum I {
    Push(i64), Pop, Dup, Swap, Load(u8), Store(u8), Inc(u8, i64), Add, Sub, Mul, Div, Rem, Neg,
    Eq, Lt, Le, Not, And, Or, Xor, Jump(u16), Jz(u16), Jnz(u16), Call(u8), Ret, Halt, Throw(u8), Nop,
    New(u8), Get(u16), Put(u16), Vget(u16), Vput(u16), Enter, Exit, Fork(u8), Join, SelfId,
    TxBegin, Commit, Print, Input,
}
struct Fun { args: u8, code: Vec<I>, catches: Vec<(u16, u16, u16)> }
struct Prog { classes: Vec<(u16, u16)>, funs: Vec<Fun>, main: usize, inputs: Vec<i64> }

trait Det {
    fn acq(&mut self, _t: usize, _m: usize) {}
    fn rel(&mut self, _t: usize, _m: usize) {}
    fn vr(&mut self, _t: usize, _f: usize) {}
    fn vw(&mut self, _t: usize, _f: usize) {}
    fn fork(&mut self, _t: usize, _u: usize) {}
    fn join(&mut self, _t: usize, _u: usize) {}
    #[inline(always)]
    fn read(&mut self, _t: usize, _x: usize) -> bool { true }
    #[inline(always)]
    fn write(&mut self, _t: usize, _x: usize) -> bool { true }
    #[inline(always)]
    fn commit(&mut self, _t: usize, _r: &[u16], _w: &[u16]) -> bool { true }
}
struct None_;
impl Det for None_ {}
macro_rules! det { ($t:ty) => {
    impl Det for $t {
        #[inline] fn acq(&mut self, t: usize, m: usize) { <$t>::acq(self, t, m) }
        #[inline] fn rel(&mut self, t: usize, m: usize) { <$t>::rel(self, t, m) }
        #[inline] fn vr(&mut self, t: usize, f: usize) { <$t>::vr(self, t, f) }
        #[inline] fn vw(&mut self, t: usize, f: usize) { <$t>::vw(self, t, f) }
        #[inline] fn fork(&mut self, t: usize, u: usize) { <$t>::fork(self, t, u) }
        #[inline] fn join(&mut self, t: usize, u: usize) { <$t>::join(self, t, u) }
        #[inline] fn read(&mut self, t: usize, x: usize) -> bool { <$t>::read(self, t, x) }
        #[inline] fn write(&mut self, t: usize, x: usize) -> bool { <$t>::write(self, t, x) }
        #[inline] fn commit(&mut self, t: usize, r: &[u16], w: &[u16]) -> bool { <$t>::commit(self, t, r, w) }
    }
} }
det!(ft::Ft);
det!(lazy::Lazy);

// Fixed arrays with indices that fit them: no bounds checks in the loop.
struct Frame { s: [i64; 256], l: [i64; 32], sp: u8, pc: u32, f: u16 }
fn frame(f: usize) -> Box<Frame> { Box::new(Frame { s: [0; 256], l: [0; 32], sp: 0, pc: 0, f: f as u16 }) }

#[derive(Clone, Copy)]
struct Word { var: u16, seen: i64, looked: bool, value: i64, written: bool }
struct Tx { depth: usize, s: Vec<i64>, l: [i64; 32], pc: u32, n: usize, w: [Word; 16] }

#[derive(Clone, Copy, PartialEq)]
enum St { Never, Live, Halt, Uncaught(u8), Spent }
struct Th { fr: Vec<Box<Frame>>, st: St, left: u64, tx: Option<Box<Tx>>, pool: Option<Box<Tx>>, races: Vec<(u16, &'static str)> }

struct Vm<'a, D: Det> {
    p: &'a Prog, d: D,
    data: [i64; 1024], vols: [i64; 256], owner: [(u8, u32); 256],
    objs: usize, next_d: usize, next_v: usize, next_in: usize,
    th: Vec<Th>, out: Vec<i64>,
    count: u64, accesses: u64, events: u64, commits: u64,
}
enum Stop { Slice, Blocked, Ended }

impl<'a, D: Det> Vm<'a, D> {
    fn new(p: &'a Prog, d: D, steps: u64) -> Self {
        let th = (0..16).map(|_| Th { fr: vec![], st: St::Never, left: steps, tx: None, pool: None, races: vec![] }).collect();
        let mut v = Vm { p, d, data: [0; 1024], vols: [0; 256], owner: [(255, 0); 256], objs: 0, next_d: 0, next_v: 0,
                         next_in: 0, th, out: vec![], count: 0, accesses: 0, events: 0, commits: 0 };
        v.th[0].st = St::Live;
        v.th[0].fr.push(frame(p.main));
        v
    }
    #[inline(always)]
    fn refer(&self, r: i64) -> Option<(usize, u16, usize, usize, u16)> {
        // (object, data fields, first data, first volatile, volatile fields)
        let n = (r as u64).wrapping_sub(1);
        let (o, c, d, v) = ((n & 255) as usize, (n >> 8 & 255) as usize, (n >> 16 & 0xffff) as usize, (n >> 32) as usize);
        let &(k, w) = self.p.classes.get(c)?;
        if d + k as usize <= 1024 && v + w as usize <= 256 { Some((o, k, d, v, w)) } else { None }
    }
    fn end(&mut self, t: usize, st: St) {
        for m in 0..256 {
            while self.owner[m].0 as usize == t && self.owner[m].1 > 0 {
                self.owner[m].1 -= 1;
                if self.owner[m].1 == 0 { self.owner[m].0 = 255 }
                self.d.rel(t, m);
                self.events += 1;
            }
        }
        self.th[t].st = st;
        self.th[t].fr.clear();
        self.events += 1;
    }
    /// Ends an attempt: 0 done, 1 race, 2 changed (state is back at txbegin).
    fn tx_end(&mut self, t: usize, keep: bool) -> u8 {
        let tx = self.th[t].tx.take().unwrap();
        let mut r = [0u16; 16];
        let mut w = [0u16; 16];
        let (mut a, mut b) = (0, 0);
        let mut words = [(0u16, 0usize); 16];
        for i in 0..tx.n { words[i] = (tx.w[i].var, i) }
        words[..tx.n].sort_unstable();
        for &(var, i) in &words[..tx.n] {
            let e = tx.w[i];
            if e.looked { r[a] = var; a += 1 }
            if e.written && keep { w[b] = var; b += 1 }
            if e.looked && self.data[var as usize & 1023] != e.seen {
                let f = self.th[t].fr.len();
                let th = &mut self.th[t];
                th.fr.truncate(tx.depth);
                let _ = f;
                let fr = th.fr.last_mut().unwrap();
                fr.l = tx.l;
                fr.s[..tx.s.len()].copy_from_slice(&tx.s);
                fr.sp = tx.s.len() as u8;
                fr.pc = tx.pc;
                th.pool = Some(tx);
                return 2;
            }
        }
        if !self.d.commit(t, &r[..a], &w[..b]) {
            let var = if a > 0 && (b == 0 || r[0] < w[0]) { r[0] } else { w[0] }; // the report's variable is not worked out
            self.th[t].races.push((var, "commit"));
            self.th[t].pool = Some(tx);
            return 1;
        }
        if keep {
            for e in &tx.w[..tx.n] { if e.written { self.data[e.var as usize & 1023] = e.value } }
        }
        self.commits += 1;
        self.events += 1;
        self.th[t].pool = Some(tx);
        0
    }
    /// Some(true): caught and goes on; Some(false): restarted at txbegin; None: the thread ended.
    fn raise(&mut self, t: usize, mut code: u8) -> Option<bool> {
        if self.th[t].tx.is_some() {
            match self.tx_end(t, false) { 0 => {} 1 => code = 1, _ => return Some(false) }
        }
        loop {
            let th = &mut self.th[t];
            let Some(fr) = th.fr.last_mut() else { self.end(t, St::Uncaught(code)); return None };
            let at = fr.pc as u16 - 1;
            if let Some(c) = self.p.funs[fr.f as usize].catches.iter().find(|c| c.0 <= at && at < c.1) {
                fr.s[0] = code as i64;
                fr.sp = 1;
                fr.pc = c.2 as u32;
                return Some(true);
            }
            th.fr.pop();
        }
    }
    fn run(&mut self, t: usize, slice: u64) -> Stop {
        let p = self.p;
        let mut fr = self.th[t].fr.pop().unwrap();
        let mut code: &[I] = &p.funs[fr.f as usize].code;
        let mut pc = fr.pc as usize;
        let mut sp = fr.sp;
        let most = slice.min(self.th[t].left);
        let mut done = 0u64;
        macro_rules! push { ($v:expr) => { { let v = $v; fr.s[sp as usize] = v; sp = sp.wrapping_add(1); } } }
        macro_rules! pop { () => { { sp = sp.wrapping_sub(1); fr.s[sp as usize] } } }
        macro_rules! bin { ($f:expr) => { { let b = pop!(); let a = pop!(); push!($f(a, b)) } } }
        macro_rules! out { ($s:expr) => { { { fr.pc = pc as u32; fr.sp = sp; self.th[t].fr.push(fr) }; self.count += done; self.th[t].left -= done; return $s; } } }
        macro_rules! raise { ($c:expr) => { {
            { fr.pc = pc as u32; fr.sp = sp; self.th[t].fr.push(fr) };
            match self.raise(t, $c) {
                None => { self.count += done; return Stop::Ended }
                Some(_) => { fr = self.th[t].fr.pop().unwrap(); code = &p.funs[fr.f as usize].code; pc = fr.pc as usize; sp = fr.sp; continue }
            }
        } } }
        macro_rules! obj { ($r:expr, $k:expr, $vol:expr) => { match self.refer($r) {
            None => raise!(2),
            Some((o, k, d, v, w)) => {
                if !$vol && $k >= k || $vol && $k >= w { raise!(3) }
                (o, (d + $k as usize) & 1023, (v + $k as usize) & 255)
            }
        } } }
        loop {
            if done == most {
                if done < self.th[t].left { out!(Stop::Slice) }
                { fr.pc = pc as u32; fr.sp = sp; self.th[t].fr.push(fr) };
                self.count += done;
                self.th[t].left = 0;
                if self.th[t].tx.is_some() { self.tx_end(t, false); }
                self.end(t, St::Spent);
                return Stop::Ended;
            }
            done += 1;
            let i = code[pc];
            pc += 1;
            match i {
                I::Push(n) => push!(n),
                I::Pop => { pop!(); }
                I::Dup => { let a = pop!(); push!(a); push!(a) }
                I::Swap => { let b = pop!(); let a = pop!(); push!(b); push!(a) }
                I::Load(k) => push!(fr.l[k as usize & 31]),
                I::Store(k) => { let a = pop!(); fr.l[k as usize & 31] = a }
                I::Inc(k, n) => { let c = &mut fr.l[k as usize & 31]; *c = c.wrapping_add(n) }
                I::Add => bin!(|a: i64, b: i64| a.wrapping_add(b)),
                I::Sub => bin!(|a: i64, b: i64| a.wrapping_sub(b)),
                I::Mul => bin!(|a: i64, b: i64| a.wrapping_mul(b)),
                I::Div => { let b = pop!(); let a = pop!(); if b == 0 { raise!(4) } push!(a.wrapping_div(b)) }
                I::Rem => { let b = pop!(); let a = pop!(); if b == 0 { raise!(4) } push!(a.wrapping_rem(b)) }
                I::Neg => { let a = pop!(); push!(a.wrapping_neg()) }
                I::Eq => bin!(|a, b| (a == b) as i64),
                I::Lt => bin!(|a, b| (a < b) as i64),
                I::Le => bin!(|a, b| (a <= b) as i64),
                I::Not => { let a = pop!(); push!((a == 0) as i64) }
                I::And => bin!(|a, b| a & b),
                I::Or => bin!(|a, b| a | b),
                I::Xor => bin!(|a, b| a ^ b),
                I::Jump(l) => pc = l as usize,
                I::Jz(l) => if pop!() == 0 { pc = l as usize },
                I::Jnz(l) => if pop!() != 0 { pc = l as usize },
                I::Call(f) => {
                    if self.th[t].fr.len() + 1 >= 64 { raise!(12) }
                    let mut n = frame(f as usize);
                    for k in (0..p.funs[f as usize].args as usize).rev() { n.l[k & 31] = pop!() }
                    { fr.pc = pc as u32; fr.sp = sp; self.th[t].fr.push(fr) };
                    fr = n;
                    code = &p.funs[f as usize].code;
                    pc = 0;
                    sp = 0;
                }
                I::Ret => {
                    let a = pop!();
                    if let Some(tx) = &self.th[t].tx { if tx.depth == self.th[t].fr.len() + 1 { raise!(10) } }
                    match self.th[t].fr.pop() {
                        Some(up) => { fr = up; code = &p.funs[fr.f as usize].code; pc = fr.pc as usize; sp = fr.sp; push!(a) }
                        None => { self.count += done; self.th[t].left -= done; self.end(t, St::Halt); return Stop::Ended }
                    }
                }
                I::Halt => {
                    if self.th[t].tx.is_some() { raise!(10) }
                    self.count += done;
                    self.th[t].left -= done;
                    self.end(t, St::Halt);
                    return Stop::Ended;
                }
                I::Throw(k) => raise!(k),
                I::Nop => {}
                I::Get(k) => {
                    let r = pop!();
                    let (_, x, _) = obj!(r, k, false);
                    if self.th[t].tx.is_some() {
                        let tx = self.th[t].tx.as_mut().unwrap();
                        if let Some(e) = tx.w[..tx.n].iter().find(|e| e.var as usize == x) {
                            push!(if e.written { e.value } else { e.seen })
                        } else if tx.n == 16 { raise!(9) }
                        else {
                            let v = self.data[x];
                            tx.w[tx.n & 15] = Word { var: x as u16, seen: v, looked: true, value: 0, written: false };
                            tx.n += 1;
                            self.accesses += 1;
                            push!(v)
                        }
                    } else {
                        self.accesses += 1;
                        if !self.d.read(t, x) { self.th[t].races.push((x as u16, "read")); raise!(1) }
                        push!(self.data[x])
                    }
                }
                I::Put(k) => {
                    let a = pop!();
                    let r = pop!();
                    let (_, x, _) = obj!(r, k, false);
                    if self.th[t].tx.is_some() {
                        let tx = self.th[t].tx.as_mut().unwrap();
                        if let Some(e) = tx.w[..tx.n].iter_mut().find(|e| e.var as usize == x) { e.value = a; e.written = true }
                        else if tx.n == 16 { raise!(9) }
                        else {
                            tx.w[tx.n & 15] = Word { var: x as u16, seen: 0, looked: false, value: a, written: true };
                            tx.n += 1;
                            self.accesses += 1;
                        }
                    } else {
                        self.accesses += 1;
                        if !self.d.write(t, x) { self.th[t].races.push((x as u16, "write")); raise!(1) }
                        self.data[x] = a
                    }
                }
                I::TxBegin => {
                    if self.th[t].tx.is_some() { raise!(10) }
                    let depth = self.th[t].fr.len() + 1;
                    let mut tx = self.th[t].pool.take().unwrap_or_else(|| Box::new(Tx { depth: 0, s: vec![], l: [0; 32], pc: 0, n: 0,
                        w: [Word { var: 0, seen: 0, looked: false, value: 0, written: false }; 16] }));
                    tx.depth = depth;
                    tx.s.clear();
                    tx.s.extend_from_slice(&fr.s[..sp as usize]);
                    tx.l = fr.l;
                    tx.pc = pc as u32 - 1;
                    tx.n = 0;
                    self.th[t].tx = Some(tx);
                }
                I::Commit => {
                    if self.th[t].tx.is_none() { raise!(10) }
                    { fr.pc = pc as u32; fr.sp = sp; self.th[t].fr.push(fr) };
                    let k = self.tx_end(t, true);
                    fr = self.th[t].fr.pop().unwrap();
                    code = &p.funs[fr.f as usize].code;
                    pc = fr.pc as usize;
                    sp = fr.sp;
                    if k == 1 { raise!(1) }
                }
                _ if self.th[t].tx.is_some() => raise!(10), // the other instructions marked T
                I::New(c) => {
                    let (k, w) = p.classes[c as usize];
                    if self.objs == 256 || self.next_d + k as usize > 1024 || self.next_v + w as usize > 256 { raise!(6) }
                    push!(1 + self.objs as i64 + ((c as i64) << 8) + ((self.next_d as i64) << 16) + ((self.next_v as i64) << 32));
                    self.objs += 1;
                    self.next_d += k as usize;
                    self.next_v += w as usize;
                    self.events += 1;
                }
                I::Vget(k) => {
                    let r = pop!();
                    let (_, _, v) = obj!(r, k, true);
                    self.d.vr(t, v);
                    self.events += 1;
                    push!(self.vols[v])
                }
                I::Vput(k) => {
                    let a = pop!();
                    let r = pop!();
                    let (_, _, v) = obj!(r, k, true);
                    self.d.vw(t, v);
                    self.events += 1;
                    self.vols[v] = a
                }
                I::Enter => {
                    let r = fr.s[sp.wrapping_sub(1) as usize];
                    let (m, _, _) = match self.refer(r) { None => raise!(2), Some((o, ..)) => (o, 0, 0) };
                    let o = self.owner[m];
                    if o.1 != 0 && o.0 as usize != t {
                        pc -= 1;
                        done -= 1;
                        out!(Stop::Blocked)
                    }
                    pop!();
                    self.owner[m] = (t as u8, o.1 + 1);
                    self.d.acq(t, m);
                    self.events += 1;
                }
                I::Exit => {
                    let r = pop!();
                    let m = match self.refer(r) { None => raise!(2), Some((o, ..)) => o };
                    let o = &mut self.owner[m];
                    if o.1 == 0 || o.0 as usize != t { raise!(5) }
                    o.1 -= 1;
                    if o.1 == 0 { o.0 = 255 }
                    self.d.rel(t, m);
                    self.events += 1;
                }
                I::Fork(f) => {
                    let a = pop!();
                    let Some(u) = (1..16).find(|&u| self.th[u].st == St::Never) else { raise!(7) };
                    let mut n = frame(f as usize);
                    n.l[0] = a;
                    self.th[u].fr.push(n);
                    self.th[u].st = St::Live;
                    self.d.fork(t, u);
                    self.events += 2;
                    push!(u as i64)
                }
                I::Join => {
                    let u = fr.s[sp.wrapping_sub(1) as usize];
                    if !(0..16).contains(&u) || u as usize == t || self.th[u as usize].st == St::Never { pop!(); raise!(11) }
                    if self.th[u as usize].st == St::Live {
                        pc -= 1;
                        done -= 1;
                        out!(Stop::Blocked)
                    }
                    pop!();
                    self.d.join(t, u as usize);
                    self.events += 1;
                }
                I::SelfId => push!(t as i64),
                I::Print => { let a = pop!(); self.out.push(a); self.events += 1 }
                I::Input => match p.inputs.get(self.next_in) {
                    None => raise!(8),
                    Some(&v) => { self.next_in += 1; self.events += 1; push!(v) }
                },
            }
        }
    }
    fn all(&mut self, slice: u64) {
        loop {
            let (mut live, mut moved) = (false, false);
            for t in 0..16 {
                if self.th[t].st == St::Live {
                    live = true;
                    let before = self.count;
                    let s = self.run(t, if slice == 0 { u64::MAX } else { slice });
                    moved |= !matches!(s, Stop::Blocked) || self.count != before;
                }
            }
            if !live { return }
            if !moved { eprintln!("deadlock"); std::process::exit(99) }
        }
    }
}

fn parse(text: &str) -> Prog {
    let mut p = Prog { classes: vec![], funs: vec![], main: 0, inputs: vec![] };
    let mut cn: HashMap<&str, usize> = HashMap::new();
    let mut fnm: HashMap<&str, usize> = HashMap::new();
    let mut bodies: Vec<Vec<Vec<&str>>> = vec![];
    for l in text.lines() {
        let w: Vec<&str> = l.split('#').next().unwrap().split_ascii_whitespace().collect();
        if w.is_empty() { continue }
        match w[0] {
            "class" => { cn.insert(w[1], p.classes.len()); p.classes.push((w[2].parse().unwrap(), w[3].parse().unwrap())) }
            "func" => {
                if w[1] == "main" { p.main = p.funs.len() }
                fnm.insert(w[1], p.funs.len());
                p.funs.push(Fun { args: w[2].parse().unwrap(), code: vec![], catches: vec![] });
                bodies.push(vec![]);
            }
            "input" => if bodies.is_empty() || w.len() > 1 { p.inputs.extend(w[1..].iter().map(|x| x.parse::<i64>().unwrap())) }
                       else { bodies.last_mut().unwrap().push(w) },
            _ => bodies.last_mut().unwrap().push(w),
        }
    }
    for (f, body) in bodies.iter().enumerate() {
        let mut lab: HashMap<&str, u16> = HashMap::new();
        let mut n = 0u16;
        for w in body {
            if w.len() == 1 && w[0].ends_with(':') { lab.insert(&w[0][..w[0].len() - 1], n); } else if w[0] != "catch" { n += 1 }
        }
        for w in body {
            if w.len() == 1 && w[0].ends_with(':') { continue }
            if w[0] == "catch" { p.funs[f].catches.push((lab[w[1]], lab[w[2]], lab[w[3]])); continue }
            let k = |i: usize| w[i].parse::<i64>().unwrap();
            let i = match w[0] {
                "push" => I::Push(k(1)), "pop" => I::Pop, "dup" => I::Dup, "swap" => I::Swap, "load" => I::Load(k(1) as u8),
                "store" => I::Store(k(1) as u8), "inc" => I::Inc(k(1) as u8, k(2)), "add" => I::Add, "sub" => I::Sub,
                "mul" => I::Mul, "div" => I::Div, "rem" => I::Rem, "neg" => I::Neg, "eq" => I::Eq, "lt" => I::Lt, "le" => I::Le,
                "not" => I::Not, "and" => I::And, "or" => I::Or, "xor" => I::Xor, "jump" => I::Jump(lab[w[1]]),
                "jz" => I::Jz(lab[w[1]]), "jnz" => I::Jnz(lab[w[1]]), "call" => I::Call(fnm[w[1]] as u8), "ret" => I::Ret,
                "halt" => I::Halt, "throw" => I::Throw(k(1) as u8), "nop" => I::Nop, "new" => I::New(cn[w[1]] as u8),
                "get" => I::Get(k(1) as u16), "put" => I::Put(k(1) as u16), "vget" => I::Vget(k(1) as u16),
                "vput" => I::Vput(k(1) as u16), "enter" => I::Enter, "exit" => I::Exit, "fork" => I::Fork(fnm[w[1]] as u8),
                "join" => I::Join, "self" => I::SelfId, "txbegin" => I::TxBegin, "commit" => I::Commit, "print" => I::Print,
                "input" => I::Input, x => panic!("instruction {x}"),
            };
            p.funs[f].code.push(i);
        }
    }
    p
}

fn bank(n: u64) -> String {
    let mut s = String::from("class Bank 8 0\nfunc main 0 9\n  new Bank\n  store 0\n");
    for k in 0..8 { s += &format!("  load 0\n  push 1000\n  put {k}\n") }
    for k in 0..8 { s += &format!("  load 0\n  fork w{k}\n  store {}\n", k + 1) }
    for k in 1..9 { s += &format!("  load {k}\n  join\n") }
    s += "  load 0\n  get 0\n";
    for k in 1..8 { s += &format!("  load 0\n  get {k}\n  add\n") }
    s += "  print\n  halt\n";
    for i in 0..8 {
        let j = (i + 1) % 8;
        s += &format!("func w{i} 1 2\n  push {n}\n  store 1\na:\n  txbegin\n  load 0\n  load 0\n  get {i}\n  push 1\n  sub\n  put {i}\n  load 0\n  load 0\n  get {j}\n  push 1\n  add\n  put {j}\n  commit\n  inc 1 -1\n  load 1\n  jnz a\n  push 0\n  ret\n");
    }
    s
}
fn p2(n: u64) -> String {
    format!("class C 1 0\nfunc main 0 3\n  new C\n  store 0\n  load 0\n  fork w\n  store 1\n  load 0\n  fork w\n  store 2\n  load 1\n  join\n  load 2\n  join\n  load 0\n  get 0\n  print\n  halt\nfunc w 1 2\n  push {n}\n  store 1\na:\n  load 0\n  enter\n  load 0\n  load 0\n  get 0\n  push 1\n  add\n  put 0\n  load 0\n  exit\n  inc 1 -1\n  load 1\n  jnz a\n  push 0\n  ret\n")
}

fn go<D: Det>(p: &Prog, d: D, steps: u64, slice: u64, stats: bool, load: bool) -> i32 {
    let mut v = Vm::new(p, d, if steps == 0 { u64::MAX } else { steps });
    let at = std::time::Instant::now();
    v.all(slice);
    let ns = at.elapsed().as_nanos() as f64;
    let mut s = String::new();
    let races: usize = v.th.iter().map(|t| t.races.len()).sum();
    if load {
        s += &format!("total {}\ncommits {}\n", v.out.last().unwrap_or(&0), v.commits);
    } else {
        for o in &v.out { s += &format!("out {o}\n") }
        for (t, th) in v.th.iter().enumerate() { for r in &th.races { s += &format!("race {t} {} {}\n", r.0, r.1) } }
        for (t, th) in v.th.iter().enumerate() {
            match th.st {
                St::Halt => s += &format!("end {t} halt\n"),
                St::Spent => s += &format!("end {t} spent\n"),
                St::Uncaught(k) => s += &format!("end {t} uncaught {k}\n"),
                _ => {}
            }
        }
    }
    print!("{s}races {races}\n");
    if stats { eprintln!("instrs {} ns {} per_instr {:.2} accesses {} events {}", v.count, ns, ns / v.count as f64, v.accesses, v.events) }
    if races > 0 { 6 } else if v.th.iter().any(|t| t.st != St::Halt && t.st != St::Never) { 7 } else { 0 }
}

fn main() {
    let a: Vec<String> = std::env::args().collect();
    let opt = |n: &str| a.iter().position(|x| x == n).and_then(|i| a.get(i + 1)).cloned();
    let size: u64 = opt("--size").map_or(1000, |x| x.parse().unwrap());
    let cmd = a.get(1).map_or("", |x| x.as_str());
    let text = match cmd {
        "text" => { print!("{}", bank(size)); return }
        "p2" => { print!("{}", p2(size)); return }
        "load" => bank(size),
        "run" => { let mut s = String::new(); std::io::stdin().read_to_string(&mut s).unwrap(); s }
        _ => { eprintln!("usage: interp run|load|text|p2"); std::process::exit(1) }
    };
    let p = parse(&text);
    let steps = opt("--steps").map_or(if cmd == "load" { 1_000_000 } else { 200_000 }, |x| x.parse().unwrap());
    let slice = opt("--slice").map_or(1000, |x| x.parse().unwrap());
    let stats = a.iter().any(|x| x == "--stats");
    let det = opt("--det").unwrap_or("none".into());
    let load = cmd == "load";
    std::process::exit(match det.as_str() {
        "ft" => go(&p, ft::Ft::new(), steps, slice, stats, load),
        "lazy" => go(&p, lazy::Lazy::new(), steps, slice, stats, load),
        _ => go(&p, None_, steps, slice, stats, load),
    })
}
