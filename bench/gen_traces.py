#!/usr/bin/env python3
"""Well-formed goldi traces, family by family, up to the limits (16,384 lines, 1,048,576 bytes,
16 threads, 256 monitors, 256 volatiles, 1,024 variables). Deterministic.

  gen_traces.py --list
  gen_traces.py OUTDIR [--lines N] [--only NAME]...     writes OUTDIR/NAME.trace
  gen_traces.py --random SEED [--lines N]               a small mixed random trace on stdout
"""
import argparse, os, random, sys

LINES, BYTES, T, MON, VOL, VAR = 16384, 1048576, 16, 256, 256, 1024


class Trace:
    """Keeps the state that well-formedness needs, and refuses to go past a limit."""

    def __init__(self, lines=LINES):
        self.out, self.size, self.max = [], 0, min(lines, LINES)
        self.owner = {}
        self.running, self.forked = {0}, {0}

    def room(self, n=1, size=None):
        return len(self.out) + n <= self.max and self.size + (size if size is not None else 24 * n) <= BYTES

    def put(self, t, *w):
        assert t in self.running, (t, w)
        op = w[0]
        if op == "acq":
            o = self.owner.get(w[1])
            assert o is None or o[0] == t
            self.owner[w[1]] = (t, (o[1] if o else 0) + 1)
        elif op == "rel":
            o = self.owner[w[1]]
            assert o[0] == t
            if o[1] == 1:
                del self.owner[w[1]]
            else:
                self.owner[w[1]] = (t, o[1] - 1)
        elif op == "fork":
            assert w[1] not in self.forked
            self.forked.add(w[1])
            self.running.add(w[1])
        elif op == "join":
            assert w[1] != t and w[1] in self.forked
            self.running.discard(w[1])
        s = f"{t} " + " ".join(map(str, w))
        self.size += len(s) + 1
        self.out.append(s)
        assert len(self.out) <= LINES and self.size <= BYTES

    def commit(self, t, rs, ws):
        f = lambda s: ",".join(map(str, sorted(s))) if s else "-"
        assert len(set(rs) | set(ws)) <= 16
        self.put(t, "commit", "r", f(set(rs)), "w", f(set(ws)))

    def forks(self, n=T - 1):
        for u in range(1, n + 1):
            self.put(0, "fork", u)

    def text(self):
        return "".join(l + "\n" for l in self.out)


FAMILIES = {}


def family(f):
    FAMILIES[f.__name__] = f
    return f


@family
def local(tr, r):
    """each thread on variables of its own: same-thread short cut, same-epoch path"""
    tr.forks()
    while tr.room():
        t = r.randrange(T)
        tr.put(t, r.choice(["rd", "rd", "wr"]), t * 64 + r.randrange(64))


@family
def locked(tr, r):
    """256 counters, each under its monitor, 16 threads"""
    tr.forks()
    while tr.room(4):
        t, m = r.randrange(T), r.randrange(MON)
        tr.put(t, "acq", m)
        tr.put(t, "rd", 4 * m)
        tr.put(t, "wr", 4 * m)
        tr.put(t, "rel", m)


@family
def locked_nested(tr, r):
    """two monitors and one entered twice around each pair of accesses"""
    tr.forks()
    while tr.room(8):
        t = r.randrange(T)
        a, b = sorted(r.sample(range(64), 2))
        x = b * 8 + r.randrange(8)
        for m in (a, b, b):
            tr.put(t, "acq", m)
        tr.put(t, "rd", x)
        tr.put(t, "wr", x)
        for m in (b, b, a):
            tr.put(t, "rel", m)


@family
def transfer(tr, r):
    """a long chain of hand-overs: the guarding monitor changes at every hand-over"""
    tr.forks()
    at = [(x % T, x % MON) for x in range(64)]          # owner thread and hand-over monitor of x
    for x, (t, m) in enumerate(at):
        tr.put(t, "acq", m)
        tr.put(t, "wr", x)
        tr.put(t, "rel", m)
    while tr.room(6):
        x = r.randrange(64)
        t, m = at[x]
        u = r.choice([k for k in range(T) if k != t])
        n = r.choice([k for k in range(MON) if k != m])
        tr.put(u, "acq", m)
        tr.put(u, "acq", n)
        tr.put(u, "rel", m)
        tr.put(u, "wr", x)
        tr.put(u, "rd", x)
        tr.put(u, "rel", n)
        at[x] = (u, n)


@family
def readers(tr, r):
    """one writer, fifteen readers of each variable, handed on by volatiles both ways"""
    tr.forks()
    while tr.room(16 + 16 * 17 + 16):
        xs = r.sample(range(VAR), 16)
        for x in xs:
            tr.put(0, "wr", x)
        tr.put(0, "vw", 0)
        for u in range(1, T):
            tr.put(u, "vr", 0)
            for x in xs:
                tr.put(u, "rd", x)
            tr.put(u, "vw", u)
        for u in range(1, T):
            tr.put(0, "vr", u)


@family
def volatiles(tr, r):
    """eight pairs of threads, ping-pong over two volatiles each, four words of data"""
    tr.forks()
    while tr.room(12):
        p = r.randrange(8)
        a, b, x = 2 * p, 2 * p + 1, 16 * p
        for k in range(2):
            tr.put(a, "wr", x + k)
        tr.put(a, "vw", 2 * p)
        tr.put(b, "vr", 2 * p)
        for k in range(2):
            tr.put(b, "rd", x + k)
        for k in range(2):
            tr.put(b, "wr", x + k)
        tr.put(b, "vw", 2 * p + 1)
        tr.put(a, "vr", 2 * p + 1)
        for k in range(2):
            tr.put(a, "rd", x + k)


@family
def commits_small(tr, r):
    """bank-like: transactions of two neighbouring variables, 16 threads"""
    tr.forks()
    while tr.room(1, 40):
        t = r.randrange(T)
        i = r.randrange(64)
        s = {i, (i + 1) % 64}
        tr.commit(t, s, s)


@family
def commits_wide(tr, r):
    """transactions of up to 16 variables out of 1,024"""
    tr.forks()
    while tr.room(1, 130):
        xs = r.sample(range(VAR), r.randint(1, 16))
        k = r.randint(0, len(xs))
        tr.commit(r.randrange(T), xs[:k], xs[k:])


@family
def commits_mixed(tr, r):
    """objects made privately, published and taken back by transactions, then used plainly"""
    tr.forks()
    owner = {x: x % T for x in range(256)}              # data word x, its owner; 512 + x is its mailbox
    for x in range(256):
        tr.put(owner[x], "wr", x)
    while tr.room(6, 200):
        x = r.randrange(256)
        t, u = owner[x], r.randrange(T)
        tr.put(t, "wr", x)
        tr.commit(t, [], [512 + x, 768 + r.randrange(256)])
        tr.commit(u, [512 + x], [512 + x])
        tr.put(u, "rd", x)
        tr.put(u, "wr", x)
        owner[x] = u


@family
def race_heavy(tr, r):
    """16 threads, four variables, hardly any order: most accesses are refused"""
    tr.forks()
    while tr.room(2):
        t = r.randrange(T)
        if r.random() < 0.02:
            m = r.randrange(4)
            tr.put(t, "acq", m)
            tr.put(t, "rel", m)
        else:
            tr.put(t, r.choice(["rd", "wr"]), r.randrange(4))


@family
def mixed(tr, r):
    """every form, mostly disciplined, some races"""
    random_body(tr, r, threads=T, mons=32, vols=16, vars_=256, wild=0.03)


@family
def sync_only(tr, r):
    """monitor events and no access at all: what a list of events costs by itself"""
    tr.forks()
    while tr.room(2):
        t, m = r.randrange(T), r.randrange(MON)
        tr.put(t, "acq", m)
        tr.put(t, "rel", m)


def filler(tr, n, threads, mons):
    """n events of other threads on other monitors, a chain among themselves"""
    k = 0
    while n - 2 * k >= 2:
        t, m = threads[k % len(threads)], mons[k % len(mons)]
        tr.put(t, "acq", m)
        tr.put(t, "rel", m)
        k += 1


@family
def gap_chain(tr, r):
    """WORST: 1,000 words written by 0; a long window; order comes last, over a third thread; then read by 1.
    Each check is a first walk over the whole window, and neither short cut helps."""
    tr.forks()
    n = min(VAR - 24, tr.max // 8)
    for x in range(n):
        tr.put(0, "wr", x)
    filler(tr, tr.max - len(tr.out) - n - 8, list(range(3, T)), list(range(8, 64)))
    tr.put(0, "acq", 1)
    tr.put(0, "rel", 1)
    tr.put(2, "acq", 1)
    tr.put(2, "acq", 2)
    tr.put(2, "rel", 2)
    tr.put(2, "rel", 1)
    tr.put(1, "acq", 2)
    tr.put(1, "rel", 2)
    for x in range(n):
        tr.put(1, "rd", x)


@family
def gap_two(tr, r):
    """as gap_chain, but the order comes straight from 0 to 1: the two-threads short cut can see it"""
    tr.forks()
    n = min(VAR - 24, tr.max // 8)
    for x in range(n):
        tr.put(0, "wr", x)
    filler(tr, tr.max - len(tr.out) - n - 4, list(range(2, T)), list(range(8, 64)))
    tr.put(0, "acq", 1)
    tr.put(0, "rel", 1)
    tr.put(1, "acq", 1)
    tr.put(1, "rel", 1)
    for x in range(n):
        tr.put(1, "rd", x)


@family
def gap_race(tr, r):
    """WORST: one write, 8,000 events, then 8,000 refused reads, each over the same window"""
    tr.forks()
    tr.put(0, "wr", 0)
    filler(tr, (tr.max - len(tr.out)) // 2, list(range(2, T)), list(range(8, 64)))
    while tr.room():
        tr.put(1, "rd", 0)


@family
def gap_readers(tr, r):
    """WORST: fifteen readers of one variable; a window of 8,000 events that orders fourteen of them
    with thread 0 at its end; then refused writes by 0, each of which looks at all fifteen"""
    tr.forks()
    for u in range(1, T):
        tr.put(u, "rd", 0)
    filler(tr, (tr.max - len(tr.out)) // 2 - 60, list(range(1, T - 1)), list(range(64, 128)))
    for u in range(1, T - 1):                            # u -> 15's monitor chain -> 0, but not 15 itself
        tr.put(u, "acq", 1)
        tr.put(u, "rel", 1)
    tr.put(0, "acq", 1)
    tr.put(0, "rel", 1)
    while tr.room():
        tr.put(0, "wr", 0)


@family
def gap_readers_ok(tr, r):
    """WORST, race-free: 400 variables with 15 readers each, a long window, then a chain of joins, then written"""
    tr.forks()
    n = min(400, tr.max // 40)
    for u in range(1, T):
        for x in range(n):
            tr.put(u, "rd", x)
    filler(tr, tr.max - len(tr.out) - n - 20, list(range(1, T)), list(range(64, 128)))
    for u in range(1, T - 1):
        tr.put(u + 1, "join", u)
    tr.put(0, "join", T - 1)
    for x in range(n):
        tr.put(0, "wr", x)


@family
def gap_commits(tr, r):
    """WORST for the commit rule: plain words, a window of wide commits of others, one commit that orders, reads"""
    tr.forks()
    n = min(900, tr.max // 16)
    for x in range(n):
        tr.put(0, "wr", x)
    while tr.room(n + 4, 18 * (n + 10) + 90):
        xs = r.sample(range(908, VAR), 16)
        tr.commit(r.randrange(3, T), xs[:8], xs[8:])
    tr.commit(0, [], [900])
    tr.commit(2, [900], [901])
    tr.commit(1, [901], [])
    for x in range(n):
        tr.put(1, "rd", x)


@family
def gap_repeat(tr, r):
    """long gaps again and again: every variable is touched every ~4,000 events by the next thread, in order,
    through one monitor that the whole crowd uses"""
    tr.forks()
    xs = list(range(512))
    who = 0
    while tr.room(2100):
        for x in xs:
            tr.put(who, "wr", x)
        tr.put(who, "acq", 0)
        tr.put(who, "rel", 0)
        nxt = (who + 1) % T
        mid = (who + 7) % T
        filler(tr, 1500, [k for k in range(T) if k not in (who, nxt, mid)], list(range(8, 64)))
        tr.put(mid, "acq", 0)
        tr.put(mid, "acq", 1)
        tr.put(mid, "rel", 1)
        tr.put(mid, "rel", 0)
        tr.put(nxt, "acq", 1)
        tr.put(nxt, "rel", 1)
        who = nxt


def random_body(tr, r, threads=4, mons=3, vols=2, vars_=4, wild=0.3):
    """a mixed random well-formed trace; `wild` is the part of accesses outside of any discipline"""
    while tr.room(4, 300):
        t = r.choice(sorted(tr.running))
        k = r.random()
        rest = [u for u in range(threads) if u not in tr.forked]
        if rest and (len(tr.running) < 2 or k < 0.08):
            tr.put(t, "fork", rest[0] if r.random() < 0.8 else r.choice(rest))
        elif k < 0.085 and len(tr.forked) > 1:
            us = [u for u in tr.forked if u != t and (u not in tr.running or not any(o[0] == u for o in tr.owner.values()))]
            if us and (len(tr.running) > 2 or not rest):
                u = r.choice(us)
                if u != 0 or r.random() < 0.2:
                    tr.put(t, "join", u)
                    if len(tr.running) == 0:
                        return
        elif k < 0.25:
            m = r.randrange(mons)
            if tr.owner.get(m, (t, 0))[0] == t:
                tr.put(t, "acq", m)
        elif k < 0.42:
            ms = [m for m, o in tr.owner.items() if o[0] == t]
            if ms:
                tr.put(t, "rel", r.choice(sorted(ms)))
        elif k < 0.50:
            tr.put(t, r.choice(["vr", "vw"]), r.randrange(vols))
        elif k < 0.60:
            xs = r.sample(range(vars_), r.randint(0, min(4, vars_)))
            ys = r.sample(range(vars_), r.randint(0, min(4, vars_)))
            tr.commit(t, xs, ys)
        elif r.random() < wild:
            tr.put(t, r.choice(["rd", "wr"]), r.randrange(vars_))
        else:
            ms = sorted(m for m, o in tr.owner.items() if o[0] == t)
            if ms:
                m = r.choice(ms)
                xs = [x for x in range(vars_) if x % mons == m]
                if xs:
                    tr.put(t, r.choice(["rd", "wr"]), r.choice(xs))


@family
def slow_refused(tr, r):
    """refused accesses over a long window: words written by 0, wide commits of others, then writes by 1, each of them refused, again and again"""
    tr.forks()
    for x in range(200):
        tr.put(0, "wr", x)
    while tr.room(8000, 8000 * 9 + 90):
        xs = r.sample(range(908, VAR), 16)
        tr.commit(r.randrange(3, T), xs[:8], xs[8:])
    k = 0
    while tr.room():
        tr.put(1, "wr", k % 200)
        k += 1


@family
def slow_readers(tr, r):
    """many readers before a writer: 14 readers of 740 variables, a long window of wide commits, a chain of joins, then written"""
    tr.forks()
    n = 740
    for u in range(1, 15):
        for x in range(n):
            tr.put(u, "rd", x)
    while tr.room(n + 20, 9 * (n + 20) + 100):
        xs = r.sample(range(900, 1000), 16)
        tr.commit(15, xs[:8], xs[8:])
    for u in range(1, 14):
        tr.put(u + 1, "join", u)
    tr.put(0, "join", 14)
    for x in range(n):
        tr.put(0, "wr", x)


@family
def slow_wide(tr, r):
    """wide commits: sixteen variables each, all of which the commits before it have touched"""
    tr.forks()
    while tr.room(1, 100):
        xs = r.sample(range(900, 932), 16)
        tr.commit(r.randrange(T), xs[:4], xs[4:])


@family
def slow_third(tr, r):
    """ordered through a third thread: words handed from 0 to 1 over volatiles of thread 2, and back, with a window of others between"""
    tr.forks()
    while tr.room(360):
        for x in range(100):
            tr.put(0, "wr", x)
        filler(tr, 40, list(range(3, T)), list(range(8, 64)))
        for a, b in ((0, 1), (1, 0)):
            tr.put(a, "vw", a)
            tr.put(2, "vr", a)
            tr.put(2, "vw", 2 + a)
            tr.put(b, "vr", 2 + a)
            for x in range(100):
                tr.put(b, "wr" if b == 1 else "rd", x)


@family
def text_comments(tr, r):
    """a text of comments alone"""
    tr.out = [f"# line {n + 1} says nothing" for n in range(tr.max)]


@family
def text_blanks(tr, r):
    """a text of blanks alone, in lines of 4,000 bytes"""
    tr.out = [" " * 3999] * min(tr.max, BYTES // 4000)


def make(name, lines=LINES):
    tr = Trace(lines)
    FAMILIES[name](tr, random.Random("goldi " + name))
    return tr.text()


def small_random(seed, lines):
    r = random.Random(seed)
    tr = Trace(lines)
    random_body(tr, r, threads=r.randint(2, 6), mons=r.randint(1, 4), vols=r.randint(1, 3),
                vars_=r.randint(1, 6), wild=r.choice([0.05, 0.2, 0.6, 1.0]))
    return tr.text()


def main():
    a = argparse.ArgumentParser()
    a.add_argument("out", nargs="?")
    a.add_argument("--lines", type=int, default=LINES)
    a.add_argument("--only", action="append")
    a.add_argument("--list", action="store_true")
    a.add_argument("--random", type=int)
    o = a.parse_args()
    if o.list:
        for n, f in FAMILIES.items():
            print(f"{n:16} {' '.join((f.__doc__ or '').split())}")
        return
    if o.random is not None:
        sys.stdout.write(small_random(o.random, o.lines))
        return
    if not o.out:
        a.error("OUTDIR is missing")
    os.makedirs(o.out, exist_ok=True)
    for n in o.only or FAMILIES:
        s = make(n, o.lines)
        with open(os.path.join(o.out, n + ".trace"), "w") as f:
            f.write(s)
        print(f"{n:16} {s.count(chr(10)):6} lines {len(s):8} bytes")


if __name__ == "__main__":
    main()
