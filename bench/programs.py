#!/usr/bin/env python3
"""Times `goldi run` beside an unverified interpreter of the same programs, and prints ratios.

  programs.py OUT [--goldi PROGRAM] [--rounds N] [--repeats N] [--only NAME]... [--markdown]

`none`, `ft` and `lazy` are `interp` (one thread for all, one fixed schedule) without a detector, with epochs, and with
locksets; `w1`, `w2`, `w4` are goldi with so many workers. Each round runs each side some times, one side after the
other. What is written is compared with the interpreter's before anything is timed: a side that differs is marked.
`net` has each side's time for a program of three instructions taken off.
"""
import argparse, os, subprocess, sys

from compare import program, timed

LOOP = """class C 1 0
func main 0 2
  new C
  store 0
  push {n}
  store 1
a:
  load 0
  load 0
  get 0
  push 1
  add
  put 0
  inc 1 -1
  load 1
  jnz a
  load 0
  get 0
  print
  halt
"""

MONITORS = """class C 0 0
func main 0 2
  new C
  store 0
  push {n}
  store 1
a:
  load 0
  enter
  load 0
  exit
  inc 1 -1
  load 1
  jnz a
  halt
"""

SPIN = """func main 0 1
  push {n}
  store 0
a:
  inc 0 -1
  load 0
  jnz a
  halt
"""

EMPTY = "func main 0 0\n  push 5\n  print\n  halt\n"


def made(interp, *words):
    return subprocess.run([interp, *words], stdout=subprocess.PIPE, text=True, check=True).stdout


def jobs(interp):
    steps = ["--steps", "1000000"]
    return [
        ("start-up", EMPTY, []),
        ("two threads, 1,000 additions each under a monitor", made(interp, "p2", "--size", "1000"), []),
        ("two threads, 70,000 additions each under a monitor", made(interp, "p2", "--size", "70000"), steps),
        ("reads and writes of one field, 100,000 of each", LOOP.format(n=100000), steps),
        ("a monitor, 100,000 times", MONITORS.format(n=100000), steps),
        ("a loop without an access, 900,000 instructions", SPIN.format(n=299000), steps),
        ("the bank, 1,000 transfers a thread", made(interp, "text", "--size", "1000"), steps),
        ("the bank, 10,000 transfers a thread", made(interp, "text", "--size", "10000"), steps),
    ]


def written(command, infile):
    with open(infile, "rb") as given:
        done = subprocess.run(command, stdin=given, capture_output=True)
    return done.returncode, done.stdout


def main():
    a = argparse.ArgumentParser()
    a.add_argument("out")
    a.add_argument("--goldi")
    a.add_argument("--rounds", type=int, default=2)
    a.add_argument("--repeats", type=int, default=3)
    a.add_argument("--only", action="append")
    a.add_argument("--markdown", action="store_true")
    o = a.parse_args()
    goldi = o.goldi or program()
    interp, timer = os.path.join(o.out, "interp"), os.path.join(o.out, "timer")
    rows, empty = [], {}
    for name, text, options in jobs(interp):
        if o.only and name != "start-up" and not any(word in name for word in o.only):
            continue
        infile = os.path.join(o.out, "program.txt")
        with open(infile, "w") as f:
            f.write(text)
        sides = {det: [interp, "run", *options, "--det", det] for det in ("none", "ft", "lazy")}
        for workers in (1, 2, 4):
            sides[f"w{workers}"] = [goldi, "run", *options, "--workers", str(workers)]
        wanted = written(sides["none"], infile)
        same = {side: written(command, infile) == wanted for side, command in sides.items()}
        best = {side: {"least": 1e9, "memory": 0} for side in sides}
        for _ in range(o.rounds):
            for side, command in sides.items():
                one = timed(timer, command, infile, o.repeats, 60)
                best[side]["least"] = min(best[side]["least"], one["least"])
                best[side]["memory"] = max(best[side]["memory"], one["memory"])
        if not empty:
            empty = {side: best[side]["least"] for side in sides}

        def net(side):
            return best[side]["least"] - empty[side]

        def ratio(a, b):
            return f"{net(a) / net(b):.1f}" if net(b) > 0.2 else "-"

        rows.append([name] + [f"{best[s]['least']:.1f}" for s in sides] + [ratio("w1", "none"), ratio("w1", "ft"), ratio("w1", "lazy"), ratio("w1", "w4"),
                    str(best["w1"]["memory"] // 1024), "yes" if all(same.values()) else "no: " + " ".join(s for s in same if not same[s])])
    heads = ["program", "none ms", "ft ms", "lazy ms", "w1 ms", "w2 ms", "w4 ms", "net, w1/none", "net, w1/ft", "net, w1/lazy", "net, w1/w4", "w1 MB", "same output"]
    bar = " | " if o.markdown else "  "
    edge = "| " if o.markdown else ""
    print(edge + bar.join(heads) + (" |" if o.markdown else ""))
    if o.markdown:
        print("|" + " --- |" * len(heads))
    for row in rows:
        print(edge + bar.join(row) + (" |" if o.markdown else ""))
    return 0


if __name__ == "__main__":
    sys.exit(main())
