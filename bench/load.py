#!/usr/bin/env python3
"""Counts the transfers that `goldi load` makes in a second, and prints ratios.

  load.py OUT [--goldi PROGRAM] [--rounds N] [--repeats N] [--markdown]

`none` and `lazy` are `interp load` (one thread for all, one fixed schedule) without a detector and with locksets; `w1`, `w2`, `w4` are goldi with
so many workers. Each round runs each side some times, one side after the other; the least time counts, with that of a size of 1 taken off.
What is written is compared with the interpreter's before anything is timed: a side that differs is marked.
"""
import argparse, os, subprocess, sys

from compare import program, timed

THREADS = 8
SIZES = (1000, 10000)


def sides_of(interp, goldi, size):
    load = ["load", "--size", str(size)]
    sides = {det: [interp, *load, "--det", det] for det in ("none", "lazy")}
    for workers in (1, 2, 4):
        sides[f"w{workers}"] = [goldi, *load, "--workers", str(workers)]
    return sides


def written(command):
    done = subprocess.run(command, stdin=subprocess.DEVNULL, capture_output=True)
    return done.returncode, done.stdout


def least(timer, sides, rounds, repeats):
    best = dict.fromkeys(sides, 1e9)
    for _ in range(rounds):
        for side, command in sides.items():
            best[side] = min(best[side], timed(timer, command, os.devnull, repeats, 60)["least"])
    return best


def main():
    a = argparse.ArgumentParser()
    a.add_argument("out")
    a.add_argument("--goldi")
    a.add_argument("--rounds", type=int, default=3)
    a.add_argument("--repeats", type=int, default=3)
    a.add_argument("--markdown", action="store_true")
    o = a.parse_args()
    goldi = o.goldi or program()
    interp, timer = os.path.join(o.out, "interp"), os.path.join(o.out, "timer")
    start = least(timer, sides_of(interp, goldi, 1), o.rounds, o.repeats)
    bar, edge = (" | ", "| ") if o.markdown else ("  ", "")
    heads = ["transfers a thread"] + [f"{side}, transfers a second" for side in start] + ["time, w1/none", "time, w1/lazy", "time, w1/w4", "same output"]
    print(edge + bar.join(heads) + (" |" if o.markdown else ""))
    if o.markdown:
        print("|" + " --- |" * len(heads))
    for size in SIZES:
        sides = sides_of(interp, goldi, size)
        wanted = written(sides["none"])
        other = [side for side, command in sides.items() if written(command) != wanted]
        best = least(timer, sides, o.rounds, o.repeats)
        net = {side: max(best[side] - start[side], 0.001) for side in sides}
        row = [str(size)] + [f"{THREADS * (size - 1) / net[side] * 1000:,.0f}" for side in sides]
        row += [f"{net['w1'] / net[side]:.1f}" for side in ("none", "lazy", "w4")] + ["no: " + " ".join(other) if other else "yes"]
        print(edge + bar.join(row) + (" |" if o.markdown else ""))
    return 0


if __name__ == "__main__":
    sys.exit(main())
