#!/usr/bin/env python3
"""Times `goldi check` beside two unverified baselines on the trace families, and prints ratios.

  compare.py OUT [--goldi PROGRAM] [--rounds N] [--repeats N] [--only FAMILY]... [--budget SECONDS] [--count] [--markdown]

Each round runs each side some times, one side after the other, so that a drift of the machine meets all. `net` is a
side's least time less its least time for the empty trace (start-up and the set-up of tables). Verdicts are compared
byte by byte before anything is timed: a side whose verdicts differ from goldi's is marked. With --count the instructions
are counted too, by valgrind: those ratios are the same on a busy machine, but know nothing of memory.
"""
import argparse, os, re, subprocess, sys

HERE = os.path.dirname(os.path.abspath(__file__))
TOP = os.path.dirname(HERE)


def program():
    """the built program, by way of the launcher, which builds it where it has to"""
    built = os.path.join(TOP, "crates", "goldi", "out", "goldi")
    subprocess.run([os.path.join(TOP, "goldi"), "check"], stdin=subprocess.DEVNULL, stdout=subprocess.DEVNULL)
    return built


def timed(timer, command, infile, repeats, budget):
    line = subprocess.run([timer, str(repeats), infile, "-w", str(budget), "--"] + command, capture_output=True, text=True)
    runs, wall_least, wall_median, cpu_least, cpu_median, kilobytes, status = line.stdout.split()
    return {"least": float(wall_least) / 1000, "median": float(wall_median) / 1000, "memory": int(kilobytes), "status": int(status)}


def counted(command, infile):
    """the instructions of one run"""
    tool = ["valgrind", "--tool=cachegrind", "--cache-sim=no", "--cachegrind-out-file=/dev/null"]
    with open(infile, "rb") as given:
        said = subprocess.run(tool + command, stdin=given, stdout=subprocess.DEVNULL, stderr=subprocess.PIPE, text=True).stderr
    return int(re.search(r"I +refs: +([0-9,]+)", said).group(1).replace(",", ""))


def verdicts(command, infile):
    with open(infile, "rb") as given:
        done = subprocess.run(command, stdin=given, capture_output=True)
    return done.returncode, done.stdout


def count_ratios(given, counts, first, infile):
    """ratios of the instructions, less those for the empty trace"""
    if not given.count:
        return []
    n = counts(infile)
    return [f"{(n['goldi'] - first['goldi']) / (n[name] - first[name]):.1f}" for name in ("lazy", "ft")]


def main():
    options = argparse.ArgumentParser(description=__doc__, formatter_class=argparse.RawDescriptionHelpFormatter)
    options.add_argument("out")
    options.add_argument("--goldi")
    options.add_argument("--rounds", type=int, default=3)
    options.add_argument("--repeats", type=int, default=5)
    options.add_argument("--budget", type=float, default=20)
    options.add_argument("--only", action="append")
    options.add_argument("--count", action="store_true")
    options.add_argument("--markdown", action="store_true")
    given = options.parse_args()
    timer = os.path.join(given.out, "timer")
    sides = {
        "goldi": [given.goldi or program(), "check"],
        "lazy": [os.path.join(given.out, "lazy")],
        "ft": [os.path.join(given.out, "ft")],
    }
    empty = os.path.join(given.out, "empty.trace")
    open(empty, "w").close()
    traces = os.path.join(given.out, "traces")
    families = given.only or [name[: -len(".trace")] for name in sorted(os.listdir(traces))]

    def least(infile):
        best = {}
        for _ in range(given.rounds):
            for name, command in sides.items():
                t = timed(timer, command, infile, given.repeats, given.budget)
                if name not in best or t["least"] < best[name]["least"]:
                    best[name] = t
        return best

    def counts(infile):
        return {name: counted(command, infile) for name, command in sides.items()}

    start = least(empty)
    first = counts(empty) if given.count else None
    rows = []
    for family in families:
        infile = os.path.join(traces, family + ".trace")
        ours = verdicts(sides["goldi"], infile)
        same = all(verdicts(sides[name], infile) == ours for name in ("lazy", "ft"))
        times = least(infile)
        net = {name: max(times[name]["least"] - start[name]["least"], 0.0) for name in sides}
        ratio = lambda name: f"{net['goldi'] / net[name]:.1f}" if net[name] > 0.2 else "-"
        rows.append([family, f"{times['goldi']['least']:.2f}", f"{times['lazy']['least']:.2f}", f"{times['ft']['least']:.2f}",
                     ratio("lazy"), ratio("ft")] + count_ratios(given, counts, first, infile)
                    + [f"{times['goldi']['memory'] // 1024}", "yes" if same else "NO"])
    heads = (["family", "goldi ms", "lazy ms", "ft ms", "net, goldi/lazy", "net, goldi/ft"]
             + (["counted, goldi/lazy", "counted, goldi/ft"] if given.count else []) + ["goldi MB", "same verdicts"])
    print(f"empty trace: goldi {start['goldi']['least']:.2f} ms, lazy {start['lazy']['least']:.2f} ms, ft {start['ft']['least']:.2f} ms")
    if given.markdown:
        print("| " + " | ".join(heads) + " |")
        print("|" + " --- |" * len(heads))
        for row in rows:
            print("| " + " | ".join(row) + " |")
    else:
        widths = [max(len(r[i]) for r in [heads] + rows) for i in range(len(heads))]
        for row in [heads] + rows:
            print("  ".join(cell.ljust(widths[i]) for i, cell in enumerate(row)))
    return 0 if all(row[-1] == "yes" for row in rows) else 1


if __name__ == "__main__":
    sys.exit(main())
