#!/usr/bin/env python3
"""Runs random programs with threads, looks at each record from outside (lawful.py), and has goldi audit it.

  runs.py GOLDI [--programs N] [--seed S] [--keep FOLDER]

A program has up to 8 threads over monitors, volatiles, forks, joins and transactions, with and without races; it ends by itself,
whatever the schedule. Each is run with some number of workers and some ring, and with --journal. Prints how many runs were lawful;
where one is not, its program, its words and what is wrong. The same seed makes the same programs.
"""
import argparse, os, random, subprocess, sys

from lawful import Unlawful, check

DATA, VOLATILE = 6, 3


class Maker:
    def __init__(self, chance):
        self.chance, self.labels = chance, 0
        # main enters no monitor: an exception would leave it there, and main waits for threads that want it
        self.enters = False

    def label(self):
        self.labels += 1
        return f"l{self.labels}"

    def access(self):
        k = self.chance.randrange(DATA)
        if self.chance.random() < 0.5:
            return ["load 0", f"get {k}", "pop"]
        return ["load 0", "load 0", f"get {k}", f"push {self.chance.randrange(1, 9)}", "add", f"put {k}"]

    def volatile(self):
        k = self.chance.randrange(VOLATILE)
        if self.chance.random() < 0.5:
            return ["load 0", f"vget {k}", "pop"]
        return ["load 0", f"push {self.chance.randrange(100)}", f"vput {k}"]

    def guarded(self, depth):
        """under the object's monitor, which may be entered again"""
        return ["load 0", "enter", *self.some(depth + 1), "load 0", "exit"]

    def attempt(self):
        body = []
        for _ in range(self.chance.randrange(4)):
            body += self.access()
        if self.chance.random() < 0.15:
            body += ["push 1", "push 0", "div", "pop"]
        return ["txbegin", *body, "commit"]

    def loop(self, depth):
        a = self.label()
        return [f"push {self.chance.randrange(1, 6)}", "store 1", f"{a}:", *self.some(depth + 2), "inc 1 -1", "load 1", f"jnz {a}"]

    def caught(self, body):
        """an exception of the body is printed, and the thread goes on"""
        a, b, h, after = (self.label() for _ in range(4))
        return [f"{a}:", *body, f"{b}:", f"jump {after}", f"{h}:", "print", f"{after}:", "nop"], f"catch {a} {b} {h}"

    def some(self, depth):
        made = []
        for _ in range(self.chance.randrange(1, 4)):
            kinds = [self.access] * 5 + [self.volatile] * 2 + [self.attempt] * 2
            if depth < 2 and self.enters:
                kinds += [lambda: self.guarded(depth)] * 3
            if depth == 0:
                kinds += [lambda: self.loop(depth)]
            if self.chance.random() < 0.1:
                kinds = [lambda: [f"push {self.chance.randrange(100)}", "print"]]
            made += self.chance.choice(kinds)()
        return made

    def function(self, name, args, first, last):
        body, catches = list(first), []
        for _ in range(self.chance.randrange(1, 4)):
            part = self.some(0)
            if self.chance.random() < 0.6 and not any(line.startswith("l") and line.endswith(":") for line in part):
                part, catch = self.caught(part)
                catches.append(catch)
            body += part
        return [f"func {name} {args} 12", *body, *last, *catches]

    def program(self):
        threads = self.chance.randrange(1, 8)
        first = ["new C", "store 0"]
        for t in range(threads):
            first += ["load 0", f"fork w{t % 3}", f"store {t + 2}"]
        last = []
        for t in range(threads):
            if self.chance.random() < 0.7:
                last += [f"load {t + 2}", "join"]
        last += ["halt"]
        functions = [self.function("main", 0, first, last)]
        self.enters = True
        for k in range(3):
            functions.append(self.function(f"w{k}", 1, [], ["push 0", "ret"]))
        return "\n".join([f"class C {DATA} {VOLATILE}", *(line for f in functions for line in f)]) + "\n"


def run(goldi, program, workers, ring, steps):
    words = [goldi, "run", "--workers", str(workers), "--segments", str(ring[0]), "--cells", str(ring[1]), "--steps", str(steps), "--journal"]
    done = subprocess.run(words, input=program, capture_output=True, text=True, timeout=60)
    return words, done


def audited(goldi, program, output):
    """the program and the record of its run, as `audit` reads them"""
    record = output[output.index("record "):]
    done = subprocess.run([goldi, "audit"], input=program + record, capture_output=True, text=True, timeout=60)
    if (done.returncode, done.stdout) != (0, "lawful\n"):
        raise Unlawful(f"audit: status {done.returncode}: {done.stdout[:200]!r}")


def main():
    a = argparse.ArgumentParser()
    a.add_argument("goldi")
    a.add_argument("--programs", type=int, default=100)
    a.add_argument("--seed", type=int, default=1)
    a.add_argument("--keep")
    o = a.parse_args()
    lawful = races = events = 0
    for n in range(o.programs):
        chance = random.Random(f"{o.seed}/{n}")
        program = Maker(chance).program()
        ring = chance.choice([(64, 64), (2, 4), (2, 4), (3, 5), (4, 8)])
        steps = chance.choice([200000, 200000, 200000, 40])
        workers = chance.choice([1, 2, 4, 8, 16])
        words, done = run(o.goldi, program, workers, ring, steps)
        try:
            if done.returncode not in (0, 6, 7):
                raise Unlawful(f"status {done.returncode}: {done.stdout[:200]!r}")
            lists = check(program, done.stdout, ring)
            audited(o.goldi, program, done.stdout)
            lawful += 1
            races += done.returncode == 6
            events += sum(e[0] in ("sync", "commit") for es in lists.values() for e in es)
        except Unlawful as fault:
            print(f"program {n} of seed {o.seed}: {fault}\n  {' '.join(words)}")
            if o.keep:
                os.makedirs(o.keep, exist_ok=True)
                for ending, text in (("program", program), ("output", done.stdout)):
                    with open(os.path.join(o.keep, f"{o.seed}_{n}.{ending}"), "w") as f:
                        f.write(text)
    print(f"{lawful} of {o.programs} runs are lawful; {races} with a race; {events} events")
    return 0 if lawful == o.programs else 1


if __name__ == "__main__":
    sys.exit(main())
