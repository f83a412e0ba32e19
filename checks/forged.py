#!/usr/bin/env python3
"""Changes a record that is lawful, and asks `goldi audit` of each change: does it find the same as is found here?

  forged.py GOLDI PROGRAM OUTPUT      the record of OUTPUT, which `goldi run --journal` wrote for the text PROGRAM
  forged.py GOLDI --programs N        the records of N random programs (runs.py), which GOLDI runs first
  --most M                            M changes of each record, drawn at random, in place of all
  --seed S                            the same seed draws the same programs and changes
  --whole                             the changes of whole lines too: dropped, said twice, and put before the line above

Each change is of one field of one line, and leaves a text that is a record. What is found here is worked out from the rules of docs/ alone:
form, positions and numbers in this file, the rest by lawful.py. It prints how often each clause was the one that fails, and each
difference. The exit status is 0 where there is none.
"""
import argparse, collections, random, subprocess, sys

from lawful import (NOT_OWNER, HEAP_FULL, BAD_THREAD, THREADS, MONITORS, VARIABLES, VOLATILES, TX_VARIABLES, Program, Thread, Unlawful, by_position,
                    check_machine, check_races, check_words, clocks_of, draws, position, record_of, touched)
from runs import Maker, run

FORM, LIST, NUMBERS, MACHINE, RACES, WORDS, PROGRAM = range(1, 8)
CLAUSES = {FORM: "form", LIST: "list", NUMBERS: "numbers", MACHINE: "machine", RACES: "races", WORDS: "words", PROGRAM: "program"}


# ---- what is found of a record ----

def is_act(e, kind):
    return e[0] == "sync" and e[2] == kind


def has_no_value(t, e):
    """the value of this event has to be 0"""
    kind, code = e[2], e[3]
    return kind in ("end", "acq", "rel", "join") or (kind == "begin" and t == 0) or (kind == "fail" and code not in (NOT_OWNER, HEAP_FULL, BAD_THREAD))


def own_follow_looks(e):
    looks = {x: k for x, _, k in e[2]}
    return all(looks.get(x, -1) < k for x, k in e[4])


def is_well_formed(t, e):
    """what an entry has to be by itself"""
    if e[0] == "sync":
        return e[4] == 0 or not has_no_value(t, e)
    if e[0] == "plain":
        _, _, _, cached, write, value, raised = e
        return not raised or (not cached and (write or value == 0))
    if e[0] in ("commit", "raised"):
        return [x for x, _ in e[4]] == touched(e) and own_follow_looks(e)
    if e[0] == "changed":
        x, read, found = e[1]
        return [y for y, _ in e[4]] == [x] and own_follow_looks(e) and any(y == x and v == read for y, v, _ in e[2]) and read != found
    return True


def has_right(es, i):
    """in the block of the cached entry at i, before it, the latest numbered performed entry on its variable gives the right to it"""
    _, x, k, _, write, _, _ = es[i]
    for e in reversed(es[:i]):
        if position(e) is not None:
            return False
        if e[0] == "plain" and e[1] == x and not e[3] and not e[6]:
            return e[2] == k and (e[4] or not write)
    return False


def rises(values, later):
    return all(v < w for v in values for w in later)


def keeps_form(t, es, i):
    """place i of the list keeps to the rules of form, in view of the entries before it"""
    e, before = es[i], es[:i]
    if not is_well_formed(t, e):
        return False
    if e[0] != "trim" and all(f[0] == "trim" for f in before) and not is_act(e, "begin"):
        return False
    at = position(e)
    if at is not None and not rises([position(f) for f in before if position(f) is not None], [at]):
        return False
    for x in {x for x, _ in draws(e)}:
        if not rises([k for f in before for y, k in draws(f) if y == x], [k for y, k in draws(e) if y == x]):
            return False
    if e[0] == "trim" and not rises([f[1] for f in before if f[0] == "trim"], [e[1]]):
        return False
    if before and is_act(before[-1], "end") != (e[0] == "over") or any(f[0] == "over" for f in before):
        return False
    return not (e[0] == "plain" and e[3] and not e[6]) or has_right(es, i)


def form_fault(lists):
    if 0 not in lists:
        return 0, 0
    for t in sorted(lists):
        es = lists[t]
        for i in range(len(es)):
            if not keeps_form(t, es, i):
                return t, i
        if all(e[0] != "over" for e in es):
            return t, len(es)
    return None


def first_wrong(uses):
    """of numbers with their places, in order: the first that is not below their count, or stood there before"""
    met = set()
    for place, n in uses:
        if n >= len(uses) or n in met:
            return place
        met.add(n)
    return None


def position_fault(lists):
    return first_wrong([((t, i), e[1]) for t in sorted(lists) for i, e in enumerate(lists[t]) if position(e) is not None])


def number_fault(lists):
    uses = collections.defaultdict(list)
    for t in sorted(lists):
        for i, e in enumerate(lists[t]):
            for x, k in draws(e):
                uses[x].append(((t, i), k))
    return min((place for place in map(first_wrong, uses.values()) if place is not None), default=None)


def place_of(checked):
    """the place that a check of lawful.py names, if it fails"""
    try:
        checked()
        return None
    except Unlawful as fault:
        if fault.place is None:
            raise
        return fault.place


def program_fault(program, steps, lists):
    for t in sorted(lists):
        place = place_of(lambda: Thread(program, steps, t, lists[t]).run())
        if place is not None:
            return place
    return None


def finding(program, steps, lists):
    """None, or the thread, the place and the clause"""
    places, events = by_position(lists)
    clauses = [
        (FORM, lambda: form_fault(lists)),
        (LIST, lambda: position_fault(lists)),
        (NUMBERS, lambda: number_fault(lists)),
        (MACHINE, lambda: place_of(lambda: check_machine(program, lists, events, places))),
        (RACES, lambda: place_of(lambda: check_races(lists, events, clocks_of(events)))),
        (WORDS, lambda: place_of(lambda: check_words(lists, events, places))),
        (PROGRAM, lambda: program_fault(program, steps, lists)),
    ]
    for clause, fault in clauses:
        place = fault()
        if place is not None:
            return *place, clause
    return None


# ---- changes of a record's text ----

MOST = {"begin": 63, "end": 0, "acq": MONITORS - 1, "rel": MONITORS - 1, "vread": VOLATILES - 1, "vwrite": VOLATILES - 1, "fork": 1023, "join": THREADS - 1,
        "alloc": 63, "print": 0, "input": 0, "fail": 255}
STAMP, VALUE = (0, 2**63 - 1), (-(2**63), 2**63 - 1)
VAR = (0, VARIABLES - 1)


def other_numbers(word, least, most):
    n = int(word)
    return [str(m) for m in (n - 1, n + 1, 0, n + 16, least, most) if least <= m <= most and m != n]


def other_lists(word, ranges):
    """another number in one part, or a part less, or one more; the variables rise"""
    made = []
    parts = [] if word == "-" else [part.split(":") for part in word.split(",")]
    for k, part in enumerate(parts):
        made.append(parts[:k] + parts[k + 1:])
        for j, ends in enumerate(ranges):
            made += [parts[:k] + [part[:j] + [n] + part[j + 1:]] + parts[k + 1:] for n in other_numbers(part[j], *ends)]
    last = int(parts[-1][0]) if parts else -1
    made.append(parts + [[str(last + 1)] + ["0"] * (len(ranges) - 1)])
    rising = [ps for ps in made if all(int(p[0]) < int(q[0]) for p, q in zip(ps, ps[1:])) and all(int(p[0]) < VARIABLES for p in ps) and len(ps) <= TX_VARIABLES]
    return [",".join(":".join(part) for part in ps) or "-" for ps in rising]


def other_endings(words):
    ending = " ".join(words[1:])
    return [["over", *other.split()] for other in ("halt", "spent", "uncaught 1", "uncaught 9") if other != ending]


def other_words(words, threads):
    """of the words of a line: each place with the words that may stand there instead"""
    form = words[0]
    if form == "record":
        return {2: other_numbers(words[2], 1, 1000000)}
    if form == "thread":
        t = int(words[1])
        return {1: [str(u) for u in range(THREADS) if u not in threads and all((v < u) == (v < t) for v in threads if v != t)]}
    if form == "sync":
        kind, arg = words[2], int(words[3])
        kinds = [other for other in MOST if other != kind and arg <= MOST[other]]
        return {1: other_numbers(words[1], *STAMP), 2: kinds, 3: other_numbers(words[3], 0, MOST[kind]), 4: other_numbers(words[4], *VALUE)}
    if form == "plain":
        swapped = {"rd": "wr", "wr": "rd", "own": "cached", "cached": "own", "ok": "race", "race": "ok"}
        return {1: other_numbers(words[1], *VAR), 2: other_numbers(words[2], *STAMP), 3: [swapped[words[3]]], 4: other_numbers(words[4], *VALUE),
                5: [swapped[words[5]]], 6: [swapped[words[6]]]}
    if form == "trim":
        return {1: other_numbers(words[1], *STAMP)}
    if form in ("commit", "abort"):
        r = words.index("r")
        made = {r + 1: other_lists(words[r + 1], [VAR, VALUE, STAMP]), r + 3: other_lists(words[r + 3], [VAR, VALUE]), r + 5: other_lists(words[r + 5], [VAR, STAMP])}
        ends = [STAMP] if form == "commit" else [VAR, VALUE, VALUE][:r - 2]
        first = 1 if form == "commit" else 2
        return made | {first + k: other_numbers(words[first + k], *range_) for k, range_ in enumerate(ends)}
    return {}


def changes(lines, whole):
    """each record that differs from this one in one field"""
    threads = [int(line.split()[1]) for line in lines if line.startswith("thread")]
    for k, line in enumerate(lines):
        words = line.split()
        others = [words[:i] + [other] + words[i + 1:] for i, some in other_words(words, threads).items() for other in dict.fromkeys(some)]
        if words[0] == "over":
            others = other_endings(words)
        for other in others:
            yield lines[:k] + [" ".join(other)] + lines[k + 1:]
        if whole and words[0] not in ("record", "thread", "done"):
            yield lines[:k] + lines[k + 1:]
            yield lines[:k] + [line] + lines[k:]
            if lines[k - 1].split()[0] != "thread":
                yield lines[:k - 1] + [line, lines[k - 1]] + lines[k + 1:]


# ---- the comparison ----

def said(found):
    return "lawful" if found is None else "not {} {} {}".format(*found)


def compare(goldi, program_text, lines, o, chance, counts):
    """the number of changes that goldi finds otherwise"""
    program, wrong = Program(program_text), 0
    made = [lines, *changes(lines, o.whole)]
    if o.most is not None and o.most < len(made):
        made = [lines] + chance.sample(made[1:], o.most)
    for changed in made:
        found = finding(program, *record_of(changed))
        done = subprocess.run([goldi, "audit"], input=program_text + "\n".join(changed) + "\n", capture_output=True, text=True, timeout=120)
        counts["lawful" if found is None else CLAUSES[found[2]]] += 1
        if (done.stdout, done.returncode) != (said(found) + "\n", 0 if found is None else 8):
            wrong += 1
            other = [(k, line) for k, (line, old) in enumerate(zip(changed, lines)) if line != old][:1]
            print(f"{other}: {done.stdout.strip()!r}, status {done.returncode}; here {said(found)!r}")
    return wrong


def record_lines(output):
    lines = output.splitlines()
    return lines[next(i for i, line in enumerate(lines) if line.startswith("record ")):]


def main():
    a = argparse.ArgumentParser()
    a.add_argument("goldi")
    a.add_argument("program", nargs="?")
    a.add_argument("output", nargs="?")
    a.add_argument("--programs", type=int, default=0)
    a.add_argument("--most", type=int)
    a.add_argument("--seed", type=int, default=1)
    a.add_argument("--whole", action="store_true")
    o = a.parse_args()
    counts, wrong = collections.Counter(), 0
    if o.output:
        with open(o.program) as f, open(o.output) as g:
            wrong += compare(o.goldi, f.read(), record_lines(g.read()), o, random.Random(o.seed), counts)
    for n in range(o.programs):
        chance = random.Random(f"{o.seed}/{n}")
        program = Maker(chance).program()
        done = run(o.goldi, program, 4, (64, 64), 2000)[1]
        wrong += compare(o.goldi, program, record_lines(done.stdout), o, chance, counts)
    print(f"{sum(counts.values())} records: " + ", ".join(f"{n} {name}" for name, n in counts.items()) + f"; {wrong} found otherwise")
    return 0 if wrong == 0 else 1


if __name__ == "__main__":
    sys.exit(main())
