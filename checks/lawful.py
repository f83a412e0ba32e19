#!/usr/bin/env python3
"""Looks at one run from outside: is the record that `goldi run --journal` wrote a lawful run of the program, and does the
report say what it holds?

  lawful.py PROGRAM OUTPUT [--steps N]

PROGRAM is a program's text, OUTPUT what `goldi run --journal` wrote for it: the report and then the record. It says
`lawful`, or the first thing that is not. Everything here is written from the rules of docs/ alone: the orders by clocks over
the whole record, one memory that is replayed, and a machine of its own for each thread. It shares no code with goldi.
"""
import sys

THREADS, MONITORS, VARIABLES, VOLATILES, TX_VARIABLES, FRAMES = 16, 256, 1024, 256, 16, 64
RACE, NULL, NO_FIELD, DIVIDE, NOT_OWNER, HEAP_FULL, THREADS_FULL, INPUT_END, TOO_LARGE, TX_STATE, BAD_THREAD, DEPTH = range(1, 13)
BARRED = {"halt", "new", "vget", "vput", "enter", "exit", "fork", "join", "txbegin", "print", "input"}


class Unlawful(Exception):
    """what is wrong, and where first: a thread and a place in its list, where it is of one entry"""

    def __init__(self, text, place=None):
        super().__init__(text)
        self.place = place


def want(fact, text, place=None):
    if not fact:
        raise Unlawful(text, place)


def wrap(n):
    return (n + 2**63) % 2**64 - 2**63


# ---- texts ----

class Program:
    """classes, functions (arguments, locals, code, catches), the place of main, inputs"""

    def __init__(self, text):
        self.classes, self.functions, self.inputs, self.main = [], [], [], 0
        names, labels, places = {}, [], {}
        lines = [line.split("#")[0].split() for line in text.splitlines()]
        for words in lines:
            if words and words[0] == "class":
                names["class " + words[1]] = len(self.classes)
                self.classes.append((int(words[2]), int(words[3])))
            elif words and words[0] == "func":
                names["func " + words[1]] = len(labels)
                labels.append({})
                places[len(labels) - 1] = 0
                if words[1] == "main":
                    self.main = len(labels) - 1
            elif words and words[0] == "input" and len(words) > 1:
                self.inputs += [int(w) for w in words[1:]]
            elif len(words) == 1 and words[0].endswith(":"):
                labels[-1][words[0][:-1]] = places[len(labels) - 1]
            elif words and words[0] != "catch":
                places[len(labels) - 1] += 1
        for words in lines:
            if not words or words[0] == "class" or (words[0] == "input" and len(words) > 1) or words[0].endswith(":"):
                continue
            if words[0] == "func":
                self.functions.append((int(words[2]), int(words[3]), [], []))
                continue
            code, catches = self.functions[-1][2:]
            here = labels[len(self.functions) - 1]
            if words[0] == "catch":
                catches.append(tuple(here[w] for w in words[1:]))
            elif words[0] in ("jump", "jz", "jnz"):
                code.append((words[0], here[words[1]]))
            elif words[0] in ("call", "fork"):
                code.append((words[0], names["func " + words[1]]))
            elif words[0] == "new":
                code.append((words[0], names["class " + words[1]]))
            else:
                code.append((words[0], *(int(w) for w in words[1:])))

    def fields(self, c):
        """the data fields and the volatile fields of class c; none where there is no such class"""
        return self.classes[c] if 0 <= c < len(self.classes) else (0, 0)


def parts(text):
    return [] if text == "-" else [tuple(int(n) for n in part.split(":")) for part in text.split(",")]


def entry_of(words):
    if words[0] == "sync":
        return ("sync", int(words[1]), words[2], int(words[3]), int(words[4]))
    if words[0] == "commit":
        return ("commit", int(words[1]), parts(words[3]), parts(words[5]), parts(words[7]))
    if words[0] == "plain":
        return ("plain", int(words[1]), int(words[2]), words[5] == "cached", words[3] == "wr", int(words[4]), words[6] == "race")
    if words[0] == "abort" and words[1] == "changed":
        return ("changed", tuple(int(w) for w in words[2:5]), parts(words[6]), parts(words[8]), parts(words[10]))
    if words[0] == "abort":
        return ("raised", int(words[2]), parts(words[4]), parts(words[6]), parts(words[8]))
    if words[0] == "trim":
        return ("trim", int(words[1]))
    return ("over", " ".join(words[1:]))


def record_of(lines):
    want(lines and lines[0].startswith("record 1 "), "no header")
    want(lines[-1] == "done", "no done")
    lists, thread = {}, None
    for line in lines[1:-1]:
        words = line.split()
        if words[0] == "thread":
            thread = int(words[1])
        else:
            lists.setdefault(thread, []).append(entry_of(words))
    return int(lines[0].split()[2]), lists


# ---- what an entry is ----

def touched(e):
    """the variables of a commit or a dropped attempt"""
    return sorted({p[0] for p in e[2]} | {p[0] for p in e[3]})


def draws(e):
    """the numbers that the entry drew, by variable, in their order"""
    if e[0] == "plain":
        return [] if e[3] else [(e[1], e[2])]
    if e[0] in ("commit", "changed", "raised"):
        return [(x, k) for x, _, k in e[2]] + list(e[4])
    return []


def position(e):
    return e[1] if e[0] in ("sync", "commit") else None


def by_position(lists):
    """the places of the events, and the events with their threads, by position"""
    found = sorted((e[1], t, i) for t, es in lists.items() for i, e in enumerate(es) if position(e) is not None)
    return [(t, i) for _, t, i in found], [(t, lists[t][i]) for _, t, i in found]


# ---- well formed, listed, numbered ----

def check_form(t, es):
    kept = [e for e in es if e[0] != "trim"]
    want(kept and kept[0][0] == "sync" and kept[0][2] == "begin", f"thread {t} does not begin")
    want(kept[-1][0] == "over" and kept[-2][0] == "sync" and kept[-2][2] == "end", f"thread {t} does not end")
    want(sum(e[0] == "over" or (e[0] == "sync" and e[2] == "end") for e in kept) == 2, f"thread {t} ends twice")
    last, lows, numbers, rights = -1, [], {}, {}
    for i, e in enumerate(es):
        where = f"thread {t}, place {i}: {e}"
        if position(e) is not None:
            want(e[1] > last, "positions fall: " + where)
            last, rights = e[1], {}
        for x, k in draws(e):
            want(k > numbers.get(x, -1), "numbers fall: " + where)
            numbers[x] = k
        if e[0] == "trim":
            want(not lows or e[1] > lows[-1], "lows fall: " + where)
            lows.append(e[1])
        elif e[0] == "plain":
            _, x, k, cached, write, value, raised = e
            want(not (raised and cached) and not (raised and not write and value != 0), "form: " + where)
            if cached:
                want(x in rights and rights[x][0] == k and (rights[x][1] or not write), "no right: " + where)
            elif not raised:
                rights[x] = (k, write)
        elif e[0] in ("commit", "raised"):
            want([x for x, _ in e[4]] == touched(e), "numbers name others: " + where)
        elif e[0] == "changed":
            x, read, found = e[1]
            want([y for y, _ in e[4]] == [x] and any(p[0] == x and p[1] == read for p in e[2]) and read != found, "form: " + where)
    # repeats: cached exactly where there is a right, which events and dropped attempts end
    rights = {}
    for i, e in enumerate(es):
        if e[0] in ("sync", "commit", "changed", "raised"):
            rights = {}
        elif e[0] == "plain":
            _, x, k, cached, write, value, raised = e
            want(cached == (x in rights and (rights[x] or not write)), f"not sparing: thread {t}, place {i}: {e}")
            if not cached and not raised:
                rights[x] = write


def check_once(uses, what):
    want(sorted(uses) == list(range(len(uses))), f"{what} are not 0 to n - 1, each once")


# ---- the machine without data words ----

def check_machine(program, lists, events, places):
    threads = {0: ("forked", program.main, 0)}
    owners, words, taken = {}, {}, 0
    objects = variables = volatiles = 0
    for p, (t, e) in enumerate(events):
        where = f"event {p} of thread {t}: {e}"
        state = threads.get(t, ("never",))
        if e[0] == "commit":
            want(state == ("runs",), "does not run: " + where, places[p])
            continue
        _, _, kind, arg, value = e
        if kind == "begin":
            want(state == ("forked", arg, value), "not forked so: " + where, places[p])
            threads[t] = ("runs",)
            continue
        want(state == ("runs",), "does not run: " + where, places[p])
        ok = True
        if kind == "end":
            threads[t] = ("ended",)
        elif kind == "acq":
            owner, depth = owners.get(arg, (t, 0))
            ok = owner == t
            owners[arg] = (t, depth + 1)
        elif kind == "rel":
            owner, depth = owners.get(arg, (None, 0))
            ok = owner == t
            owners[arg] = (t, depth - 1)
            if depth <= 1:
                owners.pop(arg, None)
        elif kind == "vread":
            ok = value == words.get(arg, 0)
        elif kind == "vwrite":
            words[arg] = value
        elif kind == "fork":
            child, func = arg % 16, arg // 16
            ok = child == min((u for u in range(1, THREADS) if u not in threads), default=None) and child in lists
            ok = ok and func < len(program.functions) and program.functions[func][0] == 1
            threads[child] = ("forked", func, value)
        elif kind == "join":
            ok = threads.get(arg) == ("ended",)
        elif kind == "alloc":
            d, v = program.fields(arg)
            ok = value == 1 + objects + 2**8 * arg + 2**16 * variables + 2**32 * volatiles
            objects, variables, volatiles = objects + 1, variables + d, volatiles + v
            ok = ok and arg < len(program.classes) and objects <= MONITORS and variables <= VARIABLES and volatiles <= VOLATILES
        elif kind == "input":
            ok = taken < len(program.inputs) and value == program.inputs[taken]
            taken += 1
        elif kind == "fail":
            if arg == NOT_OWNER:
                ok = 0 <= value < MONITORS and owners.get(value, (None, 0))[0] != t
            elif arg == HEAP_FULL:
                d, v = program.fields(value)
                ok = 0 <= value < len(program.classes)
                ok = ok and (objects + 1 > MONITORS or variables + d > VARIABLES or volatiles + v > VOLATILES)
            elif arg == THREADS_FULL:
                ok = all(u in threads for u in range(1, THREADS))
            elif arg == INPUT_END:
                ok = taken == len(program.inputs)
            else:
                ok = arg == BAD_THREAD and 0 <= value < THREADS and value not in threads
        want(ok, "no step of the machine: " + where, places[p])
    want(all(s == ("ended",) for s in threads.values()), "some thread is live at the end")
    want(set(lists) == set(threads), "a list of a thread that was not forked")


# ---- happens before, by clocks ----

def joined(a, b):
    return [max(x, y) for x, y in zip(a, b)]


def clocks_of(events):
    """what each event's thread knows after it: how many events of each thread"""
    zero = [0] * THREADS
    known, given, made = {}, {}, []
    for t, e in events:
        clock = list(known.get(t, zero))
        clock[t] += 1
        takes, gives = [], []
        if e[0] == "commit":
            takes = gives = [("x", x) for x in touched(e)]
        else:
            kind, arg = e[2], e[3]
            takes = {"acq": [("m", arg)], "vread": [("v", arg)], "begin": [("f", t)], "join": [("e", arg)]}.get(kind, [])
            gives = {"rel": [("m", arg)], "vwrite": [("v", arg)], "fork": [("f", arg % 16)], "end": [("e", t)]}.get(kind, [])
        for source in takes:
            clock = joined(clock, given.get(source, zero))
        for sink in gives:
            given[sink] = joined(clock, given.get(sink, zero))
        known[t] = clock
        made.append(clock)
    return made


class Access:
    def __init__(self, thread, place, entry, block, index, x, number, write, plain, performed):
        self.thread, self.place, self.entry, self.block, self.index = thread, place, entry, block, index
        self.x, self.number, self.write, self.plain, self.performed = x, number, write, plain, performed


def accesses_of(lists):
    found = {}
    for t, es in lists.items():
        block, index = None, 0
        for i, e in enumerate(es):
            if position(e) is not None:
                block, index = e[1], index + 1
            if e[0] == "plain":
                found.setdefault(e[1], []).append(Access(t, i, e, block, index, e[1], e[2], e[4], True, not e[6]))
            elif e[0] in ("commit", "raised"):
                written = {p[0] for p in e[3]}
                for x, k in e[4]:
                    found.setdefault(x, []).append(Access(t, i, e, block, index, x, k, x in written, False, e[0] == "commit"))
    return found


def check_races(lists, events, clocks):
    found = accesses_of(lists)
    racy = set()
    for x, all_of in found.items():
        all_of.sort(key=lambda a: (a.number, a.place))
        before = []
        for b in all_of:
            clock = clocks[b.block] if b.block is not None else [0] * THREADS
            if b.entry[0] == "raised":
                mine = dict(b.entry[4])
                for y, k in mine.items():
                    for c in found[y]:
                        if c.entry[0] == "commit" and c.number < k:
                            clock = joined(clock, clocks[c.entry[1]])
            for a in before:
                if a.thread != b.thread and a.performed and (a.write or b.write) and (a.plain or b.plain):
                    # ordered where b knows an event of a's thread that is after a, or is a
                    after = a.index if a.entry[0] == "commit" else a.index + 1
                    if clock[a.thread] < after:
                        racy.add((b.thread, b.place, x))
            before.append(b)
    for t, es in lists.items():
        for i, e in enumerate(es):
            where = f"thread {t}, place {i}: {e}"
            xs = [e[1]] if e[0] == "plain" else touched(e) if e[0] in ("commit", "raised") else []
            bad = [x for x in xs if (t, i, x) in racy]
            if e[0] == "plain":
                want(e[6] == bool(bad), "race law: " + where, (t, i))
            elif e[0] == "commit":
                want(not bad, "race law: " + where, (t, i))
            elif e[0] == "raised":
                want(bad and e[1] == bad[0], "race law: " + where, (t, i))


# ---- one memory ----

def check_words(lists, events, places):
    memory = {}
    following = {}
    for t, es in lists.items():
        block = None
        for i, e in enumerate(es):
            if position(e) is not None:
                block = e[1]
            elif e[0] == "plain" and not e[6]:
                following.setdefault(block, []).append((i, e))
    for p, (t, e) in enumerate(events):
        if e[0] == "commit":
            for x, value, _ in e[2]:
                want(memory.get(x, 0) == value, f"a look of the commit at {p} is not the memory's word", places[p])
            for x, value in e[3]:
                memory[x] = value
        for i, f in following.get(p, []):
            if f[4]:
                memory[f[1]] = f[5]
            else:
                want(memory.get(f[1], 0) == f[5], f"a read behind event {p} of thread {t} is not the memory's word: {f}", (t, i))
    writes = {}
    for t, es in lists.items():
        for i, e in enumerate(es):
            if e[0] == "plain" and e[4] and not e[6]:
                writes.setdefault(e[1], []).append((e[2], i, e[5]))
            elif e[0] == "commit":
                numbers = dict(e[4])
                for x, value in e[3]:
                    writes.setdefault(x, []).append((numbers[x], i, value))
    for t, es in lists.items():
        for i, e in enumerate(es):
            if e[0] in ("commit", "changed", "raised"):
                looks = [(x, value, k) for x, value, k in e[2]]
                if e[0] == "changed":
                    looks.append((e[1][0], e[1][2], e[4][0][1]))
                for x, value, k in looks:
                    below = [w for w in writes.get(x, []) if w[0] < k]
                    greatest = max((w[0] for w in below), default=None)
                    may = {w[2] for w in below if w[0] == greatest} or {0}
                    want(value in may, f"thread {t}: a look of {x} has a word that no write before it left: {e}", (t, i))


# ---- the instructions ----

class Raise(Exception):
    def __init__(self, code):
        self.code = code


class Spent(Exception):
    pass


class Thread:
    def __init__(self, program, steps, t, es):
        self.program, self.steps, self.t = program, steps, t
        self.list = [e for e in es if e[0] != "trim"]
        self.places = [i for i, e in enumerate(es) if e[0] != "trim"] + [len(es)]
        self.at, self.count, self.levels = 0, 0, {}
        self.frames, self.attempt = [], None

    def bad(self, text):
        raise Unlawful(f"thread {self.t}, entry {self.at}: {text}", (self.t, self.places[self.at]))

    def peek(self):
        if self.at >= len(self.list):
            self.bad("the list ends too early")
        return self.list[self.at]

    def sync(self, kind, arg=0, value=None, fails=None):
        e = self.peek()
        if e[0] == "sync" and e[2] == "fail" and fails is not None and e[3] == fails[0] and e[4] == fails[1]:
            self.at += 1
            raise Raise(fails[0])
        if e[0] != "sync" or e[2] != kind or (arg is not None and e[3] != arg) or (value is not None and e[4] != value):
            self.bad(f"{e} where {kind} {arg} {value} was to come")
        self.at += 1
        return e

    def reference(self, r):
        n = r - 1
        o, c, d, v = n % 256, n // 2**8 % 256, n // 2**16 % 2**16, n // 2**32
        if r < 1 or c >= len(self.program.classes):
            raise Raise(NULL)
        data, volatile = self.program.classes[c]
        if d + data > VARIABLES or v + volatile > VOLATILES:
            raise Raise(NULL)
        return o, d, data, v, volatile

    def run(self):
        begin = self.peek()
        if begin[0] != "sync" or begin[2] != "begin":
            self.bad("no beginning")
        self.at += 1
        self.enter_function(begin[3], [begin[4]] if self.program.functions[begin[3]][0] else [])
        try:
            while self.step():
                pass
            ending = "halt"
        except Raise as error:
            ending = f"uncaught {error.code}"
        except Spent:
            ending = "spent"
        for o in sorted(self.levels):
            for _ in range(self.levels[o]):
                self.sync("rel", o, 0)
        self.sync("end", 0, 0)
        if self.peek() != ("over", ending):
            self.bad(f"{self.peek()} where the end is {ending}")
        self.at += 1
        if self.at != len(self.list):
            self.bad("something after the end")

    def enter_function(self, f, values):
        locals_ = [0] * self.program.functions[f][1]
        locals_[: len(values)] = values
        self.frames.append({"f": f, "pc": 0, "stack": [], "locals": locals_})

    def step(self):
        """one instruction; no where the thread halts"""
        frame = self.frames[-1]
        if self.count >= self.steps:
            if self.attempt is not None:
                self.end_attempt(False)
            raise Spent
        self.count += 1
        try:
            return self.carry_out(frame, self.program.functions[frame["f"]][2][frame["pc"]])
        except Raise as error:
            code = error.code
            if self.attempt is not None:
                end = self.end_attempt(False)
                if end == "changed":
                    self.start_again()
                    return True
                if end == "raised":
                    code = RACE
            self.handle(code)
            return True

    def handle(self, code):
        while self.frames:
            frame = self.frames[-1]
            for first, last, target in self.program.functions[frame["f"]][3]:
                if first <= frame["pc"] < last:
                    frame["stack"], frame["pc"] = [code], target
                    return
            if len(self.frames) == 1:
                raise Raise(code)
            self.frames.pop()

    def start_again(self):
        depth, frame = self.saved
        del self.frames[depth:]
        self.frames[-1] = {**frame, "stack": list(frame["stack"]), "locals": list(frame["locals"])}

    def end_attempt(self, keep):
        """the entry that ends the attempt, with its looks and, where they are kept, its writes"""
        looks, writes = self.attempt
        self.attempt = None
        e = self.peek()
        if e[0] not in ("commit", "changed", "raised"):
            self.bad(f"{e} where an attempt ends")
        if {x: v for x, v, _ in e[2]} != looks or dict(e[3]) != (writes if keep else {}):
            self.bad(f"{e} has not the looks {looks} and the writes {writes if keep else {}}")
        self.at += 1
        return e[0]

    def touch(self, x):
        looks, writes = self.attempt
        if x not in looks and x not in writes and len(set(looks) | set(writes)) == TX_VARIABLES:
            raise Raise(TOO_LARGE)

    def look(self, x):
        looks, writes = self.attempt
        if x in writes:
            return writes[x]
        if x not in looks:
            self.touch(x)
            e = self.peek()
            found = [v for y, v, _ in e[2] if y == x] if e[0] in ("commit", "changed", "raised") else []
            if not found:
                self.bad(f"no look of {x} in {e}")
            looks[x] = found[0]
        return looks[x]

    def plain(self, x, write, value):
        e = self.peek()
        if e[0] != "plain" or e[1] != x or e[4] != write or (write and e[5] != value):
            self.bad(f"{e} where variable {x} is {'written' if write else 'read'}")
        self.at += 1
        if e[6]:
            raise Raise(RACE)
        return e[5]

    def carry_out(self, frame, instruction):
        word, *operands = instruction
        n = operands[0] if operands else None
        stack, values = frame["stack"], frame["locals"]
        inside = self.attempt is not None
        if inside and (word in BARRED or (word == "ret" and len(self.frames) == self.saved[0])):
            raise Raise(TX_STATE)
        following = frame["pc"] + 1
        if word == "push":
            stack.append(n)
        elif word == "pop":
            stack.pop()
        elif word == "dup":
            stack.append(stack[-1])
        elif word == "swap":
            stack[-1], stack[-2] = stack[-2], stack[-1]
        elif word == "load":
            stack.append(values[n])
        elif word == "store":
            values[n] = stack.pop()
        elif word == "inc":
            values[n] = wrap(values[n] + operands[1])
        elif word in ("add", "sub", "mul", "div", "rem", "eq", "lt", "le", "and", "or", "xor"):
            a, b = stack[-2], stack[-1]
            if word in ("div", "rem") and b == 0:
                raise Raise(DIVIDE)
            quotient = abs(a) // abs(b) * (1 if (a < 0) == (b < 0) else -1) if b else 0
            made = {"add": a + b, "sub": a - b, "mul": a * b, "div": quotient, "rem": a - quotient * b, "eq": int(a == b), "lt": int(a < b),
                    "le": int(a <= b), "and": a & b, "or": a | b, "xor": a ^ b}[word]
            stack[-2:] = [wrap(made)]
        elif word == "neg":
            stack[-1] = wrap(-stack[-1])
        elif word == "not":
            stack[-1] = int(stack[-1] == 0)
        elif word == "jump":
            following = n
        elif word in ("jz", "jnz"):
            if (stack.pop() == 0) == (word == "jz"):
                following = n
        elif word == "call":
            if len(self.frames) == FRAMES:
                raise Raise(DEPTH)
            args = self.program.functions[n][0]
            given = stack[len(stack) - args:]
            del stack[len(stack) - args:]
            self.enter_function(n, given)
            return True
        elif word == "ret":
            if len(self.frames) == 1:
                return False
            value = stack.pop()
            self.frames.pop()
            self.frames[-1]["stack"].append(value)
            self.frames[-1]["pc"] += 1
            return True
        elif word == "halt":
            return False
        elif word == "throw":
            raise Raise(n)
        elif word == "self":
            stack.append(self.t)
        elif word == "txbegin":
            self.saved = (len(self.frames), {**frame, "stack": list(stack), "locals": list(values)})
            self.attempt = ({}, {})
        elif word == "commit":
            if not inside:
                raise Raise(TX_STATE)
            end = self.end_attempt(True)
            if end == "raised":
                raise Raise(RACE)
            if end == "changed":
                self.start_again()
                return True
        elif word != "nop":
            self.ask(frame, word, n)
        frame["pc"] = following
        return True

    def ask(self, frame, word, n):
        stack = frame["stack"]
        if word in ("get", "vget", "enter", "exit"):
            o, d, data, v, volatile = self.reference(stack[-1])
        elif word in ("put", "vput"):
            o, d, data, v, volatile = self.reference(stack[-2])
        if word in ("get", "put") and n >= data or word in ("vget", "vput") and n >= volatile:
            raise Raise(NO_FIELD)
        if word == "get":
            stack[-1:] = [self.look(d + n) if self.attempt is not None else self.plain(d + n, False, None)]
        elif word == "put":
            if self.attempt is not None:
                self.touch(d + n)
                self.attempt[1][d + n] = stack[-1]
            else:
                self.plain(d + n, True, stack[-1])
            del stack[-2:]
        elif word == "vget":
            stack[-1:] = [self.sync("vread", v + n)[4]]
        elif word == "vput":
            self.sync("vwrite", v + n, stack[-1])
            del stack[-2:]
        elif word == "enter":
            self.sync("acq", o, 0)
            self.levels[o] = self.levels.get(o, 0) + 1
            stack.pop()
        elif word == "exit":
            self.sync("rel", o, 0, (NOT_OWNER, o))
            self.levels[o] -= 1
            stack.pop()
        elif word == "new":
            stack.append(self.sync("alloc", n, None, (HEAP_FULL, n))[4])
        elif word == "fork":
            e = self.peek()
            child = e[3] % 16 if e[0] == "sync" else 0
            self.sync("fork", child + 16 * n, stack[-1], (THREADS_FULL, 0))
            stack[-1:] = [child]
        elif word == "join":
            u = stack[-1]
            if u == self.t or not 0 <= u < THREADS:
                raise Raise(BAD_THREAD)
            self.sync("join", u, 0, (BAD_THREAD, u))
            stack.pop()
        elif word == "print":
            self.sync("print", 0, stack[-1])
            stack.pop()
        elif word == "input":
            stack.append(self.sync("input", 0, None, (INPUT_END, 0))[4])


# ---- the report ----

def report_of(lists, events):
    lines = [f"out {e[4]}" for _, e in events if e[0] == "sync" and e[2] == "print"]
    races = []
    for t in sorted(lists):
        for e in lists[t]:
            if e[0] == "plain" and e[6]:
                races.append(f"race {t} {e[1]} {'write' if e[4] else 'read'}")
            elif e[0] == "raised":
                races.append(f"race {t} {e[1]} commit")
    lines += races
    lines += [f"end {t} {e[1]}" for t in sorted(lists) for e in lists[t] if e[0] == "over"]
    return lines + [f"races {len(races)}"]


def check_ring(lists, events, segments, cells):
    lows = [e[1] for es in lists.values() for e in es if e[0] == "trim"]
    want(len(lows) == len(set(lows)), "two trims with one low")
    low = max(lows, default=0)
    want(low <= len(events) // cells and (not events or low + segments > (len(events) - 1) // cells), "the trims are not those of the ring")


def check(program_text, output, ring=(64, 64)):
    """raises Unlawful; answers the record's lists"""
    lines = output.splitlines()
    start = next((i for i, line in enumerate(lines) if line.startswith("record ")), None)
    want(start is not None, "no record")
    steps, lists = record_of(lines[start:])
    program = Program(program_text)
    want(0 in lists, "thread 0 has no list")
    for t, es in lists.items():
        check_form(t, es)
    check_once([e[1] for es in lists.values() for e in es if position(e) is not None], "positions")
    places, events = by_position(lists)
    numbers = {}
    for es in lists.values():
        for e in es:
            for x, k in draws(e):
                numbers.setdefault(x, []).append(k)
    for x, uses in numbers.items():
        check_once(uses, f"the numbers of variable {x}")
    check_machine(program, lists, events, places)
    check_races(lists, events, clocks_of(events))
    check_words(lists, events, places)
    for t, es in lists.items():
        Thread(program, steps, t, es).run()
    check_ring(lists, events, *ring)
    want(report_of(lists, events) == lines[:start], "the report is not that of the record")
    return lists


def main():
    with open(sys.argv[1]) as f:
        program = f.read()
    with open(sys.argv[2]) as f:
        output = f.read()
    try:
        check(program, output)
        print("lawful")
        return 0
    except Unlawful as fault:
        print(fault)
        return 8


if __name__ == "__main__":
    sys.exit(main())
