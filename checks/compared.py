#!/usr/bin/env python3
"""Prints what crates/gl_compare has to print, worked out apart from it: the traces are made by the rules of the trace language, and each
access is judged by vector clocks over all performed accesses, in which the program has no part. It takes a minute or two.
`checks/compared.py | diff - crates/gl_compare/stdout` compares."""


def join(one, other):
    return {u: max(one.get(u, 0), other.get(u, 0)) for u in one | other}


class State:
    """What the lines so far leave: threads, monitors, clocks, and the performed accesses of each variable."""

    def __init__(self):
        self.clocks = {0: {0: 1}}  # of each thread that was started: the events of each thread that it knows
        self.ended, self.owners = set(), {}
        self.monitors, self.volatiles, self.commits, self.performed = {}, {}, {}, {}

    def copy(self):
        other = State()
        other.clocks = {t: dict(c) for t, c in self.clocks.items()}
        other.ended, other.owners = set(self.ended), dict(self.owners)
        # these are replaced and never changed in place
        other.monitors, other.volatiles, other.commits = dict(self.monitors), dict(self.volatiles), dict(self.commits)
        other.performed = {x: list(ps) for x, ps in self.performed.items()}
        return other

    def is_sound(self, t, item):
        if t not in self.clocks or t in self.ended:
            return False
        if item[0] == "fork":
            return item[1] not in self.clocks
        if item[0] == "join":
            return item[1] != t and item[1] in self.clocks
        owner = self.owners.get(item[1], (t, 0)) if item[0] in ("acq", "rel") else (t, 1)
        return owner[0] == t and (item[0] != "rel" or owner[1] > 0)

    def event(self, t, known={}):
        """Thread t makes an event behind those that are known."""
        clock = self.clocks.setdefault(t, {})
        for u, n in known.items():
            clock[u] = max(clock.get(u, 0), n)
        clock[t] = clock.get(t, 0) + 1
        return dict(clock)

    def is_racy(self, t, x, writes, clock, commit):
        """A performed access of another thread, of which one writes and not both are of commits, is not known."""
        return any(
            u != t and (wrote or writes) and not (other and commit) and clock.get(u, 0) < needed
            for u, wrote, other, needed in self.performed.get(x, [])
        )

    def take(self, t, item):
        """Takes the line, and tells whether it is raised."""
        kind = item[0]
        if kind in ("rd", "wr"):
            if self.is_racy(t, item[1], kind == "wr", self.clocks[t], False):
                return True
            # it is known with the next event of its thread
            self.performed.setdefault(item[1], []).append((t, kind == "wr", False, self.clocks[t][t] + 1))
        elif kind == "commit":
            known = self.clocks[t]
            for x in item[1] | item[2]:
                known = join(known, self.commits.get(x, {}))
            if any(self.is_racy(t, x, x in item[2], known, True) for x in item[1] | item[2]):
                return True
            clock = self.event(t, known)
            for x in item[1] | item[2]:
                self.commits[x] = join(self.commits.get(x, {}), clock)
                # its event has edges to commits alone, so whoever knows it knows the access
                self.performed.setdefault(x, []).append((t, x in item[2], True, clock[t]))
        else:
            self.synchronize(t, kind, item[1])
        return False

    def synchronize(self, t, kind, i):
        if kind == "acq":
            self.owners[i] = (t, self.owners.get(i, (t, 0))[1] + 1)
            self.event(t, self.monitors.get(i, {}))
        elif kind == "rel":
            depth = self.owners.pop(i)[1] - 1
            if depth:
                self.owners[i] = (t, depth)
            self.monitors[i] = join(self.monitors.get(i, {}), self.event(t))
        elif kind == "vr":
            self.event(t, self.volatiles.get(i, {}))
        elif kind == "vw":
            self.volatiles[i] = join(self.volatiles.get(i, {}), self.event(t))
        elif kind == "fork":
            self.event(i, self.event(t))
        else:
            if i not in self.ended:
                self.ended.add(i)
                self.event(i)
            self.event(t, self.clocks[i])


def small_lines(all_commits):
    """All lines of two threads, one monitor, one volatile and two variables, with all commits or with those that have some variable and
    none that is both read and written."""
    sets = [frozenset(), frozenset({0}), frozenset({1}), frozenset({0, 1})]
    items = [(kind, x) for kind in ("rd", "wr", "fork", "join") for x in (0, 1)]
    items += [(kind, 0) for kind in ("acq", "rel", "vr", "vw")]
    items += [("commit", r, w) for r in sets for w in sets if all_commits or r | w and not r & w]
    return [(t, item) for t in (0, 1) for item in items]


def small(lines, state, left, raised):
    """How many sound traces there are with so many lines more, and how many of all their lines are raised."""
    if left == 0:
        return 1, raised
    traces, lines_raised = 0, 0
    for t, item in lines:
        if state.is_sound(t, item):
            after = state.copy()
            more, raised_more = small(lines, after, left - 1, raised + after.take(t, item))
            traces, lines_raised = traces + more, lines_raised + raised_more
    return traces, lines_raised


class Draws:
    """The generator of crates/gl_compare."""

    def __init__(self):
        self.state = 2463534242

    def below(self, most):
        self.state ^= self.state << 13 & 0xFFFFFFFF
        self.state ^= self.state >> 17
        self.state ^= self.state << 5 & 0xFFFFFFFF
        return self.state % most

    def bits(self):
        bits = self.below(64) & self.below(64)
        return frozenset(x for x in range(6) if bits >> x & 1)

    def item(self):
        kind = self.below(24)
        for most, name, ids in (
            (6, "rd", 6), (10, "wr", 6), (13, "acq", 3), (16, "rel", 3), (17, "vr", 2), (18, "vw", 2), (20, "fork", 4), (21, "join", 4),
        ):
            if kind < most:
                return (name, self.below(ids))
        return ("commit", self.bits(), self.bits())

    def trace(self):
        state, lines, raised = State(), 0, 0
        wanted = self.below(41) + 20
        for _ in range(400):
            t, item = self.below(4), self.item()
            if lines < wanted and state.is_sound(t, item):
                raised += state.take(t, item)
                lines += 1
        return lines, raised


def told(name, traces, lines, raised):
    print(f"{name}: {traces} traces, {lines} lines, {raised} raised")
    return traces, lines, raised


if __name__ == "__main__":
    kinds = []
    for name, length, all_commits in (("5 lines, commits of disjoint sets", 5, False), ("4 lines, all commits", 4, True)):
        traces, raised = small(small_lines(all_commits), State(), length, 0)
        kinds.append(told(name, traces, traces * length, raised))
    draws = Draws()
    drawn = [draws.trace() for _ in range(3000)]
    kinds.append(told("20 to 60 lines, drawn", len(drawn), sum(n for n, _ in drawn), sum(r for _, r in drawn)))
    print("all agree")
    told("the rows over all of them", *map(sum, zip(*kinds)))
