#!/usr/bin/env python3
"""Holds the user's guide and the page on Goldilocks against the code and the program, and prints what differs: the kinds of faults
and their names, the text of each kind and what is said of it, the sessions that are shown, and the program that embeds the detector."""
import os, re, subprocess, sys

TOP = os.path.join(os.path.dirname(os.path.abspath(__file__)), "..")
failures = []
passed = 0


def read(name):
    with open(os.path.join(TOP, name)) as text:
        return text.read()


def compare(what, wanted, came):
    global passed
    if wanted == came:
        passed += 1
    else:
        failures.append(f"failed: {what}\n wanted: {wanted!r}\n came:   {came!r}")


def goldi(words, text):
    run = subprocess.run([os.path.join(TOP, "goldi"), *words], input=text, stdout=subprocess.PIPE)
    return run.stdout.decode(), run.returncode


def constants(name, base):
    found = re.findall(r"^pub const ([A-Z_]+): u8 = (\d+);$", read(name), re.M)
    return {(base + int(number), kind.lower().replace("_", " ")) for kind, number in found if kind != "PROGRAM_FAULT_BASE"}


def rows(guide, heading):
    table = guide.split(heading + "\n\n")[1].split("\n\n")[0]
    return [[cell.strip() for cell in line.strip("|").split(" | ")] for line in table.split("\n")[2:]]


# the text of a cell: its lines, each between backquotes, or what a command writes
def text_of(cell):
    parts = re.findall("`([^`]*)`", cell)
    if cell.startswith("what "):
        return subprocess.run(["bash", "-c", parts[0]], stdout=subprocess.PIPE, check=True).stdout
    return "".join(part + "\n" for part in parts).encode()


def check_kinds(guide):
    told = [("check", row) for row in rows(guide, "What `check` refuses:")]
    told += [(command, row) for row in rows(guide, "What `list` and `run` refuse:") for command in ("list", "run")]
    told += [("audit", row) for row in rows(guide, "at only where the program has no fault:")]
    never = rows(guide, "What no text gives today:")
    named = {(int(row[0]), row[1]) for row in [row for _, row in told] + never}
    known = constants("crates/gl_text/src/kinds.rt", 0) | constants("crates/gl_bytecode/src/fault.rt", 40)
    compare("the kinds of the guide", sorted(known), sorted(named))
    for command, (kind, name, _, cell, says) in told:
        compare(f"the guide's kind {kind}, {name}", kind, says.strip("`").split()[2])
        compare(f"the guide's {cell} at {command}", (says.strip("`") + "\n", 4), goldi([command], text_of(cell)))


# each `$ ./goldi WORDS < FILE` of a page, with the file of the repository, or else the text that is shown before it; or `$ ./goldi WORDS`, with nothing
# to read
def check_sessions(page, said):
    shown = ""
    for kind, block in re.findall(r"^```(\w*)\n(.*?)^```$", said, re.M | re.S):
        session = re.match(r"\$ \./goldi ([^<\n]*\w)(?: < (\S+))?\n", block)
        if not session:
            shown = block
            continue
        words, name = session.groups()
        if name and os.path.exists(os.path.join(TOP, name)):
            compare(f"{name} in {page}", read(name), shown)
        wanted, _, status = block[session.end() :].partition("$ echo $?\n")
        text, came = goldi(words.split(), shown.encode() if name else b"")
        compare(f"the session of {words} on {name} in {page}", wanted, text)
        compare(f"the status of {words} on {name} in {page}", int(status or came), came)


def check_embedding(guide):
    code = re.search(r"^```rust\n(.*?)^```$", guide, re.M | re.S).group(1)
    source = re.sub(r"^ghost use .*\n", "", read("crates/gl_example/src/main.rt"), flags=re.M)
    compare("the guide's program that embeds the detector", re.sub("\n\n\n+", "\n\n", source), code)
    compare("what the guide says that it writes", True, f"```\n{read('crates/gl_example/stdout')}```\n" in guide)


guide = read("docs/guide.md")
check_kinds(guide)
check_sessions("the guide", guide)
check_sessions("the page on Goldilocks", read("docs/goldilocks.md"))
check_embedding(guide)
print("\n".join(failures + [f"{passed} passed, {len(failures)} failed"]))
sys.exit(1 if failures else 0)
