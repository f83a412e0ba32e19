#!/usr/bin/env python3
"""How much a reader has to believe of each claim: the definitions that its statement names, and those that these name, and so on.

Counted are the lines of those definitions in crates/*/specs, each once, without comments and empty lines. The structs and enums of the
code that they name, and std's words, are not counted. `docs/believed.py --write` puts the table into docs/definitions.md, between the
marks; `--check` says where a claim has grown since; `docs/believed.py CRATE FILE NAME..` lists the definitions of a claim by file."""
import collections, glob, os, re, sys

TOP = os.path.join(os.path.dirname(os.path.abspath(__file__)), "..")
PAGE = os.path.join(TOP, "docs", "definitions.md")
BEGIN, END = "<!-- believed: made by docs/believed.py -->", "<!-- believed: end -->"

# A claim in words, and the names of its statement: their crate, their file of specs/ and they.
CLAIMS = [
    ("what `check` answers", [("gl_run", "Check", "ChecksText")]),
    ("what `list` answers", [("gl_run", "Listed", "ListsText")]),
    ("what `run` answers", [("gl_run", "Runs", "RunsText")]),
    ("what `load` answers", [("gl_run", "Loads", "AnswersLoad")]),
    ("what `audit` answers", [("gl_run", "Audits", "AuditsText")]),
    ("what `explain --run` answers", [("gl_pages", "Answers", "ExplainsAudit")]),
    ("what words that are no command are answered, and which are one",
     [("gl_run", "Command", "AnswersUsage"), ("gl_run", "Words", "command_of")]),
    ("all that `goldi` promises",
     [("gl_run", "Command", name) for name in ("HasCauses", "HasLeft", "Serves")] + [("gl_run", "Words", "command_of")]),
]

HEAD = re.compile(r"(?:abbrev |unfoldable |pub )*(?:record |data )?([^\s:(]+)")


def read_file(crate, module, path, bodies, imports):
    """The definitions of one file, by name, and what its `use` lines bring in."""
    names, name = {}, None
    for line in open(path, encoding="utf-8"):
        used = re.match(r"(?:pub )?use Rattle\.(\w+)\.specs\.(.+)\.\{(.*)\}", line)
        if used:
            for item in used.group(3).split(","):
                told, _, here = item.strip().partition(" as ")
                names[here or told] = (used.group(1), used.group(2), told)
        if line.startswith("use ") or used:
            name = None
        elif re.match(r"(abbrev|unfoldable|pub|record|data)\b", line):
            name = HEAD.match(line).group(1)
        if name and line.strip() and not line.strip().startswith("--"):
            bodies[(crate, module, name)].append(line)
    imports[(crate, module)] = names


def definitions():
    bodies, imports = collections.defaultdict(list), {}
    for path in sorted(glob.glob(os.path.join(TOP, "crates", "*", "specs", "**", "*.antt"), recursive=True)):
        crate, module = re.search(r"crates/([^/]+)/specs/(.+)\.antt$", path).groups()
        read_file(crate, module.replace("/", "."), path, bodies, imports)
    return bodies, imports


def reached(claim, bodies, imports):
    seen, todo = set(), list(claim)
    while todo:
        key = todo.pop()
        if key in seen or key not in bodies:
            continue
        seen.add(key)
        for word in set(re.findall(r"[^\s(){}\[\];,.λ]+", "".join(bodies[key]))):
            here = (key[0], key[1], word)
            todo.append(here if here in bodies else imports[key[:2]].get(word, (None, None, None)))
    return seen


def counts():
    bodies, imports = definitions()
    rows = []
    for words, claim in CLAIMS:
        assert all(key in bodies for key in claim), claim
        seen = reached(claim, bodies, imports)
        rows.append((words, sum(len(bodies[key]) for key in seen), len(seen)))
    return rows


def table(rows):
    cells = [f"| {words} | {lines:,} | {held} |" for words, lines, held in rows]
    return "\n".join(["| Claim | Lines | Definitions |", "|---|---|---|"] + cells)


def parts():
    with open(PAGE, encoding="utf-8") as text:
        head, _, rest = text.read().partition(BEGIN)
    return head, rest.partition(END)[0], rest.partition(END)[2]


def check():
    stated = {words: int(lines.replace(",", "")) for words, lines in re.findall(r"^\| (.*) \| ([\d,]+) \| \d+ \|$", parts()[1], re.M)}
    grown = [f"{words}: {lines} lines, where docs/definitions.md says {stated.get(words)}"
             for words, lines, _ in counts() if lines > stated.get(words, -1)]
    sys.exit("\n".join(grown + ["docs/believed.py --write"]) if grown else 0)


def by_file(claim):
    bodies, imports = definitions()
    files = collections.defaultdict(list)
    for key in reached(claim, bodies, imports):
        files[key[:2]].append(key)
    for (crate, module), keys in sorted(files.items()):
        print(f"{sum(len(bodies[k]) for k in keys):5}  {crate}/specs/{module}.antt: {', '.join(sorted(k[2] for k in keys))}")


if __name__ == "__main__":
    if sys.argv[1:] == ["--write"]:
        head, _, tail = parts()
        with open(PAGE, "w", encoding="utf-8") as text:
            text.write(head + BEGIN + "\n" + table(counts()) + "\n" + END + tail)
    elif sys.argv[1:] == ["--check"]:
        check()
    elif len(sys.argv) > 3:
        by_file([(sys.argv[1], sys.argv[2], name) for name in sys.argv[3:]])
    else:
        print(table(counts()))
