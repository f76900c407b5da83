#!/usr/bin/env python3
"""Counts the places that docs/DESIGN-PASS.md speaks of: python3 tools/places.py [--list] [COMMIT].

Without a commit the files as they lie are read. --list prints each place.
"""
import collections
import re
import subprocess
import sys

arguments = [a for a in sys.argv[1:] if a != "--list"]
listed = "--list" in sys.argv
commit = arguments[0] if arguments else None


def run(*command):
    return subprocess.run(command, capture_output=True, text=True, check=True).stdout


if commit:
    names = run("git", "ls-tree", "-r", "--name-only", commit, "crates").split("\n")
else:
    names = run("git", "ls-files", "crates").split("\n")


def text(name):
    if commit:
        return run("git", "show", f"{commit}:{name}")
    try:
        return open(name).read()
    except FileNotFoundError:
        return ""


sources = {n: text(n) for n in names if re.match(r"crates/\w+/src/.*\.rt$", n)}
antt = {n: text(n) for n in names if re.match(r"crates/\w+/(specs|proofs)/.*\.antt$", n)}


def closing(s, at):
    depth = 1
    while depth:
        depth += {"(": 1, ")": -1}.get(s[at], 0)
        at += 1
    return at - 1


class Function:
    def __init__(self, name, file, parameters, head, body):
        self.name, self.file, self.parameters, self.head, self.body = name, file, parameters, head, body

    def __str__(self):
        return f"{self.file[7:]} {self.name}"


functions = []
for file, s in sources.items():
    for m in re.finditer(r"^( *)(?:pub )?(?:const )?fn (\w+)(?:<[^(]*>)?\(", s, re.M):
        end = closing(s, m.end())
        parameters = [p.strip() for p in re.split(r",(?![^\[<]*[\]>])", re.sub(r"\s+", " ", s[m.end():end])) if p.strip()]
        opening = re.compile(r"(^|[^\n])\{\n|^%s\{\n" % m.group(1), re.M)
        stop = s.find("\n" + m.group(1) + "}", end)
        body_at = s.find("\n" + m.group(1) + "{\n", end)
        if body_at < 0 or body_at > stop:
            body_at = s.find("{\n", end)
        functions.append(Function(m.group(2), file, parameters, s[end:body_at], s[body_at:stop]))

rows = []


def row(point, what, places):
    rows.append((point, what, list(places)))


row("1", "enums with a variant that holds something", (
    f"{f[7:]} {m.group(1)}" for f, s in sources.items() for m in re.finditer(r"^ *(?:pub )?enum (\w+) \{([^}]*)\}", s, re.M)
    if "(" in m.group(2)))
row("1", "fields that are bool", (
    f"{f[7:]} {m.group(1)}" for f, s in sources.items() for m in re.finditer(r"^ +(?:pub )?(\w+): bool,$", s, re.M)))
row("1", "arms that hand a refusal on", (
    f"{f[7:]} {m.group(0).strip()}" for f, s in sources.items()
    for m in re.finditer(r"^ *(?:\w+::)?(?:Refused|Met|Err)\((\w+)\) => (?:fault|(?:\w+::)?(?:Refused|Met|Err)\(\1\)),$", s, re.M)))
row("2", "names that tell a size", (
    f for f in functions if re.search(r"[0-9]|_(two|three|four|high|low)$", f.name)))
shapes = collections.defaultdict(list)
for f in functions:
    shape = re.sub(r"\b[a-z_]\w*\b", "x", re.sub(r"\b[0-9][0-9a-fx_.]*\b", "0", re.sub(r"//.*", "", f.body)))
    shape = re.sub(r"\s+", "", shape)
    if len(shape) > 40:
        shapes[shape].append(f)
row("2", "functions whose bodies differ in names and numbers alone", (
    " = ".join(map(str, fs)) for fs in shapes.values() if len(fs) > 1))
row("3", "while", (f"{f[7:]} {m.group(0).strip()}" for f, s in sources.items() for m in re.finditer(r"^ *('\w+: )?while .*$", s, re.M)))
row("3", "for over a range", (f"{f[7:]} {m.group(0).strip()}" for f, s in sources.items() for m in re.finditer(r"^ *for \w+ in .*\.\..*$", s, re.M)))
row("4", "names of what std has", (
    f for f in functions
    if re.fullmatch(r"(is_)?(un)?equal|same|least?|lesser|greater|copy\w*|clear|fill|block_length|wrong_bits|has_value", f.name)))
row("4", "tests that end in true or false", (
    f"{f[7:]}" for f, s in sources.items() for m in re.finditer(r"^ +return true;$", s, re.M)))
row("5", "functions of seven parameters or more", (f"{f} {len(f.parameters)}" for f in functions if len(f.parameters) > 6))
facts = collections.Counter()
for f in functions:
    head = re.sub(r"\s+", " ", f.head)
    for clause in re.findall(r"requires (?:\w+ )?\{ (.*?) \}(?= ensures| requires|$| $)", head):
        for fact in clause.split(" × "):
            facts[re.sub(r"\.(now|old)\b", "", fact.strip("() "))] += 1
row("5", "facts in three contracts or more", (f"{n} {k}" for k, n in facts.most_common() if n > 2))
row("6", "a slice and a count of it", (
    f for f in functions
    if any("[" in p for p in f.parameters) and any(re.match(r"(count|n|len): usize", p) for p in f.parameters)))
row("6", "slices that are read side by side", (
    f for f in functions if {"marks", "mark_refs"} <= {p.split(":")[0] for p in f.parameters}
    or {"offs", "refs"} <= {p.split(":")[0] for p in f.parameters}
    or {"ar", "ai"} <= {p.split(":")[0] for p in f.parameters}
    or {"re", "im"} <= {p.split(":")[0] for p in f.parameters if "[" in p}))
row("7", "matches on a kind, and sizes told apart by if", (
    f"{f[7:]} {m.group(0).strip()}" for f, s in sources.items()
    for m in re.finditer(r"^ *(match (sum|kind|order|rule) \{|if (w|size) == [0-9]+ \{)$", s, re.M)))
row("8", "answers", (f"{f[7:]} {m.group(1)}" for f, s in antt.items() if f.endswith("Answers.antt") for m in re.finditer(r"^pub (\S+) :", s, re.M)))
row("8", "measures and invariants", (f"{f[7:]} {m.group(1)}" for f, s in antt.items() if f.endswith("Invariants.antt") for m in re.finditer(r"^abbrev pub (\S+) :", s, re.M)))

for point, what, places in rows:
    print(f"{point}  {len(places):5}  {what}")
    if listed:
        for p in places:
            print(f"            {p}")
