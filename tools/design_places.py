#!/usr/bin/env python3
"""Counts the places that docs/DESIGN-PASS.md speaks of. usage: tools/design_places.py [POINT..] [--list]

Prints a line for each kind of place of points 1 to 7, read from crates/*/src, and of point 8, from crates/*/proofs; --list names each place.
A name, a file and a line are enough to find one."""
import collections
import glob
import re
import sys

SOURCES = sorted(f for f in glob.glob("crates/*/src/**/*.rt", recursive=True))


def lines_of(path):
    with open(path) as file:
        return file.read().split("\n")


def bare(line):
    return "" if line.lstrip().startswith("//") else line


class Function:
    """A function: where it stands, its head up to the body's brace, and the lines of its body."""

    def __init__(self, path, at, head, body):
        self.path, self.at, self.head, self.body = path, at, head, body
        self.name = re.search(r"\bfn (\w+)", head).group(1)

    def place(self):
        return f"{self.path}:{self.at}: {self.name}"

    def parameters(self):
        inside = re.search(r"\bfn \w+(?:<[^(]*>)?\((.*?)\)(?: ->|\s*$|\s*\{|\s*\n)", self.head, re.S)
        text = inside.group(1) if inside else ""
        return [p.strip() for p in re.split(r",(?![^<(\[]*[>)\]])", text) if ":" in p]

    def facts(self):
        found = []
        for clause in re.findall(r"requires(?: \w+)? \{ (.*?) \}\n", self.head + "\n"):
            found += [f.strip().strip("()") for f in clause.split(" × ")]
        return found


def functions():
    for path in SOURCES:
        lines = lines_of(path)
        at = 0
        while at < len(lines):
            start = re.match(r"(\s*)(pub(\(crate\))? )?(unsafe )?(extern \"C\" )?fn \w+", lines[at])
            if not start or lines[at].rstrip().endswith(";"):
                at += 1
                continue
            indent = start.group(1)
            k = at
            while lines[k] != indent + "{" and not (lines[k].endswith("{") and not re.search(r"(requires|ensures)[ \w]*\{$", lines[k])):
                k += 1
            head = "\n".join(lines[at:k]) if lines[k] == indent + "{" else "\n".join(lines[at:k + 1]).rstrip("{ ")
            end = k + 1
            while lines[end] != indent + "}":
                end += 1
            yield Function(path, at + 1, head, lines[k + 1:end])
            at = end + 1


def enums():
    for path in SOURCES:
        text = "\n".join(lines_of(path))
        for m in re.finditer(r"(?m)^(?:pub )?enum (\w+)[^{]*\{\n((?:.*\n)*?)^\}", text):
            body = re.sub(r"(?m)^\s*//.*\n", "", m.group(2))
            variants = re.findall(r"(?m)^    (\w+)(\([^)]*\)|\s*\{(?:[^}]|\n)*?\})?,", body)
            yield f"{path}:{text[:m.start()].count(chr(10)) + 1}: {m.group(1)}", variants


def point1():
    like = []
    for place, variants in enums():
        loaded = [v for v in variants if v[1]]
        refused = [v for v in loaded if re.fullmatch(r"\((Refusal|Error|io::Error)\)", v[1])]
        if refused or (len(variants) == 2 and len(loaded) == 1):
            like.append(place)
    flags, handed = [], []
    for path in SOURCES:
        lines = lines_of(path)
        inside = None
        for n, line in enumerate(lines, 1):
            if re.match(r"(pub )?struct \w+", line):
                inside = line
            elif line.startswith("}"):
                inside = None
            elif inside and re.match(r"\s+(pub )?\w+: bool,", bare(line)):
                flags.append(f"{path}:{n}: {line.strip()}")
            m = re.match(r"\s*(?:\w+::)*(?:Refused|Err)\((\w+)\) => (?:return )?(?:\w+::)*(?:Refused|Err)\((\w+)\)[,;]?$", bare(line))
            if m and m.group(1) == m.group(2):
                handed.append(f"{path}:{n}: {line.strip()}")
    return [("enums of the shape of Option or Result", like), ("flags in a struct", flags), ("arms that only hand a refusal on", handed)]


def shape(function):
    """The body with each name, number and text replaced by its first place: what two functions that differ in those alone share."""
    words = {}
    out = []
    for token in re.findall(r"b?\"[^\"]*\"|b'.'|\w+|[^\w\s]", "\n".join(bare(l) for l in function.body)):
        if re.match(r"\w|b?\"|b'", token) and token not in ("if", "else", "while", "loop", "for", "in", "let", "mut", "return", "match", "as", "true", "false"):
            token = f"${words.setdefault(token, len(words))}"
        out.append(token)
    return " ".join(out)


def point2():
    groups = collections.defaultdict(list)
    for f in functions():
        if len([l for l in f.body if bare(l).strip()]) >= 4:
            groups[shape(f)].append(f.place())
    twins = [" = ".join(g) for g in groups.values() if len(g) > 1]
    return [("groups of functions of one shape, four lines and more", twins)]


def point3():
    counted, others = [], []
    for path in SOURCES:
        lines = lines_of(path)
        for n, line in enumerate(lines):
            m = re.match(r"(\s*)(while |loop \{)", line)
            if not m:
                continue
            end = n + 1
            while not lines[end].startswith(m.group(1) + "}"):
                end += 1
            inner = "\n".join(bare(l) for l in lines[n + 1:end])
            test = set(re.findall(r"\b(\w+)\b", line))
            steps = set(re.findall(r"\b(\w+) [+-]= \d+;", inner))
            moved = set(re.findall(r"\b(\w+) (?:[+-]= [a-z_]\w*|= )", inner))
            (counted if (steps & test) - moved else others).append(f"{path}:{n + 1}: {line.strip()}")
    return [("loops that count an index by hand", counted), ("other while and loop, which are no such places", others)]


def point4():
    casts, ladders, tests = [], [], []
    for f in functions():
        body = [bare(l).strip() for l in f.body if bare(l).strip()]
        if len(body) == 1 and re.fullmatch(r"\w+ as \w+", body[0]):
            casts.append(f.place())
        text = "\n".join(body)
        if re.search(r"-> bool", f.head) and re.search(r"if [^{]* \{\nreturn (true|false);\n\}", text) and not re.search(r"\b(while|for|loop)\b", text):
            ladders.append(f.place())
        if re.search(r"-> bool", f.head) and body and body[0].startswith("match ") and all(re.search(r"=> (true|false),$", l) or l in ("}", "true,", "false,") or not l.endswith(",") for l in body[1:]):
            if sum(l.endswith(("=> true,", "=> false,")) for l in body) >= 2:
                tests.append(f.place())
    return [("functions that only cast", casts), ("tests as a ladder of ifs", ladders), ("tests of an enum by a match", tests)]


def point5():
    facts, pairs = collections.defaultdict(list), collections.defaultdict(list)
    for f in functions():
        for fact in set(f.facts()):
            if re.match(r"[A-Z]\w+ ", fact):
                facts[re.sub(r"\.(now|old|entry)\b", "", fact)].append(f.place())
        ps = [re.sub(r"&'\w+ ", "&", p) for p in f.parameters()]
        for a in range(len(ps)):
            for b in range(a + 1, len(ps)):
                pairs[ps[a] + ", " + ps[b]].append(f.place())
    return [("facts in the contracts of three functions and more", [f"{k} ({len(v)})" for k, v in sorted(facts.items()) if len(v) > 2]),
            ("pairs of parameters that three functions and more have", [f"{k} ({len(v)})" for k, v in sorted(pairs.items()) if len(v) > 2])]


def point6():
    parts, tables = [], []
    for path in SOURCES:
        for n, line in enumerate(lines_of(path), 1):
            if re.search(r"&\w+\[(0)?\.\.(count|n|to|length|k)\]", bare(line)):
                parts.append(f"{path}:{n}: {line.strip()}")
    for f in functions():
        ps = f.parameters()
        slices = [p for p in ps if re.search(r": &(mut )?\[", p)]
        if len(slices) > 1 and re.search(r"bytes: &\[u8\].*(index|starts): &\[u16\]", ", ".join(slices)):
            tables.append(f.place())
    return [("parts of a buffer up to a length beside it", parts), ("functions that take two parallel tables", tables)]


def point7():
    switches = []
    for f in functions():
        body = [bare(l).strip() for l in f.body if bare(l).strip()]
        if body and re.match(r"match \w+ \{$", body[0]) and body[-1] == "}":
            arms = [l for l in body[1:-1]]
            calls = [re.fullmatch(r"[\w:]+(?:\(\w+\))? => [\w:]+\((.*)\),", l) for l in arms]
            if len(arms) > 1 and all(calls) and len({c.group(1) for c in calls}) == 1:
                switches.append(f.place())
    return [("matches that choose which call to make with the same arguments", switches)]


def point8():
    answers = [f for f in glob.glob("crates/*/proofs/**/Answers.antt", recursive=True)]
    held = sum(len(re.findall(r"(?m)^pub [\w-]+ : goal\.", "\n".join(lines_of(f)))) for f in answers)
    invariants = glob.glob("crates/*/proofs/**/Invariants.antt", recursive=True)
    lemmas = [f for f in glob.glob("crates/*/proofs/*.antt") if not f.endswith("Lib.antt")]
    lines = sum(len(lines_of(f)) for f in answers + invariants + lemmas)
    return [(f"answers in {len(answers)} files", [""] * held), ("files of invariants", invariants), ("files of lemmas", lemmas), ("lines of proofs", [""] * lines)]


def main():
    points = [point1, point2, point3, point4, point5, point6, point7, point8]
    wanted = [int(a) for a in sys.argv[1:] if a.isdigit()] or range(1, 9)
    for p in wanted:
        for kind, places in points[p - 1]():
            print(f"{p}. {kind}: {len(places)}")
            if "--list" in sys.argv:
                for place in places:
                    if place:
                        print("     " + place)


main()
