#!/usr/bin/env python3
"""Brings the repository's own definitions and lemmas to today's spelling: snake case for words, upper camel case for types.

usage: tools/respell.py [--list]     at the top of the repository, once, behind the kit's own port

A name is turned where it is declared in specs/ or proofs/ and wherever it is used: in .antt files, in the clauses, ghost items and comments of .rt
files, and between backticks in pages. Names of src/, strings, inputs and outputs stay. Proof files of the older form (they import a module Tie) name
goals by the kit's own words, so what only they declare stays too."""

import os
import re
import subprocess
import sys

TOKEN = re.compile(r"[^\s(){}\[\].,;:|\"`=λ→×∙\\/+*<>≡≤≢&]+")
DECLARED = re.compile(r"^\s*(?:(?:pub|abbrev|unfoldable)\s+)*([^\s(){}\[\].,;:\"=]+)((?:\s+[^\s(){}\[\].,;:\"=]+)*)\s+:\s")
CAMEL = re.compile(r"[a-z][a-z0-9]*(?:[A-Z]|$)")
WORDS = ("use", "let", "infix", "infixl", "infixr", "unfolding", "module", "where", "in", "open")
# types that were spelled as words
TYPES = {"leavesSome": "LeavesSome"}


def snake(name):
    name = name.replace("-", "_")
    name = re.sub(r"(?<=[a-z0-9'])([A-Z])", lambda m: "_" + m[1].lower(), name)
    return re.sub(r"_+", "_", name)


def turned(name):
    """The new spelling, or None where the old one stands."""
    if name.startswith("◌") or name.endswith("◌"):
        inner = name.strip("◌")
        return None if not re.search(r"[a-z]", inner) else ("◌" if name[0] == "◌" else "") + snake(inner) + ("◌" if name[-1] == "◌" else "")
    if not re.match(r"[A-Za-z]", name) or not re.search(r"[a-zA-Z]", name):
        return None
    if name[0].isupper():
        # a type keeps its capitals; a lemma that begins with one keeps the first word
        return name.replace("-", "_") if "-" in name else None
    if "-" not in name and not re.search(r"[a-z0-9][A-Z]", name):
        return None
    return snake(name)


def files(ending, folders=("crates",)):
    for top in folders:
        for folder, dirs, names in os.walk(top):
            dirs[:] = sorted(d for d in dirs if d not in ("out", ".git", "must-fail"))
            for n in sorted(names):
                if n.endswith(ending):
                    yield os.path.join(folder, n)


def read(path):
    with open(path, encoding="utf-8") as f:
        return f.read()


def aliases(text):
    """The names that a file gives to what it imports, as `trim as trimOf`: a word in snake case, a type or a constructor in camel case."""
    out = {}
    for m in re.finditer(r"use [^\s{}]+\.\{([^}]*)\}", text):
        for x in m[1].split(","):
            _, _, name = x.partition(" as ")
            name = name.strip()
            if name and name[0] != "◌":
                plain = name.replace("·", "-")
                if plain[0].isupper() and re.search(r"-[a-z]", plain) and not x.strip()[0].isupper():
                    plain = plain[0].lower() + plain[1:]
                new = snake(plain) if plain[0].islower() else "".join(p[0].upper() + p[1:] for p in plain.split("-"))
                if new != name:
                    out[name] = new
    return out


def older_form(text):
    return ".Tie as tie" in text


def declared(text):
    for line in text.split("\n"):
        m = DECLARED.match(line)
        if not m or m[1] in WORDS:
            continue
        for n in [m[1]] + m[2].split():
            yield n


def names():
    """Two tables, old to new: of all files, and of names that were in snake case already and are turned in .antt files alone. Where two names would
    fall together, the definition keeps the plain one, and the lemma gets _lem."""
    said = set()
    for path in files(".antt"):
        text = read(path)
        if not older_form(text):
            said.update(declared(text))
    out, inner = {}, {}
    for n in sorted(said):
        new = turned(n)
        if new and new != n:
            out[n] = new
            if n.startswith("◌") or n.endswith("◌"):
                out[n.strip("◌")] = new.strip("◌")
    by_new = {}
    for n, new in out.items():
        by_new.setdefault(new, []).append(n)
    for new, olds in by_new.items():
        lemmas = [n for n in olds if "-" in n]
        if len(olds) > 1 or (new in said and lemmas):
            for n in lemmas:
                out[n] = new + "_lem"
        if new in said and not lemmas:
            inner[new] = new + "_lem"
    out.update(TYPES)
    return out, inner


def from_libraries(text, own):
    """The names that a file imports from elsewhere: they are not the repository's."""
    out = set()
    for m in re.finditer(r"use ([^\s{}]+)\.\{([^}]*)\}", text):
        parts = m[1].split(".")
        if parts[0] != "Rattle" or parts[1] not in own:
            out.update(w for x in m[2].split(",") for w in x.replace(" as ", " ").split())
    return out


def parts_antt(text):
    """Pieces of an .antt text: (kind, piece) with kind code, comment or string."""
    for m in re.finditer(r'"(?:[^"\\\n]|\\.)*"|--[^\n]*|(?:[^"-]|-(?!-))+|.', text, re.S):
        p = m[0]
        yield ("string" if p[0] == '"' and len(p) > 1 else "comment" if p.startswith("--") else "code"), p


def parts_rt(text):
    i, n, start = 0, len(text), 0
    while i < n:
        kind = None
        if text.startswith("//", i):
            j = text.find("\n", i)
            j = n if j < 0 else j
            kind = "comment"
        elif text[i] == '"' or (text[i] in "br" and re.match(r'(?:br|b|r)#*"', text[i:i + 8]) and (i == 0 or not (text[i - 1].isalnum() or text[i - 1] == "_"))):
            m = re.match(r'(br|b|r)?(#*)"', text[i:])
            j = i + m.end()
            if m[1] in ("r", "br"):
                e = text.find('"' + m[2], j)
                j = n if e < 0 else e + 1 + len(m[2])
            else:
                while j < n and text[j] != '"':
                    j += 2 if text[j] == "\\" else 1
                j += 1
            kind = "string"
        elif text[i] == "'" and (m := re.match(r"'(?:\\(?:u\{[0-9a-fA-F_]+\}|x[0-9a-fA-F]{2}|.)|[^'\\\n])'", text[i:i + 14])):
            j = i + m.end()
            kind = "string"
        if kind:
            if start < i:
                yield "code", text[start:i]
            yield kind, text[i:j]
            i = start = j
        else:
            i += 1
    if start < n:
        yield "code", text[start:]


def turn_tokens(piece, table):
    """Each name of the table; a name in snake case only where it stands alone, and not as a part of a path."""

    def new(m):
        to = table.get(m[0])
        if to is None or (to == m[0] + "_lem" and (piece[: m.start()].endswith(".") or piece[m.end() :].startswith("."))):
            return m[0]
        return to

    return TOKEN.sub(new, piece)


def turn_comment(piece, table):
    """Names between backticks, and camel case anywhere: no word of English has it."""
    bare = {k: v for k, v in table.items() if "-" not in k}
    out = []
    for k, p in enumerate(piece.split("`")):
        out.append(turn_tokens(p, table if k % 2 else bare))
    return "`".join(out)


def turn(text, table, parts):
    return "".join(p if k == "string" else turn_comment(p, table) if k == "comment" else turn_tokens(p, table) for k, p in parts(text))


def main():
    table, inner = names()
    if "--list" in sys.argv:
        for n, new in sorted((table | inner).items()):
            print(n, new)
        return
    own = set(os.listdir("crates"))
    for ending, parts in ((".antt", parts_antt), (".rt", parts_rt)):
        for path in files(ending):
            text = read(path)
            skip = from_libraries(text, own)
            if older_form(text):
                skip |= set(declared(text))
            use = {k: v for k, v in (table | inner if ending == ".antt" else table).items() if k not in skip} | aliases(text)
            new = turn(text, use, parts)
            if new != text:
                with open(path, "w", encoding="utf-8") as f:
                    f.write(new)
    pages = [p for p in ["README.md"] + list(files(".md", ("docs", "facts", "oracle"))) if os.path.exists(p)]
    for path in pages:
        text = read(path)
        new = "`".join(turn_tokens(p, table) if k % 2 else p for k, p in enumerate(text.split("`")))
        if new != text:
            with open(path, "w", encoding="utf-8") as f:
                f.write(new)
    for c in sorted(os.listdir("crates")):
        if os.path.isdir(os.path.join("crates", c, "src")):
            subprocess.run(["rt", "fmt"], cwd=os.path.join("crates", c), stdout=subprocess.DEVNULL)


main()
