#!/usr/bin/env python3
"""Respells this repository's own definitions and lemmas as today's Rattle does: words in snake case, types in camel case.

usage: python3 tools/respell.py [--look]      at the top of the repository, once, after port.py

A name is respelled if a line of specs/ or proofs/ defines it and it has a dash: a name whose type ends in `Type 0`, or of a record or
data, goes to camel case, any other to snake case. Names that Rattle makes (answers, invariants, measures) and names of the library keep
their spelling, and so do strings and, but for types, the words of comments. Pages of docs/ follow where they quote a name. With --look nothing is written; names that would fall together are listed.
"""

import os
import re
import sys

NAME = r"[^\s(){}\[\];.,\"`«»⟨⟩]+"
HEAD = re.compile(r"^(\s*)((?:(?:abbrev|unfoldable|data|record|ruleset|pub) )*)(" + NAME + r")((?: [({].*| )?)(:|where|$)")
# A name that would fall together with another one.
OTHERWISE = {"No-step": "HasNoStep"}
# Names of the library that a file of the repository takes from there.
TAKEN = re.compile(r"use ((?:Rattle|denote|borrow|logic|Prim|lib|mathlib)[\w.·]*)\.\{([^}]*)\}")


def texts():
    for folder, dirs, files in os.walk("crates"):
        dirs[:] = sorted(d for d in dirs if d != "out")
        for f in sorted(files):
            if f.endswith((".antt", ".rt")):
                yield os.path.join(folder, f)


def own():
    return sorted(os.listdir("crates"))


def read(path):
    with open(path, encoding="utf-8") as f:
        return f.read()


def definitions(files):
    """Each name with a dash that a line defines, with the text of what it is."""
    found = {}
    for path in files:
        if not path.endswith(".antt"):
            continue
        for line in read(path).split("\n"):
            m = HEAD.match(line)
            if not m:
                continue
            name, words = m.group(3), m.group(2).split()
            if "-" not in name.strip("-") or line.lstrip().startswith(("use ", "--", "|", "λ")):
                continue
            if m.group(5) != ":" and not ("record" in words or "data" in words):
                continue
            if re.search(r": (goal|Given|Goals)\.", line):
                found.setdefault(name, []).append((path, "made", line))
                continue
            kind = "type" if {"record", "data"} & set(words) or re.search(r"Type 0( where)?$", line) else "word"
            found.setdefault(name, []).append((path, kind, line))
    return found


def new_name(name, kind):
    if name in OTHERWISE:
        return OTHERWISE[name]
    if kind == "type":
        return "".join(w[:1].upper() + w[1:] for w in name.split("-"))
    return name.replace("-", "_")


def library(text):
    """The names that the text takes from the library."""
    names = set()
    crates = own()
    for m in TAKEN.finditer(text):
        head = m.group(1).split(".")
        if head[0] == "Rattle" and len(head) > 1 and head[1] in crates:
            continue
        for n in m.group(2).split(","):
            names.add(n.split(" as ")[0].strip())
    return names


def main():
    look = "--look" in sys.argv
    files = list(texts())
    found = definitions(files)
    taken = set().union(*(library(read(path)) for path in files))
    table, odd = {}, []
    for name, places in sorted(found.items()):
        kinds = {k for _, k, _ in places}
        if kinds == {"made"}:
            continue
        if "made" in kinds or len(kinds) > 1:
            odd.append((name, places))
        if name in taken:
            odd.append((name, "other files take it from the library: they keep it"))
        table[name] = new_name(name, "type" if "type" in kinds else "word")
    tokens = {}
    for path in files:
        for t in set(re.findall(NAME, read(path))):
            tokens.setdefault(t, []).append(path)
    falls = {n: t for n, t in table.items() if t in tokens}
    twice = {}
    for n, t in table.items():
        twice.setdefault(t, []).append(n)
    twice = {t: ns for t, ns in twice.items() if len(ns) > 1}
    print(f"{len(table)} names; {len(falls)} have a spelling that stands already; {len(twice)} fall together")
    for t, ns in sorted(twice.items()):
        print(f"together: {t}: {ns}")
    for n, t in sorted(falls.items()):
        print(f"stands: {n} -> {t}: {sorted(set(tokens[t]))[:6]} ({len(tokens[t])})")
    for name, places in odd:
        print(f"odd: {name}: {places}")
    if look:
        return
    token = re.compile(r"(?:--|//) .*|\"(?:[^\"\\\n]|\\.)*\"|" + NAME)

    def turned(m, kept):
        text = m.group(0)
        if text[0] == '"' or text in kept:
            return text
        if text.startswith(("-- ", "// ")):
            return re.sub(NAME, lambda w: table.get(w.group(0), w.group(0)) if w.group(0)[0].isupper() else w.group(0), text)
        return table.get(text, text)

    changed = 0
    for path in files:
        old = read(path)
        kept = library(old)
        new = token.sub(lambda m: turned(m, kept), old)
        if new != old:
            with open(path, "w", encoding="utf-8") as f:
                f.write(new)
            changed += 1
    print(f"{changed} files changed")
    pages = ["README.md"] + ["docs/" + f for f in sorted(os.listdir("docs")) if f.endswith(".md")]
    for path in pages:
        old = read(path)
        new = re.sub(r"`[^`\n]*`", lambda q: re.sub(NAME, lambda m: table.get(m.group(0), m.group(0)), q.group(0)), old)
        if new != old:
            with open(path, "w", encoding="utf-8") as f:
                f.write(new)
            print(f"page {path}")


main()
