#!/usr/bin/env python3
"""Brings the names of definitions and lemmas to the spelling of the kit: snake case for words, camel case for types.

usage: python3 tools/snake_names.py [--list]      at the top of the repository, once, right after the kit's port.py

A name is ours where a file of specs/, or a lemma file of proofs/, declares it, or a record of ours has it as a field, or an
answer file declares it for itself. What the checker makes (goals, steps of a proof) keeps its name, and so does the library.
"""
import os
import re
import sys

# In snake case these lemmas on `bit` would have the names of the library's functions.
APART = {"bit-and": "bit_of_and", "bit-or": "bit_of_or", "bit-xor": "bit_of_xor"}
PART = r"[\w'?₀-₉-]"
DECLARED = re.compile(r"^\s*(?:(?:abbrev|unfoldable|pub)\s+)*(?:record |data )?«?([A-Za-z]" + PART + r"*)»?\s*(?:\([^:]*\)\s*|\{[^:]*\}\s*)*:(?!:)")
RECORD = re.compile(r"^\s*(?:pub )?(?:record|data) ([A-Z]" + PART + r"*)")
LET = re.compile(r"\b(?:let|in) ([a-z]" + PART + r"*-" + PART + r"*) [:=]")


def files(root):
    for folder, dirs, names in os.walk(root):
        dirs[:] = sorted(d for d in dirs if d != "out")
        for n in sorted(names):
            if n.endswith((".antt", ".rt", ".edit")):
                yield os.path.join(folder, n)


def own(path):
    return "/specs/" in path or re.search(r"crates/\w+/proofs/[^/]+\.antt$", path)


def new(name):
    if name in APART:
        return APART[name]
    if name[0].isupper():
        return "".join(p[:1].upper() + p[1:] for p in re.split("[-_]", name))
    name = name.replace("getD", "get_or")
    return re.sub(r"([a-z0-9])([A-Z])", lambda m: m.group(1) + "_" + m.group(2).lower(), name).replace("-", "_")


def main():
    texts = {f: open(f, encoding="utf-8").read() for f in files("crates")}
    names, made, library = {}, set(), set()
    for f, t in texts.items():
        for block in re.findall(r"use Rattle\.std\.[\w.+]*\.\{([^}]*)\}", t):
            library |= {w.strip() for w in block.split(",")}
        if not f.endswith(".antt"):
            continue
        for line in t.splitlines():
            m = RECORD.match(line) or DECLARED.match(line)
            if not m:
                continue
            n = m.group(1)
            if own(f):
                names.setdefault(n, f)
            elif re.search(r":\s*goal\.", line):
                made.add(n)
            else:
                names.setdefault(n, f)
    turn = {n: new(n) for n in names if new(n) != n and n not in made and n not in library}
    if "--list" in sys.argv:
        for n in sorted(turn):
            print(n, turn[n], names[n])
        print("kept, a goal or the library's:", sorted(n for n in names if new(n) != n and n not in turn))
        return
    word = re.compile(r"(?<![\w'?-])«?([A-Za-z]" + PART + r"*)»?")
    said = set()
    for f, t in texts.items():
        def one(m):
            n = m.group(1)
            if n not in turn:
                return m.group(0)
            return turn[n]
        u = word.sub(one, t)
        if u != t:
            open(f, "w", encoding="utf-8").write(u)
    all_words = {}
    for f, t in texts.items():
        for w in word.findall(t):
            all_words.setdefault(w, f)
    for n, k in sorted(turn.items()):
        if k in all_words and k not in turn.values() or k in library:
            said.add(f"look: {n} is {k} now, which was a name before, as in {all_words.get(k)}")
    fell = {}
    for n, k in turn.items():
        fell.setdefault(k, []).append(n)
    for k, ns in fell.items():
        if len(ns) > 1 or k in all_words:
            said.add(f"look: {ns} became {k}" + (f", in use before in {all_words[k]}" if k in all_words else ""))
    print("\n".join(sorted(said)))
    print(f"{len(turn)} names")


main()
