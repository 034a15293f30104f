#!/usr/bin/env python3
"""Spells the names that this repository's specs/ and proofs/ declare as today's Rattle does: words in snake case.

usage: python3 tools/snake_names.py [--look]      at the top of the repository, once, right after port.py

Turned are names with a dash or in lower camel case that a file of crates/*/specs or crates/*/proofs declares (definitions, lemmas, fields, labels of a
`let`). Types, modules and names that a file imports from a library stay as they are, and so do the names that a function's Proof.antt declares. In .rt files
the names of clauses and `ghost use` items turn, in pages of docs/ what stands between backticks. OTHER has the names that would fall together with another.
--look writes nothing and lists the names that fall together.
"""

import os
import re
import subprocess
import sys

NAME = r'[^\s(){}.;,@"«»`]+'
DECLARED = re.compile(
    r"(?m)^ *(?:(?:pub|abbrev|unfoldable|let) )*(" + NAME + r")(?: \{[^{}\n]*\})* :"
)
BOUND = re.compile(r"\blet (" + NAME + r") (?:=|:)")
USE = re.compile(r"\buse ([^\s;{]+)\.\{([^}]*)\}")
LIBRARY = re.compile(
    r"^(Prim|native|mathlib|lib|borrow|mir|denote|logic|antt|seplogic|Rattle\.(std|core)\b)"
)

# lemmas of the name that a definition gets: they get the ending that today's names give a lemma that would have its function's name
OTHER = {"too_far": "too_far_lem", "too_short": "too_short_lem", "one_on": "one_on_lem", "ended_at": "ended_at_lem"}


def snake(name):
    name = re.sub(r"(?<=[a-z0-9₀-₉])[A-Z]", lambda m: "_" + m[0].lower(), name)
    return name.replace("-", "_")


def is_turned(name):
    return bool(
        re.search(r"[\w₀-₉']-[\w]", name) or re.match(r"[a-z][a-z0-9_]*[A-Z]", name)
    ) and not name[0].isupper()


def files(*endings):
    listed = subprocess.run(
        ["git", "ls-files", "--cached", "--others", "--exclude-standard"], capture_output=True, text=True, check=True
    ).stdout.split("\n")
    return [f for f in listed if f.endswith(endings) and os.path.exists(f) and "/out/" not in f]


def is_function_proof(path):
    return bool(re.search(r"/proofs/.+/(Proof|Answers|Invariants)\.antt$", path))


def bare(text):
    return re.sub(r"--.*", "", text)


def read(path):
    with open(path, encoding="utf-8") as f:
        return f.read()


def declared():
    found = set()
    for path in files(".antt"):
        if is_function_proof(path):
            continue
        text = bare(read(path))
        found |= {m[1] for m in DECLARED.finditer(text)}
        found |= {m[1] for m in BOUND.finditer(text)}
    table = {n: snake(n) for n in found if is_turned(n)}
    camel = {s for n, s in table.items() if "-" not in n}
    for n, s in table.items():
        if "-" in n and s in camel:
            table[n] = s + "_lem"
    return OTHER | table


def from_library(text):
    names = set()
    for m in USE.finditer(text):
        if LIBRARY.match(m[1]):
            for item in m[2].split(","):
                names.add(item.strip().split(" as ")[0].split(".")[-1].strip())
    # a module's path written with each name, as in the files of specs/
    for m in re.finditer(r"\buse ([^\s;{]+)\.\{([^}]*)\}", text):
        if LIBRARY.match(m[1]):
            for item in m[2].split(","):
                names |= set(item.strip().split("."))
    return names


def turn(text, table, staying):
    def one(m):
        return table[m[0]] if m[0] in table and m[0] not in staying else m[0]

    return re.sub(NAME, one, text)


def look(table):
    for path in files(".antt", ".rt"):
        text = bare(read(path))
        words = set(re.findall(NAME, text))
        here = {o for o in words if o in table} - from_library(text)
        meeting = {o: table[o] for o in here if table[o] in words}
        twice = {}
        for o in here:
            twice.setdefault(table[o], []).append(o)
        for o, n in sorted(meeting.items()):
            print(f"{path}: {o} -> {n}, which stands there")
        for n, os_ in sorted(twice.items()):
            if len(os_) > 1:
                print(f"{path}: {' and '.join(sorted(os_))} -> {n}")


def main():
    table = declared()
    if "--look" in sys.argv:
        look(table)
        print(len(table), "names")
        return
    changed = 0
    for path in files(".antt", ".rt"):
        text = read(path)
        new = turn(text, table, from_library(bare(text)))
        if new != text:
            changed += 1
            with open(path, "w", encoding="utf-8") as f:
                f.write(new)
    for path in files(".md"):
        text = read(path)
        new = re.sub(r"`[^`\n]+`", lambda m: turn(m[0], table, set()), text)
        if new != text:
            changed += 1
            with open(path, "w", encoding="utf-8") as f:
                f.write(new)
    print(f"{len(table)} names, {changed} files")


main()
