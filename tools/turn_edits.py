#!/usr/bin/env python3
"""Turns the must-fail edits to today's spelling: crates/*/must-fail/*.edit, which neither port.py nor snake_names.py turns.

usage: python3 tools/turn_edits.py OLDER [--look]      at the top of the repository, with OLDER a checkout of the tree that the edits were written for

An `old:` text that stands once in OLDER's file is to stand once in today's. A text that still does stays. Any other is turned as the two scripts turned the
files: names in snake case, `x.f` written tight, `now` and `.entry` of a borrow as `.now`, `.old` and `.new`, paths and operators as today's library has them.
The `new:` text is turned alike, a name only where today's file doesn't hold it as it was, and so is the law that a line `# breaks: FILE LAW` names: where
that line names a function's proof, today's goal is written by hand. What no rule turns is listed and left. What is turned, by this or by hand, stays as it
is when this runs again. --look writes nothing.
"""

import glob
import os
import re
import sys

TOKEN = re.compile(r"[(){}\[\],;]|\s+|[^\s(){}\[\],;]+")
WORD = re.compile(r"[^\s(){}\[\],;.«»`]+")
OPENING, CLOSING = "({[", ")}]"
# tokens at which the operand of a projection ends, to its left
BETWEEN = set("= ≡ ≢ → ↔ × ⊎ ∷ + - * / % ^ < ≤ <= ++ : λ . ∸ && || ↦".split()) | {",", ";"}
PATHS = [
    (re.compile(r"Rattle·(\w+)·(specs|proofs)\.\2"), r"Rattle.\1.\2"),
    (re.compile(r"Rattle·(\w+)"), r"Rattle.\1"),
    (re.compile(r"\bthe-variants\b"), "TheVariants"),
    (re.compile(r"(?<![\w.])Prim\.Native\.Nat\b"), "Rattle.std.specs.Prelude"),
    (re.compile(r"(?<=[{.,\s])_([^\s\w_,{}.]+)_(?=[},\s.]|$)"), r"◌\1◌"),
]


# names of the library that have another name today
LIBRARY = {"getD": "get_or"}


def snake(name):
    name = re.sub(r"(?<=[a-z0-9₀-₉])[A-Z]", lambda m: "_" + m[0].lower(), name)
    return re.sub(r"(?<=[\w'])-(?=\w)", "_", name)


def read(path):
    with open(path, encoding="utf-8") as f:
        return f.read()


def words_of(text):
    return set(WORD.findall(re.sub(r"--.*", "", text)))


def respelled(text, here, anywhere):
    """Names as today's files have them: `here` are the words of the file, `anywhere` those of all."""

    def one(m):
        word = m[0]
        for name in (word, word.replace("′", "'").replace("″", "''")):
            for it in (name, snake(name), snake(name) + "_lem", LIBRARY.get(name)):
                if it in here:
                    return it
        return snake(word) if snake(word) in anywhere else word

    return WORD.sub(one, re.sub(r"[«»]|⌜ | ⌝", "", text))


def tight(text):
    """`f x .g` as `(f x).g`, `x .g` as `x.g`."""
    out = []
    for token in TOKEN.findall(text):
        if not re.fullmatch(r"\.[^\s.]+", token) or not out or not out[-1].isspace():
            out.append(token)
            continue
        out.pop()
        depth, at = 0, len(out)
        while at and not (depth == 0 and (out[at - 1] in BETWEEN or out[at - 1] in OPENING)):
            depth += (out[at - 1] in CLOSING) - (out[at - 1] in OPENING)
            at -= 1
        while at < len(out) and out[at].isspace():
            at += 1
        whole = "".join(out[at:])
        parts, depth = 0, 0
        for one in out[at:]:
            parts += depth == 0 and one not in CLOSING and not one.isspace()
            depth += (one in OPENING) - (one in CLOSING)
        out[at:] = [whole + token if parts == 1 else f"({whole}){token}"]
    return "".join(out)


def bare(text):
    """`f (x.g)` as `f x.g`: a projection needs no brackets of its own."""
    out = TOKEN.findall(text)
    for at in range(len(out)):
        if out[at] != "(" or at and not (out[at - 1].isspace() or out[at - 1] in OPENING):
            continue
        depth, end = 1, at + 1
        while end < len(out) and depth:
            depth += (out[end] in OPENING) - (out[end] in CLOSING)
            end += 1
        inside = "".join(out[at + 1 : end - 1])
        if not depth and re.fullmatch(r"[\w']+(\.\w+)+|\((?:[^()]|\([^()]*\))*\)(\.\w+)+", inside) and not (end < len(out) and out[end].startswith(".")):
            out[at] = out[end - 1] = ""
    return "".join(out)


def borrows(text):
    """`now x` and `now (x .entry)` as `x.now`, `x.old` and `x.new`."""
    text = re.sub(r"\(now \(([\w']+)\.entry\)\)|\bnow \(([\w']+)\.entry\)", lambda m: (m[1] or m[2]) + ".old", text)
    text = re.sub(r"\(now \(([\w']+)\.exit\)\)|\bnow \(([\w']+)\.exit\)", lambda m: (m[1] or m[2]) + ".new", text)
    return re.sub(r"\(now \(?([\w'.]+)\)?\)|\bnow ([\w'.]+)", lambda m: (m[1] or m[2]) + ".now", text)


def turned(text, here, anywhere, is_source=False):
    if is_source:
        text = re.sub(r"\br\b", "result", text)
    for pattern, to in PATHS:
        text = pattern.sub(to, text)
    return bare(borrows(tight(respelled(text, here, anywhere))))


def pairs(text):
    """The file, old and new text of each pair, with the numbers of their lines."""
    path, old = "", None
    for number, line in enumerate(text.split("\n")):
        if line.startswith("file: "):
            path = line[len("file: ") :].strip()
        elif line.startswith("old: "):
            old = number, line[len("old: ") :]
        elif line.startswith("new:"):
            yield path, old, (number, line[len("new:") :].removeprefix(" "))


def one_edit(edit, older, anywhere):
    """Returns the edit's text today, and what is left to do by hand."""
    crate, text, left = os.path.dirname(os.path.dirname(edit)), read(edit), []
    lines, was, now = text.split("\n"), {}, {}
    for path, (at, old), (under, new) in pairs(text):
        if path not in now:
            now[path] = read(f"{crate}/{path}")
            was[path] = read(f"{older}/{crate}/{path}") if os.path.isfile(f"{older}/{crate}/{path}") else ""
        is_turned = was[path].count(old) != 1 and now[path].count(old) == 1
        was[path] = was[path].replace(old, new)
        if not is_turned:
            here, is_source = words_of(now[path]), path.endswith(".rt")
            # code of src/ stands as it did, but for its contracts
            if now[path].count(old) != 1:
                old, new = (turned(it, here, anywhere, is_source) for it in (old, new))
            elif not is_source:
                new = turned(new, here, anywhere)
        if now[path].count(old) != 1 or old == new:
            left.append(f"{edit}: in {path} {now[path].count(old)} times: {old}")
            continue
        now[path] = now[path].replace(old, new)
        lines[at], lines[under] = "old: " + old, ("new: " + new).rstrip(" ")
    return broken("\n".join(lines), crate), left


def broken(text, crate):
    """The edit's text with its line `# breaks: FILE LAW` as the file has the law today."""
    said = re.search(r"(?m)^# breaks: (\S+) (\S+)$", text)
    if not said or not os.path.isfile(f"{crate}/{said[1]}"):
        return text
    words = words_of(read(f"{crate}/{said[1]}"))
    law = next((it for it in (said[2], snake(said[2]), snake(said[2]) + "_lem") if it in words), said[2])
    return text[: said.start(2)] + law + text[said.end(2) :]


def main():
    older = sys.argv[1]
    anywhere = set()
    for path in glob.glob("crates/*/**/*.antt", recursive=True):
        if "/out/" not in path:
            anywhere |= words_of(read(path))
    changed, left = 0, []
    for edit in sorted(glob.glob("crates/*/must-fail/*.edit")):
        text, lacking = one_edit(edit, older, anywhere)
        left += lacking
        if text != read(edit):
            changed += 1
            if "--look" not in sys.argv:
                with open(edit, "w", encoding="utf-8") as f:
                    f.write(text)
    print("\n".join(left))
    print(f"{changed} edits changed, {len(left)} texts left")


main()
