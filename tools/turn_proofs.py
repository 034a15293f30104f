#!/usr/bin/env python3
"""Turns the Proof.antt files of a crate, which walk the code, into Invariants.antt and Answers.antt.

usage: python3 tools/turn_proofs.py CRATE NAMES.json DRAFTS.json            at the top of the repository: Invariants.antt alone, the answers as drafts
       python3 tools/turn_proofs.py --answers CRATE DRAFTS.json SAID        writes the drafts of the goals that the check's output SAID names as open

NAMES.json is what `rt check --generated DIR --old-names` wrote for the crate. An answer that was only `search rules` is left out, since the check tries more.
Of the rest the paths into `c` are turned: a step has a name of its own there, however far back it lies. What can't be told is marked by TURN.
"""

import json
import os
import re
import sys

NAME = r'[^\s(){}.;,@"«»`\[\]|]+'


def plain(name):
    return re.sub(r"[-_]", "", name)


class Function:
    def __init__(self, row):
        self.row = row
        self.parent = {p[0]: p[1] for p in row["places"]}
        self.step = {p[0]: p[2] for p in row["places"]}
        self.new_place = dict(zip([p[0] for p in row["places"]], row["places_by_name"]))
        # of the records of one arm the last has all that the arm knows
        for p, n in list(self.new_place.items()):
            whole = re.sub(r"-\d+$", "", n)
            if re.match(r"In[-_]", n) and whole != n and whole in row["places_by_name"]:
                self.new_place[p] = whole
        self.needs = {plain(old): (new, row["asked_at"][i][0]) for i, (old, new) in enumerate(row["needs"])}
        self.by_plain = {plain(p): p for p in self.parent}
        self.callee = {q[0]: q[3] for q in row["places"]}
        self.clauses = {q[0]: c["fields"] for q, c in zip(row["places"], row["clauses"]) if c}
        self.names_at = {self.step[p][1]: names for p, names in self.clauses.items()}
        self.asked = {plain(old): names for old, names in row["asked"].items()}
        self.typed = {}
        for p, known in zip([q[0] for q in row["places"]], row["typed"]):
            for variable, step in known:
                self.typed[plain(step)] = variable
        self.arms = {}
        for p, arm in zip([q[0] for q in row["places"]], row["arms"]):
            if arm:
                self.arms[p] = (arm[0], [(f, plain(old), fields) for f, old, fields in arm[2]])

    def chain(self, place):
        out = []
        while place is not None:
            out.append(place)
            place = self.parent.get(place)
        return out

    def up(self, place, n):
        c = self.chain(place)
        return c[n] if n < len(c) else None


def clause(names, path):
    """The path into clauses that were a tuple, by their names."""
    k = 0
    while k < len(names) - 1 and k < len(path) and path[k] == "1":
        k += 1
    if k < len(names) - 1:
        if path[k : k + 1] != ["0"]:
            return path
        return [names[k]] + path[k + 1 :]
    return [names[k]] + path[k:]


STARTS = {"args", "requires", "ranges", "lifetimes", "ghost"}


def resolve(fn, place, fields, base=None):
    """The path below a place, as fields of c. Returns (new path or None, place if the path ends at a place)."""
    i = 0
    while i < len(fields) and fields[i] == "before":
        i += 1
    here = fn.up(place, i)
    rest = fields[i:]
    if not rest:
        return None, here or fn.chain(place)[-1]
    head = rest[0]
    if head == "pre":
        head = rest[0] = "requires"
    if head in STARTS:
        pre = fn.row["pre"]
        names = pre.get("fields") if isinstance(pre, dict) else pre
        if head == "requires" and names and len(rest) > 1 and rest[1].isdigit():
            return ["c", head] + clause(names, rest[1:]), None
        return ["c"] + rest, None
    # the place's own step, or the next one further back that has this name
    order = fn.chain(here) if here else []
    order += [p for p in fn.chain(place) + (fn.chain(base) if base else []) if p not in order]
    for p in order:
        old, new = fn.step[p]
        if old and plain(old) == plain(head):
            for q in order:
                if q in fn.arms:
                    arm, fields = fn.arms[q]
                    for f, step, path in fields:
                        if step == plain(old) and path and rest[1 : 1 + len(path)] == path:
                            return ["c", arm, f] + rest[1 + len(path) :], None
            if plain(old) in fn.typed and rest[1:2] == ["given"]:
                return ["c", "type_inv", fn.typed[plain(old)]] + rest[2:], None
            if re.match(r"if\d", old) and rest[1:2] in (["left"], ["taken"]):
                rest[1] = "false" if rest[1] == "left" else "true"
            if rest[1:2] == ["new"] and len(rest) > 2 and rest[2].isdigit():
                k = 0
                while k + 2 < len(rest) and rest[k + 2] == "1":
                    k += 1
                params = fn.row["params"].get(fn.callee.get(p), [])
                if k < len(params) and rest[k + 2 : k + 3] == ["0"]:
                    rest[2 : k + 3] = [params[k]]
            names = fn.clauses.get(p)
            if names and rest[1:2] == ["ensures"] and len(rest) > 2 and rest[2].isdigit():
                return ["c", new, "ensures"] + clause(names, rest[2:]), None
            return ["c", new] + rest[1:], None
    return ["c", "TURN_" + head] + rest[1:], None


def answer(fn, place, body, binder="c", functions={}, shared={}, goal=None):
    """Turns the paths of an answer's body. A lemma of `shared` is handed the record that its goals share."""
    aliases = {binder: place}
    named = {}

    def whole(before, at):
        lemma = re.search(r"(" + NAME + r")[ \n]+\(*$", before)
        if not lemma or lemma[1] not in shared:
            return "c"
        wanted = fn.new_place[shared[lemma[1]]]
        if shared[lemma[1]] == place:
            return "c"
        return f"(goal.at.{goal} c).{wanted}"

    # aliases bound by let
    out = ""
    pos = 0
    pattern = re.compile(r"\blet (" + NAME + r") = (" + NAME + r"(?:\." + NAME + r")*) in[ \n]*|(?<![\w.])(" + NAME + r")((?:\." + NAME + r")+)|(?<![\w.-])(" + NAME + r")(?![\w-])")
    text = body
    # helper functions between places: (start c.before).args
    for f in functions:
        text = re.sub(r"\blet (" + NAME + r") = " + re.escape(f) + r" (" + NAME + r"(?:\." + NAME + r")*) in", r"let \1 = \2 in", text)
    changed = True
    while changed:
        changed = False
        for f in functions:
            path_in = NAME + r"(?:\." + NAME + r")*"
            m = re.search(r"\(" + re.escape(f) + r" (?:\(" + path_in + r"\)|" + path_in + r")\)", text)
            if m:
                text = text[: m.start()] + binder + text[m.end() :]
                changed = True
    for f in functions:
        text = re.sub(r"\blet (" + NAME + r") = " + re.escape(f) + r" (" + NAME + r"(?:\." + NAME + r")*) in", r"let \1 = \2 in", text)
    result = []
    while pos < len(text):
        m = pattern.search(text, pos)
        if not m:
            result.append(text[pos:])
            break
        result.append(text[pos : m.start()])
        pos = m.end()
        if m[1]:
            parts = m[2].split(".")
            if parts[0] in aliases:
                path, at = resolve(fn, aliases[parts[0]], parts[1:], place)
                if path is None:
                    aliases[m[1]] = at
                    continue
                if path[-1] in ("ensures", "requires"):
                    named[m[1]] = fn.names_at.get(path[-2]) or (fn.row["pre"] if path[-1] == "requires" else None)
                result.append("let %s = %s in%s" % (m[1], ".".join(path), m[0].split(" in", 1)[1] if " in" in m[0] else " "))
                aliases.pop(m[1], None)
                continue
            aliases.pop(m[1], None)
            # not ours: leave the text, but look again behind `let NAME = `
            result.append(m[0])
            continue
        if m[5] and re.search(r"λ \(?$", "".join(result)[-4:]):
            result.append(m[0])
            continue
        if (m[3] or m[5]) and re.search(r"λ \(?[^.]*(?<![\w-])" + re.escape(m[3] or m[5]) + r"(?![\w-])[^.]*\.[^∙]*$", "".join(result)[-160:]):
            result.append(m[0])
            continue
        if m[3]:
            steps = m[4][1:].split(".")
            if named.get(m[3]) and steps[0].isdigit():
                result.append(".".join([m[3]] + clause(named[m[3]], steps)))
                continue
            if m[3] in aliases:
                path, at = resolve(fn, aliases[m[3]], m[4][1:].split("."), place)
                result.append(".".join(path) if path else whole("".join(result), at))
            else:
                result.append(m[0])
            continue
        if m[5] in aliases:
            result.append(whole("".join(result), aliases[m[5]]))
        else:
            result.append(m[0])
    calls = {fn.step[p[0]][1] for p in fn.row["places"] if p[3]}

    def negated(m):
        return m[1] if re.search(r"\.if-not-([\w-]+)", m[1])[1] in calls else m[0]

    text = re.sub(r"(?:not-true|not-false) _ (\(?(?:sym c\.[\w.-]+ ∙ )?c\.if-not-[\w-]+)", negated, "".join(result))
    return source_fields(text, fn)


def source_fields(text, fn):
    """A field that is named after the source has the source's spelling."""

    def one(m):
        name = m[1][:-4] if m[1].endswith("_lem") else m[1]
        return "." + fn.idents.get(plain(name), m[1]) if "-" in name or name != m[1] else m[0]

    return re.sub(r"(?<=[\w)])\.([a-z][\w-]*)", one, text)


def parts(text):
    """The parts of a tuple, or None."""
    text = text.strip()
    if not (text.startswith("(") and text.endswith(")")):
        return None
    depth, out, start = 0, [], 1
    for i, ch in enumerate(text):
        if ch in "({[":
            depth += 1
        elif ch in ")}]":
            depth -= 1
            if depth == 0 and i < len(text) - 1:
                return None
        elif ch == "," and depth == 1:
            out.append(text[start:i].strip())
            start = i + 1
    out.append(text[start:-1].strip())
    out = [o for o in out if o]
    return out if len(out) > 1 else None


def as_record(text, names):
    """A tuple at the end of an answer as a record of the clauses' names."""
    for m in re.finditer(r"\(", text):
        got = parts(text[m.start() :])
        if not got:
            continue
        while len(got) < len(names) and parts(got[-1]):
            got = got[:-1] + parts(got[-1])
        while len(got) < len(names) and re.fullmatch(r"[\w.-]+", got[-1]):
            got = got[:-1] + [got[-1] + ".0", got[-1] + ".1"]
        if len(got) > len(names):
            got = got[: len(names) - 1] + ["(" + ", ".join(got[len(names) - 1 :]) + ")"]
        if len(got) == len(names):
            return text[: m.start()] + "record { " + "; ".join(f"{n} = {g}" for n, g in zip(names, got)) + " }"
    # what is no tuple gives one
    depth, cut = 0, 0
    for m in re.finditer(r"[({\[\])}]|\bin\b", text):
        if m[0] in "({[":
            depth += 1
        elif m[0] in ")}]":
            depth -= 1
        elif depth == 0:
            cut = m.end()
    end = text[cut:].strip()
    if end.startswith("record"):
        return text
    last = len(names) - 1
    fields = "; ".join(f"{n} = h" + ".1" * i + ".0" * (i < last) for i, n in enumerate(names))
    return text[:cut].rstrip() + f"\n    let h = {end} in\n    record {{ {fields} }}"


def clause_names(crate, where, kind):
    """The names of a function's clauses, in the source's order."""
    name = where[-1].lstrip("+")
    for folder, _, found in os.walk(f"crates/{crate}/src"):
        for f in found:
            text = open(os.path.join(folder, f), encoding="utf-8").read()
            m = re.search(r"\bfn " + re.escape(name) + r"\b.*?(?=\nfn |\npub fn |\Z)", text, re.S)
            if m and (len(where) == 1 or f == where[-2] + ".rt" or where[-2][0].isupper()):
                return re.findall(r"(?m)^ +" + kind + r" (\w+) \{", m[0])
    return []


def crate_of(path):
    return path.split("/")[1]


def sources(crate):
    for folder, _, found in os.walk(f"crates/{crate}/src"):
        for f in found:
            if f.endswith(".rt"):
                yield open(os.path.join(folder, f), encoding="utf-8").read()


def source_name(crate, name):
    for text in sources(crate):
        for m in re.finditer(r"\bfn (\w+)", text):
            if plain(m[1]) == plain(name):
                return m[1]
    return name


def parameters(crate, name):
    for text in sources(crate):
        m = re.search(r"\bfn " + name + r"\b[^(]*\((.*?)\)\s*(->|requires|ensures|\{)", text, re.S)
        if m:
            return re.findall(r"(\w+)\s*:", m[1])
    return []


def blocks(text):
    """Pairs of (comment lines, lines) that begin in the first column."""
    out = []
    comment = []
    current = None
    for line in text.split("\n"):
        if line.startswith("--"):
            if current is not None and current and current[-1] == "":
                out.append((cc, current))
                current = None
            if current is None:
                comment.append(line)
            else:
                current.append(line)
            continue
        if line and not line[0].isspace():
            starts = re.match(r"(?:(?:pub|abbrev|unfoldable) )*(" + NAME + r") :", line)
            if line.startswith("use ") or starts:
                if current is not None:
                    out.append((cc, current))
                current = [line]
                cc = comment
                comment = []
                continue
            if current is None:
                current = [line]
                cc = comment
                comment = []
                continue
        if current is None:
            if line == "":
                continue
            current = [line]
            cc = comment
            comment = []
            continue
        current.append(line)
    if current is not None:
        out.append((cc, current))
    return [(c, [l for l in b]) for c, b in out]


def turn(path, fn, root, recursive, ensured):
    text = open(path, encoding="utf-8").read()
    head, uses, invariants, answers, helpers = [], [], [], {}, []
    todo = []
    functions = set()
    shared = {}
    for comment, lines in blocks(text):
        while lines and lines[-1] == "":
            lines.pop()
        body = "\n".join(lines)
        if body.startswith("use "):
            head += comment
            uses.append(body)
            continue
        m = re.match(r"((?:(?:pub|abbrev|unfoldable) )*)(" + NAME + r") :\s*(.*)", body, re.S)
        if not m:
            todo.append(body)
            continue
        name = m[2]
        if name.endswith("spec") and "statement" in lines[0]:
            continue
        need = re.search(r"\.Need-(" + NAME + r")", body)
        first = body.split("\n")[0]
        inv = re.match(r"abbrev (" + NAME + r") : tie\.(invariant|decreases)-(" + NAME + r")", body)
        if inv:
            kind, loop = inv[2], inv[3]
            k = next((i for i, l in enumerate(fn.row["loops"]) if plain(l[0][0]) == plain(loop)), None)
            if k is None:
                todo.append(body)
                continue
            (old, new), variables = fn.row["loops"][k]
            changed = fn.row["changed"][k]
            eq = body[body.index("\n") + 1 :]
            left, right = eq.split("=", 1)
            args = left.split()[1:]
            want = ["l." + ("initial." if c else "") + v for v, c in zip(variables, changed)] + ["l." + v for v, c in zip(variables, changed) if c]
            if len(args) != len(want):
                todo.append(body)
                continue
            table = dict(zip(args, want))
            right = re.sub(r"(?<![\w.])(" + NAME + r")", lambda q: table.get(q[1], q[0]), right)
            invariants.append("\n".join(comment + [f"abbrev pub {kind}-{new} : goal.{kind}-{new}", f"{kind}-{new} l ={right}"]))
            continue
        if need and ".Need-" in first + (body.split("\n")[1] if "\n" in body else "") + (body.split("\n")[2] if body.count("\n") > 1 else "") and re.search(r"\n" + re.escape(name) + r"\b", "\n" + body.split("\n", 1)[1] if "\n" in body else ""):
            old = need[1]
            got = fn.needs.get(plain(old)) or fn.needs.get(plain(re.sub(r"^overflow-", "", old))) or fn.needs.get(plain(name))
            eq = re.search(r"(?ms)^((?:unfolding [^\n]*\n)?)" + re.escape(name) + r"((?: " + NAME + r")*?) =(.*)$", body[len(name) :])
            if not eq:
                todo.append(body)
                continue
            args = [a for a in eq[2].split() if a != "κs"]
            if recursive and args and args[0] == "t":
                pass
            right = eq[3].strip("\n")
            if re.fullmatch(r"\s*search rules\s*", right) and not eq[1]:
                continue
            if not got:
                todo.append("NO GOAL " + body)
                continue
            new, place = got
            c = args[-1] if args else "c"
            turned = answer(fn, place, right, c, functions, shared, new)
            rest = " ".join(args[:-1] + ["c"])
            goal = new
            names = fn.asked.get(plain(old)) or (ensured if goal.startswith("returns") else [])
            if len(names) > 1:
                turned = as_record(turned, names)
            answers[goal] = ("\n".join(comment + [f"pub {goal} : goal.{goal}"] + ([eq[1].rstrip()] if eq[1] else []) + [f"{goal} {rest} ={turned}"]))
            continue
        am = re.match(r"(?:abbrev )?(" + NAME + r") : tie\.(" + NAME + r")(?: [^\n→]*)? →\s+tie\.(" + NAME + r")(?: [^\n→]*)?\s*\n\1 (" + NAME + r") =\s*([^\n]*)$", body)
        if am:
            functions.add(am[1])
            continue
        if re.search(r": (ℕ → )?(In|Measures) 1 ", body):
            measure = re.search(r"(?m)^μ-(" + NAME + r") κs (" + NAME + r") = (.*)$", body)
            if measure:
                which = source_name(crate_of(path), measure[1])
                params = parameters(crate_of(path), which)
                text_of = re.sub(r"\b" + measure[2] + r"\.0\b", "l." + params[0], measure[3]) if params else "TURN"
                invariants.append(f"abbrev pub decreases-{which} : goal.decreases-{which}\ndecreases-{which} l = {text_of}")
            continue
        vm = re.match(r"abbrev (" + NAME + r") : tie\.(" + NAME + r")(?: [^\n→]*)? → ([^\n]*)\n\1 (" + NAME + r") = (.*)$", body, re.S)
        if vm and plain(vm[2]) in fn.by_plain:
            at = fn.by_plain[plain(vm[2])]
            shared[name] = at
            line = f"use GOALS.{{{fn.new_place[at]}}}"
            uses += [line] if line not in uses else []
            text_of = answer(fn, at, vm[5], vm[4], functions, shared, fn.new_place[at])
            helpers.append("\n".join(comment + [f"abbrev {name} : {fn.new_place[at]} → {vm[3]}", f"{name} c = {text_of}"]))
            continue
        hm = re.search(r"\((" + NAME + r") : (?:tie|" + NAME + r"lts)\.(" + NAME + r")(?: [^()]*)?\)", body)
        if hm and plain(hm[2]) in fn.by_plain:
            at = fn.by_plain[plain(hm[2])]
            shared[name] = at
            sig, eq = re.match(r"(.*?)(\n(?:unfolding [^\n]*\n)?" + re.escape(name) + r"\b.*)$", body, re.S).groups()
            sig = sig.replace(hm[0], "\0")
            sig = answer(fn, at, sig, hm[1], functions, shared, fn.new_place[at])
            sig = sig.replace("\0", f"(c : {fn.new_place[at]})")
            em = re.match(r"(?s)(\n(?:unfolding [^\n]*\n)?)" + re.escape(name) + r"((?: " + NAME + r")*?) =(.*)$", eq)
            if em:
                args = em[2].split()
                b = args[0] if args else "c"
                args[:1] = ["c"]
                body = sig + em[1] + name + " " + " ".join(args) + " =" + answer(fn, at, em[3], b, functions, shared, fn.new_place[at])
            line = f"use GOALS.{{{fn.new_place[at]}}}"
            uses += [line] if line not in uses else []
        helpers.append("\n".join(comment + [body]))
    return head, uses, invariants, answers, helpers, todo


def used(u, body):
    m = re.match(r"use ([^\s{]+)\.\{([^}]*)\}", u)
    if not m:
        m2 = re.match(r"use \S+ as (\S+)", u)
        return u if not m2 or re.search(r"(?<![\w.])" + re.escape(m2[1]) + r"(?![\w-])", body) else None
    words = set(re.findall(NAME, body))
    have = []
    for i in [i.strip() for i in m[2].split(",")]:
        n = i.split(" as ")[-1].split(".")[-1].strip()
        pieces = [x for x in n.split("◌") if x]
        if n in words or n == "[]" and "[]" in body or ("◌" in n and all(x in body for x in pieces)):
            have.append(i)
    return f"use {m[1]}.{{{', '.join(have)}}}" if have else None


def write(path, head, uses, goal, items):
    body = "\n\n".join(items)
    lines = [x for x in (used(u, body) for u in uses) if x] + [goal]
    with open(path, "w", encoding="utf-8") as f:
        f.write("\n".join(head + lines) + "\n\n" + body + "\n")


def answer_open(crate, drafts, said):
    rows = json.load(open(drafts))
    text = open(said, encoding="utf-8").read()
    for m in re.finditer(r"(?m)^(?:fn|cycle) (\S+): no proof: (.*)$", text):
        name = m[1].replace("::", ".")
        row = rows.get(name) or rows.get(re.sub(r"\.([^.]*)$", r".+\1", name))
        goals = re.findall(r"`([^`]+)`", m[2].split("did not prove")[-1].split("; it calls")[0])
        if not row:
            continue
        # an answer of old proves all clauses of its goal at once
        goals = list(dict.fromkeys(g if g in row["answers"] else re.sub(r"-clause-.*", "", g) for g in goals if "::" not in g))
        chosen = [row["answers"][g] for g in goals if g in row["answers"]]
        bare = [g for g in goals if g not in row["answers"]]
        names = "\n".join(chosen)
        helpers = row["helpers"]
        items = helpers + chosen + [f"pub {g} : goal.{g}\n{g} c = search rules" for g in bare if re.match(r"[\w-]+$", g)] if chosen else helpers * 0
        if items:
            write(os.path.join(row["folder"], "Answers.antt"), row["head"], row["uses"] + ["use borrow.Author.Rules.{rules}"] * (not any("Rules.{rules}" in u for u in row["uses"])), f"use {row['module']}.Goals as goal", items)
        print(f"{name}: {len(chosen)} answers, left {bare}")


def main():
    if sys.argv[1] == "--answers":
        return answer_open(*sys.argv[2:5])
    crate, names, drafted = sys.argv[1:4]
    drafts = {}
    top = f"crates/{crate}/proofs"
    rows = json.load(open(names))
    for folder, _, found in os.walk(top):
        if "Proof.antt" not in found:
            continue
        path = os.path.join(folder, "Proof.antt")
        where = os.path.relpath(folder, top).split("/")
        recursive = where[-1].startswith("+")
        dotted = ".".join(where)
        key = f"Rattle-{crate}-proofs.{dotted}.Lts"
        keys = [k for k in rows if k == key or k.startswith(key + "-")]
        if not keys:
            print(f"{path}: no names")
            continue
        fn = Function(rows[keys[0]])
        fn.idents = {}
        for text in sources(crate):
            for word in re.findall(r"\b[a-z_]+[a-z0-9_]*\b", text):
                if "_" in word:
                    fn.idents.setdefault(plain(word), word)
        head, uses, invariants, answers, helpers, todo = turn(path, fn, crate, recursive, clause_names(crate, where, "ensures"))
        module = f"Rattle.{crate}.proofs.{dotted}"
        uses = [u.replace("GOALS", module + ".Goals") for u in uses]
        keep = [u for u in uses if not re.search(r"\.(Statement|Tie|Lts\S*|Reads|Kinds)\b", u) and "borrow.Fn" not in u and ".{statement}" not in u]
        if invariants:
            write(os.path.join(folder, "Invariants.antt"), head, keep, f"use {module}.Given as goal", invariants)
            head = []
        drafts[".".join([crate] + where)] = {"folder": folder, "module": module, "head": head, "uses": keep, "helpers": helpers, "answers": answers, "todo": todo}
        os.remove(path)
        left = len(re.findall("TURN_|tie\\.", "\n".join(list(answers.values()) + helpers)))
        print(f"{path}: {len(invariants)} invariants, {len(answers)} answers, {len(helpers)} helpers, {left} marks" + "".join("\n   TODO " + t for t in todo))
    with open(drafted, "w", encoding="utf-8") as f:
        json.dump(drafts, f, ensure_ascii=False, indent=1)


main()
