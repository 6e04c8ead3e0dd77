#!/usr/bin/env python3
"""Brings the repository's own definitions and lemmas to one spelling: words in snake case, types in upper camel case.

usage: python3 tools/snake_names.py           rewrites crates/*/specs, proofs and the clauses of src (exported names, strings and functions stay)
       python3 tools/snake_names.py --list    prints old and new name, and which new names fall together with another name
       python3 tools/snake_names.py --docs F..  rewrites the names that stand in backquotes in these pages

A name counts as the repository's own when a line of specs/ or proofs/ declares it; answers to goals keep the names that the check gives them.
"""
import os
import re
import sys

ROOT = os.path.join(os.path.dirname(os.path.dirname(os.path.realpath(__file__))), "crates")
DECLARATION = re.compile(r"^(\s*)((?:unfoldable |abbrev |pub |pattern )*)(?:(record|data) )?([^\s(){}\[\];,.:«»λ]+)((?: [({].*?)?) : (.*)$")
NAME = r"[A-Za-z][\w'≢≡₀-₉-]*"
TOKEN = re.compile(r"(?<![\w'≢≡₀-₉·◌-])(" + NAME + r")")
# names that the check makes for the steps of the code begin with these
MADE = re.compile(r"^(c|l|goal|need)$")


def files(ending):
    for folder, folders, names in os.walk(ROOT):
        folders[:] = sorted(f for f in folders if f != "out")
        for name in sorted(names):
            if name.endswith(ending):
                yield os.path.join(folder, name)


def text(path):
    with open(path, encoding="utf-8") as f:
        return f.read()


def declared():
    """Each own name, and whether it is a type."""
    found = {}
    for path in files(".antt"):
        for line in text(path).split("\n"):
            if line.lstrip().startswith(("--", "use ", "open ")):
                continue
            m = DECLARATION.match(line)
            if not m or re.match(r"(goal|need)s?\.", m.group(6)) or not re.fullmatch(NAME, m.group(4)):
                continue
            is_type = bool(m.group(3)) or bool(re.search(r"Type 0\s*$", m.group(6)))
            found[m.group(4)] = found.get(m.group(4), False) or is_type
    return found


def new_name(name, is_type):
    if is_type or name[0].isupper():
        parts = re.split(r"[-_]", name)
        return "".join(p[:1].upper() + p[1:] for p in parts)
    name = name.replace("-", "_")
    return re.sub(r"(?<=[a-z0-9])([A-Z])", lambda m: "_" + m.group(1).lower(), name)


# names that mean something else already: a lemma that would have its function's name ends in _lem
# (so this is for one run, on the tree that the kit's script left)
KEPT = {"kept_from": "kept_from_lem", "bit-and": "bit_and_lem", "bit-or": "bit_or_lem"}


def renames():
    own = declared()
    names = {n: KEPT.get(n) or new_name(n, t) for n, t in own.items()}
    for n in names:
        if "-" in n and any(o != n and "-" not in o and names[o] == names[n] for o in names):
            names[n] += "_lem"
    return own, {n: m for n, m in names.items() if m != n}


def turned(line, names):
    def put(m):
        before = line[: m.start()]
        head = re.search(r"(" + NAME + r")\.$", before)
        # the steps of the code: c.step, and what a file takes from its goals
        if head and MADE.match(head.group(1)) and "-" in m.group(1):
            return m.group(1)
        return names.get(m.group(1), m.group(1))

    if re.match(r"\s*use .*\.proofs\..*\.(Goals|Given)\b", line):
        return line
    return TOKEN.sub(put, line)


def rewrite(path, change):
    old = text(path)
    new = change(old)
    if new != old:
        with open(path, "w", encoding="utf-8") as f:
            f.write(new)


def in_source(old, names):
    """Only what stands in ghost lines, clauses and ghost members: no code, no string."""
    out, depth, ghost = [], 0, False
    for line in old.split("\n"):
        s = line.lstrip()
        starts = s.startswith(("ghost ", "requires", "ensures", "invariant"))
        if starts or ghost:
            out.append(turned(line, names))
            depth += line.count("{") - line.count("}")
            ghost = depth > 0
            if not ghost:
                depth = 0
        else:
            out.append(line)
    return "\n".join(out)


def in_page(old, names):
    return re.sub(r"`([^`\n]+)`", lambda m: "`" + TOKEN.sub(lambda t: names.get(t.group(1), t.group(1)), m.group(1)) + "`", old)


def main(words):
    own, names = renames()
    if words[:1] == ["--list"]:
        for n in sorted(names):
            clash = [o for o in own if o != n and (o == names[n] or names.get(o) == names[n])]
            print(n, names[n], ("FALLS TOGETHER WITH " + " ".join(clash)) if clash else "")
        return
    if words[:1] == ["--docs"]:
        for page in words[1:]:
            rewrite(page, lambda old: in_page(old, names))
        return
    for path in files(".antt"):
        rewrite(path, lambda old: "\n".join(turned(line, names) for line in old.split("\n")))
    for path in files(".rt"):
        rewrite(path, lambda old: in_source(old, names))


main(sys.argv[1:])
