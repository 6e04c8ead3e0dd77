#!/usr/bin/env python3
"""Counts in the sources of a commit the places that docs/DESIGN-PASS.md speaks of.

    python3 tools/places.py [-v] [COMMIT]      a line for each kind of place; with -v each place too

COMMIT is HEAD where it is left out. Tests (`mod tests`) do not count.
"""
import itertools
import re
import subprocess
import sys

KEYWORDS = set("fn let else return match if for while in mut self Self Some None Ok Err true false pub impl as".split())


def git(*words):
    return subprocess.run(["git", *words], capture_output=True, text=True, check=True).stdout


def sources(commit, ending, folder):
    for path in git("ls-tree", "-r", "--name-only", commit).split("\n"):
        if re.match(rf"crates/[a-z]+/{folder}/.*\.{ending}$", path):
            yield path, git("show", f"{commit}:{path}")


def without_tests(text):
    cut = text.find("#[cfg(test)]")
    return text if cut < 0 else text[:cut]


def functions(path, text):
    """Each function with a body: its name, parameters, clauses and body."""
    for m in re.finditer(r"^( *)(?:pub(?:\([a-z]+\))? )?fn (\w+)(?:<[^{]*?>)?\(", text, re.M):
        depth, i = 1, m.end()
        while depth:
            depth += {"(": 1, ")": -1}.get(text[i], 0)
            i += 1
        parameters = re.sub(r"\s+", " ", text[m.end():i - 1]).strip(" ,")
        start = i
        clauses = []
        while True:
            c = re.compile(r"\s*(?:->[^{;]*?)?\s*(?:where[^{;]*?)?\s*(requires|ensures)\*? ?(\w*) ?\{").match(text, i)
            if not c:
                break
            depth, j = 1, c.end()
            while depth:
                depth += {"{": 1, "}": -1}.get(text[j], 0)
                j += 1
            clauses.append(c.group(1) + " " + text[c.end():j - 1].strip())
            i = j
        body = re.compile(r"[^{;]*\{").match(text, i)
        if not body:
            yield path, m.group(2), parameters, clauses, "", text.count("\n", 0, m.start()) + 1
            continue
        depth, j = 1, body.end()
        while depth:
            depth += {"{": 1, "}": -1}.get(text[j], 0)
            j += 1
        yield path, m.group(2), parameters, clauses, text[body.end():j - 1], text.count("\n", 0, m.start()) + 1


def shape(body):
    """The body with its names, numbers and texts left out."""
    body = re.sub(r"//.*", "", body)
    tokens = re.findall(r'b?"(?:[^"\\]|\\.)*"|\w+|[^\s\w]', body)
    return " ".join(t if t in KEYWORDS or not re.match(r'\w|b?"', t) else "x" for t in tokens)


def by_regex(texts, regex, flags=re.M):
    for path, text in texts:
        for m in re.finditer(regex, text, flags):
            yield f"{path}:{text.count(chr(10), 0, m.start()) + 1}: {m.group(0).strip().splitlines()[0]}"


def main():
    words = [w for w in sys.argv[1:] if w != "-v"]
    commit = words[0] if words else "HEAD"
    texts = [(p, without_tests(t)) for p, t in sources(commit, "rt", "src")]
    every = [f for p, t in texts for f in functions(p, t)]
    rows = []

    def row(point, what, places):
        rows.append((point, what, list(places)))

    row("1", "variants of the shape of None", by_regex(texts, r"^ +(Nothing|Absent|Nobody|Nowhere),?$"))
    row("1", "`let Some/Ok(..) = .. else` that only answers None or a refusal",
        by_regex(texts, r"let (?:Some|Ok)\(\w+\) = [^;]*?\belse \{\s*return (?:None|Err\([^;]*\));\s*\};"))
    row("1", "a failure matched only to be passed on", by_regex(texts, r"^ *Err\(_\) => (?:Err|Ok)\(.*"))
    row("1", "numbers for kinds", by_regex(texts, r"\b(?:kind|tag|major|usage|sort): u(?:8|16|32|64)\b"))
    row("1", "truth values that travel with what they tell of", by_regex(texts, r"\b\w+: bool[,;)]"))
    shapes = {}
    for f in every:
        s = shape(f[4])
        if s.count(" ") >= 24:
            shapes.setdefault(s, []).append(f"{f[0]}:{f[5]}: {f[1]}")
    row("2", "functions of one shape with another", [" ~ ".join(g) for g in shapes.values() if len(g) > 1])
    row("3", "loops over a range of numbers", by_regex(texts, r"^ *for \w+ in [^{]*\.\.[^{]*\{"))
    row("3", "`while`", by_regex(texts, r"^ *while .*"))
    row("3", "counting by one", by_regex(texts, r"^ *\w+ (?:[+-]= 1;|= \w+\.saturating_add\(1\);)"))
    row("4", "functions that compare, convert or print by hand",
        [f"{f[0]}:{f[5]}: {f[1]}" for f in every
         if re.match(r"(is_same|same_\w+|from_\w+|number|text|\w+_text|push_\w+|wide|matches)$", f[1])])
    said = {}
    for f in every:
        for c in set(f[3]):
            said.setdefault(re.sub(r"\s+", " ", c), []).append(f"{f[0]}:{f[5]}: {f[1]}")
    row("5", "clauses in three functions or more",
        [f"{len(w)} functions: {c}" for c, w in said.items() if len(w) >= 3 and len(c) > 60])
    together = {}
    for f in every:
        named = sorted(p.strip() for p in re.split(r",(?![^<(\[]*[>)\]])", f[2]) if ":" in p)
        for pair in itertools.combinations(named, 2):
            together.setdefault(pair, []).append(f[1])
    row("5", "pairs of parameters in three functions or more",
        [f"{len(w)} functions: {', '.join(p)}" for p, w in together.items() if len(w) >= 3])
    row("6", "a buffer with its length beside it",
        by_regex(texts, r"struct \w+[^{;]*\{[^}]*\b(?:len|count): usize[^}]*\[[^}]*\}|struct \w+[^{;]*\{[^}]*\[[^}]*\b(?:len|count): usize[^}]*\}", re.S))
    row("7", "a choice of which step to run, tables of functions",
        by_regex(texts, r"match [\w.]*\b(?:step|state|section|mode)\b.*|\[fn\b|: fn\("))
    answers = [(p, t) for p, t in sources(commit, "antt", "proofs")]
    row("8", "files of answers and invariants",
        [p for p, _ in answers if p.endswith(("Answers.antt", "Invariants.antt", "Proof.antt"))])
    row("8", "answers that are `search rules` alone", by_regex(answers, r"^returns\S* (?:g )?(?:t )?c = search rules$"))
    for point, what, places in rows:
        print(f"{point}  {len(places):4}  {what}")
        if "-v" in sys.argv[1:]:
            for place in places:
                print(f"          {place}")
    lines = sum(t.count("\n") for _, t in answers)
    print(f"8  {lines:4}  lines of proofs")


main()
