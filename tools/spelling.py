#!/usr/bin/env python3
"""Brings the repository's own definitions and lemmas to the library's spelling, once.

    python3 tools/spelling.py [--list]

Functions, constructors and fields of specs/, and plain lemmas, are in snake case; facts and types in camel case. A lemma
keeps the dash between two names of definitions, as length-saved. It changes clauses, specs/, proofs/ and, between
backquotes, comments; no code, string, input or output. It stops where two names would fall together.
"""
import os
import re
import subprocess
import sys
from collections import defaultdict

ROOT = os.path.join(os.path.dirname(os.path.realpath(__file__)), "..")
BREAK = r"\s(){}\[\].,;:|\"`⌜⌝∥@\\"
TOKEN = re.compile(r"[^" + BREAK + r"]+")
DECLARED = re.compile(
    r"^\s*(?:(?:abbrev|unfoldable|pub|data|record|ghost)\s+)*([^" + BREAK + r"]+)(?:\s*[({][^\n]*?)?\s*:\s"
)
IMPORT = re.compile(r"^\s*(?:ghost\s+|pub\s+)*use\s+([^\s{;]+?)\.\{([^}]*)\};?", re.M)
# a name that the rule would bring together with another, or read wrongly
OTHERS = {
    "all-fit": "each_fits",
}


def files():
    for top, dirs, names in os.walk(os.path.join(ROOT, "crates")):
        dirs[:] = sorted(d for d in dirs if d != "out")
        for n in sorted(names):
            if n.endswith((".rt", ".antt")):
                yield os.path.join(top, n)


def code_of(text):
    """The text with its comments blanked, so that positions stay."""
    return re.sub(r"(?m)(--|//).*$", lambda m: " " * len(m.group(0)), text)


def own_crates():
    with open(os.path.join(ROOT, "crates.txt")) as f:
        return {line.split(":")[0].strip() for line in f if ":" in line and not line.startswith("#")}


def imports(text):
    for m in IMPORT.finditer(text):
        for part in m.group(2).split(","):
            words = part.split(" as ")
            yield m.group(1), words[0].strip(), words[-1].strip()


def fields_of(code):
    """The fields of the records that a file declares."""
    inside = None
    for line in code.split("\n"):
        indent = len(line) - len(line.lstrip())
        if re.match(r"\s*(pub )?record .* where\s*$", line):
            inside = indent
        elif line.strip() and inside is not None and indent <= inside:
            inside = None
        elif inside is not None and (m := DECLARED.match(line)):
            yield m.group(1)


def goal_only(p, name, texts):
    """Whether a name stands in a file only as a goal that is answered there."""
    return set(re.findall(r"\S*\b" + re.escape(name) + r"\b", code_of(texts[p]))) <= {name, "goal." + name} and "goal." + name in texts[p]


def main():
    own = own_crates()
    texts = {p: open(p, encoding="utf-8").read() for p in files()}
    declared = defaultdict(set)  # a name with a dash, and the files that declare it
    in_specs, plain, fields, foreign = set(), set(), set(), defaultdict(set)
    everything = defaultdict(set)  # every token of a file
    for p, t in texts.items():
        code = code_of(t)
        rel = os.path.relpath(p, ROOT)
        for path, name, local in imports(t):
            mine = path.startswith("Rattle.") and path.split(".")[1] in own
            if not mine:
                foreign[p].add(local)
                foreign[p].add(name)
                plain.add(name)
        used = re.sub(r"(?m)^\s*(?:ghost |pub )*(use|mod) .*$", "", code) if p.endswith(".antt") else ""
        everything[p] = set(TOKEN.findall(used)) | {local for _, _, local in imports(t)}
        if not p.endswith(".antt"):
            continue
        fields |= set(fields_of(code))
        for line in code.split("\n"):
            m = DECLARED.match(line)
            if not m or ": goal." in line:
                continue
            name = m.group(1)
            if "/specs/" in rel:
                in_specs.add(name)
                plain.add(name)
            elif line.lstrip().startswith("abbrev"):
                plain.add(name)
            if "-" in name.strip("-") and re.search(r"[A-Za-z]", name):
                declared[name].add(p)
    known = {n.replace("-", "_") for n in plain if re.match(r"[a-z]", n)}

    def camel(name):
        return "".join(w[:1].upper() + w[1:] for w in re.split(r"[-_]", name) if w)

    def spelled(name):
        if name in OTHERS:
            return OTHERS[name]
        if name[0].isupper():
            # a lemma on a fact, as Fits-in-push, would keep its dash: here are none
            return camel(name)
        if name in in_specs:
            return name.replace("-", "_")
        words = name.split("-")
        for k in range(len(words) - 1, 0, -1):
            left, right = "_".join(words[:k]), "_".join(words[k:])
            if left in known and (right in known or not re.match(r"[A-Za-z]", right)):
                return left + "-" + right
        return name.replace("-", "_")

    new = {n: spelled(n) for n in declared}
    new = {n: s for n, s in new.items() if n != s}
    bad = 0
    back = defaultdict(set)
    for n, s in new.items():
        back[s].add(n)
    for s, ns in back.items():
        if len(ns) > 1:
            print("fall together:", s, sorted(ns))
            bad += 1
    for n, s in sorted(new.items()):
        at = [p for p in texts if n in everything[p] and s in everything[p] and not goal_only(p, s, texts)]
        if at:
            print("taken:", n, "->", s, [os.path.relpath(p, ROOT) for p in at][:4])
            bad += 1
    if "--list" in sys.argv:
        for n, s in sorted(new.items()):
            print(n, s)
    if bad:
        sys.exit(f"{bad} names to settle; nothing was changed")
    if "--list" in sys.argv:
        return

    def turn(p, text):
        def one(m):
            w = m.group(0)
            behind_dot = m.start() > 0 and m.string[m.start() - 1] == "."
            if w in foreign[p] or behind_dot and w not in fields:
                return w
            return new.get(w, w)

        out = []
        for line in text.split("\n"):
            m = re.match(r"^((?:[^\"]|\"[^\"]*\")*?)(--|//)(.*)$", line)
            code, mark, said = (m.group(1), m.group(2), m.group(3)) if m else (line, "", "")
            parts = re.split(r"(\"[^\"]*\"|b'[^']*')", code)
            code = "".join(x if i % 2 else TOKEN.sub(one, x) for i, x in enumerate(parts))
            said = re.sub(r"`[^`]*`", lambda q: TOKEN.sub(one, q.group(0)), said)
            out.append(code + mark + said)
        return "\n".join(out)

    changed = 0
    for p, t in texts.items():
        u = turn(p, t)
        if u != t:
            changed += 1
            with open(p, "w", encoding="utf-8") as f:
                f.write(u)
    print(f"{len(new)} names, {changed} files")


main()
