"""Counts places in src/ that may be written in an older form, and lists them with --list.

Each count is a number of lines, or of functions, that a pattern finds: candidates, which a reader then judges.
Usage: python3 tools/forms.py [--list] [FOLDER]
"""
import collections
import pathlib
import re
import sys

LINES = [
    ("1 Option or Result handed on by hand", r"let (Some|Ok)\(.*\) = .* else|Err\(_\) =>|None => (Err|None|unreachable)|Some\(\w+\) => (Ok|Some)|Ok\([\w()]+\) => Ok|if let Err\("),
    ("1 enums", r"^(pub )?enum \w+"),
    ("1 flags, numbers for kinds, a number for none", r"^    (pub )?\w+: bool|^const [A-Z_]+: u32 = \d+;|, or 0|: u32 = u32::MAX|^    \(b\".*, 0, \d+\),"),
    ("1 a bool as an answer", r"-> bool$"),
    ("3 loops by index or by hand", r"\bwhile |\bloop \{|for \w+ in [^{]*\.\."),
    ("4 compared by their field", r"\.0 (==|!=|<|<=|>|>=) "),
    ("4 plain data with no derived comparison", r"derive\(Clone, Copy\)"),
    ("4 converted or printed by hand", r"fn \w+_number\(| as (u8|u16|u32|u64|i32|i64|usize)\b|println!\(rt; \"sheet"),
    ("6 arrays of a fixed size, and counts", r": \[[\w<>]+; \w+\]|^    (count|held|len|start): (u32|usize)"),
    ("7 closures, function values, switches", r"\bdyn |\bfn\(|\bFn(Once|Mut)?\(|match \(?(self\.)?(mode|state|choice|step)"),
]


def functions(text):
    """Each function with a body: its name, its head with the contract, and its body."""
    for found in re.finditer(r"\bfn (\w+)", text):
        depth, clause, i = 0, 0, found.end()
        while i < len(text):
            c = text[i]
            if c == ";" and depth == 0:
                break
            if c == "{":
                before = text[found.end():i].rstrip()
                if depth == 0 and not re.search(r"(requires|ensures)\*?( \w+)?$", before):
                    end, level = i, 0
                    while True:
                        level += {"{": 1, "}": -1}.get(text[end], 0)
                        end += 1
                        if level == 0:
                            break
                    yield found.group(1), text[found.start():i], text[i:end]
                    break
                depth += 1
            elif c == "}":
                depth -= 1
            i += 1


def shape(body):
    """A body with each type, constant and number replaced, so that twins look alike."""
    body = re.sub(r"//.*", "", body)
    body = re.sub(r"::<[^()]*>", "", body)
    body = re.sub(r"\b[A-Z]\w*(::\w+)*", "T", body)
    body = re.sub(r"\b\d\w*\b", "N", body)
    return re.sub(r"\s+", " ", body)


def main(argv):
    show = "--list" in argv
    argv = [a for a in argv if a != "--list"]
    top = pathlib.Path(argv[0] if argv else ".")
    files = sorted(top.glob("crates/*/src/**/*.rt"))
    texts = {f.relative_to(top): f.read_text() for f in files}
    for title, pattern in LINES:
        hits = [(f, n, line) for f, text in texts.items() for n, line in enumerate(text.split("\n"), 1)
                if re.search(pattern, line) and not line.lstrip().startswith(("ghost use", "ensures", "requires", "//!"))]
        print(f"{title}: {len(hits)}")
        if show:
            for f, n, line in hits:
                print(f"    {f}:{n}: {line.strip()}")
    groups, words = collections.defaultdict(list), collections.defaultdict(set)
    for f, text in texts.items():
        for name, head, body in functions(text):
            if f.name != "tests.rt" and len(body) > 12:
                groups[shape(body)].append(f"{f}: {name}")
            for clause in re.findall(r"(?:requires|ensures)[^{]*\{(.*)\}", head):
                for word in re.findall(r"\b([a-z_]\w*)(?: [\w.]+)* \(?(?:\w+\.)*(?:self|result|store|frames|winds|nodes|memory)\b", clause):
                    words[(f.parts[1], word)].add(f"{f}:{name}")
    twins = [g for g in groups.values() if len(g) > 1]
    print(f"2 functions with the body of another but for types and constants: {sum(map(len, twins))} in {len(twins)} groups")
    if show:
        for group in twins:
            print("    " + "; ".join(group))
    often = {k: v for k, v in words.items() if len(v) > 2}
    print(f"5 words that the clauses of three or more functions of a crate say of their values: {len(often)}")
    if show:
        for (crate, word), where in sorted(often.items()):
            print(f"    {crate}: {word} in {len(where)}")


main(sys.argv[1:])
