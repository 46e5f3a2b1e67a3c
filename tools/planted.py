#!/usr/bin/env python3
"""Plants bugs in a crate's code, one at a time, and tells what refuses each.

  tools/planted.py CRATE [BUG..]              tries the prover
  tools/planted.py --tests CRATE [BUG..]      runs the programs and the tests with each bug, unproved
  tools/planted.py --definition [BUG..]       plants errors in the definition of the machine, and tries its laws and its examples

The bugs of a crate stand in tools/bugs/CRATE.txt, those of the definition in tools/bugs/definition.txt, a block each: a line
`bug: NAME`, a line `about:` that says in plain words what is wrong, `file:` (from the crate's folder on), and pairs of `old:`
and `new:`, as in a must-fail edit. Each is planted in a copy of the repository; nothing is changed here. A line of the table
is printed for each. The prover takes up to a minute a bug, and the tests two or three.
"""
import re
import shutil
import subprocess
import sys
import tempfile
from dataclasses import dataclass, field
from pathlib import Path

TOP = Path(__file__).resolve().parent.parent
# Whose output is the evaluator's, and whose tests compare all stores: what is run of bugs in the crates named.
READERS = ("lexer", "code", "sheet")
STORES = ("cell", "store", "bottom", "linked", "copied", "layers")
# The proofs of the table of examples, which are no laws.
EXAMPLES = ("Computed", "examples/examples_run/Answers")
# A program that runs longer than this is taken for one that never ends; the second is in seconds, with the time to make it.
LENGTH = ("--seconds", "200", "--steps", "20000000000")
PATIENCE = 400


@dataclass
class Bug:
    name: str
    about: str = ""
    file: str = ""
    pairs: list = field(default_factory=list)

    def edit(self):
        lines = [f"file: {self.file}"]
        for old, new in self.pairs:
            lines += [f"old: {old}", f"new: {new}"]
        return "\n".join(lines) + "\n"

    def plant(self, crate):
        path = crate / self.file
        text = path.read_text()
        for old, new in self.pairs:
            if text.count(old) != 1:
                raise ValueError(f"`{old}` stands {text.count(old)} times")
            text = text.replace(old, new)
        path.write_text(text)


def bugs_of(crate):
    bugs = []
    for line in (TOP / "tools" / "bugs" / f"{crate}.txt").read_text().splitlines():
        word, _, rest = line.partition(":")
        rest = rest.removeprefix(" ")
        if word == "bug":
            bugs.append(Bug(rest))
        elif word in ("about", "file"):
            setattr(bugs[-1], word, rest)
        elif word == "old":
            old = rest
        elif word == "new":
            bugs[-1].pairs.append((old, rest))
    return bugs


def copied(folder):
    """The files of the repository that a check reads, in a folder of their own."""
    shutil.copytree(TOP / "crates", folder / "crates", ignore=shutil.ignore_patterns("out", "must-fail"))
    shutil.copy(TOP / "crates.txt", folder)
    return folder


def proofs_verdict(told):
    if not told.startswith("refused"):
        return "**not refused by the prover**: " + told
    if "names what the edit took away" in told:
        return "refused, but only since a proof names what the bug took away"
    place = re.search(r"(?:^|\s)(?:\./)?((?:src|proofs)/[^:\s]+)", told)
    return f"refused, first at `{place[1]}`" if place else told


def try_prover(crate, bugs):
    with tempfile.TemporaryDirectory() as folder:
        top = copied(Path(folder))
        edits = top / "crates" / crate / "must-fail"
        edits.mkdir()
        for bug in bugs:
            (edits / f"{bug.name}.edit").write_text(bug.edit())
        done = subprocess.run(["rt", "must-fail", crate], cwd=top, capture_output=True, text=True)
        log = done.stdout + done.stderr
        for bug in bugs:
            told = re.search(rf"^rt: .*{crate}/{bug.name}\.edit:? (.*)$", log, re.MULTILINE)
            print(f"| `{bug.name}` | {bug.about} | {proofs_verdict(told[1]) if told else 'not tried'} |")
        if done.returncode != 0:
            print(log, file=sys.stderr)


def run_unproved(crate, *options):
    """What a crate's program prints, or that its tests failed, with nothing proved."""
    # Its files are named to `rt try`, which runs it in an empty folder.
    data = [word for file in sorted((crate / "data").glob("*")) for word in ("--data", f"{file.name}=data/{file.name}")]
    stdin = open(crate / "stdin", "rb") if (crate / "stdin").exists() else subprocess.DEVNULL
    try:
        return subprocess.run(["rt", "try", *LENGTH, *options, *data], cwd=crate, stdin=stdin, capture_output=True, timeout=PATIENCE)
    except subprocess.TimeoutExpired:
        return None


def prints_else(crate):
    done = run_unproved(crate)
    return done is None or done.returncode != 0 or done.stdout != (crate / "stdout").read_bytes()


def fails(crate):
    done = run_unproved(crate, "--test")
    return done is None or done.returncode != 0


def failing(crates, planted):
    """The programs that print something else than expected, and the crates whose tests do not pass."""
    if planted in READERS and prints_else(crates / "readings"):
        yield "readings"
    if planted in STORES and fails(crates / "alike"):
        yield "alike"
    if prints_else(crates / "trials"):
        yield "trials"


def try_tests(crate, bugs):
    for bug in bugs:
        with tempfile.TemporaryDirectory() as folder:
            crates = copied(Path(folder)) / "crates"
            bug.plant(crates / crate)
            failed = ", ".join(failing(crates, crate))
            print(f"| `{bug.name}` | {bug.about} | {failed or '**no test**'} |", flush=True)


def failing_files(crate, *options):
    """The files in which a crate's check fails, and not only for what fails below, without their endings; none if it is proved."""
    done = subprocess.run(["rt", "check", *options], cwd=crate, capture_output=True, text=True)
    if done.returncode == 0:
        return []
    errors = re.findall(r"^(?:\./)?(?:src|specs|proofs)/([^:\s]+)\.\w+:\d+:\d+: error: (.*)", done.stdout + done.stderr, re.MULTILINE)
    return sorted({file for file, error in errors if "not checked" not in error}) or ["(no file is told)"]


def try_definition(bugs):
    for bug in bugs:
        with tempfile.TemporaryDirectory() as folder:
            crates = copied(Path(folder)) / "crates"
            bug.plant(crates / "machine")
            failed = failing_files(crates / "machine") or failing_files(crates / "laws")
            examples = failing_files(crates / "worked") or failing_files(crates / "laws", "--only", "examples_run")
            laws = ", ".join(f"`{file}`" for file in failed if file not in EXAMPLES)
            print(f"| {bug.about} | {laws or '**none**'} | {'yes' if examples else '**no**'} |", flush=True)


def chosen(crate, named):
    return [bug for bug in bugs_of(crate) if not named or bug.name in named]


def main():
    match sys.argv[1:]:
        case ["--definition", *named]:
            try_definition(chosen("definition", named))
        case ["--tests", crate, *named]:
            try_tests(crate, chosen(crate, named))
        case [crate, *named]:
            try_prover(crate, chosen(crate, named))
        case []:
            sys.exit(__doc__)


if __name__ == "__main__":
    main()
