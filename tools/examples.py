#!/usr/bin/env python3
"""Checks the examples of docs/*.md against the independent evaluator.

  tools/examples.py

An example is a block whose first line is `$ evaluate.py` with options; what is below that line is what the evaluator has to
print. The sheet is the last block before it that is marked `sheet`, and the calls, if the options ask for them, are the last
one marked `calls`. A row of a table that has a sheet in its first place, and `ok ..` or `sheet ..` in its second, is an
example of reading; in its sheet, `\\n` is byte 10 and `\\xNN` the byte of that value.

It ends with `N examples, all right`; or it prints each example that is wrong, and has status 1.
"""
import re
import subprocess
import sys
import tempfile
from pathlib import Path

TOP = Path(__file__).resolve().parent.parent
EVALUATOR = TOP / "tools" / "evaluator" / "evaluate.py"
BLOCK = re.compile(r"^```(\w*)\n(.*?)^```$", re.MULTILINE | re.DOTALL)
ROW = re.compile(r"^\| `(.+?)` \| `((?:ok|sheet) [^`]*)` \|", re.MULTILINE)
PROMPT = "$ evaluate.py"
# The name that a command of an example has for its list of calls.
CALLS = "CALLS"


def evaluated(sheet, options, calls):
    with tempfile.NamedTemporaryFile("w") as file:
        file.write(calls)
        file.flush()
        command = [sys.executable, EVALUATOR, *(file.name if word == CALLS else word for word in options)]
        printed = subprocess.run(command, input=sheet, capture_output=True, check=True).stdout.decode()
    # A page has no spaces at the ends of its lines.
    return re.sub(r" +$", "", printed, flags=re.MULTILINE)


def examples(text):
    """Each example of a page: its sheet, its options, its calls, and what is to be printed."""
    marked = {"sheet": "", "calls": ""}
    for mark, body in BLOCK.findall(text):
        if mark:
            marked[mark] = body
        elif body.startswith(PROMPT):
            command, told = body.split("\n", 1)
            yield marked["sheet"].encode(), command[len(PROMPT):].split(), marked["calls"], told
    for sheet, told in ROW.findall(text):
        yield sheet.encode().decode("unicode_escape").encode("latin-1"), ["--read"], "", told + "\n"


def main():
    count = wrong = 0
    for page in sorted((TOP / "docs").glob("*.md")):
        for sheet, options, calls, told in examples(page.read_text()):
            count += 1
            printed = evaluated(sheet, options, calls)
            if printed != told:
                wrong += 1
                print(f"{page.name}: {sheet}\n{' '.join(options)}\n{calls}the page has\n{told}the evaluator prints\n{printed}")
    if wrong:
        sys.exit(f"{wrong} of {count} examples are wrong")
    print(f"{count} examples, all right")


if __name__ == "__main__":
    main()
