#!/usr/bin/env python3
"""Random rule sheets, to be run by the program and by the independent evaluator.

  tools/generate.py NUMBER       prints the sheet made from that number

The same number makes the same sheet. Most sheets are put together from statements that know what they need: captures
are kept in globals and thrown to later, also from befores and afters. All throws go through one procedure that counts
down and throws only while the count is above the number of the place, so that most runs come to their last part, which
ends them in one of all ways. Other sheets are instructions at random, runs that end just about when the program gives
up, and sheets that are refused. In front of most there are comments that say how the program `trials` runs the sheet.
"""
import random
import sys
from pathlib import Path

sys.path.append(str(Path(__file__).resolve().parent / "evaluator"))

from generator.damages import damage, insert, joined
from generator.directives import directives
from generator.draft import LEAST, LETTERS, Draft
from generator.endings import finish
from generator.statements import LIMITS, some_statements


def throwing(s):
    """The procedure by which all throws go: it throws if the count, now one less, is still above r6."""
    s.put(":throw", "load r7 g31", "set r3 1", "sub r7 r7 r3", "store g31 r7")
    s.put(*s.pick((), ("print r7",)))
    s.put("less r6 r6 r7", "zero r6 enough", s.pick("call r1", "tail r1"), ":enough", "ret")


def planned(chance):
    """Statements, then the last part."""
    s = Draft(chance)
    s.put(f"set r7 {s.count}", "store g31 r7", f"set r4 {s.number()}", f"set r5 {s.number()}")
    while True:
        some_statements(s, 3)
        if s.odds(1, 4):
            s.pick(*LIMITS)(s)
        if s.is_full() or s.odds(1, 6):
            break
    s.put("jump end" if s.odds(9, 10) else "ret")
    main, s.lines = s.lines, []
    if any(line == "proc r7 throw" for line in main + sum(s.procedures, [])):
        throwing(s)
    finish(s)
    last, s.lines = s.lines, main
    return s.text() + last


OPERANDS = {
    "set": "rn", "proc": "rL", "zero": "rL", "load": "rg", "store": "gr", "add": "rrr", "sub": "rrr", "less": "rrr",
    "wind": "rrr", "jump": "L", "push": "r", "pop": "r", "print": "r", "call": "r", "tail": "r", "cc": "r", "cc1": "r",
    "forget": "r", "ret": "", "stop": "",
}


def operand(chance, kind, labels):
    if kind == "L":
        return chance.choice(labels)
    if kind == "n":
        return str(chance.randrange(-3, 12))
    return kind + str(chance.randrange(8 if kind == "r" else 32))


def unplanned(chance):
    """Instructions at random, after some that give the registers something."""
    labels = LETTERS[: chance.randrange(1, 6)]
    lines = []
    for _ in range(chance.randrange(1, 40)):
        word = chance.choice(list(OPERANDS))
        lines.append(" ".join([word] + [operand(chance, kind, labels) for kind in OPERANDS[word]]))
    for label in labels:
        insert(chance, lines, ":" + label)
    first = [f"proc r{i} {chance.choice(labels)}" if chance.randrange(3) else f"set r{i} {i}" for i in range(8)]
    return first[: chance.randrange(9)] + lines


def long_enough(chance):
    """A loop of three instructions that is left at about 100,000 steps, when the program gives up."""
    turns = ["set r1 33332", "set r2 1", ":top", "sub r1 r1 r2", "zero r1 out", "jump top", ":out"]
    ending = chance.choice((["stop"], ["pop r0"], []))
    return ["set r0 1"] * chance.randrange(3) + turns + ["set r0 2"] * chance.randrange(3) + ending


def wordy(chance):
    """Lines as long as they can be, and nearly as many as there are steps."""
    return [f"set r1 {LEAST}", ":top"] + ["print r1"] * chance.randrange(100, 254) + ["jump top"]


def decorate(chance, lines):
    """Adds lines that mean nothing."""
    for _ in range(chance.randrange(3)):
        insert(chance, lines, chance.choice(("", "; tins", ";", ";:a ret")))


def refused(chance):
    """A sheet with a fault."""
    lines = chance.choice((planned, unplanned))(chance)
    decorate(chance, lines)
    damage(chance, lines)
    return lines


KINDS = {planned: 800, unplanned: 60, refused: 130, long_enough: 6, wordy: 1}


def generate(start):
    """The sheet made from a number."""
    chance = random.Random(start)
    kind = chance.choices(list(KINDS), list(KINDS.values()))[0]
    lines = kind(chance)
    if kind is not refused:
        decorate(chance, lines)
    sheet = joined(lines)
    if chance.randrange(8) == 0:
        sheet = sheet[:-1]
    return joined(directives(chance, sheet)) + sheet


def main():
    if len(sys.argv) != 2 or not sys.argv[1].isdigit():
        sys.exit("usage: tools/generate.py NUMBER")
    sys.stdout.buffer.write(generate(int(sys.argv[1])))


if __name__ == "__main__":
    main()
