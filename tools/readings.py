#!/usr/bin/env python3
"""Sheets at every boundary of the reader, with the answers that the independent evaluator gives.

  tools/readings.py       writes crates/readings/data/sheets.txt, crates/readings/stdout and crates/readings/src/cases.rt

No answer is written by hand: each is what `tools/evaluator/evaluate.py --read` prints. A row stands under the refusal
number that it was written for (0: accepted), and an answer with another number stops the writing, so that a row which
misses its purpose is noticed.

A sheet is written as an expression; crates/readings/src/decode.rt says how. Here {labels N} stands besides for N lines,
each a label, named a, b, ... z, aa, ab, ... az, ba, bb, ...
"""
import os
import re
import string
import subprocess
import sys
from pathlib import Path

TOP = Path(__file__).resolve().parent.parent
CRATE = TOP / "crates" / "readings"
EVALUATOR = TOP / "tools" / "evaluator" / "evaluate.py"
# How many of the short rows also stand in the crate's test.
TESTED = 72


# The operands of each word, well formed; `a` is a label that the row defines.
WELL_FORMED = {
    "set": "r0 7", "proc": "r1 a", "load": "r2 g3", "store": "g3 r2", "add": "r1 r2 r3", "sub": "r4 r5 r6",
    "less": "r5 r6 r7", "jump": "a", "zero": "r3 a", "push": "r4", "pop": "r5", "print": "r6", "call": "r7",
    "tail": "r0", "cc": "r1", "cc1": "r2", "forget": "r3", "wind": "r1 r2 r3", "ret": "", "stop": "",
}


def line_of(word, operands):
    """An instruction's line, after a label `a` where one is used."""
    label = r":a\n" if word in ("proc", "jump", "zero") else ""
    return label + " ".join([word] + operands) + r"\n"


def each_word():
    for word, operands in WELL_FORMED.items():
        yield f"{word}, well formed", line_of(word, operands.split())


def one_too_few():
    for word, operands in WELL_FORMED.items():
        if operands:
            yield f"{word}, one operand too few", line_of(word, operands.split()[:-1])


def one_too_many():
    for word, operands in WELL_FORMED.items():
        parts = operands.split()
        yield f"{word}, one operand too many", line_of(word, parts + (parts[-1:] or ["r0"]))


# By the refusal number that the rows are about, 0 for accepted sheets: (name, sheet).
ROWS = {
    0: [
        *each_word(),
        ("three lines", r"set r0 7\nprint r0\nstop\n"),
        ("no byte 10 at the end", r"ret"),
        ("two bytes 10 at the end", r"ret\n\n"),
        ("empty lines first", r"\n\nret\n"),
        ("an empty comment", r";\nret\n"),
        ("a comment as the last line, without byte 10", r"ret\n; done"),
        ("a comment may have any bytes from 32 to 126", r"; ~ \x7b\x7d :a \"b\" \\ R8\nret\n"),
        ("a comment of spaces", r";   \nret\n"),
        ("a comment that looks like a bad instruction", r";set r9 99999999999\nret\n"),
        ("number 0", r"set r0 0\n"),
        ("number -1", r"set r0 -1\n"),
        ("the largest number", r"set r0 2147483647\n"),
        ("the least number", r"set r0 -2147483648\n"),
        ("ten digits", r"set r0 1000000000\n"),
        ("zeros inside and at the end", r"set r0 -1002000\n"),
        ("first and last register", r"add r0 r7 r0\n"),
        ("first and last global", r"load r7 g31\nstore g0 r7\n"),
        ("globals of two digits", r"load r0 g10\nload r0 g19\nload r0 g20\nload r0 g30\n"),
        ("a label of 1 letter", r":z\njump z\n"),
        ("a label of 12 letters", r":abcdefghijkl\njump abcdefghijkl\n"),
        ("labels that differ in the twelfth letter", r":abcdefghijkl\n:abcdefghijkm\nret\n"),
        ("a label that begins another", r":a\n:aa\njump aa\njump a\n"),
        ("a label spelled like a word", r":ret\njump ret\n"),
        ("a label defined after its use", r"jump on\nret\n:on\nret\n"),
        ("a label at the code's end", r"ret\n:end\n"),
        ("a label at the code's end, without byte 10", r"ret\n:end"),
        ("a jump to a label at the code's end", r"jump end\n:end\n"),
        ("two labels for one address", r":a\n:b\nproc r0 a\nproc r0 b\n"),
        ("a label used twice", r"jump a\n:a\nzero r0 a\n"),
        ("a label that nothing uses", r":a\nret\n"),
        ("64 labels", r"{labels 64}ret\n"),
        ("the 64th label in use", r"jump bl\n{labels 64}"),
        ("256 instructions", r"{256*ret\n}"),
        ("256 instructions, no byte 10 at the end", r"{255*ret\n}ret"),
        ("256 instructions and other lines", r"; all\n{256*stop\n}\n; done\n:end\n"),
        ("the label at address 256", r"jump end\n{255*ret\n}:end\n"),
        ("16,384 bytes", r"ret\n;{16378*x}\n"),
        ("16,384 bytes, no byte 10 at the end", r"ret\n;{16379*x}"),
        ("16,384 bytes, most of them empty lines", r"{16380*\n}ret\n"),
    ],
    1: [
        ("16,385 bytes", r"ret\n;{16379*x}\n"),
        ("16,385 bytes, no byte 10 at the end", r"ret\n;{16380*x}"),
        ("16,385 bytes by the last byte 10", r"ret\n{16381*\n}"),
        ("16,385 empty lines", r"{16385*\n}"),
        ("1 before 2", r"\xff\nret\n;{16377*x}\n"),
        ("1 before 3", r"nix\n;{16379*x}\n"),
        ("1 before 6", r":A\n;{16380*x}\n"),
        ("1 before 8 for the 257th", r"{4096*ret\n}\n"),
        ("twice the size", r"{8192*ret\n}"),
    ],
    2: [
        ("byte 13 before byte 10", r"ret\x0d\n"),
        ("byte 13 alone in a line", r"\x0d\nret\n"),
        ("byte 13 in a comment", r"ret\n; note\x0d\n"),
        ("byte 13 after a label", r":a\x0d\nret\n"),
        ("byte 13 as the last byte", r"ret\x0d"),
        ("byte 9 in place of a space", r"set\x09r0 1\n"),
        ("byte 9 in a comment", r";\x09note\nret\n"),
        ("byte 0", r"ret\n\x00\n"),
        ("byte 31", r"print r0\x1f\n"),
        ("byte 127 in an instruction", r"ret\x7f\n"),
        ("byte 127 in a comment", r"; \x7f\nret\n"),
        ("byte 127 in a label", r":a\x7f\nret\n"),
        ("byte 128 in a comment", r"; \x80\nret\n"),
        ("byte 128 in an instruction", r"ret\n\x80ret\n"),
        ("a letter of two bytes in a comment", r"; caf\xc3\xa9\nret\n"),
        ("a letter of two bytes in a label", r":caf\xc3\xa9\nret\n"),
        ("byte 255 in an instruction", r"ret\nret\nset r0 \xff\n"),
        ("byte 255 in a label", r":\xff\nret\n"),
        ("a byte order mark", r"\xef\xbb\xbfret\n"),
        ("in the last line, without byte 10", r"ret\n;\xa0"),
        ("2 before 6", r":A\x80\nret\n"),
        ("2 before 6 in a second label", r":a\n:a\x80\nret\n"),
        ("2 before 3", r"nix\x09\n"),
        ("2 before 3 for a leading space", r" ret\x0d\n"),
        ("2 before 4 for the count", r"set r0\x0d\n"),
        ("2 before 4 for the form", r"print r8\x7f\n"),
        ("2 before 5", r"set r0 99999999999\x0d\n"),
        ("2 before 7 of an earlier line", r"jump a\n;\x80\n"),
        ("2 before 8 in the 257th instruction", r"{256*ret\n}ret\x0d\n"),
        ("2 before 6 in the 65th label", r"{labels 64}:bm\x0d\nret\n"),
        ("2 before the empty sheet's 8", r"\x80"),
    ],
    3: [
        ("a word that there is not", r"nix\n"),
        ("a word in upper case", r"RET\n"),
        ("a first letter in upper case", r"Set r0 1\n"),
        ("one letter too few", r"re\n"),
        ("one letter too many", r"rets\n"),
        ("cc with another figure", r"cc2 r0\n"),
        ("a register as the word", r"r0\n"),
        ("a number as the word", r"1\n"),
        ("a leading space", r" ret\n"),
        ("two leading spaces", r"  ret\n"),
        ("a line of one space", r" \nret\n"),
        ("a line of three spaces", r"ret\n   \n"),
        ("a space before a comment", r" ; note\nret\n"),
        ("a space before a label", r" :a\nret\n"),
        ("a comment right after a word", r"ret;\n"),
        ("a comma in place of a space", r"set,r0 1\n"),
        ("in line 2, after a comment", r"; one\nnix\n"),
        ("in the last line, without byte 10", r"ret\nnix"),
        ("lines of all kinds are counted", r"; one\n\n:a\nret\n\nnix\n"),
        ("3 before 4 for the count", r"nix r0 r1 r2 r3\n"),
        ("3 before 4 for the form", r"nix r9\n"),
        ("3 before 5", r"nix r0 99999999999\n"),
        ("3 before a 6 of a later line", r"nix\n:A\n"),
        ("3 before a 2 of a later line", r"nix\n\x80\n"),
        ("3 before a 7 of an earlier line", r"jump a\nnix\n"),
        ("3 before the empty sheet's 8", r"; note\nnix\n"),
        ("the first of two refused lines", r"ret\nnix\nprint r8\n"),
        ("3 before 8 in the 257th instruction", r"{256*ret\n}nix\n"),
        ("at line 301", r"{300*\n}nix\n"),
        ("at line 16,381", r"{16380*\n}nix\n"),
        ("at line 16,384", r"{16383*\n}x"),
    ],
    4: [
        *one_too_few(),
        *one_too_many(),
        ("a trailing space after ret", r"ret \n"),
        ("a trailing space after an operand", r"print r0 \n"),
        ("a trailing space in place of an operand", r"print \n"),
        ("a trailing space in place of a number", r"set r0 \n"),
        ("a trailing space in place of a label", r"jump \n"),
        ("a double space after the word", r"set  r0 1\n"),
        ("a double space between operands", r"set r0  1\n"),
        ("a double space for a missing operand", r"add r0  r1\n"),
        ("a comment after an instruction", r"ret ; note\n"),
        ("register r8", r"print r8\n"),
        ("register r07", r"print r07\n"),
        ("register r00", r"print r00\n"),
        ("register r10", r"print r10\n"),
        ("register r256", r"print r256\n"),
        ("register r4294967296", r"print r4294967296\n"),
        ("register r", r"print r\n"),
        ("register R0", r"print R0\n"),
        ("register r-1", r"print r-1\n"),
        ("register r1x", r"print r1x\n"),
        ("register 1", r"print 1\n"),
        ("a global where a register is wanted", r"print g0\n"),
        ("a label where a register is wanted", r":a\nprint a\n"),
        ("the second register", r"add r0 r8 r1\n"),
        ("the third register", r"wind r0 r1 r\n"),
        ("global g32", r"load r0 g32\n"),
        ("global g031", r"load r0 g031\n"),
        ("global g00", r"load r0 g00\n"),
        ("global g100", r"store g100 r0\n"),
        ("global g256", r"load r0 g256\n"),
        ("global g4294967296", r"load r0 g4294967296\n"),
        ("global g", r"load r0 g\n"),
        ("global G0", r"load r0 G0\n"),
        ("global g-0", r"store g-0 r0\n"),
        ("a register where a global is wanted", r"load r0 r1\n"),
        ("load's operands the other way round", r"load g0 r0\n"),
        ("store's operands the other way round", r"store r0 g0\n"),
        ("number -0", r"set r0 -0\n"),
        ("number -", r"set r0 -\n"),
        ("number --1", r"set r0 --1\n"),
        ("number +1", r"set r0 +1\n"),
        ("number 00", r"set r0 00\n"),
        ("number 01", r"set r0 01\n"),
        ("number -01", r"set r0 -01\n"),
        ("number -00", r"set r0 -00\n"),
        ("number 1-", r"set r0 1-\n"),
        ("number 0x1", r"set r0 0x1\n"),
        ("number 1.0", r"set r0 1.0\n"),
        ("number 1,000", r"set r0 1,000\n"),
        ("eleven zeros", r"set r0 00000000000\n"),
        ("a sign and eleven zeros", r"set r0 -00000000000\n"),
        ("ten zeros and a 1", r"set r0 00000000001\n"),
        ("a zero and eleven digits", r"set r0 099999999999\n"),
        ("eleven digits and a letter", r"set r0 99999999999x\n"),
        ("a letter and eleven digits", r"set r0 x99999999999\n"),
        ("the byte before 0 in a number", r"set r0 1/\n"),
        ("the byte after 9 in a number", r"set r0 1:\n"),
        ("a register where a number is wanted", r"set r0 r1\n"),
        ("a label operand in upper case", r"jump A\n"),
        ("a label operand with a figure", r":a\njump a1\n"),
        ("a label operand with its colon", r":a\njump :a\n"),
        ("a label operand of 13 letters", r"jump abcdefghijklm\n"),
        ("a label operand with the byte after z", r"jump a\x7b\n"),
        ("a label operand with the byte before a", r"jump a`\n"),
        ("a register where a label is wanted", r"zero r0 r1\n"),
        ("the count before 5", r"set r0 99999999999 x\n"),
        ("the count before 7", r"jump a b\n"),
        ("operands from the left, 4 before 5", r"set r8 99999999999\n"),
        ("4 before a 5 of a later line", r"print r8\nset r0 99999999999\n"),
        ("4 before a 7 of an earlier line", r"jump a\njump A\n"),
        ("the form before 8 in the 257th instruction", r"{256*ret\n}print r8\n"),
        ("the count before 8 in the 257th instruction", r"{256*ret\n}ret r0\n"),
        ("a register of 5,000 digits", r"print r1{4999*0}\n"),
        ("5,000 zeros", r"set r0 {5000*0}\n"),
        ("8,000 operands", r"ret{8000* r}\n"),
        ("16,000 spaces after a word", r"ret{16000* }\n"),
    ],
    5: [
        ("one above the largest number", r"set r0 2147483648\n"),
        ("one below the least number", r"set r0 -2147483649\n"),
        ("the least number, then the same without its sign", r"set r0 -2147483648\nset r0 2147483648\n"),
        ("the largest number of ten digits", r"set r0 9999999999\n"),
        ("the same, negative", r"set r0 -9999999999\n"),
        ("the least number of eleven digits", r"set r0 10000000000\n"),
        ("the same, negative", r"set r0 -10000000000\n"),
        ("eleven digits", r"set r7 99999999999\n"),
        ("2 to the 32nd, less 1", r"set r0 4294967295\n"),
        ("2 to the 32nd", r"set r0 4294967296\n"),
        ("2 to the 32nd, and 7", r"set r0 4294967303\n"),
        ("2 to the 64th", r"set r0 18446744073709551616\n"),
        ("2 to the 64th, and 7", r"set r0 18446744073709551623\n"),
        ("-2 to the 64th, less 1", r"set r0 -18446744073709551617\n"),
        ("in line 3", r"; one\nset r0 1\nset r0 3000000000\nset r0 4000000000\n"),
        ("5 before a 4 of a later line", r"set r0 99999999999\nprint r8\n"),
        ("5 before a 7 of an earlier line", r"jump a\nset r0 99999999999\n"),
        ("5 before 8 in the 257th instruction", r"{256*ret\n}set r0 99999999999\n"),
        ("5,000 digits", r"set r0 1{4999*0}\n"),
        ("5,000 digits, negative", r"set r0 -{5000*9}\n"),
    ],
    6: [
        ("an empty label", r":\nret\n"),
        ("an empty label as the last byte", r"ret\n:"),
        ("a letter in upper case", r":A\nret\n"),
        ("a letter in upper case after a good one", r":aB\nret\n"),
        ("a figure in a label", r":a1\nret\n"),
        ("a figure alone", r":1\nret\n"),
        ("13 letters", r":abcdefghijklm\nret\n"),
        ("13 letters after the same 12", r":abcdefghijkl\n:abcdefghijklm\nret\n"),
        ("a trailing space", r":a \nret\n"),
        ("a leading space", r": a\nret\n"),
        ("a second word", r":a b\nret\n"),
        ("an instruction after a label", r":a ret\n"),
        ("a second colon", r"::a\nret\n"),
        ("a colon at the end", r":a:\nret\n"),
        ("a comment after a label", r":a;\nret\n"),
        ("a low line", r":a_b\nret\n"),
        ("the byte before a", r":`\nret\n"),
        ("the byte after z", r":\x7b\nret\n"),
        ("repeated at once", r":a\n:a\nret\n"),
        ("repeated later", r":a\nret\n; note\n\n:b\n:a\nret\n"),
        ("repeated after its use", r"jump a\n:a\nret\n:a\n"),
        ("repeated, 12 letters", r":abcdefghijkl\nret\n:abcdefghijkl\n"),
        ("the 65th label", r"{labels 65}ret\n"),
        ("the 65th label, with lines between", r"; all\n{labels 64}ret\n\n:last\n"),
        ("the 65th label, malformed", r"{labels 64}:A\nret\n"),
        ("the 65th label, repeated", r"{labels 64}:a\nret\n"),
        ("6 before a 3 of a later line", r":A\nnix\n"),
        ("6 before a 2 of a later line", r":A\n;\x80\n"),
        ("6 before a 7 of an earlier line", r"jump b\n:a\n:a\n"),
        ("6 before the empty sheet's 8", r":a\n:a\n"),
        ("a label of 5,000 letters", r":{5000*a}\nret\n"),
        ("6 after 256 instructions", r"{256*ret\n}:A\nret\n"),
    ],
    7: [
        ("jump", r"jump a\n"),
        ("proc", r"proc r0 a\n"),
        ("zero", r"zero r0 a\n"),
        ("in line 4", r"; one\n\nret\njump a\n"),
        ("the same label missing twice", r"ret\njump a\njump a\n"),
        ("two labels missing, the first use is told", r"ret\njump b\njump a\n"),
        ("a defined one before it", r":a\njump a\njump b\n"),
        ("a label that begins as the missing one", r":a\njump aa\n"),
        ("a missing one that begins a label", r":aa\njump a\n"),
        ("the twelfth letter differs", r":abcdefghijkl\njump abcdefghijkm\n"),
        ("a label in a comment is none", r";:a\njump a\n"),
        ("a word is no label", r"ret\njump ret\n"),
        ("no byte 10 at the end", r"ret\nproc r7 a"),
        ("the 65th name, not defined", r"{labels 64}jump bm\n"),
        ("in the 256th instruction", r"{255*ret\n}jump a\n"),
        ("at line 16,377", r"{16376*\n}jump a\n"),
    ],
    8: [
        ("no bytes", r""),
        ("one empty line", r"\n"),
        ("three empty lines", r"\n\n\n"),
        ("a comment", r"; closed\n"),
        ("a comment without byte 10", r";"),
        ("comments and empty lines", r"; closed\n\n; today\n"),
        ("a label", r":a\n"),
        ("a label without byte 10", r":a"),
        ("64 labels and no instruction", r"{labels 64}"),
        ("16,384 empty lines", r"{16384*\n}"),
        ("16,384 bytes of comment", r";{16383*x}"),
        ("257 instructions", r"{257*ret\n}"),
        ("257 instructions, no byte 10 at the end", r"{256*ret\n}ret"),
        ("300 instructions, the 257th is told", r"{300*ret\n}"),
        ("lines of other kinds are counted", r"; all\n:a\n{256*ret\n}\n:b\njump a\n"),
        ("8 before a 7 of an earlier line", r"jump a\n{256*ret\n}"),
        ("8 before 7 in the same line", r"{256*ret\n}jump a\n"),
        ("8 before a 2 of a later line", r"{257*ret\n}\x80\n"),
        ("8 before a 6 of a later line", r"{257*ret\n}:A\n"),
        ("4,096 instructions in 16,384 bytes", r"{4096*ret\n}"),
    ],
}

# --- The expressions ---

PIECE = re.compile(r"\{labels (\d+)\}|\{(\d+)\*([^{}]+)\}|([^{}]+)")
ESCAPE = re.compile(r'\\(?:(n)|([\\"])|x([0-9a-f]{2}))|([^\\])', re.DOTALL)


def unescaped(text):
    """The bytes of a text without braces."""
    made, at = bytearray(), 0
    while at < len(text):
        found = ESCAPE.match(text, at)
        if found is None:
            raise ValueError(f"not an escape: {text[at:]!r}")
        newline, mark, figures, plain = found.groups()
        made.append(10 if newline else int(figures, 16) if figures else ord(mark or plain))
        at = found.end()
    return bytes(made)


def escaped(data):
    """The same text from its bytes; a brace needs no escape in a byte string."""
    named = {10: r"\n", 34: r"\"", 92: r"\\"}
    return "".join(named.get(b) or (chr(b) if 32 <= b <= 126 else f"\\x{b:02x}") for b in data)


def label_names(count):
    letters = string.ascii_lowercase
    names = list(letters) + [a + b for a in letters for b in letters]
    return names[:count]


def pieces(expression):
    """The parts of an expression: ('labels', N) or ('repeat', COUNT, bytes)."""
    at = 0
    while at < len(expression):
        found = PIECE.match(expression, at)
        if found is None:
            raise ValueError(f"not an expression: {expression[at:]!r}")
        labels, count, repeated, plain = found.groups()
        if labels:
            yield ("labels", int(labels))
        else:
            yield ("repeat", int(count or 1), unescaped(repeated or plain))
        at = found.end()


def expanded(expression):
    """The bytes of a sheet."""
    made = b""
    for kind, count, *text in pieces(expression):
        if kind == "labels":
            made += b"".join(b":%s\n" % name.encode() for name in label_names(count))
        else:
            made += count * text[0]
    return made


def is_long(expression):
    return "{" in expression


# --- The answers ---


def answer(sheet):
    # Python's own limit on the digits of a number must not decide about a sheet.
    settings = dict(os.environ, PYTHONINTMAXSTRDIGITS="0")
    told = subprocess.run([sys.executable, EVALUATOR, "--read"], input=sheet, capture_output=True, check=True, env=settings)
    return told.stdout.decode().strip()


def as_result(told):
    """The answer as Rust writes it: Ok(instructions), or Err((number, line))."""
    words = told.split()
    return f"Ok({words[1]})" if words[0] == "ok" else f"Err(({words[1]}, {words[3]}))"


def refusal_number(told):
    """The refusal's number, 0 for an accepted sheet."""
    words = told.split()
    return 0 if words[0] == "ok" else int(words[1])


def answered():
    """[(number that the row is about, name, expression, answer)]"""
    made = []
    seen = {}
    for number, rows in ROWS.items():
        for name, expression in rows:
            sheet = expanded(expression)
            if sheet in seen:
                raise SystemExit(f"the same sheet twice: {number} {name!r} and {seen[sheet]!r}")
            seen[sheet] = name
            told = answer(sheet)
            if refusal_number(told) != number:
                raise SystemExit(f"{number} {name!r}: the answer is {told!r}")
            made.append((number, name, expression, told))
    return made


# --- The files ---


def one_line(expression):
    """The expression with its labels written out, as decode.rt takes it."""
    return re.sub(r"\{labels (\d+)\}", lambda found: "".join(":%s\\n" % name for name in label_names(int(found[1]))), expression)


def cases_text(rows):
    short = [row for row in rows if not is_long(row[2])]
    chosen = [short[i * len(short) // TESTED] for i in range(TESTED)]
    made = "//! Sheets with the answers of the independent evaluator; written by tools/readings.py, not by hand.\n\n"
    made += "/// A sheet, and its number of instructions, or its refusal's number and line.\n"
    made += "pub const CASES: [(&[u8], Result<usize, (u32, u32)>); %d] = [\n" % TESTED
    for _, _, expression, told in chosen:
        made += '    (b"%s", %s),\n' % (escaped(expanded(expression)), as_result(told))
    return made + "];\n"


def main():
    rows = answered()
    (CRATE / "data" / "sheets.txt").write_text("".join(one_line(row[2]) + "\n" for row in rows))
    (CRATE / "stdout").write_text("".join(row[3] + "\n" for row in rows))
    (CRATE / "src" / "cases.rt").write_text(cases_text(rows))
    print(len(rows), "rows", {n: sum(row[0] == n for row in rows) for n in ROWS})


if __name__ == "__main__":
    main()
