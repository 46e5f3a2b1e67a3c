"""Faults for which a sheet is refused, one for each refusal; a fault may turn out to be none."""
from generator.draft import LETTERS

# The most bytes that a sheet may have.
BYTES = 16384


def joined(lines):
    return "".join(line + "\n" for line in lines).encode("latin-1")


def insert(chance, lines, made):
    lines.insert(chance.randrange(len(lines) + 1), made)


def is_instruction(line):
    return line[:1] not in (":", ";", "")


def too_long(chance, lines):
    room = BYTES - len(joined(lines)) - 2
    lines.append(";" + "x" * (room + chance.choice((0, 1, 1, 2, 5000))))


def bad_byte(chance, lines):
    at = chance.randrange(len(lines))
    cut = chance.randrange(len(lines[at]) + 1)
    lines[at] = lines[at][:cut] + chr(chance.choice((0, 9, 13, 31, 127, 128, 255))) + lines[at][cut:]


def unknown_word(chance, lines):
    insert(chance, lines, chance.choice(("nix r0", "SET r0 1", " ret", "print,r0", "cc2 r1", "rets", " ")))


BAD_OPERANDS = (
    "print r8", "ret ", "set  r0 1", "add r0 r1", "load g0 r0", "set r0 01", "set r0 -0", "jump A", "print r07",
    "store g32 r0", "set r0 +1", "wind r1 r2 r3 r4",
)


def bad_operand(chance, lines):
    insert(chance, lines, chance.choice(BAD_OPERANDS))


def bad_number(chance, lines):
    number = chance.choice(("2147483648", "-2147483649", "10000000000", "99999999999", "4294967296"))
    insert(chance, lines, f"set r{chance.randrange(8)} {number}")


def bad_label(chance, lines):
    made = chance.choice((":A", ":", ":abcdefghijklm", ":a b", ":twin", "many"))
    if made == "many":
        lines += [":x" + a + b for a in "abc" for b in LETTERS][: chance.randrange(50, 66)]
        return
    insert(chance, lines, made)
    insert(chance, lines, made)


def missing_label(chance, lines):
    insert(chance, lines, chance.choice(("jump gone", "proc r1 gone", "zero r1 gone")))


def bad_length(chance, lines):
    """No instruction, or 256 and some."""
    if chance.randrange(2):
        lines[:] = [line for line in lines if not is_instruction(line)]
    else:
        lines += ["ret"] * (256 - sum(map(is_instruction, lines)) + chance.choice((0, 1, 1, 9)))


DAMAGES = (too_long, bad_byte, unknown_word, bad_operand, bad_number, bad_label, missing_label, bad_length)


def damage(chance, lines):
    """Adds a fault, or two, of which one is told."""
    for fault in chance.sample(DAMAGES, chance.choice((1, 1, 1, 2))):
        fault(chance, lines)
