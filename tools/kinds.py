#!/usr/bin/env python3
"""Sheets of every instruction with every kind of value in its registers.

  tools/kinds.py       writes crates/trials/data/kinds_*.sheet

A value of the wrong kind ends the run, so each has a sheet of its own; what is accepted stands together in a few sheets.
The values are pushed, so that `look` tells their kinds. All have the payload 1, but for none: a machine that looks only
at the payload takes each for the other.
"""
from pathlib import Path

DATA = Path(__file__).resolve().parent.parent / "crates" / "trials" / "data"

# The line that makes a value of a kind in a register. BEGINNING puts a continuation into g0 and none into g1.
KINDS = {"none": "load {} g1", "number": "set {} 1", "procedure": "proc {} second", "continuation": "load {} g0"}
BEGINNING = [":first", "proc r1 begin", ":second", "cc r1", "stop", ":begin", "store g0 r0", "store g1 r7"]
# What a value of the kind is called in a sentence.
SPOKEN = {"none": "nothing", "number": "a number", "procedure": "a procedure", "continuation": "a continuation"}
# A line as long as a buffer of 12 bytes: a run with such a buffer stops before each further one.
LONGEST = ["set r6 -2147483648", "print r6"]
# The steps that BEGINNING makes, and the two that print 11 after it.
BEGUN = 4
PRINTED = 2


def write(name, about, calls, lines):
    """A sheet, with one or two lines on what it is about."""
    head = [f"; {line}" for line in about] + [f";! calls {group}" for group in calls]
    (DATA / f"kinds_{name}.sheet").write_text("".join(line + "\n" for line in head + lines))


def seen(steps, last):
    """Calls on a run that makes so many steps and is then refused a value: at once, and the last step by itself."""
    return [f"run 1000 100, tally, look 0-{last}", f"run {steps - 1} 12, 3*run 1 12+tally, look 0-{last}"]


def made(kind, register):
    return KINDS[kind].format(register)


def refused(name, about, values, instruction, after=()):
    """A sheet in which an instruction finds these values in r2, r3 and so on, and is refused one of them."""
    registers = [f"r{at}" for at in range(2, 2 + len(values))]
    makes = [made(kind, register) for kind, register in zip(values, registers)]
    pushes = [f"push {register}" for register in registers]
    calls = seen(BEGUN + PRINTED + len(makes + pushes), len(values) + 1)
    write(name, about, calls, BEGINNING + ["set r6 11", "print r6"] + makes + pushes + [instruction, *after, "stop"])


# --- Sums of two values ---

SUMS = {
    "add": "A machine that adds the payloads prints {}.",
    "sub": "A machine that subtracts the payloads prints {}.",
    "less": "A machine that compares the payloads prints {}.",
}
PAYLOADS = {"none": 0, "number": 1, "procedure": 1, "continuation": 1}


def sum_of_payloads(word, one, other):
    one, other = PAYLOADS[one], PAYLOADS[other]
    return {"add": one + other, "sub": one - other, "less": int(one < other)}[word]


def refused_pairs(word):
    """Each pair with a number in it and each of one kind; `add` has all others too."""
    for one in KINDS:
        for other in KINDS:
            with_a_number = (one == "number") != (other == "number")
            if with_a_number or one == other != "number" or word == "add" and one != other:
                yield one, other


def refused_sums():
    for word, wrong in SUMS.items():
        for one, other in refused_pairs(word):
            told = wrong.format(sum_of_payloads(word, one, other))
            about = [f"`{word}` of {SPOKEN[one]} and {SPOKEN[other]} ends with 30.", told]
            refused(f"{word}_{one}_{other}", about, [one, other], f"{word} r4 r2 r3", ["print r4"])


# --- Instructions of one register ---

# By the word: the kinds that it refuses, and what a wrong machine does.
SINGLE = {
    "print": ("none procedure continuation", "A machine that prints the payload writes a line here."),
    "cc": ("none number continuation", "A machine that goes to the payload prints 11 again."),
    "cc1": ("none number continuation", "A machine that goes to the payload prints 11 again."),
    "call": ("none number", "A machine that goes to the payload prints 11 again."),
    "tail": ("none number", "A machine that goes to the payload prints 11 again."),
    "forget": ("none number procedure", "A machine that takes the payload for a name forgets 1, which is held."),
}


def refused_singles():
    for word, (kinds, wrong) in SINGLE.items():
        for kind in kinds.split():
            about = [f"`{word}` of {SPOKEN[kind]} ends with 30.", wrong]
            refused(f"{word}_{kind}", about, [kind], f"{word} r2", ["set r6 12", "print r6"])


def refused_zeros():
    """The procedure at address 0 has the payload 0, as none has."""
    wrong = "A machine that looks at the payload prints {}."
    ending = ["set r6 12", "print r6", "stop", ":taken", "set r6 13", "print r6"]
    for kind, printed in (("none", 13), ("continuation", 12)):
        about = [f"`zero` of {SPOKEN[kind]} ends with 30.", wrong.format(printed)]
        refused(f"zero_{kind}", about, [kind], "zero r2 taken", ending)
    lines = BEGINNING + ["proc r2 first", "push r2", "zero r2 taken"] + ending
    write("zero_procedure", ["`zero` of the procedure at address 0 ends with 30.", wrong.format(13)], seen(BEGUN + 2, 2), lines)


def refused_winds():
    places = ("before", "body", "after")
    for at, place in enumerate(places):
        for kind in ("none", "number", "continuation"):
            values = ["procedure"] * 3
            values[at] = kind
            about = [
                f"`wind` with {SPOKEN[kind]} for the {place} ends with 30 at once.",
                "A machine that looks at it only when it is called pushes two frames first.",
            ]
            lines = BEGINNING + [made(value, f"r{2 + i}") for i, value in enumerate(values)]
            lines += ["push r2", "push r3", "push r4", "wind r2 r3 r4", "set r6 12", "print r6", "stop"]
            write(f"wind_{place}_{kind}", about, seen(BEGUN + 2 * len(places), len(places) + 2), lines)


# --- Continuations that are held no longer ---

def not_held():
    wrong = {
        "call": "A machine that does not look prints 13.",
        "tail": "A machine that does not look prints 13.",
        "forget": "A machine that does not look prints 12, with two forgotten of one made.",
    }
    for word, told in wrong.items():
        about = [f"`{word}` of a continuation that was forgotten ends with 33; its value can still be pushed.", told]
        lines = ["proc r1 begin", "cc r1", "set r6 13", "print r6"]
        lines += [":begin", "push r0", "pop r2", "push r2", "forget r2", "push r2"]
        lines += [f"{word} r2", "set r6 12", "print r6", "stop"]
        calls = ["run 1000 100, tally, look 0-3", "run 5 12, 5*run 1 12+tally+look 0-3"]
        write(f"{word}_not_held", about, calls, lines)


# --- What is accepted ---

def pairs():
    return [(before, after) for before in KINDS for after in KINDS]


def stored_and_loaded():
    lines = list(BEGINNING)
    for before, after in pairs():
        lines += [made(before, "r2"), "store g31 r2", made(after, "r2"), "store g31 r2", "load r3 g31", "push r3"]
    about = ["Each kind is stored over each kind and loaded again, and pushed: each kind in turn, four times.",
             "A machine that keeps a kind or a payload of what was there before shows a mixture."]
    write("store_load", about, ["run 10000 12, tally, look 0-17", "run 30 12, 3*run 7 12+tally, look 0-6"], lines + ["stop"])


def pushed_and_popped():
    lines = list(BEGINNING)
    for before, after in pairs():
        lines += [made(after, "r2"), "push r2", made(before, "r3"), "pop r3", "push r3"]
    about = ["Each kind is popped into a register that holds each kind, and pushed: each kind in turn, four times.",
             "A machine that sets only half of the register shows a mixture."]
    write("push_pop", about, ["run 10000 12, tally, look 0-17", "run 26 12, 5*run 1 12+look 0-6"], lines + ["stop"])


def written_over():
    lines = BEGINNING + ["set r4 3", "set r5 4"]
    for kind in KINDS:
        for instruction in ("set r2 -1", "proc r2 first", "add r2 r4 r5", "sub r2 r4 r5", "less r2 r4 r5"):
            lines += [made(kind, "r2"), instruction, "push r2"]
    about = ["Each kind is written over by `set`, `proc`, `add`, `sub` and `less`, and pushed.",
             "All four times the same five frames are seen, the numbers -1, 7, -1, 1 and the procedure at 0."]
    write("written_over", about, ["run 10000 12, tally, look 0-21"], lines + ["stop"])


def named(letters, at):
    """A label, since names have no figures."""
    return letters + chr(ord("a") + at)


def thrown():
    lines = list(BEGINNING)
    ways = [(capture, word, kind) for capture, word in (("cc", "call"), ("cc1", "tail")) for kind in KINDS]
    for at, (capture, word, kind) in enumerate(ways):
        inside, outside = named("in", at), named("out", at)
        release = ["load r5 g2", "forget r5"] if capture == "cc" else []
        lines += [f"proc r1 {inside}", f"{capture} r1", "push r0"] + release + [f"jump {outside}"]
        lines += [f":{inside}", "store g2 r0", "load r5 g2", made(kind, "r0"), f"{word} r5", f":{outside}"]
    about = ["Each kind is thrown in r0, by `call` to continuations for many throws and by `tail` to one-shots, and pushed.",
             "A machine that throws a number only, or leaves r0 as it is, shows another kind."]
    write("thrown", about, ["run 10000 12, tally, look 0-9", "run 14 12, 8*run 1 12+look 0-3"], lines + ["stop"])


def returned():
    lines = list(BEGINNING)
    for at, kind in enumerate(KINDS):
        given, after = named("give", at), named("next", at)
        lines += [f"proc r1 {given}", "call r1", "push r0", f"jump {after}", f":{given}", made(kind, "r0"), "ret", f":{after}"]
    about = ["Each kind comes back in r0 from a procedure, and is pushed.",
             "A machine that clears r0 at a return shows nothing."]
    write("returned", about, ["run 10000 12, tally, look 0-5"], lines + ["stop"])


def held_values():
    lines = BEGINNING + LONGEST + ["proc r2 before", "proc r4 after"]
    for at, kind in enumerate(KINDS):
        body, following = named("body", at), named("next", at)
        lines += [f"proc r3 {body}", "wind r2 r3 r4", "push r0", f"jump {following}"]
        lines += [f":{body}", made(kind, "r0"), "ret", f":{following}"]
    lines += ["stop", ":before", "ret", ":after", "set r0 9", *LONGEST, "ret"]
    about = ["Each kind is the body's value while an after runs that sets r0 to 9, and is back in r0 behind the wind.",
             "The runs stop in the afters, where Hold has the value. A machine without Hold pushes four nines."]
    write("held_values", about, ["5*run 1000 12+look 0-6, tally"], lines)


def seen_in_winds():
    lines = ["set r0 3", "proc r2 before", "proc r3 body", "proc r4 after", "wind r2 r3 r4", "print r0"]
    lines += ["proc r1 inside", "cc1 r1", "print r0", "stop"]
    lines += [":inside", "store g0 r0", "set r0 8", "proc r3 throw", "wind r2 r3 r4"]
    lines += [":throw", "load r5 g0", "set r0 7", "call r5"]
    for label, number in (("before", 4), ("body", 5), ("after", 6)):
        lines += [f":{label}", "print r0", f"set r0 {number}", "ret"]
    about = ["Before, body and after print r0 as the one before them left it, and so does the after of a throw: 3 4 5 5 8 7 7.",
             "A machine that clears r0 for an after, or puts the thrown value there too late or too early, prints others."]
    write("seen_in_winds", about, ["run 1000 100, tally", "41*run 1 12, tally"], lines)


def tossed_values():
    lines = BEGINNING + LONGEST + ["proc r2 before", "proc r4 after"]
    for at, kind in enumerate(KINDS):
        inside, body, following = named("in", at), named("body", at), named("next", at)
        lines += [f"proc r1 {inside}", "cc1 r1", "push r0", f"jump {following}", f":{inside}", "store g2 r0"]
        lines += [f"proc r3 {body}", "wind r2 r3 r4", f":{body}", made(kind, "r0"), "load r5 g2", "call r5", f":{following}"]
    about = ["Each kind is thrown out of a wind whose after sets r0 to 9, and is in r0 where the throw ends.",
             "The runs stop in the afters, where Toss has the name and the value. A machine without it pushes four nines."]
    lines += ["stop", ":before", "ret", ":after", "set r0 9", *LONGEST, "ret"]
    write("tossed_values", about, ["5*run 1000 12+look 0-8, tally"], lines)


def entered_values():
    """The count of throws, in g3, tells which kind is thrown next."""
    lines = BEGINNING + ["proc r2 before", "proc r3 body", "proc r4 after", "wind r2 r3 r4", "load r5 g3"]
    turns = [named("next", at) for at in range(len(KINDS))]
    for turn in turns:
        lines += [f"zero r5 {turn}", "set r6 1", "sub r5 r5 r6"]
    lines += ["stop"]
    for turn, kind in zip(turns, KINDS):
        lines += [f":{turn}", made(kind, "r0"), "jump throw"]
    lines += [":throw", "load r5 g3", "set r6 1", "add r5 r5 r6", "store g3 r5", "load r5 g2", "call r5"]
    lines += [":before", "set r0 9", "set r6 -1111111111", "print r6", "ret"]
    lines += [":body", "proc r1 inside", "cc r1", "store g4 r0", "load r6 g4", "push r6", *LONGEST, "pop r6", "ret"]
    lines += [":inside", "store g2 r0", "ret", ":after", "ret"]
    about = ["Each kind is thrown into a wind whose before sets r0 to 9, and is pushed in the body, once r0 has come through.",
             "The runs stop in the befores, where Enter has it, and in the bodies. A machine without Enter shows nines."]
    write("entered_values", about, ["11*run 1000 12+look 0-3, tally"], lines)


def numbers():
    lines, shown = [], (-2147483648, 2147483647, 0, -1, 1, 1000000000, -1000000000)
    for number in shown:
        lines += [f"set r3 {number}", "print r3", "push r3"]
    for at, number in enumerate(shown):
        taken, label = named("taken", at), named("next", at)
        lines += [f"set r7 {number}", f"zero r7 {taken}", "set r1 20", "print r1", f"jump {label}"]
        lines += [f":{taken}", "set r1 21", "print r1", f":{label}"]
    about = ["`set` with the least and the largest number, 0 and others, printed and pushed; then `zero` of each:",
             "20 where it is not 0, 21 where it is. A machine that loses the sign, or tests half of the word, differs."]
    calls = ["run 1000 200, tally, look 0-7", "9*run 7 24+tally", "3*run 20 12, look 0-2"]
    write("numbers", about, calls, lines + ["stop"])


def each_accepted():
    lines = ["proc r2 one", "call r2", "set r6 12", "print r6", "proc r2 two", "call r2", "set r6 16", "print r6"]
    lines += ["proc r2 three", "cc r2", "set r6 18", "print r6", "load r2 g0", "push r2", "forget r2", "pop r3", "push r3"]
    lines += ["proc r2 three", "cc1 r2", "set r6 19", "print r6", "proc r2 four", "cc1 r2", "set r6 21", "print r6", "stop"]
    lines += [":one", "set r6 11", "print r6", "ret"]
    lines += [":two", "set r6 13", "print r6", "proc r2 one", "call r2", "set r6 14", "print r6", "proc r2 five", "tail r2"]
    lines += [":three", "store g0 r0", "set r6 17", "print r6", "ret"]
    lines += [":four", "push r0", "pop r5", "forget r5", "set r6 20", "print r6", "push r5", "stop"]
    lines += [":five", "set r6 15", "print r6", "ret"]
    about = ["`call`, `tail`, `cc`, `cc1` and `forget` with all that they take; each place prints a number of its own.",
             "The last one-shot is forgotten in its own procedure, and its Mark stays there, as the run does not return to it."]
    write("accepted", about, ["run 1000 200, tally, look 0-4", "22*run 3 12, tally"], lines)


def winds_accepted():
    lines = ["proc r2 two", "proc r3 three", "proc r4 four", "wind r2 r3 r4", "set r6 5", "print r6"]
    lines += ["wind r3 r3 r3", "set r6 6", "print r6", "wind r4 r2 r2", "set r6 7", "print r6", "stop"]
    for at, label in enumerate(("two", "three", "four")):
        lines += [f":{label}", f"set r6 {2 + at}", "print r6", "ret"]
    about = ["Three winds one after the other, with three procedures, with one three times, and with two.",
             "A machine that goes by the addresses takes the second for one that it has run already."]
    calls = ["run 1000 200, tally", "run 3 12, 26*run 1 12+look 1+force 0", "12*run 5 24+tally"]
    write("winds", about, calls, lines)


def winds_numbered():
    lines = LONGEST + ["proc r2 before", "proc r3 body", "proc r4 after", "wind r2 r3 r4", "load r5 g3", "zero r5 again"]
    lines += ["proc r3 other", "wind r2 r3 r4", "stop"]
    lines += [":again", "set r5 1", "store g3 r5", "load r5 g2", "call r5"]
    lines += [":body", "proc r1 inside", "cc r1", *LONGEST, ":before", ":after", "ret", ":inside", "store g2 r0", "ret"]
    lines += [":other", *LONGEST, "ret"]
    about = ["A wind that is entered again keeps its number 1, and the next wind has 2; the runs stop in the bodies.",
             "A machine that gives a number at each entering tells 2 and 3."]
    write("winds_numbered", about, ["4*run 1000 12+tally+force 0-1"], lines)


def main():
    refused_sums()
    refused_singles()
    refused_zeros()
    refused_winds()
    not_held()
    stored_and_loaded()
    pushed_and_popped()
    written_over()
    thrown()
    returned()
    held_values()
    seen_in_winds()
    tossed_values()
    entered_values()
    numbers()
    each_accepted()
    winds_accepted()
    winds_numbered()


if __name__ == "__main__":
    main()
