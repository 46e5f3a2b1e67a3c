#!/usr/bin/env python3
"""What the trials must print, by the independent evaluator.

  tools/trials.py               writes the list of sheets and the expected output of crates/trials
  tools/trials.py FILE..        prints what is expected of these sheets, and writes nothing

docs/TRIALS.md has the form of the comments by which a sheet says how it is run, and the makes of stores.
"""
import re
import sys
from pathlib import Path

TOP = Path(__file__).resolve().parent.parent
CRATE = TOP / "crates" / "trials"
sys.path.append(str(TOP / "tools" / "evaluator"))

import evaluate

# What a sheet is asked that has no list of its own.
USUAL_CALLS = (
    "run 10000 12000, tally",
    "4*run 1 12+tally+look 0-2+force 0, 6*run 5 13+tally, run 10000 1000, tally, look 0, force 0, run 1 12",
)
# The depth of the bottom stores under quotas, and by how much one quota of two is the larger.
DEPTH, MORE = 64, 4
# The first word of the cells that stand in a store before: no frame is written with it.
STRANGE = 9


class Malformed(Exception):
    """A line that begins as a directive and is none; the program refuses it too."""


class Trial:
    def __init__(self, sheet):
        self.limits, self.numbers, self.lists = [48, 16, 7], [0] * 32, []
        self.cells, self.names = [0, 0], [0, 0]
        for number, line in enumerate(sheet.split(b"\n"), 1):
            if line.startswith(b";! "):
                self.take(number, line.decode())
        self.lists = self.lists or [expanded(calls) for calls in USUAL_CALLS]

    def take(self, number, line):
        name, _, given = line[3:].partition(" ")
        try:
            getattr(self, "take_" + name)(given)
        except (AttributeError, IndexError, ValueError) as fault:
            raise Malformed(f"line {number}: {line}") from fault

    def take_limits(self, given):
        self.limits = words(given, (3, 4))

    def take_globals(self, given):
        for assignment in given.split(" "):
            at, number = re.fullmatch(r"g([0-9]+)=(-?[0-9]+)", assignment).groups()
            if not -(2**31) <= int(number) < 2**31:
                raise ValueError(number)
            self.numbers[int(at)] = int(number)

    def take_calls(self, given):
        self.lists.append(expanded(given))

    def take_cells(self, given):
        self.cells = words(given, (2,))

    def take_names(self, given):
        self.names = words(given, (2,))


def word(text):
    if not re.fullmatch("[0-9]+", text) or int(text) >= 2**32:
        raise ValueError(text)
    return int(text)


def words(given, counts):
    made = [word(text) for text in given.split(" ")]
    if len(made) not in counts:
        raise ValueError(given)
    return made


def expanded(given):
    calls = []
    for group in given.split(", "):
        count, _, body = group.rpartition("*")
        calls += [call for part in body.split("+") for call in each_index(part)] * word(count or "1")
    return calls


def each_index(call):
    """The calls that one stands for."""
    name, *given = call.split(" ")
    if (name, len(given)) in (("look", 1), ("force", 1)):
        first, _, last = given[0].partition("-")
        return [f"{name} {index}" for index in range(word(first), word(last or first) + 1)]
    if (name, len(given)) not in (("run", 2), ("tally", 0)):
        raise ValueError(call)
    return [" ".join([name, *(str(word(text)) for text in given)])]


def bottom(depth, names):
    """The limits of a bottom store and its limit level."""
    return (depth, names, 0) if 16 <= depth <= 4096 and 2 <= names <= 64 else (0, 0, 0)


def quota(height, number, below):
    depth, names, level = below
    return (number, names, height) if number < depth else below


def plain(depth, names):
    return bottom(depth, names)


def layered(depth, names):
    """A quota over a cache over a copied stack."""
    return quota(2, depth, bottom(DEPTH, names))


def outer_less(depth, names):
    return quota(2, depth, quota(1, depth + MORE, bottom(DEPTH, names)))


def inner_less(depth, names):
    return quota(2, depth + MORE, quota(1, depth, bottom(DEPTH, names)))


# The stores of frames and the stores of winds, by what they are called in the output.
STORES = {
    "linked": (plain, plain),
    "copied": (plain, plain),
    "layered": (layered, layered),
    "cached": (plain, plain),
    "quotas": (outer_less, inner_less),
}


def limits_of(trial, makes):
    frames, winds, frame_names, *others = trial.limits
    frame_store = makes[0](frames, frame_names)
    wind_store = makes[1](winds, (others or [frame_names])[0])
    return evaluate.Limits(frame_store[0], wind_store[0], frame_store[1], wind_store[1], frame_store[2], wind_store[2])


class FilledRun(evaluate.Run):
    """A run on stores of which one had a cell or held a name: it has ended as it was opened, and tells the cells."""

    def __init__(self, code, numbers, limits, cells):
        limits.unfit = True
        super().__init__(code, numbers, limits)
        self.in_frames, self.in_winds = cells_within(cells[0], limits.frames), cells_within(cells[1], limits.winds)

    def look(self, index):
        return cell_of(self.in_frames, index)

    def force(self, index):
        return cell_of(self.in_winds, index)


def cells_within(wanted, depth):
    return [[STRANGE] + [index] * 3 for index in range(min(wanted, depth))]


def cell_of(cells, index):
    return cells[index] if index < len(cells) else 23


def opened(trial, code, limits):
    if any(trial.cells + trial.names):
        return FilledRun(code, trial.numbers, limits, trial.cells)
    return evaluate.Run(code, trial.numbers, limits)


def told(trial, code, limits, calls):
    """What a run answers, a line for each call, and the level of its end if that is a full store's."""
    run = opened(trial, code, limits)
    answers = list(evaluate.transcript(run, calls))
    if run.end in (40, 41):
        answers.append(f"level {run.level}")
    return answers


def told_on_all(trial, code, calls):
    """What is answered on each make. Where the limits are equal the answers are, so they are reckoned once."""
    texts, reckoned = {}, {}
    for name, makes in STORES.items():
        limits = limits_of(trial, makes)
        same = tuple(vars(limits).values())
        if same not in reckoned:
            reckoned[same] = told(trial, code, limits, calls)
        texts[name] = reckoned[same]
    return texts


def together(texts):
    """Texts that are equal are told once, with all their names."""
    while texts:
        text = next(iter(texts.values()))
        names = [name for name, other in texts.items() if other == text]
        texts = {name: other for name, other in texts.items() if name not in names}
        yield "on " + " ".join(names)
        yield from text


def expected(name, sheet):
    lines = [name]
    try:
        code = evaluate.read(sheet)
    except evaluate.SheetRefused as refused:
        return lines + [f"sheet {refused.number} line {refused.line}"]
    try:
        trial = Trial(sheet)
    except Malformed as malformed:
        sys.exit(f"{name}, {malformed}")
    for calls in trial.lists:
        lines += together(told_on_all(trial, code, calls))
    return lines


def expected_of(files):
    return "".join(line + "\n" for file in files for line in expected(file.name, file.read_bytes()))


def main():
    # A sheet may have numbers of any length.
    sys.set_int_max_str_digits(0)
    if sys.argv[1:]:
        print(expected_of(map(Path, sys.argv[1:])), end="")
        return
    files = sorted((CRATE / "data").glob("*.sheet"))
    (CRATE / "data" / "sheets.txt").write_text("".join(file.name + "\n" for file in files))
    (CRATE / "stdout").write_text(expected_of(files))


if __name__ == "__main__":
    main()
