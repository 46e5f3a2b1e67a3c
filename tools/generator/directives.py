"""What the program `trials` is told in front of a random sheet: limits, numbers to begin with, and lists of calls."""
import evaluate

from generator.damages import BYTES
from generator.draft import LEAST, MOST

# Room for these lines, so that a sheet that is nearly too long stays what it is.
ROOM = 2000
# How far a sheet is followed to see how many frames, winds and names it needs.
FOLLOWED = 2000
# The least depth limits and held limit of a run, and the most that a bottom store may have.
LEASTS, MOSTS = (16, 4, 2), (4096, 4096, 64)
# Limits of frames, winds and names that are too low or, for a bottom store, too high.
UNFIT = ((0, 15, 4097), (0, 3, 4097), (0, 1, 65), (0, 1, 65))
# The least depth of a bottom store: with fewer winds, runs go on only under quotas.
BOTTOM = 16


def needed(sheet):
    """The most frames, winds and names at once, or nothing of a refused sheet."""
    try:
        run = evaluate.Run(evaluate.read(sheet), (), evaluate.Limits(*MOSTS, MOSTS[-1]))
    except evaluate.SheetRefused:
        return None
    most = (0, 0, 0)
    while run.end is None and run.steps < FOLLOWED:
        run.run(1, 12)
        most = tuple(map(max, most, (len(run.frames), len(run.winds), len(run.held))))
    return most


def some_limits(chance):
    frames = chance.choice((16, 17, 20, 24, 32, 48, 63, 64, 65, 100))
    winds = chance.choice((4, 5, 8, 16, 16, 16, 16, 16, 17, 20))
    names = [chance.choice((2, 3, 4, 5, 7, 9, 64)) for _ in range(chance.randrange(1, 3))]
    return [frames, winds, *names]


def met_limits(chance, sheet):
    """About as much as the sheet needs: just enough, or one less of something."""
    most = needed(sheet)
    if most is None:
        return some_limits(chance)
    leasts = LEASTS if chance.randrange(4) == 0 else (BOTTOM, BOTTOM, LEASTS[-1])
    return [max(least, number - (chance.randrange(3) == 0)) for least, number in zip(leasts, most)]


def unfit_limits(chance):
    """Limits with which a run has ended as it is opened."""
    limits = some_limits(chance)
    at = chance.randrange(len(limits))
    limits[at] = chance.choice(UNFIT[at])
    return limits


def limits(chance, sheet):
    how = chance.randrange(20)
    if how < 6:
        return []
    made = unfit_limits(chance) if how == 6 else met_limits(chance, sheet) if how < 14 else some_limits(chance)
    return ["limits " + " ".join(map(str, made))]


def number(chance):
    near = chance.choice((0, 0, 0, LEAST, MOST))
    return max(LEAST, min(MOST, near + chance.randrange(-9, 10)))


def numbers(chance):
    given = [f"g{at}={number(chance)}" for at in sorted(chance.sample(range(32), chance.randrange(1, 6)))]
    return ["globals " + " ".join(given)] if chance.randrange(2) else []


def contents(chance):
    """Now and then the stores have something in them, and are unfit for a run."""
    if chance.randrange(25):
        return []
    return [f"{word} {chance.randrange(most)} {chance.randrange(most)}" for word, most in (("cells", 12), ("names", 3))]


def size(chance):
    return chance.choice((12, 12, 13, 14, 20, 24, 25, 40, 100, 1000))


def question(chance):
    word = chance.choice(("tally", "tally", "look", "force"))
    if word == "tally":
        return word
    first = chance.choice((0, 0, 0, 1, 2, 5, 14, 30))
    return chance.choice((f"{word} {first}", f"{word} {first}-{first + chance.randrange(1, 4)}"))


def refused_call(chance):
    return chance.choice(("run 0 12", "run 1000001 12", "run 5 11", "run 1 0", "run 0 0", "look 4096", "force 4294967295"))


def steps(chance):
    return chance.choice((1, 1, 2, 3, 4, 7, 11, 25, 60, 150, 400))


def group(chance):
    """A call, or a few that are made again and again."""
    kind = chance.randrange(8)
    if kind == 0:
        return refused_call(chance)
    if kind < 3:
        return question(chance)
    parts = [f"run {steps(chance)} {size(chance)}"] + [question(chance) for _ in range(chance.randrange(3))]
    if kind == 3:
        parts.append(f"run {steps(chance)} {size(chance)}")
    return f"{chance.randrange(1, 9)}*" + "+".join(parts)


def calls(chance):
    groups = [group(chance) for _ in range(chance.randrange(1, 6))]
    if chance.randrange(4):
        last = f"run {chance.choice((300, 1000, 2000, 2000, 5000))} {chance.choice((12, 100, 1000, 12000))}"
        groups += [last, "tally", "look 0", "force 0"]
    return "calls " + ", ".join(groups)


def directives(chance, sheet):
    """The lines for a sheet, which most sheets have."""
    if chance.randrange(10) == 0 or len(sheet) > BYTES - ROOM:
        return []
    lists = [calls(chance) for _ in range(chance.randrange(2, 4))]
    return [";! " + line for line in limits(chance, sheet) + numbers(chance) + contents(chance) + lists]
