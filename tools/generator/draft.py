"""A sheet that is being put together, a procedure at a time."""

LEAST, MOST = -(2**31), 2**31 - 1
LETTERS = "abcdefghijklmnopqrstuvwxyz"


class Draft:
    def __init__(self, chance):
        self.chance = chance
        self.size = self.pick(4, 8, 16, 24, 32, 40)  # beyond so many lines, only short statements are added
        self.count = self.pick(2, 3, 4, 6, 8, 12, 20, 40)  # what the count of throws is expected to be by now
        self.lines = []  # of the procedure that is being written
        self.procedures = []  # the lines of each finished one
        self.made = 0  # how many lines there are
        self.labels = 0
        self.kept = []  # globals that a continuation was kept in, on most ways to here

    def put(self, *lines):
        self.lines += lines
        self.made += len(lines)

    def label(self, stem):
        """A label that is not there yet."""
        high, low = divmod(self.labels, 26)
        self.labels += 1
        return stem + (LETTERS[high - 1] if high else "") + LETTERS[low]

    def procedure(self, stem, write):
        """Writes a procedure of its own, and answers its label."""
        outer, self.lines = self.lines, []
        self.put(":" + self.label(stem))
        write()
        made, self.lines = self.lines, outer
        self.procedures.append(made)
        return made[0][1:]

    def here(self):
        """The label of the procedure that is being written."""
        return self.lines[0][1:]

    def is_full(self):
        return self.made >= self.size

    def odds(self, times, of):
        return self.chance.randrange(of) < times

    def pick(self, *choices):
        return self.chance.choice(choices)

    def number(self):
        """A number: small, or near the ends of a word."""
        near = self.pick(0, 0, 0, 0, 0, LEAST, MOST, -(2**30), 2**30)
        return max(LEAST, min(MOST, near + self.chance.randrange(-9, 10)))

    def text(self):
        return [line for lines in [self.lines] + self.procedures for line in lines]
