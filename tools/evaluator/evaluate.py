#!/usr/bin/env python3
"""An independent evaluator of rule sheets, for comparing outputs only.

It was written from the rules alone, apart from the verified code, and shares nothing with it: plain Python lists in
place of stores, whole-state copies in place of links or caches. Use it to make or check expected outputs.

  evaluate.py < SHEET                 what the program prints for that sheet, byte for byte
  evaluate.py --model [limits] < SHEET   one run of the machine: bytes, then a line of figures
  evaluate.py --read < SHEET          'ok N' (instructions) or 'sheet N line L'
  evaluate.py --calls FILE < SHEET    a list of run calls (see `transcript`), one answer to a line
"""
import argparse
import sys

NONE, NUMBER, PROCEDURE, CONTINUATION = 0, 1, 2, 3
STEP_LIMIT = 4_000_000_000
OPERANDS = {
    "set": "rn", "proc": "rL", "zero": "rL", "load": "rg", "store": "gr", "add": "rrr", "sub": "rrr", "less": "rrr",
    "wind": "rrr", "jump": "L", "push": "r", "pop": "r", "print": "r", "call": "r", "tail": "r", "cc": "r", "cc1": "r",
    "forget": "r", "ret": "", "stop": "",
}


class SheetRefused(Exception):
    def __init__(self, number, line):
        super().__init__(number, line)
        self.number, self.line = number, line


def is_name(word):
    return 1 <= len(word) <= 12 and all(97 <= c <= 122 for c in word)


def figures(word):
    """The value of a run of digits without a leading zero, or None."""
    if not word or not all(48 <= c <= 57 for c in word) or (len(word) > 1 and word[0] == 48):
        return None
    return int(word)


def operand(kind, word, line):
    if kind in "rg":
        value = figures(word[1:]) if word[:1] == kind.encode() else None
        if value is None or value >= (8 if kind == "r" else 32):
            raise SheetRefused(4, line)
        return value
    if kind == "L":
        if not is_name(word):
            raise SheetRefused(4, line)
        return (word, line)
    negative = word[:1] == b"-"
    value = figures(word[1:] if negative else word)
    if value is None or (negative and value == 0):
        raise SheetRefused(4, line)
    if len(word) - negative > 10:
        raise SheetRefused(5, line)
    value = -value if negative else value
    if not -(2**31) <= value < 2**31:
        raise SheetRefused(5, line)
    return value


def read(sheet):
    """The code of a sheet: a list of (word, operand, ...), with labels resolved to places."""
    if len(sheet) > 16384:
        raise SheetRefused(1, 0)
    lines = sheet.split(b"\n")
    if lines[-1] == b"":
        lines.pop()
    labels, code = {}, []
    for line, text in enumerate(lines, 1):
        if any(not 32 <= c <= 126 for c in text):
            raise SheetRefused(2, line)
        if text == b"" or text[:1] == b";":
            continue
        if text[:1] == b":":
            name = text[1:]
            if not is_name(name) or name in labels or len(labels) == 64:
                raise SheetRefused(6, line)
            labels[name] = len(code)
            continue
        word, *rest = text.split(b" ")
        shape = OPERANDS.get(word.decode())
        if shape is None:
            raise SheetRefused(3, line)
        if len(rest) != len(shape):
            raise SheetRefused(4, line)
        made = [operand(kind, part, line) for kind, part in zip(shape, rest)]
        if len(code) == 256:
            raise SheetRefused(8, line)
        code.append((word.decode(), *made))
    for i, (word, *made) in enumerate(code):
        for j, kind in enumerate(OPERANDS[word]):
            if kind == "L":
                name, line = made[j]
                if name not in labels:
                    raise SheetRefused(7, line)
                made[j] = labels[name]
        code[i] = (word, *made)
    if not code:
        raise SheetRefused(8, 0)
    return code


class Ended(Exception):
    """A step that ends the run; end 0 counts as a step, the others do not."""

    def __init__(self, end, level=None):
        super().__init__(end)
        self.end, self.level = end, level


class Limits:
    def __init__(self, frames=48, winds=16, frame_names=7, wind_names=7, frame_level=0, wind_level=0):
        self.frames, self.winds = frames, winds
        self.names = min(64, frame_names, wind_names)
        self.frame_level, self.wind_level = frame_level, wind_level
        self.unfit = frames < 16 or winds < 4 or frame_names < 2 or wind_names < 2


class Run:
    def __init__(self, code, numbers=(), limits=None):
        self.code, self.limits = code, limits or Limits()
        self.registers = [(NONE, 0)] * 8
        self.globals = [(NUMBER, n) for n in list(numbers) + [0] * (32 - len(numbers))]
        self.frames, self.winds = [], []
        self.held = {}  # name -> [saved frames, saved winds, is once]; in order of age
        self.steps = self.made = self.used = self.forgotten = self.entered = self.left = self.numbered = 0
        self.mode = ("going", 0)
        self.tried = 0
        self.end = self.level = None
        self.events = []  # (+1 or -1, wind number)
        if self.limits.unfit:
            self.end = 43

    # checks, in the order 30, 33, 31, 40, 41, 42: each instruction calls them in that order
    def kind(self, r, *kinds):
        if self.registers[r][0] not in kinds:
            raise Ended(30)
        return self.registers[r][1]

    def must_hold(self, name):
        if name not in self.held:
            raise Ended(33)

    def room(self, count=1):
        if len(self.frames) + count > self.limits.frames:
            raise Ended(40, self.limits.frame_level)

    def wind_room(self):
        if len(self.winds) + 1 > self.limits.winds:
            raise Ended(41, self.limits.wind_level)

    def name_room(self):
        if len(self.held) >= self.limits.names:
            raise Ended(42)

    def enter(self, wind):
        self.winds.append(wind)
        self.entered += 1
        self.events.append((1, wind[0]))

    def leave(self):
        wind = self.winds.pop()
        self.left += 1
        self.events.append((-1, wind[0]))
        return wind

    def step(self):
        """One step; returns the bytes it printed. Raises Ended, before any change, where it ends the run."""
        if self.mode[0] == "going":
            self.tried = self.mode[1]
        if self.steps >= STEP_LIMIT:
            raise Ended(44)
        out = getattr(self, self.mode[0])(*self.mode[1:])
        self.steps += 1
        return out or b""

    def going(self, p):
        if p == len(self.code):
            raise Ended(34)
        word, *ops = self.code[p]
        following = ("going", p + 1)
        out = b""
        if word == "set":
            self.registers[ops[0]] = (NUMBER, ops[1])
        elif word == "proc":
            self.registers[ops[0]] = (PROCEDURE, ops[1])
        elif word == "load":
            self.registers[ops[0]] = self.globals[ops[1]]
        elif word == "store":
            self.globals[ops[0]] = self.registers[ops[1]]
        elif word in ("add", "sub", "less"):
            a, b = self.kind(ops[1], NUMBER), self.kind(ops[2], NUMBER)
            value = a + b if word == "add" else a - b if word == "sub" else int(a < b)
            if not -(2**31) <= value < 2**31:
                raise Ended(31)
            self.registers[ops[0]] = (NUMBER, value)
        elif word == "jump":
            following = ("going", ops[0])
        elif word == "zero":
            if self.kind(ops[0], NUMBER) == 0:
                following = ("going", ops[1])
        elif word == "push":
            self.room()
            self.frames.append(("Saved", self.registers[ops[0]]))
        elif word == "pop":
            if not self.frames or self.frames[-1][0] != "Saved":
                raise Ended(32)
            self.registers[ops[0]] = self.frames.pop()[1]
        elif word == "print":
            out = b"%d\n" % self.kind(ops[0], NUMBER)
        elif word in ("call", "tail"):
            target = self.kind(ops[0], PROCEDURE, CONTINUATION)
            if self.registers[ops[0]][0] == CONTINUATION:
                following = ("throwing", target, self.registers[0])
            else:
                if word == "call":
                    self.room()
                    self.frames.append(("Back", p + 1))
                following = ("going", target)
        elif word in ("cc", "cc1"):
            once = word == "cc1"
            target = self.kind(ops[0], PROCEDURE)
            self.room(2 if once else 1)
            self.name_room()
            self.frames.append(("Back", p + 1))
            name = self.made = self.made + 1
            if not once:
                marked = {f[1] for f in self.frames if f[0] == "Mark"}
                for held, row in self.held.items():
                    if held in marked:
                        row[2] = False
            self.held[name] = [list(self.frames), list(self.winds), once]
            if once:
                self.frames.append(("Mark", name))
            self.registers[0] = (CONTINUATION, name)
            following = ("going", target)
        elif word == "forget":
            name = self.kind(ops[0], CONTINUATION)
            self.must_hold(name)
            del self.held[name]
            self.forgotten += 1
        elif word == "wind":
            before, body, after = (self.kind(r, PROCEDURE) for r in ops)
            self.room(2)
            self.frames += [("Back", p + 1), ("In", before, body, after)]
            following = ("going", before)
        elif word == "ret":
            following = ("returning",)
        elif word == "stop":
            raise Ended(0)
        self.mode = following
        return out

    def returning(self):
        if not self.frames:
            raise Ended(0)
        tag, *parts = self.frames[-1]
        if tag == "Saved":
            raise Ended(32)
        if tag in ("Mark", "Enter"):
            self.must_hold(parts[0])
        if tag == "In":
            self.wind_room()
        self.frames.pop()
        if tag == "Back":
            self.mode = ("going", parts[0])
        elif tag == "Mark":
            if self.held[parts[0]][2]:
                del self.held[parts[0]]
                self.used += 1
        elif tag == "In":
            before, body, after = parts
            self.numbered += 1
            self.enter((self.numbered, before, after))
            self.frames.append(("Out",))
            self.mode = ("going", body)
        elif tag == "Out":
            wind = self.leave()
            self.frames.append(("Hold", self.registers[0]))
            self.mode = ("going", wind[2])
        elif tag == "Hold":
            self.registers[0] = parts[0]
        elif tag == "Toss":
            self.mode = ("throwing", *parts)
        elif tag == "Enter":
            saved = self.held[parts[0]][1]
            if len(self.winds) < len(saved):
                self.enter(saved[len(self.winds)])
            self.mode = ("throwing", *parts)

    def throwing(self, name, value):
        self.must_hold(name)
        frames, winds, once = self.held[name]
        common = 0
        while common < min(len(winds), len(self.winds)) and winds[common][0] == self.winds[common][0]:
            common += 1
        if len(self.winds) > common:
            self.room()
            wind = self.leave()
            self.frames.append(("Toss", name, value))
            self.mode = ("going", wind[2])
        elif len(winds) > common:
            self.room()
            self.frames.append(("Enter", name, value))
            self.mode = ("going", winds[common][1])
        else:
            self.frames = list(frames)
            if once:
                del self.held[name]
                self.used += 1
            self.registers[0] = value
            self.mode = ("returning",)

    # the calls on a run
    def next_line(self):
        """The line that the next step would print, or None."""
        if self.mode[0] != "going" or self.steps >= STEP_LIMIT or self.mode[1] == len(self.code):
            return None
        word, *ops = self.code[self.mode[1]]
        if word != "print" or self.registers[ops[0]][0] != NUMBER:
            return None
        return b"%d\n" % self.registers[ops[0]][1]

    def run(self, portion, room):
        """(refusal,) or (steps, bytes, reason)."""
        if self.end is not None:
            return (20,)
        if not 1 <= portion <= 1_000_000:
            return (21,)
        if room < 12:
            return (22,)
        steps, out = 0, b""
        while steps < portion:
            line = self.next_line()
            if line is not None and len(out) + len(line) > room:
                return (steps, out, 1)
            try:
                out += self.step()
                steps += 1
            except Ended as e:
                self.end, self.level = e.end, e.level
                if e.end == 0:
                    self.steps += 1
                    steps += 1
                return (steps, out, 2)
        return (steps, out, 0)

    def tally(self):
        figures = [self.steps, self.made, self.used, self.forgotten, len(self.held), self.entered, self.left, len(self.winds)]
        assert self.made == self.used + self.forgotten + len(self.held) and self.entered == self.left + len(self.winds)
        return figures + ([self.end, self.tried] if self.end is not None else [])

    def look(self, i):
        return frame_cell(self.frames[i]) if i < len(self.frames) else 23

    def force(self, i):
        return list(self.winds[i]) + [0] if i < len(self.winds) else 23


TAGS = {"Saved": 1, "Back": 2, "Mark": 3, "In": 4, "Out": 5, "Hold": 6, "Toss": 7, "Enter": 8}


def frame_cell(frame):
    words = [TAGS[frame[0]]]
    for part in frame[1:]:
        words += [part[0], part[1] % 2**32] if isinstance(part, tuple) else [part]
    return words + [0] * (4 - len(words))


def transcript(run, calls):
    """One answer to a line. Calls: 'run PORTION ROOM', 'tally', 'look I', 'force I'."""
    for call in calls:
        word, *given = call.split()
        given = [int(x) for x in given]
        if word == "run":
            answer = run.run(*given)
            if len(answer) == 1:
                yield "refused %d" % answer
            else:
                yield "steps %d bytes %d reason %d %s" % (answer[0], len(answer[1]), answer[2], answer[1].hex())
        elif word == "tally":
            yield "tally " + " ".join(map(str, run.tally()))
        else:
            answer = run.look(*given) if word == "look" else run.force(*given)
            yield "refused 23" if answer == 23 else "cell " + " ".join(map(str, answer))


PILES = (("linked", Limits()), ("copied", Limits(frames=32, frame_level=2)))


def program(sheet):
    try:
        code = read(sheet)
    except SheetRefused as refused:
        return b"sheet %d line %d\n" % (refused.number, refused.line)
    out = b""
    for name, limits in PILES:
        run, lines = Run(code, (), limits), b""
        while run.end is None and run.steps < 100_000:
            lines += run.run(min(1000, 100_000 - run.steps), 12_000)[1]
        verdict = b"open" if run.end is None else b"end %d" % run.end
        out += name.encode() + b"\n" + lines + verdict + b" steps %d\n" % run.steps
    return out


def main():
    sys.set_int_max_str_digits(0)  # a sheet may have numbers of any length
    options = argparse.ArgumentParser()
    options.add_argument("--read", action="store_true")
    options.add_argument("--model", action="store_true")
    options.add_argument("--calls")
    for name, value in (("frames", 48), ("winds", 16), ("frame-names", 7), ("wind-names", 7), ("frame-level", 0), ("wind-level", 0)):
        options.add_argument("--" + name, type=int, default=value)
    options.add_argument("--portion", type=int, default=100_000)
    options.add_argument("--numbers", type=int, nargs="*", default=[])
    given = options.parse_args()
    sheet = sys.stdin.buffer.read()
    if not (given.read or given.model or given.calls):
        sys.stdout.buffer.write(program(sheet))
        return
    try:
        code = read(sheet)
    except SheetRefused as refused:
        print("sheet %d line %d" % (refused.number, refused.line))
        return
    if given.read:
        print("ok %d" % len(code))
        return
    limits = Limits(given.frames, given.winds, given.frame_names, given.wind_names, given.frame_level, given.wind_level)
    run = Run(code, given.numbers, limits)
    if given.calls:
        with open(given.calls) as calls:
            for answer in transcript(run, calls):
                print(answer)
        return
    answer = run.run(given.portion, 12 * given.portion)
    sys.stdout.buffer.write(answer[1] if len(answer) > 1 else b"")
    sys.stdout.buffer.flush()
    print("tally " + " ".join(map(str, run.tally())))


if __name__ == "__main__":
    main()
