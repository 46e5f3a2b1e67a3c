"""Statements of a random sheet: each leaves numbers in r4 and r5 if they were there.

Registers: r0 is what a procedure answers and a throw carries, r1 to r3 have procedures and continuations, r4 and r5
numbers, r6 and r7 the count. Globals: g0 to g6 have continuations, g8 and g9 numbers, g31 the count.
"""

GLOBALS = tuple(f"g{i}" for i in range(7))


def arithmetic(s):
    if s.odds(1, 2):
        s.put(f"set {s.pick('r4', 'r5')} {s.number()}")
    s.put(f"{s.pick('add', 'sub', 'less')} {s.pick('r4', 'r5')} r4 r5")
    show(s)


def show(s):
    s.put("print " + s.pick("r4", "r5"))


def remember(s):
    kept = s.pick("g8", "g9")
    s.put(*s.pick((f"store {kept} r4",), (f"load r5 {kept}", "print r5")))


def branch(s):
    over = s.label("over")
    s.put("less r6 r4 r5", f"zero r6 {over}")
    show(s)
    s.put(":" + over)


def leave(s):
    """The end of a procedure, with a number to answer nearly always."""
    if not s.odds(1, 40):
        s.put(f"set r0 {s.number()}")
    if s.odds(1, 12) and not s.is_full():
        s.put(f"proc r1 {s.procedure('sub', lambda: leave(s))}", "tail r1")
    else:
        s.put("ret")


def call(s):
    def body():
        some_statements(s, 2)
        leave(s)

    s.put(f"proc r1 {s.procedure('sub', body)}", "call r1")


def capture(s, kept=None):
    """A continuation, kept in a global nearly always."""
    kept = kept or s.pick(*GLOBALS)

    def got():
        if s.odds(1, 12):
            s.put("forget r0")
        elif not s.odds(1, 12):
            s.put(f"store {kept} r0")
            s.kept.append(kept)
        some_statements(s, 2)
        if s.odds(1, 8):
            throw(s, kept)
        leave(s)

    s.put(f"proc r1 {s.procedure('got', got)}", s.pick("cc r1", "cc r1", "cc r1", "cc1 r1"))
    if s.odds(3, 4):
        s.put("print r0")


def throw(s, kept=None):
    """A throw to a continuation that was kept, as often as the count allows here."""
    kept = kept or (s.pick(*s.kept) if s.kept else None)
    if kept is None:
        return capture(s)
    s.count = max(0, s.count - s.chance.randrange(2, 5))
    s.put(f"load r1 {kept}", f"set r0 {s.number()}", f"set r6 {s.count}", "proc r7 throw", "call r7")


def forget(s):
    if not s.kept:
        return show(s)
    s.put(f"load r1 {s.pick(*s.kept)}", "forget r1")


def side(s):
    """A before or an after: it prints, and now and then captures, throws, forgets or stops."""
    if s.odds(3, 4):
        s.put(f"set r2 {s.chance.randrange(100)}", "print r2")
    if s.odds(1, 4) and not s.is_full():
        s.pick(throw, throw, throw, capture, capture, forget)(s)
    if s.odds(1, 4):
        s.put(f"set r0 {s.chance.randrange(10)}")
    s.put("stop" if s.odds(1, 50) else "ret")


def wind(s):
    """A wind, thrown out of and back into now and then."""
    into = s.pick(None, *GLOBALS[:3])

    def body():
        if into:
            capture(s, into)
        some_statements(s, 1)
        if s.kept and s.odds(1, 2):
            throw(s)
        leave(s)

    before = s.procedure("before", lambda: side(s))
    inner = s.procedure("body", body)
    after = s.procedure("after", lambda: side(s)) if s.odds(2, 3) else before
    s.put(f"proc r1 {before}", f"proc r2 {inner}", f"proc r3 {after}", "wind r1 r2 r3")
    if s.odds(1, 2):
        s.put("print r0")
    if into and s.odds(2, 3):
        throw(s, into)


def push_and_pop(s):
    s.put("push " + s.pick("r4", "r5", "r0"))
    some_statements(s, 1)
    # left there now and then, so that a return finds it
    if not s.odds(1, 12):
        s.put("pop r3")


def loop(s):
    """The count of turns is on the stack while the statement runs."""
    top, out = s.label("top"), s.label("out")
    s.put(f"set r2 {s.pick(2, 3, 3, 5, 9, 30)}", f":{top}", f"zero r2 {out}", "push r2")
    some_statements(s, 1)
    s.put("pop r2", "set r3 1", "sub r2 r2 r3", f"jump {top}", f":{out}")


def deep(s):
    """Calls within calls, about as many frames as the stores have room for."""
    pushes, frames = s.chance.randrange(3), s.pick(5, 24, 30, 32, 34, 40, 46, 48, 50)

    def body():
        bottom = s.label("deep")
        s.put(f"zero r4 {bottom}", "sub r4 r4 r5", *["push r4"] * pushes, f"proc r1 {s.here()}", "call r1")
        s.put(*["pop r3"] * pushes, "ret", f":{bottom}")
        if s.odds(1, 2):
            throw(s)
        leave(s)

    s.put(f"set r4 {frames // (1 + pushes)}", "set r5 1", f"proc r1 {s.procedure('rec', body)}", "call r1")


def nested(s):
    """Winds within winds, about as many as the stores have room for."""

    def body():
        inmost = s.label("inmost")
        s.put(f"zero r4 {inmost}", "sub r4 r4 r5", f"proc r1 {around}", f"proc r2 {s.here()}", "wind r1 r2 r1", "ret")
        s.put(":" + inmost)
        s.pick(throw, throw, capture, show)(s)
        leave(s)

    around = s.procedure("side", lambda: s.put(*s.pick((), ("print r4",)), "ret"))
    inner = s.procedure("nest", body)
    s.put(f"set r4 {s.pick(2, 3, 4, 7, 13, 14, 15, 16, 17)}", "set r5 1", f"proc r1 {inner}", "call r1")


def named(s):
    """Captures within captures, about as many names as may be held."""
    kept = s.pick(*GLOBALS)

    def body():
        full = s.label("full")
        s.put(f"store {kept} r0", f"zero r4 {full}", "sub r4 r4 r5", f"proc r1 {s.here()}", s.pick("cc r1", "cc1 r1"))
        s.put(":" + full)
        s.kept.append(kept)
        leave(s)

    again = s.procedure("name", body)
    s.put(f"set r4 {s.pick(1, 2, 3, 4, 5, 6, 7, 8)}", "set r5 1", f"proc r1 {again}", s.pick("cc r1", "cc1 r1"))
    if s.odds(1, 2):
        s.put("print r0")


SHORT = (arithmetic, show, show, remember, branch)
LONG = (call, capture, capture, capture, throw, throw, throw, wind, wind, wind, wind, forget, push_and_pop, loop)
LIMITS = (deep, nested, named)


def some_statements(s, most):
    for _ in range(s.chance.randrange(most + 1)):
        s.pick(*(SHORT if s.is_full() or s.odds(1, 3) else LONG))(s)
