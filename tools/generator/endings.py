"""The last part of a random sheet: one for each way to end."""
from generator.draft import LEAST, MOST

CAPTURED = "proc r1 last/%s r1"

# By the number of the end, some texts whose lines are parted by `/`. They begin at the label `end`.
ENDINGS = {
    0: ("stop", "stop", "ret"),
    30: (
        "proc r1 end/print r1",
        "set r1 3/call r1",
        "set r2 1/cc r2",
        "proc r1 end/add r4 r4 r1",
        "forget r4",
        "print r2/proc r1 last/wind r1 r4 r1/:last/ret",
    ),
    31: (
        f"set r1 {MOST}/set r2 1/add r3 r1 r2",
        f"set r1 {LEAST}/set r2 1/sub r3 r1 r2",
        "set r1 1/set r2 1/:last/print r1/add r1 r1 r1/jump last",
    ),
    32: ("push r0/ret", "proc r1 last/call r1/:last/pop r1", "proc r1 last/cc1 r1/:last/pop r1"),
    33: (
        "proc r1 last/cc1 r1/load r1 g7/call r1/:last/store g7 r0/ret",
        "proc r1 last/cc r1/:last/forget r0/call r0",
        "proc r1 last/cc r1/:last/forget r0/forget r0",
    ),
    34: ("", "print r4"),
    40: (":last/proc r1 last/call r1", ":last/push r0/jump last", ":last/proc r1 last/wind r1 r1 r1"),
    # A wind in force has two frames, so the frames of the second stores are full first.
    41: ("proc r1 none/:last/proc r2 last/wind r1 r2 r1/:none/ret",),
    42: (
        ":last/proc r1 last/cc r1",
        ":last/proc r1 last/cc1 r1",
        ":last/proc r1 none/cc r1/jump last/:none/ret",
    ),
    "open": (":last/jump last", ":last/set r1 5/print r1/jump last", "proc r1 last/cc r1/load r1 g7/call r1/:last/store g7 r0/ret"),
}

WEIGHTS = {0: 36, 30: 4, 31: 8, 32: 7, 33: 7, 34: 9, 40: 10, 41: 10, 42: 10, "open": 1}


def finish(s):
    """Adds the last part."""
    text = s.pick(*ENDINGS[s.chance.choices(list(WEIGHTS), list(WEIGHTS.values()))[0]])
    s.put(":end", *(text.split("/") if text else ()))
