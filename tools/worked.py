#!/usr/bin/env python3
"""The worked sheets, with the figures that the independent evaluator gives for each.

  tools/worked.py       writes crates/worked/specs/Table.antt

No figure is written by hand: bytes, end, steps, winds entered and left are what `tools/evaluator/evaluate.py --model`
prints. In a sheet, `/` parts the lines. Limits are frames, winds and names; (48, 16, 7) unless told.
"""
import subprocess
import sys
from pathlib import Path

TOP = Path(__file__).resolve().parent.parent
EVALUATOR = TOP / "tools" / "evaluator" / "evaluate.py"
USUAL = (48, 16, 7)

AGAIN = "proc r1 got/%s r1/print r0/load r2 g1/zero r2 more/stop/:more/set r2 1/store g1 r2/load r1 g0/set r0 6/tail r1/:got/store g0 r0/set r0 5/ret"

SHEETS = [
    ("a number is printed", "set r0 7/print r0/stop", USUAL),
    ("a return with no frame ends the run", "ret", USUAL),
    ("running off the end", "set r0 1", USUAL),
    ("a continuation for many throws is thrown to again", AGAIN % "cc", USUAL),
    ("a one-shot was used up by the return past its mark", AGAIN % "cc1", USUAL),
    ("calls without end meet the frame limit", ":f/proc r1 f/call r1", USUAL),
    ("captures without end meet the held limit", ":f/proc r1 f/cc r1", (48, 16, 2)),
    ("a throw out of a wind calls its after", "proc r1 go/cc r1/stop/:go/store g0 r0/proc r1 a/proc r2 b/proc r3 c/wind r1 r2 r3/ret/:a/set r4 1/print r4/ret/:b/load r5 g0/tail r5/:c/set r4 3/print r4/ret", USUAL),
    ("a throw into a wind from outside calls its before, and its body goes on from there",
     "proc r1 a/proc r2 b/proc r3 c/wind r1 r2 r3/load r1 g1/zero r1 more/stop/:more/set r1 1/store g1 r1/load r1 g0/set r0 9/tail r1/:a/set r4 1/print r4/ret/:b/proc r1 got/cc r1/print r0/ret/:got/store g0 r0/set r0 2/ret/:c/set r4 3/print r4/ret", USUAL),
    ("the body's value is back in r0 after an after that changed it",
     "proc r1 a/proc r2 b/wind r1 r2 r1/print r0/stop/:a/set r0 8/print r0/ret/:b/set r0 4/ret", USUAL),
    ("a capture under a one-shot's mark promotes it, and it is thrown to twice",
     "proc r1 f/cc1 r1/print r0/load r2 g1/set r3 1/add r2 r2 r3/store g1 r2/set r3 2/less r4 r2 r3/zero r4 end/load r1 g0/set r0 7/tail r1/:end/load r1 g0/set r0 8/load r2 g2/zero r2 last/stop/:last/set r2 1/store g2 r2/tail r1/:f/store g0 r0/proc r1 g/cc r1/ret/:g/set r0 5/ret", USUAL),
    ("without that capture the second throw finds it used up",
     "proc r1 f/cc1 r1/print r0/load r1 g0/set r0 8/tail r1/:f/store g0 r0/set r0 7/load r1 g0/tail r1", USUAL),
    ("winds without end meet the wind limit", "proc r1 a/:b/proc r2 b/wind r1 r2 r1/:a/ret", (48, 4, 7)),
    ("where winds have room enough, the frames of winds without end meet their limit", "proc r1 a/:b/proc r2 b/wind r1 r2 r1/:a/ret", (16, 8, 7)),
    ("a sum out of range", "set r1 2147483647/set r2 1/print r1/add r1 r1 r2/print r1", USUAL),
    ("a difference at the least number", "set r1 -2147483647/set r2 1/sub r1 r1 r2/print r1/sub r1 r1 r2", USUAL),
    ("a forgotten continuation is not held", "proc r1 f/cc r1/stop/:f/forget r0/call r0", USUAL),
    ("forgetting twice", "proc r1 f/cc r1/stop/:f/forget r0/forget r0", USUAL),
    ("a throw out of two winds calls the inner after first",
     "proc r1 f/cc r1/print r0/stop/:f/store g0 r0/proc r1 n/proc r2 b/proc r3 x/wind r1 r2 r3/:n/ret/:b/proc r1 n/proc r2 d/proc r3 y/wind r1 r2 r3/ret/:d/load r1 g0/set r0 6/call r1/:x/set r4 1/print r4/ret/:y/set r4 2/print r4/ret", USUAL),
    ("winds of equal procedures are two: a throw from one to the other leaves the one and enters the other",
     "proc r1 a/proc r2 b/proc r3 c/wind r1 r2 r3/wind r1 r2 r3/stop/:a/set r4 1/print r4/ret/:c/set r4 3/print r4/ret/:b/load r5 g1/zero r5 first/set r6 0/store g1 r6/load r7 g0/set r0 2/call r7/:first/set r5 1/store g1 r5/proc r7 got/cc r7/print r0/ret/:got/store g0 r0/set r0 4/ret", USUAL),
    ("an after runs when its wind has been left: a throw from it does not call it again",
     "proc r1 f/cc r1/print r0/stop/:f/store g0 r0/proc r1 n/proc r2 n/proc r3 x/wind r1 r2 r3/:n/ret/:x/set r4 5/print r4/load r1 g0/set r0 1/call r1", USUAL),
    ("a pop finds a frame that is no value", "proc r1 f/call r1/:f/pop r2", USUAL),
    ("a return to a pushed value", "push r0/ret", USUAL),
    ("a kind that is no number", "proc r1 f/:f/print r1", USUAL),
    ("a frame store that is too low", "stop", (15, 16, 7)),
    ("a wind store that is too low", "stop", (48, 3, 7)),
    ("stores for one name", "stop", (48, 16, 1)),
    ("the least limits", "stop", (16, 4, 2)),
]


def figures(sheet, limits):
    frames, winds, names = limits
    options = ["--frames", frames, "--winds", winds, "--frame-names", names, "--wind-names", names, "--portion", 1000]
    told = subprocess.run([sys.executable, EVALUATOR, "--model", *map(str, options)], input=sheet.replace("/", "\n").encode(), capture_output=True, check=True)
    *lines, tally = told.stdout.decode().splitlines()
    steps, _, _, _, _, entered, left, _, end, _ = map(int, tally.split()[1:])
    return "/".join(lines + [""]), end, steps, entered, left


def main():
    rows = ""
    for title, sheet, limits in SHEETS:
        output, end, steps, entered, left = figures(sheet, limits)
        rows += f"    -- {title}\n"
        rows += f'    row (sheet "{sheet}") (limits {" ".join(map(str, limits))})\n'
        rows += f'    (figures (sheet "{output}") {end} {steps} {entered} {left}) ∷\n'
        print(title, (output, end, steps, entered, left))
    text = f"""-- The worked sheets. The figures are those of an independent evaluator; written by tools/worked.py, not by hand.
use Rattle.std.specs.Prelude.{{List, [], ◌∷◌}}
use Rattle.worked.specs.Rows.{{Row, row, sheet, limits, figures}}

-- each sheet in one line, with the limits of its run and what the run comes to
abbrev pub table : List Row
table =
{rows}    []
"""
    (TOP / "crates" / "worked" / "specs" / "Table.antt").write_text(text)


if __name__ == "__main__":
    main()
