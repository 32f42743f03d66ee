#!/usr/bin/env python3
"""passes.py PROGRAM..: what it costs each `PROGRAM run` to pass a session that only talks by a line of ticks, in nanoseconds. 5,000
calls whose point legs stay up stand behind a long line of ticks, and then a script has many short lines of ticks in which nothing
happens, another few: the difference, by line and session. The programs take turns, and the least of the rounds counts."""
import os
import sys
import tempfile

import run
import scripts

SESSIONS = 5_000
FEW, MANY = 100, 2_100


def script(folder, lines):
    path = os.path.join(folder, f"{lines}.script")
    with open(path, "w") as file:
        file.write(scripts.FACTS)
        file.writelines(scripts.legs(SESSIONS))
        file.write("tick 4000000\n")
        file.writelines(["tick 60\n"] * lines)
    return path


def main(programs):
    commands = [[program, "run"] for program in programs]
    with tempfile.TemporaryDirectory() as folder:
        few, many = (run.least(commands, script(folder, lines)) for lines in (FEW, MANY))
    for program, less, more in zip(programs, few, many):
        print(f"{(more - less) / (MANY - FEW) / SESSIONS * 1e9:8.2f} ns  {program}")


if __name__ == "__main__":
    if len(sys.argv) < 2:
        sys.exit(__doc__)
    main(sys.argv[1:])
