#!/usr/bin/env python3
"""traces.py KIND COUNT: writes a recorded trace of one kind, always the same for the same words.

    again     one call in which 255 requests are shown over and over, COUNT times in all
    up        COUNT calls whose legs stay up at the point, with open voice"""
import sys

DIGITS = "02000681d54970d65c3597ca0420c414640af05f080452e9960413e2550168".ljust(280, "0")
SUMMARY = "ok 1 WM9VDSVDSYA123456 1577836800 173880000 41700000"


def again(count):
    yield "0 up point 1\n0 voice point 1 open open\n"
    for k in range(count):
        yield f"{k} shown 1 {1 + k % 255} {DIGITS} {SUMMARY}\n"


def up(count):
    for k in range(1, count + 1):
        yield f"{k} up point {k}\n{k} voice point {k} open open\n"


KINDS = {kind.__name__: kind for kind in (again, up)}

if __name__ == "__main__":
    if len(sys.argv) != 3 or sys.argv[1] not in KINDS:
        sys.exit(__doc__)
    sys.stdout.writelines(KINDS[sys.argv[1]](int(sys.argv[2])))
