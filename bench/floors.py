#!/usr/bin/env python3
"""floors.py VEHICLES CALLS [VEHICLE]: writes a script of `floor`, always the same for the same words: so many vehicles, each
with so many calls under flows of 30 and 20 ticks. In each round all of them call, one behind the other, the desk asks each
for a second set, and hangs up on each. With a third number it writes what is that vehicle's alone, as a script of `run`."""
import sys

sys.dont_write_bytecode = True
from scripts import FACTS


def rounds(vehicles, calls, call_of, own):
    """The rounds of these vehicles: `own` puts a vehicle's number in front of its line, `call_of` numbers its calls."""
    yield "flow up 30\nflow down 20\n"
    for k in range(1, calls + 1):
        yield from (own(v, "trigger auto") + own(v, "answer") for v in vehicles)
        yield "tick 120\n"
        yield from (f"request {call_of(v, k)}\n" for v in vehicles)
        yield "tick 130\n"
        yield from (f"hangup {call_of(v, k)}\n" for v in vehicles)
        yield "tick 40\n"


def floor(count, calls):
    vehicles = range(1, count + 1)
    for v in vehicles:
        yield "".join(f"{v} {line}\n" for line in FACTS.splitlines())
    yield from rounds(vehicles, calls, lambda v, k: (k - 1) * count + v, lambda v, line: f"{v} {line}\n")


def part(vehicle, calls):
    yield FACTS
    yield from rounds([vehicle], calls, lambda v, k: k, lambda v, line: f"{line}\n")


def main(words):
    count, calls, *vehicle = map(int, words)
    sys.stdout.writelines(part(vehicle[0], calls) if vehicle else floor(count, calls))


if __name__ == "__main__":
    if len(sys.argv) not in (3, 4):
        sys.exit(__doc__)
    main(sys.argv[1:])
