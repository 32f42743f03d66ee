#!/usr/bin/env python3
"""scripts.py KIND COUNT: writes a script of one kind, always the same for the same words.

    mixed     COUNT calls with changing flows, each asked for a second set, cleared down and hung up
    calls     COUNT short calls: a trigger, an answer, and both legs lost
    flows     COUNT calls with flows of 1000 ticks both ways, under long ticks
    one       one call in which COUNT frames are handed over
    old       one call in which COUNT frames are handed over that were sent long before, over and over
    asks      COUNT calls whose sessions ask for a set at the same time, without an answer
    legs      COUNT calls whose point legs stay up, then long ticks
    apart     the same, with six seconds between the calls
    crowd     the same, with flows on: each call has its set shown and acknowledged before the vehicle's leg is lost
    first     COUNT calls whose point legs stay up, and then the first of them is asked for a set 250 times
    fall      COUNT calls whose point legs stay up, and then each of them is lost, from the first on
    callbacks COUNT calls placed by the point, hung up at once, with almost a whole standby between them
    desk      for `relay`: a set that is passed on COUNT times, of which nothing comes back: a hundred single ticks, then long ones
    shown     for `relay`: the same, but each arrives, twice, and is done"""
import sys

FACTS = """vin WM9VDSVDSYA123456
kind 1
fuel 1000000
time 1577836800
place 173880000 41700000
heading 45
trusted yes
"""


def draws(x=0):
    """A generator of numbers from 0 to 65535, as simple as can be."""
    while True:
        x = (x * 1664525 + 1013904223) % 2**32
        yield x >> 16


def mixed(count):
    drawn = draws()
    for k in range(1, count + 1):
        up, down, first, second = (next(drawn) for _ in range(4))
        yield f"flow up {up % 40}\nflow down {down % 40}\ntrigger auto\nanswer\ntick {20 + first % 400}\nrequest {k}\n"
        yield f"tick {20 + second % 400}\nclear {k}\ntick 40\nhangup {k}\n"


def calls(count):
    yield "trigger auto\n"
    for k in range(1, count + 1):
        yield f"answer\ndeliver up {k} 1\ndeliver down {k} 1\ndrop both {k}\n"


def flows(count):
    yield "flow up 1000\nflow down 1000\n"
    for k in range(1, count + 1):
        yield f"trigger auto\nanswer\ntick 30\ndeliver up {k} 1\ntick 3000\nrequest {k}\ntick 3000\nhangup {k}\n"


def one(count):
    yield "trigger auto\nanswer\ndeliver up 1 1\ndeliver down 1 1\n"
    for _ in range(count // 2):
        yield "deliver up 1 2\ndeliver down 1 2\n"


def old(count):
    yield "flow up 3\nflow down 3\ntrigger auto\nanswer\ntick 60\n"
    for k in range(count // 2):
        yield f"deliver up 1 {1 + k % 20}\ndeliver down 1 {1 + k % 6}\n"


def asks(count):
    yield "flow up 1\ntrigger auto\n"
    for k in range(1, count + 1):
        yield f"answer\ndeliver up {k} 1\ndrop vehicle\n"
    yield "tick 250\n"


def legs(count, between=""):
    yield "trigger auto\n"
    for _ in range(count):
        yield f"answer\n{between}drop vehicle\n"
    for _ in range(100):
        yield "tick 4000000\ntrigger auto\n"


def apart(count):
    return legs(count, "tick 60\n")


def first(count):
    yield "trigger auto\n"
    for _ in range(count):
        yield "answer\ndrop vehicle\n"
    yield "tick 4000000\n"
    for _ in range(250):
        yield "request 1\ntick 220\n"


def fall(count):
    yield "trigger auto\n"
    for _ in range(count):
        yield "answer\ndrop vehicle\n"
    for k in range(1, count + 1):
        yield f"drop point {k}\n"


def crowd(count):
    yield "flow up 7\nflow down 7\n"
    for _ in range(count):
        yield "trigger auto\nanswer\ntick 60\ndrop vehicle\ntick 600\n"


def callbacks(count):
    yield "trigger auto\nanswer\ntick 70\nhangup 1\n"
    for k in range(2, count + 2):
        yield f"callback\nhangup {k}\ntick 431999\n"


def passed(count):
    yield "trigger auto\nanswer\ndeliver up 1 1\ndeliver down 1 1\ndeliver up 1 2\n"
    for _ in range(count):
        yield "pass 1\n"


def desk(count):
    yield from passed(count)
    for _ in range(100):
        yield "tick 1\n"
    for _ in range(100):
        yield "tick 4000000\n"


def shown(count):
    yield from passed(count)
    for k in range(count, 0, -1):
        yield f"hand forth {k}\nhand forth {k}\n"
    for k in range(2 * count, 0, -1):
        yield f"hand back {k}\n"
    yield "tick 4000000\n"


KINDS = {kind.__name__: kind for kind in (mixed, calls, flows, one, old, asks, legs, apart, crowd, first, fall, callbacks, desk, shown)}


def main(kind, count):
    sys.stdout.write(FACTS)
    sys.stdout.writelines(KINDS[kind](int(count)))


if __name__ == "__main__":
    if len(sys.argv) != 3 or sys.argv[1] not in KINDS:
        sys.exit(__doc__)
    main(*sys.argv[1:])
