#!/usr/bin/env python3
"""live_noise.py PROGRAM [SECONDS]: hands octets at random to both ends of a live call, each run in a process of its own, for
so many seconds (60), and compares how each run ends, and its last line, with what a reader of messages of this script's own
makes of the octets: no message goes on with one of them, and which, with its place and what is wrong; or they end within a
round; or, at the point, the vehicle's script is at its end. It prints how many runs ended so, and ends with 1 if one ended
otherwise."""
import collections
import os
import random
import socket
import subprocess
import sys
import time

sys.dont_write_bytecode = True
from linked_end import linked

PATIENCE = 20
DONE, LINK_CUT, LINK_FAULT, NO_LINK = 0, 9, 10, 11
FIRST = {"vehicle": (17, 18, 19, 32), "point": (16, 18, 20, 32)}
# each end wants more rounds than there are messages
SCRIPT = {"vehicle": b"set 03\ntrigger auto\ntick 4294967295\n", "point": b""}
SET = 140


def frame_next(kept, octet):
    """What an octet makes of a frame of which these have come: its fault, True where it is whole, or False."""
    if not kept:
        return 1 if not 1 <= octet <= 6 else octet == 1
    if len(kept) == 1:
        return 2 if octet == 0 else kept[0] in (2, 4, 5)
    if kept[0] == 6:
        return 3 if octet not in (1, 2) else True
    return len(kept) == 2 + SET


def stops(end, octets):
    """The status that these octets lead to, and what is said of the octet that no message goes on with."""
    kept, parts = [], 0
    for place, octet in enumerate(octets):
        if not kept and octet == 0:
            parts = 0
            continue
        if not kept and octet == 48 and end == "point" and parts == 0:
            return DONE, None
        fault = whole = False
        if not kept:
            fault, whole = 0 if octet in FIRST[end] else 4, octet == 16
        elif len(kept) == 4:
            fault, whole = 0 if any(kept[1:]) or octet else 5, kept[0] != 32
        elif len(kept) > 4:
            made = frame_next(kept[5:], octet)
            fault, whole = (0, made) if isinstance(made, bool) else (made, False)
        if fault:
            return LINK_FAULT, (place, fault, octet)
        kept, parts = ([], parts + 1) if whole else (kept + [octet], parts)
    return LINK_CUT, None


def part(end, pick):
    """A part that an end may read, or that is wrong at one place."""
    first = pick.choice(FIRST[end])
    if first == 16:
        return [16]
    number = [0, 0, 0, pick.randrange(3)]
    if first != 32:
        return [first] + number
    kind = pick.randrange(1, 7)
    rest = {1: [], 6: [pick.randrange(3), pick.randrange(3)], 3: [1] + [pick.randrange(256)] * (1 + SET)}
    return [32] + number + [kind] + rest.get(kind, [pick.randrange(2)])


def noise(end, pick):
    octets = []
    for _ in range(pick.randrange(12)):
        octets += pick.choice([part(end, pick), part(end, pick), [0], [0], [pick.randrange(256)]])
    return bytes(octets)


def exchange(link, octets):
    """Sends these octets, and reads whatever comes to its end."""
    link.settimeout(PATIENCE)
    try:
        link.sendall(octets)
        link.shutdown(socket.SHUT_WR)
        while link.recv(65536):
            pass
    except OSError:
        pass


def run(program, end, octets):
    """The status and the trace of an end to which these octets come."""
    with linked(program, end, SCRIPT[end], subprocess.PIPE) as (child, link):
        exchange(link, octets)
    trace = child.stdout.read()
    return child.wait(PATIENCE), trace


def main(program, seconds):
    pick = random.Random()
    until = time.monotonic() + seconds
    seen, bad = collections.Counter(), 0
    while time.monotonic() < until:
        end = pick.choice(["vehicle", "point"])
        octets = noise(end, pick)
        wanted, said = stops(end, octets)
        try:
            status, trace = run(program, end, octets)
        except OSError:
            continue  # somebody else has the port
        if status == NO_LINK:
            continue
        last = trace.splitlines()[-1] if trace else b""
        line = b"refused link %d %d %d" % said if said else None
        if status != wanted or (line is not None) != last.startswith(b"refused") or (line and last != line):
            bad += 1
            print(f"live_noise: the {end} ends {octets.hex()} with {status} and {last.decode()!r}, and not {wanted} {said}")
        seen[f"{end} {'fault %d' % said[1] if said else status}"] += 1
    for what, count in sorted(seen.items()):
        print(f"{count:6} {what}")
    return 1 if bad else 0


if __name__ == "__main__":
    if len(sys.argv) not in (2, 3):
        sys.exit(__doc__)
    sys.exit(main(os.path.abspath(sys.argv[1]), float(sys.argv[2]) if len(sys.argv) == 3 else 60))
