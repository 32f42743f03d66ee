#!/usr/bin/env python3
"""live.py PROGRAM: rounds a second of the ends of a live call: of each end alone, to which recorded octets come, in processor
time, the system's included; and of two processes on this machine, against the clock. Then the most memory that an end took
whose other end answers for ever, up to the bound on what it may send. Ends with 1 where a run ends with another status than
it should."""
import os
import random
import socket
import sys
import threading
import time

sys.dont_write_bytecode = True
from linked_end import PORTS, begun, linked

PAUSE = 0.002
ROUNDS = 4_000_000
TOGETHER = 100_000
BOUND = 16_777_216
DONE, TOO_LONG, NO_LINK = 0, 7, 11
SCRIPT_END = b"0"
BLOCK = bytes(65536)


def drain(link):
    """Reads what comes, with pauses: else each octet wakes this process, and the end's system time is mostly that."""
    try:
        while link.recv(1 << 20):
            time.sleep(PAUSE)
    except OSError:
        pass


def send(link, octets, last):
    """Sends so many octets 0, and what is last."""
    try:
        while octets > 0:
            octets -= link.send(BLOCK[:octets])
        link.sendall(last)
        link.shutdown(socket.SHUT_WR)
    except OSError:
        pass  # the end closed first


def alone(program, end, script, octets, last=b""):
    """The status of an end to which these octets come, its processor time and the most memory that it took."""
    with linked(program, end, script) as (child, link):
        reader = threading.Thread(target=drain, args=(link,))
        reader.start()
        send(link, octets, last)
        _, ended, used = os.wait4(child.pid, 0)
        reader.join()
    return os.waitstatus_to_exitcode(ended), used.ru_utime + used.ru_stime, used.ru_maxrss


def together(program):
    """The statuses of two ends, and the time that their call took."""
    port = random.choice(PORTS)
    point = begun(program, "point", port, b"")
    script = b"set 03\ntick %d\n" % TOGETHER
    for _ in range(200):
        start = time.monotonic()
        vehicle = begun(program, "vehicle", port, script)
        if vehicle.wait() != NO_LINK:
            break
        time.sleep(0.02)
    took = time.monotonic() - start
    return (vehicle.returncode, point.wait()), took


def main(program):
    bad = 0

    def check(what, status, wanted):
        nonlocal bad
        if status != wanted:
            bad += 1
            print(f"live: {what} ends with {status}, and not {wanted}")

    print("  end                      rounds   seconds    rounds/s")
    runs = [
        ("vehicle", b"set 03\ntick %d\n" % ROUNDS, ROUNDS, b""),
        ("point", b"", ROUNDS, SCRIPT_END),
    ]
    for end, script, octets, last in runs:
        status, seconds, _ = alone(program, end, script, octets, last)
        check(end, status, DONE)
        print(f"  {end + ' alone':20}{octets:12}{seconds:10.3f}{octets / seconds:12.0f}")
    statuses, seconds = together(program)
    check("a call of two ends", statuses, (DONE, DONE))
    print(f"  {'both, by the clock':20}{TOGETHER:12}{seconds:10.3f}{TOGETHER / seconds:12.0f}")
    status, _, memory = alone(program, "vehicle", b"set 03\ntick 4294967295\n", BOUND + 1)
    check("a vehicle whose point answers for ever", status, TOO_LONG)
    print(f"a vehicle whose point answers for ever took {memory} KB at most, up to the bound of {BOUND} octets")
    return 1 if bad else 0


if __name__ == "__main__":
    if len(sys.argv) != 2:
        sys.exit(__doc__)
    try:
        sys.exit(main(os.path.abspath(sys.argv[1])))
    except OSError as reason:
        sys.exit(f"live: {reason}")
