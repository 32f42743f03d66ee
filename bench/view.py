#!/usr/bin/env python3
"""view.py ECALL VIEW: measures `VIEW sets` beside `ECALL decode` over the same sets, over twice as many, over 10 million in little
memory, and over all processors by GNU parallel, where that is there; and `VIEW trace` and `VIEW report` beside `ECALL replay` over one trace, and over twice as many
entries. Times are processor time, the least of some rounds in which the programs take turns, but for the last, which are by the
clock. The text is thrown away."""
import os
import resource
import shutil
import subprocess
import sys
import tempfile
import time

HERE = os.path.dirname(os.path.abspath(__file__))
ROUNDS = 9
SETS = 120_000
MANY = 10_000_000
# bytes of address space, the program's code and the C library included
ROOM = 8 << 20
# which word of an entry is the number of its call
CALLS = dict.fromkeys("up down voice send ended fault".split(), 3) | dict.fromkeys("shown acked busy spent unshown".split(), 2)


def spent(command, path):
    """Processor seconds of a command over a file."""
    with open(path, "rb") as given:
        before = resource.getrusage(resource.RUSAGE_CHILDREN)
        subprocess.run(command, stdin=given, stdout=subprocess.DEVNULL, check=True)
        after = resource.getrusage(resource.RUSAGE_CHILDREN)
    return after.ru_utime - before.ru_utime + after.ru_stime - before.ru_stime


def least(*runs):
    """The least time of each of some commands over files, in rounds that go over all of them in turn."""
    rounds = [[spent(command, path) for command, path in runs] for _ in range(ROUNDS)]
    return [min(times) for times in zip(*rounds)]


def write_sets(path, count):
    with open(path, "wb") as file:
        subprocess.run([sys.executable, os.path.join(HERE, "sets.py"), str(count)], stdout=file, check=True)


def confine():
    resource.setrlimit(resource.RLIMIT_AS, (ROOM, ROOM))


def many(view, path):
    """Seconds by the clock of a run over a file again and again, in little room."""
    with open(path, "rb") as file:
        text = file.read()
    began = time.monotonic()
    child = subprocess.Popen([view, "sets"], stdin=subprocess.PIPE, stdout=subprocess.DEVNULL, preexec_fn=confine)
    for _ in range(MANY // SETS + 1):
        child.stdin.write(text)
    child.stdin.close()
    if child.wait():
        raise OSError(f"over many sets it ended with status {child.returncode}")
    return time.monotonic() - began


def by_clock(words, path):
    with open(path, "rb") as given:
        began = time.monotonic()
        subprocess.run(words, stdin=given, stdout=subprocess.DEVNULL, check=True)
    return time.monotonic() - began


def behind(line, ticks, calls):
    """The line of an entry so many ticks later, in a call whose number is so much greater."""
    words = line.split(" ")
    words[0] = str(ticks + int(words[0]))
    at = CALLS.get(words[1].strip())
    if at:
        words[at] = words[at].replace(words[at].strip(), str(calls + int(words[at])))
    return " ".join(words)


def measure_traces(ecall, view, folder):
    """Measures the trace of a long script, and one of twice its entries, whose second half has later ticks and other calls."""
    script, trace, twice = (os.path.join(folder, name) for name in ("script", "trace", "two traces"))
    with open(script, "wb") as file:
        subprocess.run([ecall, "make", "0"], stdout=file, check=True)
    with open(trace, "wb") as file, open(script, "rb") as given:
        subprocess.run([ecall, "run"], stdin=given, stdout=file, check=True)
    with open(twice, "w", encoding="ascii") as file, open(trace, encoding="ascii") as once:
        lines = once.readlines()
        last = int(lines[-1].split(" ")[0])
        file.writelines(lines)
        file.writelines(behind(line, last, 1_000_000) for line in lines)
    judged, told, double, reported, both = least(
        ([ecall, "replay"], trace), ([view, "trace"], trace), ([view, "trace"], twice),
        ([view, "report", "--json"], trace), ([view, "report", "--json"], twice),
    )
    print(f"a trace of {len(lines)} entries: ecall replay {judged:.3f} s, ecall_view trace {told:.3f} s, {told / judged:.2f} times")
    print(f"a trace of {2 * len(lines)} entries: ecall_view trace {double:.3f} s, {double / told:.2f} times")
    print(f"a trace of {len(lines)} entries: ecall_view report {reported:.3f} s, {reported / judged:.2f} times `ecall replay`")
    print(f"a trace of {2 * len(lines)} entries: ecall_view report {both:.3f} s, {both / reported:.2f} times")


def main(ecall, view):
    with tempfile.TemporaryDirectory() as folder:
        measure_traces(ecall, view, folder)
        path, twice, eight = (os.path.join(folder, name) for name in ("sets", "twice", "eight"))
        write_sets(path, SETS)
        for name, times in ((twice, 2), (eight, 8)):
            with open(name, "wb") as file, open(path, "rb") as once:
                text = once.read()
                file.writelines([text] * times)
        decoded, told, double = least(([ecall, "decode"], path), ([view, "sets"], path), ([view, "sets"], twice))
        print(f"{SETS} mixed sets: ecall decode {decoded:.3f} s, ecall_view sets {told:.3f} s, {told / decoded:.2f} times")
        print(f"{2 * SETS} mixed sets: ecall_view sets {double:.3f} s, {double / told:.2f} times")
        seconds = many(view, path)
        print(f"{(MANY // SETS + 1) * SETS} sets in {ROOM >> 20} MB of address space: {seconds:.1f} s by the clock")
        if shutil.which("parallel") is None:
            print("parallel is not there, so nothing is measured over all processors")
            return
        alone = min(by_clock([view, "sets"], eight) for _ in range(3))
        together = min(by_clock(["parallel", "--pipe", "--block", "4M", view, "sets"], eight) for _ in range(3))
        print(f"{8 * SETS} sets by the clock: {alone:.2f} s alone, {together:.2f} s by parallel --pipe over {os.cpu_count()} processors")


if __name__ == "__main__":
    if len(sys.argv) != 3:
        sys.exit(__doc__)
    main(*sys.argv[1:])
