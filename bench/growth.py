#!/usr/bin/env python3
"""growth.py PROGRAM: how many instructions the commands of `PROGRAM` take, and how many times as many for twice as much. They are counted
by valgrind, so they are the same each time. A command whose instructions double while its time more than doubles waits for memory: what
it keeps has left the processor's caches."""
import sys
import tempfile

import run


def taken(command, path):
    """The instructions of a command over a file."""
    with open(path, "rb") as text:
        return run.instructions(command, text.read())


def inputs(program, folder):
    """Each command with the kind of its input, how much of it, and the files of that and of twice as much."""
    for kind, counts in run.DESKS.items():
        for count in counts:
            yield ["relay"], kind, count, [run.write_script(folder, kind, n) for n in (count, 2 * count)]
    for words, maker, kind, count in run.COMMANDS:
        if count:
            yield words, (kind or ["-"])[0], count, [run.inputs(program, folder, maker, kind, n) for n in (count, 2 * count)]


def main(program):
    run.need("valgrind")
    print(f"{'command':>10} {'kind':>10} {'count':>8} {'instructions':>13} {'doubled':>8}")
    with tempfile.TemporaryDirectory() as folder:
        for words, kind, count, paths in inputs(program, folder):
            once, twice = (taken([program, *words], path) for path in paths)
            print(f"{' '.join(words):>10} {kind:>10} {count:>8} {once:>13} {twice / once:8.3f}", flush=True)


if __name__ == "__main__":
    if len(sys.argv) != 2:
        sys.exit(__doc__)
    try:
        main(sys.argv[1])
    except run.Skipped as why:
        print(f"Left out: {why}")
