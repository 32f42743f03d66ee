#!/usr/bin/env python3
"""cache.py PROGRAM..: how many instructions each `PROGRAM run` takes, over some kinds of scripts, and how often the processor's first
cache of instructions (32 kB, in lines of 64 octets) lacks one, beside the plain program and the one with the libraries' digits. Both
are counted by cachegrind, which runs a program on a processor of its own, so they are the same each time. Code that comes by once a
call has to be fetched anew for each, where all that comes by takes more than that cache; and code that comes by at each line, where it
happens to lie in more than eight lines of the same place."""
import os
import re
import subprocess
import sys
import tempfile

import run

KINDS = ("mixed", "calls", "flows", "one")


def counts(program, path):
    """Instructions, and those that the first cache of instructions lacked."""
    words = ["valgrind", "--tool=cachegrind", "--cache-sim=yes", "--I1=32768,8,64", "--cachegrind-out-file=/dev/null", program, "run"]
    with open(path, "rb") as script:
        ran = subprocess.run(words, stdin=script, stdout=subprocess.DEVNULL, stderr=subprocess.PIPE, text=True, check=True)
    return [int(re.search(rf"I\d? +{word}: +([\d,]+)", ran.stderr)[1].replace(",", "")) for word in ("refs", "misses")]


def main(programs):
    with tempfile.TemporaryDirectory() as folder:
        run.need("valgrind")
        names = {program: program for program in programs}
        try:
            names[run.plain_program(os.path.join(folder, "plain"))] = "plain"
            names[run.with_library_digits(os.path.join(folder, "library"))] = "plain, with the libraries' digits"
        except run.Skipped as why:
            print(f"The plain program is left out: {why}")
        print(f"{'kind':>8} {'instructions':>13} {'fetched':>9}  program")
        for kind in KINDS:
            path = run.write_script(folder, kind, run.SCRIPTS[kind])
            for program, name in names.items():
                taken, fetched = counts(program, path)
                print(f"{kind:>8} {taken:>13} {fetched:>9}  {name}")


if __name__ == "__main__":
    if len(sys.argv) < 2:
        sys.exit(__doc__)
    try:
        main(sys.argv[1:])
    except run.Skipped as why:
        print(f"Left out: {why}")
