#!/usr/bin/env python3
"""c.py FOLDER: measures the C library in FOLDER (`make c-library` makes one): its size whole and of a program that only
decodes and encodes, the stack of each function by painting, decoding and encoding beside what asn1c generates, in turns,
and the cost of a step of either end. A part that needs a tool which isn't there is skipped in a line."""
import os
import subprocess
import sys
import tempfile

sys.dont_write_bytecode = True
from run import Skipped, generated_codec, need, write_sets

HERE = os.path.dirname(os.path.abspath(__file__))
SETS, ROUNDS, TURNS = 20000, 20, 9
LEAST = """#include "ecall.h"
int main(int count, char **words) {
    struct ecall_decoded read = ecall_decode((const uint8_t *)words[0], (size_t)count);
    return ecall_encode(&read.set, (const uint8_t *)words[0], (size_t)count).fault;
}
"""


def build(folder, source, to, *flags):
    subprocess.run(["gcc", "-O2", *flags, "-I" + folder, source, os.path.join(folder, "libecall.a"), "-o", to], check=True)
    return to


def text_size(path):
    """The bytes of text of a file, those of its constants included."""
    lines = subprocess.run(["size", path], capture_output=True, text=True, check=True).stdout.splitlines()
    return int(lines[1].split()[0])


def sizes(folder, to):
    """The text of the library, and of a program with two of its functions."""
    source = os.path.join(to, "least.c")
    with open(source, "w") as file:
        file.write(LEAST)
    empty = os.path.join(to, "empty.c")
    with open(empty, "w") as file:
        file.write("int main(void) { return 0; }\n")
    least = build(folder, source, os.path.join(to, "least"), "-Wl,--gc-sections")
    print(f"  text of the library, whole                 {text_size(os.path.join(folder, 'libecall.a')):6} bytes")
    print(f"  decode and encode alone, with --gc-sections {text_size(least) - text_size(build(folder, empty, os.path.join(to, 'empty'))):5} bytes")


def seconds(program, what, path):
    with open(path, "rb") as sets:
        said = subprocess.run([program, what, str(ROUNDS)], stdin=sets, capture_output=True, check=True).stdout.split()
    return float(said[0]), said[1]


def beside(measure, path, to):
    """Decoding and encoding beside the generated code, in turns; the least of each."""
    need("asn1c")
    generated = generated_codec(os.path.join(to, "generated"))
    for what in ("decode", "encode"):
        turns = [(seconds(measure, what, path), seconds(generated, what, path)) for _ in range(TURNS)]
        if len({took[1] for turn in turns for took in turn}) != 1:
            raise OSError(f"the two take another number of sets to {what}")
        ours, others = (min(turn[i][0] for turn in turns) / ROUNDS / SETS * 1e9 for i in (0, 1))
        print(f"  {what:<8} ecall.h {ours:6.0f} ns for a set, generated {others:6.0f} ns: {others / ours:.1f} times as long")


def main(folder):
    with tempfile.TemporaryDirectory() as to:
        try:
            need("gcc", "size")
            if not os.path.exists(os.path.join(folder, "libecall.a")):
                raise Skipped(f"{folder} has no libecall.a (`make c-library`)")
            measure = build(folder, os.path.join(HERE, "measure.c"), os.path.join(to, "measure"))
            print("\nThe C library")
            sizes(folder, to)
            for what in ("stack", "steps"):
                print(subprocess.run([measure, what], capture_output=True, text=True, check=True).stdout, end="")
            beside(measure, write_sets(to, SETS, "known"), to)
        except Skipped as reason:
            print(f"the C library: skipped, {reason}")


if __name__ == "__main__":
    if len(sys.argv) != 2:
        sys.exit(__doc__)
    main(os.path.abspath(sys.argv[1]))
