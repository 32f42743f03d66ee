#!/usr/bin/env python3
"""refuse.py PROGRAM: refuses each of the first requests for memory of `PROGRAM run`, `register`, `replay` and `trial 0` in
turn, and says how each command ended: with status 6 and a front of its text, or as it does with all memory at hand. It ends
with 1 if one ended otherwise. It needs a C compiler, and a C library that a program loads."""
import os
import subprocess
import sys
import tempfile

HERE = os.path.dirname(os.path.abspath(__file__))
EXAMPLES = os.path.join(HERE, "..", "examples")
MEMORY = 6
# how many requests are refused at most, one in each run
MOST = 300
COMMANDS = [(["run"], "redial.script"), (["register"], "redial.script"), (["replay"], "redial.trace"), (["trial", "0"], None)]
# the commands that write nothing before their end
SILENT = {"register", "replay", "trial"}


def ran(command, path, environment):
    with open(path, "rb") as given:
        child = subprocess.run(command, stdin=given, capture_output=True, env={**os.environ, **environment})
    return child.returncode, child.stdout, b"refused\n" in child.stderr


def faults(words, whole, refused):
    """What is wrong with a run in which a request was refused."""
    status, text, _ = refused
    if refused[:2] == whole[:2]:
        return
    if status != MEMORY:
        yield f"its status is {status}"
    if not whole[1].startswith(text):
        yield "its text is no front of the whole text"
    if text and words[0] in SILENT:
        yield "it wrote something"


def tried(program, library, words, path):
    """Refuses each request of a command in turn, until it makes no more; the number of those that were refused, and what is
    wrong with some."""
    whole, wrong = ran([program, *words], path, {}), []
    for number in range(1, MOST + 1):
        refused = ran([program, *words], path, {"LD_PRELOAD": library, "REFUSE": str(number)})
        if not refused[2]:
            return number - 1, wrong
        wrong += [f"request {number} of `{' '.join(words)}`: {fault}" for fault in faults(words, whole, refused)]
    return MOST, wrong


def main(program):
    with tempfile.TemporaryDirectory() as folder:
        library = os.path.join(folder, "refuse.so")
        subprocess.run(["cc", "-O1", "-shared", "-fPIC", "-o", library, os.path.join(HERE, "refuse.c"), "-ldl"], check=True)
        wrong = []
        for words, name in COMMANDS:
            count, more = tried(program, library, words, os.path.join(EXAMPLES, name) if name else os.devnull)
            print(f"{' '.join(words)}: {count} requests were refused, each in a run of its own; {len(more)} ended otherwise than they may")
            wrong += more
    print("\n".join(wrong), end="\n" if wrong else "")
    return 1 if wrong else 0


if __name__ == "__main__":
    if len(sys.argv) != 2:
        sys.exit(__doc__)
    sys.exit(main(os.path.abspath(sys.argv[1])))
