#!/usr/bin/env python3
"""Tries hints of inlining without proving: they change the program's module alone, and no proof.

    hints.py catch FOLDER                     waits until a program is compiled (`rt run` in crates/ecall, elsewhere, with no
                                              crates/ecall/out), and keeps its module and the compiler's words in FOLDER
    hints.py try FOLDER PROGRAM [HINT:RE ..]  compiles PROGRAM from that module with a hint at each function whose name the
                                              regular expression finds: alwaysinline, noinline, cold, or plain for none of these.
                                              All hints that find a function take the place of its own

With no hint PROGRAM is the one that was built, byte for byte. A name is the function's path, as channel_sim::calls::post, and
where it is generic, what it is made for behind it. It takes three quarters of a minute; `cache.py` counts instructions."""
import glob
import os
import re
import shutil
import subprocess
import sys
import time

NAME = re.compile(r'@("[^"]*"|[\w$.\-]+)\(')
GROUP = re.compile(r" (#\d+)(?=[ \n])")
HINTS = {"alwaysinline": ["alwaysinline"], "noinline": ["noinline"], "cold": ["cold"], "plain": []}


def words_of(process):
    with open(f"{process}/cmdline") as file:
        return file.read().split("\0")[:-1]


def builds_the_program(process):
    """Whether a process was begun, by others perhaps, by one that builds `ecall`, and not its tests or another crate."""
    for _ in range(4):
        words = words_of(process)
        if "--crate-name" in words and words[words.index("--crate-name") + 1] == "ecall":
            return "--test" not in words
        with open(f"{process}/stat") as file:
            process = f"/proc/{file.read().rsplit(')', 1)[1].split()[1]}"
    return False


def compilers():
    """The folder and the words of each compiler that runs with the program's module in its folder."""
    for process in glob.glob("/proc/[0-9]*"):
        try:
            words = words_of(process)
            folder = os.readlink(f"{process}/cwd")
            if words and words[0].endswith("/clang") and "module.bc" in words and os.path.isfile(f"{folder}/module.bc") and builds_the_program(process):
                yield folder, words
        except OSError:
            continue


def catch(folder):
    os.makedirs(folder, exist_ok=True)
    while True:
        for place, words in compilers():
            shutil.copy(f"{place}/module.bc", folder)
            with open(f"{folder}/words", "w") as file:
                file.write("\n".join(words))
            return
        time.sleep(0.2)


def hinted(line, groups, hints):
    """The first line of a function with these hints in the place of those that it had."""
    words = []
    group = GROUP.search(line)
    if group:
        words = [word for word in groups[group[1]].split(" ") if word not in ("alwaysinline", "noinline", "inlinehint", "cold")]
        line = line.replace(group[0], "", 1)
    words += [word for hint in hints for word in HINTS[hint]]
    return line.replace(" {\n", "".join(f" {word}" for word in words) + " {\n")


def text_with(lines, hints):
    """The module's text with hints, each a word and what finds functions, and how many functions each found."""
    groups = dict(re.findall(r"^attributes (#\d+) = \{ (.*) \}$", "".join(lines), re.MULTILINE))
    found = [0] * len(hints)
    for place, line in enumerate(lines):
        if line.startswith("define "):
            name = NAME.search(line)[1].strip('"')
            here = [k for k, (_, finds) in enumerate(hints) if finds.search(name)]
            for k in here:
                found[k] += 1
            if here:
                lines[place] = hinted(line, groups, [hints[k][0] for k in here])
    return "".join(lines), found


def attempt(folder, program, *said):
    hints = [(hint, re.compile(finds)) for hint, finds in (word.split(":", 1) for word in said)]
    with open(f"{folder}/words") as file:
        words = file.read().split("\n")
    text, target, made = f"{program}.ll", [word for word in words if word.startswith("--target=")], f"{program}.o"
    subprocess.run([words[0], *target, "-S", "-emit-llvm", "-x", "ir", f"{folder}/module.bc", "-o", text, "-O3", "-Xclang", "-disable-llvm-passes"], check=True)
    with open(text) as file:
        module, found = text_with(file.readlines(), hints)
    for word, count in zip(said, found):
        print(f"{count:5} functions  {word}")
    with open(text, "w") as file:
        file.write(module)
    subprocess.run([{"module.bc": text, "module.o": made}.get(word, word) for word in words], check=True)
    kit = os.path.dirname(os.path.dirname(os.path.dirname(words[0])))
    link = [f"{kit}/bin/rattle-link", "--target", target[0].split("=")[1], "--toolchain", f"{kit}/toolchain", "-o", program, made]
    subprocess.run([*link, f"{kit}/c/libos_c.a", f"{kit}/c/liblibc_c.a"], check=True)
    os.remove(text)
    os.remove(made)


if __name__ == "__main__":
    if len(sys.argv) == 3 and sys.argv[1] == "catch":
        catch(sys.argv[2])
    elif len(sys.argv) > 3 and sys.argv[1] == "try" and all(word.partition(":")[0] in HINTS and ":" in word for word in sys.argv[4:]):
        attempt(*sys.argv[2:])
    else:
        sys.exit(__doc__)
