"""What tools/page needs to build the module with all of `ecall`, which the toolchain can't build by itself: it has no heap for
WebAssembly. The crate `page_whole` is proved and compiled for x86-64; the bitcode that it is compiled from there is compiled
for WebAssembly with a 64-bit memory instead, and linked with the heap in page/heap.c."""
import os
import re
import shutil
import subprocess
import sys
import tempfile

sys.dont_write_bytecode = True
from tree import CRATES, ROOT, dependencies

CRATE = os.path.join(CRATES, "page_whole")
HEAP = os.path.join(ROOT, "page", "heap.c")
TARGET = "wasm64-unknown-unknown"
EXPORT = "page_ecall"
# in bytes: the ends of a call and the parts of a set's value stand on it
STACK = "4194304"
# those with which the toolchain compiles for WebAssembly
FLAGS = """-O3 -mcpu=lime1 -ffunction-sections -fdata-sections --no-default-config -no-canonical-prefixes -Wno-override-module
    -mllvm -expand-div-rem-bits=64 -mllvm -expand-fp-convert-bits=64 -mllvm -trap-unreachable
    -mllvm -disable-machine-licm -mllvm -disable-postra-machine-licm -mllvm -sink-common-insts=false""".split()
HEAP_FLAGS = "-O2 -ffreestanding -nostdinc --no-default-config -Wall -Wextra -Werror".split()
# stands as `clang` in a copy of the toolchain's folder, and keeps the bitcode that it is given
KEEPS = """#!/bin/sh
if [ -f module.bc ]; then cp module.bc {kept}; fi
exec {clang} "$@"
"""
# what the bitcode has of x86-64 alone
OF_X86 = r' "(?:probe-stack|stack-probe-size|target-cpu|target-features|tune-cpu)"="[^"]*"'


class Failed(Exception):
    """A step failed: what was done, and what was said."""


def step(words, folder=ROOT):
    ran = subprocess.run(words, cwd=folder, stdout=subprocess.PIPE, stderr=subprocess.STDOUT, text=True)
    if ran.returncode:
        raise Failed(f"{' '.join(words)} failed:\n" + "\n".join(ran.stdout.splitlines()[-12:]))


def lacking(kit):
    """What of the toolchain's folder the build needs, and isn't there or can't do it."""
    clang = os.path.join(kit, "toolchain", "bin", "clang")
    files = [clang, *(os.path.join(kit, "bin", name) for name in ("rattle", "rattle-link"))]
    absent = [f"{path}, a part of the toolchain" for path in files if not os.access(path, os.X_OK)]
    if absent:
        return absent
    with tempfile.NamedTemporaryFile(suffix=".o") as made:
        words = [clang, f"--target={TARGET}", *HEAP_FLAGS, "-c", HEAP, "-o", made.name]
        ran = subprocess.run(words, stdout=subprocess.PIPE, stderr=subprocess.STDOUT, text=True)
    return [f"a toolchain whose clang compiles for {TARGET}: {ran.stdout.strip()[-200:]}"] if ran.returncode else []


def beneath(name, needs):
    """The crates of the repository on which this one stands, directly or not."""
    found = {}
    for other in needs[name]:
        if other in needs:
            found.update({**dict.fromkeys(beneath(other, needs)), other: None})
    return list(found)


def words_of(kit):
    """What `rattle build` is told of the crate: its libraries, and where those are found that they stand on."""
    needs = dependencies()
    library = lambda name: os.path.join(CRATES, name, "out", "rlib", f"{name}.rlib") if name in needs else f"{kit}/rlibs/{name}.rlib"
    words = ["--crate-name", "page_whole", "src/lib.rt", "--crate-type", "staticlib", "-L", f"dependency={kit}/rlibs"]
    for name in ["std", *needs["page_whole"]]:
        words += ["--extern", f"{name}={library(name)}"]
    for name in beneath("page_whole", needs):
        words += ["-L", f"dependency={os.path.dirname(library(name))}"]
    return [*words, "--antt-project", f"{kit}/rattle/logic/antt-project.json", "--logic-built", f"{kit}/logic_built",
            "--links", "page_whole=", "--incremental", "out/incremental"]


def listening(kit, folder):
    """A copy of the toolchain's folder whose clang keeps the bitcode that it is given as FOLDER/module.bc."""
    own, theirs = os.path.join(folder, "toolchain"), os.path.join(kit, "toolchain")
    os.makedirs(os.path.join(own, "bin"))
    os.symlink(os.path.join(theirs, "lib"), os.path.join(own, "lib"))
    for name in os.listdir(os.path.join(theirs, "bin")):
        if name != "clang":
            os.symlink(os.path.join(theirs, "bin", name), os.path.join(own, "bin", name))
    clang = os.path.join(own, "bin", "clang")
    with open(clang, "w", encoding="utf-8") as file:
        file.write(KEEPS.format(kept=os.path.join(folder, "module.bc"), clang=os.path.join(theirs, "bin", "clang")))
    os.chmod(clang, 0o755)
    return own


def for_wasm(text):
    """The text of the bitcode without what is of x86-64 alone, and with the name under which the module exports it."""
    text = re.sub(OF_X86, "", text)
    named = re.compile(rf"^(define [^\n]*@{EXPORT}\([^\n]*\)) (#\d+)", re.M)
    text, times = named.subn(rf'\1 \2 "wasm-export-name"="{EXPORT}"', text)
    if times != 1:
        raise Failed(f"the bitcode defines {EXPORT} {times} times, where once was expected")
    return text


def compiled(kit, folder):
    """Compiles the bitcode of FOLDER/module.bc and the heap, and answers the archive that has both."""
    clang = os.path.join(kit, "toolchain", "bin", "clang")
    at = lambda name: os.path.join(folder, name)
    to_wasm = [clang, f"--target={TARGET}"]
    step([*to_wasm, "-Wno-override-module", "-x", "ir", at("module.bc"), "-S", "-emit-llvm", "-o", at("x86.ll")])
    with open(at("x86.ll"), encoding="utf-8") as old, open(at("whole.ll"), "w", encoding="utf-8") as new:
        new.write(for_wasm(old.read()))
    step([*to_wasm, *FLAGS, "-c", "-x", "ir", at("whole.ll"), "-o", at("whole.o")])
    step([*to_wasm, *HEAP_FLAGS, "-c", HEAP, "-o", at("heap.o")])
    step([os.path.join(kit, "toolchain", "bin", "llvm-ar"), "rcs", at("whole.a"), at("whole.o"), at("heap.o")])
    return at("whole.a")


def build(kit, module):
    """Builds the module, from what `rt lib` proved and kept of the crate."""
    folder = tempfile.mkdtemp(prefix="ecall-whole-")
    try:
        own = listening(kit, folder)
        step([f"{kit}/bin/rattle", "build", *words_of(kit), "--cpu", "x86-64", "--backend", "llvm", "--toolchain", own,
              "-o", os.path.join(folder, "x86.a")], CRATE)
        if not os.path.exists(os.path.join(folder, "module.bc")):
            raise Failed("the toolchain handed no module.bc to its clang, so there is nothing to compile")
        step([f"{kit}/bin/rattle-link", "--target", TARGET, "--toolchain", f"{kit}/toolchain", "--stack", STACK, "-o", module,
              compiled(kit, folder)])
    finally:
        shutil.rmtree(folder)
