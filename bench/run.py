#!/usr/bin/env python3
"""run.py PROGRAM [BEFORE]: how many sets of data `PROGRAM decode` reads and describes a second, in 4 MB of address space; how much
processor time that takes beside decoders that asn1c generates from format2.asn1 and format1.asn1; what each command takes beside the
plain program, beside that with the libraries' digits and numbers, and beside BEFORE, another build of the program; what decoding alone
and encoding alone take; with how many calls the text is written; and what `PROGRAM floor` takes beside `PROGRAM run` over each vehicle's
part. Parts that need a tool that isn't there are skipped in a line."""
import glob
import itertools
import os
import re
import resource
import shutil
import subprocess
import sys
import tempfile

HERE = os.path.dirname(os.path.abspath(__file__))
PLAIN = os.path.join(HERE, "..", "..", "shared", "plain")
CRATES = os.path.join(HERE, "..", "crates")
COUNTS = (1_000, 120_000)
MOST = COUNTS[-1]
ROUNDS = 15
# over all commands
TURNS = 61
SAMPLES = 20
ADDRESS_SPACE = 4 * 2**20
MOST_OCTETS = 140
# the crates that encoder.txt stands on, each with those that it stands on in turn
BELOW = {"call_io": "thiserror", "per_bits": "", "per_types": "per_bits", "msd_values": "per_bits call_io arrayvec hex itoa jiff_core"}
BELOW |= {"msd_codec": "per_bits per_types msd_values arrayvec", "encoder": "per_bits msd_values msd_codec call_io arrayvec"}
# those that modem.txt stands on
MODEM_BELOW = {"per_bits": "", "link_frames": "arrayvec", "tone_link": "per_bits link_frames arrayvec thiserror", "modem": "link_frames tone_link arrayvec"}
FRAMES = 20_000
# the kinds of scripts whose frames the modem carries, each with how many it is measured with, and how many octets go through for one
TONED = {"calls": (20_000, 3), "one": (20_000, 72.5)}
FRAME_OCTETS = 143
ENCODINGS = 50_000
WRITES = 50_000
# the kinds of scripts.py, each with how many it is measured with, and then with twice as many
SCRIPTS = {"mixed": 2_000, "calls": 20_000, "flows": 1_000, "one": 200_000, "old": 100_000, "asks": 5_000, "legs": 5_000, "apart": 1_000, "crowd": 1_000, "first": 1_000, "fall": 2_000, "callbacks": 150_000}
# the kinds of those with a relay desk, each with how many it is measured with, and then with twice as many
DESKS = {"desk": (50_000, 100_000), "shown": (100_000,)}
# the commands that are measured beside other programs, each with what makes its input (none: the trace of a script, or nothing), a kind
# of it, and how much of it is measured, and then twice as much, which has to stay below the greatest input
COMMANDS = [
    *((["run"], "scripts.py", [kind], count) for kind, count in SCRIPTS.items()),
    (["register"], "scripts.py", ["mixed"], 2_000),
    (["replay"], None, ["mixed"], 1_650),
    (["replay"], "traces.py", ["again"], 20_000),
    (["replay"], "traces.py", ["up"], 100_000),
    (["frames"], "stream.py", [], 20_000),
    (["frames"], "stream.py", ["short"], 300_000),
    (["decode"], "sets.py", ["known"], MOST // 2),
    (["decode"], "sets.py", [], MOST // 2),
    (["encode"], "facts.py", [], WRITES),
    (["make", "0"], None, [], None),
    (["trial", "0"], None, [], None),
]
# what of the plain program's files gives way to digits.rs, and what of them reads a decimal number to std's `parse`
LIBRARY_DIGITS = [
    ("main.rs", r"(?m)^mod hex;", "mod digits;\nmod hex;"),
    ("hex.rs", r"    let mut seen = 0;\n.*?(?=    Ok\(&into\[\.\.n\]\))", "    if !crate::digits::decode_to_slice(word, &mut into[..n]) {\n        return Err(Reason::Hex);\n    }\n"),
    ("hex.rs", r"word\.iter\(\)\.try_fold\(0u64.*?\n        }\),", "std::str::from_utf8(word).ok()?.parse().ok(),"),
    ("io.rs", r"        for \(digits, octet\) in .*?\n        }\n", "        crate::digits::encode_to_slice(octets, &mut self.text[start..]);\n"),
]
# vehicles on the floor that is measured, and the calls of each, which are doubled then
FLOOR = (64, 200)


class Skipped(Exception):
    """A part of the measuring that can't be done here, with the reason."""


def need(*tools):
    for tool in tools:
        if shutil.which(tool) is None:
            raise Skipped(f"{tool} is not installed")


def confine():
    """What the program has of memory, code and the C library included, however many sets it reads."""
    resource.setrlimit(resource.RLIMIT_AS, (ADDRESS_SPACE, ADDRESS_SPACE))


def spent(command, path, preexec_fn=None):
    """The processor time of a command over a file in seconds, its own and the system's for it; its text is thrown away."""
    with open(path, "rb") as sets:
        child = subprocess.Popen(command, stdin=sets, stdout=subprocess.DEVNULL, stderr=subprocess.DEVNULL, preexec_fn=preexec_fn)
        _, status, used = os.wait4(child.pid, 0)
        child.returncode = os.waitstatus_to_exitcode(status)
    if child.returncode:
        raise OSError(f"`{' '.join(command)}` ended with status {child.returncode}")
    return used.ru_utime + used.ru_stime


def least_of(runs, rounds, preexec_fn=None):
    """The least processor time of each of these commands over its file in some rounds, which go over all of them in turn. Each round has
    copies of the programs of its own: one copy may take half as long again as another, in each round the same, likely by where the
    system laid its pages."""
    times = []
    for _ in range(rounds):
        with tempfile.TemporaryDirectory() as folder:
            programs = {program for (program, *_), _ in runs}
            copies = {program: shutil.copy(program, os.path.join(folder, str(place))) for place, program in enumerate(programs)}
            times.append([spent([copies[program], *words], path, preexec_fn) for (program, *words), path in runs])
    return [min(taken) for taken in zip(*times)]


def least(commands, path, preexec_fn=None):
    """The same, all over one file."""
    return least_of([(command, path) for command in commands], ROUNDS, preexec_fn)


def write_sets(folder, count, *words):
    path = os.path.join(folder, "-".join([str(count), *words]) + ".hex")
    with open(path, "wb") as sets:
        subprocess.run([sys.executable, os.path.join(HERE, "sets.py"), str(count), *words], stdout=sets, check=True)
    return path


def rates(program, folder):
    print(f"{'sets':>8} {'input':>10} {'seconds':>9} {'sets/s':>10} {'MB/s in':>8}")
    for count in COUNTS:
        path = write_sets(folder, count)
        [seconds] = least([[program, "decode"]], path, confine)
        size = os.path.getsize(path)
        print(f"{count:>8} {size:>10} {seconds:>9.3f} {count / seconds:>10.0f} {size / seconds / 1e6:>8.1f}")


def plain_program(folder, source=PLAIN):
    """Builds the plain program, outside this repository and outside its own folder."""
    if not os.path.isdir(source):
        raise Skipped("its folder is not here")
    need("cargo")
    build = ["cargo", "build", "--release", "--quiet", "--target-dir", folder]
    if subprocess.run(build, cwd=source, capture_output=True).returncode:
        raise Skipped("it does not build")
    [built] = [path for path in glob.glob(os.path.join(folder, "release", "*")) if os.path.isfile(path) and os.access(path, os.X_OK)]
    return built


def with_library_digits(folder):
    """Builds the plain program with the digits of the library `hex` and the numbers of std in the place of its own (LIBRARY_DIGITS)."""
    source = os.path.join(folder, "source")
    if not os.path.isdir(PLAIN):
        raise Skipped("its folder is not here")
    shutil.copytree(PLAIN, source, ignore=shutil.ignore_patterns("target"))
    shutil.copy(os.path.join(HERE, "digits.rs"), os.path.join(source, "src"))
    for name, pattern, other in LIBRARY_DIGITS:
        path = os.path.join(source, "src", name)
        with open(path) as file:
            text, changes = re.subn(pattern, other, file.read(), flags=re.DOTALL)
        if changes != 1:
            raise Skipped(f"its {name} has another form than the one that is known")
        with open(path, "w") as file:
            file.write(text)
    return plain_program(os.path.join(folder, "built"), source)


def generated_codec(folder, module="format2"):
    """Builds generated.c with what asn1c generates from the module of a format."""
    need("asn1c", "cc")
    os.mkdir(folder)
    make = ["asn1c", "-gen-PER", "-fcompound-names", "-pdu=ECallMessage", os.path.join(HERE, f"{module}.asn1")]
    if subprocess.run(make, cwd=folder, capture_output=True).returncode:
        raise Skipped("asn1c refuses the module")
    os.remove(os.path.join(folder, "converter-sample.c"))
    built = os.path.join(folder, "generated")
    sources = [os.path.join(HERE, "generated.c"), *glob.glob(os.path.join(folder, "*.c"))]
    if subprocess.run(["cc", "-O2", f"-D{module.upper()}", f"-I{folder}", "-o", built, *sources, "-lm"], capture_output=True).returncode:
        raise Skipped("what asn1c generates does not compile")
    return built


def proved(folder, name, below):
    """Proves and builds a program of this folder over copies of the crates, in a folder of its own."""
    need("rt")
    crate = os.path.join(folder, "crates", name)
    os.makedirs(os.path.join(crate, "src"))
    shutil.copy(os.path.join(HERE, f"{name}.txt"), os.path.join(crate, "src", "main.rt"))
    for other in below.keys() - {name}:
        shutil.copytree(os.path.join(CRATES, other), os.path.join(folder, "crates", other))
    with open(os.path.join(folder, "crates.txt"), "w") as crates:
        crates.writelines(f"{other}: {under}\n" for other, under in below.items())
    if subprocess.run(["rt", "run", "--", "0"], cwd=crate, stdin=subprocess.DEVNULL, capture_output=True).returncode:
        raise Skipped("it is not proved or doesn't build")
    return os.path.join(crate, "out", name)


def plain_modem(built):
    """Builds modem.rs, the modem as a plain loop."""
    need("rustc")
    if subprocess.run(["rustc", "-O", "-o", built, os.path.join(HERE, "modem.rs")], capture_output=True).returncode:
        raise Skipped("it does not build")
    return built


def attempt(what, build, folder):
    try:
        return build(folder)
    except Skipped as reason:
        print(f"{what}: skipped, {reason}")
        return None


def beside(program, plain, generated, path, what):
    """The processor time of whole commands that read the same lines, each with its ratio to the program's."""
    commands = {"ecall decode": [program, "decode"]}
    if plain:
        commands["plain program, the same text"] = [plain, "decode"]
    if generated:
        commands["generated decoder, the same text"] = [generated, "text"]
        commands["generated decoder, its own text"] = [generated, "own"]
    text = [subprocess.run(command, stdin=open(path, "rb"), capture_output=True).stdout for command in commands.values()]
    same = text[: len(commands) - 1] if generated else text
    if any(other != text[0] for other in same):
        raise OSError("the texts differ")
    times = least(list(commands.values()), path)
    print(f"\n{MOST} known sets of {what}, the whole command: its text is {len(text[0])} bytes")
    for name, seconds, written in zip(commands, times, text):
        more = "" if written == text[0] else f", {len(written)} bytes"
        print(f"  {name:<34} {seconds:7.3f} s  {times[0] / seconds:5.2f}{more}")
    print("  (processor time; last, the time of `ecall decode` over this one)")


def written(folder, maker, *words):
    """The file with what a script of this folder writes for these words."""
    path = os.path.join(folder, "-".join([maker, *words]))
    with open(path, "wb") as file:
        subprocess.run([sys.executable, os.path.join(HERE, maker), *words], stdout=file, check=True)
    return path


def write_script(folder, kind, count):
    return written(folder, "scripts.py", kind, str(count))


def same_text(commands, path):
    """The bytes of the text of these commands, which all write alike."""
    text = [subprocess.run(command, stdin=open(path, "rb"), capture_output=True).stdout for command in commands]
    if any(other != text[0] for other in text):
        raise OSError(f"the texts of `{' '.join(commands[0][1:])}` over {os.path.basename(path)} differ")
    return len(text[0])


def inputs(program, folder, maker, kind, count):
    """The file that a command reads: what a script of this folder writes, or the trace of a script, or nothing."""
    if maker == "sets.py":
        return write_sets(folder, count, *kind)
    if maker:
        return written(folder, maker, *kind, str(count))
    path = os.path.join(folder, "-".join(["trace", *kind, str(count)]))
    script = write_script(folder, kind[0], count) if kind else os.devnull
    with open(script, "rb") as reads, open(path, "wb") as trace:
        subprocess.run([program, "run"], stdin=reads, stdout=trace, check=True)
    return path


def in_turn(programs, folder):
    """The processor time of each command, of each of these programs, and of twice as much. Each round goes over all commands, so that a
    minute in which the host is busy slows a few rounds, and not a row."""
    others = [name for name in programs if name != "ecall"]
    heads = [*(f"{name:>8}" for name in programs), *(f"{'/ ' + name:>9}" for name in others), *(f"{'2 ' + name:>9}" for name in programs)]
    rows, runs = [], []
    for words, maker, kind, count in COMMANDS:
        paths = [inputs(programs["ecall"], folder, maker, kind, n) for n in ([count, 2 * count] if count else [None])]
        commands = [[program, *words] for program in programs.values()]
        rows.append((f"{' '.join(words):>8} {(kind or ['-'])[0]:>9} {count or '-':>7} {same_text(commands, paths[0]):>9}", len(paths)))
        runs += [(command, path) for path in paths for command in commands]
    print("\nCommands: processor time; what that of `ecall` is of each other's; then how many times as long twice as much takes, of each")
    print(f"{'command':>8} {'input':>9} {'count':>7} {'text':>9} {' '.join(heads)}")
    times = iter(least_of(runs, TURNS))
    for row, inputs_of_it in rows:
        once, *twice = [list(itertools.islice(times, len(programs))) for _ in range(inputs_of_it)]
        cells = [f"{seconds:8.4f}" for seconds in once] + [f"{once[0] / seconds:9.2f}" for seconds in once[1:]]
        cells += [f"{more / less:9.2f}" for doubled in twice for less, more in zip(once, doubled)]
        print(row, *cells)


def frames_alone(modem, folder):
    """The processor time for a frame that is written as samples and read back, beside that of the plain loop."""
    ours = proved(folder, "modem", MODEM_BELOW)
    none, some = least([[ours, "0"], [ours, str(FRAMES)]], os.devnull)
    [plain] = least([[modem, str(FRAMES)]], os.devnull)
    print(f"\nA frame of {FRAME_OCTETS} octets as samples and back, processor time for one")
    print(f"  {'rewrite_tones and tone_read':<34} {(some - none) / FRAMES * 1e6:8.2f} us")
    print(f"  {'the plain loop':<34} {plain / FRAMES * 1e6:8.2f} us  {(some - none) / plain:5.2f}")


def tones(program, modem, folder):
    """The processor time of `tones` beside that of `run` and that of the plain loop over as many samples, and that of twice as much."""
    print("\nScripts over the modem: processor time of `ecall run`, of the plain loop over as many samples, and of `ecall tones 500 1`;")
    print("`tones` over both together; and twice as much")
    print(f"{'kind':>10} {'count':>8} {'run':>8} {'samples':>8} {'tones':>8} {'ratio':>6} {'doubled':>8} {'ratio':>6}")
    words = [program, "tones", "500", "1"]
    for kind, (count, octets) in TONED.items():
        path, double = write_script(folder, kind, count), write_script(folder, kind, 2 * count)
        same_text([[program, "run"], words], path)
        [samples] = least([[modem, str(round(count * octets / FRAME_OCTETS)), "500", "1"]], os.devnull)
        run, toned = least([[program, "run"], words], path)
        [twice] = least([words], double)
        print(f"{kind:>10} {count:>8} {run:8.3f} {samples:8.3f} {toned:8.3f} {toned / (run + samples):6.2f} {twice:8.3f} {twice / toned:6.2f}")


def relays(program, folder):
    """The processor time of `relay` with many desk requests pending, and that of twice as many."""
    print("\nScripts with a relay desk: processor time of `ecall relay`, and of twice as much")
    print(f"{'kind':>10} {'count':>8} {'relay':>8} {'doubled':>8} {'ratio':>6}")
    for kind, count in ((kind, count) for kind, counts in DESKS.items() for count in counts):
        [once], [twice] = (least([[program, "relay"]], write_script(folder, kind, n)) for n in (count, 2 * count))
        print(f"{kind:>10} {count:>8} {once:8.3f} {twice:8.3f} {twice / once:6.2f}")


def floor_script(folder, vehicles, calls, *vehicle):
    return written(folder, "floors.py", *map(str, (vehicles, calls, *vehicle)))


def same_parts(program, whole, parts, folder):
    """That each vehicle's part of the floor's trace is the trace that `run` writes for its part of the script."""
    split = os.path.join(folder, "parts")
    os.makedirs(split, exist_ok=True)
    with open(whole, "rb") as script:
        trace = subprocess.run([program, "floor"], stdin=script, capture_output=True, check=True).stdout
    subprocess.run([sys.executable, os.path.join(HERE, "..", "examples", "split-floor"), split], input=trace, check=True)
    for vehicle, path in enumerate(parts, 1):
        with open(path, "rb") as script, open(os.path.join(split, f"{vehicle}.trace"), "rb") as part:
            if subprocess.run([program, "run"], stdin=script, capture_output=True, check=True).stdout != part.read():
                raise OSError(f"the part of vehicle {vehicle} is not what `run` writes")


def floors(program, folder):
    """The processor time of `floor`, beside the sum of `run` over the part of each vehicle, and that of twice the calls."""
    vehicles, calls = FLOOR
    whole = floor_script(folder, vehicles, calls)
    parts = [floor_script(folder, vehicles, calls, vehicle) for vehicle in range(1, vehicles + 1)]
    same_parts(program, whole, parts, folder)
    [once] = least([[program, "floor"]], whole)
    alone = sum(least([[program, "run"]], path)[0] for path in parts)
    [twice] = least([[program, "floor"]], floor_script(folder, vehicles, 2 * calls))
    print(f"\n{vehicles} vehicles with {calls} calls each, whose traces are the same apart and on the floor:")
    print(f"  `floor` {once:.3f} s, `run` over each vehicle's part {alone:.3f} s together, ratio {once / alone:.2f}")
    print(f"  twice the calls {twice:.3f} s, ratio {twice / once:.2f}")


def instructions(command, text):
    """How many instructions a command needs for this input."""
    run = ["valgrind", "--tool=cachegrind", "--cache-sim=no", "--cachegrind-out-file=/dev/null", *command]
    said = subprocess.run(run, input=text, capture_output=True).stderr.decode()
    count = re.search(r"refs:\s+([\d,]+)", said)
    if count is None:
        raise Skipped("valgrind counts no instructions here")
    return int(count.group(1).replace(",", ""))


def decoding(program, sets):
    """The program's instructions for decoding one of these sets: those for a set that is refused for the octet 1 behind it, after
    all else was read, less those for one that is refused at its first octet."""
    ours = [program, "decode"]
    return sum(instructions(ours, f"{it}01\n".encode()) - instructions(ours, f"03{it[2:]}01\n".encode()) for it in sets) / len(sets)


def samples(path):
    """Some sets, each with room for an octet more."""
    with open(path) as lines:
        sets = [line.strip() for line, _ in zip(lines, range(SAMPLES))]
    sets = [digits for digits in sets if len(digits) < 2 * MOST_OCTETS]
    return sets, "".join(f"{digits}\n" for digits in sets).encode()


def rounds_of(command, text, sets):
    """The instructions of a command for a set in a round, which its last word counts."""
    few, many = (instructions([*command, str(rounds)], text) for rounds in (1, 11))
    return (many - few) / 10 / len(sets)


def alone(program, generated, path):
    """Decoding without text, of both."""
    need("valgrind")
    sets, text = samples(path)
    ours = decoding(program, sets)
    whole = (instructions([program, "decode"], text) - instructions([program, "decode"], b"")) / len(sets)
    print(f"\nDecoding alone, instructions for a set, over {len(sets)} known sets")
    print(f"  {'ecall decode':<34} {ours:8.0f}    of {whole:.0f} for a line with its text")
    if generated:
        theirs = rounds_of([generated, "decode"], text, sets)
        print(f"  {'generated decoder':<34} {theirs:8.0f}    {theirs / ours:.1f} times as many")


def encoding(generated, path, folder):
    """Encoding alone, of both, over the same sets: instructions, and processor time less that of a run without rounds."""
    need("valgrind")
    program = proved(folder, "encoder", BELOW)
    sets, text = samples(path)
    octets = [bytes.fromhex(digits) for digits in sets]
    places = b"".join((bytes([len(it)]) + it).ljust(1 + MOST_OCTETS, b"\0") for it in octets)
    if subprocess.run([program, "1"], input=places).returncode:
        raise OSError("a set is not written as it was read")
    files = {name: os.path.join(folder, name) for name in ("places", "lines")}
    for name, data in (("places", places), ("lines", text)):
        with open(files[name], "wb") as file:
            file.write(data)
    print(f"\nEncoding alone, for a set, over {len(sets)} known sets")
    counts, times = [], []
    for what, command, file in (("encode", [program], "places"), ("generated encoder", [generated, "encode"], "lines")):
        if not command[0]:
            continue
        counts.append(rounds_of(command, places if file == "places" else text, sets))
        none, all_rounds = least([[*command, "0"], [*command, str(ENCODINGS)]], files[file])
        times.append((all_rounds - none) / ENCODINGS / len(sets) * 1e9)
        more = f"    {counts[-1] / counts[0]:.1f} times as many, {times[-1] / times[0]:.1f} times as long" if len(counts) > 1 else ""
        print(f"  {what:<34} {counts[-1]:8.0f} instructions {times[-1]:8.0f} ns{more}")


def in_memory(generated, path):
    """The generated decoder and encoder alone, by the clock: all sets held in memory, ten times over."""
    print(f"\n{MOST} known sets held in memory, processor time for a set")
    for what in ("decode", "encode"):
        took = []
        for _ in range(3):
            with open(path, "rb") as sets:
                said = subprocess.run([generated, what, "10"], stdin=sets, capture_output=True, check=True).stdout
            took.append(float(said.split()[0]))
        print(f"  {f'generated {what}r':<34} {min(took) / 10 / MOST * 1e9:8.0f} ns")


def writes(program, path):
    need("strace")
    with tempfile.NamedTemporaryFile("r") as told:
        trace = ["strace", "-c", "-e", "trace=write", "-o", told.name, program, "decode"]
        with open(path, "rb") as sets:
            subprocess.run(trace, stdin=sets, stdout=subprocess.DEVNULL, stderr=subprocess.DEVNULL)
        # the columns are: share, seconds, microseconds for a call, calls, errors where there are some, name
        rows = [row.split() for row in told.read().splitlines() if row.endswith(" write")]
    if not rows:
        raise Skipped("strace counts no calls here")
    print(f"\nCalls of `write` for {MOST} known sets: {rows[0][3]}")


def main(program, before=None):
    with tempfile.TemporaryDirectory() as folder:
        rates(program, folder)
        known = write_sets(folder, MOST, "known")
        plain = attempt("plain program", plain_program, os.path.join(folder, "plain"))
        generated = attempt("generated codec", generated_codec, os.path.join(folder, "generated"))
        beside(program, plain, generated, known, "format 2")
        older = attempt("generated codec of format 1", lambda here: generated_codec(here, "format1"), os.path.join(folder, "older"))
        # (the plain program knows format 2 alone)
        beside(program, None, older, write_sets(folder, MOST, "known", "format1"), "format 1")
        library = attempt("plain program with the library's digits", with_library_digits, os.path.join(folder, "library"))
        programs = {"ecall": program, "before": before, "plain": plain, "library": library}
        in_turn({name: which for name, which in programs.items() if which}, folder)
        relays(program, folder)
        modem = attempt("the modem as a plain loop", plain_modem, os.path.join(folder, "plain_modem"))
        if modem:
            attempt("a frame as samples", lambda here: frames_alone(modem, here), os.path.join(folder, "modem"))
            tones(program, modem, folder)
        floors(program, folder)
        attempt("decoding alone", lambda _: alone(program, generated, known), folder)
        attempt("encoding alone", lambda here: encoding(generated, known, here), os.path.join(folder, "encoder"))
        attempt("calls of write", lambda _: writes(program, known), folder)
        if generated:
            in_memory(generated, known)


if __name__ == "__main__":
    if len(sys.argv) not in (2, 3):
        sys.exit(__doc__)
    try:
        main(*map(os.path.abspath, sys.argv[1:]))
    except OSError as reason:
        sys.exit(f"{reason}: run it on the output of bench/sets.py to see why")
