#!/usr/bin/env python3
"""The heap as an engine in C uses it, and the program as its user runs it.

- Each program of tests/ is built with sanitizers against the proved archive and run.
- The header by itself is valid C and C++, and names each refusal of its list and no other number; the archive has
  nothing that a call could write and another call read.
- examples/host.c, as C and as C++, prints what examples/host.txt says, with the header's version for @VERSION@, and leaks
  nothing of what it keeps beside its cells; where its release is left out LeakSanitizer reports that.
- examples/slow_line.c, as C and as C++, answers each line before the next bit of its input is sent, and in all as the
  program does, without the header; where it can't read or write it says so and fails.
- What examples/dump.c, as C and as C++, sends is audited as its two heaps are. Where the audit can't read or write it says so,
  and writes no wrong line; it runs in 64 KiB beyond the heap.
- `make install` into an empty folder gives a package of the header's version that the example builds with, by
  pkg-config alone; `make uninstall` leaves no file there.
- `make` lists every target. `make run` and `make audit` write what the programs write, and beside it one line for each
  crate; a crate that is not proved is shown with what the prover says, and fails.

The last line printed is 'N passed, M failed'.
"""
import errno
import os
import pathlib
import re
import resource
import shutil
import subprocess
import sys
import tempfile

TOP = pathlib.Path(__file__).resolve().parent.parent
sys.path.insert(0, str(TOP / "tests" / "independent"))
sys.dont_write_bytecode = True  # nothing is left in the source folders
import crates  # noqa: E402
import failing  # noqa: E402
import feeding  # noqa: E402
import known  # noqa: E402

ARCHIVE = TOP / "crates" / "heap_c" / "out" / "libheap_c.a"
PROGRAM = TOP / "crates" / "counter" / "out" / "counter"
AUDITOR = TOP / "crates" / "auditor" / "out" / "auditor"
EXAMPLE = TOP / "examples" / "host.c"
SLOW_LINE = TOP / "examples" / "slow_line.c"
DUMP = TOP / "examples" / "dump.c"
BASKET = TOP / "examples" / "basket.csv"
BOXES = TOP / "examples" / "boxes.csv"
INCLUDE = f"-I{TOP / 'include'}"
HEADER = (TOP / "include" / "vekszalir.h").read_text()
WARNINGS = ["-Wall", "-Wextra", "-Wpedantic", "-Werror"]
C, CXX = ["gcc", "-std=c11"], ["g++", "-std=c++17", "-x", "c++"]
CHECKED = {**os.environ, "ASAN_OPTIONS": "detect_leaks=1"}
RELEASES = ["        free(text[cell]);\n", "    release(a.freed);\n"]  # the lines by which examples/host.c gives memory back
OWN_STACK = {"stack"}  # it changes to a stack of its own, which AddressSanitizer does not follow

ALONE = '#include "vekszalir.h"\n'
NAMES = f"""{ALONE}#include <stdio.h>
int main(void)
{{
    for (unsigned number = 0; number <= UINT16_MAX; number++)
        puts(vek_refusal_name((uint16_t)number));
    return 0;
}}
"""
COLUMNS = "heap,cell,below,at,above,sum,lost,size"
DUMPED = [  # what examples/dump.c sends: a sound heap, and one with a count too low and a reference to a free cell
    *("1,0,0,1,0,0,0,0", "1,1,0,1,0,0,0,0", "1,2,0,1,0,0,0,0", "1,3,0,1,0,0,0,0", "1,,0,4,0,0,0,0"),
    *("2,0,0,1,0,0,0,0", "2,1,1,0,0,-1,0,0", "2,2,0,1,0,0,0,0", "2,3,1,0,0,-1,0,0", "2,,2,2,0,-2,0,0"),
    ",,2,6,0,-2,0,0",
]
AUTO = "#![tactic(auto)]\n\n"
GOOD = f"{AUTO}pub fn seven() -> usize {{\n    7\n}}\n"
EXPORTS = f'{AUTO}#[unsafe(no_mangle)]\npub extern "C" fn eight() -> usize {{\n    8\n}}\n'
BROKEN = f"{AUTO}ghost use Rattle.std.specs.Prelude.{{◌≡◌}};\n\npub fn eight() -> usize\n    ensures {{ result ≡ 8 }}\n{{\n    7\n}}\n"
MAIN = "\nfn main() {\n    eight();\n}\n"


def run(*command, **settings):
    return subprocess.run([str(word) for word in command], **{"capture_output": True, "text": True, **settings})


def make(*words, cwd=TOP, **settings):
    return run("make", "-s", *words, cwd=cwd, **settings)


def build(program, compiler, source, *flags):
    return run(*compiler, *WARNINGS, "-g", "-O1", "-o", program, source, "-x", "none", *flags)


def built_and_run(folder, compiler, source, *flags):
    """What a program prints, or what the compiler says, and whether all went well."""
    program = folder / "program"
    built = build(program, compiler, source, *flags)
    if built.returncode != 0:
        return built.stderr, False
    done = run(program, env=CHECKED)
    return done.stdout + done.stderr, done.returncode == 0


def c_tests(folder):
    for source in sorted((TOP / "tests").glob("*.c")):
        sanitizers = "undefined" if source.stem in OWN_STACK else "address,undefined"
        yield source.stem, *built_and_run(folder, C, source, f"-fsanitize={sanitizers}", ARCHIVE)


def version():
    return re.search(r'^#define VEK_VERSION "(.+)"$', HEADER, re.M)[1]


def refusals():
    """The name of each number in the header's list."""
    listed = re.search(r"/\* Why a call was refused\. \*/\n((?:#define .*\n)+)", HEADER)[1]
    return {int(number): name for name, number in re.findall(r"#define VEK_(\w+) (\d+)", listed)}


def header(folder):
    source = folder / "source.c"
    names = [refusals().get(number, "unknown") for number in range(1 << 16)]
    for language, compiler in (("C", C), ("C++", CXX)):
        source.write_text(ALONE)
        built = run(*compiler, *WARNINGS, INCLUDE, "-c", "-o", folder / "object", source)
        yield f"header alone in {language}", built.stderr, built.returncode == 0
        source.write_text(NAMES)
        said, well = built_and_run(folder, compiler, source, "-fsanitize=undefined", INCLUDE)
        wrong = [line for line, name in zip(said.splitlines(), names) if line != name]
        well = well and said.splitlines() == names
        yield f"names of refusals in {language}", "as listed" if well else " ".join(wrong), well


def stateless(_):
    """The archive has no section of data that can be written, or none with anything in it."""
    shown = run("objdump", "-h", ARCHIVE)
    sections = re.findall(r"^ +\d+ (\S+) +([0-9a-f]+) ", shown.stdout, re.M)
    kept = [name for name, size in sections if re.match(r"\.t?(data|bss)", name) and int(size, 16) > 0]
    yield "no state", " ".join([shown.stderr, *kept]), bool(sections) and not kept


def example(name, folder, compiler, *flags):
    expected = (TOP / "examples" / "host.txt").read_text().replace("@VERSION@", version())
    said, well = built_and_run(folder, compiler, EXAMPLE, *flags)
    return (name, "as expected", True) if well and said == expected else (name, said, False)


def examples(folder):
    lent = ["-fsanitize=address,undefined", INCLUDE, ARCHIVE]
    yield example("example in C", folder, C, *lent)
    yield example("example in C++", folder, CXX, *lent)


def leaks(folder):
    """The example without one of its releases: if that weren't reported, that the example leaks nothing would say nothing."""
    source, text = folder / "leaking.c", EXAMPLE.read_text()
    for line in RELEASES:
        before, after = text.split(line)
        source.write_text(before + after)
        said, _ = built_and_run(folder, C, source, "-Wno-unused-function", "-fsanitize=address,undefined", INCLUDE, ARCHIVE)
        reported = "LeakSanitizer: detected memory leaks" in said
        yield f"example without {line.strip()}", "reported" if reported else said, reported


def answers(data):
    """What the program answers to the lines of an input, without its header."""
    said = subprocess.run([PROGRAM], input=data, capture_output=True, check=True)
    return said.stdout.removeprefix(known.HEADER)


def conversations():
    """The basket and short inputs with ends of every kind, many lines in one bit and a long line, cut in every way, with the answers."""
    data = [BASKET.read_bytes(), BASKET.read_bytes()[:-1], 40 * b"6,0,0,0\r\n", 100 * b"1,0,1,0 " + b"\r\n6,0,0,0", *(ends for ends, _ in known.ENDS)]
    return [(pieces, answers(whole)) for i, whole in enumerate(data) for _, pieces in feeding.pieces_for(whole, i)]


def wrong_conversation(program):
    """What the example says to the first input that it doesn't answer as it should."""
    for pieces, expected in conversations():
        outcome = feeding.converse([program], pieces, feeding.due(pieces, expected, 0))
        if outcome != feeding.Outcome(0, expected):
            return f"{outcome}, not {expected[:200]!r}; bits {pieces[:80]!r}"
    return None


def failures(program):
    """How the example ends, and what it says, where it can't read or can't write."""
    with failing.opened("/", os.O_RDONLY) as folder:
        yield "read", failing.run([program], folder, subprocess.DEVNULL)
    with failing.opened("/dev/full", os.O_WRONLY) as full:
        for data in (BASKET.read_bytes(), b"6,0,0,0"):
            with failing.file_of(data) as lines:
                yield "write", failing.run([program], lines, full)


def slow_lines(folder):
    for language, compiler in (("C", C), ("C++", CXX)):
        program = folder / "slow_line"
        built = build(program, compiler, SLOW_LINE, "-fsanitize=address,undefined", INCLUDE, ARCHIVE)
        yield f"slow line in {language}", built.stderr, built.returncode == 0
        if built.returncode == 0:
            wrong = wrong_conversation(program)
            yield f"slow line in {language}, answers at once", wrong or "as the program", wrong is None
            told = [status == 1 and said.startswith(f"{what}: ".encode()) for what, (status, said) in failures(program)]
            yield f"slow line in {language}, failures", "told" if all(told) else str(told), all(told)
    with open(BASKET, "rb") as lines:
        made = make("slow-line", stdin=lines, text=False)
    yield "make slow-line", made.stderr.decode(), made.returncode == 0 and made.stdout == answers(BASKET.read_bytes())


def report(*lines):
    return "".join(f"{line}\r\n" for line in (COLUMNS, *lines)).encode()


def audited(data):
    return subprocess.run([AUDITOR], input=data, capture_output=True, check=True)


def dumps(folder):
    for language, compiler in (("C", C), ("C++", CXX)):
        program = folder / "dump"
        built = build(program, compiler, DUMP, "-fsanitize=address,undefined", INCLUDE, ARCHIVE)
        yield f"dump in {language}", built.stderr, built.returncode == 0
        if built.returncode == 0:
            sent = subprocess.run([program], capture_output=True, check=True)
            told = audited(sent.stdout).stdout
            yield f"dump in {language}, audited", told.decode(), told == report(*DUMPED) and not sent.stderr
    made = make("dump", text=False)
    yield "make dump", made.stderr.decode(), made.returncode == 0 and audited(made.stdout).stdout == report(*DUMPED)


def little_room(_):
    """The audit of the largest heap, ten times over, with a stack for it and 64 KiB; there is no other memory that the program asks for."""
    tables = (1024, 1024, 1024, 8192, 64, 1024, 2)
    heap = "".join(",".join(["1"] * size) + "\r\n" for size in tables).encode()
    most = 2 * sum(tables) + 65536
    limited = {"env": {}, "preexec_fn": lambda: resource.setrlimit(resource.RLIMIT_STACK, (most, most))}
    done = subprocess.run([AUDITOR], input=10 * heap, capture_output=True, **limited)
    well = (done.returncode, done.stdout.count(b"\r\n"), done.stderr) == (0, 1 + 10 * 1025 + 1, b"")
    yield "audit in 64 KiB beyond the heap", "done" if well else f"{done.returncode} {done.stderr!r}", well


def cut_short(folder, source, most):
    """What the audit writes where its output takes so many bytes, and what it says."""
    target = folder / "report.csv"
    with open(target, "wb") as file:
        limit = lambda: resource.setrlimit(resource.RLIMIT_FSIZE, (most, most))
        _, said = failing.run([AUDITOR], source, file, restore_signals=False, preexec_fn=limit)
    return target.read_bytes(), said


def audit_failures(folder):
    """A failed read ends the run after the lines of the heaps before it, a failed write where it fails: no totals follow."""
    data = BOXES.read_bytes()
    whole = audited(data).stdout
    lines = whole[: whole.rindex(b",,")]
    with failing.reset_after(data) as source:
        outcome = failing.reading([AUDITOR], source)
    well = outcome == failing.told(errno.ECONNRESET, lines)
    yield "audit, input fails", str(outcome) if not well else "told", well
    for most in (0, 20, 40, 60, len(lines), len(whole) - 1):
        with failing.file_of(data) as source:
            written, said = cut_short(folder, source, most)
        well = written == whole[:most] and said == failing.told(errno.EFBIG, b"").errors
        yield f"audit, output takes {most} bytes", "told" if well else f"{written!r} {said!r}", well


def installed(folder):
    prefix = folder / "prefix"
    made = make("install", f"PREFIX={prefix}")
    package = {"env": {**os.environ, "PKG_CONFIG_PATH": f"{prefix}/lib/pkgconfig"}}
    words = run("pkg-config", "--cflags", "--libs", "vekszalir", **package)
    yield "make install", made.stderr + words.stderr, made.returncode == 0 and words.returncode == 0
    packed = run("pkg-config", "--modversion", "vekszalir", **package).stdout.strip()
    yield "version of the package", packed, packed == version()
    yield example("example by pkg-config", folder, C, *words.stdout.split())
    gone = make("uninstall", f"PREFIX={prefix}")
    left = [str(path) for path in prefix.rglob("*") if path.is_file()]
    yield "make uninstall", " ".join([gone.stderr, *left]), gone.returncode == 0 and not left


def targets(_):
    phony = re.search(r"^\.PHONY: (.+)$", (TOP / "Makefile").read_text(), re.M)[1].split()
    listed = make("help").stdout
    well = [line.split()[:2] for line in listed.splitlines()] == [["make", target] for target in phony]
    yield "make help", "every target" if well else listed, well
    alone = make().stdout
    yield "make alone", "the same" if alone == listed else alone, alone == listed


def outcomes(wanted, said):
    """What the line of each crate says, if the lines have the form that they should, and there are no others."""
    total = len(wanted)
    lines = [re.fullmatch(r"(\[ *\d+/\d+\]) (\w+), (\d+ s|proved before)", line) for line in said.splitlines()]
    places = [f"[{place:{len(str(total))}}/{total}]" for place in range(1, total + 1)]
    if not all(lines) or [line[1] for line in lines] != places or {line[2] for line in lines} != set(wanted):
        return None
    return {line[2]: line[3] for line in lines}


def programs(_):
    """Where crates.txt counts as changed, rt is asked for each crate anew, and finds it proved."""
    for target, crate in (("run", "counter"), ("audit", "auditor")):
        place = TOP / "crates" / crate
        make(target, stdin=subprocess.DEVNULL)
        for name, words, wanted in ((f"make {target}", ["-W", "crates.txt"], crates.needed(crate)), (f"make {target} again", [], [])):
            with open(place / "stdin", "rb") as lines:
                done = make(target, *words, stdin=lines, text=False)
            said = done.stderr.decode()
            told = outcomes(wanted, said)
            well = told is not None and set(told.values()) <= {"proved before"}
            yield name, said or "silent", well and done.returncode == 0 and done.stdout == (place / "stdout").read_bytes()


def repository(folder, crate, text):
    """A copy of what `make` needs, with two crates: a good one, and above it one of a name that `make` asks for."""
    folder.mkdir()
    for part in ("Makefile", "include", "tools"):
        copy = shutil.copytree if (TOP / part).is_dir() else shutil.copy
        copy(TOP / part, folder / part)
    program = text.endswith(MAIN)
    (folder / "crates.txt").write_text(f"# Two crates.\ngood:\n{crate}{'' if program else ' staticlib'}: good itoa # and a library of the kit\n")
    for name, root, source in (("good", "lib.rt", GOOD), (crate, "main.rt" if program else "lib.rt", text)):
        (folder / "crates" / name / "src").mkdir(parents=True)
        (folder / "crates" / name / "src" / root).write_text(source)
    return folder


def refused(folder, crate, target, file, text):
    """Whether `make` fails to build a crate that is not proved, after the line of the good one, and shows where it is wrong."""
    done = make(target, cwd=repository(folder, crate, text), stdin=subprocess.DEVNULL)
    root = "main" if text.endswith(MAIN) else "lib"
    shown = rf"\[1/2\] good, (\d+ s|proved before)\n.*src/{root}\.rt:5:.*fn {crate}::eight: no proof.*\n\[2/2\] {crate}, not proved\n.*: {file}\] "
    well = bool(re.match(shown, done.stderr, re.S)) and not done.stdout and done.returncode != 0
    return f"make {target}, not proved", "refused" if well else done.stdout + done.stderr, well


def small(folder):
    """In a repository of two small crates, which are proved, or not, in seconds."""
    archive, program = ARCHIVE.relative_to(TOP), PROGRAM.relative_to(TOP)
    done = make(archive, cwd=repository(folder / "good", "heap_c", EXPORTS))
    well = outcomes(["good", "heap_c"], done.stderr) is not None and not done.stdout and done.returncode == 0
    yield "archive of two crates", done.stdout + done.stderr, well
    yield refused(folder / "archive", "heap_c", archive, archive, BROKEN)
    yield refused(folder / "program", "counter", "run", program, BROKEN + MAIN)


def main():
    # `rt ci` leaves programs of which `rt run` doesn't know that they are proved: it is asked for each, whatever is there.
    subprocess.run(["make", "-W", "crates.txt", *(path.relative_to(TOP) for path in (ARCHIVE, PROGRAM, AUDITOR))], cwd=TOP, check=True)
    passed = failed = 0
    for tests in (c_tests, header, stateless, examples, leaks, slow_lines, dumps, audit_failures, little_room, installed, targets, programs, small):
        with tempfile.TemporaryDirectory() as folder:
            for name, said, well in tests(pathlib.Path(folder)):
                passed, failed = passed + well, failed + (not well)
                print(f"{name}: {said.strip() or 'done'}{'' if well else ' FAILED'}", flush=True)
    print(f"{passed} passed, {failed} failed")
    return 1 if failed else 0


if __name__ == "__main__":
    sys.exit(main())
