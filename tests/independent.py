#!/usr/bin/env python3
"""Compares the heap, its batches, its reading of lines, its audit and the two programs under test with an independent implementation of
document 01 and of Q-1 to Q-7 and Q-10 in document 02, and shows by wrong edits of the independent one that each of them is seen: by the
comparison; by the independent heap itself, which stops where it meets a count at zero; or, where calls refuse the tables that would show
it, by a suite that runs the independent heap alone.

The last line printed is 'N passed, M failed'.
"""
import concurrent.futures
import pathlib
import subprocess
import sys
import tempfile

TOP = pathlib.Path(__file__).resolve().parent.parent
HERE = TOP / "tests" / "independent"
ARCHIVE = TOP / "crates" / "heap_c" / "out" / "libheap_c.a"
PROGRAM = TOP / "crates" / "counter" / "out" / "counter"
AUDITOR = TOP / "crates" / "auditor" / "out" / "auditor"
sys.path.insert(0, str(HERE))
sys.dont_write_bytecode = True  # nothing is left in the source folders
import auditors  # noqa: E402
import edits  # noqa: E402
import failing  # noqa: E402
import feeding  # noqa: E402
import inputs  # noqa: E402
import known  # noqa: E402

SEEDS = (1, 2, 3, 4)
INPUT_SEED = 1
CONVERSATIONS = 5  # every fifth input is sent by a writer that waits for answers
SECONDS = 60  # for one comparison; an edit that makes it hang is not caught
PATIENCE = 600  # for one with sanitizers, which takes a minute of a processor's time, however busy the machine is
GCC = ["gcc", "-std=c11", "-O1", "-I", HERE]
STRICT = ["-Wall", "-Wextra", "-Werror", "-g", "-fsanitize=address,undefined"]
LENIENT = ["-w"]  # a wrong edit may leave something unused
# The sources of the independent programs. The driver has all others, and those of the programs that it shares with them.
PROGRAM_PARTS = ["program.c", "input.c", "heap.c", "cell.c", "fit.c", "sound.c", "refusal.c", "count.c", "collect.c", "lines.c", "split.c"]
AUDITOR_PARTS = ["auditor.c", "input.c", "audit.c", "possible.c", "fit.c", "split.c", "tables.c"]
NOT_DRIVERS = {"program.c", "auditor.c", "input.c"}
# The words by which the driver compares a part alone, for edits of a source that no other part asks.
ALONE = {"audit.c": "audits", "possible.c": "audits", "batch.c": "batches"}


def all_sources():
    return sorted(HERE.glob("*.c"))


def driver_parts():
    return [source.name for source in all_sources() if source.name not in NOT_DRIVERS]


def sources(parts):
    return [HERE / name for name in parts]


def build(target, sources, flags, libraries=()):
    subprocess.run([*GCC, *flags, "-o", target, *sources, *libraries], check=True)
    return target


def build_objects(folder, sources):
    """Objects of what an edit leaves as it is, by the name of the source."""
    objects = {source.name: folder / f"{source.stem}.o" for source in sources}
    for source in sources:
        build(objects[source.name], [source], [*LENIENT, "-c"])
    return objects


def run_driver(compare, seed, *words, seconds=SECONDS):
    """The exit status, or None for a comparison that hangs, and what it prints."""
    try:
        run = subprocess.run([compare, str(seed), *words], capture_output=True, text=True, timeout=seconds)
        return run.returncode, run.stdout + run.stderr
    except subprocess.TimeoutExpired:
        return None, "the comparison hangs\n"


def compare_heaps(folder):
    compare = build(folder / "compare", sources(driver_parts()), STRICT, [ARCHIVE])
    for seed in SEEDS:
        status, report = run_driver(compare, seed, seconds=PATIENCE)
        print(report, end="")
        yield f"heaps, seed {seed}", status == 0


def first_difference(command, cases):
    """The first case that the program answers otherwise than expected, and how it ended; None if there is none."""
    for name, pieces, expected in cases:
        outcome = feeding.run(command, pieces)
        if outcome != feeding.Outcome(0, expected):
            return (name, pieces, expected), outcome
    return None


def whole_cases(reference):
    """Each input at once, with the output of the reference, which says nothing else and ends well."""
    cases = []
    for data in inputs.all_inputs(INPUT_SEED):
        outcome = feeding.run(reference, [data])
        if (outcome.status, outcome.errors) != (0, b""):
            raise RuntimeError(f"the independent program: {outcome}; input {data[:200]!r}")
        cases.append(("whole", [data], outcome.output))
    return cases


def cut_cases(cases):
    return [(name, pieces, expected) for i, (_, (data,), expected) in enumerate(cases) for name, pieces in feeding.pieces_for(data, i)]


def conversations(cases):
    """Inputs of all kinds, and above all those with ends of every kind, each cut in every way, with the output."""
    ends = [("ends", [data], known.HEADER + answers) for data, answers in known.ENDS]
    return cut_cases(cases[::CONVERSATIONS] + ends)


def answers_at_once(command, cases):
    """Whether each answer is there before the next bit is sent."""
    for name, pieces, expected in cases:
        outcome = feeding.converse(command, pieces, feeding.due(pieces, expected, len(known.HEADER)))
        if outcome != feeding.Outcome(0, expected):
            print(f"{name}: {outcome}, not {expected[:200]!r}; bits {pieces[:80]!r}")
            return "program, answers at once", False
    return "program, answers at once", True


def known_cases():
    return [("known", [data], expected) for data, expected in known.known_outputs()]


def no_difference(name, command, cases):
    difference = first_difference(command, cases)
    if difference:
        (case, pieces, expected), outcome = difference
        print(f"{case}: {outcome}, not {expected[:200]!r}; input {b''.join(pieces)[:200]!r}")
    return name, difference is None


def ends_as_promised(command):
    """What the program does where its input can't be read or its output can't be written."""
    for name, outcome, wanted in failing.outcomes(command):
        if outcome != wanted:
            print(f"{name}: {outcome}, not {wanted}")
        yield f"program, {name}", outcome == wanted


def compare_programs(reference, command, cases):
    yield no_difference("independent program, known outputs", reference, known_cases())
    yield no_difference("program, known outputs", command, known_cases())
    yield no_difference("program, all inputs, cut in every way", command, cut_cases(cases))
    yield answers_at_once(command, conversations(cases))
    yield from ends_as_promised(command)


def apply_edit(text, pairs):
    """All the pairs at once, each old text standing exactly once in the unedited file."""
    for _, old, _ in pairs:
        if text.count(old) != 1:
            raise ValueError(f"stands {text.count(old)} times: {old}")
    for _, old, new in sorted(pairs, key=lambda pair: text.index(pair[1]), reverse=True):
        at = text.index(old)
        text = text[:at] + new + text[at + len(old):]
    return text


def edited_object(path, folder):
    pairs = edits.read(path).pairs
    name = pairs[0][0]
    source = folder / f"{path.stem}.c"
    source.write_text(apply_edit((HERE / name).read_text(), pairs))
    return name, build(folder / f"{path.stem}.o", [source], [*LENIENT, "-c"])


def build_compare(objects, target):
    return build(target, [objects[name] for name in driver_parts()], [], [ARCHIVE])


def build_program(objects, target, parts=PROGRAM_PARTS):
    return [build(target, [objects[name] for name in parts], [])]


def driver_edit_caught(objects, target, *words):
    """Caught by a difference that is reported, or by the stop that is where a count is met at zero; not by a crash or a hang."""
    status, report = run_driver(build_compare(objects, target), SEEDS[0], *words)
    return status == 1 and report.startswith(("difference:", "stop:"))


def program_edit_caught(objects, target, cases):
    """Caught by another output, not by a crash or a hang."""
    difference = first_difference(build_program(objects, target), cases)
    return difference is not None and difference[1].status == 0


def auditor_edit_caught(objects, target, cases):
    difference = auditors.first_difference(build_program(objects, target, AUDITOR_PARTS), cases)
    return difference is not None and difference[1].status == 0


def edit_caught(path, folder, objects, cases, audit_cases):
    """By a program's output, the driver or, where the lines are read otherwise, by each of those that read them."""
    name, edited = edited_object(path, folder)
    with_edit, target = {**objects, name: edited}, folder / path.stem
    if name in ("program.c", "lines.c", "split.c") and not program_edit_caught(with_edit, target, cases):
        return False
    if name in ("auditor.c", "split.c") and not auditor_edit_caught(with_edit, target, audit_cases):
        return False
    words = [ALONE[name]] if name in ALONE else []
    return name in ("program.c", "auditor.c") or driver_edit_caught(with_edit, target, *words)


def try_edit(path, *with_what):
    try:
        return f"edit {path.stem}", edit_caught(path, *with_what)
    except (ValueError, subprocess.SubprocessError) as trouble:
        return f"edit {path.stem}: {trouble}", False


def without_edit(folder, objects, cases, audit_cases):
    """What an edit is put into shows no difference of its own."""
    compare = build_compare(objects, folder / "compare")
    yield "no edit, heap", run_driver(compare, SEEDS[0])[0] == 0
    for word in sorted(set(ALONE.values())):
        yield f"no edit, {word} alone", run_driver(compare, SEEDS[0], word)[0] == 0
    yield no_difference("no edit, program", build_program(objects, folder / "program"), cases)
    yield auditors.no_difference("no edit, auditor", build_program(objects, folder / "auditor", AUDITOR_PARTS), audit_cases)


def program_stops(folder, objects):
    """Where a count is met at zero the independent program stops as well: in the example, if the slots of a cell are taken off twice."""
    name, edited = edited_object(HERE / "edits" / "off_slots_twice.edit", folder)
    outcome = feeding.run(build_program({**objects, name: edited}, folder / "stopped"), [known.EXAMPLE])
    stopped = (outcome.status, outcome.errors) == (1, b"stop: the count of cell 1 is met at zero\n")
    return "independent program, count met at zero", stopped


def catch_edits(folder, cases, audit_cases):
    objects = build_objects(folder, all_sources())
    yield from without_edit(folder, objects, cases, audit_cases)
    yield program_stops(folder, objects)
    paths = sorted((HERE / "edits").glob("*.edit"))
    with concurrent.futures.ThreadPoolExecutor(2) as pool:
        yield from pool.map(lambda path: try_edit(path, folder, objects, cases, audit_cases), paths)


def checks(folder):
    yield from compare_heaps(folder)
    reference = [build(folder / "program", sources(PROGRAM_PARTS), STRICT)]
    cases = whole_cases(reference)
    yield from compare_programs(reference, [PROGRAM], cases)
    audit_reference = [build(folder / "auditor", sources(AUDITOR_PARTS), STRICT)]
    audit_cases = auditors.whole_cases()
    yield from auditors.compare(audit_reference, [AUDITOR], audit_cases)
    edited = folder / "edits"
    edited.mkdir()
    yield from catch_edits(edited, cases, audit_cases)


def main():
    subprocess.run(["make", *(path.relative_to(TOP) for path in (ARCHIVE, PROGRAM, AUDITOR))], cwd=TOP, check=True)
    passed = failed = 0
    with tempfile.TemporaryDirectory() as folder:
        for name, good in checks(pathlib.Path(folder)):
            print(f"{'passed' if good else 'FAILED'}: {name}", flush=True)
            passed, failed = passed + good, failed + (not good)
    print(f"{passed} passed, {failed} failed")
    return 1 if failed else 0


if __name__ == "__main__":
    sys.exit(main())
