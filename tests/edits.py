#!/usr/bin/env python3
"""Wrong edits that the proofs must refuse, and what each refusal is worth.

`rt ci` says of the edits of crates/CRATE/must-fail/ that each is refused, and keeps no more of what the prover said than a line. Here these are
tried once more, to weigh their refusals, and with them
- tests/edits/CRATE/: edits of one crate, which it must refuse. One edit may make several functions wrong; the line 'refuses:' names them, and
  each must be refused.
- tests/edits/across/: edits of the rules that another crate's theorems refuse, which the line 'refused-by:' names. Everything below that crate
  must still be proved.

Each is tried in a copy of its own of what `rt check` has proved here, so that only what rests on it is checked again; and at the end the crate as
it stands must be proved in such a copy. Edits of functions whose proofs stand apart are made together, and each is weighed by what the prover
says of its own function; where that shows nothing, it is made alone.

An edit has the lines 'file:', 'old:' and 'new:' of `rt must-fail`; paths start at the crate, or, across crates, at
the top of the repository. The line 'against:' names the public contracts that an edit of the code goes against. An
edit keeps the code's shape, so that there is the same to prove of it; the line 'shape:' says why, where it does not. A condition that an edit
changes is named otherwise in the goals behind it, and so the proof is given the new name (tests/goals.py).
The line 'harmless:' is that of a control: a rewriting that changes no answer, which may be refused, but not for a fact.

Each refusal is of a kind (tests/refusals.py); out/edits/ has what the prover said. At the end stand each public contract with fewer than two
edits that refute a fact, of which docs/ARCHITECTURE.md has to say why, and the count of each kind. The last line
printed is 'N passed, M failed'; edits that `rt ci` counts are not counted again.

Usage: tests/edits.py [CRATE or across]..., all of them by default.
"""
import collections
import concurrent.futures
import contextlib
import itertools
import os
import pathlib
import queue
import shutil
import subprocess
import sys
import tempfile

import contracts
import crates
import functions
import goals
import refusals

TOP = pathlib.Path(__file__).resolve().parent.parent
CRATES = TOP / "crates"
EDITS = TOP / "tests" / "edits"
LOGS = TOP / "out" / "edits"
ACROSS = "across"
PARTS = ("src", "specs", "proofs")
# How often the proofs may be given new names: what is wrong in one line of a file can hide the next.
RENAMINGS = 3
PROCESSORS = len(os.sched_getaffinity(0))

# An edit: the functions or the crate that must refuse it, the contracts it goes against, why the code's shape changes or why the edit is
# harmless, where that is so, and the replacements (file, old, new).
Edit = collections.namedtuple("Edit", "refusers against shape harmless pairs")
# What became of an edit: whether it is as it must be (None where `rt ci` counts it already), words, the kinds of its refusals, and the kind for
# each contract.
Outcome = collections.namedtuple("Outcome", "name passed words kinds against")


def failure(name, words):
    return Outcome(name, False, words, [], {})


def read(path):
    said, file, old, pairs = {}, None, None, []
    for line in path.read_text().splitlines():
        key, _, value = line.partition(": ")
        if key in ("refused-by", "refuses", "against", "shape", "harmless"):
            said[key] = value
        elif key == "file":
            file = value
        elif key == "old":
            old = value
        elif line.startswith("new:"):
            pairs.append((file, old, line.removeprefix("new:").removeprefix(" ")))
    if not pairs or any(None in pair for pair in pairs):
        raise ValueError(f"{path.name}: it wants 'file:', 'old:' and 'new:' lines")
    refusers = said.get("refuses", said.get("refused-by", "")).split()
    return Edit(refusers, said.get("against", "").split(), said.get("shape"), said.get("harmless"), pairs)


def edited(base, pairs):
    """The files below `base` that an edit changes, by their paths from the top, with their texts after it."""
    texts = {}
    for file, old, new in pairs:
        path = str((base / file).relative_to(TOP))
        text = texts.get(path) or (base / file).read_text()
        if text.count(old) != 1:
            raise ValueError(f"an 'old:' text stands {text.count(old)} times in {file}")
        texts[path] = text.replace(old, new)
    return texts


def linked(source, target):
    """A second name for what a check has left, which a check replaces and never writes into; a copy of any other file."""
    with contextlib.suppress(OSError):
        if "/out/rlib/" in source or source.endswith(".oantt"):
            return os.link(source, target)
    return shutil.copy2(source, target)


def fill(copy, crate, texts):
    """Makes the empty folder a repository of a crate and those below it, with what `rt check` has proved of them, and then gives the files their new
    texts. Of a crate on which no new text bears the built library is enough."""
    needed = crates.needed(crate)
    changed = {path.split("/")[1] for path in texts}
    for name in needed:
        kept = ("out",) if name == crate or crates.needed(name) & changed else ("out/rlib",)
        for part in (*PARTS, *kept):
            if (CRATES / name / part).is_dir():
                shutil.copytree(CRATES / name / part, copy / "crates" / name / part, copy_function=linked)
    (copy / "crates.txt").write_text("".join(f"{line}\n" for name, line in crates.lines().items() if name in needed))
    write(copy, texts)


def write(copy, texts):
    for path, text in texts.items():
        (copy / path).write_text(text)


class Copies:
    """Folders for as many copies as there are processors."""

    def __init__(self):
        self.room = tempfile.TemporaryDirectory(prefix="edits-")
        self.free = queue.SimpleQueue()

    def __enter__(self):
        for number in range(PROCESSORS):
            self.free.put(pathlib.Path(self.room.name) / str(number))
        return self

    def __exit__(self, *_):
        self.room.cleanup()

    @contextlib.contextmanager
    def copy(self, crate, texts):
        """A copy of a crate and those below it in which files have other texts."""
        folder = self.free.get()
        try:
            fill(folder, crate, texts)
            yield folder
        finally:
            shutil.rmtree(folder, ignore_errors=True)
            self.free.put(folder)


def checked(copy, crate):
    """What `rt check` says of a crate in a copy."""
    run = subprocess.run(["rt", "check", "--jobs", "1"], cwd=copy / "crates" / crate, stdin=subprocess.DEVNULL, capture_output=True, text=True)
    return run.stdout + run.stderr


def keep(name, said):
    """Leaves what the prover said of an edit, whole."""
    log = LOGS / f"{name}.log"
    log.parent.mkdir(parents=True, exist_ok=True)
    log.write_text(said)


def proof_files(function):
    """The files of a function's proof, by their paths from the top."""
    crate = function.split("::")[0]
    folders = [CRATES / crate / folder for folder in functions.proof_folders(function)]
    return [str(file.relative_to(TOP)) for folder in folders for file in sorted(folder.glob("*.antt"))]


def renamed(said, texts):
    """Those files of the refused functions' proofs in which a goal or a fact is named otherwise now, with the new names."""
    found = {}
    for function in refusals.refused(said):
        proof = {file: texts.get(file) or (TOP / file).read_text() for file in proof_files(function)}
        exchanges = goals.exchanged(refusals.told_of(function, said), "\n".join(proof.values()))
        found |= {file: after for file, text in proof.items() if (after := goals.renamed(text, exchanges)) != text}
    return found


def said_of(names, texts, crate, copies):
    """What the prover says of a crate where files have other texts."""
    with copies.copy(crate, texts) as copy:
        said = checked(copy, crate)
        for _ in range(RENAMINGS):
            if not (more := renamed(said, texts)):
                break
            write(copy, more)
            texts = {**texts, **more}
            said = checked(copy, crate)
    for name in names:
        keep(name, said)
    return said


def of_shape(reason, keeps):
    """What is said of the code's shape: why an edit changes it, and what is wrong with the edit's own words on it."""
    if keeps:
        return " AND THE SHAPE IS KEPT, though the line 'shape:' says otherwise" if reason else ""
    return f" ({reason})" if reason else " AND NOTHING SAYS WHY"


def weighed(name, edit, named, refused, whole, error):
    """The outcome of an edit that was refused: of which kind, for each of the functions `named` or as a whole, and for each contract that it
    goes against. Where the public function itself is proved, a private one that it rests on is refused in its place."""
    kinds = {function: refused[function] for function in named} or {"": whole}
    words = ", ".join(f"{function} {kind}".strip() for function, kind in kinds.items())
    private = [kind for function, kind in refused.items() if function not in contracts.public()]
    against = {contract: refused.get(contract) or refusals.weakest(private) for contract in edit.against}
    keeps = refusals.SHAPE not in kinds.values()
    return Outcome(name, keeps == (edit.shape is None), f"{words}{of_shape(edit.shape, keeps)}: {error[:140]}", list(kinds.values()), against)


def weighed_whole(name, edit, named, said):
    """The same of an edit that was made alone, by all that was said."""
    return weighed(name, edit, named, refusals.refused(said), refusals.kind(said), refusals.first_error(said))


def control(name, edit, said):
    """The outcome of a harmless rewriting: if it is refused, then not for a fact."""
    if not refusals.is_proved(said) and not refusals.is_refusal(said):
        return failure(name, f"it cannot be read: {said[-2000:]}")
    kind = refusals.kind(said) if refusals.is_refusal(said) else "accepted"
    return Outcome(name, kind not in refusals.REFUTED, f"harmless ({edit.harmless}), and {kind}", [], {})


def alone(crate, path, copies):
    """What became of one edit of a crate."""
    name, edit = name_of(path), read(path)
    said = said_of([name], edited(CRATES / crate, edit.pairs), crate, copies)
    if edit.harmless:
        return control(name, edit, said)
    named = [f"{crate}::{function}" for function in edit.refusers]
    accepted = [function for function in named if function not in refusals.refused(said)]
    if not refusals.is_refusal(said) or accepted:
        return failure(name, f"NOT REFUSED {accepted}: {refusals.unread(said) or said[-2000:]}")
    return weighed_whole(name, edit, named, said)


def own_functions(crate, path):
    """The functions whose bodies an edit changes, where each of them is to be refused or none; none where the edit is to be made alone."""
    edit, base = read(path), CRATES / crate
    changed = {functions.function_at(base / file, old) for file, old, _ in edit.pairs}
    wanted = {f"{crate}::{function}" for function in edit.refusers}
    if None in changed or not edit.harmless and changed != wanted and (wanted or len(changed) > 1):
        return set()
    return changed


def seen_above(crate, below, above):
    """Whether it shows that a function is wrong where one is that it rests on: only their proofs' files are looked at then, and of both."""
    return below not in functions.rests_on(crate, above) or bool(proof_files(below) and proof_files(above))


def apart(crate, own, other):
    """Whether functions have proofs of their own, of which each is looked at if all of them are wrong."""
    proofs = [{functions.proof_folders(function)[1] for function in some} for some in (own, other)]
    return proofs[0].isdisjoint(proofs[1]) and all(seen_above(crate, f, g) and seen_above(crate, g, f) for f in own for g in other)


def joins(crate, group, path, own):
    """Whether an edit may be made together with those of a group: all are harmless or none, their functions stand apart, and each 'old:' text still
    stands once."""
    if not own or not all(other and apart(crate, own, other) for other in group.values()):
        return False
    if any(bool(read(member).harmless) != bool(read(path).harmless) for member in group):
        return False
    try:
        edited(CRATES / crate, [pair for member in (*group, path) for pair in read(member).pairs])
    except ValueError:
        return False
    return True


def edits_of(crate):
    """The edits of a crate, those that `rt ci` tries among them."""
    return [path for folder in (CRATES / crate / "must-fail", EDITS / crate) for path in sorted(folder.glob("*.edit"))]


def name_of(path):
    """The name of an edit: of its crate, and its own."""
    folder = path.parent.parent if path.parent.name == "must-fail" else path.parent
    return f"{folder.name}/{path.stem}"


def groups(crate):
    """The edits of a crate in groups, each edit with its functions: edits of functions that stand apart, or one edit that is made alone."""
    together = []
    for path in edits_of(crate):
        own = own_functions(crate, path)
        room = next((group for group in together if joins(crate, group, path, own)), None)
        if room is None:
            together.append({path: own})
        else:
            room[path] = own
    return together


def made_together(crate, group, copies):
    """What became of edits of functions that stand apart, made together. One that is not seen in company is made alone."""
    if len(group) == 1:
        return [alone(crate, path, copies) for path in group]
    texts = edited(CRATES / crate, [pair for path in group for pair in read(path).pairs])
    said = said_of(map(name_of, group), texts, crate, copies)
    return [together(path, own, said) or alone(crate, path, copies) for path, own in group.items()]


def together(path, own, said):
    """What became of one of them, by what was said of its own functions; or None where that shows nothing."""
    name, edit = name_of(path), read(path)
    if edit.harmless:
        return control(name, edit, said) if refusals.is_proved(said) else None
    refused = {function: kind for function, kind in refusals.refused(said).items() if function in own}
    if not refusals.is_refusal(said) or len(refused) < len(own):
        return None
    return weighed(name, edit, sorted(own) if edit.refusers else [], refused, refusals.weakest(refused.values()), refusals.first_of(min(own), said))


def across(path, copies):
    """What became of one edit across crates; those below the one that refuses it are proved."""
    name, edit = name_of(path), read(path)
    (refuser,) = edit.refusers
    said = said_of([name], edited(TOP, edit.pairs), refuser, copies)
    if not refusals.is_refusal(said):
        return [failure(name, f"NOT REFUSED by {refuser}: {refusals.unread(said) or said[-2000:]}")]
    return [weighed_whole(name, edit, [], said)]


def unedited(crate, copies):
    """A copy that could not be proved as it stands would refuse every edit, and show nothing."""
    with copies.copy(crate, {}) as copy:
        said = checked(copy, crate)
    return [] if refusals.is_proved(said) else [failure(f"{crate}, without an edit", f"NOT PROVED: {said[-2000:]}")]


def attempts(wanted):
    """What is tried, the longest first: calls that take the copies."""
    for path in sorted((EDITS / ACROSS).glob("*.edit")) if ACROSS in wanted else ():
        yield lambda copies, path=path: across(path, copies)
    for crate in sorted(set(wanted) - {ACROSS}, key=lambda crate: len(edits_of(crate)), reverse=True):
        for group in groups(crate):
            yield lambda copies, crate=crate, group=group: made_together(crate, group, copies)
    for crate in refusers(wanted):
        yield lambda copies, crate=crate: unedited(crate, copies)


def refusers(wanted):
    """The crates that have an edit to refuse."""
    named = [name for path in (EDITS / ACROSS).glob("*.edit") for name in read(path).refusers] if ACROSS in wanted else []
    return sorted({*named, *(crate for crate in wanted if crate != ACROSS and edits_of(crate))})


def counted(outcome):
    """The outcome of an edit that `rt ci` counts, which is not counted twice where it is as it must be."""
    crate, _, name = outcome.name.partition("/")
    return outcome._replace(passed=None if outcome.passed and (CRATES / crate / "must-fail" / f"{name}.edit").exists() else outcome.passed)


def tried(wanted):
    """Tries the edits; yields what became of each."""
    with Copies() as copies, concurrent.futures.ThreadPoolExecutor(max_workers=PROCESSORS) as pool:
        for done in concurrent.futures.as_completed([pool.submit(attempt, copies) for attempt in attempts(wanted)]):
            yield from map(counted, done.result())


def faults(crate, path):
    """What is wrong with the words of an edit: one of the code names the public contracts that it goes against."""
    edit = read(path)
    public = contracts.public()
    for name in edit.against:
        if name not in public:
            yield False, f"{crate}/{path.stem}: there is no public contract {name}"
    aimed = edit.against or edit.harmless or all(file.startswith("specs/") for file, _, _ in edit.pairs)
    if not aimed and any(name.startswith(f"{crate}::") for name in public):
        yield False, f"{crate}/{path.stem}: it does not say which public contract it goes against"


def judged(wanted, outcomes):
    """Each public contract of the crates: whether two edits refute a fact, or a word says why not."""
    reasons = contracts.excused()
    for name in contracts.public():
        if name.split("::")[0] in wanted:
            kinds = [outcome.against[name] for outcome in outcomes if name in outcome.against]
            yield contracts.judge(name, sum(kind in refusals.REFUTED for kind in kinds), reasons.get(name))
    for name in reasons:
        if name not in contracts.public():
            yield False, f"{name} is excused, and there is no such public contract"


def proved(wanted):
    """Whether the crates as they stand are proved: those that are wanted and what they rest on. Edits across crates rest on all."""
    checks = [(["rt", "all", "check"], TOP)] if ACROSS in wanted else [(["rt", "check"], CRATES / crate) for crate in wanted]
    for command, folder in checks:
        run = subprocess.run(command, cwd=folder, stdin=subprocess.DEVNULL, capture_output=True, text=True)
        if run.returncode:
            print(run.stdout[-4000:] + run.stderr)
            return False
    return True


def main():
    wanted = sys.argv[1:] or sorted({*crates.listed(), ACROSS})
    if not proved(wanted):
        print("0 passed, 1 failed")
        return 1
    outcomes = []
    for outcome in tried(wanted):
        outcomes.append(outcome)
        print(f"{outcome.name}: {outcome.words}", flush=True)
    written = [(crate, path) for crate in wanted if crate != ACROSS for path in edits_of(crate)]
    verdicts = [*itertools.chain.from_iterable(faults(*edit) for edit in written), *judged(wanted, outcomes)]
    for words in filter(None, (words for _, words in verdicts)):
        print(words)
    for outcome in outcomes:
        if outcome.passed is False:
            print(f"failed: {outcome.name}: {outcome.words}")
    kinds = collections.Counter(kind for outcome in outcomes for kind in outcome.kinds)
    for kind in (*refusals.KINDS, refusals.SHAPE):
        print(f"{kind}: {kinds[kind]}")
    results = [outcome.passed for outcome in outcomes] + [good for good, _ in verdicts]
    print(f"{results.count(True)} passed, {results.count(False)} failed")
    return 1 if False in results or True not in results else 0


if __name__ == "__main__":
    sys.exit(main())
