"""What a refusal by the prover is worth, read from what `rt check` said.

The kinds, the strongest first:
- REFUTED, a fact is refuted. Either there are values at which all that is known holds and the fact fails (COUNTERMODEL): `omega` and `grind`
  name them, and of a goal that no file answers the check says that there are some. Or what is wanted and what there is agree but for one number
  or truth value, computed as far as it goes, and that is another one (COMPUTED). A harmless rewriting computes to the same.
- DIFFER, two types differ: a proof hands on a term whose type is no longer the one that is wanted, or a step of it finds no longer what it
  rewrites.
- UNPROVED, no proof was found, and no values at which the fact fails.
An edit after which a proof names goals or facts that are no longer there is of none of them: SHAPE.
"""
import functools
import re

import functions

COUNTERMODEL = "a fact is refuted by a countermodel"
COMPUTED = "a fact is refuted by computing"
REFUTED = (COUNTERMODEL, COMPUTED)
DIFFER = "two types differ"
UNPROVED = "no proof was found"
SHAPE = "the code has another shape"
KINDS = (*REFUTED, DIFFER, UNPROVED)

VALUE = r"(?:\d+|(?:[\w.]*\.)?(?:true|false))"
GOAL_FAILS = re.compile(
    r"All of that holds, and (?:the \w+|it) fails|The hypotheses hold, and the goal fails|the facts known there allow values at which this goal is false")
# Both as they stand, or as the first of a record's fields whose others agree; but not the number of a local variable.
TWO_VALUES = re.compile(
    rf"the two \w+ differ only where one has `{VALUE}((?:;[^`]*)?)` \((?:expected|found)\)"
    rf"(?:, right after `[^`]*(?<!Row\.get)(?<! =)`,?)? and the other has `{VALUE}\1` \((?:found|required)\)")
# The same of an equation that is short enough to stand there whole.
TWO_ENDS = re.compile(rf"the two \w+ are `Path ([^`]+) {VALUE}` \(expected\) and `Path \1 {VALUE}` \(found\)")
# A list that is empty and one that is not.
EMPTY_OR_NOT = re.compile(
    r"the two \w+ differ only where one has `(?:(?:[\w.]*\.)?\[\]` \(expected\) and the other has `[^`]*∷[^`]*"
    r"|[^`]*∷[^`]*` \(expected\) and the other has `(?:[\w.]*\.)?\[\])`")
# Closed statements, whose proof is `refl`: a test that does not compute to true is false, and lists that don't compute to the same differ.
TEST_FAILS = re.compile(r"expected type `(?:CounterBook|MetExamples|ListExamples)`, but this has type `(?:mathlib\.Core\.Path\.)?◌≡◌ ")
NOT_THERE = re.compile(r"(?:module|record) `Rattle\.[^`]*\.(?:Goals|Given|Lts)\b[^`]*` has no ")
TWO_TYPES = re.compile(r"expected type|but this has type|the two \w+ |whose two ends are equal, and `Path | ≟ `|: `(?:rw|simp)`: no ")
# What rests on a declaration that was refused, or is not read before what it calls is proved, was not looked at.
CONSEQUENCE = re.compile(r"which was (?:rejected|not admitted), (?:was|were) not checked|was not admitted")
# Of a function that calls one that is not proved the check says so in its own line.
REFUSED = re.compile(r"fn (\S+): (?:not proved|no proof: (?!it calls ))")
OWN_FILES = r"/(?:Answers|Invariants|Proof)\.antt:"
UNREAD = re.compile(r"(?:\./)?(?:src|specs)/\S+:\d+:\d+: error(?:\[[\w-]+\])?: (?!`[^`]*`: )|error(?:\[[\w-]+\])?: .*(?:is not in scope|operand is missing|expected the end|cannot continue)")


@functools.lru_cache(maxsize=16)
def messages(said):
    """Each message of the prover, with the lines that belong to it in one; also the lines that say what became of a function."""
    found = []
    for line in said.splitlines():
        if line.startswith(" ") and found:
            found[-1] += " " + line.strip()
        else:
            found.append(line)
    return found


def is_error(message):
    """Whether a message says what is wrong, and not only that something else was."""
    if CONSEQUENCE.search(message):
        return False
    place = r"(?:\./)?\S+:\d+:\d+: "
    return bool(re.match(rf"{place}error|note: {place}it is not proved that |note: what antt said of ", message))


def kind_of(message):
    if GOAL_FAILS.search(message):
        return COUNTERMODEL
    if any(pattern.search(message) for pattern in (TWO_VALUES, TWO_ENDS, EMPTY_OR_NOT, TEST_FAILS)):
        return COMPUTED
    return DIFFER if TWO_TYPES.search(message) else UNPROVED


def strongest(errors):
    """The kind of several errors: a fact that fails does so whatever else is wrong; but not if the proof is of another code."""
    if any(NOT_THERE.search(error) for error in errors):
        return SHAPE
    return min(map(kind_of, errors), key=KINDS.index, default=UNPROVED)


def told_of(function, said):
    """What is said of one function: the errors in its proof's files, those before the line that says what became of it, and the help behind that."""
    folders = "|".join(map(re.escape, functions.proof_folders(function)))
    file = re.compile(rf"(?:\./|.*/)?(?:{folders}){OWN_FILES}")
    before, told, last = [], [], None
    for message in messages(said):
        if line := re.match(r"(?:fn|struct|enum|impl) (\S+): ", message):
            last = line[1]
            told += before if last == function else []
            before = []
        elif is_error(message) and re.match(r"\S+\.antt:", message):
            told += [message] if file.match(message) else []
        elif is_error(message):
            before.append(message)
        elif last == function and message.startswith("help: `"):
            told.append(message)
    return told


def own_errors(function, said):
    return [message for message in told_of(function, said) if is_error(message)]


def refused(said):
    """Each function that the prover refuses for its own sake, and not for one that it calls, with the kind."""
    lines = {match[1]: match.string for match in map(REFUSED.match, messages(said)) if match}
    # A law of the crate may fail, on which the functions' proofs rest.
    laws = [m for m in messages(said) if is_error(m) and not m.startswith("note: ") and not re.match(rf"\S*proofs/\S*{OWN_FILES}", m)]
    errors = {name: own_errors(name, said) or ([] if "; it calls " in line else laws) for name, line in lines.items()}
    return {name: strongest(own) for name, own in errors.items() if own}


def kind(said):
    """The kind of a refusal as a whole: that of the functions refused, or of all errors where no function is."""
    kinds = list(refused(said).values()) or [strongest([m for m in messages(said) if is_error(m)])]
    return SHAPE if SHAPE in kinds else min(kinds, key=KINDS.index)


def weakest(kinds):
    return max(kinds, key=(*KINDS, SHAPE).index, default=UNPROVED)


def is_refusal(said):
    """Whether the check ended with the crate not proved; and neither before that, at a library below it or at a text that cannot be read."""
    return "logic=not-proved" in said.splitlines() and " did not build, so " not in said and not unread(said)


def is_proved(said):
    return "logic=proved " in said and "logic=not-proved" not in said


def unread(said):
    """The first text that cannot be read: an edit that only makes a statement false leaves one that can."""
    return next((m for m in messages(said) if is_error(m) and UNREAD.match(m)), None)


def placed(errors):
    """The first of these messages, with its place as a path from the crate on."""
    return errors[0].removeprefix("note: ").removeprefix("./") if errors else "no error to read"


def first_error(said):
    """The first message that says what is wrong, or else what is not proved."""
    errors = [message for message in messages(said) if is_error(message)]
    return placed(sorted(errors, key=lambda message: message.startswith("note: ")))


def first_of(function, said):
    """The first that says so of one function."""
    return placed(own_errors(function, said))
