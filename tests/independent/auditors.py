"""Runs an auditor, the program of Q-4 in document 02, on every input, and says where it answers otherwise than Python's own reading."""
import random
import re
import typing

import feeding
import heaps
import known_reports
import reports

SEED = 1
CUT = 4  # every fourth input is cut in every way
SINGLE = 400  # bytes; what is cut and no longer than so comes byte by byte too
MANY = b"MANY\n"


class Case(typing.NamedTuple):
    name: str
    pieces: list
    wanted: feeding.Outcome


def wanted(output, many):
    return feeding.Outcome(0, output, MANY if many else b"")


def run(command, pieces):
    """How the auditor ended and what it wrote. Of a line that names MANY only that is kept: its words are the auditor's own."""
    outcome = feeding.run(command, pieces)
    named = re.fullmatch(rb"[^\n]*MANY[^\n]*\n", outcome.errors)
    return outcome._replace(errors=MANY) if named else outcome


def known_cases():
    known = [(False, known_reports.KNOWN), (True, known_reports.KNOWN_MANY)]
    return [Case("known", [data], wanted(output, many)) for many, listed in known for data, output in listed]


def whole_cases():
    """Every input at once."""
    return known_cases() + [Case("whole", [data], wanted(*reports.report(data))) for data in heaps.all_inputs(SEED)]


def pieces_for(data, seed):
    """The input cut in each way; a short one byte by byte too."""
    single = [("singly", [data[i:i + 1] for i in range(len(data))])] if len(data) <= SINGLE else []
    return feeding.pieces_for(data, seed) + single


def cut_cases(cases):
    """All the inputs, some of them cut in every way."""
    chosen = random.Random(SEED).sample(range(len(cases)), len(cases) // CUT)
    cut = [Case(name, pieces, cases[i].wanted) for i in chosen for name, pieces in pieces_for(*cases[i].pieces, i)]
    return cases + cut


def first_difference(command, cases):
    """The first case that is answered otherwise, and how it ended; None if there is none."""
    for case in cases:
        outcome = run(command, case.pieces)
        if outcome != case.wanted:
            return case, outcome
    return None


def no_difference(name, command, cases):
    difference = first_difference(command, cases)
    if difference:
        case, outcome = difference
        print(f"{case.name}: {outcome}, not {case.wanted}; input {b''.join(case.pieces)[:200]!r}")
    return name, difference is None


def adds_up(name, command, cases):
    """Whether each output is CSV for Python's csv module as well, and its lines add up."""
    for case in cases:
        try:
            reports.check_sums(run(command, case.pieces).output)
        except ValueError as trouble:
            print(f"{trouble}; input {b''.join(case.pieces)[:200]!r}")
            return name, False
    return name, True


def compare(reference, command, cases):
    yield no_difference("independent auditor, known reports", reference, known_cases())
    yield no_difference("independent auditor, all inputs", reference, cases)
    yield no_difference("auditor, known reports", command, known_cases())
    yield no_difference("auditor, all inputs, some cut in every way", command, cut_cases(cases))
    yield adds_up("auditor, reports that add up", command, cases)
