#!/usr/bin/env python3
"""The benchmark: instructions of the proved heap beside a careful C version of the same rules, counted by callgrind.

Usage: bench/run.py, from anywhere. It builds what is missing and prints one row a case. Instruction counts repeat
exactly, whatever else the machine does; nothing here is timed, and no test depends on it.
"""
import pathlib
import re
import subprocess
import sys
import tempfile

TOP = pathlib.Path(__file__).resolve().parent.parent
ARCHIVE = TOP / "crates" / "heap_c" / "out" / "libheap_c.a"
PROGRAM = TOP / "crates" / "counter" / "out" / "counter"
AUDITOR = TOP / "crates" / "auditor" / "out" / "auditor"
CELLS = 1024
LINES = 100_000

# What is measured, and the most that the proved heap may take of the C version.
CASES = [
    ("free", "a call with its check, all cells free", 1.10),
    ("half", "a call with its check, half full", 1.10),
    ("full", "a call with its check, full", 1.10),
    ("slots", "a call with its check, full, all slots used", 1.10),
    ("queued", "a call with its check, 1,024 queued objects", 1.10),
    ("collect-up", "COLLECT, a chain up", 0.85),
    ("collect-down", "COLLECT, a chain down", 0.35),
    ("collect-graph", "COLLECT, a random graph", 1.00),
    ("collect-waiting", "COLLECT, a random graph, a cell queued", 1.00),
    ("clear-chain", "CLEAR that frees 1,024", 1.00),
    ("clear-strings", "CLEAR that frees an object with 8 strings", 0.90),
    ("collect-strings", "COLLECT that frees 896 strings, 128 objects", 0.90),
    ("batch", "a batch of 3,000 basket calls, the check once", 1.00),
    ("audit", "the audit of a heap, two counts of three wrong", 1.00),
]
CELL_LINE = "a cell's line of the audit's report, on average", 1.20
UNCHECKED = 700  # the most instructions of a basket call without its check
LINE = 1000  # and of a line of the program
BATCH = 900_000  # and of a batch of 3,000 basket calls, its check included


def built(folder, cells):
    program = folder / f"bench-{cells}"
    sources = [TOP / "bench" / f"{name}.c" for name in ("main", "heap", "audit")]
    subprocess.run(["gcc", "-O2", "-g", f"-DN={cells}", "-o", program, *sources, ARCHIVE], check=True)
    return program


def callgrind(folder, command, toggle=(), stdin=subprocess.DEVNULL):
    """The instructions that were counted, what the program says, and callgrind's file."""
    out = folder / "callgrind.out"
    run = subprocess.run(["valgrind", "--tool=callgrind", f"--callgrind-out-file={out}", *toggle, *command], capture_output=True, text=True, check=True, stdin=stdin)
    return int(re.search(r"Collected : (\d+)", run.stderr).group(1)), run.stdout, out


def measured(folder, program, heap, case):
    """Instructions inside the functions `measured*`, the program's numbers, and callgrind's file."""
    total, said, out = callgrind(folder, [program, heap, case], ["--toggle-collect=measured*"])
    return total, [int(x) for x in said.split()], out


def inclusive(out, pattern):
    """The inclusive count of the functions whose names match."""
    text = subprocess.run(["callgrind_annotate", "--inclusive=yes", "--threshold=100", str(out)], capture_output=True, text=True, check=True).stdout
    return sum(int(m.group(1).replace(",", "")) for m in re.finditer(r"^\s*([\d,]+) .*", text, re.M) if re.search(pattern, m.group(0)))


def row(words, c, p, goal):
    """A line of the table; whether the goal is missed."""
    print(f"{words:<50} {c:>9,} {p:>9,} {p / c:>6.2f} {goal:>6.2f}")
    return p > goal * c


def audited(folder, heap):
    """Instructions of the program that audits one heap, given as text."""
    text = folder / "heap.csv"
    text.write_bytes(heap)
    with text.open() as stdin:
        total, report, _ = callgrind(folder, [AUDITOR], stdin=stdin)
    return total, report.count("\n1,")


def cell_lines(folder, program, audit):
    """Instructions for the cell lines of a heap: in C, and in the program, where they are what is left when reading the same heap, refused
    SIZE for an entry too many, and its audit are taken off. The system calls that write them are still in it."""
    c, said, _ = measured(folder, program, "c", "cell-lines")
    heap = subprocess.run([program, "c", "dump"], capture_output=True, check=True).stdout
    whole, lines = audited(folder, heap)
    refused, line = audited(folder, heap.removesuffix(b"\r\n") + b",0\r\n")
    assert (lines, line, said[1]) == (CELLS + 1, 1, CELLS), (lines, line, said)
    return c, whole - refused - audit


def compare(folder):
    """A row for each case; the number of goals that are missed."""
    program, missed = built(folder, CELLS), 0
    print(f"{'1,024 cells':<50} {'C':>9} {'proved':>9} {'ratio':>6} {'goal':>6}")
    for case, words, goal in CASES:
        c, said_c, _ = measured(folder, program, "c", case)
        p, said_p, _ = measured(folder, program, "proved", case)
        assert said_c == said_p, (case, said_c, said_p)
        missed += row(words, c, p, goal)
    words, goal = CELL_LINE
    c, p = cell_lines(folder, program, p)  # the last case is the audit
    return missed + row(words, c // CELLS, p // CELLS, goal)


def unchecked(folder, program):
    """What a call of the basket costs without its check, on average."""
    total, said, out = measured(folder, program, "proved", "basket")
    return (total - inclusive(out, r"soundness::admission::admit")) // said[0]


def line(folder, program):
    """What a line of the program costs, on average: the basket's calls as lines, over and over."""
    basket = subprocess.run([program, "proved", "lines"], capture_output=True, check=True).stdout.splitlines(keepends=True)
    lines = folder / "lines.csv"
    lines.write_bytes(b"".join(basket[i % len(basket)] for i in range(LINES)))
    with lines.open() as stdin:
        whole, _, _ = callgrind(folder, [PROGRAM], stdin=stdin)
    return whole // LINES


def averages(folder):
    """A row for what costs a few hundred instructions; the number of goals that are missed."""
    small = built(folder, 256)
    rows = [
        ("a basket call without the check, 1,024 cells", unchecked(folder, built(folder, 1024)), UNCHECKED),
        ("a basket call without the check, 256 cells", unchecked(folder, small), UNCHECKED),
        ("a line of the program, 256 cells, of 100,000", line(folder, small), LINE),
    ]
    print(f"{'on average':<50} {'':>9} {'proved':>9} {'':>6} {'goal':>6}")
    for words, instructions, goal in rows:
        print(f"{words:<50} {'':>9} {instructions:>9,} {'':>6} {goal:>6,}")
    return sum(instructions > goal for _, instructions, goal in rows)


def baskets(folder):
    """What 3,000 basket calls take, made one by one and as one batch, which answers the same; the number of goals that are missed."""
    program = built(folder, CELLS)
    singly, said_singly, _ = measured(folder, program, "proved", "singly")
    batch, said_batch, _ = measured(folder, program, "proved", "batch")
    assert said_singly[-1] == said_batch[-1], (said_singly, said_batch)
    print(f"{'3,000 basket calls, 1,024 cells':<50} {'':>7} {'proved':>11} {'':>6} {'goal':>7}")
    print(f"{'one by one, each with its check and its list':<50} {'':>7} {singly:>11,}")
    print(f"{'in one batch':<50} {'':>7} {batch:>11,} {'':>6} {BATCH:>7,}")
    return int(batch > BATCH)


def main():
    subprocess.run(["make", *(path.relative_to(TOP) for path in (ARCHIVE, PROGRAM, AUDITOR))], cwd=TOP, check=True, stdout=subprocess.DEVNULL)
    with tempfile.TemporaryDirectory() as name:
        folder = pathlib.Path(name)
        missed = compare(folder) + averages(folder) + baskets(folder)
    print("all goals reached" if missed == 0 else f"{missed} goals missed")
    return 0


if __name__ == "__main__":
    sys.exit(main())
