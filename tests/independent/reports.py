"""The report that Q-4 in document 02 wants, by a reading of its own, and what holds of every report whatever its heaps are."""
import collections
import csv
import io
import re

NAMES = ["heap", "cell", "below", "at", "above", "sum", "lost", "size"]
HEAPS_MAX, CELLS_MAX, ROOTS, SLOTS, TABLES = 1000, 1024, 64, 8, 7
NOTHING = (0, 0, 0, 0, 0, 0)  # below, at, above, sum, lost, size
SIZE = (0, 0, 0, 0, 0, 1)


def lines_of(data):
    """CR LF ends a line, and the last line may lack it."""
    lines = data.split(b"\r\n")
    return lines[:-1] if lines[-1] == b"" else lines


def table_on(line):
    """The entries, or None for a line that is no list of numbers."""
    if line == b"":
        return []
    fields = line.split(b",")
    if all(re.fullmatch(rb"[0-9]{1,5}", field) and int(field) <= 65535 for field in fields):
        return [int(field) for field in fields]
    return None


def heaps_of(data):
    """Seven tables each; those that are missing at the end are None."""
    tables = [table_on(line) for line in lines_of(data)]
    tables += [None] * (-len(tables) % TABLES)
    return [tables[i:i + TABLES] for i in range(0, len(tables), TABLES)]


def fits(tables):
    if None in tables:
        return False
    n = len(tables[0])
    return 1 <= n <= CELLS_MAX and [len(table) for table in tables] == [n, n, n, SLOTS * n, ROOTS, n, 2]


def cell_row(difference):
    return (difference < 0, difference == 0, difference > 0, difference, 0, 0)


def added(rows):
    return tuple(map(sum, zip(NOTHING, *rows)))


def audit(tables):
    """The differences of the cells, and the heap's row."""
    _, _, count, slots, roots, queue, _ = tables
    held = collections.Counter(roots + slots + queue)
    differences = [stored - held[cell + 1] for cell, stored in enumerate(count)]
    lost = sum(times for reference, times in held.items() if reference > len(count))
    return differences, added([*map(cell_row, differences), (0, 0, 0, 0, lost, 0)])


def line(heap, cell, row):
    return ",".join([str(heap), str(cell), *(str(int(number)) for number in row)]).encode() + b"\r\n"


def heap_lines(number, tables):
    """The heap's row, and its lines: a line for each of its cells, then its own; for one that doesn't fit its own alone."""
    if not fits(tables):
        return SIZE, [line(number, "", SIZE)]
    differences, row = audit(tables)
    return row, [*(line(number, cell, cell_row(difference)) for cell, difference in enumerate(differences)), line(number, "", row)]


def report(data):
    """The whole output, and whether a heap is refused MANY."""
    heaps = heaps_of(data)
    listed = [heap_lines(number, tables) for number, tables in enumerate(heaps[:HEAPS_MAX], 1)]
    lines = [",".join(NAMES).encode() + b"\r\n", *(line for _, lines in listed for line in lines)]
    return b"".join(lines) + line("", "", added([row for row, _ in listed])), len(heaps) > HEAPS_MAX


def records(output):
    """The records as csv reads them, without the header. Nothing is quoted, and CR LF ends each and stands nowhere else."""
    text = output.decode("ascii")
    if '"' in text or not text.endswith("\r\n") or not text.count("\r") == text.count("\n") == text.count("\r\n"):
        raise ValueError("no lines that end with CR LF")
    header, *rest = csv.reader(io.StringIO(text, newline=""), strict=True)
    if header != NAMES or any(len(record) != len(NAMES) for record in rest):
        raise ValueError("not eight fields in each line")
    if any(not re.fullmatch(r"0|-?[1-9][0-9]*", field) for record in rest for field in record[2:]):
        raise ValueError("a number is missing, or has a leading zero or a sign")
    return [(heap, cell, tuple(map(int, row))) for heap, cell, *row in rest]


def check_cells(cells):
    """Cells count from 0, and each counts itself alone."""
    for number, (_, cell, row) in enumerate(cells):
        if cell != str(number) or row != cell_row(row[3]):
            raise ValueError(f"cell {number} has the line {cell},{row}")


def check_heap(number, cells, own):
    """The cells add up to the heap's own line, but for the lost references; a heap without cells is one refused SIZE."""
    heap, cell, row = own
    if {heap, *(heap for heap, _, _ in cells)} != {str(number)} or cell != "":
        raise ValueError(f"heap {number} has the line {heap},{cell}")
    check_cells(cells)
    lost = row[4]
    if row != (added([*(row for _, _, row in cells), (0, 0, 0, 0, lost, 0)]) if cells else SIZE) or lost < 0:
        raise ValueError(f"heap {number}: its cells don't add up to its line {row}")


def check_sums(output):
    """Raises ValueError if the output is no CSV of eight fields, or its lines don't add up."""
    *listed, totals = records(output)
    cells, heaps = [], []
    for record in listed:
        if record[1] != "":
            cells.append(record)
            continue
        heaps.append(record[2])
        check_heap(len(heaps), cells, record)
        cells = []
    if cells or totals != ("", "", added(heaps)) or len(heaps) > HEAPS_MAX:
        raise ValueError("the heaps don't add up to the totals")
