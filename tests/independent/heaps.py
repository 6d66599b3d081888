"""Inputs for the auditor of Q-4: heaps as text, seven lines each, good ones and spoilt ones."""
import random

from reports import CELLS_MAX, ROOTS, SLOTS, TABLES

T_KIND, T_COUNT, T_SLOTS, T_ROOTS = 0, 2, 3, 4


def text(tables):
    """Each table on a line of its own, with its CR LF."""
    return b"".join(b",".join(b"%d" % entry for entry in table) + b"\r\n" for table in tables)


def zeros(n):
    return [[0] * length for length in (n, n, n, SLOTS * n, ROOTS, n, 2)]


def reference(n, rng):
    return rng.choice([0, 0, 0, 1, n, n, n + 1, rng.randrange(n + 2), rng.randrange(65536)])


def senseless(n, rng):
    """Kinds, counts and references without any sense, not far from one another."""
    full = rng.random()
    tables = zeros(n)
    for t, table in enumerate(tables):
        for i in range(len(table)):
            if rng.random() < full:
                table[i] = reference(n, rng) if t > T_COUNT else rng.choice([0, 1, 2, 3, rng.randrange(12), rng.randrange(65536)])
    return tables


def sound(n, rng):
    """Objects in roots and slots, with true counts; cells for which no entry is left are free."""
    tables = zeros(n)
    for cell in range(n):
        for t, i in ((T_ROOTS, rng.randrange(ROOTS)), (T_SLOTS, rng.randrange(SLOTS * n))):
            if tables[t][i] == 0:
                tables[t][i] = cell + 1
                tables[T_COUNT][cell] += 1
        tables[T_KIND][cell] = min(1, tables[T_COUNT][cell])
    return tables


def some_heap(n, rng):
    return (senseless if rng.random() < 0.7 else sound)(n, rng)


def digits(data, rng):
    """Some of the numbers get leading zeros, up to five digits."""
    lines = [[field.zfill(rng.choice([1, 1, 2, 5])) if field else field for field in line.split(b",")] for line in data.split(b"\r\n")]
    return b"\r\n".join(b",".join(line) for line in lines)


# Fields that are no numbers.
BAD_FIELDS = [
    b"", b"65536", b"65537", b"99999", b"000000", b"000001", b"100000", b"131072", b"4294967296", b"18446744073709551616", b"-0", b"-1", b"+1",
    b" 1", b"1 ", b"\t1", b'"1"', b'""', b'"', b"1.0", b"0x1", b"1e0", b"a", b"/", b":", b"1/", b"1:", b"\0", b"1\0", b"\r", b"\n", b"1\r", b"1\n",
    b"\r1", b"\n1", b"\n\r", b"1;0", b"\xff", b"\xb0", b"\xef\xbb\xbf1", b"\xd9\xa1", b"\x1a", b"\x0c", b"1" * 5000,
    b"0" * 256 + b"1", b"0" * 65_536 + b"1",  # lengths that are 1 when they are cut to fewer bits
]


def spoilt_table(line, rng):
    """The line with a field that is no number, or with a comma too many."""
    fields = line.split(b",")
    at = rng.randrange(len(fields))
    way = rng.randrange(6)
    if way == 0:
        return line + b","
    if way == 1:
        return b"," + line
    if way == 2:
        return line + rng.choice([b"\r", b"\n", b" ", b",\r", b"\0"])
    fields[at] = rng.choice(BAD_FIELDS)
    return b",".join(fields)


def other_length(line, rng):
    fields = line.split(b",")
    return b",".join(rng.choice([fields + [b"0"], fields[:-1], fields * 2, [], fields[:1], fields + [b"0"] * 65536]))


def spoilt(data, rng):
    """A heap's text with one line spoilt, of another length, left out or added."""
    lines = data.split(b"\r\n")[:-1]
    at = rng.randrange(len(lines))
    way = rng.randrange(8)
    if way == 0:
        del lines[at]
    elif way == 1:
        lines.insert(at, rng.choice([b"", b"0", b"0,0"]))
    elif way <= 3:
        lines[at] = other_length(lines[at], rng)
    else:
        lines[at] = spoilt_table(lines[at], rng)
    return b"".join(line + b"\r\n" for line in lines)


def swapped(data, rng):
    """Two of a heap's lines stand in each other's place."""
    lines = data.split(b"\r\n")[:-1]
    a, b = rng.sample(range(len(lines)), 2)
    lines[a], lines[b] = lines[b], lines[a]
    return b"".join(line + b"\r\n" for line in lines)


def piece(rng):
    data = text(some_heap(rng.choice([1, 1, 2, 2, 3, 5, 8, 17]), rng))
    way = rng.random()
    if way < 0.4:
        return data
    return (digits if way < 0.6 else swapped if way < 0.65 else spoilt)(data, rng)


ENDINGS = [b"", b"\r\n", b"\r", b"\n", b"\r\n\r\n", b"\r\r\n", b"\n\r\n", b"\r\n\r", b"\r\n0", b"\r\n0\r", b"\r\n0,0"]


def random_list(rng, heaps):
    data = b"".join(piece(rng) for _ in range(heaps))
    return (data[:-2] if data else data) + rng.choice(ENDINGS)


def each_bad_field():
    """In turn in each of the tables: as one of its fields, and as one too many before or behind them."""
    for i, bad in enumerate(BAD_FIELDS):
        lines = text(zeros(2)).split(b"\r\n")
        at = i % TABLES
        fields = lines[at].split(b",")
        middle = i % len(fields)
        for line in ([*fields[:middle], bad, *fields[middle + 1:]], [bad, *fields], [*fields, bad]):
            yield b"\r\n".join(lines[:at] + [b",".join(line)] + lines[at + 1:]) + text(zeros(1))


def each_length():
    """One table a field longer or shorter, or by as much as a 16-bit length wraps around; and numbers of cells that fit nothing."""
    for n in (1, 2, 7):
        for t in range(TABLES):
            for more in (1, -1, 65536) if n == 1 else (1, -1, 8):
                tables = zeros(n)
                length = max(0, len(tables[t]) + more)
                yield text(tables[:t] + [[0] * length] + tables[t + 1:]) + text(zeros(1))
    for n in (0, CELLS_MAX + 1, 65536 // 8):
        yield text(zeros(n)) + text(zeros(1))


def each_missing():
    """A heap that lacks its last lines, or the end of its last one."""
    whole = text(zeros(1))
    for lines in range(TABLES):
        front = b"".join(line + b"\r\n" for line in whole.split(b"\r\n")[:lines])
        yield front
        yield front[:-2]
        yield front[:-1]
        yield text(zeros(2)) + front
        yield text(zeros(2)) + front + b"0"


def thousands(rng):
    """Lists about the limit: small heaps, heaps refused SIZE, which are seven empty lines, and both."""
    one, none, odd = text(zeros(1)), b"\r\n" * TABLES, text(senseless(1, rng))
    yield one * 999
    yield one * 1000
    yield odd * 1000 + b"0"
    yield odd * 1003
    yield none * 1003
    yield none * 999 + odd
    yield none * 1000 + odd
    yield none * 999 + b"\r"
    yield none * 1000 + b"\r"
    yield b"".join(rng.choice([one, none, odd]) for _ in range(1003))
    yield b"".join(rng.choice([none, none, odd]) for _ in range(1500)) + b"1,2"


def largest(rng):
    """1,024 cells, and more than that, in one table or in all."""
    for t in range(TABLES):
        tables = zeros(CELLS_MAX)
        tables[t].append(0)
        yield text(tables)
    crowded = [[1] * len(table) for table in zeros(CELLS_MAX)]
    full = [[65535] * len(table) for table in zeros(CELLS_MAX)]
    yield text(senseless(CELLS_MAX, rng))
    yield text(crowded) + text(sound(CELLS_MAX, rng)) + text(full)[:-2]
    yield text(zeros(CELLS_MAX + 1)) + text(senseless(CELLS_MAX, rng)) + text(zeros(1))
    yield text(zeros(CELLS_MAX - 1)) + text(zeros(65536)) + text(zeros(1))


def far_too_long(rng):
    """Lines of a hundred thousand entries, fields or bytes, in each place."""
    long_lines = [b"0," * 99_999 + b"0", b"," * 100_000, b"1" * 100_000, b"\r" * 100_000, b"\n" * 1000, b"x" * 100_000,
                  b"65535," * 100_000]
    for i, line in enumerate(long_lines):
        lines = text(zeros(1)).split(b"\r\n")
        lines[i % TABLES] = line
        yield b"\r\n".join(lines) + text(senseless(2, rng))
    yield b"\r\n".join(long_lines)


def all_inputs(seed):
    rng = random.Random(seed)
    heaps = [text(some_heap(n, rng)) for n in (1, 1, 1, 2, 2, 3, 4, 9, 64, 65, 200)]
    ends = [text(senseless(1, rng))[:-2] + end for end in ENDINGS] + [b"\r", b"\n", b"0", b"\r\n", b"\n\r\n"]
    lists = [random_list(rng, rng.randrange(1, 12)) for _ in range(70)]
    return [*heaps, *ends, *lists, *each_bad_field(), *each_length(), *each_missing(), *thousands(rng), *largest(rng), *far_too_long(rng)]
