"""Inputs for the program of document 01: those whose outputs are known, further good lines, and long lists of good and bad ones."""
import random

from known import BAD_LINES, known_outputs

GOOD_LINES = [
    b"00001,00000,00001,00000", b"1,1,01,0", b"01,2,2,00", b"5,00000,0,1", b"00006,00000,00000,00000", b"1,65535,1,0", b"1,3,65535,0",
    b"1,3,1,65535", b"7,64,0,0", b"2,63,0,0", b"2,64,0,0", b"4,3,0,7", b"4,3,0,8", b"5,0,8,0", b"1,3,0,0", b"1,3,4,0", b"1,3,3,1", b"1,3,1,2",
    b"3,65535,65535,0", b"4,65535,65535,65535", b"8,0,0,0", b"6,0,0,0",
]

ARGUMENTS = {1: "rkf", 2: "r", 3: "rr", 4: "rrs", 5: "rsr", 6: "", 7: "r", 8: ""}
CALLS = [1] * 5 + [2] * 4 + [3] * 2 + [4] * 2 + [5] * 5 + [6] + [7] * 2 + [8] * 2


def argument(what, rng):
    if rng.random() < 0.03:
        return rng.choice([8, 9, 63, 64, 255, 256, 65535])
    return {"r": rng.randrange(7), "k": rng.choice([1, 1, 1, 2, 3]), "f": rng.randrange(2), "s": rng.randrange(4)}[what]


def call_line(rng):
    call = rng.choice(CALLS)
    fields = [call] + [argument(what, rng) for what in ARGUMENTS[call]]
    fields += [0] * (4 - len(fields))
    return b",".join(b"%0*d" % (rng.choice([1, 1, 1, 2, 5]), field) for field in fields)


def random_list(rng, lines, bad_share):
    short = [line for line in BAD_LINES if len(line) < 100]
    listed = [rng.choice(short) if rng.random() < bad_share else call_line(rng) for _ in range(lines)]
    return b"\r\n".join(listed) + rng.choice([b"", b"\r\n", b"\r", b"\n", b"\r\n\r\n"])


def around(line):
    """A line alone, ended, and between calls that show what it does."""
    return [line, line + b"\r\n", b"1,0,1,0\r\n" + line + b"\r\n1,1,1,0\r\n2,0,0,0\r\n" + line]


def all_inputs(seed):
    rng = random.Random(seed)
    good = [text for line in GOOD_LINES for text in around(line)]
    lists = [random_list(rng, rng.randrange(1, 60), 0.2) for _ in range(40)] + [random_list(rng, 3000, 0.05) for _ in range(4)]
    return [data for data, _ in known_outputs()] + [b"\r\n".join(GOOD_LINES)] + good + lists
