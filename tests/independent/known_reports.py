"""Inputs of the auditor with the reports that Q-4 in document 02 gives them, worked out by hand."""
from heaps import text, zeros
from reports import ROOTS

HEADER = b"heap,cell,below,at,above,sum,lost,size\r\n"


def known(lines):
    """Lines of a report behind its header; a space stands between two."""
    return HEADER + b"".join(line.encode() + b"\r\n" for line in lines.split())


def roots(*entries):
    return b",".join(b"%d" % entry for entry in (*entries, *[0] * (ROOTS - len(entries)))) + b"\r\n"


NO_SLOTS = b"0,0,0,0,0,0,0,0\r\n"  # of a single cell

ALL_SIZE = known(" ".join(f"{heap},,0,0,0,0,0,1" for heap in range(1, 1001)) + " ,,0,0,0,0,0,1000")  # a thousand heaps refused SIZE

# Three heaps: cell 1, an object, is held by a root and by a slot of the free cell 0, and its count is 1; the roots are too few; a single
# cell is held by the queue past its length, its count is 7, and two references are lost.
THREE = (b"0,1\r\n0,0\r\n0,1\r\n0,0,2" + b",0" * 13 + b"\r\n" + roots(2) + b"0,0\r\n0,0\r\n"
         + b"1\r\n0\r\n1\r\n" + NO_SLOTS + roots(1)[:-4] + b"\r\n0\r\n0,0\r\n"
         + b"3\r\n0\r\n7\r\n" + b"0,0,0,0,0,0,0,2\r\n" + roots(65535) + b"1\r\n0,0")
KNOWN = [
    (b"", known(",,0,0,0,0,0,0")),
    (text(zeros(1)), known("1,0,0,1,0,0,0,0 1,,0,1,0,0,0,0 ,,0,1,0,0,0,0")),
    (text(zeros(1))[:-2], known("1,0,0,1,0,0,0,0 1,,0,1,0,0,0,0 ,,0,1,0,0,0,0")),
    (text(zeros(1))[:-1], known("1,,0,0,0,0,0,1 ,,0,0,0,0,0,1")),
    (b"\r\n", known("1,,0,0,0,0,0,1 ,,0,0,0,0,0,1")),
    (b"\r\n" * 7, known("1,,0,0,0,0,0,1 ,,0,0,0,0,0,1")),
    (b"\r\n" * 8, known("1,,0,0,0,0,0,1 2,,0,0,0,0,0,1 ,,0,0,0,0,0,2")),
    (b"\n", known("1,,0,0,0,0,0,1 ,,0,0,0,0,0,1")),
    (b"0\r\n0\r\n65535\r\n" + NO_SLOTS + roots() + b"0\r\n0,0\r\n", known("1,0,0,0,1,65535,0,0 1,,0,0,1,65535,0,0 ,,0,0,1,65535,0,0")),
    (b"\r\n" * 7000, ALL_SIZE),
    (THREE, known("1,0,0,1,0,0,0,0 1,1,1,0,0,-1,0,0 1,,1,1,0,-1,0,0 2,,0,0,0,0,0,1 3,0,0,0,1,6,0,0 3,,0,0,1,6,2,0 ,,1,1,1,5,2,1")),
]

# What begins one more is refused MANY and has no line.
KNOWN_MANY = [(b"\r\n" * 7001, ALL_SIZE), (b"\r\n" * 7000 + b"0", ALL_SIZE), (b"\r\n" * 7000 + text(zeros(1)) * 3, ALL_SIZE)]
