"""Runs a program that reads standard input, and hands the input over in pieces; the writer waits for the answers or not."""
import fcntl
import os
import random
import re
import select
import struct
import subprocess
import sys
import tempfile
import termios
import time
import typing

PATIENCE = 20.0  # seconds for a program that should have ended


class Outcome(typing.NamedTuple):
    status: int | None
    output: bytes
    errors: bytes = b""  # what stands on standard error

    def __str__(self):
        return f"status {self.status}, {self.output[:200]!r}, on standard error {self.errors[:200]!r}"


def wait_until_read(pipe, process):
    """Returns when the pipe is empty: the reader's next read gets the next piece alone."""
    end = time.monotonic() + PATIENCE
    while process.poll() is None and time.monotonic() < end:
        (left,) = struct.unpack("i", fcntl.ioctl(pipe, termios.FIONREAD, b"\0" * 4))
        if left == 0:
            return
        time.sleep(0.0001)


def write_pieces(pipe, process, pieces):
    try:
        for piece in pieces:
            while piece:
                piece = piece[os.write(pipe, piece):]
            wait_until_read(pipe, process)
    except BrokenPipeError:
        pass  # the program ended early; its output tells


def ended(process):
    """The exit status, minus the signal's number for a program that a signal ended, or None for one that had to be killed."""
    try:
        return process.wait(PATIENCE)
    except subprocess.TimeoutExpired:
        process.kill()
        process.wait()
        return None


def contents(file):
    file.seek(0)
    return file.read()


def run(command, pieces):
    """How the program ended and what it wrote. All output goes to files, so that nobody has to read it meanwhile."""
    with tempfile.TemporaryFile() as output, tempfile.TemporaryFile() as errors:
        read_end, write_end = os.pipe()
        process = subprocess.Popen(command, stdin=read_end, stdout=output, stderr=errors)
        os.close(read_end)
        write_pieces(write_end, process, pieces)
        os.close(write_end)
        return Outcome(ended(process), contents(output), contents(errors))


def read_until(pipe, output, least):
    """The output with what has come by now; while it is shorter than that, more is waited for."""
    end = time.monotonic() + PATIENCE
    while select.select([pipe], [], [], max(0, end - time.monotonic()) if len(output) < least else 0)[0]:
        more = os.read(pipe, 1 << 16)
        if not more:
            break
        output += more
    return output


def due(pieces, output, header):
    """For each piece, the least and the most of the output that may be there before the next is sent: the answers to the lines
    that have ended, behind a header of that length, which may come alone."""
    ends = [header, *(m.end() for m in re.compile(b"\r\n").finditer(output, header))]
    sent = b""
    for piece in pieces:
        sent += piece
        most = ends[sent.count(b"\r\n")]
        yield 0 if most == header else most, most


def converse(command, pieces, due):
    """How the program ended and what it wrote, if each piece is sent only when what is due before has come. It is killed
    where something is late, or comes too soon."""
    with tempfile.TemporaryFile() as errors, subprocess.Popen(
            command, stdin=subprocess.PIPE, stdout=subprocess.PIPE, stderr=errors, bufsize=0) as process:
        output, pipe = b"", process.stdout.fileno()
        for piece, (least, most) in zip(pieces, due):
            write_pieces(process.stdin.fileno(), process, [piece])
            output = read_until(pipe, output, least)
            if not least <= len(output) <= most:
                process.kill()
                break
        process.stdin.close()
        output = read_until(pipe, output, sys.maxsize)
        return Outcome(ended(process), output, contents(errors))


def whole(data, rng):
    return [data]


def bytewise(data, rng):
    """Long inputs come in pieces of an eightieth."""
    step = 1 + len(data) // 80
    return [data[i:i + step] for i in range(0, len(data), step)]


def after_each_cr(data, rng):
    """A line's CR and LF come apart, the first dozen of them."""
    ends = [m.end() for m in re.finditer(b"\r", data)][:12]
    return [data[a:b] for a, b in zip([0] + ends, ends + [len(data)])]


def anywhere(data, rng):
    ends = sorted(rng.randrange(len(data) + 1) for _ in range(rng.randrange(1, 12)))
    return [data[a:b] for a, b in zip([0] + ends, ends + [len(data)])]


CUTS = (whole, bytewise, after_each_cr, anywhere)


def pieces_for(data, seed):
    """The input cut in each way, by the name of the way."""
    return [(cut.__name__, cut(data, random.Random(seed))) for cut in CUTS]
