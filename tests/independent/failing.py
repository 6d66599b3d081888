"""Inputs that can't be read and outputs that can't be written, and what the program has to make of them.

A read or a write that fails ends the run with status 1, a message on standard error that has the system's words for
what failed, and no wrong line; so does a write to a pipe whose reader has gone (docs/DECISIONS.md, 29).
"""
import contextlib
import errno
import os
import resource
import socket
import subprocess
import tempfile

from feeding import Outcome, contents, ended
from known import HEADER

LINES, ANSWERS = b"1,0,1,0\r\n2,0,0,0\r\n", b"1,0,0,0,0\r\n2,0,1,0,0\r\n"
LONG, LONG_OUTPUT = 20_000 * LINES, HEADER + 20_000 * ANSWERS  # more than a pipe holds

# how the language names what a system call fails with
KINDS = {
    errno.EBADF: "Uncategorized",
    errno.ECONNRESET: "ConnectionReset",
    errno.EFBIG: "FileTooLarge",
    errno.EISDIR: "IsADirectory",
    errno.ENOSPC: "StorageFull",
    errno.EPIPE: "BrokenPipe",
}


def told(number, output):
    """The outcome of a run that a failed read or write ended, when this much had been written."""
    said = f'Error: Os {{ code: {number}, kind: {KINDS[number]}, message: "{os.strerror(number)}" }}\n'
    return Outcome(1, output, said.encode())


@contextlib.contextmanager
def opened(path, mode):
    descriptor = os.open(path, mode)
    try:
        yield descriptor
    finally:
        os.close(descriptor)


@contextlib.contextmanager
def file_of(data):
    with tempfile.TemporaryFile() as file:
        file.write(data)
        file.seek(0)
        yield file


@contextlib.contextmanager
def reset_after(data):
    """A socket that gives the data and then fails, since its other end was closed with something unread."""
    ours, theirs = socket.socketpair()
    with theirs:
        theirs.send(b"never read")
        ours.sendall(data)
        ours.close()
        yield theirs


def run(command, source, target, **settings):
    """The status and what stands on standard error: a pipe, since a limit on files would hold for a file."""
    process = subprocess.Popen(command, stdin=source, stdout=target, stderr=subprocess.PIPE, **settings)
    with process.stderr:
        return ended(process), process.stderr.read()


def reading(command, source, **settings):
    with tempfile.TemporaryFile() as output:
        status, errors = run(command, source, output, **settings)
        return Outcome(status, contents(output), errors)


def failed_reads(command):
    """Each as its name, the outcome, and the outcome that should be."""
    with opened("/", os.O_RDONLY) as folder:
        yield "input is a directory", reading(command, folder), told(errno.EISDIR, HEADER)
    with opened(os.devnull, os.O_WRONLY) as sink:
        yield "input is open for writing only", reading(command, sink), told(errno.EBADF, HEADER)
    yield "input is closed", reading(command, None, preexec_fn=lambda: os.close(0)), told(errno.EBADF, HEADER)
    for times, rest in ((0, b""), (0, b"1,0,1,0"), (1, b""), (1, b"1,0,1,0"), (1, b"1,0,1,0\r"), (500, b"6,0,0,0")):
        with reset_after(times * LINES + rest) as source:
            wanted = told(errno.ECONNRESET, HEADER + times * ANSWERS)
            yield f"input fails after {2 * times} lines and {rest!r}", reading(command, source), wanted


def writing(command, data, target, **settings):
    with file_of(data) as source:
        status, errors = run(command, source, target, **settings)
        return Outcome(status, b"", errors)


def limited(command, data, most):
    """The output is a file that takes so many bytes. SIGXFSZ is ignored, so that the write fails."""
    with file_of(data) as source:
        return reading(command, source, restore_signals=False, preexec_fn=lambda: resource.setrlimit(resource.RLIMIT_FSIZE, (most, most)))


def failed_writes(command):
    with opened("/dev/full", os.O_WRONLY) as full:
        yield "output is full", writing(command, LINES, full), told(errno.ENOSPC, b"")
    with opened(os.devnull, os.O_RDONLY) as source:
        yield "output is open for reading only", writing(command, LINES, source), told(errno.EBADF, b"")
    yield "output is closed", writing(command, LINES, None, preexec_fn=lambda: os.close(1)), told(errno.EBADF, b"")
    # in the header, after it, in an answer, and in the answer to a line that the end of the input ends
    for data, most in ((b"", 0), (b"", 29), (LINES, 30), (LINES, 35), (LONG, 5000), (LINES[:-2], 41), (LINES[:-2], 45)):
        wanted = told(errno.EFBIG, LONG_OUTPUT[:most])
        yield f"output takes {most} bytes, input of {len(data)}", limited(command, data, most), wanted


def closed_after(command, taken, heeded):
    """The output is a pipe that is closed when so many bytes of it have been read."""
    read_end, write_end = os.pipe()
    with file_of(LONG) as source:
        process = subprocess.Popen(command, stdin=source, stdout=write_end, stderr=subprocess.PIPE, restore_signals=heeded)
    os.close(write_end)
    with process.stderr:
        with open(read_end, "rb", buffering=0) as pipe:
            output = b""
            while len(output) < taken and (more := pipe.read(taken - len(output))):
                output += more
        return Outcome(ended(process), output, process.stderr.read())


def closed_outputs(command):
    for taken in (0, 1, 30, 5000, 100_000):
        output = LONG_OUTPUT[:taken]
        yield f"output closed after {taken} bytes", closed_after(command, taken, True), told(errno.EPIPE, output)
        yield f"output closed after {taken} bytes, SIGPIPE ignored", closed_after(command, taken, False), told(errno.EPIPE, output)


def outcomes(command):
    yield from failed_reads(command)
    yield from failed_writes(command)
    yield from closed_outputs(command)
