#!/usr/bin/env python3
"""The rehearsal program on streams that are slow, full, closed or no file.

Usage: tests/streams.py PROGRAM RUNFILE LOG LIBRARY, where LOG is what the program is to write for RUNFILE, more than a pipe
holds, and LIBRARY is tests/streams.c, built to be loaded before the C library.
Stops at the first case that fails.
"""

import os
import resource
import select
import socket
import subprocess
import sys
import threading
import time

LIMIT = 120  # seconds for a run
PAUSE = 0.3  # seconds for which a slow stream waits
# 01's first example.
with open("tests/worked.run", "rb") as file:
    GOOD = file.read()
with open("tests/worked.log", "rb") as file:
    LOG = file.read()


def fail(case, told):
    sys.exit(f"streams: {case}: {told}")


def start(program, *arguments, stdin=subprocess.PIPE, stdout=subprocess.PIPE):
    """The program, with SIGPIPE ignored, as python3 ignores it."""
    return subprocess.Popen([program, *arguments], stdin=stdin, stdout=stdout, stderr=subprocess.PIPE, restore_signals=False)


def ended(case, run, given=None):
    """What a run wrote on standard output and standard error; it ends within the limit."""
    try:
        return run.communicate(given, timeout=LIMIT)
    except subprocess.TimeoutExpired:
        run.kill()
        run.wait()
        fail(case, f"no end after {LIMIT} s")


def expect(case, got, wanted):
    if got != wanted:
        fail(case, f"{got[:200]!r}, not {wanted[:200]!r}")


def expect_one_line(case, errors, start_with):
    if not errors.startswith(start_with) or errors.count(b"\n") != 1 or not errors.endswith(b"\n"):
        fail(case, f"standard error has {errors[:200]!r}, not one line that starts with {start_with!r}")


def busy():
    """The processor time of all runs that have ended, in seconds."""
    used = resource.getrusage(resource.RUSAGE_CHILDREN)
    return used.ru_utime + used.ru_stime


def slow_input(program):
    """A non-blocking input, empty at first, whose C line comes later. The program waits and does not spin."""
    case = "slow non-blocking input"
    before = busy()
    reading, writing = os.pipe()
    os.set_blocking(reading, False)
    run = start(program, stdin=reading)
    os.close(reading)
    try:
        for piece in (b"", GOOD[:8], GOOD[8:12], GOOD[12:]):
            os.write(writing, piece)
            time.sleep(PAUSE)
    except BrokenPipeError:
        pass  # it took the pause for the end, which its log shows
    os.close(writing)
    out, errors = ended(case, run)
    expect(case, out, LOG)
    expect(case, errors, b"")
    if busy() - before > PAUSE:
        fail(case, f"{busy() - before:.2f} s of processor time while it waited for {4 * PAUSE:.1f} s")


def unread(case, program, stdin):
    """An input that cannot be read, or not to its end: nothing is answered, and one line is said."""
    out, errors = ended(case, start(program, stdin=stdin))
    expect(case, out, b"")
    expect_one_line(case, errors, b"rehearse: standard input: ")


def directory(program):
    folder = os.open(".", os.O_RDONLY)
    unread("a directory as input", program, folder)
    os.close(folder)


def broken_after(case, program, given):
    """These bytes come, and then a read fails: the other end of a socket pair is closed with a byte unread."""
    ours, theirs = socket.socketpair()
    ours.setsockopt(socket.SOL_SOCKET, socket.SO_SNDBUF, 400000)
    theirs.send(b"x")
    ours.sendall(given)
    ours.close()
    unread(case, program, theirs.fileno())
    theirs.close()


def broken_input(program):
    broken_after("an input that fails after its first line", program, GOOD[:12])


def broken_long_input(program):
    """As many bytes as a run file may have, or more: it is not even answered that the file is refused."""
    for length in (65536, 70536):
        broken_after(f"an input that fails after {length} bytes", program, GOOD + b"\n" * (length - len(GOOD)))


def whole_input(program):
    """An input far too long is read to its end: its writer is not cut off, and nothing is written before."""
    case = "a long input whose end comes late"
    run = start(program)
    try:
        for _ in range(80):
            run.stdin.write(b"\n" * 65536)
        run.stdin.flush()
    except BrokenPipeError:
        fail(case, "its writer is cut off")
    if select.select([run.stdout], [], [], PAUSE)[0]:
        fail(case, "something is written before its end")
    out, errors = ended(case, run, b"")
    expect(case, out, b"1,0\n")
    expect(case, errors, b"")


def full_output(program, given):
    """The log has more parts than one: after the first that cannot be written the program stops."""
    case = "a full device as output"
    with open("/dev/full", "wb") as full:
        _, errors = ended(case, start(program, stdout=full), given)
    expect_one_line(case, errors, b"rehearse: standard output: ")


def closed_output(program, given):
    case = "a closed pipe as output, SIGPIPE ignored"
    reading, writing = os.pipe()
    os.close(reading)
    run = start(program, stdout=writing)
    os.close(writing)
    _, errors = ended(case, run, given)
    expect_one_line(case, errors, b"rehearse: standard output: ")


def slow_output(program, run_file, log):
    """A non-blocking output that is full for a while and then read a little at a time."""
    case = "slow non-blocking output"
    reading, writing = os.pipe()
    os.set_blocking(writing, False)
    with open(run_file, "rb") as given:
        run = start(program, stdin=given, stdout=writing)
    os.close(writing)
    limit = threading.Timer(LIMIT, run.kill)
    limit.start()
    time.sleep(PAUSE)
    out = b""
    while piece := os.read(reading, 5000):
        out += piece
    limit.cancel()
    os.close(reading)
    _, errors = ended(case, run)
    if len(log) <= 65536:
        fail(case, "the log fits into a pipe")
    expect(case, out, log)
    expect(case, errors, b"")


def short_calls(program, given, wanted, library):
    """Reads and writes that are interrupted, find nothing to move yet or move few bytes: each byte is still moved once."""
    for seed in range(8):
        case = f"interrupted and short calls, seed {seed}"
        places = dict(os.environ, LD_PRELOAD=os.path.abspath(library), STREAMS_SEED=str(seed))
        run = subprocess.Popen([program], stdin=subprocess.PIPE, stdout=subprocess.PIPE, stderr=subprocess.PIPE, env=places)
        out, errors = ended(case, run, given)
        expect(case, errors, b"")
        if out != wanted:
            fail(case, f"{len(out)} bytes, not the {len(wanted)} of the log")


def arguments(program):
    case = "an argument"
    for given in (("--help",), ("a", "b")):
        out, errors = ended(case, start(program, *given), GOOD)
        expect(case, out, b"")
        expect_one_line(case, errors, b"usage: rehearse ")


def main():
    program, run_file, log_file, library = sys.argv[1:]
    with open(log_file, "rb") as log:
        wanted = log.read()
    slow_input(program)
    directory(program)
    broken_input(program)
    broken_long_input(program)
    whole_input(program)
    with open(run_file, "rb") as file:
        given = file.read()
    for text in (GOOD, given):
        full_output(program, text)
        closed_output(program, text)
    slow_output(program, run_file, wanted)
    short_calls(program, given, wanted, library)
    arguments(program)
    print("streams: 10 cases")


main()
