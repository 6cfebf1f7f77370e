"""Words that are wrong, and scripts on standard input: their limits, and readers and writers that fail."""
import contextlib
import subprocess
import threading

from runs.checked import SECONDS, Ended, shell_status

LIMIT = 16777216
TOO_LARGE = '{"code":4,"refused":"TooLarge"}\n'
UNREADABLE = '{"code":5,"refused":"Unreadable"}\n'
NO_MEETING = '{"code":8,"refused":"NoMeeting"}\n'
LINE = "2026-06-18T10:00:00 M1 G1 mine "


def example(part, lines=None):
    """The first lines, or all, of the example that the README runs."""
    with open(f"examples/poll-by-proxy.{part}", "rb") as file:
        return b"".join(file.readlines()[:lines])


def run(runs):
    runs.ends("replay", output=example("replies"), given=example("replay"))
    runs.table("""
        # words        status  output  error
        -              2       -       *
        --help         2       -       *
        replays        2       -       *
        replay replay  2       -       *
        \udcff         2       -       words
    """, given=example("replay"))
    whole_scripts(runs)
    long_lines(runs)
    found = in_turn(runs.program, example("replay").splitlines(True))
    runs.compare("desk replay < lines, each after the answer to the one before", found, output=example("replies"))
    runs.ends("replay", 3, error="ReadFault", stdin="/dev/zero")
    runs.ends("replay", 3, error="ReadFault", stdin=runs.room)
    runs.ends("replay", 3, error="WriteFault", given=example("replay"), stdout="/dev/full")


def whole_scripts(runs):
    """A script at its limit and one byte past it: empty lines, one line, answers before, and short lines."""
    first = example("replay", 3)
    padded = first + b"\n" * (LIMIT - len(first))
    short = ("a" * 63 + "\n") * (LIMIT // 64)
    answers = UNREADABLE * (LIMIT // 64)
    for given, status, output, error in (
        ("\n" * LIMIT, 0, "", ""),
        ("\n" * (LIMIT + 1), 3, "", "ReadFault"),
        ("x" * (LIMIT + 1), 3, "", "ReadFault"),
        ("x" * LIMIT, 0, TOO_LARGE, ""),
        (padded, 0, example("replies", 3), ""),
        (padded + b"\n", 3, example("replies", 3), "ReadFault"),
        (short, 0, answers, ""),
        (short + "a", 3, answers, "ReadFault"),
    ):
        runs.ends("replay", status, output, error, given)


def long_lines(runs):
    """A line at its limit and past it, and a line behind it."""
    for length in (65536, 65537, 65538, 200000):
        for end in ("\n", "\r\n"):
            given = LINE.ljust(length, "x") + end + LINE + "\n"
            output = (NO_MEETING if length == 65536 else TOO_LARGE) + NO_MEETING
            runs.ends("replay", output=output, given=given)
            if length <= 65537 and end == "\n":
                runs.compare(f"desk replay < {length} bytes, one by one", one_by_one(runs.program, given), output=output)


def one_by_one(program, given):
    """How a replay ends whose input comes from a pipe, byte by byte."""
    pipe = subprocess.PIPE
    with subprocess.Popen([program, "replay"], stdin=pipe, stdout=pipe, stderr=pipe, bufsize=0) as running:
        writer = threading.Thread(target=write_each, args=(running.stdin, given.encode()))
        writer.start()
        output, error = running.stdout.read(), running.stderr.read()
        writer.join()
    return Ended(shell_status(running.returncode), output, error)


def in_turn(program, lines):
    """How a replay ends whose input comes from a pipe, each line once the answer to the one before has come."""
    pipe = subprocess.PIPE
    with subprocess.Popen([program, "replay"], stdin=pipe, stdout=pipe, stderr=pipe, bufsize=0) as running:
        limit = threading.Timer(SECONDS, running.kill)
        limit.start()
        output = b""
        with contextlib.suppress(BrokenPipeError):
            for line in lines:
                running.stdin.write(line)
                output += running.stdout.readline()
        running.stdin.close()
        output, error = output + running.stdout.read(), running.stderr.read()
        limit.cancel()
    return Ended(shell_status(running.returncode), output, error)


def write_each(stream, given):
    try:
        for at in range(len(given)):
            stream.write(given[at:at + 1])
    except BrokenPipeError:
        pass
    stream.close()
