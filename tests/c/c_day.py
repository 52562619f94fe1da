#!/usr/bin/env python3
"""The example of two meters.

    c_day.py ARCHIVE

- It prints the day that the second engine names and says how many blocks are apart, also under
  valgrind, and the example host enters what it printed.
- It refuses days with 2 and 17, and malformed readings, and then prints nothing.
"""

import os
import random
import subprocess
import sys
import tempfile

from c_host import (HOST, MEMCHECK, NAMES, REPOSITORY, STRICT, Disk, agreement_a, build, check,
                    counted, good_run, journal_calls, records, run)
from second.calls import packed
from second.engine import ACCEPTED, MAIN_METER, Engine, inputs_from_bytes

DAY = "examples/day.c"
SAMPLE = "examples/two_meters.csv"
SAMPLE_TOLERANCE = 500
BLOCKS = Engine.DAY_BLOCKS
NO_OUTPUT = bytes(8 * Engine.DAY_OUTPUT_LENGTH)


def line(main, check_reading, rest=b"5,6\n"):
    """A line of readings; None is a missing one."""
    shown = (b"" if reading is None else b"%d" % reading for reading in (main, check_reading))
    return b",".join((*shown, rest))


def days_of(readings):
    """Both meters' days, and what stands in each line after them."""
    fields = [text.split(b",", 2) for text in readings.splitlines(keepends=True)]
    days = [[int(text) if text else Engine.MISSING for text in meter]
            for meter in list(zip(*fields))[:2]]
    return days, [rest for _, _, rest in fields]


def printed(readings, tolerance):
    """What it prints and says: the second engine names the day."""
    days, rests = days_of(readings)
    number, output = Engine().day(*map(packed, days), tolerance, NO_OUTPUT)
    if number != ACCEPTED:
        raise ValueError("the second engine refuses a day that is to be printed")
    meter, _, apart, _ = inputs_from_bytes(output)
    return (b"".join(b"%d,%s" % pair for pair in zip(days[meter], rests)),
            b"day: %s meter, %d blocks apart\n" % (b"main" if meter == MAIN_METER else b"check", apart))


def good_day(what, command, readings, tolerance):
    journal, said = printed(readings, tolerance)
    done = run(*command, str(tolerance), input=readings)
    check(what + ": status", done.returncode == 0, done.stderr)
    check(what + ": print", done.stdout == journal, done.stdout[:200])
    check(what + ": what is said", done.stderr == said, done.stderr)
    return journal


def bad_day(what, day, readings, message, tolerance="0", status=1):
    done = run(day, tolerance, input=readings)
    check(what + ": status", done.returncode == status and not done.stdout, done.stdout[:200])
    check(what + ": message", message in done.stderr, done.stderr)


def random_readings(rng):
    """A day in which only one of the two meters misses readings, or none."""
    lacking, lines = rng.randrange(3), []
    for _ in range(BLOCKS):
        reading = rng.choice((0, 4_294_967_294, rng.randrange(200_000_001)))
        pair = [reading, max(0, min(4_294_967_294, reading + rng.randint(-60, 60)))]
        if lacking < 2 and rng.random() < 0.1:
            pair[lacking] = None
        lines.append(line(*pair, rest=b"%d,%d\n" % (rng.randrange(99_999), rng.randrange(9))))
    return b"".join(lines)


def good_days(day, host):
    with open(SAMPLE, "rb") as file:
        sample = file.read()
    for what, command in (("the sample", [day]), ("the sample under valgrind", [*MEMCHECK, day])):
        journal = NAMES + good_day(what, command, sample, SAMPLE_TOLERANCE) + b"close\n"
    made = list(records(agreement_a() + list(journal_calls(journal))))
    good_run("the host on what the sample gives", [host], Disk(), journal, made[-1])

    rng = random.Random(1)
    for number in range(60):
        good_day(f"random day {number}", [day], random_readings(rng), rng.choice((0, 1, 30, 2**32 - 1)))


def bad_days(day):
    whole = [line(7, 8)] * BLOCKS
    for what, count in (("no line", 0), ("95 lines", 95), ("97 lines", 97), ("1,000 lines", 1_000)):
        bad_day(what, day, b"".join(whole[:1] * count), b"refused 2\n")
    for what, first, last in (("missing in two blocks", line(None, 8), line(7, None)),
                              ("missing in one block", line(None, None), line(7, 8))):
        bad_day(what, day, b"".join([first, *whole[2:], last]), b"refused 17\n")
    for what, text in (("letters", b"x,8,5,6\n"), ("space", b" 7,8,5,6\n"), ("sign", b"-7,8,5,6\n"),
                       ("plus", b"+7,8,5,6\n"), ("the mark itself", b"4294967295,8,5,6\n"),
                       ("too high", b"4294967296,8,5,6\n"), ("far too high", b"9" * 30 + b",8,5,6\n"),
                       ("one reading", b"7\n"), ("no consumers", b"7,8\n"), ("empty", b"\n"),
                       ("point", b"7.5,8,5,6\n")):
        for place in (0, 95):
            lines = list(whole)
            lines[place] = text
            bad_day(f"{what} in block {place}", day, b"".join(lines), b"malformed number")
    bad_day("long line", day, line(7, 8, b"5," * 400 + b"6\n"), b"too long")
    bad_day("no last line feed", day, b"".join(whole)[:-1], b"no line feed")
    for tolerance in ("", "-1", "x", "4294967296", "5 "):
        bad_day(f"tolerance {tolerance!r}", day, b"".join(whole), b"malformed", tolerance=tolerance)
    check("no argument", run(day, input=b"").returncode == 2)
    with open("/dev/full", "wb") as full:
        done = subprocess.run([day, "0"], input=b"".join(whole), stdout=full,
                              stderr=subprocess.PIPE, check=False)
    check("standard output full", done.returncode == 1 and b"cannot be written" in done.stderr)


def main():
    if len(sys.argv) != 2:
        print(__doc__)
        return 2
    archive = os.path.abspath(sys.argv[1])
    os.chdir(REPOSITORY)
    with tempfile.TemporaryDirectory() as folder:
        programs = [os.path.join(folder, name) for name in ("day", "host")]
        for program, source in zip(programs, (DAY, HOST)):
            build(source, "gcc", *STRICT, "-Iinclude", "-o", program, source, archive)
        good_days(*programs)
        bad_days(programs[0])
    print(f"c_day: {counted['checks']} checks, {counted['failed']} failed")
    return 1 if counted["failed"] else 0


if __name__ == "__main__":
    sys.exit(main())
