#!/usr/bin/env python3
"""Runs the program `wheel` on texts and compares what it prints.

    wheel_cases.py PROGRAM [--seed S] [--texts N]

Where document 01 fixes what is printed, the literal stands here; every text, random ones too, is also held against the second
`wheel` (second/table.py). A difference prints what was run, with the seed and the text of a random one. Exit status 0 where none
differs.
"""

import argparse
import random
import subprocess
import sys
from pathlib import Path

sys.path.insert(0, str(Path(__file__).resolve().parent.parent))

from second import paper_cases, table  # noqa: E402

NAMES = b"E1,R1,R2\n"
HEADING = b"generator,injected,unaccounted,loss,setoff,inadvertent,charge,drawn,lapsed,bank,pending\n"
LIMIT = 64 * 1024
LIMIT_VALUES = (200_000_000, 200_000_001, 4_294_967_295, 4_294_967_296)
TEXT_SHOWN = 8_000


def refused(number):
    return b"refused %d\n" % number


def of_length(size):
    """A table of exactly this many bytes that the reader accepts."""
    return paper_cases.well_formed(NAMES, size)


# What is printed where document 01 fixes it.
FIXED = (
    ("the paper's example", NAMES + b"70001,20000,60000\n30000,5000,0\n",
     HEADING + b"1,100001,0,6666,69335,0,2400,15665,0,5935,0\n"),
    # Parts 5 and 10: 10 % and 5 % are half a Wh each, and 1 is lost of either. 13 are pending, and
    # the charge of 1.3 is 2.
    ("halves of a loss, and a charge that is not whole", NAMES + b"15,0,0\n",
     HEADING + b"1,15,0,2,0,0,2,0,0,11,0\n"),
    ("a zero block", NAMES + b"0,0,0\n", HEADING + b"1,0,0,0,0,0,0,0,0,0,0\n"),
    ("no value lines", NAMES, refused(13)),
    ("empty input", b"", refused(14)),
    ("wrong names", b"E1,R2,R1\n1,2,3\n", refused(14)),
    ("names without their line feed", b"E1,R1,R2", refused(14)),
    ("CR LF after the names", b"E1,R1,R2\r\n1,2,3\r\n", refused(14)),
    ("CR LF after a line", NAMES + b"1,2,3\r\n", refused(15)),
    ("no last line feed", NAMES + b"1,2,3", refused(15)),
    ("leading zero", NAMES + b"07,5,0\n", refused(15)),
    ("bytes over 127", NAMES + bytes(range(128, 256)) + b"\n", refused(15)),
    ("names with a byte over 127", b"E1,R1,R\xb2\n1,2,3\n", refused(14)),
    # The highest value is read, and is a reading over the limit.
    ("4,294,967,295", NAMES + b"4294967295,0,0\n", refused(10)),
    ("4,294,967,296", NAMES + b"4294967296,0,0\n", refused(15)),
    ("200,000,001", NAMES + b"200000001,0,0\n", refused(10)),
    ("200,000,001 at the exit", NAMES + b"0,0,200000001\n", refused(10)),
    ("200,000,001 on the second line", NAMES + b"1,2,3\n0,200000001,0\n", refused(10)),
    ("200,000,001 before a malformed line", NAMES + b"200000001,0,0\n1,2\n", refused(15)),
    ("3,360 lines", NAMES + b"0,0,0\n" * 3_360, HEADING + b"1,0,0,0,0,0,0,0,0,0,0\n"),
    ("3,361 lines", NAMES + b"0,0,0\n" * 3_361, refused(16)),
    ("a reading over the limit in 3,361 lines", NAMES + b"200000001,0,0\n" + b"0,0,0\n" * 3_360, refused(16)),
    ("64 KiB and one byte", of_length(LIMIT + 1), refused(15)),
    ("64 KiB and one byte that is no digit", of_length(LIMIT) + b"x", refused(15)),
    ("past 64 KiB with wrong names", b"E1,R2,R1\n" + b"1,2,3\n" * 20_000, refused(14)),
    ("past 64 KiB and 3,360 lines", NAMES + b"1,2,3\n" * 20_000, refused(15)),
)

# What is printed where only the second engine says it.
COMPARED = (
    ("64 KiB", of_length(LIMIT)),
    ("64 KiB less one byte", of_length(LIMIT - 1)),
    ("200,000,000 everywhere", NAMES + b"200000000,200000000,200000000\n" * 2_000),
    ("200,000,000 in, nothing out", NAMES + b"200000000,0,0\n" * 3_360),
)


def random_value(rng, limits):
    kind = rng.randrange(20)
    if kind == 0 and limits:
        return rng.choice(LIMIT_VALUES)
    if kind < 4:
        return 0
    return rng.randrange(10 ** rng.randrange(1, 9))


def random_table(rng):
    lines = rng.choice((1, 2, 3, 10, rng.randrange(200)))
    limits = rng.randrange(4) == 0
    return NAMES + b"".join(b"%d,%d,%d\n" % tuple(random_value(rng, limits) for _ in range(3)) for _ in range(lines))


def damaged(rng, text):
    """The text with some bytes changed, left out, put in, or with its end cut off."""
    bytes_now = bytearray(text)
    for _ in range(rng.randrange(1, 4)):
        place = rng.randrange(len(bytes_now) + 1)
        kind = rng.randrange(4)
        if kind == 0:
            bytes_now[place:place] = bytes([rng.choice(b"0123456789,\n\r ER+-") if rng.randrange(4) else rng.randrange(256)])
        elif kind == 1:
            del bytes_now[place:place + 1]
        elif kind == 2 and place < len(bytes_now):
            bytes_now[place] = rng.randrange(256)
        else:
            del bytes_now[place:]
    return bytes(bytes_now)


def random_text(seed):
    rng = random.Random(seed)
    text = random_table(rng)
    return damaged(rng, text) if rng.randrange(2) else text


class Wheel:
    def __init__(self, program):
        self.program = program
        self.run_count = 0
        self.differences = 0

    def compare(self, what, text, expected):
        self.run_count += 1
        run = subprocess.run([self.program], input=text, capture_output=True, timeout=60)
        if run.returncode == 0 and run.stdout == expected:
            return
        self.differences += 1
        print(f"wheel differs: {what}")
        print(f"    text: {text[:TEXT_SHOWN]!r}{' ...' if len(text) > TEXT_SHOWN else ''} ({len(text)} bytes)")
        print(f"    expected: {expected!r}")
        print(f"    printed:  {run.stdout!r} (exit status {run.returncode})")


def main():
    arguments = argparse.ArgumentParser()
    arguments.add_argument("program")
    arguments.add_argument("--seed", type=int, default=1)
    arguments.add_argument("--texts", type=int, default=400)
    options = arguments.parse_args()

    wheel = Wheel(options.program)
    for what, text, expected in FIXED:
        wheel.compare(what, text, expected)
        wheel.compare(what + ", second wheel", text, table.wheel_output(text))
    for what, text, number in paper_cases.WHEEL_REFUSALS:
        wheel.compare(what, text, refused(number))
    for what, text, number in paper_cases.READER_EDGES:
        if number:
            wheel.compare(what, text, refused(number))
        wheel.compare(what + ", second wheel", text, table.wheel_output(text))
    for what, text in COMPARED:
        expected = table.wheel_output(text)
        if not expected.startswith(HEADING):
            wheel.differences += 1
            print(f"{what}: the second wheel prints no equation: {expected!r}")
        wheel.compare(what, text, expected)
    accepted = 0
    for seed in range(options.seed, options.seed + options.texts):
        text = random_text(seed)
        expected = table.wheel_output(text)
        accepted += expected.startswith(HEADING)
        wheel.compare(f"random text, --seed {seed} --texts 1", text, expected)
    print(f"wheel: {wheel.run_count} runs, {wheel.differences} differ; "
          f"{accepted} of {options.texts} random texts are accepted")
    return 1 if wheel.differences else 0


if __name__ == "__main__":
    sys.exit(main())
