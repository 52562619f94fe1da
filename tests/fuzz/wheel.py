#!/usr/bin/env python3
"""Changed texts for program `wheel`, against the second reader and the second engine.

    wheel.py PROGRAM [--seconds T] [--seed S] [--failures FOLDER]

Not guided by coverage: each text is a table drawn by a grammar, with lines and bytes changed at
random. The program reads it on standard input; what it writes must be what `wheel_output` gives,
byte for byte, with exit status 0 and nothing on standard error. A text that differs is kept in
FOLDER and ends the run with 1.
"""

import argparse
import random
import subprocess
import sys
import time
from collections import Counter
from pathlib import Path

sys.path.insert(0, str(Path(__file__).resolve().parent.parent))

from second.table import INPUT_LIMIT, VALUE_SPACE, wheel_output  # noqa: E402

NAMES = b"E1,R1,R2\n"
WIDTH = 3
LONGEST_RUN_SECONDS = 10
VALUES = (b"0", b"1", b"9", b"10", b"4294967295", b"4294967296", b"4294967299", b"10000000000",
          b"200000000", b"200000001", b"199999999", b"00", b"07", b"", b"-1", b"+1", b" 1", b"1 ",
          b"1.0", b"0x1", b"1e3", b"\xd9\xa1", b"99999999999999999999999999")
NAME_LINES = (b"", b"\n", b"E1,R1,R2", b"E1,R1\n", b"E1,R1,R2,R3\n", b"E1,E2,R1,R2\n",
              b"e1,R1,R2\n", b"E1,R2,R1\n", b"E1,R1,R2\r\n", b"E1, R1,R2\n", b"E1,R1,R2,\n",
              b"E01,R1,R2\n", b"E1;R1;R2\n", b"\xef\xbb\xbfE1,R1,R2\n", b"E1,R1,R2 \n")
BYTES = b"0123456789,\n\r\t \0-+.ER\xff;"
# Full months and full spaces: 3,360 lines are both.
LINE_COUNTS = (0, 1, 2, VALUE_SPACE // WIDTH - 1, VALUE_SPACE // WIDTH, VALUE_SPACE // WIDTH + 1)


def value(luck, scale):
    if luck.random() < 0.01:
        return luck.choice(VALUES)
    return b"%d" % luck.randrange(scale)


def table(luck):
    """Mostly a table as it is allowed."""
    names = luck.choice(NAME_LINES) if luck.random() < 0.05 else NAMES
    lines = luck.choice(LINE_COUNTS) if luck.random() < 0.05 else luck.randrange(12)
    scale = luck.choice((2, 100, 100_000, 100_000, 200_000_001, 2**32))
    if lines > 12:
        # Long tables repeat a few lines; some are longer than the input may be.
        few = [b",".join(b"%d" % luck.randrange(scale) for _ in range(WIDTH)) + b"\n"
               for _ in range(4)]
        return names + b"".join(few[line % 4] for line in range(lines))
    return names + b"".join(b",".join(value(luck, scale) for _ in range(WIDTH)) + b"\n"
                            for _ in range(lines))


def at_the_limit(luck):
    """A text whose length is the limit of the input, or just beside it."""
    length = INPUT_LIMIT + luck.randrange(-2, 3)
    line = b"%d,%d,%d\n" % tuple(luck.choice((0, 1, 4_294_967_295, 200_000_000)) for _ in range(3))
    text = NAMES + line * (length // len(line) + 1)
    return text[:length - 1] + b"\n" if luck.random() < 0.5 else text[:length]


def changed(luck, text):
    """Some bytes replaced, inserted, dropped, doubled or cut."""
    text = bytearray(text)
    for _ in range(luck.choice((0, 0, 1, 1, 2, 4))):
        at = luck.randrange(len(text) + 1)
        how = luck.randrange(5)
        if how == 0:
            text[at:at + 1] = bytes((luck.choice(BYTES),))
        elif how == 1:
            text[at:at] = bytes((luck.choice(BYTES),))
        elif how == 2:
            del text[at:at + 1]
        elif how == 3:
            end = luck.randrange(at, min(len(text), at + 40) + 1)
            text[at:at] = text[at:end]
        else:
            del text[at:]
    return bytes(text)


def run(program, text):
    """What the program writes, or how it failed."""
    try:
        done = subprocess.run([program], input=text, capture_output=True,
                              timeout=LONGEST_RUN_SECONDS)
    except subprocess.TimeoutExpired:
        return None, "it did not end"
    if done.returncode != 0:
        return None, f"it ended with {done.returncode}"
    if done.stderr:
        return None, f"it wrote on standard error: {done.stderr[:200]!r}"
    return done.stdout, None


def main():
    parser = argparse.ArgumentParser(description=__doc__.splitlines()[0])
    parser.add_argument("program", type=Path)
    parser.add_argument("--seconds", type=float, default=30)
    parser.add_argument("--seed", type=int, default=1)
    parser.add_argument("--failures", type=Path, default=Path("."))
    arguments = parser.parse_args()
    luck = random.Random(arguments.seed)
    answers = Counter()
    until = time.monotonic() + arguments.seconds
    while time.monotonic() < until:
        text = at_the_limit(luck) if luck.random() < 0.01 else changed(luck, table(luck))
        expected = wheel_output(text)
        written, fault = run(arguments.program.resolve(), text)
        if written != expected:
            kept = arguments.failures / "wheel.txt"
            kept.write_bytes(text)
            print(f"DIFFERENCE, seed {arguments.seed}, text {answers.total() + 1}, kept in {kept}: "
                  + (fault or f"it wrote {written[:200]!r}") + f"; expected {expected[:200]!r}")
            return 1
        answers[expected.decode().strip() if expected.startswith(b"refused") else "printed"] += 1
    print(f"{answers.total()} texts, no difference; "
          + ", ".join(f"{answer}: {count}" for answer, count in sorted(answers.items())))
    return 0


if __name__ == "__main__":
    sys.exit(main())
