#!/usr/bin/env python3
"""Runs the compiled loss step and the second engine's loss side by side (document 02, F-4).

    loss_step.py LOSS_STEP.so [--random N] [--seed S]

LOSS_STEP.so holds the step as a C call (loss_step.rt.in), compiled by unproved.py. No call of the
library hands it a part of more than 200,000,000; its contract is about every part of 32 bits, at
rates up to 5,000, and so are these cases.

Fixed are, at every rate: the smallest and the largest parts and those about the limit of a reading;
parts whose product with the rate is just within 32 bits and just beyond; and remainders at a half,
1 Wh below and 1 Wh above it, beside no, one, many and the most ten-thousands. A part is random in
its number of bits, so that small ones come as often as large ones.

The first difference ends the run with 1. The fixed cases must tell each of the wrong steps below
from the second engine too, or the run fails.
"""

import argparse
import ctypes
import sys
from pathlib import Path
from random import Random

sys.path.insert(0, str(Path(__file__).resolve().parent.parent))

from second.engine import Engine  # noqa: E402

WHOLE = 10_000
HALF = WHOLE // 2
MOST_RATE = Engine.HIGHEST_LOSS
MOST_PART = 2**32 - 1
MOST_READING = 200_000_000

# Of the most ten-thousands not every remainder is within 32 bits.
TEN_THOUSANDS = (0, 1, MOST_READING // WHOLE, MOST_PART // WHOLE - 1, MOST_PART // WHOLE)

# Steps that F-4's sentence could be taken for, and that the cases must tell from the right one.
WRONG_STEPS = {
    "product before the split": lambda part, rate: (part * rate % 2**32 + HALF) // WHOLE,
    "product and half before the split": lambda part, rate: (part * rate + HALF) % 2**32 // WHOLE,
    "ten-thousands rounded by themselves":
        lambda part, rate: (part + HALF) // WHOLE * rate + (part % WHOLE * rate + HALF) // WHOLE,
    "remainder forgotten": lambda part, rate: part // WHOLE * rate,
    "remainder rounded down":
        lambda part, rate: part // WHOLE * rate + part % WHOLE * rate // WHOLE,
    "remainder rounded up":
        lambda part, rate: part // WHOLE * rate + (part % WHOLE * rate + WHOLE - 1) // WHOLE,
    "halves down":
        lambda part, rate: part // WHOLE * rate + (part % WHOLE * rate + HALF - 1) // WHOLE,
    "parts in 31 bits": lambda part, rate: (part % 2**31 * rate + HALF) // WHOLE,
    "ten-thousands in 16 bits":
        lambda part, rate: part // WHOLE % 2**16 * rate + (part % WHOLE * rate + HALF) // WHOLE,
}


def about(energy):
    return [part for part in (energy - 1, energy, energy + 1) if 0 <= part <= MOST_PART]


def remainders(rate):
    """Of the watt-hours that a ten-thousand loses, as many as the rate, the first, one in the
    middle and the last: about the first remainder that is rounded up to it."""
    firsts = {-((HALF - WHOLE * lost) // rate) for lost in (1, rate // 2 + 1, rate)}
    return {rest for first in firsts for rest in about(first) if rest < WHOLE}


def fixed_parts(rate):
    for energy in (0, WHOLE, 100_000_000, MOST_READING, 2**31, MOST_PART // WHOLE * WHOLE,
                   MOST_PART):
        yield from about(energy)
    if rate:
        for edge in (MOST_PART // rate, (MOST_PART - HALF) // rate):
            yield from about(edge)
        for whole in TEN_THOUSANDS:
            for rest in remainders(rate):
                if whole * WHOLE + rest <= MOST_PART:
                    yield whole * WHOLE + rest


def fixed_cases():
    return sorted({(part, rate) for rate in range(MOST_RATE + 1) for part in fixed_parts(rate)})


def random_cases(count, seed):
    random = Random(seed)
    for _ in range(count):
        yield random.getrandbits(random.randint(1, 32)), random.randint(0, MOST_RATE)


def main():
    parser = argparse.ArgumentParser(description=__doc__.splitlines()[0])
    parser.add_argument("library")
    parser.add_argument("--random", type=int, default=300_000, help="random cases")
    parser.add_argument("--seed", type=int, default=1)
    arguments = parser.parse_args()
    step = ctypes.CDLL(arguments.library).loss_step
    step.argtypes, step.restype = (ctypes.c_uint32, ctypes.c_uint32), ctypes.c_uint32
    right = Engine().loss

    fixed = fixed_cases()
    drawn = random_cases(arguments.random, arguments.seed)
    for kind, cases in (("fixed", fixed), ("random", drawn)):
        count = 0
        for part, rate in cases:
            if step(part, rate) != right(part, rate):
                print(f"loss step: {part} at {rate} loses {step(part, rate)}, "
                      f"by the second engine {right(part, rate)} (seed {arguments.seed})")
                return 1
            count += 1
        print(f"loss step: {count} {kind} cases, no difference")

    missed = [name for name, wrong in WRONG_STEPS.items()
              if all(wrong(part, rate) == right(part, rate) for part, rate in fixed)]
    for name in missed:
        print(f"loss step: no fixed case finds the wrong step: {name}")
    if not missed:
        print(f"loss step: the fixed cases find each of {len(WRONG_STEPS)} wrong steps")
    return 1 if missed else 0


if __name__ == "__main__":
    sys.exit(main())
