#!/usr/bin/env python3
"""Runs the library's own call for a day of two meters and the second engine side by side.

    handed_back.py HANDED_BACK.so [--days N] [--seed S] [--unshrunk]
    handed_back.py HANDED_BACK.so --replay FILE

The library's own call hands back a part of one of the two lists that it was lent; the C call
wheeling_day, which compare.py runs, names a meter in its place and tests lengths in bytes by
itself. HANDED_BACK.so holds the library's own call as a C call (handed_back.rt.in), compiled by
unproved.py.

Compared in each call: the number, the count of blocks apart, the length of the part and every
reading in it: the day of the meter that the second engine names, none where it refuses. The lists
and the guard bytes around all lent memory must be as they were; a read past lent memory faults. The
days are compare.py's, fixed and random, as far as their lists are whole counts of numbers.

A difference ends the run with 1 after printing the seed and a shrunk day, one line of JSON, which
--replay runs again. The call runs in processes of its own, so that a fault or an endless call is
reported likewise. A run that has not met each of accepted, 2 and 17 fails too: in the fixed days,
and in the random ones where there are as many as in the gate, or more.
"""

import ctypes
import struct
import sys
from functools import lru_cache
from itertools import chain, count, islice
from pathlib import Path
from typing import NamedTuple

sys.path.insert(0, str(Path(__file__).resolve().parent.parent))

from compare import DAY_NUMBERS, simpler  # noqa: E402
from fixed_cases import days, missing_in_unequal_blocks  # noqa: E402
from harness.lent import (MOST_LENT, WAYS_TO_LEND, Lent, c_call, shift_in,  # noqa: E402
                          written_around)
from harness.side_by_side import OneCallEach  # noqa: E402
from library import differences  # noqa: E402
from random_calls import calls_of  # noqa: E402
from second.calls import INPUT_NAMES, Call, Outcome, from_text, to_text  # noqa: E402
from second.engine import ACCEPTED, Engine, inputs_from_bytes, outputs_to_bytes  # noqa: E402

OUTPUT_NAMES = ("count of blocks apart", "length of the part",
                *(f"reading {block} of the part" for block in range(Engine.DAY_BLOCKS)))


class Day(NamedTuple):
    name: str
    call: Call


def of_whole_numbers(call):
    """Whether a call is a day whose lists the library's own call can be lent."""
    return call.name == "day" and all(data is not None and len(data) % 4 == 0
                                      for data in call.lists)


def fixed_days():
    for name, calls in chain(days(), missing_in_unequal_blocks()):
        yield from (Day(name, call) for call in calls if of_whole_numbers(call))


def random_days(seed):
    for index in count():
        call = next(calls_of(seed, "day", index))
        if of_whole_numbers(call):
            yield Day(f"random day {index} of seed {seed}", call)


def output_places(call):
    """Room for the count, the length and the longer of the two lists, so that any part fits."""
    return 2 + max(len(data) for data in call.lists) // 4


@lru_cache(maxsize=1)  # a trial asks for the same call in every turn
def second_outcome(call):
    """The second engine is lent an output of the right length, whatever the call says of it."""
    number, given = Engine().day(*call.lists, *call.numbers, bytes(8 * Engine.DAY_OUTPUT_LENGTH))
    apart, part = 0, ()
    if number == ACCEPTED:
        meter, apart = struct.unpack("<2Q", given)
        part = inputs_from_bytes(call.lists[meter])
    unused = (0,) * (output_places(call) - 2 - len(part))
    return Outcome(number, b"", outputs_to_bytes((apart, len(part), *part, *unused)))


class HandedBack:
    """The library's own call, and the memory that is lent to it."""

    def __init__(self, path):
        self.call = c_call(ctypes.CDLL(path), "handed_back_day", 0, 2, 1, 1)
        # The longest lists fill compare.py's memory, and here the shifts are wider; a number of the
        # output takes twice the bytes of a reading.
        self.lists = {name: Lent(2 * MOST_LENT) for name in INPUT_NAMES["day"]}
        self.output = Lent(4 * MOST_LENT)

    def do(self, call, turn):
        """Gives the outcome and what the call touched that it must not touch."""
        shift = shift_in(turn)
        lists = []
        for memory, data in zip(self.lists.values(), call.lists):
            lists += (memory.lend(data, shift and 4 * shift), len(data) // 4)
        places = output_places(call)
        number = self.call(*lists, *call.numbers,
                           self.output.lend(bytes(8 * places), shift and 8 * shift), places)
        touched = written_around({**self.lists, "output": self.output})
        touched += [f"the input {name} was written"
                    for (name, memory), data in zip(self.lists.items(), call.lists)
                    if memory.now() != data]
        return Outcome(number, b"", self.output.now()), touched


class CompareHandedBack(OneCallEach):
    CODE = "handed_back"
    NO_CODE = "no call that hands a day back"
    KINDS = ("fixed days", "random days")
    NUMBERS = DAY_NUMBERS
    DEFAULT_RANDOM = 2_000
    LONGEST_CASE_SECONDS = 10
    TURNS = WAYS_TO_LEND

    def add_arguments(self, parser):
        parser.add_argument("--days", type=int, default=self.DEFAULT_RANDOM, help="random days")

    def load(self):
        return HandedBack(self.path)

    def cases(self, kind):
        if kind == "fixed days":
            return fixed_days()
        return islice(random_days(self.arguments.seed), self.arguments.days)

    def second(self, case):
        return second_outcome(case.call)

    def differences(self, code, case, turn):
        theirs, touched = code.do(case.call, turn)
        return touched + differences(theirs, self.second(case), OUTPUT_NAMES)

    def shrink(self, shrinking):
        """Readings and tolerance are made smaller; the lengths stay."""
        while any(shrinking.better(call=form) for form in simpler(shrinking.case.call)):
            pass

    def to_text(self, case):
        return to_text(case.call)

    def from_text(self, line):
        return Day("replay", from_text(line))


if __name__ == "__main__":
    sys.exit(CompareHandedBack(__doc__).main())
