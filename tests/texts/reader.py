#!/usr/bin/env python3
"""Runs the compiled reader of the readings table and the second reader side by side.

    reader.py READER.so [--tables N] [--seed S] [--unshrunk]
    reader.py READER.so --replay FILE

READER.so holds the reader as a C call (reader.rt.in), compiled by unproved.py. Program `wheel`
reads for one G, one C and one room only; here they are any.

Compared in each call: the number, the count of value lines and every place of the output, which
holds a pattern before; a refusal leaves all of it. The text and the guard bytes around all lent
memory must be as they were; a read past lent memory faults. Where a case is built for a number of
document 01, the second reader must give that number.

A difference ends the run with 1 after printing the seed and a shrunk text, one line of JSON, which
--replay runs again. The reader runs in processes of its own, so that a fault or an endless call is
reported likewise. A run that has not met each of accepted, 2, 14, 15 and 16 fails too: in the fixed
cases, and in the random texts where there are as many as in the gate, or more.
"""

import ctypes
import json
import struct
import sys
from functools import lru_cache
from pathlib import Path
from typing import NamedTuple

sys.path.insert(0, str(Path(__file__).resolve().parent.parent))

from harness.lent import (WAYS_TO_LEND, Lent, c_call, differing, shift_in,  # noqa: E402
                          written_around)
from harness.side_by_side import OneCallEach  # noqa: E402
from reader_texts import Case, fixed_cases, random_case  # noqa: E402
from second.calls import packed  # noqa: E402
from second.engine import ACCEPTED  # noqa: E402
from second.table import read_table  # noqa: E402

MOST_LENT = 1024 * 1024  # a multiple of every usual page size

# What output and count hold before the call: no two places alike, and no small number.
PATTERN = packed(range(0xA5C3_0001, 0xA5C3_0001 + 0x101 * (MOST_LENT // 4), 0x101))
COUNT_BEFORE = struct.pack("<Q", 0xA5C3_0000_0000_0001)


class Read(NamedTuple):
    """What a call gives."""
    number: int
    count: bytes  # of value lines
    output: bytes


@lru_cache(maxsize=1)  # a trial asks for the same case in every turn
def second_read(case):
    number, values, line_count = read_table(case.generators, case.consumers, case.text, case.room)
    return Read(number, struct.pack("<Q", line_count) if number == ACCEPTED else COUNT_BEFORE,
                packed(values) + PATTERN[4 * len(values):4 * case.room])


class Reader:
    """The compiled reader, and the memory that is lent to it."""

    def __init__(self, path):
        self.call = c_call(ctypes.CDLL(path), "reader_read", 2, 3)
        self.lent = {"text": Lent(MOST_LENT), "output": Lent(MOST_LENT), "count": Lent()}

    def read(self, case, turn):
        """What the call gives, and what it touched that it must not touch."""
        text, output, count = self.lent.values()
        shift = shift_in(turn)
        number = self.call(case.generators, case.consumers,
                           text.lend(case.text, shift), len(case.text),
                           output.lend(PATTERN[:4 * case.room], shift and 4 * shift), case.room,
                           count.lend(COUNT_BEFORE, shift and 8 * shift), 1)
        touched = written_around(self.lent)
        if text.now() != case.text:
            touched.append("the text was written")
        return Read(number, count.now(), output.now()), touched


def differences(reader, case, turn):
    """All that differs, in words."""
    second = second_read(case)
    theirs, found = reader.read(case, turn)
    if theirs.number != second.number:
        found.append(f"number: reader {theirs.number}, second reader {second.number}")
    if case.number not in (None, second.number):
        found.append(f"number: document 01 {case.number}, second reader {second.number}")
    found += differing_places("count of lines", theirs.count, second.count, 8)
    found += differing_places("output", theirs.output, second.output, 4)
    return found


def differing_places(what, theirs, ours, width):
    if theirs == ours:
        return []
    return [f"{what}, place {place}: reader {left}, second reader {right}"
            for place, left, right in differing(theirs, ours, width)]


def less_room(shrinking):
    step = shrinking.case.room
    while step:
        room = shrinking.case.room - step
        if room < 0 or not shrinking.better(room=room):
            step //= 2


def to_text(case):
    """One line of JSON; a byte of the text stands as the character of that number."""
    return json.dumps({"generators": case.generators, "consumers": case.consumers,
                       "room": case.room, "text": case.text.decode("latin-1")})


def from_text(line):
    shown = json.loads(line)
    return Case("replay", shown["generators"], shown["consumers"],
                shown["text"].encode("latin-1"), shown["room"])


class CompareReader(OneCallEach):
    CODE = "reader"
    NO_CODE = "no reader"
    KINDS = ("fixed cases", "random texts")
    NUMBERS = (ACCEPTED, 2, 14, 15, 16)
    DEFAULT_RANDOM = 20_000
    LONGEST_CASE_SECONDS = 30
    TURNS = WAYS_TO_LEND

    second = staticmethod(second_read)
    differences = staticmethod(differences)
    to_text = staticmethod(to_text)
    from_text = staticmethod(from_text)

    def add_arguments(self, parser):
        parser.add_argument("--tables", type=int, default=self.DEFAULT_RANDOM, help="random texts")

    def load(self):
        return Reader(self.path)

    def cases(self, kind):
        if kind == "fixed cases":
            return fixed_cases()
        return (random_case(self.arguments.seed, index) for index in range(self.arguments.tables))

    def shrink(self, shrinking):
        """Less room and a shorter text, which is then built for no number."""
        shrinking.case = shrinking.case._replace(number=None)
        less_room(shrinking)
        shrinking.drop_pieces("text")
        less_room(shrinking)


if __name__ == "__main__":
    sys.exit(CompareReader(__doc__).main())
