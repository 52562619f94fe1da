#!/usr/bin/env python3
"""Twelve years of one unit: 420,768 blocks and 144 closings, the library against the second engine.

    twelve_years.py LIBRARY.so [--size 1x2|8x16] [--switch-month M] [--seed S]

Without a switch month given they are run twice: with none, and with one in the middle, month 73,
which ends the old bank in the middle of a cycle. After each block and each closing the output and
the whole record are compared byte for byte. The second engine keeps its figures as a record object
from block to block and does the rules on it; its soundness and the sentences of demand 3 are
checked at each closing. Prints the time a block takes through the library in the first and in the
last month.
"""

import argparse
import ctypes
import random
import statistics
import sys
import time
from pathlib import Path

sys.path.insert(0, str(Path(__file__).resolve().parent.parent))

from library import Library, differing_words, word_names  # noqa: E402
from second.calls import open_call, packed, schedule_call  # noqa: E402
from second.demand_3 import broken_by_record, idle_bank  # noqa: E402
from second.engine import (ACCEPTED, RECORD_BYTES, WH_PER_KW_IN_A_BLOCK, Engine,  # noqa: E402
                           outputs_to_bytes, record_from_bytes, record_to_bytes)

MONTHS = 144
SWITCH_MONTHS = (0, 73)
BLOCKS_A_MONTH = 2_922  # a twelfth of 35,064, a year of 365.25 days

KINDS = (1, 0, 3, 2)
LARGEST_KW = 400  # a month's schedule for one pair


def agreement(G, C, switch_month, luck):
    generator_list = []
    for g in range(G):
        generator_list += (KINDS[g % len(KINDS)], LARGEST_KW * C, LARGEST_KW * C)
    losses = [luck.randrange(1_500) for _ in range(G * C)]
    return open_call(G, C, 800, 12, 3, generator_list, [1] * (G * C) + losses, switch_month)


def month_schedule(G, C, luck):
    return ([luck.randint(1, LARGEST_KW) for _ in range(G * C)],
            [luck.randint(1, 4) for _ in range(G * C)])


class LibraryYears:
    """The library's unit over plain buffers, with the time of each block."""

    def __init__(self, path, G, C):
        self.calls = Library(path).calls
        self.record = ctypes.create_string_buffer(RECORD_BYTES)
        self.block_output = ctypes.create_string_buffer(8 * (4 * G * C + G + C))
        self.close_output = ctypes.create_string_buffer(8 * (G * C + 3 * G + 2 * C))

    def open(self, call):
        return self.calls["open"](*call.numbers, call.lists[0], len(call.lists[0]),
                                  call.lists[1], len(call.lists[1]), self.record, RECORD_BYTES)

    def schedule(self, call):
        return self.calls["schedule"](self.record, RECORD_BYTES, call.lists[0], len(call.lists[0]),
                                      call.lists[1], len(call.lists[1]))

    def block(self, entry, exit):
        """Gives the number and the nanoseconds the call took."""
        function, output = self.calls["block"], self.block_output
        begun = time.perf_counter_ns()
        number = function(self.record, RECORD_BYTES, entry, len(entry), exit, len(exit), output,
                          len(output))
        return number, time.perf_counter_ns() - begun

    def close(self):
        return self.calls["close"](self.record, RECORD_BYTES, self.close_output,
                                   len(self.close_output))


class Differs(Exception):
    pass


def demand(where, number, library, second):
    """Number 0 and equal bytes; `library` and `second` are (what, names, bytes) alike."""
    if number != ACCEPTED:
        raise Differs(f"{where}: refused {number}")
    for (what, names, theirs), ours in zip(library, second):
        if theirs != ours:
            words = list(differing_words(what, names, theirs, ours))
            raise Differs("\n".join([where] + words[:20]))


def twelve_years(path, G, C, switch_month, seed):
    luck = random.Random(seed)
    engine, names = Engine(), word_names()
    unit = LibraryYears(path, G, C)
    opening = agreement(G, C, switch_month, luck)
    _, opened = engine.open_unit(*opening.numbers, *opening.lists, bytes(RECORD_BYTES))
    demand("opening", unit.open(opening), [("record", names, unit.record.raw)], [opened])
    record = record_from_bytes(opened)
    times = {1: [], MONTHS: []}
    for month in range(1, MONTHS + 1):
        kw, ranks = month_schedule(G, C, luck)
        call = schedule_call(kw, ranks)
        number, scheduled = engine.schedule(record_to_bytes(record), *call.lists)
        if number != ACCEPTED:
            raise Differs(f"month {month}: the second engine refuses the schedule: {number}")
        demand(f"schedule of month {month}", unit.schedule(call),
               [("record", names, unit.record.raw)], [scheduled])
        record = record_from_bytes(scheduled)
        # From month to month there is now more and now less than the consumers meter.
        most_entry = [int(2 * WH_PER_KW_IN_A_BLOCK * sum(record.kw[g][:C]) * luck.uniform(0.2, 1))
                      for g in range(G)]
        most_exit = [int(2 * WH_PER_KW_IN_A_BLOCK * sum(row[c] for row in record.kw[:G])
                         * luck.uniform(0.2, 1)) for c in range(C)]
        for block in range(1, BLOCKS_A_MONTH + 1):
            entry = [int(luck.random() * most) for most in most_entry]
            exit = [int(luck.random() * most) for most in most_exit]
            number, taken = unit.block(packed(entry), packed(exit))
            output = outputs_to_bytes(engine.block_rules(record, entry, exit))
            if (number != ACCEPTED or unit.block_output.raw != output
                    or unit.record.raw != record_to_bytes(record)):
                demand(f"block {block} of month {month}, entry {entry}, exit {exit}", number,
                       [("output", [], unit.block_output.raw), ("record", names, unit.record.raw)],
                       [output, record_to_bytes(record)])
            if month in times:
                times[month].append(taken)
        before = record_from_bytes(record_to_bytes(record))
        output = engine.closing_steps(record)
        demand(f"closing of month {month}", unit.close(),
               [("output", [], unit.close_output.raw), ("record", names, unit.record.raw)],
               [outputs_to_bytes(output), record_to_bytes(record)])
        broken = broken_by_record(record) + idle_bank(before, output)
        if broken:
            raise Differs("\n".join([f"closing of month {month}, second engine"] + broken))
    return record, times


def main():
    parser = argparse.ArgumentParser(description=__doc__.splitlines()[0])
    parser.add_argument("library")
    parser.add_argument("--size", choices=("1x2", "8x16"), default="1x2")
    parser.add_argument("--switch-month", type=int)
    parser.add_argument("--seed", type=int, default=1)
    arguments = parser.parse_args()
    path = arguments.library if "/" in arguments.library else "./" + arguments.library
    G, C = (int(number) for number in arguments.size.split("x"))
    given = arguments.switch_month
    for switch_month in SWITCH_MONTHS if given is None else (given,):
        what = f"{arguments.size}, switch month {switch_month}, seed {arguments.seed}"
        begun = time.monotonic()
        try:
            record, times = twelve_years(path, G, C, switch_month, arguments.seed)
        except Differs as difference:
            print(f"DIFFERENCE, {what}: {difference}")
            return 1
        print(f"{what}: {record.unit_blocks} blocks and {MONTHS} closings, no difference, "
              f"{time.monotonic() - begun:.1f} s")
        print(f"injected {sum(record.injected)}, set off {sum(record.set_off)}, "
              f"drawn {sum(record.drawn)}, lapsed {sum(record.lapsed)}, "
              f"supplied {sum(record.supplied)} Wh")
        for month, taken in times.items():
            print(f"month {month}: {statistics.median(taken) / 1000:.2f} us a block (median), "
                  f"{statistics.mean(taken) / 1000:.2f} us (mean), ctypes call included")
    return 0


if __name__ == "__main__":
    sys.exit(main())
