#!/usr/bin/env python3
"""The second reader of the readings table, and what program `wheel` prints, by the second engine.

Run as a script it is a second `wheel`: table on standard input, print on standard output.
"""

import os
import sys

sys.path.insert(0, os.path.dirname(os.path.dirname(os.path.abspath(__file__))))

from second.engine import (ACCEPTED, GENERATOR_TERMS, RECORD_BYTES, Engine,  # noqa: E402
                           record_from_bytes)
from second.calls import packed  # noqa: E402

HIGHEST_VALUE = 4_294_967_295
DIGITS = b"0123456789"


def names_line(generators, consumers):
    names = ([f"E{g}" for g in range(1, generators + 1)]
             + [f"R{c}" for c in range(1, consumers + 1)])
    return ",".join(names).encode() + b"\n"


def read_value(text):
    """A value is digits without a leading zero, except 0 itself. None if it is no value."""
    if not text or any(byte not in DIGITS for byte in text):
        return None
    if text[:1] == b"0" and text != b"0":
        return None
    # More digits than the highest value has are too many, however many there are.
    if len(text) > len(str(HIGHEST_VALUE)) or int(text) > HIGHEST_VALUE:
        return None
    return int(text)


def read_line(line, values_expected):
    """The values of one line without its line feed. None if the line is malformed."""
    fields = line.split(b",")
    if len(fields) != values_expected:
        return None
    values = [read_value(field) for field in fields]
    return None if None in values else values


def read_table(generators, consumers, text, space):
    """Gives (number, values, value lines); a refusal gives no values."""
    engine = Engine()
    if not engine.sizes_allowed(generators, consumers):
        return 2, [], 0
    names = names_line(generators, consumers)
    if not text.startswith(names):
        return 14, [], 0
    # Each line ends with a line feed, so nothing stands after the last one.
    *lines, after_last = text[len(names):].split(b"\n")
    if after_last:
        return 15, [], 0
    values = []
    for line in lines:
        read = read_line(line, generators + consumers)
        if read is None:
            return 15, [], 0
        values += read
    if len(values) > space:
        return 16, [], 0
    return ACCEPTED, values, len(lines)


# Program `wheel`: agreement A.
GENERATORS, CONSUMERS = 1, 2
RATE, CYCLE, GONE, SWITCH_MONTH = 1_000, 2, 0, 0
GENERATOR_LIST = (1, 1_000, 800)
PAIR_LIST = (1, 1, 1_000, 500)
KW, RANKS = (100, 200), (1, 1)

INPUT_LIMIT = 64 * 1024
VALUE_SPACE = 10_080


def refused(number):
    return b"refused %d\n" % number


def wheel_output(stdin):
    """What `wheel` prints for these bytes on standard input."""
    number, values, lines = read_table(GENERATORS, CONSUMERS, stdin, VALUE_SPACE)
    # Input past the limit counts as a malformed later line; only 14 is lower.
    if len(stdin) > INPUT_LIMIT and number != 14:
        number = 15
    if number != ACCEPTED:
        return refused(number)

    engine = Engine()
    number, record = engine.open_unit(GENERATORS, CONSUMERS, RATE, CYCLE, GONE, SWITCH_MONTH,
                                      packed(GENERATOR_LIST), packed(PAIR_LIST),
                                      bytes(RECORD_BYTES))
    if number == ACCEPTED:
        number, record = engine.schedule(record, packed(KW), packed(RANKS))
    block_output = bytes(8 * engine.block_output_length(record_from_bytes(record)))
    width = GENERATORS + CONSUMERS
    for line in range(lines):
        if number != ACCEPTED:
            return refused(number)
        readings = values[line * width:(line + 1) * width]
        number, record, _ = engine.block(record, packed(readings[:GENERATORS]),
                                         packed(readings[GENERATORS:]), block_output)
    if number == ACCEPTED:
        close_output = bytes(8 * engine.closing_output_length(record_from_bytes(record)))
        number, record, _ = engine.close(record, close_output)
    if number != ACCEPTED:
        return refused(number)

    unit = record_from_bytes(record)
    printed = ["generator," + ",".join(term.replace("_", "") for term in GENERATOR_TERMS)]
    for g in range(GENERATORS):
        printed.append(",".join(str(number) for number in
                                [g + 1] + [getattr(unit, term)[g] for term in GENERATOR_TERMS]))
    return "".join(line + "\n" for line in printed).encode()


if __name__ == "__main__":
    sys.stdout.buffer.write(wheel_output(sys.stdin.buffer.read()))
