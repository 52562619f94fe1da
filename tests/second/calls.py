"""A call to a unit as data, so that one list of calls can be run by any engine, printed and read.

A list of calls works on one record. Between calls the host may write into it: `write` sets single
words, `new_record` sets them all. These two are no calls of the engine; they make records that
no list of calls leads to. A `day` takes no record; in a list it leaves the one that stands.
"""

import json
import struct
from typing import NamedTuple, Optional

from second.engine import RECORD_BYTES, RECORD_FORM, RECORD_WORDS, Engine

# What a lent output, a record of another length and a new unit's record hold before the call:
# no two words alike and none 0, so that a wrong write of any value shows.
PATTERN = b"".join(struct.pack("<Q", 0xA5C3_0000_0000_0001 + 0x1_0101 * k) for k in range(2048))


class Call(NamedTuple):
    name: str  # open, schedule, block, close; day; write, new_record
    numbers: tuple = ()  # open: G, C, rate, cycle, gone, switch month; day: tolerance
    lists: tuple = ()  # the input lists in bytes; None is a null pointer with length 0
    record_bytes: Optional[int] = RECORD_BYTES  # length lent; None is a null pointer with length 0
    output_bytes: Optional[int] = None  # block, close, day: likewise
    words: tuple = ()  # write, new_record: (place, value) pairs; new_record leaves the others 0


HOST_WRITES = ("write", "new_record")
INPUT_NAMES = {"open": ("generator_list", "pair_list"), "schedule": ("kw", "ranks"),
               "block": ("entry", "exit"), "close": (), "day": ("main", "check"),
               "write": (), "new_record": ()}
NUMBER_NAMES = {"open": ("generators", "consumers", "rate", "cycle", "gone", "switch_month"),
                "day": ("tolerance",)}
WITH_OUTPUT = ("block", "close", "day")


def packed(numbers):
    return struct.pack(f"<{len(numbers)}I", *numbers)


def open_call(generators, consumers, rate, cycle, gone, generator_list, pair_list,
              switch_month=0):
    """Switch month 0 is never: the rules of document 01 by themselves."""
    return Call("open", (generators, consumers, rate, cycle, gone, switch_month),
                (packed(generator_list), packed(pair_list)))


def schedule_call(kw, ranks):
    return Call("schedule", lists=(packed(kw), packed(ranks)))


def block_call(entry, exit, size=None):
    """The output's length fits G and C; G and C are those of the readings unless given."""
    G, C = size or (len(entry), len(exit))
    return Call("block", lists=(packed(entry), packed(exit)),
                output_bytes=8 * (4 * G * C + G + C))


def close_call(generators, consumers):
    return Call("close", output_bytes=8 * (generators * consumers + 3 * generators + 2 * consumers))


def day_call(main, check, tolerance):
    return Call("day", (tolerance,), (packed(main), packed(check)),
                output_bytes=8 * Engine.DAY_OUTPUT_LENGTH)


def write_call(place, value):
    return Call("write", words=((place, value),))


def new_record_call(record):
    """The host lends these record bytes from now on."""
    return Call("new_record", words=tuple((place, value) for place, value
                                          in enumerate(RECORD_FORM.unpack(record)) if value))


def written(call, record):
    """The record after the host's own writing."""
    words = [0] * RECORD_WORDS if call.name == "new_record" else list(RECORD_FORM.unpack(record))
    for place, value in call.words:
        words[place] = value
    return RECORD_FORM.pack(*words)


def lent_record(call, record):
    """The bytes lent as the record: cut or lengthened where the call lends another length."""
    length = call.record_bytes or 0
    return record if length == RECORD_BYTES else (record + PATTERN)[:length]


class Outcome(NamedTuple):
    number: int  # None where the host wrote
    record: bytes  # as lent, after the call
    output: bytes


class SecondUnit:
    """A unit kept by a second engine."""

    def __init__(self, engine):
        self.engine = engine
        self.record = PATTERN[:RECORD_BYTES]

    def do(self, call):
        if call.words or call.name in HOST_WRITES:
            self.record = written(call, self.record)
            return Outcome(None, self.record, b"")
        record = lent_record(call, self.record)
        inputs = [data or b"" for data in call.lists]
        output = PATTERN[:call.output_bytes or 0]
        if call.name == "open":
            number, record = self.engine.open_unit(*call.numbers, *inputs, record)
        elif call.name == "schedule":
            number, record = self.engine.schedule(record, *inputs)
        elif call.name == "block":
            number, record, output = self.engine.block(record, *inputs, output)
        elif call.name == "day":
            number, output = self.engine.day(*inputs, *call.numbers, output)
        else:
            number, record, output = self.engine.close(record, output)
        if len(record) == RECORD_BYTES:
            self.record = record
        return Outcome(number, record, output)


def to_text(call):
    """One line of JSON. Lists of whole numbers stand as numbers, others as hexadecimal bytes."""
    shown = {"call": call.name}
    shown.update(zip(NUMBER_NAMES.get(call.name, ()), call.numbers))
    for name, data in zip(INPUT_NAMES[call.name], call.lists):
        if data is None:
            shown[name] = None
        elif len(data) % 4 == 0:
            shown[name] = struct.unpack(f"<{len(data) // 4}I", data)
        else:
            shown[name] = data.hex()
    if call.record_bytes != RECORD_BYTES:
        shown["record_bytes"] = call.record_bytes
    if call.name in WITH_OUTPUT:
        shown["output_bytes"] = call.output_bytes
    if call.name in HOST_WRITES:
        shown["words"] = call.words
    return json.dumps(shown)


def from_text(line):
    shown = json.loads(line)
    name = shown["call"]
    lists = []
    for key in INPUT_NAMES[name]:
        data = shown[key]
        if isinstance(data, str):
            data = bytes.fromhex(data)
        elif data is not None:
            data = packed(data)
        lists.append(data)
    return Call(name, tuple(shown[key] for key in NUMBER_NAMES.get(name, ())),
                tuple(lists), shown.get("record_bytes", RECORD_BYTES), shown.get("output_bytes"),
                tuple(tuple(pair) for pair in shown.get("words", ())))
