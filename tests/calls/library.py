"""The library under test: the five C calls over guarded memory, and the run of a list of calls on
the library and the second engine side by side."""

import ctypes

from harness.lent import Lent, c_call, differing, shift_in, written_around
from second.calls import (HOST_WRITES, INPUT_NAMES, PATTERN, Outcome, SecondUnit, lent_record,
                          written)
from second.engine import (CLASS_PLACES, CLASSES, CONSUMER_PLACES, CONSUMER_TERMS,
                           GENERATOR_PLACES, GENERATOR_TERMS, PAIR_LISTS, RECORD_BYTES, Engine)


class Library:
    """The five C calls of a shared object, and the memory that is lent to them."""

    def __init__(self, path):
        loaded = ctypes.CDLL(path)
        self.calls = {name: c_call(loaded, "wheeling_" + name, *counts)
                      for name, *counts in (("open", 6, 3), ("schedule", 0, 3), ("block", 0, 4),
                                            ("close", 0, 2), ("day", 0, 2, 1, 1))}
        self.lent = {name: Lent() for name in ("record", "output", "first list", "second list")}


class LibraryUnit:
    """A unit kept by the library."""

    def __init__(self, library, turn):
        self.library = library
        self.record = PATTERN[:RECORD_BYTES]
        self.lent = library.lent
        self.turn = turn

    def do(self, call):
        """Gives the outcome and what the library touched that it must not touch."""
        if call.name in HOST_WRITES:
            self.record = written(call, self.record)
            return Outcome(None, self.record, b""), []
        self.turn += 1
        shift = shift_in(self.turn)
        record = None if call.record_bytes is None else lent_record(call, self.record)
        record_argument = (self.lent["record"].lend(record, shift), len(record or b""))
        lists = []
        for name, data in zip(("first list", "second list"), call.lists):
            lists += (self.lent[name].lend(data, shift), len(data or b""))
        used = ["record", "first list", "second list"][:1 + len(call.lists)]
        function = self.library.calls[call.name]
        output = b""
        if call.name == "open":
            number = function(*call.numbers, *lists, *record_argument)
        elif call.name == "schedule":
            number = function(*record_argument, *lists)
        else:
            used.append("output")
            data = None if call.output_bytes is None else PATTERN[:call.output_bytes]
            output_argument = (self.lent["output"].lend(data, shift), len(data or b""))
            # The record is lent for a day too, which is not told of it and must leave it.
            first = (*lists, *call.numbers) if call.name == "day" else (*record_argument, *lists)
            number = function(*first, *output_argument)
            output = self.lent["output"].now()

        touched = written_around({name: self.lent[name] for name in used})
        for name, data, shown in zip(("first list", "second list"), call.lists,
                                     INPUT_NAMES[call.name]):
            if self.lent[name].now() != (data or b""):
                touched.append(f"the input {shown} was written")
        record = self.lent["record"].now()
        if len(record) == RECORD_BYTES:
            self.record = record
        return Outcome(number, record, output), touched


def word_names():
    """The name of each word of the record, generators and consumers counted from 1."""
    names = ["G", "C", "rate", "cycle", "months gone", "unit blocks", "month blocks"]
    for g in range(1, GENERATOR_PLACES + 1):
        names += [f"{name} of generator {g}" for name in ("kind", "installed", "contracted")]
    for name in PAIR_LISTS:
        names += [f"{name} of pair ({g}, {c})" for g in range(1, GENERATOR_PLACES + 1)
                  for c in range(1, CONSUMER_PLACES + 1)]
    for name in GENERATOR_TERMS:
        names += [f"{name} of generator {g}" for g in range(1, GENERATOR_PLACES + 1)]
    for name in CONSUMER_TERMS:
        names += [f"{name} of consumer {c}" for c in range(1, CONSUMER_PLACES + 1)]
    names += ["switch month", "closings done"]
    for hours in CLASSES:
        for name, places in CLASS_PLACES.items():
            whose = "consumer" if places == CONSUMER_PLACES else "generator"
            names += [f"{hours} {name} of {whose} {place}" for place in range(1, places + 1)]
    return names


def differing_words(what, names, library, second):
    for place, left, right in differing(library, second, 8):
        name = names[place] if place < len(names) else f"word {place}"
        yield f"{what}, {name}: library {left}, second engine {right}"


def differences(library, second, output_names=()):
    """What differs between two outcomes, in words."""
    found = []
    if library.number != second.number:
        found.append(f"number: library {library.number}, second engine {second.number}")
    if library.record != second.record:
        found += differing_words("record", word_names(), library.record, second.record)
    if library.output != second.output:
        found += differing_words("output", output_names, library.output, second.output)
    return found


class Pair:
    """The library's unit and the second engine's unit, fed the same calls."""

    def __init__(self, library, turn=0):
        self.library = LibraryUnit(library, turn)
        self.second = SecondUnit(Engine())

    def do(self, call):
        """Gives the second engine's outcome and all that differs."""
        theirs, found = self.library.do(call)
        ours = self.second.do(call)
        if theirs != ours:
            found = found + differences(theirs, ours)
        return ours, found
