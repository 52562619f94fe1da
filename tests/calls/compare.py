#!/usr/bin/env python3
"""The test program: runs the library's five C calls and the second engine side by side.

    compare.py LIBRARY.so [--lists N] [--months N] [--crossings N] [--changeovers N] [--days N]
                          [--seed S] [--seconds T] [--unshrunk]
    compare.py LIBRARY.so --replay FILE

Compared byte for byte after each call: the number, the record and the output; also that the inputs
and the guard bytes around all lent memory are as they were. A read past lent memory faults. In the
random months and changeovers, which are calls on an opened unit and nothing else, the sentences of
demand 3 are also checked on the second engine's own figures at each closing.

A difference ends the run with 1 after printing the seed and a shrunk list of calls, one line of
JSON each, which --replay runs again. The library runs in processes of its own, so that a fault or
an endless call is reported likewise.
"""

import sys
from collections import Counter
from itertools import count, islice
from pathlib import Path
from typing import NamedTuple

sys.path.insert(0, str(Path(__file__).resolve().parent.parent))

from fixed_cases import fed, fixed_cases  # noqa: E402
from harness.side_by_side import SideBySide, for_seconds, print_found  # noqa: E402
from library import Library, Pair  # noqa: E402
from random_calls import calls_of  # noqa: E402
from second.calls import HOST_WRITES, SecondUnit, from_text, packed, to_text  # noqa: E402
from second.demand_3 import broken_by_record, idle_bank  # noqa: E402
from second.engine import ACCEPTED, Engine, inputs_from_bytes, record_from_bytes  # noqa: E402

# Of each kind of random cases.
DEFAULTS = {"list": 2_000, "month": 200, "crossing": 500, "changeover": 40, "day": 5_000}
# An opened unit is called and nobody else writes its record, as in demand 3.
ONLY_CALLS = ("month", "changeover")
UNIT_REFUSALS = (*range(1, 14), 19)
DAY_NUMBERS = (ACCEPTED, 2, 17)
NUMBERS = sorted({*UNIT_REFUSALS, *DAY_NUMBERS})
# What must be seen, in the random cases where there are as many as in the gate, or more.
EXPECTED = {"fixed case": NUMBERS, "list": UNIT_REFUSALS, "month": (), "crossing": (),
            "changeover": (ACCEPTED, 11, 13), "day": DAY_NUMBERS}


class CallList(NamedTuple):
    """A list of calls that differs."""
    calls: list
    only_calls: bool  # as of the kinds in ONLY_CALLS


def broken_sentences(before, outcome):
    """Sentences of demand 3 that do not hold after an accepted closing of the record `before`."""
    numbers = [int.from_bytes(outcome.output[at:at + 8], "little")
               for at in range(0, len(outcome.output), 8)]
    return ["second engine: " + sentence
            for sentence in (broken_by_record(record_from_bytes(outcome.record))
                             + idle_bank(record_from_bytes(before), numbers))]


def run_list(library, calls, place, seen, only_calls, turn=0):
    """Runs one list. Gives what differs at the first call that differs, else nothing."""
    pair, outcome = Pair(library, turn), None
    for at in count():
        try:
            call = calls.send(outcome)
        except StopIteration:
            return []
        place.call = at
        place.calls += call.name not in HOST_WRITES
        before = pair.second.record
        outcome, found = pair.do(call)
        if only_calls and call.name == "close" and outcome.number == ACCEPTED:
            found = found + broken_sentences(before, outcome)
        if found:
            return found
        if outcome.number is not None:
            seen[outcome.number] += 1


def calls_made(kind, index, seed, last):
    """The calls of one list up to the one that differed, made again by the second engine."""
    if kind == "fixed case":
        name, calls = next(islice(fixed_cases(), index, None))
        return name, calls[:last + 1]
    unit, calls = SecondUnit(Engine()), []
    made = calls_of(seed, kind, index)
    outcome = None
    while len(calls) <= last:
        calls.append(made.send(outcome))
        if len(calls) <= last:
            outcome = unit.do(calls[-1])
    return f"random {kind} {index} of seed {seed}", calls


def simpler(call):
    """Simpler forms of a call, simplest first. Each has a smaller sum or fewer words, so that
    simplifying ends."""
    for which, data in enumerate(call.lists):
        if not data or len(data) % 4:
            continue
        numbers = inputs_from_bytes(data)
        forms = [(0,) * len(numbers), (1,) * len(numbers)]
        for at, number in enumerate(numbers):
            for value in (0, 1, number // 2, number - 1):
                if 0 <= value < number:
                    forms.append(numbers[:at] + (value,) + numbers[at + 1:])
        for form in forms:
            if sum(form) < sum(numbers):
                yield call._replace(
                    lists=call.lists[:which] + (packed(form),) + call.lists[which + 1:])
    # G and C stay: the lists are as long as they say.
    for at in range(2 if call.name == "open" else 0, len(call.numbers)):
        for value in (0, 1, call.numbers[at] // 2):
            if value < call.numbers[at]:
                yield call._replace(numbers=call.numbers[:at] + (value,) + call.numbers[at + 1:])
    if call.name == "new_record":
        for at in range(len(call.words)):
            yield call._replace(words=call.words[:at] + call.words[at + 1:])


def simplify(shrinking, at):
    """Whether the call at this place could be made simpler."""
    calls = shrinking.case.calls
    return at < len(calls) and any(shrinking.better(calls=calls[:at] + [form] + calls[at + 1:])
                                   for form in simpler(calls[at]))


class Compare(SideBySide):
    CODE = "library"
    NO_CODE = "no library with the five calls"
    KINDS = ("fixed case", *DEFAULTS)
    LONGEST_CASE_SECONDS = 60
    TURNS = 2

    def add_arguments(self, parser):
        for kind, count in DEFAULTS.items():
            parser.add_argument(f"--{kind}s", type=int, default=count, help=f"random {kind}s")
        parser.add_argument("--seconds", type=float,
                            help="start no further list after a fifth of these seconds, no "
                                 "further month after the next, and so on for the other kinds")

    def load(self):
        return Library(self.path)

    def cases(self, kind):
        """Lists as generators that are sent outcomes."""
        if kind == "fixed case":
            return (fed(calls) for _, calls in fixed_cases())
        given = self.arguments
        indices = range(getattr(given, kind + "s"))
        return for_seconds((calls_of(given.seed, kind, index) for index in indices),
                           given.seconds and given.seconds / len(DEFAULTS))

    def run_case(self, code, kind, case, place, seen):
        # A day is one call: the ways to lend memory go on from day to day.
        return run_list(code, case, place, seen, kind in ONLY_CALLS,
                        turn=place.case if kind == "day" else 0)

    def run_alone(self, code, case, place, turn):
        return run_list(code, fed(case.calls), place, Counter(), case.only_calls, turn)

    def failed_case(self, kind, place):
        name, calls = calls_made(kind, place.case, self.arguments.seed, place.call)
        return (f"{name}, call {len(calls)} of it ({calls[-1].name})",
                CallList(calls, only_calls=kind in ONLY_CALLS))

    def up_to(self, case, call):
        return case._replace(calls=case.calls[:call + 1])

    def shrink(self, shrinking):
        """Calls are dropped first, then arguments made simpler."""
        shrinking.drop_pieces("calls")
        again = True
        while again and shrinking.has_time():
            again = False
            for at in range(len(shrinking.case.calls)):
                while simplify(shrinking, at):
                    again = True

    def print_case(self, case, found, shrunk):
        if shrunk:
            print(f"shrunk to {len(case.calls)} calls; save these lines to run them with --replay:")
        else:
            print("the list by itself gives no difference; all its calls:")
        for call in case.calls:
            print(to_text(call))
        if shrunk:
            print(f"at the last of them ({case.calls[-1].name}):")
            print_found(found)

    def replay(self, lines):
        calls = [from_text(line) for line in lines]
        found, at = self.trial(CallList(calls, only_calls=False))
        if not found:
            print(f"{len(calls)} calls, no difference")
            return 0
        print(f"DIFFERENCE at call {at + 1} of {len(calls)} ({calls[at].name})")
        for line in found:
            print("  " + line)
        return 1

    def on_begin(self):
        print(f"seed {self.arguments.seed}", flush=True)

    def on_stretch(self, stretch):
        print(f"{stretch.cases} {stretch.kind}s, {stretch.seen.total()} calls, "
              f"{stretch.seconds:.1f} s", flush=True)

    def on_fault(self, how):
        print(how)

    def summary(self, stretches):
        print("number      " + "".join(f"{number:>7}" for number in NUMBERS))
        for kind, _, seen, _ in stretches:
            print(f"{kind + 's':12}" + "".join(f"{seen[number]:>7}" for number in NUMBERS))
        unseen = {stretch.kind: stretch.unseen(EXPECTED[stretch.kind]) for stretch in stretches
                  if stretch.cases >= DEFAULTS.get(stretch.kind, 0)}
        for kind, numbers in unseen.items():
            if numbers:
                print(f"numbers not seen in the {kind}s: {numbers}")
        if any(unseen.values()):
            return 1
        print("no difference")
        return 0


if __name__ == "__main__":
    sys.exit(Compare(__doc__).main())
