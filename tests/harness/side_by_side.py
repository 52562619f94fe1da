"""A test program that runs compiled code and a second implementation side by side: what compare.py,
handed_back.py and reader.py share.

The compiled code runs in processes of its own, so that a fault or an endless call is reported as a
difference is. The numbers that were given are counted. A case that differs is shrunk as long as a
difference remains and printed as lines of JSON, which --replay runs again.
"""

import argparse
import ctypes
import multiprocessing
import signal
import time
import traceback
from collections import Counter
from itertools import islice
from typing import NamedTuple

DEFAULT_SEED = 1
# A case that is tried by itself and takes longer holds a call that does not end.
LONGEST_TRIAL_SECONDS = 10
SHRINKING_SECONDS = 30
DIFFERENCES_SHOWN = 20

process = multiprocessing.get_context("fork")


class Place(ctypes.Structure):
    """How far a run has come, in memory that its process shares with the one that waits for it."""
    _fields_ = [("kind", ctypes.c_int64),
                ("case", ctypes.c_int64),  # of the kind
                ("call", ctypes.c_int64),  # of the case
                ("calls", ctypes.c_int64)]  # since the start


class Stretch(NamedTuple):
    """The cases of one kind, run without a difference."""
    kind: str
    cases: int
    seen: Counter  # how often each number was given
    seconds: float

    def unseen(self, numbers):
        return [number for number in numbers if not self.seen[number]]


class OwnProcess:
    """A function in a process of its own; it is given a function that sends."""

    def __init__(self, function):
        self.receiving, sending = process.Pipe(duplex=False)
        self.worker = process.Process(target=function, args=(sending.send,))
        self.worker.start()
        sending.close()

    def messages(self):
        """What is sent until the process ends."""
        while True:
            try:
                yield self.receiving.recv()
            except EOFError:
                break
        self.worker.join()

    def fault(self):
        """How the process ended, None where it ended well."""
        exitcode = self.worker.exitcode
        if exitcode == 0:
            return None
        if exitcode == -signal.SIGALRM:
            return "the call did not end"
        if exitcode < 0:
            return f"the call ended the process: {signal.Signals(-exitcode).name}"
        return f"the call ended the process with {exitcode}"


def for_seconds(cases, seconds):
    """The cases until the seconds have passed; all of them where no seconds are given."""
    begun = time.monotonic()
    for case in cases:
        if seconds is not None and time.monotonic() - begun >= seconds:
            return
        yield case


def print_found(found):
    for line in found[:DIFFERENCES_SHOWN]:
        print("  " + line)
    if len(found) > DIFFERENCES_SHOWN:
        print(f"  and {len(found) - DIFFERENCES_SHOWN} more")


class Shrinking:
    """A case, a named tuple, that differs by itself; smaller ones that still do take its place."""

    def __init__(self, program, case, found):
        self.program, self.case, self.found = program, case, found
        self.until = time.monotonic() + SHRINKING_SECONDS

    def has_time(self):
        return time.monotonic() < self.until

    def better(self, **change):
        """Whether the case differs with this change too; then it is the case from now on."""
        if not self.has_time():
            return False
        case = self.case._replace(**change)
        found, call = self.program.trial(case)
        if found:
            self.case, self.found = self.program.up_to(case, call), found
        return bool(found)

    def drop_pieces(self, field):
        """Drops pieces of the list or text in this field, long ones first."""
        step = len(getattr(self.case, field))
        while step:
            at = 0
            while at < len(getattr(self.case, field)):
                whole = getattr(self.case, field)
                if not self.better(**{field: whole[:at] + whole[at + step:]}):
                    at += step
            step //= 2


class SideBySide:
    """A test program. A class made from this one says what is compared:

    CODE                  what the compiled code is called on the command line
    NO_CODE               what is printed where the file does not hold it
    KINDS                 of cases, in the order in which they are run
    LONGEST_CASE_SECONDS  a case that takes longer holds a call that does not end
    TURNS                 ways to lend memory that a case by itself is tried in

    add_arguments(parser)    the arguments that this program alone has
    load()                   the compiled code of the file `self.path`
    cases(kind)              the cases of a kind, the same whenever they are asked for
    run_case(code, kind, case, place, seen)
                             what differs in a case; keeps `place`, counts the numbers in `seen`
    failed_case(kind, place) the case at a place: in words, and as a named tuple for what follows
    run_alone(code, case, place, turn)
                             what differs in it where memory is lent as in this turn
    shrink(shrinking)        makes it smaller
    print_case(case, found, shrunk)
    replay(lines)            runs what stands on lines of JSON and gives the exit status
    summary(stretches)       prints what was run without a difference and gives the exit status
    """

    def up_to(self, case, call):
        """The case without what comes after this call."""
        return case

    def on_begin(self):
        pass

    def on_stretch(self, stretch):
        pass

    def on_fault(self, how):
        pass

    def __init__(self, description):
        parser = argparse.ArgumentParser(description=description.splitlines()[0])
        parser.add_argument(self.CODE)
        self.add_arguments(parser)
        parser.add_argument("--seed", type=int, default=DEFAULT_SEED)
        parser.add_argument("--unshrunk", action="store_true",
                            help="only say where the first difference is")
        parser.add_argument("--replay", metavar="FILE", help="run only the calls in this file")
        self.arguments = parser.parse_args()
        path = getattr(self.arguments, self.CODE)
        self.path = path if "/" in path else "./" + path

    def main(self):
        """Gives the exit status."""
        try:
            self.load()
        except (OSError, AttributeError) as fault:
            print(f"{self.NO_CODE}: {fault}")
            return 1
        if self.arguments.replay:
            with open(self.arguments.replay, encoding="utf-8") as file:
                return self.replay([line for line in file if line.startswith("{")])
        return self.run()

    def run(self):
        self.on_begin()
        place = process.RawValue(Place)
        worker = OwnProcess(lambda send: self.run_or_tell(place, send))
        stretches, found = [], None
        for what, message in worker.messages():
            if what == "error":
                print("the test program itself failed:\n" + message)
                return 1
            if what == "difference":
                found = message
            else:
                stretches.append(message)
                self.on_stretch(message)
        how = worker.fault()
        if how and not found:
            self.on_fault(how)
            found = [how]
        if found:
            self.report(place, found)
            return 1
        return self.summary(stretches)

    def run_or_tell(self, place, send):
        """An error in the test program is no difference and must not be shrunk as one."""
        try:
            self.run_kinds(place, send)
        except Exception:
            send(("error", traceback.format_exc()))

    def run_kinds(self, place, send):
        code = self.load()
        for place.kind, kind in enumerate(self.KINDS):
            begun, count, seen = time.monotonic(), 0, Counter()
            for place.case, case in enumerate(self.cases(kind)):
                signal.alarm(self.LONGEST_CASE_SECONDS)  # ends the process
                found = self.run_case(code, kind, case, place, seen)
                if found:
                    send(("difference", found))
                    return
                count += 1
            signal.alarm(0)
            send(("stretch", Stretch(kind, count, seen, time.monotonic() - begun)))

    def trial(self, case):
        """What differs in a case by itself, run in a process of its own, and at which call."""
        place = process.RawValue(Place)

        def run(send):
            code, found = self.load(), []
            # Where memory is lent depends on the turn: that must not hide a difference.
            for turn in range(self.TURNS):
                signal.alarm(LONGEST_TRIAL_SECONDS)
                found = found or self.run_alone(code, case, place, turn)
            send(found)

        worker = OwnProcess(run)
        sent = list(worker.messages())
        return sent[0] if sent else [worker.fault()], place.call

    def report(self, place, found):
        where, case = self.failed_case(self.KINDS[place.kind], place)
        print(f"DIFFERENCE in {where}, {place.calls} calls after the start; "
              f"seed {self.arguments.seed}")
        if self.arguments.unshrunk:
            return
        found_alone, call = self.trial(case)
        if found_alone:
            shrinking = Shrinking(self, self.up_to(case, call), found_alone)
            self.shrink(shrinking)
            case, found = shrinking.case, shrinking.found
        self.print_case(case, found, shrunk=bool(found_alone))


class OneCallEach(SideBySide):
    """A test program each of whose cases is one call and has a name. A class made from this one has
    fixed cases and random ones, in this order, and says also:

    NUMBERS                  that must be given, that of an accepted call first: in the fixed cases,
                             and in the random ones where there are as many as in the gate, or more
    DEFAULT_RANDOM           random cases in the gate

    second(case)             what the second implementation gives; has a `number`
    differences(code, case, turn)
                             all that differs, in words
    to_text(case)            one line of JSON
    from_text(line)          the case that it shows
    """

    def run_case(self, code, kind, case, place, seen):
        place.calls += 1
        seen[self.second(case).number] += 1
        return self.differences(code, case, place.case)

    def run_alone(self, code, case, place, turn):
        return self.differences(code, case, turn)

    def failed_case(self, kind, place):
        case = next(islice(self.cases(kind), place.case, None))
        return case.name, case

    def print_case(self, case, found, shrunk):
        print("shrunk; save this line to run it with --replay:" if shrunk
              else "the call by itself gives no difference:")
        print(self.to_text(case))
        print_found(found)

    def replay(self, lines):
        differ = 0
        for line in lines:
            found, _ = self.trial(self.from_text(line))
            differ += bool(found)
            for difference in found:
                print("  " + difference)
        print(f"{len(lines)} calls, {differ} differ")
        return 1 if differ else 0

    def summary(self, stretches):
        accepted, *refusals = self.NUMBERS
        shown = "; ".join(
            f"{seen.total():,} {kind} (accepted {seen[accepted]:,}, refused "
            + ", ".join(f"{number}: {seen[number]:,}" for number in refusals) + ")"
            for kind, _, seen, _ in stretches)
        fixed = stretches[0]
        unmet = [f"{number} in the {stretch.kind}" for stretch in stretches
                 for number in stretch.unseen(self.NUMBERS)
                 if stretch is fixed or stretch.cases >= self.DEFAULT_RANDOM]
        print(f"{self.CODE}, seed {self.arguments.seed}: {shown}; "
              + (f"NOT MET: {', '.join(unmet)}" if unmet else "no difference")
              + f"; {sum(stretch.seconds for stretch in stretches):.1f} s")
        return 1 if unmet else 0
