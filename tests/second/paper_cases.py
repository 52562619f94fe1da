#!/usr/bin/env python3
"""Document 01's own figures, checked on the second engine: P1 to P10, the printed table, and the
example of each refusal number; P1 to P3, P9 and the table as document 02's F-3 has them worked out
again. And what document 02 says of a day of two meters (F-1), of the bigger supplier (F-2), of the
loss (F-3) and of the bank by hours (F-7), computed by hand.

Run as a script: prints each figure that differs and how many were checked; ends with 1 on a
difference. The lists of calls are also run against the library (compare.py).
"""

import os
import sys
from operator import attrgetter

sys.path.insert(0, os.path.dirname(os.path.dirname(os.path.abspath(__file__))))

from second.engine import (ACCEPTED, CHECK_METER, CLASS_LISTS, CLASSES, MAIN_METER,  # noqa: E402
                           NORMAL, OFF_PEAK, PEAK, RECORD_BYTES, SCHEDULED, SOLAR, WIND, Engine,
                           outputs_to_bytes, record_from_bytes, record_to_bytes)
from second.calls import (PATTERN, SecondUnit, block_call, close_call, day_call,  # noqa: E402
                          new_record_call, open_call, schedule_call)
from second import table  # noqa: E402

AGREEMENT_A = open_call(1, 2, 1_000, 2, 0, (WIND, 1_000, 800), (1, 1, 1_000, 500))
SCHEDULE_A = schedule_call((100, 200), (1, 1))
A = [AGREEMENT_A, SCHEDULE_A]
FIRST_LINE = block_call((70_001,), (20_000, 60_000))
SECOND_LINE = block_call((30_000,), (5_000, 0))
ZERO_BLOCK = block_call((0,), (0, 0))
CLOSE_A = close_call(1, 2)

P4_UNIT = [open_call(1, 1, 0, 1, 0, (SCHEDULED, 400, 400), (1, 1_000)), schedule_call((40,), (1,))]
TWO_OF_KIND_0 = open_call(2, 1, 0, 1, 0, (SCHEDULED, 40, 40) * 2, (1, 1, 0, 0))

CASES = {
    "P1": A + [FIRST_LINE],
    "P2": A + [FIRST_LINE, SECOND_LINE, CLOSE_A],
    "P3": A + [FIRST_LINE, SECOND_LINE, CLOSE_A, ZERO_BLOCK, CLOSE_A],
    "P4": P4_UNIT + [block_call((7_000,), (10_000,))],
    "P5": P4_UNIT + [block_call((12_000,), (4_000,))],
    "P6": [TWO_OF_KIND_0, schedule_call((40, 40), (2, 1)), block_call((10_000,) * 2, (12_000,))],
    "P7": [TWO_OF_KIND_0, schedule_call((40, 40), (1, 1)), block_call((10_000,) * 2, (12_000,))],
    "P8": [open_call(1, 1, 0, 1, 0, (WIND, 1_000, 800), (1, 0)), block_call((500,), (0,))],
    "P9": [open_call(1, 1, 0, 1, 0, (WIND, 1_000, 800), (1, 1)), schedule_call((1,), (1,)),
           block_call((1,), (5,))],
    "P10": [open_call(3, 1, 0, 1, 0,
                      (SCHEDULED, 20_000, 20_000, SCHEDULED, 44_000, 44_000,
                       SOLAR, 320_000, 320_000), (1, 1, 1, 0, 0, 1_000)),
            schedule_call((20_000, 44_000, 320_000), (1, 2, 3)),
            block_call((5_000_000, 11_000_000, 80_000_000), (126_000_000,))],
}


def with_counts(calls, month_blocks, unit_blocks):
    """A sound record as the calls leave it, but with these counts of blocks."""
    unit = SecondUnit(Engine())
    for call in calls:
        unit.do(call)
    record = record_from_bytes(unit.record)
    record.month_blocks, record.unit_blocks = month_blocks, unit_blocks
    return new_record_call(record_to_bytes(record))


# For each refusal number of document 01 that a C call gives, and for 19 of document 02: calls of
# which the last one gets it, by the table's example.
REFUSAL_EXAMPLES = {
    1: [new_record_call(bytes(RECORD_BYTES)), CLOSE_A],
    2: [open_call(9, 1, 0, 1, 0, (SCHEDULED, 0, 0) * 9, (0,) * 18)],
    3: [open_call(1, 1, 0, 1, 0, (4, 0, 0), (0, 0))],
    4: [open_call(1, 1, 0, 1, 0, (SCHEDULED, 400_001, 0), (0, 0))],
    5: [open_call(1, 1, 0, 1, 0, (SCHEDULED, 0, 0), (0, 5_001))],
    6: [open_call(1, 1, 0, 2, 2, (SCHEDULED, 0, 0), (0, 0))],
    7: [open_call(1, 1, 0, 1, 0, (SCHEDULED, 1_000, 800), (0, 0)), schedule_call((1,), (1,))],
    8: [open_call(1, 1, 0, 1, 0, (SCHEDULED, 1_000, 800), (1, 0)), schedule_call((801,), (1,))],
    9: [open_call(1, 1, 0, 1, 0, (SCHEDULED, 1_000, 800), (1, 0)), schedule_call((800,), (0,))],
    10: A + [block_call((200_000_001,), (0, 0))],
    11: A + [with_counts(A, 3_359, 3_359), ZERO_BLOCK, ZERO_BLOCK],
    12: A + [with_counts(A, 1, 9_999_999), ZERO_BLOCK, ZERO_BLOCK],
    13: A + [ZERO_BLOCK, CLOSE_A, CLOSE_A],
    19: [open_call(1, 1, 0, 1, 0, (SCHEDULED, 0, 0), (0, 0), switch_month=1_201)],
}


def day_of(*readings):
    """A day with these readings in its first blocks and 5,000 Wh in the others."""
    return readings + (5_000,) * (96 - len(readings))


MISSING = 4_294_967_295

# What document 02 says of a day (F-1): the call, and its number with what the output holds after
# it. A refused call leaves the output.
DAYS = {
    "none missing: the main meter's":
        (day_call(day_of(7), day_of(8), 9), (ACCEPTED, MAIN_METER, 0)),
    "one missing in the check day: the main meter's":
        (day_call(day_of(7), day_of(8, MISSING), 9), (ACCEPTED, MAIN_METER, 0)),
    "one missing in the main day: the check meter's":
        (day_call(day_of(MISSING), day_of(8), 9), (ACCEPTED, CHECK_METER, 0)),
    "all missing in the main day: the check meter's":
        (day_call((MISSING,) * 96, day_of(8), 9), (ACCEPTED, CHECK_METER, 0)),
    "one missing in each, in two blocks":
        (day_call(day_of(MISSING), day_of(8, MISSING), 9), (17,)),
    "one missing in each, in one block":
        (day_call(day_of(MISSING), day_of(MISSING), 9), (17,)),
    "4,294,967,294 is a reading":
        (day_call(day_of(MISSING - 1), day_of(8, MISSING), 9), (ACCEPTED, MAIN_METER, 1)),
    "apart by the tolerance":
        (day_call(day_of(1_000, 2_000), day_of(1_050, 1_950), 50), (ACCEPTED, MAIN_METER, 0)),
    "further apart than the tolerance":
        (day_call(day_of(1_000, 2_000), day_of(1_050, 1_950), 49), (ACCEPTED, MAIN_METER, 2)),
    "every block further apart":
        (day_call((0,) * 96, (1,) * 96, 0), (ACCEPTED, MAIN_METER, 96)),
    "one reading of a block missing: it does not count":
        (day_call(day_of(MISSING, 2_000), day_of(1_000, 1_000), 0), (ACCEPTED, CHECK_METER, 1)),
    "the other missing: it does not count":
        (day_call(day_of(1_000, 2_000), day_of(MISSING, 1_000), 0), (ACCEPTED, MAIN_METER, 1)),
    "a main day of 95": (day_call(day_of()[:95], day_of(), 0), (2,)),
    "a check day of 97": (day_call(day_of(), day_of() + (5_000,), 0), (2,)),
    "a day of 95, one missing in each": (day_call(day_of(MISSING)[:95], day_of(MISSING), 0), (2,)),
}


# ---- Bigger supplier first (F-2) ----

def two_suppliers(kind, switch_month=0):
    """Two of one kind and one consumer, loss 0, charge rate 0; either may have 40 or 60 kW."""
    return open_call(2, 1, 0, 12, 0, (kind, 60, 60) * 2, (1, 1, 0, 0), switch_month)


FORTY_AND_SIXTY = schedule_call((40, 60), (1, 1))
SIXTY_AND_FORTY = schedule_call((60, 40), (1, 1))
# Two of wind: 10,000 Wh of each are left over, then 12,000 Wh are wanted.
BOTH_PENDING = [two_suppliers(WIND), FORTY_AND_SIXTY, block_call((10_000,) * 2, (0,)),
                block_call((0, 0), (12_000,))]
CLOSE_BOTH = close_call(2, 1)

# A list of calls, all accepted, with what document 02 makes of the last one's output.
LARGER_FIRST = {
    "P7 with 40 and 60 kW": (
        [two_suppliers(SCHEDULED), FORTY_AND_SIXTY, block_call((10_000,) * 2, (12_000,))],
        {"set_off": [2_000, 10_000], "underdrawn": [8_000, 0], "shortfall": [0, 0]}),
    "P7 with 60 and 40 kW": (
        [two_suppliers(SCHEDULED), SIXTY_AND_FORTY, block_call((10_000,) * 2, (12_000,))],
        {"set_off": [10_000, 2_000], "underdrawn": [0, 8_000], "shortfall": [0, 0]}),
    # The rank comes first: as P6 and P7, whatever the kW.
    "the smaller with the lower rank": (
        [two_suppliers(SCHEDULED), schedule_call((40, 60), (1, 2)),
         block_call((10_000,) * 2, (12_000,))],
        {"set_off": [10_000, 2_000], "underdrawn": [0, 8_000]}),
    # 40 kW are 10,000 Wh and 60 kW 15,000 Wh. 8,000 Wh are set off; of the 4,000 Wh that are still
    # wanted the larger is 11,000 Wh short, the smaller 6,000 Wh.
    "shortfall of the larger": (
        [two_suppliers(SCHEDULED), FORTY_AND_SIXTY, block_call((4_000,) * 2, (12_000,))],
        {"set_off": [4_000, 4_000], "shortfall": [0, 4_000], "remainder": [0]}),
    "shortfall of both": (
        [two_suppliers(SCHEDULED), FORTY_AND_SIXTY, block_call((4_000,) * 2, (20_000,))],
        {"set_off": [4_000, 4_000], "shortfall": [1_000, 11_000], "remainder": [0]}),
    "drawing from the larger": (
        BOTH_PENDING + [CLOSE_BOTH],
        {"drawn": [2_000, 10_000], "bank": [8_000, 0], "supplied": [0]}),
    "the schedule that stands at the closing": (
        BOTH_PENDING + [SIXTY_AND_FORTY, CLOSE_BOTH],
        {"drawn": [10_000, 2_000], "bank": [0, 8_000], "supplied": [0]}),
    "the ranks that stand at the closing": (
        BOTH_PENDING + [schedule_call((40, 60), (1, 2)), CLOSE_BOTH],
        {"drawn": [10_000, 2_000], "bank": [0, 8_000], "supplied": [0]}),
    "0 kW comes last among equals": (
        BOTH_PENDING + [schedule_call((0, 1), (1, 1)), CLOSE_BOTH],
        {"drawn": [2_000, 10_000], "bank": [8_000, 0]}),
    "equal kW: the lower number": (
        BOTH_PENDING + [schedule_call((7, 7), (3, 3)), CLOSE_BOTH],
        {"drawn": [10_000, 2_000], "bank": [0, 8_000]}),
    # Consumer 1 has 10 kW of generator 1, which has 100 kW in all and a capacity of 400, and 20 kW
    # of generator 2. It wants 6,000 Wh; for it are 2,500 of generator 1's 25,000 Wh, and all 5,000
    # of generator 2's.
    "the kW of that pair": (
        [open_call(2, 2, 0, 12, 0, (SCHEDULED, 400, 400, SCHEDULED, 20, 20), (1,) * 4 + (0,) * 4),
         schedule_call((10, 90, 20, 0), (1,) * 4), block_call((25_000, 5_000), (6_000, 0))],
        {"set_off": [1_000, 0, 5_000, 0], "underdrawn": [1_500, 22_500, 0, 0]}),
    "drawing by hours": (
        [two_suppliers(WIND, switch_month=1), FORTY_AND_SIXTY, block_call((10, 10), (0,)),
         block_call((0, 0), (12,)), CLOSE_BOTH],
        {"drawn": [2, 10], "lapsed": [8, 0], "supplied": [0]}),
}


# ---- Loss to the nearest (F-3) ----

def one_pair(kind, loss, kw=1, rate=0, switch_month=0):
    """One generator and one consumer: its part is all that counts."""
    return [open_call(1, 1, rate, 12, 0, (kind, 400_000, 400_000), (1, loss), switch_month),
            schedule_call((kw,), (1,))]


def lost(entry, loss):
    """What wind of this loss rate injects, while nothing is metered: what is delivered is
    underdrawn."""
    return one_pair(WIND, loss) + [block_call((entry,), (0,))]


def short(kw, loss, metered):
    """Kind 0 injects nothing: the shortfall is what is scheduled at exit."""
    return one_pair(SCHEDULED, loss, kw) + [block_call((0,), (metered,))]


# A list of calls, all accepted, with what document 02 makes of the last one's output.
NEAREST_LOSS = {
    # 1 Wh: 0.5 is a half and goes up, so that all is lost, as in P9 before; 0.4999 goes down.
    "half of 1 Wh": (lost(1, 5_000), {"loss": [1], "underdrawn": [0]}),
    "less than half of 1 Wh": (lost(1, 4_999), {"loss": [0], "underdrawn": [1]}),
    # 1.5 and 2.5 both go up: to the nearest even number it would be 2 and 2.
    "half of 3 Wh": (lost(3, 5_000), {"loss": [2], "underdrawn": [1]}),
    "half of 5 Wh": (lost(5, 5_000), {"loss": [3], "underdrawn": [2]}),
    # A tenth: 0.4, 0.5 and 0.6.
    "a tenth of 4 Wh": (lost(4, 1_000), {"loss": [0], "underdrawn": [4]}),
    "a tenth of 5 Wh": (lost(5, 1_000), {"loss": [1], "underdrawn": [4]}),
    "a tenth of 6 Wh": (lost(6, 1_000), {"loss": [1], "underdrawn": [5]}),
    # The lowest rate: 4,999 x 1 and 5,000 x 1 ten-thousandths.
    "4,999 Wh at the lowest rate": (lost(4_999, 1), {"loss": [0], "underdrawn": [4_999]}),
    "5,000 Wh at the lowest rate": (lost(5_000, 1), {"loss": [1], "underdrawn": [4_999]}),
    # Large parts: 19,999,999.4, 19,999,999.5 and 99,999,999.5. The last one at 4,999 is
    # 99,979,999.5001.
    "a tenth of 199,999,994 Wh": (
        lost(199_999_994, 1_000), {"loss": [19_999_999], "underdrawn": [179_999_995]}),
    "a tenth of 199,999,995 Wh": (
        lost(199_999_995, 1_000), {"loss": [20_000_000], "underdrawn": [179_999_995]}),
    "half of 199,999,999 Wh": (
        lost(199_999_999, 5_000), {"loss": [100_000_000], "underdrawn": [99_999_999]}),
    "199,999,999 Wh at 4,999": (
        lost(199_999_999, 4_999), {"loss": [99_980_000], "underdrawn": [100_019_999]}),
    # 29 % of 50 Wh is 14.5. The binary fraction nearest to 0.29, times 50, is below that: 14.
    "29 % of 50 Wh": (lost(50, 2_900), {"loss": [15], "underdrawn": [35]}),
    # Two consumers, 1 Wh each: 1 is lost of either. On their sum it would be 1 for both.
    "each pair by itself": (
        [open_call(1, 2, 0, 12, 0, (WIND, 9, 9), (1, 1, 5_000, 5_000)),
         schedule_call((1, 1), (1, 1)), block_call((2,), (0, 0))],
        {"loss": [1, 1], "underdrawn": [0, 0]}),

    # Rule 4. 1 kW is 250 Wh: at 19 the loss is 0.475, at 20 it is 0.5.
    "scheduled at exit, below a half": (
        short(1, 19, 300), {"shortfall": [250], "remainder": [50]}),
    "scheduled at exit, a half": (short(1, 20, 300), {"shortfall": [249], "remainder": [51]}),
    # 400,000 kW are 100,000,000 Wh: no half there, so 399,999 kW, 99,999,750 Wh: 4,999,987.5.
    "scheduled at exit, a half of many": (
        short(399_999, 500, 200_000_000),
        {"shortfall": [94_999_762], "remainder": [105_000_238]}),
    # At its schedule a generator is not short, whatever was lost.
    "at the schedule nothing is short": (
        one_pair(SCHEDULED, 19) + [block_call((250,), (300,))],
        {"loss": [0], "set_off": [250], "shortfall": [0], "remainder": [50]}),

    # The charge still rounds up: 10 % of 11 Wh is 1.1, and 2 are charged.
    "charge of 1.1": (
        one_pair(WIND, 0, rate=1_000) + [block_call((11,), (0,)), close_call(1, 1)],
        {"charge": [2], "bank": [9]}),
    "charge of 0.0001": (
        one_pair(WIND, 0, rate=1) + [block_call((1,), (0,)), close_call(1, 1)],
        {"charge": [1], "bank": [0]}),
    "charge of 1.1 by hours": (
        one_pair(WIND, 0, rate=1_000, switch_month=1)
        + [block_call((11,), (0,)), close_call(1, 1)],
        {"charge": [2], "lapsed": [9]}),
}


# ---- The bank by hours (F-7) ----
# All generators are wind without loss, so what a generator feeds in while nothing is metered is
# pending to the watt-hour, and what a consumer meters while nothing is fed in is open.

def hours_unit(G=1, C=1, switch_month=1, rate=0, cycle=12, gone=0):
    """Every pair linked, ranks by generator."""
    return [open_call(G, C, rate, cycle, gone, (WIND, 100, 100) * G, (1,) * G * C + (0,) * G * C,
                      switch_month),
            schedule_call((1,) * G * C, [g + 1 for g in range(G) for _ in range(C)])]


# A block of each class; the one after it is of the same class.
BLOCK_OF = {NORMAL: 1, PEAK: 21, OFF_PEAK: 37}


def hours_month(G, C, readings):
    """Blocks from 1 to the last one that {block: (entry, exit)} names; 0 is read in the others."""
    nothing = ((0,) * G, (0,) * C)
    return [block_call(*readings.get(block, nothing)) for block in range(1, max(readings) + 1)]


def hours_closing(banked, opened, **terms):
    """One month and its closing. By class: what each generator has pending, what each consumer has
    open, both before the closing."""
    G = len(next(iter(banked.values())))
    C = len(next(iter(opened.values())))
    readings = {}
    for hours, block in BLOCK_OF.items():
        if hours in banked:
            readings[block] = (banked[hours], (0,) * C)
        if hours in opened:
            readings[block + 1] = ((0,) * G, opened[hours])
    return [*hours_unit(G, C, **terms), *hours_month(G, C, readings), close_call(G, C)]


# Block of a month: its class. Blocks 97 and 117 are slots 1 and 21 of the second day.
CLASS_OF_BLOCK = {1: NORMAL, 20: NORMAL, 21: PEAK, 36: PEAK, 37: OFF_PEAK, 68: OFF_PEAK, 69: NORMAL,
                  76: NORMAL, 77: PEAK, 92: PEAK, 93: NORMAL, 96: NORMAL, 97: NORMAL, 116: NORMAL,
                  117: PEAK, 132: PEAK, 133: OFF_PEAK}


def only_class(hours, pending, open_):
    """The class lists of the record, all 0 but for these first places of one class."""
    figures = {"record." + name: [0] * places for name, places in CLASS_LISTS.items()}
    figures[f"record.{hours}_pending"][0] = pending
    figures[f"record.{hours}_open"][1] = open_
    return figures


# Generator 1 is linked to consumer 1 only: in one block it has 10 Wh left over and consumer 2 lacks
# 7 Wh.
SLOT_UNIT = [open_call(1, 2, 0, 12, 0, (WIND, 100, 100), (1, 0, 0, 0), switch_month=1),
             schedule_call((1, 0), (1, 1))]

# Two months under the old rules, the second of them in the middle of a cycle of three, and the
# first month under the new ones.
CHANGE_OVER = [
    *hours_unit(switch_month=3, rate=1_000, cycle=3),
    block_call((1_000,), (0,)), close_call(1, 1),
    block_call((500,), (0,)), block_call((0,), (200,)), close_call(1, 1),
    *hours_month(1, 1, {1: ((15,), (0,)), 21: ((15,), (0,)), 22: ((0,), (3,))}), close_call(1, 1)]
FIRST_CLOSING, SECOND_CLOSING = (at + 1 for at, call in list(enumerate(CHANGE_OVER))[:-1]
                                 if call.name == "close")
NO_CLASS = {"record." + name: [0] * places for name, places in CLASS_LISTS.items()}

# A list of calls, all accepted, with what document 02 makes of the last one: its output's lists,
# and figures of the record.
HOURS = {
    # Slots.
    **{f"block {block} of a month is {hours.replace('_', '-')}": (
        SLOT_UNIT + hours_month(1, 2, {block: ((10,), (0, 7))}), only_class(hours, 10, 7))
       for block, hours in CLASS_OF_BLOCK.items()},
    # 1 Wh in each: 32 slots of each class, 37 to 68, 21 to 36 with 77 to 92, and all others.
    "96 blocks are 32 of each class": (
        hours_unit() + [block_call((1,), (0,))] * 96,
        {f"record.{hours}_pending": [32] for hours in CLASSES} | {"record.pending": [96]}),
    # 20 blocks, closed, and one more: slot 1, which is normal, not slot 21, which is peak.
    "each month begins at slot 1": (
        hours_unit() + [block_call((1,), (0,))] * 20 + [close_call(1, 1), block_call((1,), (0,))],
        {"record.normal_pending": [1], "record.peak_pending": [0], "record.pending": [1]}),

    # Charge: 10 % of 15 Wh is 1.5, rounded up 2, for each of three classes: 6. On the sum, 45 Wh,
    # it would be 4.5, rounded up 5. The rest, 45 - 6, lapses.
    "charge rounded up in each class": (
        hours_closing({hours: (15,) for hours in CLASSES}, {NORMAL: (0,)}, rate=1_000),
        {"charge": [6], "lapsed": [39], "bank": [0], "record.charge": [6], "record.pending": [0]}),

    # What is given: the energy of that class, then peak.
    # Normal wants 15: 10 of normal, 5 of peak. Peak wants 10 and gets the other 5: 5 are supplied.
    # With peak first, normal would take 10 of peak and 5 of normal, and peak would get none.
    "the energy of a class before peak energy": (
        hours_closing({NORMAL: (10,), PEAK: (10,)}, {NORMAL: (15,), PEAK: (10,)}),
        {"drawn": [20], "supplied": [5], "lapsed": [0], "open_before": [25]}),
    # Each of the three classes wants 10; what no class may take lapses.
    "off-peak energy for off-peak only": (
        hours_closing({OFF_PEAK: (30,)}, {hours: (10,) for hours in CLASSES}),
        {"drawn": [10], "supplied": [20], "lapsed": [20]}),
    "normal energy for normal only": (
        hours_closing({NORMAL: (30,)}, {hours: (10,) for hours in CLASSES}),
        {"drawn": [10], "supplied": [20], "lapsed": [20]}),
    "peak energy for every class": (
        hours_closing({PEAK: (30,)}, {hours: (10,) for hours in CLASSES}),
        {"drawn": [30], "supplied": [0], "lapsed": [0]}),
    # Normal wants 40. Generator 1 gives normal 10, then peak 20; generator 2 gives 10 of its normal
    # 30, and 20 lapse. If normal of all came before peak of all: 10 and 30, and 20 of peak lapse.
    "one generator after another gives its class, then its peak": (
        hours_closing({NORMAL: (10, 30), PEAK: (20, 0)}, {NORMAL: (40,)}),
        {"drawn": [30, 10], "lapsed": [0, 20], "supplied": [0]}),

    # Who settles what, one after the other.
    # 30 of peak. Consumer 1 wants 20 for peak and gets them; consumer 2 wants 30 for off-peak and
    # gets the 10 left. Class by class, consumer 2's off-peak would come first and take all 30.
    "each consumer settles all classes before the next one": (
        hours_closing({PEAK: (30,)}, {OFF_PEAK: (0, 30), PEAK: (20, 0)}),
        {"drawn": [20, 10], "supplied": [0, 20], "lapsed": [0], "open_before": [20, 30]}),
    # Generator 1 has peak 10, generator 2 normal 10. Off-peak takes the peak energy, normal the
    # normal energy. If normal came first it would take the peak energy, and off-peak got none.
    "off-peak is settled before normal": (
        hours_closing({PEAK: (10, 0), NORMAL: (0, 10)}, {OFF_PEAK: (10,), NORMAL: (10,)}),
        {"drawn": [10, 10], "supplied": [0], "lapsed": [0, 0]}),
    # The same banks. Normal takes generator 1's peak energy, peak gets none, and generator 2's
    # normal energy lapses. If peak came first it would take it, and normal generator 2's.
    "normal is settled before peak": (
        hours_closing({PEAK: (10, 0), NORMAL: (0, 10)}, {NORMAL: (10,), PEAK: (10,)}),
        {"drawn": [10, 0], "supplied": [10], "lapsed": [0, 10]}),

    # Cycle 12, and yet the first closing lapses, and months gone remains 0.
    "every closing by hours ends with a lapse": (
        hours_closing({NORMAL: (100,)}, {NORMAL: (30,)}),
        {"drawn": [30], "lapsed": [70], "bank": [0], "record.gone": 0, "record.closings_done": 1,
         **NO_CLASS}),
    "every closing by hours ends with a lapse, the next one too": (
        hours_closing({NORMAL: (100,)}, {NORMAL: (30,)})
        + [block_call((50,), (0,)), close_call(1, 1)],
        {"drawn": [0], "lapsed": [50], "bank": [0], "record.lapsed": [120], "record.gone": 0,
         "record.closings_done": 2, **NO_CLASS}),

    # The change-over, switch month 3: 10 % of 1,000 is 100, and 900 are banked.
    "switch month 3, first closing: old rules": (
        CHANGE_OVER[:FIRST_CLOSING],
        {"charge": [100], "lapsed": [0], "bank": [900], "record.gone": 1,
         "record.closings_done": 1, **NO_CLASS}),
    # A block before the switch month's month adds to no class.
    "switch month 3, second month: no class": (
        CHANGE_OVER[:SECOND_CLOSING - 1],
        {"record.pending": [500], "record.open": [200], "record.bank": [900], **NO_CLASS}),
    # 900 and 500 - 50 are 1,350; 200 are drawn, and 1,150 lapse though 2 of 3 months have gone.
    "switch month 3, second closing: a lapse in the middle of the cycle": (
        CHANGE_OVER[:SECOND_CLOSING],
        {"charge": [50], "drawn": [200], "lapsed": [1_150], "bank": [0], "record.gone": 0,
         "record.closings_done": 2, **NO_CLASS}),
    # Normal 15 and peak 15, charged 2 each; peak wants 3. 13 of normal and 10 of peak lapse.
    "switch month 3, third closing: by hours": (
        CHANGE_OVER,
        {"charge": [4], "drawn": [3], "supplied": [0], "lapsed": [23], "bank": [0],
         "record.gone": 0, "record.closings_done": 3, **NO_CLASS}),
    # The first closing is the one just before the switch month.
    "switch month 2, first closing: a lapse": (
        [*hours_unit(switch_month=2), block_call((10,), (0,)), close_call(1, 1)],
        {"lapsed": [10], "bank": [0], "record.gone": 0}),
    "switch month 0: never by hours, no lapse before the end of the cycle": (
        [*hours_unit(switch_month=0), block_call((10,), (0,)), close_call(1, 1),
         block_call((10,), (0,)), close_call(1, 1)],
        {"lapsed": [0], "bank": [20], "record.gone": 2, "record.closings_done": 2, **NO_CLASS}),

    # Opening.
    "switch month 1: opening sets months gone to 0": (
        hours_unit(cycle=3, gone=2)[:1], {"record.gone": 0, "record.switch_month": 1}),
    "switch month 2: opening keeps months gone": (
        hours_unit(cycle=3, gone=2, switch_month=2)[:1],
        {"record.gone": 2, "record.switch_month": 2, "record.closings_done": 0}),
    "switch month 1,200": (hours_unit(switch_month=1_200)[:1], {"record.switch_month": 1_200}),
}

# A refused closing is none: the second accepted one is still the last under the old rules.
REFUSED_BETWEEN = [
    *hours_unit(switch_month=3), close_call(1, 1), block_call((10,), (0,)), close_call(1, 1),
    close_call(1, 1), close_call(1, 1), block_call((10,), (0,)), close_call(1, 1)]
REFUSED_BETWEEN_NUMBERS = [0, 0, 13, 0, 0, 13, 13, 0, 0]


def faulty_opening(*faults, switch_month=1_201):
    """An opening with these faults and, unless given, a switch month over the limit."""
    return open_call(9 if 2 in faults else 1, 1, 5_001 if 6 in faults else 0, 3, 0,
                     (4 if 3 in faults else 1, 400_001 if 4 in faults else 0, 0),
                     (2 if 5 in faults else 0, 0), switch_month)


# The number that an opening gets: 19 is tested after 2 to 6.
HOURS_OPENINGS = {
    "switch month 1,201": (faulty_opening(), 19),
    "switch month 4,294,967,295": (faulty_opening(switch_month=2**32 - 1), 19),
    **{f"{number} before 19": (faulty_opening(number), number) for number in range(2, 7)},
    # 6 is tested on the months gone that are given, though opening would set them to 0.
    "switch month 1, months gone 3 of 3": (hours_unit(cycle=3, gone=3)[0], 6),
}


class Figures:
    """Compares figures and counts them."""

    def __init__(self):
        self.checked = 0
        self.wrong = []

    def equal(self, what, got, paper):
        self.checked += 1
        if got != paper:
            self.wrong.append(f"{what}: {got}, in the paper {paper}")


class Settled:
    """The last call of a case: its output by the paper's lists, and the record after it."""

    def __init__(self, calls, engine):
        unit = SecondUnit(engine)
        outcomes = [unit.do(call) for call in calls]
        self.numbers = [outcome.number for outcome in outcomes]
        self.record = record_from_bytes(unit.record)
        G, C = self.record.generators, self.record.consumers
        last, output = calls[-1], outcomes[-1].output
        words = [int.from_bytes(output[at:at + 8], "little") for at in range(0, len(output), 8)]
        if last.name == "block":
            lists = (("loss", G * C), ("set_off", G * C), ("underdrawn", G * C),
                     ("shortfall", G * C), ("unaccounted", G), ("remainder", C))
        else:
            lists = (("drawn", G * C), ("charge", G), ("lapsed", G), ("bank", G),
                     ("open_before", C), ("supplied", C))
        for name, length in lists:
            setattr(self, name, words[:length])
            words = words[length:]


def check_bench_cases(figures, engine):
    settled = {name: Settled(calls, engine) for name, calls in CASES.items()}
    for name, case in settled.items():
        figures.equal(f"{name}, all calls accepted", set(case.numbers), {0})
    equal = figures.equal

    equal("P1 parts", engine.parts(70_001, [100, 200]), [23_333, 46_668])
    equal("P1 losses", settled["P1"].loss, [2_333, 2_333])
    equal("P1 remainders", settled["P1"].remainder, [0, 15_665])

    before_closing = Settled(CASES["P2"][:-1], engine)
    equal("P2 pending", before_closing.record.pending[0], 24_000)
    equal("P2 charge", settled["P2"].charge, [2_400])
    equal("P2 drawn", settled["P2"].drawn, [0, 15_665])
    equal("P2 bank", settled["P2"].bank, [5_935])

    equal("P3 lapsed", settled["P3"].lapsed, [5_935])
    equal("P3 bank", settled["P3"].bank, [0])

    equal("P4 set off", settled["P4"].set_off, [6_300])
    equal("P4 shortfall", settled["P4"].shortfall, [2_700])
    equal("P4 remainder", settled["P4"].remainder, [1_000])

    equal("P5 unaccounted", settled["P5"].unaccounted, [2_000])
    equal("P5 inadvertent", settled["P5"].record.inadvertent[0], 5_000)

    equal("P6 set off", settled["P6"].set_off, [2_000, 10_000])
    equal("P7 set off", settled["P7"].set_off, [10_000, 2_000])

    equal("P8 unaccounted", settled["P8"].unaccounted, [500])

    equal("P9 part", engine.parts(1, [1]), [1])
    equal("P9 loss", settled["P9"].loss, [0])
    equal("P9 delivered", [settled["P9"].set_off[0] + settled["P9"].underdrawn[0]], [1])

    equal("P10 remainder", settled["P10"].remainder, [38_000_000])


def check_printed_table(figures):
    text = b"E1,R1,R2\n70001,20000,60000\n30000,5000,0\n"
    printed = (b"generator,injected,unaccounted,loss,setoff,inadvertent,charge,drawn,lapsed,"
               b"bank,pending\n1,100001,0,6666,69335,0,2400,15665,0,5935,0\n")
    figures.equal("printed table", table.wheel_output(text), printed)
    figures.equal("value lines read", table.read_table(1, 2, text, 10_080)[2], 2)


def check_refusals(figures, engine):
    for number, calls in REFUSAL_EXAMPLES.items():
        unit = SecondUnit(engine)
        *before, last = calls
        for call in before:
            figures.equal(f"refusal {number}, call before", unit.do(call).number,
                          None if call.words or call.name == "new_record" else 0)
        record = unit.record
        outcome = unit.do(last)
        figures.equal(f"refusal {number}", outcome.number, number)
        figures.equal(f"refusal {number}, record as it was", unit.record, record)
    figures.equal("numbers with an example", sorted(REFUSAL_EXAMPLES), [*range(1, 14), 19])

    figures.equal("refusal 14", table.read_table(1, 1, b"E1,R2\n", 10)[0], 14)
    figures.equal("refusal 15", table.read_table(1, 1, b"E1,R1\n07,5\n", 10)[0], 15)
    figures.equal("refusal 16: 2 lines, space for 1",
                  table.read_table(1, 1, b"E1,R1\n1,2\n3,4\n", 2)[0], 16)


def check_days(figures, engine):
    for what, (call, (number, *numbers)) in DAYS.items():
        outcome = SecondUnit(engine).do(call)
        output = outputs_to_bytes(numbers) if number == ACCEPTED else PATTERN[:call.output_bytes]
        figures.equal("F-1, " + what, (outcome.number, outcome.output), (number, output))


def check_accepted(figures, engine, request, cases):
    """Lists of calls, with figures of the last output and of the record."""
    for what, (calls, paper) in cases.items():
        settled = Settled(calls, engine)
        figures.equal(f"{request}, {what}, all calls accepted", set(settled.numbers), {ACCEPTED})
        for figure, value in paper.items():
            got = attrgetter(figure)(settled)
            # Of a record's list the first places, as many as are given.
            figures.equal(f"{request}, {what}, {figure}",
                          got[:len(value)] if isinstance(got, list) else got, value)


def check_hours(figures, engine):
    check_accepted(figures, engine, "F-7", HOURS)
    for what, (call, number) in HOURS_OPENINGS.items():
        unit = SecondUnit(engine)
        record = unit.record
        figures.equal(f"F-7, {what}", (unit.do(call).number, unit.record), (number, record))
    refused = Settled(REFUSED_BETWEEN, engine)
    figures.equal("F-7, refused closings between", (refused.numbers, refused.lapsed),
                  (REFUSED_BETWEEN_NUMBERS, [20]))
    figures.equal("F-7, closings done where some are refused", refused.record.closings_done, 2)
    figures.equal("bytes of a record", RECORD_BYTES, 6_536)


def well_formed(names, length):
    """A table of agreement A of exactly so many bytes, in lines of 6 to 30 bytes."""
    text = names
    while len(text) < length:
        left = length - len(text)
        digits = (left if left <= 30 else min(24, left - 6)) - len(",,\n")
        first = min(9, digits - 2)
        second = min(9, digits - first - 1)
        third = digits - first - second
        text += b",".join(b"1" * count for count in (first, second, third)) + b"\n"
    return text


NAMES_OF_A = table.names_line(1, 2)

# What document 01's words on the table say at their edges: the number that the reader gives.
READER_EDGES = (
    ("empty text", b"", 14), ("names without line feed", b"E1,R1,R2", 14),
    ("names with a carriage return", b"E1,R1,R2\r\n", 14),
    ("names of another agreement", b"E1,R1\n1,2\n", 14),
    ("wrong names and a malformed line", b"E1,R2\n07\n", 14),
    ("names only", NAMES_OF_A, 0), ("one line", NAMES_OF_A + b"1,2,3\n", 0),
    ("highest value", NAMES_OF_A + b"4294967295,0,0\n", 0),
    ("value over the highest", NAMES_OF_A + b"4294967296,0,0\n", 15),
    ("very long value", NAMES_OF_A + b"9" * 5_000 + b",0,0\n", 15),
    ("blank line", NAMES_OF_A + b"\n", 15),
    ("blank last line", NAMES_OF_A + b"1,2,3\n\n", 15),
    ("no final line feed", NAMES_OF_A + b"1,2,3", 15),
    ("00", NAMES_OF_A + b"00,1,1\n", 15), ("leading zero", NAMES_OF_A + b"07,1,1\n", 15),
    ("sign", NAMES_OF_A + b"+1,1,1\n", 15), ("space", NAMES_OF_A + b" 1,1,1\n", 15),
    ("underscore", NAMES_OF_A + b"1_0,1,1\n", 15),
    ("trailing comma", NAMES_OF_A + b"1,1,1,\n", 15),
    ("missing value", NAMES_OF_A + b"1,1\n", 15), ("empty value", NAMES_OF_A + b"1,,1\n", 15),
    ("carriage return", NAMES_OF_A + b"1,1,1\r\n", 15),
    ("zero byte", NAMES_OF_A + b"1,1,1\0\n", 15),
    ("digit outside ASCII", NAMES_OF_A + "\u0661,1,1\n".encode(), 15),
    ("malformed last line before 16", NAMES_OF_A + b"1,1,1\n" * 3_361 + b"x\n", 15),
    ("3,360 lines", NAMES_OF_A + b"1,1,1\n" * 3_360, 0),
    ("3,361 lines", NAMES_OF_A + b"1,1,1\n" * 3_361, 16),
)

# What program `wheel` prints at its edges.
WHEEL_REFUSALS = (
    ("names only", NAMES_OF_A, 13),
    ("reading over the limit on the last line", NAMES_OF_A + b"1,2,3\n200000001,0,0\n", 10),
    ("malformed line after such a reading", NAMES_OF_A + b"200000001,0,0\nx\n", 15),
    ("3,361 lines", NAMES_OF_A + b"1,1,1\n" * 3_361, 16),
    ("64 KiB and one byte", well_formed(NAMES_OF_A, table.INPUT_LIMIT + 1), 15),
    ("past 64 KiB", NAMES_OF_A + b"1,1,1\n" * 11_000, 15),
    ("past 64 KiB with other names", b"E1,R1\n" + b"1,1,1\n" * 11_000, 14),
)


def check_reader_edges(figures):
    for what, text, number in READER_EDGES:
        figures.equal("reader, " + what, table.read_table(1, 2, text, table.VALUE_SPACE)[0], number)
    for G, C in ((0, 1), (9, 1), (1, 0), (1, 17)):
        figures.equal(f"reader for {G} x {C}", table.read_table(G, C, b"", 0)[0], 2)
    for what, text, number in WHEEL_REFUSALS:
        figures.equal("wheel, " + what, table.wheel_output(text), b"refused %d\n" % number)
    full = table.wheel_output(well_formed(NAMES_OF_A, table.INPUT_LIMIT))
    figures.equal("wheel, 64 KiB", full.startswith(b"generator,"), True)


def main():
    figures = Figures()
    engine = Engine()
    check_bench_cases(figures, engine)
    check_printed_table(figures)
    check_refusals(figures, engine)
    check_days(figures, engine)
    check_accepted(figures, engine, "F-2", LARGER_FIRST)
    check_accepted(figures, engine, "F-3", NEAREST_LOSS)
    check_hours(figures, engine)
    check_reader_edges(figures)
    for line in figures.wrong:
        print(line)
    print(f"{figures.checked} figures checked, {len(figures.wrong)} differ")
    return 1 if figures.wrong else 0


if __name__ == "__main__":
    sys.exit(main())
