"""The fixed cases of the test program: named lists of calls, the same in every run.

The second engine says what each call gives; these lists only make sure that the calls are met.
Records that no calls lead to are built by hand and lent with `new_record` or `write`.
"""

from itertools import combinations, product

from harness.lent import GUARD, MOST_LENT
from second.calls import (PATTERN, Call, SecondUnit, block_call, close_call, day_call,
                          new_record_call, open_call, packed, schedule_call, write_call)
from second.document_cases import DOCUMENT_CASES
from second.engine import (CLASS_LISTS, CLASS_TERMS, CLASSES, CONSUMER_PLACES, CONSUMER_TERMS,
                           GENERATOR_PLACES, GENERATOR_TERMS, RECORD_BYTES, RECORD_FORM,
                           RECORD_WORDS, Engine, record_from_bytes, record_to_bytes, rounded_up,
                           sums_over_classes)
from second.paper_cases import (CASES, DAYS, HOURS, HOURS_OPENINGS, LARGER_FIRST, NEAREST_LOSS,
                                REFUSAL_EXAMPLES, REFUSED_BETWEEN, one_pair, with_counts)

KW_LIMIT = 400_000
LOSS_LIMIT = 5_000
READING_LIMIT = 200_000_000
MONTH_LIMIT = 3_360
UNIT_LIMIT = 10_000_000
BLOCKS = Engine.DAY_BLOCKS
MISSING = Engine.MISSING
SLOTS = Engine.SLOTS
SWITCH_LIMIT = 1_200
FORMER_RECORD_BYTES = 5_752  # of document 01, before F-7

# In the place of each figure the word of the record that holds it.
WORD_OF = record_from_bytes(RECORD_FORM.pack(*range(RECORD_WORDS)))


def fed(calls):
    """A fixed list as a generator that is sent outcomes, as the random lists are."""
    for call in calls:
        yield call


def after(calls, engine=None):
    """The record that the calls leave, to be changed by hand."""
    unit = SecondUnit(engine or Engine())
    for call in calls:
        unit.do(call)
    return record_from_bytes(unit.record)


# ---- Agreements ----

def simple_unit(G, C, kinds=(1,), cycle=2, gone=0, rate=1_000, switch_month=0):
    """Every pair linked, capacities that allow 1,000 kW for each consumer."""
    generator_list = []
    for g in range(G):
        generator_list += (kinds[g % len(kinds)], 1_000 * C + g, 1_000 * C + 3)
    losses = [(97 * (g + 1) * (c + 2)) % 1_500 for g in range(G) for c in range(C)]
    return open_call(G, C, rate, cycle, gone, generator_list, [1] * (G * C) + losses,
                     switch_month)


def simple_schedule(G, C):
    return schedule_call([10 * (g + 1) + c for g in range(G) for c in range(C)],
                         [1 + (g * 5 + c * 3) % 7 for g in range(G) for c in range(C)])


def three_by_two():
    """Unequal losses, ranks and kinds; one pair unlinked; two months and a lapse, then two more."""
    kinds = (0, 2, 3)
    generator_list = (kinds[0], 900, 700, kinds[1], 500, 640, kinds[2], 1_200, 1_200)
    links = (1, 1, 1, 0, 1, 1)
    losses = (350, 1_210, 47, 0, 905, 2_500)
    calls = [open_call(3, 2, 777, 2, 0, generator_list, links + losses),
             schedule_call((300, 400, 500, 0, 411, 733), (9, 2, 4, 1, 5, 2))]
    for month in range(4):
        if month == 2:
            calls.append(schedule_call((1, 2, 3, 0, 5, 7), (1, 3, 1, 9, 1, 2)))
        for block in range(6):
            step = 1 + month * 6 + block
            calls.append(block_call((30_011 * step, 90_007 * step % 400_003, 53_003 * step),
                                    (61_001 * step % 390_001, 45_007 * (7 - block))))
        # A month in which the consumers meter more than is delivered draws on the bank.
        calls.append(block_call((0, 1, 2), (250_000, 5_000_000 * (month % 2))))
        calls.append(close_call(3, 2))
    return calls


def flat(rows):
    return [figure for row in rows for figure in row]


def order_case(ranks_by_generator, kinds, kw_by_generator):
    """The metered energy rises, so each generator in turn is the last one that is used, in the
    block and in the closing."""
    G = len(ranks_by_generator)
    C = len(ranks_by_generator[0])
    generator_list = []
    for g in range(G):
        generator_list += (kinds[g % len(kinds)], 100, 100)
    losses = [100 * g + c for g in range(G) for c in range(C)]
    calls = [open_call(G, C, 100, 1, 0, generator_list, [1] * (G * C) + losses),
             schedule_call(flat(kw_by_generator), flat(ranks_by_generator))]
    entry = [(2_000 + 300 * g) * C for g in range(G)]
    for step in range(2 * G + 3):
        exit = [1_500 * step + 7 * c for c in range(C)]
        # Enough for the whole bank of some generators, not of all.
        open_now = [1_000 * step + c for c in range(C)]
        calls += [block_call(entry, exit), block_call([0] * G, open_now), close_call(G, C)]
    return calls


EVERY_KIND = (1, 0, 3, 2)


def in_rows(C, *figures):
    """A row of C equal figures for each generator."""
    return [[figure] * C for figure in figures]


def rising_kw(G, C):
    return in_rows(C, *range(10, 10 + G))


# Ranks by generator, then consumer; kinds; kW as the ranks, at most 100 of a generator.
ORDERS = {
    "five, falling": (in_rows(1, 5, 4, 3, 2, 1), EVERY_KIND, rising_kw(5, 1)),
    "five, mixed": ([[3, 200], [7, 9], [3, 1], [1, 255], [2, 9]], EVERY_KIND, rising_kw(5, 2)),
    "five deemed, ties": (in_rows(1, 2, 1, 2, 1, 1), (3,), in_rows(1, 7, 7, 7, 7, 7)),
    "eight, mixed": (
        [[4, 8, 255], [1, 7, 254], [129, 6, 1], [2, 5, 128], [4, 4, 127], [255, 3, 1], [3, 2, 2],
         [5, 1, 255]], EVERY_KIND, rising_kw(8, 3)),
    "eight deemed, equal but for the last": (
        in_rows(1, 9, 9, 9, 9, 9, 9, 9, 8), (1, 2, 3), in_rows(1, *[20] * 8)),
    "eight of kind 0, ranks of one remainder": (
        in_rows(1, 253, 5, 249, 9, 17, 13, 1, 253), (0,), rising_kw(8, 1)),
    # F-2: equal ranks, and kW that rise, fall, are equal in part, differ by consumer.
    "eight of equal rank, kW rising": (in_rows(1, *[4] * 8), EVERY_KIND, rising_kw(8, 1)),
    "eight of equal rank, kW falling": (
        in_rows(2, *[255] * 8), EVERY_KIND, rising_kw(8, 2)[::-1]),
    "eight of equal rank, many of equal kW": (
        in_rows(1, *[1] * 8), (1,), in_rows(1, 9, 30, 9, 30, 9, 1, 30, 1)),
    "eight of two ranks, many of equal kW": (
        in_rows(1, 2, 1, 2, 1, 1, 2, 1, 2), (0, 3), in_rows(1, 9, 30, 9, 30, 9, 90, 30, 90)),
    "eight of equal rank, kW by consumer": (
        in_rows(3, *[7] * 8), EVERY_KIND,
        [[1, 30, 5], [2, 29, 5], [30, 1, 5], [3, 28, 6], [4, 3, 6], [29, 2, 30], [5, 5, 1],
         [5, 6, 29]]),
}


def orders():
    for name, order in ORDERS.items():
        yield name, order_case(*order)


def orders_at_the_limits_of_kw():
    """F-2: the highest kW beside one less, kW that end in the same bits, no kW beside the highest
    of the next rank."""
    for kw, ranks in (((399_999, 400_000), (1, 1)), ((400_000, 399_999), (1, 1)),
                      ((1, 65_536), (255, 255)), ((262_143, 262_144), (9, 9)),
                      ((400_000, 0), (2, 1)), ((400_000, 1), (255, 254)), ((1, 0), (2, 1))):
        yield f"{kw[0]:,} and {kw[1]:,} kW of ranks {ranks[0]} and {ranks[1]}", [
            open_call(2, 1, 0, 2, 0, (1, KW_LIMIT, KW_LIMIT) * 2, (1, 1, 0, 0)),
            # Both have energy left over; what is wanted then takes some of both.
            schedule_call((5, 5), (1, 1)), block_call((1_000, 1_000), (0,)),
            schedule_call(kw, ranks), block_call((1_000, 1_000), (1_500,)),
            block_call((0, 0), (1_500,)), close_call(2, 1)]


def schedules_within_a_month():
    """F-2: a block goes by the schedule that stands at it, drawing by the last one of the month."""
    kw_by_month = (((40, 60), (60, 40)), ((60, 40), (40, 60)), ((60, 0), (0, 60)),
                   ((40, 40), (1, 60)), ((1, 60), (40, 40)))
    for switch_month in (0, 1, 4):
        calls = [open_call(2, 1, 500, 12, 0, (1, 60, 60, 3, 60, 60), (1, 1, 0, 300), switch_month)]
        for first, last in kw_by_month:
            calls += [schedule_call(first, (1, 1)), block_call((9_000, 9_000), (3_000,)),
                      schedule_call(last, (1, 1)), block_call((9_000, 9_000), (3_000,)),
                      block_call((0, 0), (14_000,)), close_call(2, 1)]
        yield f"kW changed within each month, switch month {switch_month}", calls


# ---- Loss to the nearest (F-3) ----

def halves_of(rate, most):
    """Energies up to most of which the rate takes a whole number and a half: the least and the
    largest ones and one in the middle. A rate that 16 divides has none."""
    least = next(energy for energy in range(1, 10_001) if energy * rate % 10_000 == 5_000)
    # The others are its odd multiples.
    last = (most // least - 1) // 2
    return [least * (2 * at + 1) for at in (0, 1, last // 2, last - 1, last)]


def loss_about_a_half():
    """The part at a half, 1 Wh below and 1 Wh above; small and large, of a deemed kind, and of kind
    0 as much as is scheduled."""
    for rate in (1, 2, 3, 4, 7, 8, 19, 20, 47, 125, 500, 625, 999, 1_000, 1_001, 2_500, 2_900,
                 3_333, 4_376, 4_999, 5_000):
        for kind, most in ((1, READING_LIMIT), (0, READING_LIMIT // 2)):
            parts = [half + more for half in halves_of(rate, most - 1) for more in (-1, 0, 1)]
            yield f"loss of {rate:,} about a half, kind {kind}", (
                one_pair(kind, rate, KW_LIMIT, 1_000)
                + [block_call((part,), (part // 2,)) for part in parts] + [close_call(1, 1)])


def loss_of_every_rate():
    """Every rate from 0 to 5,000 in 40 agreements of 128 pairs. Each rate that gives halves does so
    at one of the first four parts and at one of the last four."""
    parts = (625, 1_250, 2_500, 5_000, 4_999, 5_001, 12_499_375, 12_498_750, 12_497_500, 12_495_000)
    for first in range(0, LOSS_LIMIT + 1, 128):
        losses = [min(rate, LOSS_LIMIT) for rate in range(first, first + 128)]
        for kind in (1, 0):
            opening = open_call(8, 16, 1, 12, 0, (kind, KW_LIMIT, KW_LIMIT) * 8, [1] * 128 + losses)
            if kind == 1:  # rule 3: each of 16 consumers has a sixteenth
                calls = [schedule_call([1] * 128, [1] * 128)]
                calls += [block_call([16 * part] * 8, [4 * part] * 16) for part in parts]
            else:  # rule 4: 1,250, 2,500 and 5,000 Wh scheduled, nothing or little delivered
                calls = [call for kw in (5, 10, 20) for call in (
                    schedule_call([kw] * 128, [1] * 128),
                    block_call([0] * 8, [8 * 250 * kw] * 16),
                    block_call([16 * 7] * 8, [5 * 250 * kw] * 16))]
            yield f"losses from {first:,} on, kind {kind}", [opening, *calls, close_call(8, 16)]


def about_32_bits(rate, most):
    """Energies up to most where their product with the rate, or that and a half, leaves 32 bits
    (F-4), and where ten-thousands begin."""
    edges = [(2**32 - 1) // rate, (2**32 - 1 - 5_000) // rate]
    edges += [10_000 * whole for whole in (1, 2, 9_999, 10_000, 19_999)]
    return [energy for edge in edges for energy in (edge - 1, edge, edge + 1)
            if energy <= most] + [most - 1, most]


def loss_about_32_bits():
    """Rule 3 on a part of a deemed kind and of kind 0, and rule 4 on 250 times a kW figure."""
    for rate in (22, 23, 43, 47, 100, 429, 430, 999, 1_000, 2_147, 2_148, 3_333, 4_999, 5_000):
        for kind, most in ((1, READING_LIMIT), (0, READING_LIMIT // 2)):
            yield f"loss of {rate:,} about 32 bits, kind {kind}", (
                one_pair(kind, rate, KW_LIMIT, 1_000)
                + [block_call((part,), (part // 2,)) for part in about_32_bits(rate, most)]
                + [close_call(1, 1)])
        kw_figures = sorted({kw for energy in about_32_bits(rate, 250 * KW_LIMIT)
                             for kw in (energy // 250, energy // 250 + 1) if kw <= KW_LIMIT})
        yield f"scheduled at exit, loss of {rate:,} about 32 bits", (
            one_pair(0, rate) + [call for kw in kw_figures for call in (
                schedule_call((kw,), (1,)), block_call((0,), (READING_LIMIT,)))]
            + [close_call(1, 1)])


class FormerLoss(Engine):
    """Document 01 before F-3."""

    def loss(self, part, rate):
        return rounded_up(part, rate)


def units_in_use_before():
    """Records that the former loss left, within a month: the next blocks go by the new one."""
    for switch_month in (0, 1, 2):
        before = [simple_unit(3, 2, kinds=(1, 0, 3), switch_month=switch_month),
                  simple_schedule(3, 2), *hours_blocks(3, 2, 40)]
        yield f"former loss in a record, switch month {switch_month}", [
            lent(after(before, FormerLoss())), *hours_blocks(3, 2, 40), close_call(3, 2),
            *hours_blocks(3, 2, 3), close_call(3, 2)]


def charges_not_whole():
    """F-3 leaves the charge: what is pending times the rate ends in every tenth, and just beside a
    whole number."""
    for switch_month in (0, 1):
        for rate, pending in ((1_000, range(1, 21)), (1, (1, 4_999, 5_000, 5_001, 9_999, 10_001)),
                              (4_999, (1, 2, 3)), (5_000, (1, 2, 3, 199_999_999))):
            calls = one_pair(1, 0, rate=rate, switch_month=switch_month)
            for energy in pending:
                calls += [block_call((energy,), (0,)), close_call(1, 1)]
            yield f"charges at {rate:,} not whole, switch month {switch_month}", calls


def cycles():
    for cycle, gone in ((1, 0), (2, 1), (3, 0), (3, 2), (5, 1), (12, 0), (12, 11)):
        calls = [simple_unit(2, 2, kinds=(1, 3), cycle=cycle, gone=gone), simple_schedule(2, 2)]
        for month in range(cycle + 2):
            calls += [block_call((90_000 + month, 70_001), (1_000, 2_000)),
                      block_call((0, 0), (500 * month, 20_000)), close_call(2, 2)]
        yield f"cycle {cycle}, gone {gone}", calls


def every_size():
    for G in range(1, GENERATOR_PLACES + 1):
        for C in range(1, CONSUMER_PLACES + 1):
            yield f"size {G} x {C}", [
                simple_unit(G, C, kinds=(3, 0, 1, 2), gone=1), simple_schedule(G, C),
                block_call([40_000 + 991 * g for g in range(G)],
                           [9_000 * (c + 1) for c in range(C)]),
                block_call([0] * G, [70_000 - 1_000 * c for c in range(C)]),
                close_call(G, C)]


# ---- Limits ----

def limits():
    top = open_call(1, 1, 5_000, 12, 11, (1, KW_LIMIT, KW_LIMIT), (1, LOSS_LIMIT))
    yield "all at the limit", [
        top, schedule_call((KW_LIMIT,), (255,)), block_call((READING_LIMIT,), (READING_LIMIT,)),
        block_call((READING_LIMIT,), (0,)), close_call(1, 1)]
    yield "kind 0 at the limit", [
        open_call(1, 1, 5_000, 1, 0, (0, KW_LIMIT, KW_LIMIT), (1, LOSS_LIMIT)),
        schedule_call((KW_LIMIT,), (255,)), block_call((READING_LIMIT,), (READING_LIMIT,)),
        block_call((100_000_000,), (READING_LIMIT,)), block_call((99_999_999,), (READING_LIMIT,)),
        block_call((1,), (READING_LIMIT,)), close_call(1, 1)]
    yield "8 x 16 at the limit", [
        open_call(8, 16, 5_000, 12, 0, (2, KW_LIMIT, KW_LIMIT) * 8, [1] * 128 + [LOSS_LIMIT] * 128),
        schedule_call([25_000] * 128, [255] * 128),
        block_call([READING_LIMIT] * 8, [READING_LIMIT] * 16),
        block_call([READING_LIMIT - g for g in range(8)], [0] * 16), close_call(8, 16)]

    for what, numbers, generator_list, pair_list in (
            ("kind 4", (0, 1, 0), (4, 0, 0), (1, 0)),
            ("installed over", (0, 1, 0), (0, KW_LIMIT + 1, 0), (1, 0)),
            ("contracted over", (0, 1, 0), (0, 0, KW_LIMIT + 1), (1, 0)),
            ("link 2", (0, 1, 0), (0, 0, 0), (2, 0)),
            ("loss over", (0, 1, 0), (0, 0, 0), (1, LOSS_LIMIT + 1)),
            ("loss over on an unlinked pair", (0, 1, 0), (0, 0, 0), (0, LOSS_LIMIT + 1)),
            ("rate over", (5_001, 1, 0), (0, 0, 0), (1, 0)),
            ("cycle 0", (0, 0, 0), (0, 0, 0), (1, 0)),
            ("cycle 13", (0, 13, 0), (0, 0, 0), (1, 0)),
            ("gone 12 of 12", (0, 12, 12), (0, 0, 0), (1, 0)),
            ("gone at the top", (0, 12, 2**32 - 1), (0, 0, 0), (1, 0)),
            ("all numbers at the top", (2**32 - 1,) * 3, (2**32 - 1,) * 3, (2**32 - 1,) * 2)):
        yield "opening, " + what, [open_call(1, 1, *numbers, generator_list, pair_list),
                                   close_call(1, 1)]
    for G, C in ((0, 1), (9, 1), (1, 0), (1, 17), (0, 0), (2**32 - 1, 1), (1, 2**32 - 1),
                 (2**31, 2**31), (2**16, 2**16), (256 + 1, 1), (1, 256 + 1)):
        yield f"opening of {G} x {C}", [
            Call("open", (G, C, 0, 1, 0, 0), (packed((0,) * (3 * min(G, 9))),
                                              packed((0,) * (2 * min(G, 9) * min(C, 17)))))]

    two = open_call(1, 2, 0, 1, 0, (0, 800, 1_000), (1, 1, 0, 0))
    installed_lower = [two] + [schedule_call(kw, (1, 255)) for kw in (
        (800, 0), (0, 800), (799, 2), (801, 0), (400, 400), (400, 401), (1_000, 0), (1_001, 0),
        (2**32 - 1, 801), (2**32 - 1, 2**32 - 1), (2**31, 2**31))]
    yield "sum of kW, installed lower", installed_lower + [block_call((5,), (1, 2))]
    two = open_call(1, 2, 0, 1, 0, (0, 1_000, 800), (1, 1, 0, 0))
    yield "sum of kW, contracted lower", [two] + installed_lower[1:] + [block_call((5,), (1, 2))]
    yield "capacity 0", [open_call(1, 1, 0, 1, 0, (1, 0, KW_LIMIT), (1, 0)),
                         schedule_call((0,), (1,)), schedule_call((1,), (1,)),
                         block_call((10,), (10,))]
    unlinked = open_call(2, 2, 0, 1, 0, (1, 100, 100) * 2, (1, 0, 1, 1) + (0,) * 4)
    yield "ranks", [unlinked] + [schedule_call((5, 0, 5, 5), ranks) for ranks in (
        (255, 255, 255, 255), (1, 0, 1, 1), (1, 256, 1, 1), (0, 1, 1, 1), (1, 1, 1, 256),
        (1, 1, 1, 2**32 - 1), (256, 1, 1, 1), (1, 1, 1, 1))]
    yield "unlinked kW", [unlinked] + [schedule_call(kw, (1,) * 4) for kw in (
        (5, 1, 5, 5), (5, 0, 5, 5), (0, 2**32 - 1, 0, 0), (0, 100, 0, 0))]
    for reading in (READING_LIMIT, READING_LIMIT + 1, 2**31, 2**32 - 1):
        yield f"reading {reading}", [simple_unit(2, 2), simple_schedule(2, 2)] + [
            block_call(entry, exit) for entry, exit in (
                ((reading, 0), (0, 0)), ((0, reading), (0, 0)), ((0, 0), (reading, 0)),
                ((0, 0), (0, reading)))] + [close_call(2, 2)]


def full_months():
    unit = [simple_unit(1, 1), simple_schedule(1, 1)]
    block = block_call((20_000,), (21_000,))
    for month, blocks in ((39, 39), (40, 40), (3_359, 3_359), (3_360, 3_360),
                          (3_359, UNIT_LIMIT - 1), (3_360, UNIT_LIMIT), (1, UNIT_LIMIT - 1),
                          (1, UNIT_LIMIT), (0, UNIT_LIMIT), (0, UNIT_LIMIT - 1), (0, 5)):
        yield f"month block {month} of unit block {blocks}", unit + [
            with_counts(unit, month, blocks), close_call(1, 1), with_counts(unit, month, blocks),
            block, block, close_call(1, 1), block, close_call(1, 1), simple_schedule(1, 1)]
    yield "3,361 blocks in one month", unit + [block] * (MONTH_LIMIT + 1) + [
        close_call(1, 1), block, close_call(1, 1)]


# ---- The lowest of several refusals ----

def every_mixture(faults):
    for count in range(1, len(faults) + 1):
        yield from combinations(sorted(faults), count)


def mixed_refusals():
    """All mixtures of the faults that a call can have at once."""
    for mixture in every_mixture((2, 3, 4, 5, 6, 19)):
        for last in (False, True):  # the fault in the first or in the last place of its list
            generator_list = [1, 100, 100] * 2
            pair_list = [1] * 4 + [0] * 4
            if 3 in mixture:
                generator_list[3 * last] = 4
            if 4 in mixture:
                generator_list[5 if last else 1] = KW_LIMIT + 1
            if 5 in mixture:
                pair_list[7 if last else 0] = LOSS_LIMIT + 1
            switch_month = (2**32 - 1 if last else SWITCH_LIMIT + 1) if 19 in mixture else 1
            call = open_call(2, 2, 5_001 if 6 in mixture else 0, 1, 0, generator_list, pair_list,
                             switch_month)
            if 2 in mixture:
                call = call._replace(record_bytes=RECORD_BYTES + 8 * (1 if last else -1))
            yield f"opening with faults {mixture}", [simple_unit(1, 1), call, close_call(1, 1)]

    unit = [open_call(2, 2, 0, 1, 0, (1, 100, 100) * 2, (1, 0, 1, 1) + (0,) * 4)]
    for mixture in every_mixture((1, 2, 7, 8, 9)):
        kw, ranks = [5, 0, 5, 5], [1, 2, 3, 4]
        if 7 in mixture:
            kw[1] = 1
        if 8 in mixture:
            kw[2:] = [60, 41]
        if 9 in mixture:
            ranks[3] = 256
        call = schedule_call(kw, ranks)
        if 2 in mixture:
            call = call._replace(lists=(call.lists[0], call.lists[1] + b"\0"))
        spoil = [write_call(RECORD_WORDS - 1, 1)] if 1 in mixture else []
        yield f"schedule with faults {mixture}", unit + spoil + [call]

    for mixture in every_mixture((1, 2, 10, 11, 12)):
        record = after(unit)
        record.month_blocks = MONTH_LIMIT if 11 in mixture else 7
        record.unit_blocks = UNIT_LIMIT if 12 in mixture else MONTH_LIMIT
        if 1 in mixture:
            record.lapsed[1] = 1
        call = block_call((1, 2), (3, READING_LIMIT + 1 if 10 in mixture else 4))
        if 2 in mixture:
            call = call._replace(output_bytes=call.output_bytes - 8)
        yield f"block with faults {mixture}", [new_record_call(record_to_bytes(record)), call]

    for mixture in every_mixture((1, 2, 13)):
        record = after(unit)
        record.unit_blocks = 9
        record.month_blocks = 0 if 13 in mixture else 9
        if 1 in mixture:
            record.gone = record.cycle
        call = close_call(2, 2)
        if 2 in mixture:
            call = call._replace(output_bytes=call.output_bytes + 1)
        yield f"closing with faults {mixture}", [new_record_call(record_to_bytes(record)), call]


# ---- Lengths and null pointers ----

def lengths_around(right):
    return sorted({0, 1, 3, 4, 7, 8, right // 2, right - 8, right - 4, right - 2, right - 1, right,
                   right + 1, right + 2, right + 3, right + 4, right + 7, right + 8, 2 * right}
                  - set(range(-8, 0)))


def resized(data, length, more=b"\0"):
    """Lengthened by 0 bytes, which are allowed values where the length is not, or by others."""
    return (data + more * max(0, length - len(data)))[:length]


def with_list(call, which, data):
    return call._replace(lists=call.lists[:which] + (data,) + call.lists[which + 1:])


def other_lengths(call):
    """Each list, then the output, at lengths around the right one and null."""
    for which, data in enumerate(call.lists):
        for length in lengths_around(len(data)):
            yield with_list(call, which, resized(data, length))
        yield with_list(call, which, None)
    if call.output_bytes is not None:
        for length in (*lengths_around(call.output_bytes), None):
            yield call._replace(output_bytes=length)


def lengths():
    G, C = 2, 3
    unit = [simple_unit(G, C), simple_schedule(G, C), block_call((50_000, 40_000), (1, 2, 3_000))]
    for call in (unit[0], unit[1], unit[2], close_call(G, C)):
        calls = [*unit, *other_lengths(call)]
        calls += [call._replace(record_bytes=length)
                  for length in (*lengths_around(RECORD_BYTES), FORMER_RECORD_BYTES)]
        calls.append(call._replace(record_bytes=None))
        calls.append(call._replace(
            record_bytes=None, lists=(None,) * len(call.lists),
            output_bytes=None))
        calls += [call, unit[2], close_call(G, C)]
        yield f"lengths of {call.name}", calls
    yield "lists that are right together only", unit + [
        block_call((1, 2, 3), (4, 5), size=(G, C)), block_call((1,), (2, 3, 4, 5), size=(G, C)),
        block_call((1, 2), (3, 4), size=(G, C)),
        Call("schedule", lists=(packed((1,) * 7), packed((1,) * 5))),
        Call("schedule", lists=(packed((1,) * 12), b"")),
        Call("open", (1, 1, 0, 1, 0, 0), (packed((1, 0, 0, 1)), packed((0,)))),
        Call("open", (2, 1, 0, 1, 0, 0), (packed((1, 0, 0)), packed((1, 0, 0, 1, 1, 0, 0)))),
        Call("open", (1, 2, 0, 1, 0, 0), (packed((1, 0, 0) * 2), packed((1, 1, 0, 0))))]
    yield "lengths of another agreement", unit + [
        simple_unit(3, 2), simple_schedule(2, 2), block_call((1, 2), (3, 4, 5)),
        close_call(2, 3), simple_schedule(3, 2), block_call((1, 2, 3), (4, 5)), close_call(2, 3),
        close_call(3, 2)]


def at_every_length(call, most, more):
    """Each list and the output at every length from 0 to 9 more than this largest call has."""
    for which, data in enumerate(call.lists):
        yield f"every length of list {which + 1} of {call.name}", [
            with_list(call, which, resized(data, length, more))
            for length in range(len(most.lists[which]) + 10)]
    if call.output_bytes is not None:
        yield f"every length of the output of {call.name}", [
            call._replace(output_bytes=length) for length in range(most.output_bytes + 10)]


def every_length(G, C, more):
    """Likewise for each call of an agreement, and the record."""
    unit = [simple_unit(G, C), simple_schedule(G, C),
            block_call([50_000 + g for g in range(G)], [3_000 * c for c in range(C)])]
    longest = [simple_unit(8, 16), simple_schedule(8, 16), block_call((1,) * 8, (2,) * 16),
               close_call(8, 16)]
    for call, most in zip(unit + [close_call(G, C)], longest):
        for what, calls in at_every_length(call, most, more):
            yield f"{G} x {C}, {what}", unit + calls
        yield f"{G} x {C}, every length of the record of {call.name}", unit + [
            call._replace(record_bytes=length) for length in range(RECORD_BYTES + 10)]


# ---- Soundness ----

def used_record(G, C):
    """A record with all terms in use, as calls leave it."""
    calls = [simple_unit(G, C, kinds=(1, 0, 3, 2), cycle=2), simple_schedule(G, C)]
    for month in range(3):
        calls += [block_call([90_000 * (1 + (g + month) % 3) for g in range(G)],
                             [5_000 + 100 * c for c in range(C)]),
                  block_call([20 + g for g in range(G)], [9_000 * (1 + c % 2) for c in range(C)])]
        if month < 2:
            calls.append(close_call(G, C))
    return after(calls)


def calls_on(G, C):
    return [close_call(G, C), block_call([1_000] * G, [2_000] * C), simple_schedule(G, C)]


def unsound_records():
    """Records that break a clause of soundness, most of them one only, and sound ones at its edges."""
    G, C = 3, 2

    def changed(change):
        record = used_record(G, C)
        record.kw[1][1] = 0
        record.link[1][1] = 0
        change(record)
        return [new_record_call(record_to_bytes(record))] + calls_on(
            min(max(record.generators, 1), 8), min(max(record.consumers, 1), 16))

    def set_to(name, value, *place):
        def change(record):
            if not place:
                setattr(record, name, value)
                return
            target = getattr(record, name)
            for step in place[:-1]:
                target = target[step]
            target[place[-1]] = value
        return change

    def all_of(*changes):
        def change(record):
            for single in changes:
                single(record)
        return change

    def added(first, second, amount, place):
        """More energy on both sides of the equation, so that it holds on."""
        def change(record):
            getattr(record, first)[place] += amount
            getattr(record, second)[place] += amount
        return change

    wrap = 2**63
    over = 2**32
    yield "sound", changed(lambda record: None)
    yield "zeros", [new_record_call(bytes(RECORD_BYTES))] + calls_on(1, 1)
    yield "G = 0, all else of a new record of 1 x 1", [simple_unit(1, 1), write_call(0, 0)] \
        + calls_on(1, 1)
    yield "C = 0, all else of a new record of 1 x 1", [simple_unit(1, 1), write_call(1, 0)] \
        + calls_on(1, 1)
    # Zeros but for the other count and a cycle of 1: no clause is broken but that of G, or of C.
    yield "G = 0, all else sound", [new_record_call(bytes(RECORD_BYTES)), write_call(1, 1), write_call(3, 1),
                                    close_call(0, 1), simple_schedule(0, 1)]
    yield "C = 0, all else sound", [new_record_call(bytes(RECORD_BYTES)), write_call(0, 1), write_call(3, 1),
                                    close_call(1, 0), simple_schedule(1, 0)]
    for G_or_C, value in (("generators", 9), ("generators", over + 3), ("generators", 2**64 - 1),
                          ("consumers", 17), ("consumers", over + 2), ("consumers", wrap),
                          ("generators", 0), ("consumers", 0)):
        yield f"{G_or_C} {value}", changed(set_to(G_or_C, value))
    for what, change in (
            ("kind 4", set_to("kind", 4, 2)), ("kind 2^32", set_to("kind", over, 0)),
            ("installed over", set_to("installed", KW_LIMIT + 1, 1)),
            ("contracted over", set_to("contracted", KW_LIMIT + 1, 0)),
            ("contracted 2^32 over", set_to("contracted", over + 2_000, 0)),
            ("link 2", set_to("link", 2, 0, 1)), ("link 2^32 + 1", set_to("link", over + 1, 0, 1)),
            ("link 2, no kW", set_to("link", 2, 1, 1)),
            ("loss over", set_to("loss_rate", LOSS_LIMIT + 1, 2, 1)),
            ("loss over, unlinked", set_to("loss_rate", LOSS_LIMIT + 1, 1, 1)),
            ("loss 2^32", set_to("loss_rate", over, 0, 0)),
            ("rate over", set_to("rate", 5_001)), ("rate 2^32", set_to("rate", over)),
            ("cycle 0", all_of(set_to("cycle", 0), set_to("gone", 0))),
            ("cycle 13", set_to("cycle", 13)), ("cycle 2^32 + 1", set_to("cycle", over + 1)),
            ("gone is the cycle", set_to("gone", 2)), ("gone 2^32", set_to("gone", over)),
            ("kW on an unlinked pair", set_to("kw", 1, 1, 1)),
            ("kW over the lower capacity", set_to("kw", 1_990, 0, 0)),
            ("kW whose sum wraps", all_of(set_to("kw", wrap, 0, 0), set_to("kw", wrap, 0, 1))),
            ("kW whose low half is small", set_to("kw", over, 2, 0)),
            ("kW whose low halves' sum wraps",
             all_of(set_to("kw", over // 2, 2, 0), set_to("kw", over // 2, 2, 1))),
            ("rank 0", set_to("rank", 0, 0, 1)), ("rank 256", set_to("rank", 256, 2, 0)),
            ("rank 0, unlinked", set_to("rank", 0, 1, 1)),
            ("rank 256, unlinked", set_to("rank", 256, 1, 1)),
            ("rank 2^32 + 1", set_to("rank", over + 1, 0, 0)),
            ("month over, unit enough",
             all_of(set_to("month_blocks", MONTH_LIMIT + 1), set_to("unit_blocks", 9_000))),
            ("month over unit", set_to("month_blocks", 7)),
            ("month 2^32 + 2", all_of(set_to("month_blocks", over + 2),
                                      set_to("unit_blocks", UNIT_LIMIT))),
            ("unit over", set_to("unit_blocks", UNIT_LIMIT + 1)),
            ("unit 2^32", set_to("unit_blocks", over + 9)),
            ("set off differs between the sides", added("injected", "set_off", 5, 0)),
            ("drawn differs between the sides", added("metered", "consumer_drawn", 5, 1)),
            ("bank without cause", added("injected", "bank", 9, 1)),
            ("injected 1 Wh, terms as they were", set_to("injected", 1, 0)),
            ("nothing injected, terms wrap",
             all_of(*[set_to(term, 0, 0) for term in (
                 "injected", "loss", "set_off", "inadvertent", "charge", "drawn", "lapsed")],
                 set_to("pending", 0, 0), set_to("unaccounted", wrap, 0),
                 set_to("bank", wrap, 0))),
            ("nothing metered, terms wrap",
             all_of(*[set_to(term, 0, 0) for term in (
                 "metered", "consumer_set_off", "consumer_drawn", "supplied")],
                 set_to("shortfall", wrap, 0), set_to("open", wrap, 0))),
            ("four terms wrap",
             all_of(*[set_to(term, 0, 2) for term in (
                 "injected", "unaccounted", "loss", "inadvertent", "charge", "pending")],
                 *[set_to(term, 2**62, 2) for term in ("set_off", "drawn", "lapsed", "bank")])),
            ("limit of age wraps", set_to("unit_blocks", 2**64 // READING_LIMIT + 1))):
        yield what, changed(change)

    # Injected and metered at the limit of the unit's age, and 1 over it.
    for name, other, first in (("injected", "lapsed", True), ("metered", "supplied", False)):
        for more in (0, 1):
            record = after([simple_unit(G, C), simple_schedule(G, C)])
            record.unit_blocks, record.month_blocks = 3, 2
            place = G - 1 if first else C - 1
            getattr(record, name)[place] = 3 * READING_LIMIT + more
            getattr(record, other)[place] = 3 * READING_LIMIT + more
            yield f"{name} {more} over the age", [
                new_record_call(record_to_bytes(record))] + calls_on(G, C)
    # The equation holds modulo 2^64 and a wide total keeps to no age.
    record = after([simple_unit(1, 1), simple_schedule(1, 1)])
    record.unit_blocks = record.month_blocks = 1
    record.injected[0], record.bank[0] = 2**64 - 1, 2**64 - 1
    yield "injected at the top", [new_record_call(record_to_bytes(record))] + calls_on(1, 1)

    # Places beyond G or C.
    for what, size, places in (
            ("generator", (2, 2), [(name, 2) for name in ("kind", "installed", "contracted")]),
            ("total by generator", (2, 2), [("bank", 2), ("injected", 7), ("charge", 5)]),
            ("total by consumer", (2, 2), [("open", 2), ("metered", 15), ("supplied", 9)]),
            ("pair by generator", (2, 2), [(name, 2, 0) for name in ("link", "loss_rate", "kw",
                                                                    "rank")]),
            ("pair by consumer", (2, 2), [(name, 1, 2) for name in ("link", "loss_rate", "kw",
                                                                   "rank")]),
            ("last pair", (8, 15), [(name, 7, 15) for name in ("link", "loss_rate", "kw",
                                                              "rank")])):
        for name, *place in places:
            record = used_record(*size)
            set_to(name, 1, *place)(record)
            yield f"{what} beyond, {name}", [new_record_call(record_to_bytes(record))] \
                + calls_on(*size)
    # The equation holds beyond G or C, too, but the places are not 0.
    for side, whole, part in (("G", "injected", "bank"), ("C", "metered", "open")):
        record = used_record(2, 2)
        getattr(record, whole)[2] = getattr(record, part)[2] = 1
        yield f"balanced totals beyond {side}", [
            new_record_call(record_to_bytes(record))] + calls_on(2, 2)


def each_word_damaged():
    """Each word of four sound records in turn: one more, one less, wide and widest."""
    for made, size in product((used_record, hours_record), ((3, 2), (8, 16))):
        record = record_to_bytes(made(*size))
        words = RECORD_FORM.unpack(record)
        calls_in_turn = calls_on(*size)
        for first in range(0, RECORD_WORDS, 100):
            calls = [new_record_call(record)]
            for place in range(first, min(first + 100, RECORD_WORDS)):
                value = words[place]
                for turn, wrong in enumerate((value + 1, max(value, 1) - 1, value + 2**32,
                                              value | 2**63, 2**64 - 1)):
                    call = calls_in_turn[(place + turn) % 3]
                    if size == (8, 16) and (place + turn) % 2:
                        continue
                    calls += [write_call(place, wrong), call]
                    # An accepted call has changed more than the damaged word.
                    calls.append(new_record_call(record) if turn < 2 else write_call(place, value))
            by_hours = " by hours" if made is hours_record else ""
            yield f"words from {first} of {size[0]} x {size[1]}{by_hours} damaged", calls


def unreached_records():
    """Sound records that no list of calls leads to."""
    G, C = 2, 2
    unit = [simple_unit(G, C, kinds=(0, 2), cycle=2), simple_schedule(G, C)]
    record = after(unit)
    record.unit_blocks = record.month_blocks = 4
    record.bank[0], record.pending[0], record.injected[0] = 70_000, 30_001, 100_001
    record.inadvertent[1], record.injected[1] = 5, 5
    record.open[0] = record.metered[0] = 60_000
    record.open[1] = record.metered[1] = 200_000
    block = block_call((9_000, 8_000), (7_000, 6_000))
    yield "kind 0 with bank and pending, deemed with inadvertent", [
        new_record_call(record_to_bytes(record)), close_call(G, C), block, close_call(G, C), block,
        close_call(G, C)]

    oldest = READING_LIMIT * UNIT_LIMIT
    for term in ("unaccounted", "bank", "pending"):
        for consumer_term in ("supplied", "open"):
            record = after(unit)
            record.unit_blocks, record.month_blocks = UNIT_LIMIT, 1
            record.injected[:G] = [oldest] * G
            getattr(record, term)[:G] = [oldest] * G
            record.metered[:C] = [oldest] * C
            getattr(record, consumer_term)[:C] = [oldest] * C
            yield f"oldest unit, all in {term} and {consumer_term}", [
                new_record_call(record_to_bytes(record)), block, close_call(G, C), block,
                close_call(G, C), simple_schedule(G, C)]
    record = after(unit)
    record.unit_blocks, record.month_blocks = UNIT_LIMIT - 1, 1
    record.injected[:G] = [oldest - READING_LIMIT] * G
    record.pending[:G] = record.injected[:G]
    record.metered[:C] = [oldest - READING_LIMIT] * C
    record.open[:C] = record.metered[:C]
    full = block_call((READING_LIMIT,) * G, (READING_LIMIT,) * C)
    for rate in (0, 1, 9_999 // 2, 5_000):
        record.rate = rate
        yield f"last block of the oldest unit, rate {rate}", [
            new_record_call(record_to_bytes(record)), full, full, close_call(G, C), full]

    # The largest unit at the limit of age, all of it in one term and then in the next.
    G, C = GENERATOR_PLACES, CONSUMER_PLACES
    unit = [simple_unit(G, C, kinds=(0, 1, 2, 3)), simple_schedule(G, C)]
    everywhere = block_call((READING_LIMIT,) * G, (READING_LIMIT,) * C)
    for place, term in enumerate(GENERATOR_TERMS[1:]):
        consumer_term = CONSUMER_TERMS[1 + place % len(CONSUMER_TERMS[1:])]
        for blocks in (UNIT_LIMIT - 1, UNIT_LIMIT):
            record = after(unit)
            record.unit_blocks, record.month_blocks = blocks, MONTH_LIMIT - 1
            record.injected = [READING_LIMIT * blocks] * G
            setattr(record, term, list(record.injected))
            record.metered = [READING_LIMIT * blocks] * C
            setattr(record, consumer_term, list(record.metered))
            yield f"largest unit at block {blocks}, all in {term} and {consumer_term}", [
                new_record_call(record_to_bytes(record)), everywhere, everywhere,
                simple_schedule(G, C), close_call(G, C), close_call(G, C)]
    record = after(unit)
    record.unit_blocks, record.month_blocks = UNIT_LIMIT - 1, MONTH_LIMIT - 1
    for terms, places in ((GENERATOR_TERMS, G), (CONSUMER_TERMS, C)):
        total = READING_LIMIT * record.unit_blocks
        part = total // len(terms[1:])
        for term in terms[1:]:
            setattr(record, term, [part] * places)
        setattr(record, terms[-1], [total - part * len(terms[2:])] * places)
        setattr(record, terms[0], [total] * places)
    yield "largest unit at the limit of age, some in every term", [
        new_record_call(record_to_bytes(record)), everywhere, close_call(G, C), everywhere]

    # A link may be cut under a bank, and a schedule stand that no opening gives.
    record = used_record(3, 2)
    record.link[0][1] = record.kw[0][1] = 0
    record.link[2][0] = record.kw[2][0] = 0
    record.gone, record.cycle = 11, 12
    yield "links cut under a bank", [new_record_call(record_to_bytes(record)), close_call(3, 2),
                                     block_call((1_000,) * 3, (2_000,) * 2), close_call(3, 2)]


def smaller_things():
    yield "schedule after schedule", [
        simple_unit(2, 2), simple_schedule(2, 2), schedule_call((0, 0, 0, 9), (1, 2, 3, 4)),
        block_call((8_000, 7_000), (3_000, 9_000)), schedule_call((9, 9, 0, 0), (4, 3, 2, 1)),
        block_call((8_000, 7_000), (3_000, 9_000)), close_call(2, 2)]
    yield "schedule changed before the closing", [
        simple_unit(2, 1, kinds=(1, 3)), schedule_call((10, 10), (1, 2)),
        block_call((9_000, 9_000), (0,)), block_call((0, 0), (9_500,)),
        schedule_call((0, 0), (2, 1)), close_call(2, 1)]
    yield "no schedule", [simple_unit(2, 2), block_call((5, 6), (7, 8)), close_call(2, 2)]
    yield "opening over a unit in use", [
        simple_unit(2, 2), simple_schedule(2, 2), block_call((5_000, 6_000), (7, 8)),
        open_call(2, 2, 0, 2, 2, (0, 0, 0) * 2, (0,) * 8), simple_unit(1, 3), close_call(1, 3),
        block_call((5,), (1, 2, 3)), close_call(1, 3)]
    yield "opening over damaged bytes", [
        new_record_call(b"\xff" * RECORD_BYTES), simple_unit(2, 2), block_call((1, 2), (3, 4))]
    # Parts by running sums: each part by itself would lose a watt-hour.
    for kind in (0, 1, 2, 3):
        calls = [open_call(1, 3, 333, 2, 0, (kind, 100, 100), (1,) * 3 + (0, 1, 4_999)),
                 schedule_call((1, 1, 1), (1,) * 3)]
        calls += [block_call((entry,), (entry // 3,) * 3) for entry in
                  (0, 1, 2, 3, 4, 5, 100, 250, 749, 750, 751, 10_000)]
        yield f"small energies of kind {kind}", calls + [close_call(1, 3)]
    # Two of kind 0, both short: what the second delivers comes before the first one's shortfall.
    yield "shortfall after all set-off", [
        open_call(2, 1, 0, 1, 0, (0, 40, 40) * 2, (1, 1, 0, 0)), schedule_call((40, 40), (1, 2)),
        block_call((6_000, 9_000), (15_500,)), block_call((6_000, 9_000), (16_500,)),
        block_call((6_000, 9_000), (12_000,)), block_call((6_000, 9_000), (30_000,)),
        close_call(2, 1)]
    yield "two consumers after one bank", [
        open_call(2, 2, 0, 3, 0, (1, 40, 40, 3, 40, 40), (1, 1, 0, 1) + (0,) * 4),
        schedule_call((20, 20, 0, 40), (2, 2, 1, 1)), block_call((8_000, 3_000), (0, 0)),
        block_call((0, 0), (5_000, 7_000)), close_call(2, 2),
        block_call((8_000, 3_000), (0, 0)), block_call((0, 0), (1_000, 7_000)), close_call(2, 2)]


# ---- The bank by hours (F-7) ----

def balanced(record):
    """The record with the old places of bank, pending and open as sums of their classes, and
    injected and metered as sums of their terms."""
    for term, names in CLASS_TERMS.items():
        setattr(record, term, sums_over_classes(getattr(record, name) for name in names))
    for first, *others in (GENERATOR_TERMS, CONSUMER_TERMS):
        setattr(record, first, [sum(amounts) for amounts in
                                zip(*(getattr(record, other) for other in others))])
    return record


def with_classes(record, amount):
    """Each class place of the agreement holds amount(term, class from 0, place)."""
    sizes = {"bank": record.generators, "pending": record.generators, "open": record.consumers}
    for term, names in CLASS_TERMS.items():
        for class_number, name in enumerate(names):
            places = sizes[term]
            getattr(record, name)[:places] = [amount(term, class_number, place)
                                              for place in range(places)]
    return balanced(record)


def some_energy(term, class_number, place):
    """No two places alike; what is banked is now more and now less than what is open."""
    return {"bank": 1_009, "pending": 2_003, "open": 5_011}[term] * (
        1 + (class_number + place) % 3) + 13 * class_number + place


def hours_record(G, C, switch_month=1, closings_done=4, month_blocks=40, **terms):
    """A sound record under the new rules that no calls lead to: all class places in use, the banks
    too, which every closing leaves at 0."""
    record = after([simple_unit(G, C, switch_month=switch_month, **{"kinds": EVERY_KIND, **terms}),
                    simple_schedule(G, C)])
    record.closings_done, record.month_blocks = closings_done, month_blocks
    record.unit_blocks = closings_done + month_blocks + 7
    record.gone = 0
    return with_classes(record, some_energy)


def before_the_switch(G, C, switch_month, closings_done):
    """A sound record under the old rules, if the switch month is after the next closing."""
    record = used_record(G, C)
    record.unit_blocks += closings_done
    record.switch_month, record.closings_done = switch_month, closings_done
    return record


def lent(record):
    return new_record_call(record_to_bytes(record))


def hours_blocks(G, C, count, month=0):
    """Blocks that leave now some energy over and now some open."""
    return [block_call([(30_011 + 97 * g) * (1 + (block + month) % 5) * (block % 3 > 0)
                        for g in range(G)],
                       [(17_001 + 53 * c) * (1 + (2 * block + month) % 4) * (block % 3 < 2)
                        for c in range(C)]) for block in range(count)]


def months_by_hours(G, C, switch_month, months, blocks, **terms):
    """A unit over its switch month, by calls only."""
    calls = [simple_unit(G, C, switch_month=switch_month, **{"kinds": (1, 0), **terms}),
             simple_schedule(G, C)]
    for month in range(months):
        calls += [*hours_blocks(G, C, blocks, month), close_call(G, C)]
    return calls


def paper_hours():
    for what, (calls, _) in HOURS.items():
        yield f"F-7, {what}", calls
    for what, (call, _) in HOURS_OPENINGS.items():
        yield f"F-7, {what}", [call, close_call(1, 1)]
    yield "F-7, refused closings between", REFUSED_BETWEEN


def switches():
    """The change-over, by calls only. 40 blocks are of all three classes."""
    for switch_month in (0, 1, 2, 3):
        for cycle, gone in ((1, 0), (2, 1), (3, 0), (12, 11), (12, 5)):
            yield f"switch month {switch_month}, cycle {cycle}, gone {gone}", months_by_hours(
                2, 2, switch_month, switch_month + 2, 40, cycle=cycle, gone=gone)
    for switch_month in (1, 2, 3):
        calls = [simple_unit(2, 1, kinds=(1, 3), cycle=3, switch_month=switch_month),
                 simple_schedule(2, 1)]
        for month in range(switch_month + 1):
            # Refused: no block yet, a wrong length, a reading over the limit, twice closed.
            calls += [close_call(2, 1), *hours_blocks(2, 1, 24, month), close_call(1, 2),
                      block_call((READING_LIMIT + 1, 0), (0,)), close_call(2, 1), close_call(2, 1),
                      close_call(2, 1)]
        yield f"refused calls over switch month {switch_month}", calls
    # The order that stands at the closing draws, whatever stood in the blocks.
    calls = [open_call(3, 2, 500, 4, 1, (1, 900, 900, 2, 900, 900, 3, 900, 900),
                       (1, 1, 1, 0, 1, 1) + (0, 10, 20, 30, 40, 50), switch_month=2)]
    for month in range(4):
        for step in range(8):
            calls += [schedule_call((10 + step, 20, 30, 0, 7 * month, 60 - step),
                                    [1 + (3 * step + 5 * pair + month) % 4 for pair in range(6)]),
                      *hours_blocks(3, 2, 6, month + step)]
        calls += [schedule_call((0,) * 6, (3, 1, 2, 9, 1, 2) if month % 2 else (1, 3, 2, 1, 2, 1)),
                  close_call(3, 2)]
    yield "schedules changed over switch month 2", calls
    yield "opening over a unit by hours", [
        *months_by_hours(2, 2, 1, 1, 30), simple_unit(2, 2), *hours_blocks(2, 2, 25),
        close_call(2, 2), simple_unit(1, 1, cycle=12, gone=11, switch_month=1),
        *hours_blocks(1, 1, 25), close_call(1, 1)]
    for switch_month in (0, 1, 2, 3, SWITCH_LIMIT - 1, SWITCH_LIMIT, SWITCH_LIMIT + 1,
                         256 + 1, 2**16 + 1, 2**31, 2**32 - 1):
        for cycle, gone in ((12, 11), (12, 12), (1, 0), (2, 2**32 - 1)):
            yield f"opening, switch month {switch_month:,}, gone {gone:,} of {cycle}", [
                simple_unit(1, 2, cycle=cycle, gone=gone, switch_month=switch_month),
                *hours_blocks(1, 2, 2), close_call(1, 2)]


def slots():
    """A block after each count of month blocks of two days, and at the edges of every day of the
    longest month."""
    unit = [simple_unit(1, 2, switch_month=1), schedule_call((10, 0), (1, 1))]
    days = range(MONTH_LIMIT // SLOTS)
    edges = (0, 19, 20, 35, 36, 67, 68, 75, 76, 91, 92, 95)

    def block_at(month_blocks):
        return [with_counts(unit, month_blocks, 3 * month_blocks + 5), block_call((9,), (0, 7))]

    for day, edge in product((0, 1, days[-1]), edges):
        yield f"slot {edge + 1} of day {day + 1} of a month", block_at(SLOTS * day + edge)
    for what, months in (
            ("each block of two days", range(2 * SLOTS)),
            ("the edges of every day", [SLOTS * day + edge for day in days for edge in edges])):
        yield f"slots, {what}", [call for month_blocks in months for call in block_at(month_blocks)]


def long_months():
    for blocks in (SLOTS, SLOTS + 1):
        yield f"months of {blocks} blocks over switch month 2", months_by_hours(
            2, 2, 2, 3, blocks, cycle=5)
    yield f"months of {MONTH_LIMIT:,} blocks over switch month 2", months_by_hours(
        1, 1, 2, 2, MONTH_LIMIT, cycle=5) + [block_call((5,), (0,))]
    # By calls only: 1,199 closings under the old rules and three under the new ones.
    yield f"switch month {SWITCH_LIMIT:,} by calls", months_by_hours(
        1, 1, SWITCH_LIMIT, SWITCH_LIMIT + 2, 1, kinds=(1,), cycle=7)


def hours_orders():
    """As the orders above, by records: in each class the open energy rises, so each generator in
    turn is the last one that gives, of its class or of peak."""
    for name, (ranks, kinds, kw) in ORDERS.items():
        G, C = len(ranks), len(ranks[0])
        unit = [simple_unit(G, C, kinds=kinds, switch_month=1),
                schedule_call(flat(kw), flat(ranks))]
        calls = []
        for step in range(2 * G + 4):
            record = after(unit)
            record.unit_blocks, record.month_blocks = 100, 90
            calls += [lent(with_classes(record, lambda term, class_number, place: {
                "bank": (700 + 100 * place) * (1 + (class_number + place) % 2),
                "pending": (300 + 10 * place) * ((class_number + place) % 3),
                "open": 600 * step * (1 + (class_number + step) % 3) + 7 * place}[term])),
                close_call(G, C)]
        yield f"{name}, by hours", calls


def hours_sizes():
    for G in range(1, GENERATOR_PLACES + 1):
        for C in range(1, CONSUMER_PLACES + 1):
            yield f"size {G} x {C} by hours", [
                lent(hours_record(G, C)), *hours_blocks(G, C, 1), close_call(G, C),
                *hours_blocks(G, C, 2), close_call(G, C)]


def hours_records():
    """Sound records under the new rules that no list of calls leads to."""
    G, C = 3, 2
    again = [*hours_blocks(G, C, 3), close_call(G, C), *hours_blocks(G, C, 2), close_call(G, C)]
    yield "class banks not 0 at a closing", [lent(hours_record(G, C)), close_call(G, C), *again]
    for term in CLASS_TERMS:
        for class_number, hours in enumerate(CLASSES):
            record = with_classes(hours_record(G, C), lambda of, number, place: some_energy(
                of, number, place) * ((of, number) == (term, class_number)))
            yield f"by hours, all in {hours} {term}", [lent(record), *again]
    yield "kind 0 with class bank and pending", [
        lent(hours_record(G, C, kinds=(0,))), close_call(G, C), *again]
    record = hours_record(G, C)
    for g, c in ((0, 1), (1, 0), (2, 0)):
        record.link[g][c] = record.kw[g][c] = 0
    yield "links cut under class banks", [lent(record), close_call(G, C), *again]
    # A watt-hour moved from class to class leaves the sums.
    calls = []
    for term, names in CLASS_TERMS.items():
        for from_name, to_name in ((0, 1), (1, 2), (2, 0)):
            record = hours_record(G, C)
            getattr(record, names[from_name])[1] -= 1
            getattr(record, names[to_name])[1] += 1
            calls += [lent(record), simple_schedule(G, C), close_call(G, C)]
    yield "a watt-hour moved from class to class", calls
    for switch_month, closings_done in (
            (1, 0), (1, 1_199), (1, 1_200), (1, 9_000_000), (2, 1), (3, 2), (3, 3), (1_200, 1_199),
            (1_200, 1_200), (1_200, 9_999_000), (1_199, 1_198), (257, 256), (257, 512)):
        record = hours_record(G, C, switch_month, closings_done)
        yield f"by hours, switch month {switch_month:,}, {closings_done:,} closings done", [
            lent(record), *hours_blocks(G, C, 2), close_call(G, C), *again]
    # The same before the switch, with bank, pending and open but no class places.
    for switch_month, closings_done in (
            (0, 0), (0, 1), (0, 1_199), (0, 9_999_000), (2, 0), (3, 0), (3, 1), (1_200, 0),
            (1_200, 1_197), (1_200, 1_198), (257, 255), (258, 0)):
        record = before_the_switch(G, C, switch_month, closings_done)
        yield (f"before the switch, switch month {switch_month:,}, "
               f"{closings_done:,} closings done"), [
            lent(record), *hours_blocks(G, C, 2), close_call(G, C), *again]

    # As many closings as blocks allow, and the oldest unit with all in one class list.
    record = hours_record(G, C)
    record.closings_done, record.month_blocks, record.unit_blocks = 60, 40, 100
    yield "a closing for every other block", [lent(record), close_call(G, C), *again]
    G, C = GENERATOR_PLACES, CONSUMER_PLACES
    everywhere = block_call((READING_LIMIT,) * G, (READING_LIMIT,) * C)
    for class_number, hours in enumerate(CLASSES):
        for term in ("bank", "pending"):
            for blocks in (UNIT_LIMIT - 1, UNIT_LIMIT):
                record = hours_record(G, C, 1_200, 1_199, month_blocks=MONTH_LIMIT - 1, rate=4_999)
                record.unit_blocks = blocks
                most = READING_LIMIT * blocks
                yield f"largest unit by hours at block {blocks:,}, all in {hours} {term}", [
                    lent(with_classes(record, lambda of, number, place: most * (
                        of in (term, "open") and number == class_number))),
                    everywhere, close_call(G, C), everywhere, close_call(G, C)]
    record = hours_record(G, C, 1, UNIT_LIMIT - MONTH_LIMIT, month_blocks=MONTH_LIMIT, rate=3_333)
    record.unit_blocks = UNIT_LIMIT
    part = READING_LIMIT * UNIT_LIMIT // 6
    yield "largest unit by hours, some in every class place", [
        lent(with_classes(record, lambda term, number, place: part - 1_000 * number - place)),
        close_call(G, C), close_call(G, C), everywhere, simple_schedule(G, C)]


def one_by_one(record, places, calls):
    """The word at each of the places is changed by itself and put back; a call in turn sees it."""
    words = RECORD_FORM.unpack(record_to_bytes(record))
    made = [lent(record)]
    for turn, (place, change) in enumerate(places):
        made += [write_call(place, words[place] + change), calls[turn % len(calls)],
                 write_call(place, words[place])]
    return made


def class_words(*names):
    return [place for name in names or CLASS_LISTS for place in getattr(WORD_OF, name)]


def unsound_by_hours():
    """Records that break one clause of F-7's soundness and no other; sound ones at its edges."""
    G, C = 3, 2
    over = 2**32

    def changed(record, **figures):
        for name, value in figures.items():
            setattr(record, name, value)
        return [lent(record), *calls_on(G, C)]

    # The switch month, under either rules.
    for shown, switch_month in ((f"{SWITCH_LIMIT:,}", SWITCH_LIMIT),
                                (f"{SWITCH_LIMIT + 1:,}", SWITCH_LIMIT + 1), ("2^32", over),
                                ("2^32 + 1", over + 1), ("2^32 + 3", over + 3), ("2^63", 2**63),
                                ("2^64 - 1", 2**64 - 1)):
        yield f"record with switch month {shown}", changed(
            before_the_switch(G, C, 0, 0), switch_month=switch_month)
        yield f"record by hours with switch month {shown}", changed(
            hours_record(G, C, 1, 5_000), switch_month=switch_month)
    yield "record by hours with switch month 1,201 and 1,200 closings done", changed(
        hours_record(G, C, 1, SWITCH_LIMIT), switch_month=SWITCH_LIMIT + 1)

    # Closings done: month blocks are 2 before the switch and 40 by hours.
    for what, record in (("", before_the_switch(G, C, 0, 0)), (" by hours", hours_record(G, C))):
        month_blocks, unit_blocks = record.month_blocks, record.unit_blocks
        room = unit_blocks - month_blocks
        for shown, closings_done in (
                ("as many closings done as fit", room), ("one closing done too many", room + 1),
                ("closings done as many as unit blocks", unit_blocks),
                ("closings done 2^32", over), ("closings done 2^32 more than fit", over + room),
                ("closings done 2^63", 2**63), ("closings done 2^64 - 1", 2**64 - 1),
                ("closings done 2^64 - 2", 2**64 - 2), ("closings done 2^64 - 3", 2**64 - 3),
                ("closings done that wrap to 0", 2**64 - month_blocks)):
            yield f"record{what}, {shown}", changed(record, closings_done=closings_done)
        record.month_blocks = 0
        for shown, closings_done in (
                ("as many closings done as fit", unit_blocks),
                ("one closing done too many", unit_blocks + 1),
                ("closings done 2^64 - 1", 2**64 - 1)):
            yield f"record{what}, month empty, {shown}", changed(
                record, closings_done=closings_done)
    # Closings done whose next ones wrap to 0, with nothing in the classes.
    for switch_month, less in product((1, 2, 3), (1, 2, 3)):
        yield f"switch month {switch_month}, closings done 2^64 - {less}", changed(
            after([simple_unit(G, C, switch_month=switch_month), simple_schedule(G, C),
                   block_call((0,) * G, (0,) * C)]), closings_done=2**64 - less)

    # Class places before the switch, with the old places as their sums.
    for name in CLASS_LISTS:
        record = with_classes(before_the_switch(G, C, 9, 7), lambda term, number, place: 0)
        getattr(record, name)[:2] = [5, 6]
        yield f"classes that add up before the switch, {name}", changed(balanced(record))
    for record in (hours_record(G, C, switch_month=6, closings_done=4),
                   hours_record(G, C, switch_month=0), hours_record(G, C, switch_month=1_200)):
        yield (f"all class places in use, switch month {record.switch_month}, "
               f"{record.closings_done} closings done"), changed(record)

    # Months gone from the switch on, and just before it, where it may be any.
    for gone, cycle in ((1, 2), (1, 12), (11, 12)):
        yield f"record by hours with months gone {gone} of {cycle}", changed(
            hours_record(G, C, cycle=cycle), gone=gone)
        yield f"months gone {gone} of {cycle} just before the switch", changed(
            before_the_switch(G, C, 6, 4), gone=gone, cycle=cycle)
        yield f"months gone {gone} of {cycle} at the switch, nothing banked", changed(
            after([simple_unit(G, C, cycle=cycle, switch_month=6)]), gone=gone, closings_done=5,
            unit_blocks=9)

    # What was banked before the switch belongs to no class.
    for switch_month in (1, 3):
        record = used_record(G, C)  # two closings done
        record.switch_month, record.gone = switch_month, 0
        yield f"bank, pending and open without classes, switch month {switch_month}", changed(
            record)
    for term in CLASS_TERMS:
        record = with_classes(hours_record(G, C), lambda of, number, place: 0)
        getattr(record, term)[1] = 1
        record.injected[1], record.metered[1] = record.bank[1] + record.pending[1], record.open[1]
        yield f"a watt-hour of {term} of no class", changed(record)

    # Classes that add up modulo 2^64 only, within the agreement and beyond it.
    wrapping = ((2**63, 2**63, 0), (2**64 - 1, 1, 0), (7, 2**64 - 7, 0),
                (2**64 - 1, 2**64 - 1, 2))
    for (term, names), (where, place) in product(
            CLASS_TERMS.items(), (("", 1), (" beyond the agreement", 5))):
        for which, (first, second, more) in enumerate(wrapping, start=1):
            calls = []
            for turn, call in enumerate(calls_on(G, C)):
                record = hours_record(G, C)
                values = (first, second, getattr(record, term)[place] + more)
                for name, value in zip(names, values[turn:] + values[:turn]):
                    getattr(record, name)[place] = value
                calls += [lent(record), call]
            yield f"classes of {term} that add up modulo 2^64 only{where}, {which}", calls

    # A host that writes a switch month into a unit in use.
    for switch_month in (1, 2, 3, 4, 5):
        yield f"switch month {switch_month} written after three closings", [
            simple_unit(G, C, cycle=12), simple_schedule(G, C),
            *(call for month in range(3) for call in (*hours_blocks(G, C, 2, month),
                                                      close_call(G, C))),
            write_call(WORD_OF.switch_month, switch_month), *hours_blocks(G, C, 2),
            close_call(G, C), *hours_blocks(G, C, 2), close_call(G, C)]


def each_class_place():
    """Every class place by itself, and every old place whose classes no longer add up to it."""
    for size in ((3, 2), (GENERATOR_PLACES, CONSUMER_PLACES)):
        for switch_month, closings_done in ((0, 0), (0, 5), (2, 0), (9, 7)):
            record = before_the_switch(*size, switch_month, closings_done)
            yield (f"each class place before the switch, {size[0]} x {size[1]}, "
                   f"switch month {switch_month}, {closings_done} closings done"), one_by_one(
                record, [(place, 1) for place in class_words()], calls_on(*size))

    # The equation is kept where an old place is changed.
    for size in ((3, 2), (GENERATOR_PLACES, CONSUMER_PLACES)):
        record = hours_record(*size)
        sizes = {"bank": size[0], "pending": size[0], "open": size[1]}
        for change, what in ((1, "more"), (-1, "less")):
            places = [place for name in CLASS_LISTS
                      for place in class_words(name)[:sizes[name.rsplit("_", 1)[1]]]]
            yield f"a watt-hour {what} in each class place of {size[0]} x {size[1]}", one_by_one(
                record, [(place, change) for place in places], calls_on(*size))
            calls = []
            for term, whole in (("bank", "injected"), ("pending", "injected"), ("open", "metered")):
                for place in range(sizes[term]):
                    one = hours_record(*size)
                    for name in (term, whole):
                        getattr(one, name)[place] += change
                    calls += [lent(one), calls_on(*size)[place % 3]]
            yield f"a watt-hour {what} in each old place of {size[0]} x {size[1]}", calls
    for size in ((3, 2), (7, 15)):
        places = [place for name, places in CLASS_LISTS.items()
                  for place in class_words(name)[size[places == CONSUMER_PLACES]:]]
        for shown, change in (("1", 1), ("2^63", 2**63)):
            yield f"{shown} in each class place beyond {size[0]} x {size[1]}", one_by_one(
                hours_record(*size), [(place, change) for place in places], calls_on(*size))


def short_records():
    """A record of the former length, and lengths beside the right one, in each call."""
    for length in (FORMER_RECORD_BYTES, RECORD_BYTES - 8, RECORD_BYTES - 1, RECORD_BYTES + 1,
                   RECORD_BYTES + 8):
        calls = [simple_unit(2, 2, switch_month=1), simple_schedule(2, 2)]
        for call in (simple_unit(2, 2, switch_month=1), *hours_blocks(2, 2, 1), close_call(2, 2),
                     simple_schedule(2, 2)):
            calls += [call._replace(record_bytes=length), call]
        yield f"record of {length:,} bytes", calls


# ---- A day of a main and a check meter ----

# No two blocks alike. Block k, from 0, is k + 1 Wh apart, in turn the one and the other larger, so
# that each tolerance up to 96 gives another count.
MAIN_DAY = tuple(40_000 + 1_009 * block for block in range(BLOCKS))
CHECK_DAY = tuple(reading + (block + 1) * (-1) ** block for block, reading in enumerate(MAIN_DAY))
SOME_APART = 40
# As long as the memory that is lent, at any shift; as the pattern in an output.
LONGEST_LIST = MOST_LENT - 2 * len(GUARD) - 8
LONGEST_OUTPUT = len(PATTERN)


def with_reading(day, blocks, reading):
    """The day with this reading in these blocks."""
    return [reading if block in blocks else own for block, own in enumerate(day)]


def day_missing(in_main=(), in_check=()):
    """The day above without the readings of these blocks."""
    return day_call(with_reading(MAIN_DAY, in_main, MISSING),
                    with_reading(CHECK_DAY, in_check, MISSING), SOME_APART)


def missing_readings():
    every = range(BLOCKS)
    yield "day, none missing", [day_missing()]
    yield "day, all missing", [day_missing(every, ()), day_missing((), every),
                               day_missing(every, every)]
    yield "day, one missing in the main day", [day_missing((block,), ()) for block in every]
    yield "day, one missing in the check day", [day_missing((), (block,)) for block in every]
    yield "day, the same block missing in both", [
        day_missing((block,), (block,)) for block in every]
    for what, blocks in (("from a block on", lambda block: every[block:]),
                         ("up to a block", lambda block: every[:block])):
        yield f"day, missing {what}", [
            call for block in every for call in (
                day_missing(blocks(block), ()), day_missing((), blocks(block)))]
    yield "day, the halves missing", [
        day_missing(every[:48], every[48:]), day_missing(every[48:], every[:48]),
        day_missing(every[0::2], every[1::2]), day_missing(every[0::2], ()),
        day_missing((), every[0::2])]


def missing_in_unequal_blocks():
    """All 96 x 95."""
    for block in range(BLOCKS):
        yield f"day, block {block} missing in the main day, another in the check day", [
            day_missing((block,), (other,)) for other in range(BLOCKS) if other != block]


# Limits of a reading and of a number of 1, 2, 4 bytes, with and without a sign.
ODD_READINGS = (0, 1, 255, 256, 65_535, 65_536, READING_LIMIT, READING_LIMIT + 1, 2**31 - 1, 2**31,
                MISSING - 1)


def odd_readings():
    for lower, higher in combinations(ODD_READINGS, 2):
        apart = higher - lower
        yield f"day, {lower} beside {higher}", [
            day_call([main] * BLOCKS, [check] * BLOCKS, tolerance)
            for main, check in ((lower, higher), (higher, lower))
            for tolerance in sorted({0, 1, apart - 1, apart, apart + 1, MISSING - 1, MISSING})]


def readings_taken_for_missing():
    """None of them is: if one were, the first of its four calls would be refused with 17."""
    one_byte_less = {MISSING - change * 256**byte for byte in range(4) for change in (1, 128, 255)}
    incomplete = with_reading(CHECK_DAY, (5,), MISSING)
    for reading in sorted(one_byte_less.union(ODD_READINGS)):
        complete = with_reading(MAIN_DAY, (7,), reading)
        yield f"day, {reading} is a reading", [
            day_call(complete, incomplete, 0), day_call(complete, CHECK_DAY, 0),
            day_call(incomplete, complete, 0), day_call(CHECK_DAY, complete, 0)]


def beside_a_missing_one():
    """As a number the missing one would be further away than the first two tolerances."""
    for reading in ODD_READINGS:
        calls, far = [], MISSING - reading
        for tolerance, block in product((0, far - 1, far), (0, 50, BLOCKS - 1)):
            present, absent = (with_reading(MAIN_DAY, (block,), one) for one in (reading, MISSING))
            calls += [day_call(absent, present, tolerance), day_call(present, absent, tolerance)]
        yield f"day, {reading} beside a missing one", calls


def blocks_apart():
    yield "day, each tolerance", [
        day_call(*days, tolerance) for tolerance in range(BLOCKS + 2)
        for days in ((MAIN_DAY, CHECK_DAY), (CHECK_DAY, MAIN_DAY))]
    for what, change in (("larger", SOME_APART + 1), ("smaller", -SOME_APART - 1)):
        moved = [reading + change for reading in MAIN_DAY]
        yield f"day, check reading {what}, one block apart", [
            day_call(MAIN_DAY, with_reading(MAIN_DAY, (block,), moved[block]), SOME_APART)
            for block in range(BLOCKS)]
        yield f"day, check reading {what}, all but one apart", [
            day_call(MAIN_DAY, with_reading(moved, (block,), MAIN_DAY[block]), SOME_APART)
            for block in range(BLOCKS)]
        yield f"day, check reading {what}, all apart", [
            day_call(main, check, tolerance)
            for main in (MAIN_DAY, with_reading(MAIN_DAY, (0, 9), MISSING))
            for check in (moved, with_reading(moved, (0, BLOCKS - 1), MISSING))
            for tolerance in (0, SOME_APART, SOME_APART + 1)]


def days_not_of_96():
    """With and without missing readings: 2 comes before 17."""
    for main_count, check_count in product((0, BLOCKS - 1, BLOCKS, BLOCKS + 1), repeat=2):
        yield f"day of {main_count} and {check_count} readings", [
            day_call(with_reading((*MAIN_DAY, 7), main_missing, MISSING)[:main_count],
                     with_reading((*CHECK_DAY, 7), check_missing, MISSING)[:check_count], 0)
            for main_missing, check_missing in product(
                ((), (0,), (BLOCKS - 2,), (BLOCKS - 1,), (BLOCKS,)), repeat=2)]


def day_lengths():
    """Of a day that is accepted and of one that is refused with 17."""
    complete, refused = day_missing(), day_missing((0,), (BLOCKS - 1,))
    yield "lengths of day", [
        *other_lengths(complete), *other_lengths(refused),
        *(call._replace(lists=(None, None), output_bytes=output_bytes)
          for call in (complete, refused) for output_bytes in (None, complete.output_bytes))]
    yield "days that are right together only", [
        call._replace(lists=(resized(call.lists[0], length, b"\1"),
                             resized(call.lists[1], 8 * BLOCKS - length, b"\1")))
        for call in (complete, refused)
        for length in (0, 1, 8, 380, 383, 384, 385, 388, 767, 768)]
    long = (4_000, 4_096, LONGEST_LIST)
    yield "day, long lists", [
        call._replace(lists=(resized(call.lists[0], main_length, more),
                             resized(call.lists[1], check_length, more)))
        for call in (complete, refused) for more in (b"\0", b"\xff")
        for main_length, check_length in product((4 * BLOCKS, *long), repeat=2)]
    yield "day, long outputs", [call._replace(output_bytes=length) for call in (complete, refused)
                                for length in (4_000, 4_096, LONGEST_OUTPUT)]
    for what, call, more in (("complete", complete, b"\0"), ("incomplete", refused, b"\xff")):
        for length, calls in at_every_length(call, call, more):
            yield f"{what}, {length}", calls


def days_between():
    """A day leaves the record that stands."""
    days = (day_missing(), day_missing((3,), ()), day_missing((3,), (4,)), day_missing((), (4,)),
            with_list(day_missing(), 0, b""))
    yield "days between the calls of a unit", [
        step for at, call in enumerate(three_by_two()) for step in (call, days[at % len(days)])]


def days():
    for what, (call, _) in DAYS.items():
        yield f"F-1, {what}", [call]
    yield from missing_readings()
    yield from odd_readings()
    yield from readings_taken_for_missing()
    yield from beside_a_missing_one()
    yield from blocks_apart()
    yield from days_not_of_96()
    yield from day_lengths()
    yield from days_between()


def fixed_cases():
    """All fixed cases: (name, list of calls)."""
    for name, calls in CASES.items():
        yield name, calls
    for number, calls in REFUSAL_EXAMPLES.items():
        yield f"example of refusal {number}", calls
    for request, cases in (("F-2", LARGER_FIRST), ("F-3", NEAREST_LOSS)):
        for what, (calls, _) in cases.items():
            yield f"{request}, {what}", calls
    yield "3 x 2 over four months", three_by_two()
    yield from orders()
    yield from orders_at_the_limits_of_kw()
    yield from schedules_within_a_month()
    yield from loss_about_a_half()
    yield from loss_about_32_bits()
    yield from units_in_use_before()
    yield from charges_not_whole()
    yield from cycles()
    yield from paper_hours()
    yield from switches()
    yield from hours_orders()
    yield from every_size()
    yield from limits()
    yield from mixed_refusals()
    yield from lengths()
    yield from unsound_records()
    yield from unreached_records()
    yield from hours_records()
    yield from unsound_by_hours()
    yield from each_class_place()
    yield from short_records()
    yield from smaller_things()
    yield from days()
    yield from DOCUMENT_CASES.items()
    yield from hours_sizes()
    yield from slots()
    yield from full_months()
    yield from long_months()
    yield from each_word_damaged()
    yield from loss_of_every_rate()
    # Last, since they are many and a wrong rule shows before.
    yield from missing_in_unequal_blocks()
    yield from every_length(2, 3, b"\0")
    yield from every_length(8, 16, b"\xff")
