#!/usr/bin/env python3
"""Shows that the test program's cases tell wrong rules from right ones.

Each wrong rule is put into the second engine in the place of one right rule. The wrong engine and
the right one are fed the fixed cases of compare.py, short ones first, and its random cases; a
difference must show. For each wrong rule, the calls made up to the first difference are printed,
once for the fixed cases and once for the random ones. Ends with 1 if a wrong rule survives both.
"""

import argparse
import struct
import sys
import time
from copy import deepcopy
from itertools import count
from pathlib import Path

sys.path.insert(0, str(Path(__file__).resolve().parent.parent))

from fixed_cases import FormerLoss, fed, fixed_cases  # noqa: E402
from random_calls import calls_of  # noqa: E402
from second.calls import SecondUnit  # noqa: E402
from second.engine import (ACCEPTED, CHECK_METER, CLASS_LISTS, CLASS_TERMS,  # noqa: E402
                           CLASSES, CONSUMER_TERMS, GENERATOR_TERMS, MAIN_METER, MINI_HYDEL, NORMAL,
                           OFF_PEAK, PEAK, WH_PER_KW_IN_A_BLOCK, WHOLE, WIND, Engine,
                           inputs_from_bytes, outputs_to_bytes, record_from_bytes, record_to_bytes,
                           rounded_up, sums_over_classes, taken_in_order, to_the_nearest)

WRONG_RULES = {}


def wrong(what):
    """Names the wrong rule that the class holds."""
    def enter(engine):
        WRONG_RULES[what] = engine
        return engine
    return enter


# ---- Kinds ----

@wrong("only kind 1 deemed")
class OnlyWindDeemed(Engine):
    def deemed(self, kind):
        return kind == WIND


@wrong("kind 2 not deemed")
class MiniHydelNotDeemed(Engine):
    def deemed(self, kind):
        return super().deemed(kind) and kind != MINI_HYDEL


@wrong("kind 0 banked")
class ScheduledBanked(Engine):
    def keep_underdrawn(self, record, g, underdrawn):
        record.pending[g] += underdrawn


# ---- Orders ----

@wrong("drawing by generator number")
class DrawingByNumber(Engine):
    def drawing_order(self, record, c):
        return [g for g in range(record.generators) if record.link[g][c] == 1]


@wrong("drawing from unlinked generators too")
class DrawingUnlinked(Engine):
    def drawing_order(self, record, c):
        return self.inter_se_order(record, c)


@wrong("consumers drawing last to first")
class LastConsumerDrawsFirst(Engine):
    def drawing_consumers(self, record):
        return reversed(range(record.consumers))


@wrong("shortfall reversed")
class ShortfallReversed(Engine):
    def shortfall(self, order, delivered, scheduled, left):
        return super().shortfall(order[::-1], delivered, scheduled, left)


@wrong("shortfall interleaved with set-off")
class ShortfallInterleaved(Engine):
    def settle_consumer(self, order, delivered, scheduled, reading):
        set_off, shortfall = [0] * len(delivered), [0] * len(delivered)
        left = reading
        for g in order:
            set_off[g] = min(delivered[g], left)
            left -= set_off[g]
            shortfall[g] = min(scheduled[g] - delivered[g], left)
            left -= shortfall[g]
        return set_off, shortfall, left


@wrong("set-off by generator number")
class SetOffByNumber(Engine):
    def set_off(self, order, delivered, left):
        return taken_in_order(range(len(delivered)), delivered, left)


@wrong("ranks taken modulo 4")
class RanksModulo4(Engine):
    def standing(self, record, g, c):
        rank, *others = super().standing(record, g, c)
        return rank % 4, *others


@wrong("ranks taken modulo 128")
class RanksModulo128(Engine):
    def standing(self, record, g, c):
        rank, *others = super().standing(record, g, c)
        return rank % 128, *others


@wrong("generators from the fifth on unordered")
class FifthUnordered(Engine):
    def inter_se_order(self, record, c):
        first = range(min(4, record.generators))
        ordered = sorted(first, key=lambda g: self.standing(record, g, c))
        return ordered + list(range(len(first), record.generators))


@wrong("equal kW by higher generator number")
class TiesReversed(Engine):
    def standing(self, record, g, c):
        rank, kw, number = super().standing(record, g, c)
        return rank, kw, -number


# ---- Bigger supplier first (F-2) ----

def former_standing(record, g, c):
    """Document 01, before F-2: equal ranks by lower generator number."""
    return record.rank[g][c], g


def former_order(record, c):
    return sorted(range(record.generators), key=lambda g: former_standing(record, g, c))


@wrong("F-2: former order")
class FormerOrder(Engine):
    def standing(self, record, g, c):
        return former_standing(record, g, c)


@wrong("F-2: smaller first")
class SmallerFirst(Engine):
    def standing(self, record, g, c):
        return record.rank[g][c], record.kw[g][c], g


@wrong("F-2: by the generator's sum")
class ByTheSum(Engine):
    def standing(self, record, g, c):
        return record.rank[g][c], -sum(record.kw[g]), g


@wrong("F-2: by the installed capacity")
class ByInstalled(Engine):
    def standing(self, record, g, c):
        return record.rank[g][c], -record.installed[g], g


@wrong("F-2: by the lower capacity")
class ByCapacity(Engine):
    def standing(self, record, g, c):
        return record.rank[g][c], -self.lower_capacity(record, g), g


@wrong("F-2: kW of the first consumer")
class KwOfTheFirstConsumer(Engine):
    def standing(self, record, g, c):
        return record.rank[g][c], -record.kw[g][0], g


@wrong("F-2: kW before rank")
class KwBeforeRank(Engine):
    def standing(self, record, g, c):
        return -record.kw[g][c], record.rank[g][c], g


@wrong("F-2: 0 kW first among equals")
class NoKwFirst(Engine):
    def standing(self, record, g, c):
        rank, kw, number = super().standing(record, g, c)
        return rank, kw != 0, kw, number


# Keys of one number, too narrow for the highest kW.

@wrong("F-2: kW taken modulo 65,536")
class KwOf16Bits(Engine):
    def standing(self, record, g, c):
        return record.rank[g][c], -(record.kw[g][c] % 65_536), g


@wrong("F-2: small kW of one rank after large kW of the next")
class RanksTooNear(Engine):
    def standing(self, record, g, c):
        return record.rank[g][c] * 262_144 - record.kw[g][c], g


@wrong("F-2: order of the opening kept")
class OrderOfTheOpening(Engine):
    def inter_se_order(self, record, c):
        # An opening leaves every rank 1 and no kW.
        return range(record.generators)


@wrong("F-2: drawing by the schedule of the month's first block")
class DrawnByTheFirstSchedule(Engine):
    first = None

    def block_rules(self, record, entry, exit):
        if record.month_blocks == 0:
            self.first = deepcopy(record)
        return super().block_rules(record, entry, exit)

    def drawing_order(self, record, c):
        return super().drawing_order(self.first or record, c)


@wrong("F-2: drawing by the former order")
class DrawingByTheFormerOrder(Engine):
    def drawing_order(self, record, c):
        return [g for g in former_order(record, c) if record.link[g][c] == 1]


class BothOrders(Engine):
    """Keeps the former order of the consumer that a block settles."""

    def inter_se_order(self, record, c):
        self.former = former_order(record, c)
        return super().inter_se_order(record, c)


@wrong("F-2: set-off by the former order")
class SetOffByTheFormerOrder(BothOrders):
    def set_off(self, order, delivered, left):
        return super().set_off(self.former, delivered, left)


@wrong("F-2: shortfall by the former order")
class ShortfallByTheFormerOrder(BothOrders):
    def shortfall(self, order, delivered, scheduled, left):
        return super().shortfall(self.former, delivered, scheduled, left)


# ---- Schedule ----

@wrong("schedule testing the contracted capacity only")
class ContractedOnly(Engine):
    def lower_capacity(self, record, g):
        return record.contracted[g]


@wrong("schedule testing the installed capacity only")
class InstalledOnly(Engine):
    def lower_capacity(self, record, g):
        return record.installed[g]


@wrong("schedule testing the higher capacity")
class HigherCapacity(Engine):
    def lower_capacity(self, record, g):
        return max(record.installed[g], record.contracted[g])


# ---- Pair lists ----

@wrong("pair lists transposed in the inputs")
class InputsTransposed(Engine):
    def pair_rows(self, pair_list, generators, consumers):
        return [list(pair_list[g::generators]) for g in range(generators)]


@wrong("pair list transposed in the closing's output")
class ClosingTransposed(Engine):
    def closing_output(self, drawn, *lists):
        return super().closing_output([list(column) for column in zip(*drawn)], *lists)


@wrong("pair lists transposed in the block's output")
class OutputTransposed(Engine):
    def block_output(self, loss, set_off, underdrawn, shortfall, unaccounted, remainder):
        turned = [[list(column) for column in zip(*rows)]
                  for rows in (loss, set_off, underdrawn, shortfall)]
        return super().block_output(*turned, unaccounted, remainder)


# ---- Block: whose loss, and how it is rounded ----

@wrong("losses of later generators wrong")
class FirstGeneratorsLosses(Engine):
    def pair_loss_rate(self, record, g, c):
        return record.loss_rate[0][c]


@wrong("losses of later consumers wrong")
class FirstConsumersLosses(Engine):
    def pair_loss_rate(self, record, g, c):
        return record.loss_rate[g][0]


@wrong("loss rounded down")
class LossRoundedDown(Engine):
    def loss(self, part, rate):
        return part * rate // WHOLE


# ---- Block: loss to the nearest (F-3) ----

wrong("F-3: loss rounded up as before")(FormerLoss)


def halves_down(amount, rate):
    """To the nearest, but for halves; as where what is delivered is rounded, halves up."""
    whole, rest = divmod(amount * rate, WHOLE)
    return whole + (2 * rest > WHOLE)


@wrong("F-3: halves down")
class HalvesDown(Engine):
    def loss(self, part, rate):
        return halves_down(part, rate)


@wrong("F-3: halves to the even number")
class HalvesToEven(Engine):
    def loss(self, part, rate):
        down = halves_down(part, rate)
        return down if down % 2 == 0 else to_the_nearest(part, rate)


@wrong("F-3: halves down of parts over 100,000,000")
class LargeHalvesDown(Engine):
    def loss(self, part, rate):
        return halves_down(part, rate) if part > 100_000_000 else super().loss(part, rate)


@wrong("F-3: loss by binary fractions")
class LossByFractions(Engine):
    def loss(self, part, rate):
        return int(part * (rate / WHOLE) + 0.5)


class ScheduleLossApart(Engine):
    """Rule 4 with a rounding of its own, whatever rule 3 does."""
    rounding = staticmethod(to_the_nearest)

    def scheduled_at_exit(self, kind, kw, delivered, rate):
        scheduled = WH_PER_KW_IN_A_BLOCK * kw
        q = delivered if self.deemed(kind) else scheduled - self.rounding(scheduled, rate)
        # With another rounding in rule 3 a generator at its schedule may deliver more than that.
        return max(q, delivered)


@wrong("F-3: rule 4 still up")
class ScheduleLossUp(ScheduleLossApart):
    rounding = staticmethod(rounded_up)


@wrong("F-3: rule 4 with halves down")
class ScheduleHalvesDown(ScheduleLossApart):
    rounding = staticmethod(halves_down)


@wrong("F-3: rule 3 still up")
class PartLossUp(ScheduleLossApart, FormerLoss):
    pass


@wrong("F-3: loss to the nearest of a generator's sum")
class LossOfSum(ScheduleLossApart):
    # Of each part: what is lost of the parts so far, less what was lost of those before.
    def counted(self, kind, entry, total_kw):
        self.exact = 0
        return super().counted(kind, entry, total_kw)

    def loss(self, part, rate):
        before = self.exact
        self.exact += part * rate
        return to_the_nearest(self.exact, 1) - to_the_nearest(before, 1)


@wrong("F-3: charge to the nearest before the switch month")
class FormerChargeToTheNearest(Engine):
    def charge(self, record, g):
        return to_the_nearest(record.pending[g], record.rate)


@wrong("F-3: charge to the nearest by hours")
class ClassChargeToTheNearest(Engine):
    def class_charge(self, record, hours, g):
        return to_the_nearest(record.of_class(hours, "pending")[g], record.rate)


@wrong("F-3: charge to the nearest too")
class ChargeToTheNearest(FormerChargeToTheNearest, ClassChargeToTheNearest):
    pass


# ---- Block: the loss in 32 bits (F-4) ----

def product_in_32_bits(amount, rate):
    """The product before the split: what leaves 32 bits is lost."""
    return (amount * rate % 2**32 + WHOLE // 2) // WHOLE


@wrong("F-4: product before the split")
class ProductBeforeTheSplit(Engine):
    def loss(self, part, rate):
        return product_in_32_bits(part, rate)


@wrong("F-4: product before the split, rule 3 only")
class PartProductBeforeTheSplit(ScheduleLossApart):
    def loss(self, part, rate):
        return product_in_32_bits(part, rate)


@wrong("F-4: product before the split, rule 4 only")
class ScheduleProductBeforeTheSplit(ScheduleLossApart):
    rounding = staticmethod(product_in_32_bits)


@wrong("F-4: the half leaves 32 bits")
class HalfBeyond32Bits(Engine):
    # Split only where the product by itself leaves 32 bits.
    def loss(self, part, rate):
        if part * rate < 2**32:
            return (part * rate + WHOLE // 2) % 2**32 // WHOLE
        return super().loss(part, rate)


@wrong("F-4: ten-thousands rounded by themselves")
class TenThousandsRounded(Engine):
    def loss(self, part, rate):
        return (part + WHOLE // 2) // WHOLE * rate


@wrong("F-4: remainder forgotten")
class RemainderForgotten(Engine):
    def loss(self, part, rate):
        return part // WHOLE * rate


@wrong("F-4: remainder of whole thousands")
class ThousandsRounded(Engine):
    # Whole thousands lose no whole number, so both roundings count.
    def loss(self, part, rate):
        return to_the_nearest(part // 1_000 * 1_000, rate) + to_the_nearest(part % 1_000, rate)


@wrong("F-4: charge in 32 bits too, before the switch month")
class FormerChargeIn32Bits(Engine):
    def charge(self, record, g):
        return rounded_up(record.pending[g] % 2**32, record.rate)


@wrong("F-4: charge in 32 bits too, by hours")
class ClassChargeIn32Bits(Engine):
    def class_charge(self, record, hours, g):
        return rounded_up(record.of_class(hours, "pending")[g] % 2**32, record.rate)


# ---- Block: the other rules ----

@wrong("each part rounded by itself")
class PartsByThemselves(Engine):
    def parts(self, counted, kw):
        return [counted * own // sum(kw) if own else 0 for own in kw]


@wrong("kind 0 counted without its schedule")
class CountedWithoutSchedule(Engine):
    def counted(self, kind, entry, total_kw):
        return entry if total_kw else 0


@wrong("scheduled at exit without loss")
class ScheduledWithoutLoss(Engine):
    def scheduled_at_exit(self, kind, kw, delivered, rate):
        return delivered if self.deemed(kind) else WH_PER_KW_IN_A_BLOCK * kw


@wrong("only the first block settled")
class FirstBlockOnly(Engine):
    def block_rules(self, record, entry, exit):
        if record.unit_blocks:
            entry, exit = [0] * len(entry), [0] * len(exit)
        return super().block_rules(record, entry, exit)


@wrong("month full at 40")
class MonthFullAt40(Engine):
    def month_full(self, record):
        return record.month_blocks >= 40


@wrong("month full one block late")
class MonthFullLate(Engine):
    def month_full(self, record):
        return record.month_blocks > self.MONTH_LIMIT


@wrong("unit full one block early")
class UnitFullEarly(Engine):
    def unit_full(self, record):
        return record.unit_blocks >= self.UNIT_LIMIT - 1


@wrong("reading limit 199,999,999")
class ReadingLimitLow(Engine):
    def readings_allowed(self, readings):
        return max(readings) <= self.HIGHEST_READING - 1


# ---- Opening and closing ----

@wrong("months gone forgotten at opening")
class MonthsGoneForgotten(Engine):
    def first_months_gone(self, record):
        return 0


@wrong("cycles of 3 or more lapsing monthly")
class LongCyclesLapseMonthly(Engine):
    def bank_lapses(self, record):
        return record.cycle >= 3 or super().bank_lapses(record)


@wrong("old balance charged again")
class OldBalanceCharged(Engine):
    def charge(self, record, g):
        again = rounded_up(record.bank[g], record.rate)
        return min(super().charge(record, g) + again, record.pending[g])


# ---- Weak readings of sound ----

@wrong("weak sound: totals beyond G or C not looked at")
class TotalsBeyondAllowed(Engine):
    def totals_beyond_are_zero(self, record):
        return True


@wrong("weak sound: sums taken modulo 2^64")
class SumsModulo(Engine):
    def equation_modulo(self, record, terms):
        first, *others = (getattr(record, term) for term in terms)
        return first == [sum(amounts) % 2**64 for amounts in zip(*others)]

    def generator_equation_holds(self, record):
        return self.equation_modulo(record, GENERATOR_TERMS)

    def consumer_equation_holds(self, record):
        return self.equation_modulo(record, CONSUMER_TERMS)


@wrong("weak sound: ranks of unlinked pairs not looked at")
class UnlinkedRanksAllowed(Engine):
    # A schedule still tests all ranks.
    CLAUSES_OF_SOUND = tuple("linked_ranks_allowed" if clause == "ranks_allowed" else clause
                             for clause in Engine.CLAUSES_OF_SOUND)

    def linked_ranks_allowed(self, record):
        G, C = record.generators, record.consumers
        return all(1 <= record.rank[g][c] <= self.HIGHEST_RANK
                   for g in range(G) for c in range(C) if record.link[g][c])


@wrong("strong sound: a kind 0 generator may hold no bank")
class ScheduledWithoutBank(Engine):
    def sound(self, record):
        return super().sound(record) and not any(
            record.bank[g] + record.pending[g] for g in range(record.generators)
            if record.kind[g] == 0)


@wrong("strong sound: set off the same over both sides")
class SetOffAcross(Engine):
    def sound(self, record):
        return super().sound(record) and sum(record.set_off) == sum(record.consumer_set_off)


# Month blocks with closings done are at most unit blocks, so month blocks by themselves are too:
# the first clause says nothing where the second one stands, and is left out together with it.
SAID_AGAIN_BY = {"month_within_unit": "closings_within_unit"}


def without_clause(clause):
    left_out = (clause, SAID_AGAIN_BY.get(clause))
    return type("Without_" + clause, (Engine,), {
        "CLAUSES_OF_SOUND": tuple(name for name in Engine.CLAUSES_OF_SOUND
                                  if name not in left_out)})


for name_of_clause in Engine.CLAUSES_OF_SOUND:
    WRONG_RULES["sound without " + name_of_clause] = without_clause(name_of_clause)


# ---- The bank by hours: slots and classes ----

@wrong("hours: slots counted from 0")
class SlotsFrom0(Engine):
    def slot_of_next_block(self, record):
        return record.month_blocks % self.SLOTS


@wrong("hours: slots over the unit's blocks")
class SlotsOverUnit(Engine):
    def slot_of_next_block(self, record):
        return record.unit_blocks % self.SLOTS + 1


@wrong("hours: class of the next block")
class ClassOfBlockAfter(Engine):
    def slot_of_next_block(self, record):
        return (record.month_blocks + 1) % self.SLOTS + 1


@wrong("hours: slots do not begin again after a day")
class OneDayOfSlots(Engine):
    def slot_of_next_block(self, record):
        return record.month_blocks + 1


@wrong("hours: a day of 95 slots")
class DayOf95Slots(Engine):
    SLOTS = 95


@wrong("hours: a day of 97 slots")
class DayOf97Slots(Engine):
    SLOTS = 97


def other_class(slot, neighbour):
    """The slot is of its neighbour's class."""
    def class_of_slot(self, asked):
        return Engine.class_of_slot(self, neighbour if asked == slot else asked)
    return type(f"Slot{slot}As{neighbour}", (Engine,), {"class_of_slot": class_of_slot})


for last_of_class in (20, 36, 68, 76, 92):
    first_of_next = last_of_class + 1
    for moved, as_one in ((last_of_class, first_of_next), (first_of_next, last_of_class)):
        WRONG_RULES[f"hours: slot {moved} of the class of slot {as_one}"] = other_class(moved,
                                                                                        as_one)


@wrong("hours: normal and off-peak swapped")
class NormalOffPeakSwapped(Engine):
    def class_of_slot(self, slot):
        right = super().class_of_slot(slot)
        return {NORMAL: OFF_PEAK, OFF_PEAK: NORMAL}.get(right, right)


@wrong("hours: no peak in the evening")
class NoEveningPeak(Engine):
    def class_of_slot(self, slot):
        return NORMAL if slot > 68 else super().class_of_slot(slot)


# ---- The bank by hours: the switch ----

@wrong("hours: switch one closing late")
class SwitchLate(Engine):
    def new_rules_apply(self, record):
        return record.switch_month != 0 and record.closings_done >= record.switch_month

    def just_before_the_switch(self, record):
        return record.closings_done + 1 == record.switch_month


@wrong("hours: switch one closing early")
class SwitchEarly(Engine):
    def new_rules_apply(self, record):
        return record.switch_month != 0 and record.closings_done + 2 >= record.switch_month

    def just_before_the_switch(self, record):
        return record.closings_done + 3 == record.switch_month


@wrong("hours: switch month 0 taken as from the start")
class NeverIsAlways(Engine):
    def new_rules_apply(self, record):
        return record.closings_done + 1 >= record.switch_month


@wrong("hours: switch month 1 taken as never")
class FirstIsNever(Engine):
    def new_rules_apply(self, record):
        return record.switch_month > 1 and super().new_rules_apply(record)


@wrong("hours: new rules in the switch month only")
class SwitchMonthOnly(Engine):
    def new_rules_apply(self, record):
        return record.switch_month != 0 and record.closings_done + 1 == record.switch_month


@wrong("hours: no lapse before the switch")
class NoLapseForSwitch(Engine):
    def bank_lapses_for_the_switch(self, record):
        return False


@wrong("hours: lapse one closing too early")
class LapseForSwitchEarly(Engine):
    def bank_lapses_for_the_switch(self, record):
        return record.closings_done + 3 == record.switch_month


@wrong("hours: lapse in every closing before the switch")
class LapseInEvery(Engine):
    def bank_lapses_for_the_switch(self, record):
        return record.closings_done + 2 <= record.switch_month


@wrong("hours: months gone kept in the lapse before the switch")
class GoneKeptForSwitch(Engine):
    def steps_1_to_4(self, record):
        gone, cycle = record.gone + 1, record.cycle
        output = super().steps_1_to_4(record)
        if self.bank_lapses_for_the_switch(record) and gone < cycle:
            record.gone = gone
        return output


@wrong("hours: months gone kept at opening with switch month 1")
class GoneKeptAtOpening(Engine):
    def first_months_gone(self, record):
        return record.gone


@wrong("hours: months gone set to 0 at every opening with a switch month")
class GoneForgottenWithSwitch(Engine):
    def first_months_gone(self, record):
        return 0 if record.switch_month else record.gone


@wrong("hours: closings not counted")
class ClosingsNotCounted(Engine):
    def count_closing(self, record):
        pass


@wrong("hours: closings counted under the old rules only")
class OldClosingsCounted(Engine):
    def count_closing(self, record):
        if not self.new_rules_apply(record):
            record.closings_done += 1


@wrong("hours: closings counted only where there is a switch month")
class ClosingsCountedForSwitch(Engine):
    def count_closing(self, record):
        record.closings_done += record.switch_month != 0


@wrong("hours: a refused closing counted")
class RefusedClosingCounted(Engine):
    def close(self, record, output):
        number, record, output = super().close(record, output)
        if number == 13:
            unit = record_from_bytes(record)
            self.count_closing(unit)
            record = record_to_bytes(unit)
        return number, record, output


# ---- The bank by hours: opening ----

@wrong("hours: 19 before 6")
class SwitchBeforeTerms(Engine):
    def bank_terms_allowed(self, record):
        return not self.switch_month_allowed(record) or super().bank_terms_allowed(record)


@wrong("hours: 19 before 3")
class SwitchBeforeKinds(Engine):
    def open_unit(self, generators, consumers, rate, cycle, gone, switch_month, *lists):
        number, record = super().open_unit(generators, consumers, rate, cycle, gone, switch_month,
                                           *lists)
        later = number in (3, 4, 5, 6) and switch_month > self.LATEST_SWITCH_MONTH
        return 19 if later else number, record


@wrong("hours: 19 before 2")
class SwitchBeforeSizes(Engine):
    def open_unit(self, generators, consumers, rate, cycle, gone, switch_month, *lists):
        number, record = super().open_unit(generators, consumers, rate, cycle, gone, switch_month,
                                           *lists)
        later = number == 2 and switch_month > self.LATEST_SWITCH_MONTH
        return 19 if later else number, record


@wrong("hours: 6 for a switch month over the limit")
class SwitchAmongTerms(Engine):
    def bank_terms_allowed(self, record):
        return super().bank_terms_allowed(record) and self.switch_month_allowed(record)


@wrong("hours: 6 tested on the months gone that are kept")
class TermsOfKeptMonths(Engine):
    def open_unit(self, generators, consumers, rate, cycle, gone, switch_month, *lists):
        return super().open_unit(generators, consumers, rate, cycle,
                                 0 if switch_month == 1 else gone, switch_month, *lists)


def switch_month_limit(limit, where):
    """Another limit in opening or in soundness; the other one stays right."""
    def other_limit(self, record):
        return record.switch_month <= limit

    opening = {"switch_month_allowed": other_limit,
               "right_switch_month": Engine.switch_month_allowed}
    sound = {"wrong_switch_month": other_limit}
    methods, clause = {"opening": (opening, "right_switch_month"),
                       "sound": (sound, "wrong_switch_month")}[where]
    clauses = tuple(clause if name == "switch_month_allowed" else name
                    for name in Engine.CLAUSES_OF_SOUND)
    return type("SwitchMonthLimit", (Engine,), {**methods, "CLAUSES_OF_SOUND": clauses})


for where_tested in ("opening", "sound"):
    for what_limit, other_limit in (("limit of switch month 1,199", 1_199),
                                    ("limit of switch month 1,201", 1_201),
                                    ("no limit of switch month", 2**64)):
        WRONG_RULES[f"hours: {where_tested}, {what_limit}"] = switch_month_limit(other_limit,
                                                                                 where_tested)


# ---- The bank by hours: block ----

@wrong("hours: class pending not raised")
class ClassPendingNotRaised(Engine):
    def add_pending(self, record, g, energy):
        record.pending[g] += energy


@wrong("hours: class open not raised")
class ClassOpenNotRaised(Engine):
    def add_open(self, record, c, energy):
        record.open[c] += energy


@wrong("hours: old pending not raised under the new rules")
class OldPendingNotRaised(Engine):
    def add_pending(self, record, g, energy):
        before = record.pending[g]
        super().add_pending(record, g, energy)
        if self.new_rules_apply(record):
            record.pending[g] = before


@wrong("hours: old open not raised under the new rules")
class OldOpenNotRaised(Engine):
    def add_open(self, record, c, energy):
        before = record.open[c]
        super().add_open(record, c, energy)
        if self.new_rules_apply(record):
            record.open[c] = before


@wrong("hours: class pending raised before the switch")
class ClassPendingRaisedEarly(Engine):
    def add_pending(self, record, g, energy):
        record.pending[g] += energy
        record.of_class(self.class_of_next_block(record), "pending")[g] += energy


@wrong("hours: class pending raised in a class that is not the block's")
class PendingAllNormal(Engine):
    def add_pending(self, record, g, energy):
        record.pending[g] += energy
        if self.new_rules_apply(record):
            record.normal_pending[g] += energy


@wrong("hours: kind 0 banked by class")
class ScheduledInClass(Engine):
    def keep_underdrawn(self, record, g, underdrawn):
        super().keep_underdrawn(record, g, underdrawn)
        if not self.deemed(record.kind[g]) and self.new_rules_apply(record):
            record.of_class(self.class_of_next_block(record), "pending")[g] += underdrawn


# ---- The bank by hours: closing ----

@wrong("hours: charge on the sum of the classes")
class ChargeOnSum(Engine):
    def class_charge(self, record, hours, g):
        # Peak comes last: what the other two leave of the charge on the sum falls on it.
        if hours != PEAK:
            return super().class_charge(record, hours, g)
        others = sum(rounded_up(pending, record.rate) for pending in self.others(record, g))
        whole = sum(self.others(record, g)) + record.peak_pending[g]
        return max(0, rounded_up(whole, record.rate) - others)

    def others(self, record, g):
        return self.pending_at_start[OFF_PEAK][g], self.pending_at_start[NORMAL][g]

    def settle_by_hours(self, record):
        self.pending_at_start = {hours: list(record.of_class(hours, "pending"))
                                 for hours in CLASSES}
        return super().settle_by_hours(record)


@wrong("hours: charge rounded down in each class")
class ClassChargeDown(Engine):
    def class_charge(self, record, hours, g):
        return record.of_class(hours, "pending")[g] * record.rate // WHOLE


@wrong("hours: peak not charged")
class PeakNotCharged(Engine):
    def class_charge(self, record, hours, g):
        return 0 if hours == PEAK else super().class_charge(record, hours, g)


@wrong("hours: old balance of a class charged again")
class ClassBankCharged(Engine):
    def class_charge(self, record, hours, g):
        again = rounded_up(record.of_class(hours, "bank")[g], record.rate)
        return min(super().class_charge(record, hours, g) + again,
                   record.of_class(hours, "pending")[g])


@wrong("hours: class banks ignored")
class ClassBanksIgnored(Engine):
    def settle_by_hours(self, record):
        for hours in CLASSES:
            record.of_class(hours, "bank")[:] = [0] * len(record.bank)
        return super().settle_by_hours(record)


@wrong("hours: peak energy given first")
class PeakFirst(Engine):
    def classes_given(self, hours):
        return (PEAK, hours)


@wrong("hours: no peak energy for other classes")
class OwnClassOnly(Engine):
    def classes_given(self, hours):
        return (hours,)


@wrong("hours: the class of all generators, then peak of all")
class ClassOfAllFirst(Engine):
    def givers(self, record, c, hours):
        return [(g, given) for given in self.classes_given(hours)
                for g in self.drawing_order(record, c)]


def also_given(to, more):
    """Where a class is settled, another one's energy is given too."""
    def classes_given(self, hours):
        return Engine.classes_given(self, hours) + ((more,) if hours == to else ())
    return type("AlsoGiven", (Engine,), {"classes_given": classes_given})


for settled_class, given_class in ((NORMAL, OFF_PEAK), (OFF_PEAK, NORMAL), (PEAK, OFF_PEAK),
                                   (PEAK, NORMAL)):
    shown_classes = [hours.replace("_", "-") for hours in (given_class, settled_class)]
    WRONG_RULES["hours: {} energy given to {}".format(*shown_classes)] = also_given(settled_class,
                                                                                   given_class)


@wrong("hours: class by class over the consumers")
class ClassesOuter(Engine):
    def settlings(self, record):
        return [(c, hours) for hours in self.settling_order()
                for c in self.drawing_consumers(record)]


@wrong("hours: consumers settling last to first")
class LastConsumerSettlesFirst(Engine):
    def settlings(self, record):
        return [(c, hours) for c in reversed(range(record.consumers))
                for hours in self.settling_order()]


@wrong("hours: settling peak first")
class PeakSettledFirst(Engine):
    def settling_order(self):
        return (PEAK, NORMAL, OFF_PEAK)


@wrong("hours: settling normal before off-peak")
class NormalBeforeOffPeak(Engine):
    def settling_order(self):
        return (NORMAL, OFF_PEAK, PEAK)


@wrong("hours: settling peak before normal")
class PeakBeforeNormal(Engine):
    def settling_order(self):
        return (OFF_PEAK, PEAK, NORMAL)


@wrong("hours: giving by generator number")
class GivingByNumber(Engine):
    def givers(self, record, c, hours):
        return [(g, given) for g in range(record.generators) if record.link[g][c] == 1
                for given in self.classes_given(hours)]


@wrong("hours: unlinked generators giving too")
class UnlinkedGiving(Engine):
    def givers(self, record, c, hours):
        return [(g, given) for g in self.inter_se_order(record, c)
                for given in self.classes_given(hours)]


@wrong("hours: no lapse under the new rules")
class NoLapseByHours(Engine):
    def lapse_by_hours(self, record):
        return [0] * record.generators


@wrong("hours: a lapse under the new rules only where the cycle is 1")
class LapseByCycle(Engine):
    def lapse_by_hours(self, record):
        if record.cycle > 1:
            return [0] * record.generators
        return super().lapse_by_hours(record)


@wrong("hours: peak does not lapse")
class PeakKept(Engine):
    def lapse_by_hours(self, record):
        G = record.generators
        peak = record.peak_bank[:G]
        lapsed = super().lapse_by_hours(record)
        record.peak_bank[:G] = peak
        return [all_of - kept for all_of, kept in zip(lapsed, peak)]


@wrong("hours: months gone rises under the new rules")
class GoneRisesByHours(Engine):
    def steps_by_hours(self, record):
        output = super().steps_by_hours(record)
        record.gone = (record.gone + 1) % record.cycle
        return output


def left_out_of_sums(which, left_out):
    """Charge or supplied of one class stays out of what is shown and added to the totals."""
    def settle_by_hours(self, record):
        settled = Engine.settle_by_hours(self, record)
        lists = settled[which]
        lists[left_out] = [0] * len(lists[left_out])
        return settled
    return type("LeftOutOfSums", (Engine,), {"settle_by_hours": settle_by_hours})


for class_left_out in CLASSES:
    shown_class = class_left_out.replace("_", "-")
    WRONG_RULES[f"hours: charge of {shown_class} left out of the sums"] = left_out_of_sums(
        0, class_left_out)
    WRONG_RULES[f"hours: supplied {shown_class} energy left out of the sums"] = left_out_of_sums(
        2, class_left_out)


def kept_after_closing(term):
    """The class places of a term stay as they were, the old places are 0."""
    def settle_by_hours(self, record):
        before = {name: list(getattr(record, name)) for name in CLASS_TERMS[term]}
        settled = Engine.settle_by_hours(self, record)
        self.kept = before
        return settled

    def add_up_classes(self, record):
        Engine.add_up_classes(self, record)
        for name, amounts in self.kept.items():
            setattr(record, name, amounts)

    return type("KeptAfterClosing", (Engine,), {"settle_by_hours": settle_by_hours,
                                                "add_up_classes": add_up_classes})


for kept_term in ("pending", "open"):
    WRONG_RULES[f"hours: class {kept_term} kept after a closing"] = kept_after_closing(kept_term)


# ---- The bank by hours: weak and strong readings of sound ----

def other_clause(clause, method):
    """One clause of soundness reads otherwise; what else uses the rule of that name stays right."""
    return type("Other_" + clause, (Engine,), {
        "other_clause": method,
        "CLAUSES_OF_SOUND": tuple("other_clause" if name == clause else name
                                  for name in Engine.CLAUSES_OF_SOUND)})


def by_the_classes(compare):
    """Old places against the sums of their classes."""
    return lambda self, record: not self.new_rules_apply(record) or all(
        compare(old, classes)
        for term, names in CLASS_TERMS.items()
        for old, classes in zip(getattr(record, term),
                                sums_over_classes(getattr(record, name) for name in names)))


def sums_read(compare):
    """All three clauses of the sums read otherwise."""
    return type("SumsRead", (Engine,), {
        "sums_read": by_the_classes(compare),
        "CLAUSES_OF_SOUND": tuple(
            "sums_read" if name == "bank_is_sum_of_its_classes" else name
            for name in Engine.CLAUSES_OF_SOUND
            if name not in ("pending_is_sum_of_its_classes", "open_is_sum_of_its_classes"))})


def within_agreement(self, record):
    """Sums over the places of the agreement only."""
    sizes = {"bank": record.generators, "pending": record.generators, "open": record.consumers}
    return not self.new_rules_apply(record) or all(
        getattr(record, term)[:size] == sums_over_classes(
            getattr(record, name)[:size] for name in CLASS_TERMS[term])
        for term, size in sizes.items())


class SumsWithinAgreement(Engine):
    CLAUSES_OF_SOUND = tuple(name for name in Engine.CLAUSES_OF_SOUND
                             if not name.endswith("_is_sum_of_its_classes")) + ("within_agreement",)
    within_agreement = within_agreement


WRONG_RULES.update({
    "weak sound: closings done and month blocks one over unit blocks": other_clause(
        "closings_within_unit", lambda self, record:
        record.closings_done + record.month_blocks <= record.unit_blocks + 1),
    "strong sound: closings done and month blocks below unit blocks": other_clause(
        "closings_within_unit", lambda self, record:
        record.closings_done + record.month_blocks < max(1, record.unit_blocks)),
    "weak sound: closings done at most unit blocks, month blocks not added": other_clause(
        "closings_within_unit", lambda self, record: record.closings_done <= record.unit_blocks),
    "weak sound: closings done and month blocks added modulo 2^64": other_clause(
        "closings_within_unit", lambda self, record:
        (record.closings_done + record.month_blocks) % 2**64 <= record.unit_blocks),
    "weak sound: months gone 1 allowed from the switch on": other_clause(
        "no_months_gone_from_the_switch_on", lambda self, record:
        not self.new_rules_apply(record) or record.gone <= 1),
    "strong sound: months gone 0 before the switch too": other_clause(
        "no_months_gone_from_the_switch_on", lambda self, record:
        record.switch_month == 0 or record.gone == 0),
    "weak sound: old places at least the sums of their classes": sums_read(
        lambda old, classes: old >= classes),
    "weak sound: old places at most the sums of their classes": sums_read(
        lambda old, classes: old <= classes),
    "weak sound: old places within 1 of the sums of their classes": sums_read(
        lambda old, classes: abs(old - classes) <= 1),
    "weak sound: sums of classes taken modulo 2^64": sums_read(
        lambda old, classes: old == classes % 2**64),
    "weak sound: classes beyond G or C not looked at": SumsWithinAgreement,
    "weak sound: a watt-hour in a class place before the switch": other_clause(
        "class_places_zero_before_the_switch", lambda self, record:
        self.new_rules_apply(record) or all(max(getattr(record, name)) <= 1
                                            for name in CLASS_LISTS)),
    "weak sound: last place of each class list not looked at before the switch": other_clause(
        "class_places_zero_before_the_switch", lambda self, record:
        self.new_rules_apply(record) or not any(any(getattr(record, name)[:-1])
                                                for name in CLASS_LISTS)),
})

for name_of_list in CLASS_LISTS:
    WRONG_RULES[f"weak sound: {name_of_list} not looked at before the switch"] = other_clause(
        "class_places_zero_before_the_switch",
        lambda self, record, passed=name_of_list: self.new_rules_apply(record) or not any(
            any(getattr(record, name)) for name in CLASS_LISTS if name != passed))


@wrong("weak sound: class places before the switch may be the sums")
class ClassesBeforeSwitch(Engine):
    def class_places_zero_before_the_switch(self, record):
        return super().class_places_zero_before_the_switch(record) or all(
            getattr(record, term) == sums_over_classes(getattr(record, name) for name in names)
            for term, names in CLASS_TERMS.items())


@wrong("weak sound: sums not looked at in the switch month itself")
class SumsAfterSwitch(Engine):
    def sum_of_its_classes(self, record, term):
        return (record.closings_done + 1 == record.switch_month
                or super().sum_of_its_classes(record, term))


@wrong("strong sound: nothing in a class bank")
class NoClassBank(Engine):
    def sound(self, record):
        return super().sound(record) and not any(any(record.of_class(hours, "bank"))
                                                 for hours in CLASSES)


@wrong("strong sound: closings done at most 1,200")
class FewClosings(Engine):
    def sound(self, record):
        return super().sound(record) and record.closings_done <= self.LATEST_SWITCH_MONTH


@wrong("strong sound: switch month at most closings done and one")
class SwitchReached(Engine):
    def sound(self, record):
        return super().sound(record) and record.switch_month <= record.closings_done + 1


@wrong("a record of 5,752 bytes accepted")
class FormerRecord(Engine):
    def sound_record(self, data):
        return super().sound_record(data + bytes(784) if len(data) == 5_752 else data)


# ---- A day of two meters ----

@wrong("day: check day used wherever it is complete")
class CheckDayFirst(Engine):
    def meter_used(self, main_day, check_day):
        return MAIN_METER if self.incomplete(check_day) else CHECK_METER


@wrong("day: main day used always")
class MainDayAlways(Engine):
    def meter_used(self, main_day, check_day):
        return MAIN_METER


@wrong("day: main and check list swapped")
class DaysSwapped(Engine):
    def day(self, main_list, check_list, tolerance, output):
        return super().day(check_list, main_list, tolerance, output)


@wrong("day: 4,294,967,294 taken as missing")
class HighestReadingMissing(Engine):
    def missing(self, reading):
        return reading >= self.MISSING - 1


@wrong("day: readings over 200,000,000 taken as missing")
class HighReadingsMissing(Engine):
    def missing(self, reading):
        return reading > self.HIGHEST_READING


@wrong("day: 0 taken as missing")
class ZeroMissing(Engine):
    def missing(self, reading):
        return reading in (0, self.MISSING)


@wrong("day: incomplete only where all readings are missing")
class IncompleteIfEmpty(Engine):
    def incomplete(self, day):
        return all(self.missing(reading) for reading in day)


@wrong("day: a missing reading in the last block passed over")
class LastBlockPresent(Engine):
    def incomplete(self, day):
        return super().incomplete(day[:-1])


@wrong("day: a missing reading in the first block passed over")
class FirstBlockPresent(Engine):
    def incomplete(self, day):
        return super().incomplete(day[1:])


@wrong("day: 17 where the main day misses one")
class MainIncompleteRefused(Engine):
    def both_incomplete(self, main_day, check_day):
        return self.incomplete(main_day)


@wrong("day: 17 where either day misses one")
class EitherIncompleteRefused(Engine):
    def both_incomplete(self, main_day, check_day):
        return self.incomplete(main_day) or self.incomplete(check_day)


@wrong("day: 17 only where a block is missing in both")
class SameBlockRefused(Engine):
    def both_incomplete(self, main_day, check_day):
        return any(self.missing(main) and self.missing(check)
                   for main, check in zip(main_day, check_day))


@wrong("day: merged, the main day used where no block is missing in both")
class DaysMerged(SameBlockRefused, MainDayAlways):
    pass


@wrong("day: 17 before 2")
class BothIncompleteFirst(Engine):
    def day(self, main_list, check_list, tolerance, output):
        whole = [inputs_from_bytes(data[:len(data) // 4 * 4]) for data in (main_list, check_list)]
        if self.both_incomplete(*whole):
            return 17, output
        return super().day(main_list, check_list, tolerance, output)


@wrong("day: a refusal writes meter 0 and count 0")
class RefusalWritten(Engine):
    def day(self, main_list, check_list, tolerance, output):
        number, after = super().day(main_list, check_list, tolerance, output)
        if number != ACCEPTED and len(output) == 8 * self.DAY_OUTPUT_LENGTH:
            after = outputs_to_bytes(self.day_output(MAIN_METER, 0))
        return number, after


def day_accepted(blocks):
    """Both days may have so many blocks instead."""
    def day_lists_allowed(self, main_list, check_list):
        return (len(main_list) == len(check_list) == 4 * blocks
                or Engine.day_lists_allowed(self, main_list, check_list))
    return type(f"DayOf{blocks}", (Engine,), {"day_lists_allowed": day_lists_allowed})


for count_of_blocks in (0, 95, 97):
    WRONG_RULES[f"day: a day of {count_of_blocks} accepted"] = day_accepted(count_of_blocks)


@wrong("day: the check day's length not looked at")
class CheckLengthFree(Engine):
    def day_lists_allowed(self, main_list, check_list):
        return len(main_list) == 4 * self.DAY_BLOCKS and len(check_list) % 4 == 0


@wrong("day: apart by the tolerance counted")
class ToleranceCounted(Engine):
    def further_apart(self, main, check, tolerance):
        return abs(main - check) >= tolerance


@wrong("day: tolerance 0 taken as none given")
class NoTolerance(Engine):
    def further_apart(self, main, check, tolerance):
        return tolerance != 0 and super().further_apart(main, check, tolerance)


@wrong("day: only a larger main reading counted")
class MainLargerOnly(Engine):
    def further_apart(self, main, check, tolerance):
        return main - check > tolerance


@wrong("day: only a larger check reading counted")
class CheckLargerOnly(Engine):
    def further_apart(self, main, check, tolerance):
        return check - main > tolerance


@wrong("day: difference taken modulo 2^32")
class DifferenceModulo(Engine):
    def further_apart(self, main, check, tolerance):
        return (main - check) % 2**32 > tolerance


@wrong("day: difference taken in 32 bits with a sign")
class DifferenceSigned(Engine):
    def further_apart(self, main, check, tolerance):
        return abs((main - check + 2**31) % 2**32 - 2**31) > tolerance


@wrong("day: a missing main reading counted as apart")
class MissingMainApart(Engine):
    def counts_as_apart(self, main, check, tolerance):
        return not self.missing(check) and (self.missing(main)
                                            or self.further_apart(main, check, tolerance))


@wrong("day: a missing check reading counted as apart")
class MissingCheckApart(Engine):
    def counts_as_apart(self, main, check, tolerance):
        return not self.missing(main) and (self.missing(check)
                                           or self.further_apart(main, check, tolerance))


@wrong("day: blocks counted up to the first missing one")
class CountedToMissing(Engine):
    def blocks_apart(self, main_day, check_day, tolerance):
        stop = next((block for block, readings in enumerate(zip(main_day, check_day))
                     if self.MISSING in readings), len(main_day))
        return super().blocks_apart(main_day[:stop], check_day[:stop], tolerance)


@wrong("day: count 0 where the check day is used")
class MainDayCountedOnly(Engine):
    def day_output(self, meter, apart):
        return super().day_output(meter, apart if meter == MAIN_METER else 0)


@wrong("day: last block not counted")
class LastBlockNotCounted(Engine):
    def blocks_apart(self, main_day, check_day, tolerance):
        return super().blocks_apart(main_day[:-1], check_day[:-1], tolerance)


@wrong("day: first block not counted")
class FirstBlockNotCounted(Engine):
    def blocks_apart(self, main_day, check_day, tolerance):
        return super().blocks_apart(main_day[1:], check_day[1:], tolerance)


@wrong("day: meter and count swapped in the output")
class DayOutputSwapped(Engine):
    def day_output(self, meter, apart):
        return [apart, meter]


# ---- The comparison ----

def recorded(calls):
    """The calls of a list with the right engine's outcomes."""
    unit, made, outcome = SecondUnit(Engine()), [], None
    while True:
        try:
            call = calls.send(outcome)
        except StopIteration:
            return made
        outcome = unit.do(call)
        made.append((call, outcome))


class Recorded:
    """Lists of calls with the right engine's outcomes. Each is recorded when it is first asked for,
    since no rule that is found before it needs it."""

    def __init__(self, lists):
        self.to_record = iter(lists)
        self.made = []

    def __iter__(self):
        for at in count():
            if at == len(self.made):
                calls = next(self.to_record, None)
                if calls is None:
                    return
                made = recorded(calls)
                # Otherwise no count below would mean anything.
                if calls_until_difference(Engine(), [made]) is not None:
                    sys.exit("the right engine differs from itself")
                self.made.append(made)
            yield self.made[at]


def calls_until_difference(engine, lists):
    """Calls made until the wrong engine differs, or None. A fault in it is a difference too."""
    calls = 0
    for made in lists:
        unit = SecondUnit(engine)
        for call, right in made:
            calls += right.number is not None
            try:
                outcome = unit.do(call)
            except (ArithmeticError, LookupError, ValueError, struct.error):
                return calls
            if outcome != right:
                return calls
    return None


def main():
    parser = argparse.ArgumentParser(description=__doc__.splitlines()[0])
    parser.add_argument("--lists", type=int, default=80)
    parser.add_argument("--months", type=int, default=3)
    parser.add_argument("--crossings", type=int, default=60)
    parser.add_argument("--days", type=int, default=100)
    parser.add_argument("--seed", type=int, default=1)
    arguments = parser.parse_args()
    begun = time.monotonic()
    by_length = sorted((calls for _, calls in fixed_cases()), key=len)
    fixed = Recorded(fed(calls) for calls in by_length)
    # Days first, since they are short and a wrong rule of a day shows in no other; then lists and
    # crossings by turns, since some rules show in the one kind only; months last, which are long.
    in_turn = [("day", index) for index in range(arguments.days)]
    in_turn += [(kind, index) for index in range(max(arguments.lists, arguments.crossings))
                for kind, most in (("list", arguments.lists), ("crossing", arguments.crossings))
                if index < most]
    in_turn += [("month", index) for index in range(arguments.months)]
    drawn_by_lot = Recorded(calls_of(arguments.seed, kind, index) for kind, index in in_turn)

    print("calls until a difference: fixed cases, random cases")
    survivors = []
    for what, engine in WRONG_RULES.items():
        counts = [calls_until_difference(engine(), lists) for lists in (fixed, drawn_by_lot)]
        print(f"{'-' if counts[0] is None else counts[0]:>7}"
              f"{'-' if counts[1] is None else counts[1]:>8}  {what}")
        if counts == [None, None]:
            survivors.append(what)
    print(f"{len(WRONG_RULES)} wrong rules, {len(survivors)} survive, "
          f"{time.monotonic() - begun:.1f} s")
    for what in survivors:
        print("SURVIVES: " + what)
    return 1 if survivors else 0


if __name__ == "__main__":
    sys.exit(main())
