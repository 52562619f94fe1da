"""Random lists of calls, random months, random crossings of a switch month, random changeovers,
which cross it by calls alone, and random days of two meters.

All are Python generators: they yield a call and are sent the second engine's outcome, which tells
them what stands in the record. The same seed gives the same calls for every library, because only
the second engine's outcomes decide.
"""

import random

from second.calls import (block_call, close_call, day_call, new_record_call, open_call, packed,
                          schedule_call, write_call)
from second.engine import (CHECK_METER, CLASS_LISTS, CLASS_TERMS, CONSUMER_TERMS,
                           GENERATOR_TERMS, MAIN_METER, RECORD_BYTES, RECORD_FORM, RECORD_WORDS,
                           Engine, record_from_bytes, record_to_bytes)

READING_LIMIT = Engine.HIGHEST_READING
WIDEST_INPUT = 2**32 - 1
WIDEST_WORD = 2**64 - 1
# Month blocks before the first slot of each stretch of one class.
FIRST_SLOTS = (0, 20, 36, 68, 76, 92)


def magnitude(rng, most):
    """0 to most, every order of magnitude about as often, the two ends more often."""
    kind = rng.random()
    if kind < 0.1:
        return 0
    if kind < 0.18:
        return most
    return min(most, int(2 ** rng.uniform(0, (most + 1).bit_length())))


def size(rng):
    if rng.random() < 0.75:
        return rng.randint(1, 3), rng.randint(1, 3)
    return rng.randint(1, 8), rng.randint(1, 16)


def capacity(rng):
    return rng.choice((0, 1, 1_000, 400_000, 399_999, magnitude(rng, 400_000),
                       magnitude(rng, 400_000), rng.randint(0, 3_000)))


def percent(rng):
    """Hundredths of a percent."""
    return rng.choice((0, 0, 1, 1_000, 5_000, rng.randint(0, 5_000), rng.randint(0, 5_000)))


def switch_month_for(rng):
    """Never, within the first closings, or any."""
    return rng.choice((0, 0, 0, 0, 1, 1, 1, 2, 2, 3, rng.randint(1, 6),
                       rng.choice((rng.randint(0, 1_200), 1_199, 1_200))))


def agreement(rng, busy=False):
    """An opening without fault. A busy one has capacity and links enough to be worth settling."""
    G, C = size(rng)
    generator_list = []
    for _ in range(G):
        if busy and rng.random() < 0.9:
            installed = rng.randint(100, 20_000)
            contracted = rng.randint(100, 20_000)
        else:
            installed, contracted = capacity(rng), capacity(rng)
        generator_list += (rng.choice((0, 0, 1, 2, 3)), installed, contracted)
    linked = rng.choice((1.0, 0.9, 0.6))
    links = [int(rng.random() < linked) for _ in range(G * C)]
    losses = [percent(rng) for _ in range(G * C)]
    cycle = rng.choice((1, 1, 2, 2, 3, 4, 12, rng.randint(1, 12)))
    gone = rng.choice((0, cycle - 1, rng.randrange(cycle)))
    return open_call(G, C, percent(rng), cycle, gone, generator_list, links + losses,
                     switch_month_for(rng))


def schedule_for(rng, unit):
    """A schedule without fault; in every third one many pairs have equal ranks and equal kW."""
    G, C = unit.generators, unit.consumers
    step = rng.choice((0, 0, rng.choice((1, 10, 1_000))))
    most_rank = rng.choice((1, 1, 2) if step else (1, 2, 8, 255))
    kw = []
    for g in range(G):
        # A damaged record may hold more than an input does.
        left = min(unit.installed[g], unit.contracted[g], Engine.HIGHEST_CAPACITY)
        if rng.random() < 0.7:
            left = magnitude(rng, left)
        row = [0] * C
        linked = [c for c in range(C) if unit.link[g][c]]
        rng.shuffle(linked)
        for c in linked:
            share = rng.choice((0, left, left // 2, left // max(1, len(linked)), left // 3))
            if step:
                share = min(left, step * rng.choice((0, 1, 1, 2)))
            row[c] = share
            left -= share
        kw += row
    return schedule_call(kw, [rng.randint(1, most_rank) for _ in range(G * C)])


def readings_for(rng, unit):
    """Entry near what is scheduled or of any magnitude; exit near what may be delivered, so that
    now the one and now the other runs out first."""
    G, C = unit.generators, unit.consumers
    entry = []
    delivered = [0] * C
    for g in range(G):
        total_kw = sum(unit.kw[g][:C])
        near = 250 * total_kw
        reading = min(READING_LIMIT, rng.choice((
            magnitude(rng, READING_LIMIT), READING_LIMIT - rng.randint(1, 9), near, near + 1,
            max(near, 1) - 1, int(near * rng.uniform(0, 1.5)), int(near * rng.uniform(0.5, 1.1)),
            0)))
        entry.append(reading)
        for c in range(C):
            if total_kw:
                delivered[c] += reading * unit.kw[g][c] // total_kw
    exit = []
    for c in range(C):
        exit.append(min(READING_LIMIT, rng.choice((
            magnitude(rng, READING_LIMIT), delivered[c], 0,
            int(delivered[c] * rng.uniform(0, 1.3)), int(delivered[c] * rng.uniform(0.3, 1.1)),
            int(delivered[c] * rng.uniform(0.9, 3))))))
    return entry, exit


def block_for(rng, unit):
    return block_call(*readings_for(rng, unit))


def close_for(unit):
    return close_call(unit.generators, unit.consumers)


def split(rng, total, terms):
    """A total as the sum of so many terms, some of them 0."""
    amounts = [0] * terms
    for at in rng.sample(range(terms), rng.randint(1, terms)):
        amounts[at] = magnitude(rng, total)
        total -= amounts[at]
    amounts[rng.randrange(terms)] += total
    return amounts


def moved_in_month(rng, record):
    """The sound record at another block of the month, mostly just before the class changes."""
    unit = record_from_bytes(record)
    day = rng.choice((0, 0, 1, rng.randrange(Engine.MONTH_LIMIT // Engine.SLOTS)))
    near = Engine.SLOTS * day + rng.choice(FIRST_SLOTS) - rng.randint(0, 3)
    month_blocks = rng.choice((max(near, 0), max(near, 0), rng.randint(0, Engine.MONTH_LIMIT)))
    fewest = unit.closings_done + month_blocks
    if fewest <= Engine.UNIT_LIMIT:
        unit.month_blocks = month_blocks
        unit.unit_blocks = max(unit.unit_blocks, min(Engine.UNIT_LIMIT,
                                                     fewest + rng.randint(0, 200)))
    return record_to_bytes(unit)


def put_classes(rng, unit):
    """Each place of bank, pending and open is parted over the classes where the new rules apply,
    with months gone 0; before the switch all class places are 0."""
    by_hours = Engine().new_rules_apply(unit)
    if by_hours:
        unit.gone = 0
    for term, names in CLASS_TERMS.items():
        for place, total in enumerate(getattr(unit, term)):
            parted = split(rng, total, len(names)) if by_hours and total else [0] * len(names)
            for name, amount in zip(names, parted):
                getattr(unit, name)[place] = amount


def put_closings(rng, unit):
    """Closings done and switch month: near each other, or the one or the other at its limit."""
    room = unit.unit_blocks - unit.month_blocks
    unit.closings_done = min(room, rng.choice((0, 1, room, magnitude(rng, room),
                                               max(unit.switch_month, 2) - rng.randint(0, 2))))
    if rng.random() < 0.5:
        unit.switch_month = min(Engine.LATEST_SWITCH_MONTH, rng.choice((
            0, 1, unit.closings_done + rng.randint(0, 3), Engine.LATEST_SWITCH_MONTH)))


def sound_record(rng, record):
    """A sound record whose totals come from no calls: agreement and schedule as they stand."""
    unit = record_from_bytes(record)
    unit.unit_blocks = rng.choice((magnitude(rng, Engine.UNIT_LIMIT), Engine.UNIT_LIMIT - 1,
                                   rng.randint(1, 9_000)))
    unit.month_blocks = min(unit.unit_blocks, rng.choice((
        0, 1, 39, 40, rng.choice(FIRST_SLOTS), rng.randint(0, 3_360), 3_358, 3_359, 3_360)))
    most = READING_LIMIT * unit.unit_blocks
    for count, (first, *others) in ((unit.generators, GENERATOR_TERMS),
                                    (unit.consumers, CONSUMER_TERMS)):
        for place in range(count):
            total = magnitude(rng, most)
            getattr(unit, first)[place] = total
            for term, amount in zip(others, split(rng, total, len(others))):
                getattr(unit, term)[place] = amount
    unit.gone = rng.randrange(unit.cycle)
    put_closings(rng, unit)
    put_classes(rng, unit)
    return record_to_bytes(unit)


def odd_value(rng, value, most):
    """A value other than the one that stands, often just beside it or beside a limit."""
    limits = (1, 2, 4, 9, 13, 17, 256, 1_201, 5_001, 400_001, 3_361, 10_000_001, 200_000_001)
    return rng.choice((value + 1, max(value - 1, 0), rng.choice(limits), rng.choice(limits) - 1,
                       rng.randint(0, most), most, 0, 2**31, 2**32, 2**32 + value, 2**63,
                       2 * value)) % (most + 1)


def damage(rng, record):
    """Writes into one word, mostly one that is in use."""
    words = RECORD_FORM.unpack(record)
    in_use = [place for place, value in enumerate(words) if value]
    place = rng.choice((rng.randrange(RECORD_WORDS), rng.choice(in_use or [0]), rng.randrange(31)))
    return write_call(place, odd_value(rng, words[place], WIDEST_WORD))


def careful_damage(rng, record):
    """Breaks one clause of soundness and keeps the others, or breaks none."""
    if rng.random() < 0.4:
        return damage_by_hours(rng, record)
    unit = record_from_bytes(record)
    terms = rng.choice((GENERATOR_TERMS, CONSUMER_TERMS))
    first, *others = (getattr(unit, term) for term in terms)
    used = unit.generators if terms is GENERATOR_TERMS else unit.consumers
    place = rng.choice((rng.randrange(used), rng.randrange(used), rng.randrange(len(first))))
    kind = rng.randrange(4)
    if kind == 0:  # the equation holds on: over the limit of age, beyond the places, or neither
        amount = rng.choice((1, magnitude(rng, 2 * READING_LIMIT * (unit.unit_blocks + 1)), 2**62))
        first[place] += amount
        rng.choice(others)[place] += amount
    elif kind == 1:  # the equation holds in 64 bits only
        for other in rng.sample(others, 2):
            other[place] += 2**63
    elif kind == 2:
        unit.unit_blocks = max(unit.unit_blocks, rng.randint(0, 9_000))
        unit.month_blocks = rng.choice((Engine.MONTH_LIMIT, Engine.MONTH_LIMIT + 1,
                                        unit.unit_blocks, unit.unit_blocks + 1))
    else:
        g, c = rng.randrange(unit.generators), rng.randrange(unit.consumers)
        unit.link[g][c] = 1 - unit.link[g][c]
    return new_record_call(record_to_bytes(unit))


def damage_by_hours(rng, record):
    """Likewise, of the clauses of F-7."""
    unit = record_from_bytes(record)
    term = rng.choice(list(CLASS_TERMS))
    names = CLASS_TERMS[term]
    used = unit.consumers if term == "open" else unit.generators
    place = rng.choice((rng.randrange(used), rng.randrange(used),
                        rng.randrange(len(getattr(unit, term)))))
    one, another = (getattr(unit, name) for name in rng.sample(names, 2))
    amount = rng.choice((1, 2, magnitude(rng, READING_LIMIT), 2**63))
    kind = rng.randrange(7)
    if kind == 0:  # a class by itself
        one[place] += rng.choice((amount, -min(amount, one[place])))
    elif kind == 1:  # from class to class: the sum stays
        moved = min(amount, one[place])
        one[place] -= moved
        another[place] += moved
    elif kind == 2:  # the sum stays in 64 bits only
        one[place] += amount
        another[place] += 2**64 - amount
    elif kind == 3:  # the old place, with its equation
        whole = unit.metered if term == "open" else unit.injected
        moved = rng.choice((1, -1)) if getattr(unit, term)[place] else 1
        whole[place] += moved
        getattr(unit, term)[place] += moved
    elif kind == 4:
        unit.gone = rng.randrange(unit.cycle)
    elif kind == 5:
        unit.switch_month = rng.choice((
            0, Engine.LATEST_SWITCH_MONTH, Engine.LATEST_SWITCH_MONTH + 1, unit.closings_done,
            unit.closings_done + 1, unit.closings_done + 2, 2**32 + 1))
    else:
        room = unit.unit_blocks - unit.month_blocks
        unit.closings_done = rng.choice((
            room, room + 1, unit.unit_blocks, WIDEST_WORD, WIDEST_WORD - 1,
            2**64 - max(1, unit.month_blocks), max(unit.switch_month, 3) - rng.randint(1, 3)))
    for name in CLASS_LISTS:
        setattr(unit, name, [value % 2**64 for value in getattr(unit, name)])
    return new_record_call(record_to_bytes(unit))


def other_length(rng, length, step):
    return max(0, rng.choice((0, length - step, length + step, length - 1, length + 1, 2 * length,
                              length // 2, length + rng.randint(-9, 9))))


def with_fault(rng, call):
    """The call with one fault or a few; now and then the fault is none."""
    for _ in range(rng.choice((1, 1, 1, 2, 3))):
        kind = rng.random()
        if kind < 0.07 and call.name != "day":
            length = rng.choice((None, 0, other_length(rng, RECORD_BYTES, 8)))
            call = call._replace(record_bytes=length)
        elif kind < 0.17 and call.output_bytes:
            call = call._replace(output_bytes=rng.choice((
                None, other_length(rng, call.output_bytes, 8))))
        elif kind < 0.27 and call.lists:
            which = rng.randrange(len(call.lists))
            data = call.lists[which] or b""
            length = other_length(rng, len(data), 4)
            data = rng.choice((None, (data + packed((1,) * 600))[:length]))
            call = call._replace(lists=call.lists[:which] + (data,) + call.lists[which + 1:])
        elif kind < 0.45 and call.numbers:
            numbers = list(call.numbers)
            which = rng.randrange(len(numbers))
            numbers[which] = odd_value(rng, numbers[which], WIDEST_INPUT)
            call = call._replace(numbers=tuple(numbers))
        elif call.lists:
            which = rng.randrange(len(call.lists))
            data = call.lists[which] or b""
            if len(data) >= 4:
                at = 4 * rng.randrange(len(data) // 4)
                value = odd_value(rng, int.from_bytes(data[at:at + 4], "little"), WIDEST_INPUT)
                data = data[:at] + packed((value,)) + data[at + 4:]
                call = call._replace(lists=call.lists[:which] + (data,) + call.lists[which + 1:])
    return call


def random_list(rng):
    """Openings, schedules, blocks, closings, refused calls and damaged records, mixed."""
    engine = Engine()
    opening = agreement(rng, busy=rng.random() < 0.8)
    if rng.random() < 0.2:
        yield with_fault(rng, opening)
    outcome = yield opening
    record = outcome.record
    for _ in range(rng.randint(5, 40)):
        unit = record_from_bytes(record)
        if unit.switch_month and rng.random() < 0.12 and engine.sound(unit):
            # Months are short here: the host moves the record on to the blocks of other classes.
            record = (yield new_record_call(moved_in_month(rng, record))).record
            unit = record_from_bytes(record)
        kind = rng.random()
        if not engine.record_sizes_allowed(unit):
            # No list of a right length is known for such a record.
            call = rng.choice((close_call(1, 1), block_call((1,), (1,)), schedule_call((0,), (1,)),
                               opening))
        elif kind < 0.46:
            call = block_for(rng, unit)
        elif kind < 0.60:
            call = schedule_for(rng, unit)
        elif kind < 0.72:
            call = close_for(unit)
        elif kind < 0.88:
            call = with_fault(rng, rng.choice((block_for(rng, unit), schedule_for(rng, unit),
                                               close_for(unit), opening)))
        elif kind < 0.93:
            before = record
            if engine.sound(unit) and rng.random() < 0.5:
                outcome = yield careful_damage(rng, record)
            else:
                outcome = yield damage(rng, record)
            damaged = record_from_bytes(outcome.record)
            sizes = damaged if engine.record_sizes_allowed(damaged) else unit
            for _ in range(rng.randint(1, 3)):
                outcome = yield rng.choice((block_for(rng, sizes), schedule_for(rng, sizes),
                                            close_for(sizes)))
            # The host puts the former record back, or opens anew, or goes on.
            call = rng.choice((new_record_call(before), new_record_call(before), opening,
                               close_for(sizes)))
        elif kind < 0.97 and engine.sound(unit):
            call = new_record_call(sound_record(rng, record))
        elif rng.random() < 0.3:
            call = opening = agreement(rng, busy=rng.random() < 0.8)
        else:
            call = close_for(unit)
        outcome = yield call
        if len(outcome.record) == RECORD_BYTES:
            record = outcome.record


def random_month(rng):
    """One unit over more than one cycle, or over its switch month: some dozens to hundreds of
    blocks in all. Where the switch comes soon a month has blocks of all classes more often."""
    opening = agreement(rng, busy=True)
    cycle, switch_month = opening.numbers[3], opening.numbers[5]
    record = (yield opening).record
    record = (yield schedule_for(rng, record_from_bytes(record))).record
    if 1 <= switch_month <= 6:
        months = switch_month + rng.randint(0, 2)
        blocks_in_all = months * rng.choice((1, 20, 21, 40, 70, rng.randint(1, 130)))
    else:
        months = rng.randint(cycle + 1, 2 * cycle + 2)
        blocks_in_all = rng.randint(40, 300)
    for month in range(months):
        unit = record_from_bytes(record)
        if rng.random() < 0.5:
            record = (yield schedule_for(rng, unit)).record
            unit = record_from_bytes(record)
        surplus = rng.random() < 0.5  # a month that fills the bank, or one that draws on it
        for block in range(max(1, blocks_in_all // months)):
            entry, exit = readings_for(rng, unit)
            if surplus:
                exit = [reading // 3 for reading in exit]
            outcome = yield block_call(entry, exit)
            if rng.random() < 0.02:
                outcome = yield with_fault(rng, block_call(entry, exit))
            if rng.random() < 0.02:
                outcome = yield schedule_for(rng, unit)
            record = outcome.record if len(outcome.record) == RECORD_BYTES else record
            unit = record_from_bytes(record)
        record = (yield close_for(unit)).record


def one_sided(rng, unit):
    """A block that mostly banks only or is metered only, so that a closing has something to do."""
    entry, exit = readings_for(rng, unit)
    kind = rng.random()
    if kind < 0.4:
        exit = [0] * len(exit)
    elif kind < 0.8:
        entry = [0] * len(entry)
    return block_call(entry, exit)


def random_crossing(rng):
    """A unit over its switch month. A month is a few stretches of blocks; before each of them the
    host moves the record to another block of the month, so that all classes are met soon."""
    opening = agreement(rng, busy=True)
    opening = opening._replace(numbers=(*opening.numbers[:5], rng.choice((1, 1, 2, 2, 3, 4))))
    record = (yield opening).record
    record = (yield schedule_for(rng, record_from_bytes(record))).record
    for month in range(opening.numbers[5] + rng.randint(0, 2)):
        if rng.random() < 0.15:
            record = (yield new_record_call(sound_record(rng, record))).record
        for _ in range(rng.randint(1, 4)):
            record = (yield new_record_call(moved_in_month(rng, record))).record
            for _ in range(rng.randint(1, 4)):
                record = (yield one_sided(rng, record_from_bytes(record))).record
        if rng.random() < 0.3:
            record = (yield schedule_for(rng, record_from_bytes(record))).record
        if rng.random() < 0.1:
            damaged = record_from_bytes((yield damage_by_hours(rng, record)).record)
            yield rng.choice((block_for(rng, damaged), schedule_for(rng, damaged),
                              close_for(damaged)))
            yield new_record_call(record)
        record = (yield close_for(record_from_bytes(record))).record


def month_length(rng):
    """1 to 3,360 blocks: the ends, some days, any number."""
    most = Engine.MONTH_LIMIT
    return rng.choice((1, rng.randint(1, Engine.SLOTS), rng.randint(1, 4 * Engine.SLOTS),
                       max(1, magnitude(rng, most)), rng.randint(1, most), most - 1, most))


def random_changeover(rng):
    """A unit over its switch month by calls alone: months of 1 to 3,360 blocks, entered one by one.
    Between them come schedules and blocks with a fault. A full month is offered a block more, a
    closed one is closed again now and then."""
    opening = agreement(rng, busy=True)
    opening = opening._replace(numbers=(*opening.numbers[:5], rng.choice((1, 2, 2, 3))))
    record = (yield opening).record
    for _ in range(opening.numbers[5] + rng.randint(0, 1)):
        record = (yield schedule_for(rng, record_from_bytes(record))).record
        length = month_length(rng)
        # To make each block anew would take most of the time.
        unit = record_from_bytes(record)
        blocks = [one_sided(rng, unit) for _ in range(min(length, 48))]
        for _ in range(length):
            yield rng.choice(blocks)
            if rng.random() < 0.01:
                yield rng.choice((schedule_for(rng, unit), with_fault(rng, rng.choice(blocks))))
        if length == Engine.MONTH_LIMIT:
            yield rng.choice(blocks)
        record = (yield close_for(unit)).record
        if rng.random() < 0.3:
            yield close_for(unit)


def tolerance_for(rng):
    return rng.choice((0, 1, rng.randint(0, 1_000), magnitude(rng, READING_LIMIT),
                       magnitude(rng, WIDEST_INPUT), rng.randint(WIDEST_INPUT - 2, WIDEST_INPUT)))


def two_readings(rng, tolerance):
    """Of one block, often as far apart as the tolerance or just beside it."""
    reading = rng.choice((magnitude(rng, READING_LIMIT), rng.randint(0, 60_000),
                          magnitude(rng, Engine.MISSING - 1)))
    apart = rng.choice((0, tolerance, tolerance + 1, max(tolerance, 1) - 1, rng.randint(0, 60_000),
                        magnitude(rng, Engine.MISSING - 1)))
    pair = [reading, min(reading + apart, Engine.MISSING - 1)]
    rng.shuffle(pair)
    return pair


def with_missing(rng, day):
    """None, one or many of the readings missing; of one, the first and the last more often."""
    kind = rng.random()
    if kind < 0.5 or not day:
        return day
    blocks = range(len(day))
    if kind < 0.75:
        without = {rng.choice((blocks[0], blocks[-1], rng.choice(blocks)))}
    else:
        without = set(rng.sample(blocks, rng.choice((2, rng.randint(0, len(day))))))
    return [Engine.MISSING if block in without else day[block] for block in blocks]


def random_day(rng):
    """One day of a main and a check meter, now and then with a fault."""
    tolerance = tolerance_for(rng)
    count = Engine.DAY_BLOCKS if rng.random() < 0.95 else rng.choice((0, 95, 97))
    blocks = [two_readings(rng, tolerance) for _ in range(count)]
    call = day_call(*(with_missing(rng, [readings[meter] for readings in blocks])
                      for meter in (MAIN_METER, CHECK_METER)), tolerance)
    yield with_fault(rng, call) if rng.random() < 0.2 else call


def source(seed, kind, index):
    """The random numbers of one list: each list can be made again by itself."""
    return random.Random(f"{seed} {kind} {index}")


KINDS = {"list": random_list, "month": random_month, "crossing": random_crossing,
         "changeover": random_changeover, "day": random_day}


def calls_of(seed, kind, index):
    return KINDS[kind](source(seed, kind, index))
