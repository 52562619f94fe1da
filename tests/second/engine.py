"""The second engine: the energy account of one unit, from document 01; a day of a main and a check
meter, the bigger supplier first, loss to the nearest and the bank by hours, from F-1, F-2, F-3 and
F-7 of document 02; all as docs/DECISIONS.md reads them.

It is the measure for the proved engine, so it is written to be checked by eye against the paper:
rules and steps stand in the paper's order under the paper's words. Energy is in whole watt-hours,
capacity in kW. Python integers do not overflow, so every sum is the sum of the paper.

Generators and consumers are counted from 0 here and from 1 in the paper.

    engine = Engine()
    number, record = engine.open_unit(G, C, rate, cycle, gone, switch_month,
                                      generator_list, pair_list, record)
    number, record = engine.schedule(record, kw, ranks)
    number, record, output = engine.block(record, entry, exit, output)
    number, record, output = engine.close(record, output)
    number, output = engine.day(main_list, check_list, tolerance, output)

These five take and give bytes. `record` and `output` go in as the caller lent them; on a refusal
they come back as they went in. Each rule is a method of its own, so that a test can put a wrong
rule in the place of a single right one (wrong_rules.py).
"""

import struct

ACCEPTED = 0

# Places in the record, used or not.
GENERATOR_PLACES = 8
CONSUMER_PLACES = 16

WH_PER_KW_IN_A_BLOCK = 250  # quarter-hour rule: clause 8.1 read with 2(g)
WHOLE = 10_000  # hundredths of a percent in 100 percent

SCHEDULED, WIND, MINI_HYDEL, SOLAR = 0, 1, 2, 3

MAIN_METER, CHECK_METER = 0, 1

# The classes of hours (F-7), in the order of the record.
OFF_PEAK, NORMAL, PEAK = CLASSES = ("off_peak", "normal", "peak")

# The terms of the two equations of demand 3, in the order of the record. The first one of each is
# the sum of the others.
GENERATOR_TERMS = ("injected", "unaccounted", "loss", "set_off", "inadvertent",
                   "charge", "drawn", "lapsed", "bank", "pending")
CONSUMER_TERMS = ("metered", "consumer_set_off", "shortfall", "consumer_drawn", "supplied", "open")
PAIR_LISTS = ("link", "loss_rate", "kw", "rank")

# The terms that exist per class, each with the names of its three lists, and how many places they
# have.
CLASS_TERMS = {term: tuple(f"{hours}_{term}" for hours in CLASSES)
               for term in ("bank", "pending", "open")}
CLASS_PLACES = {"bank": GENERATOR_PLACES, "pending": GENERATOR_PLACES, "open": CONSUMER_PLACES}
# The class lists in the order of the record.
CLASS_LISTS = {f"{hours}_{term}": places for hours in CLASSES
               for term, places in CLASS_PLACES.items()}

RECORD_WORDS = (7 + 3 * GENERATOR_PLACES
                + len(PAIR_LISTS) * GENERATOR_PLACES * CONSUMER_PLACES
                + len(GENERATOR_TERMS) * GENERATOR_PLACES
                + len(CONSUMER_TERMS) * CONSUMER_PLACES
                + 2 + sum(CLASS_LISTS.values()))
RECORD_BYTES = 8 * RECORD_WORDS
RECORD_FORM = struct.Struct(f"<{RECORD_WORDS}Q")


class Record:
    """The figures that document 01's record lists, and those that it gains by F-7.

    Lists by generator have 8 places, lists by consumer 16; pair lists are 8 rows of 16.
    """

    __slots__ = ("generators", "consumers", "rate", "cycle", "gone", "unit_blocks", "month_blocks",
                 "kind", "installed", "contracted", *PAIR_LISTS, *GENERATOR_TERMS, *CONSUMER_TERMS,
                 "switch_month", "closings_done", *CLASS_LISTS)

    def __init__(self):
        self.generators = self.consumers = 0
        self.rate = self.cycle = self.gone = 0
        self.unit_blocks = self.month_blocks = 0
        for name in ("kind", "installed", "contracted") + GENERATOR_TERMS:
            setattr(self, name, [0] * GENERATOR_PLACES)
        for name in CONSUMER_TERMS:
            setattr(self, name, [0] * CONSUMER_PLACES)
        for name in PAIR_LISTS:
            setattr(self, name, [[0] * CONSUMER_PLACES for _ in range(GENERATOR_PLACES)])
        self.switch_month = self.closings_done = 0
        for name, places in CLASS_LISTS.items():
            setattr(self, name, [0] * places)

    def of_class(self, hours, term):
        """The list of a class: its bank, pending or open."""
        return getattr(self, f"{hours}_{term}")


def record_from_bytes(data):
    words = list(RECORD_FORM.unpack(data))
    record = Record.__new__(Record)
    (record.generators, record.consumers, record.rate, record.cycle, record.gone,
     record.unit_blocks, record.month_blocks) = words[:7]
    at = 7
    # kind, installed, contracted stand side by side for each generator
    stop = at + 3 * GENERATOR_PLACES
    record.kind = words[at:stop:3]
    record.installed = words[at + 1:stop:3]
    record.contracted = words[at + 2:stop:3]
    at = stop
    for name in PAIR_LISTS:
        stop = at + GENERATOR_PLACES * CONSUMER_PLACES
        setattr(record, name, [words[row:row + CONSUMER_PLACES]
                               for row in range(at, stop, CONSUMER_PLACES)])
        at = stop
    for name in GENERATOR_TERMS:
        setattr(record, name, words[at:at + GENERATOR_PLACES])
        at += GENERATOR_PLACES
    for name in CONSUMER_TERMS:
        setattr(record, name, words[at:at + CONSUMER_PLACES])
        at += CONSUMER_PLACES
    record.switch_month, record.closings_done = words[at:at + 2]
    at += 2
    for name, places in CLASS_LISTS.items():
        setattr(record, name, words[at:at + places])
        at += places
    return record


def record_to_bytes(record):
    words = [record.generators, record.consumers, record.rate, record.cycle, record.gone,
             record.unit_blocks, record.month_blocks]
    for g in range(GENERATOR_PLACES):
        words += (record.kind[g], record.installed[g], record.contracted[g])
    for name in PAIR_LISTS:
        for row in getattr(record, name):
            words += row
    for name in GENERATOR_TERMS + CONSUMER_TERMS:
        words += getattr(record, name)
    words += (record.switch_month, record.closings_done)
    for name in CLASS_LISTS:
        words += getattr(record, name)
    return RECORD_FORM.pack(*words)


def inputs_from_bytes(data):
    """Inputs: 4 bytes a number, low byte first."""
    return struct.unpack(f"<{len(data) // 4}I", data)


def outputs_to_bytes(numbers):
    """Outputs: 8 bytes a number, low byte first."""
    return struct.pack(f"<{len(numbers)}Q", *numbers)


def rounded_up(amount, rate):
    """amount x rate / 10,000, rounded up."""
    return (amount * rate + WHOLE - 1) // WHOLE


def to_the_nearest(amount, rate):
    """amount x rate / 10,000, to the nearest whole number, halves up."""
    whole, rest = divmod(amount * rate, WHOLE)
    return whole + 1 if 2 * rest >= WHOLE else whole


def sums_over_classes(lists):
    """Place by place."""
    return [sum(amounts) for amounts in zip(*lists)]


def taken_in_order(order, offered, wanted):
    """Each generator of the order gives the smaller of what it offers and what is still wanted.

    Gives what each generator gave and what is left.
    """
    taken = [0] * len(offered)
    for g in order:
        taken[g] = min(offered[g], wanted)
        wanted -= taken[g]
    return taken, wanted


class Engine:
    # The paper's ranges and limits.
    MOST_GENERATORS = 8
    MOST_CONSUMERS = 16
    HIGHEST_KIND = 3
    HIGHEST_CAPACITY = 400_000
    HIGHEST_LOSS = 5_000
    HIGHEST_RATE = 5_000
    LONGEST_CYCLE = 12
    HIGHEST_RANK = 255
    HIGHEST_READING = 200_000_000
    MONTH_LIMIT = 3_360
    UNIT_LIMIT = 10_000_000
    DAY_BLOCKS = 96
    MISSING = 4_294_967_295
    DAY_OUTPUT_LENGTH = 2
    LATEST_SWITCH_MONTH = 1_200
    SLOTS = 96

    # ---- The agreement: what opening tests (refusals 2 to 6 and 19) and soundness demands ----

    def sizes_allowed(self, generators, consumers):
        return (1 <= generators <= self.MOST_GENERATORS
                and 1 <= consumers <= self.MOST_CONSUMERS)

    def kinds_allowed(self, record):
        return all(kind <= self.HIGHEST_KIND for kind in record.kind[:record.generators])

    def capacities_allowed(self, record):
        G = record.generators
        return all(kw <= self.HIGHEST_CAPACITY
                   for kw in record.installed[:G] + record.contracted[:G])

    def links_and_losses_allowed(self, record):
        G, C = record.generators, record.consumers
        return (all(max(row[:C]) <= 1 for row in record.link[:G])
                and all(max(row[:C]) <= self.HIGHEST_LOSS for row in record.loss_rate[:G]))

    def bank_terms_allowed(self, record):
        return (record.rate <= self.HIGHEST_RATE
                and 1 <= record.cycle <= self.LONGEST_CYCLE
                and record.gone < record.cycle)

    def switch_month_allowed(self, record):
        return record.switch_month <= self.LATEST_SWITCH_MONTH

    # ---- The schedule: what a schedule tests (refusals 7 to 9) and soundness demands ----

    def unlinked_pairs_have_no_kw(self, record):
        C = record.consumers
        return all(kw == 0 or link != 0
                   for g in range(record.generators)
                   for kw, link in zip(record.kw[g][:C], record.link[g][:C]))

    def lower_capacity(self, record, g):
        """Clause 5.1."""
        return min(record.installed[g], record.contracted[g])

    def kw_within_capacity(self, record):
        C = record.consumers
        return all(sum(record.kw[g][:C]) <= self.lower_capacity(record, g)
                   for g in range(record.generators))

    def ranks_allowed(self, record):
        C = record.consumers
        return all(1 <= min(row[:C]) and max(row[:C]) <= self.HIGHEST_RANK
                   for row in record.rank[:record.generators])

    def standing(self, record, g, c):
        """Rising rank; F-2: "For equal ranks the larger scheduled kW of that pair comes first, then
        the lower generator number." The lowest goes first."""
        return record.rank[g][c], -record.kw[g][c], g

    def inter_se_order(self, record, c):
        return sorted(range(record.generators), key=lambda g: self.standing(record, g, c))

    # ---- Soundness ----

    def record_sizes_allowed(self, record):
        return self.sizes_allowed(record.generators, record.consumers)

    def unit_blocks_allowed(self, record):
        return record.unit_blocks <= self.UNIT_LIMIT

    def month_blocks_allowed(self, record):
        return record.month_blocks <= self.MONTH_LIMIT

    def month_within_unit(self, record):
        return record.month_blocks <= record.unit_blocks

    def injected_allowed(self, record):
        most = self.HIGHEST_READING * record.unit_blocks
        return max(record.injected) <= most

    def metered_allowed(self, record):
        most = self.HIGHEST_READING * record.unit_blocks
        return max(record.metered) <= most

    def generator_equation_holds(self, record):
        first, *others = (getattr(record, term) for term in GENERATOR_TERMS)
        return first == [sum(terms) for terms in zip(*others)]

    def consumer_equation_holds(self, record):
        first, *others = (getattr(record, term) for term in CONSUMER_TERMS)
        return first == [sum(terms) for terms in zip(*others)]

    def agreement_beyond_is_zero(self, record):
        G = record.generators
        return not (any(record.kind[G:]) or any(record.installed[G:])
                    or any(record.contracted[G:]))

    def pairs_beyond_are_zero(self, record):
        G, C = record.generators, record.consumers
        for name in PAIR_LISTS:
            rows = getattr(record, name)
            if any(any(row[C:]) for row in rows[:G]) or any(any(row) for row in rows[G:]):
                return False
        return True

    def totals_beyond_are_zero(self, record):
        G, C = record.generators, record.consumers
        return not (any(any(getattr(record, term)[G:]) for term in GENERATOR_TERMS)
                    or any(any(getattr(record, term)[C:]) for term in CONSUMER_TERMS))

    # "To be sound, the switch month is at most 1,200 and closings done plus month blocks are at
    # most unit blocks; before the new rules apply the class places are 0; from then on months gone
    # is 0 and each old place of bank, pending and open is the sum of its three classes." (F-7)
    # The sums are over all places, so a class place beyond G or C is 0 as the old one is.

    def closings_within_unit(self, record):
        return record.closings_done + record.month_blocks <= record.unit_blocks

    def class_places_zero_before_the_switch(self, record):
        return (self.new_rules_apply(record)
                or not any(any(getattr(record, name)) for name in CLASS_LISTS))

    def no_months_gone_from_the_switch_on(self, record):
        return not self.new_rules_apply(record) or record.gone == 0

    def sum_of_its_classes(self, record, term):
        return (not self.new_rules_apply(record)
                or getattr(record, term) == sums_over_classes(
                    getattr(record, name) for name in CLASS_TERMS[term]))

    def bank_is_sum_of_its_classes(self, record):
        return self.sum_of_its_classes(record, "bank")

    def pending_is_sum_of_its_classes(self, record):
        return self.sum_of_its_classes(record, "pending")

    def open_is_sum_of_its_classes(self, record):
        return self.sum_of_its_classes(record, "open")

    # Sizes come first: the later clauses read the places that they name.
    CLAUSES_OF_SOUND = (
        "record_sizes_allowed", "kinds_allowed", "capacities_allowed", "links_and_losses_allowed",
        "bank_terms_allowed", "unlinked_pairs_have_no_kw", "kw_within_capacity", "ranks_allowed",
        "unit_blocks_allowed", "month_blocks_allowed", "month_within_unit",
        "injected_allowed", "metered_allowed", "generator_equation_holds",
        "consumer_equation_holds", "agreement_beyond_is_zero", "pairs_beyond_are_zero",
        "totals_beyond_are_zero",
        "switch_month_allowed", "closings_within_unit", "class_places_zero_before_the_switch",
        "no_months_gone_from_the_switch_on", "bank_is_sum_of_its_classes",
        "pending_is_sum_of_its_classes", "open_is_sum_of_its_classes")

    def sound(self, record):
        return all(getattr(self, clause)(record) for clause in self.CLAUSES_OF_SOUND)

    # ---- Opening ----

    def pair_rows(self, pair_list, generators, consumers):
        """A pair list runs by generator, then consumer."""
        return [list(pair_list[g * consumers:(g + 1) * consumers]) for g in range(generators)]

    def put_pairs(self, places, rows):
        for place, row in zip(places, rows):
            place[:len(row)] = row

    def new_record(self, generators, consumers, rate, cycle, gone, switch_month,
                   generator_list, pair_list):
        """No kW scheduled, every rank 1, all counts and totals 0."""
        record = Record()
        record.generators, record.consumers = generators, consumers
        record.rate, record.cycle, record.gone = rate, cycle, gone
        record.switch_month = switch_month
        record.kind[:generators] = generator_list[0::3]
        record.installed[:generators] = generator_list[1::3]
        record.contracted[:generators] = generator_list[2::3]
        pairs = generators * consumers
        self.put_pairs(record.link, self.pair_rows(pair_list[:pairs], generators, consumers))
        self.put_pairs(record.loss_rate, self.pair_rows(pair_list[pairs:], generators, consumers))
        self.put_pairs(record.rank, [[1] * consumers] * generators)
        return record

    def first_months_gone(self, record):
        """What opening keeps, after 6 has been tested on what it was given: "for switch month 1
        opening sets it to 0"."""
        return 0 if record.switch_month == 1 else record.gone

    # ---- The bank by hours (document 02, F-7): which rules, which class ----
    # "Slots 37 to 68 are off-peak, 21 to 36 and 77 to 92 peak, the rest normal; each month begins
    # at slot 1 and slots then follow the blocks round. The agreement gains, after months gone, a
    # switch month, the number of the first closing under the new rules, counted from 1 at opening,
    # 0 for never; closings before it follow the old rules. The closing just before it lapses the
    # old bank and sets months gone to 0 [...] From then on pending, bank and open exist per class".

    def new_rules_apply(self, record):
        """To the next closing, and so to the blocks of the month that it closes."""
        return record.switch_month != 0 and record.closings_done + 1 >= record.switch_month

    def just_before_the_switch(self, record):
        """Whether the next closing is the last one under the old rules."""
        return record.closings_done + 2 == record.switch_month

    def slot_of_next_block(self, record):
        return record.month_blocks % self.SLOTS + 1

    def class_of_slot(self, slot):
        if 37 <= slot <= 68:
            return OFF_PEAK
        if 21 <= slot <= 36 or 77 <= slot <= 92:
            return PEAK
        return NORMAL

    def class_of_next_block(self, record):
        return self.class_of_slot(self.slot_of_next_block(record))

    # ---- Block ----

    def deemed(self, kind):
        """Clause 10.5: scheduled at what is really injected."""
        return kind in (WIND, MINI_HYDEL, SOLAR)

    def counted(self, kind, entry, total_kw):
        """Rule 1."""
        if total_kw == 0:
            return 0
        if self.deemed(kind):
            return entry
        return min(entry, WH_PER_KW_IN_A_BLOCK * total_kw)

    def parts(self, counted, kw):
        """Rule 2: the parts of the consumers add up to what is counted, remainders included."""
        total_kw = sum(kw)
        if total_kw == 0:
            return [0] * len(kw)
        parts = []
        kw_so_far = before = 0
        for consumer_kw in kw:
            kw_so_far += consumer_kw
            so_far = counted * kw_so_far // total_kw
            parts.append(so_far - before)
            before = so_far
        return parts

    def loss(self, part, rate):
        """Rule 3, by F-3: "The licensee now rounds loss to the nearest watt-hour, halves up,
        instead of up." By F-4 "the loss step keeps its meaning"; in how many bits it is reckoned is
        the library's own.
        """
        return to_the_nearest(part, rate)

    def pair_loss_rate(self, record, g, c):
        return record.loss_rate[g][c]

    def scheduled_at_exit(self, kind, kw, delivered, rate):
        """Rule 4, "and rule 4 with it": its loss is that of rule 3."""
        if self.deemed(kind):
            return delivered
        scheduled = WH_PER_KW_IN_A_BLOCK * kw
        return scheduled - self.loss(scheduled, rate)

    def set_off(self, order, delivered, left):
        """Rule 5 (8.3, 9.2)."""
        return taken_in_order(order, delivered, left)

    def keep_underdrawn(self, record, g, underdrawn):
        """Rule 6 (10.3)."""
        if self.deemed(record.kind[g]):
            self.add_pending(record, g, underdrawn)
        else:
            record.inadvertent[g] += underdrawn

    def add_pending(self, record, g, energy):
        """Under the new rules to the class of the block too; the old place stays the sum."""
        record.pending[g] += energy
        if self.new_rules_apply(record):
            record.of_class(self.class_of_next_block(record), "pending")[g] += energy

    def add_open(self, record, c, energy):
        """Likewise."""
        record.open[c] += energy
        if self.new_rules_apply(record):
            record.of_class(self.class_of_next_block(record), "open")[c] += energy

    def shortfall(self, order, delivered, scheduled, left):
        """Rule 7."""
        short = [q - d for q, d in zip(scheduled, delivered)]
        return taken_in_order(order, short, left)

    def settle_consumer(self, order, delivered, scheduled, reading):
        """Rules 5 and 7 for one consumer: all set-off comes before any shortfall."""
        set_off, left = self.set_off(order, delivered, reading)
        shortfall, left = self.shortfall(order, delivered, scheduled, left)
        return set_off, shortfall, left

    def block_rules(self, record, entry, exit):
        """Rules 1 to 8 on the record. Gives the numbers of the output."""
        G, C = record.generators, record.consumers
        unaccounted, loss, delivered, scheduled = [], [], [], []
        for g in range(G):
            kind, kw = record.kind[g], record.kw[g][:C]
            counted = self.counted(kind, entry[g], sum(kw))
            unaccounted.append(entry[g] - counted)  # 10.4
            loss_row, delivered_row, scheduled_row = [], [], []
            for c, part in enumerate(self.parts(counted, kw)):
                rate = self.pair_loss_rate(record, g, c)
                lost = self.loss(part, rate)
                loss_row.append(lost)
                delivered_row.append(part - lost)
                scheduled_row.append(self.scheduled_at_exit(kind, kw[c], part - lost, rate))
            loss.append(loss_row)
            delivered.append(delivered_row)
            scheduled.append(scheduled_row)

        # Settled by consumer, kept by generator.
        set_off = [[0] * C for _ in range(G)]
        underdrawn = [[0] * C for _ in range(G)]
        shortfall = [[0] * C for _ in range(G)]
        remainder = [0] * C
        for c in range(C):
            to_consumer = [row[c] for row in delivered]
            taken, short, remainder[c] = self.settle_consumer(
                self.inter_se_order(record, c), to_consumer,
                [row[c] for row in scheduled], exit[c])
            for g in range(G):
                set_off[g][c] = taken[g]
                underdrawn[g][c] = to_consumer[g] - taken[g]
                shortfall[g][c] = short[g]

        # Rule 8, with rule 6 for what is underdrawn.
        for g in range(G):
            record.injected[g] += entry[g]
            record.unaccounted[g] += unaccounted[g]
            record.loss[g] += sum(loss[g])
            record.set_off[g] += sum(set_off[g])
            self.keep_underdrawn(record, g, sum(underdrawn[g]))
        for c in range(C):
            record.metered[c] += exit[c]
            record.consumer_set_off[c] += sum(row[c] for row in set_off)
            record.shortfall[c] += sum(row[c] for row in shortfall)
            self.add_open(record, c, remainder[c])
        # The class of the block was that of the month blocks before it: they rise last.
        record.unit_blocks += 1
        record.month_blocks += 1

        return self.block_output(loss, set_off, underdrawn, shortfall, unaccounted, remainder)

    def block_output(self, loss, set_off, underdrawn, shortfall, unaccounted, remainder):
        """Four pair lists, one list by generator, one by consumer."""
        output = []
        for rows in (loss, set_off, underdrawn, shortfall):
            for row in rows:
                output += row
        return output + unaccounted + remainder

    def block_output_length(self, record):
        G, C = record.generators, record.consumers
        return 4 * G * C + G + C

    def month_full(self, record):
        return record.month_blocks >= self.MONTH_LIMIT

    def unit_full(self, record):
        return record.unit_blocks >= self.UNIT_LIMIT

    def readings_allowed(self, readings):
        return max(readings) <= self.HIGHEST_READING

    # ---- Closing a month ----

    def charge(self, record, g):
        """Step 1: the charge in kind falls on what is pending, not on the bank. "The bank charge
        still rounds up" (F-3)."""
        return rounded_up(record.pending[g], record.rate)

    def drawing_consumers(self, record):
        """Step 2: consumers 1 to C."""
        return range(record.consumers)

    def drawing_order(self, record, c):
        """Step 2: linked generators in the inter-se order that stands now."""
        return [g for g in self.inter_se_order(record, c) if record.link[g][c] == 1]

    def bank_lapses(self, record):
        """Step 4, after months gone has risen."""
        return record.gone == record.cycle

    def bank_lapses_for_the_switch(self, record):
        """F-7: whatever the cycle says."""
        return self.just_before_the_switch(record)

    def count_closing(self, record):
        """F-7, under either rules."""
        record.closings_done += 1

    def closing_steps(self, record):
        """The steps on the record, under the rules that apply to this closing. Gives the numbers of
        the output."""
        by_hours = self.new_rules_apply(record)
        output = self.steps_by_hours(record) if by_hours else self.steps_1_to_4(record)
        self.count_closing(record)
        return output

    def steps_1_to_4(self, record):
        G, C = record.generators, record.consumers

        # Step 1
        charge = [self.charge(record, g) for g in range(G)]
        for g in range(G):
            record.bank[g] += record.pending[g] - charge[g]
            record.pending[g] = 0

        # Step 2
        open_before = record.open[:C]
        left = record.open[:C]
        drawn = [[0] * C for _ in range(G)]
        for c in self.drawing_consumers(record):
            taken, left[c] = taken_in_order(self.drawing_order(record, c), record.bank[:G], left[c])
            for g in range(G):
                drawn[g][c] = taken[g]
                record.bank[g] -= taken[g]

        # Step 3
        supplied = left
        record.open[:C] = [0] * C

        # Step 4
        record.gone += 1
        lapsed = [0] * G
        if self.bank_lapses(record) or self.bank_lapses_for_the_switch(record):
            lapsed = record.bank[:G]
            record.bank[:G] = [0] * G
            record.gone = 0
        self.end_month(record, charge, drawn, lapsed, supplied)

        return self.closing_output(drawn, charge, lapsed, record.bank[:G], open_before, supplied)

    def end_month(self, record, charge, drawn, lapsed, supplied):
        """The rest of step 4."""
        record.month_blocks = 0
        for g in range(record.generators):
            record.charge[g] += charge[g]
            record.drawn[g] += sum(drawn[g])
            record.lapsed[g] += lapsed[g]
        for c in range(record.consumers):
            record.consumer_drawn[c] += sum(row[c] for row in drawn)
            record.supplied[c] += supplied[c]

    # ---- Closing a month by hours (F-7) ----
    # "From then on [...] the charge is rounded up per class, months gone remains 0, and every
    # closing ends with a lapse. Each consumer in turn settles off-peak, normal, peak; within each,
    # one linked generator after another gives first its energy of that class, then its peak energy.
    # The printed, output and balanced terms are sums over classes."

    def class_charge(self, record, hours, g):
        """Step 1."""
        return rounded_up(record.of_class(hours, "pending")[g], record.rate)

    def credit_class(self, record, hours):
        """Step 1 for one class. Gives its charges by generator."""
        G = record.generators
        charge = [self.class_charge(record, hours, g) for g in range(G)]
        bank, pending = record.of_class(hours, "bank"), record.of_class(hours, "pending")
        for g in range(G):
            bank[g] += pending[g] - charge[g]
            pending[g] = 0
        return charge

    def settling_order(self):
        return (OFF_PEAK, NORMAL, PEAK)

    def settlings(self, record):
        """Step 2: which consumer settles which class, one after the other."""
        return [(c, hours) for c in self.drawing_consumers(record)
                for hours in self.settling_order()]

    def classes_given(self, hours):
        """The classes of energy that a generator gives where this one is settled."""
        return (hours, PEAK)

    def givers(self, record, c, hours):
        """Step 2: which generator gives which class of its energy, one after the other."""
        return [(g, given) for g in self.drawing_order(record, c)
                for given in self.classes_given(hours)]

    def settle_by_hours(self, record):
        """Steps 1 to 3 on the class places of the record, which then hold the banks before the
        lapse. Gives charges by class, drawn by pair, supplied by class."""
        G, C = record.generators, record.consumers

        # Step 1
        charge = {hours: self.credit_class(record, hours) for hours in CLASSES}

        # Steps 2 and 3
        drawn = [[0] * C for _ in range(G)]
        supplied = {hours: [0] * C for hours in CLASSES}
        for c, hours in self.settlings(record):
            left = record.of_class(hours, "open")[c]
            for g, given in self.givers(record, c, hours):
                bank = record.of_class(given, "bank")
                energy = min(bank[g], left)
                bank[g] -= energy
                drawn[g][c] += energy
                left -= energy
            supplied[hours][c] = left
            record.of_class(hours, "open")[c] = 0
        return charge, drawn, supplied

    def lapse_by_hours(self, record):
        """Step 4: whatever the cycle says. Gives the sums that lapse."""
        G = record.generators
        lapsed = sums_over_classes(record.of_class(hours, "bank")[:G] for hours in CLASSES)
        for hours in CLASSES:
            record.of_class(hours, "bank")[:G] = [0] * G
        return lapsed

    def add_up_classes(self, record):
        """Each old place of bank, pending and open is the sum of its three classes."""
        for term, names in CLASS_TERMS.items():
            setattr(record, term, sums_over_classes(getattr(record, name) for name in names))

    def steps_by_hours(self, record):
        G, C = record.generators, record.consumers
        open_before = record.open[:C]
        charge, drawn, supplied = self.settle_by_hours(record)
        charge, supplied = (sums_over_classes(lists.values()) for lists in (charge, supplied))
        lapsed = self.lapse_by_hours(record)
        self.add_up_classes(record)
        self.end_month(record, charge, drawn, lapsed, supplied)
        return self.closing_output(drawn, charge, lapsed, record.bank[:G], open_before, supplied)

    # ---- What a closing gives ----

    def closing_output(self, drawn, charge, lapsed, bank, open_before, supplied):
        """One pair list, three lists by generator, two by consumer."""
        output = []
        for row in drawn:
            output += row
        return output + charge + lapsed + bank + open_before + supplied

    def closing_output_length(self, record):
        G, C = record.generators, record.consumers
        return G * C + 3 * G + 2 * C

    # ---- A day of a main and a check meter (document 02, F-1) ----
    # "For a day of 96 readings from each, 4,294,967,295 marking a missing one, hand back the
    # stretch of the main meter's readings if none is missing there, otherwise the check meter's.
    # [...] Also return how many blocks have both readings present and further apart than a given
    # tolerance in Wh. [...] (17, at least one reading missing in each of the two lists; tested
    # after 2, which also covers a day not of 96.)" In C a meter's number stands for its stretch.

    def missing(self, reading):
        return reading == self.MISSING

    def incomplete(self, day):
        return any(self.missing(reading) for reading in day)

    def both_incomplete(self, main_day, check_day):
        """In whatever blocks: the two days are not merged."""
        return self.incomplete(main_day) and self.incomplete(check_day)

    def meter_used(self, main_day, check_day):
        return CHECK_METER if self.incomplete(main_day) else MAIN_METER

    def further_apart(self, main, check, tolerance):
        return abs(main - check) > tolerance

    def counts_as_apart(self, main, check, tolerance):
        return (not self.missing(main) and not self.missing(check)
                and self.further_apart(main, check, tolerance))

    def blocks_apart(self, main_day, check_day, tolerance):
        return sum(self.counts_as_apart(main, check, tolerance)
                   for main, check in zip(main_day, check_day))

    def day_output(self, meter, apart):
        return [meter, apart]

    def day_lists_allowed(self, main_list, check_list):
        return len(main_list) == len(check_list) == 4 * self.DAY_BLOCKS

    # ---- The five calls on bytes: refusals are tested from the lowest number up ----

    def sound_record(self, data):
        """The record that the bytes hold, or None (refusal 1)."""
        if len(data) != RECORD_BYTES:
            return None
        record = record_from_bytes(data)
        return record if self.sound(record) else None

    def open_unit(self, generators, consumers, rate, cycle, gone, switch_month,
                  generator_list, pair_list, record):
        if (not self.sizes_allowed(generators, consumers)
                or len(generator_list) != 4 * 3 * generators
                or len(pair_list) != 4 * 2 * generators * consumers
                or len(record) != RECORD_BYTES):
            return 2, record
        opened = self.new_record(generators, consumers, rate, cycle, gone, switch_month,
                                 inputs_from_bytes(generator_list), inputs_from_bytes(pair_list))
        if not self.kinds_allowed(opened):
            return 3, record
        if not self.capacities_allowed(opened):
            return 4, record
        if not self.links_and_losses_allowed(opened):
            return 5, record
        if not self.bank_terms_allowed(opened):
            return 6, record
        if not self.switch_month_allowed(opened):
            return 19, record
        opened.gone = self.first_months_gone(opened)
        return ACCEPTED, record_to_bytes(opened)

    def schedule(self, record, kw, ranks):
        unit = self.sound_record(record)
        if unit is None:
            return 1, record
        G, C = unit.generators, unit.consumers
        if len(kw) != 4 * G * C or len(ranks) != 4 * G * C:
            return 2, record
        # The latest schedule stands (4.3): it replaces the former one whole.
        self.put_pairs(unit.kw, self.pair_rows(inputs_from_bytes(kw), G, C))
        self.put_pairs(unit.rank, self.pair_rows(inputs_from_bytes(ranks), G, C))
        if not self.unlinked_pairs_have_no_kw(unit):
            return 7, record
        if not self.kw_within_capacity(unit):
            return 8, record
        if not self.ranks_allowed(unit):
            return 9, record
        return ACCEPTED, record_to_bytes(unit)

    def block(self, record, entry, exit, output):
        unit = self.sound_record(record)
        if unit is None:
            return 1, record, output
        if (len(entry) != 4 * unit.generators or len(exit) != 4 * unit.consumers
                or len(output) != 8 * self.block_output_length(unit)):
            return 2, record, output
        entry, exit = inputs_from_bytes(entry), inputs_from_bytes(exit)
        if not self.readings_allowed(entry + exit):
            return 10, record, output
        if self.month_full(unit):
            return 11, record, output
        if self.unit_full(unit):
            return 12, record, output
        numbers = self.block_rules(unit, entry, exit)
        return ACCEPTED, record_to_bytes(unit), outputs_to_bytes(numbers)

    def close(self, record, output):
        unit = self.sound_record(record)
        if unit is None:
            return 1, record, output
        if len(output) != 8 * self.closing_output_length(unit):
            return 2, record, output
        if unit.month_blocks == 0:
            return 13, record, output
        numbers = self.closing_steps(unit)
        return ACCEPTED, record_to_bytes(unit), outputs_to_bytes(numbers)

    def day(self, main_list, check_list, tolerance, output):
        if (not self.day_lists_allowed(main_list, check_list)
                or len(output) != 8 * self.DAY_OUTPUT_LENGTH):
            return 2, output
        main_day, check_day = inputs_from_bytes(main_list), inputs_from_bytes(check_list)
        if self.both_incomplete(main_day, check_day):
            return 17, output
        numbers = self.day_output(self.meter_used(main_day, check_day),
                                  self.blocks_apart(main_day, check_day, tolerance))
        return ACCEPTED, outputs_to_bytes(numbers)
