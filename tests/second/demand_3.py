"""What demand 3 says of the figures themselves, checked on a unit that was opened and then only
called. The rules are not used here, so a rule that loses energy shows; but for the banks and the
energy supplied by class, which no output holds: the engine's own steps give them again."""

from second.engine import (CLASSES, CONSUMER_TERMS, GENERATOR_TERMS, PEAK, Engine,
                           record_from_bytes, record_to_bytes, sums_over_classes)


def broken_by_record(record):
    """The sentences about the record that do not hold."""
    broken = []
    if not Engine().sound(record):
        broken.append("the record is not sound")
    for terms, what in ((GENERATOR_TERMS, "generator"), (CONSUMER_TERMS, "consumer")):
        first, *others = (getattr(record, term) for term in terms)
        for place, total in enumerate(first):
            if total != sum(other[place] for other in others):
                broken.append(f"the equation of {what} {place + 1} does not hold")
    if sum(record.set_off) != sum(record.consumer_set_off):
        broken.append("set off differs between generators and consumers")
    if sum(record.drawn) != sum(record.consumer_drawn):
        broken.append("drawn differs between generators and consumers")
    return broken


def idle_bank(before, closing_output):
    """The last sentence, of a closing of the record `before` it: linked pairs whose generator had
    bank before the lapse while the consumer was supplied."""
    G, C = before.generators, before.consumers
    lapsed, bank = (closing_output[G * C + k * G:G * C + (k + 1) * G] for k in (1, 2))
    supplied = closing_output[G * C + 3 * G + C:]
    before_lapse = [sum(energies) for energies in zip(lapsed, bank)]
    if Engine().new_rules_apply(before):
        return idle_bank_by_hours(before, before_lapse, supplied)
    return [f"generator {g + 1} has bank while consumer {c + 1} is supplied"
            for g in range(G) for c in range(C)
            if before.link[g][c] and before_lapse[g] and supplied[c]]


def idle_bank_by_hours(before, before_lapse, supplied):
    """The sentence that replaces it (F-7): "for no linked pair and no class does the generator
    still have bank of that class, or of peak, before the lapse while its consumer has energy of
    that class supplied by the licensee in that closing"."""
    G, C = before.generators, before.consumers
    settled = record_from_bytes(record_to_bytes(before))
    _, _, class_supplied = Engine().settle_by_hours(settled)
    class_bank = {hours: settled.of_class(hours, "bank")[:G] for hours in CLASSES}
    broken = [f"generator {g + 1} has {hours} or peak bank while consumer {c + 1} is supplied "
              f"{hours} energy"
              for g in range(G) for c in range(C) for hours in CLASSES
              if before.link[g][c] and class_supplied[hours][c]
              and (class_bank[hours][g] or class_bank[PEAK][g])]
    # What was settled again is what the output shows.
    if sums_over_classes(class_bank.values()) != before_lapse:
        broken.append("lapsed and bank are not the sums over classes")
    if sums_over_classes(class_supplied.values()) != supplied:
        broken.append("supplied is not the sum over classes")
    return broken
