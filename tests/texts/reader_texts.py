"""The texts that reader.py puts before the reader: fixed cases, and random and damaged tables.

A case is one call of the reader. Where a case is built for a number of document 01, that number
stands in it, so that the second reader is held against it too; of the others the second reader says
what they give.
"""

import random
from itertools import chain, product
from typing import NamedTuple, Optional

from second.engine import ACCEPTED, Engine
from second.paper_cases import NAMES_OF_A, READER_EDGES, well_formed
from second.table import HIGHEST_VALUE, INPUT_LIMIT, VALUE_SPACE, names_line

MOST_GENERATORS, MOST_CONSUMERS = Engine.MOST_GENERATORS, Engine.MOST_CONSUMERS
# Far out of range; some are in range where only a part of their bits is looked at.
FAR_SIZES = (18, 24, 255, 256, 257, 2**16 + 1, 2**31, 2**31 + 1, 2**32 - 8, 2**32 - 1)


class Case(NamedTuple):
    name: str
    generators: int
    consumers: int
    text: bytes
    room: int  # places of the output
    number: Optional[int] = None  # by document 01, where the case is built for a number


def lines_of(generators, consumers, line_count):
    """Value lines, hardly a value twice: 0 first, then of 4 to 10 digits."""
    width = generators + consumers
    values = [b"%d" % (place ** 3 * 7_919 % (HIGHEST_VALUE + 1))
              for place in range(width * line_count)]
    return [b",".join(values[line * width:(line + 1) * width]) + b"\n"
            for line in range(line_count)]


def table_of(generators, consumers, line_count):
    return b"".join([names_line(generators, consumers),
                     *lines_of(generators, consumers, line_count)])


# ---- Fixed cases: sizes and room ----

def of_all_sizes():
    """No text, and right tables, of all sizes in range and next to it: with just room enough, less
    and more."""
    for G, C in product(range(MOST_GENERATORS + 2), range(MOST_CONSUMERS + 2)):
        in_range = 1 <= G <= MOST_GENERATORS and 1 <= C <= MOST_CONSUMERS
        yield Case(f"no text, {G} x {C}", G, C, b"", 0, 14 if in_range else 2)
        for line_count in (0, 1, 3):
            needed = line_count * (G + C)
            for room in sorted({0, max(needed - 1, 0), needed, needed + 1}):
                number = 2 if not in_range else 16 if room < needed else ACCEPTED
                yield Case(f"{line_count} lines of {G} x {C}, room for {room}", G, C,
                           table_of(G, C, line_count), room, number)


def of_other_sizes():
    """Right tables, but of other sizes than the reader is given."""
    for G, C in product(range(1, MOST_GENERATORS + 1), range(1, MOST_CONSUMERS + 1)):
        for others in ((G - 1, C), (G + 1, C), (G, C - 1), (G, C + 1), (G + 1, C - 1), (C, G)):
            if others != (G, C):
                yield Case(f"{G} x {C}, but the table is {others[0]} x {others[1]}", G, C,
                           table_of(*others, 2), 2 * sum(others), 14)
    near = range(MOST_CONSUMERS + 1)
    for G, C in chain(product(FAR_SIZES, near), product(near, FAR_SIZES),
                      product(FAR_SIZES, FAR_SIZES)):
        # The table of what 8 bits hold of the sizes, as far as a table can have it.
        shown = min(G % 256, MOST_GENERATORS + 1), min(C % 256, MOST_CONSUMERS + 1)
        yield Case(f"{G} x {C}", G, C, table_of(*shown, 2), 2 * sum(shown), 2)


# ---- Fixed cases: wrong names, malformed lines, and the order of the numbers ----

# Each is made of the right names line.
WRONG_NAMES = {
    "no names line": lambda names: b"",
    "names line with no names": lambda names: b"\n",
    "no line feed after the names": lambda names: names[:-1],
    "CR LF after the names": lambda names: names[:-1] + b"\r\n",
    "comma after the names": lambda names: names[:-1] + b",\n",
    "space after the names": lambda names: names[:-1] + b" \n",
    "blank line before the names": lambda names: b"\n" + names,
    "encoding mark before the names": lambda names: b"\xef\xbb\xbf" + names,
    "a byte over 127 in a name": lambda names: names[:-2] + bytes((names[-2] + 128,)) + b"\n",
    "names in lower case": lambda names: names.lower(),
    "leading zero in a name": lambda names: names.replace(b"E1", b"E01", 1),
    "names from 0 on": lambda names: names.replace(b"E1", b"E0", 1),
    "spaces between the names": lambda names: names.replace(b",", b", "),
    "semicolons between the names": lambda names: names.replace(b",", b";"),
    "a name too many": lambda names: names[:-1] + b",R1\n",
    "a name too few": lambda names: names.rpartition(b",")[0] + b"\n",
    "names turned round": lambda names: b",".join(names[:-1].split(b",")[::-1]) + b"\n",
}

# Each is made of right lines, two or more, and their names line.
MALFORMED = {
    "leading zero": lambda lines, names: lines[:-1] + [b"0" + lines[-1]],
    "over the highest value": lambda lines, names:
        lines[:-1] + [b"%d" % (HIGHEST_VALUE + 1) + lines[-1][lines[-1].find(b","):]],
    "no last line feed": lambda lines, names: lines[:-1] + [lines[-1][:-1]],
    "a value too few": lambda lines, names: lines[:-1] + [lines[-1].rpartition(b",")[0] + b"\n"],
    "a value too many": lambda lines, names: lines[:-1] + [b"1," + lines[-1]],
    "a value on the next line": lambda lines, names:
        [lines[0].rpartition(b",")[0] + b"\n", b"1," + lines[1]] + lines[2:],
    "each value on a line": lambda lines, names: [line.replace(b",", b"\n") for line in lines],
    "comma for a line feed": lambda lines, names: [lines[0][:-1] + b","] + lines[1:],
    "comma for the last line feed": lambda lines, names: lines[:-1] + [lines[-1][:-1] + b","],
    "comma before a line feed": lambda lines, names: [lines[0][:-1] + b",\n"] + lines[1:],
    "comma after a line feed": lambda lines, names: lines[:-1] + [b"," + lines[-1]],
    "two commas": lambda lines, names: lines[:-1] + [lines[-1].replace(b",", b",,", 1)],
    "commas only": lambda lines, names: lines + [b"," * names.count(b",") + b"\n"],
    "blank line after the names": lambda lines, names: [b"\n"] + lines,
    "blank line at the end": lambda lines, names: lines + [b"\n"],
    "CR LF": lambda lines, names: [line[:-1] + b"\r\n" for line in lines],
    "CR LF at the end": lambda lines, names: lines[:-1] + [lines[-1][:-1] + b"\r\n"],
    "CR for LF": lambda lines, names: [line[:-1] + b"\r" for line in lines],
    "semicolons": lambda lines, names: [line.replace(b",", b";") for line in lines],
    "zero byte at the end": lambda lines, names: lines + [b"\0"],
    "digit after the last line": lambda lines, names: lines + [b"1"],
    "names line twice": lambda lines, names: [names] + lines,
    "names line at the end": lambda lines, names: lines + [names],
}


def of_all_mixtures(line_count=12):
    """2, 14, 15 and 16 apply or not, in every mixture: the lowest that applies is returned."""
    for G, C in ((1, 1), (1, 2), (8, 16)):
        for size in ((G, C), (0, C), (MOST_GENERATORS + 1, C), (G, 0), (G, MOST_CONSUMERS + 1)):
            names, lines = names_line(*size), lines_of(*size, line_count)
            needed = line_count * sum(size)
            wrong_names = {"": names} | {what: make(names) for what, make in WRONG_NAMES.items()}
            malformed = {"": b"".join(lines)} | {what: b"".join(make(lines, names))
                                                 for what, make in MALFORMED.items()}
            for (what, first), (where, later), room in product(
                    wrong_names.items(), malformed.items(), (0, needed - 1, needed)):
                if size == (G, C) and what and where and (first + later).startswith(names):
                    continue  # what the one took away, the other put there again
                number = (2 if size != (G, C) else 14 if what else 15 if where else
                          16 if room < needed else ACCEPTED)
                yield Case(f"{size[0]} x {size[1]}, " + "".join(f"{word}, " for word in (
                    what, where) if word) + f"room for {room}", *size, first + later, room, number)


# ---- Fixed cases: values ----

VALUES = (b"0", b"1", b"9", b"10", b"19", b"90", b"100", b"1000000000", b"200000000", b"200000001",
          b"2147483647", b"2147483648", b"3999999999", b"4000000000", b"4294967289", b"4294967290",
          b"4294967294", b"4294967295")
NO_VALUES = (b"4294967296", b"4294967299", b"4294967300", b"4294967305", b"5000000000",
             b"9999999999", b"10000000000", b"42949672950", b"42949672960",
             # By 2^64 and multiples of 2^32 they would be small values again.
             b"%d" % (2**33 + 5), b"%d" % (2**63), b"%d" % (2**64 - 1), b"%d" % (2**64),
             b"%d" % (2**64 + 5), b"%d" % (2**65 + 5), b"%d" % (2**128 + 5),
             b"12345678901234567890", b"99999999999999999999", b"1" + b"0" * 30, b"9" * 5_000,
             b"00", b"01", b"07", b"000", b"00000000000", b"0000000001", b"04294967295",
             b"", b" ", b" 1", b"1 ", b"1 1", b"\t1", b"1\r", b"1\0", b"\0", b"\x0b1", b"+1", b"-1",
             b"-0", b"1.0", b"1e3", b"0x1", b"1_0", b"1'000", b'"1"', b"x", b"E1", b"R1",
             b"/", b":", b"1/", b"1:", b"\xb2", b"\xb11", b"\xff", b"\xd9\xa1", b"\xef\xbc\x91")


def of_values():
    """Values and what is none, at each place of the first and the last of three lines."""
    for (G, C), value in product(((1, 1), (2, 3)), VALUES + NO_VALUES):
        width = G + C
        for line, place in product((0, 2), range(width)):
            values = [b"7"] * (3 * width)
            values[line * width + place] = value
            text = names_line(G, C) + b"".join(
                b",".join(values[at:at + width]) + b"\n" for at in range(0, 3 * width, width))
            for room in (3 * width - 1, 3 * width, 3 * width + 2):
                number = 15 if value in NO_VALUES else 16 if room < 3 * width else ACCEPTED
                yield Case(f"value {value[:30]!r} on line {line + 1} of {G} x {C}, "
                           f"room for {room}", G, C, text, room, number)


# ---- Fixed cases: every text near a small one ----

def of_every_byte():
    """Every byte in place of each byte of a small table, and before it; each byte left out; the
    table cut off at each place."""
    text = b"E1,R1\n10,7\n0,4294967295\n"
    places = range(len(text))
    for at in places:
        yield Case(f"byte {at} left out", 1, 1, text[:at] + text[at + 1:], 4)
        yield Case(f"cut off at byte {at}", 1, 1, text[:at], 4)
    for at, byte in product(places, range(256)):
        one = bytes((byte,))
        yield Case(f"byte {byte} at {at}", 1, 1, text[:at] + one + text[at + 1:], 4)
        yield Case(f"byte {byte} before {at}", 1, 1, text[:at] + one + text[at:], 4)


def of_short_texts(longest=7):
    """Every text of a few bytes after the names line."""
    for length in range(longest + 1):
        for later in product(b"07,\n", repeat=length):
            yield Case(f"{bytes(later)!r} after the names", 1, 1, b"E1,R1\n" + bytes(later), 2)


# ---- Fixed cases: long tables, and the paper's ----

def of_long_tables():
    """Past the limits of program `wheel`, which are none of the reader's, and past 16 bits."""
    for what, G, C, text, needed in (
            ("more values than `wheel` has space for", 1, 2,
             table_of(1, 2, VALUE_SPACE // 3 + 1), VALUE_SPACE + 3),
            ("past 64 KiB", 1, 2, well_formed(NAMES_OF_A, INPUT_LIMIT + 1), None),
            ("65,537 lines", 1, 1, b"E1,R1\n" + b"1,2\n" * 65_537, 2 * 65_537),
            ("2,731 lines of 8 x 16", 8, 16, table_of(8, 16, 2_731), 24 * 2_731)):
        if needed is None:
            needed = text[len(NAMES_OF_A):].count(b"\n") * (G + C)
        for room in (needed - 1, needed, needed + 3):
            number = 16 if room < needed else ACCEPTED
            yield Case(f"{what}, room for {room}", G, C, text, room, number)
        yield Case(f"{what}, malformed at the end", G, C, text + b"\n", needed, 15)
        yield Case(f"{what}, malformed at the end, no room", G, C, text[:-1], 0, 15)


def of_the_paper():
    for what, text, number in READER_EDGES:
        yield Case(what, 1, 2, text, VALUE_SPACE, number)
    yield Case("E1,R2 for G = C = 1", 1, 1, b"E1,R2\n", 2, 14)
    yield Case("07,5", 1, 1, b"E1,R1\n07,5\n", 2, 15)
    yield Case("2 lines, space for 1", 1, 1, b"E1,R1\n1,2\n3,4\n", 2, 16)
    yield Case("G = 9", 9, 1, table_of(9, 1, 1), 10, 2)
    yield Case("the paper's table", 1, 2, b"E1,R1,R2\n70001,20000,60000\n30000,5000,0\n", 6,
               ACCEPTED)
    yield Case("all names written out", 8, 16,
               b"E1,E2,E3,E4,E5,E6,E7,E8,R1,R2,R3,R4,R5,R6,R7,R8,R9,R10,R11,R12,R13,R14,R15,R16\n"
               b"1,2,3,4,5,6,7,8,9,10,11,12,13,14,15,16,17,18,19,20,21,22,23,24\n", 24, ACCEPTED)


def fixed_cases():
    return chain(of_the_paper(), of_all_sizes(), of_other_sizes(), of_all_mixtures(), of_values(),
                 of_every_byte(), of_short_texts(), of_long_tables())


# ---- Random and damaged tables ----

def random_size(rng, most):
    """In range nearly always, the two ends more often."""
    kind = rng.random()
    if kind < 0.02:
        return rng.choice((0, most + 1, rng.choice(FAR_SIZES), rng.getrandbits(32)))
    return 1 if kind < 0.2 else most if kind < 0.3 else rng.randint(1, most)


def random_value(rng):
    kind = rng.random()
    if kind < 0.1:
        return rng.choice(VALUES)
    return b"%d" % min(HIGHEST_VALUE, int(2 ** rng.uniform(0, 32.1)) - 1)


def random_lines(rng, width, line_count):
    return b"".join(b",".join(random_value(rng) for _ in range(width)) + b"\n"
                    for _ in range(line_count))


def flipped(rng, text):
    at = rng.randrange(len(text))
    return text[:at] + bytes((text[at] ^ 1 << rng.randrange(8),)) + text[at + 1:]


def random_byte(rng):
    return bytes((rng.choice(b"0123456789,,\n\n\r \0+-ER\xb1\xff") if rng.random() < 0.8
                  else rng.randrange(256),))


def inserted(rng, text):
    at = rng.randrange(len(text) + 1)
    return text[:at] + random_byte(rng) + text[at:]


def replaced(rng, text):
    at = rng.randrange(len(text))
    return text[:at] + random_byte(rng) + text[at + 1:]


def left_out(rng, text):
    at = rng.randrange(len(text))
    return text[:at] + text[at + rng.choice((1, 1, 2, 5)):]


def cut_off(rng, text):
    return text[:rng.randrange(len(text) + 1)]


def doubled(rng, text):
    """Any stretch twice."""
    at = rng.randrange(len(text))
    end = rng.randint(at, min(len(text), at + 40))
    return text[:end] + text[at:]


def line_doubled(rng, text):
    lines = text.splitlines(keepends=True)
    at = rng.randrange(len(lines))
    return b"".join(lines[:at + 1] + lines[at:])


def line_left_out(rng, text):
    lines = text.splitlines(keepends=True)
    at = rng.randrange(len(lines))
    return b"".join(lines[:at] + lines[at + 1:])


def lines_swapped(rng, text):
    lines = text.splitlines(keepends=True)
    one, other = rng.randrange(len(lines)), rng.randrange(len(lines))
    lines[one], lines[other] = lines[other], lines[one]
    return b"".join(lines)


def with_cr_lf(rng, text):
    if rng.random() < 0.5:
        return text.replace(b"\n", b"\r\n")
    before, _, after = text.rpartition(b"\n")
    return before + b"\r\n" + after


def without_last_line_feed(rng, text):
    return text.removesuffix(b"\n")


def line_feed_more(rng, text):
    return text + b"\n"


def field_changed(rng, text, change):
    """One name or value changed."""
    lines = text.split(b"\n")
    line = rng.randrange(len(lines))
    fields = lines[line].split(b",")
    place = rng.randrange(len(fields))
    fields[place] = change(fields[place])
    lines[line] = b",".join(fields)
    return b"\n".join(lines)


def leading_zero(rng, text):
    return field_changed(rng, text, lambda field: b"0" * rng.choice((1, 1, 2, 20)) + field)


def other_value(rng, text):
    """Often no value: see NO_VALUES."""
    return field_changed(rng, text, lambda field: rng.choice(VALUES + NO_VALUES))


def byte_over_127(rng, text):
    at = rng.randrange(len(text))
    return text[:at] + bytes((text[at] | 128,)) + text[at + 1:]


def fields_swapped(rng, text, lines_touched):
    lines = text.split(b"\n")
    line = rng.randrange(lines_touched(lines))
    fields = lines[line].split(b",")
    one, other = rng.randrange(len(fields)), rng.randrange(len(fields))
    fields[one], fields[other] = fields[other], fields[one]
    lines[line] = b",".join(fields)
    return b"\n".join(lines)


def names_swapped(rng, text):
    return fields_swapped(rng, text, lambda lines: 1)


def values_swapped(rng, text):
    """A table with two values of a line swapped is a right one."""
    return fields_swapped(rng, text, len)


def names_twice(rng, text):
    return text[:text.find(b"\n") + 1] + text


def names_of_other_sizes(rng, text):
    names = names_line(rng.randint(1, MOST_GENERATORS), rng.randint(1, MOST_CONSUMERS))
    return names + text[text.find(b"\n") + 1:]


def emptied(rng, text):
    return b""


# Each is given a text that is not empty.
DAMAGES = (flipped, inserted, replaced, left_out, cut_off, doubled, line_doubled, line_left_out,
           lines_swapped, with_cr_lf, without_last_line_feed, line_feed_more, leading_zero,
           other_value, byte_over_127, names_swapped, values_swapped, names_twice,
           names_of_other_sizes, emptied)


def random_case(seed, index):
    """Each can be made again by itself."""
    rng = random.Random(f"{seed} reader {index}")
    G, C = random_size(rng, MOST_GENERATORS), random_size(rng, MOST_CONSUMERS)
    shown = min(G, MOST_GENERATORS + 1), min(C, MOST_CONSUMERS + 1)
    line_count = rng.choice((0, 1, 1, 2, 3, rng.randint(4, 12), rng.randint(0, 60)))
    needed = line_count * sum(shown)
    text, done = names_line(*shown) + random_lines(rng, sum(shown), line_count), []
    for _ in range(rng.choice((0, 0, 1, 1, 2, 3))):
        if text:
            damage = rng.choice(DAMAGES)
            text = damage(rng, text)
            done.append(damage.__name__)
    room = rng.choice((needed, needed, needed, max(needed - 1, 0), needed + 1, 0,
                       max(needed - sum(shown), 0), needed + sum(shown),
                       rng.randint(0, 2 * needed + 9)))
    name = f"random text {index} of seed {seed}" + "".join(f", {what}" for what in done)
    return Case(name.replace("_", " "), G, C, text, room)
