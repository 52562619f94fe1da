#!/usr/bin/env python3
"""Deliberate faults in the compiled engine: a test program must find each.

    faults.py [NAME...]             (all faults, or those whose names hold one of the words)
    faults.py --table [NAME...]     (prints the table of docs/EVIDENCE.md, and on standard error
                                     what is printed without it)

Each fault is one small change in a copy of the crates' source. The copy is compiled without its
proofs, which refuse it (unproved.py), and the test program runs on it as in the gate: compare.py on
the C calls, handed_back.py on the library's own call for a day, reader.py on the reader of the
readings table. Faults are the edits of crates/*/must-fail that change code of one of the three, and
those listed below. For each fault it is printed where the first difference showed. Ends with 1 if
the unchanged copy differs, if a fault survives, if a fault that cannot show does show, or if the
source does not hold what one changes.
"""

import argparse
import re
import shutil
import subprocess
import sys
import tempfile
import time
from collections import Counter
from functools import cache, partial
from pathlib import Path
from typing import NamedTuple, Optional

from unproved import LIBRARY, REPOSITORY, NotCompiled, compile_unproved, reached_by

CRATES = REPOSITORY / "crates"
TESTS = REPOSITORY / "tests"


class Tested(NamedTuple):
    """What is compiled of the changed copy, and the test program that must find the change."""
    what: str
    program: Path
    library: str
    root: Optional[Path]  # the file with the C calls, where the library has none

    def crates(self):
        return reached_by(self.library) + [self.library]


CALLS = Tested("the C calls", TESTS / "calls" / "compare.py", LIBRARY, None)
HANDED_BACK = Tested("the day handed back", TESTS / "calls" / "handed_back.py", "check_meter",
                     TESTS / "calls" / "handed_back.rt.in")
READER = Tested("the reader", TESTS / "texts" / "reader.py", "table",
                TESTS / "texts" / "reader.rt.in")
ALL_TESTED = (CALLS, HANDED_BACK, READER)

# The reader's test of G and C.
IN_RANGE = "(1..=8).contains(&g) && (1..=16).contains(&c)"


def digit_test(test):
    """The reader asks `test` of a byte wherever it asks whether it is a digit."""
    return ("first_byte b }\n{\n    if b.is_ascii_digit() {",
            f"first_byte b }}\n{{\n    if {test} {{",
            "later_byte n b sep }\n{\n    if b.is_ascii_digit() {",
            f"later_byte n b sep }}\n{{\n    if {test} {{",
            "!b.is_ascii_digit())\n}", f"!{test})\n}}",
            "|b| !b.is_ascii_digit()", f"|&&b| !{test}",
            "if !b.is_ascii_digit() {", f"if !{test} {{")


# By part and name: old text and new text, at times several of both. An old text stands once in all
# the source under test, so that it also says which file is changed. `*::` in it stands for the path
# before a name, whatever the crate or module is called; in the new text for the path found there,
# the first for the first and so on.
FAULTS = {
    "opening": {
        "gone equal to the cycle allowed": ("&& gone < cycle", "&& gone <= cycle"),
        "kind 4 allowed": ("n, 0, *::LAST_KIND", "n, 0, 4"),
        "links over 1 allowed":
            ("any_outside(asked.pair_list, 0, count, 0, 1)",
             "any_outside(asked.pair_list, 0, count, 0, 2)"),
        "rate of 5,001 allowed": ("from(rate) <= *::MOST_RATE", "from(rate) <= 5_001"),
        "losses read from the links": ("spread(list, n * m, n, m)", "spread(list, 0, n, m)"),
        "longer pair list allowed":
            ("pair_list.len() == 2 * (n * m)", "2 * (n * m) <= pair_list.len()"),
        "16 consumers refused": ("(1..=16).contains(&m)", "(1..=15).contains(&m)"),
    },
    "schedule": {
        "refusal 8 before 7":
            ("    if off_link(link, n, m, kws) {\n        return Err(Refusal::NotLinked);\n    }\n",
             "",
             "        return Err(Refusal::OverCapacity);\n    }\n",
             "        return Err(Refusal::OverCapacity);\n    }\n"
             "    if off_link(link, n, m, kws) {\n        return Err(Refusal::NotLinked);\n    }\n"),
        "rank 0 allowed": ("any_outside(ranks, 0, count, 1,", "any_outside(ranks, 0, count, 0,"),
        "kW on unlinked pairs allowed": ("(0 < kws[from + c])", "(400_000 < kws[from + c])"),
        "kW stored as ranks":
            ("put_list(s, *::RANK, ranks, n, m)", "put_list(s, *::RANK, kws, n, m)"),
    },
    "order": {
        "a rank's step below the highest kW":
            ("RANK_STEP: u64 = 524_288", "RANK_STEP: u64 = 262_144"),
        "kW of the next generator":
            ("let kw = *::number_at(s, *::KW + g * 16 + c)",
             "let kw = *::number_at(s, *::KW + (g + 1) % 8 * 16 + c)"),
        "installed capacity in the place of the kW":
            ("let kw = *::number_at(s, *::KW + g * 16 + c)",
             "let kw = *::number_at(s, *::AGREED + 3 * g + 1)"),
    },
    "block": {
        "reading limit one low": ("*::MOST_READING < ", "199_999_999 < "),
        "reading limit one high": ("*::MOST_READING < ", "200_000_001 < "),
        "refusal 12 before 11":
            ("    if *::MOST_MONTH_BLOCKS <= counts.monthblocks {\n"
             "        return Err(Refusal::MonthFull);\n    }\n",
             "",
             "        return Err(Refusal::UnitFull);\n    }\n",
             "        return Err(Refusal::UnitFull);\n    }\n"
             "    if record::MOST_MONTH_BLOCKS <= counts.monthblocks {\n"
             "        return Err(Refusal::MonthFull);\n    }\n"),
        "month blocks not raised":
            ("put_at(s, *::MONTH_BLOCKS, counts.monthblocks + 1);",
             "put_at(s, *::MONTH_BLOCKS, counts.monthblocks);"),
        "metered by remainder":
            ("raise(s, *::METERED, m, |c| u64::from(exit[c]));",
             "raise(s, *::METERED, m, |c| out[4 * size + n + c]);"),
        "shortfall listed as underdrawn":
            ("*::put_column(shortfall, n, m, c, &short);",
             "for g in 0..n {\n        shortfall[g * m + c] = underdrawn[g * m + c];\n    }"),
        "all counted where nothing is scheduled":
            ("    if scheduled.0 == 0 {\n        return 0;",
             "    if scheduled.0 == 0 {\n        return entry;"),
        "scheduled at exit without loss":
            ("scheduled.0 - *::loss(scheduled, rate).0 - delivered", "scheduled.0 - delivered"),
        "loss with halves to the even number":
            ("(rest * rate + 5_000) / 10_000",
             "(rest * rate + 4_999 + (whole * rate + rest * rate / 10_000) % 2) / 10_000"),
        "product of the loss before the split":
            ("whole * rate + (rest * rate + 5_000) / 10_000",
             "((x.0 as u64 * rate as u64 % 4_294_967_296 + 5_000) / 10_000) as u32"),
        "ten-thousands of the loss rounded":
            ("whole: x / 10_000,", "whole: (x + 5_000) / 10_000,"),
        "remainder of the loss forgotten": ("rest: x % 10_000,", "rest: 0,"),
        "remainder of the loss by the thousand": ("rest: x % 10_000,", "rest: x % 1_000,"),
        "quarter hour of 256": ("BlockWh(250 * self.0)", "BlockWh(256 * self.0)"),
        "running shares rounded up":
            ("let share = k * sum / all;", "let share = (k * sum + all - 1) / all;"),
        "shortfall is what is not used of it":
            ("*::put_column(shortfall, n, m, c, &short);", ""),
    },
    "closing": {
        "open not reset": ("*::clear(s, *::OUTSTANDING, m);", ""),
        "pending not reset": ("*::clear(s, *::PENDING, n);", ""),
        "lapsed and bank swapped in the output":
            ("put_list(out, n, lapsed, n);", "put_list(out, n, balance, n);",
             "put_list(out, bank_at, balance, n);", "put_list(out, bank_at, lapsed, n);"),
        "open listed after the drawing":
            ("put_list(out, open_at, outstanding, m);",
             "put_list(out, open_at, supplied, m);"),
        "longer output allowed": ("size != n * m + 3 * n + 2 * m", "size < n * m + 3 * n + 2 * m"),
        "charge not taken from the bank":
            (" balance[s] += pending[s] - due.0;",
             " balance[s] += pending[s] - lists::only_if(N != 8, due.0);"),
        "all consumers draw what the first lacks":
            ("suppliers.keys(), outstanding[c])", "suppliers.keys(), outstanding[0])"),
        "months gone not reset":
            ("{ 0 } else { counts.gone + 1 }", "{ counts.gone } else { counts.gone + 1 }"),
    },
    "sound": {
        "month blocks over unit blocks allowed":
            ("(n.monthblocks <= n.unitblocks)", "(n.monthblocks <= n.monthblocks)",
             "(sum <= n.unitblocks)",
             "((sum <= n.unitblocks) | (n.unitblocks < n.monthblocks))"),
        "gone equal to the cycle allowed": ("(n.gone < t.cycle)", "(n.gone <= t.cycle)"),
        "full month refused":
            ("(n.monthblocks <= *::MOST_MONTH_BLOCKS)",
             "(n.monthblocks < *::MOST_MONTH_BLOCKS)"),
        "full unit refused":
            ("MOST_UNIT_BLOCKS: u64 = 10_000_000", "MOST_UNIT_BLOCKS: u64 = 9_999_999"),
        "totals by age one low": ("(x.injected <= most)", "(x.injected <= most - blocks)"),
        "totals by age one high": ("(x.injected <= most)", "(x.injected <= most + 1)"),
        "kW on an unlinked pair allowed":
            ("((link == 1) | (kw == 0))", "((link <= 1) | (kw == 0))"),
        "rank 256 allowed": ("MOST_RANK: u64 = 255", "MOST_RANK: u64 = 256"),
        "supplied counted for open": ("+ capped(x.outstanding)", "+ capped(x.supplied)"),
        "totals beyond G allowed":
            ("generator_sound(blocks, g < n, ", "generator_sound(blocks, g < 8, "),
        "pairs beyond C allowed":
            ("beyond_sound(s, start + m, 16 - m)", "beyond_sound(s, start + m, 0)"),
        "pairs beyond G allowed":
            ("beyond_sound(s, n * 16, 128 - n * 16)", "beyond_sound(s, n * 16, 0)"),
    },
    "hours: slots, switch": {
        "slot from 0": ("month % 96 + 1", "month % 96"),
        "class of the next block": ("month % 96 + 1", "(month + 1) % 96 + 1"),
        "slots not round": ("month % 96 + 1", "month + 1"),
        "slot over the unit's blocks":
            ("raise_hours(s, counts.monthblocks,", "raise_hours(s, counts.unitblocks,"),
        "slot 37 normal": ("37..=68", "38..=68"),
        "slot 69 off-peak": ("37..=68", "37..=69"),
        "slot 20 peak": ("21..=36", "20..=36"),
        "slot 77 normal": ("77..=92", "78..=92"),
        "slot 92 normal": ("77..=92", "77..=91"),
    },
    "hours: opening": {
        "switch month of 1,201 allowed":
            ("from(asked.switch) > *::MOST_SWITCH", "from(asked.switch) > 1_201"),
        "refusal 19 before 6":
            ("    if !terms_fit(asked.rate, asked.cycle, asked.gone) {\n"
             "        return Err(Refusal::WrongTerms);\n    }\n",
             "",
             "        return Err(Refusal::WrongSwitchMonth);\n    }\n",
             "        return Err(Refusal::WrongSwitchMonth);\n    }\n"
             "    if !terms_fit(asked.rate, asked.cycle, asked.gone) {\n"
             "        return Err(Refusal::WrongTerms);\n    }\n"),
        "months gone kept at opening with switch month 1":
            ("if switch == 1 { 0 } else { gone }", "gone"),
        "closings counted from 1":
            ("Switch { month, closings: 0 }", "Switch { month, closings: 1 }"),
        "record of 5,752 bytes opened":
            ("if record.len() == RECORD_BYTES {\n        let mut agreed",
             "if (record.len() == RECORD_BYTES) | (record.len() == 5_752) {\n"
             "        let mut agreed"),
    },
    "hours: block": {
        "class pending not raised":
            ("*::raise(s, pending, n, |g| {\n"
             "        underdrawn_by_kind(kinds[g], true, out, 2 * size, m, g)\n    });", ""),
        "class open not raised": ("*::raise(s, remaining, m, |c| out[4 * size + n + c]);", ""),
        "classes raised before the switch":
            ("if *::apply(switch) {\n        let class",
             "if switch.month <= 1_200 {\n        let class"),
    },
    "hours: closing": {
        "charge not taken from the class banks":
            (" balance[s] += pending[s] - due.0;",
             " balance[s] += pending[s] - lists::only_if(N != 24, due.0);"),
        "charge on one class only":
            ("portion_up(Wh(pending[s]), rate)",
             "portion_up(Wh(lists::only_if((N == 8) | (s % 3 == 2), pending[s])), rate)"),
        "charges of the classes not all added":
            ("                charge[s] = due.0;",
             "                charge[s] = lists::only_if((N == 8) | (s % 3 != 1), due.0);"),
        "supplied of peak only": ("lacking[0] + lacking[1] + lacking[2]", "lacking[2]"),
        # No calls alone bring energy into a class bank: a record that is lent with some shows it.
        "class banks read as 0":
            ("let held = of_classes(s, 0, count);", "let held = [0u64; 24];"),
        "all pending taken as peak":
            ("let pending = of_classes(s, *::CLASS_PENDING, count);",
             "let sums: [u64; 8] = record_bytes::loading::load_list(s, *::PENDING);\n"
             "    let mut pending = [0u64; 24];\n    let mut g: usize = 0;\n"
             "    while g < 8 {\n        pending[g * 3 + 2] = sums[g];\n        g += 1;\n    }"),
        "all open taken as peak":
            ("[offpeak, normal, peak]", "[0, 0, offpeak + normal + peak]"),
        "all consumers draw what the first lacks of a class":
            ("suppliers.keys(), wanted_at(s, c));", "suppliers.keys(), wanted_at(s, 0));"),
        "peak given after all of the class":
            ("left[k] = serve(keys, k, &mut bank.balance, left[k]);",
             "for i in (0..keys.len()).rev() {\n"
             "            let s = keys[i] % 8 * 3 + k;\n"
             "            left[k] = give(&mut bank.balance, s, left[k]);\n        }\n"
             "        left[k] = serve(keys, k, &mut bank.balance, left[k]);"),
        "off-peak given to normal":
            ("let left = give(has, g * 3 + k, want);",
             "let mut left = give(has, g * 3 + k, want);\n"
             "    if k == 1 {\n        left = give(has, g * 3, left);\n    }"),
        "peak not given to the others": ("give(has, g * 3 + 2, left)", "left"),
        "class by class over the consumers":
            ("    for c in 0..m {\n        let suppliers = *::suppliers_at(s, n, c);\n"
             "        let turn = *::draw(",
             "    for t in 0..3 * m {\n        let c = t % m;\n        let k = t / m;\n"
             "        let suppliers = *::suppliers_at(s, n, c);\n"
             "        let open = wanted_at(s, c);\n        let mut want = [0u64; 3];\n"
             "        want[k] = open[k];\n        let turn = *::draw(",
             "suppliers.keys(), wanted_at(s, c));", "suppliers.keys(), want);",
             "        let column = by_generator(&bank.balance, &turn.bank.balance, n);",
             "        let mut column = by_generator(&bank.balance, &turn.bank.balance, n);\n"
             "        let mut g: usize = 0;\n        while (k > 0) & (g < n) {\n"
             "            column[g] += drawn[g * m + c];\n            g += 1;\n        }",
             "supplied[c] = lacking[0] + lacking[1] + lacking[2];",
             "supplied[c] += lacking[k];"),
        "classes settled peak first":
            ("left[k] = serve(keys, k, &mut bank.balance, left[k]);",
             "left[2 - k] = serve(keys, 2 - k, &mut bank.balance, left[2 - k]);"),
        "no lapse before the switch": ("| *::before_switch(switch)", ""),
        "no lapse by hours":
            ("let lapses = by_generator(lapsed, &none, n);\n    let stays = [0u64; 8];",
             "let lapses = [0u64; 8];\n    let stays = by_generator(lapsed, &none, n);"),
        "months gone kept before the switch":
            ("    if due { 0 }",
             "    if hours::before_switch(switch) {\n"
             "        return counts.gone;\n    }\n    if due { 0 }"),
        "months gone counted by hours":
            ("let due = *::lapse_due(terms, counts, switch);\n    if",
             "let due = *::lapse_due(terms, counts, switch)\n"
             "        & !hours::apply(switch);\n    if"),
        "closings not counted": ("switch.closings + 1", "switch.closings"),
        "class places not cleared": ("    clear_classes(s, switch, n, m);", ""),
        "class bank not cleared": ("*::clear(s, start, n);", ""),
        "record of 5,752 bytes closed":
            ("if record.len() == RECORD_BYTES {\n        let mut out",
             "if record.len() == 5_752 {\n        let mut whole = [0u8; RECORD_BYTES];\n"
             "        let mut i: usize = 0;\n        while i < 5_752 {\n"
             "            whole[i] = record[i];\n            i += 1;\n        }\n"
             "        let mut out = [0u64; 185];\n"
             "        let n = wheeling_lists::room(output, 185);\n"
             "        let outcome = closing::close_on(&mut whole, &mut out[..n]);\n"
             "        return wheeling_lists::give(refusal::shown(outcome), &out, n, output);\n    }\n"
             "    if record.len() == RECORD_BYTES {\n        let mut out"),
    },
    "hours: sound, record": {
        "switch month of 1,201 sound": ("t.month <= *::MOST_SWITCH", "t.month <= 1_201"),
        "closings and month blocks one over": ("sum <= n.unitblocks", "sum <= n.unitblocks + 1"),
        "months gone by hours not tested": ("(!hours | (n.gone == 0))", "(!hours | (n.gone < 12))"),
        "class places before the switch not tested":
            ("{\n        classes_empty(s)\n    }", "{\n        true\n    }"),
        "class sums that wrap sound": ("(offpeak <= two) & (two <= three) & ", ""),
        "switch month and closings swapped":
            ("SWITCH_MONTH: usize = 719;", "SWITCH_MONTH: usize = 720;",
             "CLOSINGS: usize = 720;", "CLOSINGS: usize = 719;"),
        "normal and peak swapped":
            (" NORMAL: usize = 753;", " NORMAL: usize = 785;",
             " PEAK: usize = 785;", " PEAK: usize = 753;"),
    },
    "bytes": {
        "two bytes of an output swapped":
            ("copy_from_slice(&w.to_le_bytes());",
             "copy_from_slice(&w.to_le_bytes());\n    s.swap(start, start + 1);"),
        "seventh byte not written":
            ("copy_from_slice(&w.to_le_bytes());",
             "copy_from_slice(&w.to_le_bytes());\n    s[start + 6] = s[start + 7];"),
        "eighth byte not read": ("s[5], s[6], s[7]])", "s[5], s[6], 0])"),
        "link and loss swapped when stored":
            ("store_run(&t.link, s, *::LINK);", "store_run(&t.link, s, *::LOSS);",
             "store_run(&t.loss, s, *::LOSS);", "store_run(&t.loss, s, *::LINK);"),
        "months gone written one place late": ("GONE: usize = 4;", "GONE: usize = 5;"),
        "contracted loaded as installed":
            ("installed: *::column(rows, 1),", "installed: *::column(rows, 2),"),
        "bank loaded from pending":
            ("let held = *::load_list(s, *::BANK);", "let held = *::load_list(s, *::PENDING);"),
        "consumers stored one place early":
            ("store_run(&t.supplied, s, *::SUPPLIED);",
             "store_run(&t.supplied, s, *::SUPPLIED - 1);"),
    },
    "reader: sizes, names": {
        "G = 9 allowed": (IN_RANGE, "(1..=9).contains(&g) && (1..=16).contains(&c)"),
        "G = 8 refused": (IN_RANGE, "(1..=7).contains(&g) && (1..=16).contains(&c)"),
        "C = 0 allowed": (IN_RANGE, "(1..=8).contains(&g) && (0..=16).contains(&c)"),
        "C = 17 allowed": (IN_RANGE, "(1..=8).contains(&g) && (1..=17).contains(&c)"),
        "lowest byte of G looked at":
            (IN_RANGE, "(1..=8).contains(&(g % 256)) && (1..=16).contains(&c)",
             "names_line(g, c)", "names_line(g % 256, c)",
             "read_lines((g + c) as usize,", "read_lines((g % 256 + c) as usize,"),
        "last byte of the names line not compared":
            ("    text.strip_prefix(names_line(g, c).as_slice())",
             "    let line = names_line(g, c);\n    let n = line.len();\n"
             "    text.strip_prefix(&line.as_slice()[..n - 1]).and_then(|rest| rest.get(1..))"),
        "names line compared beyond the text":
            ("    text.strip_prefix(names_line(g, c).as_slice())",
             "    let line = names_line(g, c);\n    let n = line.len();\n"
             "    let mut same = n <= text.len() + 1;\n    for i in 0..n {\n"
             "        same = same && text[i] == line.as_slice()[i];\n    }\n"
             "    same.then_some(&text[n..])"),
        "numbers of consumers go on from the generators'": ("u64::from(j - g + 1)", "u64::from(j + 1)"),
        "name of the tenth consumer in one digit": ("if 10 <= n {", "if 10 < n {"),
    },
    "reader: values, lines": {
        "highest value refused": ("m <= 4_294_967_295 {", "m < 4_294_967_295 {"),
        "values by 2^32": ("if m <= 4_294_967_295 {", "if n <= 4_294_967_295 {"),
        "values up to 2^33": ("m <= 4_294_967_295 {", "m <= 8_589_934_591 {"),
        "byte after 9 taken for a digit": digit_test("(b'0'..=b':').contains(&b)"),
        "byte before 0 taken for a digit": digit_test("(b'/'..=b'9').contains(&b)"),
        "empty value read as 0":
            ("fn first_byte(b: u8) ", "fn first_byte(b: u8, sep: u8) ",
             "first_byte b }\n{",
             "first_byte b }\n{\n    if b == sep {\n        return Progress::Start;\n    }",
             "=> first_byte(b),", "=> first_byte(b, sep),"),
        "comma and line feed alike": ("if b == sep {", "if (b == b',') | (b == b'\\n') {"),
        "semicolon for a comma allowed":
            ("if b == sep {", "if (b == sep) | ((b == b';') & (sep == b',')) {"),
        "carriage return passed over":
            ("    if b == sep {",
             "    if b == 13 {\n        return Progress::Digits(n);\n    }\n    if b == sep {",
             "values_ended b }\n{",
             "values_ended b }\n{\n    if b == 13 {\n        return 0;\n    }",
             "|b| !b.is_ascii_digit()", "|b| !b.is_ascii_digit() && **b != 13"),
        "no last line feed allowed":
            ("    matches!(at, Progress::Start) && k % w == 0",
             "    match at {\n        Progress::Start => k % w == 0,\n"
             "        Progress::Digits(_) => k % w == w - 1,\n"
             "        Progress::Malformed => false,\n    }"),
        "last line with too few values allowed": ("k % w == 0", "k % w <= w"),
        "lines past 64 KiB not tested":
            ("    for &b in s {\n        let sep",
             "    for &b in &s[..s.len().min(65_536)] {\n        let sep"),
        "line count in 16 bits": ("Ok(k / w)", "Ok(k / w % 65_536)"),
    },
    "reader: output, order": {
        "room one low": ("out.len() < k", "out.len() < k + 1"),
        "room one high": ("out.len() < k", "out.len() + 1 < k"),
        "last place of a full output left":
            ("if !b.is_ascii_digit() {", "if !b.is_ascii_digit() && k + 1 < out.len() {"),
        "rest of the output cleared":
            ("    Ok(k / w)",
             "    for rest in k..out.len() {\n        out[rest] = 0;\n    }\n    Ok(k / w)"),
        "value written on refusal 15":
            ("        return Err(Refusal::WrongLine);",
             "        if 0 < out.len() {\n            out[0] = 0;\n        }\n"
             "        return Err(Refusal::WrongLine);"),
        "value written on refusal 16":
            ("        return Err(Refusal::NoRoom);",
             "        if 0 < out.len() {\n            out[out.len() - 1] = 0;\n        }\n"
             "        return Err(Refusal::NoRoom);"),
        "refusal 16 before 15":
            ("    if !well_formed(w, s) {",
             "    if out.len() < count_values(s) {\n        return Err(Refusal::NoRoom);\n    }\n"
             "    if !well_formed(w, s) {"),
        "refusal 15 before 14":
            ("        return Err(Refusal::WrongNames);",
             "        if 0 < text.len() {\n            if text[text.len() - 1] != b'\\n' {\n"
             "                return Err(Refusal::WrongLine);\n            }\n        }\n"
             "        return Err(Refusal::WrongNames);"),
        "refusal 14 before 2":
            ("    if !in_range(g, c) {",
             "    if text.len() == 0 {\n        return Err(Refusal::WrongNames);\n    }\n"
             "    if !in_range(g, c) {"),
    },
}

# What a must-fail edit replaces where no C call can show it, and why.
HIDDEN = {
    "*::Answer { number, after }":
        "the edit is in the call on a record by value; the C call works on the record's bytes",
    "if !sizes_fit(n, m, list, asked.pair_list) {":
        "the counts of a C call have 32 bits",
    "terms_from(0, 0, 0, 0)":
        "a refused opening returns this record by value; the C call leaves the bytes",
    "peak: load_stocks(s, *::PEAK),":
        "only a call on a record by value loads whole classes",
    "at + *::CLASS_PENDING":
        "only a call on a record by value loads whole classes",
    "if *::from(k) > *::MOST_READING {":
        "a block refuses such a reading before it is shared",
    "return balance <= Bank::<8>::MOST_ENERGY - pending;":
        "a closing credits the figures of a sound record, which are within the bank's limit",
}
# Must-fail edits that no C call can show, and why: by name, since others of the same place can show.
UNSHOWN = {
    "bank/ninth_supplier_gives": "a record has at most eight generators",
    "class_bank/ninth_supplier_gives": "a record has at most eight generators",
    "class_bank/only_eight_serve": "a record has at most eight generators",
    "order/only_eight_give": "a record has at most eight generators",
    "bank/rate_of_5001_taken": "the rate of a sound record is within the bank's limit",
    "bank/limit_one_watt_hour_high":
        "a closing credits the figures of a sound record, which are within the bank's limit",
    **{f"bank/{edit}_in_place": "no call credits a bank in place, or has it lapse there"
       for edit in ("charge_on_the_sum_of_classes", "charge_to_the_nearest",
                    "class_charge_to_the_nearest", "class_old_balance_charged_again",
                    "old_balance_charged_again", "lapse_forgotten")},
    "class_bank/only_falling_keys_serve": "the keys of an order fall",
    "order/only_falling_keys_give": "the keys of an order fall",
    "order/places_behind_moved": "behind the turns of an order there are only zeros",
}

# The line of compare.py, and that of the other two, which know one call only.
FOUND = re.compile(r"^DIFFERENCE in (.*?)(?:, call \d+ of it \((\w+)\))?, (\d+) calls after "
                   "the start", re.MULTILINE)
# How the names of what is not a fixed case begin.
STAGES = {"lists": "random list", "months": "random month", "crossings": "random crossing",
          "changeovers": "random changeover", "days": "random day", "texts": "random text"}


class NotInSource(Exception):
    pass


class Edit(NamedTuple):
    file: Optional[str]  # below crates/; None where the old text says which
    old: str
    new: str


class Fault(NamedTuple):
    name: str
    part: str  # its row of the table
    what: str  # its name in that row
    edits: list

    def hidden(self):
        """Why it cannot show, None where it can."""
        of_its_place = (why for old, why in HIDDEN.items() for edit in self.edits
                        if edit.file and pattern_of(old).fullmatch(edit.old))
        return UNSHOWN.get(self.name) or next(of_its_place, None)


class Tried(NamedTuple):
    stage: str  # in which the first difference showed, or "none", or "failed"
    line: str  # to be printed
    calls: Optional[int] = None  # until the difference showed


# ---- The faults and the source ----

@cache
def crates_under_test():
    return sorted({crate for tested in ALL_TESTED for crate in tested.crates()})


@cache
def source():
    """{file below crates/: text} of all that is tested."""
    return {str(path.relative_to(CRATES)): path.read_text() for crate in crates_under_test()
            for path in sorted((CRATES / crate / "src").rglob("*.rt"))}


def pattern_of(old):
    return re.compile(r"((?:\w+::)*)".join(re.escape(text) for text in old.split("*::")))


def replacement(match, new):
    """The new text with the paths that the old one has in the source."""
    first, *texts = new.split("*::")
    paths = match.groups()[:len(texts)]
    return first + "".join(path + text for path, text in zip(paths, texts, strict=True))


def changed(edits):
    """{file: its text with the edits}. An old text must stand in one place of the source only."""
    now, files = dict(source()), set()
    for file, old, new in edits:
        places = [(where, match) for where in ([file] if file else now)
                  for match in pattern_of(old).finditer(now.get(where, ""))]
        if len(places) != 1:
            found = ", ".join(where for where, _ in places) or "nowhere"
            raise NotInSource(f"{old!r} must stand in the source once; it stands: {found}")
        where, match = places[0]
        files.add(where)
        now[where] = (now[where][:match.start()] + replacement(match, new)
                      + now[where][match.end():])
    return {file: now[file] for file in files}


def edits_of(path, crate):
    """The edits of a must-fail file."""
    file = old = None
    for line in path.read_text().splitlines():
        if line.startswith("file: "):
            file = crate + "/" + line[len("file: "):]
        elif line.startswith("old: "):
            old = line[len("old: "):]
        elif line.startswith("new:"):
            yield Edit(file, old, line[len("new:"):].removeprefix(" "))


def must_fail_faults():
    """The must-fail edits that change code under test."""
    for crate in crates_under_test():
        for path in sorted((CRATES / crate / "must-fail").glob("*.edit")):
            name, edits = path.stem, list(edits_of(path, crate))
            if all(edit.file.startswith(crate + "/src/") for edit in edits):
                yield Fault(f"{crate}/{name}", f"`{crate}`", name.replace("_", " "), edits)


def listed_faults():
    for part, faults in FAULTS.items():
        for what, texts in faults.items():
            pairs = zip(texts[0::2], texts[1::2], strict=True)
            yield Fault(f"{part.split(':')[0]}: {what}", part, what,
                        [Edit(None, old, new) for old, new in pairs])


def tested_in(files):
    crates = {file.split("/")[0] for file in files}
    # The C calls are compiled from this crate too, but do not call all of it.
    if crates == {HANDED_BACK.library}:
        return HANDED_BACK
    return CALLS if crates <= set(CALLS.crates()) else READER


# ---- The test programs on them ----

def compared(folder, tested, files):
    """What the test program says of a library compiled from the source with these files."""
    crates = folder / "crates"
    shutil.copytree(CRATES, crates, ignore=shutil.ignore_patterns("proofs", "specs", "must-fail"))
    for file, text in files.items():
        (crates / file).write_text(text)
    compile_unproved(folder / "calls.o", crates=crates, library=tested.library,
                     root=tested.root)
    library = folder / "calls.so"
    subprocess.run(["gcc", "-shared", "-o", library, folder / "calls.o"], check=True)
    done = subprocess.run([sys.executable, "-B", tested.program, library, "--unshrunk"],
                          capture_output=True, text=True)
    return done.returncode, done.stdout + done.stderr


def tried(tested, files):
    begun = time.monotonic()
    with tempfile.TemporaryDirectory() as folder:
        try:
            status, said = compared(Path(folder), tested, files)
        except NotCompiled as why:
            return Tried("failed", f"NOT TRIED {why}")
    found = FOUND.search(said)
    if status == 1 and found:
        where, call, calls = found.groups()
        stage = next((stage for stage, start in STAGES.items() if where.startswith(start)),
                     "fixed cases")
        return Tried(stage, f"{calls:>6} calls, " + (f"{call} in " if call else "")
                     + f"{where} ({time.monotonic() - begun:.0f} s)", int(calls))
    if status == 0:
        return Tried("none", "no difference")
    return Tried("failed", "NOT TRIED " + said.strip()[-500:])


# ---- What is printed ----

def table(results):
    """The table of docs/EVIDENCE.md. In brackets: calls until the difference showed."""
    rows = {}
    for fault, result, _ in results:
        if result.calls is not None:
            rows.setdefault(fault.part, []).append(f"{fault.what} ({result.calls:,})")
        elif not fault.hidden():
            rows.setdefault(fault.part, []).append(f"{fault.what} (NOT FOUND)")
    return ["| Part | Faults |", "|---|---|",
            *(f"| {part} | {', '.join(faults)} |" for part, faults in rows.items())]


def summary(results):
    stages = Counter(result.stage for result in results)
    return (f"{len(results)} faults: found in fixed cases {stages['fixed cases']}, "
            + ", ".join(f"in {stage} {stages[stage]}" for stage in STAGES)
            + f"; {stages['none']} that cannot show")


# ---- The program ----

def chosen(words):
    """The faults whose names hold one of the words, or all."""
    return [fault for fault in (*must_fail_faults(), *listed_faults())
            if not words or any(word in fault.name for word in words)]


def looked_up(faults):
    """Each with its files; and in words, those that the source does not hold."""
    found, missing = [], []
    for fault in faults:
        try:
            found.append((fault, changed(fault.edits)))
        except NotInSource as why:
            missing.append(f"{fault.name}: {why}")
    return found, missing


def try_unchanged(faults, say):
    """A copy without a fault that differs is wrong: no difference below would say anything."""
    for tested in ALL_TESTED:
        if any(tested_in(files) == tested for _, files in faults):
            result = tried(tested, {})
            say(f"{tested.what}, unchanged: {result.line}")
            if result.stage != "none":
                yield f"{tested.what}, unchanged"


def try_faults(faults, say):
    """What came of each, and whether that is right."""
    for fault, files in faults:
        result, why = tried(tested_in(files), files), fault.hidden()
        say(f"{fault.name}: {result.line}" + (f": {why}" if why else ""))
        yield fault, result, result.stage != "failed" and (result.stage == "none") == bool(why)


def main():
    parser = argparse.ArgumentParser(description=__doc__.splitlines()[0])
    parser.add_argument("names", nargs="*", metavar="NAME", help="words in the names of the faults")
    parser.add_argument("--table", action="store_true",
                        help="print the table of docs/EVIDENCE.md, all else on standard error")
    arguments = parser.parse_args()
    say = partial(print, file=sys.stderr if arguments.table else sys.stdout, flush=True)

    faults, missing = looked_up(chosen(arguments.names))
    for line in missing:
        say(line)
    if missing or not faults:
        say("nothing was tried" if missing else "no fault has such a name")
        return 1

    wrong = list(try_unchanged(faults, say))
    results = list(try_faults(faults, say))
    wrong += [fault.name for fault, _, right in results if not right]
    say(summary([result for _, result, right in results if right]))
    for name in wrong:
        say(f"WRONG: {name}")
    if arguments.table:
        print("\n".join(table(results)))
    return 1 if wrong else 0


if __name__ == "__main__":
    sys.exit(main())
