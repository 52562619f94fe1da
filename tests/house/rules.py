#!/usr/bin/env python3
"""docs/RULES.md against the repository.

    rules.py           ends with 1 where the page names what is not there, or leaves out a clause
    rules.py --gaps    prints the clauses that have no edit or no test, and the edits that no clause names; checks nothing

Looked up is every file, definition, function, edit and test that the page names. What the page has to hold is taken from the
specifications where they say it: the limits and their values, each test of a sound record, the places of the record's lists, each call's
refusal numbers, the bench cases. Rules 1 to 8 and steps 1 to 4 are listed here.
"""

import re
import sys
from functools import cache
from itertools import zip_longest
from pathlib import Path
from typing import NamedTuple

REPOSITORY = Path(__file__).resolve().parents[2]
CRATES = REPOSITORY / "crates"
TESTS = REPOSITORY / "tests"
PAGE = REPOSITORY / "docs" / "RULES.md"

sys.path[:0] = [str(TESTS), str(TESTS / "calls"), str(TESTS / "faults"), str(TESTS / "texts")]

from fixed_cases import fixed_cases  # noqa: E402
from faults import listed_faults  # noqa: E402
from second.paper_cases import READER_EDGES, WHEEL_REFUSALS  # noqa: E402
from wheel_cases import COMPARED, FIXED  # noqa: E402
from wrong_rules import WRONG_RULES  # noqa: E402

BENCH_CASES = "book/specs/Laws/BenchCases"
BENCH_TABLES = ("Case", "Case of F-7")
NUMBERED = [f"Rule {n}" for n in range(1, 9)] + [f"Step {n}" for n in range(1, 5)]
FIELDS = ("defined", "code", "edits", "tests")
NONE = re.compile(r"none\b")
QUOTED = re.compile(r'(case|wrong rule|fault|text) "([^"]+)"')
TOKEN = re.compile(r"`([^`]+)`")
FILE = re.compile(r"\w+/(?:specs|proofs)/[\w/]+")  # below crates/, without its ending
DEFINED = re.compile(r"^\s*(?:(?:abbrev|unfoldable) )*pub (?:record |data )?([^\s:({]+)", re.M)


class Clause(NamedTuple):
    name: str
    fields: dict


# ---- The page ----

def sections(text):
    """{heading: the lines below it}, for headings of two and of three signs."""
    found, lines = {}, []
    for line in text.split("\n"):
        heading = re.match(r"##+ (.*)", line)
        if heading:
            lines = found.setdefault(heading.group(1), [])
        else:
            lines.append(line)
    return found


def headed_clauses(found):
    """The clauses with a heading of their own: those with a line for one of the fields."""
    for heading, lines in found.items():
        fields, field = {}, None
        for line in lines:
            start = re.match(r"- (\w+): (.*)", line)
            if start and start.group(1) in FIELDS:
                field = start.group(1)
                fields[field] = start.group(2)
            elif field and line.startswith("  "):
                fields[field] += " " + line.strip()
            else:
                field = None
        if fields:
            yield Clause(heading, fields)


def row_clauses(found):
    """The clauses that are a row: definition and code stand in the table above them."""
    for heading, first in (("Sound", "Clause"), ("Refusals", "No.")):
        for row in table(found.get(heading, []), first):
            yield Clause(f"{heading}, {row[first]}", {"edits": row["Edits"], "tests": row["Tests"]})


def table(lines, first):
    """The rows of the table whose heading starts with that word, each as {column: cell}."""
    columns, rows = None, []
    for line in lines:
        cells = [cell.strip().replace("\\|", "|") for cell in re.split(r"(?<!\\)\|", line)[1:-1]]
        if cells and cells[0] == first:
            columns = cells
        elif not cells:
            columns = None
        elif columns and not set(line) <= set("|-"):
            rows.append(dict(zip_longest(columns, cells, fillvalue="")))
    return rows


# ---- What the page names ----

@cache
def definitions(file):
    """The names that a file of specifications or of theorems defines, fields included; None where there is no such file."""
    path = CRATES / (file + ".antt")
    return set(DEFINED.findall(path.read_text())) if path.is_file() else None


@cache
def source(crate):
    return "\n".join(path.read_text() for path in sorted((CRATES / crate / "src").glob("*.rt")))


def in_code(name):
    """crate::function, crate::module::function or crate::Type::function; a constant in the place of the function."""
    crate, *path, last = name.split("::")
    if not source(crate):
        return False
    if path and not re.search(rf"\b(?:mod|impl) {path[0]}\b", source(crate)):
        return False
    return bool(re.search(rf"\b(?:fn {last}[<(]|const {last}:)", source(crate)))


@cache
def test_names():
    return {
        "case": {name for name, _ in fixed_cases()},
        "wrong rule": set(WRONG_RULES),
        "fault": {fault.name for fault in listed_faults()},
        "text": {entry[0] for entry in (*FIXED, *COMPARED, *READER_EDGES, *WHEEL_REFUSALS)},
    }


def missing_definitions(words):
    """A file, then names in it."""
    file = None
    for token in TOKEN.findall(words):
        if FILE.fullmatch(token):
            file = token
            if definitions(file) is None:
                yield f"no file {file}"
        elif file is None:
            yield f"`{token}` stands after no file of specifications or of theorems"
        elif definitions(file) is not None and token not in definitions(file):
            yield f"{file} does not define {token}"


def missing_code(words):
    return (f"no function {token}" for token in TOKEN.findall(words) if not in_code(token))


def missing_edits(words):
    for token in TOKEN.findall(words):
        crate, _, name = token.partition("/")
        if not (CRATES / crate / "must-fail" / f"{name}.edit").is_file():
            yield f"no edit {token}"


def missing_tests(words):
    for kind, name in QUOTED.findall(words):
        if name not in test_names()[kind]:
            yield f'no {kind} "{name}"'
    for token in TOKEN.findall(words):
        if not (REPOSITORY / token).is_file():
            yield f"no test {token}"


MISSING = dict(zip(FIELDS, (missing_definitions, missing_code, missing_edits, missing_tests)))


def looked_up(clause, fields):
    """What a clause names and is not there, and the fields that it leaves out."""
    for field in fields:
        words = clause.fields.get(field, "")
        yield from (f"{clause.name}: {fault}" for fault in MISSING[field](words))
        if not any(form.search(words) for form in (TOKEN, QUOTED, NONE)):
            yield f"{clause.name}: '{field}' names nothing and does not say 'none'"


# ---- What the specifications say that the page has to hold ----

def numbers_in(file):
    """{name: value} of the numbers that a file of specifications gives names to."""
    text = (CRATES / (file + ".antt")).read_text()
    return {name: int(value.replace("_", "")) for name, value in re.findall(r"^(\w+) = ([\d_]+)$", text, re.M)}


def sound_tests():
    """The tests that a sound record passes, in the definition's words: what && joins in each definition named ..._sound."""
    for definition in (CRATES / "record" / "specs" / "Sound.antt").read_text().split("\n\n"):
        body = re.search(r"^(\w+_sound) [^:\n]*=(.*)", definition, re.M | re.S)
        if body:
            yield from (" ".join(test.split()) for test in body.group(2).split("&&"))


def refusal_numbers(file, name):
    """The numbers that a call's definition tests; for a record that is not sound the number after `else`."""
    text = (CRATES / (file + ".antt")).read_text()
    body = re.search(rf"^( *){name}(?: \w+)* =(.*\n(?:\1 .*\n)*)", text, re.M).group(2)
    return {int(number) for number in re.findall(r"\((\d+), ", body) or re.findall(r" else (\d+)", body)}


def tests_of_refusals():
    """(file, name) of each definition that tests refusals by first_of."""
    for path in sorted(CRATES.glob("*/specs/*.antt")):
        file = str(path.relative_to(CRATES))[: -len(".antt")]
        for name in re.findall(r"^ *(\w+)(?: \w+)* =\s*(?:let .*\s*)*first_of\s*\(\(\d", path.read_text(), re.M):
            yield file, name


def bench_fields():
    """The fields of the theorem of the bench cases."""
    return re.findall(r"^  pub ([\w-]+) :", (CRATES / (BENCH_CASES + ".antt")).read_text(), re.M)


def numbered_bench_cases():
    """{case: the fields of the theorem that are about it}, of P1 and up: their fields have the case's name."""
    cases = {}
    for field in bench_fields():
        for case in re.findall(r"P\d+", field):
            cases.setdefault(case, set()).add(field)
    return cases


def bench_rows(found):
    """(case, row) of each bench case: those of document 01, then those of a request, which have a table of their own."""
    return [(row[first], row) for first in BENCH_TABLES for row in table(found.get("Bench cases", []), first)]


# ---- The checks ----

def check_values(rows, name_column, value_column, file, what):
    shown = {}
    for row in rows:
        for name in TOKEN.findall(row[name_column]):
            shown[name] = row[value_column]
    said = numbers_in(file)
    for name in sorted(said.keys() | shown.keys()):
        if name not in said:
            yield f"{what}: {file} has no number {name}"
        elif name not in shown:
            yield f"{what}: {name} is left out"
        elif shown[name] != f"{said[name]:,}":
            yield f"{what}: {name} is {said[name]:,} in {file}, and {shown[name]} on the page"


def check_sound(found):
    rows = table(found.get("Sound", []), "Clause")
    shown = [token for row in rows for token in TOKEN.findall(row["In the definition"])]
    said = list(sound_tests())
    yield from (f"Sound: the test `{test}` is left out" for test in said if test not in shown)
    yield from (f"Sound: the definition has no test `{test}`" for test in shown if test not in said)
    for row in table(found.get("Sound", []), "Test"):
        yield from missing_definitions("`record/specs/Sound` " + row["Test"])
        yield from missing_code(row["Code"])


def check_refusals(found):
    lines = found.get("Refusals", [])
    calls = {}
    for row in table(lines, "Call"):
        yield from missing_definitions(row["Its number is"])
        yield from missing_code(row["Code"])
        file, name = TOKEN.findall(row["Its number is"])
        if definitions(file) and name in definitions(file):
            calls[row["Call"]] = file, name
    for file, name in tests_of_refusals():
        if (file, name) not in calls.values():
            yield f"Refusals: the call whose number is {name} of {file} is left out"
    said = {}
    for call, place in calls.items():
        for number in refusal_numbers(*place):
            said.setdefault(number, set()).add(call)
    shown = {int(row["No."]): row for row in table(lines, "No.")}
    for number in sorted(said.keys() | shown.keys()):
        if number not in shown:
            yield f"Refusals: {number} is left out"
            continue
        named = shown[number]["Call"]
        if set(named.split(", ")) != said.get(number):
            yield f"Refusals: {number} is tested by {', '.join(sorted(said.get(number, {'no call'})))}, not by {named}"


def check_bench(found):
    said, shown = bench_fields(), {}
    for case, row in bench_rows(found):
        fields = [token for column, cell in row.items() if column.startswith("Fields") for token in TOKEN.findall(cell)]
        shown[case] = fields
        yield from (f"{case}: the theorem has no field {field}" for field in fields if field not in said)
        yield from (f"{case}: {fault}" for fault in missing_tests(row["Tests"]))
    for case, fields in numbered_bench_cases().items():
        if case not in shown:
            yield f"Bench cases: {case} is left out"
        else:
            yield from (f"{case}: the field {field} is left out" for field in sorted(fields - set(shown[case])))
    named = TOKEN.findall("\n".join(found.get("Bench cases", [])))
    yield from (f"Bench cases: the field {field} is left out" for field in said if field not in named)


def check_everywhere(text):
    """What the rest of the page names: anything that looks like a file, a function or an edit."""
    for token in sorted(set(TOKEN.findall(text))):
        if FILE.fullmatch(token) and definitions(token) is None:
            yield f"no file {token}"
        elif re.fullmatch(r"(?:crates|tests|docs)/[\w./-]+", token) and not (REPOSITORY / token).exists():
            yield f"no file {token}"
        elif re.fullmatch(r"\w+(?:::\w+)+", token) and not in_code(token):
            yield f"no function {token}"
        elif re.fullmatch(r"[a-z_]+/\w+", token) and not token.startswith(("tests/", "docs/", "crates/")):
            yield from missing_edits(f"`{token}`")


def check_links(text, found):
    """A link within the page leads to a heading."""
    anchors = {re.sub(r"[^\w -]", "", heading.lower()).replace(" ", "-") for heading in found}
    return (f"no heading for the link #{anchor}" for anchor in re.findall(r"\]\(#([^)]+)\)", text) if anchor not in anchors)


def check(text):
    found = sections(text)
    headed = list(headed_clauses(found))
    for numbered in NUMBERED:
        if not any(clause.name.startswith(numbered + ":") for clause in headed):
            yield f"{numbered} is left out"
    for clause in headed:
        yield from looked_up(clause, FIELDS)
    for clause in row_clauses(found):
        yield from looked_up(clause, ("edits", "tests"))
    yield from check_values(table(found.get("Limits", []), "Limit"), "Definition", "At most", "energy/specs/Limits", "Limits")
    yield from check_values(table(found.get("Layout", []), "Numbers"), "Name in `record_places/specs/Laws/Places`", "First",
                            "record_places/specs/Laws/Places", "Layout")
    yield from check_sound(found)
    yield from check_refusals(found)
    yield from check_bench(found)
    yield from check_links(text, found)


def gaps(text):
    found = sections(text)
    for field in ("edits", "tests"):
        for clause in (*headed_clauses(found), *row_clauses(found)):
            if NONE.search(clause.fields[field]):
                print(f"{field}: none: {clause.name}")
    for path in sorted(CRATES.glob("*/must-fail/*.edit")):
        edit = f"{path.parts[-3]}/{path.stem}"
        if f"`{edit}`" not in text:
            print(f"no clause names the edit {edit}")


def main(words):
    text = PAGE.read_text()
    if words == ["--gaps"]:
        gaps(text)
        return 0
    faults = list(check(text))
    faults += [fault for fault in check_everywhere(text) if not any(said.endswith(fault) for said in faults)]
    for fault in faults:
        print(f"rules: {fault}")
    found = sections(text)
    count = sum(1 for _ in (*headed_clauses(found), *row_clauses(found), *bench_rows(found)))
    print(f"rules: {count} clauses of docs/RULES.md, {len(faults)} faults")
    return 1 if faults else 0


if __name__ == "__main__":
    sys.exit(main(sys.argv[1:]))
