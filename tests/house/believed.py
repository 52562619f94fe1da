#!/usr/bin/env python3
"""Which files of crates/*/specs a reader has to believe.

    believed.py            checks the tree; ends with 1 where something stands in the wrong place
    believed.py --table    prints the table that docs/ASSURANCE.md has, and checks nothing

Believed is what the promises of the public calls, the two claims of demand 3, the claim of the closings before the switch month and the
claim of a month are made of: the files that their text names, and all that these import. Everything else in specs/ is proved of it. So
that a reader can tell the two apart, crates/*/specs/*.antt are exactly the believed files, and the others stand in crates/*/specs/Laws,
or in crates/*/proofs where only proofs cite them. A believed file holds definitions only, and nothing of proofs/.
"""

import re
import sys
from pathlib import Path

REPOSITORY = Path(__file__).resolve().parents[2]
CRATES = REPOSITORY / "crates"
ASSURANCE = REPOSITORY / "docs" / "ASSURANCE.md"

# What is promised and claimed, in the order in which it is best read: the public calls in Rattle, the C calls, the two definitions that
# say demand 3, the one that says what a closing before the switch month is, and the one that says what the blocks of a month gave.
C_CALLS = "the C calls"
CLAIMS = ["Claim", "FormerClaim", "MonthClaim", "ByteClaim"]
STARTS = ["opening::opening", "schedule::schedule", "block::block", "closing::close", "soundness::is_sound_record", "Claim", "FormerClaim",
          "MonthClaim", C_CALLS, "ByteClaim", "sharing::share", "check_meter::day", "table::read_table", "wheel::report"]

FUNCTION = re.compile(r'^(?:pub )?(extern "C" )?fn (\w+)(?:<[^>]*>)?\(.*?^\{', re.S | re.M)
IMPORT = re.compile(r"^\s*(?:ghost )?use Rattle\.(\w+)\.specs\.((?:Laws\.)?\w+)(?:\.\{([^}]*)\})?", re.M)
PROOFS = re.compile(r"^\s*use Rattle\.\w+\.proofs\b", re.M)
KIT = {"core", "std"}  # whose words are the language's: they are believed with the kit
INDEXES = {"Lib", "Laws"}  # files that only name others


class Misplaced(Exception):
    pass


def spec_path(crate, module):
    return CRATES / crate / "specs" / (module.replace(".", "/") + ".antt")


def imports(path):
    """(crate, module, names) for each import of another crate's or its own specifications; structs of the code and the kit's words are not
    among them."""
    for crate, module, names in IMPORT.findall(path.read_text()):
        if crate not in KIT and module != "declared":
            yield crate, module, [name.strip() for name in names.split(",")]


def promises():
    """{public call, or C_CALLS: [(source file, what it ensures)]}. A public call asks nothing of its caller."""
    found = {}
    for source in sorted(CRATES.glob("*/src/*.rt")):
        crate = source.relative_to(CRATES).parts[0]
        for match in FUNCTION.finditer(source.read_text()):
            call = C_CALLS if match.group(1) else f"{crate}::{match.group(2)}"
            if call not in STARTS:
                continue
            if re.search(r"\n    requires\b", match.group(0)):
                raise Misplaced(f"the public call {crate}::{match.group(2)} has a requirement")
            found.setdefault(call, []).append((source, match.group(0).partition("ensures")[2]))
    return found


def said_in(words, name):
    """Whether a promise of these words has that name; of one with places, as `if◌then◌else◌`, it has all the parts."""
    return bool(name) and words >= set(filter(None, name.split("◌")))


def named_by(source, promise):
    """The files that a promise names."""
    words = set(re.findall(r"[^\s()\[\]{};,]+", promise))
    return [(crate, module) for crate, module, names in imports(source) if any(said_in(words, name) for name in names)]


def defining(claim):
    """The file that defines a claim."""
    defined = [path for path in sorted(CRATES.glob("*/specs/**/*.antt"))
               if re.search(rf"^\s*(?:\w+ )*pub (?:record )?{claim} ", path.read_text(), re.M)]
    if len(defined) != 1:
        raise Misplaced(f"the claim {claim} is defined in {len(defined)} files")
    inside = defined[0].relative_to(CRATES).parts
    return inside[0], ".".join(inside[2:])[: -len(".antt")]


def believed():
    """The files to believe, each after those that it imports."""
    found, ordered = promises(), []

    def visit(file):
        if file not in ordered:
            for crate, module, _ in imports(spec_path(*file)):
                visit((crate, module))
            ordered.append(file)

    for start in STARTS:
        if start in CLAIMS:
            visit(defining(start))
        elif start not in found:
            raise Misplaced(f"no such public call: {start}")
        else:
            for source, promise in found[start]:
                for file in named_by(source, promise):
                    visit(file)
    return ordered


def laws_in(path):
    """Declarations of a file that are no definition: their text is a statement, and their value a proof of it."""
    holders = []  # (indentation, whether it is a record or a datatype, whose lines are fields) of the enclosing lines
    for line in path.read_text().split("\n"):
        if not line.strip() or line.lstrip().startswith("--"):
            continue
        indentation = len(line) - len(line.lstrip())
        while holders and holders[-1][0] >= indentation:
            holders.pop()
        text = line.strip()
        stated = re.match(r"(?:pub )?([^\s(){}]+) : ", text)
        if stated and not any(fields for _, fields in holders):
            yield stated.group(1)
        holders.append((indentation, bool(re.match(r"(?:pub )?(?:record|data) ", text)) or " = " in f" {text} " or text.endswith("=")))


def table(files):
    rows, total = [], 0
    for crate, module in files:
        text = spec_path(crate, module).read_text()
        said = " ".join(line[2:].strip() for line in re.match(r"(?:--.*\n)*", text).group(0).split("\n"))
        count = text.count("\n")
        total += count
        rows.append(f"| `{crate}/specs/{module}` | {count} | {said.replace(' Assumes nothing.', '').strip()} |")
    return "\n".join(["| File | Lines | What it says |", "|---|---|---|"] + rows + [f"| {len(rows)} files | {total} | |"])


def check(files):
    faults = []
    for path in sorted(CRATES.glob("*/specs/*.antt")):
        crate, module = path.relative_to(CRATES).parts[0], path.stem
        if module in INDEXES:
            continue
        if (crate, module) not in files:
            faults.append(f"{crate}/specs/{module}: no promise and no claim needs it: it belongs into specs/Laws")
        else:
            faults += [f"{crate}/specs/{module}: `{law}` is a law among what is believed" for law in laws_in(path)]
            faults += [f"{crate}/specs/{module}: it imports from proofs/, and it is believed"] * bool(PROOFS.search(path.read_text()))
    faults += [f"{crate}/specs/{module}: it is believed, and stands among the laws" for crate, module in sorted(files) if "." in module]
    if table(files) not in ASSURANCE.read_text():
        faults.append("docs/ASSURANCE.md: its table of believed files is not what `tests/house/believed.py --table` prints")
    return faults


def main(words):
    try:
        files = believed()
    except Misplaced as fault:
        print(f"believed: {fault}")
        return 1
    if words == ["--table"]:
        print(table(files))
        return 0
    faults = check(files)
    for fault in faults:
        print(f"believed: {fault}")
    laws = [path for form in ("*/specs/Laws/*.antt", "*/proofs/*.antt") for path in CRATES.glob(form) if path.stem not in INDEXES]
    print(f"believed: {len(files)} files to believe, {len(laws)} files of laws; {len(faults)} in the wrong place")
    return 1 if faults else 0


if __name__ == "__main__":
    sys.exit(main(sys.argv[1:]))
