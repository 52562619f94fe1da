#!/usr/bin/env python3
"""The header's sizes, numbers and places are the documents', as the second engine has them.

    header.py ARCHIVE

A program that prints every macro of the header is made from the header itself, so that none is left
out, and compiled as C and as C++ without a warning. It also makes the five calls with null
pointers. Then stack.c shows that no call touches more stack than the header says.
"""

import os
import re
import subprocess
import sys
import tempfile
from itertools import product
from pathlib import Path

sys.path.insert(0, str(Path(__file__).resolve().parent.parent))

from second.engine import (CHECK_METER, CLASSES, CONSUMER_PLACES, GENERATOR_PLACES,  # noqa: E402
                           MAIN_METER, NORMAL, OFF_PEAK, PEAK, RECORD_BYTES, RECORD_FORM,
                           RECORD_WORDS, Engine, Record, record_from_bytes)

REPOSITORY = Path(__file__).resolve().parents[2]  # the folder of what follows
HEADER = "include/wheeling.h"
STACK = "tests/c/stack.c"
COMPILERS = (("gcc", "c99", ".c"), ("g++", "c++98", ".cpp"), ("g++", "c++17", ".cpp"))
STRICT = ("-O1", "-Wall", "-Wextra", "-pedantic", "-Werror", "-Iinclude")

# The names of what a call returns: the documents' numbers from 0; no C call gives 14 to 16 or 18.
NUMBERS = {name: number for number, name in enumerate((
    "ACCEPTED", "NOT_SOUND", "WRONG_SIZE", "WRONG_KIND", "WRONG_CAPACITY", "WRONG_LINK",
    "WRONG_TERMS", "NOT_LINKED", "OVER_CAPACITY", "WRONG_RANK", "READING_TOO_HIGH", "MONTH_FULL",
    "UNIT_FULL", "MONTH_EMPTY"))} | {"BOTH_INCOMPLETE": 17, "WRONG_SWITCH_MONTH": 19}
# Other macros that are a single number, and none of bytes.
SINGLE = {"MOST_GENERATORS": Engine.MOST_GENERATORS, "MOST_CONSUMERS": Engine.MOST_CONSUMERS,
          "DAY_BLOCKS": Engine.DAY_BLOCKS, "MISSING": Engine.MISSING, "MAIN_METER": MAIN_METER,
          "CHECK_METER": CHECK_METER, "OFF_PEAK": CLASSES.index(OFF_PEAK),
          "NORMAL": CLASSES.index(NORMAL), "PEAK": CLASSES.index(PEAK)}
# What the five calls return for null pointers; opening has 1 generator and 1 consumer.
NULL_CALLS = {"open(1, 1, 0, 1, 0, 0, NULL, 0, NULL, 0, NULL, 0)": 2,
              "schedule(NULL, 0, NULL, 0, NULL, 0)": 1,
              "block(NULL, 0, NULL, 0, NULL, 0, NULL, 0)": 1, "close(NULL, 0, NULL, 0)": 1,
              "day(NULL, 0, NULL, 0, 0, NULL, 0)": 2}

# The arguments of a macro, by letter, and how many values each takes.
ARGUMENTS = {"k": len(CLASSES), "g": GENERATOR_PLACES, "c": CONSUMER_PLACES}

# Each word of this record is its own place.
PLACES = record_from_bytes(RECORD_FORM.pack(*range(RECORD_WORDS)))
# The second engine has another name for this figure.
RENAMED = {"closings": "closings_done"}


def macros():
    """[(name without WHEELING_, its arguments)]. Every macro has a value but the include guard."""
    text = open(HEADER, encoding="utf-8").read()
    found = re.findall(r"^#define WHEELING_(\w+)(?:\(((?:k, )?(?:g|c|g, c))\))? \S", text,
                       flags=re.MULTILINE)
    if len(found) != len(re.findall(r"^\s*#\s*define", text, flags=re.MULTILINE)) - 1:
        sys.exit("header: a macro is not understood")
    return [(name, arguments.split(", ") if arguments else []) for name, arguments in found]


def values(name, arguments):
    """All values of k, g and c together: G and C in a size, numbers from 0 in a place."""
    first = 0 if name.startswith("AT_") else 1
    return product(*(range(first, first + (most if letter in arguments else 1))
                     for letter, most in ARGUMENTS.items()))


def figure(name, k):
    """The name that the second engine has for the figure of a place."""
    figure_name = name[len("AT_"):].lower().replace("class", CLASSES[k])
    return RENAMED.get(figure_name, figure_name)


def program(names):
    lines = ["#include <wheeling.h>", "#include <wheeling.h>", "#include <stdio.h>",
             "int main(void)", "{"]
    for name, arguments in names:
        for value in values(name, arguments):
            numbers = dict(zip(ARGUMENTS, value))
            given = ", ".join(f"{numbers[letter]}u" for letter in arguments)
            call = f"WHEELING_{name}" + (f"({given})" if given else "")
            lines.append(f'    printf("{name} {value} %lu\\n", (unsigned long){call});')
    for call in NULL_CALLS:
        lines.append(f'    printf("{call} %lu\\n", (unsigned long)wheeling_{call});')
    return "\n".join(lines + ["    return 0;", "}", ""])


def size(name, G, C):
    unit = Record()
    unit.generators, unit.consumers = G, C
    return {"RECORD": RECORD_BYTES,
            "GENERATOR_LIST": 4 * 3 * G, "PAIR_LIST": 4 * 2 * G * C,
            "KW_LIST": 4 * G * C, "RANK_LIST": 4 * G * C,
            "ENTRY_LIST": 4 * G, "EXIT_LIST": 4 * C,
            "BLOCK_OUTPUT": 8 * Engine().block_output_length(unit),
            "CLOSE_OUTPUT": 8 * Engine().closing_output_length(unit),
            "DAY_LIST": 4 * Engine.DAY_BLOCKS,
            "DAY_OUTPUT": 8 * Engine.DAY_OUTPUT_LENGTH}[name]


def place(name, k, g, c):
    """Where the figure stands, in bytes."""
    value = getattr(PLACES, figure(name, k))
    while isinstance(value, list):
        value = value[g if len(value) == GENERATOR_PLACES else c]
    return 8 * value


def expected(name, k, g, c):
    if name in NUMBERS:
        return NUMBERS[name]
    if name in SINGLE:
        return SINGLE[name]
    if name.startswith("AT_"):
        return place(name, k, g, c)
    if name.startswith("MOST_"):
        g, c = Engine.MOST_GENERATORS, Engine.MOST_CONSUMERS
    return size(re.fullmatch(r"(?:MOST_)?(\w+)_BYTES", name)[1], g, c)


def expected_lines(names):
    lines = [f"{name} {value} {expected(name, *value)}" for name, arguments in names
             for value in values(name, arguments) if name != "STACK_BYTES"]
    return lines + [f"{call} {number}" for call, number in NULL_CALLS.items()]


def run_program(compiler, standard, source, archive, folder):
    """Whether it could be built and ended with 0, and what it printed."""
    binary = os.path.join(folder, "program")
    command = [compiler, f"-std={standard}", *STRICT, "-o", binary, source, archive]
    if subprocess.run(command, check=False).returncode != 0:
        return False, ""
    done = subprocess.run([binary], stdout=subprocess.PIPE, check=False, text=True)
    return done.returncode == 0, done.stdout


def main():
    if len(sys.argv) != 2:
        print(__doc__)
        return 2
    archive = os.path.abspath(sys.argv[1])
    os.chdir(REPOSITORY)
    names = macros()
    failed = 0
    placed = {figure(name, k) for name, arguments in names if name.startswith("AT_")
              for k, _, _ in values(name, arguments)}
    wrong = (placed ^ set(Record.__slots__)) | ({*NUMBERS, *SINGLE} - {name for name, _ in names})
    if wrong:
        print(f"header: FAILED: not all are there, or too many: {wrong}")
        failed += 1
    with tempfile.TemporaryDirectory() as folder:
        for compiler, standard, ending in COMPILERS:
            source = os.path.join(folder, "macros" + ending)
            with open(source, "w", encoding="utf-8") as file:
                file.write(program(names))
            good, printed = run_program(compiler, standard, source, archive, folder)
            lines = [line for line in printed.splitlines() if not line.startswith("STACK_BYTES")]
            if not good or lines != expected_lines(names):
                failed += 1
                print(f"header: FAILED: {compiler} -std={standard}; lines that differ:",
                      *sorted(set(lines) ^ set(expected_lines(names)))[:8], sep="\n    ")
        good, printed = run_program("gcc", "c99", STACK, archive, folder)
        print(printed, end="")
        if not good:
            failed += 1
            print(f"header: FAILED: {STACK}")
    print(f"header: {len(names)} macros, {len(expected_lines(names))} values, {failed} failed")
    return 1 if failed else 0


if __name__ == "__main__":
    sys.exit(main())
