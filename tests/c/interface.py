#!/usr/bin/env python3
"""Header, Rattle source and archive have the same C interface; nothing else checks that.

    interface.py HEADER SOURCE ARCHIVE

Compared: the names of the calls, and of each call the result and the arguments in their order, with
width, constness and name. A slice of the source is a pointer and a length in the header: `record`
and `record_bytes`. The archive exports these calls and nothing else, and asks for nothing but the
functions that compilers call to copy, fill and compare memory.

Then each of a list of alterations is made in a copy of one of the three, and must be found.
"""

import re
import subprocess
import sys

PREFIX = "wheeling_"
NUMBERS = {"u8": "uint8_t", "u32": "uint32_t", "u64": "uint64_t", "usize": "size_t"}
EXPORTED = r'#\[unsafe\(no_mangle\)\]\s*pub extern "C" fn (\w+)\s*\(([^()]*)\)\s*->\s*(\w+)'
MEMORY_FUNCTIONS = {"memcpy", "memmove", "memset", "memcmp", "bcmp"}


class Unreadable(Exception):
    pass


def match(pattern, text, what):
    found = re.fullmatch(pattern, text.strip(), flags=re.DOTALL)
    if found is None:
        raise Unreadable(f"{what} is not understood: {text.strip()!r}")
    return found.groups()


def listed(arguments):
    """The arguments of a declaration; a comma after the last one is allowed in Rattle."""
    return [argument for argument in (part.strip() for part in arguments.split(",")) if argument]


def calls_of_header(text):
    """{name: (result, [(type, name)])}. All that is left without comments and preprocessor lines
    must be prototypes, so that none is passed over."""
    text = re.sub(r"/\*.*?\*/", " ", text, flags=re.DOTALL)
    text = re.sub(r"^[ \t]*#(.*\\\n)*.*$", "", text, flags=re.MULTILINE)
    inside, = match(r'extern "C" \{(.*)\}', text, "what is left of the header")
    calls = {}
    *prototypes, rest = inside.split(";")
    match("", rest, "the header after the last prototype")
    for prototype in prototypes:
        result, name, arguments = match(r"(\w+)\s+(\w+)\s*\(([^()]*)\)", prototype, "a prototype")
        taken = []
        for argument in listed(arguments):
            const, kind, pointer, argument_name = match(
                r"(const\s+)?(\w+)\s*(\*?)\s*(\w+)", argument, "an argument")
            taken.append((("const " if const else "") + kind + (" *" if pointer else ""),
                          argument_name))
        if name in calls:
            raise Unreadable(f"{name} is declared twice in the header")
        calls[name] = (result, taken)
    return calls


def calls_of_source(text):
    """Likewise, in C's words: a slice is a pointer and a length in bytes."""
    text = re.sub(r"//.*", "", text)
    calls = {}
    for name, arguments, result in re.findall(EXPORTED, text):
        taken = []
        for argument in listed(arguments):
            argument_name, kind = match(r"(\w+)\s*:\s*(.*)", argument, "an argument")
            if kind in ("&[u8]", "&mut [u8]"):
                const = "const " if kind == "&[u8]" else ""
                taken += [(const + "uint8_t *", argument_name),
                          ("size_t", argument_name + "_bytes")]
            elif kind in NUMBERS:
                taken.append((NUMBERS[kind], argument_name))
            else:
                raise Unreadable(f"an argument of {name} is of no kind that C has: {argument!r}")
        calls[name] = (NUMBERS.get(result, result), taken)
    if len(calls) != len(re.findall(r'extern\s+"C"', text)) \
            or len(calls) != text.count("no_mangle"):
        raise Unreadable("an exported function of the source is not understood")
    return calls


def symbols_of_archive(text):
    """The names that are exported and those that are asked for, of what `nm -g -P` prints."""
    exported, wanted = set(), set()
    for line in text.splitlines():
        if line.strip() and not line.endswith(":"):
            name, kind = line.split()[:2]
            (wanted if kind in "Uwv" else exported).add((name, kind))
    names = {name for name, _ in exported}
    return exported, {name for name, _ in wanted} - names


def disagreements(header, source, symbols):
    try:
        declared, written = calls_of_header(header), calls_of_source(source)
        exported, wanted = symbols_of_archive(symbols)
    except Unreadable as fault:
        return [str(fault)]
    found = []
    if not declared or not all(name.startswith(PREFIX) for name in declared):
        found.append(f"the header's calls are {sorted(declared)}")
    for name in sorted(set(declared) ^ set(written)):
        found.append(f"{name} is in the {'header' if name in declared else 'source'} only")
    for name in sorted(set(declared) & set(written)):
        for what, ours, theirs in zip(("result", "arguments"), declared[name], written[name]):
            if ours != theirs:
                found.append(f"{name}, {what}: the header has {ours}, the source {theirs}")
    if exported != {(name, "T") for name in declared}:
        found.append(f"the archive exports {sorted(exported)}")
    if wanted - MEMORY_FUNCTIONS:
        found.append(f"the archive asks for {sorted(wanted - MEMORY_FUNCTIONS)}")
    return found


# (what is altered, in which of the three, what is replaced at its first place, by what)
HEADER, SOURCE, SYMBOLS = range(3)
ALTERATIONS = (
    ("an argument is dropped", HEADER, r"uint32_t cycle, ", ""),
    ("an argument is dropped", SOURCE, r"\bcycle: u32,", ""),
    ("an argument is dropped", HEADER, r"uint32_t switch_month,", ""),
    ("an argument is dropped", SOURCE, r"\bswitch_month: u32,", ""),
    ("an argument is dropped", HEADER, r"uint32_t tolerance,", ""),
    ("an argument is dropped", SOURCE, r"\btolerance: u32,", ""),
    ("two arguments are swapped", HEADER, r"uint32_t rate, uint32_t cycle",
     "uint32_t cycle, uint32_t rate"),
    ("two arguments are swapped", HEADER, r"uint32_t gone,(\s*)uint32_t switch_month",
     r"uint32_t switch_month,\1uint32_t gone"),
    ("two arguments are swapped", SOURCE, r"(gone: u32),(\s*)(switch_month: u32)", r"\3,\2\1"),
    ("two arguments are swapped", SOURCE, r"(check_list: &\[u8\]),(\s*)(tolerance: u32)",
     r"\3,\2\1"),
    ("two lists are swapped", SOURCE, r"(kw_list: &\[u8\]),(\s*)(rank_list: &\[u8\])", r"\3,\2\1"),
    ("two lists are swapped", SOURCE, r"(main_list: &\[u8\]),(\s*)(check_list: &\[u8\])",
     r"\3,\2\1"),
    ("two lists are swapped", HEADER,
     r"(const uint8_t \*main_list, \w+ \w+),(\s*)(const uint8_t \*check_list, \w+ \w+)",
     r"\3,\2\1"),
    ("a number is wider", HEADER, r"uint32_t gone", "uint64_t gone"),
    ("a number is wider", SOURCE, r"gone: u32", "gone: u64"),
    ("a number is wider", SOURCE, r"switch_month: u32", "switch_month: u64"),
    ("a number is wider", HEADER, r"uint32_t tolerance", "uint64_t tolerance"),
    ("a number is wider", SOURCE, r"tolerance: u32", "tolerance: u64"),
    ("a list is of wider numbers", SOURCE, r"entry_list: &\[u8\]", "entry_list: &[u32]"),
    ("the result is wider", HEADER, r"uint32_t wheeling_close", "uint64_t wheeling_close"),
    ("the result is wider", SOURCE, r"(fn wheeling_block\([^)]*\)\s*->\s*)u32", r"\1u64"),
    ("an input may be written", HEADER, r"const uint8_t \*pair_list", "uint8_t *pair_list"),
    ("an input may be written", SOURCE, r"pair_list: &\[u8\]", "pair_list: &mut [u8]"),
    ("an input may be written", HEADER, r"const uint8_t \*main_list", "uint8_t *main_list"),
    ("an input may be written", SOURCE, r"check_list: &\[u8\]", "check_list: &mut [u8]"),
    ("an output may not be written", SOURCE, r"output: &mut \[u8\]", "output: &[u8]"),
    ("an output may not be written", SOURCE, r"(tolerance: u32,\s*output: )&mut ", r"\1&"),
    ("a pointer is a number", HEADER, r"uint8_t \*output", "uint8_t output"),
    ("a length is missing", HEADER, r", size_t output_bytes", ""),
    ("a length is narrower", HEADER, r"size_t record_bytes", "uint32_t record_bytes"),
    ("an argument is renamed", HEADER, r"uint32_t consumers", "uint32_t users"),
    ("a length is renamed", HEADER, r"kw_list_bytes", "kw_bytes"),
    ("a call is renamed", HEADER, r"uint32_t wheeling_block", "uint32_t wheeling_enter"),
    ("a call is renamed", SOURCE, r"fn wheeling_block", "fn wheeling_enter"),
    ("a call is renamed", SYMBOLS, r"wheeling_block T", "wheeling_enter T"),
    ("a call is not exported", SOURCE, r"#\[unsafe\(no_mangle\)\]", ""),
    ("a call is not exported", SYMBOLS, r"wheeling_close T.*\n", ""),
    ("a call is not exported", SYMBOLS, r"wheeling_day T.*\n", ""),
    ("a call is declared more", HEADER, r"(uint32_t wheeling_close)",
     r"uint32_t wheeling_reset(uint32_t what);\n\1"),
    ("a call is exported more", SYMBOLS, r"(wheeling_close T.*\n)", r"\1wheeling_reset T 0 1\n"),
    ("a call of another name is exported", SYMBOLS, r"(wheeling_close T.*\n)",
     r"\1host_open T 0 1\n"),
    ("data is exported", SYMBOLS, r"(wheeling_close T.*\n)", r"\1wheeling_state B 0 8\n"),
    ("memory is asked for", SYMBOLS, r"(wheeling_close T.*\n)", r"\1malloc U         \n"),
    ("something is written", SYMBOLS, r"(wheeling_close T.*\n)", r"\1write U         \n"),
)


def not_found(texts):
    """The alterations that are not found, or that cannot be made. The source's other functions are
    left out: one of them may have an argument of the same name."""
    texts = list(texts)
    texts[SOURCE] = "\n".join(found[0] for found in re.finditer(EXPORTED, texts[SOURCE]))
    for what, which, old, new in ALTERATIONS:
        altered = list(texts)
        altered[which], made = re.subn(old, new, texts[which], count=1)
        where = ("header", "source", "archive")[which]
        if not made:
            yield f"{where}, {what}: there is nothing to alter"
        elif not disagreements(*altered):
            yield f"{where}, {what}: it is not found"


def main():
    if len(sys.argv) != 4:
        print(__doc__)
        return 2
    header, source, archive = sys.argv[1:]
    texts = [open(path, encoding="utf-8").read() for path in (header, source)]
    texts.append(subprocess.run(["nm", "-g", "-P", archive], check=True, text=True,
                                stdout=subprocess.PIPE).stdout)
    found = disagreements(*texts)
    for line in found:
        print("interface: " + line)
    if found:
        return 1
    passed_over = list(not_found(texts))
    for line in passed_over:
        print("interface: alteration of the " + line)
    print(f"interface: {len(calls_of_header(texts[0]))} calls agree; "
          f"{len(ALTERATIONS) - len(passed_over)} of {len(ALTERATIONS)} alterations found")
    return 1 if passed_over else 0


if __name__ == "__main__":
    sys.exit(main())
