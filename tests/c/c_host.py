#!/usr/bin/env python3
"""The example host and the installed library.

    c_host.py ARCHIVE

- The host prints and keeps what the second engine gives, started once or again, and under valgrind.
- It refuses damaged files and malformed journals, and leaves the record as it was.
- A power cut or a failing disk at each step of its file calls (power_cut.c) loses no accepted call,
  and the host started again ends as if nothing had happened. Hosts that save in a wrong way are
  found by the same test.
- The installed library is found by pkg-config and linked.
"""

import os
import re
import subprocess
import sys
import tempfile
from pathlib import Path

sys.path.insert(0, str(Path(__file__).resolve().parent.parent))

from second.calls import SecondUnit, block_call, close_call, open_call, schedule_call  # noqa: E402
from second.engine import (ACCEPTED, CONSUMER_TERMS, GENERATOR_TERMS, RECORD_BYTES,  # noqa: E402
                           Engine, record_from_bytes)
from second.table import (CONSUMERS, CYCLE, GENERATOR_LIST, GENERATORS, GONE, KW,  # noqa: E402
                          PAIR_LIST, RANKS, RATE, SWITCH_MONTH, names_line, read_line)

REPOSITORY = Path(__file__).resolve().parents[2]  # the folder of what follows
HOST = "examples/host.c"
DAY = "examples/day.journal"
POWER_CUT = "tests/c/power_cut.c"
STRICT = ("-std=c99", "-O1", "-Wall", "-Wextra", "-pedantic", "-Wconversion", "-Wshadow", "-Werror")
FILE_CALLS = ("open", "read", "write", "fsync", "close", "rename")
MEMCHECK = ("valgrind", "--quiet", "--leak-check=full", "--show-leak-kinds=all",
            "--errors-for-leak-kinds=all", "--error-exitcode=77")
CUTS = ("cut", "cut-data", "cut-names", "cut-both")
CUT_STATUS = 99
BLOCKS_A_DAY = 96
FORMER_RECORD_BYTES = 5_752

NAMES = names_line(GENERATORS, CONSUMERS)
# Document 01's table and the line that is printed for it, worked out again for F-3.
PAPER_JOURNAL = NAMES + b"70001,20000,60000\n30000,5000,0\nclose\n"
PAPER_LINE = b"1,100001,0,6666,69335,0,2400,15665,0,5935,0\n"
SHORT_JOURNAL = PAPER_JOURNAL + b"0,40,50\nclose\n"

counted = {"checks": 0, "failed": 0}


def check(what, good, shown=b""):
    counted["checks"] += 1
    if not good:
        counted["failed"] += 1
        print(f"{Path(sys.argv[0]).stem}: FAILED: {what} {shown.decode(errors='replace')}".rstrip())
    return good


def run(*command, **more):
    return subprocess.run(command, stdout=subprocess.PIPE, stderr=subprocess.PIPE, timeout=60,
                          check=False, **more)


def build(what, *command):
    done = run(*command)
    if not check(what, done.returncode == 0, done.stderr):
        sys.exit(1)


# ---- What the second engine gives ----

def agreement_a():
    return [open_call(GENERATORS, CONSUMERS, RATE, CYCLE, GONE, GENERATOR_LIST, PAIR_LIST,
                      SWITCH_MONTH),
            schedule_call(KW, RANKS)]


def journal_calls(journal, G=GENERATORS, C=CONSUMERS):
    for line in journal.splitlines()[1:]:
        if line == b"close":
            yield close_call(G, C)
        else:
            values = read_line(line, G + C)
            yield block_call(values[:G], values[G:])


def records(calls):
    """The record after each of the calls, all accepted."""
    unit = SecondUnit(Engine())
    for call in calls:
        if unit.do(call).number != ACCEPTED:
            raise ValueError("the second engine refuses a call that a host is to make")
        yield unit.record


def equations(record):
    """What the host prints."""
    unit = record_from_bytes(record)
    lines = []
    for what, count, terms in (("generator", unit.generators, GENERATOR_TERMS),
                               ("consumer", unit.consumers, CONSUMER_TERMS)):
        lines.append([what] + [term.replace("consumer_", "").replace("_", "") for term in terms])
        lines += [[str(number) for number in [k + 1] + [getattr(unit, term)[k] for term in terms]]
                  for k in range(count)]
    return "".join(",".join(line) + "\n" for line in lines).encode()


# ---- The host on an undamaged disk ----

class Disk:
    """A folder with the record's file."""

    def __init__(self, record=None):
        self.folder = tempfile.TemporaryDirectory()
        self.path = os.path.join(self.folder.name, "unit.record")
        self.write(record)

    def write(self, record):
        if record is not None:
            with open(self.path, "wb") as file:
                file.write(record)
        elif os.path.exists(self.path):
            os.remove(self.path)

    def record(self):
        if not os.path.exists(self.path):
            return None
        with open(self.path, "rb") as file:
            return file.read()


def good_run(what, host, disk, journal, record):
    """The host ends well, leaves this record and prints its equations."""
    done = run(*host, disk.path, input=journal)
    check(what + ": status", done.returncode == 0, done.stderr)
    check(what + ": record", disk.record() == record)
    check(what + ": files", os.listdir(disk.folder.name) == ["unit.record"])
    return check(what + ": print", done.stdout == equations(record), done.stdout)


def day_journal():
    with open(DAY, "rb") as file:
        journal = file.read()
    check("a day's blocks", journal.count(b"\n") == BLOCKS_A_DAY + 2)
    return journal


def good_runs(host):
    disk = Disk()
    paper = list(records(agreement_a() + list(journal_calls(PAPER_JOURNAL))))
    good_run("document 01's table", [host], disk, PAPER_JOURNAL, paper[-1])
    check("document 01's line", PAPER_LINE in equations(paper[-1]).splitlines(keepends=True))
    good_run("document 01's table again", [host], disk, PAPER_JOURNAL, paper[-1])

    journal = day_journal()
    day = list(records(agreement_a() + list(journal_calls(journal))))
    part = b"".join(journal.splitlines(keepends=True)[:41])
    for name, command in (("a day", [host]), ("a day under valgrind", [*MEMCHECK, host])):
        disk = Disk()
        good_run(name + ", 40 blocks", command, disk, part, day[2 + 40 - 1])
        good_run(name + ", resumed", command, disk, journal, day[-1])
        good_run(name + ", closed before", command, disk, journal, day[-1])

    # A record that the host did not open: its own G and C hold, and its switch month.
    journal = (names_line(3, 2) + 40 * b"30011,90007,53003,61001,45007\n"
               + b"2,1,0,250000,5000000\nclose\n" + b"700,90,9000000,60,50\nclose\n")
    for switch_month in (0, 1, 2):
        unit = [open_call(3, 2, 777, 2, 1, (0, 900, 700, 2, 500, 640, 3, 1_200, 1_200),
                          (1, 1, 1, 0, 1, 1, 350, 1_210, 47, 0, 905, 2_500), switch_month),
                schedule_call((300, 400, 500, 0, 411, 733), (9, 2, 4, 1, 5, 2))]
        third = list(records(unit + list(journal_calls(journal, 3, 2))))
        good_run(f"another agreement, switch month {switch_month}", [host], Disk(third[2]), journal,
                 third[-1])


# ---- What the host refuses ----

def bad_run(what, host, record, journal, message, after=None):
    """The host ends with 1 and a message; the record is as it was, or the one given."""
    disk = Disk(record)
    done = run(host, disk.path, input=journal)
    check(what + ": status", done.returncode == 1 and not done.stdout, done.stdout)
    check(what + ": message", message in done.stderr, done.stderr)
    return check(what + ": record", disk.record() == (record if after is None else after))


def bad_runs(host):
    made = list(records(agreement_a() + list(journal_calls(PAPER_JOURNAL))))
    scheduled = made[1]
    for what, record in (("empty", b""), ("one byte short", made[-1][:-1]),
                         ("of the former library", made[-1][:FORMER_RECORD_BYTES]),
                         ("one byte long", made[-1] + b"\0"), ("twice", made[-1] * 2)):
        bad_run(f"file {what}", host, record, PAPER_JOURNAL, b"not the size of a record")
    damaged = bytearray(made[-1])
    damaged[-8] ^= 1
    for what, record in (("zeros", bytes(RECORD_BYTES)), ("a damaged total", bytes(damaged))):
        bad_run(f"record of {what}", host, record, PAPER_JOURNAL, b"refused 1")
        bad_run(f"record of {what}, nothing to enter", host, record, NAMES, b"refused 1")

    for what, line in (("leading zero", b"07,5,1\n"), ("too few", b"1,2\n"), ("empty", b"\n"),
                       ("too many", b"1,2,3,4\n"), ("space", b" 1,2,3\n"), ("plus", b"1,+2,3\n"),
                       ("minus", b"1,2,-3\n"), ("too high", b"4294967296,0,0\n"),
                       ("far too high", b"9" * 30 + b",0,0\n"), ("no line feed", b"1,2,3"),
                       ("no value", b"1,,3\n"), ("line feed of another system", b"1,2,3\r\n"),
                       ("zero byte", b"1,2,3\0\n"), ("long", b"1," * 400 + b"\n"),
                       ("word", b"closed\n")):
        bad_run(f"journal, {what}", host, scheduled, NAMES + line, b"line 2: malformed")
    bad_run("journal, names", host, scheduled, b"E1,R2\n1,2,3\n", b"names")
    bad_run("journal, nothing", host, scheduled, b"", b"names")
    bad_run("journal, fewer blocks", host, made[-1], NAMES + b"1,2,3\n", b"fewer blocks")
    bad_run("reading too high", host, scheduled, PAPER_JOURNAL[:-6] + b"0,200000001,0\nclose\n",
            b"line 4: refused 10", after=made[3])

    disk = Disk()
    for what, path, message in (
            ("no folder", os.path.join(disk.folder.name, "none", "unit.record"), b"No such file"),
            ("a folder as record", disk.folder.name + "/.", b"directory"),
            ("path too long", "x/" * 3_000, b"too long")):
        done = run(host, path, input=PAPER_JOURNAL)
        check(what, done.returncode == 1 and message in done.stderr, done.stderr)
    check("no argument", run(host, input=b"").returncode == 2)
    with open("/dev/full", "wb") as full:
        done = subprocess.run([host, disk.path], input=PAPER_JOURNAL, stdout=full,
                              stderr=subprocess.PIPE, check=False)
    check("standard output full", done.returncode == 1 and b"standard output" in done.stderr)


# ---- Power cuts and failing disks ----

# Edits of the host, each of which the faults have to find.
WRONG_HOSTS = (
    ("the file is not synced", "fsync(file) != 0 || ", ""),
    ("the folder is not synced", " || fsync(unit->folder) != 0", ""),
    ("the folder is not synced at the start", "if (fsync(unit->folder) != 0)\n        "
     "stop(unit->path, strerror(errno));\n    return 1;", "return 1;"),
    ("the old file is written over", '"%s.new"', '"%s"'),
    ("a short write counts as whole", "done += (size_t)written;", "done = sizeof unit->record;"),
    ("a save whose write was short is dropped", "done += (size_t)written;",
     "if (done + (size_t)written < sizeof unit->record)\n            return;\n        "
     "done += (size_t)written;"),
    ("a failed write is passed over", "if (written <= 0)\n            stop(unit->new_path, "
     "strerror(errno));", "if (written <= 0)\n            break;"),
    ("a month is closed again", " && figure(unit, WHEELING_AT_MONTH_BLOCKS) > 0", ""),
)


def build_with_faults(archive, source, output):
    return run("gcc", "-std=c99", "-O1", "-Iinclude", "-o", output, source, POWER_CUT,
               archive, "-Wl," + ",".join("--wrap=" + name for name in FILE_CALLS))


def faulty_run(host, disk, fault, step, earlier=None):
    """The status, and which file the host was writing when the power went. `earlier` is the record
    that comes back if the folder is not synced: a host ended between the rename and that."""
    settings = {"FAULT": fault, "STEP": str(step)}
    if earlier is not None:
        settings.update(RECORD=disk.path, EARLIER=disk.path + ".earlier")
        with open(settings["EARLIER"], "wb") as file:
            file.write(earlier)
    done = run(host, disk.path, input=SHORT_JOURNAL, env={**os.environ, **settings})
    cut = re.search(rb"cut in file (\d+)", done.stderr)
    return done.returncode, int(cut[1]) if cut else None


def wrong_after(host, made, started, renamed, fault, step):
    """What is wrong after one fault. The host is started on made[started] and saves the following
    ones in turn; made[0] is None, no file. `renamed`: the first was renamed and not synced."""
    disk = Disk(made[started])
    status, saving = faulty_run(host, disk, fault, step, made[started - 1] if renamed else None)
    if status != {"error": 1, "short": 0}.get(fault, CUT_STATUS):
        yield f"the host ends with {status}"
    # The record before the one that was being saved, or that one. Before the first is saved, the
    # host has not acted on the record that it was started on.
    kept = made[-1:] if fault == "short" else made
    if saving is not None:
        first = started + saving - (1 if saving or renamed else 0)
        kept = made[first:started + saving + 1]
    if disk.record() not in kept:
        yield "a call that was acted on is lost, or the record is damaged"
    done = run(host, disk.path, input=SHORT_JOURNAL)
    if done.returncode != 0 or disk.record() != made[-1] or done.stdout != equations(made[-1]):
        yield "started again, it ends otherwise: " + done.stderr.decode()


def all_wrong(host, made):
    """What is wrong after a fault at each step: from nothing, after the opening, and resumed."""
    for started, renamed in ((0, False), (1, False), (4, False), (4, True)):
        steps = 0
        while faulty_run(host, Disk(made[started]), "cut", steps + 1)[0] == CUT_STATUS:
            steps += 1
        counted["steps"] = counted.get("steps", 0) + steps
        for fault in (*CUTS, "error", "short"):
            for step in range(1, steps + 1):
                for wrong in wrong_after(host, made, started, renamed, fault, step):
                    yield f"{fault} at step {step} from record {started}: {wrong}"


def power_cuts(archive, folder):
    made = [None, *records(agreement_a() + list(journal_calls(SHORT_JOURNAL)))]
    host = os.path.join(folder, "host_with_faults")
    done = build_with_faults(archive, HOST, host)
    if not check("host with faults", done.returncode == 0, done.stderr):
        return
    for wrong in all_wrong(host, made):
        check("power cut: " + wrong, False)
    check("power cuts were tried", counted["steps"] > 6 * (len(made) - 1))
    print(f"c_host: {counted['steps']} steps, each with {len(CUTS) + 2} faults")

    text = open(HOST, encoding="utf-8").read()
    source = os.path.join(folder, "wrong_host.c")
    for what, old, new in WRONG_HOSTS:
        with open(source, "w", encoding="utf-8") as file:
            file.write(text.replace(old, new))
        if check(f"wrong host, {what}: the edit fits", text.count(old) == 1
                 and build_with_faults(archive, source, host).returncode == 0):
            check(f"wrong host, {what}: found", next(all_wrong(host, made), None) is not None)


# ---- The installed library ----

def files_below(folder):
    return {os.path.relpath(os.path.join(at, name), folder)
            for at, _, names in os.walk(folder) for name in names}


def installed(folder):
    prefix, packed = os.path.join(folder, "usr"), os.path.join(folder, "package")
    files = {"include/wheeling.h", "lib/libwheeling.a", "lib/pkgconfig/wheeling.pc"}
    build("make install", "make", "--silent", "install", "PREFIX=" + prefix)
    check("installed files", files_below(prefix) == files)
    build("make install DESTDIR", "make", "--silent", "install", "PREFIX=/opt/w",
          "DESTDIR=" + packed)
    check("files of the package", files_below(packed) == {"opt/w/" + name for name in files})
    with open(os.path.join(packed, "opt/w/lib/pkgconfig/wheeling.pc"), encoding="utf-8") as file:
        check("prefix of the package", file.readline() == "prefix=/opt/w\n")

    found = run("pkg-config", "--cflags", "--libs", "wheeling",
                env={**os.environ, "PKG_CONFIG_PATH": os.path.join(prefix, "lib/pkgconfig")})
    check("pkg-config", found.returncode == 0, found.stderr)
    host = os.path.join(folder, "installed_host")
    build("a program of the installed library", "gcc", *STRICT, "-o", host, HOST,
          *found.stdout.decode().split())
    made = list(records(agreement_a() + list(journal_calls(PAPER_JOURNAL))))
    good_run("installed", [host], Disk(), PAPER_JOURNAL, made[-1])


def main():
    if len(sys.argv) != 2:
        print(__doc__)
        return 2
    archive = os.path.abspath(sys.argv[1])
    os.chdir(REPOSITORY)
    with tempfile.TemporaryDirectory() as folder:
        host = os.path.join(folder, "host")
        build("the example host", "gcc", *STRICT, "-Iinclude", "-o", host, HOST, archive)
        good_runs(host)
        bad_runs(host)
        power_cuts(archive, folder)
        installed(folder)
    print(f"c_host: {counted['checks']} checks, {counted['failed']} failed")
    return 1 if counted["failed"] else 0


if __name__ == "__main__":
    sys.exit(main())
