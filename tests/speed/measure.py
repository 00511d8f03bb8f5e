#!/usr/bin/env python3
"""Instructions a message of the card, through the library from C and in the program `speed`, beside a card by hand in C, over the same workloads.

Each program runs few rounds and more rounds under valgrind's callgrind; the difference of the two counts is what the rounds between cost, so that set-up is not
counted. Each program prints a sum over the outcome, the used bytes and the reply's length of every call: the sums must be the same. Then a read of Inv St and one of
Drive Status are counted, through the library, for some flags: each must be told. With --write all are counted and the two tables go to docs/SPEED.md; without, ours alone
are counted, and must not be above the numbers there."""
import os
import re
import shutil
import subprocess
import sys
import tempfile
from concurrent.futures import ThreadPoolExecutor

HERE = os.path.dirname(os.path.abspath(__file__))
TOP = os.path.dirname(os.path.dirname(HERE))
PAGE = os.path.join(TOP, "docs", "SPEED.md")
ROUNDS = (1, 2)
NAMES = {"nfo": "NFO serial", "ascii": "Modbus ASCII", "rtu": "Modbus RTU"}
MESSAGES = 1000
# a flag, or 0 for none, and what Inv St and Drive Status tell of a fresh card then; and who asks for which
STATUS = {0: (24, 0x0040), 1: (1, 0x0048), 13: (13, 0x0048), 23: (23, 0x0048)}
READS = {"nfo": (0, "Inv St, NFO serial"), "rtu": (0, "Inv St, Modbus RTU"), "drive": (1, "Drive Status, Modbus RTU")}
COMPILER = "gcc"
MARGIN = 1.01  # another build of the same compiler may move a few instructions


def skip(reason):
    print("speed: skipped: " + reason)
    sys.exit(0)


def fail(reason):
    print("speed: FAILED: " + reason)
    sys.exit(1)


def build(folder, name, bit_step):
    """The C card; with bit_step its CRC goes bit by bit, as ours does by definition, in place of the table."""
    source = open(os.path.join(HERE, "reference", "card.c")).read()
    if bit_step:
        by_table = "crc = crc >> 8 ^ crc_table[(crc ^ bytes[i]) & 0xFF];"
        by_bits = "{ crc ^= bytes[i]; for (int k = 0; k < 8; k++) crc = crc & 1 ? crc >> 1 ^ 0xA001 : crc >> 1; }"
        if source.count(by_table) != 1:
            fail("the reference's CRC has another shape")
        source = source.replace(by_table, by_bits)
    card = os.path.join(folder, name + ".c")
    open(card, "w").write(source)
    program = os.path.join(folder, name)
    reference = os.path.join(HERE, "reference")
    subprocess.check_call([COMPILER, "-std=c11", "-O2", "-w", "-static", "-I", reference, "-o", program, os.path.join(reference, "bench.c"), card])
    return program


def host(folder, name):
    """A C host over the library, compiled as firmware is."""
    library = os.path.join(TOP, "target", "staticlib", "liblinecard.a")
    if not os.path.exists(library):
        subprocess.check_call([os.path.join(TOP, "library")])
    program = os.path.join(folder, name)
    words = ["-std=c11", "-O2", "-Wall", "-Wextra", "-Werror", "-static", "-I", os.path.join(TOP, "include")]
    subprocess.check_call([COMPILER] + words + ["-o", program, os.path.join(HERE, name + ".c"), library])
    return program


def count(folder, words, text):
    """What the program prints, and how many instructions it ran."""
    out = os.path.join(folder, "callgrind." + words[-1])
    said = subprocess.run(["valgrind", "--tool=callgrind", "--callgrind-out-file=" + out] + words, input=text, capture_output=True, text=True, check=True).stdout
    total = re.search(r"^(?:summary|totals): (\d+)", open(out).read(), re.M)
    return said, int(total.group(1))


def a_message(folder, words, arguments, text):
    """Instructions a message, and the lines that the two runs print."""
    with ThreadPoolExecutor(len(ROUNDS)) as runs:
        told = list(runs.map(lambda rounds: count(folder, words + arguments + [str(rounds)], text), ROUNDS))
    said, counts = [line for line, _ in told], [n for _, n in told]
    return (counts[1] - counts[0]) / ((ROUNDS[1] - ROUNDS[0]) * MESSAGES), said


def table(folder, write, known):
    ours_program = os.path.join(TOP, "crates", "speed", "out", "speed")
    if not os.path.exists(ours_program):
        fail("crates/speed/out/speed is not built (rt ci builds every program, ./run speed this one)")
    library = [host(folder, "host")]
    theirs = {"nfo": build(folder, "card", False), "ascii": None, "rtu": build(folder, "card_bits", True)}
    theirs["ascii"] = theirs["nfo"]
    rows = []
    for protocol in NAMES:
        reference = [theirs[protocol]]
        workload = subprocess.run(reference + [protocol, "dump"], capture_output=True, text=True, check=True).stdout
        told = [subprocess.run(reference + [protocol, str(rounds)], capture_output=True, text=True, check=True).stdout for rounds in ROUNDS]
        counts = []
        for words in (library, [ours_program]):
            ours, said = a_message(folder, words, [protocol], workload)
            if said != told:
                fail("%s: ours prints %r, the C card %r" % (protocol, said, told))
            counts.append(ours)
        c = a_message(folder, reference, [protocol], "")[0] if write else known[protocol][2]
        print("speed: %-5s %5.0f instructions a message through the library, %5.0f in Rattle, the C card %5.0f; ratios %.2f and %.2f; %s"
              % (protocol, counts[0], counts[1], c, counts[0] / c, counts[1] / c, told[1].strip()))
        rows.append((protocol, counts[0], counts[1], c))
    return rows


def status(folder):
    """Instructions a read of Inv St, on NFO serial and on Modbus RTU, and of Drive Status, for each flag."""
    program = [host(folder, "status")]
    rows = []
    for flag, numbers in STATUS.items():
        counts = []
        for asked, (which, _) in READS.items():
            ours, said = a_message(folder, program, [asked, str(flag)], "")
            right = ["%s flag %d done %d told %d\n" % (asked, flag, rounds * MESSAGES, numbers[which]) for rounds in ROUNDS]
            if said != right:
                fail("a read of the status prints %r, and not %r" % (said, right))
            counts.append(ours)
        print("speed: a read, flag %2d: " % flag + ", ".join("%s %.0f" % (name, n) for (_, name), n in zip(READS.values(), counts)))
        rows.append((flag, *counts))
    return rows


def written(rows):
    out = ["| protocol | the library, from C | in Rattle | C by hand | ratios |", "|-|-|-|-|-|"]
    for protocol, library, ours, c in rows:
        note = ", its CRC bit by bit" if protocol == "rtu" else ""
        out.append("| %s | %.0f | %.0f | %.0f%s | %.2f, %.2f |" % (NAMES[protocol], library, ours, c, note, library / c, ours / c))
    return "\n".join(out) + "\n"


def status_written(rows):
    out = ["| flag | " + " | ".join(name for _, name in READS.values()) + " |", "|-|" + "-|" * len(READS)]
    for flag, *counts in rows:
        out.append("| %s | " % (flag or "none") + " | ".join("%.0f" % n for n in counts) + " |")
    return "\n".join(out) + "\n"


def part(name):
    """The page's table that stands under a mark of that name: its place, and the whole numbers of each of its rows."""
    at = re.search(r"(?<=<!-- %s -->\n).*?(?=<!-- its end -->)" % name, open(PAGE).read(), re.S)
    return at.span(), [tuple(map(int, re.findall(r"(?<=\| )\d+(?=[ ,])", line))) for line in at.group(0).splitlines()[2:]]


def put(name, lines):
    """Writes a table in the place of the one under that mark."""
    page = open(PAGE).read()
    (start, end), _ = part(name)
    open(PAGE, "w").write(page[:start] + lines + page[end:])


def not_above(what, now, limit):
    if now > MARGIN * limit:
        fail("%s: %.0f instructions, and docs/SPEED.md has %d; if that is meant, tests/speed/run --write" % (what, now, limit))


def main():
    if shutil.which(COMPILER) is None:
        skip("no C compiler (%s)" % COMPILER)
    if shutil.which("valgrind") is None:
        skip("no valgrind")
    write = "--write" in sys.argv[1:]
    messages, reads = part("the table")[1], part("status")[1]
    if not write and (len(messages), len(reads)) != (len(NAMES), len(STATUS)):
        fail("docs/SPEED.md has not its tables of %d and %d rows" % (len(NAMES), len(STATUS)))
    with tempfile.TemporaryDirectory() as folder:
        rows = table(folder, write, dict(zip(NAMES, messages)))
        read = status(folder)
    if write:
        put("the table", written(rows))
        put("status", status_written(read))
        return
    for (protocol, library, ours, _), stored in zip(rows, messages):
        not_above(protocol + ", a message through the library", library, stored[0])
        not_above(protocol + ", a message in Rattle", ours, stored[1])
    for (flag, *counts), stored in zip(read, reads):
        for (_, name), ours, limit in zip(READS.values(), counts, stored[-len(READS):]):
            not_above("a read of %s, flag %d" % (name, flag), ours, limit)


main()
