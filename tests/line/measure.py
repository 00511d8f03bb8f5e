#!/usr/bin/env python3
"""Instructions a request of the program `line` on a pty, by Modbus RTU, and of a slave on libmodbus that is asked the same.

A small master asks over a pty, and hears the reply before it asks again, so that a read hands over one frame. Each program runs under valgrind's callgrind, which counts what it
runs outside the system, for few requests and for twice as many; the difference is what the requests between cost, so that start and end are not counted. Every
reply, and every line that ours prints, must be right. With --write both counts go to docs/SPEED.md; without, ours may be no more above libmodbus's than it is there."""
import os
import re
import select
import shutil
import subprocess
import sys
import tempfile
import tty

HERE = os.path.dirname(os.path.abspath(__file__))
TOP = os.path.dirname(os.path.dirname(HERE))
PAGE = os.path.join(TOP, "docs", "SPEED.md")
PLACE = re.compile(r"(?<=<!-- line -->\n).*?(?=<!-- its end -->)", re.S)
HEADERS = "/usr/include/modbus"
REQUESTS = 200
PATIENCE = 30  # seconds until a reply is taken for lost
MARGIN = 1.01  # another build of the same compiler may move a few instructions
ACCEL, SPD_NUM = 528 + 4 * (308 - 1), 528 + 4 * (320 - 1)  # one register, and two


def skip(reason):
    print("line: skipped: " + reason)
    sys.exit(0)


def fail(reason):
    print("line: FAILED: " + reason)
    sys.exit(1)


def frame(unit):
    """A data unit at address 1, with its CRC."""
    crc = 0xFFFF
    for byte in b"\1" + unit:
        crc ^= byte
        for _ in range(8):
            crc = crc >> 1 ^ (0xA001 if crc & 1 else 0)
    return b"\1" + unit + crc.to_bytes(2, "little")


def words(*numbers):
    return b"".join(number.to_bytes(2, "big") for number in numbers)


def exchanges(count):
    """Requests with their replies: a row of one register is written by 06 and read by 03, one of two is written by 16 and read by 04."""
    for k in range(count // 4):
        one, two = words(2 + k), words(1 + k, k % 15)
        yield frame(b"\6" + words(ACCEL) + one), frame(b"\6" + words(ACCEL) + one)
        yield frame(b"\3" + words(ACCEL, 1)), frame(b"\3\2" + one)
        yield frame(b"\20" + words(SPD_NUM, 2) + b"\4" + two), frame(b"\20" + words(SPD_NUM, 2))
        yield frame(b"\4" + words(SPD_NUM, 2)), frame(b"\4\4" + two)


def ask(name, end, request, reply):
    """Asks over the master's end, and holds what comes to the reply."""
    os.write(end, request)
    got = b""
    while len(got) < len(reply):
        if not select.select([end], [], [], PATIENCE)[0]:
            fail("%s: to %s came %s and no more" % (name, request.hex(), got.hex() or "nothing"))
        got += os.read(end, 256)
    if got != reply:
        fail("%s: to %s came %s, and not %s" % (name, request.hex(), got.hex(), reply.hex()))


def count(folder, name, program, requests):
    """How many instructions the program runs for so many requests, and what it prints."""
    end, device = os.openpty()
    tty.setraw(device)
    counts, printed = os.path.join(folder, "counts"), os.path.join(folder, "printed")
    with open(printed, "wb") as lines, open(os.devnull) as nothing:
        command = ["valgrind", "--tool=callgrind", "--callgrind-out-file=" + counts] + program + [os.ttyname(device)]
        process = subprocess.Popen(command, stdin=nothing, stdout=lines, stderr=subprocess.DEVNULL)
    try:
        for request, reply in exchanges(requests):
            ask(name, end, request, reply)
        # the line ends, and the program with it
        os.close(device)
        os.close(end)
        if process.wait(PATIENCE) != 0:
            fail("%s ends with status %d" % (name, process.returncode))
    finally:
        if process.poll() is None:
            process.kill()
            process.wait()
    total = re.search(r"^(?:summary|totals): (\d+)", open(counts).read(), re.M)
    return int(total.group(1)), open(printed).read()


def a_request(folder, name, program, prints):
    """Instructions a request."""
    counts = []
    for requests in (REQUESTS, 2 * REQUESTS):
        total, printed = count(folder, name, program, requests)
        if printed != "".join(prints(reply) for _, reply in exchanges(requests)):
            fail("%s prints other lines than those of its replies" % name)
        counts.append(total)
    return (counts[1] - counts[0]) / REQUESTS


def written(ours, theirs):
    return "| on Modbus RTU | instructions a request |\n|-|-|\n| `line` | %.0f |\n| a slave on libmodbus | %.0f |\n" % (ours, theirs)


def main():
    for tool in ("gcc", "valgrind"):
        if shutil.which(tool) is None:
            skip("no " + tool)
    if not os.path.exists(os.path.join(HEADERS, "modbus.h")):
        skip("no libmodbus-dev")
    program = os.path.join(TOP, "crates", "line", "out", "line")
    if not os.path.exists(program):
        fail("crates/line/out/line is not built (rt ci builds every program, ./run line this one)")
    page = open(PAGE).read()
    at = PLACE.search(page)
    known = [int(number) for number in re.findall(r"\| (\d+) \|$", at.group(0) if at else "", re.M)]
    with tempfile.TemporaryDirectory() as folder:
        slave = os.path.join(folder, "slave")
        subprocess.check_call(["gcc", "-std=c11", "-O2", "-I", HEADERS, "-o", slave, os.path.join(HERE, "slave.c"), "-lmodbus"])
        ours = a_request(folder, "line", [program, "rtu"], lambda reply: "0 %s\n" % reply.hex().upper())
        theirs = a_request(folder, "slave", [slave], lambda reply: "")
    print("line: %.0f instructions a request" % ours)
    print("line: %.0f instructions a request of a slave on libmodbus" % theirs)
    if "--write" in sys.argv[1:]:
        if not at:
            fail("docs/SPEED.md has no place for the counts")
        open(PAGE, "w").write(page[: at.start()] + written(ours, theirs) + page[at.end():])
    elif len(known) != 2:
        fail("docs/SPEED.md does not have the two counts; tests/line/run --write puts them there")
    elif ours / theirs > MARGIN * known[0] / known[1]:
        fail("docs/SPEED.md has %d and %d; if that is meant, tests/line/run --write" % tuple(known))


main()
