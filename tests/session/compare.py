"""The session program against card.py: the stored files, further streams, streams cut into scraps, and a line as soon as it is due.

Usage: compare.py PROGRAM CRATE, where `PROGRAM session` runs the program and CRATE is the folder of `session_damaged`. Exit status 0
where all agree.
"""
import os
import select
import subprocess
import sys
import tempfile
import time

import card
import make

FURTHER = range(100, 140)
PIECES = 300


def fail(text):
    sys.exit("session: " + text)


def stored(crate):
    """The files beside the program are what make.py makes."""
    with tempfile.TemporaryDirectory() as folder:
        subprocess.run([sys.executable, make.__file__, folder], check=True)
        for name in ("stdin", "stdout"):
            with open(os.path.join(folder, name), "rb") as made, open(os.path.join(crate, name), "rb") as kept:
                if made.read() != kept.read():
                    fail("%s of %s is not what make.py makes" % (name, crate))
    print("session: the stored stream and its lines are those of make.py")


def further(program):
    """Streams that are stored nowhere, each in one piece."""
    count = 0
    for seed in FURTHER:
        heard = make.stream(seed, PIECES)
        ran = subprocess.run([program, "session"], input=heard, capture_output=True, check=True)
        due = card.lines(heard)
        if ran.stdout.decode() != "".join(due):
            fail("the lines of stream %d differ" % seed)
        count += len(due)
    print("session: %d further streams, %d lines agree" % (len(FURTHER), count))


def scraps(program):
    """The same stream in scraps of 1 to 23 bytes, with a pause after each, so that the program reads them one by one."""
    heard = make.stream(200, PIECES)
    draw = make.Draw(200)
    with subprocess.Popen([program, "session"], stdin=subprocess.PIPE, stdout=subprocess.PIPE) as running:
        place = 0
        while place < len(heard):
            size = 1 + draw.below(23)
            os.write(running.stdin.fileno(), heard[place:place + size])
            place += size
            time.sleep(0.001)
        running.stdin.close()
        told = running.stdout.read().decode()
    if told != "".join(card.lines(heard)):
        fail("the lines of a stream in scraps differ")
    print("session: a stream of %d bytes in scraps agrees" % len(heard))


def at_once(program):
    """No line before the last byte of a message, and its line before the next byte."""
    heard = make.stream(201, len(make.KINDS))
    ends = {end: line for (end, _, _, _), line in zip(card.messages(heard), card.lines(heard))}
    with subprocess.Popen([program, "session"], stdin=subprocess.PIPE, stdout=subprocess.PIPE) as running:
        for place in range(len(heard)):
            os.write(running.stdin.fileno(), heard[place:place + 1])
            due = ends.get(place + 1)
            ready = select.select([running.stdout], [], [], 10 if due else 0.002)[0]
            told = os.read(running.stdout.fileno(), 4096).decode() if ready else None
            if told != due:
                running.kill()
                fail("after %d bytes %r was due, and %r came" % (place + 1, due, told))
        running.stdin.close()
    print("session: %d bytes, one by one, and each of %d lines with its last byte" % (len(heard), len(ends)))


def main():
    program, crate = sys.argv[1:]
    stored(crate)
    further(program)
    scraps(program)
    at_once(program)


main()
