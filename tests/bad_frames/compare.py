"""What `bench` prints for the commands of make.py, held against the stored files `rtu` and `ascii` beside this one.

Usage: compare.py PROGRAM, where `PROGRAM bench` runs the program. Exit status 0 where all agree.
"""
import pathlib
import subprocess
import sys

import make


def main():
    here = pathlib.Path(__file__).parent
    for name, commands in (("rtu", make.rtu_commands()), ("ascii", make.ascii_commands())):
        asked = list(commands)
        ran = subprocess.run([sys.argv[1], "bench"], input="\n".join(asked) + "\n", capture_output=True, text=True, check=True)
        told = ran.stdout.splitlines()
        stored = (here / name).read_text().splitlines()
        for number, (right, answer) in enumerate(zip(stored, told), 1):
            if right != answer:
                sys.exit("bad_frames: %s: line %d is %s, stored is %s" % (name, number, answer, right))
        if len(told) != len(stored):
            sys.exit("bad_frames: %s: %d lines are stored, %d were printed" % (name, len(stored), len(told)))
        print("bad_frames: %s: %d commands, %d lines agree" % (name, len(asked), len(told)))


main()
