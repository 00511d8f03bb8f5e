"""The answers of `bench` to each NAME.script under vectors/, held against NAME.expected, line for line.

Usage: compare.py PROGRAM, where `PROGRAM bench` runs the program. Exit status 0 where all agree.
"""
import pathlib
import subprocess
import sys


def difference(expected, told):
    """The first place where the answers told are not those expected, or None."""
    for number, (right, line) in enumerate(zip(expected, told), 1):
        if line != right:
            return "line %d is %s, expected %s" % (number, line, right)
    if len(told) != len(expected):
        return "%d lines are expected, %d were printed" % (len(expected), len(told))
    return None


def main():
    vectors = sorted((pathlib.Path(__file__).parent / "vectors").glob("*.script"))
    assert vectors, "no scripts"
    for script in vectors:
        ran = subprocess.run([sys.argv[1], "bench"], input=script.read_text(), capture_output=True, text=True, check=True)
        told = ran.stdout.splitlines()
        wrong = difference(script.with_suffix(".expected").read_text().splitlines(), told)
        if wrong:
            sys.exit("bench: %s: %s" % (script.stem, wrong))
        print("bench: %s: %d answers agree" % (script.stem, len(told)))


main()
