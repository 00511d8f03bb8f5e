"""The CRC of many frames by `crc_frames`, by a division of polynomials, and by pymodbus where the machine has it.

Usage: compare.py PROGRAM, where `PROGRAM crc_frames` runs the program. Exit status 0 where all agree on every frame.
"""
import random
import subprocess
import sys

GENERATOR = 0x18005  # x^16 + x^15 + x^2 + 1


def mirrored(number, bits):
    return int(format(number, "0%db" % bits)[::-1], 2)


def crc_by_division(frame):
    """The remainder of the frame's polynomial, lowest bit of each byte first, with the first 16 bits inverted, times x^16."""
    dividend = 0
    for byte in frame:
        dividend = dividend << 8 | mirrored(byte, 8)
    dividend = dividend << 16 ^ 0xFFFF << 8 * len(frame)
    while dividend.bit_length() > 16:
        dividend ^= GENERATOR << dividend.bit_length() - 17
    return mirrored(dividend, 16)


def frames():
    """Frames of every length from 0 to 256: random bytes (four of each length), all 00h, all FFh, and all of one random byte."""
    draw = random.Random(16)
    for length in range(257):
        for _ in range(4):
            yield bytes(draw.randrange(256) for _ in range(length))
        for byte in (0x00, 0xFF, draw.randrange(256)):
            yield bytes([byte]) * length


def main():
    asked = list(frames())
    lines = "".join((frame.hex().upper() or "-") + "\n" for frame in asked)
    ran = subprocess.run([sys.argv[1], "crc_frames"], input=lines, capture_output=True, text=True, check=True)
    told = ran.stdout.splitlines()
    assert len(told) == len(asked), "%d frames, %d answers" % (len(asked), len(told))
    others = {"a division of polynomials": crc_by_division}
    try:
        from pymodbus.utilities import computeCRC
        others["pymodbus"] = lambda frame: int.from_bytes(computeCRC(frame).to_bytes(2, "little"), "big")
    except ImportError:
        print("crc: pymodbus skipped: it is not on this machine and could not be installed")
    for name, other in others.items():
        for frame, answer in zip(asked, told):
            right = "%04X" % other(frame)
            if answer != right:
                sys.exit("crc: %s gives %s, crc_frames %s, for %s" % (name, right, answer, frame.hex()))
        print("crc: %d frames of 0 to 256 bytes agree with %s" % (len(asked), name))


main()
