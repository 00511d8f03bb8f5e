"""Makes the bad frames and damaged messages of this test, and the good ones beside them, as commands of `bench`. The bytes are the same every time.

Whether a frame or a message is well-formed is told here by the words of documents 01 and 02 and no code of the card: the CRC by its eight shifts a byte, a message
by a pattern and its sum.
"""
import os
import re
import sys

sys.path.append(os.path.dirname(os.path.dirname(os.path.abspath(__file__))))
from draw import Draw

LONGEST = 300
FRAMES_A_LENGTH = 10
READ_ACCEL = bytes([0x03, 0x06, 0xDC, 0x00, 0x01])  # 03 of register 528 + 4 × (308 − 1), count 1
MESSAGE = re.compile(rb"(?=:((?:[0-9A-Fa-f]{2}){3,255})\r\n)")
DIGITS = b"0123456789ABCDEFabcdef"
NO_DIGITS = b"gG@`"  # what stands beside the letters
# reads of Accel and of SiAdr, and a write of Accel's own number; the LRC of SiAdr's read is all the letters that it has
IN_LETTERS = [b":010306dc000119", b":010306Dc000119", b":010306dC000119", b":010307000001F4", b":010307000001f4",
              b":010606dc0032e5", b":010606Dc0032E5", b":010606DC0032e5"]
LIMIT = b"0103" + 252 * b"bC"  # 508 digits; the one LRC that fits is EC


def crc(data):
    total = 0xFFFF
    for byte in data:
        total ^= byte
        for _ in range(8):
            total = total >> 1 ^ (0xA001 if total & 1 else 0)
    return bytes([total & 0xFF, total >> 8])


def ascii_message(data):
    return b":" + (data + bytes([-sum(data) & 0xFF])).hex().upper().encode() + b"\r\n"


def well_formed_in(stream):
    """The well-formed messages that begin anywhere in the stream."""
    return [m[1] for m in MESSAGE.finditer(stream) if sum(bytes.fromhex(m[1].decode())) % 256 == 0]


def bad_frames():
    """Frames of every length from 0 to 300: random bytes, a request with a byte changed, and bytes whose CRC is right where the length is not."""
    draw = Draw(11)
    for length in range(LONGEST + 1):
        for turn in range(FRAMES_A_LENGTH):
            frame = bytes([0x01]) + draw.bytes(length)
            frame = frame[:max(length - 2, 0)]
            frame = (frame + crc(frame))[:length]
            if 4 <= length <= 256:
                at = draw.below(length)
                frame = frame[:at] + bytes([frame[at] ^ 1 + draw.below(255)]) + frame[at + 1:]
                if turn % 2:
                    frame = draw.bytes(length)
                assert crc(frame[:-2]) != frame[-2:]
            yield frame


def in_letters(draw, text):
    """The text in capitals, in small letters, or each letter as it is drawn."""
    mixed = bytes(draw.one_of([byte, bytes([byte]).lower()[0]]) for byte in text)
    return draw.one_of([text, text.lower(), mixed])


def damaged(draw, turn):
    """A message with a digit changed, lost, doubled or none, without its CR or LF, too short or too long; or random bytes of any length."""
    kind = turn % 8
    data = bytes([0x01]) + (READ_ACCEL if turn % 3 else draw.bytes(1 + draw.below(253)))
    text = in_letters(draw, ascii_message(data))
    at = 1 + draw.below(len(text) - 3)
    if kind == 0:
        others = [digit for digit in DIGITS if int(chr(digit), 16) != int(text[at:at + 1], 16)]
        return text[:at] + bytes([draw.one_of(others)]) + text[at + 1:]
    if kind == 1:
        return text[:at] + text[at + 1:]
    if kind == 2:
        return text[:at] + text[at:at + 1] + text[at:]
    if kind == 3:
        return text[:-2] + b"\n"
    if kind == 4:
        return text[:-1] + b"\r"
    if kind == 5:
        return in_letters(draw, ascii_message(bytes([0x01]) * (1 if turn % 3 else 255)))
    if kind == 6:
        return text[:at] + bytes([draw.one_of(NO_DIGITS)]) + text[at + 1:]
    return draw.bytes(draw.below(LONGEST + 1))


def damaged_messages():
    """Some thousands of these. In all of them together no well-formed message begins anywhere."""
    draw = Draw(15)
    stream = b""
    for turn in range(3000):
        scrap = damaged(draw, turn)
        # a byte that no message has parts them, but where the damage itself is the missing end
        if turn % 8 not in (3, 4):
            scrap += b"!"
        stream += scrap
        yield scrap
    assert not well_formed_in(stream)


def every_byte():
    """Reads of SiAdr with any byte for the high or the low digit of the count, each with all LRCs that a digit there could ask for."""
    for byte in range(256):
        for number in range(16):
            for pair, count in ((b"%c1" % byte, 16 * number + 1), (b"0%c" % byte, number)):
                yield b":0103070000" + pair + b"%02x\r\n!" % (-(0x01 + 0x03 + 0x07 + count) & 0xFF)


def line(frame):
    return "bytes " + (frame.hex().upper() or "-")


def at_the_limit():
    """Texts whose 509th and 510th digit fit, in scraps, and are taken; and texts where one of the two does not, or a 511th comes, and nothing is pending."""
    for last in (b"EC", b"ec", b"Ec", b"eC"):
        for scrap in (b":" + LIMIT, last[:1], last[1:], b"\r", b"\n"):
            yield line(scrap)
        yield line(b":" + LIMIT + last + b"\r\n")
    for last in (b"D", b"f", b"c", b"g", b"`", b"@", b"ED", b"eb", b"ee", b"Eg", b"e`", b"E@", b"ecC", b"ECe"):
        yield line(b":" + LIMIT + last)
        yield "state"
        yield line(b"\r\n")


def rtu_commands():
    yield "start rtu"
    for number, frame in enumerate(bad_frames()):
        yield line(frame)
        if number % 100 == 99:
            yield "state"
    body = bytes([0x01]) + READ_ACCEL
    yield line(body + crc(body))
    yield "state"


def ascii_commands():
    yield "start ascii"
    for number, scrap in enumerate(damaged_messages()):
        yield line(scrap)
        if number % 100 == 99:
            yield "bytes 21"
            yield "state"
    yield from map(line, [text + b"\r\n" for text in IN_LETTERS])
    yield from map(line, every_byte())
    yield from at_the_limit()
    yield line(ascii_message(bytes([0x01]) + READ_ACCEL))
    yield "state"
