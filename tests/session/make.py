"""Makes the input and the output of the program `session_damaged`: a long, damaged stream, and the lines that card.py owes for it.

Usage: make.py FOLDER, which gets the files `stdin` and `stdout`. The bytes are the same every time.
"""
import os
import sys

import card

sys.path.append(os.path.dirname(os.path.dirname(os.path.abspath(__file__))))
from draw import Draw


def enquiry(address, parameter):
    return bytes([0x04, address + 32]) + parameter.encode() + b"\x05"


def digits(number):
    return "%04X" % (number % 65536)


def select(address, parameter, value):
    body = ("%s=%s\x03" % (parameter, value if isinstance(value, str) else digits(value))).encode()
    return bytes([0x04, address + 32, 0x02]) + body + bytes([card.bcc(body)])


# the numbers at the ends of what a row allows, and those just past them
EDGES = {
    "E0008": [0, 1, 10000, 10001],
    "E0009": [0, 1, 1000, 1001],
    "E000F": [0, 1, 500, 501],
    "E0010": [4, 5, 32765, 32766],
    "E0015": [0, 1, 100, 101],
    "E0005": [-1, 0, 999, 1000],
    "E0018": [0, 100, 999, 1000, 3000, 3001],
    "E001D": [1, 2, 5000, 5001],
    "E001C": [1, 2, 5000, 5001],
    "E0030": [-1, 0, 3, 4],
    "E000D": [-1, 0, 1500, 1501],
    "E000B": [-1, 0, 1500, 1501],
    "E0039": [-20001, -20000, 20000, 20001, -32768, 32767],
    "E0052": [-2, -1, 0, 1, 2],
    "E00A8": [0, 16, 17, 32, 64, 127, 128, 256],
    "E00AA": [-1, 0, 1, 2],
    "E00AB": [-1, 0, 250, 251],
    "E001E": [-9001, -9000, -1501, -1500, -201, -200, 200, 201, 1500, 1501, 9000, 9001],
    "E0029": [0, 1, 2, 3, 4],
    "E00AD": [0, 1, 128, 129, 130, 257, 258],
}
ROWS = list(card.ROWS)
WRITABLE = list(EDGES)  # but for SiAdr, which has a kind of its own
READ_ONLY = ["E00E8", "E00E9", "E00AC", "E00B6"]
UNKNOWN = ["E0019", "E00A7", "E00ff", "EFFFF", "e001d", "e00A9", "F001D", "f001d", "E001g", "E001G", "E00`9", "E00@9", "     ", "~~~~~", "E 01D"]
NOT_HEX = ["00g4", "00G4", "00@4", "00`4", "    ", "-001", "+001", "0x64", "00 4", "\x7f\x7f\x7f\x7f"]
CHARACTERS = [chr(code) for code in range(0x20, 0x80)]
ENDS_IN_04 = [select(1, "E001D", value) for value in range(2, 5001) if select(1, "E001D", value)[-1] == 0x04]


def told(draw):
    return enquiry(1, draw.one_of(ROWS))


def written(draw):
    parameter = draw.one_of(WRITABLE)
    return select(1, parameter, draw.one_of(EDGES[parameter]))


def low(draw):
    return select(1, draw.one_of(WRITABLE), draw.below(130))


def wide(draw):
    return select(1, draw.one_of(WRITABLE), draw.below(65536))


def small_letters(draw, capitals):
    """The same digits in small letters, or each letter as it is drawn."""
    return draw.one_of([capitals.lower(), "".join(draw.one_of([digit, digit.lower()]) for digit in capitals)])


def told_small(draw):
    return enquiry(1, "E" + small_letters(draw, draw.one_of(ROWS)[1:]))


def written_small(draw):
    parameter = draw.one_of(WRITABLE)
    return select(1, "E" + small_letters(draw, parameter[1:]), small_letters(draw, digits(draw.one_of(EDGES[parameter]))))


def message(draw):
    return draw.one_of([told, written, low, wide, told_small, written_small])(draw)


def no_row(draw):
    return draw.one_of([enquiry(1, draw.one_of(UNKNOWN)), select(1, draw.one_of(UNKNOWN), draw.below(65536))])


def read_only(draw):
    return select(1, draw.one_of(READ_ONLY), draw.one_of(["0000", "00ZZ"]))


def not_hex(draw):
    return select(1, draw.one_of(WRITABLE), draw.one_of(NOT_HEX))


def other_address(draw):
    address = 2 + draw.below(93)
    return draw.one_of([enquiry(address, "E001D"), select(address, "E001D", draw.below(5000))])


def address_0(draw):
    parameter = draw.one_of(WRITABLE)
    return draw.one_of([enquiry(0, draw.one_of(ROWS)), select(0, parameter, draw.one_of(EDGES[parameter]))])


def to_all(draw):
    """A broadcast write, done or refused, or a broadcast read; then a question that shows what it did."""
    parameter = draw.one_of(WRITABLE)
    first = draw.one_of([select(95, parameter, draw.one_of(EDGES[parameter])), enquiry(95, parameter), select(95, draw.one_of(UNKNOWN), 1), select(95, parameter, "0O00")])
    return first + enquiry(1, parameter)


def new_address(draw):
    """SiAdr changes: the acknowledgement comes from the old address, and the old address is answered no more. Or it is refused: 0 and 95 are no card's own."""
    address = draw.one_of([0, 2, 7, 94, 95, 96])
    return select(1, "E00A9", address) + enquiry(1, "E00A9") + enquiry(address % 96, "E00A9") + select(0, "E00A9", 1) + enquiry(1, "E00A9")


def new_mode(draw):
    """A different Mode zeroes Setpoint, the same one does not."""
    return select(1, "E0030", draw.below(4)) + select(1, "E001E", draw.one_of(EDGES["E001E"])) + select(1, "E0030", draw.below(4)) + enquiry(1, "E001E")


def drive(draw):
    """MODE, SCMD and Inv St: without DIN1 no run value is permitted."""
    scmd = select(draw.one_of([1, 0, 95]), "E00AD", draw.one_of([0, 129, 257, 128]))
    return select(1, "E0029", draw.below(5)) + scmd + enquiry(1, draw.one_of(["E00E8", "E00E9", "E00AD"]))


def ends_in_04(draw):
    """A BCC of 04 is no beginning: an ENQUIRY after it is read, and is lost without an EOT of its own."""
    after = enquiry(1, "E001D")
    return draw.one_of(ENDS_IN_04) + draw.one_of([after, after[1:]])


def turned_small(draw):
    """A write whose letters turn small, while its BCC stays that of the capitals: an odd number of letters spoils it."""
    whole = written(draw)
    return whole[:4] + whole[4:13].lower() + whole[13:]


def lost(draw):
    whole = message(draw)
    place = draw.below(len(whole))
    return whole[:place] + whole[place + 1:]


def damaged(draw):
    whole = bytearray(message(draw))
    whole[draw.below(len(whole))] ^= 1 << draw.below(8)
    return bytes(whole)


def doubled(draw):
    whole = message(draw)
    place = draw.below(len(whole))
    return whole[:place] + whole[place:place + 1] + whole[place:]


def begun(draw):
    """A beginning, and then a whole message: the byte that spoils the one starts the other."""
    whole = message(draw)
    return whole[:1 + draw.below(len(whole) - 1)] + message(draw)


def noise(draw):
    return bytes(draw.one_of([0x04, 0x05, 0x02, 0x03, 0x21, 0x45, 0x30, draw.below(256)]) for _ in range(draw.below(24)))


def others_reply(draw):
    """What another card answers is for the office, and no message to a card."""
    body = b"E001D=%04X\x03" % draw.below(5000)
    return draw.one_of([b"\x22\x02" + body + bytes([card.bcc(body)]), b"\x22\x06", b"\x22\x15"])


KINDS = [told, told, written, written, low, wide, told_small, written_small, written_small, turned_small, no_row, no_row, read_only, not_hex, not_hex,
         other_address, address_0, to_all, new_address, new_mode, drive, ends_in_04, lost, lost, damaged, damaged, doubled, begun, noise, noise, others_reply]


def every_character():
    """Each character of a message as a digit: the last one and the one before it of a parameter, and one of Fr-Max's value."""
    asked = b"".join(enquiry(1, "E000" + one) + enquiry(1, "E00" + one + "8") for one in CHARACTERS)
    return asked + b"".join(select(1, "E000B", "00" + one + "0") + enquiry(1, "E000b") for one in CHARACTERS)


def table():
    """Each row is asked in capitals, in small letters and with a small prefix, written at all its edges, and asked again; Setpoint at each Mode; and SiAdr at
    its own edges."""
    asked = b"".join(enquiry(1, parameter) + enquiry(1, "E" + parameter[1:].lower()) + enquiry(1, parameter.lower()) for parameter in ROWS)
    edges = b"".join(select(1, parameter, number) + enquiry(1, parameter) for parameter in WRITABLE for number in EDGES[parameter])
    modes = b"".join(select(1, "E0030", mode) + b"".join(select(1, "E001E", number) for number in EDGES["E001E"]) for mode in (0, 1, 2, 3))
    address = b"".join(select(0, "E00A9", number) + enquiry(0, "E00A9") for number in (-1, 96, 95, 94, 0, 1))
    return asked + edges + modes + address


def stream(seed, pieces):
    """Every kind of piece in turn, then kinds drawn at random, and at the end a message that is not whole."""
    draw = Draw(seed)
    kinds = KINDS + [draw.one_of(KINDS) for _ in range(pieces - len(KINDS))]
    return b"".join(kind(draw) for kind in kinds) + enquiry(1, "E001D")[:5]


def main():
    heard = table() + every_character() + stream(9, 480)
    with open(os.path.join(sys.argv[1], "stdin"), "wb") as file:
        file.write(heard)
    with open(os.path.join(sys.argv[1], "stdout"), "w") as file:
        file.write("".join(card.lines(heard)))


if __name__ == "__main__":
    main()
