"""A card on an NFO line, written from documents 01 and 02: what it takes from a stream of bytes, and what it answers.

It knows the rows that NFO serial reaches, and a card that hears no host event: DIN1 stays inactive and no fault is raised, so the card
never runs, and outcomes 5 and 6 do not come about.
"""
import re

ENQUIRY = re.compile(rb"\x04([\x20-\x7F])([\x20-\x7F]{5})\x05", re.DOTALL)
SELECT = re.compile(rb"\x04([\x20-\x7F])\x02([\x20-\x7F]{5}=[\x20-\x7F]{4}\x03)([\x00-\xFF])", re.DOTALL)
TEXT = set(range(0x20, 0x80))
SHAPES = [
    [{0x04}, TEXT] + 5 * [TEXT] + [{0x05}],
    [{0x04}, TEXT, {0x02}] + 5 * [TEXT] + [{0x3D}] + 4 * [TEXT] + [{0x03}, set(range(256))],
]

# E number: name, the numbers allowed (None: read-only), the number at start
ROWS = {
    "E0008": ("P-Nom", range(1, 10001), 150),
    "E0009": ("U-Nom", range(1, 1001), 400),
    "E000F": ("f-Nom", range(1, 501), 50),
    "E0010": ("N-Nom", range(5, 32766), 1500),
    "E0015": ("cosphi", range(1, 101), 80),
    "E0005": ("I-magn", lambda card: range(0, card["I-limt"]), 100),
    "E0018": ("I-limt", lambda card: range(card["I-magn"] + 1, 3001), 1000),
    "E001D": ("Accel", range(2, 5001), 50),
    "E001C": ("Retard", range(2, 5001), 50),
    "E0030": ("Mode", range(0, 4), 0),
    "E000D": ("Fr-Min", range(0, 1501), 0),
    "E000B": ("Fr-Max", range(0, 1501), 500),
    "E0039": ("R-fix1", range(-20000, 20001), 0),
    "E0052": ("RegAmp", (1, -1), 1),
    "E00A8": ("SiBaud", (16, 32, 64, 128), 128),
    "E00AA": ("SiProt", (0, 1), 0),
    "E00A9": ("SiAdr", range(1, 95), 1),
    "E00AB": ("SioTot", range(0, 251), 50),
    "E001E": ("Setpoint", lambda card: range(-limit(card), limit(card) + 1), 0),
    "E0029": ("MODE", (1, 2, 3), 1),
    "E00AD": ("SCMD", (0, 129, 257), 0),
    "E00E8": ("Inv St, ack", None, None),
    "E00E9": ("Inv St", None, None),
    "E00AC": ("SioErr", None, 0),
    "E00B6": ("FrqAct", None, 0),
}


def limit(card):
    return {0: 1500, 1: 1500, 2: 200, 3: 9000}[card["Mode"]]


def bcc(data):
    total = 0
    for byte in data:
        total ^= byte
    return total


def in_capitals(parameter):
    """The parameter as the rows and replies have it. "The prefix E stays a capital": a small one is no row's."""
    return parameter[0] + parameter[1:].upper()


def messages(stream):
    """What the left-to-right reading takes: (where it ends, ADR, parameter, value or None) for each message, in order."""
    taken, place = [], 0
    while place < len(stream):
        enquiry = ENQUIRY.match(stream, place)
        select = SELECT.match(stream, place)
        if select and bcc(select[2]) != select[3][0]:
            select = None
        whole = enquiry or select
        if whole:
            value = select[2][6:10].decode() if select else None
            taken.append((whole.end(), whole[1][0], whole[2][:5].decode(), value))
            place = whole.end()
        elif could_become(stream[place:]):
            break
        else:
            place += 1
    return taken


def could_become(left):
    return any(len(left) < len(shape) and all(byte in kind for byte, kind in zip(left, shape)) for shape in SHAPES)


class Card:
    def __init__(self):
        self.held = {name: start for name, allowed, start in ROWS.values() if start is not None}

    def served(self, adr, parameter, value):
        """The outcome and the reply's bytes."""
        parameter = in_capitals(parameter)
        broadcast = adr == 95 + 32
        ours = adr in (32, self.held["SiAdr"] + 32) and not broadcast
        if not (ours or broadcast and value is not None):
            return 1, b""
        outcome = self.told(parameter) if value is None else self.written(parameter, value)
        if broadcast:
            return outcome, b""
        if outcome:
            return outcome, bytes([adr, 0x15])
        if value is not None:
            return 0, bytes([adr, 0x06])
        body = b"%s=%04X\x03" % (parameter.encode(), self.number(parameter) % 65536)
        return 0, bytes([adr, 0x02]) + body + bytes([bcc(body)])

    def told(self, parameter):
        return 0 if parameter in ROWS else 2

    def number(self, parameter):
        name = ROWS[parameter][0]
        if name.startswith("Inv St"):
            return {1: 24, 2: 33, 3: 37}[self.held["MODE"]]
        return self.held[name]

    def written(self, parameter, digits):
        if parameter not in ROWS:
            return 2
        name, allowed, _ = ROWS[parameter]
        if allowed is None:
            return 3
        if not re.fullmatch("[0-9A-Fa-f]{4}", digits):
            return 8
        number = int(digits, 16)
        if number > 32767:
            number -= 65536
        if callable(allowed):
            allowed = allowed(self.held)
        if number not in allowed:
            return 4
        if name == "SCMD" and (self.held["MODE"] != 3 or number != 0):
            return 7
        if name == "Mode" and number != self.held["Mode"]:
            self.held["Setpoint"] = 0
        self.held[name] = number
        return 0


def lines(stream):
    """The lines that the session program owes, one for each message taken."""
    card = Card()
    told = []
    for _, adr, parameter, value in messages(stream):
        outcome, reply = card.served(adr, parameter, value)
        told.append("%d %s\n" % (outcome, reply.hex().upper() or "-"))
    return told
