"""The drive of a card, written from documents 01 and 02: what each message and host event does to it, and Drive Status by the rules.

It knows the rows that the drive rules speak of, and two settings beside them: Accel, writable always, and P-Nom, "only when not running".
"""
from collections import namedtuple

US, ALL, ANOTHER = "us", "all", "another"
WHOLE, SPOILT, SHORT = "whole", "spoilt", "short"  # SPOILT has a wrong CRC, SHORT comes with a reply buffer that is too short

# to whom; the row's name, or one that no row has; the number written (None: a read)
Message = namedtuple("Message", "to name number way", defaults=(None, WHOLE))
Row = namedtuple("Row", "e register allowed kind")


def register(adi):
    """ "Register = 528 + 4 x (ADI - 1)" """
    return 528 + 4 * (adi - 1)


# E number and register; the numbers allowed (None: read-only); class. The start numbers are below
ROWS = {
    "P-Nom": Row(0x0008, register(301), range(1, 10001), "Init"),
    "Accel": Row(0x001D, register(308), range(2, 5001), "Run"),
    "SioTot": Row(0x00AB, register(318), range(0, 251), "Run"),
    "MODE": Row(0x0029, register(34), (1, 2, 3), "Run"),
    "SCMD": Row(0x00AD, register(35), (0, 129, 257), "Run"),
    "Inv St, ack": Row(0x00E8, register(38), None, "read"),
    "Inv St": Row(0x00E9, 0x02A5, None, "read"),
    "SioErr": Row(0x00AC, register(323), None, "read"),
    "Drive Status": Row(None, register(19), None, "read"),
}
START = {"P-Nom": 150, "Accel": 50, "SioTot": 50}
FAULTS = (*range(1, 14), *range(16, 24))
FLAG_14 = 1 << 14
TIME_OUT, PARITY = 1, 2  # the bits of SioErr

# each word that the rules can make. SCMD is not 0 only at MODE 3, with DIN1 active and no flag
WORDS = {
    0x0000: "MODE 1, DIN1 active, no flag",
    0x0002: "MODE 2, running",
    0x0008: "MODE 1 or 2, DIN1 active, a flag",
    0x0040: "MODE 1 or 2, DIN1 inactive, no flag",
    0x0048: "MODE 1 or 2, DIN1 inactive, a flag",
    0x0201: "MODE 3, ready, standing",
    0x0203: "MODE 3, ready, running",
    0x0208: "MODE 3, DIN1 active, a flag",
    0x0240: "MODE 3, DIN1 inactive, no flag",
    0x0248: "MODE 3, DIN1 inactive, a flag",
}


class Card:
    """A card at address 1. Each routine gives the outcome."""

    def __init__(self, protocol):
        self.protocol = protocol
        self.start()

    def start(self):
        """ "At start DIN1 is inactive and no cause stands." """
        self.held = dict(START)
        self.din1, self.causes = 0, 0
        return self.restart()

    def restart(self):
        """ "flags become the standing causes; MODE 1, SCMD, SioErr and sum 0" """
        self.held.update({"MODE": 1, "SCMD": 0, "SioErr": 0})
        self.flags, self.sum = self.causes, 0
        return 0

    def running(self):
        """ "Running: MODE 2, DIN1 active, no fault flag; or MODE 3, SCMD not 0. Otherwise not." """
        by_din1 = self.held["MODE"] == 2 and self.din1 and not self.flags
        return bool(by_din1 or self.held["MODE"] == 3 and self.held["SCMD"] != 0)

    def status(self):
        """ "0 ready (MODE 3, DIN1 active, no flag), 1 running, 3 a fault flag stands, 6 DIN1 inactive, 9 MODE 3; the others 0" """
        bus = self.held["MODE"] == 3
        bits = {0: bus and self.din1 and not self.flags, 1: self.running(), 3: self.flags, 6: not self.din1, 9: bus}
        return sum(1 << bit for bit, stands in bits.items() if stands)

    def raise_fault(self, number):
        """ "The host raises one (both set)" """
        if number not in FAULTS:
            return 12
        self.causes |= 1 << number
        self.flag(number)
        return 0

    def end_cause(self, number):
        """ "or ends a cause (the flag stays)" """
        if number not in FAULTS:
            return 12
        self.causes &= ~(1 << number)
        return 0

    def flag(self, number):
        """ "SCMD becomes 0 when .. a fault flag is raised" """
        self.flags |= 1 << number
        self.held["SCMD"] = 0

    def set_din1(self, active):
        """ "SCMD becomes 0 when DIN1 goes inactive" """
        self.din1 = active
        if not active:
            self.held["SCMD"] = 0
        return 0

    def port_fault(self, bit):
        """ "Either one at MODE 3 also raises flag 14." """
        self.held["SioErr"] |= bit
        if self.held["MODE"] == 3:
            self.flag(14)
        return 0

    def tick(self, tenths):
        """ "goes above it, a time-out happens and the sum restarts at 0. While SioTot is 0 the sum is 0." """
        if not 1 <= tenths <= 250:
            return 12
        if self.held["SioTot"] == 0:
            return 0
        self.sum += tenths
        if self.sum > self.held["SioTot"]:
            self.sum = 0
            self.port_fault(TIME_OUT)
        return 0

    def measure(self, number):
        """ "The host sets FrqAct, I-rms and OpTime freely": none of them is the drive's """
        return 0

    def heard(self, message):
        """The outcome, and the number that a read tells. The sum is that "since .. the last taken message of outcome other than 1 or 11"; 10 takes none."""
        outcome, number = self.served(message)
        if outcome not in (1, 10, 11):
            self.sum = 0
        return outcome, number

    def served(self, message):
        """ "Order: 10 first", 11, 1, 2, and then a write's own refusals """
        if message.way != WHOLE:
            return {SHORT: 10, SPOILT: 11}[message.way], None
        if message.to == ANOTHER or message.to == ALL and message.number is None:
            return 1, None
        if message.name not in ROWS:
            return 2, None
        if message.number is None:
            return 0, self.told(message.name)
        return self.written(message), None

    def told(self, name):
        """What a read tells, and then what it clears."""
        if name == "Drive Status":
            return self.status()
        if name == "Inv St":
            return self.status_number()
        if name == "Inv St, ack":
            number = self.status_number()
            self.flags &= self.causes | FLAG_14
            return number
        number = self.held[name]
        if name == "SioErr":
            self.clear_port_faults()
        return number

    def status_number(self):
        """ "the lowest flagged number, else 24 at MODE 1, 33/34 at MODE 2 and 37/38 at MODE 3, standing/running" """
        if self.flags:
            return min(number for number in range(32) if self.flags >> number & 1)
        standing, running = {1: (24, 24), 2: (33, 34), 3: (37, 38)}[self.held["MODE"]]
        return running if self.running() else standing

    def clear_port_faults(self):
        """SioErr and flag 14, as reading SioErr "zeroes it and flag 14" """
        self.held["SioErr"] = 0
        self.flags &= ~FLAG_14

    def broadcast_stop(self, message):
        """ "A broadcast SELECT of SCMD 0 while 14 is the only flag" """
        return self.protocol == "nfo" and message[:3] == (ALL, "SCMD", 0) and self.flags == FLAG_14

    def written(self, message):
        """ "3, .. 4, 5, 6, 7"; the broadcast stop "with outcome 0, at any MODE" """
        _, name, number, _ = message
        row = ROWS[name]
        if row.allowed is None:
            return 3
        if number not in row.allowed:
            return 4
        if self.broadcast_stop(message):
            self.clear_port_faults()
            return 0
        if self.flags:
            return 5
        if row.kind == "Init" and self.running():
            return 6
        if name == "SCMD" and not self.permitted(number):
            return 7
        if name == "MODE" and number != self.held["MODE"]:
            self.held["SCMD"] = 0
        self.held[name] = number
        return 0

    def permitted(self, number):
        """ "SCMD is written only at MODE 3; run values need DIN1 active." """
        return self.held["MODE"] == 3 and (number == 0 or self.din1)

    def words(self):
        """The words of the state line that this card knows, by their numbers."""
        held = {2: "P-Nom", 9: "Accel", 19: "SioTot", 24: "MODE", 25: "SCMD", 26: "SioErr"}
        drive = {30: self.din1, 31: self.causes, 32: self.flags, 33: self.sum, 36: self.status()}
        return {**{word: self.held[name] for word, name in held.items()}, **drive}
