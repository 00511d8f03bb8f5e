"""What a Modbus master asks of a fresh card at address 1, one step after another, and what documents 01 and 02 say of each."""
import random

READ, INPUT, ONE, MANY, COILS, REPORT, IDENTIFY = 3, 4, 6, 16, 1, 17, 43

# document 01's outcomes, and the exception of each
EXCEPTION = {2: 2, 3: 2, 4: 3, 5: 4, 7: 4, 8: 3, 9: 1}

# who `line` is, as the README has it; and the objects 00h to 06h by document 02
REVISION, MODEL, SERIAL_NUMBER = b"Revision 02.03 PC", b"LineOnPC", b"0000000000000001"
OBJECTS = [b"Valley Water Card", b"", REVISION, b"", b"Line card", MODEL, b""]
BASIC, REGULAR, EXTENDED, SPECIFIC = 1, 2, 3, 4


def register(adi):
    """ "Register = 528 + 4 x (ADI - 1)" """
    return 528 + 4 * (adi - 1)


P_NOM, N_NOM, I_MAGN, ACCEL, RETARD = register(301), register(304), register(306), register(308), register(309)
R_FIX1, SI_BAUD, SI_ADR, SIO_TOT, MB_ADR = register(313), register(315), register(317), register(318), register(319)
SPD_NUM, SPD_DEN = register(320), register(321)
MODE, SCMD, INV_ST_ACK, INV_ST = register(34), register(35), register(38), 0x02A5
SIO_ERR, FRQ_ACT, I_RMS, OP_TIME, DRIVE_STATUS = register(323), register(125), register(120), register(39), register(19)


class Step:
    """A request and its outcome. `asked` is a count to read, or the words to write; `words` is what a read tells."""

    def __init__(self, function, register, asked, outcome=0, words=None):
        self.function, self.register, self.asked, self.outcome, self.words = function, register, asked, outcome, words

    def __str__(self):
        return "function %d, register %04Xh, %s" % (self.function, self.register, self.asked)

    def answer(self):
        """What a master is to hear: the words of a read, none of a write, or an exception's number."""
        return EXCEPTION[self.outcome] if self.outcome else self.words

    def request(self):
        """The data unit of the request."""
        head = bytes([self.function]) + self.register.to_bytes(2, "big")
        if self.function == MANY:
            return head + len(self.asked).to_bytes(2, "big") + bytes([2 * len(self.asked)]) + b"".join(word.to_bytes(2, "big") for word in self.asked)
        return head + (self.asked[0] if self.function == ONE else self.asked).to_bytes(2, "big")

    def reply(self):
        """The data unit of the reply."""
        if self.outcome:
            return bytes([0x80 | self.function, EXCEPTION[self.outcome]])
        if self.words is not None:
            return bytes([self.function, 2 * len(self.words)]) + b"".join(word.to_bytes(2, "big") for word in self.words)
        last = self.asked[0] if self.function == ONE else len(self.asked)
        return bytes([self.function]) + self.register.to_bytes(2, "big") + last.to_bytes(2, "big")


class Identify:
    """A request of 43, type 14, by a code and an object, and its outcome. `objects` are the numbers of those that it tells."""

    function = IDENTIFY

    def __init__(self, code, first, objects=(), outcome=0):
        self.code, self.first, self.objects, self.outcome = code, first, list(objects), outcome

    def __str__(self):
        return "function 43, code %02X, object %02Xh" % (self.code, self.first)

    def answer(self):
        """What a master is to hear: the bytes of each object, or an exception's number."""
        return EXCEPTION[self.outcome] if self.outcome else {number: OBJECTS[number] for number in self.objects}

    def request(self):
        return bytes([IDENTIFY, 14, self.code, self.first])

    def reply(self):
        """ "conformity 82h", and "All objects asked for go in one reply": no more follow """
        if self.outcome:
            return bytes([0x80 | IDENTIFY, EXCEPTION[self.outcome]])
        told = [bytes([number, len(OBJECTS[number])]) + OBJECTS[number] for number in self.objects]
        return bytes([IDENTIFY, 14, self.code, 0x82, 0, 0, len(told)]) + b"".join(told)


class Report:
    """A request of 17: "byte count 16, then the 16-character serial number"."""

    function, outcome = REPORT, 0

    def __str__(self):
        return "function 17"

    def answer(self):
        return SERIAL_NUMBER

    def request(self):
        return bytes([REPORT])

    def reply(self):
        return bytes([REPORT, 16]) + SERIAL_NUMBER


class Put:
    """Bytes on the line between two requests. The card replies nothing; `line` is what it prints, if it takes them for a message."""

    def __init__(self, what, data, line=None):
        self.what, self.data, self.line = what, data, line


def reads(function, register, words):
    return Step(function, register, len(words), words=words)


def writes(function, register, *words):
    return Step(function, register, list(words))


def refused(outcome, function, register, asked):
    return Step(function, register, asked, outcome=outcome)


def crc(body):
    """ "start FFFFh; for each byte exclusive-or it in, then eight times shift right by one and, if a 1 fell out, exclusive-or A001h" """
    value = 0xFFFF
    for byte in body:
        value ^= byte
        for _ in range(8):
            value = value >> 1 ^ (0xA001 if value & 1 else 0)
    return value


def rtu(body):
    """The frame of an address and a data unit."""
    return body + crc(body).to_bytes(2, "little")


def ascii(body):
    """The same as a message of Modbus ASCII."""
    return b":" + (body + bytes([-sum(body) % 256])).hex().upper().encode() + b"\r\n"


def write_accel(address, value):
    return bytes([address, ONE]) + ACCEL.to_bytes(2, "big") + value.to_bytes(2, "big")


def spoilt(framed):
    """What may stand on a line between two requests, after Accel was written 100. None of it changes Accel but the broadcast, which writes 75."""
    whole = framed(write_accel(1, 200))
    middle = len(whole) // 2
    noise = bytes(random.Random(485).randrange(256) for _ in range(40))
    return [
        Put("half a message", whole[:middle]),
        reads(READ, ACCEL, [100]),
        Put("noise", noise),
        reads(READ, ACCEL, [100]),
        Put("a damaged value", whole[:middle] + bytes([whole[middle] ^ 1]) + whole[middle + 1:]),
        reads(READ, ACCEL, [100]),
        Put("a lost byte", whole[:3] + whole[4:]),
        reads(READ, ACCEL, [100]),
        Put("a write to station 2", framed(write_accel(2, 200)), line="1 -"),
        reads(READ, ACCEL, [100]),
        Put("a broadcast read", framed(bytes([0, READ]) + INV_ST_ACK.to_bytes(2, "big") + b"\0\1"), line="1 -"),
        Put("a broadcast write", framed(write_accel(0, 75)), line="0 -"),
        reads(READ, ACCEL, [75]),
    ]


def identity(framed):
    """Who the card is: every object by each code, and the serial number. "with 01 up to 02h, with 02 up to 06h, from the first object named, or from 00h if that lies outside"."""
    for code, last in ((BASIC, 2), (REGULAR, 6)):
        for first in [*range(7), 7, 255]:
            yield Identify(code, first, range(first if first <= last else 0, last + 1))
    for number in range(7):
        yield Identify(SPECIFIC, number, [number])
    yield Identify(SPECIFIC, 7, outcome=2)
    yield Identify(EXTENDED, 0, outcome=8)
    yield Report()
    # both are reads, so that one to all is outcome 1; a type other than 14 is 9, without a reply
    yield Put("43 to all", framed(bytes([0, IDENTIFY, 14, BASIC, 0])), line="1 -")
    yield Put("17 to all", framed(bytes([0, REPORT])), line="1 -")
    yield Put("another type to all", framed(bytes([0, IDENTIFY, 13, BASIC, 0])), line="9 -")
    yield Report()


def left_alone():
    """A master that is silent for longer than SioTot, 5 seconds from the start, at MODE 3: what it asks before, and after. The motor is stopped and 14 stands, until SioErr is read."""
    before = [writes(ONE, MODE, 3), reads(READ, INV_ST, [37]), reads(READ, DRIVE_STATUS, [0x0240])]
    after = [
        reads(READ, INV_ST, [14]),
        reads(READ, DRIVE_STATUS, [0x0248]),
        refused(5, ONE, ACCEL, [100]),
        reads(READ, INV_ST_ACK, [14]),  # which does not clear 14
        reads(READ, SIO_ERR, [1]),
        reads(READ, INV_ST, [37]),
        reads(READ, DRIVE_STATUS, [0x0240]),
        reads(READ, SIO_ERR, [0]),
        writes(ONE, ACCEL, 100),
    ]
    return before, after


def left_alone_with_0():
    """The same after SioTot 0: no time is too long."""
    before = [writes(ONE, SIO_TOT, 0), *left_alone()[0]]
    after = [reads(READ, INV_ST, [37]), reads(READ, SIO_ERR, [0]), writes(ONE, ACCEL, 100)]
    return before, after


def steps(framed):
    """Document 01's column Start, what may be written, what may not, and why; `framed` makes a message of an address and a data unit."""
    return [
        reads(READ, MODE, [1]),
        reads(READ, INV_ST, [24]),  # standing at MODE 1
        reads(INPUT, ACCEL, [50]),
        reads(READ, N_NOM, [1500]),
        reads(READ, SI_BAUD, [128]),
        reads(INPUT, MB_ADR, [1]),
        reads(READ, FRQ_ACT, [0]),
        reads(INPUT, SIO_ERR, [0]),
        # `line` has no terminal, so DIN1 is inactive: bit 6
        reads(READ, DRIVE_STATUS, [0x0040]),
        reads(INPUT, DRIVE_STATUS, [0x0040]),
        # however slow this master is, it is not taken for dead
        reads(READ, SIO_TOT, [50]),
        writes(ONE, SIO_TOT, 0),
        # 16 bits, by 06 and by 16
        writes(ONE, ACCEL, 100),
        reads(READ, ACCEL, [100]),
        writes(MANY, RETARD, 250),
        reads(INPUT, RETARD, [250]),
        writes(ONE, R_FIX1, 0xB1E0),  # -20000
        reads(READ, R_FIX1, [0xB1E0]),
        writes(ONE, I_MAGN, 999),
        refused(4, ONE, I_MAGN, [1000]),  # I-limt is 1000
        reads(READ, I_MAGN, [999]),
        # SiAdr is 1 to 94
        reads(READ, SI_ADR, [1]),
        refused(4, ONE, SI_ADR, [95]),
        refused(4, MANY, SI_ADR, [0]),
        writes(ONE, SI_ADR, 94),
        reads(INPUT, SI_ADR, [94]),
        # 32 bits, low word first
        reads(READ, SPD_NUM, [1, 0]),
        writes(MANY, SPD_NUM, 0x4240, 0x000F),  # 1000000
        reads(READ, SPD_NUM, [0x4240, 0x000F]),
        refused(4, MANY, SPD_NUM, [0x4241, 0x000F]),  # 1000001
        writes(MANY, SPD_DEN, 0, 1),  # 65536
        reads(INPUT, SPD_DEN, [0, 1]),
        reads(INPUT, OP_TIME, [0, 0]),
        reads(READ, I_RMS, [0, 0]),
        # no such register, or not its span
        refused(2, READ, 0, 1),
        refused(2, INPUT, SPD_NUM, 1),
        refused(2, READ, SPD_NUM + 1, 1),
        refused(2, READ, INV_ST_ACK, 2),
        refused(2, ONE, SPD_DEN, [1]),
        refused(2, READ, DRIVE_STATUS, 2),
        # read-only
        refused(3, ONE, FRQ_ACT, [5]),
        refused(3, MANY, OP_TIME, [1, 0]),
        refused(3, ONE, DRIVE_STATUS, [0x0201]),
        refused(3, MANY, DRIVE_STATUS, [0x0040]),
        # a value that is not allowed
        refused(4, ONE, MODE, [4]),
        refused(4, ONE, R_FIX1, [0xB1DF]),
        refused(4, ONE, SI_BAUD, [17]),
        # a function that there is not
        refused(9, COILS, MODE, 1),
        *spoilt(framed),
        # SCMD only at MODE 3, and its run values only with DIN1 active, which it is not at start
        refused(7, ONE, SCMD, [0]),
        writes(ONE, MODE, 3),
        reads(READ, INV_ST, [37]),
        reads(READ, DRIVE_STATUS, [0x0240]),
        writes(ONE, SCMD, 0),
        refused(7, ONE, SCMD, [129]),
        refused(7, ONE, SCMD, [257]),
        reads(READ, SCMD, [0]),
        writes(ONE, P_NOM, 200),  # an Init row, not running
        reads(READ, P_NOM, [200]),
        reads(READ, INV_ST_ACK, [37]),
        writes(ONE, MODE, 2),
        reads(READ, INV_ST, [33]),
        reads(INPUT, DRIVE_STATUS, [0x0040]),
    ]
