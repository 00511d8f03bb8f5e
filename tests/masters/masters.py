"""Real masters, and bytes by hand, against the program `line` on a pair of ptys.

Usage: masters.py PROGRAM, where `PROGRAM line ..` runs the program. Exit status 0 where each answer, and each line printed, is what documents 01 and 02 say.
A master that this machine does not have is skipped, with the reason.
"""
import os
import re
import shutil
import signal
import subprocess
import sys
import tempfile
import time
from concurrent.futures import ThreadPoolExecutor

import steps
from port import PATIENCE, Port
from steps import COILS, INPUT, MANY, ONE, READ, REPORT, Put

FRAMED = {"rtu": steps.rtu, "ascii": steps.ascii}
# as the README has it: a tenth of a second of silence ends a read
SETTINGS = {"rtu": ["raw", "-echo", "min", "255", "time", "1"], "ascii": ["raw", "-echo"], "nfo": ["raw", "-echo"]}
# how long nothing comes where nothing is to come; on RTU it is the silence around a frame, too
SILENCE = 1.0
# longer than SioTot is from the start, 5 seconds
LEFT_ALONE = 6


class Mbpoll:
    """libmodbus, by the command that a user types. The bytes that it sent and got are in what it prints."""

    # libmodbus's words for the exceptions
    WORDS = {1: "Illegal function", 2: "Illegal data address", 3: "Illegal data value", 4: "Slave device or server failure"}

    def __init__(self, device):
        self.device = device

    def can_ask(self, step):
        """It writes one register by 06, and a pair of them, which it takes for a 32-bit number, by 16. What it cannot ask is asked by hand."""
        return step.function not in (ONE, MANY) or len(step.asked) == (1 if step.function == ONE else 2)

    def ask(self, step):
        table = {READ: "4", INPUT: "3", ONE: "4", MANY: "4:int", COILS: "0"}[step.function]
        values = []
        count = 1
        if step.function == ONE:
            values = step.asked
        elif step.function == MANY:
            values = [step.asked[0] | step.asked[1] << 16]
        else:
            count = step.asked
            if count == 2 and step.words:  # a 32-bit number, the low word first unless -B is said
                table, count = table + ":int", 1
        words = ["mbpoll", "-v", "-m", "rtu", "-a", "1", "-b", "9600", "-P", "none", "-o", "10", "-0", "-1", "-t", table, "-r", str(step.register)]
        words += ([] if values else ["-c", str(count)]) + [self.device] + [str(value) for value in values]
        ran = subprocess.run(words, capture_output=True, text=True, timeout=PATIENCE)
        return self.heard(step, ran.stdout, ran.stderr)

    def heard(self, step, told, errors):
        sent = bytes.fromhex("".join(re.findall(r"\[([0-9A-F]{2})\]", told)))
        got = bytes.fromhex("".join(re.findall(r"<([0-9A-F]{2})>", told)))
        assert sent[1:4] == bytes([step.function]) + step.register.to_bytes(2, "big"), "mbpoll asked %s" % sent.hex()
        assert len(got) > 2, "mbpoll heard no reply: %s" % errors
        if got[1] & 0x80:
            assert self.WORDS[got[2]] in errors, "mbpoll said: %s" % errors
            return got[2]
        assert not errors, "mbpoll said: %s" % errors
        if step.words is None:
            assert "Written 1 references." in told, told
            return None
        numbers = [int(number) for number in re.findall(r"^\[\d+\]:\s+(-?\d+)", told, re.M)]
        return [numbers[0] & 0xFFFF, numbers[0] >> 16] if len(step.words) == 2 else numbers

    def close(self):
        pass


def mixed(text):
    """The low digit of each pair in small letters."""
    turned = bytearray(text)
    turned[2::2] = turned[2::2].lower()
    return bytes(turned)


# pymodbus writes capitals, as we do
LETTERS = {"capitals": bytes, "small letters": bytes.lower, "mixed letters": mixed}


class Pymodbus:
    """pymodbus. What it sends goes on the line in the letters wanted, and must be the request that is asked for."""

    def __init__(self, device, framer, framed, letters=bytes):
        from pymodbus.client import ModbusSerialClient

        self.client = ModbusSerialClient(device, framer=framer, baudrate=9600, parity="N", timeout=10, retries=0)
        assert self.client.connect(), "pymodbus does not open the port"
        self.framed, self.letters, self.sent = framed, letters, None
        self.put, self.client.send = self.client.send, self.send

    def send(self, request):
        self.sent = self.letters(request)
        return self.put(self.sent)

    def can_ask(self, step):
        return True

    def ask(self, step):
        routine = {
            READ: self.client.read_holding_registers,
            INPUT: self.client.read_input_registers,
            ONE: self.client.write_register,
            MANY: self.client.write_registers,
            COILS: self.client.read_coils,
        }[step.function]
        told = routine(step.register, step.asked[0] if step.function == ONE else step.asked, slave=1)
        if self.refused(step, told):
            return told.exception_code
        if step.words is not None:
            return told.registers
        assert told.address == step.register and (told.value == step.asked[0] if step.function == ONE else told.count == len(step.asked)), str(told)
        return None

    def refused(self, step, told):
        """Whether an exception was heard. What went on the line must be the request."""
        assert self.sent == self.letters(self.framed(b"\1" + step.request())), "pymodbus asked %s" % self.sent
        if told.isError():
            assert hasattr(told, "exception_code"), "pymodbus heard no reply: %s" % told
            assert told.function_code == 0x80 | step.function, "pymodbus heard function %d" % told.function_code
        return told.isError()

    def close(self):
        self.client.close()


class PymodbusIdentity(Pymodbus):
    """The requests of pymodbus for who a card is."""

    def ask(self, step):
        from pymodbus.mei_message import ReadDeviceInformationRequest
        from pymodbus.other_message import ReportSlaveIdRequest

        self.length = len(self.framed(b"\1" + step.reply()))
        request = ReportSlaveIdRequest(unit=1) if step.function == REPORT else ReadDeviceInformationRequest(step.code, step.first, unit=1)
        told = self.client.execute(request)
        if self.refused(step, told):
            return told.exception_code
        if step.function == REPORT:
            # all that came is the identifier; beside it pymodbus reads the last byte as a run indicator, FFh for on, and so says off of our serial number
            assert (told.byte_count, told.status) == (16, False), str(vars(told))
            return told.identifier
        head = (told.sub_function_code, told.read_code, told.conformity, told.more_follows, told.next_object_id, told.number_of_objects)
        assert head == (14, step.code, 0x82, 0, 0, len(step.objects)), str(vars(told))
        assert list(told.information) == step.objects, str(vars(told))  # in this order; an empty one is there, with no bytes
        return told.information

    def send(self, request):
        """pymodbus cannot tell how long a reply to 43 is, and takes what is there after a hundredth of a second for the whole: so it is there before pymodbus looks."""
        sent, end = super().send(request), time.monotonic() + SILENCE
        while self.client.socket.in_waiting < self.length and time.monotonic() < end:
            time.sleep(0.01)
        return sent


def play(program, protocol, name, master_on, letters=bytes, script=steps.steps):
    """Plays the steps by a master, and holds each answer, and at the end each line printed, to the documents. Whatever letters come, ours are capitals."""
    framed = FRAMED[protocol]
    asked, expected = 0, []
    with Port(program, protocol, SETTINGS[protocol]) as port:
        master = master_on(port.device)
        for step in script(lambda body: letters(framed(body))):
            if isinstance(step, Put):
                port.put(step.data)
                port.silent(SILENCE)
                if step.line:
                    expected.append(step.line)
                continue
            expected.append(line_of(framed, step))
            if master.can_ask(step):
                ask(name, master, step)
                asked += 1
            else:
                right = framed(b"\1" + step.reply())
                port.put(framed(b"\1" + step.request()))
                assert port.reply(len(right)) == right, str(step)
        master.close()
        same_lines(name, port.lines(), expected)
    print("masters: %s: %d requests answered as the documents say, %d lines" % (name, asked, len(expected)))


def line_of(framed, step):
    """The line that `line` prints of a request to address 1."""
    return "%d %s" % (step.outcome, framed(b"\1" + step.reply()).hex().upper())


def ask(name, master, step):
    told = master.ask(step)
    assert told == step.answer(), "%s, %s: heard %s, and not %s" % (name, step, told, step.answer())


def same_lines(name, printed, expected):
    for place, (line, right) in enumerate(zip(printed, expected), 1):
        assert line == right, "%s, line %d: printed %s, and not %s" % (name, place, line, right)
    assert len(printed) == len(expected), "%s: %d lines, and not %d" % (name, len(printed), len(expected))


def libmodbus_rtu(program):
    if not shutil.which("mbpoll"):
        return "mbpoll is not on this machine and could not be installed"
    play(program, "rtu", "libmodbus on RTU", Mbpoll)


def pymodbus_missing():
    try:
        import serial
        from pymodbus.client import ModbusSerialClient
        from pymodbus.framer.ascii_framer import ModbusAsciiFramer
        from pymodbus.framer.rtu_framer import ModbusRtuFramer
    except ImportError as reason:
        return "pymodbus 3.0 with pyserial is not on this machine and could not be installed (%s)" % reason


def pymodbus_rtu(program):
    if pymodbus_missing():
        return pymodbus_missing()
    from pymodbus.framer.rtu_framer import ModbusRtuFramer

    play(program, "rtu", "pymodbus on RTU", lambda device: Pymodbus(device, ModbusRtuFramer, steps.rtu))


def pymodbus_ascii(program):
    if pymodbus_missing():
        return pymodbus_missing()
    from pymodbus.framer.ascii_framer import ModbusAsciiFramer

    for name, letters in LETTERS.items():
        play(program, "ascii", "pymodbus on ASCII in " + name, lambda device: Pymodbus(device, ModbusAsciiFramer, steps.ascii, letters), letters)


def identity_rtu(program):
    if pymodbus_missing():
        return pymodbus_missing()
    from pymodbus.framer.rtu_framer import ModbusRtuFramer

    play(program, "rtu", "pymodbus on RTU, who are you", lambda device: PymodbusIdentity(device, ModbusRtuFramer, steps.rtu), script=steps.identity)


def identity_ascii(program):
    if pymodbus_missing():
        return pymodbus_missing()
    from pymodbus.framer.ascii_framer import ModbusAsciiFramer

    for name, letters in LETTERS.items():
        who = "pymodbus on ASCII in %s, who are you" % name
        play(program, "ascii", who, lambda device: PymodbusIdentity(device, ModbusAsciiFramer, steps.ascii, letters), letters, steps.identity)


def identity_mbpoll(program):
    """The serial number by libmodbus, which reads a reply to 17 as the standard has it: an id, a run indicator, and the rest. (43 it cannot ask.)"""
    if not shutil.which("mbpoll"):
        return "mbpoll is not on this machine and could not be installed"
    report = steps.Report()
    with Port(program, "rtu", SETTINGS["rtu"]) as port:
        words = ["mbpoll", "-v", "-m", "rtu", "-a", "1", "-b", "9600", "-P", "none", "-o", "10", "-u", port.device]
        told = subprocess.run(words, capture_output=True, text=True, timeout=PATIENCE).stdout
        for pattern, right in ((r"\[([0-9A-F]{2})\]", report.request()), (r"<([0-9A-F]{2})>", report.reply())):
            assert bytes.fromhex("".join(re.findall(pattern, told))) == steps.rtu(b"\1" + right), told
        number = steps.SERIAL_NUMBER
        for line in ("Length: 16", "Id    : 0x%02X" % number[0], "Data  : " + number[2:].decode()):
            assert line in told.splitlines(), told
        same_lines("libmodbus on RTU, who are you", port.lines(), [line_of(steps.rtu, report)])
    print("masters: libmodbus on RTU, who are you: the serial number is as the documents say")


def left_alone(program):
    """Two masters that fall silent at MODE 3, at the same time: one on a fresh card, the other after it wrote SioTot 0."""
    if not shutil.which("mbpoll"):
        return "mbpoll is not on this machine and could not be installed"
    framed = FRAMED["rtu"]
    with Port(program, "rtu", SETTINGS["rtu"]) as fresh, Port(program, "rtu", SETTINGS["rtu"]) as off:
        plays = [("a dead master", fresh, steps.left_alone()), ("a dead master, SioTot 0", off, steps.left_alone_with_0())]
        for name, port, (before, _) in plays:
            for step in before:
                ask(name, Mbpoll(port.device), step)
        time.sleep(LEFT_ALONE)
        for name, port, (_, after) in plays:
            for step in after:
                ask(name, Mbpoll(port.device), step)
        for name, port, (before, after) in plays:
            same_lines(name, port.lines(), [line_of(framed, step) for step in before + after])
    print("masters: a card at MODE 3, left alone for %d s, tells 14 and stands; with SioTot 0 it does not" % LEFT_ALONE)


def two_scraps(program):
    """A frame that comes in two scraps is one frame, since only silence ends a read. A machine that is slow between the two may part them: then again."""
    request, reply = bytes.fromhex("010302940001C45E"), bytes.fromhex("01030200017984")  # case 7's MODE, as a frame
    with Port(program, "rtu", SETTINGS["rtu"]) as port:
        for _ in range(20):
            port.put(request[:3])
            time.sleep(0.03)
            port.put(request[3:])
            try:
                port.silent(SILENCE)
            except AssertionError:
                break
        same_lines("a frame in two scraps", port.lines(), ["0 " + reply.hex().upper()])
    print("masters: a frame in two scraps is one frame")


def bcc(body):
    value = 0
    for byte in body:
        value ^= byte
    return bytes([value])


def enquiry(parameter, address=1):
    return b"\4" + bytes([32 + address]) + parameter.encode() + b"\5"


def text(parameter, value):
    """What stands after 02, with its BCC; the value is a number, which is written in capitals, or its characters."""
    body = b"%s=%s\3" % (parameter.encode(), value if isinstance(value, bytes) else b"%04X" % value)
    return body + bcc(body)


def select(parameter, value, address=1):
    return b"\4" + bytes([32 + address]) + b"\2" + text(parameter, value)


def reply(parameter, value, address=1):
    return bytes([32 + address]) + b"\2" + text(parameter, value)


ACK, NAK = b"\x21\6", b"\x21\x15"


def nfo_exchanges():
    """Bytes for the card, its reply, and the outcomes of the messages that it takes of them."""
    accel = bytes.fromhex("0421453030314405")  # case 2
    assert accel == enquiry("E001D") and bytes.fromhex("210245303031443D30303332030F") == reply("E001D", 50)
    wrong_bcc = select("E001D", 0x64)[:-1] + b"\x0D"
    return [
        # however slow this master is, it is not taken for dead
        (enquiry("E00AB"), reply("E00AB", 50), [0]),
        (select("E00AB", 0), ACK, [0]),
        (accel, reply("E001D", 50), [0]),
        (bytes.fromhex("04210245303031393D303036340371"), NAK, [2]),  # case 1
        (select("E001D", 0x64), ACK, [0]),  # case 3
        (wrong_bcc, b"", []),
        (accel, reply("E001D", 0x64), [0]),
        (select("E0039", 0xB1E0), ACK, [0]),  # case 4
        (select("E0039", 0xB1DF), NAK, [4]),
        (enquiry("E0039"), reply("E0039", 0xB1E0), [0]),
        (select("E001D", 0x93) + accel[1:], ACK, [0]),  # case 5: the BCC is 04, and the ENQUIRY has no 04 of its own
        (accel, reply("E001D", 0x93), [0]),
        (bytes.fromhex("04210245303031443D3030393403") + accel, reply("E001D", 0x93), [0]),  # case 6
        # half a message, noise, a damaged message before a good one; and two at once
        (select("E001D", 0x32)[:9] + accel, reply("E001D", 0x93), [0]),
        (b"\xFF\x00\x04\x04\x21garbage\x05" + accel, reply("E001D", 0x93), [0]),
        (select("E001D", 0x32).replace(b"0032", b"0033") + accel, reply("E001D", 0x93), [0]),
        (accel + select("E001C", 0x32), reply("E001D", 0x93) + ACK, [0, 0]),
        # read-only, not hex, no such parameter
        (select("E00B6", 1), NAK, [3]),
        (select("E001D", b"00G4"), NAK, [8]),
        (enquiry("E0019"), NAK, [2]),
        # SCMD only at MODE 3, and its run values only with DIN1 active, which it is not at start
        (enquiry("E00E9"), reply("E00E9", 24), [0]),
        (select("E00AD", 0), NAK, [7]),
        (select("E0029", 3), ACK, [0]),
        (select("E00AD", 129), NAK, [7]),
        (select("E00AD", 0), ACK, [0]),
        (enquiry("E00E9"), reply("E00E9", 37), [0]),
        # another address, a broadcast read, a broadcast write
        (enquiry("E001D", 2) + enquiry("E001D", 95), b"", [1, 1]),
        (select("E001D", 75, 95), b"", [0]),
        (accel, reply("E001D", 75), [0]),
        # SiAdr is 1 to 94: 95 and 0 are refused, and the card is asked as before
        (select("E00A9", 95), NAK, [4]),
        (select("E00A9", 0), NAK, [4]),
        (select("E00A9", 95, 95), b"", [4]),
        (enquiry("E00A9"), reply("E00A9", 1), [0]),
        # at 94 it is asked there, and at 0
        (select("E00A9", 94), ACK, [0]),
        (enquiry("E00E9", 94), reply("E00E9", 37, 94), [0]),
        (enquiry("E00E9"), b"", [1]),
        (select("E00A9", 1, 0), bytes([32, 6]), [0]),
        (enquiry("E00A9"), reply("E00A9", 1), [0]),
    ]


def small_letters():
    """Exchanges as above, as the masters on the east line have them."""
    return [
        (enquiry("E00a9"), reply("E00A9", 1), [0]),
        (select("E001d", b"00fa"), ACK, [0]),
        (enquiry("E001d"), reply("E001D", 0xFA), [0]),
        (select("E0039", b"b1E0"), ACK, [0]),
        (select("E0039", b"b1df"), NAK, [4]),
        (enquiry("E0039"), reply("E0039", 0xB1E0), [0]),
        (select("E00aD", b"000f"), NAK, [4]),
        # a small prefix, and characters that are no digits
        (enquiry("e00a9"), NAK, [2]),
        (enquiry("E00g9"), NAK, [2]),
        (select("E001d", b"00g4"), NAK, [8]),
        (select("E001d", b"00`4"), NAK, [8]),
        # the BCC is over the bytes as they come: that of the capitals is wrong here
        (select("E001D", 0x64).replace(b"D", b"d"), b"", []),
        (enquiry("E001D"), reply("E001D", 0xFA), [0]),
    ]


def nfo_serial(program):
    whole = [([data], right, outcomes) for data, right, outcomes in nfo_exchanges() + small_letters()]
    by_bytes = [([bytes([byte]) for byte in data], right, outcomes) for data, right, outcomes in small_letters()]
    expected = []
    with Port(program, "nfo", SETTINGS["nfo"]) as port:
        for scraps, right, outcomes in whole + by_bytes:
            for scrap in scraps:
                port.put(scrap)
            check_reply(port, b"".join(scraps), right)
            expected += line_texts(right, outcomes)
        same_lines("NFO serial", port.lines(), expected)
    print("masters: NFO serial: %d exchanges answered as the documents say, %d lines" % (len(whole + by_bytes), len(expected)))


STATUS = enquiry("E00E9")
SIO_ERR = enquiry("E00AC")


def nfo_left_alone(program):
    """On NFO serial, with seconds of silence before each message: those for another house and half a message do not keep the card from its time-out, one of its own every 3 seconds does."""
    exchanges = [
        (0, select("E0029", 3), ACK, [0]),
        (3, enquiry("E00E9", 2), b"", [1]),
        (3, STATUS[:5], b"", []),
        (0, STATUS[5:], reply("E00E9", 14), [0]),
        (0, select("E001D", 0x64), NAK, [5]),
        (0, enquiry("E00AD"), reply("E00AD", 0), [0]),
        (0, select("E00AD", 0, 95), b"", [0]),  # the broadcast stop clears 14
        (0, STATUS, reply("E00E9", 37), [0]),
        (3, STATUS, reply("E00E9", 37), [0]),
        (3, STATUS, reply("E00E9", 37), [0]),
        (LEFT_ALONE, STATUS, reply("E00E9", 14), [0]),
        (0, SIO_ERR, reply("E00AC", 1), [0]),
        (0, STATUS, reply("E00E9", 37), [0]),
    ]
    with Port(program, "nfo", SETTINGS["nfo"]) as port:
        timed(port, "NFO serial, left alone", exchanges, time.sleep)
    print("masters: NFO serial: a card at MODE 3 tells 14 after %d s of silence, and not where it is asked every 3 s" % LEFT_ALONE)


def timed(port, name, exchanges, wait):
    """Exchanges of NFO serial, each after a time."""
    expected = []
    for when, data, right, outcomes in exchanges:
        wait(when)
        port.put(data)
        check_reply(port, data, right)
        expected += line_texts(right, outcomes)
    same_lines(name, port.lines(), expected)


def clock_of_our_own(program):
    """By a clock that the test sets: to the tenth, over a year, back, and without any time."""
    if not shutil.which("gcc"):
        return "a clock of our own needs gcc"
    with tempfile.TemporaryDirectory() as folder:
        library, clock = os.path.join(folder, "clock.so"), os.path.join(folder, "clock")
        source = os.path.join(os.path.dirname(os.path.abspath(__file__)), "clock.c")
        subprocess.run(["gcc", "-shared", "-fPIC", "-Wall", "-Wextra", "-Werror", "-o", library, source], check=True)
        env = dict(os.environ, LD_PRELOAD=library, CLOCK=clock)
        no_time(program, folder, env)

        def at(milliseconds):
            with open(clock + ".new", "w") as new:
                new.write("%d\n" % milliseconds)
            os.rename(clock + ".new", clock)

        at(1000)
        year = 365 * 24 * 3600 * 1000
        with Port(program, "nfo", SETTINGS["nfo"], env) as port:
            timed(port, "a clock of our own", [
                (1099, select("E0029", 3), ACK, [0]),
                (6099, STATUS, reply("E00E9", 37), [0]),  # 5.0 s are never too long
                (11199, STATUS, reply("E00E9", 14), [0]),  # 5.1 s always are
                (11199, SIO_ERR, reply("E00AC", 1), [0]),
                (12000, STATUS, reply("E00E9", 37), [0]),
                (17099, STATUS, reply("E00E9", 37), [0]),  # between the two it is up to where the tenths are cut
                (22100, STATUS, reply("E00E9", 14), [0]),
                (22100, SIO_ERR, reply("E00AC", 1), [0]),
                # what is left of a tenth at one read counts at the next: 25.9 and 25.9 are 51
                (24690, STATUS[:1], b"", []),
                (27280, STATUS[1:], reply("E00E9", 14), [0]),
                (27280, SIO_ERR, reply("E00AC", 1), [0]),
                (year, STATUS, reply("E00E9", 14), [0]),
                (year, SIO_ERR, reply("E00AC", 1), [0]),
                (0, STATUS, reply("E00E9", 37), [0]),  # it goes back: nothing has passed
                (5000, STATUS, reply("E00E9", 37), [0]),
                (10100, STATUS, reply("E00E9", 14), [0]),
            ], at)
    print("masters: by a clock of our own, 5.0 s of silence are never too long, and 5.1 s always are")


def no_time(program, folder, env):
    """A clock that tells no time is told, and the device is not opened."""
    device = os.path.join(folder, "device")
    with open(device, "wb") as held:
        held.write(STATUS)
    ran = subprocess.run([program, "line", "nfo", device], stdin=subprocess.DEVNULL, capture_output=True, text=True, timeout=PATIENCE, env=env)
    assert (ran.returncode, ran.stdout, ran.stderr) == (0, "", "line: the clock tells no time\n"), str(ran)
    with open(device, "rb") as held:
        assert held.read() == STATUS, "the device was written to"


def check_reply(port, data, right):
    told = port.reply(len(right))
    assert told == right, "NFO serial, %s: heard %s, and not %s" % (data.hex(), told.hex(), right.hex())
    port.silent(0.1 if right else SILENCE)


def line_texts(right, outcomes):
    """The lines of the messages taken: a REPLY has 14 bytes, ACK and NAK have 2, and where nothing is replied there is a `-` for each."""
    texts = []
    for outcome in outcomes:
        length = 14 if right[1:2] == b"\2" else 2
        texts.append("%d %s" % (outcome, right[:length].hex().upper() or "-"))
        right = right[length:]
    assert not right
    return texts


def wrong_arguments(program):
    """Each is told in one line on standard error, nothing is printed, and what the device holds stays."""
    usage = "line: usage: line PROTOCOL DEVICE, PROTOCOL is nfo, rtu or ascii\n"
    with tempfile.TemporaryDirectory() as folder:
        device = os.path.join(folder, "device")
        with open(device, "wb") as held:
            held.write(enquiry("E001D"))
        nowhere = os.path.join(folder, "nowhere")
        for words, said in [
            ([], usage),
            (["nfo"], usage),
            (["nfo", device, "9600"], usage),
            (["tcp", device], usage),
            (["NFO", device], usage),
            (["", device], usage),
            (["rtu", nowhere], nowhere + ": No such file or directory\n"),
            (["ascii", folder], folder + ": Is a directory\n"),
            (["nfo", "/dev/null"], ""),  # a device that is at its end
        ]:
            ran = subprocess.run([program, "line", *words], stdin=subprocess.DEVNULL, capture_output=True, text=True, timeout=PATIENCE)
            assert (ran.returncode, ran.stdout, ran.stderr) == (0, "", said), "line %s: %s" % (" ".join(words), ran)
        with open(device, "rb") as held:
            assert held.read() == enquiry("E001D"), "the device was written to"
        assert not os.path.exists(nowhere)
    print("masters: wrong arguments are told, and nothing is opened")


def out_of_time(number, frame):
    """Ends the test, and what it started; `timeout` may send the signal twice."""
    signal.signal(signal.SIGTERM, signal.SIG_IGN)
    sys.exit("masters: out of time")


def main():
    signal.signal(signal.SIGTERM, out_of_time)
    program = sys.argv[1]
    wrong_arguments(program)
    if not shutil.which("socat"):
        print("masters: skipped: socat is not on this machine and could not be installed")
        return
    # those that mostly wait do so beside the others
    with ThreadPoolExecutor() as beside:
        waiting = [(test, beside.submit(test, program)) for test in (left_alone, nfo_left_alone, clock_of_our_own, identity_rtu, identity_ascii, identity_mbpoll)]
        for test in (nfo_serial, libmodbus_rtu, pymodbus_rtu, pymodbus_ascii, two_scraps):
            told(test, test(program))
        for test, ended in waiting:
            told(test, ended.result())


def told(test, reason):
    """A test that could not be had says why."""
    if reason:
        print("masters: %s: skipped: %s" % (test.__name__, reason))


main()
