"""Draws morning.svg: the bytes of examples/morning/morning.nfo, and what the real program `bench` made of each.

Usage: morning.py run PROGRAM..  prints the run: the commands to `bench` and its answers. PROGRAM.. is how to start it: tests/program bench
       morning.py draw [--check] draws morning.svg from the stored run, morning.run; or says whether it is that, and ends with 1 if not

The run hands the queue to a card twice. First a byte at a time, with the state after each: so it is seen which bytes are pending, which are
dropped, and which were taken. Then in the scraps of morning.txt: the same outcomes and replies must come of it, and the picture shows these.
"""
import importlib.util
import os
import subprocess
import sys

import svg

HERE = os.path.dirname(os.path.abspath(__file__))
ROOM = 19                       # bytes of the reply buffer

WIDTH, MARGIN, TOP, ROW = 1000, 26, 152, 57
CELLS, CELL, HIGH = 256, 27, 32  # where the bytes begin, a byte's width and height
RIGHT = 706                      # where the outcome stands

# fill and edge of a byte, of the outcome's disc, and the words of the legend
KINDS = {
    "done": ("#cfeacf", "#2b7038", "taken: done"),
    "other": ("#d3e4f6", "#1f5f99", "taken: not for us"),
    "refused": ("#ffdcae", "#a85400", "taken: refused"),
    "dropped": ("#e4e4e4", "#8c8c8c", "dropped"),
    "pending": ("#fff3b8", "#947600", "pending at the end"),
}
WORDS = {0: "done", 1: "not for us", 2: "no such row", 3: "read-only", 4: "value not allowed", 5: "a fault flag stands", 6: "running", 7: "SCMD not permitted", 8: "not hex"}
CONTROL = {0x02: "STX", 0x03: "ETX", 0x04: "EOT", 0x05: "ENQ", 0x06: "ACK", 0x15: "NAK", 0x20: "SP", 0x7F: "DEL"}


class Bad(Exception):
    """The run, the texts and the queue do not fit each other."""


def queue():
    """The messages of the morning, from the script that makes it."""
    path = os.path.join(HERE, "..", "..", "examples", "morning", "make.py")
    spec = importlib.util.spec_from_file_location("make", path)
    make = importlib.util.module_from_spec(spec)
    sys.dont_write_bytecode = True
    spec.loader.exec_module(make)
    with open(os.path.join(os.path.dirname(path), "morning.nfo"), "rb") as file:
        if b"".join(make.QUEUE) != file.read():
            raise Bad("morning.nfo is not what make.py makes")
    return make.QUEUE


class Text:
    """A line of morning.txt."""

    def __init__(self, line):
        self.asked, self.remark, marks = [part.strip() for part in line.split("|")]
        self.lost, self.damaged, self.cuts, self.joined, self.told = {}, {}, [], False, None
        for mark in marks.split():
            kind, _, rest = mark.partition("=")
            place, _, byte = rest.partition(":")
            if kind in ("lost", "damaged"):
                getattr(self, kind)[int(place)] = int(byte, 16)
            elif kind == "cut":
                self.cuts.append(int(place))
            elif kind == "told":
                self.told = int(place)
            elif mark == "joined":
                self.joined = True
            else:
                raise Bad("morning.txt: no mark: %s" % mark)


def texts():
    with open(os.path.join(HERE, "morning.txt"), encoding="utf-8") as file:
        return [Text(line) for line in file if line.strip() and not line.startswith("#")]


def scraps(pieces, told):
    """The stream, cut as morning.txt says."""
    cut, held = [], b""
    for piece, text in zip(pieces, told):
        last = 0
        for place in text.cuts:
            cut.append(held + piece[last:place])
            held, last = b"", place
        held += piece[last:]
        if not text.joined:
            cut.append(held)
            held = b""
    return cut + ([held] if held else [])


# ---- the run
class Bench:
    """The commands so far, with their answers. To ask one more, all are given again to a fresh program: it reads its input to the end."""

    def __init__(self, program):
        self.program, self.commands, self.answers = program, [], []

    def ask(self, *commands):
        self.commands += commands
        ran = subprocess.run(self.program, input="".join(c + "\n" for c in self.commands), capture_output=True, text=True)
        if ran.returncode:
            raise Bad("%s does not run: %s" % (" ".join(self.program), ran.stderr.strip()))
        self.answers = ran.stdout.splitlines()
        if len(self.answers) != len(self.commands):
            raise Bad("bench gave %d lines to %d commands" % (len(self.answers), len(self.commands)))
        return self.answers[-len(commands):]


def run(program):
    """The commands with their answers, a line each: `COMMAND > ANSWER`."""
    pieces = queue()
    stream = b"".join(pieces)
    bench = Bench(program)
    commands = ["start nfo"]
    for byte in stream:
        commands += ["call %d %02X" % (ROOM, byte), "state"]
    bench.ask(*commands)
    bench.ask("start nfo")
    for scrap in scraps(pieces, texts()):
        while scrap:
            called, _ = bench.ask("call %d %s" % (ROOM, scrap.hex().upper()), "state")
            used = int(called.split()[1])
            if used == 0:
                raise Bad("a call used no byte")
            scrap = scrap[used:]
    return "".join("%s > %s\n" % pair for pair in zip(bench.commands, bench.answers))


# ---- reading the run
class Call:
    """One call: its bytes, what came of it, and what was pending then."""

    def __init__(self, called, state):
        command, answer = called
        words = answer.split()
        self.bytes = bytes.fromhex(command.split()[2])
        self.outcome, self.used, length = int(words[0]), int(words[1]), int(words[2])
        self.reply = bytes.fromhex(words[3])[:length]
        pending = state[1].split()[34]  # word 35 of the state line
        self.pending = b"" if pending == "-" else bytes.fromhex(pending)


def calls():
    """The calls a byte at a time, and those in scraps."""
    with open(os.path.join(HERE, "morning.run"), encoding="utf-8") as file:
        lines = [tuple(line.rstrip("\n").split(" > ")) for line in file]
    starts = [i for i, line in enumerate(lines) if line[0] == "start nfo"] + [len(lines)]
    if len(starts) != 3:
        raise Bad("morning.run: not two runs")
    return [[Call(lines[i], lines[i + 1]) for i in range(a + 1, b, 2)] for a, b in zip(starts, starts[1:])]


class Byte:
    """A byte of the stream: what came of it, in which message, and the byte at which that was known."""

    def __init__(self):
        self.kind = self.message = self.known = None


def kind_of(outcome):
    return "done" if outcome == 0 else "other" if outcome == 1 else "refused"


def read(single, stream):
    """What came of each byte, by what the card held after each; and the messages: first byte, last byte, outcome, reply."""
    told, messages, held = [Byte() for _ in stream], [], 0
    for i, call in enumerate(single):
        if call.bytes != stream[i:i + 1] or call.used != 1:
            raise Bad("morning.run: not this stream")
        if call.outcome != 15:
            first = i - held
            for byte in told[first:i + 1]:
                byte.kind, byte.message = kind_of(call.outcome), len(messages)
            messages.append((first, i, call.outcome, call.reply))
            left = 0
        else:
            left = len(call.pending)
            if call.pending != stream[i + 1 - left:i + 1]:
                raise Bad("morning.run: what is pending is not the end of the stream")
            for byte in told[i - held:i + 1 - left]:
                byte.kind, byte.known = "dropped", i
        held = left
    for byte in told[len(stream) - held:]:
        byte.kind = "pending"
    return told, messages


# ---- drawing
def glyphs(piece):
    """What stands under each byte: its character, or its name in a message."""
    under = [CONTROL.get(byte) or (chr(byte) if 0x20 < byte < 0x7F else "") for byte in piece]
    if piece[0] == 0x04:
        under[1] = "ADR"
        if piece[2] == 0x02 and len(piece) == 15:
            under[14] = "BCC"
    return under


def cell(out, x, y, byte, under, kind, edge=None, wide=1.2):
    fill, line, _ = KINDS[kind]
    svg.box(out, x + 1, y, CELL - 2, HIGH, 4, fill, edge or line, wide)
    svg.text(out, x + CELL / 2, y + 15, "%02X" % byte, 12, "#1c2429" if kind != "dropped" else "#555555", mono=True, bold=kind != "dropped", anchor="middle")
    svg.text(out, x + CELL / 2, y + 27, under, 8.5, "#37474f", anchor="middle")


def said(reply):
    """A reply in words."""
    if not reply:
        return "no reply"
    if len(reply) == 2:
        return "ACK" if reply[1] == 0x06 else "NAK"
    return "REPLY %s (%d)" % (reply[2:12].decode(), value(reply))


def value(reply):
    """The number that a REPLY tells."""
    word = int(reply[8:12].decode(), 16)
    return word - 65536 if word >= 32768 else word


def spaced(reply):
    return " ".join("%02X" % byte for byte in reply)


def draw_bytes(out, y, piece, text, told):
    """The bytes of a piece; a byte that was lost is an empty place, one that was damaged has what was sent above it."""
    x, places, under = CELLS, [], glyphs(piece)
    for place, byte in enumerate(piece):
        if place in text.lost:
            svg.box(out, x + 1, y, CELL - 2, HIGH, 4, "none", "#b3261e", 1.2, dash="3 3")
            svg.text(out, x + CELL / 2, y - 5, "%02X lost" % text.lost[place], 10, "#b3261e", anchor="middle")
            x += CELL
        if place in text.cuts:
            x += 16
        places.append(x)
        if place in text.damaged:
            cell(out, x, y, byte, under[place], told[place].kind, "#b3261e", 2.2)
            svg.text(out, x + CELL / 2, y - 5, "was %02X" % text.damaged[place], 10, "#b3261e", anchor="middle")
        else:
            cell(out, x, y, byte, under[place], told[place].kind)
        x += CELL
    return places


def draw_outcome(out, y, kind, number, head, below, mono):
    _, edge, _ = KINDS[kind]
    svg.disc(out, RIGHT + 12, y + 11, 12, edge, number)
    svg.text(out, RIGHT + 32, y + 12, head, 12, "#1c2429", bold=True)
    svg.text(out, RIGHT + 32, y + 27, below, 9 if mono else 10.5, "#37474f", mono=mono)


def draw_row(out, y, number, piece, start, text, told, messages, scrapped):
    svg.text(out, MARGIN, y + 13, "%d" % number, 11, "#5f6b72", anchor="start")
    svg.text(out, MARGIN + 22, y + 13, text.asked, 13, "#1c2429", bold=True)
    svg.text(out, MARGIN + 22, y + 28, text.remark, 11, "#37474f")
    here = told[start:start + len(piece)]
    places = draw_bytes(out, y, piece, text, here)
    for place in text.cuts:
        x = places[place] - 8
        svg.line(out, x, y - 8, x, y + HIGH + 8, "#37474f", 1.4, dash="4 3")
        svg.text(out, x + 6, y - 5, "scrap ends: %d bytes pending" % scrapped[start + place], 10, "#37474f")
    ended = [m for m in messages if start <= m[1] < start + len(piece)]
    if len(ended) > 1:
        raise Bad("two messages end in one piece")
    if ended:
        first, _, outcome, reply = ended[0]
        if first != start:
            raise Bad("message %d does not begin with its piece" % number)
        if text.told is not None and value(reply) != text.told:
            raise Bad("message %d tells %d, and not %d as morning.txt has it" % (number, value(reply), text.told))
        told_so = "%s: %s" % (WORDS[outcome], said(reply))
        if outcome == 1 or not reply:
            draw_outcome(out, y, kind_of(outcome), str(outcome), WORDS[outcome], "no reply", False)
        else:
            draw_outcome(out, y, kind_of(outcome), str(outcome), told_so, spaced(reply), True)
    elif here[-1].kind == "pending":
        draw_outcome(out, y, "pending", "–", "nothing taken yet", "%d bytes pending" % len(piece), False)
    else:
        known = max(byte.known for byte in here)
        if known < start + len(piece):
            below = "%02X came: no message can begin here" % piece[known - start]
        else:
            below = "the last one only when the next byte came"
        draw_outcome(out, y, "dropped", "–", "%d bytes dropped" % sum(b.kind == "dropped" for b in here), below, False)


def draw_legend(out, y):
    x = MARGIN
    for kind in KINDS:
        fill, edge, words = KINDS[kind]
        svg.box(out, x, y - 12, 18, 16, 4, fill, edge, 1.2)
        svg.text(out, x + 25, y, words, 12, "#1c2429")
        x += 25 + svg.width(words, 12) + 26
    svg.box(out, x, y - 12, 18, 16, 4, "none", "#b3261e", 1.4, dash="3 3")
    svg.text(out, x + 25, y, "lost or damaged on the radio", 12, "#1c2429")


def picture():
    pieces, texts_ = queue(), texts()
    if len(pieces) != len(texts_):
        raise Bad("morning.txt has %d lines for %d messages" % (len(texts_), len(pieces)))
    stream = b"".join(pieces)
    single, cut = calls()
    if len(single) != len(stream):
        raise Bad("morning.run: %d bytes of %d" % (len(single), len(stream)))
    told, messages = read(single, stream)
    if [(m[2], m[3]) for m in messages] != [(c.outcome, c.reply) for c in cut if c.outcome != 15]:
        raise Bad("morning.run: in scraps something else comes than a byte at a time")
    scrapped, at = {}, 0
    for call in cut:
        at += call.used
        scrapped[at] = len(call.pending)
    if at != len(stream) or cut[-1].pending != single[-1].pending:
        raise Bad("morning.run: the scraps are not the stream")
    for text, piece in zip(texts_, pieces):
        if any(place >= len(piece) for place in list(text.lost) + list(text.damaged) + text.cuts):
            raise Bad("morning.txt: a place past the end: %s" % text.asked)

    height = TOP + ROW * len(pieces) + 6
    out = []
    svg.box(out, 0, 0, WIDTH, height, 14, "#fbfaf7", "#cfd8dc", 1)
    svg.text(out, MARGIN, 40, "A damaged morning on the line", 22, "#1c2429", bold=True)
    svg.text(out, MARGIN, 62, "What the card at address 1 hears on NFO serial, byte for byte, and what the real program made of it. Of %d bytes %d are dropped;" % (
        len(stream), sum(byte.kind == "dropped" for byte in told)), 12.5, "#37474f")
    svg.text(out, MARGIN, 79, "%d messages are taken, each once. None of the damaged ones is served." % len(messages), 12.5, "#37474f")
    draw_legend(out, 108)
    svg.text(out, MARGIN + 22, 136, "what was asked", 11, "#5f6b72")
    svg.text(out, CELLS, 136, "the bytes that came, in hex, with their characters", 11, "#5f6b72")
    svg.text(out, RIGHT, 136, "outcome and reply", 11, "#5f6b72")
    start = 0
    for i, (piece, text) in enumerate(zip(pieces, texts_)):
        y = TOP + i * ROW
        if i and not texts_[i - 1].joined:
            svg.line(out, MARGIN, y - 4 - 10, WIDTH - MARGIN, y - 4 - 10, "#e3e6e8", 1)
        if text.joined:
            bottom = y + ROW + HIGH
            svg.line(out, CELLS - 8, y, CELLS - 8, bottom, "#37474f", 1.6)
            svg.line(out, CELLS - 8, y, CELLS - 3, y, "#37474f", 1.6)
            svg.line(out, CELLS - 8, bottom, CELLS - 3, bottom, "#37474f", 1.6)
            svg.text(out, CELLS, y + HIGH + 16, "one scrap, two messages: the rest is handed in again", 10, "#37474f")
        draw_row(out, y, i + 1, piece, start, text, told, messages, scrapped)
        start += len(piece)
    return svg.whole(WIDTH, height, "A damaged morning on the line: the bytes of each message, what the card made of them, and its replies", out)


def main(words):
    try:
        if words[:1] == ["run"] and words[1:]:
            sys.stdout.write(run(words[1:]))
            return 0
        if words[:1] == ["draw"] and words[1:] in ([], ["--check"]):
            return svg.keep(os.path.join(HERE, "morning.svg"), picture(), words[1:], "morning", "morning.py draw")
    except Bad as bad:
        sys.stderr.write("morning: %s\n" % bad)
        return 1
    sys.stderr.write(__doc__)
    return 2


if __name__ == "__main__":
    sys.exit(main(sys.argv[1:]))
