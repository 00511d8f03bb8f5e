"""What is drawn: messages and host events, one after another. A list among them is a row of steps with no read of Drive Status between."""
from collections import namedtuple

from card import ALL, ANOTHER, FAULTS, ROWS, SHORT, SPOILT, US, Message

Host = namedtuple("Host", "name number", defaults=(None,))

# the numbers that are written, allowed and not
NUMBERS = {
    "MODE": [1, 2, 2, 3, 3, 3, 0, 4],
    "SCMD": [0, 0, 129, 129, 257, 257, 1, 128, 258],
    "SioTot": [0, 1, 20, 50, 100, 250, 251, -1],
    "Accel": [2, 50, 5000, 1, 5001],
    "P-Nom": [1, 150, 10000, 0, 10001],
}
WRITTEN = ["MODE", "MODE", "SCMD", "SCMD", "SCMD", "SioTot", "Accel", "P-Nom", "P-Nom"]


def whom(draw):
    return draw.one_of(9 * [US] + 2 * [ALL] + [ANOTHER])


def readable(card):
    """The rows that the protocol reaches: Drive Status "has no E number"."""
    return [name for name, row in ROWS.items() if card.protocol != "nfo" or row.e is not None]


def read(draw, card):
    yield Message(whom(draw), draw.one_of(readable(card) + ["Inv St, ack", "SioErr"]))


def write(draw, card):
    name = draw.one_of(WRITTEN)
    yield Message(whom(draw), name, draw.one_of(NUMBERS[name]))


def read_only(draw, card):
    yield Message(whom(draw), draw.one_of([name for name in readable(card) if ROWS[name].allowed is None]), draw.one_of([0, 1, 24, -1]))


def status_written(draw, card):
    yield Message(whom(draw), "Drive Status" if "Drive Status" in readable(card) else "no row", draw.one_of([0, card.status(), card.status() ^ 0x0201, -1]))


def no_row(draw, card):
    yield Message(whom(draw), "no row", draw.one_of([None, 0]))


def unserved(draw, card):
    """A message for another card, a broadcast read, one with too short a buffer, or a spoilt frame: the time sum goes on."""
    name = draw.one_of(["MODE", "SCMD", "Inv St, ack", "SioErr"])
    number = draw.one_of(NUMBERS[name] if name in NUMBERS else [None])
    kinds = [Message(ANOTHER, name, number), Message(ALL, name), Message(US, name, number, SHORT), Message(US, name, number, SPOILT)]
    return draw.one_of(kinds if card.protocol == "rtu" else kinds[:3])


def not_served(draw, card):
    yield unserved(draw, card)


def din1(draw, card):
    yield Host("din1", draw.one_of([0, 1, 1]))


def fault(draw, card):
    yield Host("raise", draw.one_of(FAULTS))


def end(draw, card):
    yield Host("end", draw.one_of([number for number in FAULTS if card.causes >> number & 1] or FAULTS))


def no_number(draw, card):
    yield draw.one_of([Host(draw.one_of(["raise", "end"]), draw.one_of([0, 14, 15, 24, 31, 32, 46])), Host("tick", draw.one_of([0, 251]))])


def measured(draw, card):
    yield Host(draw.one_of(["frq", "irms", "optime"]), draw.below(1000))


def parity(draw, card):
    yield Host("parity")


def tick(draw, card):
    yield Host("tick", 1 + draw.below(250))


def silence(draw, card):
    """Ticks in a row, and among them messages that do not restart the time sum."""
    yield [draw.one_of([Host("tick", 1 + draw.below(50)), Host("tick", 1 + draw.below(120)), unserved(draw, card)]) for _ in range(3 + draw.below(4))]


def restart(draw, card):
    yield Host("restart")


def start(draw, card):
    yield Host("start")


def mended(draw, card):
    """All causes end, and all flags are cleared."""
    for number in FAULTS:
        if card.causes >> number & 1:
            yield Host("end", number)
    yield Message(US, "Inv St, ack")
    yield Message(US, "SioErr")


def to_auto(draw, card):
    """The motor runs at MODE 2: DIN1 comes first, or MODE."""
    if card.flags:
        yield from mended(draw, card)
    parts = [Host("din1", 1), Message(draw.one_of([US, ALL]), "MODE", 2)]
    yield from draw.one_of([parts, parts[::-1]])


def to_bus(draw, card):
    """The motor runs at MODE 3."""
    if card.flags:
        yield from mended(draw, card)
    yield Host("din1", 1)
    yield Message(draw.one_of([US, ALL]), "MODE", 3)
    yield Message(draw.one_of([US, ALL]), "SCMD", draw.one_of([129, 257]))


def stop(draw, card):
    yield Message(whom(draw), "SCMD", 0)


def stopped(draw, card):
    """The motor runs, and then something happens by which it stops, or does not."""
    yield from draw.one_of([to_auto, to_bus])(draw, card)
    yield from draw.one_of([din1, fault, parity, restart, start, stop, write, write, write, silence])(draw, card)
    yield from draw.one_of([din1, read, write, tick])(draw, card)


def port_fault(draw, card):
    """A time-out or a parity fault at MODE 3, sometimes a fault beside it, and a way out that works or not."""
    yield from to_bus(draw, card)
    yield draw.one_of([Host("parity"), Host("tick", 250), Host("tick", 250)])
    if draw.below(5) < 2:
        yield Host("raise", draw.one_of(FAULTS))
    yield draw.one_of(3 * [Message(ALL, "SCMD", 0)] + [Message(US, "SioErr"), Message(US, "Inv St, ack"), Message(US, "SCMD", 0)])


def acknowledged(draw, card):
    """One or two faults; a read while their causes stand, one by which nothing is acknowledged, and one when a cause has ended."""
    first, second = draw.one_of(FAULTS), draw.one_of(FAULTS)
    yield Host("raise", first)
    if draw.below(2):
        yield Host("raise", second)
    if draw.below(2):
        yield Message(US, "Inv St, ack")
    yield Host("end", first)
    yield draw.one_of([Message(ALL, "Inv St, ack"), Message(US, "Inv St"), Message(US, "Inv St, ack", 0)])
    yield draw.one_of([Message(US, "Inv St, ack"), Message(US, "Inv St, ack"), Host("restart")])


KINDS = [read, read, write, write, write, read_only, status_written, no_row, not_served, din1, din1, din1, fault, end, no_number, measured, parity, tick, tick,
         silence, restart, start, mended, mended, to_auto, to_bus, stopped, stopped, stopped, stopped, port_fault, port_fault, acknowledged]
