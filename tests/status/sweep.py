"""Some thousand random commands to `bench` on each protocol. After each one the card is asked for Drive Status by a read of 0258h (on NFO serial, where the
row has no E number, by `state` alone) and for its state, and every answer is held against card.py.

Usage: sweep.py PROGRAM, where `PROGRAM bench` runs the program. Exit status 0 where all agree.
"""
import copy
import os
import subprocess
import sys
from collections import Counter, namedtuple

from card import ALL, FLAG_14, PARITY, SPOILT, US, WORDS, Card, Message
from port import PORTS
from steps import KINDS, Host

sys.path.append(os.path.dirname(os.path.dirname(os.path.abspath(__file__))))
from draw import Draw

SEEDS = {"rtu": range(5), "ascii": range(5, 10), "nfo": range(10, 15)}
COMMANDS = 1500  # at least as many for each seed
LEAST = 30  # how often each thing is to happen, over all protocols

# a command, and its answer by the paper: a line, or the words of a state line by their numbers
Asked = namedtuple("Asked", "command answer")
EVENTS = {
    "start": lambda card, _: card.start(),
    "restart": lambda card, _: card.restart(),
    "raise": Card.raise_fault,
    "end": Card.end_cause,
    "din1": Card.set_din1,
    "parity": lambda card, _: card.port_fault(PARITY),
    "tick": Card.tick,
    **{name: Card.measure for name in ("frq", "irms", "optime")},
}


class Turn:
    """A step, its outcome, and the card before and after it."""

    def __init__(self, was, step, outcome, card):
        self.was, self.step, self.outcome, self.card = was, step, outcome, card
        self.name, self.number = step.name, step.number
        self.mode, self.ran = was.held["MODE"], was.running()
        self.message = isinstance(step, Message)
        self.read = self.message and step.number is None and outcome == 0
        self.write = self.message and step.number is not None
        self.ended = was.flags & ~was.causes & ~FLAG_14
        self.timed_out = self.name == "tick" and outcome == 0 and 0 < was.held["SioTot"] < was.sum + step.number
        self.broadcast_stop = was.protocol == "nfo" and step == Message(ALL, "SCMD", 0)
        self.turned = was.status() != card.status()


# what is to happen often
THINGS = {
    "running at MODE 2": lambda t: t.card.running() and t.card.held["MODE"] == 2,
    "running at MODE 3": lambda t: t.card.running() and t.card.held["MODE"] == 3,
    "a time-out at MODE 3": lambda t: t.timed_out and t.mode == 3,
    "a time-out while running at MODE 3": lambda t: t.timed_out and t.mode == 3 and t.ran,
    "a time-out while running at MODE 2": lambda t: t.timed_out and t.mode == 2 and t.ran,
    "a time-out by several ticks": lambda t: t.timed_out and t.was.sum > 0,
    "a parity fault while running at MODE 3": lambda t: t.name == "parity" and t.mode == 3 and t.ran,
    "a parity fault while running at MODE 2": lambda t: t.name == "parity" and t.mode == 2 and t.ran,
    "a fault while running at MODE 2": lambda t: t.name == "raise" and t.turned and t.mode == 2 and t.ran,
    "a fault while running at MODE 3": lambda t: t.name == "raise" and t.turned and t.mode == 3 and t.ran,
    "a cause that ends": lambda t: t.name == "end" and t.was.causes != t.card.causes,
    "the last flag acknowledged": lambda t: t.name == "Inv St, ack" and t.read and t.was.flags and not t.card.flags,
    "one flag of several acknowledged": lambda t: t.name == "Inv St, ack" and t.read and 0 < t.card.flags < t.was.flags,
    "an acknowledging read while the cause stands": lambda t: t.name == "Inv St, ack" and t.read and t.was.causes,
    "an acknowledging read of 14": lambda t: t.name == "Inv St, ack" and t.read and t.was.flags & FLAG_14,
    "a broadcast read that acknowledges nothing": lambda t: t.step == Message(ALL, "Inv St, ack") and t.ended,
    "a read of Inv St that acknowledges nothing": lambda t: t.name == "Inv St" and t.read and t.ended,
    "14 cleared by a read of SioErr": lambda t: t.name == "SioErr" and t.read and t.was.flags & FLAG_14,
    "14 cleared by the broadcast stop": lambda t: t.broadcast_stop and t.was.flags == FLAG_14,
    "no broadcast stop: another flag stands": lambda t: t.broadcast_stop and t.was.flags & FLAG_14 and t.outcome == 5,
    "no broadcast stop: no SELECT": lambda t: t.was.protocol != "nfo" and t.step == Message(ALL, "SCMD", 0) and t.was.flags == FLAG_14,
    "DIN1 inactive while running at MODE 2": lambda t: t.step == Host("din1", 0) and t.mode == 2 and t.ran,
    "DIN1 inactive while running at MODE 3": lambda t: t.step == Host("din1", 0) and t.mode == 3 and t.ran,
    "DIN1 active, and the motor runs": lambda t: t.name == "din1" and not t.ran and t.card.running(),
    "a restart while a cause stands": lambda t: t.name == "restart" and t.was.causes,
    "a restart that clears flags": lambda t: t.name == "restart" and t.was.flags != t.card.flags,
    "a restart while running": lambda t: t.name == "restart" and t.ran,
    "a start that changes the word": lambda t: t.name == "start" and t.turned,
    "MODE leaves 3 while running": lambda t: t.name == "MODE" and t.mode == 3 and t.ran and t.turned,
    "MODE written again while running": lambda t: t.write and t.step[1:3] == ("MODE", t.mode) and t.outcome == 0 and t.ran,
    "SCMD written to run": lambda t: t.name == "SCMD" and not t.ran and t.card.running(),
    "SCMD written to stop": lambda t: t.name == "SCMD" and t.ran and not t.card.running(),
    "a broadcast write that changes the word": lambda t: t.write and t.step.to == ALL and t.turned,
    "a message that leaves the time sum": lambda t: t.message and t.was.sum > 0 and t.card.sum == t.was.sum,
    "a host event's number not allowed": lambda t: t.outcome == 12,
    "a write of 0258h": lambda t: t.write and t.name == "Drive Status" and t.outcome == 3,
    **{"a write refused with %d" % number: lambda t, number=number: t.write and t.outcome == number for number in range(2, 8)},
}


class Sweep:
    """The commands of one seed with their answers by the paper."""

    def __init__(self, protocol, seed):
        self.protocol, self.port, self.draw = protocol, PORTS[protocol], Draw(seed)
        self.card = Card(protocol)
        self.script, self.commands, self.reads = [], 0, 0
        self.things, self.words = Counter(), Counter()
        self.row([Host("start")])
        while self.commands < COMMANDS:
            for step in self.draw.one_of(KINDS)(self.draw, self.card):
                self.row(step if isinstance(step, list) else [step])

    def row(self, steps):
        """The steps, and then the read of Drive Status: 03 or 04, at random."""
        for step in steps:
            self.step(step)
        self.commands += len(steps)
        if self.protocol != "nfo":
            self.step(Message(US, "Drive Status"))
            self.reads += 1
        self.words[self.card.status()] += 1

    def step(self, step):
        """The command and a look at the state; what happened is counted."""
        was = copy.deepcopy(self.card)
        outcome, asked = self.message(step) if isinstance(step, Message) else self.event(step)
        self.script += [asked, Asked("state", self.card.words())]
        turn = Turn(was, step, outcome, self.card)
        self.things.update(name for name, happened in THINGS.items() if happened(turn))

    def event(self, step):
        """The outcome, and the command with its answer."""
        outcome = EVENTS[step.name](self.card, step.number)
        word = self.protocol if step.name == "start" else step.number
        return outcome, Asked(step.name if word is None else "%s %s" % (step.name, word), str(outcome))

    def message(self, step):
        """The outcome, and the command with its answer."""
        port = self.port
        address, unit = self.draw.one_of(port.addresses[step.to]), port.unit(self.draw, step)
        request = port.request(address, unit)
        if step.way == SPOILT:
            request = request[:-1] + bytes([request[-1] ^ 1 + self.draw.below(255)])
        outcome, number = self.card.heard(step)
        if outcome == 10:
            return outcome, Asked("call %d %s" % (port.short, request.hex().upper()), "10 0 0 " + port.short * "A5")
        silent = outcome in (1, 11) or step.to == ALL
        reply = b"" if silent else port.reply(address, port.answer(unit, outcome, number))
        return outcome, Asked("bytes " + request.hex().upper(), "%d %s" % (outcome, reply.hex().upper() or "-"))


def difference(script, told):
    """The first answer that is not the paper's, in words, or None."""
    for place, (command, answer) in enumerate(script):
        line = told[place] if place < len(told) else "nothing"
        before = script[place - 2].command if place > 1 else "no command"
        if isinstance(answer, str):
            if line != answer:
                return "command %d, `%s` after `%s`: told is %s, the paper says %s" % (place + 1, command, before, line, answer)
            continue
        words = dict(enumerate(line.split(), 1))
        for number, right in answer.items():
            word = words.get(number, "missing")
            if word != str(right):
                return "state after command %d, `%s`: word %d is %s, the paper says %d" % (place, script[place - 1].command, number, word, right)
    if len(told) > len(script):
        return "%d answers are due, %d were told" % (len(script), len(told))
    return None


def swept(program, protocol, seed):
    """The sweep of one seed, when the program has given each answer of the paper."""
    sweep = Sweep(protocol, seed)
    commands = "".join(asked.command + "\n" for asked in sweep.script)
    ran = subprocess.run([program, "bench"], input=commands, capture_output=True, text=True, check=True)
    wrong = difference(sweep.script, ran.stdout.splitlines())
    if wrong:
        sys.exit("status: %s, seed %d: %s" % (protocol, seed, wrong))
    return sweep


def all_seen(protocol, words):
    """Each word that the rules can make, and no other, was told on this protocol."""
    unseen = ["%04X (%s)" % (word, meaning) for word, meaning in WORDS.items() if word not in words]
    assert not unseen, "status: not seen on %s: %s" % (protocol, ", ".join(unseen))
    others = ["%04X" % word for word in words if word not in WORDS]
    assert not others, "status: no words of the rules, on %s: %s" % (protocol, ", ".join(others))


def main():
    """All sweeps; then each word and each thing is to have come."""
    sweeps = [swept(sys.argv[1], protocol, seed) for protocol, seeds in SEEDS.items() for seed in seeds]
    for protocol in SEEDS:
        all_seen(protocol, sum((sweep.words for sweep in sweeps if sweep.protocol == protocol), Counter()))
    things = sum((sweep.things for sweep in sweeps), Counter())
    rare = ["%s (%d)" % (name, things[name]) for name in THINGS if things[name] < LEAST]
    assert not rare, "status: not %d times: %s" % (LEAST, ", ".join(rare))
    commands, reads = sum(sweep.commands for sweep in sweeps), sum(sweep.reads for sweep in sweeps)
    words = set().union(*(sweep.words for sweep in sweeps))
    print("status: %d commands and %d reads of 0258h agree, with %d different words" % (commands, reads, len(words)))


if __name__ == "__main__":
    main()
