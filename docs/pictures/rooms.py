"""Draws rooms.svg from rooms.txt, and holds it against crates.txt: every crate has a room, and no crate names one that stands beside or above its group.

Usage: rooms.py          writes rooms.svg
       rooms.py --check  says whether rooms.svg is what it would write, and ends with 1 if not
"""
import os
import sys

import svg

HERE = os.path.dirname(os.path.abspath(__file__))
CRATES = os.path.join(HERE, "..", "..", "crates.txt")

WIDTH, MARGIN = 1000, 26
TOP = 84                       # where the first row begins
GAP, CHANNEL = 46, 64          # between groups, one above the other and side by side
PAD, HEAD = 12, 34             # inside a group: around its rooms, and for its head
ROOM_GAP, ROOM_LEAST = 9, 118  # between rooms; a room's least width
NAME_SIZE, WORDS_SIZE, WORDS_LINE = 13, 11, 14

# fill of the group, its edge and head, fill of its rooms
COLOURS = {
    "grey": ("#eceff1", "#455a64", "#ffffff"),
    "gold": ("#fff3d1", "#8a6100", "#ffffff"),
    "blue": ("#e0edf9", "#1f5f99", "#ffffff"),
    "green": ("#e2f2e4", "#2b7038", "#ffffff"),
    "violet": ("#efe7f7", "#673f96", "#ffffff"),
    "sand": ("#f2ebe0", "#74582f", "#ffffff"),
}


class Bad(Exception):
    """A line of rooms.txt or of crates.txt is not right."""


class Group:
    def __init__(self, name, colour, most, head, words):
        self.name, self.colour, self.most, self.head, self.words = name, colour, most, head, words
        self.rooms = []
        self.x = self.y = self.width = self.height = 0

    def lay(self, x, y, width):
        """Places the rooms in lines of equal boxes, and finds the group's height."""
        self.x, self.y, self.width = x, y, width
        inner = width - 2 * PAD
        need = max(svg.mono_width(name, NAME_SIZE) + 16 for name, _ in self.rooms)
        most = min(self.most, max(1, int((inner + ROOM_GAP) // (max(ROOM_LEAST, need) + ROOM_GAP))))
        self.lines = -(-len(self.rooms) // most)
        self.across = -(-len(self.rooms) // self.lines)
        self.box = (inner - (self.across - 1) * ROOM_GAP) / self.across
        self.told = [svg.wrapped(words, self.box - 14, WORDS_SIZE) for _, words in self.rooms]
        self.box_height = 27 + WORDS_LINE * max(len(told) for told in self.told)
        self.height = HEAD + self.lines * (self.box_height + ROOM_GAP) - ROOM_GAP + PAD

    def stretch(self, bottom):
        """Makes the rooms higher, so that the group ends there."""
        self.box_height += (bottom - self.y - self.height) / self.lines
        self.height = bottom - self.y

    def draw(self, out):
        fill, edge, room = COLOURS[self.colour]
        svg.box(out, self.x, self.y, self.width, self.height, 10, fill, edge, 1.5)
        svg.text(out, self.x + PAD, self.y + 22, self.head, 14, edge, bold=True)
        head = svg.width(self.head, 14) * 1.1
        if head + svg.width(self.words, 11.5) + 3 * PAD < self.width:
            svg.text(out, self.x + self.width - PAD, self.y + 22, self.words, 11.5, "#37474f", anchor="end")
        for i, (name, _) in enumerate(self.rooms):
            x = self.x + PAD + (i % self.across) * (self.box + ROOM_GAP)
            y = self.y + HEAD + (i // self.across) * (self.box_height + ROOM_GAP)
            svg.box(out, x, y, self.box, self.box_height, 6, room, edge, 1)
            middle, top = x + self.box / 2, y + (self.box_height - 27 - WORDS_LINE * len(self.told[i])) / 2
            svg.text(out, middle, top + 17, name, NAME_SIZE, "#1c2429", mono=True, bold=True, anchor="middle")
            for j, line in enumerate(self.told[i]):
                svg.text(out, middle, top + 33 + j * WORDS_LINE, line, WORDS_SIZE, "#37474f", anchor="middle")


def read():
    """The rows of columns of groups, the arrows and the steps."""
    rows, groups, arrows, steps = [], {}, [], []
    with open(os.path.join(HERE, "rooms.txt"), encoding="utf-8") as file:
        for number, line in enumerate(file, 1):
            parts = [part.strip() for part in line.split("|")]
            words = parts[0].split()
            if not words or words[0].startswith("#"):
                continue
            kind, rest = words[0], words[1:]
            try:
                if kind == "row":
                    rows.append([])
                elif kind == "column":
                    rows[-1].append((int(rest[0]), []))
                elif kind == "group":
                    most = int(rest[2].partition("across=")[2]) if rest[2:] else 99
                    group = groups[rest[0]] = Group(rest[0], rest[1], most, parts[1], parts[2])
                    COLOURS[rest[1]]
                    rows[-1][-1][1].append(group)
                elif kind == "room":
                    rows[-1][-1][1][-1].rooms.append((rest[0], parts[1]))
                elif kind == "arrow":
                    arrows.append((groups[rest[0]], groups[rest[1]], " ".join(rest[2:])))
                elif kind == "step":
                    steps.append((rest[0], parts[1]))
                else:
                    raise KeyError(kind)
            except (KeyError, IndexError, ValueError) as error:
                raise Bad("rooms.txt, line %d is not understood: %s" % (number, error)) from None
    return rows, groups, arrows, steps


def crates():
    """Each crate with those that it names; behind the name of a static library stands the word `staticlib`."""
    named = {}
    with open(CRATES, encoding="utf-8") as file:
        for line in file:
            if line.strip() and not line.startswith("#"):
                crate, _, rest = line.partition(":")
                named[crate.split()[0]] = rest.split()
    return named


def lay(rows):
    """Places all groups; the lower edge of the last row."""
    y = TOP
    for row in rows:
        shares, free = sum(share for share, _ in row), WIDTH - 2 * MARGIN - CHANNEL * (len(row) - 1)
        x, ends = MARGIN, []
        for share, column in row:
            width, at = free * share / shares, y
            for group in column:
                group.lay(x, at, width)
                at += group.height + GAP
            ends.append(at - GAP)
            x += width + CHANNEL
        for _, column in row:
            column[-1].stretch(max(ends))
        y = max(ends) + GAP
    return y - GAP


def hold(groups, named):
    """Each crate stands in one room, and names only crates of its own group or below it."""
    where = {}
    for group in groups.values():
        for crate, _ in group.rooms:
            if crate in where:
                raise Bad("rooms.txt: %s has two rooms" % crate)
            if crate not in named:
                raise Bad("rooms.txt: %s is no crate of crates.txt" % crate)
            where[crate] = group
    for crate, others in named.items():
        if crate not in where:
            raise Bad("rooms.txt: the crate %s has no room" % crate)
        for other in others:
            if other in where and where[other] is not where[crate] and where[other].y < where[crate].y + where[crate].height:
                raise Bad("crates.txt: %s names %s, which does not stand below it in rooms.txt" % (crate, other))


def arrow(out, points, label):
    """A line through the points, with its head at the last, and the label in a disc on its longest upright part."""
    svg.arrow(out, points, "#37474f")
    if label:
        parts = [(abs(b[1] - a[1]), a, b) for a, b in zip(points, points[1:])]
        _, a, b = max(parts, key=lambda part: part[0])
        svg.disc(out, (a[0] + b[0]) / 2, (a[1] + b[1]) / 2, 11, "#37474f", label)


def draw_arrows(out, arrows):
    """Between groups one above the other straight down or up; else through the channel between the columns, each in a lane of its own."""
    down, lanes = {}, 0
    for source, target, _ in arrows:
        down[frozenset((source.name, target.name))] = down.get(frozenset((source.name, target.name)), 0) + 1
    drawn = {}
    for source, target, label in arrows:
        left, right = max(source.x, target.x), min(source.x + source.width, target.x + target.width)
        neighbours = right > left and min(abs(target.y - source.y - source.height), abs(source.y - target.y - target.height)) <= GAP
        if neighbours:
            pair = frozenset((source.name, target.name))
            place = drawn[pair] = drawn.get(pair, 0) + 1
            x = left + (right - left) * place / (down[pair] + 1)
            ends = (source.y + source.height, target.y) if source.y < target.y else (source.y, target.y + target.height)
            arrow(out, [(x, ends[0]), (x, ends[1])], label)
        else:
            lanes += 1
            x = source.x + source.width + CHANNEL * (1 - lanes / 3)
            y = source.y + source.height * lanes / 3
            end = target.y + target.height * lanes / 3
            arrow(out, [(source.x + source.width, y), (x, y), (x, end), (target.x, end)], label)


def picture():
    rows, groups, arrows, steps = read()
    bottom = lay(rows)
    hold(groups, crates())
    out = []
    half = -(-len(steps) // 2)
    height = bottom + 40 + half * 26 + 8
    svg.box(out, 0, 0, WIDTH, height, 14, "#fbfaf7", "#cfd8dc", 1)
    svg.text(out, MARGIN, 40, "The rooms of the line card", 22, "#1c2429", bold=True)
    svg.text(out, MARGIN, 62, "A box is a crate; it names only crates of its own frame and of frames below. The numbers are the way of a byte.", 12.5, "#37474f")
    for group in groups.values():
        group.draw(out)
    draw_arrows(out, arrows)
    for i, (number, words) in enumerate(steps):
        x = MARGIN + 12 + (i // half) * (WIDTH - 2 * MARGIN) * 0.49
        y = bottom + 38 + (i % half) * 26
        svg.disc(out, x, y, 11, "#37474f", number)
        svg.text(out, x + 20, y + 4, words, 12, "#1c2429")
    return svg.whole(WIDTH, height, "The rooms of the line card: crates in layers, and the way of a byte through them", out)


def main(words):
    try:
        return svg.keep(os.path.join(HERE, "rooms.svg"), picture(), words, "rooms", "rooms.py")
    except Bad as bad:
        sys.stderr.write("rooms: %s\n" % bad)
        return 1


if __name__ == "__main__":
    sys.exit(main(sys.argv[1:]))
