"""What the pictures share: boxes, text, arrows, and how wide a text is. The same numbers give the same file, everywhere."""
import os
import sys
from xml.sax.saxutils import escape

SANS = "'DejaVu Sans', Verdana, Arial, sans-serif"
MONO = "'DejaVu Sans Mono', Menlo, Consolas, monospace"

NARROW, SLIM, WIDE = set("ijl.,:;'|!"), set("frtI()-/ "), set("mwMW@%")


def num(value):
    """A number with one digit after the point at most."""
    told = "%.1f" % value
    return told[:-2] if told.endswith(".0") else told


def width(words, size):
    """How wide a text is, in the widest of the faces named; never too small by much."""
    return sum(0.34 if c in NARROW else 0.42 if c in SLIM else 0.96 if c in WIDE else 0.63 for c in words) * size


def mono_width(words, size):
    return 0.61 * size * len(words)


def wrapped(words, room, size):
    """The words in lines that fit."""
    lines = [""]
    for word in words.split():
        longer = (lines[-1] + " " + word).strip()
        if lines[-1] and width(longer, size) > room:
            lines.append(word)
        else:
            lines[-1] = longer
    return lines


def box(out, x, y, w, h, radius, fill, edge, line, dash=""):
    more = ' stroke-dasharray="%s"' % dash if dash else ""
    out.append('<rect x="%s" y="%s" width="%s" height="%s" rx="%s" fill="%s" stroke="%s" stroke-width="%s"%s/>' % (
        num(x), num(y), num(w), num(h), num(radius), fill, edge, num(line), more))


def text(out, x, y, words, size, fill, bold=False, mono=False, anchor="start"):
    more = ' font-weight="bold"' if bold else ""
    more += ' font-family="%s"' % MONO if mono else ""
    more += ' text-anchor="%s"' % anchor if anchor != "start" else ""
    out.append('<text x="%s" y="%s" font-size="%s" fill="%s"%s>%s</text>' % (num(x), num(y), num(size), fill, more, escape(words)))


def line(out, x1, y1, x2, y2, colour, thick, dash=""):
    more = ' stroke-dasharray="%s"' % dash if dash else ""
    out.append('<line x1="%s" y1="%s" x2="%s" y2="%s" stroke="%s" stroke-width="%s"%s/>' % (num(x1), num(y1), num(x2), num(y2), colour, num(thick), more))


def arrow(out, points, colour):
    """Straight parts, a head at the end."""
    (x1, y1), (x2, y2) = points[-2:]
    length = max(abs(x2 - x1), abs(y2 - y1))
    dx, dy = (x2 - x1) / length, (y2 - y1) / length
    stop = (x2 - 7 * dx, y2 - 7 * dy)
    path = " ".join("%s,%s" % (num(x), num(y)) for x, y in points[:-1] + [stop])
    out.append('<polyline points="%s" fill="none" stroke="%s" stroke-width="1.8"/>' % (path, colour))
    head = [(x2, y2), (x2 - 9 * dx - 5 * dy, y2 - 9 * dy + 5 * dx), (x2 - 9 * dx + 5 * dy, y2 - 9 * dy - 5 * dx)]
    out.append('<polygon points="%s" fill="%s"/>' % (" ".join("%s,%s" % (num(x), num(y)) for x, y in head), colour))


def disc(out, x, y, radius, fill, words):
    out.append('<circle cx="%s" cy="%s" r="%s" fill="%s" stroke="#fbfaf7" stroke-width="2"/>' % (num(x), num(y), num(radius), fill))
    text(out, x, y + 4.5, words, 12.5, "#ffffff", bold=True, anchor="middle")


def whole(w, h, title, out):
    head = '<svg xmlns="http://www.w3.org/2000/svg" width="%s" height="%s" viewBox="0 0 %s %s" font-family="%s" role="img">\n<title>%s</title>\n' % (
        num(w), num(h), num(w), num(h), SANS, escape(title))
    return head + "\n".join(out) + "\n</svg>\n"


def keep(path, picture, words, name, how):
    """Writes the picture, or with --check says whether the file is it; `how` is the command that writes it."""
    if words == ["--check"]:
        stored = ""
        if os.path.exists(path):
            with open(path, encoding="utf-8") as file:
                stored = file.read()
        if stored != picture:
            sys.stderr.write("%s: %s.svg is not what its script makes: docs/pictures/%s\n" % (name, name, how))
            return 1
        return 0
    with open(path, "w", encoding="utf-8") as file:
        file.write(picture)
    return 0
