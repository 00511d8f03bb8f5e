"""The register table of README.md, made from the table that the proofs speak of.

Usage: registers.py          prints the table
       registers.py --write  puts it into README.md, under "## The registers"
       registers.py --check  says whether README.md has it, and ends with 1 if not

Name, labels, width, class, allowed numbers and start word are read from crates/table/specs/Table.antt, the address rule from Address.antt beside it,
Setpoint's ranges from crates/allowed/specs/Allowed.antt. Only the last column stands here: what a number counts, from the manuals.
"""
import os
import re
import sys

TOP = os.path.dirname(os.path.dirname(os.path.dirname(os.path.abspath(__file__))))
HEADING = "## The registers"
HEAD = ["Name", "E", "ADI", "Register", "Hex", "Width", "Written", "Allowed", "Start", "What it is"]

# the papers' names where they are no single word
NAMES = {"SpdScl-num": "SpdScl num", "SpdScl-den": "SpdScl den", "Inv-St-ack": "Inv St, ack", "Inv-St": "Inv St", "Drive-Status": "Drive Status"}
WRITTEN = {"Init": "standing", "Run": "always", "OnlyRead": "never"}

# document 01 has no units: the card stores numbers. What they count is from its sources, S2 for rows with an E number and S1 for the others.
MEANING = {
    "P-Nom": "motor's nominal output, 0.01 kW",
    "U-Nom": "motor's nominal voltage, V",
    "f-Nom": "motor's nominal frequency, Hz",
    "N-Nom": "motor's nominal speed, rpm",
    "cosφ": "motor's cos φ, 0.01",
    "I-magn": "magnetising current, 0.01 A",
    "I-limt": "highest motor current, 0.01 A",
    "Accel": "time from 0 to f-Nom, 0.1 s",
    "Retard": "time from f-Nom to 0, 0.1 s",
    "Mode": "0 frequency, 1 regulator, 2 torque, 3 speed",
    "Fr-Min": "lowest frequency, 0.1 Hz",
    "Fr-Max": "highest frequency, 0.1 Hz",
    "R-fix1": "regulator's fixed setpoint, 0.1 of its unit",
    "RegAmp": "regulator's amplification",
    "SiBaud": "16 is 1200 bit/s, 32 2400, 64 4800, 128 9600; only stored",
    "SiProt": "0 is 7 bits, even parity; 1 is 8 bits, none; only stored",
    "SiAdr": "our own address on NFO serial, from the next message on",
    "SioTot": "time-out of the line, 0.1 s; 0 is none",
    "MbAdr": "our address on Modbus, from the next restart on",
    "SpdScl num": "speed scale, numerator",
    "SpdScl den": "speed scale, denominator",
    "Setpoint": "0.1 Hz at Mode 0 or 1, % at 2, rpm at 3",
    "MODE": "1 manual, 2 auto, 3 bus",
    "SCMD": "0 stop; 129 run by the terminals, 257 run by Setpoint",
    "Inv St, ack": "status; reading acknowledges",
    "Inv St": "status; reading changes nothing",
    "SioErr": "bit 0 time-out, bit 1 parity fault; reading zeroes it",
    "FrqAct": "frequency, 0.1 Hz",
    "I-rms": "current, 0.001 A",
    "OpTime": "time in operation, 0.01 h",
    "Drive Status": "status by bits; reading changes nothing",
}


class Bad(Exception):
    """Something is not as this script reads it."""


def text(path):
    with open(os.path.join(TOP, path), encoding="utf-8") as file:
        return file.read()


def find(pattern, where, path):
    found = re.search(pattern, where, re.S)
    if not found:
        raise Bad("%s: no %r" % (path, pattern))
    return found


def address_rule():
    """"Register = 528 + 4 × (ADI − 1)", as the definition has it."""
    path = "crates/table/specs/Address.antt"
    base, step = map(int, find(r"\naddress n = (\d+) \+ (\d+) \* \(n - 1\)\n", text(path), path).groups())
    return lambda adi: base + step * (adi - 1)


def setpoint():
    """Setpoint's ranges, one for each Mode, as `at_mode` has them."""
    path = "crates/allowed/specs/Allowed.antt"
    body = find(r"\nat_mode m v =\n(.*?)\n\n", text(path), path).group(1)
    ranges = [(int(m), int(n)) for m, n in re.findall(r"pick \(eqb m (\d+)\) \(about (\d+) v\)", body)]
    if [m for m, _ in ranges] != [0, 1, 2, 3] or body.count("about") != 4:
        raise Bad("%s: at_mode is not a range for each Mode" % path)
    parts = []
    for n in dict.fromkeys(n for _, n in ranges):
        parts.append("±%d at %s" % (n, " or ".join(str(m) for m, k in ranges if k == n)))
    return ", ".join(parts).replace(" at ", " at Mode ", 1)


def number(word):
    """`pos 3` or `neg_ℤ (pos 3)`."""
    found = re.fullmatch(r"pos (\d+)|neg_ℤ \(pos (\d+)\)", word)
    if not found:
        raise Bad("no number: %s" % word)
    return found.group(1) or "−" + found.group(2)


def allowed(word):
    """The column Allowed in document 01's words."""
    if word == "Nothing":
        return "-"
    if word == "BelowLimt":
        return "0..I-limt−1"
    if word == "ByMode":
        return setpoint()
    found = re.fullmatch(r"\(AboveMagn \(pos (\d+)\)\)", word)
    if found:
        return "I-magn+1..%s" % found.group(1)
    found = re.fullmatch(r"\(between (\d+) (\d+)\)", word)
    if found:
        return "%s..%s" % found.groups()
    found = re.fullmatch(r"\(about_0 (\d+)\)", word)
    if found:
        return "−%s..%s" % (found.group(1), found.group(1))
    found = re.fullmatch(r"\(these \((.*) ∷ \[\]\)\)", word)
    if found:
        return ", ".join(number(part) for part in found.group(1).split(" ∷ "))
    raise Bad("no column Allowed: %s" % word)


ROW = re.compile(r"row (\S+) (?:\(E 0x([0-9A-F]{4})\)|(no_e)) \((ADI|register) (\w+)\) ([12]) (.*) (Init|Run|OnlyRead) (?:\(Word (\d+)\)|NoWord)")


def rows():
    path = "crates/table/specs/Table.antt"
    body = find(r"\nrows =\n(.*?)\n\n", text(path), path).group(1)
    lines = [re.sub(r"^ *(∷ )?", "", line) for line in body.split("\n")]
    if lines.pop() != "[]":
        raise Bad("%s: the list of rows does not end" % path)
    address = address_rule()
    table = []
    for line in lines:
        found = ROW.fullmatch(line)
        if not found:
            raise Bad("%s: no row: %s" % (path, line))
        name, e, _, kind, place, width, rule, class_, start = found.groups()
        name = NAMES.get(name, name)
        if name not in MEANING:
            raise Bad("registers.py: does not say what %s is" % name)
        register = address(int(place)) if kind == "ADI" else int(place, 16)
        adi = place if kind == "ADI" else "-"
        table.append([name, e or "-", adi, "%d" % register, "%04Xh" % register, width, WRITTEN[class_], allowed(rule), start or "-", MEANING[name]])
    for name in MEANING:
        if name not in [row[0] for row in table]:
            raise Bad("registers.py: %s is no row" % name)
    return table


def table():
    lines = [HEAD, ["-"] * len(HEAD)] + rows()
    return "".join("|%s|\n" % "|".join(cells) for cells in lines)


def parted(readme):
    """README.md before its register table, the table, and the rest."""
    found = re.search(r"(\n%s\n.*?\n)((?:\|[^\n]*\n)+)" % re.escape(HEADING), readme, re.S)
    if not found:
        raise Bad("README.md: no table under %r" % HEADING)
    return readme[:found.start(2)], found.group(2), readme[found.end(2):]


def differences():
    """What README.md's table has otherwise, a line each."""
    was, now = parted(text("README.md"))[1].splitlines(), table().splitlines()
    told = ["README.md has    %s" % line for line in was if line not in now] + ["the proofs have %s" % line for line in now if line not in was]
    return told or (["README.md: the rows stand in another order"] if was != now else [])


def main(words):
    try:
        if words == []:
            sys.stdout.write(table())
        elif words == ["--write"]:
            before, _, after = parted(text("README.md"))
            with open(os.path.join(TOP, "README.md"), "w", encoding="utf-8") as file:
                file.write(before + table() + after)
        elif words == ["--check"]:
            told = differences()
            sys.stderr.write("".join("registers: %s\n" % line for line in told))
            return 1 if told else 0
        else:
            sys.stderr.write(__doc__)
            return 2
    except Bad as bad:
        sys.stderr.write("registers: %s\n" % bad)
        return 1
    return 0


if __name__ == "__main__":
    sys.exit(main(sys.argv[1:]))
