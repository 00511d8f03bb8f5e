"""Holds README.md and docs/ against the crates and the programs. Each fault is a line; the last line says how many there are.

Usage: check.py. It needs the programs `bench` and `session`, as `rt ci` or ./run builds them.
"""
import glob
import os
import re
import subprocess
import sys

TOP = os.path.dirname(os.path.dirname(os.path.dirname(os.path.abspath(__file__))))
PROGRAM = os.path.join(TOP, "tests", "program")
PAGES = ["README.md"] + sorted(os.path.relpath(path, TOP) for path in glob.glob(os.path.join(TOP, "docs", "*.md")))


def text(path):
    with open(os.path.join(TOP, path), encoding="utf-8") as file:
        return file.read()


def ran(*words):
    """What a command says, where it fails."""
    done = subprocess.run(words, cwd=TOP, capture_output=True, text=True)
    if done.returncode == 0:
        return []
    return (done.stderr or done.stdout).splitlines() or ["%s ended with %d" % (" ".join(words), done.returncode)]


def sections(page):
    """What stands under each heading `## NAME` or `## NAME: WORDS`, by NAME."""
    parts = re.split(r"^## ", text(page), flags=re.M)[1:]
    return {head.partition(":")[0]: part for head, _, part in (part.partition("\n") for part in parts)}


def cells(page, name):
    """The rows of the tables in a section, its own cells each, without heads."""
    lines = [line for line in sections(page).get(name, "").split("\n") if line.startswith("|")]
    rows = [[cell.strip() for cell in line.strip("|").split("|")] for line in lines]
    rules = [i for i, row in enumerate(rows) if set("".join(row)) <= set("-: ")]
    return [row for i, row in enumerate(rows) if i not in rules and i + 1 not in rules]


def crates():
    """The crates' names; behind that of a static library stands the word `staticlib`."""
    return [line.partition(":")[0].split()[0] for line in text("crates.txt").splitlines() if line.strip() and not line.startswith("#")]


def differs(what, told, right):
    faults = ["%s: %s is not there" % (what, x) for x in right if x not in told]
    faults += ["%s: %s is too much" % (what, x) for x in told if x not in right]
    return faults + ["%s: %s stands twice" % (what, x) for x in sorted(set(told)) if told.count(x) > 1]


# ---- the tables
def registers():
    return ran(sys.executable, "-B", "docs/tools/registers.py", "--check")


def rooms():
    """Every crate in README's table of rooms, and nothing else."""
    told = [name for row in cells("README.md", "The rooms") for name in re.findall(r"`(\w+)`", row[0])]
    return differs("README.md, The rooms", told, crates())


def times():
    """The crates whose seconds ARCHITECTURE.md has are there."""
    told = [name for row in cells("docs/ARCHITECTURE.md", "How long checks take") for name in re.findall(r"`(\w+)`", row[0])]
    faults = ["docs/ARCHITECTURE.md, How long checks take: no crate %s" % name for name in told if name not in crates()]
    return faults if told else ["docs/ARCHITECTURE.md: no table of seconds"]


def outcomes():
    """Each number that the definitions give, the card's and the master's, in README's table."""
    numbers = []
    for path in ("crates/answers/specs/Answer.antt", "crates/card/specs/Outcome.antt", "crates/master/specs/Sent.antt", "crates/master_reply/specs/Reply.antt"):
        numbers += map(int, re.findall(r"^(?:answer_number|refusal_number|outcome_number|sent_number|reply_number) [^=\n]*= (\d+)$", text(path), re.M))
    told = [int(row[0]) for row in cells("README.md", "Outcomes")]
    return differs("README.md, Outcomes", told, sorted(set(numbers)))


def status():
    """Each number that Inv St can tell: the faults, 14, and those of `status_of`."""
    events, tells = text("crates/drive/specs/Events.antt"), text("crates/drive/specs/Status.antt")
    is_fault = re.search(r"\nis_fault n = (.*)\n", events).group(1)
    numbers = []
    for low, high in re.findall(r"both \(leb (\d+) n\) \(leb n (\d+)\)", is_fault):
        numbers += range(int(low), int(high) + 1)
    numbers += [int(re.search(r"\nport_fault \w = .*flag_raised \(only (\d+)\)", events).group(1))]
    doing = re.search(r"\nstatus_of \w =\n(.*?)\n(?:\n|$)", tells, re.S).group(1)
    for running, standing in re.findall(r"pick \(runs \w\) (\d+) (\d+)", doing):
        numbers += [int(running), int(standing)]
    numbers += [int(re.search(r" (\d+)\)\)$", doing).group(1))]
    told = [int(row[0]) for row in cells("README.md", "Status")]
    return differs("README.md, Status", told, sorted(numbers))


def drive_status():
    """The bits of the definition's word, each with its mask, in README's table and in the header."""
    word = re.search(r"\nstatus_word \w =\n(.*?)\n\n", text("crates/drive/specs/Status.antt"), re.S).group(1)
    right = [(n, "%04Xh" % (1 << n)) for n in map(int, re.findall(r"\(bit (\d+) ", word))]
    told = [(int(row[0]), row[1]) for row in cells("README.md", "Drive Status")]
    listed = re.search(r"\nenum card_status \{\n(.*?)\n\};", text("include/linecard.h"), re.S).group(1)
    masks = [mask + "h" for mask in re.findall(r" = 0x([0-9A-F]{4})\b", listed)]
    return differs("README.md, Drive Status", told, right) + differs("linecard.h, card_status", masks, [mask for _, mask in right])


def identity():
    """README's objects are those of the definition, and `line` is there who the masters of the test hear."""
    definition, masters = text("crates/identity/specs/Identity.antt"), text("tests/masters/steps.py")
    words = {"[]": "empty", "(revision i)": "the revision, 17 bytes", "(model i)": "the model, 8 bytes"}
    for name in ("vendor_name", "product_name"):
        listed = re.search(r"^%s = (.*)$" % name, definition, re.M).group(1)
        words[name] = "`%s`" % bytes.fromhex("".join(re.findall(r"0x([0-9A-F]{2})", listed))).decode()
    right = ["%sh: %s" % (number, words.get(held, held)) for number, held in re.findall(r"^ +(?:∷ )?object 0x([0-9A-F]{2}) (.*)$", definition, re.M)]
    told = ["%s: %s" % (row[0], row[2]) for row in cells("README.md", "Who are you?") if row[0].endswith("h")]
    names = re.search(r"revision `([^`]*)`, model `([^`]*)`, serial number `([^`]*)`", text("README.md")).groups()
    heard = re.search(r'^REVISION, MODEL, SERIAL_NUMBER = b"(.*)", b"(.*)", b"(.*)"$', masters, re.M).groups()
    faults = differs("README.md, Who are you?", told, right) if right else ["no objects are defined"]
    return faults + differs("README.md, who line is", list(names), list(heard))


# ---- the promises
def edits():
    """Each must-fail edit, as CRATE/EDIT."""
    paths = sorted(glob.glob(os.path.join(TOP, "crates", "*", "must-fail", "*.edit")))
    return ["%s/%s" % (path.split(os.sep)[-3], os.path.basename(path)[:-5]) for path in paths]


def edited(crate, edit):
    """What an edit is of: a program, a definition, or both alike. (The proof that a program meets its definition may change with them.)"""
    path = "crates/%s/must-fail/%s.edit" % (crate, edit)
    folders = set(re.findall(r"^file: (\w+)/", text(path), re.M) if os.path.exists(os.path.join(TOP, path)) else [])
    return {(True, False): "program", (False, True): "definition", (True, True): "both"}.get(("src" in folders, "specs" in folders), "proof")


def routines(crate):
    """The contract of each public routine of a crate, from its signature on, by the routine's name: `Type::name` for one of an `impl`."""
    found = {}
    for path in sorted(glob.glob(os.path.join(TOP, "crates", crate, "src", "**", "*.rt"), recursive=True)):
        source, kind = text(path), ""
        for at in re.finditer(r'^impl (\w+)|^( *)pub (?:extern "C" )?fn (\w+)', source, re.M):
            if at.group(1):
                kind = at.group(1)
                continue
            name = "%s::%s" % (kind, at.group(3)) if at.group(2) else at.group(3)
            found[name] = re.split(r"^%s\{$" % at.group(2), source[at.start():], maxsplit=1, flags=re.M)[0]
    return found


def named(name, where):
    return re.search(r"(?<![\w-])%s(?![\w-])" % re.escape(name), where)


def proof_text(crate):
    """All that the specs and proofs of a crate say."""
    paths = [path for folder in ("specs", "proofs") for path in glob.glob(os.path.join(TOP, "crates", crate, folder, "**", "*.antt"), recursive=True)]
    return "\n".join(text(path) for path in sorted(paths))


def refusal_faults(crate, definition, refuses, wrong):
    """What refuses a wrong program: the equation, with laws that are there, in a crate that has an edit; or else edits of the crate, or tests."""
    names = re.findall(r"`([^`]+)`", refuses)
    if refuses.startswith("the equation"):
        shown = "`" in definition and any(edit.startswith(crate + "/") for edit in wrong)
        return ([] if shown else ["no definition, or the crate has no edit"]) + ["no law %s" % law for law in names if not named(law, proof_text(crate))]
    missing = [name for name in names if "%s/%s" % (crate, name) not in wrong and not os.path.isdir(os.path.join(TOP, "tests", os.path.basename(name)))]
    return ["no %s" % name for name in missing] if names else ["nothing refuses a wrong program"]


def promises_of(crate, wrong):
    """A line for each public routine of a crate and no other, whose definitions its contract cites."""
    rows, contracts, faults = cells("docs/PROMISES.md", crate), routines(crate), []
    for routine, promise, definition, refuses in rows:
        told = [] if promise else ["no promise"]
        told += ["its contract does not cite %s" % name for name in re.findall(r"`([^`]+)`", definition) if not named(name, contracts.get(routine.strip("`"), ""))]
        told += refusal_faults(crate, definition, refuses, wrong)
        faults += ["%s: %s" % (routine, fault) for fault in told]
    return faults + differs("lines", [row[0].strip("`") for row in rows], list(contracts))


def promises():
    """Every public routine, of a program too, has its line in docs/PROMISES.md, every must-fail edit its own, and there are no other."""
    rows, wrong = cells("docs/PROMISES.md", "The edits"), edits()
    faults = differs("The edits", ["%s/%s" % (row[0], row[1].strip("`")) for row in rows], wrong)
    faults += ["The edits: %s shows nothing, or is refused nowhere" % row[1] for row in rows if len(row) != 5 or not all(row)]
    kinds = [(row, edited(row[0], row[1].strip("`"))) for row in rows]
    faults += ["The edits: %s is of: %s" % (row[1], kind) for row, kind in kinds if kind != row[2]]
    for crate in crates():
        faults += ["%s: %s" % (crate, fault) for fault in promises_of(crate, wrong)]
    others = [name for name in sections("docs/PROMISES.md") if name not in crates() + ["The edits"]]
    faults += ["%s: no crate has these routines" % name for name in others if cells("docs/PROMISES.md", name)]
    return ["docs/PROMISES.md, %s" % fault for fault in faults]


# ---- the pictures
def picture_of_rooms():
    return ran(sys.executable, "-B", "docs/pictures/rooms.py", "--check")


def picture_of_the_morning():
    """The real program runs the morning again: its answers are the stored ones, and the picture is drawn from these."""
    done = subprocess.run([sys.executable, "-B", "docs/pictures/morning.py", "run", PROGRAM, "bench"], cwd=TOP, capture_output=True, text=True)
    if done.returncode:
        return done.stderr.splitlines()
    faults = []
    if done.stdout != text("docs/pictures/morning.run"):
        faults = ["docs/pictures/morning.run is not what bench answers: docs/pictures/morning.py run tests/program bench"]
    return faults + ran(sys.executable, "-B", "docs/pictures/morning.py", "draw", "--check")


# ---- the text
def anchors(page):
    """The names that a page's headings have as the target of a link."""
    heads = re.findall(r"^#+ (.*)$", text(page), re.M)
    return [re.sub(r"[^\w\- ]", "", head.lower()).replace(" ", "-") for head in heads]


def links():
    faults, seen = [], 0
    for page in PAGES:
        for target in re.findall(r"\]\(([^)\s]+)\)", text(page)):
            if "://" in target:
                continue
            seen += 1
            path, _, anchor = target.partition("#")
            file = os.path.normpath(os.path.join(os.path.dirname(page), path)) if path else page
            if not os.path.exists(os.path.join(TOP, file)):
                faults.append("%s: %s is not there" % (page, target))
            elif anchor and anchor not in anchors(file):
                faults.append("%s: %s has no heading #%s" % (page, file, anchor))
    return faults if seen else ["no page has a link"]


def sessions():
    """A block that begins with `$ ./run NAME < FILE` or `$ printf '..' | ./run NAME` shows what the program NAME prints. Other blocks want more than a program."""
    faults, seen = [], []
    for page in PAGES:
        for command, shown in re.findall(r"^```\n\$ ([^\n]*\./run [^\n]*)\n(.*?)^```$", text(page), re.S | re.M):
            fed = re.fullmatch(r"\./run (\w+) < (\S+)", command) or re.fullmatch(r"printf '([^']*)' \| \./run (\w+)", command)
            if not fed:
                continue
            if command.startswith("printf"):
                name, given = fed.group(2), fed.group(1).replace("\\n", "\n").encode()
            else:
                with open(os.path.join(TOP, fed.group(2)), "rb") as file:
                    name, given = fed.group(1), file.read()
            seen.append(page)
            done = subprocess.run([PROGRAM, name], input=given, capture_output=True)
            if done.returncode or done.stdout.decode() != shown:
                faults.append("%s: this is not what it prints: %s" % (page, command))
    return faults + ["%s shows no session" % page for page in ("README.md", "docs/BENCH.md") if page not in seen]


CHECKS = [registers, rooms, times, outcomes, status, drive_status, identity, promises, picture_of_rooms, picture_of_the_morning, links, sessions]


def main():
    faults = 0
    for check in CHECKS:
        try:
            told = check()
        except (AttributeError, IndexError, OSError, ValueError) as error:
            told = ["cannot be read: %r" % error]
        for line in told:
            print("handbook: %s: %s" % (check.__name__, line))
        faults += len(told)
    print("handbook: %d checks, %d faults" % (len(CHECKS), faults))
    return 1 if faults else 0


if __name__ == "__main__":
    sys.exit(main())
