#!/usr/bin/env python3
"""Brings this repository's own names to the spelling of the kit, after its port.py: run once, at the top.

Definitions and lemmas of specs/ and proofs/ are in snake case (`digitValue` and `value-digit` become `digit_value` and `value_digit`), where they stand,
where contracts, proofs, must-fail edits and pages cite them. Where two names would fall together, the lemma takes `_lem`. Names of types, of the papers'
rows (`P-Nom`, `f-Nom`) and of the program stay. The crate `hex` becomes `hex_pairs`, since the kit has a library of that name; and each plain type
that the program passes around by value derives Clone and Copy, as it was before types had to say so.
"""

import collections
import os
import re
import subprocess

TOKEN = re.compile(r"[^\s(){}\[\].,;:\"`|=←→λ]+")
DEFINES = re.compile(r"^\s*(?:(?:pub|abbrev|unfoldable|record|data|ruleset)\s+)*([^\s:(){}.,=]+)\s*(?::(?!=)|\(|\{|=)")
KEPT = {"f-Nom"}
# a definition of this name stands in specs/, beside lemmas `up-to`
PLAIN = {"up_to"}
FUNCTION_FILES = ("Proof.antt", "Invariants.antt", "Answers.antt")
PAGES = ("README.md", "docs")


def walk(top, endings):
    for folder, folders, files in os.walk(top):
        folders[:] = sorted(f for f in folders if f not in ("out", ".git", "target"))
        for name in sorted(files):
            if name.endswith(endings):
                yield os.path.join(folder, name)


def read(path):
    with open(path, encoding="utf-8") as file:
        return file.read()


def write(path, text):
    with open(path, "w", encoding="utf-8") as file:
        file.write(text)


def snake(name):
    return re.sub(r"(?<=[a-z0-9])[A-Z](?=[a-z0-9]|$)", lambda m: "_" + m.group(0), name.replace("-", "_")).lower()


def renaming():
    """The map from each own name to its new spelling."""
    places = collections.defaultdict(set)
    library = set()
    tokens = {}
    for path in walk("crates", ".antt"):
        text = read(path)
        tokens[path] = set(TOKEN.findall(text))
        for module, names in re.findall(r"^use ([\w.+]+)\.\{([^}]*)\}", text, re.M):
            if not re.match(r"Rattle\.(?!std\.|core\.)", module):
                library |= {n.strip() for n in names.split(",")}
        if os.path.basename(path) in FUNCTION_FILES:
            continue
        for line in text.split("\n"):
            found = DEFINES.match(line)
            if found and not line.lstrip().startswith(("--", "use ")):
                places[found.group(1)].add(path)
    own = {n for n in places if re.match(r"[a-z0-9]", n) and n not in KEPT and n not in library}
    groups = collections.defaultdict(set)
    for name in own:
        groups[snake(name)].add(name)
    new = {}
    for to, names in groups.items():
        together = len(names) > 1 and any(len(names & t) > 1 for t in tokens.values())
        for name in names:
            word = name in PLAIN or re.search("[A-Z]", name) is not None
            new[name] = to if word or not together else to + "_lem"
    return {n: t for n, t in new.items() if n != t}


def in_code(text, new, of_function):
    """The names in a text of antt; in its comments only those between backticks. What a function's proof reads off its steps is no lemma."""

    def spelt(code, m):
        to = new.get(m.group(0), m.group(0))
        step = of_function and code[: m.start()].endswith(".")
        return to.removesuffix("_lem") if step else to

    def line(l):
        code, dash, comment = l, "", ""
        found = re.search(r"(^|\s)--(\s|$)", l)
        if found:
            code, comment = l[: found.start()], l[found.start() :]
        path = re.match(r"use [^{]*", code)
        path = path.group(0) if path else ""
        code = code[len(path) :]
        code = re.sub(r"(?<!tie\.)" + TOKEN.pattern, lambda m: spelt(code, m), code)
        return path + code + in_backticks(comment, new)

    return "\n".join(line(l) for l in text.split("\n"))


def in_backticks(text, new):
    """The names between backticks; behind `::` stands a function of the program, which is no lemma."""

    def spelt(m):
        to = new.get(m.group(0), m.group(0))
        return to.removesuffix("_lem") if m.string[: m.start()].endswith("::") else to

    return re.sub(r"`[^`\n]*`", lambda m: TOKEN.sub(spelt, m.group(0)), text)


def in_source(text, new):
    """The names in clauses and ghost imports of a source file, and between backticks of its comments."""
    out, depth, ghost = [], 0, False
    for l in text.split("\n"):
        head = l.lstrip()
        clause = depth > 0 or head.startswith(("requires", "ensures"))
        ghost = ghost or head.startswith("ghost use")
        if head.startswith("//"):
            out.append(in_backticks(l, {n: t for n, t in new.items() if re.search("[A-Z]", n)}))
            continue
        if clause or ghost:
            path = re.match(r"\s*ghost use [^{]*", l)
            path = path.group(0) if path else ""
            out.append(path + TOKEN.sub(lambda t: new.get(t.group(0), t.group(0)), l[len(path) :]))
            depth = depth + l.count("{") - l.count("}") if clause else 0
            ghost = ghost and ";" not in l
        else:
            out.append(l)
    return "\n".join(out)


def lent(text):
    """`x.old` and `x.new` of a `&mut` parameter, `x.now` of a `&`, where a clause still says `x.entry.now` or `x.exit.now`."""
    out, signature = [], ""
    for l in text.split("\n"):
        if re.search(r"\bfn \w+", l) and not l.lstrip().startswith("//"):
            signature = ""
        if not l.lstrip().startswith(("ensures", "requires", "ghost")):
            signature += " " + l

        def by_kind(m):
            mut = re.search(r"\b%s\s*:\s*&(?:'\w+\s+)?mut\b" % m.group(1), signature)
            return m.group(1) + ((".old" if m.group(2) == "entry" else ".new") if mut else ".now")

        out.append(re.sub(r"\b(\w+)\.(entry|exit)\.now\b", by_kind, l))
    return "\n".join(out)


OLD_CLAUSE = [
    (r"λ r\. ⌜ (.*) ⌝", lambda m: re.sub(r"\br\b", "result", m.group(1))),
    (r"λ _\. ⌜ (.*) ⌝", lambda m: m.group(1)),
    (r"⌜ (.*) ⌝", lambda m: m.group(1)),
    (r"\(now \((\w+) \.entry\)\)", lambda m: m.group(1) + ".old"),
    (r"\(now \((\w+) \.exit\)\)", lambda m: m.group(1) + ".new"),
    (r"now \((\w+) \.exit\)", lambda m: m.group(1) + ".new"),
    (r"now \((\w+) \.entry\)", lambda m: m.group(1) + ".old"),
    (r"(?<=[\w)'₀-₉]) \.(?=\w)", lambda m: "."),
]


def in_edit(text, new):
    """An edit's lines `old:` and `new:`: its names, and the older spelling of clauses and projections."""
    out = []
    for l in text.split("\n"):
        if l.startswith(("old:", "new:")) and not l.lstrip("newold: ").startswith("//"):
            for pattern, by in OLD_CLAUSE:
                l = re.sub(pattern, by, l)
            l = l[:4] + TOKEN.sub(lambda t: new.get(t.group(0), t.group(0)), l[4:])
        out.append(l)
    return "\n".join(out)


def rename_hex():
    if not os.path.isdir("crates/hex"):
        return
    subprocess.run(["git", "mv", "crates/hex", "crates/hex_pairs"], check=True)
    for path in list(walk("crates", (".rt", ".antt", ".edit"))):
        text = read(path)
        write(path, re.sub(r"Rattle\.hex\.", "Rattle.hex_pairs.", re.sub(r"\bhex::", "hex_pairs::", text)))
    write("crates.txt", re.sub(r"\bhex\b", "hex_pairs", read("crates.txt")))


def copied():
    for path in list(walk("crates", ".rt")):
        text = read(path)
        write(path, re.sub(r"#\[derive\(Drop\)\]", "#[derive(Clone, Copy)]", text))


def main():
    rename_hex()
    new = renaming()
    known = set(new.values())
    # names that port.py itself respelled stand in the edits and pages as they were
    older = collections.defaultdict(set)
    pages = [q for page in PAGES for q in ([page] if os.path.isfile(page) else walk(page, ".md"))]
    for path in [*walk("crates", (".edit",)), *pages]:
        for token in TOKEN.findall(read(path)):
            older[snake(token)].add(token)
    defined = {n for p in walk("crates", ".antt") for n in TOKEN.findall(read(p))}
    port = {t: s for s, ts in older.items() for t in ts if re.match(r"[a-z]\w*[A-Z]", t) and t not in new and s in defined}
    for path in walk("crates", ".antt"):
        write(path, in_code(read(path), new, os.path.basename(path) in FUNCTION_FILES))
    for path in walk("crates", ".rt"):
        write(path, lent(in_source(read(path), new)))
    for path in walk("crates", ".edit"):
        write(path, in_edit(read(path), new | port))
    for path in pages:
        write(path, in_backticks(read(path), {n: t for n, t in (new | port).items() if re.search("[A-Z]", n)}))
    copied()
    print(f"{len(new)} names respelled; {len(known)} new spellings")


if __name__ == "__main__":
    main()
