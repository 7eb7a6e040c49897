#!/usr/bin/env python3
"""Brings the repository's own names to one spelling: definitions, lemmas, constructors and fields in snake case.

usage: tools/respell.py      at the top of a checkout on which the kit's port.py has just run

port.py respells some of the repository's names and leaves the others; this turns those that are left alike: `isMarked` and `keeps-itself`
become `is_marked` and `keeps_itself`. Left as they are: functions of src/, exported names, types and modules, names that the library gives,
names that Rattle makes of the code (in proofs/), strings, inputs and outputs. Two names that would fall together are told apart by CLASHES.
It prints where a new name already stood in a file, to be looked at.
"""

import collections
import glob
import os
import re
import sys

# A lemma whose name would become that of the definition it speaks of.
CLASHES = {
    "read_at": "read_at_lem",
    "is_cut": "is_cut_lem",
    "from_first": "from_first_lem",
    "from_last": "from_last_lem",
    "bit_in": "bit_in_lem",
    "two_bytes": "two_bytes_lem",
    "is-whole": "is_whole_lem",
    "with-c": "with_c_lem",
    "with-i": "with_i_lem",
    "made-of": "made_of_lem",
    "is-marked": "is_marked_lem",
    "bit-number": "bit_number_lem",
    "with-bit": "with_bit_lem",
    "first-four": "first_four_lem",
    "in-page": "in_page_lem",
    "in-direct": "in_direct_lem",
    "is-awake": "is_awake_lem",
    "in-words": "in_words_lem",
}
# These have an underscore already, and elsewhere the name is another's: only where this module declares them or is imported.
ONLY_FROM = {
    "read_at": "Rattle.memory.proofs.Laws",
    "is_cut": "Rattle.listing.proofs.Cut",
    "from_first": "Rattle.listing.proofs.Operands",
    "from_last": "Rattle.listing.proofs.Operands",
    "bit_in": "Rattle.instructions.proofs.Bounds",
    "two_bytes": "Rattle.listing.proofs.fills.Proof",
}
WORD = re.compile(r"[^\s(){}\[\],;.\"`]+")
DECLARED = re.compile(r"^((?:abbrev |unfoldable |pub |syntax )*)([^\s(){}\[\],;.\"]+(?:, [^\s(){}\[\],;.\"]+)*) :(?: |$)")
CAMEL = re.compile(r"^[a-z][a-z0-9_]*[A-Z]")
INSIDE = re.compile(r"^  (?:pub )?([^\s(){}\[\],;.\"]+(?:, [^\s(){}\[\],;.\"]+)*) :(?: |$)")


def snake(name):
    if not name[:1].islower():
        return name
    if name == "atXatY":
        return "at_x_at_y"
    return re.sub(r"([a-z0-9])([A-Z]+)", lambda m: m[1] + "_" + m[2].lower(), name).replace("-", "_")


def read(path):
    with open(path, encoding="utf-8") as f:
        return f.read()


def declared(text):
    """The names that a file of specs/ or proofs/ declares, and those among them that are fields."""
    names, fields, made = set(), set(), set()
    block = False
    for line in text.split("\n"):
        head = re.match(r"^(?:abbrev |unfoldable |pub )*(record|data) ", line)
        if head:
            block = True
            continue
        m = DECLARED.match(line)
        if m and not line.startswith(("use ", "--")):
            block = False
            # What Rattle asks for by name keeps that name.
            to = made if re.search(r" : \{?.*(tie|goal)\.", line) else names
            to.update(m[2].split(", "))
            continue
        m = re.match(r"^ +(?:abbrev )?pub ([^\s(){}\[\],;.\"]+) :(?: |$)", line)
        if m and not block:
            names.add(m[1])
            continue
        m = INSIDE.match(line)
        if m and block:
            fields.update(m[1].split(", "))
        elif line and not line[0].isspace() and not line.startswith("--"):
            block = False
    return names, fields, made


def foreign(text, own):
    """The names that a file takes from elsewhere than this repository."""
    out = set()
    for m in re.finditer(r"^(?:ghost )?use ([^\s{]+?)\.\{([^}]*)\}", text, re.M):
        crate = re.match(r"Rattle\.(\w+)", m[1])
        if not crate or crate[1] not in own:
            out.update(n.strip().split(" as ")[-1] for n in m[2].split(","))
    return out


def stands(text, path, name):
    """Whether a name of ONLY_FROM is, in this file, the one of that module."""
    module = ONLY_FROM[name]
    if module.replace("Rattle.", "crates/").replace(".", "/") + ".antt" == path:
        return True
    return bool(re.search(r"^use " + re.escape(module) + r"\.\{[^}]*\b" + name + r"\b[^}]*\}", text, re.M))


def turned(text, mapping, fields, keep, comment, code_only):
    """The text with each word of the mapping turned; in comments and prose only what stands in backticks."""

    def word(line, at, w):
        if w in keep or w not in mapping:
            return w
        # a path to what Rattle makes of a function
        if w in ONLY_FROM and (line[at + len(w) :][:1] == "." or line[:at].endswith(".")) and "Rattle." in line:
            return w
        if at and line[at - 1] == "." and "-" in w and w not in fields and not re.search(r"Rattle\.[\w.]*\.$", line[:at]):
            return w
        return mapping[w]

    def part(line, ticks):
        out, last, inside = [], 0, False
        for m in WORD.finditer(line):
            if ticks and line[: m.start()].count("`") % 2 == 0:
                continue
            if line[: m.start()].count('"') % 2 == 1 and code_only:
                continue
            out.append(line[last : m.start()])
            out.append(word(line, m.start(), m[0]))
            last = m.end()
        return "".join(out) + line[last:]

    lines = []
    for line in text.split("\n"):
        cut = re.search(r"(^|\s)" + re.escape(comment) + r"(\s|$)", line) if comment else None
        if comment is None:
            lines.append(part(line, True))
        elif cut:
            lines.append(part(line[: cut.start()], False) + part(line[cut.start() :], True))
        else:
            lines.append(part(line, False))
    return "\n".join(lines)


def main():
    crates = {os.path.basename(c) for c in glob.glob("crates/*") if os.path.isdir(c + "/src")}
    antt = sorted(glob.glob("crates/*/specs/**/*.antt", recursive=True) + glob.glob("crates/*/proofs/**/*.antt", recursive=True))
    rt = sorted(glob.glob("crates/*/src/**/*.rt", recursive=True))
    prose = sorted(glob.glob("*.md") + glob.glob("docs/**/*.md", recursive=True))
    names, fields = collections.defaultdict(set), set()
    made = {}
    for p in antt:
        n, f, made[p] = declared(read(p))
        # Whatever else has a capital inside, as a constructor in a list or a variable, is this repository's own, too.
        for x in n | f | {w for w in WORD.findall(read(p)) if CAMEL.match(w) and "-" not in w}:
            names[x].add(p)
        fields |= f
    for p in rt:
        for m in re.finditer(r"^\s*ghost use [^;]*;", read(p), re.M):
            for x in WORD.findall(m[0]):
                if CAMEL.match(x):
                    names[x].add(p)
    mapping = {x: CLASHES.get(x, snake(x)) for x in names if snake(x) != x or x in CLASHES}
    new = collections.defaultdict(set)
    for x, y in mapping.items():
        new[y].add(x)
    for y, xs in sorted(new.items()):
        if len(xs) > 1 or (y in names and y not in mapping):
            print(f"fall together: {y}: {' '.join(sorted(xs))}{' and itself' if y in names else ''}: {sorted(p for x in xs | {y} for p in names.get(x, ()))[:4]}")
    # What port.py has turned already stands in the pages as it was.
    now = set(names) | set(mapping.values())
    for p in antt + rt + prose:
        text = read(p)
        mine = {x: y for x, y in mapping.items() if x not in ONLY_FROM or stands(text, p, x)}
        keep = foreign(text, crates) | made.get(p, set())
        comment = "--" if p.endswith(".antt") else "//" if p.endswith(".rt") else None
        if comment is None:
            mine |= {w: snake(w) for w in WORD.findall(text) if w not in mine and snake(w) != w and snake(w) in now}
            keep = set()
        after = turned(text, mine, fields, keep, comment, p.endswith(".rt"))
        if after != text:
            before = set(WORD.findall(text))
            if comment:
                both = {y for x, y in mine.items() if x in before and y in before and x not in keep}
                if both:
                    print(f"look: {p}: stood there before: {' '.join(sorted(both))}")
            with open(p, "w", encoding="utf-8") as f:
                f.write(after)
    print(f"{len(mapping)} names turned")


if __name__ == "__main__":
    sys.exit(main())
