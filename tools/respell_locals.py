#!/usr/bin/env python3
"""Respells what tools/respell.py passes by: names with a dash that a proof or theorem file has for itself, inside a module, a `where` or its
answers. Each is a word of one file, so it is turned there alone.

usage: tools/respell_locals.py [CRATE ..]     at the top of the checkout; all crates if none is named
"""

import glob
import re
import sys

WORD = re.compile(r"[^\s(){}\[\],;.\"`]+")
DECLARED = re.compile(r"^\s*(?:abbrev |unfoldable )*([a-z][^\s(){}\[\],;.\"]*-[^\s(){}\[\],;.\"]*) :(?: |$)")


def files(crates):
    for crate in crates or ["*"]:
        for part in ("specs", "proofs"):
            yield from sorted(glob.glob(f"crates/{crate}/{part}/**/*.antt", recursive=True))


def respelled(path):
    with open(path, encoding="utf-8") as f:
        text = f.read()
    # What Rattle asks for by name keeps that name.
    names = {m[1] for line in text.split("\n") if "goal." not in line and (m := DECLARED.match(line))}
    words = set(WORD.findall(text))
    turned = {}
    for name in names:
        new = name.replace("-", "_")
        if new in words:
            print(f"left: {path}: {name}, since {new} stands there")
        else:
            turned[name] = new

    def word(m):
        # behind a dot stands another's field
        return m[0] if m.start() and text[m.start() - 1] == "." else turned.get(m[0], m[0])

    after = WORD.sub(word, text)
    if after != text:
        with open(path, "w", encoding="utf-8") as f:
            f.write(after)
    return len(turned)


def main():
    print(sum(respelled(path) for path in files(sys.argv[1:])), "names turned")


if __name__ == "__main__":
    main()
