#!/usr/bin/env python3
"""Brings the names of definitions, laws and fields to the spelling of today's Rattle: words in snake case.

usage: tools/respell.py            at the top of the repository, once, after the kit's port.py

In specs/, proofs/ and the clauses of src/ a name such as 'builtInRow' becomes 'built_in_row'; so does each part of a name that
dashes join, as in 'has-upTo'. Types and modules keep their capitals, names of the library and text in quotes stay. Functions
of src/ are in snake case already. A law that would get its definition's name takes '_lem'. It stops without a change if two
names would still fall together where both are used.
"""

import glob
import re
import sys

WORD = re.compile(r"(?<![A-Za-z0-9_'])[a-z][a-z0-9_]*[A-Z][A-Za-z0-9_]*")
LIBRARY = {"uint_Makes", "uint_Tells", "uint_Lawful", "walk_Meets", "shr_slice_Tells", "shr_slice_Lawful", "mut_Tells", "is_IsWord"}
# Laws that have the name of what they speak of, once that is in snake case.
LAWS = "full_from same_kind is_normal order_is high_is no_kind start_cell told_text word_number but_last labels_apart".split()
LAW = re.compile(r"(?<![\w'.-])(" + "|".join(LAWS) + r")(?![\w'-])")
# Names that the kit's script has turned in whole and not within dashes.
TURNED = {"up_to", "are_bytes", "value_of", "word_bytes", "next_safe"}
QUOTED = re.compile(r'"(?:[^"\\\n]|\\.)*"')


def snake(word):
    parts = re.sub(r"(?<=[a-z0-9])(?=[A-Z])", "_", word)
    return parts.lower()


def turned(text, names):
    def one(m):
        return names.get(m.group(), m.group())

    out, at = [], 0
    for q in QUOTED.finditer(text):
        out += [WORD.sub(one, text[at:q.start()]), q.group()]
        at = q.end()
    return "".join(out) + WORD.sub(one, text[at:])


def files():
    found = []
    for pattern in ("specs/**/*.antt", "proofs/**/*.antt", "src/**/*.rt"):
        found += glob.glob("crates/*/" + pattern, recursive=True)
    return sorted(found)


def main():
    texts = {}
    for path in files():
        with open(path, encoding="utf-8") as f:
            text = f.read()
        texts[path] = LAW.sub(r"\1_lem", text) if path.endswith(".antt") and "/proofs/" in path else text
    names = {}
    for text in texts.values():
        for word in WORD.findall(text):
            if word not in LIBRARY:
                names[word] = snake(word)
    clashes = []
    back = {}
    for old, new in names.items():
        if new in back:
            clashes.append(f"{old} and {back[new]} both become {new}")
        back[new] = old
    for path, text in texts.items():
        plain = QUOTED.sub("", text)
        used = {w for w in WORD.findall(plain) if w in names}
        code = set(re.findall(r"(?<![A-Za-z0-9_'.-])[a-z][a-z0-9_]*(?![A-Za-z0-9_'-])", re.sub(r"(?m)(--|//).*$", "", plain)))
        for old in sorted(used):
            if names[old] in code and names[old] not in TURNED and not path.endswith(".rt"):
                clashes.append(f"{path}: {old} becomes {names[old]}, which stands there")
    print("\n".join(clashes))
    if "--list" in sys.argv:
        return 0
    if clashes and "--anyway" not in sys.argv:
        return 1
    changed = 0
    for path, text in texts.items():
        new = turned(text, names)
        with open(path, encoding="utf-8") as f:
            before = f.read()
        if new != before:
            with open(path, "w", encoding="utf-8") as f:
                f.write(new)
            changed += 1
    print(f"respell: {len(names)} names, {changed} files")
    return 0


if __name__ == "__main__":
    sys.exit(main())
