#!/usr/bin/env python3
"""Brings the names of the repository's own definitions and lemmas to the library's spelling.

usage: python3 tools/respell.py [FOLDER]      in the repository, or for the checkout in FOLDER; run once, after the kit's port.py

A name that specs/ or proofs/ define and that has a dash becomes snake case, and camel case where it begins with a capital:
weighed-in is weighed_in, Each-ended is EachEnded. Names that Rattle makes (goals, steps and branches of a function) keep
their dashes, and so do functions of src/, strings and comments of code. It stops, and writes nothing, where two names fall together.
"""

import pathlib
import re
import sys

PART = r"[^\s(){};,.«»\[\]|⌜⌝\"]"
SIGNATURE = re.compile(rf"\s*(?:(?:abbrev|unfoldable|pub)\s+)*({PART[:-1]}:]+)\s+:\s+(.*)")
TYPE = re.compile(rf"\s*(?:(?:abbrev|unfoldable|pub)\s+)*(?:data|record|module)\s+(?:pub\s+)?({PART[:-1]}:]+)")
GOAL = re.compile(r"(goal|given|need)\.")


def turned(name):
    if name[0].isupper():
        return "".join(part[:1].upper() + part[1:] for part in name.split("-"))
    return name.replace("-", "_")


def own_names(files):
    """The names that the files define, without the goals that they answer."""
    names = set()
    for file in files:
        for line in file.read_text(encoding="utf-8").splitlines():
            signature = SIGNATURE.match(line)
            if signature and not GOAL.match(signature[2]):
                names.add(signature[1])
            declared = TYPE.match(line)
            if declared:
                names.add(declared[1])
    return names


def respelled(text, names):
    """The text with each of the names turned, outside comments and strings."""
    word = re.compile(rf"\"(?:[^\"\\]|\\.)*\"|//[^\n]*|{PART}+")
    return word.sub(lambda m: turned(m[0]) if m[0] in names else m[0], text)


def main(root):
    proofs = sorted(p for kind in ("specs", "proofs") for p in root.glob(f"crates/*/{kind}/**/*.antt"))
    code = sorted(root.glob("crates/*/src/**/*.rt"))
    all_names = own_names(proofs)
    names = {name for name in all_names if "-" in name.strip("-")}
    spelled = {}
    for name in all_names:
        spelled.setdefault(turned(name) if name in names else name, []).append(name)
    together = {to: sorted(of) for to, of in spelled.items() if len(of) > 1}
    if together:
        print(f"names fall together: {together}", file=sys.stderr)
        return 1
    changed = 0
    for file in proofs + code:
        text = file.read_text(encoding="utf-8")
        new = respelled(text, names)
        if new != text:
            file.write_text(new, encoding="utf-8")
            changed += 1
    print(f"{len(names)} names respelled in {changed} files")
    return 0


if __name__ == "__main__":
    raise SystemExit(main(pathlib.Path(sys.argv[1] if len(sys.argv) > 1 else ".")))
