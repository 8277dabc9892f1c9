#!/usr/bin/env python3
"""Brings the names of this repository's own definitions and lemmas to today's spelling.

Words are in snake case, and types, facts and modules in upper camel case: `long-staircase` becomes `long_staircase`, and
`Long-of` becomes `LongOf`. Run once, at the top of the repository, after the toolchain's own port script. Names that the
toolchain makes (goals, steps, arms) are left as they are, and so are comments, strings and the functions of src/.
"""
import glob
import re

# a signature of a definition, a lemma, a record or a field, at any depth
SIGNATURE = re.compile(
    r"^\s*(?:abbrev\s+|unfoldable\s+)?(?:pub\s+)?(?:abbrev\s+)?(?:record\s+|data\s+)?"
    r"([A-Za-z_][A-Za-z0-9_'\-]*)(?:\s+[({].*?)?\s*:\s*(.*)$"
)
TOKEN = re.compile(r"[A-Za-z_][A-Za-z0-9_'\-]*")
# names that would fall together with a name of src/ that a clause can mean
APART = {"fresh-allowance": "fresh_allowance_of"}


def respelled(name):
    if name in APART:
        return APART[name]
    if name[0].isupper():
        return "".join(part[0].upper() + part[1:] for part in name.split("-"))
    return name.replace("-", "_")


def code_and_comment(line, mark):
    at = line.find(mark)
    return (line, "") if at < 0 else (line[:at], line[at:])


def own_names(files):
    names = set()
    for file in files:
        for line in open(file, encoding="utf-8"):
            match = SIGNATURE.match(line)
            if match and "-" in match.group(1) and not match.group(2).startswith(("goal.", "need.", "given.")):
                names.add(match.group(1))
    return names


def turn(file, mark, names):
    text = open(file, encoding="utf-8").read()
    lines = []
    for line in text.split("\n"):
        code, comment = code_and_comment(line, mark)
        code = TOKEN.sub(lambda m: respelled(m.group(0)) if m.group(0) in names else m.group(0), code)
        lines.append(code + comment)
    turned = "\n".join(lines)
    if turned != text:
        open(file, "w", encoding="utf-8").write(turned)


def main():
    proofs = sorted(glob.glob("crates/*/specs/*.antt") + glob.glob("crates/*/proofs/**/*.antt", recursive=True))
    sources = sorted(glob.glob("crates/*/src/**/*.rt", recursive=True))
    names = own_names(proofs)
    new = {}
    for name in sorted(names):
        other = new.setdefault(respelled(name), name)
        if other != name:
            raise SystemExit(f"{other} and {name} would fall together")
    for file in proofs:
        turn(file, "--", names)
    for file in sources:
        turn(file, "//", names)
    print(f"{len(names)} names respelled")


main()
