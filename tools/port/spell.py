#!/usr/bin/env python3
"""Spells the definitions and lemmas of this repository in snake case, as today's Rattle does: `branchTarget` becomes `branch_target`, `scan-split` becomes `scan_split`.

usage: tools/port/spell.py [--list]      at the top of the repository, once, after the toolchain's port.py

It turns each lower-case name that a file of specs/ or proofs/ declares, wherever it stands as a whole word in the .antt files and in the clauses, imports and comments
of the .rt files. Texts in quotes stay, and in a comment a word with a dash, unless it stands in backticks. Names of types stay, as do the goals of a function's proof,
which the toolchain names. It stops, and writes nothing, where two names would fall together, or where a new name stands already in a file that has the old one.
--list prints the table and writes nothing. It is kept so that the port can be run again from the commit that docs/PORT.md begins with; a second run changes nothing.
"""
import os
import re
import sys

WORD = r"""[^\s(){}.;,@"«»`:]+"""
DECLARED = re.compile(rf"(?m)^ *(?:(?:abbrev|unfoldable|pub|private) )*({WORD})(?: \{{[^{{}}\n]*\}}| \([^()\n]*\))* :[ \n](?! *(?:tie|goal)\.)")
# Lemmas and local words that would fall together with a definition or with a word of the library.
APART = {
    "all-inside": "all_inside_lem",
    "bit-or": "bit_or_lem",
    "is-full": "is_full_lem",
    "members-from": "members_from_lem",
    "met-from": "met_from_here",
    "named-from": "named_from_here",
    "pair-known": "pair_known_lem",
    "records-from": "records_from_here",
}
COMMENT = re.compile(r"--.*")
# A text in quotes, a comment, or what lies between: of an .antt file and of an .rt file.
PARTS = {
    ".antt": re.compile(r'"(?:[^"\\\n]|\\.)*"|--[^\n]*|[^"-]+|.', re.S),
    ".rt": re.compile(r'"(?:[^"\\\n]|\\.)*"|//[^\n]*|[^"/]+|.', re.S),
}
TICKS = re.compile(r"(`[^`\n]*`)")
INFIX = re.compile(r"◌")
ENDS = r"""(?=$|[\s(){}.;,@"«»`:'])"""
STARTS = r"""(?:^|(?<=[\s(){}.;,@"«»`:←]))"""


def texts(endings):
    for crate in sorted(os.listdir("crates")):
        for top in ("specs", "proofs", "src"):
            for folder, folders, files in os.walk(os.path.join("crates", crate, top)):
                folders.sort()
                for name in sorted(files):
                    if name.endswith(endings):
                        yield os.path.join(folder, name)


def read(path):
    with open(path, encoding="utf-8") as f:
        return f.read()


def snake(name):
    name = re.sub(r"(?<=[a-z0-9])[A-Z]+", lambda m: "_" + m[0].lower(), name)
    return name.replace("-", "_").replace("′", "'")


def table():
    found = {}
    for path in texts(".antt"):
        for name in DECLARED.findall(read(path)):
            # A declaration begins with a small letter. A proof of a function, `f-spec`, goes with its file.
            if name[0].islower() and not INFIX.search(name) and snake(name) != name and not name.endswith("-spec"):
                if re.match(r"(invariant|decreases)-", name):
                    continue
                found[name] = APART.get(name, snake(name))
    # So does a name that an import gives.
    for path in texts((".antt", ".rt")):
        for line in re.findall(r"use [^\n;]*", read(path)):
            for name in re.findall(rf" as ({WORD})", line):
                if name[0].islower() and snake(name) != name:
                    found[name] = snake(name)
    return found


def turned(text, ending, any_old, names):
    """The text with the new names, but for texts in quotes and the prose of comments."""
    kept = set()
    at = 0
    for part in PARTS[ending].findall(text):
        if part[0] == '"':
            kept.update(range(at, at + len(part)))
        elif part[:2] in ("--", "//"):
            where = at
            for i, piece in enumerate(TICKS.split(part)):
                if i % 2 == 0:
                    kept.update(where + m.start() for m in re.finditer(r"[^\s(){}.;,@\"«»`:]*-[^\s(){}.;,@\"«»`:]*", piece))
                where += len(piece)
        at += len(part)

    def word(m):
        if m.start() in kept:
            return m[0]
        return snake(m[1]) if text[m.start() - 1] == "." else names[m[1]]

    return any_old.sub(word, text)


def main(argv):
    names = table()
    if argv == ["--list"]:
        for old in sorted(names):
            print(f"{old}\t{names[old]}")
        return 0
    if argv:
        print(__doc__)
        return 2
    if not names:
        print("0 names, 0 files")
        return 0
    told = {}
    bad = []
    for old, new in names.items():
        if told.setdefault(new, old) != old:
            bad.append(f"{old} and {told[new]} would both be {new}")
    any_new = re.compile(STARTS + r"(?<!\.)(" + "|".join(sorted(map(re.escape, told), key=len, reverse=True)) + ")" + ENDS + r"(?!\.)", re.M)
    for path in texts(".antt"):
        text = COMMENT.sub("", read(path))
        for new in sorted(set(any_new.findall(text))):
            if re.search(STARTS + re.escape(told[new]) + ENDS, text, re.M):
                bad.append(f"{path}: has {new} beside {told[new]}")
    if bad:
        print("\n".join(bad))
        return 1
    any_old = re.compile(STARTS + "(" + "|".join(sorted(map(re.escape, names), key=len, reverse=True)) + ")" + ENDS, re.M)
    changed = 0
    for path in texts((".antt", ".rt")):
        text = read(path)
        new = turned(text, os.path.splitext(path)[1], any_old, names)
        if new != text:
            changed += 1
            with open(path, "w", encoding="utf-8") as f:
                f.write(new)
    print(f"{len(names)} names, {changed} files")
    return 0


if __name__ == "__main__":
    raise SystemExit(main(sys.argv[1:]))
