#!/usr/bin/env python3
"""Brings the repository's own names to today's spelling: definitions, laws, fields and constructors in snake case.

usage: python3 tools/respell.py [--dry]      at the top, once, on what port.py wrote

- Names declared in specs/ and proofs/ that begin small: `addSized` and `add-sized` become `add_sized`. Functions of src/, exported
  names, strings, inputs and outputs keep theirs.
- The crate `bytes` is named as a library of the kit is, and becomes `section_bytes`.
- Must-fail edits follow where they cite a name. Pages follow where a name stands in backticks.

It goes by whole words. Two names that fall together, and a new name that a file has already, are printed as 'meets:'; CHOSEN has what
was chosen for them.
"""
import collections
import glob
import os
import re
import sys

CRATE = ("bytes", "section_bytes")

# Names whose plain respelling meets another name.
CHOSEN = {
    "Read-as": "ReadAs",
    # `address_size` is a field, and a parameter in clauses
    "addressSize": "address_size_at",
}

# Laws that had their definition's name but for a dash, and by port.py the very name that it gets now.
LAWS = {
    "crates/section_bytes/proofs/": {"unsigned_bytes": "unsigned_bytes_lem"},
    "crates/bytes/proofs/": {"unsigned_bytes": "unsigned_bytes_lem"},
    "crates/canonical/proofs/": {"unsigned_bytes": "unsigned_bytes_lem"},
    "crates/entries/proofs/": {"passed_on": "passed_on_lem"},
    "crates/lists/proofs/RenumberedLaws.antt": {"on_read": "on_read_lem"},
    "crates/profile/proofs/UpToLaws.antt": {"one_then": "one_then_lem"},
    "crates/sheets/proofs/": {"ranges_in": "ranges_in_lem"},
}

# Names that Rattle makes for a proof, or that stand in std: no name of this repository's own, though one is spelled alike.
LEFT = set()

HEAD = re.compile(r"^(?:abbrev |unfoldable |pub |shut )*(?:data |record )?([^\s:(){}=|\[\],]+)(?: [({].*[)}])* :(?: |$)")
INNER = re.compile(r"^\s+(?:pub )?([A-Za-z_][^\s:(){}=|\[\],]*) :(?: |$)")
WORD = re.compile(r"(?<![\w'\-\u25cc])[A-Za-z_][\w'\u2190\u2192]*(?:-[\w'\u2190\u2192]+)*")
STD = re.compile(r"use Rattle\.std\.[\w.\-+]*\{([^}]*)\}|use Rattle\.std\.[\w.]*\.([\w'\-]+) *;?$", re.S)


def files(pattern):
    return sorted(f for f in glob.glob(pattern, recursive=True) if "/out/" not in f)


def read(f):
    with open(f, encoding="utf-8") as it:
        return it.read()


def snake(name):
    if "-" in name:
        name = name.replace("-", "_")
    if re.match(r"^[a-z_]", name):
        name = re.sub(r"(?<=[a-z0-9])([A-Z])", lambda m: "_" + m.group(1).lower(), name)
        name = re.sub(r"([A-Z])", lambda m: m.group(1).lower(), name)
    return name


def declared():
    """The names that specs/ and the files of laws in proofs/ declare; in proofs/F/ the lemmas beside the answers."""
    found = collections.defaultdict(set)
    for f in files("crates/*/specs/**/*.antt") + files("crates/*/proofs/*.antt"):
        for line in read(f).splitlines():
            m = HEAD.match(line) or INNER.match(line)
            if m:
                found[m.group(1)].add(f)
    return found


def of_std():
    names = set()
    for f in files("crates/*/**/*.antt") + files("crates/*/src/*.rt"):
        for m in STD.finditer(read(f)):
            for part in re.split(r"[,\s]+", m.group(1) or m.group(2) or ""):
                names.add(part.strip())
    return names


def chosen():
    names = declared()
    library = of_std()
    turned = {}
    for n in sorted(names):
        if n in LEFT or not re.match(r"^[A-Za-z_]", n):
            continue
        if n[0].isupper() and n not in CHOSEN:
            continue
        new = CHOSEN.get(n, snake(n))
        if new != n:
            if n in library:
                print("std has it:", n)
                continue
            turned[n] = new
    back = collections.defaultdict(list)
    for old, new in turned.items():
        back[new].append(old)
    pairs = [olds for olds in back.values() if len(olds) > 1]
    for f in files("crates/*/**/*.antt") + files("crates/*/src/*.rt"):
        met = set(WORD.findall(read(f)))
        for olds in pairs:
            if len(met & set(olds)) > 1:
                for old in olds:
                    if "-" in old and not turned[old].endswith("_lem"):
                        turned[old] += "_lem"
    return names, turned, library


PIECE = re.compile(r'"(?:[^"\\\n]|\\.)*"|(?:(?<=\s)|^)--[^\n]*|//[^\n]*|^#(?!\[|!)[^\n]*', re.M)


def words(text, turned):
    return WORD.sub(lambda m: turned.get(m.group(0), m.group(0)), text)


def quoted(text, turned):
    return re.sub(r"`[^`\n]+`", lambda m: words(m.group(0), turned), text)


def turn(text, turned):
    """The code's names; in a comment those in backticks; no string."""
    out, at = [], 0
    for m in PIECE.finditer(text):
        out.append(words(text[at : m.start()], turned))
        piece = m.group(0)
        out.append(piece if piece.startswith('"') else quoted(piece, turned))
        at = m.end()
    out.append(words(text[at:], turned))
    return "".join(out)


def crate(text):
    old, new = CRATE
    text = re.sub(r"(?<![\w.])Rattle\.%s\." % old, "Rattle.%s." % new, text)
    text = re.sub(r"(?<![\w:])%s::(?=[a-zA-Z_{])" % old, new + "::", text)
    return text


def meets(names, turned):
    back = collections.defaultdict(set)
    for old, new in turned.items():
        back[new].add(old)
    for new, olds in sorted(back.items()):
        if len(olds) > 1:
            print("meets: two names become one:", new, sorted(olds))
        if new in names:
            print("meets: is there already:", new, sorted(olds), sorted(names[new])[:2])
    for f in files("crates/*/**/*.antt") + files("crates/*/src/*.rt"):
        met = set(WORD.findall(read(f)))
        for old in sorted(met & set(turned)):
            if turned[old] in met:
                print("meets: in", f, old, turned[old])


def main():
    dry = "--dry" in sys.argv
    names, turned, library = chosen()
    meets(names, turned)
    print(len(turned), "names turned")
    if dry:
        return
    for f in files("crates/*/**/*.antt") + files("crates/*/src/*.rt") + files("crates/*/must-fail/*.edit"):
        before = read(f)
        laws = [to for where, to in LAWS.items() if f.startswith(where)]
        after = crate(turn(before, turned | (laws[0] if laws else {})))
        if after != before:
            with open(f, "w", encoding="utf-8") as it:
                it.write(after)
    for f in ["README.md"] + files("docs/*.md"):
        before = read(f)
        after = quoted(before, turned)
        if after != before:
            with open(f, "w", encoding="utf-8") as it:
                it.write(after)
    lines = []
    for line in read("crates.txt").splitlines(keepends=True):
        if not line.startswith("#"):
            line = re.sub(r"(?<![\w])%s(?!\w)" % CRATE[0], CRATE[1], line)
        lines.append(line)
    with open("crates.txt", "w", encoding="utf-8") as it:
        it.write("".join(lines))
    if os.path.isdir("crates/" + CRATE[0]):
        os.rename("crates/" + CRATE[0], "crates/" + CRATE[1])


main()
