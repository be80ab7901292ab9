#!/usr/bin/env python3
"""Brings the repository's own names to today's spelling: words in snake case, types in camel case.

usage: python3 tools/respell.py        once, at the top, right after the kit's port.py

A name with a dash, or a type with an underscore, becomes `snake_case` where it begins with a small
letter and `CamelCase` where it begins with a capital. Names of the library stay: they are those
that a file imports from a crate that is not this repository's. Generated names stay too: in a
proof of a function only names that the repository declares are turned. Comments are turned within
backticks alone. Words of code, strings, inputs and outputs are not touched.

It also writes `before x` and `after x` of contracts as `x.now`, `x.old` and `x.new`, and `lent` and
`left` of the four tables' buffers likewise, as today's clauses name what a reference holds.
It prints the names that fall together.
"""

import glob
import os
import re
import sys

TOKEN = re.compile(r'[^\s(){}.,;:"«»\[\]`@]+')
NAME = re.compile(r"^[A-Za-zΔ][^\s]*$")
USE = re.compile(r"^\s*(?:pub )?(?:ghost )?use ([\w.+]+)\.\{(.*)\};?$")


def own_path(path):
    return path.startswith("Rattle.") and not path.startswith("Rattle.std.")


def spelled(name):
    """The name in today's spelling."""
    if "-" not in name and not (name[0].isascii() and name[0].isupper() and "_" in name):
        return name
    parts = [p for p in re.split(r"[-_]", name)]
    if name[0].isascii() and name[0].isupper():
        return "".join(p[:1].upper() + p[1:] for p in parts)
    return name.replace("-", "_")


def turns(name):
    return bool(NAME.match(name)) and spelled(name) != name


def files(root, *patterns):
    found = []
    for p in patterns:
        found += glob.glob(os.path.join(root, "crates", "*", p), recursive=True)
    return sorted(f for f in found if "/out/" not in f)


def split_comment(line, mark):
    at = line.find(mark)
    if at < 0:
        return line, ""
    return line[:at], line[at:]


def main():
    root = os.getcwd()
    plain = files(root, "specs/**/*.antt", "proofs/*.antt")
    walked = [f for f in files(root, "proofs/**/*.antt") if f not in plain]
    source = files(root, "src/**/*.rt")

    # The library's names: all that is imported from elsewhere.
    library, declared = set(), set()
    for f in plain + walked + source:
        for line in open(f, encoding="utf-8"):
            m = USE.match(line)
            if m and not own_path(m.group(1)):
                for part in m.group(2).split(","):
                    library.add(part.strip().split(" as ")[0])
    # The repository's own names: every dashed token of its specs and lemmas that is not the library's.
    for f in plain:
        for line in open(f, encoding="utf-8"):
            code, _ = split_comment(line.rstrip("\n"), "--")
            for t in TOKEN.findall(code):
                if t not in library and turns(t):
                    declared.add(t)
    # In proofs of functions: what they declare themselves.
    for f in walked:
        for line in open(f, encoding="utf-8"):
            m = re.match(r"^(?:pub |abbrev |unfoldable |record |data )*([^\s:(){}.,]+)(?: :|$|\s+[({])", line)
            if m and turns(m.group(1)) and not line.startswith(("use ", "--", "open ", "unfolding")):
                if m.group(1) not in library:
                    declared.add(m.group(1))

    # Names that fall together.
    existing = set()
    for f in plain:
        for line in open(f, encoding="utf-8"):
            code, _ = split_comment(line.rstrip("\n"), "--")
            existing.update(t for t in TOKEN.findall(code) if not turns(t))
    by_new = {}
    for d in declared:
        by_new.setdefault(spelled(d), set()).add(d)
    together = {n: o for n, o in by_new.items() if len(o) > 1}
    meets = {n: o for n, o in by_new.items() if n in existing}
    for n, o in sorted(together.items()):
        print(f"fall together: {sorted(o)} as {n}")
    for n, o in sorted(meets.items()):
        print(f"meets a name that stands: {sorted(o)} as {n}")
    if "--look" in sys.argv:
        for d in sorted(declared):
            if d[0].isupper():
                print("type", d, spelled(d))
        return

    def word(t):
        return spelled(t) if t in declared else t

    def turn(text):
        return TOKEN.sub(lambda m: word(m.group(0)), text)

    def ticks(text):
        return re.sub(r"`[^`]*`", lambda m: turn(m.group(0)), text)

    def write(f, lines, new):
        if lines != new:
            open(f, "w", encoding="utf-8").write("\n".join(new))

    for f in plain + walked:
        lines = open(f, encoding="utf-8").read().split("\n")
        new = []
        for line in lines:
            code, comment = split_comment(line, "--")
            new.append(turn(code) + ticks(comment))
        write(f, lines, new)
    for f in source:
        lines = open(f, encoding="utf-8").read().split("\n")
        new = []
        for line in lines:
            code, comment = split_comment(line, "//")
            new.append(turn(code) + ticks(comment))
        text = contracts("\n".join(new))
        write(f, lines, text.split("\n"))
    without_references(root)


def contracts(text):
    """Writes `before x` and `after x` by the reference's own fields."""
    out = []
    kinds = {}
    text = re.sub(r"^ghost use Rattle\.answers\.specs\.Contracts\.\{[^}]*\};\n", "", text, flags=re.M)
    for line in text.split("\n"):
        if re.match(r"^(pub )?(unsafe )?(extern \"C\" )?fn |^(pub )?(unsafe )?extern", line):
            kinds = {}
        for m in re.finditer(r"(\w+): &(mut )?", line):
            kinds[m.group(1)] = bool(m.group(2))

        def field(m):
            when, name = m.group(1), m.group(2)
            if name not in kinds:
                return m.group(0)
            if not kinds[name]:
                return name + ".now"
            return name + (".old" if when == "before" else ".new")

        code, comment = split_comment(line, "//")
        code = re.sub(r"\((before|after) (\w+)\)", field, code)
        code = re.sub(r"\b(before|after) (\w+)\b(?!\))", field, code)
        out.append(code + comment)
    return tables_of("\n".join(out))


def tables_of(text):
    """Writes the four tables' buffers together, as they are when a call begins and when it ends."""
    text = re.sub(r"(ghost use Rattle\.tables\.specs\.Buffers\.\{[^}]*\};)", buffers_used, text)
    names = ("order", "delta2", "delta1", "delta3")
    lent = "(lent " + " ".join(names) + ")"
    left = "(left " + " ".join(names) + ")"
    old = "(tables " + " ".join(n + ".old" for n in names) + ")"
    new = "(tables " + " ".join(n + ".new" for n in names) + ")"
    now = "(tables " + " ".join(n + ".now" for n in names) + ")"
    text = text.replace(lent + " " + left, old + "\n        " + new)
    return text.replace("lengths " + lent, "lengths " + now)


def buffers_used(m):
    path, names = re.match(r"ghost use ([\w.]+)\.\{([^}]*)\};", m.group(1)).groups()
    used = [n.strip() for n in names.split(",")]
    if "lent" not in used and "left" not in used:
        return m.group(1)
    used = ["tables"] + [n for n in used if n not in ("lent", "left", "tables")]
    return "ghost use %s.{%s};" % (path, ", ".join(used))


def without_references(root):
    """Takes out the words for what a reference holds, which clauses now write as its fields."""
    gone = os.path.join(root, "crates/answers/specs/Contracts.antt")
    if os.path.exists(gone):
        os.remove(gone)
    edit(os.path.join(root, "crates/answers/specs/Lib.antt"), r"^pub mod Contracts\n", "")
    buffers = os.path.join(root, "crates/tables/specs/Buffers.antt")
    edit(buffers, r"^-- what a call's parameters.*\nabbrev pub lent.*\nlent .*\n\n", "")
    edit(buffers, r"^-- and when it ends\nabbrev pub left.*\nleft .*\n\n", "")
    for line in (r"use Rattle\.std\.specs\.Borrow\.\{Bor\}", r"use denote\.Triple\.Both\.\{Both\}",
                 r"use Rattle\.answers\.specs\.Contracts\.\{before, after\}"):
        edit(buffers, "^" + line + "\n", "")


def edit(path, old, new):
    text = open(path, encoding="utf-8").read()
    turned = re.sub(old, new, text, flags=re.M)
    if turned != text:
        open(path, "w", encoding="utf-8").write(turned)


main()
