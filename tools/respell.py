#!/usr/bin/env python3
"""Brings the repository's own names in specs/, proofs/ and clauses to the kit's spelling.

usage: tools/respell.py        at the top of the repository, once, right after the kit's port.py

A word that a file of specs/ or proofs/ declares with a dash in it gets underscores, `held-more` as `held_more`; a fact or a
type, also one that port.py gave an underscore, gets camel case, `Adds-up` as `AddsUp`. Names that the toolchain makes, such as a goal's, keep their dashes, and so do
the library's. Functions, strings and comments stay. Where two names of one file would fall together, it says so.
"""

import os
import re
import sys

ROOT = os.getcwd()
DECLARES = re.compile(r"^((?:abbrev |unfoldable |pub )*)(?:(record|data) )?([^\s(){}:\[\];,.«»\"|@=]+) *(?=[:({]|\s+where\b)")
FIELD = re.compile(r"^ +(?:abbrev |unfoldable |pub )*([^\s(){}:\[\];,.«»\"|@=]+) :")
WORD = re.compile(r"\"(?:[^\"\\]|\\.)*\"|[^\s(){}\[\];,.«»\"|@=]+|.", re.S)


def files(ending):
    for folder, dirs, names in os.walk(os.path.join(ROOT, "crates")):
        dirs[:] = sorted(d for d in dirs if d != "out")
        for name in sorted(names):
            if name.endswith(ending):
                yield os.path.join(folder, name)


def text_of(path):
    with open(path, encoding="utf-8") as f:
        return f.read()


def respelt(name):
    if name[0].isupper():
        first, *rest = re.split("[-_]", name)
        return first + "".join(part[:1].upper() + part[1:] for part in rest)
    return name.replace("-", "_")


def is_old(name):
    return "-" in name or (name[0].isupper() and "_" in name)


def own_names():
    """The words of an older spelling that specs/ and proofs/ declare, and those among them that are fields or constructors."""
    names, fields = set(), set()
    for path in files(".antt"):
        inside = False
        for line in text_of(path).split("\n"):
            found = DECLARES.match(line)
            if found and not line.startswith(("--", "use ", "mod ", "pub mod ")):
                inside = bool(found.group(2))
                name = found.group(3)
                if is_old(name) and not re.search(r": *goal\." + re.escape(name) + r"\b", line):
                    names.add(name)
                continue
            found = FIELD.match(line)
            if found and "-" in found.group(1):
                names.add(found.group(1))
                if inside:
                    fields.add(found.group(1))
    for ending in (".antt", ".rt"):
        for path in files(ending):
            for line in re.findall(r"(?m)^(?:ghost )?use .*$", text_of(path)):
                names.update(re.findall(r" as ([a-zA-Z][\w']*(?:-[\w']+)+)", line))
    return {n for n in names if re.match(r"[^\W\d]", n)}, fields


def made_names():
    """The goals and invariants that a proof answers: the toolchain's names."""
    made = set()
    for path in files(".antt"):
        for found in re.finditer(r"(?m)^(?:abbrev )?pub (\S+) : (?:goal|given)\.(\S+)", text_of(path)):
            made.add(found.group(1))
            made.add(found.group(2))
    return made


def turned(text, names, fields):
    out, before = [], ""
    for word in WORD.findall(text):
        dotted = before == "."
        before = word
        if word in names and (not dotted or word in fields):
            out.append(respelt(word))
        else:
            out.append(word)
    return "".join(out)


def turn_antt(text, names, fields):
    lines = []
    for line in text.split("\n"):
        code, mark, comment = line.partition("--") if line.startswith("--") else (line, "", "")
        if not mark:
            at = re.search(r"(^|\s)-- ", line)
            if at:
                code, mark, comment = line[: at.start()], line[at.start() :], ""
        lines.append(turned(code, names, fields) + mark + comment)
    return "\n".join(lines)


def turn_source(text, names, fields):
    return "\n".join(l if l.lstrip().startswith("//") else turned(l, names, fields) for l in text.split("\n"))


def main():
    names, fields = own_names()
    names -= made_names()
    for ending, turn in ((".antt", turn_antt), (".rt", turn_source)):
        for path in files(ending):
            text = text_of(path)
            words = set(WORD.findall(text))
            for word in sorted(words & names):
                if respelt(word) in words:
                    print(f"falls together: {os.path.relpath(path, ROOT)}: {word} with {respelt(word)}")
            new = turn(text, names, fields)
            if new != text:
                with open(path, "w", encoding="utf-8") as f:
                    f.write(new)
    print(f"{len(names)} names respelt")
    return 0


if __name__ == "__main__":
    sys.exit(main())
