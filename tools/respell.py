#!/usr/bin/env python3
"""Respells the repository's own definitions and lemmas for today's Rattle: words in snake case, types in camel case.

usage: python3 tools/respell.py          at the top of the repository, once, after port.py
       python3 tools/respell.py --list   prints the old and new names and changes nothing

A name is ours if a file of specs/ or proofs/ that is no answer file declares it, as a definition, a lemma, a record, a field
or a constructor. Names that std has too are left where they are imported from std. In .rt files only clauses, ghost items
and imports are respelled, never code, comments or strings; functions, modules and files keep their names. What a plant
means is told by its type in a clause of a function over plants, as P.meaning, where it was told by the name alone.
"""
import os
import re
import sys

MADE = {"Answers.antt", "Invariants.antt", "Choices.antt", "Proof.antt"}
WORD = re.compile(r"[^\s(){}\[\],;.:\"`]+")
MEANING = re.compile(r"(?<![.\w])meaning (?=[\w(])(?<!ghost meaning )")
DECLARED = re.compile(r"^\s*(?:abbrev |unfoldable |opaque |pub )*([^\s(){}\[\],;.:\"`=]+)(?:\s+\([^)]*\))*\s*:")
RECORD = re.compile(r"^\s*(?:pub )?(?:record|data) (\S+)")


def files(ending):
    for folder, folders, names in os.walk("crates"):
        folders[:] = sorted(f for f in folders if f != "out")
        for name in sorted(names):
            if name.endswith(ending):
                yield os.path.join(folder, name)


def read(path):
    with open(path, encoding="utf-8") as f:
        return f.read()


# These would fall together with a name that stands beside them: old name and new one.
APART = {"Out-of-reach": "LiesOutOfReach", "bit-xor": "xor_bit"}
# port.py has turned the first halfway; the others are other names that an import gives.
HALFWAY = {"Goes_on": "GoesOn", "at-setting": "at_setting", "any-bars": "any_bars"}


def respelled(name):
    if name in APART:
        return APART[name]
    parts = name.split("-")
    if name[0].isupper():
        return "".join(p[:1].upper() + p[1:] for p in parts)
    return "_".join(parts)


def is_name(name):
    return "-" in name and re.fullmatch(r"[A-Za-z][\w'-]*\w'*", name) is not None


def own_names():
    found = set()
    for path in files(".antt"):
        if os.path.basename(path) in MADE and os.path.basename(os.path.dirname(path)) not in ("specs", "proofs"):
            continue
        for line in read(path).splitlines():
            if line.lstrip().startswith("--"):
                continue
            for shape in (DECLARED, RECORD):
                m = shape.match(line)
                if m and is_name(m.group(1)):
                    found.add(m.group(1))
    return found


def imported():
    """The names that come from std."""
    found = set()
    for ending in (".antt", ".rt"):
        for path in files(ending):
            for m in re.finditer(r"use Rattle\.std\.[^;{\n]*\{([^}]*)\}", read(path)):
                for item in m.group(1).split(","):
                    found.add(item.strip().split(" as ")[0])
    return found


def turn(text, names):
    return WORD.sub(lambda m: names.get(m.group(0), m.group(0)), text)


def turn_source(text, names):
    """Clauses, ghost items and imports alone."""
    out, depth = [], 0
    for line in text.split("\n"):
        bare = line.lstrip()
        opens = re.match(r"(pub(\(crate\))? )?(ghost|requires|ensures|decreases|invariant|law)\b", bare)
        if depth == 0 and not opens:
            out.append(line)
            continue
        if bare.startswith("//"):
            out.append(line)
            continue
        out.append(turn(line, names))
        depth = max(0, depth + line.count("{") - line.count("}"))
    return "\n".join(out)


def main():
    ours, std = own_names(), imported()
    names = {n: respelled(n) for n in sorted(ours - std)}
    if "--list" in sys.argv:
        for old, new in names.items():
            print(old, new)
        for n in sorted(ours & std):
            print("std has it too:", n)
        return
    names.update(HALFWAY)
    for path in list(files(".antt")):
        text = read(path)
        new = turn(text, names)
        if new != text:
            with open(path, "w", encoding="utf-8") as f:
                f.write(new)
    for path in list(files(".rt")):
        text = read(path)
        new = turn_source(text, names)
        if not path.endswith("plant/src/plant.rt"):
            new = MEANING.sub("P.meaning ", new)
        if new != text:
            with open(path, "w", encoding="utf-8") as f:
                f.write(new)


main()
