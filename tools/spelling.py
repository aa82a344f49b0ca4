#!/usr/bin/env python3
"""Respells the repository's own definitions and lemmas: words in snake case, a dash only between two names.

usage: tools/spelling.py [--list]      at the top of the repository; --list prints old and new names and writes nothing

It was run once, after the toolchain's own script had turned the rest. Names that the sources of specs/ and proofs/
declare are respelled in every .antt file and in the clauses of every .rt file. Comments and texts stay.
"""

import os
import re
import sys

SIGNATURE = re.compile(r"^\s*(?:\|?\s*)(?:(?:pub|abbrev|unfoldable|irreducible)\s+)*((?:[^\s(){}\[\];.,:λ]+\s+)*[^\s(){}\[\];.,:λ]+)\s+:\s")
BINDER = re.compile(r"[({]((?:[A-Za-z][\w'-]*\s+)*[A-Za-z][\w'-]*)\s+:\s")
WORD = re.compile(r"[A-Za-z][\w'·-]*")
CAMEL = re.compile(r"^[a-z][\w'-]*[A-Z]")
# Names that would fall together with another name of the same files, or read badly.
CHOSEN = {
    "Tree·isSet": "Tree_is_set",
    "Forest·isSet": "Forest_is_set",
    "Item·isSet": "Item_is_set",
    "Content·isSet": "Content_is_set",
    "FrameContent·isSet": "FrameContent_is_set",
    # lemmas that would have their function's name
    "errors-of": "errors_of_lem",
    "first-not-live": "first_not_live_lem",
    "text-filled": "text_filled_lem",
    "text-fits": "text_fits_lem",
    "source-of": "source_of_lem",
}
KEYWORDS = {"let", "in", "use", "pub", "abbrev", "unfoldable", "record", "data", "module", "elim", "as", "unfolding", "where", "deriving"}


def files(ends):
    for folder, dirs, names in os.walk("crates"):
        dirs[:] = sorted(d for d in dirs if d != "out")
        for name in sorted(names):
            if name.endswith(ends):
                yield os.path.join(folder, name)


def own(path):
    """Whether a file declares definitions or lemmas, and not the answers of one function."""
    parts = path.split(os.sep)
    return len(parts) == 4 and parts[2] in ("specs", "proofs")


def code(line):
    at = line.find("--")
    while at > 0 and not line[at - 1].isspace():
        at = line.find("--", at + 2)
    return line if at < 0 else line[:at]


def snake(word):
    word = re.sub(r"([a-z0-9])([A-Z])", r"\1_\2", word)
    return word.lower()


def respelled(name, known):
    """A dash stays where it joins two known names; else words are joined by `_`."""
    if name in CHOSEN:
        return CHOSEN[name]
    parts = name.split("-")
    parts = [p if p[:1].isupper() else snake(p) for p in parts]
    out = parts[0]
    for i in range(1, len(parts)):
        left = "_".join(parts[:i])
        right = "_".join(parts[i:])
        out += ("-" if left in known and right in known else "_") + parts[i]
    return out


def main():
    declared, words, functions = set(), set(), set()
    for path in files(".antt"):
        with open(path, encoding="utf-8") as f:
            lines = f.read().splitlines()
        for line in lines:
            line = code(line)
            words.update(WORD.findall(line))
            if not own(path):
                for m in BINDER.finditer(line):
                    declared.update(w for w in m.group(1).split() if CAMEL.match(w))
                continue
            m = SIGNATURE.match(line)
            if m:
                declared.update(w for w in m.group(1).split() if WORD.fullmatch(w) and w not in KEYWORDS)
                if not line[:1].isspace() and os.sep + "specs" + os.sep in path:
                    functions.update(m.group(1).split())
            for m in BINDER.finditer(line):
                declared.update(m.group(1).split())
            for m in re.finditer(r"\blet ([A-Za-z][\w'-]*)", line):
                declared.add(m.group(1))
            m = re.match(r"\s+deriving IsSet as (\S+)", line)
            if m:
                declared.add(m.group(1))
    # what a dash may join: definitions of specs/, and the words of lists
    known = {snake(w) if not w[:1].isupper() else w for w in functions if "-" not in w}
    known |= {"length", "take", "drop", "reverse", "map", "sum"}
    table = {w: respelled(w, known) for w in declared if CAMEL.match(w) or "-" in w or "·" in w}
    table = {a: b for a, b in table.items() if a != b}
    for path in files((".antt", ".rt")):
        with open(path, encoding="utf-8") as f:
            here = {w for line in f for w in WORD.findall(line.split("//")[0] if path.endswith(".rt") else code(line))}
        meets = {}
        for w in sorted(here):
            meets.setdefault(table.get(w, w), []).append(w)
        for b, olds in meets.items():
            if len(olds) > 1:
                print(f"falls together in {path}: {' and '.join(olds)} as {b}")
    if "--list" in sys.argv:
        for a, b in sorted(table.items()):
            print(a, b)
        return
    for path in files((".antt", ".rt")):
        rt = path.endswith(".rt")
        with open(path, encoding="utf-8") as f:
            text = f.read()
        out = []
        for line in text.split("\n"):
            if rt:
                at = line.find("//")
                kept = "" if at < 0 else line[at:]
                body = line if at < 0 else line[:at]
                pieces = re.split(r'("(?:[^"\\]|\\.)*")', body)
                pieces[::2] = [WORD.sub(lambda m: table.get(m.group(0), m.group(0)), p) for p in pieces[::2]]
                out.append("".join(pieces) + kept)
            else:
                body = code(line)
                out.append(WORD.sub(lambda m: table.get(m.group(0), m.group(0)), body) + line[len(body):])
        new = "\n".join(out)
        if new != text:
            with open(path, "w", encoding="utf-8") as f:
                f.write(new)


main()
