#!/usr/bin/env python3
"""Counts the places where the code has an older form, point by point.

usage: tools/places.py [COMMIT] [--list]

Reads src/ of all crates (and proofs/ for the last point) of a commit, or of the working tree where none is given.
--list prints each place. The points are those of docs/DESIGN-PASS.md. A place is only where a form is *seen*: whether it
is to change, the page says.
"""
import collections
import itertools
import os
import re
import subprocess
import sys


def read(commit):
    """The files below crates/ with their lines, by path."""
    if commit:
        names = subprocess.run(["git", "ls-tree", "-r", "--name-only", commit, "crates/"],
                               capture_output=True, text=True, check=True).stdout.split("\n")
        names = [n for n in names if n.endswith((".rt", ".antt"))]
        return {n: subprocess.run(["git", "show", f"{commit}:{n}"], capture_output=True, text=True, check=True).stdout
                for n in names}
    files = {}
    for folder, folders, names in os.walk("crates"):
        folders[:] = [f for f in folders if f != "out"]
        for name in names:
            if name.endswith((".rt", ".antt")):
                path = os.path.join(folder, name)
                files[path] = open(path).read()
    return files


def by_line(files, pattern):
    for path, text in sorted(files.items()):
        for i, line in enumerate(text.split("\n"), 1):
            if not line.lstrip().startswith("//") and re.search(pattern, line):
                yield f"{path}:{i}: {line.strip()}"


def by_text(files, pattern):
    for path, text in sorted(files.items()):
        for m in re.finditer(pattern, text, re.M):
            yield f"{path}:{text.count(chr(10), 0, m.start()) + 1}: {' '.join(m.group(0).split())}"


def signatures(files):
    """(path, name, parameters) of each function."""
    for path, text in sorted(files.items()):
        for m in re.finditer(r"^ *(?:pub(?:\(crate\))? )?fn (\w+)(?:<[^(]*>)?\(([^{;]*?)\)(?: ->|\n| \{|;| requires| ensures)",
                             text, re.M | re.S):
            params = [" ".join(p.split()) for p in re.split(r",(?![^<\[(]*[>\])])", m.group(2)) if p.strip()]
            yield path, m.group(1), params


def crate(path):
    return path.split("/")[1]


def same_names(files):
    """Functions of one name outside of traits' impls, in different files of code that is no test."""
    where = collections.defaultdict(list)
    for path, name, _ in signatures(files):
        if not crate(path).endswith("_tests"):
            where[name].append(path)
    for name, paths in sorted(where.items()):
        if len(paths) > 1:
            yield f"fn {name}: " + ", ".join(p.removeprefix("crates/") for p in paths)


def repeated_clauses(files):
    """`requires` clauses, names of the value aside, that stand in three or more functions of a crate."""
    seen = collections.Counter()
    for path, text in files.items():
        for m in re.finditer(r"requires (?:\w+ )?\{(.*)\}", text):
            clause = re.sub(r"\.(old|now|new)\b", "", m.group(1).strip())
            seen[(crate(path), re.sub(r"\b(x|y|head|root|n)\b", "_", clause))] += 1
    for (name, clause), n in sorted(seen.items()):
        if n >= 3:
            yield f"{name}: {n} times: {clause}"


def together(files):
    """Pairs of parameters that three or more functions of a crate take."""
    seen = collections.Counter()
    for path, _, params in signatures(files):
        for pair in itertools.combinations(sorted(set(p for p in params if "self" not in p)), 2):
            seen[(crate(path), pair)] += 1
    for (name, pair), n in sorted(seen.items()):
        if n >= 3:
            yield f"{name}: {n} functions: {pair[0]}, {pair[1]}"


def repeated_answers(files):
    """Lines of proofs (40 letters or more) that stand three times or more."""
    seen = collections.Counter()
    for text in files.values():
        seen.update(line.strip() for line in text.split("\n")
                    if len(line.strip()) >= 40 and not line.startswith(("use ", "--", "pub use "))
                    and " : goal." not in line)
    for line, n in sorted(seen.items()):
        if n >= 3:
            yield f"{n} times: {line}"


def counts(files):
    code = {p: t for p, t in files.items() if "/src/" in p}
    proofs = {p: t for p, t in files.items() if "/proofs/" in p}
    answers = {p: t for p, t in proofs.items() if p.endswith("Answers.antt")}
    return [
        ("1 arms that only pass an Option or Result on", by_line(code,
         r"None => (None|false|Err\()|Err\(_\) => (None|false|Err\(|unreachable|\{\})|Some\((\w+)\) => (Ok|Some)\(\3\)"
         r"|Some\(\w+\) => Some\(\w+(::\w+)?\(|Ok\((\w+)\) => (Ok\()?\5\b|Err\((\w+|Refusal .*)\) => Err\(")),
        ("1 `else` that only returns None or Err", by_text(code,
         r"else \{\s*return (None|Err\([^;]*\)|false);\s*\}")),
        ("1 tests that only return Err(Refusal ..)", by_text(code, r"return Err\(Refusal \{")),
        ("1 flags in structs", by_line(code, r"^\s+(pub(\(crate\))? )?\w+: bool,")),
        ("1 numbers for kinds and refusals (u8)", by_line(code, r"(number|rank|value|kind|detail): u8|-> Option<Class>|fn (rank|number)\(")),
        ("2 functions of one name in several files", same_names(code)),
        ("3 while and loop", by_line(code, r"^\s*(while|loop)\b")),
        ("3 `for` over a range", by_line(code, r"\bfor .* in .*\.\.")),
        ("3 counting by hand", by_line(code, r"\b\w+(\.\w+)? [+-]= 1;|= \w+ [+-] 1;")),
        ("4 conversions, names, order and equality by hand", by_line(code,
         r"fn (from_\w+|name|number|rank|precedes|lesser_of|is_\w+|choose|\w+_text|yes_or_no|row_role)\(")),
        ("5 clauses in three or more contracts", repeated_clauses(code)),
        ("5 parameters that travel together", together(code)),
        ("6 arrays and Vecs in types", by_line(code, r"(: |<|&mut |& ?)(\[[\w:<>]+; ?\w+\]|Vec<)")),
        ("6 lengths beside a buffer", by_line(code, r"^\s+(pub(\(crate\))? )?(count|len|stop|start|nodes): (usize|u16|u32),")),
        ("7 enums, pointers and dyn that choose a step", by_line(code, r"^\s*(pub(\(crate\))? )?enum |\bdyn |: fn\(|impl Fn")),
        ("8 answers", by_text(answers, r"^pub [\w-]+ :")),
        ("8 lines of proofs that stand three times or more", repeated_answers(proofs)),
    ]


def main():
    args = [a for a in sys.argv[1:] if a != "--list"]
    if "--help" in args:
        print(__doc__)
        return
    os.chdir(subprocess.run(["git", "rev-parse", "--show-toplevel"], capture_output=True, text=True, check=True).stdout.strip())
    for title, places in counts(read(args[0] if args else None)):
        places = list(places)
        print(f"{len(places):4}  {title}")
        if "--list" in sys.argv:
            for place in places:
                print(f"        {place}")


main()
