#!/usr/bin/env python3
"""An independent implementation of scripts (docs/SCRIPT.md), compared with the program.

usage: script_model.py < SCRIPT                 print what a script prints
       script_model.py PROGRAM COUNT [SEED]     compare with the program on so many random and damaged scripts

The readings and prints are model.py's.
"""

import random
import re
import subprocess
import sys
from concurrent.futures import ThreadPoolExecutor

from model import (CLASSES, Frame, Host, LENIENT_IO, RETRY_IO, cause, flatten, node_class, tree_print, verdict)

SCRIPT_LIMIT, OUTPUT_LIMIT, FRAMES = 4096, 65536, 1024
LINE = re.compile(rb"(?:(new|raise|all) (0|[1-9][0-9]{0,4})|(chain|drain|drop))\Z")
DRIVE = Host()
DRIVE.drive()


class Refused(Exception):
    """A line is refused with this number."""


def frames(basket):
    count, waiting = 0, list(basket)
    while waiting:
        frame = waiting.pop()
        count += 1
        waiting.extend(frame.children)
    return count


def made(basket, error, place, children):
    if error not in DRIVE.errors:
        raise Refused(1)
    if frames(basket) >= FRAMES:
        raise Refused(2)
    return Frame(error, place, children)


def need(basket, count):
    if len(basket) < count:
        raise Refused(10)


def step(basket, line, place):
    """The basket after a line."""
    match = LINE.match(line)
    if not match or match[2] and int(match[2]) > 65535:
        raise Refused(10)
    word, error = (match[1] or match[3]).decode(), match[2] and int(match[2])
    if word == "new":
        return basket + [made(basket, error, place, [])]
    if word == "raise":
        need(basket, 1)
        return basket[1:] + [made(basket, error, place, basket[:1])]
    if word == "all":
        return [made(basket, error, place, basket)]
    need(basket, 2 if word == "chain" else 1)
    first = basket[0]
    if word == "chain":
        return basket[2:] + [Frame(first.error, first.place, first.children + [basket[1]])]
    if word == "drain":
        return basket[1:] + first.children + [Frame(first.error, first.place, [])]
    return basket[1:]


def summary(report):
    nodes = flatten(DRIVE, report)
    ranks = [rank for rank in (node_class(DRIVE, node) for node in nodes) if rank is not None]
    return tree_print(DRIVE, nodes) + "\nclass %s cause %d retry %s lenient %s\n" % (
        min(ranks, default="none"), cause(DRIVE, nodes).error, verdict(DRIVE, nodes, RETRY_IO),
        verdict(DRIVE, nodes, LENIENT_IO))


def output(script):
    if len(script) > SCRIPT_LIMIT:
        return b"line 0 refused 10\n"
    *lines, last = script.split(b"\n")
    basket, number = [], 0
    try:
        for number, line in enumerate(lines, 1):
            basket = step(basket, line, number)
        if last:
            number = len(lines) + 1
            raise Refused(10)
    except Refused as refused:
        return b"line %d refused %d\n" % (number, refused.args[0])
    printed = "".join(summary(report) for report in basket).encode()
    return printed if len(printed) <= OUTPUT_LIMIT else b"refused 6\n"


# Random scripts.


def line_of(chance, weights):
    error = chance.randrange(48) if chance.random() < 0.97 else chance.choice([47, 48, 49, 255, 65535])
    word = chance.choices([b"new", b"raise", b"all", b"chain", b"drain", b"drop"], weights)[0]
    return b"%s %d" % (word, error) if word in (b"new", b"raise", b"all") else word


def damage(chance, script):
    at = chance.randrange(len(script) + 1)
    kind = chance.randrange(9)
    if kind == 0:
        return script[:at] + bytes([chance.choice(b"\n\r\t 0123456789newraislchdp\x00\xff")]) + script[at:]
    if kind == 1:
        return script[:at] + script[at + 1:]
    if kind == 2:
        return script[:at]
    if kind == 3:
        return script + chance.choice([b"new 65536\n", b"new 65535\n", b"all 048\n", b"raise 00\n", b"new  1\n", b"new 1 \n",
                                       b"new +1\n", b"new -1\n", b"chain 1\n", b"drop", b"\n", b"New 1\n", b"new\t1\n",
                                       b"new 1\r\n", b"new \n", b"new 184467440737095516160\n"])
    if kind == 4:
        return script.replace(b"\n", b"\r\n", 1)
    if kind == 5:
        return script[:at] + bytes([chance.randrange(256)]) + script[at + 1:]
    if kind == 6:
        return script[at:] + script[:at]
    if kind == 7:
        return script * chance.randrange(1, 40)
    return bytes(chance.randrange(256) for _ in range(chance.randrange(30)))


def random_script(chance):
    """Lines of some mix, most often without those that would be refused; some scripts are damaged."""
    weights = chance.choice([[10, 4, 2, 2, 1, 1], [10, 10, 1, 0, 0, 0], [8, 1, 6, 1, 1, 0], [10, 0, 0, 5, 2, 1],
                             [5, 1, 1, 1, 1, 3], [6, 0, 3, 0, 0, 0], [1, 1, 1, 1, 1, 1]])
    count = chance.choice([0, 1, 2, 3, 5, 8, 13, 30, 80, 160, 400]) if chance.random() < 0.95 else 900
    careful, script, basket = chance.random() < 0.7, b"", []
    for place in range(1, count + 1):
        line = line_of(chance, weights)
        if careful:
            try:
                basket = step(basket, line, place)
            except Refused:
                continue
        script += line + b"\n"
        if len(script) > 4080 and chance.random() < 0.7:
            break
    if chance.random() < 0.1:
        script = script[:4096]
    if chance.random() < 0.3:
        script = damage(chance, script)
    return script


def differs(program, script):
    run = subprocess.run([program], input=script, capture_output=True)
    wanted = output(script)
    return None if run.stdout == wanted and run.returncode == 0 and not run.stderr else (script, wanted, run)


def compare(program, count, seed):
    chance = random.Random(seed)
    scripts = [random_script(chance) for _ in range(count)]
    kinds, bad = {}, 0
    with ThreadPoolExecutor(3) as pool:
        for script, found in zip(scripts, pool.map(lambda script: differs(program, script), scripts)):
            wanted = output(script)
            kind = wanted.split(b" ", 3)[-1].decode().strip() if wanted.startswith(b"line ") else (
                "too long" if wanted == b"refused 6\n" else "printed" if wanted else "nothing")
            kinds[kind] = kinds.get(kind, 0) + 1
            if found:
                bad += 1
                print("differs:", found[0], found[1][:300], found[2].stdout[:300], found[2].returncode)
    print("%d scripts, %d differ; %s" % (count, bad, ", ".join("%s %d" % pair for pair in sorted(kinds.items()))))
    return 1 if bad else 0


def main(words):
    if not words:
        sys.stdout.buffer.write(output(sys.stdin.buffer.read()))
        return 0
    return compare(words[0], int(words[1]), int(words[2]) if words[2:] else 1)


if __name__ == "__main__":
    sys.setrecursionlimit(10000)
    sys.exit(main(sys.argv[1:]))
