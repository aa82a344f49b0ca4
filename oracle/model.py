#!/usr/bin/env python3
"""An independent implementation of the readings and prints, compared with recorded answers.

usage: model.py CASES            print the answers to the cases of a file
       model.py CASES ANSWERS    compare them with the answers in a file

It follows the rules as docs/CASES.md and the crate's documentation state them and shares no code with the harness.
Lines that begin with `departs` tell what the Rust printed against its documentation and are passed over; a line that
begins with `differs` never agrees.
"""

import sys
from collections import deque

CLASSES = ("Cancelled Corruption AllocationLimit AllocationFailure Validation Unsupported Unauthenticated "
           "PermissionDenied Conflict NotFound Retryable").split()
IO_KINDS = ("Other NotFound PermissionDenied Unsupported OutOfMemory Interrupted TimedOut UnexpectedEof BrokenPipe "
            "AddrInUse ConnectionAborted ConnectionReset ConnectionRefused WouldBlock AlreadyExists "
            "InvalidData").split()
CANCELLED, ALLOCATION_FAILURE, UNAUTHENTICATED, RETRYABLE = 0, 3, 6, 10
PERMISSION_DENIED_IO = 2
IO_CLASS = {1: 9, 2: 7, 3: 5, 4: 3}
RETRY_IO = {5, 6}
LENIENT_IO = set(range(4, 13))


class Error:
    """What a host tells of one error."""

    def __init__(self, kind, detail, source, text):
        self.kind, self.detail, self.source, self.text = kind, detail, source, text


class Host:
    """Live errors by number, and the span that the next layer stands on."""

    def __init__(self):
        self.errors = {}
        self.span = 0
        self.next_entry = 0

    def drive(self):
        for number in range(48):
            stage, reason = divmod(number, 16)
            text = "%s %d" % (("gauge", "drive", "gate")[stage], reason)
            if stage == 0:
                self.errors[number] = Error("io", reason, None, text)
            else:
                self.errors[number] = Error("plain", None, number - 16, text)
        self.span = 48

    def record(self, line):
        head, text = line.split(' "', 1)
        words = head.split(" ")
        number, kind = int(words[1]), words[2]
        source = None if kind in ("message", "reserve") or words[-1] == "none" else int(words[-1])
        detail = None
        if kind in ("message", "marker"):
            detail = None if words[3] == "none" else CLASSES.index(words[3])
        elif kind == "io":
            detail = IO_KINDS.index(words[3])
        self.errors[number] = Error(kind, detail, source, unquote('"' + text))
        self.span = number + 1

    def layer(self):
        self.next_entry = self.span
        self.span = min(self.span + 64, 65536)

    def entry(self, words):
        around = int(words[1])
        if words[0] == "mark":
            entry = Error("marker", CLASSES.index(words[2]), around, "")
        else:
            entry = Error("io", IO_KINDS.index(words[2]), around, self.errors[around].text)
        assert int(words[4]) == self.next_entry, words
        self.errors[self.next_entry] = entry
        self.next_entry += 1


class Frame:
    """A frame of a report's tree."""

    def __init__(self, error, place, children):
        self.error, self.place, self.children = error, place, children


class Node:
    """A node of a flattening."""

    def __init__(self, index, error, place, native, parent):
        self.index, self.error, self.place, self.native, self.parent = index, error, place, native, parent
        self.children = []


def unquote(quoted):
    inner, out, at = quoted[1:-1].encode(), bytearray(), 0
    while at < len(inner):
        if inner[at] != 0x5C:
            out.append(inner[at])
            at += 1
        elif inner[at + 1] == ord("x"):
            out.append(int(inner[at + 2:at + 4], 16))
            at += 4
        else:
            out.append(10 if inner[at + 1] == ord("n") else inner[at + 1])
            at += 2
    return out.decode()


def quote(text):
    out = []
    for letter in text:
        if letter == "\n":
            out.append("\\n")
        elif letter in '"\\':
            out.append("\\" + letter)
        elif ord(letter) < 32 or ord(letter) == 127:
            out.append("\\x%02x" % ord(letter))
        else:
            out.append(letter)
    return '"' + "".join(out) + '"'


# Flattening and going back.


def flatten(host, root):
    """Breadth-first: each node's native source first, then its frame's children."""
    nodes, queue = [], deque([(root.error, root, False, None)])
    while queue:
        error, frame, native, parent = queue.popleft()
        node = Node(len(nodes), error, frame.place, native, parent)
        nodes.append(node)
        if parent is not None:
            parent.children.append(node)
        source = host.errors[error].source
        if source is not None:
            queue.append((source, frame, True, node))
        if not native:
            queue.extend((child.error, child, False, node) for child in frame.children)
    return nodes


def rebuild(nodes):
    """A frame for each node that is not native, under that of its parent, in order."""
    frames = {}
    for node in nodes:
        if not node.native:
            frames[node.index] = Frame(node.error, node.place, [])
            if node.parent is not None:
                frames[node.parent.index].children.append(frames[node.index])
    return frames[0]


# Readings.


def is_marker(host, node):
    return host.errors[node.error].kind == "marker"


def says_unauthenticated(host, number):
    while number is not None:
        error = host.errors[number]
        if error.kind in ("message", "marker") and error.detail == UNAUTHENTICATED:
            return True
        number = error.source
    return False


def node_class(host, node):
    error = host.errors[node.error]
    if error.kind in ("message", "marker"):
        return error.detail
    if error.kind == "reserve":
        return ALLOCATION_FAILURE
    if error.kind != "io":
        return None
    if error.detail == PERMISSION_DENIED_IO and says_unauthenticated(host, error.source):
        return None
    return IO_CLASS.get(error.detail)


def named_by_class(host, node):
    """The node that a classification is about."""
    if not is_marker(host, node):
        return node
    if host.errors[node.error].source is not None:
        return node.children[0]
    return node.parent if node.native else node


def verdict(host, nodes, accepted_io):
    classes = [node_class(host, node) for node in nodes]
    io_kinds = [host.errors[node.error].detail for node in nodes if host.errors[node.error].kind == "io"]
    accepted = RETRYABLE in classes or any(kind in accepted_io for kind in io_kinds)
    return "yes" if accepted and CANCELLED not in classes else "no"


def cause(host, nodes):
    """The deepest non-marker node that has every other one above or beneath it, or else the root."""
    beneath = [0] * len(nodes)
    for node in reversed(nodes):
        beneath[node.index] += not is_marker(host, node)
        if node.parent is not None:
            beneath[node.parent.index] += beneath[node.index]
    above, depth = [0] * len(nodes), [0] * len(nodes)
    for node in nodes[1:]:
        above[node.index] = above[node.parent.index] + (not is_marker(host, node.parent))
        depth[node.index] = depth[node.parent.index] + 1
    fit = [node for node in nodes
           if not is_marker(host, node) and above[node.index] + beneath[node.index] == beneath[0]]
    return max(fit, key=lambda node: depth[node.index], default=nodes[0])


# Prints.


def shown(host, node):
    error = host.errors[node.error]
    if error.kind == "io" and error.source is not None:
        return "I/O error (%s)" % IO_KINDS[error.detail]
    return error.text


def displayed(host, node):
    """The children of a node, those of a marker in the marker's place."""
    children, waiting = [], list(reversed(node.children))
    while waiting:
        child = waiting.pop()
        if is_marker(host, child):
            waiting.extend(reversed(child.children))
        else:
            children.append(child)
    return children


def run_beneath(host, node):
    """The single cause of a node, that one's single cause, and so on; and the children of the last."""
    run, children = [], displayed(host, node)
    while len(children) == 1:
        run.append(children[0])
        children = displayed(host, children[0])
    return run, children


def fork_lines(host, children, guides):
    """A fork's children stand at one level, numbered from 0, each with what lies beneath it one level deeper."""
    lines = []
    for index, child in enumerate(children):
        last = index + 1 == len(children)
        lines.append("%s%s%d: %s" % (guides, "└─" if last else "├─", index, shown(host, child)))
        deeper = guides + ("  " if last else "│ ")
        run, fork = run_beneath(host, child)
        if not run:
            lines.extend(fork_lines(host, fork, deeper))
            continue
        for at, node in enumerate(run):
            connector = "└─" if at + 1 == len(run) else "├─"
            number = " " if len(run) == 1 else "%d: " % at
            lines.append(deeper + connector + number + shown(host, node))
        lines.extend(fork_lines(host, fork, deeper + "  "))
    return lines


def head_print(host, head):
    run, fork = run_beneath(host, head)
    lines = ["%d: %s" % (index, shown(host, node)) for index, node in enumerate(run)]
    lines += fork_lines(host, fork, "")
    caption = "\n\nCaused by:" if lines else ""
    return shown(host, head) + caption + "".join("\n    " + line for line in lines)


def tree_print(host, nodes):
    root = nodes[0]
    if not is_marker(host, root):
        return head_print(host, root)
    heads = displayed(host, root)
    return "\n".join(head_print(host, head) for head in heads) if heads else host.errors[root.error].text


def chain_print(host, nodes):
    texts = [shown(host, node) for node in nodes if not is_marker(host, node)]
    if not texts:
        return host.errors[nodes[0].error].text
    caption = "\n\nCaused by:" if texts[1:] else ""
    return texts[0] + caption + "".join("\n    %d: %s" % pair for pair in enumerate(texts[1:]))


def inline_print(host, nodes):
    texts = [shown(host, node) for node in nodes if not is_marker(host, node)]
    return ": ".join(texts) if texts else host.errors[nodes[0].error].text


# Answers.


def or_none(value):
    return "none" if value is None else str(value)


def answers_on(host, name, nodes):
    lines = ["of " + name, "nodes %d" % len(nodes)]
    for node in nodes:
        parent = or_none(node.parent.index if node.parent else None)
        owner = "native" if node.native else "explicit"
        lines.append("node %d %d %d %s %s" % (node.index, node.error, node.place, owner, parent))
    visited = [node for node in nodes if not is_marker(host, node)]
    lines.append(" ".join(["visits"] + [str(node.index) for node in visited]))
    lines.append(" ".join(["errors"] + [str(node.error) for node in visited]))
    found = [(node_class(host, node), named_by_class(host, node)) for node in nodes
             if node_class(host, node) is not None]
    lines.append("classes %d" % len(found))
    lines += ["class %d %d %d" % (rank, node.index, node.error) for rank, node in found]
    lines.append("dominant " + or_none(min((rank for rank, _ in found), default=None)))
    lines.append("retry " + verdict(host, nodes, RETRY_IO))
    lines.append("lenient " + verdict(host, nodes, LENIENT_IO))
    lines.append("cause %d %d" % (cause(host, nodes).index, cause(host, nodes).error))
    if not name.startswith("c"):
        lines.append("tree " + quote(tree_print(host, nodes)))
    lines.append("chain " + quote(chain_print(host, nodes)))
    lines.append("inline " + quote(inline_print(host, nodes)))
    return lines + frame_lines(rebuild(nodes))


def frame_lines(root):
    frames, parents = [root], [None]
    for index, frame in enumerate(frames):
        frames.extend(frame.children)
        parents.extend([index] * len(frame.children))
    lines = ["frames %d" % len(frames)]
    for index, frame in enumerate(frames):
        lines.append("frame %d %d %d %s" % (index, frame.error, frame.place, or_none(parents[index])))
    return lines


# Running a case.


class Run:
    """A case as it is read: the ledger of its trees, rows and chains."""

    def __init__(self, name):
        self.host = Host()
        self.held = {}
        self.lines = ["case " + name]

    def line(self, line):
        words = line.split(" ")
        if words[0] == "error":
            self.host.record(line)
        elif words == ["host", "drive"]:
            self.host.drive()
        elif words[0] == "layer":
            self.host.layer()
        elif words[0] in ("mark", "wrap"):
            self.host.entry(words)
        elif words[0] != "host":
            getattr(self, words[0])(*words[1:])

    def new(self, name, error, place):
        self.held[name] = Frame(int(error), int(place), [])

    def raise_(self, name, error, place):
        self.held[name] = Frame(int(error), int(place), [self.held[name]])

    def raise_all(self, name, row, error, place):
        self.held[name] = Frame(int(error), int(place), self.held.pop(row))

    def chain(self, head, tail):
        self.held[head].children.append(self.held.pop(tail))

    def chain_all(self, head, row):
        self.held[head].children.extend(self.held.pop(row))

    def basket(self, row):
        self.held[row] = []

    def collect(self, row, name):
        self.held[row].append(self.held.pop(name))

    def take(self, row, name):
        if name == "none":
            assert not self.held[row], row
        else:
            self.held[name] = self.held[row].pop(0)

    def drain_children(self, name, row):
        self.held[row] = self.held[name].children
        self.held[name].children = []

    def into_chain(self, name, chain):
        self.held[chain] = flatten(self.host, self.held.pop(name))

    def into_exn(self, chain, name):
        self.held[name] = rebuild(self.held.pop(chain))

    def discard(self, name):
        del self.held[name]

    def ask(self, name):
        self.lines += answers_on(self.host, name, flatten(self.host, self.held[name]))

    def finish(self):
        for name in sorted(self.held, key=lambda name: ("rbc".index(name[0]), int(name[1:]))):
            held = self.held[name]
            if name[0] == "r":
                self.ask(name)
            elif name[0] == "c":
                self.lines += answers_on(self.host, name, held)
            else:
                for index, report in enumerate(held):
                    self.lines += answers_on(self.host, "%s %d" % (name, index), flatten(self.host, report))
        return self.lines


setattr(Run, "raise", Run.raise_)


def answers(path):
    """The answers to all cases of a file, case by case."""
    run = None
    with open(path, encoding="utf-8", newline="\n") as file:
        for line in file:
            line = line[:-1]
            if line.startswith("#"):
                continue
            if line.startswith("case "):
                if run:
                    yield run.finish()
                run = Run(line[5:])
            else:
                run.line(line)
    if run:
        yield run.finish()


def recorded(path):
    """The recorded answers, case by case."""
    case = []
    with open(path, encoding="utf-8", newline="\n") as file:
        for line in file:
            if line.startswith("case ") and case:
                yield case
                case = []
            if not line.startswith(("#", "departs ")):
                case.append(line[:-1])
    if case:
        yield case


def compare(cases, answers_path):
    same, apart = 0, 0
    theirs = recorded(answers_path)
    for mine in answers(cases):
        other = next(theirs, [])
        if mine == other:
            same += 1
            continue
        apart += 1
        at = next((at for at, pair in enumerate(zip(mine, other)) if pair[0] != pair[1]), min(len(mine), len(other)))
        if apart <= 10:
            print("%s: model `%s`, recorded `%s`" % (mine[0], "".join(mine[at:at + 1]), "".join(other[at:at + 1])))
    apart += sum(1 for _ in theirs)
    print("%d cases agree, %d do not" % (same, apart))
    return 1 if apart else 0


def main(words):
    sys.setrecursionlimit(20000)
    if len(words) == 2:
        return compare(*words)
    if len(words) == 1:
        for lines in answers(words[0]):
            sys.stdout.write("\n".join(lines) + "\n")
        return 0
    print(__doc__)
    return 2


if __name__ == "__main__":
    sys.exit(main(sys.argv[1:]))
