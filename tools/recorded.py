#!/usr/bin/env python3
"""recorded: a sample of the recorded cases and answers as a Rattle constant, for the crate chain_tests.

  tools/recorded.py > crates/chain_tests/src/recorded_cases.rt

Takes cases of each kind from oracle/list without layers, chains and questions in between, at whose end one report stands
and no basket, and which have at most 20 nodes. A line of a case becomes a word and up to four numbers; `none` and texts
have no number. Records are written by the numbers of kind and class or io kind; names of reports and baskets become their
numbers.
"""
import os, re

HERE = os.path.dirname(os.path.abspath(__file__))
LIST = os.path.join(HERE, '..', 'oracle', 'list', 'first')
CLASSES = ('Cancelled Corruption AllocationLimit AllocationFailure Validation Unsupported Unauthenticated PermissionDenied '
           'Conflict NotFound Retryable').split()
KINDS = ('Other NotFound PermissionDenied Unsupported OutOfMemory Interrupted TimedOut UnexpectedEof BrokenPipe AddrInUse '
         'ConnectionAborted ConnectionReset ConnectionRefused WouldBlock AlreadyExists InvalidData').split()
# how many cases of a kind are taken
SHARE = {'small': 14, 'order': 8, 'marker': 6, 'equal': 6, 'pairs': 9}


def blocks(end):
    """Each case by name: its lines."""
    found = {}
    with open(LIST + end, encoding='utf-8') as file:
        for line in file.read().split('\n'):
            if line.startswith('case '):
                lines = found[line[5:]] = []
            elif line and not line.startswith('#'):
                lines.append(line)
    return found


def record(words):
    """A record by its numbers: kind, number beside it, source."""
    kind = words[2]
    if kind == 'plain':
        return f'error 0 0 {words[3]}'
    if kind == 'message':
        return f"error 1 {255 if words[3] == 'none' else CLASSES.index(words[3])} none"
    if kind == 'marker':
        return f'error 2 {CLASSES.index(words[3])} {words[4]}'
    if kind == 'reserve':
        return 'error 3 0 none'
    return f'error 4 {KINDS.index(words[3])} {words[4]}'


def lines(text):
    """A line of a case, or an answer that is compared; the errors in order have a line each."""
    words = text.split(' ')
    if words[0] == 'errors':
        return [f'shown {k} {error}' for k, error in enumerate(words[1:])]
    if words[0] == 'host':
        return [words[1]]
    if words[0] == 'error':
        return [record(words)]
    if words[0] == 'discard':
        return [('drop ' if words[1][0] == 'r' else 'empty ') + words[1][1:]]
    if words[0] == 'node':
        return [' '.join([words[4], *words[1:4], words[5]])]
    return [' '.join([words[0]] + [re.sub('^[rb]', '', word) for word in words[1:]])]


def fits(case, answer):
    """Whether a case is one of those that are taken."""
    heads = {text.split(' ')[0] for text in case}
    subjects = [text for text in answer if text.startswith('of ')]
    names = [int(n) for text in case for n in re.findall(r'\b[rb](\d+)\b', text)]
    nodes = [int(text.split(' ')[1]) for text in answer if text.startswith('nodes ')]
    return (not heads & {'layer', 'into_chain', 'into_exn', 'ask'} and len(subjects) == 1 and subjects[0].startswith('of r')
            and max(names) < 3 and nodes[0] <= 20)


def sample():
    """The names of the cases that are taken: of each kind those of a regular step."""
    cases, answers = blocks('.cases'), blocks('.answers')
    kinds = {}
    for name, case in cases.items():
        if fits(case, answers[name]):
            kinds.setdefault(name.split('-')[0], []).append(name)
    for kind, names in kinds.items():
        share = min(SHARE.get(kind, 5), len(names))
        for k in range(share):
            name = names[(k + 1) * len(names) // share - 1]
            compared = [text for text in answers[name] if text.split(' ')[0] in ('of', 'node', 'errors', 'frame')]
            yield [f'case {name}'] + [more for text in cases[name] + compared for more in lines(text)]


def main():
    print('// Recorded cases and answers of the Rust crate, written by `tools/recorded.py`.')
    print('pub const CASES: &str = "\\')
    for case in sample():
        print('\n'.join(case))
    print('";')


main()
