#!/usr/bin/env python3
"""What is known at each need of a function, and the path to it. For the older kit (README.md).

usage: tools/proofs/paths.py CRATE FN [--gen DIR] [-v]     from the top of the repository, after `rt dev CRATE --generated DIR`

DIR is target/gen where none is given. FN is the folder of the proof below crates/CRATE/proofs: `put_vec`, `tags/several`, or `+walk` for a function that
calls itself. Each need is printed with the step that it stands at; for a need `returns`, and for all with -v, everything known there, the earliest first:
its path from `c`, whether it is the entry (start), a call or another step (own), and its fields."""
import argparse
import collections
import pathlib
import re

# records: the fields of each step's record, by step; own: what a step adds, its fields, 'call' or a text; needs: pairs of a need and its step
Layout = collections.namedtuple('Layout', 'records own needs')
# one thing that is known: the path to it from c, its step, its kind (start, call, own) and its fields
Known = collections.namedtuple('Known', 'path step kind fields')

RECORD = re.compile(r'^(\s+)pub record (\S+) : Type')
FIELD = re.compile(r'^\s+pub (\S+) :\s*(.*)$')
OWN = re.compile(r'^\s+abbrev pub (\S+)·own : Type')
NEED = re.compile(r'^\s+Need-(\S+) =(.*)$')


def fields_below(lines, at, indent):
    """The fields of the record whose head stands at line `at`, so far indented."""
    found = []
    for line in lines[at + 1:]:
        if line.strip() and len(line) - len(line.lstrip()) <= indent:
            break
        if field := FIELD.match(line):
            found.append(field.groups())
    return found


def load(gen, crate, function):
    """The layout of a function's steps, as `rt dev --generated` wrote it."""
    module = f'Lts-{function[1:]}' if function.startswith('+') else 'Lts'
    lines = pathlib.Path(gen, f'Rattle·{crate}·proofs', 'proofs', function, f'{module}.antt').read_text().split('\n')
    layout = Layout({}, {}, [])
    for at, line in enumerate(lines):
        if m := RECORD.match(line):
            found = fields_below(lines, at, len(m[1]))
            if m[2].endswith('·own'):
                layout.own[m[2].removesuffix('·own')] = found
            else:
                layout.records[m[2]] = found
        elif m := OWN.match(line):
            body = ' '.join(part.strip() for part in lines[at + 1:at + 6])
            layout.own[m[1]] = 'call' if 'Called.Called' in body else body
        elif m := NEED.match(line):
            step = re.search(r'\(c : (\S+?)\)', m[2] + ' '.join(lines[at + 1:at + 3]))
            layout.needs.append((m[1], step[1] if step else '?'))
    return layout


def chain(layout, step):
    """All that is known at a step, the earliest first."""
    found, path = [], 'c'
    while step in layout.records:
        fields = layout.records[step]
        if step == 'Start':
            found.append(Known(path, step, 'start', [name for name, _ in fields]))
            break
        own = layout.own.get(step)
        for name, _ in fields:
            if name != 'before':
                kind = 'call' if own == 'call' else 'own'
                found.append(Known(f'{path} .{name}', step, kind, [n for n, _ in own] if isinstance(own, list) else own))
        path += ' .before'
        step = dict(fields)['before']
    return found[::-1]


def last(path):
    """The field that a path ends with."""
    return path.split(' .')[-1]


def name(known):
    """What answers call a thing: the field that its path ends with, `start` for the entry."""
    return 'start' if known.kind == 'start' else last(known.path)


def main():
    """Prints the needs of one function."""
    parser = argparse.ArgumentParser(description=__doc__, formatter_class=argparse.RawDescriptionHelpFormatter)
    parser.add_argument('crate')
    parser.add_argument('function')
    parser.add_argument('--gen', default='target/gen')
    parser.add_argument('-v', action='store_true', dest='all')
    asked = parser.parse_args()
    layout = load(asked.gen, asked.crate, asked.function)
    for need, step in layout.needs:
        print(f'Need-{need} at {step}')
        if asked.all or need.startswith('returns'):
            for known in chain(layout, step):
                print('    ', known.path, known.kind, known.fields)


if __name__ == '__main__':
    main()
