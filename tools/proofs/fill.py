#!/usr/bin/env python3
"""Writes a function's proof from a file of answers in which names stand for the paths to steps. For the older kit (README.md).

usage: tools/proofs/fill.py CRATE FN [--gen DIR] [--ans DIR] [--dump]
from the top of the repository, after `rt dev CRATE --generated DIR` (target/gen); the answers are in DIR/CRATE.FN (target/ans; `tags.several` for `tags/several`)

The answers: a head (first line, imports, laws, `abbrev Inv-loop ..`) up to a line '===='; then blocks `NEED = term`, further lines indented, each with an
optional line `unfolding f g` before it. `default = term` answers the needs that have no block, `defreq = term` those of what a call asks; else it is
`search needs`. A block SPEC with a line `unfolding` before it unfolds for the whole. In a term @x is the path from c to the nearest place with the field x:
`@loop .i` is `c .before .before .loop .i`; @start is the entry. So answers survive an edit of the code that shifts the steps.
For a function that calls itself (`+walk`) the head ends where the needs begin, and all of them are answered in place.
--dump prints each need with what is known there, by name."""
import argparse
import pathlib
import re
import sys

sys.dont_write_bytecode = True
import paths
from crate import module, proof, theorem

PLAIN = 'search needs', 'omega arith', 'tt', 'refl'
WHOLE = 'SPEC'


def blocks(body):
    """The answers by need: what to unfold, and the term."""
    found, need, unfold = {}, None, ''
    for line in body.split('\n'):
        head = re.match(r'(\S+)(?: κs)? =\s*(.*)$', line)
        if line.startswith('unfolding'):
            unfold = line
        elif head:
            need = head[1]
            found[need], unfold = (unfold, head[2]), ''
        elif need and line.strip():
            found[need] = found[need][0], found[need][1] + '\n' + line
    return found


def expanded(term, layout, step):
    """A term with the paths from a step in place of its names."""
    known = {paths.name(k): k.path for k in paths.chain(layout, step)}

    def path(m):
        """The path that a name stands for."""
        if m[1] not in known:
            raise SystemExit(f'no @{m[1]} at {step}; there are {sorted(known)}')
        return known[m[1]]

    return re.sub(r'@([A-Za-z0-9\-]+)', path, term)


def answered(layout, answers, invariants, cycle):
    """The declarations of the needs with a term of their own, and the answer to each need in order."""
    declared, items = [], []
    for need, step in layout.needs:
        lends = ' κs' if 'requires' in need else ''
        unfold, term = answers.get(need) or answers.get('defreq' if lends else 'default') or ('', 'search needs')
        term = expanded(term, layout, step)
        if cycle or not unfold and term in PLAIN:
            items.append(f'(λ c{lends}. {term})')
        else:
            head = ' '.join([f'{need} : tie.Need-{need}', *invariants])
            declared.append('\n'.join([head, *filter(None, [unfold]), f'{need} c{lends} = {term}', '']))
            items.append(need)
    return declared, items


def text(crate, folder, layout, head, answers):
    """The proof file."""
    cycle = folder.startswith('+')
    invariants = re.findall(r'^abbrev (Inv-\S+|μ-\S+) :', head, re.M)
    declared, items = answered(layout, answers, invariants, cycle)
    if cycle:
        return head.rstrip('\n') + '\n    ' + '\n    '.join(items) + '\n'
    lines = head.rstrip('\n').split('\n')
    behind = max((at for at, line in enumerate(lines) if line.startswith('use ')), default=0) + 1
    uses = [f'use {module(crate, folder)}.Statement.{{statement}}', f'use {module(crate, folder)}.Tie as tie']
    name, unfold = theorem(folder), answers.get(WHOLE, ('',))[0]
    spec = '\n'.join([f'pub {name} : {{M : Type 1}} → statement M', *filter(None, [unfold]), f'{name} =', '    tie.close', '    (tie.spec'])
    return '\n'.join([*lines[:behind], *uses, *lines[behind:], '', *declared, spec]) + '\n    ' + '\n    '.join(invariants + items) + ')\n'


def write(crate, folder, layout, head, body):
    """Writes the proof file, and names the answers that no need asked for."""
    answers = blocks(body)
    for need in answers.keys() - {need for need, _ in layout.needs} - {'default', 'defreq', WHOLE}:
        print('unused answer', need)
    path = proof(crate, folder)
    path.parent.mkdir(parents=True, exist_ok=True)
    path.write_text(text(crate, folder, layout, head, answers))
    print('wrote', path)


def main():
    """Fills in one proof, or says what is known."""
    parser = argparse.ArgumentParser(description=__doc__, formatter_class=argparse.RawDescriptionHelpFormatter)
    parser.add_argument('crate')
    parser.add_argument('function')
    parser.add_argument('--gen', default='target/gen')
    parser.add_argument('--ans', default='target/ans')
    parser.add_argument('--dump', action='store_true')
    asked = parser.parse_args()
    layout = paths.load(asked.gen, asked.crate, asked.function)
    if asked.dump:
        for need, step in layout.needs:
            print(need, step, *(f'@{paths.name(known)}' for known in paths.chain(layout, step) if 'known' not in known.path))
        return
    head, body = pathlib.Path(asked.ans, f'{asked.crate}.{asked.function.replace("/", ".")}').read_text().split('====\n', 1)
    write(asked.crate, asked.function, layout, head, body)


if __name__ == '__main__':
    main()
