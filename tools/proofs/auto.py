#!/usr/bin/env python3
"""Writes the proofs of functions without loops: each return by one `rw` over the calls, tests and matches on the way. For the older kit (README.md).

usage: tools/proofs/auto.py CRATE FN.. [--gen DIR] [--unfold FN:NAMES] [--use FN:LINE] [--ans FN:NEED=TERM]
       tools/proofs/auto.py CRATE all ..     those that have no proof file, or only a stub
from the top of the repository, after `rt dev CRATE --generated DIR` (target/gen)

What is unfolded is read off the contract (`r ≡ fOf ..`), and where it stands off the source's `ghost use`; --unfold says it in other words, --use adds an
import, --ans answers a need. What a call asks is left to the search where it asks anything. Run `rt fmt` afterwards, and hold the first line against the proof."""
import argparse
import collections
import pathlib
import re
import sys

sys.dont_write_bytecode = True
import paths
from crate import asking, folders, functions, module, proof, theorem
from stub import MARK

TESTS = ['taken'], ['left']
KEY = re.compile(r'keys\d+$')
TOLD = re.compile(r'(known-told|struct-known|row-known|shared-slice-known|slice-known)\d*$')
WIDE = 100


def depth(path):
    """How many steps back a path goes."""
    return path.count(' .before')


def anchors(chain):
    """A name for each test but the nearest, with its path over the name before it and its depth, the nearest first."""
    found, name, at = [], 'c', 0
    for known in sorted((k for k in chain if k.fields in TESTS and depth(k.path)), key=lambda k: depth(k.path)):
        far = depth(known.path)
        found.append(('at-' + paths.last(known.path), name + ' .before' * (far - at), far))
        name, at = found[-1][0], far
    return found


def shortened(path, named):
    """A path over the furthest name that it passes."""
    far = depth(path)
    name, at = max(((n, d) for n, _, d in named if d <= far), key=lambda pair: pair[1], default=('c', 0))
    return name + ' .before' * (far - at) + ' .' + paths.last(path)


def rewritten(chain):
    """The term of a return: a rewrite by what the calls ensure, right to left, and by what the tests and matches found."""
    named, rules = anchors(chain), []
    for known in chain:
        path = shortened(known.path, named)
        if known.kind == 'call':
            rules.append(f'← {path} .ensures')
        elif known.fields in TESTS or isinstance(known.fields, list) and KEY.match(' '.join(known.fields)):
            rules.append(f'{path} .{known.fields[0]}')
        elif known.fields == ['given'] and not TOLD.match(paths.last(known.path)):
            rules.append(f'{path} .given .1')
    if not rules:
        return 'refl'
    lets = ''.join(f'\n      let {name} = {path} in' for name, path, _ in named)
    short = ', '.join(rules)
    body = f'rw ({short})' if len(short) < WIDE else 'rw\n      ({})'.format(',\n        '.join(rules))
    return (lets + '\n      ' if lets else '') + body


def answered(layout, answers, asks):
    """The answer to each need, in order."""
    items = []
    for need, step in layout.needs:
        call = re.sub(r'-requires(-\d+)?$', '', need)
        term = answers.get(need)
        if term is None and need.startswith('returns'):
            term = rewritten(paths.chain(layout, step))
        elif term is None:
            term = 'tt' if call != need and call not in asks else 'search needs'
        items.append('(λ c{}. {})'.format(' κs' if call != need else '', term))
    return items


def contract(crate, folder, unfold):
    """What the contract's definition is to be unfolded as, and the import of its name."""
    where = {}
    for path in pathlib.Path('crates', crate, 'src').glob('*.rt'):
        for m in re.finditer(r'ghost use (\S+?)\.\{([^}]*)\};', path.read_text()):
            where.update((name.strip(), m[1]) for name in m[2].split(','))
    for clause in functions()[f'{crate}::{folder.split("/")[-1]}'].ensures:
        m = re.search(r'≡ \(?([\w«»]+)', clause)
        if m and m[1] in where:
            return unfold or m[1], [f'use {where[m[1]]}.{{{m[1]}}}']
    return unfold, []


def text(crate, folder, asked, asks):
    """The proof file of one function."""
    unfold, uses = contract(crate, folder, asked.unfold.get(folder))
    items = answered(paths.load(asked.gen, crate, folder), asked.ans[folder], asks)
    body = '\n    '.join(items)
    uses += asked.use[folder]
    if 'search needs' in body:
        uses.append('use borrow.Author.Needs.{needs}')
    if re.search(r'\brefl\b', body):
        uses.append('use mathlib.Core.Path.{refl}')
    uses += [f'use {module(crate, folder)}.Statement.{{statement}}', f'use {module(crate, folder)}.Tie as tie']
    reason = 'each return by the calls and tests on the way' if 'rw' in body else 'by computation'
    name = theorem(folder)
    return '\n'.join([f'-- `{crate}::{folder.replace("/", "::")}` meets its contract: {reason}.', *uses, '', f'pub {name} : {{M : Type 1}} → statement M',
                      *([f'unfolding {unfold}'] if unfold else []), f'{name} =\n    tie.close\n    (tie.spec\n    {body})', ''])


def arguments():
    """What is asked on the command line."""
    parser = argparse.ArgumentParser(description=__doc__, formatter_class=argparse.RawDescriptionHelpFormatter)
    parser.add_argument('crate')
    parser.add_argument('functions', nargs='+')
    parser.add_argument('--gen', default='target/gen')
    for option in '--unfold', '--use', '--ans':
        parser.add_argument(option, action='append', default=[])
    asked = parser.parse_args()
    asked.unfold = dict(word.split(':', 1) for word in asked.unfold)
    uses, answers = collections.defaultdict(list), collections.defaultdict(dict)
    for function, line in (word.split(':', 1) for word in asked.use):
        uses[function].append(line)
    for function, answer in (word.split(':', 1) for word in asked.ans):
        need, term = answer.split('=', 1)
        answers[function][need] = term
    asked.use, asked.ans = uses, answers
    return asked


def is_open(path):
    """Whether a proof is still to be written."""
    return not path.exists() or path.read_text().startswith(MARK)


def main():
    """Writes the proofs."""
    asked, asks = arguments(), asking()
    wanted = asked.functions
    if wanted == ['all']:
        wanted = [folder for folder in folders(asked.crate) if is_open(proof(asked.crate, folder))]
    for folder in wanted:
        path = proof(asked.crate, folder)
        written = text(asked.crate, folder, asked, asks)
        path.parent.mkdir(parents=True, exist_ok=True)
        path.write_text(written)
        print('wrote', path, written.count('\n'), 'lines')


if __name__ == '__main__':
    main()
