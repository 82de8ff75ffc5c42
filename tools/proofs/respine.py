#!/usr/bin/env python3
"""Carries a proof over a change of parameters: paths and places become names, and the names paths and places of the new code. For the older kit (README.md).

usage: tools/proofs/respine.py name CRATE FN > FILE                 before the change
       tools/proofs/respine.py place CRATE FN FILE [--gen DIR]      after it, and after `rt dev CRATE --generated DIR` (target/gen)
from the top of the repository, for a function without loops

`name` prints the proof as answers for fill.py: `@callee`, `@start` for the paths to steps, `.kept‹p›`, `.last‹p›` for what a call left of the area p,
`same-length‹p›` for the need about p. Mend there by hand what the change means for the proof. `place` resolves the names by the signatures as they are then and
writes the proof; blocks `same-length‹p›` of parameters that are gone are left out. The answers that a proof gives in place follow as lines with '#': what is not a
default of fill.py is to be made a block."""
import argparse
import pathlib
import re
import sys

sys.dont_write_bytecode = True
import fill
import paths
from crate import functions, proof

AREA = re.compile(r'(@[a-z0-9\-]+|\b\w+) \.(kept|last)((?: \.1)*) \.0')
NAMED = re.compile(r'(@[a-z0-9\-]+|\b\w+) \.(kept|last)‹(\w+)›')
SAME = re.compile(r'^same-length(?:-(\d+))?(?= = )', re.M)
SAME_NAMED = re.compile(r'same-length‹(\w+)›(?:#(\d+))?')
BOUND = re.compile(r'let (\w+) = @([a-z0-9\-]+) in')


class Signatures:
    """The parameters of a function and of what it calls."""

    def __init__(self, crate, name):
        """Reads them off the sources."""
        self.crate, self.all = crate, functions()
        own = self.all[f'{crate}::{name}']
        self.body = own.body
        self.lent = [p for p, kind in own.parameters if kind.startswith('&mut')]

    def parameters(self, step):
        """The parameters of the call that a step stands for."""
        for field in step, re.sub(r'\d+$', '', step):
            name = field.replace('-', '_')
            call = re.search(rf'(?:(\w+)::)?\b{name}\(', self.body)
            found = call and self.all.get(f'{call[1] or self.crate}::{name}')
            if found:
                return [p for p, _ in found.parameters]
        raise SystemExit(f'no call of {step}')

    def called(self, who, block):
        """The parameters of the call that a name in a block stands for, if it does: `@call`, or a `let` of one."""
        step = who[1:] if who.startswith('@') else dict(BOUND.findall(block)).get(who)
        return step and self.parameters(step)


def blocks(text):
    """The pieces of a file that begin at the left margin."""
    return re.split(r'\n(?=\S)', text)


def named(text, signatures):
    """A proof file as answers."""
    text = re.sub(r'\bc(?: \.before)*( \.(?:args|pre|good|κs|fits)\b)', r'@start\1', text)
    text = re.sub(r'= c(?: \.before)+ in', '= @start in', text)
    text = re.sub(r'\bc(?: \.before)* \.([A-Za-z0-9\-]+)', r'@\1', text)
    proved, spec = text[:text.rindex('\npub ')], text[text.rindex('\npub '):]
    start = re.search(r'(?m)^\S+ : tie\.Need-', proved).start()
    head = '\n'.join(line for line in proved[:start].split('\n') if '.Statement.{' not in line and '.Tie as' not in line)
    body = re.sub(r'(?m)^\S+ : tie\.Need-.*\n', '', proved[start:])
    body = re.sub(r'(?m)^\)', ' )', re.sub(r'(?m)^(\S+) c(?: κs)? = ?', r'\1 = ', body))

    def area(block):
        """A block with the names of areas in place of their places."""
        def put(m):
            """The name of one area."""
            parameters = signatures.called(m[1], block)
            return f'{m[1]} .{m[2]}‹{parameters[m[3].count(".1")]}›' if parameters else m[0]
        return AREA.sub(put, block)

    def same(m):
        """The need about an area by its name; a second round of them, at another return, has a number."""
        turn, place = divmod(int(m[1] or 1) - 1, len(signatures.lent))
        return f'same-length‹{signatures.lent[place]}›' + (f'#{turn + 1}' if turn else '')

    given = re.search(r'\(tie\.spec\s*(.*)\)\s*$', spec, re.S)[1]
    answers = SAME.sub(same, '\n'.join(map(area, blocks(body)))).strip('\n')
    return '\n'.join([head.rstrip('\n'), '====', answers, '', '# in place, in the order of the needs:', *('# ' + line.strip() for line in given.split('\n'))])


def placed(body, signatures):
    """Answers with the places of areas in place of their names."""
    found = []
    for block in blocks('\n'.join(line for line in body.split('\n') if not line.startswith('#'))):
        if m := SAME_NAMED.match(block):
            if m[1] not in signatures.lent:
                continue
            number = signatures.lent.index(m[1]) + 1 + len(signatures.lent) * (int(m[2] or 1) - 1)
            block = 'same-length' + (f'-{number}' if number > 1 else '') + block[m.end():]

        def put(m):
            """The place of one area."""
            parameters = signatures.called(m[1], block) or []
            if m[3] not in parameters:
                raise SystemExit(f'{m[1]} has no parameter {m[3]}: {block[:80]}')
            return f'{m[1]} .{m[2]}' + ' .1' * parameters.index(m[3]) + ' .0'

        found.append(NAMED.sub(put, block))
    return '\n'.join(found)


def main():
    """Names or places."""
    parser = argparse.ArgumentParser(description=__doc__, formatter_class=argparse.RawDescriptionHelpFormatter)
    parser.add_argument('step', choices=['name', 'place'])
    parser.add_argument('crate')
    parser.add_argument('function')
    parser.add_argument('file', nargs='?', type=pathlib.Path)
    parser.add_argument('--gen', default='target/gen')
    asked = parser.parse_args()
    signatures = Signatures(asked.crate, asked.function.split('/')[-1])
    if asked.step == 'name':
        print(named(proof(asked.crate, asked.function).read_text(), signatures))
    else:
        head, body = asked.file.read_text().split('====\n', 1)
        fill.write(asked.crate, asked.function, paths.load(asked.gen, asked.crate, asked.function), head, placed(body, signatures))


if __name__ == '__main__':
    main()
