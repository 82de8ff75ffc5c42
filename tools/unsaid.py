#!/usr/bin/env python3
"""What the contracts of public functions leave unsaid.

usage: tools/unsaid.py [KIND]     from the top of the repository; without one: all kinds

The house rule: each public function equates what it returns and what every area then holds, or says in its contract what is open. Read are the public functions
(`pub fn`, `pub extern "C" fn`) of the library crates, each with its `requires` and `ensures`. A line a finding, by kind:

  contract   it has no `ensures` at all (it has no line under the next three kinds)
  result     no `ensures` names the result in an equation or a record: it stands nowhere, or in a bound, in its length, or before an arrow alone
  fields     the result is a struct of which some fields stand in an equation or a record, and the ones listed do not
  area       a `&mut` parameter whose `.new` no `ensures` mentions, or whose length alone one mentions; `Open` (crates/order/specs/Open.antt) says that it is open
  open       not a finding: the `&mut` parameters that an `Open` names (a record of specs/ may have more)
  requires   it asks something of its caller
  own        no other crate calls it, and C does not: it could be private

`(comment)` behind a finding: the comment above the function says that something is open, which its contract does not.
A record may say little: that is not looked into."""
import re
import sys

sys.dont_write_bytecode = True
from rattle_source import fields, functions, is_library, parts, sources, without_comments

KINDS = 'contract', 'result', 'fields', 'area', 'open', 'requires', 'own'
OPEN = re.compile(r'\b(?:not|nothing is) said\b')
WORD = r"(?<![\w«.'-])«?{}»?(?![\w'-])"


def word(name):
    return re.compile(WORD.format(re.escape(name)))


def unfolded(text):
    """A clause without its `let`s, each put in where its name stands."""
    while m := re.match(r'\s*let\s+(\S+)\s*=', text):
        depth, at = 0, m.end()
        while depth or not re.match(r'\bin\b', text[at:]) or not text[at - 1].isspace():
            depth += text[at] in '(['
            depth -= text[at] in ')]'
            at += 1
        value = f'({text[m.end():at].strip()})'
        text = word(m.group(1)).sub(lambda _: value, text[at + 2:])
    return text


def bare(text):
    """Without brackets that hold the whole."""
    text = text.strip()
    while text.startswith('('):
        depth = 0
        for at, ch in enumerate(text):
            depth += ch in '(['
            depth -= ch in ')]'
            if depth == 0:
                break
        if at != len(text) - 1:
            break
        text = text[1:-1].strip()
    return text


def claims(text):
    """What a clause claims, part by part, and what stands before its arrows: pairs of a kind and a text."""
    text = bare(text)
    *premises, last = parts(text, '→') or ['']
    for premise in premises:
        yield 'premise', premise
    pieces = parts(last, '×⊎↔')
    if premises or len(pieces) > 1:
        for piece in pieces:
            yield from claims(piece)
        return
    outside = re.sub(r'\s', ' ', last)
    for _ in range(outside.count('(')):
        outside = re.sub(r'\([^()]*\)', '', outside)
    yield 'equation' if '≡' in outside else 'bound' if re.search('[≤<]', outside) else 'record', last


def ensured(f):
    """The claims of each `ensures`."""
    for clause in f.ensures:
        yield list(claims(unfolded(clause)))


def of_result(f, structs):
    """Findings on the result: its kind and the words."""
    how, told, whole = set(), set(), False
    for said in ensured(f):
        for kind, text in said:
            for m in word('result').finditer(text):
                if kind in ('premise', 'bound'):
                    how.add({'premise': 'before an arrow', 'bound': 'in a bound'}[kind])
                elif re.search(r'\blength\s*\(*$', text[:m.start()]):
                    how.add('in its length')
                elif field := re.match(r'\.«?(\w+)»?', text[m.end():]):
                    told.add(field.group(1))
                else:
                    whole = True
    if whole:
        return
    if not told:
        yield 'result', f'{f.result}: only {", ".join(sorted(how))}' if how else f'{f.result}: nowhere'
    else:
        *crate, name = f.result.split('::')
        if untold := [x for x in structs.get((crate[0] if crate else f.crate, name), []) if x not in told]:
            yield 'fields', f'{f.result}: {", ".join(untold)}'


def lent(f):
    """The `&mut` parameters."""
    return [name for name, kind in f.parameters if re.match(r"&(?:'\w+ )?mut\b", kind)]


def of_open(f):
    """Those that an `Open` names."""
    text = ' '.join(f.ensures)
    return [name for name in lent(f) if re.search(rf'\bOpen «?{name}»?\.old\b', text)]


def of_areas(f):
    """The `&mut` parameters of which nothing is said."""
    for name in lent(f):
        leaves = re.compile(WORD.format(re.escape(name)) + r'\.new\b')
        before = [text[:m.start()] for said in ensured(f) for _, text in said for m in leaves.finditer(text)]
        if not before:
            yield name
        elif all(re.search(r'\blength\s*\(*$', b) for b in before):
            yield f'{name} (its length alone)'


def callers(f, everything, texts):
    """Whether another crate's code names it, and whether its own calls it."""
    named = re.compile(rf'\b{f.crate}::(?:\{{[^}}]*\b)?{f.name}\b')
    call = re.compile(rf'(?<!::)\b{f.name}\(')
    return (any(named.search(text) for crate, text in texts if crate != f.crate),
            any(call.search(g.body) for g in everything.values() if g.crate == f.crate))


def main():
    wanted = sys.argv[1:] or KINDS
    if any(kind not in KINDS for kind in wanted):
        sys.exit(__doc__)
    everything, structs = functions(), fields()
    texts = [(crate, without_comments(raw)) for crate, raw in sources()]
    public = {name: f for name, f in everything.items() if f.public and is_library(f.crate)}
    found = {kind: [] for kind in KINDS}
    for name, f in public.items():
        mark = ' (comment)' if OPEN.search(f.comment) else ''
        if not f.ensures:
            found['contract'].append(name + mark)
        else:
            for kind, what in of_result(f, structs) if f.result else ():
                found[kind].append(f'{name} -> {what}{mark}')
            if areas := list(of_areas(f)):
                found['area'].append(f'{name}: {", ".join(areas)}{mark}')
            if areas := of_open(f):
                found['open'].append(f'{name}: {", ".join(areas)}')
        if f.requires:
            found['requires'].append(f'{name}: {len(f.requires)} of them')
        outside, inside = callers(f, everything, texts)
        if not outside and not f.exported:
            found['own'].append(name if inside else f'{name} (nor does its own)')
    for kind in wanted:
        print(f'{kind}:')
        for line in found[kind]:
            print(f'    {line}')
    print(f'{len(public)} public functions; ' + ', '.join(f'{kind} {len(found[kind])}' for kind in wanted))


main()
