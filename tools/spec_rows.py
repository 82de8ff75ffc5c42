#!/usr/bin/env python3
"""Holds docs/SPEC.md against the definitions under crates/*/specs/ and the contracts that cite them.

usage: tools/spec_rows.py [answer]     from the top of the repository; where all is well it prints one line, else what is wrong, and ends with 1

Each file that a public contract cites, or that a definition cited there unfolds to, must have a row. Each link must lead to a file. The mark ● must stand before
the files that the query's answer unfolds to (`trace_of` and `Traced` of query/specs/Trace), and before no other. Definitions are followed by their names, through
the `use` lines of their files; a name that a binder hides counts as used, so that a file too many may be marked and none too few.
With `answer` it lists the definitions that the query's answer unfolds to, a line a file."""
import pathlib
import re
import sys

sys.dont_write_bytecode = True
from rattle_source import functions, is_library, sources

MARK = '● '
USE = re.compile(r'^\s*(pub )?(?:ghost )?use Rattle\.(\w+)\.specs\.(\w+)(?:\.\{([^}]*)\}| as (\w+)|$)', re.M)
START = re.compile(r'(\s*)(?:(?:abbrev|unfoldable|opaque|pub) )+(?:record |data )?([^\s{]+)')
TOKEN = re.compile(r'(?:([\w-]+)\.)?([^\s(){}\[\],;.«»|]+)')


class File:
    """The definitions of a file, what its names mean, and the modules that it has under another name."""

    def __init__(self, text):
        text = re.sub(r'--.*', '', text)
        self.names, self.handed_on, self.modules, self.definitions = {}, {}, {}, {}
        for handed_on, crate, file, names, alias in USE.findall(text):
            if alias:
                self.modules[alias] = (crate, file)
            for name in filter(None, (n.strip() for n in names.split(','))):
                own, _, other = name.partition(' as ')
                self.names[other or own] = ((crate, file), own)
                if handed_on:
                    self.handed_on[other or own] = ((crate, file), own)
        name, depth = None, 0
        for line in re.sub(r'^\s*(?:pub )?use .*', '', text, flags=re.M).splitlines():
            m = START.match(line)
            if m and (name is None or len(m.group(1)) <= depth or not line.strip().startswith('pub ')):
                name, depth = m.group(2), len(m.group(1))
            if name:
                self.definitions[name] = self.definitions.get(name, '') + line + '\n'
        # the variants of a `data` mean the whole
        self.variants = {v: name for name, body in self.definitions.items() if re.match(r'\s*pub data', body)
                         for v in re.findall(r'^\s+(?:pub )?([^\n:]*?) :', body, re.M) for v in v.split()}


def resolve(files, file, name):
    """Where a name of a file is defined."""
    while file in files:
        f = files[file]
        if name in f.definitions:
            return file, name
        if name in f.variants:
            return file, f.variants[name]
        if name not in f.handed_on:
            return None
        file, name = f.handed_on[name]
    return None


def cited(files, text, names, modules, own=None):
    """The definitions that a text names; of `r.f` the record may be one, and the field is looked up as a name."""
    for module, name in TOKEN.findall(text):
        for word in filter(None, (module, name)):
            found = None
            if word == name and module in modules:
                found = resolve(files, modules[module], name)
            if not found and own:
                found = resolve({own: files[own]}, own, word)
            if not found and word in names:
                found = resolve(files, *names[word])
            if found:
                yield found


def unfolded(files, starts):
    """The definitions that some unfold to, themselves among them."""
    seen, todo = set(), list(starts)
    while todo:
        at = todo.pop()
        if at not in seen:
            seen.add(at)
            f = files[at[0]]
            todo += cited(files, f.definitions[at[1]], f.names, f.modules, at[0])
    return seen


def public_citations(files):
    """The definitions that contracts of public functions name."""
    everything = functions()
    for crate, raw in sources():
        head = File(raw)
        for f in everything.values():
            if f.crate == crate and f.public and is_library(crate):
                yield from cited(files, ' '.join(f.requires + f.ensures), head.names, head.modules)


def main():
    files = {(p.parts[1], p.stem): File(p.read_text()) for p in pathlib.Path('crates').glob('*/specs/*.antt')}
    trace = ('query', 'Trace')
    parts = unfolded(files, [(trace, 'trace_of'), (trace, 'Traced')])
    answer = {file for file, _ in parts}
    if sys.argv[1:] == ['answer']:
        for crate, file in sorted(answer):
            print(f'{crate}/{file}:', *(name for name in files[crate, file].definitions if ((crate, file), name) in parts))
        print(f'{len(parts)} of {sum(len(f.definitions) for (_, file), f in files.items() if file != "Lib")} definitions, in {len(answer)} files')
        return 0
    public = {file for file, _ in unfolded(files, public_citations(files))}
    text = pathlib.Path('docs/SPEC.md').read_text()
    rows = {(crate, file): bool(mark) for mark, crate, file in re.findall(rf'({MARK})?\[[^]]*\]\(\.\./crates/(\w+)/specs/(\w+)\.antt\)', text)}
    wrong = [f'no row: {c}/{f}' for c, f in sorted(public - set(rows))]
    wrong += [f'no such file: {link}' for link in re.findall(r'\]\(([^)#]*)[^)]*\)', text) if not pathlib.Path('docs', link).exists()]
    wrong += [f'{"the mark is missing" if r in answer else "a mark too many"}: {r[0]}/{r[1]}' for r in sorted(rows) if rows[r] != (r in answer)]
    print('\n'.join(wrong + [f'{len(rows)} files have a row, {sum(rows.values())} of them a mark; {len(wrong)} wrong']))
    return 1 if wrong else 0


sys.exit(main())
