"""The functions of crates/*/src/*.rt as they are written: signature, contract, comment and body. Read by the scripts beside it, from the top of the repository."""
import collections
import pathlib
import re

# parameters are pairs of name and type; result is a type or ''; requires and ensures are the texts between a clause's brackets, named or not
Function = collections.namedtuple('Function', 'crate name public exported comment parameters result requires ensures body')

HEAD = re.compile(r'(?P<public>\bpub )?(?P<exported>extern "C" )?\bfn (?P<name>\w+)(?:<[^>]*>)?\(')
RESULT = re.compile(r'\s*->\s*')
CLAUSE = re.compile(r'\s*(requires|ensures)\b[^{]*\{')


def closing(text, start):
    """The place of the bracket that closes the one at start."""
    depth = 0
    for at in range(start, len(text)):
        depth += text[at] in '([{'
        depth -= text[at] in ')]}'
        if depth == 0:
            return at
    raise ValueError(text[start:start + 80])


def parts(text, marks=','):
    """What the marks, each of one letter, part outside of brackets."""
    found, depth, part = [], 0, ''
    for ch in text:
        depth += ch in '([{'
        depth -= ch in ')]}'
        if ch in marks and depth == 0:
            found.append(part.strip())
            part = ''
        else:
            part += ch
    return [p for p in found + [part.strip()] if p]


# a comment, a string or a character; a lifetime is none of them
ASIDE = re.compile(r"""//[^\n]*|b?"(?:\\.|[^"\\])*"|b?'(?:\\.[^']*|[^'\\])'""", re.S)


def without_comments(text):
    """The text with blanks for comments and for the marks in strings, so that every place stays and every bracket is one of the code."""
    return ASIDE.sub(lambda m: re.sub(r'[^\n]' if m.group().startswith('//') else r'[^\w\s"]', ' ', m.group()), text)


def comment_above(text, at):
    """The comment that ends on the line before the one that at stands in, attributes left out."""
    said = []
    for line in reversed(text[:text.rfind('\n', 0, at) + 1].splitlines()):
        if line.startswith('//'):
            said.insert(0, line[2:].strip())
        elif not line.startswith('#['):
            break
    return ' '.join(said)


def sources():
    """Crate and raw text of each file."""
    for path in sorted(pathlib.Path('crates').glob('*/src/*.rt')):
        yield path.parts[1], path.read_text()


def is_library(crate):
    return pathlib.Path('crates', crate, 'src', 'lib.rt').exists()


def functions():
    """Each function, by crate::name."""
    found = {}
    for crate, raw in sources():
        text = without_comments(raw)
        for m in HEAD.finditer(text):
            end = closing(text, m.end() - 1)
            parameters = [p.split(':', 1) for p in parts(text[m.end():end]) if ':' in p]
            at, result = end + 1, ''
            if arrow := RESULT.match(text, at):
                at = arrow.end()
                stop = re.compile(r'\s*\b(?:requires|ensures)\b|\s*\{').search(text, at)
                result, at = text[at:stop.start()].strip(), stop.start()
            clauses = collections.defaultdict(list)
            while clause := CLAUSE.match(text, at):
                at = closing(text, clause.end() - 1) + 1
                clauses[clause.group(1)].append(text[clause.end():at - 1].strip())
            body = text.index('{', at)
            found[f'{crate}::{m["name"]}'] = Function(
                crate, m['name'], m['public'] is not None, m['exported'] is not None, comment_above(raw, m.start()),
                [(name.replace('mut ', '').strip(), kind.strip()) for name, kind in parameters],
                result, clauses['requires'], clauses['ensures'], text[body:closing(text, body) + 1])
    return found


def fields():
    """The fields of each struct, by crate and name, under each crate that has it or takes it by a `use`."""
    found, taken = {}, []
    for crate, raw in sources():
        text = without_comments(raw)
        for m in re.finditer(r'\bstruct (\w+)\s*\{', text):
            body = text[m.end():closing(text, m.end() - 1)]
            found[crate, m.group(1)] = [p.split(':')[0].replace('pub ', '').strip() for p in parts(body)]
        taken += [(crate, m.group(1), name.strip()) for m in re.finditer(r'^use (\w+)::\{?([\w,\s]+)\}?;', text, re.M) for name in m.group(2).split(',')]
    for crate, other, name in taken:
        if (other, name) in found:
            found[crate, name] = found[other, name]
    return found


def is_slice(kind):
    return re.match(r"&(?:'\w+ )?(?:mut )?\[", kind) is not None
