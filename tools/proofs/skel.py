#!/usr/bin/env python3
"""Writes each proof file that a check offers and that is not there.

usage: ../../tools/proofs/skel.py OUT     from the crate's folder; OUT is what `rt check > OUT 2>&1` wrote there

Of a function that the check cannot prove by itself it prints what to answer: 'help: write PATH with these lines', and the lines,
indented. Files that are there stay as they are."""
import pathlib
import re
import sys


def offered(lines):
    """Each file that is offered, with its lines."""
    path, body = None, []
    for line in lines:
        head = re.match(r'help: write (\S+) with these lines', line)
        if path and (head or line.strip() and not line.startswith('    ')):
            yield path, body
            path, body = None, []
        if head:
            path = head[1]
        elif path:
            body.append(line[4:].rstrip())
    if path:
        yield path, body


def main():
    """Writes what is offered and not there."""
    for name, body in offered(pathlib.Path(sys.argv[1]).read_text(errors='replace').split('\n')):
        path = pathlib.Path(name)
        if not path.exists():
            path.parent.mkdir(parents=True, exist_ok=True)
            path.write_text('\n'.join(body).rstrip() + '\n')
            print('wrote', path)


if __name__ == '__main__':
    main()
