#!/usr/bin/env python3
"""A hole for each function of a crate that has no proof file, so that a check writes its goals and searches for nothing. For the older kit (README.md).

usage: tools/proofs/stub.py CRATE     from the top of the repository"""
import sys

sys.dont_write_bytecode = True
from crate import folders, module, proof, theorem

MARK = '-- stub'


def main():
    """Writes the holes."""
    crate = sys.argv[1]
    for folder in folders(crate):
        path, name = proof(crate, folder), theorem(folder)
        if not path.exists():
            path.parent.mkdir(parents=True, exist_ok=True)
            path.write_text(f'{MARK}\nuse {module(crate, folder)}.Statement.{{statement}}\n\npub {name} : {{M : Type 1}} → statement M\n{name} = ?\n')
            print('wrote', path)


if __name__ == '__main__':
    main()
