#!/usr/bin/env python3
"""What a check said, cut to goals, errors and verdicts.

usage: tools/proofs/show.py OUT [LINES] [REGEX]     OUT is what `rt check > OUT 2>&1` wrote in the crate's folder, with --allow-holes or without

Of each goal or error LINES lines (12) are printed, with the long prefixes of names left out; only those whose first line matches REGEX."""
import pathlib
import re
import sys

PREFIX = re.compile(r'\b(lib\.(Ieee|ListN|Seq|Dec)\.|Prim\.Native\.Nat\.|mathlib\.Core\.\w+\.|native\.Mathlib\.\w+\.|borrow\.\w+\.\w+\.|mir\.\w+\.|denote\.\w+\.'
                    r'|Rattle\.std\.(specs|proofs)\.\w+\.|Rattle\.\w+\.(specs|proofs)\.)')
HEAD = re.compile(r'^(\./)?(src|specs|proofs)/\S*\.(antt|rt):.*(goal|error|unsolved)|^note: `\S+` of proofs/\S+ (must prove|may be false)')
VERDICT = re.compile(r'^(fn|logic=|holes=|crate|rattle:)')
WIDE, NARROW = 600, 160


def shortened(lines, limit, pattern):
    """The lines that are worth reading."""
    left = 0
    for line in lines:
        if HEAD.match(line):
            left = limit if re.search(pattern, line) else 0
            if left:
                yield '■ ' + PREFIX.sub('', line)[:WIDE]
        elif VERDICT.match(line):
            left = 0
            yield line[:NARROW]
        elif 'computed from' in line:
            left = 0
        elif left and line.startswith(' '):
            left -= 1
            yield PREFIX.sub('', line)[:WIDE]


def main():
    """Prints them."""
    out, limit, pattern = (sys.argv[1:] + ['12', ''][len(sys.argv) - 2:])[:3]
    for line in shortened(pathlib.Path(out).read_text(errors='replace').split('\n'), int(limit), pattern):
        print(line)


if __name__ == '__main__':
    main()
