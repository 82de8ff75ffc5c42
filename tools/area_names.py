#!/usr/bin/env python3
"""The names that each lent area has on the way from a function to the last ones that are lent it.

usage: tools/area_names.py [CRATE::FUNCTION ..]     from the top of the repository; without one: query::trace_early_reflections

Signatures and calls of crates/*/src/*.rt are read: a parameter that is a slice is followed through every call that lends it, whole or in part.
For each area, a line for each name that it has with the functions that use the name. docs/AREAS.md says which names those may be."""
import collections
import re
import sys

sys.dont_write_bytecode = True
from rattle_source import closing, functions, is_slice, parts


def lends(found):
    """For each function the callees and what each is handed."""
    calls = collections.defaultdict(list)
    for name, f in found.items():
        for m in re.finditer(r'\b((?:\w+::)?\w+)\(', f.body):
            callee = m.group(1) if '::' in m.group(1) else f'{f.crate}::{m.group(1)}'
            if callee in found:
                calls[name].append((callee, parts(f.body[m.end():closing(f.body, m.end() - 1)])))
    return calls


def lent(argument):
    """The area that an argument lends, whole or in part."""
    m = re.match(r'(?:&(?:mut )?)?(\w+)(?:\[.*\])?$', argument, re.S)
    return m and m.group(1)


def main():
    found = functions()
    calls = lends(found)
    for top in sys.argv[1:] or ['query::trace_early_reflections']:
        for area, kind in found[top].parameters:
            if not is_slice(kind):
                continue
            names, todo, seen = collections.defaultdict(set), [(top, area)], set()
            while todo:
                function, name = todo.pop()
                if (function, name) in seen:
                    continue
                seen.add((function, name))
                names[name].add(function)
                for callee, arguments in calls[function]:
                    for (parameter, lends_as), argument in zip(found[callee].parameters, arguments):
                        if is_slice(lends_as) and lent(argument) == name:
                            todo.append((callee, parameter))
            print(area)
            for name, users in sorted(names.items(), key=lambda item: -len(item[1])):
                print(f'    {name}: {" ".join(sorted(users))}')


main()
