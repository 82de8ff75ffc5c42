#!/usr/bin/env python3
"""Tries must-fail edits by the quick loop, each over the crate itself, which is put back.

usage: tools/proofs/edits.py CRATE [EDIT FILE]..     from the top of the repository; without files: all of crates/CRATE/must-fail

A line an edit: whether `rt check` refused it, the seconds, the function that is not proved and what is said of it first. The verdict is `rt must-fail`."""
import pathlib
import subprocess
import sys
import time


def read(path):
    """File, old and new text of each pair of an edit, in order."""
    file, old, pairs = '', '', []
    for line in path.read_text().split('\n'):
        if line.startswith('file: '):
            file = line[6:]
        elif line.startswith('old: '):
            old = line[5:]
        elif line.startswith('new:'):
            pairs.append((file, old, line[4:].removeprefix(' ')))
    return pairs


def tried(crate, path):
    """What `rt check` says of the edited crate."""
    folder = pathlib.Path('crates', crate)
    kept = {file: (folder / file).read_text() for file, _, _ in read(path)}
    made = dict(kept)
    for file, old, new in read(path):
        if made[file].count(old) != 1:
            raise SystemExit(f'{path}: {made[file].count(old)} places have the old text')
        made[file] = made[file].replace(old, new)
    try:
        for file, text in made.items():
            (folder / file).write_text(text)
        return subprocess.run(['rt', 'check'], cwd=folder, capture_output=True, text=True)
    finally:
        for file, text in kept.items():
            (folder / file).write_text(text)


def main():
    """Tries each edit."""
    crate, *files = sys.argv[1:]
    for path in map(pathlib.Path, files) if files else sorted(pathlib.Path('crates', crate, 'must-fail').glob('*.edit')):
        start = time.time()
        run = tried(crate, path)
        lines = (run.stdout + run.stderr).split('\n')
        refused = run.returncode and any('logic=not-proved' in line for line in lines)
        function = next((line for line in lines if line.startswith('fn ') and ('not proved' in line or 'no proof' in line)), '')
        error = next((line for line in lines if 'error' in line or 'it is not proved that' in line), '')
        print(path.name, 'refused' if refused else f'NOT REFUSED, status {run.returncode}', f'{time.time() - start:.0f} s', function[:60], error[:200], sep=' | ', flush=True)


if __name__ == '__main__':
    main()
