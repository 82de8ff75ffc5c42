#!/usr/bin/env python3
"""quick_check.py CHECKOUT CRATE [options of rattle check]: checks CRATE with each crate below it taken as source, whether proved or not.

For one function: --only CRATE::f --allow-holes --incremental DIR. Law files that no asked function cites are not read: rt check does that."""
import sys, subprocess, os
top, name, rest = os.path.abspath(sys.argv[1]), sys.argv[2], sys.argv[3:]
deps, static = {}, set()
for line in open(top + '/crates.txt'):
    line = line.split('#')[0].strip()
    if not line: continue
    left, right = line.split(':')
    w = left.split()
    if 'staticlib' in w: static.add(w[0])
    deps[w[0]] = right.split()
own = [d for d in deps]
below = []
def walk(n):
    for d in deps.get(n, []):
        if d in deps:
            if d not in below:
                walk(d); below.append(d)
walk(name)
def root(n):
    p = f'{top}/crates/{n}/src/lib.rt'
    return p if os.path.exists(p) else f'{top}/crates/{n}/src/main.rt'
K = '/opt/rattle/rlibs'
cmd = ['rattle', 'check', '--crate-name', name, '--antt-project', '/opt/rattle/rattle/logic/antt-project.json', '--logic-built', '/opt/rattle/logic_built']
for d in below:
    uses = ['std'] + [x for x in deps[d]]
    cmd += ['--lib', f'{d}:{",".join(uses)}={root(d)}']
kit = set()
for d in below + [name]:
    for x in deps[d]:
        if x not in deps: kit.add(x)
for k in ['std'] + sorted(kit):
    cmd += ['--extern', f'{k}={K}/{k}.rlib']
cmd += ['-L', f'dependency={K}']
if name in static: cmd += ['--crate-type', 'staticlib']
cmd += rest + [root(name)]
if os.environ.get('QC_SHOW'): print(' '.join(cmd))
sys.exit(subprocess.call(cmd, cwd=f'{top}/crates/{name}'))
