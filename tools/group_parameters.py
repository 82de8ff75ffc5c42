#!/usr/bin/env python3
"""group_parameters.py TOP SPEC.json: parameters that travel together become one struct.
SPEC: {"var": "bvh", "type": "&FlatBvh", "now": ".now", "fields": {"padded": "padded", "nodes": "nodes", "nodes_count": "count", ...old parameter -> field},
       "scalars": ["count"], "functions": {"tree_trace": ["trace", ...]}, "alias": {"crate::f": {"count": "count"}}}"""
import re, sys, json
top, spec = sys.argv[1], json.load(open(sys.argv[2]))
var, typ, now = spec['var'], spec['type'], spec['now']
default = spec['fields']
def w(n): return r'(?<![\w.])' + n + r'(?![\w(]|:(?!:))'
def split_params(s):
    out, depth, cur = [], 0, ''
    for ch in s:
        if ch in '([<': depth += 1
        if ch in ')]>': depth -= 1
        if ch == ',' and depth == 0:
            out.append(cur.strip()); cur = ''
        else: cur += ch
    if cur.strip(): out.append(cur.strip())
    return out
todo = {(c, f) for c, fs in spec['functions'].items() for f in fs} | {tuple(x.split('::')) for x in spec.get('calls', [])}
scalars = set(spec.get('scalars', []))
fields_of = lambda c, f: {**default, **spec.get('alias', {}).get(f'{c}::{f}', {})}
import os
for crate in sorted(os.listdir(top + '/crates')):
    for base in ('lib', 'main'):
        path = f'{top}/crates/{crate}/src/{base}.rt'
        if not os.path.exists(path): continue
        text = open(path).read(); old = text
        # functions of this crate in the group
        for f in spec['functions'].get(crate, []):
            F = fields_of(crate, f)
            m = re.search(r'^((?:pub(?:\(crate\))? )?fn ' + f + r'\()(.*?)(\)(?: -> [^\n{]*?)?)((?:\n    (?:requires|ensures).*?)?)\n?\{\n(.*?)\n\}$', text, re.S | re.M)
            if not m: sys.exit(f'{crate}::{f} not found')
            head, params, tail, clauses, body = m.groups()
            ps = split_params(params)
            names = [p.split(':')[0].strip() for p in ps]
            present = [n for n in names if n in F]
            k = names.index(present[-1]) - len(present) + 1
            new = [p for p in ps if p.split(':')[0].strip() not in F]
            new.insert(k, f'{var}: {typ}')
            for n in present:
                ref = f'{var}{now}.{F[n]}'
                clauses = re.sub(w(n), ref, clauses)
                body = re.sub(w(n), f'{var}.{F[n]}', body)
            text = text[:m.start()] + head + ', '.join(new) + tail + clauses + '\n{\n' + body + '\n}' + text[m.end():]
        # calls of functions in the group, from anywhere in this crate
        for (c, f) in todo:
            pat = (r'(?<![\w:])' + f + r'\(') if c == crate else (r'(?<!\w)' + c + '::' + f + r'\(')
            out, at = '', 0
            for m in list(re.finditer(pat, text)):
                if text[max(0, m.start() - 3):m.start()] == 'fn ' or m.start() < at: continue
                d, e = 1, m.end()
                while d: d += {'(': 1, ')': -1}.get(text[e], 0); e += 1
                args = split_params(text[m.end():e - 1])
                F = fields_of(c, f)
                fl = list(dict.fromkeys(F.values()))
                hits = [i for i, a in enumerate(args) if re.fullmatch(re.escape(var) + r'\.(\w+)', a) and a.split('.')[1] in fl]
                if not hits: continue
                args2 = [a for i, a in enumerate(args) if i not in hits]
                args2.insert(hits[-1] - len(hits) + 1, var)
                out += text[at:m.end()] + ', '.join(args2) + ')'
                at = e
            text = out + text[at:]
        if text != old: open(path, 'w').write(text)
    for f in spec['functions'].get(crate, []):
        F = fields_of(crate, f)
        for d in (f, '+' + spec.get('cycle', {}).get(f'{crate}::{f}', f)):
            for n in ('Answers', 'Invariants'):
                p = f'{top}/crates/{crate}/proofs/{d}/{n}.antt'
                if not os.path.exists(p): continue
                t = open(p).read(); o = t
                for name, fld in F.items():
                    t = re.sub(r'(?<![\w.])((?:c\.args|a|args)\.)' + name + r'(?![\w-])', lambda m: m.group(1) + var + now + '.' + fld, t)
                    behind = '' if fld in scalars else '.now'
                    t = re.sub(r'(?<![\w.])((?:l\.fn|l|c\.[\w-]*loop[\w-]*)\.)' + name + r'(?![\w-])', lambda m: m.group(1) + var + '.' + fld + behind, t)
                if t != o: open(p, 'w').write(t)
