#!/usr/bin/env python3
"""Turns proofs of the older form (proofs/F/Proof.antt over `tie`) into Invariants.antt and Answers.antt.

usage: port_answers.py NAMES CRATE [FUNCTION..]

NAMES is the names.json that `rt check --generated DIR --old-names` writes, CRATE the crate's folder.
It prints what it could not turn. The old file is moved to /tmp/old-proofs/CRATE/F.antt.
"""
import json, os, re, sys, glob

WORDCH = r"[^\s(){}.;,@\"«»\[\]]"
TOK = re.compile(r'--[^\n]*|"(?:[^"\\]|\\.)*"|«[^»]*»|\s+|[(){}.;,@\[\]]|' + WORDCH + r'+')

def norm(s):
    return s.replace('_', '-')

def toks(text):
    return TOK.findall(text)

# ---------------------------------------------------------------- contracts of all crates: function -> clause names
def clause_names(root):
    out = {}
    for p in glob.glob(os.path.join(root, 'crates', '*', 'src', '**', '*.rt'), recursive=True):
        rel = os.path.relpath(p, os.path.join(root, 'crates'))
        parts = rel.split(os.sep)
        crate, mods = parts[0], parts[2:]
        mods = [m[:-3] for m in mods if m not in ('lib.rt', 'main.rt', 'mod.rt')]
        text = open(p, encoding='utf-8').read()
        text = re.sub(r'//[^\n]*', '', text)
        for m in re.finditer(r'\bfn\s+(\w+)', text):
            # the head: up to the body's brace that is not a clause
            i = m.end()
            req, ens = [], []
            pos = i
            # find end of parameters
            depth = 0
            j = text.find('(', i)
            if j < 0: continue
            k = j
            while k < len(text):
                if text[k] == '(': depth += 1
                elif text[k] == ')':
                    depth -= 1
                    if depth == 0: break
                k += 1
            params = text[j+1:k]
            pos = k + 1
            while True:
                mm = re.compile(r'[^{;]*?\b(requires|ensures|ghost)\b\s*(\*?)\s*(\w+)?\s*:?\s*\{').match(text, pos)
                if not mm: break
                # nothing like a body between
                between = text[pos:mm.end()-1]
                d, q = 0, mm.end() - 1
                while q < len(text):
                    if text[q] == '{': d += 1
                    elif text[q] == '}':
                        d -= 1
                        if d == 0: break
                    q += 1
                (req if mm[1] == 'requires' else ens if mm[1] == 'ensures' else []).append(mm[3] or '')
                pos = q + 1
            pn = [x for x in re.findall(r'(?:^|,|\()\s*(?:mut\s+)?(\w+)\s*:(?!:)', '(' + params)]
            if re.search(r'\bself\b', params.split(',')[0]): pn = ['self'] + [x for x in pn if x != 'self']
            key = '::'.join([crate] + mods + [m[1]])
            # methods: Type::name too
            out.setdefault(key, dict(req=req, ens=ens, params=pn))
            out.setdefault(crate + '::*::' + m[1], dict(req=req, ens=ens, params=pn))
    return out

def lookup(contracts, name):
    if name is None: return None
    if name in contracts: return contracts[name]
    parts = name.split('::')
    return contracts.get(parts[0] + '::*::' + parts[-1])

# ---------------------------------------------------------------- the old file in blocks
class Decl: pass

def blocks(text):
    lines = text.split('\n')
    res, pending = [], []
    i = 0
    def is_start(l): return l and not l[0].isspace() and not l.startswith('--')
    while i < len(lines):
        l = lines[i]
        if not l.strip():
            if pending and not res and all(x.startswith('--') for x in pending):
                pass
            pending.append(l); i += 1; continue
        if l.startswith('--'):
            pending.append(l); i += 1; continue
        chunk = [l]; i += 1
        def depth(x):
            x = re.sub(r'--[^\n]*', '', x)
            return sum(x.count(k) for k in '({[') - sum(x.count(k) for k in ')}]')
        dep = depth(l)
        while i < len(lines) and (dep > 0 or not lines[i].strip() or lines[i][0].isspace() or lines[i][0] in ')}]'):
            if not lines[i].strip():
                j = i
                while j < len(lines) and not lines[j].strip(): j += 1
                if j < len(lines) and (dep > 0 or lines[j][0].isspace()):
                    chunk.append(lines[i]); i += 1; continue
                break
            dep += depth(lines[i])
            chunk.append(lines[i]); i += 1
        res.append((pending, '\n'.join(chunk)))
        pending = []
    return res, pending

def head_name(chunk):
    m = re.match(r"(?:(?:abbrev|unfoldable|pub|private|opaque)\s+)*([^\s(){}:;,]+)", chunk)
    return m[1] if m else None

def is_sig(chunk):
    # NAME args : TYPE with ':' before any '=' at depth 0
    d = 0
    first = re.match(r"(?:(?:abbrev|unfoldable|pub|private|opaque)\s+)*", chunk).end()
    for t in re.finditer(r'[(){}\[\]]|(?<=\s)[:=](?=\s)|(?<=\s)[:=]$', chunk[first:], re.M):
        c = t[0]
        if c in '({[': d += 1
        elif c in ')}]': d -= 1
        elif d == 0: return c == ':'
    return False

def parse(text):
    bl, tail = blocks(text)
    uses, decls, header = [], [], []
    i = 0
    while i < len(bl):
        pend, ch = bl[i]
        com = [x for x in pend if x.strip()]
        if ch.startswith('use ') or ch.startswith('pub use ') or ch.startswith('open ') or ch.startswith('mod '):
            if not uses and not decls: header = com; com = []
            uses.append(ch); i += 1; continue
        if not uses and not decls and not header: header = com; com = []
        d = Decl(); d.comment = com; d.sig = ''; d.unf = []; d.defs = []; d.rec = ''
        if re.match(r'(pub\s+)?(record|data)\b', ch):
            d.rec = ch; d.name = re.match(r'(?:pub\s+)?(?:record|data)\s+(\S+)', ch)[1]; i += 1
            decls.append(d); continue
        d.name = head_name(ch)
        if ch.startswith('unfolding '):
            d.unf.append(ch); i += 1
            pend, ch = bl[i]; d.name = head_name(ch)
        if is_sig(ch):
            d.sig = ch; i += 1
            if i < len(bl) and bl[i][1].startswith('unfolding '):
                d.unf.append(bl[i][1]); i += 1
            while i < len(bl) and not is_sig(bl[i][1]) and head_name(bl[i][1]) == d.name:
                d.defs.append(bl[i][1]); i += 1
            # infix definitions and the like
            if not d.defs and i < len(bl) and not is_sig(bl[i][1]) and not bl[i][1].startswith('use '):
                d.defs.append(bl[i][1]); i += 1
        else:
            d.defs.append(ch); i += 1
        decls.append(d)
    return header, uses, decls, [x for x in tail if x.strip()]

def split_args(text):
    """Top-level arguments of an application."""
    args, cur, depth = [], '', 0
    for t in toks(text):
        if t.isspace() and depth == 0:
            if cur: args.append(cur); cur = ''
            continue
        if t.startswith('--'): continue
        if t in '({[' and len(t) == 1: depth += 1
        if t in ')}]' and len(t) == 1: depth -= 1
        cur += t
    if cur: args.append(cur)
    return args

# ---------------------------------------------------------------- turning one function
class Fn:
    def __init__(self, crate, key, info, contracts, modpath):
        self.crate, self.key, self.info, self.contracts = crate, key, info, contracts
        self.problems = []
        self.used_places = set()
        self.keep_whole = False
        self.places = {p[0]: p for p in info['places']}
        self.newplace = {}
        self.arm_by_place = {p[0]: a for p, a in zip(info['places'], info['arms']) if a}
        for p, n in zip(info['places'], info['places_by_name']): self.newplace[p[0]] = n
        self.newplace_norm = {norm(k): v for k, v in self.newplace.items()}
        self.place_norm = {norm(k): k for k in self.places}
        self.needs_old = [n[0] for n in info['needs']]
        self.needs_new = [n[1] for n in info['needs']]
        self.by_old = {}
        for (o, n), (po, pn) in zip(info['needs'], info['asked_at']):
            self.by_old[norm(o)] = (n, po)
        self.fields = {}   # norm(old field) -> list of (new, callee, place)
        for p in info['places']:
            o, n = p[2]
            if o: self.fields.setdefault(norm(o), []).append((n, p[3], p[0]))
        self.loops = [(l[0][0], l[0][1], l[1]) for l in info['loops']]
        self.own = lookup(contracts, key)
        self.idents = set()
        for l in self.loops: self.idents.update(l[2])
        for v in info['params'].values():
            self.idents.update(x for x in v if isinstance(x, str))
        if self.own: self.idents.update(self.own['params'])
        self.ident_norm = {norm(x): x for x in self.idents}

    def need(self, old):
        """OLD of tie.Need-OLD -> (new, place)"""
        o = norm(old)
        for k in (o, re.sub(r'^overflow-', '', o), re.sub(r'^nonzero-', '', o)):
            if k in self.by_old: return self.by_old[k]
        return None

    def ancestors(self, place):
        res = []
        while place:
            p = self.places.get(place)
            if not p: break
            res.append(p); place = p[1]
        return res

    def field(self, old, place):
        o = norm(old)
        if place:
            for p in self.ancestors(place):
                if norm(p[2][0]) == o: return p[2][1], p[3]
        c = self.fields.get(o)
        if c: return c[0][0], c[0][1]
        low = re.sub('-lem$', '', o).lower()
        for k, c in self.fields.items():
            if k.lower() == low: return c[0][0], c[0][1]
        return None

    def arms_of(self, old, place):
        """How the fields of an arm are named now: (new field, the arm's step, old path), longest path first."""
        o = norm(old)
        for p in (self.ancestors(place) if place else self.info['places']):
            a = self.arm_by_place.get(p[0])
            if not a: continue
            got = [(x[0], a[0], x[2]) for x in a[2] if norm(x[1]) == o]
            if got: return sorted(got, key=lambda x: -len(x[2]))
        return []

    def step_above(self, old, place):
        o = norm(old)
        for p in (self.ancestors(place) if place else self.info['places']):
            if norm(p[2][0]) == o:
                q = self.places.get(p[1])
                return q[2][1] if q else None

    def rest_of(self, names, path):
        """The clauses that are left where the path only steps right: their names, or None."""
        if len(names) > 1 and all(x == '1' for x in path) and len(path) < len(names) - 1: return names[len(path):]
        return None

    def tuple_of(self, head, names):
        return head + '.' + names[0] if len(names) == 1 else '(%s.%s, %s)' % (head, names[0], self.tuple_of(head, names[1:]))

    def clause(self, names, path):
        """path: list of '0'/'1' after .requires or .ensures; returns [name]+rest or None."""
        n = len(names)
        if n <= 1: return None
        i, used = 0, 0
        while i < n - 1 and used < len(path) and path[used] == '1':
            i += 1; used += 1
        if i < n - 1:
            if used < len(path) and path[used] == '0':
                used += 1
            else: return None
        return [names[i]] + path[used:]

    def turn_chain(self, root, parts, place):
        """root.parts -> text. parts is a list of field names."""
        # drop before
        k = 0
        while k < len(parts) and parts[k] == 'before': k += 1
        if k == len(parts):
            # a bare chain of befores
            return None
        rest = parts[k:]
        f = 'requires' if rest[0] == 'pre' else rest[0]
        res = [root]
        callee = None
        if f in ('args', 'requires', 'ranges', 'lifetimes', 'type-inv', 'type_inv', 'well-formed', 'well_formed', 'auto', 'utf8'):
            nf = {'type-inv': 'type_inv', 'well-formed': 'well_formed'}.get(f, f)
            res.append(nf)
            tail = rest[1:]
            if f == 'args' and tail:
                tail = [self.ident_norm.get(norm(tail[0]), tail[0])] + tail[1:]
                mt = re.match(r't(\d+)$', tail[0])
                if mt and self.own and tail[0] not in self.own['params'] and 0 < int(mt[1]) <= len(self.own['params']):
                    tail[0] = self.own['params'][int(mt[1]) - 1]
            if f == 'requires' and self.own:
                left = self.rest_of(self.own['req'], tail)
                if left and (tail or not self.keep_whole): return self.tuple_of(root + '.requires', left)
                t = self.clause(self.own['req'], tail)
                if t is not None: tail = t
            return '.'.join(res + tail)
        tail = rest[1:]
        for name, armname, oldpath in self.arms_of(f, place):
            if tail[:len(oldpath)] == oldpath and (oldpath or not name.endswith('-own') or tail):
                return '.'.join([root, armname, name] + tail[len(oldpath):])
        hit = self.field(f, place)
        if not hit:
            self.problems.append(f'field {f} of {".".join([root]+parts)} unknown')
            return '.'.join([root] + rest)
        nf, callee = hit
        if re.match(r'enum[-_]told\d*$', f) and tail[:2] == ['given', '1']:
            up = self.step_above(f, place)
            if up: return '.'.join([root, up, 'is'] + tail[2:])
        res.append(nf)
        if tail and callee and tail[0] in ('exit', 'last'): tail = ['new'] + tail[1:]
        if tail and callee and tail[0] == 'kept': tail = ['auto'] + tail[1:]
        if tail and tail[0] == 'inv': tail = ['invariant'] + tail[1:]
        if tail and tail[0] in ('ensures',):
            c = lookup(self.contracts, callee)
            if c:
                left = self.rest_of(c['ens'], tail[1:])
                if left and (tail[1:] or not self.keep_whole): return self.tuple_of('.'.join(res + ['ensures']), left)
                t = self.clause(c['ens'], tail[1:])
                if t is not None: tail = ['ensures'] + t
        elif tail and tail[0] in ('new', 'auto') and len(tail) > 1:
            c = lookup(self.contracts, callee)
            if callee is None:
                for lo, ln, vs in self.loops:
                    if ln == nf: c = dict(params=vs)
            if c:
                pn = {norm(x): x for x in c['params']}
                if tail[1] in '01':
                    k = 1
                    while k < len(tail) and tail[k] == '1': k += 1
                    n = k - 1
                    if n < len(c['params']):
                        tail = [tail[0], c['params'][n]] + tail[k + 1:]
                else:
                    tail = [tail[0], pn.get(norm(tail[1]), tail[1])] + tail[2:]
        elif tail and tail[0] in ('true', 'false', 'invariant', 'result', 'branch'):
            pass
        elif tail:
            tail = [self.ident_norm.get(norm(tail[0]), tail[0])] + tail[1:]
        return '.'.join(res + tail)

    def turn_body(self, text, place, roots):
        """Renames chains that begin at a place variable, through `let` names of chains."""
        ts = toks(text)
        env = {r: (r, []) for r in roots}      # name -> the place variable and the old fields behind it
        short = {r: r for r in roots}          # name -> what it now stands for
        out, i, plainly = [], 0, set()
        def is_let(k):
            """Whether a `let NAME =` stands before what is read, and its `in` at k."""
            return ts[k] == 'in' and re.search(r'(?:^|\s)let\s+\S+\s+=\s+$', ''.join(out[-8:]))
        def without_let(k):
            """Takes the `let NAME =` back; answers what is behind its `in` at k."""
            while out and out[-1] != 'let': out.pop()
            out.pop()
            k += 1
            while k < len(ts) and ts[k].isspace(): k += 1
            return k
        def letname():
            mm = re.search(r'(?:^|\s)(?:let|;)\s+(\S+)\s+=\s+$', ''.join(out[-10:]))
            if mm: return mm[1]
        while i < len(ts):
            t = ts[i]
            nx = i + 1
            while nx < len(ts) and ts[nx].isspace(): nx += 1
            if t in env and not (i and ts[i-1] == '.') and not (nx < len(ts) and ts[nx] == '=' and i and ts[i-1] == '{'):
                parts, j = [], i + 1
                while j + 1 < len(ts) and ts[j] == '.' and not ts[j+1].isspace() and ts[j+1] not in '({[':
                    parts.append(ts[j+1]); j += 2
                root, had = env[t]
                full = had + parts
                name = letname()
                ends = j >= len(ts) or ts[j].isspace()
                k = j
                while k < len(ts) and ts[k].isspace(): k += 1
                whole = name and k < len(ts) and ts[k] in ('in', ';')
                only = all(x == 'before' for x in full)
                if only:
                    if whole and is_let(k):
                        # the name of a place goes: its steps are c's own
                        env[name] = (root, full); short[name] = root; plainly.add(name)
                        i = without_let(k); continue
                    if whole:
                        env[name] = (root, full); short[name] = root
                        out.append(root)
                    else:
                        out.append('.'.join([root] + full))
                else:
                    self.keep_whole = bool(whole)
                    r = self.turn_chain(root, full, place)
                    self.keep_whole = False
                    if whole and r.startswith('('):
                        env[name] = (root, full); plainly.add(name); short[name] = r
                        if is_let(k):
                            i = without_let(k); continue
                    st = short[t]
                    txt = r
                    if t in plainly: txt = r
                    elif t != root and r.startswith(st + '.') : txt = t + r[len(st):]
                    elif t != root and r == st: txt = t
                    bare = [x for x in full if x != 'before']
                    if whole and is_let(k) and len(bare) == 1 and bare[0] not in ('args', 'requires', 'pre'):
                        env[name] = (root, full); short[name] = r; plainly.add(name)
                        i = without_let(k); continue
                    if whole:
                        env[name] = (root, full); short[name] = r
                    out.append(txt)
                i = j; continue
            out.append(t); i += 1
        return ''.join(out)

def flat_lists(text):
    """A tuple of facts in a tactic's list is written as its parts."""
    out, i = '', 0
    for m in re.finditer(r'(?<![\w.-])(?:omega|grind|search) \(', text):
        if m.end() <= i: continue
        d, j = 1, m.end()
        while j < len(text) and d:
            d += {'(': 1, ')': -1}.get(text[j], 0); j += 1
        inner = text[m.end():j - 1]
        inner = re.sub(r"\((c\.[\w.'-]+(?:, \(*c\.[\w.'-]+\)*)+)\)", lambda q: q[1].replace('(', '').replace(')', ''), inner)
        out += text[i:m.end()] + inner + ')'; i = j
    return out + text[i:]

def top_tuple(text):
    """(a, (b, c)) -> [a, b, c] flattened to the right, or None."""
    s = text.strip()
    if not (s.startswith('(') and s.endswith(')')): return None
    depth, parts, cur = 0, [], ''
    for n, ch in enumerate(s):
        if ch in '([{': depth += 1
        if ch in ')]}':
            depth -= 1
            if depth == 0 and n != len(s) - 1: return None
        if ch == ',' and depth == 1:
            parts.append(cur); cur = ''; continue
        if not (n == 0 or n == len(s) - 1): cur += ch
    parts.append(cur)
    parts = [p.strip() for p in parts]
    if parts and not parts[-1]: parts = parts[:-1]
    return parts

def flatten(text, n):
    ps = top_tuple(text)
    if ps is None or len(ps) < 2: return None
    # (a, b, c) is (a, (b, c))
    while len(ps) < n:
        more = top_tuple(ps[-1])
        if (more is None or len(more) < 2) and re.match(r"[\w'.-]+$", ps[-1]) and not ps[-1].endswith(('.requires', '.ensures')):
            left = n - len(ps) + 1
            more = [ps[-1] + '.1' * k + ('.0' if k < left - 1 else '') for k in range(left)]
        if more is None or len(more) < 2: return None
        ps = ps[:-1] + more
    if len(ps) > n:
        ps = ps[:n-1] + ['(' + ', '.join(ps[n-1:]) + ')']
    return ps

def find_body(text):
    """splits 'let .. in let .. in BODY' into prefix and BODY"""
    depth, last = 0, 0
    for m in re.finditer(r'[(){}\[\]]|(?<!\S)in(?!\S)', text):
        if m[0] in '({[': depth += 1
        elif m[0] in ')}]': depth -= 1
        elif depth == 0: last = m.end()
    return text[:last], text[last:]

def convert(crate_dir, names, contracts, wanted):
    crate = os.path.basename(os.path.abspath(crate_dir))
    report = []
    keys = {k[len('Rattle-%s-proofs.' % crate):-len('.Lts')]: k for k in names if k.endswith('.Lts')}
    for p in sorted(glob.glob(os.path.join(crate_dir, 'proofs', '**', 'Proof.antt'), recursive=True)):
        folder = os.path.dirname(p)
        rel = os.path.relpath(folder, os.path.join(crate_dir, 'proofs'))
        if wanted and rel not in wanted: continue
        key = rel.replace(os.sep, '.')
        text = open(p, encoding='utf-8').read()
        if key not in keys:
            report.append((rel, ['no names for it: left as it is'])); continue
        if 'tie' not in text:
            report.append((rel, ['not a tie: left as it is'])); continue
        info = names[keys[key]]
        fn = Fn(crate, crate + '::' + key.replace('.', '::'), info, contracts, rel)
        header, uses, decls, tail = parse(text)
        modname = 'Rattle.%s.proofs.%s' % (crate, key)
        fname = key.split('.')[-1]
        uses2 = [u for u in uses if not re.search(r'\.(Statement\.\{statement\}|Tie as tie)\s*$', u.strip())]
        # the spec: the last declaration
        spec = [d for d in decls if 'tie.close' in '\n'.join(d.defs)]
        spec_args = []
        if spec:
            body = '\n'.join(spec[-1].defs)
            m = re.search(r'tie\.spec\b', body)
            if m:
                # the argument text up to the closing paren
                d, j = 1, m.end()
                st = m.end()
                while j < len(body):
                    if body[j] == '(': d += 1
                    elif body[j] == ')':
                        d -= 1
                        if d == 0: break
                    j += 1
                spec_args = split_args(body[st:j])
        decls = [d for d in decls if d not in spec]
        loops_old = {}
        for o, n, vs in fn.loops: loops_old[o] = (n, vs)
        inv, ans, help_ = [], [], []
        local_inv_names = {}
        changed = {l[0]: c for l, c in zip(fn.loops, info.get('changed') or [])}
        for d in decls:
            s = d.sig
            m = re.search(r':\s*tie\.(invariant|decreases)-(\S+)\s*$', s.strip())
            if m and d.defs:
                old = m[2]
                if old not in loops_old:
                    fn.problems.append('no loop ' + old); help_.append(d); continue
                new, vs = loops_old[old]
                dfn = '\n'.join(d.defs)
                mm = re.match(r"(?:(?:abbrev|pub)\s+)*(\S+)((?:\s+[^\s=]+)*)\s+=(.*)$", dfn, re.S)
                args = mm[2].split(); body = mm[3]
                ch = changed.get(old) or [True] * len(vs)
                exprs = []
                for v, c in zip(vs, ch): exprs.append(('l.initial.' + v) if c else 'l.' + v)
                for v, c in zip(vs, ch):
                    if c: exprs.append('l.' + v)
                if len(args) != len(exprs):
                    fn.problems.append(f'{d.name}: {len(args)} arguments for {len(exprs)} variables: {vs} {ch} {args}')
                sub = {}
                for a, e in zip(args, exprs): sub[a] = e
                out, ts = [], toks(body)
                for k, t in enumerate(ts):
                    if t in sub and not (k and ts[k-1] == '.'):
                        out.append(sub[t])
                    else: out.append(t)
                local_inv_names[d.name] = m[1] + '-' + new
                inv.append((d, m[1] + '-' + new, ''.join(out)))
                continue
            m = re.search(r'tie\.(?:Need-(\S+))', s)
            if m and re.match(r'(?:(?:abbrev|pub)\s+)*\S+\s+:\s*tie\.Need-', s):
                hit = fn.need(m[1])
                ans.append((d, m[1], hit)); continue
            help_.append(d)
        # positions, for answers whose names did not match
        named = {a[0].name: a for a in ans}
        order = [a for a in spec_args if a not in local_inv_names]
        spec_unf = spec[-1].unf if spec else []
        if len(order) == len(fn.needs_old):
            for pos, a in enumerate(order):
                mm = re.match(r'\(\s*λ\s*([^.]+)\.(?!\S)\s*(.*)\)$', a, re.S)
                if not mm and a in named: continue
                dd = Decl(); dd.comment = []; dd.unf = list(spec_unf); dd.sig = ''
                if mm: dd.name = 'λ%d' % pos; dd.defs = ['%s %s = %s' % (dd.name, ' '.join(mm[1].split()), mm[2])]
                else: dd.name = 'λ%d' % pos; dd.defs = ['%s c = %s c' % (dd.name, a)]
                named[dd.name] = (dd, fn.needs_old[pos], (fn.needs_new[pos], info['asked_at'][pos][0]))
        if len(order) == len(fn.needs_old):
            for pos, a in enumerate(order):
                if a in named and named[a][2] is None:
                    d, o, h = named[a]
                    named[a] = (d, o, fn.by_old[norm(fn.needs_old[pos])])
                elif a in named and named[a][2][0] != fn.needs_new[pos]:
                    fn.problems.append(f'{a}: by name {named[a][2][0]}, by place {fn.needs_new[pos]}: taken by place')
                    named[a] = (named[a][0], named[a][1], (fn.needs_new[pos], info['asked_at'][pos][0]))
        else:
            fn.problems.append(f'{len(order)} old goals, {len(fn.needs_old)} now')
        def fix_types(t):
            def rep(m):
                w = m[1]
                if w.startswith('Need-'):
                    h = fn.need(w[5:]); return 'goal.' + (h[0] if h else w[5:])
                n = fn.newplace_norm.get(norm(w))
                if not n: fn.problems.append('place ' + w); return 'goal.' + w
                fn.used_places.add(n)
                return n
            # drop the invariants behind a type
            invs = '|'.join(re.escape(x) for x in local_inv_names)
            t = re.sub(r'tie\.([A-Za-z][^\s(){}.;,]*)' + (r'(?:\s+(?:%s)(?![^\s(){}.;,]))*' % invs if invs else ''), lambda m: rep(m), t)
            return t
        out_ans = []
        need_inv = set()
        place_helpers = {}
        abbrevs = set()
        for d in help_:
            tx = '\n'.join([d.rec] if d.rec else [d.sig] + d.unf + d.defs).strip('\n')
            pl = re.search(r'\(\s*(\S+)\s*:\s*tie\.(?!Need)([^\s)]+)', d.sig)
            if not pl and d.defs:
                pq = re.search(r':\s*tie\.(?!Need)([^\s()]+)(?:\s+[^\s→]+)*\s*→', d.sig)
                vq = re.match(r'(?:(?:abbrev|pub)\s+)*\S+\s+(\S+)', d.defs[0])
                if pq and vq:
                    d.sig = d.sig[:pq.start()] + ': (' + vq[1] + ' : tie.' + pq[1] + ') →' + d.sig[pq.end():]
                    pl = re.search(r'\(\s*(\S+)\s*:\s*tie\.(?!Need)([^\s)]+)', d.sig)
            body = '\n'.join(d.defs)
            place = None
            if pl:
                place = fn.place_norm.get(norm(pl[2]))
                mm = re.match(r'(?:(?:abbrev|pub)\s+)*\S+\s+(\S+)', d.defs[0]) if d.defs else None
                var = mm[1] if mm else 'c'
                sig = fix_types(d.sig)
                sig = fn.turn_body(sig, place, [pl[1]])
                body = '\n'.join(fn.turn_body(x, place, [var]) for x in d.defs)
                tx = '\n'.join([sig] + d.unf + [body])
                mt = re.search(r'\(\s*%s\s*:\s*[^()\s]+\s*\)\s*→\s*(.*)$' % re.escape(pl[1]), sig, re.S)
                md = re.match(r'(?:(?:abbrev|pub)\s+)*(\S+)\s+(\S+)((?:\s+[^\s=]+)*)\s+=(?=\s)(.*)$', body, re.S)
                if mt and md and len(d.defs) == 1:
                    bd = md[4].strip()
                    if md[3].split(): bd = 'λ ' + ' '.join(md[3].split()) + '. ' + bd
                    ty = mt[1].strip()
                    if pl[1] != md[2]:
                        ty = re.sub(r'(?<![\w.-])' + re.escape(pl[1]) + r'(?![\w-])', md[2], ty)
                    place_helpers[d.name] = (fn.newplace_norm.get(norm(pl[2])), md[2], ty, bd, d.unf)
                    if 'abbrev' in (d.sig + d.defs[0]).split(): abbrevs.add(d.name)
            elif 'tie.' in tx:
                tx = fix_types(tx)
            for a, b in local_inv_names.items():
                tx2 = re.sub(r'(?<![\w.-])' + re.escape(a) + r'(?![\w-])', b, tx)
                if tx2 != tx: need_inv.add(b); tx = tx2
            out_ans.append(('\n'.join(d.comment) + '\n' if d.comment else '') + tx)
        helper_texts = list(out_ans)
        def expand(text, root, place):
            """Helpers over a place, where they are applied to a later one: their text, since a later place has the same steps."""
            lets, done, more = [], set(), []
            def inline(text, top=True):
                for nm_ in place_helpers:
                    pat = r'(?<![\w.-])(%s)\s+(?:(%s(?:\.before)*)(?![\w.-])|\((%s(?:\.before)*)\))' % (re.escape(nm_), re.escape(root), re.escape(root))
                    def rep(m, nm_=nm_):
                        if top and (m[2] or m[3]) == root and place_helpers[nm_][0] == fn.newplace_norm.get(norm(place or '')): return m[0]
                        return use_helper(nm_)
                    text = re.sub(pat, rep, text)
                return text
            def use_helper(nm_):
                hp, var, ty, hb, hu = place_helpers[nm_]
                sw = lambda x: re.sub(r'(?<![\w.-])' + re.escape(var) + r'(?=[\s.)(,;]|$)', root, x) if var != root else x
                if nm_ in abbrevs:
                    more.extend(hu)
                    return '(' + inline(sw(hb), False) + ')'
                if nm_ not in done:
                    done.add(nm_)
                    ty, hb = inline(sw(ty), False), inline(sw(hb), False)
                    lets.append(('let %s : %s = %s in' % (nm_, ' '.join(ty.split()), hb)) if ty else 'let %s = %s in' % (nm_, hb))
                    more.extend(hu)
                return nm_
            text = inline(text)
            return text, lets, more

        for q, d in enumerate(help_):
            if d.name not in place_helpers: continue
            hp, var, ty, hb, hu = place_helpers[d.name]
            old_pl = [k for k, v in fn.newplace_norm.items() if v == hp]
            old_pl = [k for k in fn.places if fn.newplace_norm.get(norm(k)) == hp]
            saved = place_helpers.pop(d.name)
            ty2, l1, m1 = expand(ty, var, old_pl[0] if old_pl else None)
            hb2, l2, m2 = expand(hb, var, old_pl[0] if old_pl else None)
            place_helpers[d.name] = saved
            if (ty2, hb2) != (ty, hb) and not l1:
                ws = []
                for u in list(d.unf) + m2:
                    for w in u.split()[1:]:
                        if w not in ws: ws.append(w)
                head = ('abbrev ' if d.name in abbrevs else '')
                out_ans[q] = ('\n'.join(d.comment) + '\n' if d.comment else '') + head + '%s : (%s : %s) → %s\n' % (d.name, var, hp, ty2) + (('unfolding ' + ' '.join(ws) + '\n') if ws else '') + '%s %s =%s' % (d.name, var, ('\n    ' + '\n    '.join(l2) + '\n    ' + hb2) if l2 else ' ' + hb2)
                helper_texts[q] = out_ans[q]
        cited = set()
        for name, (d, old, hit) in named.items():
            for w in toks('\n'.join(re.sub(r'^\S+', '', x) for x in d.defs)):
                if w in named: cited.add(w)
        for name in [x for x in named if x in cited]:
            d, old, hit = named[name]
            if not hit or len(d.defs) != 1: continue
            mm = re.match(r"(\S+)((?:\s+[^\s=]+)*?)\s+=(?=\s)(.*)$", d.defs[0], re.S)
            if not mm: continue
            args = [a for a in mm[2].split() if not a.startswith('κ')]
            if len(args) != 1: continue
            place_helpers[name] = ('', args[0], '', fn.turn_body(mm[3].strip(), hit[1], [args[0]]), d.unf)
            if mm[3].strip() in ('search rules', 'omega arith'): abbrevs.add(name)
        for name, (d, old, hit) in named.items():
            body = '\n'.join(d.defs)
            if not hit:
                fn.problems.append(f'no goal for {old} ({name})'); 
                continue
            new, place = hit
            # arguments
            defs = []
            for x in d.defs:
                mm = re.match(r"(\S+)((?:\s+[^\s=]+)*?)\s+=(?=\s)(.*)$", x, re.S)
                if not mm:
                    fn.problems.append(f'{name}: clause not understood'); defs.append(x); continue
                args, bd = mm[2].split(), mm[3]
                drop = [a for a in args if a.startswith('κ')]
                args = [a for a in args if not a.startswith('κ')]
                root = args[0] if args else None
                if root is None:
                    mmm = re.match(r'\s*λ\s+([^.]+)\.', bd)
                    if mmm: root = mmm[1].split()[0]
                bd = fn.turn_body(bd, place, [root] if root else [])
                more_unf = []
                if root:
                    bd, lets, more_unf = expand(bd, root, place)
                    if lets: bd = '\n    ' + '\n    '.join(lets) + '\n    ' + bd.strip()
                stripped = bd.strip()
                if stripped in ('search rules', 'omega arith') and not d.unf and not more_unf:
                    defs = None; break
                # several clauses
                nm = info['asked'].get(new) or {norm(k): v for k, v in info['asked'].items()}.get(norm(old)) or []
                if not nm and (new == 'returns' or new.startswith('returns-')):
                    nm = fn.own['ens'] if fn.own else []
                if len(nm) > 1 and bd.strip() == 'search rules': defs = None; break
                if len(nm) > 1:
                    pre, tl = find_body(bd)
                    ps = flatten(tl, len(nm))
                    if not ps:
                        # the last argument of an application
                        ar = tl.rstrip()
                        if ar.endswith(')'):
                            d0, j0 = 0, len(ar) - 1
                            while j0 >= 0:
                                if ar[j0] in ')]}': d0 += 1
                                elif ar[j0] in '([{':
                                    d0 -= 1
                                    if d0 == 0: break
                                j0 -= 1
                            q = flatten(ar[j0:], len(nm)) if j0 > 0 else None
                            if q and re.match(r'\s*(rw|simp|unfold|subst)\b', ar):
                                pre = pre + ar[:j0].rstrip(); ps = q
                    if not ps:
                        q = top_tuple(tl) or [tl.strip()]
                        left = len(nm) - len(q) + 1
                        if q[-1] == (root or 'c') + '.requires' and fn.own and len(fn.own['req']) == left and left > 1:
                            ps = q[:-1] + [q[-1] + '.' + x for x in fn.own['req']]
                    if not ps and re.match(r"\s*[A-Za-z_][\w'.-]*(\s|$)", tl) and not re.match(r'\s*(rw|simp|search|grind|subst|record|elim|omega|let|absurd|unfold)\b', tl):
                        pre = pre + ' let all = ' + tl.strip() + ' in'
                        ps = ['all' + '.1' * k_ + ('.0' if k_ < len(nm) - 1 else '') for k_ in range(len(nm))]
                    if ps:
                        bd = pre + ' record {\n' + ''.join(f'      {a} = {b};\n' for a, b in zip(nm, ps)) + '    }'
                    else:
                        fn.problems.append(f'{new}: {len(nm)} clauses {nm}: not a tuple')
                if drop: fn.problems.append(f'{new}: dropped {drop}')
                bd = flat_lists(bd)
                defs.append(f"{new}{''.join(' ' + a for a in args)} ={bd}")
                for u in more_unf:
                    if u not in d.unf: d.unf = d.unf + [u]
            if defs is None: continue
            sig = f'pub {new} : goal.{new}'
            ws = []
            for u in d.unf:
                for w in u.split()[1:]:
                    if w not in ws: ws.append(w)
            d.unf = ['unfolding ' + ' '.join(ws)] if ws else []
            tx = '\n'.join([sig] + d.unf + defs)
            for a, b in local_inv_names.items():
                tx2 = re.sub(r'(?<![\w.-])' + re.escape(a) + r'(?![\w-])', b, tx)
                if tx2 != tx: need_inv.add(b); tx = tx2
            out_ans.append(('\n'.join(d.comment) + '\n' if d.comment else '') + tx)
        # what is used
        def used(us, body):
            words = set(toks(body))
            keep = []
            for u in us:
                m = re.match(r'(pub\s+)?use\s+(\S+?)\.\{(.*)\}\s*$', u, re.S)
                if m:
                    items = [x.strip() for x in m[3].split(',')]
                    ok = []
                    for it in items:
                        w = it.split(' as ')[-1].strip()
                        parts = [x for x in w.split('◌') if x]
                        if w == '◌' or any(all(x in words for x in [q]) for q in parts) or w in words or re.search(r'[^\w◌]', w) and any(x in body for x in parts): ok.append(it)
                    if ok: keep.append('use %s.{%s}' % (m[2], ', '.join(ok)))
                else:
                    m = re.match(r'use\s+\S+\s+as\s+(\S+)', u) or re.match(r'use\s+(?:\S+\.)?(\S+)', u)
                    if m and m[1] in words: keep.append(u)
            return keep
        inv_texts = []
        for d, new, body in inv:
            inv_texts.append(('\n'.join(d.comment) + '\n' if d.comment else '') + f'abbrev pub {new} : goal.{new}\n' + ('\n'.join(d.unf) + '\n' if d.unf else '') + f'{new} l ={body}')
        # helpers that invariants use
        moved = []
        if inv_texts:
            todo = '\n'.join(inv_texts)
            change = True
            hs = [(d, t) for d, t in zip(help_, helper_texts)]
            while change:
                change = False
                for d, t in hs:
                    if d in [x for x, _ in moved]: continue
                    if d.name in set(toks(todo)):
                        moved.append((d, t)); todo += '\n' + t; change = True
        order_m = [x for x in zip(help_, helper_texts) if x[0] in [y for y, _ in moved]]
        moved_names = [d.name for d, _ in order_m]
        def publish(t, d):
            if re.search(r'^(abbrev |unfoldable )?pub ', t, re.M): return t
            return re.sub(r'^(abbrev |unfoldable |record |data )?' + re.escape(d.name) + r'(\s)', lambda m: (('abbrev pub ' if (m[1] or '').startswith('abbrev') else 'unfoldable pub ' if (m[1] or '').startswith('unf') else 'pub ' + (m[1] or '')) + d.name + m[2]), t, count=1, flags=re.M)
        if inv_texts:
            body = '\n\n'.join([publish(t, d) for d, t in order_m] + inv_texts)
            hd = ['-- The loops of `%s::%s`.' % (crate, fname)] if not header else [re.sub(r'meets its contract[.:]?', 'meets its contract:', header[0])] + header[1:]
            us = used(uses2, body)
            open(os.path.join(folder, 'Invariants.antt'), 'w', encoding='utf-8').write('\n'.join(header + us + ['use %s.Given as goal' % modname, '', body, '']))
        rest = [t for d, t in zip(help_, helper_texts) if d.name not in moved_names] + out_ans[len(helper_texts):]
        if out_ans[len(helper_texts):] :
            n_help = len([1 for d in help_ if d.name not in moved_names])
            again = True
            while again:
                again = False
                for q in range(n_help):
                    hd_ = [d for d in help_ if d.name not in moved_names][q]
                    if rest[q] is None: continue
                    others = '\n'.join(x for k_, x in enumerate(rest) if k_ != q and x)
                    if hd_.name in place_helpers and hd_.name not in set(toks(re.sub(r'let %s :' % re.escape(hd_.name), '', others)) ) :
                        rest[q] = None; again = True
                    elif hd_.name in place_helpers:
                        # only where it is still applied to a place
                        if not re.search(r'(?<![\w.-])%s\s+\w+(?![\w.-])' % re.escape(hd_.name), re.sub(r'(?<![\w.-])%s\s+(in|at)(?!\w)' % re.escape(hd_.name), '', others)):
                            rest[q] = None; again = True
            rest = [x for x in rest if x]
            body = '\n\n'.join(rest)
            us = used(uses2, body)
            imp = [x for x in moved_names + sorted(need_inv) if x in set(toks(body))]
            extra = ['use %s.Invariants.{%s}' % (modname, ', '.join(imp))] if imp else []
            pl = [x for x in sorted(fn.used_places) if x in set(toks(body))]
            if pl: extra.append('use %s.Goals.{%s}' % (modname, ', '.join(pl)))
            open(os.path.join(folder, 'Answers.antt'), 'w', encoding='utf-8').write('\n'.join(header + us + extra + ['use %s.Goals as goal' % modname, '', body, '']))
        dst = '/tmp/old-proofs/%s/%s.antt' % (crate, key)
        os.makedirs(os.path.dirname(dst), exist_ok=True)
        os.replace(p, dst)
        report.append((rel, fn.problems))
    for r, ps in report:
        if ps:
            print(f'{crate}::{r}')
            for x in ps: print('    ' + x)
    print(len(report), 'proofs turned')

if __name__ == '__main__':
    names = json.load(open(sys.argv[1], encoding='utf-8'))
    crate_dir = sys.argv[2].rstrip('/')
    root = os.path.abspath(os.path.join(crate_dir, '..', '..'))
    convert(crate_dir, names, clause_names(root), set(sys.argv[3:]))
