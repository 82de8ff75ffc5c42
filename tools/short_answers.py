#!/usr/bin/env python3
"""short_answers.py TOP CRATE..: takes out of Answers.antt each short answer (one line) that the check finds alone.
All are taken out, the crate is checked, and those that the check then misses come back; until it misses none."""
import re, sys, os, glob, subprocess
import tempfile
top = os.path.abspath(sys.argv[1])
kept = tempfile.mkdtemp()
def blocks(t):
    parts = re.split(r'(?m)^(?=pub \S+ : goal\.)', t)
    return parts[0], parts[1:]
def name(b): return re.match(r'pub (\S+) :', b).group(1)
def short(b):
    body = re.sub(r'(?m)^pub .*\n', '', b, count=1)
    body = re.sub(r'(?m)^unfolding .*\n', '', body)
    lines = [l for l in body.rstrip('\n').split('\n')]
    return 0 < len(lines) <= 2 and len(body.strip()) < 170 and not re.search(r'^\S+ t c', lines[0])
def fn_of(path, crate):
    return os.path.dirname(os.path.relpath(path, f'{top}/crates/{crate}/proofs'))
for crate in sys.argv[2:]:
    files = sorted(glob.glob(f'{top}/crates/{crate}/proofs/**/Answers.antt', recursive=True))
    state, out = {}, {}
    for f in files:
        head, bs = blocks(open(f).read())
        gone = {name(b) for b in bs if short(b)}
        # an answer that another cites stays
        text = head + ''.join(bs)
        gone = {n for n in gone if len(re.findall(r'(?<![\w-])' + re.escape(n) + r'(?![\w-])', text)) <= 3}
        state[f] = (head, bs); out[f] = gone
    total = sum(map(len, out.values())); first = total
    def write():
        for f, (head, bs) in state.items():
            keep = [b for b in bs if name(b) not in out[f]]
            if not keep and re.fullmatch(r'(?:--.*\n|use .*\n|\n)*', head):
                if os.path.exists(f): os.remove(f)
            else: open(f, 'w').write((head + ''.join(keep)).rstrip('\n') + '\n')
    for turn in range(6):
        write()
        r = subprocess.run(['python3', os.path.join(os.path.dirname(os.path.abspath(__file__)), 'quick_check.py'), top, crate, '--only', crate, '--allow-holes', '--incremental', os.path.join(kept, crate)], capture_output=True, text=True)
        text = r.stdout + r.stderr
        back = 0
        for m in re.finditer(r'^fn (\S+): (no proof|not proved)(.*)$', text, re.M):
            fn = m.group(1)
            if not fn.startswith(crate + '::'): continue
            d = fn[len(crate) + 2:].replace('::', '/')
            missed = set(re.findall(r'`([^`]+)`', m.group(3)))
            for f in out:
                if fn_of(f, crate) in (d, '+' + d) or fn_of(f, crate).startswith('+') and missed & out[f]:
                    hit = out[f] & missed if not re.search(r'\d+ more|and others|it calls', m.group(3)) else (out[f] & missed or set())
                    if not hit and 'it calls' not in m.group(3): hit = set(out[f])
                    back += len(hit); out[f] -= hit
        if not back: break
    left = [l for l in text.split('\n') if re.match(r'fn ' + crate + r'::\S+: (no proof|not proved)', l)]
    print(crate, 'short answers', first, 'gone', sum(map(len, out.values())), 'turns', turn + 1, 'bad', len(left), left[:2])
