#!/usr/bin/env python3
# Writes crates/packets/stdin (the stored packets, with the answer that each must get) and crates/packets/stdout (what the program must print).
# The answers come from the reader and the writer below, which follow documents 01 and 02 and share nothing with crates/packet.
import os, struct

# Taps, words of a tap area and bytes of an output area: at most, and at least.
MOST = 1024
AREA, OUT = 14 * MOST, 10 + 54 * MOST
INF, NAN, SNAN, MINUS = 0x7f800000, 0x7fc00000, 0x7f800001, 0x80000000
FILL = 0x5a5a5a5a

def bits(x): return struct.unpack('<I', struct.pack('<f', x))[0]
def value(b): return struct.unpack('<f', struct.pack('<I', b))[0]
def f32(x):
    try: return value(bits(x))
    except OverflowError: return float('inf')
def finite(b): return b & 0x7fffffff < INF
def above(b): return finite(b) and value(b) > 0
def total(gains):
    s = 0.0
    for g in gains: s = f32(s + f32(value(g) * value(g)))
    return s

# Refusals 9 to 11 of taps (bit map, order, number, x, y, z, delay, gains), or 0.
def refusal(count, images, taps):
    sums = [total(t[7]) for t in taps] if all(finite(g) for t in taps for g in t[7]) else []
    if count > MOST or images > 250000 or any(not 1 <= t[1] <= 8 or not 1 <= t[2] <= images for t in taps): return 9
    for t in taps:
        if not all(map(finite, t[3:7] + t[7])) or not above(t[6]): return 10
        if any(t[0] >> k & 1 and not above(g) for k, g in enumerate(t[7])): return 10
    if len({t[2] for t in taps}) < len(taps): return 11
    if any(not s > f32(1e-14) for s in sums) or any(b > a for a, b in zip(sums, sums[1:])): return 11
    return 0

def read(b, area):
    if area < AREA: return 5, []
    if len(b) < 10: return 8, []
    (count, images), p, taps = struct.unpack('<HI', b[:6]), 10, []
    for _ in range(count):
        n = 22 + 4 * bin(b[p]).count('1') if p < len(b) else 22
        if p + n > len(b): return 8, []
        w = list(struct.unpack('<IIIII', b[p + 2:p + 22])); q = p + 22; gains = []
        for k in range(8):
            if b[p] >> k & 1: gains.append(struct.unpack('<I', b[q:q + 4])[0]); q += 4
            else: gains.append(0)
        taps.append([b[p], b[p + 1]] + w + [gains]); p += n
    if p != len(b): return 8, []
    return refusal(count, images, taps), taps

def encode(count, images, rays, taps):
    b = struct.pack('<HII', count, images, rays)
    for t in taps:
        b += bytes([t[0], t[1]]) + struct.pack('<IIIII', *t[2:7])
        b += b''.join(struct.pack('<I', g) for k, g in enumerate(t[7]) if t[0] >> k & 1)
    return b

# A tap with gains by band, and the bit map that they have.
def tap(number, gains={0: bits(1.0)}, order=1, x=bits(0.6), y=bits(0.8), z=0, delay=bits(750.0), bitmap=None):
    g = [gains.get(k, 0) for k in range(8)]
    m = sum(1 << k for k in range(8) if g[k] & 0x7fffffff) if bitmap is None else bitmap
    return [m, order, number, x, y, z, delay, g]

def packet(taps, images=1000, rays=36, count=None): return encode(len(taps) if count is None else count, images, rays, taps)

def words(taps): return [w for t in taps for w in t[1:7] + t[7]]

def check(ws):
    h = 0
    for w in ws: h = (h * 31 + w) % 4294967291
    return h

# Gains whose squares add up to 1e-14 exactly, and to the next f32 above it.
LEAST = f32(1e-14)
def gains_for(s):
    a = bits(9.9e-8)
    b = bits((s - total([a])) ** 0.5)
    return {0: a, 1: next(c for c in range(b - 999, b + 999) if total([a, c]) == s)}
AT, OVER = gains_for(LEAST), gains_for(value(bits(LEAST) + 1))
ALL = {k: bits(1.0 / (k + 1)) for k in range(8)}

reads, writes = [], []
def r(name, b, area=AREA, shown=None): reads.append((name, b, area, len(b) if shown is None else shown))
def w(name, taps, count=None, images=1000, rays=36, area=AREA, out=OUT): writes.append((name, taps, len(taps) if count is None else count, images, rays, area, out))

one, two = packet([tap(1)]), packet([tap(7, ALL), tap(3, {2: bits(0.5), 7: bits(0.25)}, order=8)])
r('one-tap', one); r('two-taps', two); r('no-tap', packet([])); r('no-tap-no-image', packet([], 0, 0)); r('rays-all-bits', packet([tap(1)], rays=4294967295))
r('no-byte', b''); r('head-short', packet([])[:9]); r('head-long', packet([]) + b'\0')
r('one-short', two[:-1]); r('one-long', two + b'\0'); r('a-tap-short', packet([tap(1)], count=2)); r('a-tap-long', packet([tap(1), tap(2)], count=1)); r('bit-map-alone', packet([tap(1)], count=2) + b'\xff')
# n taps of one gain each, the last with the lowest number.
def many(n): return [tap(n - k, {k % 8: bits(1.0)}, order=1 + k % 8) for k in range(n)]
for n in 64, 65, 255, 256, 257, 1023: r(f'taps-{n}', packet(many(n), 2000))
r('taps-1024-all-gains', packet([tap(1 + k, ALL) for k in range(1024)], 2000)); r('taps-1024-first-number-last', packet(many(1023) + [tap(1023)], 2000))
z = [[0, 0, 0, 0, 0, 0, 0, [0] * 8]]
for n in 65, 1025, 1280: r(f'zeros-{n}', packet(z * n), shown=10); r(f'zeros-{n}-short', packet(z * n)[:-1], shown=10)
for n in 256, 1024, 1025, 65535: r(f'head-of-{n}', packet([], count=n))
r('one-tap-of-65535', packet([tap(1)], count=65535))
# the count's bytes the other way round, and a count of one byte, as it was before
r('count-exchanged-2', two[1::-1] + two[2:]); r('count-exchanged-256', packet(z * 256, count=1), shown=10)
def old(b): return b[:1] + b[2:]
r('old-no-tap', old(packet([]))); r('old-one-tap', old(one)); r('old-two-taps', old(two)); r('old-no-count', old(packet([tap(1)], count=0))); r('old-taps-64', old(packet(many(64))))
r('images-250000', packet([tap(250000)], 250000)); r('images-250001', packet([tap(1)], 250001)); r('images-250001-no-tap', packet([], 250001))
for o in 0, 1, 8, 9, 255: r(f'order-{o}', packet([tap(1, order=o)]))
for n in 0, 1, 1000, 1001, 4294967295: r(f'number-{n}', packet([tap(n)]))
SPECIAL = [('inf', INF), ('minus-inf', INF | MINUS), ('nan', NAN), ('minus-nan', NAN | MINUS), ('signal-nan', SNAN), ('full-nan', 0xffffffff), ('greatest', INF - 1), ('least', 1), ('zero', 0), ('minus-zero', MINUS), ('minus-one', bits(-1.0))]
for k, (n, v) in enumerate(SPECIAL):
    for f in ('x', 'y', 'z', 'delay') if k < 8 else ('x', 'delay'): r(f'{f}-{n}', packet([tap(1, **{f: v})]))
    r(f'gain-{n}', packet([tap(1, {0: bits(1.0), 3: v}, bitmap=9)])); r(f'last-gain-{n}', packet([tap(2), tap(1, {0: bits(0.5), 7: v}, bitmap=0x81)]))
r('number-twice', packet([tap(5), tap(5, {0: bits(0.5)})])); r('number-twice-apart', packet([tap(5), tap(6), tap(7), tap(5)])); r('numbers-close', packet([tap(5), tap(4), tap(6)]))
r('sum-none', packet([tap(1, {})])); r('sum-at-least', packet([tap(1, AT)])); r('sum-over-least', packet([tap(1, OVER)])); r('sum-infinite', packet([tap(1, {0: bits(1e30)}), tap(2, {1: bits(1e30)})]))
r('sums-equal', packet([tap(1), tap(2), tap(3)])); r('sums-fall', packet([tap(1), tap(2, {0: bits(1.0) - 1})])); r('sum-just-above', packet([tap(1), tap(2, {0: bits(1.0) + 1})])); r('sum-third-above', packet([tap(1), tap(2, {0: bits(0.5)}), tap(3, {0: bits(0.75)})]))
bad = tap(0, {0: INF}, order=9, delay=0)
r('8-before-9', packet([bad])[:-1]); r('9-before-10', packet([bad])); r('9-in-second', packet([tap(1, delay=0), tap(2, order=0)])); r('10-before-11', packet([tap(5), tap(5, {0: NAN})])); r('10-in-third', packet([tap(1, {0: bits(0.5)}), tap(1), tap(2, z=INF)])); r('9-before-11', packet([tap(5), tap(5, order=0)]))
r('area-14335', one, 14335); r('area-14335-short', one[:-1], 14335); r('area-896', one, 896); r('area-0', b'', 0); r('area-14340', two, 14340)

w('one-tap', [tap(1)]); w('two-taps', [tap(7, ALL), tap(3, {2: bits(0.5), 7: bits(0.25)}, order=8)]); w('no-tap', []); w('room-to-spare', [tap(1)], area=14340, out=55340)
w('area-14335', [tap(1)], area=14335); w('area-896', [tap(1)], area=896); w('out-55305', [tap(1)], out=55305); w('out-3465', [tap(1)], out=3465); w('both-short', [tap(1)], area=0, out=0); w('5-before-9', [tap(1)], count=1025, out=55305)
w('taps-256', many(256)); w('count-1025', [], count=1025); w('count-65537', [tap(1)], count=65537); w('count-4294967297', [], count=4294967297); w('images-250001', [tap(1)], images=250001)
for o in 0, 9, 257, 4294967295: w(f'order-{o}', [tap(1, order=o)])
for n in 0, 1001, 4294967295: w(f'number-{n}', [tap(n)])
for k, (n, v) in enumerate(SPECIAL):
    for f in ('y', 'delay'): w(f'{f}-{n}', [tap(1, **{f: v})])
    w(f'gain-{n}', [tap(1, {0: bits(1.0), 3: v})])
w('all-gains-minus-zero', [tap(1, {k: MINUS for k in range(8)})]); w('number-twice', [tap(5), tap(6), tap(5)]); w('sum-at-least', [tap(1, AT)]); w('sum-over-least', [tap(1, OVER)]); w('sums-equal', [tap(1), tap(2)]); w('sum-just-above', [tap(1), tap(2, {0: bits(1.0) + 1})])
w('9-before-10', [tap(1, {0: INF}), tap(0)]); w('10-before-11', [tap(5), tap(5, z=NAN)])

head = '''# Stored packets for the program `packets`; tools/packet_cases.py makes them, with the answers of a reader and a writer of its own.
# r: name, words of the tap area lent, bytes of the packet; the answer: refusal (0 for none), count, images, rays, check of the taps' words;
#    the packet in hexadecimal (where it is longer than what is shown, the rest is 0)
# w: name, words of the tap area lent, bytes of the output lent, count, images, rays; the answer: refusal (0 for none), bytes;
#    the words of the taps, '=', the packet
'''
stdin, stdout = [head], []
def hexes(b, cuts): return ' '.join(b[i:j].hex() for i, j in zip(cuts, cuts[1:] + [len(b)]) if b[i:j])
def cuts(b):
    c, p = [0, 2, 6, 10], 10
    while p < len(b) < 2000: c += [p + 1, p + 2] + [p + 6 + 4 * k for k in range(5 + bin(b[p]).count('1'))]; p = c[-1]
    return sorted(set(min(x, len(b)) for x in c))
for name, b, area, shown in reads:
    n, taps = read(b, area); assert not any(b[shown:])
    c = struct.unpack('<HII', b[:10]) if n == 0 else (0, 0, 0)
    stdin.append('r %s %d %d  %d %d %d %d %d  %s\n' % (name, area, len(b), n, *c, check(words(taps)) if n == 0 else 0, hexes(b[:shown], cuts(b[:shown]))))
    stdout.append('read %s: %s, ok\n' % (name, 'refused %d' % n if n else 'taps %d images %d rays %d, written again as the same bytes' % c))
for name, taps, count, images, rays, area, out in writes:
    n = 5 if area < AREA or out < OUT else refusal(count, images, taps)
    b = encode(count, images, rays, taps) if n == 0 else b''
    stdin.append('w %s %d %d %d %d %d  %d %d  %s = %s\n' % (name, area, out, count, images, rays, n, len(b), ' '.join('%08x' % x for x in words(taps)), hexes(b, cuts(b))))
    stdout.append('write %s: %s, ok\n' % (name, 'refused %d' % n if n else 'bytes %d' % len(b)))
stdout.append('%d packets read, %d written, 0 differ\n' % (len(reads), len(writes)))
folder = os.path.join(os.path.dirname(os.path.abspath(__file__)), '..', 'crates', 'packets')
os.makedirs(folder, exist_ok=True)
open(os.path.join(folder, 'stdin'), 'w').write(''.join(stdin)); open(os.path.join(folder, 'stdout'), 'w').write(''.join(stdout))
