//! The packet's reader and writer against a reader and a writer of this file, which follow documents 01 and 02 (note 7) and share nothing with the port:
//! sound packets and damaged ones, around every length at which a count's bytes or the limit change.
use crate::random::Random;
use port::{OUTPUT, TAPS, TAP_WORDS};

type Tap = [u32; TAP_WORDS];

/// Counts that are tried, and what else a count may say.
const COUNTS: [usize; 18] = [0, 1, 2, 3, 8, 63, 64, 65, 200, 255, 256, 257, 511, 512, 1023, 1024, 1025, 1100];
const SAID: [usize; 8] = [0, 1, 256, 1024, 1025, 1026, 65_534, 65_535];
const FILL: u32 = 0x5a5a_5a5a;
const HEAD: usize = 10;
const IMAGES: u32 = 250_000;

/// Words that a float may have in place of its own.
const SPECIAL: [u32; 9] = [0, 0x8000_0000, 0x7f80_0000, 0xff80_0000, 0x7fc0_0000, 0x7f80_0001, 1, 0x7f7f_ffff, 0xbf80_0000];

fn finite(w: u32) -> bool {
    f32::from_bits(w).is_finite()
}

fn above(w: u32) -> bool {
    finite(w) && f32::from_bits(w) > 0.0
}

fn sum(t: &Tap) -> f32 {
    t[6..].iter().fold(0.0, |s, &g| s + f32::from_bits(g) * f32::from_bits(g))
}

/// Refusals 9 to 11 of taps with their bit maps, or 0.
fn refusal(count: usize, images: u32, taps: &[(u8, Tap)]) -> u32 {
    let orders = |t: &Tap| (1..=8).contains(&t[0]) && (1..=images).contains(&t[1]);
    if count > TAPS || images > IMAGES || !taps.iter().all(|(_, t)| orders(t)) {
        return 9;
    }
    let gains = |m: u8, t: &Tap| t[6..].iter().enumerate().all(|(k, &g)| finite(g) && (m >> k & 1 == 0 || above(g)));
    if !taps.iter().all(|(m, t)| t[2..6].iter().all(|&w| finite(w)) && above(t[5]) && gains(*m, t)) {
        return 10;
    }
    let mut numbers: Vec<u32> = taps.iter().map(|(_, t)| t[1]).collect();
    numbers.sort();
    let sums: Vec<f32> = taps.iter().map(|(_, t)| sum(t)).collect();
    let falls = sums.iter().all(|&s| s > 1e-14) && sums.windows(2).all(|s| s[1] <= s[0]);
    if numbers.windows(2).any(|n| n[0] == n[1]) || !falls { 11 } else { 0 }
}

fn word(b: &[u8]) -> u32 {
    u32::from_le_bytes([b[0], b[1], b[2], b[3]])
}

/// Count, images, rays and taps of a packet, or its refusal.
fn read(b: &[u8]) -> Result<(usize, u32, u32, Vec<Tap>), u32> {
    let head = b.get(..HEAD).ok_or(8u32)?;
    let (count, images, rays) = (u16::from_le_bytes([head[0], head[1]]) as usize, word(&head[2..]), word(&head[6..]));
    let (mut rest, mut taps) = (&b[HEAD..], Vec::new());
    for _ in 0..count {
        let map = *rest.first().ok_or(8u32)?;
        let size = 22 + 4 * map.count_ones() as usize;
        let (now, then) = (rest.get(..size).ok_or(8u32)?, &rest[size..]);
        let (mut t, mut gains) = ([0; TAP_WORDS], now[22..].chunks_exact(4));
        t[0] = now[1] as u32;
        (0..5).for_each(|k| t[1 + k] = word(&now[2 + 4 * k..]));
        (0..8).filter(|k| map >> k & 1 == 1).for_each(|k| t[6 + k] = word(gains.next().expect("a gain")));
        taps.push((map, t));
        rest = then;
    }
    let first = if rest.is_empty() { refusal(count, images, &taps) } else { 8 };
    if first == 0 { Ok((count, images, rays, taps.into_iter().map(|(_, t)| t).collect())) } else { Err(first) }
}

/// A gain of either zero has no bit.
fn map(t: &Tap) -> u8 {
    (0..8).filter(|&k| t[6 + k] << 1 != 0).fold(0, |m, k| m | 1 << k)
}

/// The packet of taps, with any count.
fn packet(count: usize, images: u32, rays: u32, taps: &[Tap]) -> Vec<u8> {
    let mut b = (count as u16).to_le_bytes().to_vec();
    [images, rays].iter().for_each(|w| b.extend(w.to_le_bytes()));
    for t in taps {
        b.extend([map(t), t[0] as u8]);
        t[1..6].iter().chain(t[6..].iter().filter(|&&g| g << 1 != 0)).for_each(|w| b.extend(w.to_le_bytes()));
    }
    b
}

/// So many sound taps: numbers in any order, sums that fall, some of them equal.
fn taps(r: &mut Random, count: usize, images: u32) -> Vec<Tap> {
    let step = (images / count.max(1) as u32).max(1);
    let mut all: Vec<Tap> = (0..count as u32)
        .map(|k| {
            let mut t = [0; TAP_WORDS];
            (t[0], t[1]) = (1 + r.below(8) as u32, 1 + k * step);
            (2..5).for_each(|i| t[i] = r.from(-1.0, 1.0).to_bits());
            t[5] = r.from(1.0, 9000.0).to_bits();
            let bands = [0xff, 1 << r.below(8), 1 + r.below(255)][r.below(3)];
            (0..8).filter(|b| bands >> b & 1 == 1).for_each(|b| t[6 + b] = [0.5, 0.25, r.from(0.01, 1.0)][r.below(3)].to_bits());
            t
        })
        .collect();
    all.sort_by(|a, b| sum(b).total_cmp(&sum(a)));
    all
}

/// Something done to taps that are sound.
fn hurt_taps(r: &mut Random, all: &mut [Tap]) {
    let Some(last) = all.len().checked_sub(1) else { return };
    let (i, j) = ([0, last, r.below(last + 1)][r.below(3)], r.below(last + 1));
    match r.below(5) {
        0 => all[i][1] = all[j][1],
        1 => all.swap(i, j),
        2 => all[i][r.below(2)] = [0, 8, 9, 256, IMAGES, IMAGES + 1, u32::MAX][r.below(7)],
        _ => all[i][2 + r.below(12)] = SPECIAL[r.below(SPECIAL.len())],
    }
}

/// Something done to a packet: its count, its length, its old form, any byte.
fn hurt_bytes(r: &mut Random, b: &mut Vec<u8>) {
    match r.below(7) {
        0 => b.swap(0, 1),
        1 => b[..2].copy_from_slice(&(SAID[r.below(SAID.len())] as u16).to_le_bytes()),
        2 => b[r.below(2)] ^= 1 << r.below(8),
        3 => b.truncate(b.len() - 1 - r.below(b.len().min(60))),
        4 => b.extend(std::iter::repeat_n(r.below(2) as u8, 1 + r.below(60))),
        5 => drop(b.remove(1)),
        _ => {
            let k = r.below(b.len());
            b[k] ^= 1 << r.below(8);
        }
    }
}

/// What was read and written, by refusal; and the sound ones of more than 64 taps, more than 255, and as many as there may be.
#[derive(Default)]
struct Seen {
    read: [u64; 12],
    written: [u64; 12],
    long: [u64; 3],
}

fn check_read(b: &[u8], area: usize, seen: &mut Seen) -> Result<(), String> {
    let (mut words, theirs) = (vec![FILL; area], if area < TAPS * TAP_WORDS { Err(5) } else { read(b) });
    let mine = port::packet_read(b, &mut words);
    match (&theirs, mine) {
        (Err(k), Err(l)) if *k == l => {
            seen.read[l as usize] += 1;
            return if words.iter().all(|&w| w == FILL) { Ok(()) } else { Err(format!("refusal {l} left something in the tap area")) };
        }
        (Ok((count, images, rays, _)), Ok(m)) if (m.count, m.images, m.rays) == (*count, *images, *rays) => {}
        (t, m) => return Err(format!("the port reads {m:?}, not {:?}", t.as_ref().map(|t| (t.0, t.1, t.2)))),
    }
    let (count, images, rays, taps) = theirs.expect("taps");
    if words[..count * TAP_WORDS] != taps.concat() || words[count * TAP_WORDS..].iter().any(|&w| w != FILL) {
        return Err(format!("other words of {count} taps, or words past them"));
    }
    seen.read[0] += 1;
    [64, 255, TAPS - 1].iter().zip(&mut seen.long).for_each(|(&n, all)| *all += (count > n) as u64);
    check_write(count, images, rays, &words, OUTPUT, Some(b), seen)
}

fn check_write(count: usize, images: u32, rays: u32, words: &[u32], room: usize, same: Option<&[u8]>, seen: &mut Seen) -> Result<(), String> {
    let taps: Vec<Tap> = words.chunks_exact(TAP_WORDS).take(count).map(|t| t.try_into().expect("a tap")).collect();
    let mapped: Vec<(u8, Tap)> = taps.iter().map(|t| (map(t), *t)).collect();
    let short = words.len() < TAPS * TAP_WORDS || room < OUTPUT;
    let theirs = if short { 5 } else if count > TAPS { 9 } else { refusal(count, images, &mapped) };
    let expected = if theirs == 0 { packet(count, images, rays, &taps) } else { Vec::new() };
    let mut out = vec![FILL as u8; room];
    let mine = port::packet_write(count, images, rays, words, &mut out);
    seen.written[theirs as usize] += 1;
    if mine != (if theirs == 0 { Ok(expected.len()) } else { Err(theirs) }) {
        return Err(format!("the port writes {mine:?}, not {} bytes or refusal {theirs}", expected.len()));
    }
    if !out.starts_with(&expected) || out[expected.len()..].iter().any(|&x| x != FILL as u8) || same.is_some_and(|b| b != expected) {
        return Err(format!("other bytes of {count} taps, or bytes past them"));
    }
    Ok(())
}

/// One packet, sound, hurt in its taps or hurt in its bytes; and taps to write.
fn one(r: &mut Random, seen: &mut Seen) -> Result<(), String> {
    let (count, images) = (COUNTS[r.below(COUNTS.len())], [2000, IMAGES][r.below(2)]);
    let (mut all, rays) = (taps(r, count, images), r.bits() as u32);
    let how = r.below(4);
    if how == 1 {
        hurt_taps(r, &mut all);
    }
    let mut b = packet(count, images, rays, &all);
    if how >= 2 {
        hurt_bytes(r, &mut b);
    }
    let area = TAPS * TAP_WORDS;
    check_read(&b, if r.chance(40) { area - 1 } else { area + r.below(20) }, seen).map_err(|words| format!("{} bytes, {count} taps: {words}", b.len()))?;
    let mut words = all.concat();
    words.resize(area.max(words.len()), FILL);
    if r.chance(40) {
        words.truncate([area - 1, 896][r.below(2)]);
    }
    let said = if r.chance(8) { [1025, 1026, 65_536, 65_537, usize::MAX][r.below(5)] } else { count };
    let room = if r.chance(40) { [OUTPUT - 1, 3465, 0][r.below(3)] } else { OUTPUT + r.below(20) };
    check_write(said, if r.chance(20) { IMAGES + 1 } else { images }, rays, &words, room, None, seen).map_err(|words| format!("{said} taps to write: {words}"))
}

pub fn run(count: u64, seed: u64) {
    let (mut r, mut seen) = (Random::new(seed), Seen::default());
    for k in 0..count {
        if let Err(words) = one(&mut r, &mut seen) {
            eprintln!("compare: packet {k} of seed {seed}: {words}");
            std::process::exit(1);
        }
    }
    let [old, byte, full] = seen.long;
    println!("equal on {count} packets, read and written");
    println!("  read, and refused 5, 8 to 11: {} {} {:?}; written again, written, and refused 5, 9 to 11: {} {} {:?}", seen.read[0], seen.read[5], &seen.read[8..], seen.written[0], seen.written[5], &seen.written[9..]);
    println!("  read with more than 64 taps: {old}, more than 255: {byte}, {TAPS}: {full}");
}
