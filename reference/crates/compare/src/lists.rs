//! Lists of one scene at different lengths (document 02, note 13): the taps for a are the first a of the taps for b, with equal images and rays, and both
//! calls are refused alike or neither is.
use crate::calls;
use crate::front::{self, Damage};
use crate::scenes::{self, Kind, KINDS};
use oracle::Case;
use port::{Traced, Work, OUTPUT, TAPS};

/// Every length up to this where a search is short, and those that are tried of every list.
const EVERY: u32 = 64;
const SOME: [u32; 22] = [0, 1, 2, 16, 63, 64, 65, 128, 254, 255, 256, 257, 300, 511, 512, 513, 1022, 1023, 1024, 1025, 65_536, u32::MAX];

/// Orders above this are no short search; those of hard rooms are at most the other, since a scene is searched at every length.
const SHORT: u32 = 3;
const HARD: u32 = 5;

/// The place of the columns among the areas.
const COLUMNS: usize = 0;

/// Bytes of a packet's count, and of all before its taps: count, images and rays.
const COUNT: usize = 2;
const HEAD: usize = 10;

/// What was held against each other.
#[derive(Default)]
struct Held {
    lists: u64,
    taps: u64,
    long: [u64; 3],
    refused: [u64; 8],
    slips: u64,
    left_out: u64,
}

/// One call: what it answered, and its output area, which was full of a pattern.
struct Printout {
    answer: Traced,
    out: Vec<u8>,
}

fn pattern(k: usize) -> u8 {
    1 + (k % 251) as u8
}

fn call(c: &Case, room: u32, d: Damage, length: u32, work: &mut Work) -> Printout {
    let mut lent = front::lent(c);
    (lent.counts[1], lent.room) = (length, room);
    front::cut_part(&mut lent, d);
    let mut out: Vec<u8> = (0..OUTPUT).map(pattern).collect();
    let answer = port::trace(&lent, work, &mut out, &c.source, &c.listener, c.separated);
    Printout { answer, out }
}

/// What is wrong with a short list beside a long one, in words.
fn difference(a: u32, short: &Printout, long: &Printout) -> Option<String> {
    let (s, l) = (&short.answer, &long.answer);
    if s.refusal != l.refusal {
        return Some(format!("refusals {} and {}", s.refusal, l.refusal));
    }
    if (s.images, s.rays) != (l.images, l.rays) {
        return Some(format!("images and rays {:?} and {:?}", (s.images, s.rays), (l.images, l.rays)));
    }
    if s.count != l.count.min(a as usize) {
        return Some(format!("{} taps of {}", s.count, l.count));
    }
    if s.refusal != 0 {
        return (short.out.iter().enumerate().any(|(k, &x)| x != pattern(k))).then(|| "the output was written".to_string());
    }
    let (p, q) = (&short.out[..s.bytes], &long.out[..l.bytes]);
    if p[..COUNT] != (s.count as u16).to_le_bytes() || p[COUNT..HEAD] != q[COUNT..HEAD] || p.len() > q.len() || p[HEAD..] != q[HEAD..p.len()] {
        return Some("the short packet's taps are not the first of the long one's".to_string());
    }
    (s.count == l.count && p != q).then(|| "as many taps, but other bytes".to_string())
}

/// The printout of a list that drops its best tap, as one cut from the wrong end would.
fn slipped(c: &Case, room: u32, a: u32, long: &Printout, work: &mut Work) -> Option<Printout> {
    if a as usize >= long.answer.count || a == 0 {
        return None;
    }
    let more = call(c, room, Damage::None, a + 1, work);
    let one = call(c, room, Damage::None, 1, work);
    let mut out = more.out.clone();
    out.drain(HEAD..one.answer.bytes);
    out[..COUNT].copy_from_slice(&(a as u16).to_le_bytes());
    let answer = Traced { count: a as usize, bytes: more.answer.bytes - (one.answer.bytes - HEAD), ..more.answer };
    Some(Printout { answer, out })
}

/// All lengths of a call, damaged or not, against each other.
fn check(c: &Case, room: u32, d: Damage, held: &mut Held) -> Result<(), String> {
    let t = c.meshes.iter().map(|m| m.indices.len() / 3).sum::<usize>();
    let mut work = Work::new(t, room.min(250_000) as usize);
    if let Damage::Area(i) = d {
        work.cut(i);
    }
    let every = if c.settings.order <= SHORT { 0..EVERY + 1 } else { 0..0 };
    let mut lengths: Vec<u32> = every.chain(SOME).collect();
    lengths.sort();
    lengths.dedup();
    let all: Vec<Printout> = lengths.iter().map(|&a| call(c, room, d, a, &mut work)).collect();
    let long = all.last().expect("a list");
    for (j, (&a, short)) in lengths.iter().zip(&all).enumerate() {
        // against the longest, and against the next
        for other in [long, &all[(j + 1).min(all.len() - 1)]] {
            if let Some(words) = difference(a, short, other) {
                return Err(format!("lists of {a} and more: {words}"));
            }
        }
    }
    let a = (long.answer.count / 2) as u32;
    if let Some(wrong) = slipped(c, room, a, long, &mut work) {
        if difference(a, &wrong, long).is_none() {
            return Err(format!("a list of {a} without its best tap was not told from a sound one"));
        }
        held.slips += 1;
    }
    held.lists += all.len() as u64;
    held.taps += long.answer.count as u64;
    [64, 255, TAPS - 1].iter().zip(&mut held.long).for_each(|(&n, all)| *all += (long.answer.count > n) as u64);
    held.refused[long.answer.refusal as usize] += 1;
    Ok(())
}

/// A scene at several list lengths: with room for its candidates, with room for one less, with a scene part too long and an area too short.
fn scene(c: &Case, held: &mut Held) -> Result<(), String> {
    if oracle::refusal_before_search(c) != 0 {
        return check(c, c.settings.room.min(250_001), Damage::None, held);
    }
    let backend = oracle::built(c, false);
    if calls::too_many_images(c, backend.oracle_planes().len()) {
        held.left_out += 1;
        return Ok(());
    }
    let candidates = oracle::run_built(c, &backend).candidates;
    for d in [Damage::None, Damage::Part(1, true), Damage::Area(COLUMNS)] {
        check(c, candidates, d, held)?;
    }
    if candidates > 0 {
        check(c, candidates - 1, Damage::None, held)?;
    }
    Ok(())
}

/// `count` scenes, the kinds in turn; every other one of order 3 and more, so that lists fill.
pub fn run(count: u64, seed: u64) {
    let (start, mut held) = (std::time::Instant::now(), Held::default());
    for k in 0..count {
        let kind = KINDS[k as usize % KINDS.len()];
        let mut c = scenes::case(kind, seed.wrapping_mul(1_000_003) + k);
        if k / KINDS.len() as u64 % 2 == 1 {
            c.settings.order = c.settings.order.max(3);
        }
        if kind == Kind::Hard {
            c.settings.order = c.settings.order.min(HARD);
        }
        if let Err(words) = scene(&c, &mut held) {
            eprintln!("compare: {}: {words}", c.name);
            std::process::exit(1);
        }
    }
    println!("{} lists of {count} scenes, each the first of every longer one, in {:.1} s", held.lists, start.elapsed().as_secs_f32());
    let [old, byte, full] = held.long;
    println!("  taps of the longest lists: {}; with more than 64: {old}, more than 255: {byte}, {TAPS}: {full}", held.taps);
    println!("  answered and refused 1 to 7: {:?}; {} scenes left out", held.refused, held.left_out);
    println!("  {} lists without their best tap, all told from sound ones", held.slips);
}
