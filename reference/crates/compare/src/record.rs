//! A sample of the Rust's answers for the program `replay` of the port, which runs it where there is no Rust. The port has no part in it.
use crate::front;
use crate::scenes::{self, Kind, KINDS};
use oracle::{Case, Output, Settings};
use std::fmt::Write;

/// What the areas and lines of `replay` hold.
const TRIPLES: usize = 64;
const ROOM: u32 = 320;
const WORDS: usize = 8192;

/// Candidates, words of a line and images of a case, at most, so that the sample stays small and quick; a case of long lists has room for all that
/// `replay` holds. Of a generated case SHORT words beside its settings.
const FEW: u32 = 64;
const LINE: usize = 2048;
const SHORT: usize = 404;
const IMAGES: u32 = 20_000;

/// Taps of the cases of long lists: at and around the limit of the published Rust and that of one byte, and more.
const LONG: [(usize, usize); 6] = [(65, 65), (66, 200), (254, 255), (256, 256), (257, 270), (271, 300)];

/// The room that a case has where it says nothing.
const UNSAID: u32 = 250_000;

/// Seeds tried for a kind.
const TRIES: u64 = 4000;

fn bits(v: &[f32]) -> impl Iterator<Item = u32> + '_ {
    v.iter().map(|x| x.to_bits())
}

/// The parts of a line: crates/replay/src/main.rt says what they are.
fn parts(c: &Case, o: &Output) -> Vec<Vec<u32>> {
    let l = front::lent(c);
    let packet = if o.refusal == 0 { o.packet() } else { Vec::new() };
    let mut head: Vec<u32> = [l.meshes.len(), l.transforms.len(), l.positions.len(), l.indices.len(), l.materials.len()].map(|n| n as u32).to_vec();
    head.extend(l.counts);
    head.extend(bits(&l.floats));
    head.extend([l.room, l.rows, c.separated as u32]);
    head.extend(bits(&c.source).chain(bits(&c.listener)));
    head.extend([o.refusal, o.taps.len() as u32, o.images, o.rays as u32, packet.len() as u32]);
    let words = packet.chunks(4).map(|b| b.iter().rev().fold(0, |w, &x| w << 8 | x as u32)).collect();
    vec![head, l.meshes, bits(&l.transforms).collect(), bits(&l.positions).collect(), l.indices, bits(&l.materials).collect(), words]
}

/// The case with room for its candidates, `most` at most, for one less where `short`, and what the Rust answers. None where it does not fit, or where a
/// float of the packet is a zero with a sign or NaN, which document 01 leaves open.
fn answered(c: &Case, most: u32, short: bool) -> Option<(Case, Output)> {
    let mut c = c.clone();
    if c.meshes.iter().map(|m| m.indices.len() / 3).sum::<usize>() > TRIPLES {
        return None;
    }
    let unsaid = c.settings.room == UNSAID;
    if oracle::refusal_before_search(&c) == 0 {
        let planes = oracle::built(&c, false).oracle_planes().len() as u64;
        if oracle::images_formula(planes, planes, c.settings.order) > IMAGES as u64 {
            return None;
        }
        let found = oracle::run(&c, false).candidates;
        if unsaid && short && found == 0 {
            return None;
        }
        if unsaid {
            c.settings.room = found - short as u32;
        }
        if c.settings.room > most {
            return None;
        }
    } else if unsaid {
        c.settings.room = FEW;
    }
    let o = oracle::run(&c, false);
    let open = |x: &f32| x.to_bits() == 0x8000_0000 || x.is_nan();
    let plain = !o.taps.iter().any(|t| t.direction.iter().chain([&t.delay_samples]).chain(&t.gain.0).any(open));
    plain.then_some((c, o))
}

/// The lines, and what `replay` prints of them.
#[derive(Default)]
struct Sample {
    lines: String,
    printed: String,
    cases: u64,
}

impl Sample {
    fn add(&mut self, c: &Case, o: &Output) {
        self.lines.push_str(&c.name);
        for part in parts(c, o) {
            self.lines.push(' ');
            part.iter().for_each(|w| write!(self.lines, "{w:08x}").unwrap());
        }
        self.lines.push('\n');
        match o.refusal {
            0 => writeln!(self.printed, "{}: ok, taps {} images {} rays {} bytes {}", c.name, o.taps.len(), o.images, o.rays, o.packet().len()).unwrap(),
            k => writeln!(self.printed, "{}: ok, refused {k}", c.name).unwrap(),
        }
        self.cases += 1;
    }
}

fn words(c: &Case, o: &Output) -> usize {
    parts(c, o).iter().map(Vec::len).sum()
}

/// Adds `count` cases of a kind. They differ in what they come to, as far as the seeds give it: every refusal at most twice, no tap at most twice, the
/// rest with taps; one refusal 7.
fn add_kind(all: &mut Sample, kind: Kind, count: usize) {
    let (mut taken, mut seen, mut refusals) = (0, [0; 8], 0);
    for seed in 0..TRIES {
        if taken == count {
            break;
        }
        // room for one less, once a kind
        let short = taken + 1 == count && seen[7] == 0;
        let Some((mut c, o)) = answered(&scenes::case(kind, seed), FEW, short) else { continue };
        if short && seed + TRIES / 8 < TRIES && o.refusal != 7 {
            continue;
        }
        let sort = if o.refusal == 0 && o.taps.is_empty() { 0 } else { o.refusal as usize };
        let few = (o.refusal != 0 || o.taps.is_empty()) && seen[sort] >= 2;
        if words(&c, &o) > SHORT + port::COUNTS + port::FLOATS || few {
            continue;
        }
        if o.refusal != 0 || o.taps.is_empty() {
            seen[sort] += 1;
        }
        refusals += (o.refusal != 0) as u32;
        if short && o.refusal == 7 {
            c.name.push_str("-short");
        }
        all.add(&c, &o);
        taken += 1;
    }
    println!("{kind:?}: {taken} cases, {refusals} refused");
}

/// Adds `count` cases of a kind whose probe settings or coefficients of the air change the answer, or refuse it.
fn add_probed(all: &mut Sample, kind: Kind, count: usize) {
    let (mut taken, mut limits) = (0, Vec::new());
    for seed in 0..TRIES {
        let c = scenes::probed(kind, seed);
        if taken == count || limits.contains(&c.settings.crossing_limit) {
            continue;
        }
        let Some((mut c, o)) = answered(&c, FEW, false) else { continue };
        let plain = {
            let d = Settings::default();
            let mut plain = c.clone();
            (plain.settings.crossing_limit, plain.settings.probe_radius, plain.settings.air) = (d.crossing_limit, d.probe_radius, d.air);
            oracle::run(&plain, false)
        };
        let differs = plain.refusal != o.refusal || o.refusal == 0 && plain.packet() != o.packet();
        if words(&c, &o) <= LINE && differs {
            c.name.push_str("-probed");
            limits.push(c.settings.crossing_limit);
            all.add(&c, &o);
            taken += 1;
        }
    }
    println!("{kind:?} with probe settings and air: {taken} cases");
}

/// Adds cases with lists as long as LONG says: hard rooms, the first seed of each, and where the room has more taps, the list cut to so many.
fn add_long(all: &mut Sample) {
    let mut lengths = Vec::new();
    for (least, most) in LONG {
        let fits = (0..TRIES).find_map(|seed| {
            let mut c = scenes::probed(Kind::Hard, seed);
            c.settings.max_reflections = most as u32;
            let (mut c, o) = answered(&c, ROOM, false)?;
            c.name.push_str("-long");
            let named = format!("{} ", c.name);
            let fits = o.refusal == 0 && (least..=most).contains(&o.taps.len()) && words(&c, &o) <= WORDS && !all.lines.contains(&named);
            fits.then_some((c, o))
        });
        if let Some((c, o)) = fits {
            lengths.push(o.taps.len());
            all.add(&c, &o);
        }
    }
    println!("long lists, of {lengths:?} taps");
}

/// Writes `stdin` and `stdout` to the folder of the program: the cases of the files that fit, then `count` of each kind, then up to `count`
/// each of curtains, limits and booths with other probe settings and air, then those of long lists.
pub fn run(folder: &str, count: usize, files: &[&str]) {
    let mut all = Sample::default();
    for name in files {
        let cases = Case::read_file(name).unwrap_or_else(|e| {
            eprintln!("compare: {e}");
            std::process::exit(2)
        });
        for c in cases {
            match answered(&c, FEW, false) {
                Some((c, o)) if words(&c, &o) <= LINE => all.add(&c, &o),
                _ => eprintln!("compare: {} does not fit", c.name),
            }
        }
    }
    println!("{} cases of {} files", all.cases, files.len());
    KINDS.into_iter().filter(|&kind| kind != Kind::Hard).for_each(|kind| add_kind(&mut all, kind, count));
    [Kind::Curtains, Kind::Limits, Kind::Booth].into_iter().for_each(|kind| add_probed(&mut all, kind, count));
    add_long(&mut all);
    writeln!(all.printed, "{} cases, 0 differ", all.cases).unwrap();
    let head = "# The Rust's answers, recorded by `compare record`; crates/replay/src/main.rt says what stands in a line.\n";
    println!("{} cases, {} bytes", all.cases, head.len() + all.lines.len());
    for (name, text) in [("stdin", head.to_string() + &all.lines), ("stdout", all.printed)] {
        if let Err(e) = std::fs::write(format!("{folder}/{name}"), text) {
            eprintln!("compare: {folder}/{name}: {e}");
            std::process::exit(2)
        }
    }
}
