//! Runs stages of the port and the Rust on generated cases and on files, stops at the first difference, and makes its case small.
use crate::calls::{self, Called};
use crate::front::{self, Damage, DAMAGES};
use crate::paths::{self, Walked};
use crate::planes::{self, Built};
use crate::taps::{self, Heard};
use crate::scenes::{self, Kind, KINDS};
use crate::tree::{self, Traced};
use oracle::Case;
use port::{Loaded, TAPS};
use std::collections::BTreeMap;

/// What the cases covered.
#[derive(Default)]
struct Coverage {
    kinds: BTreeMap<Kind, u64>,
    calls: u64,
    refusals: BTreeMap<u32, u64>,
    triangles: u64,
    far: u64,
    most: usize,
    searches: u64,
    images: u64,
    candidates: u64,
    taps: u64,
    trees: u64,
    nodes: u64,
    deepest: u64,
    rays: u64,
    hits: u64,
    built: Built,
    walked: Walked,
    called: Called,
}

/// What the tests of a path are called, 0 for a candidate.
const FATES: [&str; 8] = ["candidates", "too far", "not crossed", "off the surface", "too long", "faded", "blocked", "faint"];

impl Coverage {
    fn add_paths(&mut self, w: Walked) {
        let all = &mut self.walked;
        all.fates.iter_mut().zip(w.fates).for_each(|(a, b)| *a += b);
        all.orders.iter_mut().zip(w.orders).for_each(|(a, b)| *a += b);
        all.rays += w.rays;
        all.most.iter_mut().zip(w.most).for_each(|(a, b)| *a += b);
        all.dimmed += w.dimmed;
        all.bounces += w.bounces;
    }

    fn add_planes(&mut self, b: Built) {
        let all = &mut self.built;
        all.planes += b.planes;
        all.fitted += b.fitted;
        all.triangles += b.triangles;
        all.edges += b.edges;
        all.buried += b.buried;
        all.cut += b.cut;
    }

    fn add_taps(&mut self, h: Heard) {
        self.searches += (h.images > 0) as u64;
        self.images += h.images;
        self.candidates += h.candidates;
        self.taps += h.taps;
    }

    fn add_tree(&mut self, t: Traced) {
        self.trees += (t.nodes > 0) as u64;
        self.nodes += t.nodes;
        self.deepest = self.deepest.max(t.depth);
        self.rays += t.rays;
        self.hits += t.hits;
    }

    fn add(&mut self, answer: Loaded) {
        self.calls += 1;
        match answer {
            Loaded::Refused(k) => *self.refusals.entry(k).or_default() += 1,
            Loaded::Triangles { kept, .. } => {
                self.triangles += kept as u64;
                self.most = self.most.max(kept);
            }
        }
    }

    fn print(&self) {
        for (kind, n) in &self.kinds {
            println!("  {kind:?}: {n} cases");
        }
        for (k, n) in &self.refusals {
            println!("  refusal {k}: {n} calls");
        }
        println!("  triangles: {}, at most {} in a scene; passes that met a far corner: {}", self.triangles, self.most, self.far);
        println!("  trees: {}, {} nodes, at most {} deep; {} rays, {} hits", self.trees, self.nodes, self.deepest, self.rays, self.hits);
        let b = &self.built;
        println!("  planes: {}, {} fitted, of {} triangles, {} border edges; {} patches buried, {} planes past the limit", b.planes, b.fitted, b.triangles, b.edges, b.buried, b.cut);
        println!("  searches: {}, {} images, {} candidates, {} taps", self.searches, self.images, self.candidates, self.taps);
        let w = &self.called;
        println!("  whole calls: {}, {} of them with room for 250,000, {} with longer areas; {} results, {} silent, {} images, {} taps", w.calls, w.wide, w.longer, w.packets, w.silent, w.images, w.taps);
        println!("    of order 7 and more: {}; at most {} images and {} taps in a result", w.deep, w.most_images, w.most_taps);
        let [old, byte, full, cut] = w.long;
        println!("    with more than 64 taps: {old}, of which the Rust with its own limit keeps the first 64; more than 255: {byte}; {TAPS}: {full}, {cut} of them cut from more");
        println!("    packets: {}, {} of them with the bytes of the Rust's taps; refusals 1 to 7: {:?}; {} cases left out", w.packets, w.bytes, &w.refusals[1..], w.left_out);
        let w = &self.walked;
        println!("  paths: {}, {} rays", w.fates.iter().sum::<u64>(), w.rays);
        let most: Vec<String> = w.most.iter().enumerate().filter(|(_, &n)| n > 0).map(|(limit, n)| format!("{n} under limit {limit}")).collect();
        println!("    with as many rays as may be: {}", most.join(", "));
        for (name, n) in FATES.iter().zip(w.fates) {
            println!("    {name}: {n}");
        }
        println!("    candidates of order 1 to 8: {:?}; {} met a surface on the way; {} bounces at the same points", w.orders, w.dimmed, w.bounces);
    }
}

/// A smaller case with the same difference, as far as meshes and triples can be left out.
fn small(mut c: Case, d: Damage) -> Case {
    let differs = |c: &Case| matches!(stages(c, d, None), Some(Err(_)));
    loop {
        let mut tries: Vec<Case> = Vec::new();
        for k in 0..c.meshes.len() {
            let mut less = c.clone();
            less.meshes.remove(k);
            tries.push(less);
            let len = c.meshes[k].indices.len();
            for (from, to) in [(0, len / 6 * 3), (len / 6 * 3, len), (len.saturating_sub(3), len)] {
                let mut less = c.clone();
                less.meshes[k].indices.drain(from..to);
                tries.push(less);
            }
        }
        match tries.into_iter().find(|t| t.meshes.iter().map(|m| m.indices.len() + 1).sum::<usize>() < c.meshes.iter().map(|m| m.indices.len() + 1).sum() && differs(t)) {
            Some(less) => c = less,
            None => return c,
        }
    }
}

fn fail(c: &Case, d: Damage, words: &str) -> ! {
    let file = format!("{}.case", c.name);
    let written = std::fs::write(&file, small(c.clone(), d).to_text());
    eprintln!("compare: {} ({d:?}): {words}", c.name);
    match written {
        Ok(()) => eprintln!("compare: the case, made small, is in {file}; run it again with: compare file {file}"),
        Err(e) => eprintln!("compare: {file} could not be written: {e}"),
    }
    std::process::exit(1)
}

/// Slips of all stages: those of the front, then those of the tree, of the planes, of the paths, of the taps, and of the whole call.
const STAGES: [usize; 6] = [front::SLIPS, tree::SLIPS, planes::SLIPS, paths::SLIPS, taps::SLIPS, calls::SLIPS];
const SLIPS: usize = front::SLIPS + tree::SLIPS + planes::SLIPS + paths::SLIPS + taps::SLIPS + calls::SLIPS;
const WHOLE: usize = 5;

/// The stage of a slip, and which of that stage's it is.
fn slip_of(mut k: usize) -> (usize, usize) {
    let mut stage = 0;
    while k >= STAGES[stage] {
        k -= STAGES[stage];
        stage += 1;
    }
    (stage, k)
}

/// What a call went through.
#[derive(Clone, Copy)]
struct Went {
    answer: Loaded,
    far: u64,
    traced: Traced,
    built: Built,
    walked: Walked,
    heard: Heard,
    called: Called,
}

impl Went {
    fn none() -> Went {
        Went { answer: Loaded::Refused(0), far: 0, traced: Traced::default(), built: Built::default(), walked: Walked::default(), heard: Heard::default(), called: Called::default() }
    }
}

/// One call, stage by stage. None where the damage or the slip does not apply.
fn stages(c: &Case, d: Damage, planted: Option<usize>) -> Option<Result<Went, String>> {
    let planted = planted.map(slip_of);
    if let Some((WHOLE, k)) = planted {
        let backend = (front::expected(c, d) == 0).then(|| oracle::built(c, false));
        return calls::run(c, d, backend.as_ref(), Some(k)).map(|done| done.map(|called| Went { called, ..Went::none() }));
    }
    let at = |stage: usize| planted.and_then(|(s, k)| (s == stage).then_some(k));
    let ends_before = |stage: usize| planted.is_none_or(|(s, _)| s < stage);
    let left = match front::run(c, d, at(0))? {
        Ok(left) => left,
        Err(words) => return Some(Err(words)),
    };
    let mut went = Went { answer: left.answer, far: left.far, ..Went::none() };
    let mut backend = matches!(left.answer, Loaded::Triangles { .. }).then(|| oracle::built(c, true));
    if planted.is_none() {
        match calls::run(c, d, backend.as_ref(), None)? {
            Ok(called) => went.called = called,
            Err(words) => return Some(Err(words)),
        }
    }
    let (Loaded::Triangles { kept, triples, .. }, Some(backend)) = (left.answer, &mut backend) else {
        return ends_before(1).then_some(Ok(went));
    };
    let tree = match tree::run(c, backend, &left.areas, kept, triples, at(1))? {
        Ok((traced, tree)) => {
            went.traced = traced;
            tree
        }
        Err(words) => return Some(Err(words)),
    };
    let Some(tree) = tree else {
        return ends_before(2).then_some(Ok(went));
    };
    let planes = match planes::run(c, backend, &left.areas, triples, &tree, at(2))? {
        Ok((built, planes)) => {
            went.built = built;
            planes
        }
        Err(words) => return Some(Err(words)),
    };
    if planes.is_empty() {
        return ends_before(3).then_some(Ok(went));
    }
    let scene = paths::scene(c, &left.areas, triples, &tree, &planes);
    match paths::run(c, backend, &scene, planes.len(), at(3))? {
        Ok(walked) => went.walked = walked,
        Err(words) => return Some(Err(words)),
    }
    match taps::run(c, backend, &scene, at(4))? {
        Ok(heard) => Some(Ok(Went { heard, ..went })),
        Err(words) => Some(Err(words)),
    }
}

fn check(c: &Case, cover: &mut Coverage) {
    for d in DAMAGES {
        match stages(c, d, None) {
            Some(Ok(went)) => {
                cover.add(went.answer);
                cover.far += went.far;
                cover.add_tree(went.traced);
                cover.add_planes(went.built);
                cover.add_paths(went.walked);
                cover.add_taps(went.heard);
                cover.called.add(went.called);
            }
            Some(Err(words)) => fail(c, d, &words),
            None => {}
        }
    }
}

/// `count` cases, the kinds in turn.
pub fn generated(count: u64, seed: u64) {
    let start = std::time::Instant::now();
    let mut cover = Coverage::default();
    for k in 0..count {
        let kind = KINDS[k as usize % KINDS.len()];
        check(&scenes::listed(kind, seed.wrapping_mul(1_000_003) + k), &mut cover);
        *cover.kinds.entry(kind).or_default() += 1;
        if (k + 1) % (count / 4).max(1) == 0 {
            println!("{} of {count} cases equal, {:.1} s", k + 1, start.elapsed().as_secs_f32());
        }
    }
    println!("equal on {count} cases, {} calls, in {:.1} s", cover.calls, start.elapsed().as_secs_f32());
    cover.print();
}

/// The cases of files.
pub fn files(names: &[&str]) {
    let mut cover = Coverage::default();
    for name in names {
        let cases = Case::read_file(name).unwrap_or_else(|e| {
            eprintln!("compare: {e}");
            std::process::exit(2)
        });
        for c in cases {
            check(&c, &mut cover);
        }
    }
    println!("equal on {} files, {} calls", names.len(), cover.calls);
    cover.print();
}

/// Plants slips into the port's answers: each must be found.
pub fn slips(count: u64, seed: u64) {
    let (mut planted, mut missed) = (0, 0);
    for k in 0..count {
        let c = scenes::listed(KINDS[k as usize % KINDS.len()], seed.wrapping_mul(1_000_003) + k);
        for s in 0..SLIPS {
            match stages(&c, Damage::None, Some(s)) {
                Some(Err(_)) => planted += 1,
                Some(Ok(_)) => {
                    planted += 1;
                    missed += 1;
                    eprintln!("compare: slip {s} on {} was not found", c.name);
                }
                None => {}
            }
        }
    }
    println!("{} of {planted} planted slips found", planted - missed);
    if missed > 0 {
        std::process::exit(1);
    }
}
