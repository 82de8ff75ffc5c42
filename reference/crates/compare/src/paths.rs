//! Single paths against the Rust, sequence by sequence: fate, rays traced, the bounces' points, and the candidate's energy, delay, direction and
//! gains as bits.
//! The port takes its own planes, their borders in another order than the Rust's (only the least distance to one is used).
use crate::front;
use crate::random::Random;
use oracle::{Case, Table};
use port::{Areas, Path, Planes, Scene, Tree, ORDER};
use quasar_backends::cpu_simd::{CpuSimdComputeBackend, OraclePath};

/// At most so many sequences of one plane, of two, and of more, in a scene.
const ONE: usize = 64;
const TWO: usize = 120;
const MORE: usize = 120;

/// Candidates of a scene that are tried again with the greatest distance next to their own length.
const NEAR: usize = 6;

/// What was compared of a scene: paths by fate, the rays traced for them, candidates by order.
#[derive(Clone, Copy, Debug)]
pub struct Walked {
    pub fates: [u64; 8],
    pub rays: u64,
    /// Bounces whose points were compared.
    pub bounces: u64,
    /// Candidates that a surface was in the way of, for some of their traces.
    pub dimmed: u64,
    pub orders: [u64; ORDER],
    /// Paths for which as many rays were traced as may be, by the crossing limit.
    pub most: [u64; 33],
}

impl Default for Walked {
    fn default() -> Walked {
        Walked { fates: [0; 8], rays: 0, bounces: 0, dimmed: 0, orders: [0; ORDER], most: [0; 33] }
    }
}

/// Planted slips of this stage: another fate, a ray more, a gain's last bit, the last bit of a bounce.
pub const SLIPS: usize = 4;

/// The same bits, or zeros of either sign, or what is no number.
pub(crate) fn same(a: f32, b: f32) -> bool {
    a.to_bits() == b.to_bits() || (a == 0.0 && b == 0.0) || (a.is_nan() && b.is_nan())
}

fn equal(p: &Path, q: &OraclePath) -> bool {
    let candidates = match (&p.candidate, &q.candidate) {
        (Some(a), Some(b)) => a.iter().zip(b).all(|(&x, &y)| same(x, y)),
        (None, None) => true,
        _ => false,
    };
    p.fate == q.fate as u32 && p.rays as u64 == q.rays && candidates
}

/// The port's bounces: their fate, and their points.
type Bounces = (u32, [[f32; 3]; ORDER]);

/// Whether the bounces are the Rust's. Of an image that is too far it finds none.
fn equal_bounces((fate, points): &Bounces, q: &OraclePath) -> bool {
    match q.fate {
        1 => true,
        2 | 3 => *fate == q.fate as u32,
        _ => *fate == 0 && !q.points.is_empty() && q.points.iter().zip(points).all(|(a, b)| a.iter().zip(b).all(|(&x, &y)| same(x, y))),
    }
}

/// Changes the port's answer as a fault would; false where the slip does not apply.
fn slip(p: &mut Path, (fate, points): &mut Bounces, kind: usize) -> bool {
    match (kind, &mut p.candidate) {
        (3, Some(_)) if *fate == 0 && points[0][2] != 0.0 => points[0][2] = points[0][2].next_up(),
        (0, _) => p.fate = (p.fate + 1) % 8,
        (1, _) if p.rays > 0 => p.rays += 1,
        (2, Some(c)) if c[5] > 0.0 && c[5].is_finite() => c[5] = c[5].next_up(),
        _ => return false,
    }
    true
}

/// The port's scene; the tree stands over the first triangles of columns of `triples` floats.
pub fn scene(c: &Case, areas: &Areas, triples: usize, tree: &Tree, planes: &Planes) -> Scene {
    let l = front::lent(c);
    Scene::new(tree.clone(), areas.columns.clone(), triples, l.materials, planes.clone(), l.counts, l.floats)
}

/// A plane other than the one before it, mostly.
fn another(r: &mut Random, count: usize, last: Option<u32>) -> u32 {
    let p = r.below(count) as u32;
    if last == Some(p) && !r.chance(16) { (p + 1) % count as u32 } else { p }
}

/// A longer sequence: one that gave a candidate with a plane more at an end, or any.
fn longer(r: &mut Random, count: usize, good: &[Vec<u32>]) -> Vec<u32> {
    if !good.is_empty() && !r.chance(4) {
        let mut seq = good[r.below(good.len())].clone();
        if r.chance(2) {
            seq.push(another(r, count, seq.last().copied()));
        } else {
            seq.insert(0, another(r, count, seq.first().copied()));
        }
        seq.truncate(ORDER);
        return seq;
    }
    let mut seq = Vec::new();
    for _ in 0..3 + r.below(ORDER - 2) {
        seq.push(another(r, count, seq.last().copied()));
    }
    seq
}

/// The sequences of a scene, each after the answer to the one before.
struct Sequences {
    r: Random,
    count: usize,
    turn: usize,
    good: Vec<Vec<u32>>,
}

impl Sequences {
    fn next(&mut self) -> Option<Vec<u32>> {
        let (ones, twos) = (self.count.min(ONE), (self.count * self.count.saturating_sub(1)).min(TWO));
        let t = self.turn;
        self.turn += 1;
        if t < ones {
            return Some(vec![if self.count <= ONE { t } else { self.r.below(self.count) } as u32]);
        }
        if t < ones + twos {
            let k = t - ones;
            let (p, q) = if self.count * (self.count - 1) <= TWO { (k / (self.count - 1), k % (self.count - 1)) } else { (self.r.below(self.count), self.r.below(self.count - 1)) };
            return Some(vec![p as u32, if q < p { q } else { q + 1 } as u32]);
        }
        (t < ones + twos + MORE).then(|| longer(&mut self.r, self.count, &self.good))
    }
}

/// The two sides, and what was compared so far.
struct Sides<'a> {
    case: &'a Case,
    port: Scene,
    rust: &'a mut CpuSimdComputeBackend,
    planted: Option<usize>,
    slipped: bool,
    out: Walked,
}

impl Sides<'_> {
    /// Compares one path; the Rust's answer.
    fn path(&mut self, seq: &[u32]) -> Result<OraclePath, String> {
        let c = self.case;
        let mut mine = self.port.path(seq, &c.source, &c.listener);
        let mut bounces = self.port.bounces(seq, &c.source, &c.listener);
        let places: Vec<usize> = seq.iter().map(|&p| p as usize).collect();
        let theirs = self.rust.oracle_path(&places, &c.source, &c.listener, &Table(&c.materials));
        if let Some(k) = self.planted {
            self.slipped |= slip(&mut mine, &mut bounces, k);
        }
        if !equal(&mine, &theirs) {
            return Err(format!("the path by way of planes {seq:?}, at most {} far: port {mine:?}, Rust {theirs:?}", self.port.floats[1]));
        }
        if !equal_bounces(&bounces, &theirs) {
            return Err(format!("the bounces on planes {seq:?}: port {bounces:?}, Rust fate {}, {:?}", theirs.fate, theirs.points));
        }
        self.out.bounces += theirs.points.len() as u64;
        self.out.fates[theirs.fate.min(7) as usize] += 1;
        self.out.rays += theirs.rays;
        let limit = c.settings.crossing_limit as usize;
        self.out.most[limit] += (theirs.rays == 18 * (limit as u64 + 1) * (seq.len() as u64 + 1)) as u64;
        if theirs.fate == 0 {
            self.out.orders[seq.len() - 1] += 1;
            self.out.dimmed += (theirs.rays > 18 * (seq.len() as u64 + 1)) as u64;
        }
        Ok(theirs)
    }

    /// Compares a path of this length under limits next to it.
    fn limits(&mut self, seq: &[u32], length: f32) -> Result<(), String> {
        let far = self.port.floats[1];
        let mut limit = length.next_down().next_down().next_down();
        for _ in 0..7 {
            self.port.floats[1] = limit;
            self.rust.oracle_set_far(limit);
            self.path(seq)?;
            limit = limit.next_up();
        }
        self.port.floats[1] = far;
        self.rust.oracle_set_far(far);
        Ok(())
    }

    fn all(&mut self, sequences: &mut Sequences) -> Result<(), String> {
        let mut lengths = Vec::new();
        while let Some(seq) = sequences.next() {
            if let Some(found) = self.path(&seq)?.candidate {
                lengths.push((seq.clone(), found[1] * oracle::speed_of_sound(self.case.settings.temperature) / self.case.settings.rate));
                sequences.good.push(seq);
            }
        }
        lengths.iter().rev().take(NEAR).try_for_each(|(seq, length)| self.limits(seq, *length))
    }
}

/// Compares the paths of a scene. None where the slip does not apply.
pub fn run(c: &Case, backend: &mut CpuSimdComputeBackend, port: &Scene, count: usize, planted: Option<usize>) -> Option<Result<Walked, String>> {
    let mut sequences = Sequences { r: Random::new(c.name.bytes().fold(3, |h, b| h * 31 + b as u64)), count, turn: 0, good: Vec::new() };
    let mut sides = Sides { case: c, port: port.clone(), rust: backend, planted, slipped: false, out: Walked::default() };
    match sides.all(&mut sequences) {
        Ok(()) => (planted.is_none() || sides.slipped).then_some(Ok(sides.out)),
        Err(words) => Some(Err(words)),
    }
}
