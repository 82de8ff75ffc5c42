//! `build_planes` against the Rust: the planes in their order, every part of them bit for bit, and their borders as sets (the Rust's order of
//! edges is that of a hash map).
use crate::front;
use crate::paths::same;
use oracle::Case;
use port::{Areas, Plane, PlaneAreas, Planes, Tree};
use quasar_backends::cpu_simd::{CpuSimdComputeBackend, OraclePlane};

/// What was compared of a scene.
#[derive(Clone, Copy, Debug, Default)]
pub struct Built {
    pub planes: u64,
    pub fitted: u64,
    pub triangles: u64,
    pub edges: u64,
    /// Patches left out as buried, and planes past `max_reflection_planes`.
    pub buried: u64,
    pub cut: u64,
}

/// Planted slips of this stage: two planes swapped, an edge dropped, an area's last bit.
pub const SLIPS: usize = 3;

type Edge = ([f32; 3], [f32; 3]);

/// Edges as bits in order; zeros of either sign are alike, and what is no number.
fn set(edges: &[Edge]) -> Vec<[u32; 6]> {
    let bits = |x: f32| if x == 0.0 { 0 } else if x.is_nan() { u32::MAX } else { x.to_bits() };
    let mut all: Vec<[u32; 6]> = edges.iter().map(|(a, b)| [a[0], a[1], a[2], b[0], b[1], b[2]].map(bits)).collect();
    all.sort();
    all
}

/// Which part of a plane differs.
fn differs(p: &Plane, q: &OraclePlane) -> Option<&'static str> {
    let all = |a: &[f32; 3], b: &[f32; 3]| a.iter().zip(b).all(|(&x, &y)| same(x, y));
    [
        ("normal", all(&p.normal, &q.normal)),
        ("offset", same(p.offset, q.offset)),
        ("area", same(p.area, q.area)),
        ("box", all(&p.min, &q.aabb.0) && all(&p.max, &q.aabb.1)),
        ("spread", same(p.spread, q.spread)),
        ("fitted", p.fitted == q.fitted),
        ("triangles", p.triangles == q.tris),
        ("border", set(&p.border) == set(&q.boundary)),
    ]
    .into_iter()
    .find_map(|(name, equal)| (!equal).then_some(name))
}

/// Changes the port's planes as a fault would; false where the slip does not apply.
fn slip(planes: &mut [Plane], kind: Option<usize>) -> bool {
    match kind {
        Some(0) if planes.len() > 1 => planes.swap(0, 1),
        Some(1) => return planes.iter_mut().any(|p| p.border.pop().is_some()),
        Some(2) if planes.first().is_some_and(|p| p.area.is_finite()) => planes[0].area = planes[0].area.next_up(),
        Some(_) => return false,
        None => {}
    }
    true
}

/// The port's planes; the tree stands over the first triangles of columns of `triples` floats.
pub fn build(c: &Case, areas: &Areas, triples: usize, tree: &Tree) -> Planes {
    let (l, mut work) = (front::lent(c), PlaneAreas::new(triples));
    let count = work.build(tree, &areas.columns, &l.counts, &l.floats);
    work.planes(count)
}

/// Builds and compares; the port's planes are handed back. None where the slip does not apply.
pub fn run(c: &Case, backend: &CpuSimdComputeBackend, areas: &Areas, triples: usize, tree: &Tree, planted: Option<usize>) -> Option<Result<(Built, Planes), String>> {
    let (planes, theirs) = (build(c, areas, triples, tree), backend.oracle_planes());
    let mut mine = planes.all();
    if !slip(&mut mine, planted) {
        return None;
    }
    if mine.len() != theirs.len() {
        return Some(Err(format!("the port has {} planes, the Rust {}", mine.len(), theirs.len())));
    }
    for (k, (p, q)) in mine.iter().zip(&theirs).enumerate() {
        if let Some(part) = differs(p, q) {
            return Some(Err(format!("the {part} of plane {k}: port {p:?}, Rust {q:?}")));
        }
    }
    let stats = backend.oracle_build_stats();
    let sum = |f: fn(&Plane) -> usize| mine.iter().map(f).sum::<usize>() as u64;
    let built = Built {
        planes: mine.len() as u64,
        fitted: sum(|p| p.fitted as usize),
        triangles: sum(|p| p.triangles.len()),
        edges: sum(|p| p.border.len()),
        buried: stats.buried as u64,
        cut: (stats.groups - stats.planes) as u64,
    };
    Some(Ok((built, planes)))
}
