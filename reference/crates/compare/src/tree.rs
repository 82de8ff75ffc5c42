//! The tree and its trace against the Rust: every node's box and links, the order of the leaves, and the hits of many rays.
use crate::random::Random;
use oracle::Case;
use port::{Areas, Tree};
use quasar_backends::cpu_simd::{CpuSimdComputeBackend, OracleNode, OracleTree};

/// Rays traced through each scene.
const RAYS: usize = 100;

/// What was compared of a scene.
#[derive(Clone, Copy, Debug, Default)]
pub struct Traced {
    pub nodes: u64,
    pub depth: u64,
    pub rays: u64,
    pub hits: u64,
}

/// Planted slips of this stage.
pub const SLIPS: usize = 5;

/// The same bits, or zeros of either sign.
fn same(a: f32, b: f32) -> bool {
    a.to_bits() == b.to_bits() || (a == 0.0 && b == 0.0)
}

fn nodes_differ(tree: &Tree, nodes: &[OracleNode]) -> Option<String> {
    if tree.count != nodes.len() {
        return Some(format!("the port's tree has {} nodes, the Rust's {}", tree.count, nodes.len()));
    }
    for (k, n) in nodes.iter().enumerate() {
        let links = [n.left, n.right, n.start, n.len];
        if tree.nodes[4 * k..4 * k + 4] != links {
            return Some(format!("node {k} links {:?}, the Rust's {links:?}", &tree.nodes[4 * k..4 * k + 4]));
        }
        let ends = n.min.iter().chain(&n.max);
        if let Some(j) = ends.zip(&tree.boxes[6 * k..]).position(|(&x, &y)| !same(x, y)) {
            return Some(format!("end {j} of the box of node {k} differs"));
        }
    }
    None
}

fn depth(nodes: &[OracleNode], k: usize) -> u64 {
    let n = &nodes[k];
    if n.len > 0 { 0 } else { 1 + depth(nodes, n.left as usize).max(depth(nodes, n.right as usize)) }
}

/// A ray that means to hit: from near the scene to a point of a triangle, or along an axis, with ends near the hit.
fn ray(corners: &[[f32; 3]], r: &mut Random) -> [f32; 8] {
    let corner = |r: &mut Random| corners[r.below(corners.len())];
    let t = 3 * r.below(corners.len() / 3);
    let aim: [f32; 3] = match r.below(4) {
        0 => corners[t],
        1 => std::array::from_fn(|k| 0.5 * (corners[t][k] + corners[t + 1][k])),
        _ => std::array::from_fn(|k| (corners[t][k] + corners[t + 1][k] + corners[t + 2][k]) / 3.0),
    };
    let from: [f32; 3] = if r.chance(3) { corner(r) } else { let v = r.vector(6.0); std::array::from_fn(|k| aim[k] + v[k]) };
    let mut d: [f32; 3] = std::array::from_fn(|k| aim[k] - from[k]);
    if r.chance(4) {
        let axis = r.below(3);
        d = std::array::from_fn(|k| if k == axis { [1.0, -1.0][r.below(2)] } else { [0.0, -0.0][r.below(2)] });
    }
    let length = (d[0] * d[0] + d[1] * d[1] + d[2] * d[2]).sqrt();
    if !r.chance(6) {
        d = d.map(|x| x / length.max(1e-6));
    }
    let max = match r.below(4) {
        0 => length,
        1 => length - 1e-3,
        2 => f32::INFINITY,
        _ => r.from(0.0, 20.0),
    };
    [from[0], from[1], from[2], d[0], d[1], d[2], [0.0, 1e-3, -1.0][r.below(3)], max]
}

fn hit_differs(tree: &Tree, rust: &OracleTree, ray: &[f32; 8], planted: Option<usize>, out: &mut Traced) -> Option<String> {
    let mut mine = tree.intersect(ray);
    let theirs = rust.intersect(ray);
    out.rays += 1;
    out.hits += theirs.is_some() as u64;
    match (planted, &mut mine) {
        (Some(3), Some(h)) => h.triangle ^= 1,
        (Some(4), Some(h)) => h.distance = h.distance.next_up(),
        _ => {}
    }
    let equal = match (mine, theirs) {
        (None, None) => true,
        (Some(a), Some(b)) => a.triangle == b.triangle as usize && same(a.distance, b.distance) && a.point.iter().zip(b.point).all(|(&x, y)| same(x, y)),
        _ => false,
    };
    (!equal).then(|| format!("ray {:08x?}: port {mine:?}, Rust {theirs:?}", ray.map(f32::to_bits)))
}

/// Changes the port's tree as a fault would; false where the slip does not apply.
fn slip(tree: &mut Tree, kind: Option<usize>) -> bool {
    match kind {
        Some(0) => tree.boxes[6 * (tree.count - 1)] += 1.0,
        Some(1) if tree.count > 1 => tree.nodes.swap(0, 1),
        Some(2) if tree.order.len() > 1 => tree.order.swap(0, 1),
        Some(1 | 2) => return false,
        _ => {}
    }
    true
}

/// Builds and traces; `kept` triangles stand in columns of `triples` floats. The tree is handed back. None where the slip does not apply.
#[rustfmt::skip]
pub fn run(
    c: &Case, backend: &CpuSimdComputeBackend, areas: &Areas, kept: usize, triples: usize, planted: Option<usize>,
) -> Option<Result<(Traced, Option<Tree>), String>> {
    let Some(rust) = backend.oracle_tree() else {
        return planted.is_none().then(|| Ok((Traced::default(), None)));
    };
    let mut tree = Tree::areas(kept);
    if !tree.build(&areas.columns, &areas.handles, triples) {
        return Some(Err("the port builds no tree: a centroid is not finite".into()));
    }
    let intact = tree.clone();
    if !slip(&mut tree, planted) {
        return None;
    }
    let nodes = rust.nodes();
    let mut out = Traced { nodes: nodes.len() as u64, depth: depth(&nodes, 0), ..Traced::default() };
    let order = rust.order();
    if let Some(words) = nodes_differ(&tree, &nodes).or_else(|| (tree.order != order).then(|| "the leaves have another order".into())) {
        return Some(Err(words));
    }
    let corners: Vec<[f32; 3]> = backend.oracle_triangles().iter().flat_map(|t| [t.a, t.b, t.c]).collect();
    let mut r = Random::new(c.name.bytes().fold(7, |h, b| h * 31 + b as u64));
    for _ in 0..RAYS {
        if let Some(words) = hit_differs(&intact, &rust, &ray(&corners, &mut r), planted, &mut out) {
            return Some(Err(words));
        }
    }
    // a slip in a hit needs a hit
    (planted.is_none() || out.hits > 0).then_some(Ok((out, Some(intact))))
}
