//! The front of a query against the Rust: refusals 1 to 6, triangles and handles bit for bit, counts, and what is not to be touched.
use oracle::Case;
use port::{Areas, Lent, Loaded, AREAS};

/// What is done to a sound call, to show refusals 2 and 5.
#[derive(Clone, Copy, Debug, PartialEq, Eq)]
pub enum Damage {
    None,
    /// A lent scene part (0 to 4) one shorter or longer.
    Part(usize, bool),
    /// An area (in the order of docs/AREAS.md) one shorter than its formula.
    Area(usize),
}

const PARTS: usize = 5;

pub const DAMAGES: [Damage; 1 + 2 * PARTS + AREAS] = {
    let mut all = [Damage::None; 1 + 2 * PARTS + AREAS];
    let mut k = 0;
    while k < PARTS {
        all[1 + 2 * k] = Damage::Part(k, false);
        all[2 + 2 * k] = Damage::Part(k, true);
        k += 1;
    }
    let mut i = 0;
    while i < AREAS {
        all[1 + 2 * PARTS + i] = Damage::Area(i);
        i += 1;
    }
    all
};

/// A case as the port takes it.
pub fn lent(c: &Case) -> Lent {
    let s = &c.settings;
    Lent {
        counts: {
            let first = [s.order, s.max_reflections, s.planes, s.merge_on as u32, s.linear as u32, s.crossing_limit];
            std::array::from_fn(|k| if k < 6 { first[k] } else { s.air[k - 6] })
        },
        #[rustfmt::skip]
        floats: [
            s.fade, s.max_distance, s.temperature, s.rate, s.merge_cos, s.merge_offset, s.buried, s.reference, s.rolloff, s.min_distance, s.far_distance,
            s.probe_radius,
        ],
        room: s.room,
        meshes: c.meshes.iter().flat_map(|m| [m.positions.len() as u32, m.indices.len() as u32, m.handle]).collect(),
        transforms: c.meshes.iter().flat_map(|m| m.transform).collect(),
        positions: c.meshes.iter().flat_map(|m| m.positions.iter().flatten().copied()).collect(),
        indices: c.meshes.iter().flat_map(|m| m.indices.iter().copied()).collect(),
        materials: c.materials.iter().flat_map(|r| r.absorption.into_iter().chain(r.transmission)).collect(),
        rows: c.materials.len() as u32,
    }
}

fn triples(c: &Case) -> usize {
    c.meshes.iter().map(|m| m.indices.len() / 3).sum()
}

/// Areas of the least length, full of a pattern, so that what is written shows.
pub fn areas(t: usize, room: usize) -> Areas {
    Areas {
        columns: (0..port::least(0, t, room)).map(|k| f32::from_bits(0x4100_0000 + k as u32)).collect(),
        handles: (0..port::least(1, t, room)).map(|k| 0x8000_0000 + k as u32).collect(),
        others: std::array::from_fn(|i| port::least(i + 2, t, room)),
    }
}

/// A damaged scene part; false where it cannot be (a part of no length).
pub fn cut_part(l: &mut Lent, d: Damage) -> bool {
    fn cut<T: Copy + Default>(v: &mut Vec<T>, longer: bool) -> bool {
        if longer { v.push(T::default()); true } else { v.pop().is_some() }
    }
    match d {
        Damage::Part(0, longer) => cut(&mut l.meshes, longer),
        Damage::Part(1, longer) => cut(&mut l.transforms, longer),
        Damage::Part(2, longer) => cut(&mut l.positions, longer),
        Damage::Part(3, longer) => cut(&mut l.indices, longer),
        Damage::Part(_, longer) => cut(&mut l.materials, longer),
        Damage::None | Damage::Area(_) => true,
    }
}

/// The call damaged; false where it cannot be (a part or an area of no length).
fn damage(l: &mut Lent, a: &mut Areas, d: Damage) -> bool {
    fn less(n: &mut usize) -> bool {
        *n > 0 && { *n -= 1; true }
    }
    match d {
        Damage::Area(0) => a.columns.pop().is_some(),
        Damage::Area(1) => a.handles.pop().is_some(),
        Damage::Area(i) => less(&mut a.others[i - 2]),
        Damage::None | Damage::Part(..) => cut_part(l, d),
    }
}

/// Document 01's first refusal of 1 to 6: the oracle's, which knows nothing of lengths, with 2 and 5 in their places.
pub fn expected(c: &Case, d: Damage) -> u32 {
    match (oracle::refusal_before_search(c), d) {
        (1, _) => 1,
        (_, Damage::Part(..)) => 2,
        (k @ (3 | 4), _) => k,
        (_, Damage::Area(_)) => 5,
        (k, _) => k,
    }
}

fn same_floats(a: &[f32], b: &[f32]) -> bool {
    a.len() == b.len() && a.iter().zip(b).all(|(x, y)| x.to_bits() == y.to_bits())
}

/// What the port left: its answer and its areas; and how often the pass alone refused.
pub struct Left {
    pub answer: Loaded,
    pub areas: Areas,
    pub far: u64,
}

/// What differs between the port's answer to a case and the Rust's, in words.
fn difference(c: &Case, d: Damage, found: &Areas, left: &Left) -> Option<String> {
    let refusal = expected(c, d);
    let areas = &left.areas;
    if refusal != 0 {
        if left.answer != Loaded::Refused(refusal) {
            return Some(format!("the port answers {:?}, document 01 refusal {refusal}", left.answer));
        }
        let zero = refusal == 6;
        let floats = if zero { vec![0.0; found.columns.len()] } else { found.columns.clone() };
        let words = if zero { vec![0; found.handles.len()] } else { found.handles.clone() };
        if !same_floats(&areas.columns, &floats) || areas.handles != words {
            return Some(format!("after refusal {refusal} an area is not {}", if zero { "zero" } else { "as it was found" }));
        }
        return None;
    }
    let tris = oracle::built(c, false).oracle_triangles();
    let n = triples(c);
    let Loaded::Triangles { kept, placings, triples } = left.answer else {
        return Some(format!("the port answers {:?}, the Rust {} triangles", left.answer, tris.len()));
    };
    let made = oracle::placings(c).made;
    if (kept, placings, triples) != (tris.len(), made, n) {
        return Some(format!("triangles, placings and triples are {:?}, not {:?}", (kept, placings, triples), (tris.len(), made, n)));
    }
    let mut floats = found.columns.clone();
    let mut words = found.handles.clone();
    for (i, t) in tris.iter().enumerate() {
        for (k, x) in row(t.a, t.b, t.c, t.normal).into_iter().enumerate() {
            floats[i + k * n] = x;
        }
        words[i] = t.handle;
    }
    if let Some(k) = (0..floats.len()).find(|&k| floats[k].to_bits() != areas.columns[k].to_bits()) {
        return Some(format!("column {} of row {}: port {:08x}, Rust {:08x}", k / n, k % n, areas.columns[k].to_bits(), floats[k].to_bits()));
    }
    (words != areas.handles).then(|| "a handle differs".to_string())
}

fn dot(a: [f32; 3], b: [f32; 3]) -> f32 {
    a[0] * b[0] + a[1] * b[1] + a[2] * b[2]
}

/// The floats of a triangle: its corners and normal, and what `intersect_max` and `contains_point` work out of it, in the Rust's order.
fn row(a: [f32; 3], b: [f32; 3], c: [f32; 3], normal: [f32; 3]) -> Vec<f32> {
    let minus = |p: [f32; 3], q: [f32; 3]| [p[0] - q[0], p[1] - q[1], p[2] - q[2]];
    let (e1, e2) = (minus(b, a), minus(c, a));
    let scale = (dot(e1, e1) * dot(e2, e2)).sqrt();
    let (d00, d01, d11) = (dot(e2, e2), dot(e2, e1), dot(e1, e1));
    [a, b, c, normal, e1, e2].into_iter().flatten().chain([1e-9 * scale, d00, d01, d11, d00 * d11 - d01 * d01]).collect()
}

/// A case and the same with a corner moved far away: one of the first triple, one of the last, and any point, which may stand in a triple that is skipped, or in none.
fn with_far_corners(c: &Case) -> Vec<Case> {
    let far = |mesh: usize, point: Option<usize>| {
        let mut moved = c.clone();
        *moved.meshes.get_mut(mesh)?.positions.get_mut(point?)? = [-4e4, 3e4, 5e4];
        Some(moved)
    };
    let index = |i: Option<&u32>| i.map(|&i| i as usize);
    let last = c.meshes.len().saturating_sub(1);
    let whole = |m: &oracle::Mesh| m.indices.len() / 3 * 3;
    let any = c.name.bytes().fold(7, |h: usize, b| h.wrapping_mul(31) + b as usize);
    let moved = [
        far(0, index(c.meshes.first().and_then(|m| m.indices.first()))),
        far(last, index(c.meshes.last().and_then(|m| m.indices[..whole(m)].last()))),
        c.meshes.first().filter(|m| !m.positions.is_empty()).and_then(|m| far(0, Some(any % m.positions.len()))),
    ];
    [c.clone()].into_iter().chain(moved.into_iter().flatten()).collect()
}

/// The pass alone, where no setting is in its way: its refusal, triangles and placings, also where a corner is too far. How many refused.
fn passes(c: &Case, planted: Option<usize>) -> Result<u64, String> {
    let mut refused = 0;
    for c in with_far_corners(c) {
        let (expected, mut a) = (oracle::placings(&c), areas(triples(&c), 0));
        let Some(mut placed) = port::triangles_from_scene(&lent(&c), &mut a) else { continue };
        if planted == Some(PLACED_ON) && expected.far {
            placed.placings += 3;
        }
        let kept = if expected.far { 0 } else { oracle::built(&c, false).oracle_triangles().len() };
        let theirs = port::Placed { far: expected.far, kept, placings: expected.made };
        if placed != theirs {
            return Err(format!("the pass answers {placed:?}, not {theirs:?}"));
        }
        if expected.far && (a.columns.iter().any(|x| x.to_bits() != 0) || a.handles.iter().any(|&h| h != 0)) {
            return Err("after the pass refused, an area is not zero".to_string());
        }
        refused += expected.far as u64;
    }
    Ok(refused)
}

/// Planted slips: the port's answer changed as a fault would. The last is a pass that goes on after a far corner.
pub const SLIPS: usize = 7;
const PLACED_ON: usize = 6;

fn slip(left: &mut Left, kind: usize) -> bool {
    let a = &mut left.areas;
    match (kind, &mut left.answer) {
        (0, Loaded::Refused(k)) => *k = *k % 6 + 1,
        (1, Loaded::Triangles { kept, .. }) => *kept += 1,
        (2, Loaded::Triangles { placings, .. }) => *placings += 3,
        (3, _) if !a.columns.is_empty() => { let k = a.columns.len() / 2; a.columns[k] = f32::from_bits(a.columns[k].to_bits() ^ 1) }
        (4, _) if !a.handles.is_empty() => { let k = a.handles.len() - 1; a.handles[k] ^= 1 }
        (5, Loaded::Triangles { kept, triples, .. }) if *kept > 1 => {
            let (x, y) = (0, 3 * *triples);
            if a.columns[x].to_bits() == a.columns[y].to_bits() { return false; }
            a.columns.swap(x, y) // first x of the first and the second corner
        }
        (PLACED_ON, Loaded::Triangles { kept, .. }) if *kept > 0 => {}
        _ => return false,
    }
    true
}

/// Runs a case; the slip, if any, is planted into the port's answer. None where the damage or the slip does not apply.
pub fn run(c: &Case, d: Damage, planted: Option<usize>) -> Option<Result<Left, String>> {
    let mut l = lent(c);
    let mut found = areas(triples(c), c.settings.room.min(250_000) as usize);
    if !damage(&mut l, &mut found, d) {
        return None;
    }
    let mut left = Left { answer: Loaded::Refused(0), areas: found.clone(), far: 0 };
    left.answer = port::load_scene(&l, &mut left.areas);
    if let Some(k) = planted {
        if !slip(&mut left, k) {
            return None;
        }
    }
    if let Some(words) = difference(c, d, &found, &left) {
        return Some(Err(words));
    }
    if d == Damage::None {
        match passes(c, planted) {
            Ok(refused) => left.far = refused,
            Err(words) => return Some(Err(words)),
        }
    }
    Some(Ok(left))
}
