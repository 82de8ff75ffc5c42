//! A seeded generator of scenes of many kinds. A case is a function of its kind and its seed alone.
use crate::random::Random;
use oracle::{Case, Mesh, Row, Settings, IDENTITY};

/// What a kind of scene is made to show.
#[derive(Clone, Copy, Debug, PartialEq, Eq, Hash, PartialOrd, Ord)]
pub enum Kind {
    /// A closed room of quads, with panels in it.
    Booth,
    /// Free panels in any position.
    Panels,
    /// Facets of a barrel vault, which merge by angle and offset.
    Vault,
    /// Faces twice, in other windings and rotations, some shifted by less than a millimetre.
    Duplicates,
    /// Faces inside solids.
    Buried,
    /// Degenerate triangles, indices out of range, trailing indices, meshes without vertices.
    Broken,
    /// Grids of equal triangles: ties in every sort.
    Ties,
    /// Random triangles, up to 4,096.
    Soup,
    /// Triangles of one box: all splits cost the same, one triangle goes at a time, and the tree is as deep as it may be.
    Deep,
    /// Transforms that rotate, scale, mirror, shear and move, some far.
    Transforms,
    /// Any floats in the material table.
    Materials,
    /// Source and listener on planes, equal, huge or not finite.
    Positions,
    /// More sheets between source and listener than a segment may cross.
    Curtains,
    /// Every setting at and around its limits.
    Limits,
    /// A room whose walls take nothing, with sheets across it that reflect and let through: hundreds of taps, and more than a list holds.
    Hard,
}

pub const KINDS: [Kind; 15] = [
    Kind::Booth, Kind::Panels, Kind::Vault, Kind::Duplicates, Kind::Buried, Kind::Broken, Kind::Ties, Kind::Soup, Kind::Deep, Kind::Transforms,
    Kind::Materials, Kind::Positions, Kind::Curtains, Kind::Limits, Kind::Hard,
];

/// Lengths of lists at and around the limits: that of the published Rust, a byte, and the limit.
pub const LISTS: [u32; 12] = [0, 1, 63, 64, 65, 255, 256, 257, 1023, 1024, 1025, u32::MAX];

type V = [f32; 3];

fn add(a: V, b: V) -> V {
    [a[0] + b[0], a[1] + b[1], a[2] + b[2]]
}

fn mesh(handle: u32) -> Mesh {
    Mesh { positions: Vec::new(), indices: Vec::new(), handle, transform: IDENTITY }
}

/// A quad from a corner and two edges, as two triangles.
fn quad(m: &mut Mesh, at: V, u: V, w: V) {
    let n = m.positions.len() as u32;
    m.positions.extend([at, add(at, u), add(add(at, u), w), add(at, w)]);
    m.indices.extend([n, n + 1, n + 2, n, n + 2, n + 3]);
}

fn triangle(m: &mut Mesh, a: V, b: V, c: V) {
    let n = m.positions.len() as u32;
    m.positions.extend([a, b, c]);
    m.indices.extend([n, n + 1, n + 2]);
}

fn room(m: &mut Mesh, at: V, s: V) {
    let (x, y, z) = ([s[0], 0.0, 0.0], [0.0, s[1], 0.0], [0.0, 0.0, s[2]]);
    quad(m, at, x, z);
    quad(m, add(at, y), z, x);
    quad(m, at, y, x);
    quad(m, add(at, z), x, y);
    quad(m, at, z, y);
    quad(m, add(at, x), y, z);
}

impl Random {
    /// A whole number below n.
    pub fn below(&mut self, n: usize) -> usize {
        ((self.bits() >> 32) as usize * n) >> 32
    }

    pub fn chance(&mut self, one_in: usize) -> bool {
        self.below(one_in) == 0
    }

    /// From a to b.
    pub fn from(&mut self, a: f32, b: f32) -> f32 {
        a + (b - a) * ((self.bits() >> 40) as f32 / 16_777_216.0)
    }

    pub fn vector(&mut self, size: f32) -> V {
        std::array::from_fn(|_| self.from(-size, size))
    }

    /// On a grid of eighths, so that values meet exactly.
    fn grid(&mut self, size: f32) -> V {
        std::array::from_fn(|_| (self.from(-size, size) * 8.0).round() / 8.0)
    }

    fn any_float(&mut self) -> f32 {
        match self.below(8) {
            0 => f32::NAN,
            1 => f32::INFINITY,
            2 => f32::NEG_INFINITY,
            3 => -0.0,
            4 => f32::from_bits(self.bits() as u32),
            5 => self.from(-2.0, 2.0),
            6 => 1.0,
            _ => 1e-40,
        }
    }

    fn row(&mut self) -> Row {
        let absorption = self.from(0.0, 0.9);
        let transmission = if self.chance(3) { 0.0 } else { self.from(0.0, 1.0) };
        Row { absorption: std::array::from_fn(|_| absorption * self.from(0.5, 1.0)), transmission: [transmission; 8] }
    }

    fn transform(&mut self) -> [f32; 16] {
        let mut m = IDENTITY;
        let a = self.from(-3.2, 3.2);
        match self.below(6) {
            0 => (m[0], m[2], m[8], m[10]) = (a.cos(), -a.sin(), a.sin(), a.cos()),
            1 => (m[0], m[5], m[10]) = (self.from(0.1, 3.0), self.from(0.1, 3.0), self.from(0.1, 3.0)),
            2 => m[5] = -1.0,
            3 => (m[4], m[9]) = (self.from(-1.0, 1.0), self.from(-1.0, 1.0)),
            4 => m[3] = self.any_float(), // no part of a point's place
            _ => m = std::array::from_fn(|_| self.from(-2.0, 2.0)),
        }
        let far = if self.chance(8) { 1e4 } else { 3.0 };
        (m[12], m[13], m[14]) = (self.from(-far, far), self.from(-far, far), self.from(-far, far));
        m
    }
}

fn base(name: String, r: &mut Random) -> Case {
    let settings = Settings { order: r.below(4) as u32, ..Settings::default() };
    let rows = 1 + r.below(3);
    Case { name, settings, materials: (0..rows).map(|_| r.row()).collect(), meshes: Vec::new(), source: r.vector(2.0), listener: r.vector(2.0), separated: false }
}

fn handle(c: &Case, r: &mut Random) -> u32 {
    r.below(c.materials.len()) as u32
}

fn booth(c: &mut Case, r: &mut Random) {
    let mut m = mesh(handle(c, r));
    let s = [r.from(3.0, 12.0), r.from(2.2, 4.0), r.from(3.0, 12.0)];
    let at = [-s[0] / 2.0, -1.0, -s[2] / 2.0];
    room(&mut m, at, s);
    c.meshes.push(m);
    for _ in 0..r.below(4) {
        panel(c, r);
    }
    c.source = [r.from(-1.0, 1.0), r.from(0.0, 1.0), r.from(-1.0, 1.0)];
    c.listener = [r.from(-1.0, 1.0), r.from(0.0, 1.0), r.from(-1.0, 1.0)];
}

fn panel(c: &mut Case, r: &mut Random) {
    let mut m = mesh(handle(c, r));
    let (at, u, w) = if r.chance(2) { (r.grid(3.0), r.grid(2.0), r.grid(2.0)) } else { (r.vector(3.0), r.vector(2.0), r.vector(2.0)) };
    quad(&mut m, at, u, w);
    c.meshes.push(m);
}

fn vault(c: &mut Case, r: &mut Random) {
    let mut m = mesh(handle(c, r));
    let (facets, radius, arc) = (2 + r.below(12), r.from(1.0, 6.0), r.from(0.1, 2.5));
    let point = |k: usize, z: f32| {
        let a = arc * k as f32 / facets as f32;
        [radius * a.sin(), radius * a.cos(), z]
    };
    for k in 0..facets {
        let (a, b) = (point(k, -2.0), point(k + 1, -2.0));
        quad(&mut m, a, [b[0] - a[0], b[1] - a[1], 0.0], [0.0, 0.0, 4.0]);
    }
    c.meshes.push(m);
    c.settings.merge_cos = r.from(0.9, 1.0);
    c.settings.merge_offset = r.from(0.0, 0.6);
}

fn duplicates(c: &mut Case, r: &mut Random) {
    panel(c, r);
    panel(c, r);
    for k in 0..c.meshes.len() {
        let mut again = c.meshes[k].clone();
        for t in again.indices.chunks_exact_mut(3) {
            match r.below(4) {
                0 => t.swap(0, 1),
                1 => t.rotate_left(1),
                _ => {}
            }
        }
        let shift = if r.chance(2) { 0.0 } else { r.from(-2e-3, 2e-3) };
        again.positions.iter_mut().for_each(|p| p[1] += shift);
        c.meshes.push(again);
    }
}

fn buried(c: &mut Case, r: &mut Random) {
    let mut m = mesh(handle(c, r));
    let at = r.grid(2.0);
    room(&mut m, at, [1.0, 1.0, 1.0]);
    let gap = r.from(0.0, 0.08);
    quad(&mut m, add(at, [0.2, gap, 0.2]), [0.5, 0.0, 0.0], [0.0, 0.0, 0.5]);
    quad(&mut m, add(at, [0.2, -gap, 0.2]), [0.5, 0.0, 0.0], [0.0, 0.0, 0.5]);
    c.meshes.push(m);
    c.settings.buried = r.from(-0.01, 0.1);
}

fn broken(c: &mut Case, r: &mut Random) {
    for _ in 0..1 + r.below(4) {
        panel(c, r);
        let m = c.meshes.last_mut().expect("a mesh");
        let n = m.positions.len() as u32;
        for _ in 0..r.below(6) {
            let k = r.below(n as usize) as u32;
            match r.below(6) {
                0 => m.indices.extend([k, k, (k + 1) % n]),
                1 => m.indices.extend([k, n, 0]),
                2 => m.indices.extend([u32::MAX, k, k]),
                3 => triangle(m, [0.0; 3], [1.0, 1.0, 1.0], [2.0, 2.0, 2.0]),
                4 => triangle(m, [0.0; 3], [1e-7, 0.0, 0.0], [0.0, 1e-6, 0.0]),
                _ => m.positions.push([r.any_float(), 0.0, 0.0]),
            }
        }
        if r.chance(2) {
            m.indices.extend(std::iter::repeat_n(0, 1 + r.below(2)));
        }
        if r.chance(8) {
            m.positions.clear();
        }
    }
}

fn ties(c: &mut Case, r: &mut Random) {
    let mut m = mesh(handle(c, r));
    let side = 1 + r.below(7);
    for x in 0..side {
        for z in 0..side {
            for y in 0..1 + r.below(2) {
                quad(&mut m, [x as f32, y as f32, z as f32], [1.0, 0.0, 0.0], [0.0, 0.0, 1.0]);
            }
        }
    }
    c.meshes.push(m);
}

fn soup(c: &mut Case, r: &mut Random) {
    let mut m = mesh(handle(c, r));
    let sizes = if r.chance(5) { 4 } else { 3 };
    let n = [8, 40, 200, 4096][r.below(sizes)];
    for _ in 0..n {
        let (a, size) = (r.vector(4.0), r.from(0.05, 1.0));
        triangle(&mut m, a, add(a, r.vector(size)), add(a, r.vector(size)));
    }
    if n == 4096 && r.chance(2) {
        triangle(&mut m, [0.0; 3], [1.0, 0.0, 0.0], [0.0, 1.0, 0.0]); // the 4,097th: refusal 4
    }
    c.meshes.push(m);
    c.settings.planes = r.below(40) as u32;
    c.settings.order = r.below(3) as u32;
}

fn deep(c: &mut Case, r: &mut Random) {
    let mut m = mesh(handle(c, r));
    let (at, side) = (r.grid(2.0), r.from(0.5, 4.0));
    for _ in 0..8 + r.below(100) {
        let third = std::array::from_fn(|k| at[k] + r.from(0.0, side));
        triangle(&mut m, at, add(at, [side; 3]), third);
    }
    c.meshes.push(m);
    c.settings.order = r.below(2) as u32;
}

fn curtains(c: &mut Case, r: &mut Random) {
    let mut m = mesh(0);
    quad(&mut m, [-4.0, 0.0, -4.0], [8.0, 0.0, 0.0], [0.0, 0.0, 8.0]);
    for k in 0..r.below(24) {
        quad(&mut m, [-1.0 + 0.15 * k as f32, 0.0, -2.0], [0.0, 3.0, 0.0], [0.0, 0.0, 4.0]);
    }
    c.meshes.push(m);
    c.materials[0].transmission = [r.from(0.3, 1.0); 8];
    (c.source, c.listener) = ([-2.0, 1.0, 0.0], [3.0, 1.5, r.from(-1.0, 1.0)]);
    c.settings.order = 1;
}

/// The neighbours of a limit, the limit, and what is no number.
fn around(r: &mut Random, x: f32) -> f32 {
    match r.below(6) {
        0 => x.next_up(),
        1 => x.next_down(),
        2 => f32::NAN,
        3 => r.any_float(),
        _ => x,
    }
}

fn limits(c: &mut Case, r: &mut Random) {
    booth(c, r);
    let s = &mut c.settings;
    match r.below(16) {
        0 => s.planes = [0, 1, 255, 256, 257, u32::MAX][r.below(6)],
        1 => s.room = [0, 1, 249_999, 250_000, 250_001, u32::MAX][r.below(6)],
        2 => s.order = [0, 1, 8, 9, u32::MAX][r.below(5)].min(if s.planes > 6 { 2 } else { u32::MAX }),
        3 => s.max_reflections = [0, 1, 63, 64, 65, u32::MAX][r.below(6)],
        4 => s.max_distance = { let x = [0.0, 1000.0][r.below(2)]; around(r, x) },
        5 => s.temperature = { let x = [-20.0, 50.0][r.below(2)]; around(r, x) },
        6 => s.rate = { let x = [8000.0, 192_000.0][r.below(2)]; around(r, x) },
        7 => s.merge_cos = { let x = [-1.0, 1.0][r.below(2)]; around(r, x) },
        8 => s.fade = r.any_float(),
        9 => s.merge_offset = r.any_float(),
        10 => s.buried = r.any_float(),
        11 => s.reference = { let x = [0.0, 1e6][r.below(2)]; around(r, x) },
        12 => s.rolloff = { let x = [0.0, 1e6][r.below(2)]; around(r, x) },
        13 => s.min_distance = { let x = [0.0, 1e6][r.below(2)]; around(r, x) },
        14 => s.far_distance = { let x = [0.0, 1e6][r.below(2)]; around(r, x) },
        _ => c.meshes[0].handle = [c.materials.len() as u32, u32::MAX][r.below(2)],
    }
    c.settings.linear = r.chance(2);
}

fn hard(c: &mut Case, r: &mut Random) {
    c.materials = vec![Row { absorption: [0.0; 8], transmission: [0.0; 8] }, Row { absorption: [0.0; 8], transmission: [r.from(0.7, 1.0); 8] }];
    let s = [r.from(3.0, 12.0), r.from(2.2, 4.0), r.from(3.0, 12.0)];
    let (mut walls, mut sheets) = (mesh(0), mesh(1));
    room(&mut walls, [0.0; 3], s);
    let (count, axis) = (r.below(4), r.below(3));
    let edge = |k: usize| -> V { std::array::from_fn(|i| if i == k { s[k] } else { 0.0 }) };
    for _ in 0..count {
        let mut at = [0.0; 3];
        at[axis] = s[axis] * r.from(0.05, 0.95);
        quad(&mut sheets, at, edge((axis + 1) % 3), edge((axis + 2) % 3));
    }
    c.meshes = vec![walls, sheets];
    c.source = s.map(|x| x * r.from(0.1, 0.9));
    c.listener = s.map(|x| x * r.from(0.1, 0.9));
    // from some order on the 250,000 images end before most paths are found
    c.settings.order = 3 + r.below([5, 5, 4, 3][count]) as u32;
    c.settings.max_distance = if r.chance(3) { r.from(30.0, 1000.0) } else { 1000.0 };
    c.settings.max_reflections = if r.chance(2) { u32::MAX } else { LISTS[r.below(LISTS.len())] };
    c.settings.fade = [0.0, 0.1][r.below(2)];
}

/// Sheets across the way by the floor, about as many as half a segment may cross: in its first half; or in all four and with a bundle that is narrow
/// enough to meet all of them, so that as many rays are traced as may be.
fn thick(c: &mut Case, r: &mut Random) {
    let mut m = mesh(0);
    let (halves, more) = if r.chance(2) { (4, 1) } else { (1, r.below(3)) };
    if halves == 4 {
        c.settings.probe_radius = c.settings.probe_radius.min(0.2);
    }
    let sheets = c.settings.crossing_limit as usize + more - (halves == 1) as usize;
    for k in 0..halves * sheets {
        let (from, to) = [(-1.9, -1.1), (-0.9, -0.1), (0.1, 1.4), (1.6, 2.9)][k / sheets];
        let x = from + (to - from) * (k % sheets) as f32 / sheets as f32;
        triangle(&mut m, [x, 0.0, -6.0], [x, 0.0, 6.0], [x, 8.0, 0.0]);
    }
    c.meshes.push(m);
    c.materials[0].transmission = [r.from(0.95, 1.0); 8];
}

/// Source and listener one above the other, so that the paths by floor and ceiling are whole sixteenths of a metre long: every other one has half a
/// millimetre. The coefficients are the least ones that the upper millimetre takes a step further.
fn halves(c: &mut Case, r: &mut Random) {
    let (low, high) = (r.below(16) as u32, 16 + r.below(16) as u32);
    (c.source[1], c.listener[1]) = (low as f32 / 16.0, high as f32 / 16.0);
    (c.listener[0], c.listener[2]) = (c.source[0], c.source[2]);
    let up = (1000 * (low + high + 32)).div_ceil(16) as u64;
    c.settings.air = std::array::from_fn(|_| ((25_000_000 + 50_000_000 * r.below(40) as u64).div_ceil(up) as u32).min(1_000_000));
}

/// Coefficients of the air: none, small, large, of all sizes.
fn air(r: &mut Random) -> [u32; 8] {
    let most = [0, 100, 20_000, 1_000_000, 1_000_000][r.below(5)];
    let mixed = r.chance(2);
    std::array::from_fn(|_| if mixed && r.chance(3) { 0 } else if r.chance(8) { most } else { r.below(most as usize + 1) as u32 })
}

/// The case of a kind and a seed with a temperature, coefficients of the air and probe settings, of numbers of their own, so that the scene stays what it is: half of the
/// curtains are as thick as the limit, and some limits and radii are those that are refused.
pub fn probed(kind: Kind, seed: u64) -> Case {
    let (mut c, mut r) = (case(kind, seed), Random::new(seed.wrapping_mul(64) + 32 + kind as u64));
    if r.chance(2) {
        let radius = Settings::default().probe_radius;
        c.settings.crossing_limit = [1, 2, 8, 9, 31, 32][r.below(6)];
        c.settings.probe_radius = [0.0, -0.0, f32::from_bits(1), radius.next_down(), radius.next_up(), 1f32.next_down(), 1.0, r.from(0.0, 1.0)][r.below(8)];
    }
    if kind != Kind::Limits {
        c.settings.temperature = [-20.0, 50.0, 20.0, r.from(-20.0, 50.0), r.from(-20.0, 50.0)][r.below(5)];
    }
    if !r.chance(3) {
        c.settings.air = air(&mut r);
    }
    if kind == Kind::Booth && r.chance(3) {
        halves(&mut c, &mut r);
    }
    if kind == Kind::Curtains && r.chance(2) {
        thick(&mut c, &mut r);
    }
    if kind == Kind::Limits && r.chance(4) {
        match r.below(3) {
            0 => c.settings.crossing_limit = [0, 1, 32, 33, u32::MAX][r.below(5)],
            1 => c.settings.air[r.below(8)] = [0, 1, 999_999, 1_000_000, 1_000_001, u32::MAX][r.below(6)],
            _ => c.settings.probe_radius = { let x = [0.0, 1.0][r.below(2)]; around(&mut r, x) },
        }
    }
    c
}

/// The same with another length of the list for some, of numbers of their own.
pub fn listed(kind: Kind, seed: u64) -> Case {
    let (mut c, mut r) = (probed(kind, seed), Random::new(seed.wrapping_mul(64) + 48 + kind as u64));
    if kind != Kind::Hard && r.chance(3) {
        c.settings.max_reflections = LISTS[r.below(LISTS.len())];
    }
    c
}

/// The case of a kind and a seed.
pub fn case(kind: Kind, seed: u64) -> Case {
    let mut r = Random::new(seed.wrapping_mul(64) + kind as u64);
    let mut c = base(format!("{kind:?}-{seed}").to_lowercase(), &mut r);
    match kind {
        Kind::Booth => booth(&mut c, &mut r),
        Kind::Panels => (0..1 + r.below(10)).for_each(|_| panel(&mut c, &mut r)),
        Kind::Vault => vault(&mut c, &mut r),
        Kind::Duplicates => duplicates(&mut c, &mut r),
        Kind::Buried => buried(&mut c, &mut r),
        Kind::Broken => broken(&mut c, &mut r),
        Kind::Ties => ties(&mut c, &mut r),
        Kind::Soup => soup(&mut c, &mut r),
        Kind::Deep => deep(&mut c, &mut r),
        Kind::Transforms => {
            (0..1 + r.below(4)).for_each(|_| panel(&mut c, &mut r));
            c.meshes.iter_mut().for_each(|m| m.transform = r.transform());
        }
        Kind::Materials => {
            booth(&mut c, &mut r);
            let row = r.below(c.materials.len());
            c.materials[row] = Row { absorption: std::array::from_fn(|_| r.any_float()), transmission: std::array::from_fn(|_| r.any_float()) };
        }
        Kind::Positions => {
            booth(&mut c, &mut r);
            match r.below(5) {
                0 => c.source[r.below(3)] = r.any_float(),
                1 => c.listener[r.below(3)] = r.any_float(),
                2 => c.listener = c.source,
                3 => c.source[1] = -1.0 + [0.0, 1e-4, 9e-5, 5e-5][r.below(4)],
                _ => c.separated = true,
            }
        }
        Kind::Curtains => curtains(&mut c, &mut r),
        Kind::Limits => limits(&mut c, &mut r),
        Kind::Hard => hard(&mut c, &mut r),
    }
    c
}
