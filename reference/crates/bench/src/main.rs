//! Times of the port and of the Rust on the same input, in one process, in turn: the median of several rounds each, and their ratio.
//! Results are compared first. Areas are lent as they were left by the round before, not cleared, unless said.
use oracle::{Case, Mesh, Row, Settings, Table, IDENTITY};
use compare::front::{areas, lent};
use compare::{paths, planes};
use compare::random::Random;
use compare::ranking;
use quasar_backends::cpu_simd::oracle_rank;
use port::{Areas, Candidates, Loaded, PlaneAreas, Tree, Work, OUTPUT, TAPS, TAP_WORDS};
use std::hint::black_box;
use std::time::Instant;

const ROUNDS: usize = 40;

/// The builds and queries of whole scenes, the call that does both and clears its areas, and then the stages and functions that they are made of.
const PARTS: [(&str, fn()); 12] = [
    ("builds", builds), ("queries", queries), ("calls", calls), ("fronts", fronts), ("trees", trees), ("planes", all_planes), ("paths", single_paths),
    ("rankings", rankings), ("packets", packets), ("walls", walls), ("roots", roots), ("sorts", sorts),
];

/// All parts, or those named.
fn main() {
    let named: Vec<String> = std::env::args().skip(1).collect();
    println!("{:44} {:>12} {:>12} {:>7}", "", "port", "Rust", "ratio");
    for (name, part) in PARTS {
        if named.is_empty() || named.iter().any(|n| n == name) {
            part();
        }
    }
}

fn line(what: &str, port: f64, rust: f64) {
    println!("{what:44} {:>9.3} us {:>9.3} us {:>7.2}", port / 1e3, rust / 1e3, port / rust);
}

/// Nanoseconds of one run of each, the two in turn so that both meet the same load; the input is made anew for each run.
fn both<T>(make: impl FnMut() -> T, port: impl FnMut(&mut T), rust: impl FnMut(&mut T)) -> (f64, f64) {
    rounds(ROUNDS, make, port, rust)
}

/// Medians.
fn rounds<T>(count: usize, mut make: impl FnMut() -> T, mut port: impl FnMut(&mut T), mut rust: impl FnMut(&mut T)) -> (f64, f64) {
    let (mut ports, mut rusts) = (Vec::new(), Vec::new());
    for _ in 0..count {
        let mut input = make();
        let start = Instant::now();
        port(&mut input);
        ports.push(start.elapsed().as_nanos() as f64);
        black_box(&input);
        let mut input = make();
        let start = Instant::now();
        rust(&mut input);
        rusts.push(start.elapsed().as_nanos() as f64);
        black_box(&input);
    }
    ports.sort_by(f64::total_cmp);
    rusts.sort_by(f64::total_cmp);
    (ports[count / 2], rusts[count / 2])
}

/// From 0 to 1.
fn unit(r: &mut Random) -> f32 {
    (r.bits() >> 40) as f32 / 16_777_216.0
}

fn roots() {
    let mut r = Random::new(1);
    let xs: Vec<f32> = (0..4096).map(|_| unit(&mut r) * 1e4).collect();
    assert!(xs.iter().all(|&x| port::sqrt(x).to_bits() == x.sqrt().to_bits()));
    let (a, b) = both(|| (), |_| { xs.iter().for_each(|&x| { black_box(port::sqrt(x)); }) }, |_| { xs.iter().for_each(|&x| { black_box(black_box(x).sqrt()); }) });
    line("sqrt, 4,096 of them, by calls", a, b);
}

fn sorts() {
    let mut r = Random::new(2);
    for n in [16, 4096, 250_000] {
        for kind in ["u32", "u64", "sorted"] {
            let sets = (65_536 / n).max(1);
            let mut keys: Vec<u64> = (0..n).map(|_| if kind == "u32" { r.bits() >> 32 } else { r.bits() }).collect();
            if kind == "sorted" {
                keys.sort();
            }
            let index: Vec<u32> = (0..n as u32).collect();
            let (mut words, mut scratch) = (vec![0; n], vec![0; n]);
            let (mut p, mut q) = (index.clone(), index.clone());
            port::sort_by_key(&keys, &mut p, &mut words, &mut scratch);
            q.sort_by_key(|&i| keys[i as usize]);
            assert_eq!(p, q);
            let make = || vec![index.clone(); sets];
            let (a, b) = both(
                make,
                |v| v.iter_mut().for_each(|x| port::sort_by_key(&keys, x, &mut words, &mut scratch)),
                |v| v.iter_mut().for_each(|x| x.sort_by_key(|&i| keys[i as usize])),
            );
            line(&format!("sort_by_key, {n} positions, {kind} keys"), a / sets as f64, b / sets as f64);
        }
    }
}

/// n random triangles of one mesh.
fn soup(n: usize) -> Case {
    let mut r = Random::new(n as u64);
    let mut m = Mesh { positions: Vec::new(), indices: (0..3 * n as u32).collect(), handle: 0, transform: IDENTITY };
    for _ in 0..n {
        let a: [f32; 3] = std::array::from_fn(|_| unit(&mut r) * 8.0 - 4.0);
        m.positions.push(a);
        for _ in 0..2 {
            m.positions.push(std::array::from_fn(|k| a[k] + unit(&mut r) - 0.5));
        }
    }
    let row = Row { absorption: [0.2; 8], transmission: [0.0; 8] };
    Case { name: format!("soup-{n}"), settings: Settings { room: 0, ..Settings::default() }, materials: vec![row], meshes: vec![m], source: [0.0; 3], listener: [1.0; 3], separated: false }
}

/// Triples over so many points: each has points of its own, or they share a few.
fn listed(triples: usize, points: usize) -> Case {
    let mut c = soup(points.div_ceil(3));
    let (m, mut r) = (&mut c.meshes[0], Random::new(21));
    m.positions.truncate(points);
    if points < 3 * triples {
        m.indices = (0..triples).flat_map(|_| { let k = r.below(points); let step = 1 + r.below(points / 2 - 1); [k, (k + step) % points, (k + 2 * step) % points] }).map(|i| i as u32).collect();
    }
    c
}

/// Scenes with few and with many points, from settings to triangles, and the pass over the triples alone.
fn fronts() {
    for (n, points) in [(12, 36), (500, 1500), (4000, 12_000), (4096, 12_288), (4096, 100)] {
        let c = listed(n, points);
        let l = lent(&c);
        let mut a = areas(n, 0);
        let backend = oracle::unbuilt(&c, false, &oracle::Overrides::default());
        assert!(matches!(port::load_scene(&l, &mut a), Loaded::Triangles { kept, .. } if kept == backend.oracle_place()));
        let sets = (8192 / n).max(1);
        let (p, q) = both(|| (), |_| (0..sets).for_each(|_| { black_box(port::load_scene(&l, &mut a)); }), |_| (0..sets).for_each(|_| { black_box(backend.oracle_place()); }));
        line(&format!("load_scene, {n} triples over {points} points"), p / sets as f64, q / sets as f64);
        let (p, q) = both(|| (), |_| (0..sets).for_each(|_| { black_box(port::triangles_from_scene(&l, &mut a)); }), |_| (0..sets).for_each(|_| { black_box(backend.oracle_place()); }));
        line(&format!("triangles_from_scene, {n} over {points}"), p / sets as f64, q / sets as f64);
    }
}

/// Rays from within a scene in all directions.
fn rays(n: usize) -> Vec<[f32; 8]> {
    let mut r = Random::new(n as u64 + 9);
    (0..1000)
        .map(|_| {
            let from: [f32; 3] = std::array::from_fn(|_| unit(&mut r) * 8.0 - 4.0);
            let d: [f32; 3] = std::array::from_fn(|_| unit(&mut r) * 2.0 - 1.0);
            let length = (d[0] * d[0] + d[1] * d[1] + d[2] * d[2]).sqrt().max(1e-3);
            [from[0], from[1], from[2], d[0] / length, d[1] / length, d[2] / length, 1e-3, 50.0]
        })
        .collect()
}

fn trees() {
    for n in [12, 500, 4096] {
        let c = soup(n);
        let mut a = areas(n, 0);
        assert!(matches!(port::load_scene(&lent(&c), &mut a), Loaded::Triangles { .. }));
        let backend = oracle::built(&c, false);
        let mut tree = Tree::areas(n);
        assert!(tree.build(&a.columns, &a.handles, n));
        let sets = (4096 / n).max(1);
        let (p, q) = both(
            || (),
            |_| (0..sets).for_each(|_| { black_box(tree.build(&a.columns, &a.handles, n)); }),
            |_| (0..sets).for_each(|_| { black_box(backend.oracle_build_tree()); }),
        );
        line(&format!("build_flat_bvh, {n} triangles"), p / sets as f64, q / sets as f64);
        let (rays, rust) = (rays(n), backend.oracle_tree().expect("a tree"));
        assert!(rays.iter().all(|r| tree.intersect(r).map(|h| h.triangle) == rust.intersect(r).map(|h| h.triangle as usize)));
        let (p, q) = both(
            || (),
            |_| rays.iter().for_each(|r| { black_box(tree.intersect(r)); }),
            |_| rays.iter().for_each(|r| { black_box(rust.intersect(r)); }),
        );
        line(&format!("intersect, {n} triangles, a ray"), p / 1e3, q / 1e3);
    }
}

fn quad(m: &mut Mesh, at: [f32; 3], u: [f32; 3], w: [f32; 3]) {
    let (n, add) = (m.positions.len() as u32, |a: [f32; 3], b: [f32; 3]| std::array::from_fn(|k| a[k] + b[k]));
    m.positions.extend([at, add(at, u), add(add(at, u), w), add(at, w)]);
    m.indices.extend([n, n + 1, n + 2, n, n + 2, n + 3]);
}

/// A room of six walls, and the same with 12 sheets between source and listener.
fn hall(sheets: usize) -> Case {
    let mut m = Mesh { positions: Vec::new(), indices: Vec::new(), handle: 0, transform: IDENTITY };
    let (x, y, z) = ([8.0, 0.0, 0.0], [0.0, 3.0, 0.0], [0.0, 0.0, 6.0]);
    for (at, u, w) in [([-4.0, 0.0, -3.0], x, z), ([-4.0, 3.0, -3.0], z, x), ([-4.0, 0.0, -3.0], y, x), ([-4.0, 0.0, 3.0], x, y), ([-4.0, 0.0, -3.0], z, y), ([4.0, 0.0, -3.0], y, z)] {
        quad(&mut m, at, u, w);
    }
    for k in 0..sheets {
        quad(&mut m, [-1.0 + 0.15 * k as f32, 0.2, -2.0], [0.0, 2.6, 0.0], [0.0, 0.0, 4.0]);
    }
    let row = Row { absorption: [0.2; 8], transmission: [0.6; 8] };
    let name = if sheets == 0 { "booth".into() } else { format!("{sheets} sheets across a booth") };
    Case { name, settings: Settings { room: 0, ..Settings::default() }, materials: vec![row], meshes: vec![m], source: [-2.3, 1.1, 0.4], listener: [2.6, 1.6, -0.7], separated: false }
}

/// The room with walls that take nothing and two sheets above each other: more taps than a list holds.
fn hard(taps: u32) -> Case {
    let mut c = hall(0);
    for y in [1.3, 2.2] {
        quad(&mut c.meshes[0], [-4.0, y, -3.0], [8.0, 0.0, 0.0], [0.0, 0.0, 6.0]);
    }
    c.materials = vec![Row { absorption: [0.0; 8], transmission: [0.9; 8] }];
    c.settings = Settings { order: 6, max_reflections: taps, max_distance: 1000.0, room: 4096, ..c.settings };
    c
}

fn grid(m: &mut Mesh, at: [f32; 3], u: [f32; 3], w: [f32; 3], a: usize, b: usize) {
    let part = |v: [f32; 3], n: usize| v.map(|x| x / n as f32);
    let (u, w) = (part(u, a), part(w, b));
    for i in 0..a * b {
        let (s, t) = ((i / b) as f32, (i % b) as f32);
        quad(m, std::array::from_fn(|k| at[k] + s * u[k] + t * w[k]), u, w);
    }
}

/// A room whose walls are grids of quads: four of a by b and two of c by d.
fn tiled([a, b, c, d]: [usize; 4]) -> Case {
    let (x, y, z) = ([8.0, 0.0, 0.0], [0.0, 3.0, 0.0], [0.0, 0.0, 6.0]);
    let mut case = Case { name: "room".into(), ..hall(0) };
    let m = &mut case.meshes[0];
    (m.positions, m.indices) = (Vec::new(), Vec::new());
    for (at, u, w) in [([-4.0, 0.0, -3.0], y, x), ([-4.0, 0.0, 3.0], x, y), ([-4.0, 0.0, -3.0], z, y), ([4.0, 0.0, -3.0], y, z)] {
        grid(m, at, u, w, a, b);
    }
    grid(m, [-4.0, 0.0, -3.0], x, z, c, d);
    grid(m, [-4.0, 3.0, -3.0], z, x, c, d);
    case
}

/// A barrel of so many facets, each a row of quads: neighbours merge.
fn barrel(facets: usize, row: usize) -> Case {
    let mut case = Case { name: "barrel".into(), ..hall(0) };
    (case.settings.merge_cos, case.settings.merge_offset) = (0.95, 0.5);
    let m = &mut case.meshes[0];
    (m.positions, m.indices) = (Vec::new(), Vec::new());
    let point = |k: usize| { let a = std::f32::consts::TAU * k as f32 / facets as f32; [4.0 * a.sin(), 4.0 * a.cos(), -3.0] };
    for k in 0..facets {
        let (p, q) = (point(k), point(k + 1));
        grid(m, p, [q[0] - p[0], q[1] - p[1], 0.0], [0.0, 0.0, 6.0], 1, row);
    }
    case
}

/// Ground of so many by so many quads, up to so much higher or lower at each corner: a plane a triangle, all of them neighbours.
fn ground(a: usize, b: usize, height: f32) -> Case {
    let mut case = Case { name: format!("ground {height}"), ..hall(0) };
    let (m, mut r) = (&mut case.meshes[0], Random::new(5));
    m.positions = (0..(a + 1) * (b + 1)).map(|k| [(k / (b + 1)) as f32, height * unit(&mut r), (k % (b + 1)) as f32]).collect();
    m.indices = (0..a * b).flat_map(|k| { let p = (k / b * (b + 1) + k % b) as u32; let q = p + b as u32 + 1; [p, p + 1, q, q, p + 1, q + 1] }).collect();
    case
}

/// So many sheets over one another, each in a plane of its own, then further triangles in the plane of the first.
fn stack(sheets: usize, further: usize) -> Case {
    let mut case = Case { name: format!("{sheets} sheets"), ..hall(0) };
    let m = &mut case.meshes[0];
    m.positions = (0..sheets + further).flat_map(|k| {
        let (x, y) = if k < sheets { (0.0, 0.01 * k as f32) } else { ((k - sheets + 2) as f32, 0.0) };
        [[x, y, 0.0], [x, y, 1.0], [x + 1.0, y, 0.0]]
    }).collect();
    m.indices = (0..3 * (sheets + further) as u32).collect();
    case
}

/// A case loaded, and its tree.
fn loaded(c: &Case) -> (Areas, usize, Tree) {
    let mut a = areas(c.meshes[0].indices.len() / 3, 0);
    let Loaded::Triangles { kept, triples, .. } = port::load_scene(&lent(c), &mut a) else { panic!("{} is refused", c.name) };
    let mut tree = Tree::areas(kept);
    assert!(tree.build(&a.columns, &a.handles, triples));
    (a, triples, tree)
}

/// Scenes of few planes and of many, of 12 triangles to 4,096.
fn scenes() -> Vec<Case> {
    vec![
        hall(0), hall(12), tiled([8, 5, 9, 5]), tiled([18, 19, 17, 20]), barrel(64, 32), ground(64, 32, 0.02), ground(64, 32, 1.0),
        stack(4096, 0), stack(1024, 3072), soup(12), soup(500), soup(4096),
    ]
}

/// What `build_bvh` does but for the statistics of the room: `triangles_from_scene`, `build_flat_bvh` and `build_planes`.
fn builds() {
    for c in scenes() {
        let (mut a, triples, mut tree) = loaded(&c);
        let (backend, l, mut work) = (oracle::built(&c, false), lent(&c), PlaneAreas::new(triples));
        let sets = (2048 / triples).max(1);
        let (p, q) = both(
            || (),
            |_| {
                (0..sets).for_each(|_| {
                    black_box(port::load_scene(&l, &mut a));
                    black_box(tree.build(&a.columns, &a.handles, triples));
                    black_box(work.build(&tree, &a.columns, &l.counts, &l.floats));
                })
            },
            |_| (0..sets).for_each(|_| { black_box((backend.oracle_place(), backend.oracle_build_tree(), backend.oracle_build_planes())); }),
        );
        line(&format!("build, {}, {triples} triangles", c.name), p / sets as f64, q / sets as f64);
    }
}

/// `build_planes`.
fn all_planes() {
    for c in scenes() {
        let (a, triples, tree) = loaded(&c);
        let (backend, l, mut work) = (oracle::built(&c, false), lent(&c), PlaneAreas::new(triples));
        if let Some(Err(words)) = planes::run(&c, &backend, &a, triples, &tree, None) {
            panic!("{}: {words}", c.name);
        }
        let stats = backend.oracle_build_stats();
        let sets = (2048 / triples).max(1);
        let (p, q) = both(
            || (),
            |_| (0..sets).for_each(|_| { black_box(work.build(&tree, &a.columns, &l.counts, &l.floats)); }),
            |_| (0..sets).for_each(|_| { black_box(backend.oracle_build_planes()); }),
        );
        line(&format!("build_planes, {}, {triples} triangles", c.name), p / sets as f64, q / sets as f64);
        println!("  ({} patches, {} buried, {} groups, {} fitted, {} planes)", stats.patches, stats.buried, stats.groups, stats.fitted, stats.planes);
    }
}

/// All sequences of so many planes up to order 3, no plane twice in a row.
fn sequences(count: usize) -> Vec<Vec<u32>> {
    let mut all: Vec<Vec<u32>> = (0..count as u32).map(|p| vec![p]).collect();
    let mut from = 0;
    for _ in 0..2 {
        let to = all.len();
        for k in from..to {
            let begun = all[k].clone();
            for p in (0..count as u32).filter(|p| begun.last() != Some(p)) {
                all.push([begun.clone(), vec![p]].concat());
            }
        }
        from = to;
    }
    all
}

fn single_paths() {
    for (name, c) in [("booth", hall(0)), ("12 sheets", hall(12))] {
        let (a, triples, tree) = loaded(&c);
        let (backend, built) = (oracle::built(&c, false), planes::build(&c, &a, triples, &tree));
        let (scene, table) = (paths::scene(&c, &a, triples, &tree, &built), Table(&c.materials));
        let path = |s: &[u32]| scene.path(s, &c.source, &c.listener);
        let rust = |s: &[usize]| backend.oracle_path(s, &c.source, &c.listener, &table);
        let all: Vec<(Vec<u32>, Vec<usize>)> = sequences(backend.oracle_planes().len()).into_iter().map(|s| { let t = s.iter().map(|&p| p as usize).collect(); (s, t) }).collect();
        assert!(all.iter().all(|(s, t)| { let (p, q) = (path(s), rust(t)); p.candidate == q.candidate && p.rays as u64 == q.rays }));
        let rays: u64 = all.iter().map(|(_, t)| rust(t).rays).sum();
        let (traced, other): (Vec<_>, Vec<_>) = all.into_iter().partition(|(_, t)| rust(t).rays > 0);
        for (what, of) in [("traced", &traced), ("not traced", &other)] {
            let sets = 20_000 / of.len().max(1) / if what == "traced" { 20 } else { 1 } + 1;
            let (p, q) = both(
                || (),
                |_| (0..sets).for_each(|_| of.iter().for_each(|(s, _)| { black_box(path(s)); })),
                |_| (0..sets).for_each(|_| of.iter().for_each(|(_, t)| { black_box(rust(t)); })),
            );
            let n = (sets * of.len()) as f64;
            line(&format!("a path, {name}, {} {what}", of.len()), p / n, q / n);
        }
        println!("  ({triples} triangles, {rays} rays for those traced)");
    }
}

/// `trace_early_reflections` over a scene that is built, the search and the ranking: all images of an order, and such that most images are too far.
fn queries() {
    let far = Settings::default().max_distance;
    for (name, sheets, order, far) in [("booth", 0, 3, far), ("12 sheets", 12, 2, far), ("booth", 0, 8, far), ("booth", 0, 8, 20.0), ("booth", 0, 8, 10.0)] {
        let mut c = hall(sheets);
        c.settings.order = order;
        c.settings.max_distance = far;
        let (a, triples, tree) = loaded(&c);
        let (backend, built) = (oracle::built(&c, false), planes::build(&c, &a, triples, &tree));
        let scene = paths::scene(&c, &a, triples, &tree, &built);
        let theirs = oracle::run_built(&c, &backend);
        let (mut rows, mut out) = (Candidates::with_room(theirs.candidates as usize), vec![0; TAPS]);
        let found = scene.search(&c.source, &c.listener, order as usize, &mut rows);
        assert_eq!((found.images, found.rays as u64, found.found), (theirs.images as usize, theirs.rays, theirs.candidates as usize));
        let (p, q) = rounds(
            20,
            || (),
            |_| { let f = scene.search(&c.source, &c.listener, order as usize, &mut rows); black_box(rows.rank_first(f.found, oracle::speed_of_sound(c.settings.temperature), c.settings.rate, &mut out)); },
            |_| { black_box(oracle::run_built(&c, &backend)); },
        );
        line(&format!("query, {name}, order {order}, to {far} m: {} images", found.images), p, q);
        println!("  ({} rays, {} candidates)", found.rays, found.found);
    }
}

fn rankings() {
    let mut r = Random::new(11);
    // the Rust compares each candidate with all kept ones before it cuts, so that many distinct ones take it minutes
    for (n, values, limit, count) in [(100, 1000, 64, ROUNDS), (100, 1000, TAPS, ROUNDS), (2000, 1000, 64, ROUNDS), (2000, 1000, TAPS, ROUNDS), (250_000, 4, TAPS, ROUNDS), (250_000, 12, 64, 3), (250_000, 12, TAPS, 3)] {
        let found = ranking::list(&mut r, n, values);
        let (mut rows, config, mut out) = (ranking::rows(&found), ranking::config(343.2, 48_000.0, limit), vec![0; limit]);
        let kept = rows.rank(343.2, 48_000.0, &mut out);
        let same: Vec<u32> = out[..kept].iter().map(|&p| p + 1).collect();
        assert_eq!(same, oracle_rank(&found, &config));
        let sets = (20_000 / n).max(1);
        let (p, q) = rounds(
            count,
            || (),
            |_| (0..sets).for_each(|_| { black_box(rows.rank(343.2, 48_000.0, &mut out)); }),
            |_| (0..sets).for_each(|_| { black_box(oracle_rank(&found, &config)); }),
        );
        line(&format!("rank_reflections, {n} from {values} values, {kept} kept"), p / sets as f64, q / sets as f64);
    }
}

fn packets() {
    for count in [1, 64, TAPS] {
        let mut taps = vec![0u32; TAPS * TAP_WORDS];
        for (k, t) in taps.chunks_exact_mut(TAP_WORDS).take(count).enumerate() {
            let gain = (1.0 - k as f32 / 2000.0).to_bits();
            t[..6].copy_from_slice(&[1 + k as u32 % 8, 1 + k as u32, 0x3f19_999a, 0x3f4c_cccd, 0, 0x443b_8000]);
            t[6..].fill(gain);
        }
        let mut out = vec![0u8; OUTPUT];
        let len = port::packet_write(count, 2000, 36, &taps, &mut out).expect("a packet");
        let mut back = vec![0u32; TAPS * TAP_WORDS];
        assert_eq!(port::packet_read(&out[..len], &mut back).map(|r| r.count), Ok(count));
        assert_eq!(back, taps);
        let (w, _) = both(|| (), |_| (0..100).for_each(|_| { black_box(port::packet_write(count, 2000, 36, &taps, &mut out).is_ok()); }), |_| ());
        let packet = out[..len].to_vec();
        let (r, _) = both(|| (), |_| (0..100).for_each(|_| { black_box(port::packet_read(&packet, &mut back).is_ok()); }), |_| ());
        let rate = |ns: f64| len as f64 * 100.0 / ns * 1e3;
        println!("packet of {count} taps, {len} bytes: written at {:.0} MB/s ({:.2} us), read at {:.0} MB/s ({:.2} us)", rate(w), w / 1e5, rate(r), r / 1e5);
    }
}

/// From a number to its walls, a thousand calls a round.
fn walls() {
    for (planes, order, number, expected) in [(6, 8, 250_000, [2, 3, 4, 5, 4, 5, 4, 5]), (256, 8, 250_000, [0, 1, 0, 1, 0, 4, 212, 133])] {
        let on = vec![0u8; planes as usize];
        assert_eq!(port::walls(planes, order, &on, number).as_deref(), Ok(&expected[..]));
        let (ns, _) = both(|| (), |_| (0..1000).for_each(|_| { black_box(port::walls(black_box(planes), order, &on, black_box(number)).is_ok()); }), |_| ());
        println!("walls of number {number}, {planes} planes, order {order}: {:.0} ns", ns / 1000.0);
    }
}

/// The whole call, which builds and queries and leaves its areas zero, against what `build_bvh` does but for the statistics of the room
/// (`triangles_from_scene`, `build_flat_bvh`, `build_planes`), and `trace_early_reflections`.
fn calls() {
    let with = |mut c: Case, order: u32, room: u32| { (c.settings.order, c.settings.room) = (order, room); c };
    let damped = |mut c: Case| { c.settings.air = [121, 440, 1310, 2728, 4665, 9887, 29_666, 105_291]; c };
    for (name, c) in [
        ("booth, order 3", with(hall(0), 3, 4096)), ("booth, order 3", with(hall(0), 3, 250_000)), ("12 sheets, order 2", with(hall(12), 2, 4096)),
        ("booth, order 8", with(hall(0), 8, 4096)), ("booth, order 8", with(hall(0), 8, 250_000)), ("500 random triangles, order 1", with(soup(500), 1, 4096)),
        ("4096 random triangles, order 1", with(soup(4096), 1, 4096)), ("booth, order 3", with(hall(0), 3, 4096)),
        ("booth with air, order 3", damped(with(hall(0), 3, 4096))), ("booth with air, order 8", damped(with(hall(0), 8, 4096))),
        ("hard booth, order 6", hard(64)), ("hard booth, order 6", hard(TAPS as u32)),
    ] {
        let (l, backend) = (lent(&c), oracle::built(&c, false));
        let theirs = oracle::run_built(&c, &backend);
        let (mut work, mut out) = (Work::new(c.meshes[0].indices.len() / 3, l.room as usize), vec![0u8; OUTPUT]);
        let mut call = || port::trace(&l, &mut work, &mut out, &c.source, &c.listener, c.separated);
        let a = call();
        assert_eq!((a.refusal, a.count, a.images, a.rays as u64), (0, theirs.taps.len(), theirs.images as usize, theirs.rays));
        let (p, q) = rounds(
            20,
            || (),
            |_| { black_box(call()); },
            |_| { black_box((backend.oracle_place(), backend.oracle_build_tree(), backend.oracle_build_planes(), oracle::run_built(&c, &backend))); },
        );
        line(&format!("the call, {name}, C {}", l.room), p, q);
        println!("  ({} triangles, {} images, {} rays, {} candidates, {} taps)", c.meshes[0].indices.len() / 3, a.images, a.rays, theirs.candidates, a.count);
    }
}
