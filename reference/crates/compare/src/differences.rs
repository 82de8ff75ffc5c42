//! The intended differences of docs/DIFFERENCES.md: the smallest input of each, run on both sides. The table there must say what they give.
use crate::calls::PUBLISHED;
use crate::front;
use oracle::{Case, Mesh, Overrides, Table, IDENTITY};
use port::{Traced, Tree, Work, COLUMNS, OUTPUT, TAPS, TAP_WORDS};
use quasar_backends::cpu_simd::{CpuSimdComputeBackend, OracleTree, ORACLE_LAST};
use quasar_core::air::{air_absorption_db_per_m, AIR_FACTOR};
use quasar_core::backend::{IAcousticComputeBackend, MaterialProvider, SpatialQuery};
use quasar_core::bands::{Band8, FREQ_BAND_CENTRES};
use quasar_core::distance::{DistanceCurve, DistanceModel};
use quasar_core::emitter_pattern::{EmitterPattern, EmitterShape, EmitterTrace};
use quasar_core::rays::RayInteractionContext;
use std::hint::black_box;
use std::panic::{catch_unwind, AssertUnwindSafe};
use std::process::{Command, Stdio};
use std::time::{Duration, Instant};

const TABLE: &str = concat!(env!("CARGO_MANIFEST_DIR"), "/../../../docs/DIFFERENCES.md");
const SECTION: &str = "## Intended differences";

/// How long a run that should not end is watched. Its stack grows by four bytes a turn.
const WATCHED: Duration = Duration::from_millis(200);

/// A row: where, the smallest input, what the Rust gives and what the port gives.
struct Row(&'static str, &'static str, String, String);

impl Row {
    /// As the table has it; why they part stands behind.
    fn text(&self) -> String {
        format!("| {} | {} | {} | {} |", self.0, self.1, self.2, self.3)
    }
}

fn taps(n: usize) -> String {
    match n {
        0 => "no tap".into(),
        1 => "1 tap".into(),
        n => format!("{n} taps"),
    }
}

/// Case A of document 01, with a change.
fn case_a(change: impl Fn(&mut Case)) -> Case {
    let mut c = Case::read_all(include_bytes!("../../../findings/a_case_a.case")).expect("case A").remove(0);
    c.settings.room = 1;
    change(&mut c);
    c
}

/// Triangles of three corners each in place of case A's floor.
fn triangles(corners: &[[f32; 3]], transform: [f32; 16]) -> Case {
    let mesh = Mesh { positions: corners.to_vec(), indices: (0..corners.len() as u32).collect(), handle: 0, transform };
    case_a(|c| c.meshes = vec![mesh.clone()])
}

/// What the Rust makes of a case, without document 01's refusals.
fn rust(c: &Case) -> String {
    let run = || oracle::run_built(c, &oracle::built(c, false)).taps.len();
    catch_unwind(AssertUnwindSafe(run)).map_or("panics".into(), taps)
}

fn traced(c: &Case) -> (Traced, Vec<u8>) {
    let triples = c.meshes.iter().map(|m| m.indices.len() / 3).sum();
    let (mut work, mut out) = (Work::new(triples, c.settings.room as usize), vec![0; OUTPUT]);
    (port::trace(&front::lent(c), &mut work, &mut out, &c.source, &c.listener, c.separated), out)
}

fn port(c: &Case) -> String {
    match traced(c).0 {
        Traced { refusal: 0, count, .. } => taps(count),
        Traced { refusal, .. } => format!("refusal {refusal}"),
    }
}

fn both(place: &'static str, input: &'static str, c: &Case) -> Row {
    Row(place, input, rust(c), port(c))
}

/// The least gain of the first tap of a packet.
fn port_gain(c: &Case) -> f32 {
    let ((a, out), mut taps) = (traced(c), vec![0; TAPS * TAP_WORDS]);
    port::packet_read(&out[..a.bytes], &mut taps).expect("a packet");
    taps[6..TAP_WORDS].iter().map(|&w| f32::from_bits(w)).fold(f32::INFINITY, f32::min)
}

fn rust_gain(c: &Case, materials: &dyn MaterialProvider) -> f32 {
    let (taps, ..) = oracle::built(c, false).oracle_trace(&c.source, &c.listener, materials, c.separated);
    taps[0].gain.0.into_iter().fold(f32::INFINITY, f32::min)
}

// ---- numbers

fn nan() -> Row {
    let bits = |x: f32| format!("{:08x}", x.to_bits());
    Row("NaN bits", "`sqrt(-1)`", bits(black_box(-1.0f32).sqrt()), bits(port::sqrt(-1.0)))
}

fn clamp() -> Row {
    let rust = catch_unwind(|| black_box(0.0f32).clamp(black_box(1.0), 0.0)).map_or("panics".into(), |x| x.to_string());
    Row("`clamp` of an empty range", "`clamp(0, 1, 0)`", rust, port::clamp(0.0, 1.0, 0.0).to_string())
}

fn exponential() -> Row {
    let model = DistanceModel { curve: DistanceCurve::Exponential, rolloff_factor: 2.0, ..DistanceModel::default() };
    let port = |linear| port::distance_gain(linear, 1.0, 2.0, 1.0, 10_000.0, 2.0);
    let words = format!("not there; Inverse {}, Linear {}", port(false), port(true));
    Row("`DistanceCurve::Exponential`", "2 m, rolloff 2, else the defaults", model.gain(2.0).to_string(), words)
}

/// Rust's `sum` starts from -0. Only the first of eight additions can tell: it is tried on every square.
fn sums() -> Row {
    let differs = |b: u32| {
        let square = f32::from_bits(b) * f32::from_bits(b);
        let (rust, port) = (black_box(-0.0f32) + square, black_box(0.0f32) + square);
        rust.to_bits() != port.to_bits() && !(rust.is_nan() && port.is_nan())
    };
    let found = match (0..=u32::MAX).find(|&b| differs(b)) {
        None => "none of 2^32".into(),
        Some(b) => format!("{b:08x}"),
    };
    let none = black_box(Vec::<f32>::new()).iter().sum::<f32>();
    Row("`Band8` sums of squares", "no eight squares show it", format!("`sum` of no number is {none:?}"), format!("starts from 0.0; first squares that tell: {found}"))
}

// ---- the tree

/// The least z of the root's box.
fn least_z(c: &Case) -> (f32, f32) {
    let mut areas = front::areas(2, 1);
    port::load_scene(&front::lent(c), &mut areas);
    let mut tree = Tree::areas(2);
    tree.build(&areas.columns, &areas.handles, 2);
    (oracle::built(c, false).oracle_bvh().0[0].min[2], tree.boxes[2])
}

fn zero() -> Row {
    // zeros of -0 keep a corner's -0, to which +0 would be added
    let transform = IDENTITY.map(|x| if x == 0.0 { -0.0 } else { x });
    let (rust, port) = least_z(&triangles(&[[0.0, 0.0, -0.0], [1.0, 0.0, 0.0], [0.0, 1.0, 0.0], [0.0, 0.0, 0.0], [1.0, 0.0, 0.0], [0.0, 1.0, 0.0]], transform));
    Row(
        "sign of a zero in a node's box",
        "two triangles, (0, 0, -0), (1, 0, 0), (0, 1, 0) and (0, 0, 0), (1, 0, 0), (0, 1, 0), placed by a matrix of -0 off its diagonal",
        format!("least z {rust:?} at opt-level 3"),
        format!("least z {port:?}, as the Rust at opt-level 0"),
    )
}

/// The trace of a tree of no triangles, in a process of its own; how it went.
fn endless(direction: &str) -> String {
    let program = std::env::current_exe().expect("this program");
    let mut child = Command::new(program).args(["differences", direction]).stdout(Stdio::null()).spawn().expect("a process");
    let start = Instant::now();
    while start.elapsed() < WATCHED {
        if child.try_wait().expect("a state").is_some() {
            return "ends".into();
        }
        std::thread::sleep(Duration::from_millis(5));
    }
    child.kill().and_then(|()| child.wait()).expect("an end");
    format!("does not end in {} ms", WATCHED.as_millis())
}

/// What `endless` starts: a ray of this direction.
pub fn trace_none(direction: &str) {
    let d: Vec<f32> = direction.split(',').map(|w| w.parse().expect("a number")).collect();
    black_box(OracleTree::of_none().intersect(&[0.0, 0.0, 0.0, d[0], d[1], d[2], 0.0, 1.0]));
}

fn no_triangles() -> Row {
    let rust = format!("`intersect` {}; along (1, 0, 0) it {}", endless("1,1,1"), endless("1,0,0"));
    Row("a tree of no triangles", "no triangle, a ray along (1, 1, 1)", rust, format!("not built; a scene of none: {}", port(&triangles(&[], IDENTITY))))
}

/// The nodes of the port's tree over triangles whose corners no refusal has kept out.
fn port_tree(c: &Case) -> usize {
    let tris = placed(c);
    let n = tris.len();
    let mut columns = vec![0.0; COLUMNS * n];
    tris.iter().enumerate().for_each(|(i, t)| t.iter().enumerate().for_each(|(k, &x)| columns[i + k * n] = x));
    let mut tree = Tree::areas(n);
    tree.build(&columns, &vec![0; n], n);
    tree.count
}

fn placed(c: &Case) -> Vec<[f32; 9]> {
    let m = &c.meshes[0];
    let corner = |i: &u32| oracle::place(m.positions[*i as usize], &m.transform);
    m.indices.chunks_exact(3).map(|t| { let f: Vec<f32> = t.iter().flat_map(corner).collect(); f.try_into().expect("nine") }).collect()
}

const HUGE: f32 = 3e38;

/// Placed so that x is infinite, or infinite of both signs, and y and z are not NaN.
fn doubled(corners: &[[f32; 3]]) -> Case {
    let mut transform = IDENTITY;
    transform[0] = 2.0;
    triangles(corners, transform)
}

fn infinite_centroid() -> Row {
    let c = doubled(&[[0.0, 0.0, 0.0], [HUGE, 0.0, 0.0], [0.0, 1.0, 1.0]]);
    let nodes = oracle::built(&c, false).oracle_bvh().0.len();
    let port = format!("{}; `build_flat_bvh`: {} nodes", port(&c), port_tree(&c));
    Row("a centroid that is infinite", "one triangle, (0, 0, 0), (3e38, 0, 0), (0, 1, 1), x doubled by the transform", format!("{nodes} node, {}", rust(&c)), port)
}

fn nan_centroid() -> Row {
    let mut corners = vec![[0.0, 0.0, 0.0], [HUGE, 1.0, 1.0], [-HUGE, 1.0, 1.0]];
    for k in 1..=4 {
        let x = k as f32;
        corners.extend([[x, 0.0, 0.0], [x + 1.0, 0.0, 0.0], [x, 1.0, 0.0]]);
    }
    let (four, five) = (doubled(&corners[..12]), doubled(&corners));
    let port = format!("{}; `build_flat_bvh`: {} nodes", port(&five), port_tree(&five));
    Row(
        "a centroid that is NaN",
        "five triangles, (0, 0, 0), (3e38, 1, 1), (-3e38, 1, 1), x doubled, and four with other centroids",
        format!("{} in the sort; with four: {}", rust(&five), rust(&four)),
        port,
    )
}

// ---- what is refused

fn refused() -> Vec<Row> {
    let far = 10_000f32.next_up();
    let floor = "case A, a corner's x 10,000.001";
    vec![
        both("a corner that is not finite", "case A and a triple of one corner (NaN, 0, 0)", &case_a(|c| {
            c.meshes[0].positions.push([f32::NAN, 0.0, 0.0]);
            c.meshes[0].indices.extend([4, 4, 4]);
        })),
        both("a corner beyond 10,000", floor, &case_a(|c| c.meshes[0].positions[1][0] = far)),
        both("more than 4,096 triples", "case A and 4,095 triples 0 0 0", &case_a(|c| c.meshes[0].indices.extend([0; 3 * 4095]))),
        both("a handle without a row", "case A and a mesh of no vertices, handle 1", &case_a(|c| c.meshes.push(Mesh { positions: vec![], indices: vec![], handle: 1, transform: IDENTITY }))),
        both("more candidates than C", "case A, C 0", &case_a(|c| c.settings.room = 0)),
    ]
}

/// Case A with one setting just past its limit; those for which the two answer alike are in one row.
fn settings() -> Vec<Row> {
    const MILLION: f32 = 1_000_000.0;
    let heard: [fn(&mut oracle::Settings); 24] = [
        |s| s.planes = 257,
        |s| s.room = 250_001,
        |s| s.max_distance = 1000f32.next_up(),
        |s| s.temperature = (-20f32).next_down(),
        |s| s.temperature = 50f32.next_up(),
        |s| s.rate = 8000f32.next_down(),
        |s| s.rate = 192_000f32.next_up(),
        |s| s.merge_cos = 1f32.next_up(),
        |s| s.merge_cos = (-1f32).next_down(),
        |s| s.fade = f32::NAN,
        |s| s.merge_offset = f32::INFINITY,
        |s| s.buried = f32::NAN,
        |s| s.reference = 0f32.next_down(),
        |s| s.reference = MILLION.next_up(),
        |s| s.rolloff = 0f32.next_down(),
        |s| s.rolloff = MILLION.next_up(),
        |s| s.min_distance = f32::NAN,
        |s| s.min_distance = 0f32.next_down(),
        |s| s.far_distance = f32::INFINITY,
        |s| s.crossing_limit = 0,
        |s| s.crossing_limit = 33,
        |s| s.probe_radius = 1f32.next_up(),
        |s| s.probe_radius = f32::NAN,
        |s| s.air[7] = 1_000_001,
    ];
    let silent: [fn(&mut oracle::Settings); 3] = [|s| s.max_distance = 0.0, |s| s.max_distance = f32::NAN, |s| s.fade = f32::INFINITY];
    let one = |changes: &[fn(&mut oracle::Settings)], place, input| {
        let rows: Vec<Row> = changes.iter().map(|f| both(place, input, &case_a(|c| f(&mut c.settings)))).collect();
        let same = |pick: fn(&Row) -> &String| match rows.iter().find(|r| pick(r) != pick(&rows[0])) {
            None => format!("{} each", pick(&rows[0])),
            Some(_) => rows.iter().map(|r| pick(r).as_str()).collect::<Vec<_>>().join(", "),
        };
        Row(place, input, same(|r| &r.2), same(|r| &r.3))
    };
    vec![
        one(
            &heard,
            "a setting past its limit",
            "case A with 257 planes, or C 250,001; distance, temperature, rate, cosine or a number of the distance model one float past an end; fade, merge offset or buried distance NaN or infinite; crossing limit 0 or 33; probe radius past 1 or NaN; a coefficient of the air 1,000,001",
        ),
        one(&silent, "the same, nothing heard", "case A with distance 0 or NaN, or fade infinite"),
    ]
}

/// The Rust with the limit that is published, and one tap more than it: a closed room, whose walls take nothing, has 128 at order 4.
fn long_list() -> Row {
    let room = case_a(|c| {
        let m = &mut c.meshes[0];
        m.positions = (0..8).map(|k| [8.0 * (k & 1) as f32, 3.0 * (k >> 1 & 1) as f32, 6.0 * (k >> 2) as f32]).collect();
        m.indices = vec![0, 1, 3, 0, 3, 2, 4, 5, 7, 4, 7, 6, 0, 1, 5, 0, 5, 4, 2, 3, 7, 2, 7, 6, 0, 2, 6, 0, 6, 4, 1, 3, 7, 1, 7, 5];
        c.materials[0].absorption = [0.0; 8];
        (c.source, c.listener) = ([2.0, 1.2, 2.5], [6.0, 1.7, 3.4]);
        (c.settings.order, c.settings.max_reflections, c.settings.room) = (4, PUBLISHED as u32 + 1, 250);
    });
    let published = oracle::run_with(&room, false, &Overrides { max_paths: PUBLISHED });
    Row("more than 64 taps", "a closed room, 8 by 3 by 6 m, absorption 0, order 4, a list of 65", taps(published.taps.len()), port(&room))
}

// ---- what `query_spatial` does around the port's call

fn queried(c: &Case, emitter: Option<EmitterTrace>, materials: &dyn MaterialProvider) -> (CpuSimdComputeBackend, usize) {
    let mut b = oracle::built(c, false);
    emitter.into_iter().for_each(|e| b.set_emitters(&[(0, e)]));
    b.reset_ray_counter();
    ORACLE_LAST.with(|l| *l.borrow_mut() = Default::default());
    let found = b.query_spatial(&[SpatialQuery { source_position: c.source, listener_position: c.listener, source_id: 0 }], materials);
    (b, found[0].early_reflections.len())
}

/// Absorbs three quarters up to half a radian, and nothing beyond.
struct Angled;
impl MaterialProvider for Angled {
    fn evaluate_material(&self, _: u32, c: &RayInteractionContext) -> Band8 {
        Band8::splat(if c.incident_angle_rad < 0.5 { 0.75 } else { 0.0 })
    }
}

fn around() -> Vec<Row> {
    let a = case_a(|_| ());
    let table = Table(&a.materials);
    // the least whole degree at which an f64's cosine is another f32
    let (rust, double) = (black_box(17f32).to_radians().cos(), black_box(17f64).to_radians().cos() as f32);
    // the published formulas in the Rust, and their coefficients in the port
    let air = {
        let built = oracle::built(&a, false);
        AIR_FACTOR.with(|f| f.set(Some(|d| quasar_core::air_iso::air_absorption_gain(d, 20.0, 50.0))));
        let (taps, ..) = built.oracle_trace(&a.source, &a.listener, &table, a.separated);
        AIR_FACTOR.with(|f| f.set(None));
        taps[0].gain.0[7]
    };
    let coefficients = FREQ_BAND_CENTRES.map(|f| (air_absorption_db_per_m(f, 20.0, 50.0) * 1e6).round() as u32);
    let damped = case_a(|c| c.settings.air = coefficients);
    let up = EmitterTrace { pattern: Some(EmitterPattern::SoundCone { inner_deg: 90.0, outer_deg: 90.0, outer_gain_db: -50.0 }), forward: [0.0, 1.0, 0.0], shape: EmitterShape::Point };
    let corners = [[0.0, 0.0, 0.0], [4.0, 0.0, 0.0], [0.0, 4.0, 0.0], [0.0, 0.0, 4.0]];
    let mut shell = triangles(&corners, IDENTITY);
    shell.meshes[0].indices = vec![0, 1, 2, 0, 2, 3, 0, 3, 1, 1, 3, 2];
    (shell.source, shell.listener) = ([0.5, 0.5, 0.5], [5.0, 5.0, 5.0]);
    let images = |c: &Case| traced(c).0.images;
    let told = Case { separated: true, ..shell.clone() };
    let (warned, (counted, _)) = (oracle::built(&a, false).room_warning_count(), queried(&a, None, &table));
    queried(&shell, None, &table);
    let skipped = ORACLE_LAST.with(|l| l.borrow().nodes);
    vec![
        Row("`plane_merge_angle_deg`", "17 degrees", format!("takes the f32 cosine, {:08x}", rust.to_bits()), format!("is given a cosine; from an f64 it is {:08x}", double.to_bits())),
        Row("air", "case A at 20 degrees and 50 %: the gain at 8 kHz", air.to_string(), format!("{} with {} millionths of a decibel per metre", port_gain(&damped), coefficients[7])),
        Row("absorption by angle", "case A, 0.75 below half a radian and else 0: the gain", rust_gain(&a, &Angled).to_string(), format!("one number a band: {}", port_gain(&a))),
        Row("emitter pattern", "case A, a cone of 90 degrees upwards, -50 dB outside", taps(queried(&a, Some(up), &table).1), port(&a)),
        Row("`separated`", "an opaque tetrahedron, source inside, listener outside", format!("`query_spatial` finds it: {skipped} images"), format!("is told: {} images, not told {}", images(&told), images(&shell))),
        Row("rays", "case A by `query_spatial`", format!("{}, all of the backend", counted.rays_traced()), format!("{}, of this query's echoes", traced(&a).0.rays)),
        Row("a room that is not closed", "case A", format!("{warned} warning on standard error"), "prints nothing".into()),
    ]
}

fn rows() -> Vec<Row> {
    let mut all = vec![nan(), clamp(), exponential(), sums(), zero(), no_triangles(), infinite_centroid(), nan_centroid(), long_list()];
    all.extend(refused());
    all.extend(settings());
    all.extend(around());
    all
}

/// The rows of the table.
fn listed() -> Vec<String> {
    let text = std::fs::read_to_string(TABLE).unwrap_or_else(|e| {
        eprintln!("compare: {TABLE}: {e}");
        std::process::exit(2)
    });
    let section = text.split(SECTION).nth(1).and_then(|s| s.split("\n## ").next()).unwrap_or("");
    section.lines().filter(|l| l.starts_with("| ")).skip(1).map(String::from).collect()
}

/// Prints what each input gives; fails where the table says otherwise.
pub fn run() {
    // what panics is told in its row
    std::panic::set_hook(Box::new(|_| {}));
    let (rows, listed) = (rows(), listed());
    let _ = std::panic::take_hook();
    let mut wrong = 0;
    for row in &rows {
        let (text, equal) = (row.text(), row.2 == row.3);
        let held = !equal && listed.iter().any(|l| l.starts_with(&text));
        wrong += !held as u32;
        println!("{text}{}", if equal { " NO DIFFERENCE" } else if held { "" } else { " NOT IN THE TABLE" });
    }
    let other: Vec<_> = listed.iter().filter(|l| !rows.iter().any(|r| l.starts_with(&r.text()))).collect();
    other.iter().for_each(|l| println!("not run: {l}"));
    println!("{} inputs, {wrong} not as docs/DIFFERENCES.md has them, {} of its {} rows not run", rows.len(), other.len(), listed.len());
    if wrong > 0 || !other.is_empty() {
        std::process::exit(1);
    }
}
