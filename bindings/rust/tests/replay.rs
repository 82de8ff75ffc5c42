//! The recorded queries of crates/replay (its src/main.rt says what stands in a line), one workspace for each candidate room: refusal, counts and every byte of the
//! packet are those that the Rust answered.
use bivelondry::{ffi, trace_packet, Curve, DistanceModel, Packet, Scene, Settings, Workspace};

const RECORDED: &str = include_str!("../../../crates/replay/stdin");
// Where things stand in the words of a line.
const COUNTS: usize = 5;
const FLOATS: usize = COUNTS + ffi::COUNTS;
const ROOM: usize = FLOATS + ffi::FLOATS;
const ROWS: usize = ROOM + 1;
const SEPARATED: usize = ROWS + 1;
const SOURCE: usize = SEPARATED + 1;
const LISTENER: usize = SOURCE + 3;
const ANSWER: usize = LISTENER + 3;
const HEADER: usize = ANSWER + 5;

/// A query, and what was answered: refusal, taps, images, rays and the packet.
struct Recorded {
    settings: Settings,
    scene: Scene,
    source: [f32; 3],
    listener: [f32; 3],
    separated: bool,
    room: u32,
    answer: [u32; 5],
    packet: Vec<u8>,
}

fn recorded(line: &str) -> (&str, Recorded) {
    let (name, rest) = line.split_once(' ').expect("a name");
    let digits: String = rest.split(' ').collect();
    let words: Vec<u32> = (0..digits.len() / 8).map(|k| u32::from_str_radix(&digits[8 * k..][..8], 16).expect("hexadecimal")).collect();
    let (c, f) = (&words[COUNTS..FLOATS], |k: usize| f32::from_bits(words[FLOATS + k]));
    let point = |k: usize| [words[k], words[k + 1], words[k + 2]].map(f32::from_bits);
    let mut rest = &words[HEADER..];
    let mut part = |k: usize| {
        let (now, then) = rest.split_at(words[k] as usize);
        rest = then;
        now.to_vec()
    };
    let floats = |v: Vec<u32>| v.into_iter().map(f32::from_bits).collect::<Vec<f32>>();
    let scene = Scene { meshes: part(0), transforms: floats(part(1)), positions: floats(part(2)), indices: part(3), materials: floats(part(4)), rows: words[ROWS] };
    let curve = if c[4] == 0 { Curve::Inverse } else { Curve::Linear };
    let settings = Settings {
        max_reflection_order: c[0],
        max_reflections: c[1],
        max_reflection_planes: c[2],
        plane_merge: c[3] != 0,
        reflection_edge_fade: f(0),
        max_reflection_distance: f(1),
        temperature_celsius: f(2),
        sample_rate: f(3),
        plane_merge_cos: f(4),
        plane_merge_offset: f(5),
        plane_buried_distance: f(6),
        distance_model: DistanceModel { curve, reference_distance: f(7), rolloff_factor: f(8), min_distance: f(9), max_distance: f(10) },
        crossing_limit: c[5],
        probe_radius: f(11),
        air: c[6..].try_into().expect("eight"),
    };
    let packet = rest.iter().flat_map(|w| w.to_le_bytes()).take(words[HEADER - 1] as usize).collect();
    let answer = words[ANSWER..HEADER].try_into().expect("five");
    (name, Recorded { settings, scene, source: point(SOURCE), listener: point(LISTENER), separated: words[SEPARATED] != 0, room: words[ROOM], answer, packet })
}

#[test]
fn recorded_queries() {
    let mut workspaces = std::collections::HashMap::new();
    let mut cases = 0;
    for line in RECORDED.lines().filter(|l| !l.starts_with('#')) {
        let (name, r) = recorded(line);
        let w = workspaces.entry(r.room).or_insert_with(|| Workspace::new(r.room));
        match trace_packet(&r.settings, &r.scene, r.source, r.listener, r.separated, w) {
            Ok(bytes) => {
                assert_eq!(bytes, r.packet, "{name}");
                let p = Packet::read(bytes).expect(name);
                assert_eq!([0, p.taps.len() as u32, p.images, p.rays, bytes.len() as u32], r.answer, "{name}");
                assert_eq!(p.write().expect(name), bytes, "{name}");
            }
            Err(refusal) => assert_eq!([refusal.number(), 0, 0, 0, 0], r.answer, "{name}"),
        }
        cases += 1;
    }
    assert_eq!(cases, 161);
}
