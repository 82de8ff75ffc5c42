//! Every refusal that the crate can reach, what stays usable after one, and the round trip of a packet.
use bivelondry::{trace_early_reflections, trace_packet, Material, Mesh, Packet, Refusal, Scene, Settings, Tap, Workspace, MOST_CANDIDATES, MOST_CROSSINGS, MOST_TAPS, MOST_TRIPLES};

const FLOOR: [[f32; 3]; 4] = [[-4.0, 0.0, -4.0], [4.0, 0.0, -4.0], [4.0, 0.0, 4.0], [-4.0, 0.0, 4.0]];
const SOURCE: [f32; 3] = [0.0, 2.0, 0.0];
const LISTENER: [f32; 3] = [3.0, 2.0, 0.0];

fn settings() -> Settings {
    Settings { temperature_celsius: 20.0, ..Settings::default() }
}

fn scene() -> Scene {
    let mut s = Scene::default();
    let floor = s.add_material(&Material { absorption: [0.75; 8], transmission: [0.0; 8] });
    s.add_mesh(&Mesh { positions: &FLOOR, indices: &[0, 1, 2, 0, 2, 3], material: floor, ..Mesh::default() });
    s
}

/// Case A, with a change of settings or scene.
fn asked(change: impl Fn(&mut Settings, &mut Scene), candidates: u32) -> Result<Packet, Refusal> {
    let (mut s, mut all) = (settings(), scene());
    change(&mut s, &mut all);
    trace_early_reflections(&s, &all, SOURCE, LISTENER, false, &mut Workspace::new(candidates))
}

#[test]
fn case_a() {
    let p = asked(|_, _| (), 1).unwrap();
    assert_eq!((p.images, p.rays, p.taps.len()), (1, 36, 1));
    let t = &p.taps[0];
    assert_eq!((t.order, t.number, t.delay_samples), (1, 1, f32::from_bits(0x442e_d33e)));
    assert!(t.gains.iter().all(|g| (g - 0.1).abs() < 1e-6));
}

/// 5 m at 0.1 dB a metre are ten steps of 0.05 dB, of which the table leaves 15,838,713 parts of 2^24; what takes nothing leaves all.
#[test]
fn air_takes_its_part() {
    let still = asked(|_, _| (), 1).unwrap().taps[0].gains;
    let damped = asked(|s, _| s.air = [0, 0, 0, 100_000, 0, 0, 0, 1_000_000], 1).unwrap().taps[0].gains;
    assert_eq!((damped[0], damped[6]), (still[0], still[6]));
    assert!((damped[3] / still[3] - 15_838_713.0 / 16_777_216.0).abs() < 1e-6);
    assert!((damped[7] / still[7] - 10f32.powf(-0.25)).abs() < 1e-5);
}

#[test]
fn settings_are_refused() {
    #[rustfmt::skip]
    let changes: [fn(&mut Settings); 10] = [
        |s| s.max_reflection_planes = 257, |s| s.temperature_celsius = f32::NAN,
        |s| s.temperature_celsius = 50f32.next_up(), |s| s.temperature_celsius = (-20f32).next_down(), |s| s.distance_model.rolloff_factor = -1.0, |s| s.crossing_limit = 0,
        |s| s.crossing_limit = MOST_CROSSINGS + 1, |s| s.probe_radius = 1f32.next_up(), |s| s.probe_radius = f32::NAN,
        |s| s.air[7] = 1_000_001,
    ];
    for change in changes {
        assert_eq!(asked(|s, _| change(s), 1), Err(Refusal::Settings));
    }
    assert_eq!(asked(|_, _| (), MOST_CANDIDATES + 1), Err(Refusal::Settings));
}

#[test]
fn lengths_are_refused() {
    let changes: [fn(&mut Scene); 5] = [|s| s.meshes.push(0), |s| s.transforms.truncate(15), |s| s.positions.push(0.0), |s| s.indices.push(0), |s| s.rows = 2];
    for change in changes {
        assert_eq!(asked(|_, s| change(s), 1), Err(Refusal::Lengths));
    }
}

#[test]
fn a_handle_without_a_row_is_refused() {
    assert_eq!(asked(|_, s| s.meshes[2] = 1, 1), Err(Refusal::Material));
}

#[test]
fn too_many_triples_are_refused() {
    let more = |n: usize| move |_: &mut Settings, s: &mut Scene| s.add_mesh(&Mesh { indices: &vec![0; 3 * n], ..Mesh::default() });
    assert_eq!(asked(more(MOST_TRIPLES - 1), 1), Err(Refusal::Triangles));
    assert_eq!(asked(more(MOST_TRIPLES - 2), 1).map(|p| p.taps.len()), Ok(1));
}

#[test]
fn far_corners_are_refused() {
    assert_eq!(asked(|_, s| s.positions[0] = 10_001.0, 1), Err(Refusal::Far));
    assert_eq!(asked(|_, s| s.positions[4] = f32::NAN, 1), Err(Refusal::Far));
}

#[test]
fn too_little_candidate_room_is_refused() {
    assert_eq!(asked(|_, _| (), 0), Err(Refusal::Candidates));
}

/// One workspace for queries that are refused, small and large, in any order: each answer is that of a workspace of its own.
#[test]
fn a_workspace_is_used_again() {
    let mut w = Workspace::new(1);
    let (s, floor) = (settings(), scene());
    let mut far = scene();
    far.positions[0] = f32::INFINITY;
    let mut large = scene();
    large.add_mesh(&Mesh { indices: &[9; 300], ..Mesh::default() });
    let alone = trace_early_reflections(&s, &floor, SOURCE, LISTENER, false, &mut Workspace::new(1));
    for k in 0..20 {
        match k % 4 {
            0 => assert_eq!(trace_early_reflections(&s, &far, SOURCE, LISTENER, false, &mut w), Err(Refusal::Far)),
            1 => assert_eq!(trace_early_reflections(&s, &large, SOURCE, LISTENER, false, &mut w), alone),
            2 => assert_eq!(trace_packet(&s, &floor, SOURCE, LISTENER, true, &mut w).map(<[u8]>::len), Ok(10)),
            _ => assert_eq!(trace_early_reflections(&s, &floor, SOURCE, LISTENER, false, &mut w), alone),
        }
    }
    let bytes = w.bytes();
    let _ = trace_early_reflections(&s, &large, SOURCE, LISTENER, false, &mut w);
    assert_eq!(w.bytes(), bytes, "no memory more for a scene seen before");
}

#[test]
fn nothing_is_heard() {
    let (s, floor) = (settings(), scene());
    let mut w = Workspace::new(1);
    for (source, scene) in [([f32::NAN, 2.0, 0.0], &floor), (SOURCE, &Scene::default())] {
        assert_eq!(trace_early_reflections(&s, scene, source, LISTENER, false, &mut w), Ok(Packet::default()));
    }
}

fn tap(number: u32, gain: f32) -> Tap {
    Tap { order: 1, number, direction: [0.0, -1.0, 0.0], delay_samples: 750.0, gains: [gain; 8] }
}

#[test]
fn packets_are_read_as_written() {
    for n in [0, 1, 2, 64, 65, 255, 256, 257, MOST_TAPS - 1, MOST_TAPS] {
        let taps: Vec<Tap> = (0..n).map(|k| tap(k as u32 + 1, 1.0 / (k + 1) as f32)).collect();
        let p = Packet { images: n as u32, rays: u32::MAX, taps };
        let bytes = p.write().unwrap();
        assert_eq!(bytes.len(), 10 + 54 * n);
        assert_eq!(bytes[..2], (n as u16).to_le_bytes());
        assert_eq!(Packet::read(&bytes).unwrap(), p);
        // with a count of one byte, as it was before
        let old: Vec<u8> = bytes[..1].iter().chain(&bytes[2..]).copied().collect();
        assert_eq!(Packet::read(&old), Err(Refusal::Bytes));
    }
}

#[test]
fn packets_are_refused() {
    let of = |images, taps| Packet { images, rays: 0, taps };
    let written = |p: Packet| p.write().map(|_| ());
    let most = MOST_TAPS as u32;
    assert_eq!(written(of(most + 1, (1..=most + 1).map(|k| tap(k, 1.0)).collect())), Err(Refusal::Counts));
    assert_eq!(written(of(250_001, vec![])), Err(Refusal::Counts));
    assert_eq!(written(of(1, vec![tap(2, 1.0)])), Err(Refusal::Counts));
    assert_eq!(written(of(1, vec![tap(1, f32::NAN)])), Err(Refusal::Numbers));
    assert_eq!(written(of(1, vec![tap(1, -1.0)])), Err(Refusal::Numbers));
    assert_eq!(written(of(2, vec![tap(1, 1.0), tap(1, 0.5)])), Err(Refusal::Order));
    assert_eq!(written(of(2, vec![tap(1, 0.5), tap(2, 1.0)])), Err(Refusal::Order));
    assert_eq!(written(of(1, vec![tap(1, 0.0)])), Err(Refusal::Order));
    let mut bytes = of(2, vec![tap(1, 1.0), tap(2, 0.5)]).write().unwrap();
    assert_eq!(Packet::read(&bytes[..bytes.len() - 1]), Err(Refusal::Bytes));
    assert_eq!(Packet::read(&[]), Err(Refusal::Bytes));
    bytes.push(0);
    assert_eq!(Packet::read(&bytes), Err(Refusal::Bytes));
    bytes.pop();
    bytes[11] = 0; // the order of the first tap
    assert_eq!(Packet::read(&bytes), Err(Refusal::Counts));
}

#[test]
fn refusals_have_their_numbers_and_texts() {
    assert!(Refusal::ALL.iter().map(|r| r.number()).eq((1..=11).chain([13, 14])));
    for (k, r) in Refusal::ALL.iter().enumerate() {
        assert!(Refusal::ALL[..k].iter().all(|q| q.to_string() != r.to_string()));
    }
}
