//! The walls of images by their numbers: against a walk over all of them, what is refused, and those of a query's taps.
use bivelondry::{find_walls, planes, speed_of_sound, trace_early_reflections, walls, Material, Mesh, Packet, Plane, Refusal, Scene, Settings, Workspace, MOST_IMAGES, MOST_ORDER, MOST_PLANES, MOST_TAPS};

/// The allowed sequences that go on from `s`, in their order.
fn listed(on: &[bool], order: usize, s: &mut Vec<u8>, all: &mut Vec<Vec<u8>>) {
    for p in 0..on.len() as u8 {
        if s.len() < order && s.last().map_or(!on[p as usize], |&q| q != p) {
            s.push(p);
            all.push(s.clone());
            listed(on, order, s, all);
            s.pop();
        }
    }
}

#[test]
fn each_number_has_the_walls_of_the_walk() {
    for planes in 1..=4 {
        for mask in 0..1u32 << planes {
            let on: Vec<bool> = (0..planes).map(|p| mask >> p & 1 == 1).collect();
            for order in 1..=4 {
                let mut all = Vec::new();
                listed(&on, order as usize, &mut Vec::new(), &mut all);
                for (k, s) in all.iter().enumerate() {
                    assert_eq!(find_walls(&on, order, k as u32 + 1).as_ref(), Ok(s));
                }
                assert_eq!(find_walls(&on, order, all.len() as u32 + 1), Err(Refusal::NoImage));
            }
        }
    }
}

#[test]
fn the_ends_of_the_ranges() {
    assert_eq!(find_walls(&[false; 6], 3, 2), Ok(vec![0, 1]));
    assert_eq!(find_walls(&[false; 6], 3, 32), Ok(vec![1]));
    assert_eq!(find_walls(&[false; 6], MOST_ORDER, MOST_IMAGES), Ok(vec![2, 3, 4, 5, 4, 5, 4, 5]));
    assert_eq!(find_walls(&[false; MOST_PLANES], MOST_ORDER, MOST_IMAGES), Ok(vec![0, 1, 0, 1, 0, 4, 212, 133]));
    assert_eq!(find_walls(&[false], MOST_ORDER, 1), Ok(vec![0]));
}

#[test]
fn numbers_are_refused() {
    let none = Err(Refusal::NoImage);
    assert_eq!(find_walls(&[false; 6], 3, 0), none);
    assert_eq!(find_walls(&[false; 6], 0, 1), none);
    assert_eq!(find_walls(&[false; 6], MOST_ORDER + 1, 1), none);
    assert_eq!(find_walls(&[false; 6], MOST_ORDER, MOST_IMAGES + 1), none);
    assert_eq!(find_walls(&[], 3, 1), none);
    assert_eq!(find_walls(&[false; MOST_PLANES + 1], 3, 1), none);
    assert_eq!(find_walls(&[true; 6], 3, 1), none);
    assert_eq!(find_walls(&[false], MOST_ORDER, 2), none);
}

const CORNERS: [[f32; 3]; 8] = [[0.0, 0.0, 0.0], [8.0, 0.0, 0.0], [8.0, 3.0, 0.0], [0.0, 3.0, 0.0], [0.0, 0.0, 6.0], [8.0, 0.0, 6.0], [8.0, 3.0, 6.0], [0.0, 3.0, 6.0]];
const WALLS: [[usize; 4]; 6] = [[0, 1, 2, 3], [4, 5, 6, 7], [0, 3, 7, 4], [1, 2, 6, 5], [0, 1, 5, 4], [3, 2, 6, 7]];

/// A room of 8 by 3 by 6 m, each wall a mesh of its own.
fn room() -> Scene {
    let mut scene = Scene::default();
    let material = scene.add_material(&Material { absorption: [0.3; 8], transmission: [0.0; 8] });
    for wall in WALLS {
        scene.add_mesh(&Mesh { positions: &wall.map(|k| CORNERS[k]), indices: &[0, 1, 2, 0, 2, 3], material, ..Mesh::default() });
    }
    scene
}

fn mirrored(p: &Plane, x: [f32; 3]) -> [f32; 3] {
    let d: f32 = p.normal.iter().zip(x).map(|(n, x)| n * x).sum::<f32>() - p.offset;
    std::array::from_fn(|k| x[k] - 2.0 * d * p.normal[k])
}

/// The source mirrored in the walls of a tap, one after the other, is the image: the tap's delay and direction are those of its distance.
#[test]
fn the_walls_of_each_tap_mirror_the_source() {
    let settings = Settings { max_reflections: MOST_TAPS as u32, ..Settings::default() };
    let (scene, source, listener) = (room(), [2.0, 1.2, 2.5], [6.0, 1.7, 3.4]);
    let mut workspace = Workspace::new(256);
    let packet = trace_early_reflections(&settings, &scene, source, listener, false, &mut workspace).expect("a result");
    let found = planes(&settings, &scene, source, &mut workspace).expect("planes");
    assert_eq!((packet.images, found.len()), (186, 6));
    assert!(packet.taps.len() > 10);
    for tap in &packet.taps {
        let met = walls(&settings, &found, tap.number).expect("walls");
        assert_eq!(met.len(), tap.order as usize);
        let image = met.iter().fold(source, |x, &p| mirrored(&found[p as usize], x));
        let way: [f32; 3] = std::array::from_fn(|k| image[k] - listener[k]);
        let length = way.iter().map(|x| x * x).sum::<f32>().sqrt();
        assert!((length / speed_of_sound(settings.temperature_celsius) * settings.sample_rate - tap.delay_samples).abs() < 0.05);
        assert!(way.iter().zip(tap.direction).all(|(w, d)| (w / length - d).abs() < 1e-4));
    }
}

/// A room whose walls take nothing has more than 64 echoes at order 4; a list of 64 is the first of them.
#[test]
fn a_hard_room_has_more_than_64_taps() {
    let mut settings = Settings { max_reflection_order: 4, max_reflections: u32::MAX, max_reflection_distance: 1000.0, ..Settings::default() };
    let (mut scene, source, listener) = (room(), [2.0, 1.2, 2.5], [6.0, 1.7, 3.4]);
    scene.materials.fill(0.0);
    let mut workspace = Workspace::new(256);
    let all = trace_early_reflections(&settings, &scene, source, listener, false, &mut workspace).expect("a result");
    assert!(all.taps.len() > 100, "{} taps", all.taps.len());
    settings.max_reflections = 64;
    let first = trace_early_reflections(&settings, &scene, source, listener, false, &mut workspace).expect("a result");
    assert_eq!(first, Packet { taps: all.taps[..64].to_vec(), ..all });
}

/// The workspace of a call for the planes is as good for a query as a fresh one, and the planes are the same again.
#[test]
fn planes_leave_the_workspace_usable() {
    let settings = Settings::default();
    let (scene, source, listener) = (room(), [2.0, 1.2, 2.5], [6.0, 1.7, 3.4]);
    let mut workspace = Workspace::new(256);
    let first = planes(&settings, &scene, source, &mut workspace);
    let packet = trace_early_reflections(&settings, &scene, source, listener, false, &mut workspace);
    assert_eq!(packet, trace_early_reflections(&settings, &scene, source, listener, false, &mut Workspace::new(256)));
    assert_eq!(planes(&settings, &scene, source, &mut workspace), first);
    assert_eq!(planes(&settings, &scene, [2.0, 0.0, 2.5], &mut workspace).expect("planes").iter().filter(|p| p.source_on).count(), 1);
}

#[test]
fn planes_are_refused() {
    let mut workspace = Workspace::new(1);
    let wrong = Settings { temperature_celsius: 51.0, ..Settings::default() };
    assert_eq!(planes(&wrong, &room(), [0.0; 3], &mut workspace), Err(Refusal::Settings));
    let short = Scene { positions: Vec::new(), ..room() };
    assert_eq!(planes(&Settings::default(), &short, [0.0; 3], &mut workspace), Err(Refusal::Lengths));
    assert_eq!(planes(&Settings::default(), &Scene::default(), [0.0; 3], &mut workspace), Ok(Vec::new()));
    assert_eq!(walls(&Settings::default(), &[], 1), Err(Refusal::NoImage));
}
