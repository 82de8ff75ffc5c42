//! The whole query against the Rust: images, rays, candidates, and the taps in their order.
use oracle::Case;
use port::{Candidates, Scene, ORDER, TAPS};
use quasar_backends::cpu_simd::CpuSimdComputeBackend;

/// Scenes with more images than this are left to the benchmark: the Rust takes seconds.
const MOST_IMAGES: usize = 20_000;

/// What was compared of a scene.
#[derive(Clone, Copy, Debug, Default)]
pub struct Heard {
    pub images: u64,
    pub candidates: u64,
    pub taps: u64,
}

/// Planted slips of this stage: an image more, a tap's number, a tap's last bit.
pub const SLIPS: usize = 3;

fn same(a: f32, b: f32) -> bool {
    a.to_bits() == b.to_bits() || (a == 0.0 && b == 0.0)
}

/// At most how many images a scene has.
fn images(planes: usize, order: usize) -> usize {
    (0..order).try_fold((planes, 0usize), |(level, sum), _| Some((level.checked_mul(planes.saturating_sub(1))?, sum + level))).map_or(usize::MAX, |x| x.1)
}

/// None where there is no search to compare, or the slip does not apply.
pub fn run(c: &Case, backend: &CpuSimdComputeBackend, scene: &Scene, planted: Option<usize>) -> Option<Result<Heard, String>> {
    let order = (c.settings.order as usize).min(ORDER);
    let finite = c.source.iter().chain(&c.listener).all(|x| x.is_finite());
    if order == 0 || !finite || c.separated || images(backend.oracle_planes().len(), order) > MOST_IMAGES {
        return planted.is_none().then(|| Ok(Heard::default()));
    }
    let theirs = oracle::run_built(c, backend);
    let mut rows = Candidates::with_room(theirs.candidates as usize);
    let mut mine = scene.search(&c.source, &c.listener, order, &mut rows);
    let mut out = vec![0; (c.settings.max_reflections as usize).min(TAPS)];
    let kept = rows.rank_first(mine.found, oracle::speed_of_sound(c.settings.temperature), c.settings.rate, &mut out);
    let mut taps: Vec<(Vec<f32>, Vec<u32>)> = out[..kept].iter().map(|&k| rows.row(k as usize)).map(|(f, w)| (f.to_vec(), w.to_vec())).collect();
    match planted {
        Some(0) => mine.images += 1,
        Some(1) if kept > 0 => taps[kept - 1].1[1] += 1,
        Some(2) if kept > 0 => taps[0].0[1] = taps[0].0[1].next_up(),
        Some(_) => return None,
        None => {}
    }
    if (mine.images, mine.rays as u64, mine.found, mine.over) != (theirs.images as usize, theirs.rays, theirs.candidates as usize, false) {
        return Some(Err(format!("port {mine:?}, Rust {} images, {} rays, {} candidates", theirs.images, theirs.rays, theirs.candidates)));
    }
    if kept != theirs.taps.len() {
        return Some(Err(format!("the port has {kept} taps, the Rust {}", theirs.taps.len())));
    }
    for (k, ((f, w), (t, &number))) in taps.iter().zip(theirs.taps.iter().zip(&theirs.numbers)).enumerate() {
        let floats = [t.delay_samples].into_iter().chain(t.direction).chain(t.gain.0);
        if (w[0], w[1]) != (t.order, number) || !f[1..].iter().zip(floats).all(|(&x, y)| same(x, y)) {
            return Some(Err(format!("tap {k}: port order and number {w:?}, floats {:08x?}; Rust {t:?}, number {number}", f[1..].iter().map(|x| x.to_bits()).collect::<Vec<_>>())));
        }
    }
    Some(Ok(Heard { images: mine.images as u64, candidates: mine.found as u64, taps: kept as u64 }))
}
