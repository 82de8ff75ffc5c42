//! The ranking against the Rust, on lists of candidates with many ties and near duplicates.
use crate::random::Random;
use oracle::Overrides;
use port::Candidates;
use quasar_backends::cpu_simd::{oracle_rank, CpuSimdConfig, OracleCandidate};

/// `count` candidates, numbered from 1: energies, delays and directions from few values, so that sorts tie and taps duplicate.
pub fn list(r: &mut Random, count: usize, values: usize) -> Vec<OracleCandidate> {
    let directions: Vec<[f32; 3]> = (0..values.min(40)).map(|_| r.vector(1.0)).map(|v| { let l = v.map(|x| x * x).iter().sum::<f32>().sqrt().max(1e-3); v.map(|x| x / l) }).collect();
    (1..=count as u32)
        .map(|number| {
            let near = [0.0, 1e-4, 5e-3, 1e-2][r.below(4)];
            OracleCandidate {
                energy: (1 + r.below(values)) as f32 * 1e-3,
                delay: 100.0 + r.below(values) as f32 + near,
                direction: directions[r.below(directions.len())],
                gains: [0.1; 8],
                order: 1 + r.below(8) as u32,
                number,
            }
        })
        .collect()
}

pub fn rows(list: &[OracleCandidate]) -> Candidates {
    let mut rows = Candidates::default();
    for c in list {
        let [x, y, z] = c.direction;
        let [a, b, d, e, f, g, h, i] = c.gains;
        rows.push([c.energy, c.delay, x, y, z, a, b, d, e, f, g, h, i], [c.order, c.number]);
    }
    rows
}

/// The Rust's settings for a list's limit.
pub fn config(speed: f32, rate: f32, limit: usize) -> CpuSimdConfig {
    CpuSimdConfig { speed_of_sound: speed, sample_rate: rate, max_reflections: limit, oracle_max_paths: Overrides::default().max_paths, ..CpuSimdConfig::default() }
}

pub fn run(count: u64, seed: u64) {
    let mut r = Random::new(seed);
    let (mut candidates, mut kept, mut most, mut long) = (0, 0, 0, [0; 3]);
    for k in 0..count {
        let n = [0, 1, 2, 20, 200, 2000, 5000][r.below(7)];
        let values = [1, 3, 12, 500][r.below(4)];
        let limit = [0, 1, 8, 64, 65, 255, 256, 257, 1023, 1024][r.below(10)];
        let (speed, rate) = (oracle::speed_of_sound(r.from(-20.0, 50.0)), r.from(8000.0, 192_000.0));
        let found = list(&mut r, n, values);
        let mut out = vec![0; limit];
        let len = rows(&found).rank(speed, rate, &mut out);
        let mine: Vec<u32> = out[..len].iter().map(|&p| p + 1).collect();
        let theirs = oracle_rank(&found, &config(speed, rate, limit));
        if mine != theirs {
            eprintln!("compare: list {k} of {n} candidates from {values} values, limit {limit}: the port keeps {mine:?}, the Rust {theirs:?}");
            std::process::exit(1);
        }
        candidates += n;
        kept += len;
        most = most.max(len);
        [64, 255, 1023].iter().zip(&mut long).for_each(|(&n, all)| *all += (len > n) as u64);
    }
    println!("equal on {count} lists: {candidates} candidates, {kept} kept, at most {most} of a list; lists of more than 64, 255 and 1,023: {long:?}");
}
