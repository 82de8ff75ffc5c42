//! `sqrt` on all 2^32 patterns; `round`, `abs` on all of them too; `min`, `max`, `clamp` and `DistanceModel::gain` on every
//! combination of special values and on random patterns.
use crate::random::Random;
use quasar_core::distance::{DistanceCurve, DistanceModel};

const RANDOM: u64 = 40_000_000;

/// Zeros, subnormals, halves, ends of ranges, infinities and NaN, of both signs.
fn specials() -> Vec<f32> {
    let positive = [
        0, 1, 2, 0x007f_ffff, 0x0080_0000, 0x3327_c5ac, 0x3586_37bd, 0x3eff_ffff, 0x3f00_0000, 0x3f00_0001, 0x3f7f_ffff, 0x3f80_0000, 0x3f80_0001,
        0x3fc0_0000, 0x4000_0000, 0x4020_0000, 0x40a0_0000, 0x4120_0000, 0x461c_4000, 0x4974_2400, 0x4aff_ffff, 0x4b00_0000, 0x4b00_0001, 0x5eff_ffff,
        0x5f00_0000, 0x5f00_0001, 0x7f7f_ffff, 0x7f80_0000, 0x7f80_0001, 0x7fc0_0000, 0x7fff_ffff,
    ];
    positive.iter().flat_map(|&b: &u32| [f32::from_bits(b), f32::from_bits(b | 0x8000_0000)]).collect()
}

/// Equal as bits, or both NaN (whose bits document 01 leaves open).
fn same(a: f32, b: f32) -> bool {
    a.to_bits() == b.to_bits() || (a.is_nan() && b.is_nan())
}

fn differ(what: &str, args: &[f32], port: String, rust: String) -> ! {
    let hex: Vec<String> = args.iter().map(|x| format!("{:08x}", x.to_bits())).collect();
    eprintln!("compare: {what} differs at {} ({args:?}): port {port}, Rust {rust}", hex.join(" "));
    std::process::exit(1)
}

fn check(what: &str, args: &[f32], port: f32, rust: f32) {
    if !same(port, rust) {
        differ(what, args, format!("{:08x}", port.to_bits()), format!("{:08x}", rust.to_bits()));
    }
}

fn one(x: f32) {
    check("sqrt", &[x], port::sqrt(x), x.sqrt());
    check("abs", &[x], port::abs(x), x.abs());
    let (port, rust) = (port::round(x), x.round() as i64);
    if port != rust {
        differ("round", &[x], port.to_string(), rust.to_string());
    }
}

fn all_patterns() {
    const STEP: u64 = 1 << 24;
    const ALL: u64 = 1 << 32;
    std::thread::scope(|s| {
        for half in 0..2 {
            s.spawn(move || {
                for start in (half * ALL / 2..(half + 1) * ALL / 2).step_by(STEP as usize) {
                    (start..start + STEP).for_each(|b| one(f32::from_bits(b as u32)));
                    if start / STEP % 32 == 31 {
                        println!("sqrt, abs, round: patterns {:08x} to {:08x} equal", start - 31 * STEP, start + STEP - 1);
                    }
                }
            });
        }
    });
}

fn two(a: f32, b: f32) {
    check("min", &[a, b], port::min(a, b), a.min(b));
    check("max", &[a, b], port::max(a, b), a.max(b));
}

/// Rust's `clamp` panics where the range is empty or NaN: such a range is not compared.
fn three(x: f32, low: f32, high: f32) -> u64 {
    if low <= high {
        check("clamp", &[x, low, high], port::clamp(x, low, high), x.clamp(low, high));
        return 1;
    }
    0
}

fn gain(linear: bool, m: [f32; 4], d: f32) {
    let curve = if linear { DistanceCurve::Linear } else { DistanceCurve::Inverse };
    let model = DistanceModel { curve, reference_distance: m[0], rolloff_factor: m[1], min_distance: m[2], max_distance: m[3] };
    check("gain", &[linear as u32 as f32, m[0], m[1], m[2], m[3], d], port::distance_gain(linear, m[0], m[1], m[2], m[3], d), model.gain(d));
}

fn combinations() -> (u64, u64, u64) {
    let s = specials();
    let (mut pairs, mut ranges, mut gains) = (0, 0, 0);
    for &a in &s {
        for &b in &s {
            two(a, b);
            pairs += 1;
            for &c in &s {
                ranges += three(a, b, c);
                for &d in s.iter().step_by(3) {
                    for &e in s.iter().skip(1).step_by(5) {
                        gain(false, [a, b, c, d], e);
                        gain(true, [a, b, c, d], e);
                        gains += 2;
                    }
                }
            }
        }
    }
    (pairs, ranges, gains)
}

/// Half of the values are any pattern, half lie in the range of settings and scenes.
fn value(r: &mut Random) -> f32 {
    let b = r.bits();
    if b & 1 == 0 {
        return f32::from_bits((b >> 32) as u32);
    }
    ((b >> 40) as f32 / 16_777_216.0 - 0.1) * [1.0, 10.0, 1e4, 1e6][(b >> 1) as usize & 3]
}

fn random(seed: u64) -> u64 {
    let mut r = Random::new(seed);
    let mut ranges = 0;
    for k in 0..RANDOM {
        let v: [f32; 5] = std::array::from_fn(|_| value(&mut r));
        two(v[0], v[1]);
        ranges += three(v[0], v[1].min(v[2]), v[1].max(v[2]));
        gain(k & 1 == 1, [v[0], v[1], v[2], v[3]], v[4]);
        if k % (RANDOM / 4) == RANDOM / 4 - 1 {
            println!("min, max, clamp, gain: {} random values equal", k + 1);
        }
    }
    ranges
}

/// Nanoseconds a call, in a chain where each argument depends on the result before it.
fn latency(f: impl Fn(f32) -> f32) -> f64 {
    const CALLS: u32 = 20_000_000;
    let start = std::time::Instant::now();
    let mut x = 1.5f32;
    for k in 0..CALLS {
        x = f(f32::from_bits((x.to_bits() & 0x007f_ffff) | (0x3f80_0000 + (k & 0xff) * 0x1_0001)));
    }
    std::hint::black_box(x);
    start.elapsed().as_nanos() as f64 / CALLS as f64
}

pub fn run(seed: u64) {
    let best = |f: &dyn Fn(f32) -> f32| (0..5).map(|_| latency(f)).fold(f64::MAX, f64::min);
    let (base, hardware, port) = (best(&|x| std::hint::black_box(x)), best(&|x| std::hint::black_box(x).sqrt()), best(&port::sqrt));
    println!("sqrt, latency above that of the loop: port {:.2} ns, hardware {:.2} ns, ratio {:.2}", port - base, hardware - base, (port - base) / (hardware - base));
    let (pairs, ranges, gains) = combinations();
    println!("min, max: {pairs} pairs of special values; clamp: {ranges} ranges; gain: {gains} models: equal");
    let more = random(seed);
    all_patterns();
    println!("equal: sqrt, abs, round on all 4294967296 patterns; min, max on {}; clamp on {}; gain on {}", pairs + RANDOM, ranges + more, gains + RANDOM);
}
