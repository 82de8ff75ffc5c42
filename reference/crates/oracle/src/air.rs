//! What the air leaves (02, note 5), by arithmetic of the harness's own: the factor that the Rust is given in place of its air gain.
use quasar_core::air::AIR_FACTOR;
use quasar_core::bands::Band8;
use std::cell::Cell;

thread_local! {
    static COEFFICIENTS: Cell<[u32; 8]> = const { Cell::new([0; 8]) };
}

/// From here on the Rust of this thread takes so much in each band, in millionths of a decibel per metre.
pub fn damps(coefficients: [u32; 8]) {
    COEFFICIENTS.with(|c| c.set(coefficients));
    AIR_FACTOR.with(|f| f.set(Some(factors)));
}

/// A length in whole millimetres, halves up: 1,000 times an f32 is exact in an f64, and so is half of that many more where it is below 2^40.
pub fn millimetres(total: f32) -> u64 {
    assert!((0.0..1e9).contains(&total), "no length: {total}");
    (total as f64 * 1000.0 + 0.5).floor() as u64
}

/// Steps of 0.05 dB.
pub fn steps(coefficient: u32, millimetres: u64) -> u64 {
    (coefficient as u64 * millimetres + 25_000_000) / 50_000_000
}

/// The k of so many steps. 2^24 × 10^(-s / 400) is nowhere nearer than 0.0048 to a whole number for s from 1 to 399, which an f64 tells.
pub fn factor(steps: u64) -> u64 {
    let k = (16_777_216.0 * 10f64.powf(-((steps % 400) as f64) / 400.0)).floor() as u64;
    (0..steps / 400).fold(k, |k, _| k / 10)
}

fn factors(total: f32) -> Band8 {
    let (c, n) = (COEFFICIENTS.with(Cell::get), millimetres(total));
    Band8(c.map(|c| factor(steps(c, n)) as f32 / 16_777_216.0))
}
