//! What the parts of the benchmark share. The two that are compared take turns, so that other work
//! on the machine slows both alike. Of each the best turn counts; the ratio of the median turns, or
//! the median of the turns' ratios, is printed beside it.

use std::time::Instant;

/// The seconds of one pass, of so many.
pub fn seconds(passes: usize, mut pass: impl FnMut()) -> f64 {
    let start = Instant::now();
    for _ in 0..passes {
        pass();
    }
    start.elapsed().as_secs_f64() / passes as f64
}

/// What each turn of two that take turns has measured.
pub fn take_turns<T>(
    turns: usize,
    mut first: impl FnMut() -> T,
    mut second: impl FnMut() -> T,
) -> (Vec<T>, Vec<T>) {
    (0..turns).map(|_| (first(), second())).unzip()
}

/// The shortest turn.
pub fn best(turns: &[f64]) -> f64 {
    turns.iter().copied().fold(f64::INFINITY, f64::min)
}

/// The median turn.
pub fn median(turns: &[f64]) -> f64 {
    let mut sorted = turns.to_vec();
    sorted.sort_by(f64::total_cmp);
    sorted[sorted.len() / 2]
}

/// The median of the ratios of each turn of one to that of the other.
pub fn median_ratio(first: &[f64], second: &[f64]) -> f64 {
    let ratios: Vec<f64> = first.iter().zip(second).map(|(a, b)| a / b).collect();
    median(&ratios)
}
