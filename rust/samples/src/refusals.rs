//! Refusals to be told as sentences: of numbers in the table and outside it, and pairs that differ
//! in so little that a sentence could lose it.

use crate::Random;
use std::str::FromStr;

/// What a sentence tells: a refusal's number, its index and the value found there.
pub type Told = (u32, u32, u64);

/// The last number in the table of refusals. Each later one joins it.
pub const LAST_NUMBER: u32 = 31;

/// A refusal of a number in the table.
pub fn known_refusal(random: &mut Random) -> Told {
    (random.between(1, LAST_NUMBER), index(random), value(random))
}

/// A refusal of a number outside the table: just outside, near the largest, one that a narrower
/// number would take for one in the table, or any.
pub fn unknown_refusal(random: &mut Random) -> Told {
    let number = match random.index(6) {
        0 => 0,
        1 => LAST_NUMBER + random.between(1, 15),
        2 => u32::MAX - random.between(0, 2),
        3 | 4 => {
            let high = random.between(1, 255) << random.pick(&[8, 16, 24]);
            high + random.between(1, LAST_NUMBER)
        }
        _ => random.between(LAST_NUMBER + 1, u32::MAX),
    };
    (number, index(random), value(random))
}

/// One row of digits, none of them 0, cut into number, index and value in two ways.
pub fn cut_elsewhere(random: &mut Random) -> [Told; 2] {
    let digits = row(random, |random| {
        let any = random.between(1, 9);
        random.pick(&[1, 2, any])
    });
    [cut(random, &digits), cut(random, &digits)]
}

/// The same with a row of which most are zeros. Those at the head of a number are not said.
pub fn cut_at_zeros(random: &mut Random) -> [Told; 2] {
    let digits = row(random, |random| {
        let any = random.between(0, 9);
        random.pick(&[0, 0, 0, 1, 2, any])
    });
    [cut(random, &digits), cut(random, &digits)]
}

/// One digit of number, index or value replaced.
pub fn one_digit_apart(random: &mut Random) -> [Told; 2] {
    let (number, index, value) = any(random);
    let other = match random.index(3) {
        0 => (other_digit(random, number), index, value),
        1 => (number, other_digit(random, index), value),
        _ => (number, index, other_digit(random, value)),
    };
    [(number, index, value), other]
}

/// One bit of number, index or value turned: where it is a high one, a narrower number loses it.
pub fn one_bit_apart(random: &mut Random) -> [Told; 2] {
    let (number, index, value) = any(random);
    let other = match random.index(3) {
        0 => (number ^ (1 << bit(random, 32)), index, value),
        1 => (number, index ^ (1 << bit(random, 32)), value),
        _ => (number, index, value ^ (1 << bit(random, 64))),
    };
    [(number, index, value), other]
}

/// Two of number, index and value exchanged, mostly the last two.
pub fn exchanged(random: &mut Random) -> [Told; 2] {
    let (number, first, _) = any(random);
    let second = index(random);
    let other = match random.index(4) {
        0 => (first, number, u64::from(second)),
        1 => (second, first, u64::from(number)),
        _ => (number, second, u64::from(first)),
    };
    [(number, first, u64::from(second)), other]
}

fn any(random: &mut Random) -> Told {
    if random.once_in(4) { unknown_refusal(random) } else { known_refusal(random) }
}

/// The index of a core or a loop, of a log's entry, near the largest, or any.
fn index(random: &mut Random) -> u32 {
    match random.index(8) {
        0 => 0,
        1..=3 => random.between(0, 15),
        4 | 5 => random.between(0, 65_534),
        6 => u32::MAX - random.between(0, 2),
        _ => (random.bits() as u32) >> random.index(32),
    }
}

/// None, a small one, a tick, one around 2^32, near the largest, or any.
fn value(random: &mut Random) -> u64 {
    match random.index(8) {
        0 => 0,
        1 => u64::from(random.between(0, 100)),
        2 | 3 => u64::from(random.between(0, 1_000_000_000)),
        4 => (1 << 32) - 2 + random.bits() % 5,
        5 => u64::MAX - random.bits() % 3,
        _ => random.bits() >> random.index(64),
    }
}

/// Digits enough for three numbers, at most 21.
fn row(random: &mut Random, digit: fn(&mut Random) -> u32) -> String {
    (0..random.between(3, 21)).map(|_| digit(random).to_string()).collect()
}

/// A row of digits cut at two places. Number and index get at most nine of them, so that they fit,
/// and nineteen at most are left for the value.
fn cut(random: &mut Random, digits: &str) -> Told {
    let most = random.pick(&[1, 2, 2, 9]).min(digits.len() - 2);
    let (number, rest) = digits.split_at(1 + random.index(most));
    let most = (rest.len() - 1).min(9);
    let (index, value) = rest.split_at(1 + random.index(most));
    (read(number), read(index), read(value))
}

fn read<N: FromStr>(digits: &str) -> N {
    digits.parse().ok().expect("so few digits fit")
}

/// The number with one digit replaced, where that fits.
fn other_digit<N: Copy + FromStr + ToString>(random: &mut Random, number: N) -> N {
    let mut digits = number.to_string();
    let at = random.index(digits.len());
    digits.replace_range(at..at + 1, &random.between(0, 9).to_string());
    digits.parse().unwrap_or(number)
}

/// One of so many bits, often one at the edge of a narrower number.
fn bit(random: &mut Random, width: u32) -> u32 {
    let any = random.between(0, width - 1);
    let edge = random.pick(&[7, 8, 15, 16, 31, 32]);
    if edge < width && random.once_in(2) { edge } else { any }
}
