//! Times the proved conversion against the plain one written for speed, on tight tables without
//! slack, to edition 2 and back, and prints tables per second and the ratio of their times. Both
//! judge the table. Both convert the same tables, each into one buffer that is not cleared between
//! calls.

use std::hint::black_box;

use reference::Refusal;
use samples::{Random, Shape, tight, without_zero_offsets};

use crate::shapes::{SHAPES, print};
use crate::turns::{seconds, take_turns};

/// Tables timed for each number of tasks.
const TABLES: usize = 500;

/// Turns that each form takes.
const TURNS: usize = 41;

/// A turn goes through all tables this often.
const PASSES: usize = 8;

type Form = fn(&[u8], u32, &mut [u8]) -> Result<usize, Refusal>;

pub fn run() {
    println!(
        "tight tables without slack converted, {TABLES} of each size, \
         {TURNS} turns of {PASSES} passes"
    );
    for shape in SHAPES {
        let first = accepted_tables(shape);
        let second: Vec<Vec<u8>> = first.iter().map(|table| converted(table, 2)).collect();
        let back: Vec<Vec<u8>> = second.iter().map(|table| converted(table, 1)).collect();
        assert!(back == first, "there and back gives the first bytes");
        time(shape, ", to edition 2", &first, 2);
        time(shape, ", to edition 1", &second, 1);
    }
}

fn time(shape: Shape, words: &str, tables: &[Vec<u8>], wanted: u32) {
    let (proved, plain) = take_turns(
        TURNS,
        || seconds_a_table(dahomike::convert, tables, wanted),
        || seconds_a_table(fast::convert, tables, wanted),
    );
    print(shape, words, &proved, &plain);
}

/// Tight tables of edition 1 that are accepted and have no offset 0, so that each is converted.
fn accepted_tables(shape: Shape) -> Vec<Vec<u8>> {
    let mut random = Random::new(2011);
    let mut make = || {
        let table = tight(&mut random, shape);
        without_zero_offsets(&mut random, table).bytes()
    };
    std::iter::repeat_with(&mut make)
        .filter(|table| reference::judge(table).is_ok())
        .take(TABLES)
        .collect()
}

/// What both forms give.
fn converted(table: &[u8], wanted: u32) -> Vec<u8> {
    let (mut by_proved, mut by_plain) = ([0; 332], [0; 332]);
    let proved = dahomike::convert(table, wanted, &mut by_proved);
    assert_eq!(proved, fast::convert(table, wanted, &mut by_plain), "{table:?}");
    assert_eq!(by_proved, by_plain, "{table:?}");
    by_proved[..proved.expect("a timed conversion is not refused")].to_vec()
}

fn seconds_a_table(form: Form, tables: &[Vec<u8>], wanted: u32) -> f64 {
    let mut out = [0; 332];
    let pass = || {
        for table in tables {
            let answer = black_box(form)(black_box(table), wanted, &mut out);
            black_box(&out);
            assert!(answer.is_ok());
        }
    };
    seconds(PASSES, pass) / tables.len() as f64
}
