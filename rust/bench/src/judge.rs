//! Times the proved judgement against the plain one written for speed, on tight tables without
//! slack, and prints tables per second and the ratio of their times. Both name the counted tasks.
//! Both judge the same tables, each into one buffer that is not cleared between calls.

use std::hint::black_box;

use reference::Refusal;
use samples::{Random, Shape, tight};

use crate::shapes::{SHAPES, print};
use crate::turns::{seconds, take_turns};

/// Tables timed for each number of tasks.
const TABLES: usize = 500;

/// Turns that each form takes.
const TURNS: usize = 41;

/// A turn goes through all tables this often.
const PASSES: usize = 8;

type Form = fn(&[u8], &mut [u8]) -> Result<usize, Refusal>;

pub fn run() {
    println!("tight tables without slack, {TABLES} of each size, {TURNS} turns of {PASSES} passes");
    for shape in SHAPES {
        let tables = accepted_tables(shape);
        check(&tables);
        let (proved, plain) = take_turns(
            TURNS,
            || seconds_a_table(dahomike::judge, &tables),
            || seconds_a_table(fast::judge, &tables),
        );
        print(shape, "", &proved, &plain);
    }
}

/// Tight tables that are accepted, so that each is judged to its end.
fn accepted_tables(shape: Shape) -> Vec<Vec<u8>> {
    let mut random = Random::new(2011);
    std::iter::repeat_with(|| tight(&mut random, shape).bytes())
        .filter(|table| reference::judge(table).is_ok())
        .take(TABLES)
        .collect()
}

/// Both forms give the same answer on every table that is timed.
fn check(tables: &[Vec<u8>]) {
    for table in tables {
        let (mut by_proved, mut by_plain) = ([0; 128], [0; 128]);
        let proved = dahomike::judge(table, &mut by_proved);
        assert_eq!(proved, fast::judge(table, &mut by_plain), "{table:?}");
        assert_eq!(by_proved, by_plain, "{table:?}");
    }
}

fn seconds_a_table(form: Form, tables: &[Vec<u8>]) -> f64 {
    let mut out = [0; 128];
    let pass = || {
        for table in tables {
            let answer = black_box(form)(black_box(table), &mut out);
            black_box(&out);
            assert!(answer.is_ok());
        }
    };
    seconds(PASSES, pass) / tables.len() as f64
}
