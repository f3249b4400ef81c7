//! Times the proved wishes against the plain ones written for speed: on typical sheets, and on
//! those that take the most rounds, there also against the plain form that goes round by round. It
//! prints the ratios of their times. All forms answer the same sheets, each into one buffer that is
//! not cleared between calls.

use std::hint::black_box;

use reference::{Refusal, Table};
use samples::{Random, Shape, slow_sheets, wishing};

use crate::shapes::{SHAPES, print};
use crate::turns::{best, median_ratio, seconds, take_turns};

/// Sheets timed for each number of tasks.
const SHEETS: usize = 500;

/// Turns that each form takes, and how often a turn goes through all sheets.
const TURNS: usize = 41;
const PASSES: usize = 8;

/// The same on the slowest sheets, one at a time: a turn takes about so many seconds, or one call.
const SLOW_TURNS: usize = 21;
const SLOW_TURN: f64 = 0.001;

type Form = fn(&[u8], &mut [u8]) -> Result<usize, Refusal>;

pub fn run() {
    println!("wish sheets, {SHEETS} of each size, {TURNS} turns of {PASSES} passes");
    for shape in SHAPES {
        typical(shape);
    }
    println!("the sheets that take the most rounds, {SLOW_TURNS} turns");
    for sheet in slow_sheets() {
        slow(&sheet);
    }
}

fn typical(shape: Shape) {
    let sheets = solved_sheets(shape);
    check(&sheets);
    let (proved, plain) = take_turns(
        TURNS,
        || seconds_a_sheet(dahomike::wish, &sheets, PASSES),
        || seconds_a_sheet(fast::wish_into, &sheets, PASSES),
    );
    print(shape, "", &proved, &plain);
}

/// Sheets that have a solution.
fn solved_sheets(shape: Shape) -> Vec<Vec<u8>> {
    let mut random = Random::new(2011);
    std::iter::repeat_with(|| wishing(&mut random, shape).bytes())
        .filter(|sheet| reference::wish(sheet).is_ok())
        .take(SHEETS)
        .collect()
}

/// One of the slowest sheets, against the plain form with leaps and against the one without.
fn slow(sheet: &Table) {
    let sheets = [sheet.bytes()];
    check(&sheets);
    let rounds = fast::wish_rounds(&sheets[0]).expect("no number before 27 is met");
    let (tasks, cores) = (sheet.tasks.len(), sheet.labels.len());
    println!("{tasks:2} tasks on {cores} cores, {rounds} rounds:");
    for (name, form) in
        [("plain", fast::wish_into as Form), ("plain by rounds", fast::wish_by_rounds_into)]
    {
        let (proved_passes, plain_passes) =
            (passes(dahomike::wish, &sheets), passes(form, &sheets));
        let (proved_turns, plain_turns) = take_turns(
            SLOW_TURNS,
            || seconds_a_sheet(dahomike::wish, &sheets, proved_passes),
            || seconds_a_sheet(form, &sheets, plain_passes),
        );
        let (proved, plain) = (best(&proved_turns), best(&plain_turns));
        println!(
            "  proved {:.4} ms  {name} {:.4} ms  \
             time ratio proved/{name} {:.4} (median of turns {:.4})",
            1000.0 * proved,
            1000.0 * plain,
            proved / plain,
            median_ratio(&proved_turns, &plain_turns),
        );
    }
}

/// How many calls fill a turn.
fn passes(form: Form, sheets: &[Vec<u8>]) -> usize {
    let once = seconds_a_sheet(form, sheets, 1);
    ((SLOW_TURN / once) as usize).max(1)
}

/// All forms give the same answer on every sheet that is timed.
fn check(sheets: &[Vec<u8>]) {
    for sheet in sheets {
        let mut by_proved = [0; 192];
        let proved = dahomike::wish(sheet, &mut by_proved);
        for form in [fast::wish_into as Form, fast::wish_by_rounds_into] {
            let mut by_plain = [0; 192];
            assert_eq!(proved, form(sheet, &mut by_plain), "{sheet:?}");
            assert_eq!(by_proved, by_plain, "{sheet:?}");
        }
    }
}

fn seconds_a_sheet(form: Form, sheets: &[Vec<u8>], passes: usize) -> f64 {
    let mut out = [0; 192];
    let pass = || {
        for sheet in sheets {
            let answer = black_box(form)(black_box(sheet), &mut out);
            black_box((&out, &answer));
        }
    };
    seconds(passes, pass) / sheets.len() as f64
}
