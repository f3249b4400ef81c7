//! Tables with few tasks, that is no more than cores, and with one more beside them: every call
//! against the reference. With the proved code they are compared in `comparison`.

mod both;

use both::compare_log;
use records::{Refusal, Report};
use reference::{State, Table, open_words, release_words, step_words, words_of};
use samples::{
    LogKind, Random, damaged_state, faulty_few, few, few_convertible, few_offering, few_plan,
    few_sheet, few_short, log, one_more, sound,
};

type Call = fn(&[u8], &mut [u8]) -> Result<usize, Refusal>;

/// A call on a table and a buffer, by the reference and by the fast form.
const CALLS: [(Call, Call); 5] = [
    (reference::judge_into, fast::judge),
    (reference::counted_into, fast::counted),
    (reference::wish_into, fast::wish_into),
    (
        |table, out| reference::convert_into(table, 1, out),
        |table, out| fast::convert(table, 1, out),
    ),
    (
        |table, out| reference::convert_into(table, 2, out),
        |table, out| fast::convert(table, 2, out),
    ),
];

/// Makes all calls with a buffer that is often too short. How many were not refused.
fn compare(random: &mut Random, table: &Table) -> usize {
    let (bytes, mut taken) = (table.bytes(), 0);
    for (by_reference, by_fast) in CALLS {
        let length = random.pick(&[0, 7, 8, 60, 400, 400]);
        let (mut expected, mut out) = (vec![0xee; length], vec![0xee; length]);
        let answer = by_reference(&bytes, &mut expected);
        assert_eq!(by_fast(&bytes, &mut out), answer, "{length} bytes, {table:?}");
        assert_eq!(out, expected, "{length} bytes, {table:?}");
        taken += usize::from(answer.is_ok());
    }
    let (mut expected, mut words) = ([7; 653], [7; 653]);
    let answer = open_words(&bytes, &mut expected);
    assert_eq!(fast::open(&bytes, &mut words), answer, "{table:?}");
    assert_eq!(words, expected, "{table:?}");
    taken
}

#[test]
fn tables_and_sheets() {
    let random = &mut Random::new(151);
    let mut taken = 0;
    for _ in 0..5_000 {
        for make in [few, few_offering, faulty_few, one_more, few_convertible, few_sheet] {
            let table = make(random);
            taken += compare(random, &table);
        }
    }
    assert!(taken >= 20_000, "{taken} calls were not refused");
}

fn compare_engine(random: &mut Random, state: &State) {
    let words = words_of(state);
    let task = random.index(state.count.clamp(1, 16));
    let demand = random.between(0, state.tasks[task].budget.min(100_000) + 1);
    let (mut released, mut expected) = (words, words);
    let answer = release_words(&mut expected, task as u32, demand);
    assert_eq!(fast::release(&mut released, task as u32, demand), answer, "{state:?}");
    assert_eq!(released, expected, "{state:?}");
    let (mut stepped, mut expected) = (words, words);
    let mut report = Report::IDLE;
    let answer = fast::step(&mut stepped, &mut report);
    assert_eq!(answer.map(|()| report), step_words(&mut expected), "{state:?}");
    assert_eq!(stepped, expected, "{state:?}");
}

#[test]
fn states() {
    let random = &mut Random::new(152);
    for _ in 0..5_000 {
        let plan = few_plan(random);
        let state = sound(random, &plan);
        compare_engine(random, &state);
        let state = damaged_state(random, state);
        compare_engine(random, &state);
    }
}

#[test]
fn logs() {
    let random = &mut Random::new(153);
    for _ in 0..2_000 {
        let table = few_short(random);
        let log = log(random, &table, LogKind::Near);
        compare_log(&table, &log);
    }
}
