//! Log runs: P10 and P11 of document 01, each refusal number at its edge, and the order of the
//! tests.

use reference::{Entry, Log, Refusal, Table, run_log};

/// P3: two cores, labels 0 and 1, tasks as (T, C, Y), no slack. Its bounds are 5, 5 and 4.
const P3: [(u32, u32, u32); 3] = [(2, 1, 2), (2, 1, 2), (3, 3, 0)];

fn table(tasks: &[(u32, u32, u32)]) -> Vec<u8> {
    Table::of(2, tasks).bytes()
}

/// A log of entries as (tick, task, demand).
fn log(entries: &[(u32, u8, u32)]) -> Vec<u8> {
    let entries =
        entries.iter().map(|&(tick, task, demand)| Entry { tick, task, demand }).collect();
    Log { entries }.bytes()
}

/// The kind and value of each entry; three bytes beyond them stay.
fn run(tasks: &[(u32, u32, u32)], entries: &[(u32, u8, u32)]) -> Vec<(u32, u32)> {
    let mut out = vec![0xee; 8 * entries.len() + 3];
    let counts = run_log(&table(tasks), &log(entries), &mut out).expect("the run is not refused");
    let (answers, beyond) = out.split_at(8 * entries.len());
    assert_eq!(beyond, [0xee; 3]);
    let number = |bytes: &[u8]| u32::from_le_bytes(bytes.try_into().unwrap());
    let answers: Vec<(u32, u32)> =
        answers.chunks(8).map(|entry| (number(&entry[..4]), number(&entry[4..]))).collect();
    let of_kind = |kind| answers.iter().filter(|answer| answer.0 == kind).count();
    assert_eq!(counts, (of_kind(1), of_kind(2)));
    answers
}

/// A call that is refused, and then has written nothing.
fn refused(table: &[u8], log: &[u8], length: usize) -> Refusal {
    let mut out = vec![0xee; length];
    let refusal = run_log(table, log, &mut out).expect_err("the call is refused");
    assert!(out.iter().all(|&byte| byte == 0xee));
    refusal
}

#[test]
fn p10_all_at_tick_0_with_full_budgets() {
    let all = [(0, 0, 1), (0, 1, 1), (0, 2, 3)];
    assert_eq!(run(&P3, &all), [(1, 1), (1, 2), (1, 3)]);
    let later = [P3[0], P3[1], (3, 3, 3)];
    assert_eq!(run(&later, &all), [(1, 1), (1, 1), (1, 4)]);
}

#[test]
fn p11_a_release_too_soon() {
    let entries = [(0, 0, 1), (1, 0, 1), (2, 0, 1)];
    assert_eq!(run(&P3, &entries), [(1, 1), (2, 22), (1, 3)]);
}

#[test]
fn a_refused_release_is_never_measured_from() {
    // Ticks 1 and 3 are refused; 2 and 4 are T after the last one taken.
    let entries = [(0, 0, 1), (1, 0, 1), (2, 0, 1), (3, 0, 1), (4, 0, 1)];
    assert_eq!(run(&P3, &entries), [(1, 1), (2, 22), (1, 3), (2, 22), (1, 5)]);
    // One that meets 21 is not measured from either.
    assert_eq!(run(&P3, &[(0, 0, 2), (1, 0, 1)]), [(2, 21), (1, 2)]);
}

#[test]
fn a_tick_below_the_largest_before_it() {
    // The largest tick is that of an entry that meets 20, and one that meets 17 keeps it.
    let entries = [(5, 9, 1), (4, 0, 1), (4, 1, 1), (5, 0, 1), (6, 1, 1)];
    assert_eq!(run(&P3, &entries), [(2, 20), (2, 17), (2, 17), (1, 6), (1, 7)]);
}

#[test]
fn numbers_of_an_entry_come_in_their_order() {
    let before = [(0, 0, 1), (1, 2, 1)];
    let with = |entry| run(&P3, &[before[0], before[1], entry])[2];
    assert_eq!(with((0, 3, 0)), (2, 17));
    assert_eq!(with((1, 3, 0)), (2, 20));
    assert_eq!(with((1, 0, 0)), (2, 21));
    assert_eq!(with((1, 0, 2)), (2, 21));
    assert_eq!(with((1, 0, 1)), (2, 22));
    assert_eq!(with((1, 255, 1)), (2, 20));
    assert_eq!(with((2, 0, 1)), (1, 3));
}

#[test]
fn an_empty_log_is_a_run() {
    assert_eq!(run(&P3, &[]), []);
    assert_eq!(run_log(&table(&P3), &[0, 0], &mut []), Ok((0, 0)));
}

#[test]
fn a_call_is_refused_by_table_length_tick_and_answer_in_this_order() {
    let (good, bad) = (table(&P3), table(&[]));
    let late = log(&[(1_000_000_000, 0, 1), (1_000_000_001, 0, 1), (u32::MAX, 0, 1)]);
    let cut = &late[..late.len() - 1];
    assert_eq!(refused(&bad, cut, 0), Refusal { number: 5, index: 0 });
    assert_eq!(refused(&good, cut, 0), Refusal { number: 14, index: 0 });
    assert_eq!(refused(&good, &[], 100), Refusal { number: 14, index: 0 });
    assert_eq!(refused(&good, &[0], 100), Refusal { number: 14, index: 0 });
    assert_eq!(refused(&good, &[0, 1], 100), Refusal { number: 14, index: 0 });
    assert_eq!(refused(&good, &[0, 0, 0], 100), Refusal { number: 14, index: 0 });
    assert_eq!(refused(&good, &late, 0), Refusal { number: 15, index: 1 });
    let two = log(&[(0, 0, 1), (9, 0, 1)]);
    assert_eq!(refused(&good, &two, 15), Refusal { number: 16, index: 0 });
    assert_eq!(refused(&good, &two, 0), Refusal { number: 16, index: 0 });
}
