//! The worked tables P1 to P9 of document 01, with the loops that document 02, §1, has them count.

use reference::{Plan, Refusal, Table, counted_into, judge, judge_into, write};

/// A table of two cores, labels 0 and 1, with tasks as (T, C, Y); an empty offer is count 0.
fn table(tasks: &[(u32, u32, u32)], slack: &[u32]) -> Vec<u8> {
    Table { slack: slack.to_vec(), ..Table::of(2, tasks) }.bytes()
}

fn bounds(plan: &Plan) -> Vec<u128> {
    (0..plan.tasks.len()).map(|k| plan.bound(k)).collect()
}

/// Slack and bounds of an accepted table.
fn accepted(bytes: &[u8]) -> (Vec<u32>, Vec<u128>) {
    let plan = judge(bytes).expect("the table is accepted");
    assert_eq!(write(&plan), bytes, "an accepted table, judged and written, is that table");
    (plan.slack.clone(), bounds(&plan))
}

fn refused(bytes: &[u8]) -> Refusal {
    judge(bytes).expect_err("the table is refused")
}

const P1: [(u32, u32, u32); 3] = [(10, 9, 10), (10, 9, 10), (100, 20, 90)];
const P3: [(u32, u32, u32); 3] = [(2, 1, 2), (2, 1, 2), (3, 3, 0)];

#[test]
fn p1_finds_its_slack() {
    let plan = judge(&table(&P1, &[])).unwrap();
    assert_eq!(plan.slack, [6, 6, 0]);
    assert_eq!(bounds(&plan), [25, 25, 110]);
    assert_eq!((0..3).map(|k| plan.late(k)).collect::<Vec<_>>(), [15, 15, 20]);
    assert!(!plan.offered);
}

#[test]
fn p1_as_the_c_judgement_writes_it() {
    let mut out = [0xaa; 30];
    assert_eq!(judge_into(&table(&P1, &[]), &mut out), Ok(3));
    let expected = [6, 0, 0, 0, 25, 0, 0, 0, 6, 0, 0, 0, 25, 0, 0, 0, 0, 0, 0, 0, 110, 0, 0, 0];
    assert_eq!(out[..24], expected);
    assert_eq!(out[24..], [0xaa; 6]);
}

#[test]
fn p2_has_a_smaller_first_offset() {
    let tasks = [(10, 9, 5), P1[1], P1[2]];
    assert_eq!(accepted(&table(&tasks, &[])), (vec![9, 9, 3], vec![23, 28, 113]));
}

#[test]
fn p3_fills_both_cores() {
    assert_eq!(accepted(&table(&P3, &[])), (vec![2, 2, 1], vec![5, 5, 4]));
}

#[test]
fn p4_to_p6_offer_slack() {
    assert_eq!(refused(&table(&P1, &[5, 6, 0])), Refusal { number: 12, index: 0 });
    assert_eq!(accepted(&table(&P1, &[6, 6, 1])), (vec![6, 6, 1], vec![25, 25, 111]));
    assert_eq!(refused(&table(&P1, &[6, 6, 11])), Refusal { number: 12, index: 0 });
    assert!(judge(&table(&P1, &[6, 6, 0])).unwrap().offered);
}

#[test]
fn p7_asks_for_more_than_two_cores() {
    let tasks = [P1[0], P1[1], (100, 21, 90)];
    assert_eq!(refused(&table(&tasks, &[])), Refusal { number: 10, index: 0 });
}

#[test]
fn p8_at_and_above_the_largest_bound() {
    let tasks = [(1, 1, 1), (100, 29, 100), (100, 29, 100)];
    let (_, bounds) = accepted(&table(&tasks, &[]));
    assert_eq!(bounds[0], 16);
    let tasks = [(1, 1, 1), (100, 30, 100), (100, 30, 100)];
    assert_eq!(refused(&table(&tasks, &[])), Refusal { number: 13, index: 0 });
}

#[test]
fn p9_on_both_sides_of_the_largest_hyperperiod() {
    // Document 01 gives only the separations here.
    let tasks = |second| [(1000, 500, 0), (second, 500, 0), (1, 1, 0)];
    assert_eq!(refused(&table(&tasks(1001), &[])), Refusal { number: 9, index: 0 });
    assert_eq!(refused(&table(&tasks(999), &[])), Refusal { number: 10, index: 0 });
    let tasks = |second| [(1000, 1, 0), (second, 1, 0), (1, 1, 0)];
    assert_eq!(refused(&table(&tasks(1001), &[])), Refusal { number: 9, index: 0 });
    accepted(&table(&tasks(999), &[]));
}

/// The counted loops of an accepted table.
fn counted(bytes: &[u8]) -> Vec<usize> {
    judge(bytes).expect("the table is accepted").counted()
}

#[test]
fn the_counted_loops() {
    assert_eq!(counted(&table(&P1, &[])), [2]);
    assert_eq!(counted(&table(&[(10, 9, 5), P1[1], P1[2]], &[])), [2]);
    assert_eq!(counted(&table(&P1, &[6, 6, 1])), [2]);
    assert_eq!(counted(&table(&[(1000, 1, 0), (999, 1, 0), (1, 1, 1)], &[])), [2]);
    // Equal weights: 3 × 4 of the first two loops of P3, 29 × 100 of the last two of P8.
    assert_eq!(counted(&table(&P3, &[])), [0]);
    assert_eq!(counted(&table(&[(1, 1, 1), (100, 29, 100), (100, 29, 100)], &[])), [1]);
    // At zeros the first loop has the largest weight, at the found slack (1, 1, 1) the third.
    let rising = [(6, 1, 4), (3, 1, 0), (2, 1, 1)];
    assert_eq!(counted(&table(&rising, &[])), [2]);
    assert_eq!(counted(&table(&rising, &[3, 1, 1])), [0]);
}

#[test]
fn the_names_of_p1_in_a_lent_buffer() {
    let mut out = [0xaa; 3];
    assert_eq!(counted_into(&table(&P1, &[]), &mut out), Ok(1));
    assert_eq!(out, [2, 0xaa, 0xaa]);
    assert_eq!(counted_into(&table(&P1, &[]), &mut []), Err(Refusal::whole(24)));
    assert_eq!(counted_into(&table(&P1, &[5, 6, 0]), &mut []), Err(Refusal::at(12, 0)));
}
