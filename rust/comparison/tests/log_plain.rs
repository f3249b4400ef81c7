//! The plain forms of the log run with each other, without the proved one: the reference, tick by
//! tick, and the fast one, by events and tick by tick, on a part of the logs of the whole test.

use comparison::{FAR, FEW_FAR, FEW_NEAR, LogForm, NEAR, TIED_FAR, TIED_NEAR, compare_logs};

const REFERENCE: LogForm = ("reference", reference::run_log);
const FAST: LogForm = ("fast", fast::run_log);
const FAST_BY_TICKS: LogForm = ("fast by ticks", fast::run_log_by_ticks);

#[test]
fn near_logs() {
    let tally = compare_logs(&[REFERENCE, FAST, FAST_BY_TICKS], &NEAR, 10);
    tally.print();
    assert!(tally.logs() >= 30_000);
    assert_eq!(tally.entries(23), 0);
}

/// Only the fast form goes as far as these: what is compared is the log with its answer, by demand
/// 3's three claims and by who runs.
#[test]
fn far_logs() {
    let tally = compare_logs(&[FAST], &FAR, 10);
    tally.print();
    assert!(tally.logs() >= 6_000);
    assert_eq!(tally.entries(23), 0);
}

/// Tables with no more loops than cores, near and far.
#[test]
fn logs_with_few_loops() {
    let near = compare_logs(&[REFERENCE, FAST, FAST_BY_TICKS], &FEW_NEAR, 10);
    let far = compare_logs(&[FAST], &FEW_FAR, 10);
    assert!(near.logs() >= 3_000 && far.logs() >= 1_000);
    assert_eq!(near.entries(23) + far.entries(23), 0);
}

/// Logs with equal priority points, near and far.
#[test]
fn logs_with_equal_points() {
    let near = compare_logs(&[REFERENCE, FAST, FAST_BY_TICKS], &TIED_NEAR, 10);
    let far = compare_logs(&[FAST], &TIED_FAR, 10);
    near.print();
    far.print();
    assert!(near.logs() >= 2_000 && far.logs() >= 1_000);
    assert_eq!(near.entries(23) + far.entries(23), 0);
}
