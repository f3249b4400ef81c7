//! The wrapper on P1 of document 01.

use dahomike::{Refusal, counted, judge};

/// P1 with labels 0 and 1: (T, C, Y) = (10, 9, 10), (10, 9, 10), (100, 20, 90), no slack.
const P1: [u8; 42] = [
    1, // edition
    2, 0, 1, // cores
    3, // loops
    10, 0, 0, 0, 9, 0, 0, 0, 10, 0, 0, 0, //
    10, 0, 0, 0, 9, 0, 0, 0, 10, 0, 0, 0, //
    100, 0, 0, 0, 20, 0, 0, 0, 90, 0, 0, 0, //
    0, // slack
];

#[test]
fn slack_and_bound_of_each_task_are_written_and_later_bytes_stay() {
    let mut out = [0xee; 27];
    assert_eq!(judge(&P1, &mut out), Ok(3));
    assert_eq!(out[..8], [6, 0, 0, 0, 25, 0, 0, 0]);
    assert_eq!(out[8..16], [6, 0, 0, 0, 25, 0, 0, 0]);
    assert_eq!(out[16..24], [0, 0, 0, 0, 110, 0, 0, 0]);
    assert_eq!(out[24..], [0xee; 3]);
}

#[test]
fn a_refusal_gives_number_and_index_and_writes_nothing() {
    let mut out = [0xee; 24];
    let mut table = P1;
    table[9 + 12] = 11; // the second budget is above its separation
    assert_eq!(judge(&table, &mut out), Err(Refusal { number: 7, index: 1 }));
    assert_eq!(judge(&P1, &mut out[..23]), Err(Refusal { number: 24, index: 0 }));
    assert_eq!(judge(&[], &mut out), Err(Refusal { number: 1, index: 0 }));
    assert_eq!(judge(&P1, &mut []), Err(Refusal { number: 24, index: 0 }));
    assert_eq!(out, [0xee; 24]);
}

#[test]
fn the_counted_task_is_named_and_later_bytes_stay() {
    let mut out = [0xee; 3];
    assert_eq!(counted(&P1, &mut out), Ok(1));
    assert_eq!(out, [2, 0xee, 0xee]);
}

#[test]
fn a_refusal_names_nobody() {
    let mut out = [0xee; 3];
    let mut table = P1;
    table[9 + 12] = 11; // the second budget is above its separation
    assert_eq!(counted(&table, &mut out), Err(Refusal { number: 7, index: 1 }));
    assert_eq!(counted(&table, &mut []), Err(Refusal { number: 7, index: 1 }));
    assert_eq!(counted(&P1, &mut []), Err(Refusal { number: 24, index: 0 }));
    assert_eq!(counted(&[], &mut out), Err(Refusal { number: 1, index: 0 }));
    assert_eq!(out, [0xee; 3]);
}
