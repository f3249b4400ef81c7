//! The wrapper's log run on P10 and P11 of document 01, and on equal points as document 02, §8, has
//! them.

use dahomike::{Refusal, run_log};

/// P3: (T, C, Y) of each loop.
const P3: [u8; 42] = table([[2, 1, 2], [2, 1, 2], [3, 3, 0]]);

/// All released at tick 0 with full budgets.
const P10: [u8; 29] = log([[0, 0, 1], [0, 1, 1], [0, 2, 3]]);

/// Loop 0 at ticks 0, 1, 2, demand 1.
const P11: [u8; 29] = log([[0, 0, 1], [1, 0, 1], [2, 0, 1]]);

/// A table of edition 1 on the cores labelled 0 and 1, with these loops and no slack.
const fn table(loops: [[u8; 3]; 3]) -> [u8; 42] {
    let mut bytes = [0; 42];
    [bytes[0], bytes[1], bytes[2], bytes[3], bytes[4]] = [1, 2, 0, 1, 3];
    let mut field = 0;
    while field < 9 {
        bytes[5 + 4 * field] = loops[field / 3][field % 3];
        field += 1;
    }
    bytes
}

/// A log of these entries: tick, loop and demand.
const fn log(entries: [[u8; 3]; 3]) -> [u8; 29] {
    let mut bytes = [0; 29];
    bytes[0] = 3;
    let mut entry = 0;
    while entry < 3 {
        let at = 2 + 9 * entry;
        [bytes[at], bytes[at + 4], bytes[at + 5]] = entries[entry];
        entry += 1;
    }
    bytes
}

#[test]
fn p10_finish_ticks_are_written_and_later_bytes_stay() {
    let mut out = [0xee; 27];
    assert_eq!(run_log(&P3, &P10, &mut out), Ok((3, 0)));
    assert_eq!(out[..8], [1, 0, 0, 0, 1, 0, 0, 0]);
    assert_eq!(out[8..16], [1, 0, 0, 0, 2, 0, 0, 0]);
    assert_eq!(out[16..24], [1, 0, 0, 0, 3, 0, 0, 0]);
    assert_eq!(out[24..], [0xee; 3]);
}

#[test]
fn p10_with_the_third_offset_3() {
    let mut table = P3;
    table[5 + 24 + 8] = 3;
    let mut out = [0xee; 24];
    assert_eq!(run_log(&table, &P10, &mut out), Ok((3, 0)));
    assert_eq!([out[4], out[12], out[20]], [1, 1, 4]);
}

#[test]
fn p11_a_release_too_soon_is_refused_and_the_run_goes_on() {
    let mut out = [0xee; 24];
    assert_eq!(run_log(&P3, &P11, &mut out), Ok((2, 1)));
    assert_eq!(out[..8], [1, 0, 0, 0, 1, 0, 0, 0]);
    assert_eq!(out[8..16], [2, 0, 0, 0, 22, 0, 0, 0]);
    assert_eq!(out[16..24], [1, 0, 0, 0, 3, 0, 0, 0]);
}

#[test]
fn of_equal_points_the_earlier_release_runs_first() {
    let table = table([[10, 2, 5], [10, 9, 10], [10, 9, 0]]);
    // Loop 2 has one core. The points of loops 1 and 0 are 10, and loop 1 was released earlier.
    let log = log([[0, 1, 9], [0, 2, 9], [5, 0, 2]]);
    let mut out = [0xee; 24];
    assert_eq!(run_log(&table, &log, &mut out), Ok((3, 0)));
    assert_eq!([out[4], out[12], out[20]], [9, 9, 11]);
}

#[test]
fn a_refusal_gives_number_and_index_and_writes_nothing() {
    let mut out = [0xee; 24];
    assert_eq!(run_log(&[], &P11, &mut out), Err(Refusal { number: 1, index: 0 }));
    assert_eq!(run_log(&P3, &[], &mut out), Err(Refusal { number: 14, index: 0 }));
    assert_eq!(run_log(&P3, &P11[..28], &mut out), Err(Refusal { number: 14, index: 0 }));
    let mut log = P11;
    log[23] = 60; // the last tick's high byte: above 1,000,000,000
    assert_eq!(run_log(&P3, &log, &mut out), Err(Refusal { number: 15, index: 2 }));
    assert_eq!(run_log(&P3, &P11, &mut out[..23]), Err(Refusal { number: 16, index: 0 }));
    assert_eq!(out, [0xee; 24]);
    assert_eq!(run_log(&P3, &[0, 0], &mut []), Ok((0, 0)));
}
