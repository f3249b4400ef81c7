//! The wrapper on wish sheets: P1's loops with the wishes of document 02, and what refuses them.

use dahomike::{Refusal, judge, wish};

/// P1's loops with labels 0 and 1: (T, C) = (10, 9), (10, 9), (100, 20), wishing 29, 99 and 90.
const SHEET: [u8; 42] = [
    1, // edition
    2, 0, 1, // cores
    3, // loops
    10, 0, 0, 0, 9, 0, 0, 0, 29, 0, 0, 0, //
    10, 0, 0, 0, 9, 0, 0, 0, 99, 0, 0, 0, //
    100, 0, 0, 0, 20, 0, 0, 0, 90, 0, 0, 0, //
    0, // slack
];

/// Where the low byte of the last wish stands.
const LAST_WISH: usize = 37;

fn refused(number: u32, index: u32) -> Result<usize, Refusal> {
    Err(Refusal { number, index })
}

#[test]
fn offset_slack_and_bound_of_each_task_are_written_and_later_bytes_stay() {
    let mut out = [0xee; 41];
    assert_eq!(wish(&SHEET, &mut out), Ok(3));
    assert_eq!(out[..12], [10, 0, 0, 0, 6, 0, 0, 0, 25, 0, 0, 0]);
    assert_eq!(out[12..24], [10, 0, 0, 0, 6, 0, 0, 0, 25, 0, 0, 0]);
    assert_eq!(out[24..36], [69, 0, 0, 0, 1, 0, 0, 0, 90, 0, 0, 0]);
    assert_eq!(out[36..], [0xee; 5]);
}

#[test]
fn the_judge_gives_the_offsets_found_the_same_slack() {
    let mut table = SHEET;
    for (place, offset) in [(13, 10), (25, 10), (LAST_WISH, 69)] {
        table[place] = offset;
    }
    let mut out = [0; 24];
    assert_eq!(judge(&table, &mut out), Ok(3));
    assert_eq!(out[..8], [6, 0, 0, 0, 25, 0, 0, 0]);
    assert_eq!(out[8..16], [6, 0, 0, 0, 25, 0, 0, 0]);
    assert_eq!(out[16..], [1, 0, 0, 0, 90, 0, 0, 0]);
}

#[test]
fn a_wish_is_c_to_16_times_t() {
    let mut out = [0xee; 36];
    for (place, wish_byte, index) in [(13, 8, 0), (13, 161, 0), (25, 8, 1), (LAST_WISH, 19, 2)] {
        let mut sheet = SHEET;
        sheet[place] = wish_byte;
        assert_eq!(wish(&sheet, &mut out), refused(26, index));
    }
    let mut sheet = SHEET;
    sheet[LAST_WISH..LAST_WISH + 4].copy_from_slice(&1601u32.to_le_bytes());
    assert_eq!(wish(&sheet, &mut out), refused(26, 2));
    assert_eq!(out, [0xee; 36]);
    // At both ends it is one: without a solution at C, with one at 16 × T.
    sheet[LAST_WISH..LAST_WISH + 4].copy_from_slice(&20u32.to_le_bytes());
    assert_eq!(wish(&sheet, &mut out), refused(27, 0));
    assert_eq!(out, [0xee; 36]);
    sheet[LAST_WISH..LAST_WISH + 4].copy_from_slice(&1600u32.to_le_bytes());
    assert_eq!(wish(&sheet, &mut out), Ok(3));
    assert_eq!(out[24..], [100, 0, 0, 0, 0, 0, 0, 0, 120, 0, 0, 0]);
}

#[test]
fn one_tick_less_has_no_solution() {
    let mut out = [0xee; 36];
    let mut sheet = SHEET;
    sheet[LAST_WISH] = 69;
    assert_eq!(wish(&sheet, &mut out), refused(27, 0));
    assert_eq!(wish(&sheet, &mut []), refused(27, 0));
    assert_eq!(out, [0xee; 36]);
    sheet[LAST_WISH] = 70;
    assert_eq!(wish(&sheet, &mut out), Ok(3));
    assert_eq!(out[..12], [10, 0, 0, 0, 10, 0, 0, 0, 29, 0, 0, 0]);
    assert_eq!(out[24..], [45, 0, 0, 0, 5, 0, 0, 0, 70, 0, 0, 0]);
}

#[test]
fn a_short_buffer_and_other_refusals_write_nothing() {
    let mut out = [0xee; 36];
    assert_eq!(wish(&SHEET, &mut out[..35]), refused(24, 0));
    assert_eq!(wish(&SHEET, &mut []), refused(24, 0));
    assert_eq!(wish(&[], &mut out), refused(1, 0));
    let mut offering = SHEET.to_vec();
    offering[41] = 3;
    offering.extend([6, 0, 0, 0, 6, 0, 0, 0, 1, 0, 0, 0]);
    assert_eq!(wish(&offering, &mut out), refused(11, 0));
    assert_eq!(out, [0xee; 36]);
}
