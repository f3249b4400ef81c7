//! The wrapper on P1 and P3 of document 01 in both editions of document 02, §5.

use dahomike::{Refusal, counted, judge, run_log, wish};

/// T, C, Y or the wish, and D of each loop.
type Loops = [[u32; 4]; 3];

const P1: Loops = [[10, 9, 10, 24], [10, 9, 10, 25], [100, 20, 90, 1_600_000]];
const P3: Loops = [[2, 1, 2, 1], [2, 1, 2, 5], [3, 3, 0, 1_600_000]];

/// P1's loops wishing 29, 99 and 90.
const SHEET: Loops = [[10, 9, 29, 1], [10, 9, 99, 1_600_000], [100, 20, 90, 90]];

/// All released at tick 0 with full budgets, and then loop 0 one tick later.
const LOG: [u8; 38] = [
    4, 0, // entries
    0, 0, 0, 0, 0, 1, 0, 0, 0, //
    0, 0, 0, 0, 1, 1, 0, 0, 0, //
    0, 0, 0, 0, 2, 3, 0, 0, 0, //
    1, 0, 0, 0, 0, 1, 0, 0, 0, //
];

/// Two cores, labels 0 and 1, and no slack. Edition 1 leaves the deadlines out.
fn table(edition: u8, loops: &Loops) -> Vec<u8> {
    let fields = if edition == 1 { 3 } else { 4 };
    let entries = loops.iter().flat_map(|entry| &entry[..fields]);
    let mut bytes = vec![edition, 2, 0, 1, 3];
    entries.for_each(|number| bytes.extend(number.to_le_bytes()));
    bytes.push(0);
    bytes
}

fn refused<T>(number: u32, index: u32) -> Result<T, Refusal> {
    Err(Refusal { number, index })
}

/// What a call answers and leaves in a buffer, the same in both editions.
fn in_both<A: std::fmt::Debug + PartialEq>(
    loops: &Loops,
    call: impl Fn(&[u8], &mut [u8]) -> A,
) -> (A, [u8; 41]) {
    let [first, second] = [1, 2].map(|edition| {
        let mut out = [0xee; 41];
        (call(&table(edition, loops), &mut out), out)
    });
    assert_eq!(first, second);
    first
}

#[test]
fn slack_bounds_and_names_are_the_same() {
    let (answer, out) = in_both(&P1, judge);
    assert_eq!(answer, Ok(3));
    assert_eq!(out[..24], [6, 25, 6, 25, 0, 110].map(u32::to_le_bytes).concat());
    assert_eq!(out[24..], [0xee; 17]);
    let (answer, out) = in_both(&P1, counted);
    assert_eq!((answer, out[0], out[1]), (Ok(1), 2, 0xee));
}

#[test]
fn offsets_found_for_wishes_are_the_same() {
    let (answer, out) = in_both(&SHEET, wish);
    assert_eq!(answer, Ok(3));
    assert_eq!(out[..36], [10, 6, 25, 10, 6, 25, 69, 1, 90].map(u32::to_le_bytes).concat());
}

#[test]
fn finish_ticks_are_the_same() {
    let (answer, out) = in_both(&P3, |table, out| run_log(table, &LOG, out));
    assert_eq!(answer, Ok((3, 1)));
    assert_eq!(out[..32], [1, 1, 1, 2, 1, 3, 2, 22].map(u32::to_le_bytes).concat());
}

#[test]
fn a_deadline_is_1_to_1_600_000() {
    let mut out = [0xee; 41];
    for (deadline, index) in [(0, 0), (1_600_001, 1), (u32::MAX, 2)] {
        let spoilt = |loops: &Loops| {
            let mut loops = *loops;
            loops[index][3] = deadline;
            table(2, &loops)
        };
        let index = index as u32;
        assert_eq!(judge(&spoilt(&P1), &mut out), refused(28, index));
        assert_eq!(counted(&spoilt(&P1), &mut out), refused(28, index));
        assert_eq!(wish(&spoilt(&SHEET), &mut out), refused(28, index));
        assert_eq!(run_log(&spoilt(&P3), &LOG, &mut out), refused(28, index));
    }
    assert_eq!(out, [0xee; 41]);
}

#[test]
fn offsets_and_wishes_come_before_deadlines() {
    let mut out = [0xee; 41];
    let mut loops = P1;
    (loops[0][3], loops[2][2]) = (0, 101);
    assert_eq!(judge(&table(2, &loops), &mut out), refused(8, 2));
    assert_eq!(wish(&table(2, &loops), &mut out), refused(28, 0));
    loops[2][2] = 19;
    assert_eq!(wish(&table(2, &loops), &mut out), refused(26, 2));
    assert_eq!(out, [0xee; 41]);
}

#[test]
fn an_edition_is_1_or_2_and_the_length_is_that_of_the_edition() {
    let mut out = [0xee; 41];
    for (edition, number) in [(0, 1), (1, 2), (3, 1), (255, 1)] {
        let mut bytes = table(2, &P1);
        bytes[0] = edition;
        assert_eq!(judge(&bytes, &mut out), refused(number, 0));
        assert_eq!(wish(&bytes, &mut out), refused(number, 0));
    }
    let mut bytes = table(1, &P1);
    bytes[0] = 2;
    assert_eq!(judge(&bytes, &mut out), refused(2, 0));
    assert_eq!(out, [0xee; 41]);
}
