//! The wrapper on P1 of document 01 from edition to edition, and what refuses it.

use dahomike::{Refusal, convert, judge};

/// T, C and Y of each loop; in edition 2 the deadlines beside them.
const P1: [[u32; 3]; 3] = [[10, 9, 10], [10, 9, 10], [100, 20, 90]];
const OFFSETS: [u32; 3] = [10, 10, 90];

/// These loops on two cores, labels 0 and 1, without slack: of edition 1.
fn first(loops: [[u32; 3]; 3]) -> Vec<u8> {
    bytes(1, loops.iter().map(|entry| entry.to_vec()))
}

/// P1's loops with these deadlines: of edition 2.
fn second(deadlines: [u32; 3]) -> Vec<u8> {
    bytes(2, P1.iter().zip(deadlines).map(|(entry, deadline)| [&entry[..], &[deadline]].concat()))
}

fn bytes(edition: u8, entries: impl Iterator<Item = Vec<u32>>) -> Vec<u8> {
    let mut bytes = vec![edition, 2, 0, 1, 3];
    entries.flatten().for_each(|number| bytes.extend(number.to_le_bytes()));
    bytes.push(0);
    bytes
}

/// The table with its slack section replaced.
fn offering(mut table: Vec<u8>, slack: &[u32]) -> Vec<u8> {
    table.pop();
    table.push(slack.len() as u8);
    slack.iter().for_each(|x| table.extend(x.to_le_bytes()));
    table
}

fn refused(number: u32, index: u32) -> Result<usize, Refusal> {
    Err(Refusal { number, index })
}

/// The first bytes of the buffer are these, and later bytes stay.
fn converted(table: &[u8], edition: u32, expected: &[u8]) {
    let mut out = [0xee; 80];
    assert_eq!(convert(table, edition, &mut out), Ok(expected.len()));
    assert_eq!(out[..expected.len()], *expected);
    assert!(out[expected.len()..].iter().all(|&byte| byte == 0xee));
}

#[test]
fn there_and_back() {
    for slack in [vec![], vec![6, 6, 1]] {
        let one = offering(first(P1), &slack);
        let two = offering(second(OFFSETS), &slack);
        assert_eq!((one.len(), two.len()), (42 + 4 * slack.len(), 54 + 4 * slack.len()));
        converted(&one, 2, &two);
        converted(&two, 1, &one);
        let [by_one, by_two] = [one, two].map(|table| {
            let mut out = [0xee; 24];
            (judge(&table, &mut out), out)
        });
        assert_eq!(by_one, by_two);
        assert_eq!(by_one.0, Ok(3));
    }
}

#[test]
fn the_wanted_edition_is_the_other_one() {
    let mut out = [0xee; 60];
    for (own, table) in [(1, first(P1)), (2, second(OFFSETS))] {
        for edition in [own, 0, 3, 255, 256, 257, 258, 65_537, 65_538, u32::MAX] {
            assert_eq!(convert(&table, edition, &mut out), refused(1, 0), "to edition {edition}");
        }
        // The wanted edition comes before the length, and an edition byte before both.
        assert_eq!(convert(&table[..9], own, &mut out), refused(1, 0));
        assert_eq!(convert(&table[..9], 3 - own, &mut out), refused(2, 0));
        assert_eq!(convert(&[], own, &mut out), refused(1, 0));
        assert_eq!(convert(&[3], own, &mut out), refused(1, 0));
    }
    assert_eq!(out, [0xee; 60]);
}

#[test]
fn no_offset_is_0_on_the_way_to_edition_2() {
    let mut out = [0xee; 60];
    let mut loops = P1;
    for lowest in [2, 1, 0] {
        loops[lowest][2] = 0;
        assert_eq!(convert(&first(loops), 2, &mut out), refused(29, lowest as u32));
        assert_eq!(convert(&first(loops), 2, &mut []), refused(29, lowest as u32));
    }
    // The bounds come before.
    let table = offering(first(loops), &[200; 3]);
    assert_eq!(convert(&table, 2, &mut out), refused(13, 0));
    assert_eq!(out, [0xee; 60]);
}

#[test]
fn every_deadline_is_its_offset_on_the_way_to_edition_1() {
    let mut out = [0xee; 60];
    for (deadlines, lowest) in [([10, 10, 91], 2), ([10, 266, 1], 1), ([9, 10, 90], 0)] {
        assert_eq!(convert(&second(deadlines), 1, &mut out), refused(30, lowest));
        assert_eq!(convert(&second(deadlines), 1, &mut []), refused(30, lowest));
    }
    assert_eq!(convert(&second([9, 10, 0]), 1, &mut out), refused(28, 2));
    assert_eq!(out, [0xee; 60]);
}

#[test]
fn a_short_buffer_comes_last() {
    let (one, two) = (first(P1), second(OFFSETS));
    for (from, edition, to) in [(&one, 2, &two), (&two, 1, &one)] {
        let mut out = vec![0xee; to.len()];
        let short = &mut out[..to.len() - 1];
        assert_eq!(convert(from, edition, short), refused(24, 0));
        assert_eq!(convert(from, edition, &mut []), refused(24, 0));
        assert!(out.iter().all(|&byte| byte == 0xee));
        assert_eq!(convert(from, edition, &mut out), Ok(to.len()));
        assert_eq!(out, *to);
    }
}
