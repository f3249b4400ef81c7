//! Document 02, §6: from edition to edition, there and back, and what refuses it.

use reference::{Refusal, Table, convert, convert_into, judge};

/// P1 of document 01, of edition 1.
fn p1() -> Table {
    Table::of(2, &[(10, 9, 10), (10, 9, 10), (100, 20, 90)])
}

/// The table in edition 2 with these deadlines.
fn dated(table: Table, deadlines: [u32; 3]) -> Table {
    let mut table = Table { edition: 2, ..table };
    for (task, deadline) in table.tasks.iter_mut().zip(deadlines) {
        task.deadline = deadline;
    }
    table
}

/// What the conversion of a table meets.
fn met(bytes: &[u8], wanted: u32) -> (u32, u32) {
    let Refusal { number, index } = convert(bytes, wanted).expect_err("the call is refused");
    (number, index)
}

/// Converts a table of edition 1 and back, and compares what the judge says of both sides.
fn there_and_back(first: &Table, second: &Table) {
    let (first, second) = (first.bytes(), second.bytes());
    assert_eq!(convert(&first, 2), Ok(second.clone()));
    assert_eq!(convert(&second, 1), Ok(first.clone()));
    let [one, two] = [first, second].map(|bytes| judge(&bytes).expect("both are accepted"));
    assert_eq!((one.offered, &one.slack), (two.offered, &two.slack));
    for k in 0..one.tasks.len() {
        assert_eq!(one.bound(k), two.bound(k), "bound of loop {k}");
        assert_eq!(one.late(k), two.late(k), "late of loop {k}");
    }
}

#[test]
fn p1_in_edition_2_byte_by_byte() {
    let bytes = convert(&p1().bytes(), 2).expect("P1 is converted");
    assert_eq!(bytes[..5], [2, 2, 0, 1, 3]);
    assert_eq!(bytes[5..21], [10, 0, 0, 0, 9, 0, 0, 0, 10, 0, 0, 0, 10, 0, 0, 0]);
    assert_eq!(bytes[21..37], bytes[5..21]);
    assert_eq!(bytes[37..], [100, 0, 0, 0, 20, 0, 0, 0, 90, 0, 0, 0, 90, 0, 0, 0, 0]);
}

#[test]
fn slack_stays_offered_or_to_be_found() {
    there_and_back(&p1(), &dated(p1(), [10, 10, 90]));
    let offering = Table { labels: vec![7, 63], slack: vec![6, 6, 1], ..p1() };
    there_and_back(&offering, &dated(offering.clone(), [10, 10, 90]));
    let bytes = convert(&offering.bytes(), 2).expect("the table is converted");
    assert_eq!(bytes[53..], [3, 6, 0, 0, 0, 6, 0, 0, 0, 1, 0, 0, 0]);
    // Offered zeros are no count 0.
    let zeros = Table { slack: vec![0; 3], ..Table::of(2, &[(2, 1, 2); 3]) };
    there_and_back(&zeros, &dated(zeros.clone(), [2, 2, 2]));
}

#[test]
fn the_wanted_edition_is_1_or_2_and_another_than_the_tables() {
    let (first, second) = (p1().bytes(), dated(p1(), [10, 10, 90]).bytes());
    for wanted in [0, 3, 255, 256, 257, 258, 65_537, 65_538, 1 << 31, u32::MAX] {
        assert_eq!(met(&first, wanted), (1, 0), "to edition {wanted}");
        assert_eq!(met(&second, wanted), (1, 0), "to edition {wanted}");
        assert_eq!(met(&[], wanted), (1, 0), "to edition {wanted}");
    }
    assert_eq!(met(&first, 1), (1, 0));
    assert_eq!(met(&second, 2), (1, 0));
    assert_eq!(met(&[], 1), (1, 0));
    assert_eq!(met(&[3], 2), (1, 0));
}

#[test]
fn the_wanted_edition_before_the_length() {
    assert_eq!(met(&[1], 1), (1, 0));
    assert_eq!(met(&[2], 2), (1, 0));
    assert_eq!(met(&[1], 3), (1, 0));
    assert_eq!(met(&[1], 2), (2, 0));
    assert_eq!(met(&[2], 1), (2, 0));
}

#[test]
fn offsets_of_0_on_the_way_to_edition_2() {
    let with = |offsets: [u32; 3]| {
        let mut table = p1();
        for (task, offset) in table.tasks.iter_mut().zip(offsets) {
            task.offset = offset;
        }
        table
    };
    assert_eq!(met(&with([10, 10, 0]).bytes(), 2), (29, 2));
    assert_eq!(met(&with([10, 0, 0]).bytes(), 2), (29, 1));
    assert_eq!(met(&with([0, 0, 0]).bytes(), 2), (29, 0));
    assert!(convert(&with([1, 1, 1]).bytes(), 2).is_ok());
    // In edition 2 such a loop has a deadline of 1 or more, which is another than its offset.
    assert_eq!(met(&dated(with([10, 0, 90]), [10, 1, 90]).bytes(), 1), (30, 1));
    assert_eq!(met(&dated(with([10, 0, 90]), [10, 0, 90]).bytes(), 1), (28, 1));
}

#[test]
fn other_deadlines_on_the_way_to_edition_1() {
    let with = |deadlines| dated(p1(), deadlines).bytes();
    assert_eq!(met(&with([10, 10, 91]), 1), (30, 2));
    assert_eq!(met(&with([10, 9, 91]), 1), (30, 1));
    assert_eq!(met(&with([266, 10, 90]), 1), (30, 0));
    assert_eq!(met(&with([1_600_000; 3]), 1), (30, 0));
}

#[test]
fn the_tables_own_checks_come_first() {
    let mut first = p1();
    first.tasks[0].offset = 0;
    first.slack = vec![u32::MAX; 3];
    assert_eq!(met(&first.bytes(), 2), (13, 0));
    first.slack = vec![0; 3];
    assert_eq!(met(&first.bytes(), 2), (12, 0));
    first.slack = vec![];
    assert_eq!(met(&first.bytes(), 2), (29, 0));
    let mut second = dated(p1(), [9, 10, 0]);
    assert_eq!(met(&second.bytes(), 1), (28, 2));
    second.tasks[2].deadline = 90;
    second.slack = vec![0];
    assert_eq!(met(&second.bytes(), 1), (11, 0));
    second.slack = vec![];
    assert_eq!(met(&second.bytes(), 1), (30, 0));
}

#[test]
fn a_short_buffer_comes_last_and_later_bytes_stay() {
    let refused = |number, index| Err(Refusal { number, index });
    let (first, second) = (p1().bytes(), dated(p1(), [10, 10, 90]).bytes());
    for (from, wanted, to) in [(&first, 2, &second), (&second, 1, &first)] {
        let mut out = vec![0x55; to.len() + 3];
        assert_eq!(convert_into(from, wanted, &mut out[..to.len() - 1]), refused(24, 0));
        assert_eq!(convert_into(from, wanted, &mut []), refused(24, 0));
        assert_eq!(out, vec![0x55; to.len() + 3], "a refused call writes nothing");
        assert_eq!(convert_into(from, wanted, &mut out), Ok(to.len()));
        assert_eq!(out, [&to[..], &[0x55; 3]].concat());
    }
    let mut zero = p1();
    zero.tasks[1].offset = 0;
    assert_eq!(convert_into(&zero.bytes(), 2, &mut []), refused(29, 1));
    let other = dated(p1(), [10, 10, 89]);
    assert_eq!(convert_into(&other.bytes(), 1, &mut []), refused(30, 2));
}
