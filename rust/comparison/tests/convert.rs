//! The proved conversion against the reference on hundreds of thousands of calls, the same ones on
//! every run, and back again where a table is converted.

use comparison::{ConversionTally, compare_conversion, compare_conversion_at};
use reference::Table;
use samples::{
    Random, any_tight, convertible, damaged_table, faulty_convertible, faulty_few, faulty_table,
    few_convertible, few_offering, inconvertible, long, mixed, noise_table, offered, overfull,
    steep, table_with_bad_deadlines, wanted_edition,
};

/// A way to make tables, and how many of them are converted.
type Family = (u64, fn(&mut Random) -> Vec<u8>);

const FAMILIES: [Family; 8] = [
    (60_000, |random| convertible(random).bytes()),
    (40_000, |random| inconvertible(random).bytes()),
    (20_000, any_table),
    (30_000, |random| faulty_convertible(random).bytes()),
    (10_000, |random| faulty_table(random).bytes()),
    (10_000, |random| table_with_bad_deadlines(random).bytes()),
    (30_000, any_damaged),
    (10_000, noise_table),
];

/// Few loops, that is no more than cores, and one more beside them.
const FEW_FAMILIES: [Family; 3] = [
    (30_000, |random| few_convertible(random).bytes()),
    (5_000, |random| few_offering(random).bytes()),
    (10_000, |random| faulty_few(random).bytes()),
];

/// How often each of these is met, at least, by the tables of these families.
const FEW_AT_LEAST: [(u64, &str); 11] = [
    (20_000, "few loops"),
    (3_000, "refused 31, and 29 after it"),
    (3_000, "refused 31, and not 29"),
    (3_000, "refused 31, and 30 after it"),
    (3_000, "refused 31, and not 30"),
    (3_000, "refused 31, and 24 after it"),
    (700, "refused 9, and 31 after it"),
    (3_000, "refused 11, and 31 after it"),
    (300, "refused 28, and 31 after it"),
    (1_000, "to edition 1, n = m + 1"),
    (1_000, "to edition 2, n = m + 1"),
];

/// How often each refusal number is met, at least.
const REFUSED_AT_LEAST: u64 = 500;

/// How often each of 3 to 13 is met together with 29, 30 or 24, which come after it, at least.
const ORDERS_AT_LEAST: u64 = 200;

/// How often each of these is met on the way to edition 1, and to edition 2, at least.
const WAYS_AT_LEAST: [(u64, &str); 9] = [
    (10_000, "slack found"),
    (5_000, "slack offered"),
    (5_000, "buffer exactly long enough"),
    (5_000, "buffer longer"),
    (1_000, "16 loops"),
    (10_000, "some offset 1"),
    (10_000, "some offset T"),
    (3_000, "some offset with low byte 0"),
    (500, "some offset above 65,535"),
];

/// How often each of these is met, at least.
const AT_LEAST: [(u64, &str); 43] = [
    (8_000, "there and back from edition 1"),
    (8_000, "there and back from edition 2"),
    (2_000, "refused 1, already in edition 1"),
    (2_000, "refused 1, already in edition 2"),
    (2_000, "refused 1, already in it, and nothing after it"),
    (400, "refused 1, already in it, and 2 after it"),
    (3_000, "refused 1, already in it, and a later number"),
    (2_000, "refused 1, wanted 0"),
    (2_000, "refused 1, wanted 3"),
    (2_000, "refused 1, wanted 255"),
    (2_000, "refused 1, wanted 256"),
    (2_000, "refused 1, wanted 257"),
    (2_000, "refused 1, wanted 258"),
    (2_000, "refused 1, wanted 2^32 − 1"),
    (5_000, "refused 1, another edition wanted"),
    (1_000, "refused 1, unknown edition wanted, and 2 after it"),
    (1_000, "refused 1, and the wanted edition's low byte would do"),
    (3_000, "refused 1, and the wanted edition's low byte is the table's"),
    (500, "refused 1, no edition byte"),
    (400, "refused 1, edition byte 0"),
    (400, "refused 1, edition byte 3"),
    (400, "refused 1, edition byte 255"),
    (1_000, "refused 1, another edition byte"),
    (500, "refused 2, edition 1 over loops of edition 2"),
    (400, "refused 2, edition 2 over loops of edition 1"),
    (3_000, "refused 28, and 30 after it"),
    (400, "refused 28, and not 30"),
    (1_000, "refused 28, and 24 after it"),
    (1_000, "refused 29, and 24 after it"),
    (3_000, "refused 29, at several loops"),
    (300, "refused 29, at the last loop alone"),
    (4_000, "refused 29, index above 0"),
    (2_000, "refused 30, and 24 after it"),
    (4_000, "refused 30, at several loops"),
    (400, "refused 30, at the last loop alone"),
    (4_000, "refused 30, index above 0"),
    (400, "refused 30, offset 0"),
    (1_000, "refused 30, D one below the offset"),
    (1_000, "refused 30, D one above the offset"),
    (3_000, "refused 30, D one bit away from the offset"),
    (1_000, "refused 30, D with the offset's low byte"),
    (400, "refused 30, D with the offset's two low bytes"),
    (1_000, "refused 24, to edition 2, buffer long enough for edition 1"),
];

/// A table of any kind that the judgement is compared on: most that it accepts meet 29 or 30.
fn any_table(random: &mut Random) -> Vec<u8> {
    let make = random.pick(&[mixed, long, steep, any_tight, overfull, offered]);
    make(random).bytes()
}

/// The bytes of a table damaged, or none.
fn any_damaged(random: &mut Random) -> Vec<u8> {
    if random.once_in(16) {
        return vec![];
    }
    let make = random.pick(&[convertible, inconvertible]);
    let table = make(random);
    damaged_table(random, table.bytes())
}

/// Compares conversions of the tables of all these families, the first of them made from this seed.
fn compare_all(first_seed: u64, families: &[Family]) -> ConversionTally {
    let mut tally = ConversionTally::default();
    for (seed, (tables, make)) in (first_seed..).zip(families) {
        let random = &mut Random::new(seed);
        for _ in 0..*tables {
            let table = make(random);
            let wanted = wanted_edition(random, &table);
            compare_conversion(random, &table, wanted, &mut tally);
        }
    }
    tally.print();
    tally
}

#[test]
fn many_conversions() {
    check(&compare_all(111, &FAMILIES));
}

#[test]
fn many_conversions_with_few_loops() {
    let tally = compare_all(141, &FEW_FAMILIES);
    let met = tally.refused(31);
    assert!(met >= 10_000, "refused 31: {met} calls");
    for (least, name) in FEW_AT_LEAST {
        check_named(&tally, least, name);
    }
}

/// Holds a tally to how often each number and each edge is to be met.
fn check(tally: &ConversionTally) {
    assert!(tally.calls() >= 200_000, "{} calls", tally.calls());
    for number in (1..=13).chain([28, 29, 30, 24]) {
        let met = tally.refused(number);
        assert!(met >= REFUSED_AT_LEAST, "refused {number}: {met} calls");
    }
    for (least, name) in AT_LEAST {
        check_named(tally, least, name);
    }
    for (number, later) in (3..=13).flat_map(|number| [29, 30, 24].map(|later| (number, later))) {
        check_named(tally, ORDERS_AT_LEAST, &format!("refused {number}, and {later} after it"));
    }
    for wanted in [1, 2] {
        for (least, what) in WAYS_AT_LEAST {
            check_named(tally, least, &format!("to edition {wanted}, {what}"));
        }
        let short = |what| format!("refused 24, to edition {wanted}, {what}");
        check_named(tally, 300, &short("buffer empty"));
        check_named(tally, 1_000, &short("buffer one byte short"));
    }
}

fn check_named(tally: &ConversionTally, least: u64, name: &str) {
    let met = tally.named(name);
    assert!(met >= least, "{name}: {met} calls");
}

/// P1 of document 01 in either edition, and its wanted edition.
fn p1() -> [(Table, u32); 2] {
    let first = Table::of(2, &[(10, 9, 10), (10, 9, 10), (100, 20, 90)]);
    [(first.clone(), 2), (dated(first), 1)]
}

/// The largest table there is, in either edition, and its wanted edition.
fn largest() -> [(Table, u32); 2] {
    let first = Table { slack: vec![11; 16], ..Table::of(8, &[(16, 8, 16); 16]) };
    [(first.clone(), 2), (dated(first), 1)]
}

/// The table in edition 2 with each offset as deadline.
fn dated(mut table: Table) -> Table {
    table.tasks.iter_mut().for_each(|task| task.deadline = task.offset);
    Table { edition: 2, ..table }
}

#[test]
fn every_length_of_a_buffer() {
    let random = &mut Random::new(121);
    for ((table, wanted), needed) in p1().into_iter().chain(largest()).zip([54, 42, 332, 268]) {
        let mut tally = ConversionTally::default();
        for length in 0..=needed + 13 {
            compare_conversion_at(random, &table.bytes(), wanted, length, &mut tally);
        }
        assert_eq!(tally.refused(24), needed as u64);
        let named = |what: &str| tally.named(&format!("to edition {wanted}, {what}"));
        assert_eq!(named("buffer exactly long enough"), 1);
        assert_eq!(named("buffer longer"), 13);
        let back = format!("there and back from edition {}", table.edition);
        assert_eq!(tally.named(&back), 14);
    }
}

/// Every edition that two bytes hold, and each of one or two bits.
#[test]
fn every_wanted_edition() {
    let random = &mut Random::new(122);
    let bits = (0..32).flat_map(|bit| [1 << bit, 1 << bit | 1, 1 << bit | 2, !(1 << bit)]);
    let editions: Vec<u32> = (0..=65_536).chain(bits.filter(|&edition| edition > 65_536)).collect();
    for (table, wanted) in p1() {
        let mut tally = ConversionTally::default();
        for &edition in &editions {
            compare_conversion(random, &table.bytes(), edition, &mut tally);
        }
        // All but the wanted one are refused 1.
        assert_eq!(tally.refused(1), editions.len() as u64 - 1);
        assert_eq!(tally.named(&format!("refused 1, already in edition {}", 3 - wanted)), 1);
    }
}

#[test]
fn every_table_of_up_to_two_bytes_after_the_edition() {
    let random = &mut Random::new(123);
    let mut tally = ConversionTally::default();
    for wanted in [1, 2] {
        compare_conversion(random, &[], wanted, &mut tally);
        for first in 0..=255 {
            compare_conversion(random, &[first], wanted, &mut tally);
            for edition in [1, 2] {
                compare_conversion(random, &[edition, first], wanted, &mut tally);
                for second in 0..=255 {
                    compare_conversion(random, &[edition, first, second], wanted, &mut tally);
                }
            }
        }
    }
    // Of either wanted edition the tables of the other meet 2, and all else meets 1.
    let of_one_edition = 1 + 256 + 65_536;
    assert_eq!(tally.refused(2), 2 * of_one_edition);
    assert_eq!(tally.refused(1), 2 * (of_one_edition + 255));
}
