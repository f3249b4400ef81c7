//! The proved judgement and its names against the reference on hundreds of thousands of tables, the
//! same ones on every run.

use comparison::{EDITIONS_AT_LEAST, TableTally, compare_table};
use reference::Table;
use samples::{
    Random, any_tight, damaged_table, faulty_few, faulty_table, few, few_offering, long, mixed,
    noise_table, offered, one_more, overfull, steep, table_with_bad_deadlines, with_deadlines,
};

/// A way to make tables, and how many of them are compared.
type Family = (u64, fn(&mut Random) -> Vec<u8>);

const FAMILIES: [Family; 10] = [
    (50_000, |random| mixed(random).bytes()),
    (50_000, |random| long(random).bytes()),
    (40_000, |random| steep(random).bytes()),
    (60_000, |random| any_tight(random).bytes()),
    (20_000, |random| overfull(random).bytes()),
    (110_000, |random| offered(random).bytes()),
    (70_000, |random| faulty_table(random).bytes()),
    (30_000, |random| table_with_bad_deadlines(random).bytes()),
    (80_000, any_damaged),
    (20_000, noise_table),
];

/// Few loops, that is no more than cores, and one more beside them.
const FEW_FAMILIES: [Family; 5] = [
    (40_000, |random| few(random).bytes()),
    (15_000, |random| few_offering(random).bytes()),
    (10_000, |random| one_more(random).bytes()),
    (15_000, |random| faulty_few(random).bytes()),
    (10_000, |random| {
        let table = few(random);
        damaged_table(random, table.bytes())
    }),
];

/// How often each of these is met, at least, by the tables of these families.
const FEW_AT_LEAST: [(u64, &str); 15] = [
    (60_000, "few loops"),
    (8_000, "few loops, accepted, n = 1"),
    (5_000, "few loops, accepted, 1 < n < m"),
    (8_000, "few loops, accepted, n = m"),
    (4_000, "accepted, n = m + 1"),
    (300, "refused 5, no loops"),
    (600, "refused 5, more than 16 loops"),
    (3_000, "few loops, refused 11, n zeros"),
    (3_000, "few loops, refused 11, n entries, not all 0"),
    (5_000, "few loops, refused 11, another count"),
    (1_000, "few loops, refused 9, no slack offered"),
    (500, "few loops, refused 9, and 11 after it"),
    (5_000, "few loops, refused 24"),
    (30_000, "few loops, none named"),
    (15_000, "few loops, none named, buffer empty"),
];

/// How often each refusal number is met, at least.
const REFUSED_AT_LEAST: u64 = 2_000;

/// How often each of these is met, at least.
const AT_LEAST: [(u64, &str); 29] = [
    (50_000, "accepted, found"),
    (10_000, "accepted, offered"),
    (5_000, "accepted, H from 990,000"),
    (500, "accepted, H 1,000,000"),
    (500, "refused 9, H 1,000,001"),
    (1_000, "refused 9, H up to 1,001,000"),
    (10_000, "accepted, shares exactly m × H"),
    (1_000, "accepted, shares exactly m × H, H from 990,000"),
    (5_000, "refused 10, shares m × H + 1"),
    (5_000, "accepted, offered, fails with an entry one lower"),
    (500, "accepted, offered zeros"),
    (5_000, "refused 12, complies with the entry one higher"),
    (5_000, "refused 12, index above 0"),
    (5_000, "refused 12, an entry of 2^32 − 1"),
    (3_000, "refused 12, offered zeros"),
    (5_000, "refused 13, an entry of 2^32 − 1"),
    (1_000, "accepted, a bound of exactly 16 × T"),
    (20_000, "accepted, buffer exactly long enough"),
    (20_000, "accepted, buffer longer"),
    (2_000, "refused 24, buffer empty"),
    (5_000, "refused 24, buffer one byte short"),
    (100_000, "named"),
    (20_000, "named, buffer exactly long enough"),
    (20_000, "named, buffer longer"),
    (5_000, "names refused 24, buffer one byte short"),
    (2_000, "named, equal weights at the edge"),
    (2_000, "named, equal weights among the names"),
    (5_000, "named, others than at zeros"),
    (1_000, "named, offered, others than at the found slack"),
];

fn any_damaged(random: &mut Random) -> Vec<u8> {
    let table = match random.index(4) {
        0 => mixed(random),
        1 => steep(random),
        _ => offered(random),
    };
    damaged_table(random, table.bytes())
}

/// Compares the tables of all these families, the first of them made from this seed.
fn compare_all(first_seed: u64, families: &[Family]) -> TableTally {
    let mut tally = TableTally::default();
    for (seed, (tables, make)) in (first_seed..).zip(families) {
        let mut random = Random::new(seed);
        for _ in 0..*tables {
            let table = make(&mut random);
            compare_table(&mut random, &table, &mut tally);
        }
    }
    tally.print();
    tally
}

#[test]
fn many_tables() {
    let tally = compare_all(1, &FAMILIES);
    assert!(tally.tables() >= 300_000);
    for number in (1..=13).chain([28, 24]) {
        let met = tally.refused(number);
        assert!(met >= REFUSED_AT_LEAST, "refused {number}: {met} tables");
    }
    for (least, name) in AT_LEAST.into_iter().chain(EDITIONS_AT_LEAST) {
        let met = tally.named(name);
        assert!(met >= least, "{name}: {met} tables");
    }
}

#[test]
fn many_tables_with_few_loops() {
    let tally = compare_all(131, &FEW_FAMILIES);
    for number in (1..=9).chain([11, 28, 24]) {
        let met = tally.refused(number);
        assert!(met >= 500, "refused {number}: {met} tables");
    }
    for (least, name) in FEW_AT_LEAST {
        let met = tally.named(name);
        assert!(met >= least, "{name}: {met} tables");
    }
    // A table of these does not meet 5: a wish sheet does.
    assert_eq!(tally.named("refused 5, few loops"), 0);
}

/// Up to 9 cores, 17 loops and 18 entries of slack, all 0, in both editions.
#[test]
fn every_number_of_cores_loops_and_entries() {
    let random = &mut Random::new(136);
    let mut tally = TableTally::default();
    for (cores, tasks) in (0..=9).flat_map(|cores| (0..=17).map(move |tasks| (cores, tasks))) {
        for entries in 0..=18 {
            let first = Table::of(cores, &vec![(16, 1, 16); tasks]);
            let first = Table { slack: vec![0; entries], ..first };
            compare_table(random, &first.bytes(), &mut tally);
            let second = with_deadlines(random, first);
            compare_table(random, &second.bytes(), &mut tally);
        }
    }
    // Of 0, 1 and 9 cores all; of 2 to 8 cores, those of 0 and 17 loops.
    assert_eq!(tally.refused(3), 3 * 18 * 19 * 2);
    assert_eq!(tally.refused(5), 7 * 2 * 19 * 2);
    // Of n up to m loops those with entries; of more loops, those with entries that are not n.
    let (few, more) = (2 + 3 + 4 + 5 + 6 + 7 + 8, 14 + 13 + 12 + 11 + 10 + 9 + 8);
    assert_eq!(tally.refused(11), few * 18 * 2 + more * 17 * 2);
}

#[test]
fn every_table_of_up_to_two_bytes_after_the_edition() {
    let mut random = Random::new(0);
    let mut tally = TableTally::default();
    compare_table(&mut random, &[], &mut tally);
    for first in 0..=255 {
        compare_table(&mut random, &[first], &mut tally);
        for edition in [1, 2] {
            compare_table(&mut random, &[edition, first], &mut tally);
            for second in 0..=255 {
                compare_table(&mut random, &[edition, first, second], &mut tally);
            }
        }
    }
    assert_eq!((tally.refused(1), tally.refused(2)), (255, 2 * (1 + 256 + 65_536)));
}
