//! The proved wishes against the reference on hundreds of thousands of sheets, the same ones on
//! every run, and on tiny sheets against trying every offset and every slack.

use comparison::{EDITIONS_AT_LEAST, WishTally, compare_edge, compare_wish, compare_wish_at};
use reference::{Plan, Refusal, Table, wish_by_trying};
use samples::{
    Random, any_sheet, damaged_table, deep_sheets, edge_sheets, either, end_sheet, faulty_sheet,
    few_sheet, noise_table, offering_sheet, roomy_sheet, sheet_with_bad_deadlines, slow_sheets,
    tight_edge_sheets, tight_sheet, tiny_sheet, with_deadlines,
};

/// A way to make sheets, and how many of them are compared.
type Family = (u64, fn(&mut Random) -> Vec<u8>);

const FAMILIES: [Family; 9] = [
    (60_000, |random| roomy_sheet(random).bytes()),
    (40_000, |random| any_sheet(random).bytes()),
    (20_000, |random| tight_sheet(random).bytes()),
    (30_000, |random| end_sheet(random).bytes()),
    (60_000, |random| faulty_sheet(random).bytes()),
    (20_000, |random| sheet_with_bad_deadlines(random).bytes()),
    (15_000, |random| offering_sheet(random).bytes()),
    (40_000, any_damaged),
    (10_000, noise_table),
];

/// A way to make two sheets on both sides of having a solution, and how many pairs are compared.
type Edges = (u64, fn(&mut Random) -> [Table; 2]);

const EDGES: [Edges; 2] = [(20_000, edge_sheets), (10_000, tight_edge_sheets)];

/// How often each refusal number is met, at least.
const REFUSED_AT_LEAST: u64 = 2_000;

/// How often each of these is met, at least.
const AT_LEAST: [(u64, &str); 45] = [
    (1_000, "refused 5, no loops"),
    (2_000, "refused 5, few loops"),
    (2_000, "refused 5, more than 16 loops"),
    (40_000, "accepted"),
    (15_000, "accepted, shares exactly m × H"),
    (20_000, "accepted, buffer exactly long enough"),
    (20_000, "accepted, buffer longer"),
    (10_000, "accepted, an offset 0"),
    (20_000, "accepted, an offset between 0 and T"),
    (20_000, "accepted, offset T and a bound below W"),
    (5_000, "accepted, offset T and a bound of W"),
    (2_000, "accepted, a slack 0"),
    (20_000, "accepted, a slack above T"),
    (3_000, "accepted, some W = 16 × T"),
    (100, "accepted, a bound of 16 × T"),
    (1_000, "accepted after 14 to 19 rounds"),
    (300, "accepted after 62 to 67 rounds"),
    (2_000, "accepted after more than 64 rounds"),
    (100, "accepted after more than 500 rounds"),
    (1_000, "refused 27 after 14 to 19 rounds"),
    (300, "refused 27 after 62 to 67 rounds"),
    (2_000, "refused 27 after more than 64 rounds"),
    (500, "refused 27 after more than 500 rounds"),
    (20_000, "refused 27, shares exactly m × H"),
    (40_000, "refused 27, no W = C"),
    (10_000, "refused 27, some W = C"),
    (10_000, "refused 27, and the buffer too short"),
    (30_000, "two sheets, solved with one tick more"),
    (15_000, "two sheets, solved with one tick more, and written"),
    (5_000, "refused 26, W = C − 1"),
    (5_000, "refused 26, W = 16 × T + 1"),
    (10_000, "refused 26, index above 0"),
    (5_000, "refused 7, and 26 after it"),
    (2_000, "refused 26, and 9 after it"),
    (1_000, "refused 26, and 10 after it"),
    (2_000, "refused 26, and 11 after it"),
    (1_000, "refused 9, and more than m cores asked for"),
    (1_000, "refused 9, and 11 after it"),
    (500, "refused 10, and 11 after it"),
    (5_000, "refused 11, and 27 after it"),
    (3_000, "refused 11, slack count n"),
    (2_000, "refused 11, slack count 1"),
    (3_000, "refused 11, another count"),
    (2_000, "refused 24, buffer empty"),
    (5_000, "refused 24, buffer one byte short"),
];

fn any_damaged(random: &mut Random) -> Vec<u8> {
    let make = random.pick(&[roomy_sheet, any_sheet, end_sheet, offering_sheet]);
    let sheet = make(random);
    damaged_table(random, sheet.bytes())
}

#[test]
fn many_sheets() {
    let mut tally = WishTally::default();
    for (seed, (sheets, make)) in (61..).zip(FAMILIES) {
        let mut random = Random::new(seed);
        for _ in 0..sheets {
            let sheet = make(&mut random);
            compare_wish(&mut random, &sheet, &mut tally);
        }
    }
    for (seed, (pairs, make)) in (71..).zip(EDGES) {
        let mut random = Random::new(seed);
        for _ in 0..pairs {
            let sheets = make(&mut random);
            compare_edge(&mut random, &sheets, &mut tally);
        }
    }
    tally.print();
    assert!(tally.sheets() >= 300_000, "{} sheets", tally.sheets());
    for number in (1..=7).chain([26, 28, 9, 10, 11, 27, 24]) {
        let met = tally.refused(number);
        assert!(met >= REFUSED_AT_LEAST, "refused {number}: {met} sheets");
    }
    // "Numbers 8, 12 and 13 don't arise on a sheet".
    for number in [8, 12, 13] {
        assert_eq!(tally.refused(number), 0, "refused {number}");
    }
    for (least, name) in AT_LEAST.into_iter().chain(EDITIONS_AT_LEAST) {
        let met = tally.named(name);
        assert!(met >= least, "{name}: {met} sheets");
    }
}

/// "wish sheets keep the old 5": loops no more than cores are refused, one more is not.
#[test]
fn sheets_with_few_loops() {
    let (random, mut tally) = (&mut Random::new(84), WishTally::default());
    for _ in 0..20_000 {
        let sheet = few_sheet(random).bytes();
        compare_wish(random, &sheet, &mut tally);
    }
    tally.print();
    assert_eq!(tally.named("refused 5, few loops"), tally.named("few loops"));
    for (least, name) in [(10_000, "refused 5, few loops"), (500, "accepted, n = m + 1")] {
        let met = tally.named(name);
        assert!(met >= least, "{name}: {met} sheets");
    }
}

#[test]
fn every_sheet_of_up_to_two_bytes_after_the_edition() {
    let mut random = Random::new(0);
    let mut tally = WishTally::default();
    compare_wish(&mut random, &[], &mut tally);
    for first in 0..=255 {
        compare_wish(&mut random, &[first], &mut tally);
        for edition in [1, 2] {
            compare_wish(&mut random, &[edition, first], &mut tally);
            for second in 0..=255 {
                compare_wish(&mut random, &[edition, first, second], &mut tally);
            }
        }
    }
    assert_eq!((tally.refused(1), tally.refused(2)), (255, 2 * (1 + 256 + 65_536)));
}

/// The sheets that take the most rounds, and those with the largest slack, in all forms.
#[test]
fn the_slowest_sheets() {
    let (random, mut tally) = (&mut Random::new(81), WishTally::default());
    for sheet in slow_sheets().into_iter().chain(deep_sheets()) {
        let length = 12 * sheet.tasks.len();
        let sheet = either(random, sheet);
        compare_wish_at(random, &sheet.bytes(), length, &mut tally);
    }
    tally.print();
    assert_eq!(tally.refused(27), 4);
    assert_eq!(tally.refused(27), tally.named("refused 27 after more than 500 rounds"));
    assert_eq!(tally.named("accepted"), 4);
    assert_eq!(tally.named("accepted"), tally.named("accepted after more than 500 rounds"));
}

#[test]
fn every_length_of_a_buffer() {
    let random = &mut Random::new(82);
    let p1 = Table::of(2, &[(10, 9, 29), (10, 9, 99), (100, 20, 90)]);
    let largest = with_deadlines(random, Table::of(8, &[(16, 8, 40); 16]));
    for (sheet, needed) in [(p1, 36), (largest, 192)] {
        let mut tally = WishTally::default();
        for length in 0..=needed + 13 {
            compare_wish_at(random, &sheet.bytes(), length, &mut tally);
        }
        assert_eq!(tally.refused(24), needed as u64);
        assert_eq!(tally.named("accepted, buffer exactly long enough"), 1);
        assert_eq!(tally.named("accepted, buffer longer"), 13);
    }
}

#[test]
fn tiny_sheets_by_trying_everything() {
    let random = &mut Random::new(83);
    let (mut with, mut without) = (0, 0);
    for _ in 0..5_000 {
        let sheet = tiny_sheet(random).bytes();
        let mut out = [0xee; 36];
        let answer = dahomike::wish(&sheet, &mut out);
        match wish_by_trying(&sheet) {
            Some(plan) => {
                with += 1;
                assert_eq!(answer, Ok(3), "{sheet:?}");
                assert_eq!(out[..], written(&plan), "{sheet:?}");
            }
            None => {
                without += 1;
                assert_eq!(answer, Err(Refusal::whole(27)), "{sheet:?}");
                assert_eq!(out, [0xee; 36], "{sheet:?}");
            }
        }
    }
    println!("{with} tiny sheets with a solution, {without} without one");
    assert!(with >= 1_000 && without >= 1_000, "{with} and {without} tiny sheets");
}

/// Offset, slack and bound of each loop.
fn written(plan: &Plan) -> Vec<u8> {
    let entry = |k: usize| {
        let bound = u32::try_from(plan.bound(k)).expect("a bound is at most its wish");
        [plan.tasks[k].offset, plan.slack[k], bound].map(u32::to_le_bytes).concat()
    };
    (0..plan.tasks.len()).flat_map(entry).collect()
}
