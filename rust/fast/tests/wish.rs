//! The two forms of a wish, with leaps and round by round, against each other: on sheets of all
//! kinds and on the slowest that were found. They are compared with the reference in `comparison`.

use fast::{wish_by_rounds_into, wish_into, wish_rounds};
use reference::Table;
use samples::{
    Random, any_sheet, deep_sheets, edge_sheets, end_sheet, faulty_sheet, offering_sheet,
    roomy_sheet, slow_sheets, tight_edge_sheets, tight_sheet,
};

/// A way to make sheets, and how many times it makes them.
type Family = (u64, fn(&mut Random) -> Vec<Table>);

const FAMILIES: [Family; 8] = [
    (10_000, |random| vec![roomy_sheet(random)]),
    (10_000, |random| vec![any_sheet(random)]),
    (20_000, |random| vec![tight_sheet(random)]),
    (5_000, |random| vec![end_sheet(random)]),
    (5_000, |random| vec![faulty_sheet(random)]),
    (2_000, |random| vec![offering_sheet(random)]),
    (5_000, |random| edge_sheets(random).to_vec()),
    (20_000, |random| tight_edge_sheets(random).to_vec()),
];

/// How many sheets had a solution or none, each after so many rounds that there were leaps.
#[derive(Default)]
struct Leapt {
    with: u32,
    without: u32,
}

impl Leapt {
    fn compare(&mut self, sheet: &Table) {
        let bytes = sheet.bytes();
        let (mut leaping, mut by_rounds) = ([0xee; 200], [0xee; 200]);
        let answer = wish_into(&bytes, &mut leaping);
        assert_eq!(wish_by_rounds_into(&bytes, &mut by_rounds), answer, "{sheet:?}");
        assert_eq!(leaping, by_rounds, "{sheet:?}");
        if wish_rounds(&bytes).is_ok_and(|rounds| rounds > 64) {
            *(if answer.is_ok() { &mut self.with } else { &mut self.without }) += 1;
        }
    }
}

#[test]
fn sheets_of_all_kinds() {
    let mut leapt = Leapt::default();
    for (seed, (times, make)) in (91..).zip(FAMILIES) {
        let mut random = Random::new(seed);
        for _ in 0..times {
            make(&mut random).iter().for_each(|sheet| leapt.compare(sheet));
        }
    }
    let Leapt { with, without } = leapt;
    println!("{with} sheets with a solution and {without} without one took more than 64 rounds");
    assert!(with >= 5_000 && without >= 5_000, "{with} and {without} sheets");
}

#[test]
fn the_slowest_sheets() {
    let mut leapt = Leapt::default();
    for sheet in slow_sheets() {
        let rounds = wish_rounds(&sheet.bytes());
        assert!(rounds.is_ok_and(|rounds| rounds >= 150_000), "{rounds:?}: {sheet:?}");
        leapt.compare(&sheet);
    }
    assert_eq!((leapt.with, leapt.without), (3, 3));
}

#[test]
fn the_largest_slack() {
    let mut leapt = Leapt::default();
    let [unsolved, solved] = deep_sheets();
    leapt.compare(&unsolved);
    leapt.compare(&solved);
    assert_eq!((leapt.with, leapt.without), (1, 1));
    let mut out = [0; 108];
    assert_eq!(wish_into(&solved.bytes(), &mut out), Ok(9));
    assert_eq!(out[..12], [0, 699_000, 799_000].map(u32::to_le_bytes).concat());
    assert_eq!(out[96..], [0, 705_313, 754_813].map(u32::to_le_bytes).concat());
}
