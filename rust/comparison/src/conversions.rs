//! One conversion by the proved code, the reference and the fast form, and what document 02 says of
//! a table and the converted one.

use crate::ConversionTally;
use crate::lent::{Held, Lent, same_bytes};
use crate::tables::Answer;
use reference::{Plan, Table};
use samples::Random;

/// A form of the call, and its name.
type Form = (&'static str, fn(&[u8], u32, &mut [u8]) -> Answer);

/// The forms that are compared with the reference.
const FORMS: [Form; 2] = [("proved", dahomike::convert), ("fast", fast::convert)];

/// Converts a table to the wanted edition in all forms, with a buffer of about as many bytes as
/// needed, and back where that is not refused; and counts what both calls met.
pub fn compare_conversion(
    random: &mut Random,
    table: &[u8],
    wanted: u32,
    tally: &mut ConversionTally,
) {
    let needed = Table::read(table).map_or(54, |table| needed(&table, wanted));
    let lent = Lent::new(random, needed, 40);
    compare_there_and_back(random, table, wanted, lent, tally);
}

/// The same with a buffer of this length.
pub fn compare_conversion_at(
    random: &mut Random,
    table: &[u8],
    wanted: u32,
    length: usize,
    tally: &mut ConversionTally,
) {
    let lent = Lent::of_length(random, length);
    compare_there_and_back(random, table, wanted, lent, tally);
}

/// How many bytes a table has in the wanted edition.
pub fn needed(table: &Table, wanted: u32) -> usize {
    let size = if wanted == 2 { 16 } else { 12 };
    4 + table.labels.len() + size * table.tasks.len() + 4 * table.slack.len()
}

/// "there and back gives the first bytes".
fn compare_there_and_back(
    random: &mut Random,
    table: &[u8],
    wanted: u32,
    lent: Lent,
    tally: &mut ConversionTally,
) {
    let Some(converted) = compare_in(random, table, wanted, lent, tally) else {
        return;
    };
    compare_sides(table, &converted);
    let room = table.len() + random.index(3);
    let lent = Lent::of_length(random, room);
    let back = compare_in(random, &converted, u32::from(table[0]), lent, tally);
    assert_eq!(back.as_deref(), Some(table), "there and back");
    tally.count_back(table[0]);
}

/// Converts in all forms, each with a copy of this buffer. The converted bytes come back, if the
/// call is not refused.
fn compare_in(
    random: &mut Random,
    table: &[u8],
    wanted: u32,
    lent: Lent,
    tally: &mut ConversionTally,
) -> Option<Vec<u8>> {
    let held = Held::new(random, table);
    let mut expected = lent.clone();
    let answer = reference::convert_into(held.part(), wanted, expected.buffer());
    let length = expected.buffer().len();
    for (name, form) in FORMS {
        let mut by_form = lent.clone();
        let by_this = form(held.part(), wanted, by_form.buffer());
        assert_eq!(by_this, answer, "{name}, to {wanted}, {length} bytes lent, table {table:?}");
        same_bytes(name, &by_form, &expected, &(table, wanted));
    }
    assert!(held.is_unchanged(), "the table itself was written to: {table:?}");
    if answer.is_err() {
        same_bytes("a refused call", &expected, &lent, &(table, wanted));
    }
    tally.count(table, wanted, answer, length);
    answer.ok().map(|written| expected.buffer()[..written].to_vec())
}

/// "Both sides have the same slack, bounds and late": what the proved judgement answers, writes and
/// names is the same, and the reference's plans differ in edition and deadlines alone.
fn compare_sides(table: &[u8], converted: &[u8]) {
    let sides = [table, converted].map(|side| {
        let (mut judged, mut named) = ([0; 130], [0; 9]);
        let answers = (dahomike::judge(side, &mut judged), dahomike::counted(side, &mut named));
        (answers, judged, named)
    });
    assert!(sides[0].0.0.is_ok(), "a converted table is accepted: {table:?}");
    assert_eq!(sides[0], sides[1], "the proved judgement of {table:?} and {converted:?}");
    let [one, two] =
        [table, converted].map(|side| reference::judge(side).expect("both are accepted"));
    assert_eq!(one.edition + two.edition, 3, "the editions of {table:?} and {converted:?}");
    assert_eq!((&one.labels, &one.slack, one.offered), (&two.labels, &two.slack, two.offered));
    let figures = |plan: &Plan, k: usize| {
        let task = &plan.tasks[k];
        (task.separation, task.budget, task.offset, plan.bound(k), plan.late(k))
    };
    for k in 0..one.tasks.len() {
        assert_eq!(figures(&one, k), figures(&two, k), "loop {k} of {table:?}");
    }
}
