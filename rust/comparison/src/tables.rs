//! One judgement by the proved code, the reference and the fast form, and the names of the loops
//! that it counted.

use crate::TableTally;
use crate::lent::{Held, Lent, same_bytes};
use reference::{Refusal, Table, is_few};
use samples::Random;

/// How many tasks were judged or named, or the refusal.
pub type Answer = Result<usize, Refusal>;

/// A call over a table and a lent buffer.
type Form = fn(&[u8], &mut [u8]) -> Answer;

/// One call in its three forms.
struct Call {
    name: &'static str,
    reference: Form,
    proved: Form,
    fast: Form,
}

const JUDGE: Call = Call {
    name: "judge",
    reference: reference::judge_into,
    proved: dahomike::judge,
    fast: fast::judge,
};

const COUNTED: Call = Call {
    name: "counted",
    reference: reference::counted_into,
    proved: dahomike::counted,
    fast: fast::counted,
};

/// How many bytes a lent buffer has at most.
const LONGEST: usize = 300;

/// Judges one table and has its counted loops named, both in all three ways, and counts what it met.
pub fn compare_table(random: &mut Random, table: &[u8], tally: &mut TableTally) {
    let sections = Table::read(table);
    let (cores, tasks) =
        sections.map_or((2, 3), |table| (table.labels.len().max(1), table.tasks.len()));
    let (answer, mut lent) = compare(random, table, 8 * tasks.min(16), &JUDGE);
    tally.count(table, answer, lent.buffer());
    let names = if is_few(cores, tasks) { 0 } else { cores.min(8) - 1 };
    let (answer, mut lent) = compare(random, table, names, &COUNTED);
    tally.count_names(table, answer, lent.buffer());
}

/// Makes a call in all three ways, with a buffer of about as many bytes as needed. The answer and
/// the buffer after the call come back.
fn compare(random: &mut Random, table: &[u8], needed: usize, call: &Call) -> (Answer, Lent) {
    let mut expected = Lent::new(random, needed, LONGEST - needed);
    let (mut by_proved, mut by_fast) = (expected.clone(), expected.clone());
    let held = Held::new(random, table);

    let answer = (call.reference)(held.part(), expected.buffer());
    let proved = (call.proved)(held.part(), by_proved.buffer());
    let fast = (call.fast)(held.part(), by_fast.buffer());

    let (name, length) = (call.name, expected.buffer().len());
    assert_eq!(proved, answer, "proved {name}, buffer of {length} bytes, table {table:?}");
    assert_eq!(fast, answer, "fast {name}, buffer of {length} bytes, table {table:?}");
    same_bytes("proved", &by_proved, &expected, &[table]);
    same_bytes("fast", &by_fast, &expected, &[table]);
    assert!(held.is_unchanged(), "the table itself was written to: {table:?}");
    (answer, expected)
}
