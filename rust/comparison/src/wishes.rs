//! One wish sheet by the proved code, the reference and the two fast forms.

use crate::WishTally;
use crate::lent::{Held, Lent, same_bytes};
use crate::tables::Answer;
use reference::{Refusal, Table};
use samples::Random;

/// A form of the call, and its name.
type Form = (&'static str, fn(&[u8], &mut [u8]) -> Answer);

/// The forms that are compared with the reference.
const FORMS: [Form; 3] = [
    ("proved", dahomike::wish),
    ("fast", fast::wish_into),
    ("fast, by rounds", fast::wish_by_rounds_into),
];

/// Has a sheet's wishes answered in all forms, with a buffer of about as many bytes as needed, and
/// counts what it met.
pub fn compare_wish(random: &mut Random, sheet: &[u8], tally: &mut WishTally) {
    let lent = lent_for(random, sheet);
    let _ = compare_in(random, sheet, &lent, tally);
}

/// The same with a buffer of this length.
pub fn compare_wish_at(random: &mut Random, sheet: &[u8], length: usize, tally: &mut WishTally) {
    let lent = Lent::of_length(random, length);
    let _ = compare_in(random, sheet, &lent, tally);
}

/// Two sheets that differ by one tick of one wish, without a solution and with one.
pub fn compare_edge(random: &mut Random, sheets: &[Table; 2], tally: &mut WishTally) {
    let answers = sheets.each_ref().map(|sheet| {
        let bytes = sheet.bytes();
        let lent = lent_for(random, &bytes);
        compare_in(random, &bytes, &lent, tally)
    });
    assert_eq!(answers[0], Err(Refusal::whole(27)), "no edge: {sheets:?}");
    // Where there is a solution, only the buffer can be refused.
    let solved = answers[1].is_ok() || answers[1] == Err(Refusal::whole(24));
    assert!(solved, "no edge: {sheets:?}, {answers:?}");
    tally.count_edge(answers[1]);
}

/// A buffer of about as many bytes as the answer to a sheet needs.
fn lent_for(random: &mut Random, sheet: &[u8]) -> Lent {
    let tasks = Table::read(sheet).map_or(3, |sheet| sheet.tasks.len());
    Lent::new(random, 12 * tasks.min(16), 40)
}

/// Has the wishes answered in all forms, each with a copy of this buffer. The answer comes back.
fn compare_in(random: &mut Random, sheet: &[u8], lent: &Lent, tally: &mut WishTally) -> Answer {
    let held = Held::new(random, sheet);
    let mut expected = lent.clone();
    let answer = reference::wish_into(held.part(), expected.buffer());
    let length = expected.buffer().len();
    for (name, form) in FORMS {
        let mut by_form = lent.clone();
        let by_this = form(held.part(), by_form.buffer());
        assert_eq!(by_this, answer, "{name}, buffer of {length} bytes, sheet {sheet:?}");
        same_bytes(name, &by_form, &expected, &[sheet]);
    }
    assert!(held.is_unchanged(), "the sheet itself was written to: {sheet:?}");
    match answer {
        Ok(tasks) => check(sheet, &expected.buffer()[..12 * tasks]),
        Err(_) => same_bytes("a refused call", &expected, lent, &[sheet]),
    }
    tally.count(sheet, answer, expected.buffer());
    answer
}

/// What document 02 says of a solution by itself: "whole offsets 0 to T [..] with Y + x + C at most
/// W for every loop", and "The plan found, with its slack left out, is accepted by the judge with
/// the same slack."
fn check(sheet: &[u8], out: &[u8]) {
    let wished = Table::read(sheet).expect("the sheet is accepted");
    let mut table = wished.clone();
    let mut expected = Vec::new();
    for (k, entry) in out.chunks(12).enumerate() {
        let [offset, slack, bound] = numbers(entry);
        let task = &mut table.tasks[k];
        let wish = task.offset;
        assert!(offset <= task.separation, "offset {offset} of loop {k} of {wished:?}");
        assert_eq!(bound, offset + slack + task.budget, "bound of loop {k} of {wished:?}");
        assert!(bound <= wish, "bound {bound} of loop {k} of {wished:?}");
        task.offset = offset;
        expected.extend([slack.to_le_bytes(), bound.to_le_bytes()].concat());
    }
    let mut judged = vec![0; expected.len()];
    let answer = dahomike::judge(&table.bytes(), &mut judged);
    assert_eq!(answer, Ok(table.tasks.len()), "the judge on the plan of {wished:?}");
    assert_eq!(judged, expected, "the judge's slack and bounds for the plan of {wished:?}");
}

/// Offset, slack and bound of an answer's entry of 12 bytes.
pub fn numbers(entry: &[u8]) -> [u32; 3] {
    let number = |at: usize| {
        entry[at..at + 4].iter().rev().fold(0, |high, &byte| high * 256 + u32::from(byte))
    };
    [number(0), number(4), number(8)]
}
