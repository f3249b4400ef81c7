//! Sentences by the proved code and the reference.

use crate::SentenceTally;
use crate::lent::{Lent, same_bytes};
use dahomike::LONGEST_SENTENCE;
use samples::{LAST_NUMBER, Random, Told};
use std::collections::HashMap;
use std::str::FromStr;

/// Has each of these refusals, none of which is there twice, told in both ways, and holds the
/// sentences to what document 02 says: "two refusals that differ in any of these, unknown ones too,
/// never give the same sentence".
pub fn compare_sentences(refusals: &[Told], tally: &mut SentenceTally) {
    let mut told_by = HashMap::with_capacity(refusals.len());
    for &told in refusals {
        let (number, index, value) = told;
        let sentence = dahomike::sentence(number, index, value);
        assert_eq!(sentence, reference::sentence(number, index, value), "{told:?}");
        check(told, &sentence);
        tally.count(told);
        if let Some(other) = told_by.insert(sentence, told) {
            panic!("{other:?} and {told:?} have one sentence");
        }
    }
}

/// What holds of a sentence by itself.
fn check(told: Told, sentence: &str) {
    let in_one_line = sentence.bytes().all(|byte| (b' '..=b'~').contains(&byte));
    assert!(in_one_line, "not one line of ASCII: {sentence:?}");
    let stop = sentence.find('.');
    assert_eq!(stop, sentence.len().checked_sub(1), "its full stop: {sentence:?}");
    assert!(sentence.len() <= LONGEST_SENTENCE, "too long: {sentence:?}");
    assert_eq!(read(sentence), Some(told), "its numbers: {sentence:?}");
    let known = (1..=LAST_NUMBER).contains(&told.0);
    assert_eq!(sentence.contains("unknown"), !known, "the word unknown: {sentence:?}");
}

/// Number, index and value read back: the first two numbers of a sentence and its last.
fn read(sentence: &str) -> Option<Told> {
    let mut numbers = sentence.split(|letter: char| !letter.is_ascii_digit());
    let mut next = || numbers.find(|digits| !digits.is_empty());
    let (number, index) = (decimal(next()?)?, decimal(next()?)?);
    let value = decimal(numbers.rfind(|digits| !digits.is_empty())?)?;
    Some((number, index, value))
}

/// The number that is written so: none where a zero is at its head or it does not fit.
fn decimal<N: FromStr + ToString>(digits: &str) -> Option<N> {
    digits.parse().ok().filter(|number: &N| number.to_string() == digits)
}

/// Has a refusal told in both ways to a buffer of about as many bytes as needed.
pub fn compare_lent(random: &mut Random, told: Told, tally: &mut SentenceTally) {
    let (number, index, value) = told;
    let needed = reference::sentence(number, index, value).len();
    let lent = Lent::new(random, needed, 40);
    compare_in(told, lent, tally);
}

/// The same with a buffer of this length.
pub fn compare_lent_at(random: &mut Random, told: Told, length: usize, tally: &mut SentenceTally) {
    let lent = Lent::of_length(random, length);
    compare_in(told, lent, tally);
}

fn compare_in(told: Told, lent: Lent, tally: &mut SentenceTally) {
    let (number, index, value) = told;
    let (mut expected, mut by_proved) = (lent.clone(), lent.clone());

    let answer = reference::sentence_into(number, index, value, expected.buffer());
    let proved = dahomike::sentence_into(number, index, value, by_proved.buffer());

    let length = expected.buffer().len();
    assert_eq!(proved, answer, "buffer of {length} bytes, {told:?}");
    same_bytes("proved", &by_proved, &expected, &told);
    if answer.is_err() {
        same_bytes("a refused call", &by_proved, &lent, &told);
    }
    tally.count_lent(told, answer, length);
}
