//! The wrapper on the sentences of refusals.

use dahomike::{LONGEST_SENTENCE, Refusal, sentence, sentence_into};

/// P1 of document 01 with a second budget of 11 is refused 7 at 1.
const BUDGET: &str = "Refusal 7 for loop 1: its budget must be at least 1 tick and at most its \
    separation, not 11.";

#[test]
fn a_sentence_has_number_index_and_value() {
    assert_eq!(sentence(7, 1, 11), BUDGET);
    let edition = "Refusal 1 for byte 0: the edition must be 1 or 2, in a conversion the one that \
        the table is not in, not 7.";
    assert_eq!(sentence(1, 0, 7), edition);
}

#[test]
fn a_number_outside_the_table_is_unknown() {
    let others = [(0, "0"), (99, "99"), (263, "263"), (u32::MAX, "4294967295")];
    for (number, digits) in others {
        let expected = format!(
            "Refusal {digits} for place 4: the meaning of this number is unknown here, and the \
             value found is 18446744073709551615."
        );
        assert_eq!(sentence(number, 4, u64::MAX), expected);
    }
}

#[test]
fn later_bytes_stay() {
    let mut out = [0xee; LONGEST_SENTENCE];
    assert_eq!(sentence_into(7, 1, 11, &mut out), Ok(BUDGET.len()));
    assert_eq!(out[..BUDGET.len()], *BUDGET.as_bytes());
    assert!(out[BUDGET.len()..].iter().all(|&byte| byte == 0xee));
}

#[test]
fn a_short_buffer_stays_as_it_is() {
    let mut out = [0xee; LONGEST_SENTENCE];
    let refused = Err(Refusal { number: 25, index: 0 });
    assert_eq!(sentence_into(7, 1, 11, &mut out[..BUDGET.len() - 1]), refused);
    assert_eq!(sentence_into(7, 1, 11, &mut []), refused);
    assert_eq!(out, [0xee; LONGEST_SENTENCE]);
}
