//! The proved sentences against the reference's on more than a million refusals, no two of which
//! have one sentence, and on buffers of every length; the same ones on every run.

use comparison::{SentenceTally, compare_lent, compare_lent_at, compare_sentences};
use dahomike::LONGEST_SENTENCE;
use samples::{
    LAST_NUMBER, Random, Told, cut_at_zeros, cut_elsewhere, exchanged, known_refusal,
    one_bit_apart, one_digit_apart, unknown_refusal,
};

/// How many refusals of known and of unknown numbers are made, beside those in pairs.
const KNOWN: usize = 250_000;
const UNKNOWN: usize = 100_000;

/// A way to make pairs of refusals that are near each other.
type Near = (&'static str, fn(&mut Random) -> [Told; 2]);

const NEAR: [Near; 5] = [
    ("near pairs, the same digits cut elsewhere", cut_elsewhere),
    ("near pairs, the same digits cut at zeros", cut_at_zeros),
    ("near pairs, one digit apart", one_digit_apart),
    ("near pairs, one bit apart", one_bit_apart),
    ("near pairs, two numbers exchanged", exchanged),
];

/// How many pairs of each kind are made, and how many of them differ, at least.
const PAIRS: usize = 150_000;
const PAIRS_AT_LEAST: usize = 100_000;

/// How often each of these is met, at least, by sentences and by buffers.
const AT_LEAST: [(u64, u64, &str); 17] = [
    (100_000, 10_000, "number unknown"),
    (10_000, 1_000, "number 0"),
    (500, 100, "number the first after the table"),
    (5_000, 500, "number 2^32 − 1"),
    (50_000, 5_000, "number unknown, its low byte known"),
    (100_000, 10_000, "index 0"),
    (100_000, 10_000, "index above 65,535"),
    (10_000, 1_000, "index 2^32 − 1"),
    (50_000, 5_000, "value 0"),
    (10_000, 1_000, "value 2^32"),
    (100_000, 10_000, "value above 2^32"),
    (10_000, 1_000, "value 2^64 − 1"),
    (0, 30_000, "refused 25"),
    (0, 3_000, "refused, buffer empty"),
    (0, 10_000, "refused, buffer one byte short"),
    (0, 30_000, "told, buffer exactly long enough"),
    (0, 30_000, "told, buffer longer"),
];

/// Pairs of one kind, each of two different refusals, and no pair twice.
fn pairs(random: &mut Random, (name, make): Near) -> Vec<[Told; 2]> {
    let mut pairs: Vec<[Told; 2]> = (0..PAIRS).map(|_| make(random)).collect();
    pairs.retain(|[told, other]| told != other);
    pairs.sort_unstable();
    pairs.dedup();
    println!("{:9} {name}", pairs.len());
    assert!(pairs.len() >= PAIRS_AT_LEAST, "{name}: {}", pairs.len());
    pairs
}

/// Refusals of every kind, none of them twice.
fn refusals() -> Vec<Told> {
    let random = &mut Random::new(41);
    let mut refusals: Vec<Told> = (0..KNOWN).map(|_| known_refusal(random)).collect();
    refusals.extend((0..UNKNOWN).map(|_| unknown_refusal(random)));
    for near in NEAR {
        refusals.extend(pairs(random, near).as_flattened());
    }
    refusals.sort_unstable();
    refusals.dedup();
    refusals
}

/// Prints a tally and holds it to how often each number of the table is to be met.
fn check_numbers(tally: &SentenceTally, least: u64) {
    tally.print();
    for number in 1..=LAST_NUMBER {
        let met = tally.number(number);
        assert!(met >= least, "number {number}: {met}");
    }
}

fn check_named(tally: &SentenceTally, least: u64, name: &'static str) {
    let met = tally.named(name);
    assert!(met >= least, "{name}: {met}");
}

#[test]
fn no_two_refusals_have_one_sentence() {
    let mut tally = SentenceTally::default();
    compare_sentences(&refusals(), &mut tally);
    assert!(tally.sentences() >= 1_000_000, "{} sentences", tally.sentences());
    check_numbers(&tally, 10_000);
    for (sentences, _, name) in AT_LEAST {
        check_named(&tally, sentences, name);
    }
}

/// Each number from 0 to just outside the table, and the largest, with the first and the last index
/// and value of each count of digits.
#[test]
fn every_number_with_every_count_of_digits() {
    let mut ends = vec![u64::from(u32::MAX), u64::MAX];
    for zeros in 0..20 {
        ends.extend([10u64.pow(zeros) - 1, 10u64.pow(zeros)]);
    }
    let mut refusals = Vec::new();
    for number in (0..=LAST_NUMBER + 2).chain([u32::MAX]) {
        for index in ends.iter().filter_map(|&end| u32::try_from(end).ok()) {
            refusals.extend(ends.iter().map(|&value| (number, index, value)));
        }
    }
    refusals.sort_unstable();
    refusals.dedup();
    compare_sentences(&refusals, &mut SentenceTally::default());
}

/// A refusal of any kind.
fn any_refusal(random: &mut Random) -> Told {
    match random.index(4) {
        0 => unknown_refusal(random),
        1 => random.pick(&NEAR).1(random)[0],
        _ => known_refusal(random),
    }
}

#[test]
fn buffers_around_what_is_needed() {
    let (random, mut tally) = (&mut Random::new(42), SentenceTally::default());
    for _ in 0..200_000 {
        let told = any_refusal(random);
        compare_lent(random, told, &mut tally);
    }
    check_numbers(&tally, 2_000);
    for (_, buffers, name) in AT_LEAST {
        check_named(&tally, buffers, name);
    }
    // No call is refused by another number.
    let told = tally.named("told, buffer exactly long enough") + tally.named("told, buffer longer");
    assert_eq!(tally.named("refused 25") + told, tally.sentences());
}

#[test]
fn every_length_of_a_buffer() {
    let random = &mut Random::new(43);
    let ends = (0..=LAST_NUMBER + 1).chain([u32::MAX]);
    for told in ends.flat_map(|number| [(number, 0, 0), (number, u32::MAX, u64::MAX)]) {
        let mut tally = SentenceTally::default();
        for length in 0..=LONGEST_SENTENCE + 2 {
            compare_lent_at(random, told, length, &mut tally);
        }
        let needed = reference::sentence(told.0, told.1, told.2).len() as u64;
        assert_eq!(tally.named("refused 25"), needed, "{told:?}");
        assert_eq!(tally.named("told, buffer exactly long enough"), 1, "{told:?}");
    }
}
