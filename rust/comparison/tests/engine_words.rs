//! The engine's calls on words of every kind: each word of a sound state set to 0, to its limit, to
//! one above it, to the largest word and to 256 more than it was; and openings on tables of every
//! kind, whatever the words were before.

use std::collections::BTreeMap;

use comparison::{Call, EngineTally, compare_call};
use reference::{State, Words, open, words_of};
use samples::{
    FIELDS, Random, SETTINGS, accepted_plan, any_accepted, busy, damaged_table, faulty_table,
    few_plan, noise_table, offered, set_words, sound, table_with_bad_deadlines,
};

/// Plans of either kind, each with three states of which every word is set.
const PLANS: u64 = 12;

/// How often each word of a field is set to each setting, at least.
const SET_AT_LEAST: u64 = 50;

/// How often each of these is met, at least, by the set words.
const AT_LEAST: [(u64, &str); 6] = [
    (400, "refused 18, an edition above 255"),
    (300, "refused 18, an offered above 1"),
    (4_000, "refused 18, a label above 255"),
    (6_000, "refused 18, a flag above 1"),
    (500, "taken"),
    (10_000, "stepped"),
];

/// Calls on words that fail to fit or to be sound, at least.
const UNSOUND_AT_LEAST: u64 = 200_000;

/// How often the words are set, by field and setting.
type Set = BTreeMap<(&'static str, &'static str), u64>;

/// A release and a step on the state with each of its words set.
fn set_each(random: &mut Random, state: &State, tally: &mut EngineTally, met: &mut Set) {
    let task = random.index(state.count) as u32;
    for set in set_words(state) {
        *met.entry((set.field, set.setting)).or_default() += 1;
        tally.count_state();
        compare_call(&set.words, Call::Release(task, 1), tally);
        compare_call(&set.words, Call::Step, tally);
    }
}

#[test]
fn every_word_set() {
    let (mut random, mut tally, mut met) = (Random::new(7), EngineTally::default(), Set::new());
    for _ in 0..PLANS {
        for make in [accepted_plan, few_plan] {
            let plan = make(&mut random);
            for state in [open(&plan), sound(&mut random, &plan), busy(&mut random, &plan)] {
                set_each(&mut random, &state, &mut tally, &mut met);
            }
        }
    }
    tally.print();
    for field in FIELDS {
        for setting in SETTINGS {
            let count = met.get(&(field, setting)).copied().unwrap_or(0);
            println!("{count:9} {field} set to {setting}");
            assert!(count >= SET_AT_LEAST, "{field} set to {setting}: {count} words");
        }
    }
    assert!(tally.refused(18) >= UNSOUND_AT_LEAST, "refused 18: {}", tally.refused(18));
    for (least, name) in AT_LEAST {
        let count = tally.named(name);
        assert!(count >= least, "{name}: {count} calls");
    }
}

/// Openings of each kind of table.
const OPENINGS: u64 = 4_000;

/// How often an opening meets each of these numbers, at least.
const REFUSED_AT_LEAST: u64 = 20;

/// Words as an earlier use of the memory left them: noise, or a state with jobs.
fn earlier(random: &mut Random) -> Words {
    if random.once_in(2) {
        return std::array::from_fn(|_| random.bits() as u32);
    }
    let plan = accepted_plan(random);
    words_of(&busy(random, &plan))
}

#[test]
fn openings() {
    let (mut random, mut tally) = (Random::new(8), EngineTally::default());
    let makes = [any_accepted, offered, faulty_table, table_with_bad_deadlines];
    for _ in 0..OPENINGS {
        let mut tables: Vec<Vec<u8>> = makes.map(|make| make(&mut random).bytes()).to_vec();
        let whole = any_accepted(&mut random).bytes();
        tables.push(damaged_table(&mut random, whole));
        tables.push(noise_table(&mut random));
        for table in tables {
            let words = earlier(&mut random);
            compare_call(&words, Call::Open(&table), &mut tally);
        }
    }
    tally.print();
    assert!(tally.named("opened") >= OPENINGS);
    for number in (1..=13).chain([28]) {
        let met = tally.refused(number);
        assert!(met >= REFUSED_AT_LEAST, "refused {number}: {met} openings");
    }
}
