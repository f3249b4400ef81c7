//! The words of a state with one of them set: to 0, to the limit of its field, to one above it, to
//! the largest word, and to 256 more than it was, which has the same low byte.

use reference::{LAST_TICK, MOST_JOBS, State, Words, words_of};

use crate::editions::LONGEST_DEADLINE;

/// Words of which one was set: the field that it belongs to and what it was set to, in words.
pub struct SetWord {
    pub field: &'static str,
    pub setting: &'static str,
    pub words: Words,
}

/// What a word is set to.
pub const SETTINGS: [&str; 5] =
    ["0", "its limit", "one above its limit", "the largest word", "256 more"];

/// The fields of a state. Labels and the edition have two limits: what a byte holds, and what
/// document 01 says.
pub const FIELDS: [&str; 18] = [
    "edition, as a byte",
    "edition",
    "offered",
    "cores",
    "loops",
    "label, as a byte",
    "label",
    "T",
    "C",
    "Y",
    "D",
    "slack",
    "clock",
    "jobs",
    "flag",
    "last release",
    "remaining work",
    "release tick",
];

/// Every word of the state set to each of the settings.
pub fn set_words(state: &State) -> impl Iterator<Item = SetWord> {
    let words = words_of(state);
    limits(state).into_iter().flat_map(move |(place, field, limit)| {
        let more = words[place].wrapping_add(256);
        let values = [0, limit, limit.saturating_add(1), u32::MAX, more];
        SETTINGS.into_iter().zip(values).map(move |(setting, value)| {
            let mut words = words;
            words[place] = value;
            SetWord { field, setting, words }
        })
    })
}

/// The place of each word, its field and its limit in this state.
fn limits(state: &State) -> Vec<(usize, &'static str, u32)> {
    let mut limits = vec![
        (0, "edition, as a byte", 255),
        (0, "edition", 2),
        (1, "offered", 1),
        (2, "cores", 8),
        (3, "loops", 16),
        (92, "clock", LAST_TICK),
    ];
    for core in 0..8 {
        limits.push((4 + core, "label, as a byte", 255));
        limits.push((4 + core, "label", 63));
    }
    (0..16).for_each(|task| limits.extend(limits_of(state, task)));
    limits
}

/// The words of one task. Slack is at its limit where the bound is 16 × T.
fn limits_of(state: &State, task: usize) -> Vec<(usize, &'static str, u32)> {
    let entry = state.tasks[task];
    let most = (16 * entry.separation).saturating_sub(entry.offset + entry.budget);
    let mut limits = vec![
        (12 + 4 * task, "T", 100_000),
        (13 + 4 * task, "C", entry.separation),
        (14 + 4 * task, "Y", entry.separation),
        (15 + 4 * task, "D", LONGEST_DEADLINE),
        (76 + task, "slack", most),
        (93 + task, "jobs", MOST_JOBS as u32),
        (109 + task, "flag", 1),
        (125 + task, "last release", state.clock),
    ];
    for place in MOST_JOBS * task..MOST_JOBS * (task + 1) {
        limits.push((141 + place, "remaining work", entry.budget));
        limits.push((397 + place, "release tick", state.clock));
    }
    limits
}
