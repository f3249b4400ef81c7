//! Whether the words of a state fit and say a sound one: 18. Each word is tested in the range that
//! soundness gives it, so that words that do not fit fail with the others.

use crate::engine::Words;
use crate::heads::JOBS;
use crate::slack::{Ranking, Rates};
use crate::table::{BUDGET, Fields, SEPARATION, TASKS, cores_of, is_few, tasks_pass};
use records::layout;

pub const LAST_TICK: u32 = 4_000_000_000;

const CORES: usize = 8;

pub fn is_sound(words: &Words) -> bool {
    words[layout::CLOCK] <= LAST_TICK && places_sound(words) && table_sound(words)
}

/// T, C, Y and D of each of the sixteen tasks.
fn places(words: &Words) -> &[Fields] {
    words[layout::FIELDS].as_chunks().0
}

fn counts(words: &Words) -> (usize, usize) {
    (words[layout::CORES] as usize, words[layout::TASKS] as usize)
}

/// The edition, 3 to 13 and 28, and zeros in the table part's unused places.
fn table_sound(words: &Words) -> bool {
    let (edition, (cores, count)) = (words[layout::EDITION], counts(words));
    if !matches!(edition, 1 | 2) || cores > CORES || count > TASKS {
        return false;
    }
    let (labels, unused) = words[layout::LABELS].split_at(cores);
    let is_zero = |word: &u32| *word == 0;
    cores_of(labels).is_ok()
        && unused.iter().all(is_zero)
        && words[layout::SLACK][count..].iter().all(is_zero)
        && tasks_pass(places(words), count, edition)
        && slack_sound(words)
}

/// 9 to 13.
fn slack_sound(words: &Words) -> bool {
    let (cores, count) = counts(words);
    let tasks = &places(words)[..count];
    let Ok(rates) = Rates::of(tasks, cores) else {
        return false;
    };
    let slack = words[layout::SLACK].first_chunk().expect("sixteen tasks have slack");
    if is_few(cores, count) {
        // A bound is then a budget, which is no longer than its separation.
        return words[layout::OFFERED] == 0 && *slack == [0; TASKS];
    }
    let right = match words[layout::OFFERED] {
        0 => rates.found(&mut Ranking::new()).0 == *slack,
        1 => rates.test(slack).is_ok(),
        _ => false,
    };
    right && crate::bounds(tasks, slack, cores).is_ok()
}

/// The clauses of sound that look at jobs and releases.
fn places_sound(words: &Words) -> bool {
    let (_, count) = counts(words);
    let work = words[layout::REMAINING].as_chunks::<JOBS>().0;
    let release = words[layout::RELEASE].as_chunks::<JOBS>().0;
    let mut tasks = work.iter().zip(release).enumerate();
    tasks.all(|(i, (work, release))| task_sound(words, i, i < count, work, release))
}

fn task_sound(
    words: &Words,
    i: usize,
    known: bool,
    work: &[u32; JOBS],
    release: &[u32; JOBS],
) -> bool {
    let jobs = words[layout::JOBS][i] as usize;
    let (flag, last) = (words[layout::RELEASED][i], words[layout::LAST][i]);
    let flag_sound = match flag {
        0 => last == 0 && jobs == 0,
        1 => known && last <= words[layout::CLOCK],
        _ => false,
    };
    if !flag_sound || jobs > JOBS {
        return false;
    }
    let fields = &places(words)[i];
    let (separation, budget) = (fields[SEPARATION], fields[BUDGET]);
    let (used, unused) = release.split_at(jobs);
    let (work, no_work) = work.split_at(jobs);
    let apart = |pair: &[u32]| (pair[1] >= pair[0]) & (pair[1].wrapping_sub(pair[0]) >= separation);
    are_zero(unused)
        & are_zero(no_work)
        & all(work, |left| left.wrapping_sub(1) < budget)
        & used.windows(2).fold(true, |hold, pair| hold & apart(pair))
        & used.last().is_none_or(|newest| *newest == last)
}

fn are_zero(words: &[u32]) -> bool {
    words.iter().fold(0, |bits, word| bits | word) == 0
}

/// Goes over all words without an end before: in a sound state there is none.
fn all(words: &[u32], holds: impl Fn(u32) -> bool) -> bool {
    words.iter().fold(true, |hold, word| hold & holds(*word))
}
