//! States and logs in which priority points are often equal: a step and a log run against the
//! reference. With the proved code they are compared in `comparison`.

mod both;

use both::compare_log;
use records::Report;
use reference::{State, step_words, words_of};
use samples::{LogKind, Random, alike_plan, alike_short, tied, tied_log};

/// Whether of two heads with equal points one runs since it was released earlier, though its task is
/// the higher; and whether one runs since its task is the lower, their releases being equal.
fn decided(state: &State) -> (bool, bool) {
    let heads = reference::heads(state);
    let (running, waiting) = heads.split_at(state.cores.min(heads.len()));
    let pairs =
        || running.iter().flat_map(|first| waiting.iter().map(move |second| (first, second)));
    let tied = || pairs().filter(|(first, second)| first.point == second.point);
    let by_release =
        tied().any(|(first, second)| first.release < second.release && first.task > second.task);
    (by_release, tied().any(|(first, second)| first.release == second.release))
}

#[test]
fn states() {
    let random = &mut Random::new(161);
    let (mut by_release, mut by_task) = (0, 0);
    for _ in 0..10_000 {
        let plan = alike_plan(random);
        let state = tied(random, &plan);
        let (mut stepped, mut expected) = (words_of(&state), words_of(&state));
        let mut report = Report::IDLE;
        assert_eq!(fast::step(&mut stepped, &mut report), Ok(()), "{state:?}");
        assert_eq!(Ok(report), step_words(&mut expected), "{state:?}");
        assert_eq!(stepped, expected, "{state:?}");
        let decided = decided(&state);
        by_release += u32::from(decided.0);
        by_task += u32::from(decided.1);
    }
    assert!(by_release >= 3_000 && by_task >= 3_000, "{by_release} by release, {by_task} by task");
}

#[test]
fn logs() {
    let random = &mut Random::new(162);
    for _ in 0..4_000 {
        let table = alike_short(random);
        let log = tied_log(random, &table, LogKind::Near);
        compare_log(&table, &log);
    }
}
