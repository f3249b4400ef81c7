//! P10 and P11 of document 01, and the order of a release's refusals.

use reference::{
    IDLE, Job, LAST_TICK, Plan, Refusal, State, Table, judge, open, release, set_queue, step,
};

/// The plan of P3 with this offset as its third, on the cores 0 and 1.
fn p3(third_offset: u32) -> Plan {
    let table = Table::of(2, &[(2, 1, 2), (2, 1, 2), (3, 3, third_offset)]);
    judge(&table.bytes()).expect("P3 is accepted")
}

fn taken(state: &State, task: usize, demand: u32) -> State {
    let released = release(state, task, demand);
    assert_eq!(released.answer, Ok(()));
    released.state
}

fn number(state: &State, task: usize, demand: u32) -> u32 {
    let released = release(state, task, demand);
    assert_eq!(released.state, *state, "a refused release hands back the state handed in");
    released.answer.expect_err("the release is refused").number
}

/// The finish tick of each task of P3, all released at tick 0 with full budgets.
fn finish_ticks(third_offset: u32) -> [u32; 3] {
    let mut state = open(&p3(third_offset));
    for (task, demand) in [1, 1, 3].into_iter().enumerate() {
        state = taken(&state, task, demand);
    }
    let mut finish = [0; 3];
    while state.jobs.iter().any(|&jobs| jobs > 0) {
        let stepped = step(&state);
        assert_eq!(stepped.answer, Ok(()));
        state = stepped.state;
        for (task, tick) in finish.iter_mut().enumerate() {
            if stepped.report.responses[task] > 0 {
                *tick = state.clock;
            }
        }
    }
    finish
}

#[test]
fn p10_finishes_as_the_document_says() {
    assert_eq!(finish_ticks(0), [1, 2, 3]);
    assert_eq!(finish_ticks(3), [1, 1, 4]);
}

#[test]
fn p10_names_the_tasks_in_the_order_of_their_points() {
    let mut state = open(&p3(0));
    for (task, demand) in [1, 1, 3].into_iter().enumerate() {
        state = taken(&state, task, demand);
    }
    let first = step(&state);
    assert_eq!(first.report.runs[..3], [2, 0, IDLE]);
    let second = step(&first.state);
    assert_eq!(second.report.runs[..3], [2, 1, IDLE]);
    assert_eq!(step(&second.state).report.runs[..3], [2, IDLE, IDLE]);
}

#[test]
fn p11_refuses_what_comes_too_soon() {
    let state = taken(&open(&p3(0)), 0, 1);
    let state = step(&state).state;
    assert_eq!(number(&state, 0, 1), 22);
    taken(&step(&state).state, 0, 1);
}

#[test]
fn a_release_meets_the_first_number() {
    let mut state = open(&p3(0));
    state.clock = 100;
    let jobs: Vec<Job> = (0..16).map(|k| Job { release: 69 + 2 * k, remaining: 1 }).collect();
    set_queue(&mut state, 0, &jobs);
    (state.released[0], state.last[0]) = (true, 99);
    assert_eq!(number(&state, 3, 0), 20);
    assert_eq!(number(&state, 0, 0), 21);
    assert_eq!(number(&state, 0, 2), 21);
    assert_eq!(number(&state, 0, 1), 22);
    state.clock = 101;
    assert_eq!(number(&state, 0, 1), 23);
    state.clock = LAST_TICK;
    assert_eq!(number(&state, 3, 0), 19);
    assert_eq!(step(&state).answer, Err(Refusal::whole(19)));
    state.clock = LAST_TICK + 1;
    assert_eq!(number(&state, 3, 0), 18);
}
