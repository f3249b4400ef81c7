//! Document 02, §8: "Among equal priority points the earlier release now runs first, and the lower
//! loop only if these are equal too." In the engine and in the log run; P10, which "doesn't
//! change", is in `engine.rs` and `log.rs`.

use reference::{
    Entry, IDLE, Job, Log, Outcome, Plan, State, Table, broken, heads, judge, open, outcomes,
    release, set_queue, step,
};

/// Loops as (T, C, Y).
const P2: [(u32, u32, u32); 3] = [(10, 9, 5), (10, 9, 10), (100, 20, 90)];

/// The third loop keeps one of the two cores, and the others contend for the other.
const CONTENDING: [(u32, u32, u32); 3] = [(10, 2, 5), (10, 9, 10), (10, 9, 0)];

/// The plan of these loops on the cores 0 and 1.
fn plan(loops: &[(u32, u32, u32)]) -> Plan {
    judge(&Table::of(2, loops).bytes()).expect("the table is accepted")
}

/// The finish ticks of a log with entries as (tick, loop, demand), all of them taken.
fn finish_ticks(loops: &[(u32, u32, u32)], log: &[(u32, u8, u32)]) -> Vec<u64> {
    let entries = log.iter().map(|&(tick, task, demand)| Entry { tick, task, demand }).collect();
    let finish = |outcome| match outcome {
        Outcome::Finished(tick) => tick,
        Outcome::Refused(number) => panic!("an entry is refused {number}"),
    };
    outcomes(&plan(loops), &Log { entries }).into_iter().map(finish).collect()
}

/// The loops that run in each tick from 0 on, in the order of the cores, until nothing is pending.
fn runs(loops: &[(u32, u32, u32)], log: &[(u32, u8, u32)]) -> Vec<Vec<u8>> {
    let mut state = open(&plan(loops));
    let (mut left, mut runs) = (log, Vec::new());
    while !left.is_empty() || state.jobs.iter().any(|&jobs| jobs > 0) {
        while let [(tick, task, demand), later @ ..] = left
            && *tick == state.clock
        {
            state = taken(&state, usize::from(*task), *demand);
            left = later;
        }
        let stepped = step(&state);
        assert_eq!(stepped.answer, Ok(()));
        let on_cores = stepped.report.runs.into_iter().filter(|&task| task != IDLE);
        runs.push(on_cores.collect());
        state = stepped.state;
    }
    runs
}

fn taken(state: &State, task: usize, demand: u32) -> State {
    let released = release(state, task, demand);
    assert_eq!(released.answer, Ok(()));
    released.state
}

#[test]
fn p2_a_job_of_loop_1_released_at_0_goes_before_one_of_loop_0_released_at_5() {
    let log = [(0, 1, 9), (5, 0, 9)];
    let runs = runs(&P2, &log);
    assert_eq!(runs[..5], [[1]; 5]);
    assert_eq!(runs[5..9], [[1, 0]; 4]);
    assert_eq!(runs[9..], [[0]; 5]);
    assert_eq!(finish_ticks(&P2, &log), [9, 14]);
}

#[test]
fn p2_with_one_core_for_both() {
    // The third loop's point is 90: from tick 5 on it waits for a core.
    let log = [(0, 1, 9), (0, 2, 20), (5, 0, 9)];
    assert_eq!(finish_ticks(&P2, &log), [9, 24, 14]);
    // With the offset 0 it keeps one core, and the other two contend for the other.
    let loops = [P2[0], P2[1], (100, 20, 0)];
    assert_eq!(finish_ticks(&loops, &log), [9, 20, 18]);
}

#[test]
fn the_earlier_release_of_the_higher_loop_finishes_first() {
    let log = [(0, 1, 9), (0, 2, 9), (5, 0, 2)];
    assert_eq!(finish_ticks(&CONTENDING, &log), [9, 9, 11]);
    let runs = runs(&CONTENDING, &log);
    assert_eq!(runs[..9], [[2, 1]; 9]);
    assert_eq!(runs[9..], [[0]; 2]);
}

#[test]
fn an_earlier_point_still_goes_before_an_earlier_release() {
    // Loop 0 released at 4 has point 9, below the 10 of loop 1, which was released at 0.
    let log = [(0, 1, 9), (0, 2, 9), (4, 0, 2)];
    assert_eq!(finish_ticks(&CONTENDING, &log), [11, 9, 6]);
    // Released at 6 it has point 11.
    let log = [(0, 1, 9), (0, 2, 9), (6, 0, 2)];
    assert_eq!(finish_ticks(&CONTENDING, &log), [9, 9, 11]);
}

#[test]
fn equal_releases_too_go_by_the_lower_loop() {
    // Loops 0, 1 and 2 alike, released together, their entries from the highest loop down.
    let loops = [(10, 4, 7), (10, 4, 7), (10, 4, 7)];
    let log = [(3, 2, 4), (3, 1, 4), (3, 0, 4)];
    assert_eq!(finish_ticks(&loops, &log), [11, 7, 7]);
    let runs = runs(&loops, &log);
    assert_eq!(runs[3..7], [[0, 1]; 4]);
    assert_eq!(runs[7..], [[2]; 4]);
}

#[test]
fn equal_points_by_age_and_then_by_loop() {
    // All points are 20. Releases: loops 1 and 4 at 8, loop 3 at 10, loops 0 and 2 at 15.
    let loops = [(20, 6, 5), (20, 6, 12), (20, 6, 5), (20, 6, 10), (20, 6, 12)];
    let releases = [15, 8, 15, 10, 8];
    let mut state = open(&plan(&loops));
    state.clock = 15;
    for (task, release) in releases.into_iter().enumerate() {
        set_queue(&mut state, task, &[Job { release, remaining: 1 }]);
        (state.released[task], state.last[task]) = (true, release);
    }
    assert_eq!(broken(&state), []);
    let order: Vec<usize> = heads(&state).into_iter().map(|head| head.task).collect();
    assert_eq!(order, [1, 4, 3, 0, 2]);
    let mut ran = Vec::new();
    for _ in 0..3 {
        let stepped = step(&state);
        ran.extend(stepped.report.runs.into_iter().filter(|&task| task != IDLE));
        state = stepped.state;
    }
    assert_eq!(ran, [1, 4, 3, 0, 2]);
}

#[test]
fn a_job_is_as_old_as_its_release_and_not_as_its_turn() {
    // Loop 1's second job, released at 10, has the point 20, and so has loop 0's, released at 15.
    // It goes before that though it is loop 1's oldest only from tick 17.
    let loops = [(20, 3, 5), (10, 9, 10), (20, 3, 0)];
    let mut state = open(&plan(&loops));
    state.clock = 16;
    let jobs = [Job { release: 0, remaining: 1 }, Job { release: 10, remaining: 2 }];
    set_queue(&mut state, 1, &jobs);
    set_queue(&mut state, 0, &[Job { release: 15, remaining: 3 }]);
    set_queue(&mut state, 2, &[Job { release: 16, remaining: 3 }]);
    for (task, last) in [15, 10, 16].into_iter().enumerate() {
        (state.released[task], state.last[task]) = (true, last);
    }
    assert_eq!(broken(&state), []);
    let mut runs = Vec::new();
    for _ in 0..5 {
        let stepped = step(&state);
        runs.push([stepped.report.runs[0], stepped.report.runs[1]]);
        state = stepped.state;
    }
    assert_eq!(runs, [[1, 2], [2, 1], [2, 1], [0, IDLE], [0, IDLE]]);
}
