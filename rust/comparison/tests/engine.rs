//! The proved release and step against the reference on hundreds of thousands of states, the same
//! ones on every run.

use comparison::{EngineTally, compare_release, compare_step};
use reference::{Clause, Log, Plan, State, Table, Words, judge, open, state_in, words_of};
use samples::{
    LogKind, Random, accepted_plan, alike_plan, alike_short, busy, damaged_state, few_plan, sound,
    tied, tied_log,
};

/// How many plans, sound states of each, runs from an opening, and calls of each run.
const PLANS: u64 = 8_000;
const STATES: u64 = 8;
const RUNS: u64 = 500;
const CALLS: u64 = 200;

/// How often each refusal number is met, at least.
const REFUSED_AT_LEAST: u64 = 2_000;

/// How often a state breaks this clause and no other, at least.
const UNSOUND_AT_LEAST: u64 = 300;

/// How often each of these is met, at least.
const AT_LEAST: [(u64, &str); 40] = [
    (50_000, "taken or stepped, edition 1"),
    (50_000, "taken or stepped, edition 2"),
    (500, "refused 18, edition 0"),
    (500, "refused 18, edition 3"),
    (500, "refused 18, edition 255"),
    (1_000, "refused 18, edition 1, a deadline for each task"),
    (500, "refused 18, edition 1, a deadline for some tasks"),
    (300, "refused 18, edition 1, a deadline outside the table"),
    (1_000, "refused 18, edition 2, each D = 0"),
    (300, "refused 18, edition 2, some D = 0"),
    (300, "refused 18, edition 2, some D = 1,600,001"),
    (300, "refused 18, edition 2, a deadline outside the table"),
    (20_000, "taken"),
    (3_000, "taken, the task's first"),
    (3_000, "taken, exactly T after the last"),
    (5_000, "taken, demand C"),
    (200, "taken, into the last place"),
    (200, "taken, clock 3,999,999,999"),
    (500, "refused 20, task n"),
    (500, "refused 20, task 16 or above"),
    (200, "refused 20, where 21 is met too"),
    (500, "refused 21, demand 0"),
    (500, "refused 21, demand C + 1"),
    (500, "refused 21, where 23 is met too"),
    (500, "refused 22, one too early"),
    (500, "refused 22, where 23 is met too"),
    (50_000, "stepped"),
    (300, "stepped, nothing pending"),
    (5_000, "stepped, some cores idle"),
    (20_000, "stepped, every core runs"),
    (20_000, "stepped, some tasks wait"),
    (4_000, "stepped, of two equal points one waits"),
    (3_000, "stepped, of two equal points the older runs, a lower task waits"),
    (1_500, "stepped, of two equal points and releases one waits"),
    (4_000, "stepped, of two equal points the older of a higher task has the lower core"),
    (5_000, "stepped, of two equal points and releases both run"),
    (50, "stepped, 8 cores, all 256 places used"),
    (10_000, "stepped, a job finishes"),
    (5_000, "stepped, several jobs finish"),
    (1_000, "stepped to the clock's end"),
];

/// The same of plans with few tasks, that is no more than cores.
const FEW_PLANS: u64 = 2_000;
const FEW_RUNS: u64 = 100;

/// How often each of these is met, at least, by the states of these plans.
const FEW_AT_LEAST: [(u64, &str); 10] = [
    (80_000, "few tasks"),
    (20_000, "few tasks, stepped"),
    (8_000, "taken or stepped, few tasks, n = 1"),
    (6_000, "taken or stepped, few tasks, 1 < n < m"),
    (8_000, "taken or stepped, few tasks, n = m"),
    (5_000, "taken"),
    (2_000, "stepped, every core runs"),
    (1_000, "few tasks, refused 18, marked as offered, zeros"),
    (1_000, "few tasks, refused 18, marked as offered, some slack not 0"),
    (1_000, "few tasks, refused 18, some slack not 0"),
];

/// Plans of tasks alike, states of each with equal points, and logs with equal points on such plans.
const TIED_PLANS: u64 = 2_000;
const TIED_STATES: u64 = 8;
const TIED_LOGS: u64 = 500;

/// How often each of these is met, at least, by these states and along these logs.
const TIED_AT_LEAST: [(u64, u64, &str); 5] = [
    (8_000, 6_000, "stepped, of two equal points one waits"),
    (5_000, 3_000, "stepped, of two equal points the older runs, a lower task waits"),
    (5_000, 5_000, "stepped, of two equal points and releases one waits"),
    (6_000, 6_000, "stepped, of two equal points the older of a higher task has the lower core"),
    (8_000, 15_000, "stepped, of two equal points and releases both run"),
];

/// A release to try: of a task of the table mostly, with a demand around 1 to C.
fn any_release(random: &mut Random, state: &State) -> (u32, u32) {
    let task = match random.index(12) {
        0 => random.pick(&[state.count as u32, 15, 16, 255, 256, 65_536, u32::MAX]),
        _ => random.index(state.count.clamp(1, 16)) as u32,
    };
    let budget = state.tasks.get(task as usize).map_or(0, |entry| entry.budget);
    let demand = match random.index(16) {
        0 => 0,
        1 => budget.saturating_add(1),
        2 => u32::MAX,
        3..=6 => budget,
        _ => random.between(1, budget.max(1)),
    };
    (task, demand)
}

/// A release on the state and a step on it, and now and then several steps.
fn both_calls(random: &mut Random, state: &State, tally: &mut EngineTally) {
    tally.count_state();
    let (task, demand) = any_release(random, state);
    let mut words = words_of(state);
    compare_release(&words, task, demand, tally);
    let steps = if random.once_in(32) { 1 + random.index(24) } else { 1 };
    for _ in 0..steps {
        words = compare_step(&words, tally);
    }
}

/// Random calls from an opening on, each on the state that the one before it handed back.
fn run(random: &mut Random, plan: &Plan, tally: &mut EngineTally) {
    let mut words = words_of(&open(plan));
    let eager = u64::from(random.between(2, 5));
    for _ in 0..CALLS {
        tally.count_state();
        words = if random.once_in(eager) {
            compare_step(&words, tally)
        } else {
            let (task, demand) = any_release(random, &state_of(&words));
            compare_release(&words, task, demand, tally)
        };
    }
}

/// The calls of a log from an opening on, until nothing is pending.
fn run_along(log: &Log, plan: &Plan, tally: &mut EngineTally) {
    let mut words = words_of(&open(plan));
    for entry in &log.entries {
        while state_of(&words).clock < entry.tick {
            tally.count_state();
            words = compare_step(&words, tally);
        }
        tally.count_state();
        words = compare_release(&words, u32::from(entry.task), entry.demand, tally);
    }
    while state_of(&words).jobs.iter().any(|&jobs| jobs > 0) {
        tally.count_state();
        words = compare_step(&words, tally);
    }
}

fn state_of(words: &Words) -> State {
    state_in(words).expect("the words fit")
}

/// Calls on states of so many plans of this making, and so many runs.
fn compare_states(seed: u64, make: fn(&mut Random) -> Plan, plans: u64, runs: u64) -> EngineTally {
    let mut random = Random::new(seed);
    let mut tally = EngineTally::default();
    for _ in 0..plans {
        let plan = make(&mut random);
        for _ in 0..STATES {
            let state = sound(&mut random, &plan);
            both_calls(&mut random, &state, &mut tally);
            let state = damaged_state(&mut random, state);
            both_calls(&mut random, &state, &mut tally);
        }
        for make_state in [tied, busy] {
            let state = make_state(&mut random, &plan);
            both_calls(&mut random, &state, &mut tally);
        }
    }
    for _ in 0..runs {
        let plan = make(&mut random);
        run(&mut random, &plan, &mut tally);
    }
    tally.print();
    tally
}

#[test]
fn many_states() {
    check(&compare_states(3, accepted_plan, PLANS, RUNS));
}

#[test]
fn many_states_with_few_tasks() {
    let tally = compare_states(4, few_plan, FEW_PLANS, FEW_RUNS);
    for (least, name) in FEW_AT_LEAST {
        check_named(&tally, least, name);
    }
    // "the engine as it stands runs each loop with work at every step".
    let stepped = tally.named("few tasks, stepped");
    assert_eq!(tally.named("few tasks, stepped, each job runs"), stepped);
    assert_eq!(tally.named("stepped, some tasks wait"), 0);
}

#[test]
fn many_states_with_equal_points() {
    let (mut random, mut tally) = (Random::new(5), EngineTally::default());
    for _ in 0..TIED_PLANS {
        let plan = alike_plan(&mut random);
        for _ in 0..TIED_STATES {
            let state = tied(&mut random, &plan);
            both_calls(&mut random, &state, &mut tally);
        }
    }
    tally.print();
    for (least, _, name) in TIED_AT_LEAST {
        check_named(&tally, least, name);
    }
}

#[test]
fn logs_with_equal_points_step_by_step() {
    let (mut random, mut tally) = (Random::new(6), EngineTally::default());
    for _ in 0..TIED_LOGS {
        let table = alike_short(&mut random);
        let plan = judge(&table.bytes()).expect("the table is accepted");
        let log = tied_log(&mut random, &table, LogKind::Near);
        run_along(&log, &plan, &mut tally);
    }
    tally.print();
    for (_, least, name) in TIED_AT_LEAST {
        check_named(&tally, least, name);
    }
}

/// "In P2 a job of loop 1 released at 0 goes before one of loop 0 released at 5, both with priority
/// point 10."
#[test]
fn p2_by_age() {
    let mut tally = EngineTally::default();
    let table = Table::of(2, &[(10, 9, 5), (10, 9, 10), (100, 20, 90)]);
    let mut words = words_of(&open(&judge(&table.bytes()).expect("P2 is accepted")));
    words = compare_release(&words, 1, 9, &mut tally);
    for _ in 0..5 {
        words = compare_step(&words, &mut tally);
    }
    words = compare_release(&words, 0, 9, &mut tally);
    compare_step(&words, &mut tally);
    let name = "stepped, of two equal points the older of a higher task has the lower core";
    assert_eq!(tally.named(name), 1);
}

fn check_named(tally: &EngineTally, least: u64, name: &'static str) {
    let met = tally.named(name);
    assert!(met >= least, "{name}: {met} calls");
}

fn check(tally: &EngineTally) {
    assert!(tally.states() >= 200_000);
    for number in 18..=23 {
        let met = tally.refused(number);
        assert!(met >= REFUSED_AT_LEAST, "refused {number}: {met} calls");
    }
    for (least, name) in AT_LEAST {
        check_named(tally, least, name);
    }
    // A pending release after the clock makes the last taken release be after it too.
    let future = vec![Clause::ReleaseAfterClock, Clause::LastAfterClock];
    let mut broken = vec![future];
    let alone = [
        Clause::Table,
        Clause::Jobs,
        Clause::UnusedInTable,
        Clause::UnusedPlace,
        Clause::TickWithoutRelease,
        Clause::Clock,
        Clause::Apart,
        Clause::Work,
        Clause::LastAfterClock,
        Clause::Newest,
    ];
    broken.extend(alone.map(|clause| vec![clause]));
    for clauses in broken {
        let met = tally.unsound(&clauses);
        assert!(met >= UNSOUND_AT_LEAST, "broken {clauses:?}: {met} calls");
    }
}
