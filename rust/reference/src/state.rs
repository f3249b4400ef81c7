//! The engine's state, and document 01's "A state is *sound* if …", clause by clause.

use crate::{Plan, Table, judge};
use records::Task;

/// The engine's state with every place of it, used or not, so that any state can be handed over:
/// places 16 × i to 16 × i + 15 are those of task i, oldest job first.
#[derive(Clone, Debug, PartialEq, Eq)]
pub struct State {
    /// The edition of the table part: 1, or 2 with deadlines.
    pub edition: u8,
    /// Whether slack was offered.
    pub offered: bool,
    /// m.
    pub cores: usize,
    /// n.
    pub count: usize,
    pub labels: [u8; 8],
    pub tasks: [Task; 16],
    pub slack: [u32; 16],
    pub clock: u32,
    /// How many unfinished jobs each task holds.
    pub jobs: [usize; 16],
    /// Whether a release of the task was taken, and the last taken one's tick.
    pub released: [bool; 16],
    pub last: [u32; 16],
    pub remaining: [u32; 256],
    pub release: [u32; 256],
}

/// "its clock is at most 4,000,000,000"
pub const LAST_TICK: u32 = 4_000_000_000;

/// "A loop holds at most 16 unfinished jobs".
pub const MOST_JOBS: usize = 16;

/// An unfinished job.
#[derive(Clone, Copy, Debug, PartialEq, Eq)]
pub struct Job {
    pub release: u32,
    pub remaining: u32,
}

/// The jobs of a task, oldest first; at most its sixteen places: "the state keeps all 256 job places
/// in one flat record".
pub fn queue(state: &State, task: usize) -> Vec<Job> {
    let used = state.jobs[task].min(MOST_JOBS);
    let job = |place| Job { release: state.release[place], remaining: state.remaining[place] };
    (0..used).map(|place| job(MOST_JOBS * task + place)).collect()
}

/// The jobs of a task replaced, with zeros in the places that they do not use.
pub fn set_queue(state: &mut State, task: usize, jobs: &[Job]) {
    state.jobs[task] = jobs.len();
    for place in 0..MOST_JOBS {
        let job = jobs.get(place).copied().unwrap_or(Job { release: 0, remaining: 0 });
        state.release[MOST_JOBS * task + place] = job.release;
        state.remaining[MOST_JOBS * task + place] = job.remaining;
    }
}

/// The tasks that are in the table.
pub fn known(state: &State) -> std::ops::Range<usize> {
    0..state.count.min(16)
}

/// The clauses of the sentence, in its order.
#[derive(Clone, Copy, Debug, PartialEq, Eq, PartialOrd, Ord)]
pub enum Clause {
    Table,
    Jobs,
    UnusedInTable,
    UnusedPlace,
    TickWithoutRelease,
    Clock,
    Apart,
    ReleaseAfterClock,
    Work,
    LastAfterClock,
    Newest,
}

type Holds = fn(&State) -> bool;

const CLAUSES: [(Clause, Holds); 11] = [
    (Clause::Table, table_passes),
    (Clause::Jobs, |state| state.jobs.iter().all(|&jobs| jobs <= MOST_JOBS)),
    (Clause::UnusedInTable, table_is_tidy),
    (Clause::UnusedPlace, places_are_tidy),
    (Clause::TickWithoutRelease, |state| every(|i| state.released[i] || state.last[i] == 0)),
    (Clause::Clock, |state| state.clock <= LAST_TICK),
    (Clause::Apart, releases_are_apart),
    (Clause::ReleaseAfterClock, |state| every_job(state, |_, job| job.release <= state.clock)),
    (Clause::Work, |state| {
        every_job(state, |i, job| (1..=state.tasks[i].budget).contains(&job.remaining))
    }),
    (Clause::LastAfterClock, |state| every(|i| state.last[i] <= state.clock)),
    (Clause::Newest, last_is_newest),
];

/// The clauses that do not hold of a state; none of a sound one.
pub fn broken(state: &State) -> Vec<Clause> {
    CLAUSES.iter().filter(|(_, holds)| !holds(state)).map(|(clause, _)| *clause).collect()
}

fn every(holds: impl Fn(usize) -> bool) -> bool {
    (0..16).all(holds)
}

fn every_job(state: &State, holds: impl Fn(usize, Job) -> bool) -> bool {
    every(|i| queue(state, i).into_iter().all(|job| holds(i, job)))
}

/// "its table part passes 3 to 13"; "A plan marked as found meets 12 where its slack differs from
/// the found one […]; a state's table part fails likewise". "a plan of another edition meets 1 too,
/// a state of one 18", and 28 is tested "in plans and states too". So with few loops a state that
/// is marked as offered fails by 11, and one marked as found by 12 where some slack is not 0.
fn table_passes(state: &State) -> bool {
    match table_part(state).map(|table| judge(&table.bytes())) {
        Some(Ok(plan)) => plan.slack == state.slack[..state.count],
        _ => false,
    }
}

/// The used entries of the table part, where there are places for so many.
fn table_part(state: &State) -> Option<Table> {
    let labels = state.labels.get(..state.cores)?.to_vec();
    let offer = state.slack.get(..state.count)?;
    let tasks = state.tasks.get(..state.count)?.to_vec();
    let slack = if state.offered { offer.to_vec() } else { Vec::new() };
    Some(Table { edition: state.edition, labels, tasks, slack })
}

/// "every unused place, also in the table part, is zero": those in the table part. "The loop record
/// gains the deadline, an unused place in edition 1".
fn table_is_tidy(state: &State) -> bool {
    let zero = Task::new(0, 0, 0);
    let labels = state.labels.iter().skip(state.cores).all(|&label| label == 0);
    let unused = |i: usize| i < state.count || state.tasks[i] == zero && state.slack[i] == 0;
    let deadlines = state.edition != 1 || every(|i| state.tasks[i].deadline == 0);
    labels && every(unused) && deadlines
}

/// The other unused places: those without a job, and all that a task outside the table has.
fn places_are_tidy(state: &State) -> bool {
    every(|i| {
        let places = MOST_JOBS * i + state.jobs[i].min(MOST_JOBS)..MOST_JOBS * (i + 1);
        let known = known(state).contains(&i);
        let empty = places.into_iter().all(|k| state.release[k] == 0 && state.remaining[k] == 0);
        empty && (known || (state.jobs[i] == 0 && !state.released[i]))
    })
}

/// "each loop's pending releases rise by at least T", so that they stand "oldest first".
fn releases_are_apart(state: &State) -> bool {
    every(|i| {
        let separation = u64::from(state.tasks[i].separation);
        let apart =
            |pair: &[Job]| u64::from(pair[0].release) + separation <= u64::from(pair[1].release);
        queue(state, i).windows(2).all(apart)
    })
}

/// "the last taken release (a flag says if there is one) […] is the newest pending one where any is
/// pending".
fn last_is_newest(state: &State) -> bool {
    every(|i| match queue(state, i).last() {
        Some(newest) => state.released[i] && state.last[i] == newest.release,
        None => true,
    })
}

/// "The engine is opened on a plan […] at tick 0 with nothing pending"; unused places are zeros.
pub fn open(plan: &Plan) -> State {
    let mut state = State {
        edition: plan.edition,
        offered: plan.offered,
        cores: plan.labels.len(),
        count: plan.tasks.len(),
        labels: [0; 8],
        tasks: [Task::new(0, 0, 0); 16],
        slack: [0; 16],
        clock: 0,
        jobs: [0; 16],
        released: [false; 16],
        last: [0; 16],
        remaining: [0; 256],
        release: [0; 256],
    };
    state.labels[..plan.labels.len()].copy_from_slice(&plan.labels);
    state.tasks[..plan.tasks.len()].copy_from_slice(&plan.tasks);
    state.slack[..plan.tasks.len()].copy_from_slice(&plan.slack);
    state
}
