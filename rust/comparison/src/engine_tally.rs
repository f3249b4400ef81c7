//! What the compared releases and steps met, so that a run can show that it was not empty.

use crate::counts::Counts;
use crate::engine::{Call, Left};
use crate::few_names::has_few;
use crate::ties::Ties;
use reference::{
    Clause, Head, IDLE, LAST_TICK, MOST_JOBS, Refusal, Report, State, Words, broken, heads, known,
    state_in,
};

/// How many states and calls were compared, how many calls met each refusal number, how many were
/// on a state that breaks just these clauses of soundness, and how many lay at an edge, by a name
/// that says which.
#[derive(Default)]
pub struct EngineTally {
    states: u64,
    calls: u64,
    refused: Counts<u32>,
    unsound: Counts<Vec<Clause>>,
    named: Counts<&'static str>,
}

impl EngineTally {
    /// A state on which a release, a step or both are compared.
    pub fn count_state(&mut self) {
        self.states += 1;
    }

    /// All states that were counted.
    pub fn states(&self) -> u64 {
        self.states
    }

    /// Those that met this refusal number.
    pub fn refused(&self, number: u32) -> u64 {
        self.refused.of(&number)
    }

    /// Those on a state that breaks just these clauses.
    pub fn unsound(&self, clauses: &Vec<Clause>) -> u64 {
        self.unsound.of(clauses)
    }

    /// All calls.
    pub fn calls(&self) -> u64 {
        self.calls
    }

    /// Those of this name.
    pub fn named(&self, name: &'static str) -> u64 {
        self.named.of(&name)
    }

    pub fn print(&self) {
        println!("{} states, {} calls", self.states, self.calls);
        self.refused.print("refused ");
        for (clauses, count) in self.unsound.iter().filter(|(clauses, _)| clauses.len() <= 2) {
            println!("{count:9} refused 18, broken: {clauses:?}");
        }
        self.named.print("");
    }

    /// A call on these words, by what it left.
    pub(crate) fn count_call(&mut self, words: &Words, call: Call, left: &Left) {
        self.calls += 1;
        if let Err(Refusal { number, .. }) = left.answer {
            self.refused.count(number);
        }
        match (call, state_in(words)) {
            (Call::Open(_), _) => self.named.count_if(left.answer.is_ok(), "opened"),
            (_, None) => self.count_unfit(words),
            (Call::Release(task, demand), Some(state)) => {
                self.count(&state, left.answer);
                self.count_release(&state, task as usize, demand, left.answer);
            }
            (Call::Step, Some(state)) => {
                self.count(&state, left.answer);
                if left.answer.is_ok() {
                    self.count_step(&state, &left.report);
                }
            }
        }
    }

    /// By each field that a word does not fit.
    fn count_unfit(&mut self, words: &Words) {
        let above =
            |places: std::ops::Range<usize>, limit| words[places].iter().any(|&word| word > limit);
        self.named.count_if(above(0..1, 255), "refused 18, an edition above 255");
        self.named.count_if(above(1..2, 1), "refused 18, an offered above 1");
        self.named.count_if(above(4..12, 255), "refused 18, a label above 255");
        self.named.count_if(above(109..125, 1), "refused 18, a flag above 1");
    }

    fn count_release(
        &mut self,
        state: &State,
        task: usize,
        demand: u32,
        answer: Result<(), Refusal>,
    ) {
        match answer {
            Ok(()) => {
                let entry = state.tasks[task];
                let exact = state.clock - state.last[task] == entry.separation;
                self.named.count_if(true, "taken");
                self.named.count_if(!state.released[task], "taken, the task's first");
                self.named
                    .count_if(state.released[task] && exact, "taken, exactly T after the last");
                self.named.count_if(demand == entry.budget, "taken, demand C");
                self.named
                    .count_if(state.jobs[task] == MOST_JOBS - 1, "taken, into the last place");
                self.named.count_if(state.clock == LAST_TICK - 1, "taken, clock 3,999,999,999");
            }
            Err(Refusal { number: 20, .. }) => {
                self.named.count_if(task == state.count, "refused 20, task n");
                self.named.count_if(task >= 16, "refused 20, task 16 or above");
                self.named.count_if(demand == 0, "refused 20, where 21 is met too");
            }
            Err(Refusal { number: 21, .. }) => {
                self.named.count_if(demand == 0, "refused 21, demand 0");
                self.named
                    .count_if(demand == state.tasks[task].budget + 1, "refused 21, demand C + 1");
                self.named
                    .count_if(state.jobs[task] == MOST_JOBS, "refused 21, where 23 is met too");
            }
            Err(Refusal { number: 22, .. }) => {
                let ago = state.clock - state.last[task];
                self.named
                    .count_if(ago + 1 == state.tasks[task].separation, "refused 22, one too early");
                self.named
                    .count_if(state.jobs[task] == MOST_JOBS, "refused 22, where 23 is met too");
            }
            Err(_) => {}
        }
    }

    fn count_step(&mut self, state: &State, report: &Report) {
        let running = report.runs.iter().filter(|&&task| task != IDLE).count();
        let finished = report.responses.iter().filter(|&&ticks| ticks != 0).count();
        let heads = heads(state);
        let full = state.jobs.iter().all(|&jobs| jobs == MOST_JOBS);
        self.named.count_if(true, "stepped");
        self.named.count_if(running == 0, "stepped, nothing pending");
        self.named.count_if(0 < running && running < state.cores, "stepped, some cores idle");
        self.named.count_if(running == state.cores, "stepped, every core runs");
        self.named.count_if(heads.len() > state.cores, "stepped, some tasks wait");
        self.named.count_if(full && state.cores == 8, "stepped, 8 cores, all 256 places used");
        self.named.count_if(finished > 0, "stepped, a job finishes");
        self.named.count_if(finished > 1, "stepped, several jobs finish");
        self.named.count_if(state.clock == LAST_TICK - 1, "stepped to the clock's end");
        let few = has_few(state.cores, state.count);
        self.named.count_if(few, "few tasks, stepped");
        self.named.count_if(few && running == heads.len(), "few tasks, stepped, each job runs");
        self.count_ties(&heads, state.cores);
    }

    fn count_ties(&mut self, heads: &[Head], cores: usize) {
        let mut ties = Ties::default();
        ties.look(heads, cores);
        let names = [
            (ties.one_waits, "stepped, of two equal points one waits"),
            (
                ties.one_waits_by_release,
                "stepped, of two equal points the older runs, a lower task waits",
            ),
            (ties.one_waits_by_loop, "stepped, of two equal points and releases one waits"),
            (
                ties.both_run_by_release,
                "stepped, of two equal points the older of a higher task has the lower core",
            ),
            (ties.both_run_by_loop, "stepped, of two equal points and releases both run"),
        ];
        for (met, name) in names {
            self.named.count_if(met, name);
        }
    }

    fn count(&mut self, state: &State, answer: Result<(), Refusal>) {
        let taken = answer.is_ok();
        self.named.count_if(taken && state.edition == 1, "taken or stepped, edition 1");
        self.named.count_if(taken && state.edition == 2, "taken or stepped, edition 2");
        self.named.count_if(has_few(state.cores, state.count), "few tasks");
        if taken && let Some(name) = few_name(state) {
            self.named.count(name);
        }
        if let Err(Refusal { number: 18, .. }) = answer {
            self.unsound.count(broken(state));
            for name in [edition_name(state), mark_name(state)].into_iter().flatten() {
                self.named.count(name);
            }
        }
    }
}

fn few_name(state: &State) -> Option<&'static str> {
    match (state.count, state.cores) {
        (1, _) => Some("taken or stepped, few tasks, n = 1"),
        (tasks, cores) if tasks < cores => Some("taken or stepped, few tasks, 1 < n < m"),
        (tasks, cores) if tasks == cores => Some("taken or stepped, few tasks, n = m"),
        _ => None,
    }
}

/// What is wrong with the mark or the slack of a state with few tasks, where nothing else is.
fn mark_name(state: &State) -> Option<&'static str> {
    let mut mended = state.clone();
    (mended.offered, mended.slack) = (false, [0; 16]);
    let zeros = mended.slack == state.slack;
    if !has_few(state.cores, state.count) || !broken(&mended).is_empty() {
        return None;
    }
    Some(match (state.offered, zeros) {
        (true, true) => "few tasks, refused 18, marked as offered, zeros",
        (true, false) => "few tasks, refused 18, marked as offered, some slack not 0",
        (false, _) => "few tasks, refused 18, some slack not 0",
    })
}

/// What is wrong with the edition or the deadlines of a state, where nothing else is.
fn edition_name(state: &State) -> Option<&'static str> {
    let mut mended = state.clone();
    mended.edition = 1;
    mended.tasks.iter_mut().for_each(|task| task.deadline = 0);
    if !broken(&mended).is_empty() {
        return None;
    }
    let deadlines = state.tasks.map(|task| task.deadline);
    let (used, unused) = deadlines.split_at(known(state).end);
    let some = |deadlines: &[u32]| deadlines.iter().any(|&deadline| deadline != 0);
    let name = match state.edition {
        0 => "refused 18, edition 0",
        1 if !used.contains(&0) => "refused 18, edition 1, a deadline for each task",
        1 if some(used) => "refused 18, edition 1, a deadline for some tasks",
        1 => "refused 18, edition 1, a deadline outside the table",
        2 if !some(used) => "refused 18, edition 2, each D = 0",
        2 if used.contains(&0) => "refused 18, edition 2, some D = 0",
        2 if used.contains(&1_600_001) => "refused 18, edition 2, some D = 1,600,001",
        2 if some(unused) => "refused 18, edition 2, a deadline outside the table",
        3 => "refused 18, edition 3",
        255 => "refused 18, edition 255",
        _ => return None,
    };
    Some(name)
}
