//! The lines that a case prints.

use dahomike_engine::layout::{
    CLOCK, CORES, EDITION, FIELDS, JOBS, LABELS, LAST, RELEASE, RELEASED, REMAINING, SLACK, TASKS,
    WORDS,
};
use dahomike_engine::{Refusal, Report};

type State = [u32; WORDS];

/// Lines that were printed.
pub struct Lines(String);

impl Lines {
    pub fn new() -> Lines {
        Lines(String::new())
    }

    pub fn text(&self) -> &str {
        &self.0
    }

    pub fn say(&mut self, line: String) {
        self.0 += &line;
        self.0.push('\n');
    }

    fn fact(&mut self, words: &str, holds: bool) {
        self.say(fact(words, holds));
    }

    /// The first lines of a case: the call and its name, and what the call answers.
    pub fn case(&mut self, call: &str, name: &str, answer: Result<(), Refusal>) {
        self.say(format!("case {call} {name}"));
        match answer {
            Ok(()) => self.say(format!("{call} accepted")),
            Err(_) => self.say(format!("{call} refused {}", met(answer))),
        }
    }
}

pub fn fact(words: &str, holds: bool) -> String {
    format!("{words} {}", if holds { "yes" } else { "no" })
}

/// An answer within a line.
pub fn met(answer: Result<(), Refusal>) -> String {
    match answer {
        Ok(()) => "accepted".to_string(),
        Err(Refusal { number, index }) => format!("{number} at {index}"),
    }
}

fn numbers<N: ToString>(words: &str, numbers: &[N]) -> String {
    let each: Vec<String> = numbers.iter().map(N::to_string).collect();
    format!("{words} {}", each.join(" "))
}

pub fn report(lines: &mut Lines, report: &Report) {
    lines.say(numbers("runs", &report.runs));
    lines.say(numbers("responses", &report.responses));
}

/// What a release or a step left: the state, or that it is the one handed in.
pub fn left(lines: &mut Lines, answer: Result<(), Refusal>, before: &State, after: &State) {
    if answer.is_err() {
        lines.fact("the state is the one handed in", before == after);
        return;
    }
    lines.say(format!("clock {}", after[CLOCK]));
    for task in (0..16).filter(|&task| after[RELEASED][task] == 1) {
        lines.say(task_line(after, task));
    }
    lines.fact("unused job places are zero", unused_zero(after));
    lines.fact("the table part is the one handed in", before[..CLOCK] == after[..CLOCK]);
}

/// A task's last taken release and its jobs, oldest first.
fn task_line(state: &State, task: usize) -> String {
    let mut line = format!("loop {task} last {}", state[LAST][task]);
    for place in (16 * task..).take(state[JOBS][task] as usize) {
        let (release, work) = (state[RELEASE][place], state[REMAINING][place]);
        line += &format!(", released {release} left {work}");
    }
    line
}

fn unused_zero(state: &State) -> bool {
    let unused = |place: &usize| place % 16 >= state[JOBS][place / 16] as usize;
    let zero = |place| state[RELEASE][place] == 0 && state[REMAINING][place] == 0;
    (0..256).filter(unused).all(zero)
}

/// What an opening left: the words of the table's entries, and that all others are zero.
pub fn opened(lines: &mut Lines, answer: Result<(), Refusal>, before: &State, after: &State) {
    if answer.is_err() {
        lines.fact("every word stays", before == after);
        return;
    }
    let (cores, tasks) = (after[CORES] as usize, after[TASKS] as usize);
    lines.say(numbers("words 0 to 3", &after[EDITION..=TASKS]));
    lines.say(numbers("labels", &after[LABELS][..cores]));
    let (fields, others) = after[FIELDS].split_at(4 * tasks);
    for (task, fields) in fields.chunks(4).enumerate() {
        lines.say(numbers(&format!("loop {task}"), fields));
    }
    lines.say(numbers("slack", &after[SLACK][..tasks]));
    let unused = [&after[LABELS][cores..], others, &after[SLACK][tasks..], &after[CLOCK..]];
    lines.fact("the other words are 0", unused.concat().iter().all(|&word| word == 0));
}
