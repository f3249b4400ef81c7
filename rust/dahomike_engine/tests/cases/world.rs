//! What the lines of a script have made so far, and what each line does to it.

use dahomike_engine::layout::{
    CLOCK, CORES, EDITION, FIELDS, JOBS, LABELS, LAST, OFFERED, RELEASE, RELEASED, REMAINING,
    SLACK, TASKS, WORDS,
};
use dahomike_engine::{Engine, Report};

use crate::show::{self, Lines};
use crate::words::Words;

/// The words of the table part are those before the clock.
const PLAN: usize = CLOCK;

/// The report that is lent where it must stay as it is: what no step says.
const LENT: Report = Report { runs: [0xee; 8], responses: [0xeeee_eeee; 16] };

/// A table in the making, a plan as the words of a state's table part, and a state.
pub struct World {
    table: Vec<u8>,
    plan: [u32; PLAN],
    state: [u32; WORDS],
    lines: Lines,
}

impl World {
    pub fn new() -> World {
        World { table: vec![], plan: [0; PLAN], state: [0; WORDS], lines: Lines::new() }
    }

    pub fn printed(&self) -> &str {
        self.lines.text()
    }

    /// Does what a line says: what it is about, what is done to it, and numbers.
    pub fn act(&mut self, line: &str) {
        let mut words = Words(line);
        let (about, what) = (words.word(), words.word());
        match about {
            "table" => self.table_line(what, &mut words),
            "plan" => self.plan_line(what, &mut words),
            "state" => self.state_line(what, &mut words),
            "call" => self.call_line(what, &mut words),
            _ => panic!("not understood: {line}"),
        }
    }

    fn table_line(&mut self, what: &str, words: &mut Words) {
        match what {
            "new" => self.table.clear(),
            "bytes" => {}
            "numbers" => {
                let numbers = words.numbers();
                self.table.extend(numbers.iter().flat_map(|number| number.to_le_bytes()));
            }
            "loops" => {
                let count = words.index();
                let fields = words.numbers().repeat(count);
                self.table.extend(fields.iter().flat_map(|field| field.to_le_bytes()));
            }
            _ => panic!("not understood: table {what}"),
        }
        let bytes = words.numbers().into_iter();
        self.table.extend(bytes.map(|byte| u8::try_from(byte).expect("a byte")));
    }

    fn plan_line(&mut self, what: &str, words: &mut Words) {
        if what == "judged" {
            // A table that is refused gives a plan of zeros.
            let opened = Engine::open(&self.table);
            self.plan = opened.map_or([0; PLAN], |engine| first(engine.words()));
            return;
        }
        let place = match what {
            "edition" => EDITION,
            "offered" => OFFERED,
            "cores" => CORES,
            "loops" => TASKS,
            "label" => LABELS.start + words.index(),
            "loop" | "deadline" => FIELDS.start + 4 * words.index(),
            "slack" => SLACK.start + words.index(),
            _ => panic!("not understood: plan {what}"),
        };
        match what {
            "loop" => self.plan[place..place + 3].copy_from_slice(&words.some::<3>()),
            "deadline" => self.plan[place + 3] = words.number(),
            _ => self.plan[place] = words.number(),
        }
    }

    fn state_line(&mut self, what: &str, words: &mut Words) {
        match what {
            "opened" => self.opened(),
            "zeros" => self.state = [0; WORDS],
            "plan" => self.state[..PLAN].copy_from_slice(&self.plan),
            "busy" => self.busy(),
            "full" => self.full(),
            "clock" => self.state[CLOCK] = words.number(),
            "jobs" => self.set(JOBS.start + words.index(), words.number()),
            "last" => self.last(words.index(), words.some()),
            "place" => self.place(words.index(), words.some()),
            "one" => self.one(words.index(), words.some()),
            "two" => self.two(words.index(), words.some(), words.some()),
            "release" => self.release(words.number(), words.number()),
            "word" => self.set(words.index(), words.number()),
            "fill" => self.state.fill(words.number()),
            _ => panic!("not understood: state {what}"),
        }
    }

    fn set(&mut self, place: usize, word: u32) {
        self.state[place] = word;
    }

    /// The plan as a call opens it: at tick 0 with nothing pending.
    fn opened(&mut self) {
        self.state = [0; WORDS];
        self.state[..PLAN].copy_from_slice(&self.plan);
        let answer = Engine::from_words(self.state).step();
        assert!(answer.is_ok(), "this plan cannot be opened");
    }

    /// The flag of a taken release and the last one's tick.
    fn last(&mut self, task: usize, [flag, tick]: [u32; 2]) {
        self.state[RELEASED][task] = flag;
        self.state[LAST][task] = tick;
    }

    /// Release and work of one of the 256 job places.
    fn place(&mut self, place: usize, [release, work]: [u32; 2]) {
        self.state[RELEASE][place] = release;
        self.state[REMAINING][place] = work;
    }

    /// A task that holds one job: its release and its work.
    fn one(&mut self, task: usize, job: [u32; 2]) {
        self.last(task, [1, job[0]]);
        self.state[JOBS][task] = 1;
        self.place(16 * task, job);
    }

    /// A task that holds two jobs.
    fn two(&mut self, task: usize, older: [u32; 2], newer: [u32; 2]) {
        self.one(task, older);
        self.last(task, [1, newer[0]]);
        self.state[JOBS][task] = 2;
        self.place(16 * task + 1, newer);
    }

    /// The plan at tick 50: two jobs of loop 0, one of loop 1, none of loop 2, whose last release
    /// was at 20.
    fn busy(&mut self) {
        self.opened();
        self.state[CLOCK] = 50;
        self.two(0, [30, 5], [40, 9]);
        self.one(1, [45, 9]);
        self.last(2, [1, 20]);
    }

    /// The plan at tick 200: loop 0 holds sixteen jobs, released at 0, 10 and so on to 150, each
    /// with one tick of work left.
    fn full(&mut self) {
        self.opened();
        self.state[CLOCK] = 200;
        self.last(0, [1, 150]);
        self.state[JOBS][0] = 16;
        (0..16).for_each(|place| self.place(place, [10 * place as u32, 1]));
    }

    /// A release with nothing printed.
    fn release(&mut self, task: u32, demand: u32) {
        let mut engine = Engine::from_words(self.state);
        let answer = engine.release(task, demand);
        assert_eq!(answer, Ok(()), "a release of loop {task} with demand {demand}");
        self.state = *engine.words();
    }

    fn call_line(&mut self, what: &str, words: &mut Words) {
        let before = self.state;
        let mut engine = Engine::from_words(self.state);
        match what {
            "open" => {
                let answer = engine.reopen(&self.table);
                self.lines.case("open", words.0, answer);
                show::opened(&mut self.lines, answer, &before, engine.words());
            }
            "release" => {
                let answer = engine.release(words.number(), words.number());
                self.lines.case("release", words.0, answer);
                show::left(&mut self.lines, answer, &before, engine.words());
            }
            "step" => {
                // Where the step is refused, what was lent stays: every core idle, none finished.
                let mut report = Report::IDLE;
                let answer = engine.step_into(&mut report);
                self.lines.case("step", words.0, answer);
                show::report(&mut self.lines, &report);
                show::left(&mut self.lines, answer, &before, engine.words());
            }
            "unsound" => self.both(words.0, "unsound", "idle and as handed in"),
            "refused" => self.both(words.0, "refused", "what was lent stays"),
            _ => panic!("not understood: call {what}"),
        }
        self.state = *engine.words();
    }

    /// One line of a step and a release of loop 0 with demand 1 on the state, both of which are
    /// refused: they leave every word, and the step leaves the report too.
    fn both(&mut self, name: &str, kind: &str, fact: &str) {
        let [mut stepped, mut released] = [0; 2].map(|_| Engine::from_words(self.state));
        let mut report = LENT;
        let step = stepped.step_into(&mut report);
        let release = released.release(0, 1);
        let stays =
            report == LENT && [stepped, released].iter().all(|left| *left.words() == self.state);
        let (step, release) = (show::met(step), show::met(release));
        let fact = show::fact(fact, stays);
        self.lines.say(format!("{kind} {name}: step {step}, release {release}, {fact}"));
    }
}

/// The table part of a state's words.
fn first(words: &[u32; WORDS]) -> [u32; PLAN] {
    *words.first_chunk().expect("the table part comes first")
}
