//! The engine's state as the words that a controller lends, and the engine's calls on them: "0
//! edition; 1 offered, 0 or 1; 2 cores; 3 loops; 4 to 11 labels; 12 to 75 sixteen loops of T, C, Y,
//! D; 76 to 91 slack; 92 clock; 93 to 108 the jobs that each loop holds; 109 to 124 the flags of a
//! taken release, 0 or 1; 125 to 140 last taken releases; 141 to 396 remaining work of the 256
//! places; 397 to 652 their release ticks."

use crate::{State, judge, open, release, step};
use records::{Refusal, Report, Task};

/// The words of a state.
pub type Words = [u32; 653];

/// The words of a state, one field after the other.
pub fn words_of(state: &State) -> Words {
    let mut words = vec![u32::from(state.edition), u32::from(state.offered)];
    words.extend([count_word(state.cores), count_word(state.count)]);
    words.extend(state.labels.map(u32::from));
    for task in state.tasks {
        words.extend([task.separation, task.budget, task.offset, task.deadline]);
    }
    words.extend(state.slack);
    words.push(state.clock);
    words.extend(state.jobs.map(count_word));
    words.extend(state.released.map(u32::from));
    words.extend(state.last);
    words.extend(state.remaining);
    words.extend(state.release);
    words.try_into().expect("these are 653 words")
}

fn count_word(count: usize) -> u32 {
    u32::try_from(count).expect("a count has 32 bits")
}

/// The state that words say. Nothing where they do not *fit*: "every word in the range of its field
/// (a byte, a flag, a count)".
pub fn state_in(words: &Words) -> Option<State> {
    let mut reader = Reader { rest: words };
    let edition = byte(reader.word())?;
    let offered = flag(reader.word())?;
    let cores = reader.word() as usize;
    let count = reader.word() as usize;
    Some(State {
        edition,
        offered,
        cores,
        count,
        labels: each(reader.words(), byte)?,
        tasks: [(); 16].map(|()| task(reader.words())),
        slack: reader.words(),
        clock: reader.word(),
        jobs: reader.words().map(|jobs| jobs as usize),
        released: each(reader.words(), flag)?,
        last: reader.words(),
        remaining: reader.words(),
        release: reader.words(),
    })
}

/// Words that are read one after the other.
struct Reader<'a> {
    rest: &'a [u32],
}

impl Reader<'_> {
    fn words<const COUNT: usize>(&mut self) -> [u32; COUNT] {
        let (first, rest) = self.rest.split_first_chunk().expect("there are 653 words");
        self.rest = rest;
        *first
    }

    fn word(&mut self) -> u32 {
        let [word] = self.words();
        word
    }
}

fn task([separation, budget, offset, deadline]: [u32; 4]) -> Task {
    Task { separation, budget, offset, deadline }
}

fn byte(word: u32) -> Option<u8> {
    u8::try_from(word).ok()
}

fn flag(word: u32) -> Option<bool> {
    match word {
        0 => Some(false),
        1 => Some(true),
        _ => None,
    }
}

/// Each word read so, where all of them fit.
fn each<T, const COUNT: usize>(
    words: [u32; COUNT],
    read: fn(u32) -> Option<T>,
) -> Option<[T; COUNT]> {
    let fields: Option<Vec<T>> = words.into_iter().map(read).collect();
    fields?.try_into().ok()
}

/// "what a judgement of the table refuses, else the opened state of its plan". "a refused call
/// changes no lent word".
pub fn open_words(table: &[u8], words: &mut Words) -> Result<(), Refusal> {
    let plan = judge(table)?;
    *words = words_of(&open(&plan));
    Ok(())
}

/// A release on words. "Words that don't fit make a state that isn't sound: 18."
pub fn release_words(words: &mut Words, task: u32, demand: u32) -> Result<(), Refusal> {
    let state = state_in(words).ok_or(Refusal::whole(18))?;
    let released = release(&state, task as usize, demand);
    released.answer?;
    *words = words_of(&released.state);
    Ok(())
}

/// A step on words: "runs and responses as `step` answers them, left as they are on a refusal".
pub fn step_words(words: &mut Words) -> Result<Report, Refusal> {
    let state = state_in(words).ok_or(Refusal::whole(18))?;
    let stepped = step(&state);
    stepped.answer?;
    *words = words_of(&stepped.state);
    Ok(stepped.report)
}
