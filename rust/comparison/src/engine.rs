//! The engine's calls made by the proved code, the reference and the fast form on the same words,
//! and compared: the answer, every word, every core and every response, also where the call is
//! refused.

use crate::EngineTally;
use dahomike_engine::Engine;
use reference::{Refusal, Report, Words};

/// A call of the engine: an opening on a table's bytes, a release of a task with its demand, or a
/// step.
#[derive(Clone, Copy, Debug)]
pub enum Call<'a> {
    Open(&'a [u8]),
    Release(u32, u32),
    Step,
}

/// What a call answers and leaves behind: the words, and the report lent to a step.
pub struct Left {
    pub answer: Result<(), Refusal>,
    pub words: Words,
    pub report: Report,
}

/// The report that is lent: what no step says, so that a part that is written or left out shows.
const LENT: Report = Report { runs: [0xee; 8], responses: [0xeeee_eeee; 16] };

/// Makes the call in all three forms; the words that it leaves.
pub fn compare_call(words: &Words, call: Call, tally: &mut EngineTally) -> Words {
    let expected = by_reference(words, call);
    same("proved", &by_proved(words, call), &expected, words, call);
    same("fast", &by_fast(words, call), &expected, words, call);
    if expected.answer.is_err() {
        assert_eq!(expected.words, *words, "a refused call changes no word");
        assert_eq!(expected.report, LENT, "a refused call leaves the report as it is");
    }
    tally.count_call(words, call, &expected);
    expected.words
}

/// A release; the words that it leaves.
pub fn compare_release(words: &Words, task: u32, demand: u32, tally: &mut EngineTally) -> Words {
    compare_call(words, Call::Release(task, demand), tally)
}

/// A step; the words that it leaves.
pub fn compare_step(words: &Words, tally: &mut EngineTally) -> Words {
    compare_call(words, Call::Step, tally)
}

fn same(form: &str, left: &Left, expected: &Left, words: &Words, call: Call) {
    let input = || format!("{form}, {call:?} on {words:?}");
    assert_eq!(left.answer, expected.answer, "{}", input());
    assert_eq!(left.report, expected.report, "{}", input());
    if let Some(at) = (0..words.len()).find(|&at| left.words[at] != expected.words[at]) {
        let (word, right) = (left.words[at], expected.words[at]);
        panic!("word {at} is {word}, expected {right}; {}", input());
    }
}

fn by_reference(words: &Words, call: Call) -> Left {
    let (mut words, mut report) = (*words, LENT);
    let answer = match call {
        Call::Open(table) => reference::open_words(table, &mut words),
        Call::Release(task, demand) => reference::release_words(&mut words, task, demand),
        Call::Step => reference::step_words(&mut words).map(|stepped| report = stepped),
    };
    Left { answer, words, report }
}

fn by_fast(words: &Words, call: Call) -> Left {
    let (mut words, mut report) = (*words, LENT);
    let answer = match call {
        Call::Open(table) => fast::open(table, &mut words),
        Call::Release(task, demand) => fast::release(&mut words, task, demand),
        Call::Step => fast::step(&mut words, &mut report),
    };
    Left { answer, words, report }
}

/// What is lent to the proved code, with memory around it.
#[repr(C)]
struct Lent {
    before: [u32; 16],
    engine: Engine,
    between: [u32; 16],
    report: Report,
    after: [u32; 16],
}

fn by_proved(words: &Words, call: Call) -> Left {
    let around = [0xdddd_dddd; 16];
    let engine = Engine::from_words(*words);
    let mut lent = Lent { before: around, engine, between: around, report: LENT, after: around };
    let answer = match call {
        Call::Open(table) => lent.engine.reopen(table),
        Call::Release(task, demand) => lent.engine.release(task, demand),
        Call::Step => lent.engine.step_into(&mut lent.report),
    };
    let kept = [lent.before, lent.between, lent.after];
    assert_eq!(kept, [around; 3], "memory around what is lent to {call:?}");
    Left { answer, words: *lent.engine.words(), report: lent.report }
}
