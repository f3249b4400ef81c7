//! Times one step and one release on the words of a state, proved and plain. Both test whether the
//! state is sound.
//!
//! Every task holds 16 jobs before a step and 15 before a release. Each turn starts from the same
//! words; the copies that it works on are made before its time is taken.

use std::hint::black_box;

use dahomike_engine::{Engine, Report};
use fast::Words;
use reference::{Plan, State, Table, judge, words_of};
use samples::{Random, Shape, brisk, busy, ready, tight};

use crate::turns::{best, median, seconds, take_turns};

/// States timed of each kind.
const STATES: usize = 50;

/// Turns that each form takes, each once through the states: short ones, so that some are not
/// disturbed by other work.
const TURNS: usize = 2001;

const SHAPES: [Shape; 2] = [Shape { cores: 8, tasks: 16 }, Shape { cores: 2, tasks: 3 }];

type Make = fn(&mut Random, Shape) -> Table;

const KINDS: [(&str, Make); 2] =
    [("jobs finish in nearly every tick", brisk), ("jobs seldom finish", tight)];

pub fn run() {
    println!("engine, {STATES} states of each kind, {TURNS} turns");
    for shape in SHAPES {
        for (kind, make) in KINDS {
            println!("{:2} tasks on {} cores, {kind}:", shape.tasks, shape.cores);
            time("step", &words(shape, make, busy), proved_step, plain_step);
            time("release", &words(shape, make, ready), proved_release, plain_release);
        }
    }
}

fn time(name: &str, words: &[Words], proved: fn(&mut Engine), plain: fn(&mut Words)) {
    let engines: Vec<Engine> = words.iter().copied().map(Engine::from_words).collect();
    let (proved, plain) = take_turns(TURNS, || turn(&engines, proved), || turn(words, plain));
    println!(
        "  {name:7}: proved {:5.0} ns  plain {:5.0} ns  \
         time ratio proved/plain {:.2} (of the median turns {:.2})",
        1e9 * best(&proved),
        1e9 * best(&plain),
        best(&proved) / best(&plain),
        median(&proved) / median(&plain),
    );
}

/// The seconds of one call, of a call on a copy of each state.
fn turn<S: Clone>(states: &[S], call: fn(&mut S)) -> f64 {
    let mut copies = states.to_vec();
    let pass = || copies.iter_mut().for_each(|state| call(black_box(state)));
    seconds(1, pass) / states.len() as f64
}

/// The words of states of accepted tables.
fn words(shape: Shape, make: Make, state: fn(&mut Random, &Plan) -> State) -> Vec<Words> {
    let mut random = Random::new(2011);
    let mut words = Vec::new();
    while words.len() < STATES {
        let plan: Option<Plan> = judge(&make(&mut random, shape).bytes()).ok();
        words.extend(plan.map(|plan| words_of(&state(&mut random, &plan))));
    }
    words
}

fn proved_step(engine: &mut Engine) {
    let mut report = Report::IDLE;
    assert!(engine.step_into(&mut report).is_ok());
    black_box(&report);
}

fn plain_step(words: &mut Words) {
    let mut report = Report::IDLE;
    assert!(fast::step(words, &mut report).is_ok());
    black_box(&report);
}

/// A release of task 2 with one tick of work.
fn proved_release(engine: &mut Engine) {
    assert!(engine.release(2, 1).is_ok());
}

fn plain_release(words: &mut Words) {
    assert!(fast::release(words, 2, 1).is_ok());
}
