//! The C calls on the largest table and on a state in which all 256 places hold a job, in a thread
//! with a stack of 64 KiB.

#[path = "../../small_stack.rs"]
mod small_stack;

use dahomike_engine::{Engine, Report, layout};
use small_stack::on_small_stack;

/// Eight cores and sixteen tasks (16, 8, 16), which fill the cores, with deadlines; no slack.
fn table() -> Vec<u8> {
    let mut table = vec![2, 8, 0, 1, 2, 3, 4, 5, 6, 7, 16];
    for field in [16, 8, 16, 1_600_000u32].repeat(16) {
        table.extend(field.to_le_bytes());
    }
    table.push(0);
    table
}

/// The engine at tick 256, each task with sixteen jobs: released at 0, 16 and so on to 240, with
/// one tick of work left.
fn full(engine: &Engine) -> Engine {
    let mut words = *engine.words();
    words[layout::CLOCK] = 256;
    words[layout::JOBS].fill(16);
    words[layout::RELEASED].fill(1);
    words[layout::LAST].fill(240);
    words[layout::REMAINING].fill(1);
    for (place, release) in (0u32..).zip(&mut words[layout::RELEASE]) {
        *release = 16 * (place % 16);
    }
    Engine::from_words(words)
}

#[test]
fn every_call_on_a_stack_of_64_kib() {
    let table = table();
    let opened = on_small_stack(move || Engine::open(&table)).expect("the table is accepted");
    assert_eq!(opened.words()[layout::SLACK], [11; 16]);

    let mut engine = opened.clone();
    let (released, engine) = on_small_stack(move || (engine.release(15, 8), engine));
    assert_eq!(released, Ok(()));
    assert_eq!(engine.words()[layout::JOBS][15], 1);

    let mut engine = full(&opened);
    let (answers, engine) = on_small_stack(move || {
        let refused = engine.release(0, 1);
        let stepped = engine.step();
        ((refused, stepped), engine)
    });
    assert_eq!(answers.0.map_err(|refusal| refusal.number), Err(23));
    // The oldest jobs of the eight lowest tasks finish, 257 ticks after their release.
    let mut responses = [257; 16];
    responses[8..].fill(0);
    assert_eq!(answers.1, Ok(Report { runs: [0, 1, 2, 3, 4, 5, 6, 7], responses }));
    assert_eq!(engine.words()[layout::JOBS][..9], [15, 15, 15, 15, 15, 15, 15, 15, 16]);
}
