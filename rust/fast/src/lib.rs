//! The judgement of a show table, the engine's release and step, the log run, the offsets from
//! wishes, and the conversion between the editions, written for speed: the proved code is timed
//! against them. Numbers have at most 64 bits, and nothing is on the heap. The judgement makes one
//! pass over the tasks where one is enough, and one division by H and one by m for each round of
//! the slack search. The engine advances a state where it lies. The log run goes from event to
//! event and not from tick to tick. A wish sheet that takes many rounds leaps over most of them.

#![forbid(unsafe_code)]

mod convert;
mod engine;
mod heads;
mod log;
mod slack;
mod sound;
mod table;
mod wish;

pub use convert::convert;
pub use engine::{Words, open, release, step};
pub use log::{run_log, run_log_by_ticks};
pub use wish::{wish_by_rounds_into, wish_into, wish_rounds};

use std::hint::black_box;

use records::Refusal;
use slack::{Names, Rates};
use table::{Fields, Sections, TASKS, Tasks, is_few, read_tasks};

/// Judges a table and writes slack and bound of each task to `out`, as the C judgement does. The
/// judgement names the counted tasks too, and they are not worked out in vain: it is timed.
pub fn judge(table: &[u8], out: &mut [u8]) -> Result<usize, Refusal> {
    let judged = Judged::of(table)?;
    black_box(&judged.names);
    write(&judged, out)
}

/// Judges a table and writes the names of the counted tasks to `out`, as the C function does.
pub fn counted(table: &[u8], out: &mut [u8]) -> Result<usize, Refusal> {
    let judged = Judged::of(table)?;
    let count = if judged.is_few() { 0 } else { judged.cores - 1 };
    let Some(out) = out.get_mut(..count) else {
        return refuse(24, 0);
    };
    out.copy_from_slice(&judged.names[..count]);
    Ok(count)
}

/// An accepted table, with its slack and bounds worked out and its tasks named.
struct Judged {
    cores: usize,
    tasks: Tasks,
    slack: [u32; TASKS],
    names: Names,
    bound: [u64; TASKS],
}

impl Judged {
    /// 1 to 13, and 28.
    fn of(table: &[u8]) -> Result<Judged, Refusal> {
        let sections = Sections::split(table)?;
        let cores = sections.cores()?;
        let mut tasks = Tasks::NONE;
        read_tasks(sections.tasks, &mut tasks)?;
        let rates = Rates::of(tasks.used(), cores)?;
        let (slack, names) = slack(&rates, sections.slack)?;
        let bound = bounds(tasks.used(), &slack, cores)?;
        Ok(Judged { cores, tasks, slack, names, bound })
    }

    fn is_few(&self) -> bool {
        is_few(self.cores, self.tasks.count)
    }
}

/// The slack, found or offered, and the tasks counted at it: 11 and 12.
fn slack(rates: &Rates, offer: &[[u8; 4]]) -> Result<([u32; TASKS], Names), Refusal> {
    let count = rates.tasks.len();
    let few = is_few(rates.cores, count);
    if offer.is_empty() {
        return Ok(if few { ([0; TASKS], [0; TASKS]) } else { rates.search() });
    }
    if few || offer.len() != count {
        return refuse(11, 0);
    }
    let mut slack = [0; TASKS];
    for (x, entry) in slack.iter_mut().zip(offer) {
        *x = u32::from_le_bytes(*entry);
    }
    match rates.test(&slack) {
        Err(k) => refuse(12, k),
        Ok(names) => Ok((slack, names)),
    }
}

/// The bound of each task: 13.
fn bounds(tasks: &[Fields], slack: &[u32; TASKS], cores: usize) -> Result<[u64; TASKS], Refusal> {
    let few = is_few(cores, tasks.len());
    let mut bounds = [0; TASKS];
    for (k, &[separation, budget, offset, _]) in tasks.iter().enumerate() {
        let wait = if few { 0 } else { u64::from(offset) + u64::from(slack[k]) };
        bounds[k] = wait + u64::from(budget);
        if bounds[k] > 16 * u64::from(separation) {
            return refuse(13, k);
        }
    }
    Ok(bounds)
}

/// 24, and the answer's bytes.
fn write(judged: &Judged, out: &mut [u8]) -> Result<usize, Refusal> {
    let count = judged.tasks.count;
    let Some(out) = out.get_mut(..8 * count) else {
        return refuse(24, 0);
    };
    for (k, entry) in out.as_chunks_mut().0.iter_mut().enumerate() {
        *entry = (judged.bound[k] << 32 | u64::from(judged.slack[k])).to_le_bytes();
    }
    Ok(count)
}

fn refuse<T>(number: u32, index: usize) -> Result<T, Refusal> {
    Err(Refusal { number, index: index as u32 })
}
