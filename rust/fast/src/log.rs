//! The log run by events: an entry, or the end of a running job. Between two events the same jobs
//! run, so the clock leaps from one to the next; where nothing is pending it leaps to the entry.

use crate::heads::{self, Heads, JOBS, Job, Queue};
use crate::table::TASKS;
use crate::{Judged, refuse};
use records::Refusal;

const LARGEST_TICK: u32 = 1_000_000_000;

const FINISHED: u32 = 1;
const REFUSED: u32 = 2;

/// Runs a log on a table, as the C log run does: how many entries were taken and how many refused.
pub fn run_log(table: &[u8], log: &[u8], out: &mut [u8]) -> Result<(usize, usize), Refusal> {
    run::<{ u32::MAX }>(table, log, out)
}

/// The same, but while anything is pending it goes tick by tick, for measuring what leaping gains.
pub fn run_log_by_ticks(
    table: &[u8],
    log: &[u8],
    out: &mut [u8],
) -> Result<(usize, usize), Refusal> {
    run::<1>(table, log, out)
}

fn run<const LEAP: u32>(
    table: &[u8],
    log: &[u8],
    out: &mut [u8],
) -> Result<(usize, usize), Refusal> {
    let judged = Judged::of(table)?;
    let entries = entries(log)?;
    let Some(out) = out.as_chunks_mut().0.get_mut(..entries.len()) else {
        return refuse(16, 0);
    };
    let mut run = Run::<LEAP>::open(&judged, out);
    let mut refused = 0;
    for (index, entry) in entries.iter().enumerate() {
        let number = run.hand(index, entry);
        if number != 0 {
            run.out[index] = answer(REFUSED, number);
            refused += 1;
        }
    }
    run.advance(u32::MAX);
    Ok((entries.len() - refused, refused))
}

/// 14 and 15.
fn entries(log: &[u8]) -> Result<&[[u8; 9]], Refusal> {
    let [low, high, entries @ ..] = log else {
        return refuse(14, 0);
    };
    if entries.len() != 9 * usize::from(u16::from_le_bytes([*low, *high])) {
        return refuse(14, 0);
    }
    let entries = entries.as_chunks().0;
    match entries.iter().position(|entry| fields(entry).0 > LARGEST_TICK) {
        Some(index) => refuse(15, index),
        None => Ok(entries),
    }
}

/// Tick, task and demand of an entry.
fn fields(entry: &[u8; 9]) -> (u32, usize, u32) {
    let [a, b, c, d, task, e, f, g, h] = *entry;
    (u32::from_le_bytes([a, b, c, d]), usize::from(task), u32::from_le_bytes([e, f, g, h]))
}

/// The 8 bytes of an entry.
fn answer(kind: u32, value: u32) -> [u8; 8] {
    (u64::from(value) << 32 | u64::from(kind)).to_le_bytes()
}

/// A run that leaps over at most `LEAP` ticks at once while anything is pending.
struct Run<'a, const LEAP: u32> {
    judged: &'a Judged,
    out: &'a mut [[u8; 8]],
    clock: u32,
    /// The tick from which each task may release again.
    open_from: [u32; TASKS],
    queues: [Queue; TASKS],
    heads: Heads,
}

impl<'a, const LEAP: u32> Run<'a, LEAP> {
    fn open(judged: &'a Judged, out: &'a mut [[u8; 8]]) -> Run<'a, LEAP> {
        let queues = [Queue::default(); TASKS];
        Run { judged, out, clock: 0, open_from: [0; TASKS], queues, heads: Heads::new() }
    }

    /// The refusal number of an entry, or 0 where its release is taken.
    fn hand(&mut self, index: usize, entry: &[u8; 9]) -> u32 {
        let (tick, task, demand) = fields(entry);
        // The clock is the largest tick so far.
        if tick < self.clock {
            return 17;
        }
        self.advance(tick);
        let Some(&[separation, budget, offset, _]) = self.judged.tasks.used().get(task) else {
            return 20;
        };
        // A 0 less 1 wraps to the largest number, so one comparison tests both ends.
        if demand.wrapping_sub(1) >= budget {
            return 21;
        }
        if tick < self.open_from[task] {
            return 22;
        }
        if self.queues[task].count == JOBS {
            return 23;
        }
        self.open_from[task] = tick + separation;
        let key = heads::key(tick, offset, task);
        let job = Job { key, work: demand, entry: index as u16 };
        self.queues[task].push(job);
        if self.queues[task].count == 1 {
            self.heads.insert(job);
        }
        0
    }

    /// The clock goes to `tick`, or with the largest number there to the end of the last job.
    fn advance(&mut self, tick: u32) {
        while self.clock < tick && self.heads.count > 0 {
            let running = self.heads.count.min(self.judged.cores);
            let ticks = self.heads.leap(running, LEAP.min(tick - self.clock));
            self.clock += ticks;
            if self.heads.run(running, ticks) {
                self.finish();
            }
        }
        self.clock = tick;
    }

    /// Answers for the jobs that are done, and brings up the next of their tasks.
    fn finish(&mut self) {
        let mut done = self.heads.remove_done();
        while done != 0 {
            let task = done.trailing_zeros() as usize % TASKS;
            done &= done - 1;
            let (entry, next) = self.queues[task].pop();
            self.out[usize::from(entry)] = answer(FINISHED, self.clock);
            if let Some(job) = next {
                self.heads.insert(job);
            }
        }
    }
}
