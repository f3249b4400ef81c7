//! Times the proved log run on logs of 65,535 entries: far ticks against near ones, long jobs
//! against going tick by tick, and dense logs against the plain form written for speed. It prints
//! the ratio of the times of each pair. Where going tick by tick takes too long, the first part of
//! a log is timed and the rest taken to be as long as it is.

use std::hint::black_box;

use reference::{Entry, Log, Table};
use samples::Random;

use crate::turns::{best, median_ratio, seconds, take_turns};

const ENTRIES: usize = 65_535;

/// Turns of one run that each of a pair takes: many short ones, so that some are undisturbed.
const TURNS: usize = 151;

/// The same where one of a pair goes tick by tick.
const TICK_TURNS: usize = 9;

/// Entries of the log of long jobs that are timed tick by tick, in the fast form and in the
/// reference.
const FAST_PART: usize = 1_400;
const REFERENCE_PART: usize = 140;

/// Counts of a run.
type Counts = (usize, usize);
type Form = fn(&[u8], &[u8], &mut [u8]) -> Counts;

fn proved(table: &[u8], log: &[u8], out: &mut [u8]) -> Counts {
    dahomike::run_log(table, log, out).expect("a timed run is not refused")
}

fn plain(table: &[u8], log: &[u8], out: &mut [u8]) -> Counts {
    fast::run_log(table, log, out).expect("a timed run is not refused")
}

fn plain_by_ticks(table: &[u8], log: &[u8], out: &mut [u8]) -> Counts {
    fast::run_log_by_ticks(table, log, out).expect("a timed run is not refused")
}

fn reference_by_ticks(table: &[u8], log: &[u8], out: &mut [u8]) -> Counts {
    reference::run_log(table, log, out).expect("a timed run is not refused")
}

pub fn run() {
    println!("logs of {ENTRIES} entries, {TURNS} turns each");
    far_against_near();
    long_jobs_against_ticks();
    dense(&dense_table(8, 16, (14, 7)), "dense, 16 tasks on 8 cores");
    dense(&dense_table(2, 3, (3, 2)), "dense,  3 tasks on 2 cores");
}

/// A table and a log for it.
struct Case {
    table: Vec<u8>,
    entries: Vec<Entry>,
}

impl Case {
    /// The log of the first entries.
    fn log(&self, count: usize) -> Vec<u8> {
        Log { entries: self.entries[..count].to_vec() }.bytes()
    }

    /// The seconds of a run of a log.
    fn seconds(&self, form: Form, log: &[u8]) -> f64 {
        let mut out = vec![0; 8 * ENTRIES];
        // So that no page of the answer is new to the timed run.
        black_box(out.as_mut_slice()).fill(1);
        let run = || {
            let counts = black_box(form)(black_box(&self.table), black_box(log), &mut out);
            black_box(&out);
            assert_eq!(counts.1, 0, "every entry is taken");
        };
        seconds(1, run)
    }

    /// The proved run and the plain one give the same on the whole log.
    fn check(&self, log: &[u8]) {
        let mut by_proved = vec![0; 8 * ENTRIES];
        let mut by_plain = by_proved.clone();
        let counts = proved(&self.table, log, &mut by_proved);
        assert_eq!(counts, plain(&self.table, log, &mut by_plain));
        assert_eq!(counts, (ENTRIES, 0));
        assert!(by_proved == by_plain, "the answers differ");
    }
}

/// The same entries, spread to tick 1,000,000,000 and to tick 1,000,000. Their jobs are so short
/// that one is done before the next release on both.
fn far_against_near() {
    let far = spread(1_000_000_000);
    let near = spread(1_000_000);
    let (far_log, near_log) = (far.log(ENTRIES), near.log(ENTRIES));
    far.check(&far_log);
    near.check(&near_log);
    let (far_turns, near_turns) =
        take_turns(TURNS, || far.seconds(proved, &far_log), || near.seconds(proved, &near_log));
    print_pair("to tick 10^9, and to 10^6, both proved", "10^9", &far_turns, "10^6", &near_turns);
}

fn spread(last: u64) -> Case {
    let mut random = Random::new(1);
    let table = Table::of(8, &[(200, 10, 200); 16]);
    let entry = |index| Entry {
        tick: (index as u64 * last / (ENTRIES as u64 - 1)) as u32,
        task: (index % 16) as u8,
        demand: random.between(1, 10),
    };
    Case { table: table.bytes(), entries: (0..ENTRIES).map(entry).collect() }
}

/// Jobs of 100,000 ticks. A task with such a budget fills a core, so seven tasks of sixteen have
/// one, and the other nine share what is left.
fn long_jobs_against_ticks() {
    let (long, other) = ((100_000, 100_000, 100_000), (100_000, 11_111, 100_000));
    let table = Table::of(8, &[vec![long; 7], vec![other; 9]].concat());
    let entry = |index: usize| Entry {
        tick: (index / 7 * 100_000 + index % 7 * 14_285) as u32,
        task: (index % 7) as u8,
        demand: 100_000,
    };
    let case = Case { table: table.bytes(), entries: (0..ENTRIES).map(entry).collect() };
    let whole = case.log(ENTRIES);
    case.check(&whole);
    for (name, form, part) in [
        ("fast", plain_by_ticks as Form, FAST_PART),
        ("reference", reference_by_ticks, REFERENCE_PART),
    ] {
        let log = case.log(part);
        let scale = ENTRIES as f64 / part as f64;
        let (proved_turns, tick_turns) = take_turns(
            TICK_TURNS,
            || case.seconds(proved, &whole),
            || case.seconds(form, &log) * scale,
        );
        let name = format!("100,000-tick jobs, tick by tick ({name}, from {part} entries)");
        print_pair(&name, "by ticks", &tick_turns, "proved", &proved_turns);
    }
}

/// A release in almost every tick, as soon as its task may.
fn dense(table: &Table, name: &str) {
    let mut random = Random::new(2);
    let mut open_from = vec![0; table.tasks.len()];
    let mut tick = 0;
    let mut entries = Vec::new();
    while entries.len() < ENTRIES {
        let open: Vec<usize> = (0..open_from.len()).filter(|&i| open_from[i] <= tick).collect();
        if !open.is_empty() && !random.once_in(32) {
            let task = random.pick(&open);
            open_from[task] = tick + table.tasks[task].separation;
            let budget = table.tasks[task].budget;
            let demand = if random.once_in(4) { random.between(1, budget) } else { budget };
            entries.push(Entry { tick, task: task as u8, demand });
        }
        tick += 1;
    }
    let case = Case { table: table.bytes(), entries };
    let log = case.log(ENTRIES);
    case.check(&log);
    let (proved_turns, plain_turns) =
        take_turns(TURNS, || case.seconds(proved, &log), || case.seconds(plain, &log));
    print_pair(name, "proved", &proved_turns, "plain", &plain_turns);
}

/// Tasks with this separation and budget, and offsets that differ, so that jobs overtake others.
fn dense_table(cores: u8, tasks: u32, (separation, budget): (u32, u32)) -> Table {
    let tasks: Vec<_> = (0..tasks).map(|i| (separation, budget, separation - i % 3)).collect();
    Table::of(cores, &tasks)
}

fn print_pair(name: &str, first: &str, first_turns: &[f64], second: &str, second_turns: &[f64]) {
    let (a, b) = (best(first_turns), best(second_turns));
    println!(
        "{name}: {first} {:.3} ms  {second} {:.3} ms  time ratio {first}/{second} {:.2} \
         (median of turns {:.2})",
        1000.0 * a,
        1000.0 * b,
        a / b,
        median_ratio(first_turns, second_turns),
    );
}
