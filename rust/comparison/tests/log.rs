//! The proved log run against the reference, tick by tick, on hundreds of thousands of logs, and
//! against the fast form on logs with ticks up to 1,000,000,000; the same ones on every run.

use comparison::{
    FAR, FEW_FAR, FEW_NEAR, LogForm, LogTally, Logs, NEAR, TIED_FAR, TIED_NEAR, compare_logs,
};
use reference::{Entry, Log, Table};
use samples::Random;

const REFERENCE: LogForm = ("reference", reference::run_log);
const PROVED: LogForm = ("proved", dahomike::run_log);
const FAST: LogForm = ("fast", fast::run_log);

/// How often each of these is met, at least, by near logs and by far ones.
const AT_LEAST: [(u64, u64, &str); 32] = [
    (50_000, 10_000, "run, edition 1"),
    (50_000, 10_000, "run, edition 2"),
    (50_000, 10_000, "run, log keeps the table"),
    (40_000, 10_000, "run, log does not keep the table"),
    (20_000, 4_000, "run, slack offered"),
    (5_000, 1_000, "run, log empty"),
    (200, 30, "run, more than 1,000 entries"),
    (2_000, 10_000, "run, largest tick from 5,000"),
    (0, 1_000, "run, largest tick 1,000,000,000"),
    (40_000, 6_000, "run, of two equal points one waits"),
    (5_000, 200, "run, of two equal points the older runs, a lower loop waits"),
    (40_000, 6_000, "run, of two equal points and releases one waits"),
    (50_000, 10_000, "run, answer exactly long enough"),
    (50_000, 10_000, "run, answer longer"),
    (5_000, 1_000, "refused 16, answer empty"),
    (20_000, 4_000, "refused 16, answer one byte short"),
    (2_000, 4_000, "refused 15, index above 0"),
    (500, 1_000, "refused 15, and the answer too short"),
    (1_000, 200, "refused 14, count absent"),
    (5_000, 0, "table refused, and the log too"),
    (10_000, 4_000, "refused 20, first loop outside"),
    (20_000, 4_000, "refused 21, demand 0"),
    (20_000, 4_000, "refused 21, demand C + 1"),
    (10_000, 2_000, "refused 22, one tick too soon"),
    (10_000, 2_000, "refused 22, at the tick of the last taken"),
    (1_000_000, 100_000, "taken, exactly T after the last taken"),
    (500_000, 100_000, "taken, waits for a core or its own loop"),
    (50_000, 5_000, "taken, its loop then holds 2 jobs or more"),
    (2_000, 20, "taken, its loop then holds 8 jobs or more"),
    (10_000, 1_000, "taken, finishes within 2 ticks of its bound"),
    (0, 50_000, "taken, after 100,000 idle ticks"),
    (0, 500, "taken, demand above 65,535"),
];

/// The same on tables with few loops, that is no more than cores.
const FEW_AT_LEAST: [(u64, u64, &str); 8] = [
    (20_000, 7_000, "few loops, run"),
    (6_000, 2_000, "few loops, run, n = 1"),
    (4_000, 1_500, "few loops, run, 1 < n < m"),
    (6_000, 2_000, "few loops, run, n = m"),
    (10_000, 3_000, "few loops, run, log keeps the table"),
    (6_000, 2_500, "few loops, run, log does not keep the table"),
    (300_000, 80_000, "few loops, taken, takes its bound"),
    (50_000, 20_000, "few loops, entry refused"),
];

/// The same of logs in which points are often equal.
const TIED_AT_LEAST: [(u64, u64, &str); 5] = [
    (6_000, 4_000, "run, log keeps the table"),
    (5_000, 3_500, "run, log does not keep the table"),
    (10_000, 8_000, "run, of two equal points one waits"),
    (5_000, 4_000, "run, of two equal points the older runs, a lower loop waits"),
    (10_000, 8_000, "run, of two equal points and releases one waits"),
];

/// Prints a tally and holds it to how often each refusal number is to be met.
fn check_numbers(tally: &LogTally) {
    tally.print();
    for number in [14, 15, 16] {
        let met = tally.calls(number);
        assert!(met >= 3_000, "refused {number}: {met} calls");
    }
    for number in [17, 20, 21, 22] {
        let met = tally.entries(number);
        assert!(met >= 5_000, "refused {number}: {met} entries");
    }
    // "By it, 23 is never met in such a run."
    assert_eq!(tally.entries(23), 0);
}

fn check_named(tally: &LogTally, least: u64, name: &'static str) {
    let met = tally.named(name);
    assert!(met >= least, "{name}: {met}");
}

#[test]
fn near_logs_tick_by_tick() {
    let tally = compare_logs(&[REFERENCE, PROVED, FAST], &NEAR, 1);
    assert!(tally.logs() >= 300_000);
    check_numbers(&tally);
    for number in (1..=13).chain([28]) {
        let met = tally.calls(number);
        assert!(met >= 100, "refused {number}: {met} calls");
    }
    for (near, _, name) in AT_LEAST {
        check_named(&tally, near, name);
    }
}

#[test]
fn far_logs_by_events() {
    let tally = compare_logs(&[FAST, PROVED], &FAR, 1);
    assert!(tally.logs() >= 60_000);
    check_numbers(&tally);
    for (_, far, name) in AT_LEAST {
        check_named(&tally, far, name);
    }
}

/// Every taken entry finishes after its demand, and never meets 23.
fn check_few(tally: &LogTally) {
    tally.print();
    assert_eq!(tally.entries(23), 0);
    let taken = tally.named("few loops, taken");
    assert_eq!(tally.named("few loops, taken, finishes after its demand"), taken);
    assert_eq!(tally.named("taken"), taken);
}

#[test]
fn near_logs_with_few_loops() {
    let tally = compare_logs(&[REFERENCE, PROVED, FAST], &FEW_NEAR, 1);
    check_few(&tally);
    for (near, _, name) in FEW_AT_LEAST {
        check_named(&tally, near, name);
    }
}

#[test]
fn far_logs_with_few_loops() {
    let tally = compare_logs(&[FAST, PROVED], &FEW_FAR, 1);
    check_few(&tally);
    for (_, far, name) in FEW_AT_LEAST {
        check_named(&tally, far, name);
    }
}

#[test]
fn near_logs_with_equal_points() {
    let tally = compare_logs(&[REFERENCE, PROVED, FAST], &TIED_NEAR, 1);
    tally.print();
    assert_eq!(tally.entries(23), 0);
    for (near, _, name) in TIED_AT_LEAST {
        check_named(&tally, near, name);
    }
}

#[test]
fn far_logs_with_equal_points() {
    let tally = compare_logs(&[FAST, PROVED], &TIED_FAR, 1);
    tally.print();
    assert_eq!(tally.entries(23), 0);
    for (_, far, name) in TIED_AT_LEAST {
        check_named(&tally, far, name);
    }
}

/// P3 on the cores 0 and 1.
fn p3() -> Vec<u8> {
    Table::of(2, &[(2, 1, 2), (2, 1, 2), (3, 3, 0)]).bytes()
}

/// Kind and value of each of three entries, the same in every form.
fn three_entries(table: &[u8], entries: [Entry; 3]) -> [(u32, u32); 3] {
    let log = Log { entries: entries.to_vec() }.bytes();
    let runs = [REFERENCE, PROVED, FAST].map(|(_, run)| {
        let mut out = [0; 24];
        run(table, &log, &mut out).expect("the run is not refused");
        [0, 8, 16].map(|at| {
            let number = |at| u32::from_le_bytes(*out[at..].first_chunk().expect("4 bytes"));
            (number(at), number(at + 4))
        })
    });
    assert!(runs[1] == runs[0] && runs[2] == runs[0], "{runs:?}");
    runs[0]
}

#[test]
fn p10_and_p11_in_every_form() {
    let all = [(0, 1), (1, 1), (2, 3)].map(|(task, demand)| Entry { tick: 0, task, demand });
    assert_eq!(three_entries(&p3(), all), [(1, 1), (1, 2), (1, 3)]);
    let mut later = p3();
    later[5 + 24 + 8] = 3;
    assert_eq!(three_entries(&later, all), [(1, 1), (1, 1), (1, 4)]);
    let soon = [0, 1, 2].map(|tick| Entry { tick, task: 0, demand: 1 });
    assert_eq!(three_entries(&p3(), soon), [(1, 1), (2, 22), (1, 3)]);
}

/// Loop 2 keeps one of two cores. Loop 1's job, released at 0, and loop 0's, released at 5, have the
/// point 10, and the older runs first.
#[test]
fn equal_points_by_age_in_every_form() {
    let table = Table::of(2, &[(10, 2, 5), (10, 9, 10), (10, 9, 0)]).bytes();
    let log = [(0, 1, 9), (0, 2, 9), (5, 0, 2)];
    let entries = log.map(|(tick, task, demand)| Entry { tick, task, demand });
    assert_eq!(three_entries(&table, entries), [(1, 9), (1, 9), (1, 11)]);
}

/// So many entries, each taken.
fn entries(count: u32) -> Vec<u8> {
    let entry = |index| Entry { tick: 2 * index, task: (index % 2) as u8, demand: 1 };
    Log { entries: (0..count).map(entry).collect() }.bytes()
}

#[test]
fn every_answer_length_around_what_is_needed() {
    let (mut random, mut tally) = (Random::new(0), LogTally::default());
    let table = p3();
    let logs = Logs::new(&[REFERENCE, PROVED, FAST], &table);
    for count in 0..40 {
        let needed = 8 * count as usize;
        for length in 0..needed + 20 {
            logs.compare_at(&mut random, &entries(count), length, &mut tally);
        }
    }
    let short = 8 * (39 * 40 / 2);
    assert_eq!((tally.calls(16), tally.logs()), (short, short + 40 * 20));
}

#[test]
fn every_length_of_a_short_log() {
    let (mut random, mut tally) = (Random::new(0), LogTally::default());
    let table = p3();
    let logs = Logs::new(&[REFERENCE, PROVED, FAST], &table);
    let bytes = entries(40);
    for length in 0..bytes.len() {
        for count in 0..40u8 {
            let mut log = bytes[..length].to_vec();
            if let Some(low) = log.first_mut() {
                *low = count;
            }
            logs.compare_at(&mut random, &log, 400, &mut tally);
        }
    }
    // Each count agrees with one length.
    assert_eq!(tally.calls(14), tally.logs() - 40);
}
