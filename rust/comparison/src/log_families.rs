//! The logs that are compared, in families: how each makes its tables and the logs for them.

use crate::{LogForm, LogTally, Logs};
use reference::Table;
use samples::{
    LogKind, Random, alike_long, alike_short, any_accepted, damaged_log, damaged_table,
    faulty_table, few_accepted, few_short, log, noise_log, short_accepted, tied_log,
};

/// Parts that are run side by side, each with numbers of its own.
const PARTS: u64 = 2;

/// A family has so many tables in each part, and so many logs for each table.
pub struct Family {
    tables: u64,
    logs: u64,
    /// A table, and an accepted one that logs for it are made after.
    table: fn(&mut Random) -> (Vec<u8>, Table),
    log: fn(&mut Random, &Table) -> Vec<u8>,
}

/// Logs that the reference can go through tick by tick.
pub const NEAR: [Family; 4] = [
    // Few, since their jobs are long.
    Family { tables: 60, logs: 3, table: accepted_any, log: near },
    Family { tables: 7_000, logs: 20, table: accepted_short, log: near },
    Family { tables: 1_000, logs: 10, table: accepted_short, log: near_damaged },
    Family { tables: 2_000, logs: 3, table: refused_short, log: near_damaged },
];

/// Logs with ticks up to 1,000,000,000.
pub const FAR: [Family; 4] = [
    Family { tables: 2_000, logs: 10, table: accepted_any, log: far },
    Family { tables: 500, logs: 10, table: accepted_short, log: far },
    Family { tables: 500, logs: 5, table: accepted_any, log: far_damaged },
    Family { tables: 500, logs: 10, table: accepted_any, log: |random, _| noise_log(random) },
];

/// Near logs on tables with few loops.
pub const FEW_NEAR: [Family; 3] = [
    Family { tables: 50, logs: 4, table: accepted_few, log: near },
    Family { tables: 1_500, logs: 10, table: short_few, log: near },
    Family { tables: 300, logs: 5, table: short_few, log: near_damaged },
];

/// Far logs on tables with few loops.
pub const FEW_FAR: [Family; 3] = [
    Family { tables: 500, logs: 10, table: accepted_few, log: far },
    Family { tables: 100, logs: 10, table: accepted_few, log: far_damaged },
    Family { tables: 100, logs: 10, table: short_few, log: |random, _| noise_log(random) },
];

/// Near logs in which priority points are often equal.
pub const TIED_NEAR: [Family; 2] = [
    Family { tables: 1_000, logs: 10, table: short_alike, log: near_tied },
    Family { tables: 500, logs: 10, table: accepted_short, log: near_tied },
];

/// Far logs in which priority points are often equal.
pub const TIED_FAR: [Family; 2] = [
    Family { tables: 500, logs: 10, table: long_alike, log: far_tied },
    Family { tables: 500, logs: 10, table: short_alike, log: far_tied },
];

/// Compares the forms on one in `fewer` of the tables of each family.
pub fn compare_logs(forms: &[LogForm], families: &[Family], fewer: u64) -> LogTally {
    let mut tally = LogTally::default();
    std::thread::scope(|scope| {
        let start = |part| scope.spawn(move || compare_part(forms, families, fewer, part));
        let parts: Vec<_> = (0..PARTS).map(start).collect();
        for part in parts {
            tally.add(part.join().expect("the part of the comparison passes"));
        }
    });
    tally
}

fn compare_part(forms: &[LogForm], families: &[Family], fewer: u64, part: u64) -> LogTally {
    let mut tally = LogTally::default();
    for (place, family) in families.iter().enumerate() {
        let mut random = Random::new(100 * (part + 1) + place as u64);
        for _ in 0..family.tables / fewer {
            let (bytes, table) = (family.table)(&mut random);
            let logs = Logs::new(forms, &bytes);
            for _ in 0..family.logs {
                let log = (family.log)(&mut random, &table);
                logs.compare(&mut random, &log, &mut tally);
            }
        }
    }
    tally
}

/// The table's own bytes, and the table.
fn with_bytes(table: Table) -> (Vec<u8>, Table) {
    (table.bytes(), table)
}

fn accepted_short(random: &mut Random) -> (Vec<u8>, Table) {
    with_bytes(short_accepted(random))
}

fn accepted_any(random: &mut Random) -> (Vec<u8>, Table) {
    with_bytes(any_accepted(random))
}

fn accepted_few(random: &mut Random) -> (Vec<u8>, Table) {
    with_bytes(few_accepted(random))
}

fn short_few(random: &mut Random) -> (Vec<u8>, Table) {
    with_bytes(few_short(random))
}

fn short_alike(random: &mut Random) -> (Vec<u8>, Table) {
    with_bytes(alike_short(random))
}

fn long_alike(random: &mut Random) -> (Vec<u8>, Table) {
    with_bytes(alike_long(random))
}

/// A table that is refused, mostly, beside an accepted one.
fn refused_short(random: &mut Random) -> (Vec<u8>, Table) {
    let table = short_accepted(random);
    let bytes =
        if random.once_in(2) { refused(random) } else { damaged_table(random, table.bytes()) };
    (bytes, table)
}

/// A faulty table that is refused. One that is accepted could have jobs too long for the reference.
fn refused(random: &mut Random) -> Vec<u8> {
    loop {
        let bytes = faulty_table(random).bytes();
        if reference::judge(&bytes).is_err() {
            return bytes;
        }
    }
}

fn near(random: &mut Random, table: &Table) -> Vec<u8> {
    log(random, table, LogKind::Near).bytes()
}

fn far(random: &mut Random, table: &Table) -> Vec<u8> {
    log(random, table, LogKind::Far).bytes()
}

fn near_tied(random: &mut Random, table: &Table) -> Vec<u8> {
    tied_log(random, table, LogKind::Near).bytes()
}

fn far_tied(random: &mut Random, table: &Table) -> Vec<u8> {
    tied_log(random, table, LogKind::Far).bytes()
}

fn near_damaged(random: &mut Random, table: &Table) -> Vec<u8> {
    let bytes = near(random, table);
    damaged_log(random, bytes)
}

fn far_damaged(random: &mut Random, table: &Table) -> Vec<u8> {
    let bytes = far(random, table);
    damaged_log(random, bytes)
}
