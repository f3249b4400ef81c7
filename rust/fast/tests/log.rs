//! The log run by events, and tick by tick, over a gap that is too long for the reference. On
//! shorter logs it is compared with the reference, in `comparison`.

use reference::{Entry, Log, Table};

/// P3 on the cores 0 and 1, tasks as (T, C, Y).
const P3: [(u32, u32, u32); 3] = [(2, 1, 2), (2, 1, 2), (3, 3, 0)];

/// Kind and value of each entry of a log with entries as (tick, task, demand), in both forms.
fn run(tasks: &[(u32, u32, u32)], entries: &[(u32, u8, u32)]) -> Vec<(u32, u32)> {
    let table = Table::of(2, tasks).bytes();
    let entries = entries.iter().map(|&(tick, task, demand)| Entry { tick, task, demand });
    let log = Log { entries: entries.collect() };
    let mut out = vec![0; 8 * log.entries.len()];
    let mut by_ticks = out.clone();
    let counts = fast::run_log(&table, &log.bytes(), &mut out);
    assert_eq!(fast::run_log_by_ticks(&table, &log.bytes(), &mut by_ticks), counts);
    assert_eq!(by_ticks, out);
    let number = |bytes: &[u8]| u32::from_le_bytes(bytes.try_into().unwrap());
    out.chunks(8).map(|entry| (number(&entry[..4]), number(&entry[4..]))).collect()
}

#[test]
fn the_largest_tick_after_a_long_gap() {
    let last = 1_000_000_000;
    let entries = [(0, 2, 3), (last, 2, 3), (last, 0, 1), (last, 1, 1), (last - 1, 1, 1)];
    let finished = [(1, 3), (1, last + 3), (1, last + 1), (1, last + 2), (2, 17)];
    assert_eq!(run(&P3, &entries), finished);
}
