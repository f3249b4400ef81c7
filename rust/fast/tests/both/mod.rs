//! What the tests of several kinds of tables share.

use reference::{Log, Table};

/// The log run in the fast form answers and writes what the reference does.
pub fn compare_log(table: &Table, log: &Log) {
    let (table, bytes) = (table.bytes(), log.bytes());
    let mut expected = vec![0xee; 8 * log.entries.len()];
    let mut out = expected.clone();
    let counts = reference::run_log(&table, &bytes, &mut expected);
    assert_eq!(fast::run_log(&table, &bytes, &mut out), counts, "{table:?}, {log:?}");
    assert_eq!(out, expected, "{table:?}, {log:?}");
}
