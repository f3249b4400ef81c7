//! What tables and wish sheets with few loops show, that is with no more loops than cores (document
//! 02, §7), and those with one more beside them, by names that say what.

use crate::tables::Answer;
use reference::{Refusal, Table, is_few};

/// Loops, no more than cores.
pub fn has_few(cores: usize, tasks: usize) -> bool {
    tasks > 0 && is_few(cores, tasks)
}

/// The names of a table's or a sheet's bytes, by the answer to them.
pub fn few_names(bytes: &[u8], answer: Answer) -> Vec<&'static str> {
    let Ok(table) = Table::read(bytes) else { return vec![] };
    let (cores, tasks) = (table.labels.len(), table.tasks.len());
    let few = has_few(cores, tasks);
    let special = match answer {
        Ok(_) => of_accepted(cores, tasks),
        Err(Refusal { number: 5, .. }) if tasks == 0 => Some("refused 5, no loops"),
        Err(Refusal { number: 5, .. }) if few => Some("refused 5, few loops"),
        Err(Refusal { number: 5, .. }) => Some("refused 5, more than 16 loops"),
        Err(Refusal { number, .. }) if few => of_refused(&table, number),
        Err(_) => None,
    };
    few.then_some("few loops").into_iter().chain(special).collect()
}

fn of_accepted(cores: usize, tasks: usize) -> Option<&'static str> {
    match tasks {
        1 => Some("few loops, accepted, n = 1"),
        _ if tasks < cores => Some("few loops, accepted, 1 < n < m"),
        _ if tasks == cores => Some("few loops, accepted, n = m"),
        _ if tasks == cores + 1 => Some("accepted, n = m + 1"),
        _ => None,
    }
}

fn of_refused(table: &Table, number: u32) -> Option<&'static str> {
    let (slack, tasks) = (&table.slack, table.tasks.len());
    match number {
        9 if !slack.is_empty() => Some("few loops, refused 9, and 11 after it"),
        9 => Some("few loops, refused 9, no slack offered"),
        11 if *slack == vec![0; tasks] => Some("few loops, refused 11, n zeros"),
        11 if slack.len() == tasks => Some("few loops, refused 11, n entries, not all 0"),
        11 => Some("few loops, refused 11, another count"),
        24 => Some("few loops, refused 24"),
        _ => None,
    }
}
