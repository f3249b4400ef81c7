//! What tables and wish sheets show of their edition and their deadlines, by names that say what.

use crate::tables::Answer;
use reference::{Analysis, Refusal, Table, Task};

/// How often each of these is met, at least, by tables and by sheets alike.
pub const EDITIONS_AT_LEAST: [(u64, &str); 18] = [
    (20_000, "accepted, edition 1"),
    (20_000, "accepted, edition 2"),
    (5_000, "accepted, some D = 1"),
    (5_000, "accepted, some D = 1,600,000"),
    (20_000, "refused, edition 1"),
    (20_000, "refused, edition 2"),
    (1_000, "refused 1, edition 0"),
    (1_000, "refused 1, edition 3"),
    (1_000, "refused 1, edition 255"),
    (1_000, "refused 1, another edition"),
    (1_000, "refused 2, edition 1 over loops of edition 2"),
    (1_000, "refused 2, edition 2 over loops of edition 1"),
    (100, "edition 2, and the length of edition 1 too"),
    (2_000, "refused 28, D = 0"),
    (2_000, "refused 28, D = 1,600,001"),
    (5_000, "refused 28, index above 0"),
    (2_000, "refused 28, and 9 after it"),
    (2_000, "refused, and 28 after 8 or 26"),
];

/// The names of a table's or a sheet's bytes, by the answer to them.
pub fn edition_names(bytes: &[u8], answer: Answer) -> Vec<&'static str> {
    let mut names = vec![of_edition(bytes, answer)];
    names.extend(of_length(bytes, answer));
    match (Table::read(bytes), answer) {
        (Ok(table), Ok(_)) => names.extend(of_accepted(&table)),
        (Ok(table), Err(refusal)) => names.extend(of_refused(&table, refusal)),
        (Err(_), _) => {}
    }
    names
}

fn of_edition(bytes: &[u8], answer: Answer) -> &'static str {
    match (bytes.first(), answer) {
        (Some(1), Ok(_)) => "accepted, edition 1",
        (Some(2), Ok(_)) => "accepted, edition 2",
        (Some(1), Err(_)) => "refused, edition 1",
        (Some(2), Err(_)) => "refused, edition 2",
        (Some(0), _) => "refused 1, edition 0",
        (Some(3), _) => "refused 1, edition 3",
        (Some(255), _) => "refused 1, edition 255",
        (Some(_), _) => "refused 1, another edition",
        (None, _) => "refused 1, no edition",
    }
}

/// Where the same bytes after the other edition have the length that their counts give.
fn of_length(bytes: &[u8], answer: Answer) -> Option<&'static str> {
    let (edition, sections) = bytes.split_first()?;
    let exchanged = |edition: u8| [&[edition], sections].concat();
    let short = answer == Err(Refusal::whole(2));
    match edition {
        1 if Table::read(&exchanged(2)).is_err() => None,
        2 if Table::read(&exchanged(1)).is_err() => None,
        1 if short => Some("refused 2, edition 1 over loops of edition 2"),
        2 if short => Some("refused 2, edition 2 over loops of edition 1"),
        1 => Some("edition 1, and the length of edition 2 too"),
        2 => Some("edition 2, and the length of edition 1 too"),
        _ => None,
    }
}

fn of_accepted(table: &Table) -> Vec<&'static str> {
    let any = |deadline| table.tasks.iter().any(|task| task.deadline == deadline);
    those_met([(any(1), "accepted, some D = 1"), (any(1_600_000), "accepted, some D = 1,600,000")])
}

/// 28, and what is refused before and after it.
fn of_refused(table: &Table, refusal: Refusal) -> Vec<&'static str> {
    let Refusal { number, index } = refusal;
    let bad = |task: &Task| !(1..=1_600_000).contains(&task.deadline);
    if number == 8 || number == 26 {
        let too = table.edition == 2 && table.tasks.iter().any(bad);
        return those_met([(too, "refused, and 28 after 8 or 26")]);
    }
    if number != 28 {
        return vec![];
    }
    let deadline = table.tasks[index as usize].deadline;
    let long = Analysis::new(table.labels.len(), &table.tasks).is_none();
    those_met([
        (deadline == 0, "refused 28, D = 0"),
        (deadline == 1_600_001, "refused 28, D = 1,600,001"),
        (index > 0, "refused 28, index above 0"),
        (long, "refused 28, and 9 after it"),
    ])
}

fn those_met<const N: usize>(names: [(bool, &'static str); N]) -> Vec<&'static str> {
    names.into_iter().filter(|(met, _)| *met).map(|(_, name)| name).collect()
}
