//! Document 02, §6: a table of one edition as a table of the other; and 31 of §7.

use crate::plan::test_each;
use crate::{Table, is_few, judge};
use records::{Refusal, Task};

/// The bytes of a table in the wanted edition, or which of 1 to 8, 28, 9 to 13, 31, and 29 or 30,
/// in this order, the call meets.
pub fn convert(bytes: &[u8], wanted: u32) -> Result<Vec<u8>, Refusal> {
    // 1: "A table already in the wanted edition, or a wanted edition other than 1 and 2".
    if wanted != 1 && wanted != 2 {
        return Err(Refusal::whole(1));
    }
    if bytes.first().is_some_and(|&edition| u32::from(edition) == wanted) {
        return Err(Refusal::whole(1));
    }
    // 29 and 30 come "both after the table's own checks".
    judge(bytes)?;
    let table = Table::read(bytes)?;
    // 31: "the converter is given such a table, tested before 29 and 30".
    if is_few(table.labels.len(), table.tasks.len()) {
        return Err(Refusal::whole(31));
    }
    let converted = if wanted == 2 { to_edition_2(table)? } else { to_edition_1(table)? };
    Ok(converted.bytes())
}

/// The same in a lent buffer: "The count of bytes written comes back and later bytes stay." On a
/// refusal "nothing lent is written".
pub fn convert_into(bytes: &[u8], wanted: u32, out: &mut [u8]) -> Result<usize, Refusal> {
    let converted = convert(bytes, wanted)?;
    // "A short buffer is refused 24, after all other checks."
    if out.len() < converted.len() {
        return Err(Refusal::whole(24));
    }
    out[..converted.len()].copy_from_slice(&converted);
    Ok(converted.len())
}

/// "Convert to edition 2 by giving each loop its offset as deadline".
fn to_edition_2(table: Table) -> Result<Table, Refusal> {
    // 29: "an offset is 0 on the way to edition 2".
    test_each(29, &table.tasks, |_, task| task.offset != 0)?;
    let dated = |task: &Task| Task { deadline: task.offset, ..*task };
    let tasks = table.tasks.iter().map(dated).collect();
    Ok(Table { edition: 2, tasks, ..table })
}

/// "and back where every deadline equals its offset".
fn to_edition_1(table: Table) -> Result<Table, Refusal> {
    // 30: "a deadline differs from its offset on the way to edition 1".
    test_each(30, &table.tasks, |_, task| task.deadline == task.offset)?;
    let undated = |task: &Task| Task::new(task.separation, task.budget, task.offset);
    let tasks = table.tasks.iter().map(undated).collect();
    Ok(Table { edition: 1, tasks, ..table })
}
