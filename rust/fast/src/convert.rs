//! A table of one edition written as a table of the other: 1 to 13, 28, 31, 29 or 30, and 24.
//!
//! Where it is not refused, all that the editions share is copied as it stands: the labels, the
//! first 12 bytes of each entry, and the slack.

use std::hint::black_box;

use crate::table::{DEADLINE, Fields, OFFSET};
use crate::{Judged, refuse};
use records::Refusal;

/// Judges a table and writes it to `out` in the wanted edition, as the C function does. The
/// judgement names the counted tasks too, and they are not worked out in vain: it is timed.
pub fn convert(table: &[u8], edition: u32, out: &mut [u8]) -> Result<usize, Refusal> {
    let unwanted = table.first().is_some_and(|&first| u32::from(first) == edition);
    if !matches!(edition, 1 | 2) || unwanted {
        return refuse(1, 0);
    }
    let judged = Judged::of(table)?;
    black_box(&judged.names);
    if judged.is_few() {
        return refuse(31, 0);
    }
    if edition == 2 {
        test(29, judged.tasks.used(), |task| task[OFFSET] != 0)?;
        write::<12, 16>(2, table, &judged, out)
    } else {
        test(30, judged.tasks.used(), |task| task[DEADLINE] == task[OFFSET])?;
        write::<16, 12>(1, table, &judged, out)
    }
}

fn test(number: u32, tasks: &[Fields], passes: fn(&Fields) -> bool) -> Result<(), Refusal> {
    match tasks.iter().position(|task| !passes(task)) {
        Some(k) => refuse(number, k),
        None => Ok(()),
    }
}

/// 24, and the table's bytes with entries of another size.
fn write<const FROM: usize, const TO: usize>(
    edition: u8,
    table: &[u8],
    judged: &Judged,
    out: &mut [u8],
) -> Result<usize, Refusal> {
    let count = judged.tasks.count;
    // The edition, the labels after their count, and the count of the tasks.
    let (head, rest) = table.split_at(3 + judged.cores);
    let (entries, slack) = rest.split_at(FROM * count);
    let length = head.len() + TO * count + slack.len();
    let Some(out) = out.get_mut(..length) else {
        return refuse(24, 0);
    };
    let (head_out, rest) = out.split_at_mut(head.len());
    let (entries_out, slack_out) = rest.split_at_mut(TO * count);
    head_out.copy_from_slice(head);
    head_out[0] = edition;
    let entries_out = entries_out.as_chunks_mut::<TO>().0.iter_mut();
    for (to, from) in entries_out.zip(entries.as_chunks::<FROM>().0) {
        to[..12].copy_from_slice(&from[..12]);
        // The deadline, which entries of 16 bytes have, is the offset: bytes 8 to 11.
        to[12..].copy_from_slice(&from[8..TO - 4]);
    }
    slack_out.copy_from_slice(slack);
    Ok(length)
}
