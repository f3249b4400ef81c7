//! The C calls on the largest tables, the longest log, the longest sentence and a slow wish sheet
//! in a thread with a stack of 64 KiB.

#[path = "../../small_stack.rs"]
mod small_stack;

use dahomike::{convert, counted, judge, run_log, sentence_into, wish};
use small_stack::on_small_stack;

const ENTRIES: u32 = 65_535;

/// The longest sentence, of the largest index and value.
const LONGEST: &[u8] = b"Refusal 12 for loop 4294967295: its slack must be compliant if it is \
    offered and, if it is found, the smallest that is compliant, or 0 where loops are no more than \
    cores, not 18446744073709551615.";

/// Eight cores and sixteen tasks (16, 8, 16), which fill the cores, with deadlines; no slack.
fn table() -> Vec<u8> {
    [tasks(2, &[16, 8, 16, 1_600_000]), vec![0]].concat()
}

/// The same tasks with offsets as deadlines, or of edition 1, and with this slack.
fn convertible(edition: u8, slack: &[u32]) -> Vec<u8> {
    let fields = if edition == 1 { 3 } else { 4 };
    let entries = slack.iter().flat_map(|x| x.to_le_bytes()).collect();
    [tasks(edition, &[16, 8, 16, 16][..fields]), vec![slack.len() as u8], entries].concat()
}

/// The edition, eight cores, and sixteen tasks with these fields.
fn tasks(edition: u8, fields: &[u32]) -> Vec<u8> {
    let mut table = vec![edition, 8, 0, 1, 2, 3, 4, 5, 6, 7, 16];
    for _ in 0..16 {
        fields.iter().for_each(|field| table.extend(field.to_le_bytes()));
    }
    table
}

/// Eight cores and sixteen tasks whose raising takes 633,708 rounds to its solution.
fn sheet() -> Vec<u8> {
    let mut sheet = vec![1, 8, 0, 1, 2, 3, 4, 5, 6, 7, 16];
    let above = [0, 1, 1, 2, 2, 3, 3, 4, 4, 5, 5, 6, 6, 7, 7, 7];
    for (k, above) in above.into_iter().enumerate() {
        let budget = 49_996 + above;
        let wish = if k < 7 { 1_600_000 } else { budget + 166_661 + u32::from(k < 10) };
        for field in [100_000, budget, wish] {
            sheet.extend(field.to_le_bytes());
        }
    }
    sheet.push(0);
    sheet
}

/// One release in each tick, in turns, with the whole budget as demand.
fn log() -> Vec<u8> {
    let mut log = (ENTRIES as u16).to_le_bytes().to_vec();
    for tick in 0..ENTRIES {
        log.extend(tick.to_le_bytes());
        log.push((tick % 16) as u8);
        log.extend(8u32.to_le_bytes());
    }
    log
}

#[test]
fn every_call_but_the_conversion_on_a_stack_of_64_kib() {
    let (table, sheet, log) = (table(), sheet(), log());
    let mut plan = vec![0xee; 8 * 16];
    let mut names = vec![0xee; 8];
    let mut offsets = vec![0xee; 12 * 16];
    let mut answer = vec![0xee; 8 * ENTRIES as usize];
    let mut text = vec![0xee; LONGEST.len()];
    let calls = move || {
        let judged = judge(&table, &mut plan);
        let named = counted(&table, &mut names);
        let wished = wish(&sheet, &mut offsets);
        let run = run_log(&table, &log, &mut answer);
        let told = sentence_into(12, u32::MAX, u64::MAX, &mut text);
        ((judged, named, wished, run, told), (plan, names, offsets, answer, text))
    };
    let ((judged, named, wished, run, told), (plan, names, offsets, answer, text)) =
        on_small_stack(calls);
    assert_eq!(judged, Ok(16));
    // All weights are equal: the lowest seven of the sixteen are counted.
    assert_eq!(named, Ok(7));
    assert_eq!(names, [0, 1, 2, 3, 4, 5, 6, 0xee]);
    assert_eq!(wished, Ok(16));
    assert_eq!(offsets[..12], [100_000, 150_069, 300_065].map(u32::to_le_bytes).concat());
    assert_eq!(offsets[180..], [16_593, 150_068, 216_664].map(u32::to_le_bytes).concat());
    assert_eq!(run, Ok((ENTRIES as usize, 0)));
    assert_eq!(plan[..8], [11, 0, 0, 0, 35, 0, 0, 0]);
    // No task ever waits: the eight released last run.
    for (tick, entry) in (0u32..).zip(answer.chunks(8)) {
        assert_eq!(entry[..4], [1, 0, 0, 0]);
        assert_eq!(entry[4..], (tick + 8).to_le_bytes());
    }
    assert_eq!(told, Ok(LONGEST.len()));
    assert_eq!(text, LONGEST);
}

#[test]
fn the_conversion_on_a_stack_of_64_kib() {
    for slack in [&[][..], &[11; 16]] {
        let (one, two) = (convertible(1, slack), convertible(2, slack));
        assert_eq!((one.len(), two.len()), (204 + 4 * slack.len(), 268 + 4 * slack.len()));
        for (from, edition, to) in [(one.clone(), 2, two.clone()), (two, 1, one)] {
            let mut out = vec![0xee; to.len()];
            let (answer, out) = on_small_stack(move || (convert(&from, edition, &mut out), out));
            assert_eq!(answer, Ok(to.len()));
            assert_eq!(out, to);
        }
    }
}
