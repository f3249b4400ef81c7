//! The wrapper on tables with no more loops than cores: document 02, §7.

use dahomike::{Refusal, convert, counted, judge, run_log, sentence, wish};

/// Two loops (T, C, Y) = (10, 9, 10) and (3, 2, 0) on so many cores, labels from 0, and this slack.
fn table(cores: u8, slack: &[u32]) -> Vec<u8> {
    let mut table = vec![1, cores];
    table.extend(0..cores);
    table.push(2);
    [10, 9, 10, 3, 2, 0].iter().for_each(|number: &u32| table.extend(number.to_le_bytes()));
    table.push(slack.len() as u8);
    slack.iter().for_each(|x| table.extend(x.to_le_bytes()));
    table
}

fn refused(number: u32) -> Result<usize, Refusal> {
    Err(Refusal { number, index: 0 })
}

#[test]
fn slack_is_0_and_the_bound_is_the_budget() {
    for cores in 2..=8 {
        let mut out = [0xee; 18];
        assert_eq!(judge(&table(cores, &[]), &mut out[..15]), refused(24));
        assert_eq!(judge(&table(cores, &[]), &mut out), Ok(2));
        assert_eq!(out[..16], [0, 9, 0, 2].map(u32::to_le_bytes).concat());
        assert_eq!(out[16..], [0xee; 2]);
    }
}

#[test]
fn no_loop_is_counted() {
    let mut out = [0xee; 7];
    assert_eq!(counted(&table(4, &[]), &mut out), Ok(0));
    assert_eq!(counted(&table(2, &[]), &mut []), Ok(0));
    assert_eq!(out, [0xee; 7]);
}

#[test]
fn no_slack_may_be_offered() {
    let mut out = [0xee; 16];
    for slack in [&[0, 0][..], &[0], &[7, 7], &[0; 3]] {
        assert_eq!(judge(&table(2, slack), &mut out), refused(11), "{slack:?}");
    }
    assert_eq!(judge(&[1, 2, 0, 1, 0, 0], &mut out), refused(5));
    assert_eq!(out, [0xee; 16]);
}

#[test]
fn a_release_finishes_after_its_demand() {
    // Each at tick 0 with its budget, and the second loop too soon and then again.
    let mut log = vec![4, 0];
    for (tick, task, demand) in [(0u32, 0, 9u32), (0, 1, 2), (2, 1, 2), (3, 1, 1)] {
        log.extend(tick.to_le_bytes());
        log.push(task);
        log.extend(demand.to_le_bytes());
    }
    let mut out = [0xee; 32];
    assert_eq!(run_log(&table(2, &[]), &log, &mut out), Ok((3, 1)));
    assert_eq!(out[..], [1, 9, 1, 2, 2, 22, 1, 4].map(u32::to_le_bytes).concat());
}

#[test]
fn neither_a_sheet_nor_to_be_converted() {
    let mut out = [0xee; 60];
    // The second offset is 0, which is refused 29 where 31 is not met.
    assert_eq!(convert(&table(2, &[]), 2, &mut out), refused(31));
    assert_eq!(convert(&table(2, &[]), 2, &mut []), refused(31));
    assert_eq!(convert(&table(2, &[0, 0]), 2, &mut out), refused(11));
    assert_eq!(wish(&table(2, &[]), &mut out), refused(5));
    assert_eq!(out, [0xee; 60]);
    let told = "Refusal 31 for loop 0 onwards: for a conversion the number of loops must be above \
        the number of cores, not 2.";
    assert_eq!(sentence(31, 0, 2), told);
}
