//! Bytes that are no longer, or never were, those of a log with ticks up to 1,000,000,000.

use crate::Random;

/// The bytes of a log cut or lengthened, with another count, or with ticks above 1,000,000,000.
/// No tick up to that changes, so that a run of a log that is still a log is no longer than before.
pub fn damaged_log(random: &mut Random, mut bytes: Vec<u8>) -> Vec<u8> {
    match random.index(8) {
        0 => bytes.truncate(random.index(bytes.len())),
        1 => bytes.truncate(bytes.len() - 1),
        2 => bytes.push(random.bits() as u8),
        3 => bytes.extend([0; 9]),
        4 => change_count(random, &mut bytes),
        5 => bytes.truncate(random.index(3)),
        _ => raise_ticks(random, &mut bytes),
    }
    bytes
}

/// Random bytes after a count that agrees with their length, ticks below 2^30.
pub fn noise_log(random: &mut Random) -> Vec<u8> {
    let count = random.index(30);
    let mut bytes = vec![0; 2 + 9 * count];
    random.fill(&mut bytes);
    bytes[..2].copy_from_slice(&(count as u16).to_le_bytes());
    let small = random.once_in(2);
    for entry in bytes[2..].chunks_mut(9) {
        entry[3] &= 0x3f;
        if small {
            // Tasks that are in most tables, and demands that are within some budgets.
            entry[4] %= 8;
            entry[6..].fill(0);
        }
    }
    bytes
}

fn change_count(random: &mut Random, bytes: &mut [u8]) {
    let count = u16::from_le_bytes([bytes[0], bytes[1]]);
    let any = random.bits() as u16;
    let changed = random.pick(&[count.wrapping_add(1), count.wrapping_sub(1), count ^ 256, any]);
    bytes[..2].copy_from_slice(&changed.to_le_bytes());
}

/// One to three ticks above 1,000,000,000, where there are entries.
fn raise_ticks(random: &mut Random, bytes: &mut [u8]) {
    let count = (bytes.len() - 2) / 9;
    if count == 0 {
        return;
    }
    for _ in 0..random.between(1, 3) {
        let at = 2 + 9 * random.index(count);
        let any = random.between(1_000_000_001, u32::MAX);
        let tick = random.pick(&[1_000_000_001, u32::MAX, 1 << 31, any]);
        bytes[at..at + 4].copy_from_slice(&tick.to_le_bytes());
    }
}
