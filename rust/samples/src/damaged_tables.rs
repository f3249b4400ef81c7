//! Bytes that are no longer, or never were, those of a table.

use crate::Random;

/// The bytes of a table cut, lengthened, of another edition, or with some bits, bytes or numbers
/// changed.
pub fn damaged_table(random: &mut Random, mut bytes: Vec<u8>) -> Vec<u8> {
    match random.index(7) {
        0 => bytes.truncate(random.index(bytes.len())),
        1 => lengthen(random, &mut bytes),
        2 | 3 => bytes[0] = other_edition(random, bytes[0]),
        4 => change(random, &mut bytes, |random, byte| *byte ^= 1 << random.index(8)),
        5 => change(random, &mut bytes, |random, byte| *byte = random.bits() as u8),
        _ => change_number(random, &mut bytes),
    }
    bytes
}

/// Random bytes, most of them with edition 1 or 2, some with counts that agree with their length.
pub fn noise_table(random: &mut Random) -> Vec<u8> {
    let mut bytes = vec![0; random.index(220)];
    random.fill(&mut bytes);
    match random.index(4) {
        0 => {}
        1 => replace(&mut bytes, 0, random.pick(&[1, 2])),
        _ => counted(random, &mut bytes),
    }
    bytes
}

/// Editions 1 and 2 exchanged, the entries as they were; or no edition at all.
fn other_edition(random: &mut Random, edition: u8) -> u8 {
    let (exchanged, any) = (3 - edition, random.bits() as u8);
    random.pick(&[exchanged, exchanged, exchanged, 0, 3, 255, any])
}

fn lengthen(random: &mut Random, bytes: &mut Vec<u8>) {
    let mut tail = vec![0; 1 + random.index(20)];
    if random.once_in(2) {
        random.fill(&mut tail);
    }
    bytes.extend(tail);
}

/// One to four bytes changed.
fn change(random: &mut Random, bytes: &mut [u8], change: fn(&mut Random, &mut u8)) {
    for _ in 0..random.between(1, 4) {
        let at = random.index(bytes.len());
        change(random, &mut bytes[at]);
    }
}

/// Four bytes replaced by a number at an end of some range.
fn change_number(random: &mut Random, bytes: &mut [u8]) {
    if bytes.len() >= 4 {
        let at = random.index(bytes.len() - 3);
        let ends = [0, 1, u32::MAX, 1 << 31, 100_000, 100_001, 1_600_000, 1_600_001];
        let number: u32 = random.pick(&ends);
        bytes[at..at + 4].copy_from_slice(&number.to_le_bytes());
    }
}

/// The counts of a table of some shape, and its length, over bytes of any kind.
fn counted(random: &mut Random, bytes: &mut Vec<u8>) {
    let cores = random.index(10);
    let tasks = random.index(18);
    let slack = if random.once_in(2) { tasks } else { random.index(18) };
    let (edition, size) = random.pick(&[(1, 12), (2, 16)]);
    bytes.resize(4 + cores + size * tasks + 4 * slack, 0);
    replace(bytes, 0, edition);
    replace(bytes, 1, cores as u8);
    replace(bytes, 2 + cores, tasks as u8);
    replace(bytes, 3 + cores + size * tasks, slack as u8);
    let rising = random.once_in(2);
    for (core, label) in bytes[2..2 + cores].iter_mut().enumerate() {
        if rising {
            *label = 3 * core as u8;
        }
    }
}

fn replace(bytes: &mut [u8], at: usize, byte: u8) {
    if let Some(place) = bytes.get_mut(at) {
        *place = byte;
    }
}
