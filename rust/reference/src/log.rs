//! The bytes of a release log: read (refusals 14 and 15) and written.

use records::Refusal;

/// "A log tick is above 1,000,000,000" is refusal 15.
const LARGEST_TICK: u32 = 1_000_000_000;

/// "9 bytes an entry: tick (4), loop (1), demand (4)."
#[derive(Clone, Copy, Debug, PartialEq, Eq)]
pub struct Entry {
    pub tick: u32,
    pub task: u8,
    pub demand: u32,
}

/// The entries of a release log in their order, before any of 17 to 23 is tested.
#[derive(Clone, Debug, Default, PartialEq, Eq)]
pub struct Log {
    pub entries: Vec<Entry>,
}

impl Log {
    /// The entries of `bytes`, or refusal 14 or 15.
    pub fn read(bytes: &[u8]) -> Result<Log, Refusal> {
        // 14: "A log's length isn't 2 + 9 × count, or its count is absent."
        let entries = read_entries(bytes).ok_or(Refusal::whole(14))?;
        // 15: "A log tick is above 1,000,000,000." The index is the lowest such entry.
        match entries.iter().position(|entry| entry.tick > LARGEST_TICK) {
            Some(index) => Err(Refusal::at(15, index)),
            None => Ok(Log { entries }),
        }
    }

    /// The bytes of the log: "A 2-byte count, then 9 bytes an entry".
    pub fn bytes(&self) -> Vec<u8> {
        let count = u16::try_from(self.entries.len()).expect("a count fits in two bytes");
        let mut bytes = count.to_le_bytes().to_vec();
        for entry in &self.entries {
            bytes.extend(entry.tick.to_le_bytes());
            bytes.push(entry.task);
            bytes.extend(entry.demand.to_le_bytes());
        }
        bytes
    }
}

/// The entries, or nothing where the count is absent or is not the number of entries that follow.
fn read_entries(bytes: &[u8]) -> Option<Vec<Entry>> {
    let (count, entries) = bytes.split_at_checked(2)?;
    let count = number(count) as usize;
    if entries.len() != 9 * count {
        return None;
    }
    Some(entries.chunks(9).map(read_entry).collect())
}

fn read_entry(bytes: &[u8]) -> Entry {
    Entry { tick: number(&bytes[..4]), task: bytes[4], demand: number(&bytes[5..]) }
}

/// "Multi-byte numbers are unsigned, low byte first."
fn number(bytes: &[u8]) -> u32 {
    bytes.iter().rev().fold(0, |high, &byte| high * 256 + u32::from(byte))
}
