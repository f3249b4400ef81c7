//! The bytes of a show table of either edition: its three sections read (refusals 1 and 2) and
//! written.

use records::{Refusal, Task};

/// The entries of the three sections as they stand in the bytes, before any of 3 to 13 is tested.
#[derive(Clone, Debug, PartialEq, Eq)]
pub struct Table {
    /// "The first byte is the edition": 1, or 2 with deadlines.
    pub edition: u8,
    /// "Cores: m entries, one byte each, a hardware label".
    pub labels: Vec<u8>,
    /// "Loops: n entries of 12 bytes: separation T, budget C, priority offset Y, 4 bytes each." "In
    /// edition 2 a loop has 16 bytes, the deadline D last".
    pub tasks: Vec<Task>,
    /// "Per-loop slack x: one 4-byte entry for each loop, or count 0." Empty where none is offered.
    pub slack: Vec<u32>,
}

impl Table {
    /// A table of edition 1 with labels from 0, loops as (T, C, Y) and no slack.
    pub fn of(cores: u8, loops: &[(u32, u32, u32)]) -> Table {
        let tasks = loops.iter().map(|&(t, c, y)| Task::new(t, c, y)).collect();
        Table { edition: 1, labels: (0..cores).collect(), tasks, slack: vec![] }
    }

    /// The sections of `bytes`, or refusal 1 or 2.
    pub fn read(bytes: &[u8]) -> Result<Table, Refusal> {
        // 1: "The edition byte is absent"; "Number 1 now refuses bytes other than 1 and 2".
        let (&edition, sections) = bytes.split_first().ok_or(Refusal::whole(1))?;
        if edition != 1 && edition != 2 {
            return Err(Refusal::whole(1));
        }
        // 2: "The length isn't exactly what the counts give, or a count is absent."
        read_sections(edition, sections).ok_or(Refusal::whole(2))
    }

    /// The bytes of the table: "The first byte is the edition [..]. Three sections follow in this
    /// order, each after a one-byte count, and nothing follows them."
    pub fn bytes(&self) -> Vec<u8> {
        let mut bytes = vec![self.edition];
        bytes.push(count_of(self.labels.len()));
        bytes.extend(&self.labels);
        bytes.push(count_of(self.tasks.len()));
        for task in &self.tasks {
            bytes.extend(task.separation.to_le_bytes());
            bytes.extend(task.budget.to_le_bytes());
            bytes.extend(task.offset.to_le_bytes());
            if self.edition == 2 {
                bytes.extend(task.deadline.to_le_bytes());
            }
        }
        bytes.push(count_of(self.slack.len()));
        for x in &self.slack {
            bytes.extend(x.to_le_bytes());
        }
        bytes
    }
}

/// Document 02, §7: "Where loops are no more than cores". Such a table has *few* loops.
pub fn is_few(cores: usize, tasks: usize) -> bool {
    tasks <= cores
}

/// The three sections, each after its count, and nothing after them; or nothing where a count is
/// absent or the length is another.
fn read_sections(edition: u8, bytes: &[u8]) -> Option<Table> {
    let size = if edition == 2 { 16 } else { 12 };
    let (labels, rest) = section(bytes, 1)?;
    let (tasks, rest) = section(rest, size)?;
    let (slack, rest) = section(rest, 4)?;
    if !rest.is_empty() {
        return None;
    }
    Some(Table {
        edition,
        labels: labels.to_vec(),
        tasks: tasks.chunks(size).map(task).collect(),
        slack: slack.chunks(4).map(number).collect(),
    })
}

/// The entries of one section of entries of `size` bytes, after its one-byte count, and the bytes
/// that follow it.
fn section(bytes: &[u8], size: usize) -> Option<(&[u8], &[u8])> {
    let (count, rest) = bytes.split_first()?;
    rest.split_at_checked(usize::from(*count) * size)
}

/// The loop of an entry of 12 or 16 bytes: the deadline is "an unused place in edition 1".
fn task(entry: &[u8]) -> Task {
    Task {
        separation: number(&entry[0..4]),
        budget: number(&entry[4..8]),
        offset: number(&entry[8..12]),
        deadline: number(&entry[12..]),
    }
}

/// "Multi-byte numbers are unsigned, low byte first."
fn number(bytes: &[u8]) -> u32 {
    bytes.iter().rev().fold(0, |high, byte| high * 256 + u32::from(*byte))
}

fn count_of(entries: usize) -> u8 {
    u8::try_from(entries).expect("a section has at most 255 entries")
}
