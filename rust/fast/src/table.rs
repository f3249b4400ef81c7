//! The table's bytes taken apart and its own fields tested: 1 to 8, or 26 on a wish sheet, and 28.

use crate::refuse;
use records::Refusal;

pub const TASKS: usize = 16;

/// T, C, Y and D of a task, as they stand in the words of a state.
pub type Fields = [u32; 4];

pub const SEPARATION: usize = 0;
pub const BUDGET: usize = 1;
pub const OFFSET: usize = 2;
pub const DEADLINE: usize = 3;

/// Sixteen places for tasks, of which the first `count` are used.
pub struct Tasks {
    pub count: usize,
    pub places: [Fields; TASKS],
}

impl Tasks {
    pub const NONE: Tasks = Tasks { count: 0, places: [[0; 4]; TASKS] };

    pub fn used(&self) -> &[Fields] {
        &self.places[..self.count]
    }
}

const LONGEST_SEPARATION: u32 = 100_000;

const LONGEST_DEADLINE: u32 = 1_600_000;

/// The entries of the three sections, in the lent bytes.
pub struct Sections<'a> {
    pub labels: &'a [u8],
    pub tasks: Entries<'a>,
    pub slack: &'a [[u8; 4]],
}

/// The entries of the tasks: without deadlines in edition 1, with them in edition 2.
#[derive(Clone, Copy)]
pub enum Entries<'a> {
    One(&'a [[u8; 12]]),
    Two(&'a [[u8; 16]]),
}

impl<'a> Sections<'a> {
    /// 1 and 2.
    pub fn split(table: &[u8]) -> Result<Sections<'_>, Refusal> {
        let sections = match table {
            [1, rest @ ..] => Sections::after_edition(rest, Entries::One),
            [2, rest @ ..] => Sections::after_edition(rest, Entries::Two),
            _ => return refuse(1, 0),
        };
        match sections {
            Some(sections) => Ok(sections),
            None => refuse(2, 0),
        }
    }

    fn after_edition<const SIZE: usize>(
        bytes: &'a [u8],
        entries: fn(&'a [[u8; SIZE]]) -> Entries<'a>,
    ) -> Option<Sections<'a>> {
        let (&cores, rest) = bytes.split_first()?;
        let (labels, rest) = rest.split_at_checked(usize::from(cores))?;
        let (&tasks, rest) = rest.split_first()?;
        let (tasks, rest) = rest.split_at_checked(SIZE * usize::from(tasks))?;
        let (&offers, slack) = rest.split_first()?;
        if slack.len() != 4 * usize::from(offers) {
            return None;
        }
        Some(Sections { labels, tasks: entries(tasks.as_chunks().0), slack: slack.as_chunks().0 })
    }

    /// The number of cores: 3 and 4.
    pub fn cores(&self) -> Result<usize, Refusal> {
        cores_of(self.labels)
    }
}

/// The number of cores with these labels, bytes or words: 3 and 4.
pub fn cores_of<L: Copy + Into<u32>>(labels: &[L]) -> Result<usize, Refusal> {
    if !(2..=8).contains(&labels.len()) {
        return refuse(3, 0);
    }
    let mut lowest = 0;
    for (core, &label) in labels.iter().enumerate() {
        let label = label.into();
        if label < lowest || label > 63 {
            return refuse(4, core);
        }
        lowest = label + 1;
    }
    Ok(labels.len())
}

/// Whether there are no more tasks than cores: each with work then runs in every tick.
pub fn is_few(cores: usize, tasks: usize) -> bool {
    tasks <= cores
}

/// 5 to 8, and 28.
pub fn read_tasks(entries: Entries, tasks: &mut Tasks) -> Result<(), Refusal> {
    read_either(entries, 1, tasks, 8, |separation, _, offset| offset > separation)
}

/// 5 to 7, 26 and 28: the offsets are wishes, and there are more tasks than cores.
pub fn read_wishes(entries: Entries, cores: usize, tasks: &mut Tasks) -> Result<(), Refusal> {
    // Where a separation is so long that 16 × T does not fit, 6 is met before.
    read_either(entries, cores + 1, tasks, 26, |separation, budget, wish| {
        wish < budget || wish > separation.saturating_mul(16)
    })
}

fn read_either(
    entries: Entries,
    fewest: usize,
    tasks: &mut Tasks,
    third: u32,
    fails: impl Fn(u32, u32, u32) -> bool,
) -> Result<(), Refusal> {
    match entries {
        Entries::One(entries) => read_fields(entries, fewest, tasks, third, fails),
        Entries::Two(entries) => read_fields(entries, fewest, tasks, third, fails),
    }
}

/// One pass reads the fields and keeps a bit for each task that fails 6, 7, the number `third`,
/// which the third field fails, or 28, where there is a fourth. The tasks come as zeros: an answer
/// that carried them would be copied more than once.
fn read_fields<const SIZE: usize>(
    entries: &[[u8; SIZE]],
    fewest: usize,
    tasks: &mut Tasks,
    third: u32,
    fails: impl Fn(u32, u32, u32) -> bool,
) -> Result<(), Refusal> {
    let count = entries.len();
    if count < fewest || count > TASKS {
        return refuse(5, 0);
    }
    tasks.count = count;
    let mut failing = [0u32; 4];
    for (i, entry) in entries.iter().enumerate() {
        let fields = entry.as_chunks().0;
        let [separation, budget, offset] = [0, 1, 2].map(|at| u32::from_le_bytes(fields[at]));
        tasks.places[i] = [separation, budget, offset, 0];
        // A 0 less 1 wraps to the largest number, so one comparison tests both ends.
        failing[0] |= u32::from(separation.wrapping_sub(1) >= LONGEST_SEPARATION) << i;
        failing[1] |= u32::from(budget.wrapping_sub(1) >= separation) << i;
        failing[2] |= u32::from(fails(separation, budget, offset)) << i;
        if let Some(&deadline) = fields.get(3) {
            let deadline = u32::from_le_bytes(deadline);
            tasks.places[i][DEADLINE] = deadline;
            failing[3] |= u32::from(!deadline_passes(deadline)) << i;
        }
    }
    for (number, tasks) in [6, 7, third, 28].into_iter().zip(failing) {
        if tasks != 0 {
            return refuse(number, tasks.trailing_zeros() as usize);
        }
    }
    Ok(())
}

fn deadline_passes(deadline: u32) -> bool {
    deadline.wrapping_sub(1) < LONGEST_DEADLINE
}

/// Whether tasks that are not read from bytes pass 5 to 8, and 28 in edition 2, with zeros past
/// `count` and for every deadline of edition 1.
pub fn tasks_pass(places: &[Fields], count: usize, edition: u32) -> bool {
    if count == 0 || count > TASKS {
        return false;
    }
    let (used, unused) = places.split_at(count);
    let passes = |&[separation, budget, offset, deadline]: &Fields| {
        separation.wrapping_sub(1) < LONGEST_SEPARATION
            && budget.wrapping_sub(1) < separation
            && offset <= separation
            && if edition == 1 { deadline == 0 } else { deadline_passes(deadline) }
    };
    used.iter().all(passes) && unused.iter().all(|fields| *fields == [0; 4])
}
