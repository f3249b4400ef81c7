//! Release logs for a table: entries that keep it, and among them some that do not.

use crate::Random;
use reference::{Entry, Log, Table};

/// Which ticks and how many entries a log has.
#[derive(Clone, Copy)]
pub enum LogKind {
    /// Ticks up to 10,000, most of them up to a few hundred: to go through tick by tick.
    Near,
    /// Ticks up to 1,000,000,000.
    Far,
}

impl LogKind {
    fn largest_tick(self) -> u32 {
        match self {
            LogKind::Near => 10_000,
            LogKind::Far => 1_000_000_000,
        }
    }

    /// The longest time that a log waits before an entry that could come at once.
    fn longest_wait(self, random: &mut Random) -> u32 {
        match self {
            LogKind::Near => random.pick(&[0, 0, 1, 2, 3, 10, 40, 1000]),
            LogKind::Far => random.pick(&[0, 1, 50, 10_000, 1_000_000, 50_000_000, 400_000_000]),
        }
    }
}

/// One entry in so many: none that a log has.
const NEVER: u64 = u64::MAX;

/// How the entries of a log are made.
struct Manner {
    /// The longest time before an entry that could come at once.
    wait: u32,
    /// One entry in so many is of any task, the others of the one that may release first.
    strays: u64,
    /// Every demand is the whole budget.
    full: bool,
    /// One entry in so many has a fault.
    faults: u64,
    /// The priority points are multiples of this, but for those of entries with a fault.
    grid: u32,
    /// How many entries, where the ticks are enough for them.
    count: usize,
}

impl Manner {
    fn any(random: &mut Random, kind: LogKind) -> Manner {
        Manner {
            wait: kind.longest_wait(random),
            strays: random.pick(&[NEVER, NEVER, 2, 4]),
            full: random.once_in(3),
            faults: random.pick(&[NEVER, NEVER, NEVER, 2, 4, 12]),
            grid: 1,
            count: match random.index(256) {
                0 => random.index(3_000),
                1..16 => random.index(150),
                16..32 => random.index(3),
                _ => random.index(40),
            },
        }
    }
}

/// A log for a table that passes 3 to 8. About half of the logs keep the table.
pub fn log(random: &mut Random, table: &Table, kind: LogKind) -> Log {
    let manner = Manner::any(random, kind);
    made(random, table, kind, &manner)
}

/// The same with priority points that are often equal: jobs of tasks with different offsets are
/// then released in different ticks, and those of tasks with equal offsets in the same tick.
pub fn tied_log(random: &mut Random, table: &Table, kind: LogKind) -> Log {
    let separations: Vec<u32> = table.tasks.iter().map(|task| task.separation).collect();
    let longest = separations.iter().copied().max().expect("a table has tasks");
    let any = random.pick(&separations);
    let grid = random.pick(&[any, any, longest, longest, 2, 3]);
    let usual = Manner::any(random, kind);
    // In most of them tasks release as soon as they may, so that many jobs are pending together.
    let wait = random.pick(&[0, 0, 0, usual.wait]);
    let strays = random.pick(&[NEVER, NEVER, NEVER, 8]);
    let count = usual.count + table.tasks.len();
    let manner = Manner { wait, strays, grid, count, ..usual };
    made(random, table, kind, &manner)
}

fn made(random: &mut Random, table: &Table, kind: LogKind, manner: &Manner) -> Log {
    let mut maker = Maker { table, largest: 0, open_from: vec![None; table.tasks.len()] };
    let mut log = Log::default();
    while log.entries.len() < manner.count {
        let mut entry = maker.good(random, manner);
        if random.once_in(manner.faults) {
            maker.spoil(random, &mut entry);
        }
        entry.tick = entry.tick.min(kind.largest_tick());
        maker.note(&entry);
        log.entries.push(entry);
        if entry.tick == kind.largest_tick() && random.once_in(4) {
            break;
        }
    }
    log
}

/// What is needed to make the next entry on purpose right or wrong.
struct Maker<'a> {
    table: &'a Table,
    largest: u32,
    /// The tick from which each task may release again, once it has released.
    open_from: Vec<Option<u32>>,
}

impl Maker<'_> {
    /// An entry that would be taken.
    fn good(&self, random: &mut Random, manner: &Manner) -> Entry {
        let tasks = self.table.tasks.len();
        let start = random.index(tasks);
        let task = if random.once_in(manner.strays) {
            start
        } else {
            let from_start = (start..tasks).chain(0..start);
            let first = from_start.min_by_key(|&task| self.earliest(task, 0, manner.grid));
            first.expect("a table has tasks")
        };
        let later = if random.once_in(4) { random.between(0, manner.wait) } else { 0 };
        let tick = self.earliest(task, later, manner.grid);
        let budget = self.table.tasks[task].budget;
        let demand = match random.index(6) {
            0 if !manner.full => 1,
            1 | 2 if !manner.full => random.between(1, budget),
            _ => budget,
        };
        Entry { tick, task: task as u8, demand }
    }

    /// The first tick with a point on the grid, so much or more after the task may release.
    fn earliest(&self, task: usize, later: u32, grid: u32) -> u32 {
        let tick = self.largest.max(self.open_from[task].unwrap_or(0)) + later;
        let offset = self.table.tasks[task].offset;
        (tick + offset).next_multiple_of(grid) - offset
    }

    /// One fault, or now and then two.
    fn spoil(&self, random: &mut Random, entry: &mut Entry) {
        for _ in 0..random.pick(&[1, 1, 2]) {
            match random.index(5) {
                0 => self.go_back(random, entry),
                1 => self.leave_table(random, entry),
                2 => self.change_demand(random, entry),
                _ => self.come_too_soon(random, entry),
            }
        }
    }

    fn go_back(&self, random: &mut Random, entry: &mut Entry) {
        if self.largest > 0 {
            let far = random.between(1, self.largest);
            entry.tick = self.largest - random.pick(&[1, far]);
        }
    }

    fn leave_table(&self, random: &mut Random, entry: &mut Entry) {
        let tasks = self.table.tasks.len() as u32;
        let any = random.between(tasks, 255);
        entry.task = random.pick(&[tasks, tasks + 1, 16, 17, 255, any]).max(tasks) as u8;
    }

    fn change_demand(&self, random: &mut Random, entry: &mut Entry) {
        let task = self.table.tasks.get(usize::from(entry.task));
        let budget = task.map_or(1, |task| task.budget);
        let above = random.between(budget + 1, u32::MAX);
        entry.demand = random.pick(&[0, budget + 1, u32::MAX, above]);
    }

    /// A tick within T of the last release of the entry's task, where there is one.
    fn come_too_soon(&self, random: &mut Random, entry: &mut Entry) {
        if let Some(&Some(open)) = self.open_from.get(usize::from(entry.task))
            && open > self.largest
        {
            let any = random.between(self.largest, open - 1);
            entry.tick = random.pick(&[self.largest, open - 1, any]);
        }
    }

    /// Keeps what the entry changes for the next ones, as the document's numbers 17 to 22 say.
    fn note(&mut self, entry: &Entry) {
        if entry.tick < self.largest {
            return;
        }
        self.largest = entry.tick;
        let place = usize::from(entry.task);
        let Some(task) = self.table.tasks.get(place) else { return };
        let open = self.open_from[place].is_none_or(|open| open <= entry.tick);
        if open && (1..=task.budget).contains(&entry.demand) {
            self.open_from[place] = Some(entry.tick + task.separation);
        }
    }
}
