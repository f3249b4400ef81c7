//! Wish sheets: tables with the wished bound W in the offset's place and slack count 0.

use crate::plain_tables::without_slack;
use crate::tight_tables::tight_with;
use crate::{
    Random, Shape, any_tight, either, few, few_offering, long, mixed, one_more, steep, tight,
};
use reference::{Table, Task, judge};

/// Separations of sheets that may take as many rounds as m × T.
const BRISK: [[u32; 4]; 6] = [
    [2, 3, 4, 6],
    [16, 24, 32, 48],
    [60, 120, 180, 360],
    [100, 200, 500, 1000],
    [30, 210, 420, 630],
    [17, 34, 51, 51],
];

/// A sheet with wishes that leave room: they are bounds of a plan for the same loops, or longer.
pub fn roomy_sheet(random: &mut Random) -> Table {
    let table = any_loops(random);
    with_room(random, table)
}

/// The same with shares that add up to exactly m × H.
pub fn tight_sheet(random: &mut Random) -> Table {
    let table = brisk_tight(random);
    let sheet = if random.once_in(2) { wishing_anything } else { with_room };
    sheet(random, table)
}

/// A sheet of edition 1 and of this shape with wishes that leave room, and with shares that add up
/// to exactly m × H.
pub fn wishing(random: &mut Random, shape: Shape) -> Table {
    let table = tight(random, shape);
    with_room(random, table)
}

/// A sheet with wishes from C to 16 × T, whether there is a solution or not.
pub fn any_sheet(random: &mut Random) -> Table {
    let table = any_loops(random);
    wishing_anything(random, table)
}

/// A sheet with no more loops than cores, some with slack, or with one loop more than cores; its
/// wishes are from C to 16 × T.
pub fn few_sheet(random: &mut Random) -> Table {
    let make = random.pick(&[few, few, few_offering, one_more]);
    let table = make(random);
    wishing_anything(random, table)
}

/// A sheet with some wishes at C, below it, at 16 × T and above it.
pub fn end_sheet(random: &mut Random) -> Table {
    let mut sheet = roomy_sheet(random);
    for _ in 0..random.between(1, 4) {
        let place = random.index(sheet.tasks.len());
        let task = &mut sheet.tasks[place];
        let (least, most) = (task.budget, 16 * task.separation);
        task.offset = random.pick(&[least, most, most, least - 1, most + 1]);
    }
    sheet
}

/// Two cores, three loops with separations of up to 3 ticks, and so small wishes that every offset
/// and slack can be tried. It meets no number before 27.
pub fn tiny_sheet(random: &mut Random) -> Table {
    loop {
        let task = |random: &mut Random| {
            let separation = random.between(1, 3);
            let budget = random.between(1, separation);
            Task::new(separation, budget, budget + random.between(0, 6))
        };
        let tasks: Vec<Task> = (0..3).map(|_| task(random)).collect();
        let share = |task: &Task| 6 / task.separation * task.budget;
        if tasks.iter().map(share).sum::<u32>() <= 2 * 6 {
            let sheet = without_slack(random, 2, tasks);
            return either(random, sheet);
        }
    }
}

/// Two sheets that differ by one tick of one wish: the first has no solution, the second has one.
pub fn edge_sheets(random: &mut Random) -> [Table; 2] {
    let sheet = with_solution(random, roomy_sheet);
    if random.once_in(2) { edge_of_one(random, sheet) } else { edge_of_all(random, sheet) }
}

/// The same with shares that add up to m × H or one less: there the raising may take many rounds.
pub fn tight_edge_sheets(random: &mut Random) -> [Table; 2] {
    let make = random.pick(&[roomy_tight, lingering, lingering]);
    let sheet = with_solution(random, make);
    if random.once_in(4) { edge_of_one(random, sheet) } else { edge_of_all(random, sheet) }
}

fn roomy_tight(random: &mut Random) -> Table {
    let table = brisk_tight(random);
    with_room(random, table)
}

/// One separation, and wishes of 16 × T for the m − 1 loops that are to be counted. Where the
/// others wish so little that they have just no solution, they lose their offsets tick by tick.
fn lingering(random: &mut Random) -> Table {
    let shape = Shape::any(random);
    let separation = random.between(20, 2000);
    let mut sheet = tight_with(random, shape, &[separation]);
    let place = random.index(shape.tasks);
    if random.once_in(2) && sheet.tasks[place].budget > 1 {
        sheet.tasks[place].budget -= 1;
    }
    for (k, task) in sheet.tasks.iter_mut().enumerate() {
        let multiple = if k < shape.cores - 1 { 16 } else { 8 };
        task.offset = multiple * task.separation;
    }
    either(random, sheet)
}

/// A table of any of the kinds whose loops wishes are made for.
fn any_loops(random: &mut Random) -> Table {
    let make = random.pick(&[mixed, mixed, long, steep, any_tight]);
    make(random)
}

fn brisk_tight(random: &mut Random) -> Table {
    let shape = Shape::any(random);
    let separations = random.pick(&BRISK);
    let table = tight_with(random, shape, &separations);
    either(random, table)
}

/// The table with the bounds of its own plan as wishes, or some ticks more, where it has one.
fn with_room(random: &mut Random, mut table: Table) -> Table {
    let Ok(plan) = judge(&table.bytes()) else {
        return wishing_anything(random, table);
    };
    let alike = random.pick(&[0, 1, 4, 10]);
    for (k, task) in table.tasks.iter_mut().enumerate() {
        let bound = u32::try_from(plan.bound(k)).expect("a bound is at most 16 × T");
        let more = random.between(0, alike * task.separation);
        task.offset = (bound + more).min(16 * task.separation);
    }
    table
}

fn wishing_anything(random: &mut Random, mut table: Table) -> Table {
    let alike = random.pick(&[1, 2, 4, 16]);
    for task in &mut table.tasks {
        let most = (alike * task.separation).max(task.budget);
        task.offset = random.between(task.budget, most);
    }
    table
}

/// The first sheet that a maker makes and that has a solution.
fn with_solution(random: &mut Random, make: fn(&mut Random) -> Table) -> Table {
    loop {
        let sheet = make(random);
        if is_solved(&sheet) {
            return sheet;
        }
    }
}

/// One wish lowered until the solution is just lost.
fn edge_of_one(random: &mut Random, sheet: Table) -> [Table; 2] {
    let place = random.index(sheet.tasks.len());
    let lowered = |ticks: u32| {
        let mut sheet = sheet.clone();
        sheet.tasks[place].offset -= ticks;
        sheet
    };
    let ticks = most_ticks(room(&sheet.tasks[place]), lowered);
    [lowered(ticks + 1), lowered(ticks)]
}

/// All wishes lowered alike, to C at most, until the next tick loses the solution; then one after
/// another by that tick, until it is lost.
fn edge_of_all(random: &mut Random, sheet: Table) -> [Table; 2] {
    let lowered = |ticks: u32| {
        let mut sheet = sheet.clone();
        for task in &mut sheet.tasks {
            task.offset -= ticks.min(room(task));
        }
        sheet
    };
    let most = sheet.tasks.iter().map(room).max().expect("there are loops");
    let mut solved = lowered(most_ticks(most, lowered));
    let count = solved.tasks.len();
    let first = random.index(count);
    for step in 0..count {
        let mut next = solved.clone();
        next.tasks[(first + step) % count].offset -= 1;
        if !is_solved(&next) {
            return [next, solved];
        }
        solved = next;
    }
    unreachable!("with one tick less everywhere the solution is lost");
}

/// What a wish leaves for offset and slack together.
fn room(task: &Task) -> u32 {
    task.offset - task.budget
}

/// The most ticks with which a sheet still has a solution, by halving. With none it has one, and
/// with `most` it has none: some loop is left neither offset nor slack, and its surplus alone is
/// its H × C, to which A adds more.
fn most_ticks(most: u32, lowered: impl Fn(u32) -> Table) -> u32 {
    let (mut solved, mut lost) = (0, most);
    while solved + 1 < lost {
        let middle = (solved + lost) / 2;
        if is_solved(&lowered(middle)) {
            solved = middle;
        } else {
            lost = middle;
        }
    }
    solved
}

/// By the form written for speed, since the reference takes long where a solution is just lost.
/// Whether it is an edge by the reference is for those to see who use it.
fn is_solved(sheet: &Table) -> bool {
    fast::wish_into(&sheet.bytes(), &mut [0; 12 * 16]).is_ok()
}
