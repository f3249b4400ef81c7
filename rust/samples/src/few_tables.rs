//! Tables with few loops, that is no more than cores (document 02, §7), and with one loop more
//! beside them.

use crate::faulty_tables::with_faults;
use crate::log_tables::{accepted, short_separations};
use crate::plain_tables::{loaded, long_separations, mixed_separations, without_slack};
use crate::{Random, Shape, either};
use reference::{Plan, Table, Task, judge};

/// A table with few loops and without slack. Most are accepted, the others meet 9.
pub fn few(random: &mut Random) -> Table {
    let make = random.pick(&[mixed_separations, long_separations, short_separations]);
    of(random, make)
}

/// An accepted one with separations of at most 72 ticks, so that much happens in a few hundred.
pub fn few_short(random: &mut Random) -> Table {
    of(random, short_separations)
}

/// An accepted one with separations up to 100,000.
pub fn few_accepted(random: &mut Random) -> Table {
    accepted(random, few)
}

/// The plan of an accepted one.
pub fn few_plan(random: &mut Random) -> Plan {
    let make = random.pick(&[few_accepted, few_short, few_short]);
    judge(&make(random).bytes()).expect("the table is accepted")
}

/// One loop more than cores, made as few loops are but for its load; many are accepted.
pub fn one_more(random: &mut Random) -> Table {
    let cores = random.between(2, 8) as usize;
    let make = random.pick(&[mixed_separations, long_separations, short_separations]);
    let separations = make(random, cores + 1);
    loaded(random, cores, &separations)
}

/// A table with few loops that offers slack: an entry for each loop, often zeros, or another number
/// of entries.
pub fn few_offering(random: &mut Random) -> Table {
    let mut table = few(random);
    let (cores, tasks) = (table.labels.len(), table.tasks.len());
    let any = random.between(1, 40) as usize;
    let count = random.pick(&[tasks, tasks, tasks, 1, tasks + 1, cores, any]);
    let entry = random.pick(&[0, 0, 0, 1, 1000, u32::MAX]);
    table.slack = vec![entry; count];
    table
}

/// A table with few loops that has one to three faults as others have them.
pub fn faulty_few(random: &mut Random) -> Table {
    let make = random.pick(&[few, few, few_offering]);
    let table = make(random);
    with_faults(random, table)
}

/// Few loops with offsets on both sides of their budgets and, in edition 2, deadlines there too.
fn of(random: &mut Random, separations: fn(&mut Random, usize) -> Vec<u32>) -> Table {
    let shape = Shape::few(random);
    let tasks = separations(random, shape.tasks).into_iter().map(|separation| {
        let any = random.between(1, separation);
        let budget = random.pick(&[1, any, any, separation]);
        let any = random.between(0, separation);
        let offset = random.pick(&[0, budget - 1, budget, budget + 1, any, separation]);
        Task::new(separation, budget, offset.min(separation))
    });
    let tasks = tasks.collect();
    let table = without_slack(random, shape.cores, tasks);
    either(random, table)
}
