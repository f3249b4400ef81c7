//! Tables of tasks alike, with few different separations and offsets: their jobs can often have
//! equal priority points, from equal releases and from different ones.

use crate::log_tables::{SHORT, accepted};
use crate::plain_tables::offset;
use crate::tight_tables::tight_with;
use crate::{Random, Shape, either};
use reference::{Plan, Table, judge};

/// An accepted one with separations of at most 72 ticks, so that much happens in a few hundred.
pub fn alike_short(random: &mut Random) -> Table {
    accepted(random, |random| {
        let separations = random.pick(&SHORT);
        alike(random, &separations)
    })
}

/// An accepted one with separations, and some offsets, up to 100,000.
pub fn alike_long(random: &mut Random) -> Table {
    accepted(random, |random| {
        let any = random.between(8, 50_000);
        let half = random.pick(&[50_000, 50_000, any]);
        alike(random, &[half, 2 * half])
    })
}

/// The plan of an accepted one.
pub fn alike_plan(random: &mut Random) -> Plan {
    let make = random.pick(&[alike_short, alike_short, alike_long]);
    judge(&make(random).bytes()).expect("the table is accepted")
}

/// Tasks that fill the cores, most often all with the same separation, and each with one of three
/// offsets: two near each other, so that of two jobs with equal points the older is often not done
/// when the other is released, and any third.
fn alike(random: &mut Random, separations: &[u32]) -> Table {
    let shape = Shape::any(random);
    let one = [random.pick(separations)];
    let separations = if random.once_in(3) { separations } else { &one };
    let mut table = tight_with(random, shape, separations);
    let longest = table.tasks.iter().map(|task| task.separation).max().expect("there are tasks");
    let (first, third) = (offset(random, longest), offset(random, longest));
    let apart = random.between(1, 1 + longest / 8);
    let second = if first >= apart { first - apart } else { first + apart };
    for task in &mut table.tasks {
        task.offset = random.pick(&[first, first, second, second, third]).min(task.separation);
    }
    either(random, table)
}
