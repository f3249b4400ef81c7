//! Heads with equal priority points, of which document 02, §8, says: "Among equal priority points
//! the earlier release now runs first, and the lower loop only if these are equal too."

use reference::Head;

/// Which pairs of heads with equal points were met, by what decided between the two: their releases,
/// where the lower loop would have decided otherwise, or the loops, where the releases are equal.
#[derive(Default)]
pub struct Ties {
    /// One of the two runs and the other waits, by whichever.
    pub one_waits: bool,
    pub one_waits_by_release: bool,
    pub one_waits_by_loop: bool,
    /// Both run, on cores in their order.
    pub both_run_by_release: bool,
    pub both_run_by_loop: bool,
}

impl Ties {
    /// Adds what the heads of a tick show. They stand in the order in which they run, on so many
    /// cores.
    pub fn look(&mut self, heads: &[Head], cores: usize) {
        for (place, second) in heads.iter().enumerate() {
            let before = &heads[..place.min(cores)];
            for first in before.iter().filter(|first| first.point == second.point) {
                let by_release = first.release < second.release && first.task > second.task;
                let by_loop = first.release == second.release && first.task < second.task;
                let waits = place >= cores;
                self.one_waits |= waits;
                self.one_waits_by_release |= waits && by_release;
                self.one_waits_by_loop |= waits && by_loop;
                self.both_run_by_release |= !waits && by_release;
                self.both_run_by_loop |= !waits && by_loop;
            }
        }
    }
}
