//! Twins: a table or a sheet of edition 1, and one of edition 2 that has the same cores, T, C, Y
//! and slack. What the C functions of the proved code answer and write is the same for both.

use std::fmt::Debug;

use crate::TwinTally;
use crate::lent::{Held, Lent, same_bytes};
use reference::{Refusal, Table};
use samples::{Random, with_deadlines};

/// The bytes of twins, and how many cores and tasks they have.
pub struct Twins {
    bytes: [Vec<u8>; 2],
    cores: usize,
    tasks: usize,
}

impl Twins {
    /// The twins of a table of either edition, with any deadlines that 28 allows.
    pub fn new(random: &mut Random, table: &Table) -> Twins {
        let first = Table { edition: 1, ..table.clone() };
        let second = with_deadlines(random, first.clone());
        let (cores, tasks) = (table.labels.len(), table.tasks.len());
        Twins { bytes: [first.bytes(), second.bytes()], cores, tasks }
    }

    /// Judges both, and has the counted loops of both named.
    pub fn compare_judgement(&self, random: &mut Random, tally: &mut TwinTally) {
        let judged = self.compare(random, 8 * self.tasks, dahomike::judge);
        tally.count("judged", judged);
        let named = self.compare(random, self.cores.saturating_sub(1), dahomike::counted);
        tally.count("named", named);
    }

    /// Has the wishes of both answered, as sheets.
    pub fn compare_wish(&self, random: &mut Random, tally: &mut TwinTally) {
        let wished = self.compare(random, 12 * self.tasks, dahomike::wish);
        tally.count("wished", wished);
    }

    /// Runs a log on both: "A log gives the same entries and counts under accepted tables of either
    /// edition where cores, T, C, Y and slack agree."
    pub fn compare_log(&self, random: &mut Random, log: &[u8], tally: &mut TwinTally) {
        let needed = 8 * log.len().saturating_sub(2).div_ceil(9);
        let held = Held::new(random, log);
        let run = |table: &[u8], out: &mut [u8]| dahomike::run_log(table, held.part(), out);
        let counts = self.compare(random, needed, run);
        tally.count("log run", counts);
        if let Ok((taken, refused)) = counts {
            tally.count_run(taken, refused);
        }
    }

    /// Makes a call on both, each with a copy of one buffer of about as many bytes as needed. The
    /// answer comes back.
    fn compare<A: Copy + Debug + PartialEq>(
        &self,
        random: &mut Random,
        needed: usize,
        call: impl Fn(&[u8], &mut [u8]) -> Result<A, Refusal>,
    ) -> Result<A, Refusal> {
        let mut expected = Lent::new(random, needed, 40);
        let mut by_second = expected.clone();
        let [first, second] = self.bytes.each_ref().map(|table| Held::new(random, table));
        let answer = call(first.part(), expected.buffer());
        assert_eq!(call(second.part(), by_second.buffer()), answer, "twins {:?}", self.bytes);
        same_bytes("edition 2", &by_second, &expected, &self.bytes);
        answer
    }
}
