//! What the compared wish sheets met, so that a run can show that it was not empty.

use crate::counts::Counts;
use crate::edition_names::edition_names;
use crate::few_names::few_names;
use crate::tables::Answer;
use crate::wishes::numbers;
use reference::{Analysis, Refusal, Table, Task};

/// How many sheets met each refusal number, how many had a solution, and how many of either lay at
/// an edge, by a name that says which.
#[derive(Default)]
pub struct WishTally {
    sheets: u64,
    refused: Counts<u32>,
    named: Counts<&'static str>,
}

impl WishTally {
    /// All calls that were counted.
    pub fn sheets(&self) -> u64 {
        self.sheets
    }

    /// Those that met this refusal number.
    pub fn refused(&self, number: u32) -> u64 {
        self.refused.of(&number)
    }

    /// Those of this name.
    pub fn named(&self, name: &'static str) -> u64 {
        self.named.of(&name)
    }

    pub fn print(&self) {
        println!("{} sheets", self.sheets);
        self.refused.print("refused ");
        self.named.print("");
    }

    /// Counts two sheets that differ by one tick, by the answer to the one with a solution.
    pub(crate) fn count_edge(&mut self, answer: Answer) {
        self.named.count("two sheets, solved with one tick more");
        self.named.count_if(answer.is_ok(), "two sheets, solved with one tick more, and written");
    }

    /// Counts a sheet's bytes by its answer and the buffer after the call.
    pub(crate) fn count(&mut self, bytes: &[u8], answer: Answer, buffer: &[u8]) {
        self.sheets += 1;
        if let Err(Refusal { number, .. }) = answer {
            self.refused.count(number);
        }
        edition_names(bytes, answer).into_iter().for_each(|name| self.named.count(name));
        few_names(bytes, answer).into_iter().for_each(|name| self.named.count(name));
        if matches!(answer, Err(Refusal { number: 1..=6, .. })) {
            return;
        }
        let sheet = Table::read(bytes).expect("1 and 2 are passed");
        match answer {
            Ok(_) => self.count_solution(&sheet, buffer),
            Err(Refusal { number, index }) => {
                self.count_order(&sheet, number);
                self.count_refused(&sheet, number, index as usize, buffer.len());
            }
        }
        if matches!(answer, Ok(_) | Err(Refusal { number: 27, .. })) {
            self.count_rounds(bytes, answer.is_ok());
            self.count_load(&sheet, answer.is_ok());
        }
    }

    /// Where a number is met, some are met that are tested after it.
    fn count_order(&mut self, sheet: &Table, number: u32) {
        let wish = sheet.tasks.iter().any(|task| !in_range(task));
        let slack = !sheet.slack.is_empty();
        // H is known once 6 is passed, the load once 9 is.
        let analysis = Analysis::new(sheet.labels.len(), &sheet.tasks);
        let overloaded = analysis.as_ref().is_some_and(|analysis| {
            let (load, capacity) = analysis.load_and_capacity();
            load > capacity
        });
        let both = [
            (7, wish, "refused 7, and 26 after it"),
            (26, analysis.is_none(), "refused 26, and 9 after it"),
            (26, overloaded, "refused 26, and 10 after it"),
            (26, slack, "refused 26, and 11 after it"),
            (9, is_overloaded(sheet), "refused 9, and more than m cores asked for"),
            (9, slack, "refused 9, and 11 after it"),
            (10, slack, "refused 10, and 11 after it"),
            (11, number == 11 && is_unsolved(sheet), "refused 11, and 27 after it"),
        ];
        for (first, second, name) in both {
            self.named.count_if(number == first && second, name);
        }
    }

    fn count_refused(&mut self, sheet: &Table, number: u32, index: usize, length: usize) {
        let needed = 12 * sheet.tasks.len();
        match number {
            26 => {
                let task = &sheet.tasks[index];
                self.named.count_if(index > 0, "refused 26, index above 0");
                let below = task.offset.checked_add(1) == Some(task.budget);
                self.named.count_if(below, "refused 26, W = C − 1");
                let above = task.offset == 16 * task.separation + 1;
                self.named.count_if(above, "refused 26, W = 16 × T + 1");
            }
            11 => {
                let (entries, tasks) = (sheet.slack.len(), sheet.tasks.len());
                self.named.count_if(entries == tasks, "refused 11, slack count n");
                self.named.count_if(entries == 1, "refused 11, slack count 1");
                self.named.count_if(entries != tasks && entries > 1, "refused 11, another count");
            }
            27 => {
                let least = sheet.tasks.iter().any(|task| task.offset == task.budget);
                self.named.count_if(least, "refused 27, some W = C");
                self.named.count_if(!least, "refused 27, no W = C");
                self.named.count_if(length < needed, "refused 27, and the buffer too short");
            }
            24 => {
                self.named.count_if(length == 0, "refused 24, buffer empty");
                self.named.count_if(length + 1 == needed, "refused 24, buffer one byte short");
            }
            _ => {}
        }
    }

    fn count_solution(&mut self, sheet: &Table, buffer: &[u8]) {
        let needed = 12 * sheet.tasks.len();
        self.named.count("accepted");
        self.named.count_if(buffer.len() == needed, "accepted, buffer exactly long enough");
        self.named.count_if(buffer.len() > needed, "accepted, buffer longer");
        let entries: Vec<_> = buffer.chunks(12).map(numbers).zip(&sheet.tasks).collect();
        let mut count_any = |met: fn([u32; 3], &Task) -> bool, name| {
            self.named.count_if(entries.iter().any(|(entry, task)| met(*entry, task)), name);
        };
        count_any(|[offset, ..], _| offset == 0, "accepted, an offset 0");
        count_any(
            |[offset, ..], task| offset > 0 && offset < task.separation,
            "accepted, an offset between 0 and T",
        );
        count_any(
            |[offset, _, bound], task| offset == task.separation && bound < task.offset,
            "accepted, offset T and a bound below W",
        );
        count_any(
            |[offset, _, bound], task| offset == task.separation && bound == task.offset,
            "accepted, offset T and a bound of W",
        );
        count_any(|[_, slack, _], _| slack == 0, "accepted, a slack 0");
        count_any(|[_, slack, _], task| slack > task.separation, "accepted, a slack above T");
        count_any(|_, task| task.offset == 16 * task.separation, "accepted, some W = 16 × T");
        count_any(
            |[_, _, bound], task| bound == 16 * task.separation,
            "accepted, a bound of 16 × T",
        );
    }

    /// By the fast form, since nothing depends on it. After 16 rounds the proved code leaps, after 64
    /// the fast form.
    fn count_rounds(&mut self, bytes: &[u8], solved: bool) {
        let rounds = fast::wish_rounds(bytes).expect("no number before 27 is met");
        for (met, with, without) in [
            (
                (14..=19).contains(&rounds),
                "accepted after 14 to 19 rounds",
                "refused 27 after 14 to 19 rounds",
            ),
            (
                (62..=67).contains(&rounds),
                "accepted after 62 to 67 rounds",
                "refused 27 after 62 to 67 rounds",
            ),
            (
                rounds > 64,
                "accepted after more than 64 rounds",
                "refused 27 after more than 64 rounds",
            ),
            (
                rounds > 500,
                "accepted after more than 500 rounds",
                "refused 27 after more than 500 rounds",
            ),
        ] {
            self.named.count_if(met, if solved { with } else { without });
        }
    }

    fn count_load(&mut self, sheet: &Table, solved: bool) {
        let analysis = Analysis::new(sheet.labels.len(), &sheet.tasks).expect("9 is passed");
        let (load, capacity) = analysis.load_and_capacity();
        let (with, without) =
            ("accepted, shares exactly m × H", "refused 27, shares exactly m × H");
        self.named.count_if(load == capacity, if solved { with } else { without });
    }
}

/// "W is […] C to 16 × T".
fn in_range(task: &Task) -> bool {
    let (separation, wish) = (u64::from(task.separation), u64::from(task.offset));
    wish >= u64::from(task.budget) && wish <= 16 * separation
}

/// Whether the utilisations are clearly above m, also where H is so long that no share is known.
fn is_overloaded(sheet: &Table) -> bool {
    let utilisation = |task: &Task| f64::from(task.budget) / f64::from(task.separation);
    sheet.tasks.iter().map(utilisation).sum::<f64>() > sheet.labels.len() as f64 + 1e-3
}

/// Whether the sheet without its slack has no solution.
fn is_unsolved(sheet: &Table) -> bool {
    let sheet = Table { slack: vec![], ..sheet.clone() };
    reference::wish(&sheet.bytes()) == Err(Refusal::whole(27))
}
