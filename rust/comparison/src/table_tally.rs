//! What the compared tables met, so that a run can show that it was not empty.

use crate::counts::Counts;
use crate::edition_names::edition_names;
use crate::few_names::few_names;
use crate::tables::Answer;
use reference::{Analysis, Refusal, Table, judge};

/// How many tables met each refusal number, how many were accepted, and how many of either lay at
/// an edge, by a name that says which.
#[derive(Default)]
pub struct TableTally {
    tables: u64,
    refused: Counts<u32>,
    named: Counts<&'static str>,
}

impl TableTally {
    /// All tables that were counted.
    pub fn tables(&self) -> u64 {
        self.tables
    }

    /// Those that met this refusal number.
    pub fn refused(&self, number: u32) -> u64 {
        self.refused.of(&number)
    }

    /// Those of this name.
    pub fn named(&self, name: &'static str) -> u64 {
        self.named.of(&name)
    }

    pub fn print(&self) {
        println!("{} tables", self.tables);
        self.refused.print("refused ");
        self.named.print("");
    }

    /// Counts a table's bytes by its answer and the buffer after the call.
    pub(crate) fn count(&mut self, bytes: &[u8], answer: Answer, buffer: &[u8]) {
        self.tables += 1;
        if let Err(Refusal { number, .. }) = answer {
            self.refused.count(number);
        }
        edition_names(bytes, answer).into_iter().for_each(|name| self.named.count(name));
        few_names(bytes, answer).into_iter().for_each(|name| self.named.count(name));
        if matches!(answer, Err(Refusal { number: 1..=8 | 28, .. })) {
            return;
        }
        let table = Table::read(bytes).expect("1 and 2 are passed");
        if answer == Err(Refusal::whole(9)) {
            let multiple =
                |h: u32| table.tasks.iter().all(|task| h.is_multiple_of(task.separation));
            let barely = (1_000_001..=1_001_000).any(multiple);
            self.named.count_if(barely, "refused 9, H up to 1,001,000");
            self.named.count_if(multiple(1_000_001), "refused 9, H 1,000,001");
            return;
        }
        let analysis = Analysis::new(table.labels.len(), &table.tasks).expect("9 is passed");
        self.count_load(&analysis, answer);
        self.count_buffer(&table, answer, buffer);
        self.count_slack(&table, &analysis, answer);
    }

    /// Counts a table's bytes by the answer of the call that names, and the buffer after it.
    pub(crate) fn count_names(&mut self, bytes: &[u8], answer: Answer, buffer: &[u8]) {
        let count = match answer {
            Ok(count) => count,
            Err(Refusal { number, .. }) => {
                let table = Table::read(bytes);
                let short = table.is_ok_and(|t| number == 24 && buffer.len() + 2 == t.labels.len());
                self.named.count_if(short, "names refused 24, buffer one byte short");
                return;
            }
        };
        self.named.count("named");
        self.named.count_if(buffer.len() == count, "named, buffer exactly long enough");
        self.named.count_if(buffer.len() > count, "named, buffer longer");
        let plan = judge(bytes).expect("the table is accepted");
        if plan.is_few() {
            self.named.count("few loops, none named");
            self.named.count_if(buffer.is_empty(), "few loops, none named, buffer empty");
            return;
        }
        let analysis = Analysis::new(plan.labels.len(), &plan.tasks).expect("9 is passed");
        let slack: Vec<u128> = plan.slack.iter().map(|&x| u128::from(x)).collect();
        let names: Vec<usize> = buffer[..count].iter().map(|&k| usize::from(k)).collect();
        let weight = |k: usize| analysis.weight(k, &slack);
        let left_out = |k: &usize| !names.contains(k);
        let tie = (0..slack.len()).filter(left_out).any(|k| weight(k) == weight(names[count - 1]));
        self.named.count_if(tie, "named, equal weights at the edge");
        let equal = names.windows(2).any(|pair| weight(pair[0]) == weight(pair[1]));
        self.named.count_if(equal, "named, equal weights among the names");
        let zeros = vec![0; slack.len()];
        self.named.count_if(analysis.counted(&zeros) != names, "named, others than at zeros");
        let others = plan.offered && analysis.counted(&analysis.found()) != names;
        self.named.count_if(others, "named, offered, others than at the found slack");
    }

    fn count_load(&mut self, analysis: &Analysis, answer: Answer) {
        let (load, capacity) = analysis.load_and_capacity();
        let (full, hyperperiod) = (load == capacity, analysis.hyperperiod());
        let long = hyperperiod >= 990_000;
        if answer.is_ok() {
            self.named.count_if(hyperperiod == 1_000_000, "accepted, H 1,000,000");
            self.named.count_if(full, "accepted, shares exactly m × H");
            self.named.count_if(long, "accepted, H from 990,000");
            self.named.count_if(full && long, "accepted, shares exactly m × H, H from 990,000");
        }
        if answer == Err(Refusal::whole(10)) {
            self.named.count_if(load == capacity + 1, "refused 10, shares m × H + 1");
        }
    }

    fn count_buffer(&mut self, table: &Table, answer: Answer, buffer: &[u8]) {
        let (length, needed) = (buffer.len(), 8 * table.tasks.len());
        let short = answer == Err(Refusal::whole(24));
        self.named.count_if(short && length == 0, "refused 24, buffer empty");
        self.named.count_if(short && length + 1 == needed, "refused 24, buffer one byte short");
        if answer.is_ok() {
            self.named.count_if(length == needed, "accepted, buffer exactly long enough");
            self.named.count_if(length > needed, "accepted, buffer longer");
            let entries = buffer.chunks(8).zip(&table.tasks);
            let longest = entries.map(|(entry, task)| (bound(entry), 16 * task.separation));
            let at_limit = longest.filter(|(bound, limit)| bound == limit).count() > 0;
            self.named.count_if(at_limit, "accepted, a bound of exactly 16 × T");
        }
    }

    fn count_slack(&mut self, table: &Table, analysis: &Analysis, answer: Answer) {
        if table.slack.is_empty() {
            self.named.count_if(answer.is_ok(), "accepted, found");
            return;
        }
        let slack: Vec<u128> = table.slack.iter().map(|&x| u128::from(x)).collect();
        let zeros = slack.iter().all(|&x| x == 0);
        let largest = table.slack.contains(&u32::MAX);
        match answer {
            Ok(_) => {
                self.named.count_if(true, "accepted, offered");
                self.named.count_if(zeros, "accepted, offered zeros");
                let fails = |k| slack[k] > 0 && !complies(analysis, &slack, k, -1);
                let edge = (0..slack.len()).any(fails);
                self.named.count_if(edge, "accepted, offered, fails with an entry one lower");
            }
            Err(Refusal { number: 12, index }) => {
                self.named.count_if(zeros, "refused 12, offered zeros");
                self.named.count_if(largest, "refused 12, an entry of 2^32 − 1");
                self.named.count_if(index > 0, "refused 12, index above 0");
                let edge = complies(analysis, &slack, index as usize, 1);
                self.named.count_if(edge, "refused 12, complies with the entry one higher");
            }
            Err(Refusal { number: 13, index }) => {
                self.named.count_if(largest, "refused 13, an entry of 2^32 − 1");
                self.named.count_if(index > 0, "refused 13, index above 0");
            }
            Err(_) => {}
        }
    }
}

/// The bound of an answer's entry of 8 bytes.
fn bound(entry: &[u8]) -> u32 {
    entry[4..8].iter().rev().fold(0, |high, &byte| high * 256 + u32::from(byte))
}

/// Whether the slack is compliant with entry k changed by so much.
fn complies(analysis: &Analysis, slack: &[u128], k: usize, change: i128) -> bool {
    let mut changed = slack.to_vec();
    changed[k] = changed[k].checked_add_signed(change).expect("an entry stays a number");
    analysis.lowest_failing(&changed).is_none()
}
