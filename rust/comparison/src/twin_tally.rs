//! What the compared twins met, so that a run can show that it was not empty.

use crate::counts::Counts;
use reference::Refusal;

/// How many calls on twins were not refused, how many were and by which number, and how many log
/// runs took or refused an entry.
#[derive(Default)]
pub struct TwinTally {
    named: Counts<String>,
}

impl TwinTally {
    /// Those of this name.
    pub fn named(&self, name: &str) -> u64 {
        self.named.of(&name.to_string())
    }

    pub fn print(&self) {
        self.named.print("twins ");
    }

    /// Counts two calls by their one answer.
    pub(crate) fn count<A>(&mut self, call: &str, answer: Result<A, Refusal>) {
        match answer {
            Ok(_) => self.named.count(call.to_string()),
            Err(Refusal { number, .. }) => self.named.count(format!("{call}, refused {number}")),
        }
    }

    pub(crate) fn count_run(&mut self, taken: usize, refused: usize) {
        self.named.count_if(taken > 0, "log run, some entries taken".to_string());
        self.named.count_if(refused > 0, "log run, some entries refused".to_string());
    }
}
