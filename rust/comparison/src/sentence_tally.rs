//! What the compared sentences met, so that a run can show that it was not empty.

use crate::counts::Counts;
use reference::{Refusal, sentence};
use samples::{LAST_NUMBER, Told};

/// How many sentences told each number of the table, and how many told others or lay at an edge, by
/// a name that says which.
#[derive(Default)]
pub struct SentenceTally {
    sentences: u64,
    numbers: Counts<u32>,
    named: Counts<&'static str>,
}

impl SentenceTally {
    /// All calls that were counted.
    pub fn sentences(&self) -> u64 {
        self.sentences
    }

    /// Those with this number of the table.
    pub fn number(&self, number: u32) -> u64 {
        self.numbers.of(&number)
    }

    /// Those of this name.
    pub fn named(&self, name: &'static str) -> u64 {
        self.named.of(&name)
    }

    pub fn print(&self) {
        println!("{} sentences", self.sentences);
        self.numbers.print("number ");
        self.named.print("");
    }

    pub(crate) fn count(&mut self, told: Told) {
        let (number, index, value) = told;
        self.sentences += 1;
        if (1..=LAST_NUMBER).contains(&number) {
            self.numbers.count(number);
        } else {
            self.count_unknown(number);
        }
        self.named.count_if(index == 0, "index 0");
        self.named.count_if(index > 65_535, "index above 65,535");
        self.named.count_if(index == u32::MAX, "index 2^32 − 1");
        self.named.count_if(value == 0, "value 0");
        self.named.count_if(value == 1 << 32, "value 2^32");
        self.named.count_if(value > 1 << 32, "value above 2^32");
        self.named.count_if(value == u64::MAX, "value 2^64 − 1");
    }

    fn count_unknown(&mut self, number: u32) {
        self.named.count("number unknown");
        self.named.count_if(number == 0, "number 0");
        self.named.count_if(number == LAST_NUMBER + 1, "number the first after the table");
        self.named.count_if(number == u32::MAX, "number 2^32 − 1");
        let low_byte = (1..=LAST_NUMBER).contains(&(number & 0xff));
        self.named.count_if(low_byte, "number unknown, its low byte known");
    }

    /// Counts a call by its answer and the length of the buffer.
    pub(crate) fn count_lent(&mut self, told: Told, answer: Result<usize, Refusal>, length: usize) {
        self.count(told);
        let (number, index, value) = told;
        let needed = sentence(number, index, value).len();
        match answer {
            Ok(_) => {
                self.named.count_if(length == needed, "told, buffer exactly long enough");
                self.named.count_if(length > needed, "told, buffer longer");
            }
            Err(Refusal { number, .. }) => {
                self.named.count_if(number == 25, "refused 25");
                self.named.count_if(length == 0, "refused, buffer empty");
                self.named.count_if(length + 1 == needed, "refused, buffer one byte short");
            }
        }
    }
}
