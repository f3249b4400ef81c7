//! One log run in several forms.

use crate::in_time::{check, read_outcomes};
use crate::lent::{Held, Lent, same_bytes};
use crate::log_order::check_order;
use crate::log_tally::LogTally;
use reference::{Log, Plan, Refusal};
use samples::Random;

/// How many were taken and how many refused, or the call's refusal.
pub type LogAnswer = Result<(usize, usize), Refusal>;

/// A form of the log run, and its name.
pub type LogForm = (&'static str, fn(&[u8], &[u8], &mut [u8]) -> LogAnswer);

/// A table to run logs on, with its judgement by the reference, and the forms that are compared:
/// all of them with the first.
pub struct Logs<'a> {
    forms: &'a [LogForm],
    table: &'a [u8],
    judged: Result<Plan, Refusal>,
}

impl Logs<'_> {
    pub fn new<'a>(forms: &'a [LogForm], table: &'a [u8]) -> Logs<'a> {
        Logs { forms, table, judged: reference::judge(table) }
    }

    /// Runs a log in every form, with an answer of any length, and counts what it met.
    pub fn compare(&self, random: &mut Random, log: &[u8], tally: &mut LogTally) {
        // What the entries in the bytes need. Where the count says another number of entries, the
        // call is refused whatever it is lent.
        let needed = 8 * log.len().saturating_sub(2).div_ceil(9);
        let lent = Lent::new(random, needed, 40);
        self.compare_in(random, log, &lent, tally);
    }

    /// The same with an answer of this length.
    pub fn compare_at(&self, random: &mut Random, log: &[u8], length: usize, tally: &mut LogTally) {
        let lent = Lent::of_length(random, length);
        self.compare_in(random, log, &lent, tally);
    }

    fn compare_in(&self, random: &mut Random, log: &[u8], lent: &Lent, tally: &mut LogTally) {
        let (table, held_log) = (Held::new(random, self.table), Held::new(random, log));
        let input = [self.table, log];
        let mut first = None;
        for (name, form) in self.forms {
            let mut by_form = lent.clone();
            let answer = form(table.part(), held_log.part(), by_form.buffer());
            let (expected, by_first) = first.get_or_insert_with(|| (answer, by_form.clone()));
            assert_eq!(answer, *expected, "{name}: {input:?}");
            same_bytes(name, &by_form, by_first, &input);
        }
        assert!(table.is_unchanged(), "the table itself was written to: {input:?}");
        assert!(held_log.is_unchanged(), "the log itself was written to: {input:?}");
        let (answer, mut by_first) = first.expect("there is a form");
        self.check(answer, log, lent, &mut by_first, tally);
    }

    /// What holds of a run by itself: a refused call writes nothing, a run is as demand 3 says, and
    /// its jobs have run in their order.
    fn check(
        &self,
        answer: LogAnswer,
        log: &[u8],
        lent: &Lent,
        after: &mut Lent,
        tally: &mut LogTally,
    ) {
        if let Err(refusal) = answer {
            same_bytes("a refused call", after, lent, &[self.table, log]);
            if let Err(judged) = self.judged {
                assert_eq!(refusal, judged);
            }
            tally.count_refused(refusal, log, after.buffer().len());
            return;
        }
        let plan = self.judged.as_ref().expect("the table of a run is accepted");
        let entries = Log::read(log).expect("the log of a run passes 14 and 15");
        let (taken, refused) = answer.expect("the call is not refused");
        let outcomes = read_outcomes(&after.buffer()[..8 * entries.entries.len()]);
        assert_eq!(taken + refused, outcomes.len(), "every entry is taken or refused");
        let keeps = check(plan, &entries, &outcomes);
        tally.count_run(plan, &entries, &outcomes, keeps);
        tally.count_ties(&check_order(plan, &entries, &outcomes));
        tally.count_buffer(after.buffer().len(), 8 * outcomes.len());
    }
}
