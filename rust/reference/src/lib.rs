//! The judgement of a show table, the engine's release and step, the log run, the sentences of
//! refusals, the offsets from wishes and the conversion between the editions, written from
//! documents 01 and 02 alone, in their order and with their words beside each step. They are what
//! the proved code is compared with, so they are plain before they are quick: the numbers of a
//! judgement and of a wish are 128 bits wide, the log run goes tick by tick on a machine of its
//! own, and nothing is worked out in a shorter way than the documents say it. The wording of the
//! sentences, which they leave free, is written out a second time.

#![forbid(unsafe_code)]

mod convert;
mod engine;
mod log;
mod log_run;
mod plan;
mod sentence;
mod slack;
mod state;
mod table;
mod text;
mod wish;
mod words;

pub use records::{IDLE, Refusal, Report, Task};

pub use convert::{convert, convert_into};
pub use engine::{Head, Released, Stepped, heads, release, step};
pub use log::{Entry, Log};
pub use log_run::{Outcome, outcomes, run_log};
pub use plan::{Plan, counted_into, judge, judge_into, write};
pub use sentence::{sentence, sentence_into};
pub use slack::Analysis;
pub use state::{Clause, Job, LAST_TICK, MOST_JOBS, State, broken, known, open, queue, set_queue};
pub use table::{Table, is_few};
pub use text::text;
pub use wish::{wish, wish_by_trying, wish_into};
pub use words::{Words, open_words, release_words, state_in, step_words, words_of};
