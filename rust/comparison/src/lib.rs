//! Compares the proved code, and the plain code written for speed, with the reference: of a
//! judgement, a log run, a sentence, a wish and a conversion the answer and every byte of the lent
//! buffer and around it, of the engine's calls the answer and every word and number lent to them. A
//! log run is held to demand 3 as well, and to the order in which jobs run; a sentence, a wish and a
//! conversion to what document 02 says of them. Tables with few loops, that is no more than cores,
//! are counted by names of their own, and so are equal priority points. All but sentences are of
//! either edition, and what must not depend on it is compared between the two.

#![forbid(unsafe_code)]

mod conversion_tally;
mod conversions;
mod counts;
mod edition_names;
mod engine;
mod engine_tally;
mod few_names;
mod in_time;
mod lent;
mod log_families;
mod log_order;
mod log_tally;
mod logs;
mod sentence_tally;
mod sentences;
mod table_tally;
mod tables;
mod ties;
mod twin_tally;
mod twins;
mod wish_tally;
mod wishes;

pub use conversion_tally::ConversionTally;
pub use conversions::{compare_conversion, compare_conversion_at};
pub use edition_names::EDITIONS_AT_LEAST;
pub use engine::{Call, compare_call, compare_release, compare_step};
pub use engine_tally::EngineTally;
pub use log_families::{FAR, FEW_FAR, FEW_NEAR, Family, NEAR, TIED_FAR, TIED_NEAR, compare_logs};
pub use log_tally::LogTally;
pub use logs::{LogAnswer, LogForm, Logs};
pub use sentence_tally::SentenceTally;
pub use sentences::{compare_lent, compare_lent_at, compare_sentences};
pub use table_tally::TableTally;
pub use tables::compare_table;
pub use twin_tally::TwinTally;
pub use twins::Twins;
pub use wish_tally::WishTally;
pub use wishes::{compare_edge, compare_wish, compare_wish_at};
