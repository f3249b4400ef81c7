//! What judgements, engines, log runs, sentences, wishes and conversions are compared on, and all
//! but the sentences timed on, made from a fixed seed.
//!
//! Show tables: valid ones, tight ones, ones with an H near its limit, ones that offer slack around
//! compliance, ones with no more loops than cores, ones of loops alike, faulty ones and damaged
//! bytes. Engine states: sound ones, among them ones with equal priority points, ones damaged in one
//! clause of soundness, and words of which one is set. Release logs: ones that keep their table,
//! ones that do not, ones with equal priority points, and damaged bytes. Refusals to be told: of
//! known and of unknown numbers, and pairs that differ in little.
//! Wish sheets: ones with room, ones at the edge of having a solution, ones with wishes at the ends
//! of their range, faulty ones, and the slowest that were found. Tables to be converted: ones that
//! can be, ones that meet 29, 30 or 31, and faulty ones; with the editions wanted of them. Of tables,
//! and of what is made from them, about half are of edition 1 and half of edition 2; what is timed
//! is of edition 1, but for tables that are converted to it.

#![forbid(unsafe_code)]

mod alike_tables;
mod conversions;
mod damaged_logs;
mod damaged_states;
mod damaged_tables;
mod editions;
mod faulty_sheets;
mod faulty_tables;
mod few_tables;
mod log_tables;
mod logs;
mod offering_tables;
mod plain_tables;
mod random;
mod refusals;
mod set_words;
mod slow_sheets;
mod sound_states;
mod tight_tables;
mod wish_sheets;

pub use alike_tables::{alike_long, alike_plan, alike_short};
pub use conversions::{
    convertible, faulty_convertible, few_convertible, inconvertible, wanted_edition,
    without_zero_offsets,
};
pub use damaged_logs::{damaged_log, noise_log};
pub use damaged_states::damaged_state;
pub use damaged_tables::{damaged_table, noise_table};
pub use editions::{either, with_deadlines};
pub use faulty_sheets::{faulty_sheet, offering_sheet, sheet_with_bad_deadlines};
pub use faulty_tables::{faulty_table, table_with_bad_deadlines};
pub use few_tables::{faulty_few, few, few_accepted, few_offering, few_plan, few_short, one_more};
pub use log_tables::{any_accepted, short_accepted};
pub use logs::{LogKind, log, tied_log};
pub use offering_tables::offered;
pub use plain_tables::{Shape, long, mixed, steep};
pub use random::Random;
pub use refusals::{
    LAST_NUMBER, Told, cut_at_zeros, cut_elsewhere, exchanged, known_refusal, one_bit_apart,
    one_digit_apart, unknown_refusal,
};
pub use set_words::{FIELDS, SETTINGS, SetWord, set_words};
pub use slow_sheets::{deep_sheets, slow_sheets};
pub use sound_states::{accepted_plan, brisk, busy, ready, sound, tied};
pub use tight_tables::{any_tight, overfull, tight};
pub use wish_sheets::{
    any_sheet, edge_sheets, end_sheet, few_sheet, roomy_sheet, tight_edge_sheets, tight_sheet,
    tiny_sheet, wishing,
};
