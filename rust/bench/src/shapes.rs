//! The sizes of tables and sheets that are timed, and the line that is printed for each.

use samples::Shape;

use crate::turns::{best, median_ratio};

pub const SHAPES: [Shape; 3] =
    [Shape { cores: 2, tasks: 3 }, Shape { cores: 4, tasks: 8 }, Shape { cores: 8, tasks: 16 }];

/// How many a second each form takes by its best turn, and the ratio of their times, after the size
/// and some words.
pub fn print(shape: Shape, words: &str, proved_turns: &[f64], plain_turns: &[f64]) {
    let (proved, plain) = (best(proved_turns), best(plain_turns));
    println!(
        "{:2} tasks on {} cores{words}: proved {:8.0}/s  plain {:8.0}/s  \
         time ratio proved/plain {:.2} (median of turns {:.2})",
        shape.tasks,
        shape.cores,
        1.0 / proved,
        1.0 / plain,
        proved / plain,
        median_ratio(proved_turns, plain_turns),
    );
}
