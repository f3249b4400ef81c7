//! What the program `plan` prints for a table's bytes: document 01, the end of "Worked tables",
//! and document 02, §1; late as §5 counts it in edition 2, and few loops as §7 has them.

use crate::judge;
use std::fmt::Write;

/// "The first line has m and n, the others index, x, bound and late. A refusal prints one line:
/// `refused 7 at 1`, number and index." "For an accepted table `plan` prints one more last line,
/// `counted` and the loops, a space before each"; with few loops "`counted` is printed alone".
pub fn text(bytes: &[u8]) -> String {
    let plan = match judge(bytes) {
        Err(refusal) => return format!("refused {} at {}\n", refusal.number, refusal.index),
        Ok(plan) => plan,
    };
    let mut text = format!("cores {} loops {}\n", plan.labels.len(), plan.tasks.len());
    for k in 0..plan.tasks.len() {
        let (slack, bound, late) = (plan.slack[k], plan.bound(k), plan.late(k));
        writeln!(text, "loop {k} slack {slack} bound {bound} late {late}")
            .expect("a String takes every line");
    }
    let counted: String = plan.counted().iter().map(|k| format!(" {k}")).collect();
    text + "counted" + &counted + "\n"
}
