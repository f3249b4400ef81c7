//! What the compared conversions met, so that a run can show that it was not empty.

use crate::conversions::needed;
use crate::counts::Counts;
use crate::few_names::has_few;
use crate::tables::Answer;
use reference::{Refusal, Table, Task, convert};

/// How many calls met each refusal number, how many converted a table, and how many of either lay
/// at an edge, by a name that says which.
#[derive(Default)]
pub struct ConversionTally {
    calls: u64,
    refused: Counts<u32>,
    named: Counts<String>,
}

impl ConversionTally {
    /// All calls that were counted.
    pub fn calls(&self) -> u64 {
        self.calls
    }

    /// Those that met this refusal number.
    pub fn refused(&self, number: u32) -> u64 {
        self.refused.of(&number)
    }

    /// Those of this name.
    pub fn named(&self, name: &str) -> u64 {
        self.named.of(&name.to_string())
    }

    pub fn print(&self) {
        println!("{} conversions", self.calls);
        self.refused.print("refused ");
        self.named.print("");
    }

    /// Counts a table of this edition that was converted and converted back.
    pub(crate) fn count_back(&mut self, edition: u8) {
        self.named.count(format!("there and back from edition {edition}"));
    }

    /// Counts a call by its answer and the length of the buffer.
    pub(crate) fn count(&mut self, bytes: &[u8], wanted: u32, answer: Answer, length: usize) {
        self.calls += 1;
        let number = answer.map_or_else(|refusal| refusal.number, |_| 0);
        self.refused.count_if(number != 0, number);
        match number {
            1 => return self.count_unwanted(bytes, wanted),
            2 => return self.count_length(bytes),
            _ => {}
        }
        let table = Table::read(bytes).expect("1 and 2 are passed");
        let needed = needed(&table, wanted);
        if has_few(table.labels.len(), table.tasks.len()) {
            self.count_name(true, "few loops");
            self.count_name(number != 31, &format!("refused {number}, and 31 after it"));
        }
        match answer {
            Ok(_) => self.count_converted(&table, wanted, needed, length),
            Err(refusal) => self.count_refused(&table, wanted, refusal, needed, length),
        }
    }

    fn count_name(&mut self, met: bool, name: &str) {
        self.named.count_if(met, name.to_string());
    }

    /// 1 in each of its forms, and what would be met after it.
    fn count_unwanted(&mut self, bytes: &[u8], wanted: u32) {
        let form = match (wanted, bytes.first()) {
            (0 | 3 | 255..=258, _) => format!("wanted {wanted}"),
            (u32::MAX, _) => "wanted 2^32 − 1".to_string(),
            (1 | 2, None) => "no edition byte".to_string(),
            (1 | 2, Some(own @ (1 | 2))) => format!("already in edition {own}"),
            (1 | 2, Some(own @ (0 | 3 | 255))) => format!("edition byte {own}"),
            (1 | 2, _) => "another edition byte".to_string(),
            _ => "another edition wanted".to_string(),
        };
        self.named.count(format!("refused 1, {form}"));
        // What the same bytes meet if only the wanted edition is another, or is one byte wide.
        let own = bytes.first().copied().unwrap_or(0);
        if form.starts_with("already") {
            let other = convert(bytes, 3 - wanted);
            let later = other.map_or_else(|refusal| refusal.number, |_| 0);
            self.count_name(later == 2, "refused 1, already in it, and 2 after it");
            self.count_name(later > 2, "refused 1, already in it, and a later number");
            self.count_name(later == 0, "refused 1, already in it, and nothing after it");
        }
        let narrow = wanted > 255 && convert(bytes, wanted & 0xff).is_ok();
        self.count_name(narrow, "refused 1, and the wanted edition's low byte would do");
        let same = wanted > 255 && matches!(own, 1 | 2) && wanted & 0xff == u32::from(own);
        self.count_name(same, "refused 1, and the wanted edition's low byte is the table's");
        let short = Table::read(bytes) == Err(Refusal::whole(2));
        let unknown = !matches!(wanted, 1 | 2);
        self.count_name(unknown && short, "refused 1, unknown edition wanted, and 2 after it");
    }

    /// 2, where the bytes after the other edition have the length that their counts give.
    fn count_length(&mut self, bytes: &[u8]) {
        let own = bytes[0];
        let exchanged = Table::read(&[&[3 - own], &bytes[1..]].concat());
        let name = format!("refused 2, edition {own} over loops of edition {}", 3 - own);
        self.count_name(exchanged.is_ok(), &name);
    }

    fn count_converted(&mut self, table: &Table, wanted: u32, needed: usize, length: usize) {
        let mut count = |met: bool, what: &str| {
            self.named.count_if(met, format!("to edition {wanted}, {what}"));
        };
        count(table.slack.is_empty(), "slack found");
        count(!table.slack.is_empty(), "slack offered");
        count(length == needed, "buffer exactly long enough");
        count(length > needed, "buffer longer");
        count(table.tasks.len() == 16, "16 loops");
        count(table.tasks.len() == table.labels.len() + 1, "n = m + 1");
        let any = |met: fn(&Task) -> bool| table.tasks.iter().any(met);
        count(any(|task| task.offset == 1), "some offset 1");
        count(any(|task| task.offset == task.separation), "some offset T");
        count(any(|task| task.offset.is_multiple_of(256)), "some offset with low byte 0");
        count(any(|task| task.offset > 65_535), "some offset above 65,535");
    }

    fn count_refused(
        &mut self,
        table: &Table,
        wanted: u32,
        refusal: Refusal,
        needed: usize,
        length: usize,
    ) {
        let Refusal { number, index } = refusal;
        let (way, fails): (u32, fn(&&Task) -> bool) = match wanted {
            2 => (29, |task| task.offset == 0),
            _ => (30, |task| task.deadline != task.offset),
        };
        let failing = table.tasks.iter().filter(fails).count();
        let (before, short) = (number != way && number != 24, length < needed);
        self.count_name(before && failing > 0, &format!("refused {number}, and {way} after it"));
        self.count_name(before && failing == 0, &format!("refused {number}, and not {way}"));
        self.count_name(number != 24 && short, &format!("refused {number}, and 24 after it"));
        if number == way {
            self.count_name(failing > 1, &format!("refused {way}, at several loops"));
            self.count_name(index > 0, &format!("refused {way}, index above 0"));
            let last = index as usize + 1 == table.tasks.len();
            self.count_name(last, &format!("refused {way}, at the last loop alone"));
        }
        if number == 30 {
            self.count_deadline(&table.tasks[index as usize]);
        }
        if number == 24 {
            let mut count = |met: bool, what: &str| {
                self.named.count_if(met, format!("refused 24, to edition {wanted}, {what}"));
            };
            count(length == 0, "buffer empty");
            count(length + 1 == needed, "buffer one byte short");
            let own = needed - 4 * table.tasks.len();
            count(wanted == 2 && length >= own, "buffer long enough for edition 1");
        }
    }

    /// How the deadline of the loop that meets 30 differs from its offset.
    fn count_deadline(&mut self, task: &Task) {
        let (deadline, offset) = (task.deadline, task.offset);
        self.count_name(offset == 0, "refused 30, offset 0");
        self.count_name(deadline + 1 == offset, "refused 30, D one below the offset");
        self.count_name(deadline == offset + 1, "refused 30, D one above the offset");
        let bits = deadline ^ offset;
        self.count_name(bits.is_power_of_two(), "refused 30, D one bit away from the offset");
        self.count_name(bits & 0xff == 0, "refused 30, D with the offset's low byte");
        self.count_name(bits & 0xffff == 0, "refused 30, D with the offset's two low bytes");
    }
}
