//! Tables and sheets of edition 1, and their twins of edition 2 with deadlines beside all that the
//! first have: what the proved C functions answer and write is the same for both. They are the same
//! ones on every run.

use comparison::{TwinTally, Twins};
use reference::Table;
use samples::{
    LogKind, Random, any_accepted, any_sheet, any_tight, damaged_log, end_sheet, faulty_sheet,
    faulty_table, few, few_accepted, log, long, mixed, offered, offering_sheet, overfull,
    roomy_sheet, short_accepted, steep, tight_sheet,
};

type Maker = fn(&mut Random) -> Table;

/// What twins are made from, and how many of each kind.
const TABLES: [Maker; 8] = [mixed, long, steep, any_tight, overfull, offered, faulty_table, few];
const SHEETS: [Maker; 6] =
    [roomy_sheet, any_sheet, tight_sheet, end_sheet, offering_sheet, faulty_sheet];
const TWINS: u64 = 15_000;

/// What logs are run on, how many of each kind, and how many logs on each.
const LOG_TABLES: [Maker; 4] = [any_accepted, short_accepted, faulty_table, few_accepted];
const LOG_TWINS: u64 = 2_000;
const LOGS: u64 = 8;

/// How often each of these is met, at least.
const AT_LEAST: [(u64, &str); 17] = [
    (20_000, "judged"),
    (3_000, "judged, refused 9"),
    (5_000, "judged, refused 10"),
    (3_000, "judged, refused 12"),
    (10_000, "judged, refused 13"),
    (3_000, "judged, refused 24"),
    (20_000, "named"),
    (3_000, "named, refused 24"),
    (10_000, "wished"),
    (2_000, "wished, refused 24"),
    (5_000, "wished, refused 26"),
    (10_000, "wished, refused 27"),
    (20_000, "log run"),
    (20_000, "log run, some entries taken"),
    (5_000, "log run, some entries refused"),
    (500, "log run, refused 14"),
    (500, "log run, refused 15"),
];

/// A log of near or far ticks, or what is left of one.
fn any_log(random: &mut Random, table: &Table) -> Vec<u8> {
    let kind = random.pick(&[LogKind::Near, LogKind::Far]);
    let bytes = log(random, table, kind).bytes();
    if random.once_in(8) { damaged_log(random, bytes) } else { bytes }
}

fn compare_calls(tally: &mut TwinTally) {
    let random = &mut Random::new(101);
    for _ in 0..TWINS {
        for make in TABLES {
            let table = make(random);
            Twins::new(random, &table).compare_judgement(random, tally);
        }
        for make in SHEETS {
            let sheet = make(random);
            Twins::new(random, &sheet).compare_wish(random, tally);
        }
    }
}

fn compare_logs(tally: &mut TwinTally) {
    let random = &mut Random::new(102);
    for _ in 0..LOG_TWINS {
        for make in LOG_TABLES {
            let table = make(random);
            // A faulty table may have no loop to release.
            let accepted = short_accepted(random);
            let twins = Twins::new(random, &table);
            let model = if reference::judge(&table.bytes()).is_ok() { &table } else { &accepted };
            for _ in 0..LOGS {
                let log = any_log(random, model);
                twins.compare_log(random, &log, tally);
            }
        }
    }
}

#[test]
fn many_twins() {
    let mut tally = TwinTally::default();
    compare_calls(&mut tally);
    compare_logs(&mut tally);
    tally.print();
    for (least, name) in AT_LEAST {
        let met = tally.named(name);
        assert!(met >= least, "{name}: {met} twins");
    }
    // The twins' deadlines are in their range.
    for call in ["judged", "named", "wished", "log run"] {
        assert_eq!(tally.named(&format!("{call}, refused 28")), 0, "{call}");
    }
}
