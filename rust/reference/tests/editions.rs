//! Document 02, §5: edition 2 and its deadlines, in tables, wish sheets, states and logs.

use reference::{
    Clause, Entry, Log, Plan, Refusal, Table, broken, judge, open, release, run_log, step, text,
    wish, write,
};

const P1: [(u32, u32, u32); 3] = [(10, 9, 10), (10, 9, 10), (100, 20, 90)];

/// The table in edition 2 with these deadlines.
fn dated(table: Table, deadlines: &[u32]) -> Table {
    assert_eq!(table.tasks.len(), deadlines.len());
    let mut table = Table { edition: 2, ..table };
    for (task, &deadline) in table.tasks.iter_mut().zip(deadlines) {
        task.deadline = deadline;
    }
    table
}

/// P1 in edition 2.
fn p1(deadlines: [u32; 3]) -> Table {
    dated(Table::of(2, &P1), &deadlines)
}

fn met<T>(answer: Result<T, Refusal>) -> (u32, u32) {
    let Refusal { number, index } = answer.err().expect("the call is refused");
    (number, index)
}

fn late(plan: &Plan) -> Vec<u128> {
    (0..plan.tasks.len()).map(|k| plan.late(k)).collect()
}

#[test]
fn a_loop_has_16_bytes_with_its_deadline_last() {
    let bytes = p1([24, 25, 0x0001_0203]).bytes();
    assert_eq!(bytes.len(), 4 + 2 + 3 * 16);
    assert_eq!(bytes[..5], [2, 2, 0, 1, 3]);
    assert_eq!(bytes[5..21], [10, 0, 0, 0, 9, 0, 0, 0, 10, 0, 0, 0, 24, 0, 0, 0]);
    assert_eq!(bytes[37..], [100, 0, 0, 0, 20, 0, 0, 0, 90, 0, 0, 0, 3, 2, 1, 0, 0]);
    assert_eq!(Table::read(&bytes), Ok(p1([24, 25, 0x0001_0203])));
}

#[test]
fn an_edition_is_1_or_2() {
    let mut bytes = p1([24, 25, 110]).bytes();
    for edition in (0..=255).filter(|edition| ![1, 2].contains(edition)) {
        bytes[0] = edition;
        assert_eq!(met(judge(&bytes)), (1, 0), "edition {edition}");
        assert_eq!(met(wish(&bytes)), (1, 0), "edition {edition}");
    }
}

#[test]
fn the_length_is_that_of_the_edition() {
    let (mut short, mut long) = (Table::of(2, &P1).bytes(), p1([24, 25, 110]).bytes());
    (short[0], long[0]) = (2, 1);
    assert_eq!(met(judge(&short)), (2, 0));
    assert_eq!(met(judge(&long)), (2, 0));
    long[0] = 2;
    for length in 1..long.len() {
        assert_eq!(met(judge(&long[..length])), (2, 0), "cut to {length} bytes");
    }
    assert_eq!(met(judge(&[&long[..], &[0]].concat())), (2, 0));
    // Three counts of 255 give the longest table.
    let longest = [&[2][..], &[255; 5358]].concat();
    assert_eq!(met(judge(&longest)), (3, 0));
    assert_eq!(met(judge(&longest[..5358])), (2, 0));
}

#[test]
fn late_is_counted_from_the_deadline() {
    for (deadlines, expected) in [
        ([1, 1, 1], [24, 24, 109]),
        ([24, 24, 109], [1, 1, 1]),
        ([25, 25, 110], [0, 0, 0]),
        ([26, 26, 111], [0, 0, 0]),
        ([24, 26, 110], [1, 0, 0]),
        ([1_600_000; 3], [0, 0, 0]),
    ] {
        let bytes = p1(deadlines).bytes();
        let plan = judge(&bytes).expect("the table is accepted");
        assert_eq!(late(&plan), expected, "deadlines {deadlines:?}");
        assert_eq!(plan.slack, [6, 6, 0]);
        assert_eq!([0, 1, 2].map(|k| plan.bound(k)), [25, 25, 110]);
        assert_eq!(write(&plan), bytes, "the writer gives back the edition that was read");
    }
}

#[test]
fn edition_1_is_as_ever() {
    let plan = judge(&Table::of(2, &P1).bytes()).expect("P1 is accepted");
    assert_eq!((plan.edition, late(&plan)), (1, vec![15, 15, 20]));
    assert!(plan.tasks.iter().all(|task| task.deadline == 0), "an unused place");
    // Where each deadline is its offset, the two editions differ in nothing but the edition.
    let other = judge(&p1([10, 10, 90]).bytes()).expect("the table is accepted");
    assert_eq!(late(&other), late(&plan));
    assert_ne!(other, plan, "plans are the same only if editions agree too");
    assert_ne!(Plan { tasks: plan.tasks.clone(), ..other }, plan);
}

#[test]
fn p1_of_edition_2_as_it_is_printed() {
    let expected = "cores 2 loops 3\n\
        loop 0 slack 6 bound 25 late 1\n\
        loop 1 slack 6 bound 25 late 0\n\
        loop 2 slack 0 bound 110 late 0\n\
        counted 2\n";
    assert_eq!(text(&p1([24, 25, 111]).bytes()), expected);
    assert_eq!(text(&p1([24, 25, 0]).bytes()), "refused 28 at 2\n");
}

#[test]
fn a_deadline_is_1_to_1_600_000() {
    let judged = |deadlines| judge(&p1(deadlines).bytes());
    assert!(judged([1, 1_600_000, 1]).is_ok());
    assert_eq!(met(judged([0, 0, 0])), (28, 0));
    assert_eq!(met(judged([1, 0, 1_600_001])), (28, 1));
    assert_eq!(met(judged([1_600_000, 1, 1_600_001])), (28, 2));
    assert_eq!(met(judged([u32::MAX, 1, 1])), (28, 0));
}

#[test]
fn offsets_before_deadlines_before_the_hyperperiod() {
    // The first deadline is 0, the second budget and the last offset are above their separations,
    // and H is above 1,000,000.
    let loops = [(1000, 1, 0), (1001, 1002, 0), (1, 1, 2)];
    let mut table = dated(Table::of(2, &loops), &[0, 1, 1]);
    assert_eq!(met(judge(&table.bytes())), (7, 1));
    table.tasks[1].budget = 1;
    assert_eq!(met(judge(&table.bytes())), (8, 2));
    table.tasks[2].offset = 1;
    assert_eq!(met(judge(&table.bytes())), (28, 0));
    table.tasks[0].deadline = 1;
    assert_eq!(met(judge(&table.bytes())), (9, 0));
    // In edition 1 there is no 28.
    table.tasks[0].deadline = 0;
    assert_eq!(met(judge(&Table { edition: 1, ..table }.bytes())), (9, 0));
}

#[test]
fn wishes_before_deadlines_before_the_hyperperiod() {
    let loops = [(1000, 1, 16_000), (1001, 1, 16_016), (1, 1, 17)];
    let mut sheet = dated(Table::of(2, &loops), &[1, 1_600_001, 0]);
    assert_eq!(met(wish(&sheet.bytes())), (26, 2));
    sheet.tasks[2].offset = 16;
    assert_eq!(met(wish(&sheet.bytes())), (28, 1));
    sheet.tasks[1].deadline = 1_600_000;
    assert_eq!(met(wish(&sheet.bytes())), (28, 2));
    sheet.tasks[2].deadline = 1;
    assert_eq!(met(wish(&sheet.bytes())), (9, 0));
    let edition_1 = Table { edition: 1, ..sheet.clone() };
    assert_eq!(met(wish(&edition_1.bytes())), (9, 0));
}

#[test]
fn a_sheet_of_either_edition() {
    let wishes = [(10, 9, 29), (10, 9, 99), (100, 20, 90)];
    let first = wish(&Table::of(2, &wishes).bytes()).expect("the sheet has a solution");
    let sheet = dated(Table::of(2, &wishes), &[1, 2, 1_600_000]);
    let second = wish(&sheet.bytes()).expect("the sheet has a solution");
    assert_eq!((first.edition, second.edition), (1, 2));
    let offsets = |plan: &Plan| plan.tasks.iter().map(|task| task.offset).collect::<Vec<_>>();
    for plan in [&first, &second] {
        assert_eq!((offsets(plan), &plan.slack[..]), (vec![10, 10, 69], &[6, 6, 1][..]));
    }
    assert!(second.tasks.iter().map(|task| task.deadline).eq([1, 2, 1_600_000]));
    assert_eq!(judge(&write(&second)), Ok(second));
}

#[test]
fn a_log_runs_alike_under_both_editions() {
    let entries = (0..40).map(|tick| Entry { tick, task: (tick % 4) as u8, demand: 1 + tick % 10 });
    let log = Log { entries: entries.collect() }.bytes();
    let runs = [Table::of(2, &P1), p1([1, 7, 1_600_000])].map(|table| {
        let mut out = vec![0; 8 * 40];
        (run_log(&table.bytes(), &log, &mut out), out)
    });
    assert_eq!(runs[0], runs[1]);
    assert!(runs[0].0.is_ok_and(|(taken, refused)| taken > 0 && refused > 0));
    assert_eq!(met(run_log(&p1([1, 7, 0]).bytes(), &log, &mut [0; 320])), (28, 2));
}

#[test]
fn a_state_has_the_edition_and_the_deadlines_of_its_plan() {
    let plan = judge(&p1([24, 25, 110]).bytes()).expect("the table is accepted");
    let state = open(&plan);
    assert_eq!(state.edition, 2);
    let deadlines = state.tasks.map(|task| task.deadline);
    assert_eq!(deadlines[..4], [24, 25, 110, 0]);
    let released = release(&state, 0, 9);
    assert_eq!(released.answer, Ok(()));
    let stepped = step(&released.state);
    assert_eq!(stepped.answer, Ok(()));
    assert_eq!((stepped.state.edition, &stepped.state.tasks), (2, &state.tasks));
}

#[test]
fn a_state_of_another_edition_is_not_sound() {
    let first = open(&judge(&Table::of(2, &P1).bytes()).expect("P1 is accepted"));
    let second = open(&judge(&p1([24, 25, 110]).bytes()).expect("the table is accepted"));
    for state in [&first, &second] {
        assert_eq!(broken(state), []);
        for edition in [0, 3, 255] {
            let mut other = state.clone();
            other.edition = edition;
            assert_eq!(broken(&other), [Clause::Table], "edition {edition}");
            assert_eq!(step(&other).answer, Err(Refusal::whole(18)));
        }
    }
    // Without deadlines, as edition 1 has it, a state of edition 2 meets 28.
    let mut exchanged = first;
    exchanged.edition = 2;
    assert_eq!(broken(&exchanged), [Clause::Table]);
    let mut exchanged = second;
    exchanged.edition = 1;
    assert_eq!(broken(&exchanged), [Clause::UnusedInTable]);
}

#[test]
fn the_deadlines_of_a_sound_state() {
    let first = open(&judge(&Table::of(2, &P1).bytes()).expect("P1 is accepted"));
    let second = open(&judge(&p1([24, 25, 110]).bytes()).expect("the table is accepted"));
    for place in 0..16 {
        let with = |deadline| {
            let mut states = [first.clone(), second.clone()];
            states.iter_mut().for_each(|state| state.tasks[place].deadline = deadline);
            states.map(|state| broken(&state))
        };
        let (tidy, table) = (vec![Clause::UnusedInTable], vec![Clause::Table]);
        if place < 3 {
            assert_eq!(with(0), [vec![], table.clone()], "place {place}");
            assert_eq!(with(1), [tidy.clone(), vec![]], "place {place}");
            assert_eq!(with(1_600_000), [tidy.clone(), vec![]], "place {place}");
            assert_eq!(with(1_600_001), [tidy, table], "place {place}");
        } else {
            assert_eq!(with(0), [vec![], vec![]], "place {place}");
            assert_eq!(with(1), [tidy.clone(), tidy], "place {place}");
        }
    }
}
