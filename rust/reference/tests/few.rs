//! Document 02, §7: tables with loops no more than cores, and with one more beside them, in
//! judgement, wishes, conversion, engine and log run.

use reference::{
    Clause, Entry, Log, Outcome, Plan, Refusal, State, Table, broken, convert, convert_into,
    counted_into, judge, judge_into, open, outcomes, release, sentence, step, text, wish, write,
};

/// P1's first loop, its offset above its budget.
const FIRST: (u32, u32, u32) = (10, 9, 10);

/// The plan of loops as (T, C, Y) on so many cores, labels from 0.
fn plan(cores: u8, loops: &[(u32, u32, u32)]) -> Plan {
    let bytes = Table::of(cores, loops).bytes();
    let plan = judge(&bytes).expect("the table is accepted");
    assert_eq!(write(&plan), bytes, "an accepted table, judged and written, is that table");
    plan
}

/// The table in edition 2 with these deadlines.
fn dated(table: Table, deadlines: &[u32]) -> Table {
    let mut table = Table { edition: 2, ..table };
    for (task, &deadline) in table.tasks.iter_mut().zip(deadlines) {
        task.deadline = deadline;
    }
    table
}

fn each(plan: &Plan, figure: impl Fn(&Plan, usize) -> u128) -> Vec<u128> {
    (0..plan.tasks.len()).map(|k| figure(plan, k)).collect()
}

fn met<T>(answer: Result<T, Refusal>) -> (u32, u32) {
    let Refusal { number, index } = answer.err().expect("the call is refused");
    (number, index)
}

#[test]
fn one_loop_on_two_cores() {
    let one = plan(2, &[FIRST]);
    assert_eq!((&one.slack[..], one.offered), (&[0][..], false));
    assert_eq!((one.bound(0), one.late(0), one.counted()), (9, 0, vec![]));
    let bytes = write(&one);
    let mut out = [0xaa; 11];
    assert_eq!(judge_into(&bytes, &mut out), Ok(1));
    assert_eq!(out, [0, 0, 0, 0, 9, 0, 0, 0, 0xaa, 0xaa, 0xaa]);
    assert_eq!(judge_into(&bytes, &mut out[..7]), Err(Refusal::whole(24)));
    let mut names = [0xaa; 2];
    assert_eq!(counted_into(&bytes, &mut names), Ok(0));
    assert_eq!(counted_into(&bytes, &mut []), Ok(0));
    assert_eq!(names, [0xaa; 2]);
    assert_eq!(text(&bytes), "cores 2 loops 1\nloop 0 slack 0 bound 9 late 0\ncounted\n");
}

#[test]
fn as_many_loops_as_cores_and_one_more() {
    // P1: with the third core every loop has one for itself.
    let p1 = [FIRST, FIRST, (100, 20, 90)];
    let (three, two) = (plan(3, &p1), plan(2, &p1));
    assert_eq!((&three.slack[..], &two.slack[..]), (&[0; 3][..], &[6, 6, 0][..]));
    assert_eq!(each(&three, Plan::bound), [9, 9, 20]);
    assert_eq!(each(&two, Plan::bound), [25, 25, 110]);
    assert_eq!((three.counted(), two.counted()), (vec![], vec![2]));
    // Full cores: the shares are m × H.
    assert_eq!(plan(8, &[(5, 5, 0); 8]).slack, [0; 8]);
    assert_eq!(met(judge(&Table::of(8, &[(5, 5, 0); 9]).bytes())), (10, 0));
}

#[test]
fn late_counts_from_the_offset_or_the_deadline_and_not_below_0() {
    let loops = [(10, 9, 10), (10, 9, 9), (10, 9, 8), (10, 9, 0)];
    let offsets = plan(4, &loops);
    assert_eq!(each(&offsets, Plan::bound), [9; 4]);
    assert_eq!(each(&offsets, Plan::late), [0, 0, 1, 9]);
    let table = dated(Table::of(4, &loops), &[8, 9, 10, 1_600_000]);
    let deadlines = judge(&table.bytes()).expect("the table is accepted");
    assert_eq!(each(&deadlines, Plan::bound), [9; 4]);
    assert_eq!(each(&deadlines, Plan::late), [1, 0, 0, 0]);
}

#[test]
fn tables_have_1_to_16_loops_and_sheets_more_than_cores() {
    let of = |cores, tasks| Table::of(cores, &vec![(16, 1, 16); tasks]).bytes();
    for cores in 2..=8 {
        for tasks in 0..=17 {
            let (table, sheet) = (judge(&of(cores, tasks)), wish(&of(cores, tasks)));
            assert_eq!(table.is_ok(), (1..=16).contains(&tasks), "{tasks} loops, {cores} cores");
            if table.is_err() {
                assert_eq!(met(table), (5, 0));
            }
            let many = (usize::from(cores) + 1..=16).contains(&tasks);
            assert_eq!(sheet.is_ok(), many, "a sheet of {tasks} loops, {cores} cores");
            if !many {
                assert_eq!(met(sheet), (5, 0));
            }
        }
    }
}

#[test]
fn offered_slack_is_refused_11_after_9() {
    for slack in [vec![0], vec![0, 0], vec![0, 5], vec![0; 3], vec![u32::MAX; 255]] {
        let mut table = Table { slack, ..Table::of(2, &[FIRST, (1001, 1, 0)]) };
        assert_eq!(met(judge(&table.bytes())), (11, 0), "{:?}", table.slack);
        table.tasks[0].separation = 1000;
        assert_eq!(met(judge(&table.bytes())), (9, 0), "{:?}", table.slack);
        table.tasks[0].offset = 1001;
        assert_eq!(met(judge(&table.bytes())), (8, 0), "{:?}", table.slack);
    }
}

#[test]
fn a_state_is_unsound_by_its_mark_or_its_slack() {
    let opened = open(&plan(3, &[FIRST, FIRST]));
    assert_eq!(broken(&opened), []);
    let damages: [fn(&mut State); 3] = [
        |state| state.offered = true,
        |state| state.slack[1] = 1,
        |state| (state.offered, state.slack[0]) = (true, 6),
    ];
    for damage in damages {
        let mut state = opened.clone();
        damage(&mut state);
        assert_eq!(broken(&state), [Clause::Table]);
        assert_eq!(step(&state).answer, Err(Refusal::whole(18)));
        assert_eq!(release(&state, 0, 1).answer, Err(Refusal::whole(18)));
    }
}

#[test]
fn every_loop_with_work_runs_at_every_step() {
    let mut state = open(&plan(4, &[FIRST, (7, 7, 0), (3, 2, 3)]));
    for (task, demand) in [(0, 9), (1, 7), (2, 2)] {
        let released = release(&state, task, demand);
        assert_eq!(released.answer, Ok(()));
        state = released.state;
    }
    let mut ran = [0; 3];
    while state.jobs.iter().any(|&jobs| jobs > 0) {
        let stepped = step(&state);
        state = stepped.state;
        for task in stepped.report.runs.into_iter().filter(|&task| task != reference::IDLE) {
            ran[usize::from(task)] = state.clock;
        }
    }
    assert_eq!(ran, [9, 7, 2]);
}

#[test]
fn a_taken_entry_finishes_after_its_demand() {
    use Outcome::{Finished, Refused};
    let log = [
        ((0, 0, 9), Finished(9)),
        ((0, 1, 3), Finished(3)),
        ((1, 1, 3), Refused(22)),
        ((3, 1, 1), Finished(4)),
        ((6, 2, 1), Refused(20)),
        ((5, 1, 1), Refused(17)),
        ((10, 0, 4), Finished(14)),
    ];
    let entries = log.map(|((tick, task, demand), _)| Entry { tick, task, demand }).to_vec();
    let run = outcomes(&plan(2, &[FIRST, (3, 3, 0)]), &Log { entries });
    assert_eq!(run, log.map(|(_, outcome)| outcome));
}

#[test]
fn no_conversion_and_31_comes_before_29_and_30() {
    let first = Table::of(2, &[FIRST, (10, 9, 0)]);
    assert_eq!(met(convert(&first.bytes(), 2)), (31, 0));
    assert_eq!(met(convert_into(&first.bytes(), 2, &mut [])), (31, 0));
    let second = dated(first.clone(), &[10, 1]);
    assert_eq!(met(convert(&second.bytes(), 1)), (31, 0));
    assert_eq!(
        met(convert_into(&dated(Table::of(2, &[FIRST]), &[10]).bytes(), 1, &mut [])),
        (31, 0)
    );
    // The table's own checks and the wanted edition come before.
    let offering = Table { slack: vec![0; 2], ..first.clone() };
    assert_eq!(met(convert(&offering.bytes(), 2)), (11, 0));
    assert_eq!(met(convert(&dated(first.clone(), &[10, 0]).bytes(), 1)), (28, 1));
    assert_eq!(met(convert(&first.bytes(), 1)), (1, 0));
    // One loop more than cores meets 29.
    assert_eq!(met(convert(&Table::of(2, &[FIRST, (10, 9, 0), (5, 1, 5)]).bytes(), 2)), (29, 1));
}

#[test]
fn the_sentences() {
    let five = "Refusal 5 for loop 0 onwards: the number of loops must be at least 1, on a wish \
        sheet above the number of cores, and at most 16, not 17.";
    assert_eq!(sentence(5, 0, 17), five);
    let twelve = "Refusal 12 for loop 1: its slack must be compliant if it is offered and, if it is \
        found, the smallest that is compliant, or 0 where loops are no more than cores, not 3.";
    assert_eq!(sentence(12, 1, 3), twelve);
    let thirty_one = "Refusal 31 for loop 0 onwards: for a conversion the number of loops must be \
        above the number of cores, not 2.";
    assert_eq!(sentence(31, 0, 2), thirty_one);
    assert!(sentence(32, 0, 0).contains("unknown"));
}
