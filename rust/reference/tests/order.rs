//! Which of two refusals comes first, and the index that each gives, on tables that meet both.

use reference::{Refusal, Table, Task, judge, judge_into};

/// P1 of document 01 as something to change.
fn p1() -> Table {
    Table::of(2, &[(10, 9, 10), (10, 9, 10), (100, 20, 90)])
}

/// What P1 meets after a change.
fn changed(change: impl FnOnce(&mut Table)) -> (u32, u32) {
    let mut table = p1();
    change(&mut table);
    met(&table.bytes())
}

fn met(bytes: &[u8]) -> (u32, u32) {
    let Refusal { number, index } = judge(bytes).expect_err("the table is refused");
    (number, index)
}

#[test]
fn edition_before_length() {
    assert_eq!(met(&[]), (1, 0));
    assert_eq!(met(&[3]), (1, 0));
    assert_eq!(met(&[0, 200]), (1, 0));
    assert_eq!(met(&[1]), (2, 0));
    assert_eq!(met(&[2]), (2, 0));
}

#[test]
fn length_before_cores() {
    for edition in [1, 2] {
        assert_eq!(met(&[edition, 200]), (2, 0));
        assert_eq!(met(&[edition, 0, 0, 0, 0]), (2, 0));
        assert_eq!(met(&[edition, 0, 0, 0]), (3, 0));
    }
    let whole = p1().bytes();
    for length in 1..whole.len() {
        assert_eq!(met(&whole[..length]), (2, 0), "cut to {length} bytes");
    }
    assert_eq!(met(&[&whole[..], &[0]].concat()), (2, 0));
}

#[test]
fn cores_before_labels_before_tasks() {
    assert_eq!(changed(|t| t.labels = vec![64]), (3, 0));
    assert_eq!(changed(|t| t.labels = vec![9; 9]), (3, 0));
    assert_eq!(changed(|t| t.labels = vec![0, 64]), (4, 1));
    assert_eq!(changed(|t| t.labels = vec![64, 0]), (4, 0));
    assert_eq!(changed(|t| t.labels = vec![5, 5]), (4, 1));
    // The last label is not above the one before, and there is no task.
    let no_task = |labels: &[u8]| Table { labels: labels.to_vec(), tasks: vec![], ..p1() };
    assert_eq!(met(&no_task(&[1, 2, 3, 2]).bytes()), (4, 3));
    assert_eq!(met(&no_task(&[1, 2, 3]).bytes()), (5, 0));
    assert_eq!(changed(|t| t.tasks = vec![t.tasks[0]; 17]), (5, 0));
}

#[test]
fn tasks_before_separations() {
    let zero = Task::new(0, 0, 1);
    assert_eq!(changed(|t| t.tasks = vec![zero; 17]), (5, 0));
    assert_eq!(changed(|t| t.tasks = vec![zero; 16]), (6, 0));
    assert_eq!(changed(|t| t.tasks = vec![zero]), (6, 0));
}

#[test]
fn each_field_over_all_tasks_before_the_next() {
    let faults = |t: &mut Table| {
        t.tasks[0].offset = 11;
        t.tasks[1].budget = 11;
        t.tasks[2].separation = 100_001;
    };
    assert_eq!(changed(faults), (6, 2));
    let without_6 = |t: &mut Table| {
        faults(t);
        t.tasks[2].separation = 100;
    };
    assert_eq!(changed(without_6), (7, 1));
    assert_eq!(changed(|t| t.tasks[1].budget = 0), (7, 1));
    assert_eq!(changed(|t| t.tasks[2].offset = 101), (8, 2));
}

#[test]
fn separations_at_their_largest() {
    let table = Table::of(2, &[(100_000, 1, 100_000); 3]);
    assert!(judge(&table.bytes()).is_ok());
}

#[test]
fn offsets_before_the_hyperperiod_before_shares() {
    let longest = |t: &mut Table| {
        for (task, separation) in t.tasks.iter_mut().zip([1000, 1001, 1]) {
            *task = Task::new(separation, separation, separation);
        }
    };
    assert_eq!(changed(longest), (9, 0));
    let offset = |t: &mut Table| {
        longest(t);
        t.tasks[2].offset = 2;
    };
    assert_eq!(changed(offset), (8, 2));
}

#[test]
fn shares_before_the_slack_count_before_the_slack() {
    let overloaded = |t: &mut Table| {
        t.tasks[2].budget = 21;
        t.slack = vec![0];
    };
    assert_eq!(changed(overloaded), (10, 0));
    assert_eq!(changed(|t| t.slack = vec![0]), (11, 0));
    assert_eq!(changed(|t| t.slack = vec![0; 4]), (11, 0));
    assert_eq!(changed(|t| t.slack = vec![0; 3]), (12, 0));
}

#[test]
fn compliance_before_the_bounds() {
    // Loop 0 has a bound above 160 either way; loop 1 falls short only the first time.
    assert_eq!(changed(|t| t.slack = vec![200, 6, 0]), (12, 1));
    assert_eq!(changed(|t| t.slack = vec![200; 3]), (13, 0));
    assert_eq!(changed(|t| t.slack = vec![u32::MAX; 3]), (13, 0));
    assert_eq!(changed(|t| t.slack = vec![u32::MAX, 0, 0]), (12, 1));
}

#[test]
fn the_lent_buffer_after_the_bounds() {
    let mut table = p1();
    let mut short = [0x55; 23];
    let refused = |number| Err(Refusal { number, index: 0 });
    assert_eq!(judge_into(&table.bytes(), &mut short), refused(24));
    assert_eq!(judge_into(&table.bytes(), &mut []), refused(24));
    table.slack = vec![200; 3];
    assert_eq!(judge_into(&table.bytes(), &mut short), refused(13));
    assert_eq!(short, [0x55; 23], "a refused call writes nothing");
    assert_eq!(judge_into(&p1().bytes(), &mut [0; 24]), Ok(3));
}
