//! Wish sheets: document 02's worked one, sheets on both sides of having a solution, the ends of a
//! wish's range, the order of the numbers, and raising against trying everything on tiny sheets.

use reference::{Refusal, Table, judge, wish, wish_by_trying, wish_into, write};

/// P1's loops with these wishes.
fn p1(wishes: [u32; 3]) -> Table {
    let [first, second, third] = wishes;
    Table::of(2, &[(10, 9, first), (10, 9, second), (100, 20, third)])
}

/// Offset and slack of each task of a sheet that has a solution. The judge accepts the plan "with
/// its slack left out [..] with the same slack".
fn found(sheet: &Table) -> Vec<(u32, u32)> {
    let plan = wish(&sheet.bytes()).expect("the sheet has a solution");
    assert_eq!(judge(&write(&plan)), Ok(plan.clone()));
    assert!(!plan.offered);
    plan.tasks.iter().map(|task| task.offset).zip(plan.slack).collect()
}

fn met(sheet: &Table) -> (u32, u32) {
    let Refusal { number, index } = wish(&sheet.bytes()).expect_err("the sheet is refused");
    (number, index)
}

#[test]
fn p1_wishing_29_99_90() {
    assert_eq!(found(&p1([29, 99, 90])), [(10, 6), (10, 6), (69, 1)]);
}

#[test]
fn p1_as_the_c_function_writes_it() {
    let mut out = [0xaa; 41];
    assert_eq!(wish_into(&p1([29, 99, 90]).bytes(), &mut out), Ok(3));
    assert_eq!(out[..12], [10, 0, 0, 0, 6, 0, 0, 0, 25, 0, 0, 0]);
    assert_eq!(out[12..24], [10, 0, 0, 0, 6, 0, 0, 0, 25, 0, 0, 0]);
    assert_eq!(out[24..36], [69, 0, 0, 0, 1, 0, 0, 0, 90, 0, 0, 0]);
    assert_eq!(out[36..], [0xaa; 5]);
}

#[test]
fn one_tick_decides() {
    // The third wish: by its smaller offset the first two loops need more slack.
    assert_eq!(found(&p1([29, 99, 70])), [(10, 10), (10, 10), (45, 5)]);
    assert_eq!(met(&p1([29, 99, 69])), (27, 0));
    // The first wish.
    assert_eq!(found(&p1([25, 99, 90])), [(10, 6), (10, 6), (69, 1)]);
    assert_eq!(met(&p1([24, 99, 90])), (27, 0));
}

#[test]
fn a_wish_at_the_ends_of_its_range() {
    // With more wished than is needed the offsets are T: this is P1 with its third offset 100.
    assert_eq!(found(&p1([160, 160, 1600])), [(10, 6), (10, 6), (100, 0)]);
    assert_eq!(met(&p1([161, 160, 1600])), (26, 0));
    assert_eq!(met(&p1([160, 161, 1601])), (26, 1));
    assert_eq!(met(&p1([160, 160, 1601])), (26, 2));
    // W = C leaves a loop neither offset nor slack.
    assert_eq!(met(&p1([9, 160, 1600])), (27, 0));
    assert_eq!(met(&p1([160, 9, 1600])), (27, 0));
    assert_eq!(met(&p1([160, 160, 20])), (27, 0));
    assert_eq!(met(&p1([8, 8, 19])), (26, 0));
    assert_eq!(met(&p1([9, 8, 19])), (26, 1));
    assert_eq!(met(&p1([9, 9, 19])), (26, 2));
    assert_eq!(met(&p1([0, 160, 1600])), (26, 0));
    assert_eq!(met(&p1([160, 160, u32::MAX])), (26, 2));
}

#[test]
fn the_longest_separations_at_16_times_them() {
    let tasks = [(100_000, 50_000, 1_600_000); 4];
    assert_eq!(found(&Table::of(2, &tasks)), [(100_000, 0); 4]);
    assert_eq!(met(&Table::of(2, &[tasks[0], tasks[0], (100_000, 1, 1_600_001)])), (26, 2));
}

#[test]
fn earlier_numbers_as_for_a_table() {
    let bytes = p1([29, 99, 90]).bytes();
    let refused = |number| Err(Refusal::whole(number));
    assert_eq!(wish(&[]), refused(1));
    assert_eq!(wish(&[&[3], &bytes[1..]].concat()), refused(1));
    assert_eq!(wish(&[&[2], &bytes[1..]].concat()), refused(2));
    assert_eq!(wish(&bytes[..bytes.len() - 1]), refused(2));
    assert_eq!(wish(&[&bytes[..], &[0]].concat()), refused(2));
    let tasks = [(10, 9, 8); 3];
    assert_eq!(met(&Table::of(1, &tasks)), (3, 0));
    assert_eq!(met(&Table { labels: vec![5, 64], ..Table::of(2, &tasks) }), (4, 1));
    assert_eq!(met(&Table::of(3, &tasks)), (5, 0));
    assert_eq!(met(&Table::of(2, &[(10, 9, 8), (10, 9, 8), (0, 9, 8)])), (6, 2));
}

#[test]
fn budgets_before_wishes_before_the_hyperperiod() {
    // The last budget is above its separation, the first wish above 16 × T, H above 1,000,000, the
    // shares above 2 × H, and slack is offered.
    let mut all =
        Table::of(2, &[(1000, 1000, 16_001), (1001, 1001, 16_000), (99_991, 99_992, 99_992)]);
    all.slack = vec![0; 3];
    assert_eq!(met(&all), (7, 2));
    all.tasks[2].budget = 99_991;
    assert_eq!(met(&all), (26, 0));
    all.tasks[0].offset = 16_000;
    assert_eq!(met(&all), (9, 0));
}

#[test]
fn the_hyperperiod_before_shares_before_the_slack_count_before_27() {
    // Without a solution, but for the number that is tested before it.
    let mut overloaded = p1([9, 9, 21]);
    overloaded.tasks[2].budget = 21;
    overloaded.slack = vec![0; 3];
    assert_eq!(met(&overloaded), (10, 0));
    overloaded.tasks[2].budget = 20;
    for count in [3, 1, 2, 4, 255] {
        overloaded.slack = vec![6; count];
        assert_eq!(met(&overloaded), (11, 0), "slack count {count}");
    }
    overloaded.slack = vec![];
    assert_eq!(met(&overloaded), (27, 0));
    // Slack that is compliant with the offsets found is not asked for either.
    let mut offering = p1([29, 99, 90]);
    offering.slack = vec![6, 6, 1];
    assert_eq!(met(&offering), (11, 0));
}

#[test]
fn the_lent_buffer_after_all_other_numbers() {
    let mut short = [0x55; 35];
    let refused = |number| Err(Refusal::whole(number));
    assert_eq!(wish_into(&p1([29, 99, 90]).bytes(), &mut short), refused(24));
    assert_eq!(wish_into(&p1([29, 99, 90]).bytes(), &mut []), refused(24));
    assert_eq!(wish_into(&p1([29, 99, 69]).bytes(), &mut short), refused(27));
    assert_eq!(short, [0x55; 35], "a refused call writes nothing");
    assert_eq!(wish_into(&p1([29, 99, 90]).bytes(), &mut [0; 36]), Ok(3));
}

/// Every list of `length` of the choices.
fn lists<T: Copy>(choices: &[T], length: usize) -> Vec<Vec<T>> {
    let mut lists = vec![vec![]];
    for _ in 0..length {
        let longer = |list: &Vec<T>| {
            choices.iter().map(|&choice| [&list[..], &[choice]].concat()).collect::<Vec<_>>()
        };
        lists = lists.iter().flat_map(longer).collect();
    }
    lists
}

/// Raises and tries every sheet of cores + 1 tasks with these separations and budgets and with up
/// to `most` ticks for offset and slack together. How many have a solution, and how many have none.
fn raise_and_try(cores: u8, kinds: &[(u32, u32)], most: u32) -> (usize, usize) {
    let (mut with, mut without) = (0, 0);
    let tasks = usize::from(cores) + 1;
    let rooms = lists(&(0..=most).collect::<Vec<_>>(), tasks);
    for kinds in lists(kinds, tasks) {
        for rooms in &rooms {
            let tasks: Vec<_> =
                kinds.iter().zip(rooms).map(|(&(t, c), room)| (t, c, c + room)).collect();
            let bytes = Table::of(cores, &tasks).bytes();
            let raised = wish(&bytes);
            match raised {
                Ok(_) => with += 1,
                Err(Refusal { number: 27, .. }) => without += 1,
                Err(refusal) => {
                    assert_eq!(refusal, Refusal::whole(10), "{tasks:?}");
                    continue;
                }
            }
            assert_eq!(raised.ok(), wish_by_trying(&bytes), "{tasks:?}");
        }
    }
    (with, without)
}

#[test]
fn raising_finds_what_trying_everything_finds() {
    let up_to_3 = [(1, 1), (2, 1), (2, 2), (3, 1), (3, 2), (3, 3)];
    let (with, without) = raise_and_try(2, &up_to_3, 5);
    println!("{with} sheets of two cores with a solution, {without} without one");
    assert!(with > 4_000 && without > 10_000, "{with} and {without} sheets");
}

#[test]
fn raising_finds_what_trying_everything_finds_on_three_cores() {
    let (with, without) = raise_and_try(3, &[(1, 1), (2, 1)], 4);
    println!("{with} sheets of three cores with a solution, {without} without one");
    assert!(with > 500 && without > 5_000, "{with} and {without} sheets");
}
