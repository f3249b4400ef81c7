//! Found slack against a search through all small vectors: "the compliant whole vector that is no
//! larger at any loop than any other".

use reference::{Analysis, Task};

/// A multiple of every separation tried here: all is multiplied by it, as the document does by H.
const MULTIPLE: u128 = 6;

/// Every task with a separation up to `longest`.
fn tasks_up_to(longest: u32) -> Vec<Task> {
    let mut tasks = Vec::new();
    for separation in 1..=longest {
        for budget in 1..=separation {
            for offset in 0..=separation {
                tasks.push(Task::new(separation, budget, offset));
            }
        }
    }
    tasks
}

/// Every list of `length` of the choices.
fn lists<T: Copy>(choices: &[T], length: usize) -> Vec<Vec<T>> {
    if length == 0 {
        return vec![vec![]];
    }
    let mut all = Vec::new();
    for list in lists(choices, length - 1) {
        for &choice in choices {
            all.push([&list[..], &[choice]].concat());
        }
    }
    all
}

fn utilisation(task: &Task) -> u128 {
    MULTIPLE * u128::from(task.budget) / u128::from(task.separation)
}

/// Compliance in another form: A has the m − 1 largest weights in it, so the condition holds
/// exactly when it holds with any m − 1 of the weights (`chosen` has a bit for each).
fn compliant(cores: usize, tasks: &[Task], slack: &[u128]) -> bool {
    let weight = |i: usize| utilisation(&tasks[i]) * (slack[i] + u128::from(tasks[i].offset));
    let surplus = |task: &Task| utilisation(task) * u128::from(task.separation - task.offset);
    let surpluses: u128 = tasks.iter().map(surplus).sum();
    let supply = |k: usize| MULTIPLE * (cores as u128 * slack[k] + u128::from(tasks[k].budget));
    let lowest = (0..tasks.len()).map(supply).min().expect("there are tasks");
    (0..1u32 << tasks.len()).filter(|chosen| chosen.count_ones() as usize == cores - 1).all(
        |chosen| {
            let taken = (0..tasks.len()).filter(|i| chosen >> i & 1 == 1);
            taken.map(weight).sum::<u128>() + surpluses <= lowest
        },
    )
}

/// Checks every table of cores + 1 tasks with separations up to `longest` against every vector
/// with entries below `limit`, and answers how many passed 10.
fn check_all(cores: usize, longest: u32, limit: u128) -> usize {
    let vectors = lists(&(0..limit).collect::<Vec<_>>(), cores + 1);
    let mut tables = 0;
    for tasks in lists(&tasks_up_to(longest), cores + 1) {
        let analysis = Analysis::new(cores, &tasks).expect("H is at most 6");
        let (load, capacity) = analysis.load_and_capacity();
        if load <= capacity {
            tables += 1;
            check(cores, &tasks, &analysis.found(), &vectors);
        }
    }
    tables
}

fn check(cores: usize, tasks: &[Task], found: &[u128], vectors: &[Vec<u128>]) {
    assert!(vectors.iter().any(|vector| vector == found), "{found:?} is beyond the vectors tried");
    let compliant = |vector: &&Vec<u128>| compliant(cores, tasks, vector);
    assert!(compliant(&&found.to_vec()), "{tasks:?}: {found:?} is not compliant");
    for vector in vectors.iter().filter(compliant) {
        let above = found.iter().zip(vector).all(|(x, other)| x <= other);
        assert!(above, "{tasks:?}: {vector:?} is compliant, {found:?} was found");
    }
}

#[test]
fn found_slack_is_least_on_two_cores() {
    assert!(check_all(2, 3, 8) > 3000);
}

#[test]
fn found_slack_is_least_on_three_cores() {
    assert!(check_all(3, 2, 6) > 1000);
}
