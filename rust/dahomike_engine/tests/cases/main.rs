//! Runs the cases of the scripts beside this file through the C calls, a line at a time, and
//! compares what comes back with the stored lines. docs/TESTING.md has the words that a line may
//! have.

mod show;
mod words;
mod world;

use world::World;

/// Each line that the script's cases print is the stored one, and each call has its stored case.
fn compare(script: &str, stored: &str) {
    let mut world = World::new();
    for line in script.lines().filter(|line| !line.is_empty() && !line.starts_with('#')) {
        world.act(line);
    }
    let printed = world.printed();
    for (number, (line, expected)) in (1..).zip(printed.lines().zip(stored.lines())) {
        assert_eq!(line, expected, "stored line {number}");
    }
    assert_eq!(printed.lines().count(), stored.lines().count(), "stored lines");
    let calls = script.lines().filter(|line| line.starts_with("call ")).count();
    let cases = stored.lines().filter(|line| begins_case(line)).count();
    assert_eq!(cases, calls, "stored cases");
}

fn begins_case(line: &str) -> bool {
    ["case ", "unsound ", "refused "].iter().any(|word| line.starts_with(word))
}

/// A test of each script and its stored lines.
macro_rules! scripts {
    ($($name:ident),+) => {
        $(#[test]
        fn $name() {
            let script = include_str!(concat!(stringify!($name), ".script"));
            compare(script, include_str!(concat!(stringify!($name), ".stored")));
        })+
    };
}

scripts!(unsound, calls, runs, editions, few, opened);
