//! The program `plan`, as it is built at `target/bin/plan` of the repository, against the reference:
//! every byte that it prints, for the sample shows and for tables made from a fixed seed.

use reference::{Plan, Table, judge, text};
use samples::{
    Random, any_tight, damaged_table, faulty_table, few, few_offering, long, mixed, noise_table,
    offered, steep, table_with_bad_deadlines,
};
use std::collections::BTreeMap;
use std::fs;
use std::io::Write;
use std::path::{Path, PathBuf};
use std::process::{Command, Stdio};

/// How many tables of each kind the program is run on.
const RUNS: usize = 120;

/// How many tables, and how many of their loops, are to be of each of these kinds, at least.
const AT_LEAST: [(usize, &str); 12] = [
    (RUNS, "accepted, edition 1"),
    (RUNS, "accepted, edition 2"),
    (RUNS, "D below the bound"),
    (RUNS, "D one below the bound"),
    (RUNS, "D the bound"),
    (RUNS, "D one above the bound"),
    (RUNS, "D above the bound"),
    (RUNS, "few loops, accepted"),
    (RUNS / 4, "few loops, edition 1, late 0"),
    (RUNS / 4, "few loops, edition 1, late above 0"),
    (RUNS / 4, "few loops, edition 2, late 0"),
    (RUNS / 4, "few loops, edition 2, late above 0"),
];

fn root() -> PathBuf {
    Path::new(env!("CARGO_MANIFEST_DIR")).join("../..")
}

/// What the program prints for `table` on its standard input.
fn printed(table: &[u8]) -> String {
    let program = root().join("target/bin/plan");
    assert!(
        program.is_file(),
        "{} is not there: build it by `tools/libraries` in the repository's root",
        program.display()
    );
    let mut child = Command::new(program)
        .stdin(Stdio::piped())
        .stdout(Stdio::piped())
        .spawn()
        .expect("the program starts");
    let mut input = child.stdin.take().expect("its standard input is a pipe");
    // The program reads 5,360 bytes at most, and may end before a longer input is written.
    let _ = input.write_all(table);
    drop(input);
    let done = child.wait_with_output().expect("the program ends");
    assert!(done.status.success(), "the program's status is {}", done.status);
    String::from_utf8(done.stdout).expect("it prints ASCII")
}

/// How often each kind of text, and of late in it, was met.
type Met = BTreeMap<String, usize>;

/// Compares one text, and counts what it says.
fn compare(table: &[u8], met: &mut Met) {
    assert_eq!(printed(table), text(table), "table {table:?}");
    match judge(table) {
        Err(refusal) => *met.entry(format!("refused {}", refusal.number)).or_default() += 1,
        Ok(plan) => {
            *met.entry(format!("accepted, edition {}", plan.edition)).or_default() += 1;
            count_late(&plan, met);
            if plan.is_few() {
                count_few(&plan, met);
            }
        }
    }
}

/// Counts few loops, that is no more than cores, and whether late is cut at 0.
fn count_few(plan: &Plan, met: &mut Met) {
    *met.entry("few loops, accepted".to_string()).or_default() += 1;
    for k in 0..plan.tasks.len() {
        let late = if plan.late(k) == 0 { "0" } else { "above 0" };
        let kind = format!("few loops, edition {}, late {late}", plan.edition);
        *met.entry(kind).or_default() += 1;
    }
}

/// Counts on which side of its bound each deadline is.
fn count_late(plan: &Plan, met: &mut Met) {
    if plan.edition == 1 {
        return;
    }
    for (k, task) in plan.tasks.iter().enumerate() {
        let early = i128::from(task.deadline) - plan.bound(k) as i128;
        let side = match early {
            ..-1 => "D below the bound",
            -1 => "D one below the bound",
            0 => "D the bound",
            1 => "D one above the bound",
            2.. => "D above the bound",
        };
        *met.entry(String::from(side)).or_default() += 1;
    }
}

fn p1(second_budget: u32) -> Table {
    Table::of(2, &[(10, 9, 10), (10, second_budget, 10), (100, 20, 90)])
}

#[test]
fn the_texts_of_the_documents() {
    let p1_text = "cores 2 loops 3\n\
        loop 0 slack 6 bound 25 late 15\n\
        loop 1 slack 6 bound 25 late 15\n\
        loop 2 slack 0 bound 110 late 20\n\
        counted 2\n";
    assert_eq!(printed(&p1(9).bytes()), p1_text);
    assert_eq!(printed(&p1(11).bytes()), "refused 7 at 1\n");
    // With a third core `counted` is printed alone.
    let third_core = Table { labels: vec![0, 1, 2], ..p1(9) };
    let few_text = "cores 3 loops 3\n\
        loop 0 slack 0 bound 9 late 0\n\
        loop 1 slack 0 bound 9 late 0\n\
        loop 2 slack 0 bound 20 late 0\n\
        counted\n";
    assert_eq!(printed(&third_core.bytes()), few_text);
}

/// "late is the larger of 0 and bound − D": P1 with D below, at and above its bounds.
#[test]
fn late_counts_from_the_deadline_in_edition_2() {
    let with_deadlines = |deadlines: [u32; 3]| {
        let mut table = p1(9);
        table.edition = 2;
        for (task, deadline) in table.tasks.iter_mut().zip(deadlines) {
            task.deadline = deadline;
        }
        table.bytes()
    };
    let p1_text = "cores 2 loops 3\n\
        loop 0 slack 6 bound 25 late 1\n\
        loop 1 slack 6 bound 25 late 0\n\
        loop 2 slack 0 bound 110 late 0\n\
        counted 2\n";
    assert_eq!(printed(&with_deadlines([24, 25, 111])), p1_text);
    assert_eq!(printed(&with_deadlines([24, 0, 1_600_001])), "refused 28 at 1\n");
    assert_eq!(printed(&with_deadlines([24, 1, 1_600_001])), "refused 28 at 2\n");
}

#[test]
fn the_sample_shows() {
    let mut shows = 0;
    for entry in fs::read_dir(root().join("shows")).expect("the folder shows is there") {
        let path = entry.expect("its entries are read").path();
        if path.extension().is_some_and(|ending| ending == "table") {
            let table = fs::read(&path).expect("a table is read");
            assert_eq!(printed(&table), text(&table), "{}", path.display());
            shows += 1;
        }
    }
    assert!(shows >= 5, "only {shows} sample shows were found");
}

#[test]
fn tables_of_every_kind() {
    let random = &mut Random::new(23);
    let mut met = BTreeMap::new();
    for _ in 0..RUNS {
        compare(&mixed(random).bytes(), &mut met);
        compare(&long(random).bytes(), &mut met);
        compare(&steep(random).bytes(), &mut met);
        compare(&any_tight(random).bytes(), &mut met);
        compare(&offered(random).bytes(), &mut met);
        compare(&faulty_table(random).bytes(), &mut met);
        compare(&table_with_bad_deadlines(random).bytes(), &mut met);
        compare(&few(random).bytes(), &mut met);
        compare(&few_offering(random).bytes(), &mut met);
        let table = mixed(random).bytes();
        compare(&damaged_table(random, table), &mut met);
        compare(&noise_table(random), &mut met);
    }
    println!("{met:?}");
    for number in (1..=13).chain([28]) {
        let kind = format!("refused {number}");
        assert!(met.contains_key(&kind), "no table is {kind}: {met:?}");
    }
    for (least, kind) in AT_LEAST {
        let count = met.get(kind).copied().unwrap_or(0);
        assert!(count >= least, "{kind}: {count} of {met:?}");
    }
}

/// An edition that is neither 1 nor 2, and a length that no counts give, also beyond what the
/// program reads. Three counts of 255 give 4,339 bytes in edition 1 and 5,359 in edition 2.
#[test]
fn inputs_longer_than_any_table() {
    for length in [4338, 4339, 4340, 4341, 5358, 5359, 5360, 5361, 6000, 70_000] {
        let mut bytes = vec![0xff; length];
        assert_eq!(printed(&bytes), "refused 1 at 0\n", "{length} bytes");
        for (edition, longest) in [(1, 4339), (2, 5359)] {
            bytes[0] = edition;
            let number = if length == longest { 3 } else { 2 };
            assert_eq!(text(&bytes), format!("refused {number} at 0\n"), "{length} bytes");
            assert_eq!(printed(&bytes), text(&bytes), "{length} bytes, edition {edition}");
        }
    }
}
