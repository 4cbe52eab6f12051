//! The differential suites: the library, through its binding, against the second implementation.
//!
//! With names of suites on the command line only those run. With `--self` in front, the suites of
//! descriptors, salvaging and segments run with the second implementation in both roles.

mod helpers;
mod kit;
mod suites;

use std::process::ExitCode;

/// The number of cases that each suite must at least run: `name count` a line.
const COUNTS: &str = include_str!("../counts.txt");

/// The stored names and counts.
fn stored() -> impl Iterator<Item = (&'static str, u64)> {
    COUNTS.lines().map(|line| {
        let (name, count) = line.split_once(' ').expect("a name and a count a line");
        (name, count.parse().expect("a number"))
    })
}

fn stored_count(name: &str) -> Option<u64> {
    stored()
        .find(|(known, _)| *known == name)
        .map(|(_, count)| count)
}

/// How many suites are stored and are none; each is said.
fn missing(all: &[&kit::Definition]) -> u64 {
    let mut missing = 0;
    for (name, _) in stored() {
        if !all.iter().any(|suite| suite.name == name) {
            println!("  failed: {name} is stored, and no suite has that name");
            missing += 1;
        }
    }
    missing
}

fn main() -> ExitCode {
    let mut chosen: Vec<String> = std::env::args().skip(1).collect();
    let itself = matches!(chosen.first(), Some(first) if first == "--self");
    if itself {
        chosen.remove(0);
        helpers::under_test::choose_itself();
    }
    let all = suites::all(itself);
    for name in &chosen {
        if !all.iter().any(|suite| suite.name == name) {
            println!("no suite has the name {name}");
            println!("0 passed, 1 failed");
            return ExitCode::FAILURE;
        }
    }
    let mut passed = 0;
    let mut failed = if itself { 0 } else { missing(&all) };
    for suite in all {
        if chosen.is_empty() || chosen.iter().any(|name| name == suite.name) {
            let outcome = kit::Suite::run(suite, stored_count(suite.name));
            passed += outcome.passed;
            failed += outcome.failed;
        }
    }
    println!("{passed} passed, {failed} failed");
    if failed == 0 {
        ExitCode::SUCCESS
    } else {
        ExitCode::FAILURE
    }
}
