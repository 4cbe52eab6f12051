//! Measures the functions of libav1ts.a beside C in one run, and prints one table, and how cost
//! grows. Run it by `make bench`, or once that has built the libraries by
//! `cargo run --release -p bench`, with `-- --quick` for a short run. `bench/instructions` runs it
//! with `--counted`.

mod access_unit;
mod checksum;
mod growth;
mod header;
mod input;
mod measure;
mod measured;
mod multiplex;
mod payload;
mod peers;
mod segment;
mod sending;
mod sheet;
mod table;
mod unit;

use input::Clip;
use measure::{Plan, Row};
use std::process::ExitCode;
use table::Tables;

const USAGE: &str = "usage: bench [--quick | --counted]";

fn main() -> ExitCode {
    let arguments: Vec<String> = std::env::args().skip(1).collect();
    let plan = match arguments.iter().map(String::as_str).collect::<Vec<_>>()[..] {
        [] => Plan::FULL,
        ["--quick"] => Plan::QUICK,
        ["--counted"] => Plan::COUNTED,
        _ => return fail(USAGE),
    };
    if cfg!(debug_assertions) {
        return fail("times of a debug build say nothing: build with --release");
    }
    match run(&plan) {
        Ok(()) => ExitCode::SUCCESS,
        Err(message) => fail(&message),
    }
}

/// Prints the tables, or gives the first difference between the library and a peer.
fn run(plan: &Plan) -> Result<(), String> {
    let clip = Clip::read()?;
    if plan.counted {
        pass(plan, &clip)?;
        return sheet::measure(plan, &clip).map(|_| ());
    }
    let mut tables = Tables::measure(plan, &clip)?;
    for _ in 1..plan.passes {
        tables.keep_best(&Tables::measure(plan, &clip)?);
    }
    tables.print(plan);
    Ok(())
}

/// All rows of the first table once.
pub fn pass(plan: &Plan, clip: &Clip) -> Result<Vec<Row>, String> {
    let mut rows = Vec::new();
    payload::measure(plan, clip, &mut rows)?;
    unit::measure(plan, clip, &mut rows)?;
    checksum::measure(plan, clip, &mut rows)?;
    header::measure(plan, clip, &mut rows)?;
    segment::measure(plan, clip, &mut rows)?;
    sending::measure(plan, clip, &mut rows)?;
    Ok(rows)
}

fn fail(message: &str) -> ExitCode {
    eprintln!("bench: {message}");
    ExitCode::FAILURE
}
