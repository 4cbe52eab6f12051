//! The output: how it was measured, and Markdown tables.

use crate::input::Clip;
use crate::measure::{COLUMNS, Plan, Row};
use crate::{growth, pass, sheet};

const NAMES: [&str; 3] = ["Function", "Input", "Size"];
const TIME: &str = "Library ns/byte";

/// All that is printed.
pub struct Tables {
    rows: Vec<Row>,
    sheets: Vec<Row>,
    /// How cost grows: of each function the rows of its sizes.
    units: Vec<Vec<Row>>,
    segments: Vec<Vec<Row>>,
}

impl Tables {
    pub fn measure(plan: &Plan, clip: &Clip) -> Result<Tables, String> {
        Ok(Tables {
            rows: pass(plan, clip)?,
            sheets: sheet::measure(plan, clip)?,
            units: growth::of_units(plan, clip)?,
            segments: growth::of_segments(plan, clip)?,
        })
    }

    pub fn keep_best(&mut self, other: &Tables) {
        for (best, row) in self.all_mut().zip(other.all()) {
            best.keep_best(row);
        }
    }

    fn all(&self) -> impl Iterator<Item = &Row> {
        let growth = self.units.iter().chain(&self.segments);
        self.rows.iter().chain(&self.sheets).chain(growth.flatten())
    }

    fn all_mut(&mut self) -> impl Iterator<Item = &mut Row> {
        let growth = self.units.iter_mut().chain(&mut self.segments);
        let rows = self.rows.iter_mut().chain(&mut self.sheets);
        rows.chain(growth.flatten())
    }

    pub fn print(&self, plan: &Plan) {
        print_head(plan);
        print_rows(&self.rows);
        print_sheets(&self.sheets);
        println!("How cost grows: the library's ns/byte at sizes doubled.");
        println!();
        print_growth(&self.units);
        print_growth(&self.segments);
    }
}

/// A table: the columns of names, those of numbers, and the lines.
fn print_table(names: &[&str], numbers: &[&str], lines: &[String]) {
    println!("| {} | {} |", names.join(" | "), numbers.join(" | "));
    println!(
        "|{}{}",
        "---|".repeat(names.len()),
        "---:|".repeat(numbers.len())
    );
    for line in lines {
        println!("| {line} |");
    }
    println!();
}

fn print_rows(rows: &[Row]) {
    let numbers = [
        TIME,
        "/ plain C",
        "/ libavcodec's way",
        "/ packet loop",
        "/ SSE2",
        "/ memcpy",
    ];
    let lines: Vec<String> = rows
        .iter()
        .map(|row| line(row, &row.peers[..COLUMNS]))
        .collect();
    print_table(&NAMES, &numbers, &lines);
}

/// What the sheet adds to the check.
fn print_sheets(rows: &[Row]) {
    println!("Writing the sheet, which checks the segment too, beside the check alone.");
    println!();
    let lines: Vec<String> = rows
        .iter()
        .map(|row| line(row, &row.peers[COLUMNS..]))
        .collect();
    print_table(&NAMES, &[TIME, "/ check_segment"], &lines);
}

/// The names, the library's time, and how it stands to those of these peers.
fn line(row: &Row, peers: &[Option<f64>]) -> String {
    let ratio = |&time: &Option<f64>| match time {
        Some(time) => format!("{:.2}", row.library / time),
        None => "-".to_string(),
    };
    let ratios: Vec<String> = peers.iter().map(ratio).collect();
    format!(
        "{} | {:.3} | {}",
        row.names.join(" | "),
        row.library,
        ratios.join(" | ")
    )
}

/// A line for each function, a column for each size.
fn print_growth(functions: &[Vec<Row>]) {
    let sizes: Vec<&str> = functions[0].iter().map(|row| row.names[2]).collect();
    let line = |rows: &Vec<Row>| {
        let times: Vec<String> = rows
            .iter()
            .map(|row| format!("{:.3}", row.library))
            .collect();
        format!("{} | {}", rows[0].names[..2].join(" | "), times.join(" | "))
    };
    let lines: Vec<String> = functions.iter().map(line).collect();
    print_table(&NAMES[..2], &sizes, &lines);
}

fn print_head(plan: &Plan) {
    println!("Speed of libav1ts.a beside C, on one core.");
    println!();
    println!("- C: {}.", env!("C_COMPILER"));
    println!(
        "- Times: CPU time, the best of {} turns (segments: {}) of at least 2 ms. Passes over the \
         table: {}, each row warmed up first. The library and its peers take turns, and which one \
         begins changes. A ratio is the library's time divided by the peer's.",
        plan.passes * plan.rest,
        plan.passes * plan.segment,
        plan.passes,
    );
    println!(
        "- Buffers: all use the same ones; outputs are touched once before and not cleared between \
         turns."
    );
    println!(
        "- Results: before timing, each peer's answers and whole output buffers are found equal to \
         the library's, but where it is said here that it does less."
    );
    println!("- ns/byte are of the input's bytes; of headers, ns a header.");
    print_peers();
    print_inputs();
    println!();
}

fn print_peers() {
    println!(
        "- Plain C: loops straight from the rules. On segments and in queue_send it copies only: the \
         units' bytes out of packets, or into them."
    );
    println!(
        "- libavcodec's way: looks at every second byte, then copies runs, in one pass; its CRC takes \
         four bytes a turn. Where a payload is refused it has written before."
    );
    println!(
        "- Packet loop: in the manner of biTStream, told the AV1 PID. It follows the counter and gives \
         units, lengths and times; it reads no table and checks no unit."
    );
    println!(
        "- SSE2: by hand, with the instruction set that the library is compiled for. On segments the \
         packet loop with its copy and its check of every unit; it reads no table."
    );
    println!("- memcpy: the C library's, of the function's input bytes.");
}

fn print_inputs() {
    println!(
        "- Units: a temporal delimiter, a frame header and four tile groups; the size is that of the \
         OBUs together. Of each size below 1 MiB there are different ones, 1 MiB together, handled \
         in turn."
    );
    println!(
        "- Real AV1: the OBUs that the library takes out of samples/clip.ts, one behind the other, \
         again and again, as contents; the 1,024 small units are the clip's own."
    );
    println!(
        "- Segments: 240 units of 40,000 bytes, with tables before every fourth, audio and null \
         packets; null packets alone but for one small unit."
    );
    println!(
        "- Headers: of the packets of 12 MB, each in another line of memory, and of their first 256 KiB, \
         again and again, which stay in the cache. read_header gives one packet's fields, a call a \
         packet; count_headers counts in one call those that pass 21, 22 and 23, and keeps no field."
    );
}
