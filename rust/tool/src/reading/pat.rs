//! The program association table.

use super::finding::Finding;
use super::section::Section;
use super::{pair, pid};

/// The one program of a PAT.
#[derive(Clone, Copy, Debug, PartialEq, Eq)]
pub struct Pat {
    pub program: u16,
    pub map_pid: u16,
}

/// Program numbers and their PIDs.
fn entries(section: Section) -> Vec<(u16, u16)> {
    let pairs = section.content().chunks_exact(4);
    pairs
        .map(|entry| (pair(entry, 0), pair(entry, 2) & 0x1FFF))
        .collect()
}

/// The first program of a PAT that is not 0.
pub fn read(section: Section) -> Option<Pat> {
    let programs = entries(section);
    let found = programs.into_iter().find(|(program, _)| *program != 0);
    found.map(|(program, map_pid)| Pat { program, map_pid })
}

/// The table field by field.
pub fn findings(section: Section, start: bool) -> Vec<Finding> {
    let mut found = section.front(start, 0, "transport_stream_id");
    let programs = entries(section);
    let count = programs.iter().filter(|(program, _)| *program != 0).count();
    for (program, map_pid) in programs {
        let line = if program == 0 {
            Finding::new("program 0", format!("network PID {}", pid(map_pid)))
        } else {
            Finding::new(
                format!("program {program}"),
                format!("map PID {}", pid(map_pid)),
            )
            .wrong_if(
                !(0x10..=0x1FFE).contains(&map_pid),
                "0x0010 to 0x1FFE is due",
            )
            .wrong_if(count > 1, format!("one program is due, there are {count}"))
        };
        found.push(line);
    }
    if count == 0 {
        found.push(Finding::new("programs", "none").wrong("one program is due"));
    }
    let rest = section.content().len() % 4;
    if rest != 0 {
        found.push(Finding::new("behind the entries", format!("{rest} bytes")).wrong("no entry"));
    }
    found.extend(section.back());
    found
}
