//! The command `av1ts`: shows what is wrong with a transport stream that carries AV1. The proved
//! library judges; the tool reads files, calls it, and shows.

mod args;
mod buffer;
mod check;
mod commands;
mod failure;
mod files;
mod hex;
mod json;
mod library;
mod reading;
mod refusals;
mod report;
mod screen;

use args::Args;
use commands::{COMMANDS, Command};
use failure::{Done, Verdict, fail};
use screen::{Screen, say};
use std::ffi::OsString;
use std::process::ExitCode;

fn main() -> ExitCode {
    let given: Vec<OsString> = std::env::args_os().skip(1).collect();
    match run(&given) {
        Ok(Verdict::Accepted) => ExitCode::from(0),
        Ok(Verdict::Refused) => ExitCode::from(1),
        Err(failure) => {
            say(&format!("av1ts: {}", failure.0));
            ExitCode::from(2)
        }
    }
}

fn run(given: &[OsString]) -> Done {
    let mut screen = Screen::default();
    let first = match given.first() {
        Some(first) => first.to_string_lossy().into_owned(),
        None => return fail("a command is missing; av1ts --help lists them"),
    };
    match first.as_str() {
        "--version" | "-V" => shown(&mut screen, &version()),
        "--help" | "-h" | "help" => help(&mut screen, given.get(1)),
        name => match commands::find(name) {
            Some(command) => run_command(command, &given[1..], &mut screen),
            None => fail(format!(
                "there is no command {name}; av1ts --help lists them"
            )),
        },
    }
}

fn run_command(command: &Command, given: &[OsString], screen: &mut Screen) -> Done {
    let options = given.iter().take_while(|word| *word != "--");
    if options
        .into_iter()
        .any(|word| word == "--help" || word == "-h")
    {
        return shown(screen, &command.help());
    }
    let args = match Args::parse(&command.shape, given) {
        Ok(args) => args,
        Err(failure) => {
            return fail(format!(
                "{0}: {1}; see av1ts {0} --help",
                command.name, failure.0
            ));
        }
    };
    (command.run)(&args, screen)
}

fn shown(screen: &mut Screen, text: &str) -> Done {
    screen.text(text)?;
    Ok(Verdict::Accepted)
}

fn version() -> String {
    let tool = env!("CARGO_PKG_VERSION");
    format!(
        "av1ts {tool}, over libav1ts with interface version {}\n",
        library::INTERFACE
    )
}

fn help(screen: &mut Screen, of: Option<&OsString>) -> Done {
    if let Some(name) = of {
        let name = name.to_string_lossy();
        return match commands::find(&name) {
            Some(command) => shown(screen, &command.help()),
            None => fail(format!(
                "there is no command {name}; av1ts --help lists them"
            )),
        };
    }
    let mut text = String::from("usage: av1ts COMMAND ..\n\n");
    for command in COMMANDS {
        text.push_str(&format!("  {:12} {}\n", command.name, command.summary));
    }
    text.push_str(
        "\nav1ts COMMAND --help says more, av1ts --version which library judges. A file is a name or\n\
         -, standard input. Status: 0 accepted, 1 refused, 2 wrong arguments or a file that cannot\n\
         be read or written.\n",
    );
    shown(screen, &text)
}
