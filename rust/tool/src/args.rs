//! The arguments of a command: options, options with a value, and words.

use crate::failure::{Failure, fail};
use std::ffi::{OsStr, OsString};

/// Which arguments a command takes. An option is named as it is written, with its dashes.
pub struct Shape {
    pub flags: &'static [&'static str],
    pub values: &'static [&'static str],
    pub least: usize,
    pub most: usize,
}

/// The arguments that a command was given.
#[derive(Debug, Default)]
pub struct Args {
    flags: Vec<&'static str>,
    values: Vec<(&'static str, OsString)>,
    pub words: Vec<OsString>,
}

impl Args {
    /// Takes the arguments apart, or says in a line what is wrong with them.
    pub fn parse(shape: &Shape, given: &[OsString]) -> Result<Args, Failure> {
        let mut args = Args::default();
        let mut rest = given.iter();
        while let Some(word) = rest.next() {
            let text = word.to_str().unwrap_or("");
            if text == "--" {
                args.words.extend(rest.cloned());
                break;
            }
            if !text.starts_with('-') || text == "-" || is_number(text) {
                args.words.push(word.clone());
            } else {
                args.option(shape, text, &mut rest)?;
            }
        }
        args.counted(shape)
    }

    fn option<'a>(
        &mut self,
        shape: &Shape,
        text: &str,
        rest: &mut impl Iterator<Item = &'a OsString>,
    ) -> Result<(), Failure> {
        let (name, value) = match text.split_once('=') {
            Some((name, value)) => (name, Some(OsString::from(value))),
            None => (text, None),
        };
        if let Some(name) = shape.values.iter().find(|known| **known == name) {
            let value = match value.or_else(|| rest.next().cloned()) {
                Some(value) => value,
                None => return fail(format!("{name} needs a value")),
            };
            if self.value(name).is_some() {
                return fail(format!("{name} stands twice"));
            }
            self.values.push((name, value));
            return Ok(());
        }
        match shape.flags.iter().find(|known| **known == name) {
            Some(_) if value.is_some() => fail(format!("{name} takes no value")),
            Some(name) => {
                self.flags.push(name);
                Ok(())
            }
            None => fail(format!("there is no option {name}")),
        }
    }

    fn counted(self, shape: &Shape) -> Result<Args, Failure> {
        if self.words.len() < shape.least {
            return fail(match shape.least {
                1 => "an argument is missing".to_string(),
                n => format!("{n} arguments are needed"),
            });
        }
        match self.words.get(shape.most) {
            Some(word) => fail(format!("{} is one argument too many", shown(word))),
            None => Ok(self),
        }
    }

    /// Whether an option is given.
    pub fn has(&self, name: &str) -> bool {
        self.flags.contains(&name)
    }

    /// The value of an option, where it is given.
    pub fn value(&self, name: &str) -> Option<&OsStr> {
        let found = self.values.iter().find(|(known, _)| *known == name);
        found.map(|(_, value)| value.as_os_str())
    }

    /// The value of an option as text.
    pub fn text(&self, name: &str) -> Result<Option<&str>, Failure> {
        match self.value(name) {
            None => Ok(None),
            Some(value) => match value.to_str() {
                Some(text) => Ok(Some(text)),
                None => fail(format!("{name}: {} is no text", shown(value))),
            },
        }
    }

    /// The value of an option as a whole number, decimal or with 0x.
    pub fn number(&self, name: &str) -> Result<Option<u64>, Failure> {
        match self.text(name)? {
            None => Ok(None),
            Some(text) => match number(text) {
                Some(number) => Ok(Some(number)),
                None => fail(format!("{name}: {text} is no whole number")),
            },
        }
    }

    /// The words as text.
    pub fn texts(&self) -> Result<Vec<&str>, Failure> {
        self.words
            .iter()
            .map(|word| match word.to_str() {
                Some(text) => Ok(text),
                None => fail(format!("{} is no text", shown(word))),
            })
            .collect()
    }
}

/// A whole number, decimal or with 0x.
pub fn number(text: &str) -> Option<u64> {
    if text.starts_with('+') {
        return None;
    }
    match text.strip_prefix("0x") {
        Some(digits) if !digits.starts_with('+') => u64::from_str_radix(digits, 16).ok(),
        Some(_) => None,
        None => text.parse().ok(),
    }
}

fn is_number(text: &str) -> bool {
    text[1..].starts_with(|digit: char| digit.is_ascii_digit())
}

/// A word as it is shown in a message.
pub fn shown(word: &OsStr) -> String {
    word.to_string_lossy().into_owned()
}
