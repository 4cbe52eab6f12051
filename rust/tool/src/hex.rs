//! Bytes as hexadecimal digits.

use crate::failure::{Failure, fail};

/// The bytes of digits, which blanks may stand between, or 0x at the front of a word.
pub fn parse(words: &[&str]) -> Result<Vec<u8>, Failure> {
    let mut digits = Vec::new();
    for word in words.iter().flat_map(|words| words.split_whitespace()) {
        let bare = word.strip_prefix("0x").unwrap_or(word);
        for letter in bare.chars() {
            match letter.to_digit(16) {
                Some(digit) => digits.push(digit as u8),
                None => return fail(format!("{word}: {letter} is no hexadecimal digit")),
            }
        }
        if bare.len() % 2 == 1 {
            return fail(format!("{word}: a byte has two hexadecimal digits"));
        }
    }
    Ok(digits
        .chunks(2)
        .map(|pair| pair[0] << 4 | pair[1])
        .collect())
}

/// Bytes in capitals, a blank between two.
pub fn show(bytes: &[u8]) -> String {
    let shown: Vec<String> = bytes.iter().map(|byte| format!("{byte:02X}")).collect();
    shown.join(" ")
}

/// The first bytes of a string, and whether there are more.
pub fn front(bytes: &[u8], most: usize) -> String {
    let more = if bytes.len() > most { " .." } else { "" };
    show(&bytes[..bytes.len().min(most)]) + more
}

/// Lines of 16 bytes, each with its place in front.
pub fn dump(bytes: &[u8], indent: &str) -> String {
    let line = |(index, part): (usize, &[u8])| {
        let letters: String = part.iter().map(|byte| letter(*byte)).collect();
        format!("{indent}{:4}  {:47}  {letters}\n", index * 16, show(part))
    };
    bytes.chunks(16).enumerate().map(line).collect()
}

fn letter(byte: u8) -> char {
    if (0x20..0x7F).contains(&byte) {
        byte as char
    } else {
        '.'
    }
}
