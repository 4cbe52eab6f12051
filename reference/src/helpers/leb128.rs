//! leb128 as it can be written.

/// A value written in a form of the given width.
pub fn form(mut value: u64, width: usize) -> Vec<u8> {
    let mut bytes = Vec::new();
    for i in 0..width {
        let more = if i + 1 < width { 0x80 } else { 0 };
        bytes.push((value % 128) as u8 + more);
        value /= 128;
    }
    assert!(value == 0, "the value needs a wider form");
    bytes
}

/// The width of a value's shortest form.
pub fn shortest(value: u64) -> usize {
    let mut width = 1;
    while width < 9 && value >> (7 * width) != 0 {
        width += 1;
    }
    width
}
