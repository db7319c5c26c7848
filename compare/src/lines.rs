//! The line forms that the programs read and write.

use std::fmt::Write as _;
use std::io::{self, BufRead, BufWriter, Write};

/// Bytes in lower-case hex.
pub fn to_hex(bytes: &[u8]) -> String {
    const DIGITS: &[u8; 16] = b"0123456789abcdef";
    let mut hex = String::with_capacity(2 * bytes.len());
    for byte in bytes {
        hex.push(DIGITS[usize::from(byte >> 4)] as char);
        hex.push(DIGITS[usize::from(byte & 15)] as char);
    }
    hex
}

/// The bytes that lower-case hex stands for.
pub fn from_hex(hex: &[u8]) -> Option<Vec<u8>> {
    let nibble = |digit: u8| match digit {
        b'0'..=b'9' => Some(digit - b'0'),
        b'a'..=b'f' => Some(digit - b'a' + 10),
        _ => None,
    };
    if hex.len() % 2 != 0 {
        return None;
    }
    hex.chunks(2)
        .map(|pair| Some(nibble(pair[0])? << 4 | nibble(pair[1])?))
        .collect()
}

/// A number in decimal digits only, not above `most`.
pub fn decimal(digits: &[u8], most: usize) -> Option<usize> {
    if digits.is_empty() || !digits.iter().all(u8::is_ascii_digit) {
        return None;
    }
    let value: usize = std::str::from_utf8(digits).ok()?.parse().ok()?;
    (value <= most).then_some(value)
}

/// The first field of a line and what follows the blank behind it. A missing
/// field counts as an empty one.
pub fn split_field(line: &[u8]) -> (&[u8], &[u8]) {
    match line.iter().position(|&byte| byte == b' ') {
        Some(at) => (&line[..at], &line[at + 1..]),
        None => (line, &[]),
    }
}

/// Code points in hex, joined by `.`, behind a `=`.
pub fn code_points(chars: &[char]) -> String {
    let mut text = String::from("=");
    for (i, &c) in chars.iter().enumerate() {
        let dot = if i > 0 { "." } else { "" };
        let _ = write!(text, "{dot}{:x}", u32::from(c));
    }
    text
}

/// Answers every line of standard input with a line on standard output.
pub fn answer_lines(mut answer: impl FnMut(&[u8]) -> String) -> io::Result<()> {
    let mut out = BufWriter::new(io::stdout().lock());
    for line in io::stdin().lock().split(b'\n') {
        writeln!(out, "{}", answer(&line?))?;
    }
    out.flush()
}
