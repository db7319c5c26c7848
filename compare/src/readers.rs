//! `readers`: reads lines `AT HEX` and writes for each a line of 15 fields:
//! what each reader of v0.rs answers at that place of that text. `!` stands
//! for Invalid.

use rig::lines::{answer_lines, code_points, decimal, from_hex, split_field};
use rig::v0::probe::{self, Decoded, Read};
use std::fmt::Display;

/// Places are far below this; a larger one is not a place.
const LARGEST_PLACE: usize = 999_999_999;

fn main() -> std::io::Result<()> {
    answer_lines(|line| match question(line) {
        Ok((at, text)) => fields(&text, at).join(" "),
        Err(reason) => format!("? {reason}"),
    })
}

/// A line's two fields: the place and the text.
fn question(line: &[u8]) -> Result<(usize, String), &'static str> {
    let (at, hex) = split_field(line);
    let at = decimal(at, LARGEST_PLACE).ok_or("place")?;
    let bytes = from_hex(hex).filter(|bytes| bytes.is_ascii()).ok_or("hex")?;
    Ok((at, String::from_utf8(bytes).expect("ASCII is UTF-8")))
}

fn fields(text: &str, at: usize) -> Vec<String> {
    let (parts, chars) = ident(text, at);
    vec![
        probe::peek(text, at).unwrap_or(0).to_string(),
        value(probe::next(text, at)),
        probe::eat(text, at, b'_').to_string(),
        value(probe::digit_10(text, at)),
        value(probe::digit_62(text, at)),
        value(probe::integer_62(text, at)),
        value(probe::opt_integer_62(text, at, b's')),
        value(probe::opt_integer_62(text, at, b'G')),
        or_invalid(probe::hex_nibbles(text, at).map(|(hex, next)| format!("{},{next}", at + hex.len()))),
        namespace(text, at),
        value(probe::backref(text, at)),
        parts,
        chars,
        hex_value(text, at),
        hex_chars(text, at),
    ]
}

fn or_invalid(field: Option<String>) -> String {
    field.unwrap_or_else(|| "!".to_string())
}

fn value<T: Display>(read: Read<T>) -> String {
    or_invalid(read.map(|(value, next)| format!("{value},{next}")))
}

/// The letter's byte for a special namespace, 0 for another one.
fn namespace(text: &str, at: usize) -> String {
    let letter = |namespace: Option<char>| namespace.map_or(0, u32::from);
    value(probe::namespace(text, at).map(|(namespace, next)| (letter(namespace), next)))
}

/// Where the identifier's parts lie, and the characters of its Punycode.
fn ident(text: &str, at: usize) -> (String, String) {
    let Some(((a, b, c, e), decoded)) = probe::ident(text, at) else {
        return ("!".to_string(), "-".to_string());
    };
    let chars = match decoded {
        None => "-".to_string(),
        Some(Decoded::Chars(chars)) => code_points(&chars),
        Some(Decoded::Long) => "long".to_string(),
        Some(Decoded::Broken) => "broken".to_string(),
    };
    (format!("{a},{b},{c},{e}"), chars)
}

fn hex_value(text: &str, at: usize) -> String {
    or_invalid(probe::hex_value(text, at).map(|(value, next)| match value {
        Some(value) => format!("{value},{next}"),
        None => format!("*{},{next}", next - 1),
    }))
}

fn hex_chars(text: &str, at: usize) -> String {
    or_invalid(probe::hex_chars(text, at).map(|(chars, _)| match chars {
        Some(chars) => code_points(&chars),
        None => "bad".to_string(),
    }))
}
