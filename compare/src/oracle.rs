//! `oracle`: reads lines `MODE ROOM HEX` and writes for each a line
//! `CHECK SUFFIX PRINT LENGTH STATE KEPT TEXT`: what the Rust says of that
//! symbol. On standard error, at the end: how many texts held a quoted
//! character from U+0080 up and so follow document 01 instead of the Rust.

use rig::judge::{check, print, LARGEST_ROOM};
use rig::lines::{answer_lines, decimal, from_hex, split_field, to_hex};

fn main() -> std::io::Result<()> {
    let mut outside = 0;
    answer_lines(|line| match question(line) {
        Ok((short, room, symbol)) => {
            let (answer, outside_domain) = answer(short, room, &symbol);
            outside += usize::from(outside_domain);
            answer
        }
        Err(reason) => format!("? {reason}"),
    })?;
    eprintln!("outside the domain: {outside}");
    Ok(())
}

/// A line's three fields: whether the mode is short, the room, the symbol.
fn question(line: &[u8]) -> Result<(bool, usize, Vec<u8>), &'static str> {
    let (mode, rest) = split_field(line);
    let (room, hex) = split_field(rest);
    let short = match mode {
        b"p" => false,
        b"s" => true,
        _ => return Err("mode"),
    };
    let room = decimal(room, LARGEST_ROOM).ok_or("room")?;
    let symbol = from_hex(hex).ok_or("hex")?;
    Ok((short, room, symbol))
}

/// The answer's line, and whether it is outside the domain.
fn answer(short: bool, room: usize, symbol: &[u8]) -> (String, bool) {
    let (check, suffix) = check(symbol);
    let printed = print(symbol, short, room);
    let text = match to_hex(&printed.text) {
        empty if empty.is_empty() => "-".to_string(),
        hex => hex,
    };
    // The Rust has no buffer whose rest it could change: KEPT is always `k`.
    let line = format!(
        "{} {} {} {} {} k {}",
        check as u8,
        suffix,
        printed.code as u8,
        printed.text.len(),
        printed.state,
        text
    );
    (line, printed.outside_domain)
}
