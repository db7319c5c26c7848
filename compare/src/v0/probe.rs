//! The readers of v0.rs, each started at a place of a text. `None` stands for
//! `Err(Invalid)`, the only error that a reader at depth 0 can give. Where a
//! value comes with a place, that is the place behind what was read.

use super::{Ident, Parser};

pub type Read<T> = Option<(T, usize)>;

fn parser(sym: &str, at: usize) -> Parser<'_> {
    Parser {
        sym,
        next: at,
        depth: 0,
    }
}

/// Runs a reader at a place and hands back its value and the next place.
macro_rules! read {
    ($sym:expr, $at:expr, $reader:ident $(, $arg:expr)*) => {{
        let mut parser = parser($sym, $at);
        let value = parser.$reader($($arg),*).ok()?;
        (value, parser.next)
    }};
}

pub fn peek(sym: &str, at: usize) -> Option<u8> {
    parser(sym, at).peek()
}

pub fn next(sym: &str, at: usize) -> Read<u8> {
    Some(read!(sym, at, next))
}

/// The place after a byte was eaten, or the same place.
pub fn eat(sym: &str, at: usize, byte: u8) -> usize {
    let mut parser = parser(sym, at);
    parser.eat(byte);
    parser.next
}

pub fn digit_10(sym: &str, at: usize) -> Read<u8> {
    Some(read!(sym, at, digit_10))
}

pub fn digit_62(sym: &str, at: usize) -> Read<u8> {
    Some(read!(sym, at, digit_62))
}

pub fn integer_62(sym: &str, at: usize) -> Read<u64> {
    Some(read!(sym, at, integer_62))
}

pub fn opt_integer_62(sym: &str, at: usize, tag: u8) -> Read<u64> {
    Some(read!(sym, at, opt_integer_62, tag))
}

pub fn namespace(sym: &str, at: usize) -> Read<Option<char>> {
    Some(read!(sym, at, namespace))
}

/// The nibbles themselves.
pub fn hex_nibbles(sym: &str, at: usize) -> Read<&str> {
    let (hex, next) = read!(sym, at, hex_nibbles);
    Some((hex.nibbles, next))
}

/// The value of the nibbles, or `None` inside where it does not fit.
pub fn hex_value(sym: &str, at: usize) -> Read<Option<u64>> {
    let (hex, next) = read!(sym, at, hex_nibbles);
    Some((hex.try_parse_uint(), next))
}

/// The characters of the nibbles, or `None` inside where they are no UTF-8.
pub fn hex_chars(sym: &str, at: usize) -> Read<Option<Vec<char>>> {
    let (hex, next) = read!(sym, at, hex_nibbles);
    Some((hex.try_parse_str_chars().map(Iterator::collect), next))
}

/// The target of a back reference whose `B` stands at `at`.
pub fn backref(sym: &str, at: usize) -> Read<usize> {
    if at >= sym.len() {
        return None;
    }
    let (target, next) = read!(sym, at + 1, backref);
    Some((target.next, next))
}

/// Where an identifier's parts lie: the ASCII part from `.0` to `.1`, the
/// Punycode from `.2` to `.3`, which is also the next place.
pub type Parts = (usize, usize, usize, usize);

/// An identifier's parts and, where it has Punycode, what that decodes to.
pub fn ident(sym: &str, at: usize) -> Option<(Parts, Option<Decoded>)> {
    let (ident, end) = read!(sym, at, ident);
    if ident.punycode.is_empty() {
        return Some(((end - ident.ascii.len(), end, end, end), None));
    }
    let code = end - ident.punycode.len();
    // With no `_` in the identifier the ASCII part is a literal of v0.rs; with
    // a leading one it is empty too, but a part of the text, as its address
    // shows.
    let ascii = (ident.ascii.as_ptr() as usize).wrapping_sub(sym.as_ptr() as usize);
    let parts = if ascii <= sym.len() {
        (ascii, ascii + ident.ascii.len(), code, end)
    } else {
        (code, code, code, end)
    };
    Some((parts, Some(decode(&ident))))
}

pub enum Decoded {
    Chars(Vec<char>),
    /// More characters than v0.rs has places for.
    Long,
    Broken,
}

/// Decodes as `try_small_punycode_decode` does, but tells its own refusal for
/// want of room from the decoder's.
fn decode(ident: &Ident<'_>) -> Decoded {
    let mut chars = Vec::new();
    let mut long = false;
    let result = ident.punycode_decode(|i, c| {
        if chars.len() == super::SMALL_PUNYCODE_LEN {
            long = true;
            return Err(());
        }
        chars.insert(i, c);
        Ok(())
    });
    let small = ident.try_small_punycode_decode(<[char]>::to_vec);
    assert!(small.as_ref() == result.ok().map(|()| &chars), "decoders differ");
    match small {
        Some(chars) => Decoded::Chars(chars),
        None if long => Decoded::Long,
        None => Decoded::Broken,
    }
}
