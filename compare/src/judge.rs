//! The two public questions of document 01, answered by the Rust: what the
//! check says of a symbol, and what print leaves in a buffer.

use crate::{marked, v0, ERROR_SET, FOREIGN_QUOTED};
use std::fmt;

/// Symbols longer than this are refused before they are looked at.
pub const LONGEST_SYMBOL: usize = 4096;

/// No buffer of the comparison is larger.
pub const LARGEST_ROOM: usize = 65536;

/// The numbers of document 01's table.
#[derive(Clone, Copy, PartialEq, Eq, Debug)]
pub enum Code {
    Done = 0,
    Invalid = 1,
    RecursedTooDeep = 2,
    TooLong = 3,
    NoRoom = 4,
}

/// What print leaves in a buffer.
pub struct Printed {
    pub code: Code,
    pub text: Vec<u8>,
    /// `w` whole, `d` damaged, `-` unknown.
    pub state: char,
    /// A character from U+0080 up was printed inside quotes. The crate may
    /// print it otherwise, so the text is the marked copy's alone.
    pub outside_domain: bool,
}

/// What the check says: its number, and where the suffix starts.
pub fn check(symbol: &[u8]) -> (Code, usize) {
    if symbol.len() > LONGEST_SYMBOL {
        return (Code::TooLong, symbol.len());
    }
    check_unlimited(symbol)
}

/// The check without the limit on the symbol's length, which is not the
/// crate's own.
pub fn check_unlimited(symbol: &[u8]) -> (Code, usize) {
    let refused = |code| (code, symbol.len());
    // v0.rs takes text. Bytes that are none hold one of 0x80 or more, for
    // which every path through the tests ends in Invalid.
    let Ok(text) = std::str::from_utf8(symbol) else {
        return refused(Code::Invalid);
    };
    match v0::demangle(text) {
        Ok((_, suffix)) => (Code::Done, symbol.len() - suffix.len()),
        Err(v0::ParseError::Invalid) => refused(Code::Invalid),
        Err(v0::ParseError::RecursedTooDeep) => refused(Code::RecursedTooDeep),
    }
}

/// What print answers, by original and marked copy, which must agree.
pub fn print(symbol: &[u8], short: bool, room: usize) -> Printed {
    let (code, _) = check(symbol);
    if code != Code::Done {
        return Printed {
            code,
            text: Vec::new(),
            state: '-',
            outside_domain: false,
        };
    }

    let copy = marked::demangle(accepted(symbol)).ok().expect("the copy accepts the same").0;
    // The copy's check has set errors of its own.
    ERROR_SET.set(false);
    FOREIGN_QUOTED.set(false);
    let text = Text::of(&copy, short, room);
    let outside_domain = FOREIGN_QUOTED.get();
    if !outside_domain {
        let plain = crate_text(symbol, short, room);
        assert!(plain == text, "v0.rs and its marked copy differ on {symbol:?}");
    }

    let (code, state) = match (text.over, ERROR_SET.get()) {
        (true, _) => (Code::NoRoom, '-'),
        (false, true) => (Code::Done, 'd'),
        (false, false) => (Code::Done, 'w'),
    };
    Printed {
        code,
        text: text.bytes,
        state,
        outside_domain,
    }
}

/// What v0.rs itself prints of a symbol that it accepts, whatever its length.
pub fn crate_text(symbol: &[u8], short: bool, room: usize) -> Text {
    let name = v0::demangle(accepted(symbol)).ok().expect("accepted").0;
    Text::of(&name, short, room)
}

fn accepted(symbol: &[u8]) -> &str {
    std::str::from_utf8(symbol).expect("accepted symbols are ASCII")
}

/// A buffer that takes what fits, even a part of a character, and answers an
/// error at the first byte too many: so endless texts end.
#[derive(PartialEq)]
pub struct Text {
    pub bytes: Vec<u8>,
    /// The text went on where the room ended.
    pub over: bool,
    room: usize,
}

impl Text {
    fn of(value: &dyn fmt::Display, short: bool, room: usize) -> Text {
        let mut text = Text {
            bytes: Vec::new(),
            over: false,
            room,
        };
        let result = if short {
            fmt::write(&mut text, format_args!("{value:#}"))
        } else {
            fmt::write(&mut text, format_args!("{value}"))
        };
        assert!(result.is_err() == text.over, "only the room's end is an error");
        text
    }
}

impl fmt::Write for Text {
    fn write_str(&mut self, piece: &str) -> fmt::Result {
        let taken = piece.len().min(self.room - self.bytes.len());
        self.bytes.extend_from_slice(&piece.as_bytes()[..taken]);
        self.over = taken < piece.len();
        if self.over {
            Err(fmt::Error)
        } else {
            Ok(())
        }
    }
}
