//! Names of Rust v0 symbols, by a library that is proved: the functions of `exports` behind the interface that users of rustc-demangle
//! know. A symbol is any bytes. Other than there, legacy symbols are refused, and a suffix is shown as it is, `.llvm.` too.
//!
//! ```
//! let name = vaultmuslin::try_demangle(b"_RNvC6_123foo3bar.cold").unwrap();
//! assert_eq!(name.to_string(), "123foo::bar.cold");
//! assert_eq!(name.state(), Ok(vaultmuslin::State::Whole));
//! ```
use std::fmt;

mod sys {
    extern "C" {
        pub fn vault_check(symbol: *const u8, length: usize) -> u32;
        pub fn vault_suffix(symbol: *const u8, length: usize) -> usize;
        pub fn vault_print(
            symbol: *const u8,
            length: usize,
            mode: u32,
            buffer: *mut u8,
            room: usize,
            report: *mut u64,
            numbers: usize,
        ) -> u32;
    }
}

/// Why there is no name.
#[derive(Clone, Copy, Debug, PartialEq, Eq, Hash)]
pub enum Error {
    /// The bytes are no v0 symbol.
    Invalid,
    /// The symbol nests more than 500 levels deep.
    RecursedTooDeep,
    /// The symbol has more than 4,096 bytes.
    TooLong,
    /// The symbol is accepted, and its name is longer than the buffer.
    NoRoom,
}

/// Whether a name is all of its symbol's, or a part of it could not be read. The text need not show that.
#[derive(Clone, Copy, Debug, PartialEq, Eq, Hash)]
pub enum State {
    Whole,
    Damaged,
}

/// Plain is `{}`; short, without the crates' hashes and the integers' types, is `{:#}`.
#[derive(Clone, Copy, Debug, PartialEq, Eq, Hash)]
pub enum Mode {
    Plain,
    Short,
}

impl fmt::Display for Error {
    fn fmt(&self, f: &mut fmt::Formatter<'_>) -> fmt::Result {
        f.write_str(match self {
            Error::Invalid => "no v0 symbol",
            Error::RecursedTooDeep => "nests more than 500 levels deep",
            Error::TooLong => "has more than 4,096 bytes",
            Error::NoRoom => "the name is longer than the buffer",
        })
    }
}

impl std::error::Error for Error {}

fn answer(number: u32) -> Result<(), Error> {
    match number {
        0 => Ok(()),
        2 => Err(Error::RecursedTooDeep),
        3 => Err(Error::TooLong),
        4 => Err(Error::NoRoom),
        _ => Err(Error::Invalid),
    }
}

/// Whether a symbol is accepted. Never `NoRoom`.
pub fn check(symbol: &[u8]) -> Result<(), Error> {
    // SAFETY: the bytes are there for as long as the call takes, and the function only reads them.
    answer(unsafe { sys::vault_check(symbol.as_ptr(), symbol.len()) })
}

/// What is left behind the symbol's paths; empty with a refusal.
pub fn suffix(symbol: &[u8]) -> &[u8] {
    // SAFETY: as in `check`.
    let from = unsafe { sys::vault_suffix(symbol.as_ptr(), symbol.len()) };
    &symbol[from..]
}

/// The name at the front of the buffer: its length and its state. Bytes past it stay; with `NoRoom` the buffer is full of the name's
/// first bytes, with any other refusal it is as it was.
pub fn print(symbol: &[u8], mode: Mode, buffer: &mut [u8]) -> Result<(usize, State), Error> {
    let mut report = [0u64; 2];
    // SAFETY: the three are there for as long as the call takes, and overlap nowhere, since two of them are borrowed mutably.
    let number = unsafe {
        sys::vault_print(
            symbol.as_ptr(),
            symbol.len(),
            mode as u32,
            buffer.as_mut_ptr(),
            buffer.len(),
            report.as_mut_ptr(),
            report.len(),
        )
    };
    answer(number)?;
    let state = if report[1] == 1 {
        State::Whole
    } else {
        State::Damaged
    };
    Ok((report[0] as usize, state))
}

/// A symbol, to be shown by its name and its suffix.
#[derive(Clone, Copy, Debug)]
pub struct Demangle<'a> {
    symbol: &'a [u8],
    suffix: &'a [u8],
}

/// A symbol that is accepted.
pub fn try_demangle(symbol: &[u8]) -> Result<Demangle<'_>, Error> {
    check(symbol)?;
    Ok(Demangle {
        symbol,
        suffix: suffix(symbol),
    })
}

/// Any symbol: one that is refused is shown as it is.
pub fn demangle(symbol: &[u8]) -> Demangle<'_> {
    Demangle {
        symbol,
        suffix: suffix(symbol),
    }
}

/// How long a shown name may get. A longer one, which back references can make of a short symbol, ends in `{size limit reached}`.
pub const LONGEST: usize = 1_000_000;

impl<'a> Demangle<'a> {
    /// The symbol itself.
    pub fn as_bytes(&self) -> &'a [u8] {
        self.symbol
    }

    pub fn suffix(&self) -> &'a [u8] {
        self.suffix
    }

    /// Whether the name is whole, or why there is none. A name of more than `LONGEST` bytes is `NoRoom`.
    pub fn state(&self) -> Result<State, Error> {
        self.name(Mode::Plain)
            .map(|(_, state)| state)
            .map_err(|(error, _)| error)
    }

    /// The name in a buffer that is made larger until it fits; or the error, with what the last buffer held.
    fn name(&self, mode: Mode) -> Result<(Vec<u8>, State), (Error, Vec<u8>)> {
        let mut room = 1024;
        loop {
            let mut buffer = vec![0; room];
            match print(self.symbol, mode, &mut buffer) {
                Ok((length, state)) => {
                    buffer.truncate(length);
                    return Ok((buffer, state));
                }
                Err(Error::NoRoom) if room < LONGEST => room = (room * 4).min(LONGEST),
                Err(error) => return Err((error, buffer)),
            }
        }
    }
}

impl fmt::Display for Demangle<'_> {
    fn fmt(&self, f: &mut fmt::Formatter<'_>) -> fmt::Result {
        let mode = if f.alternate() {
            Mode::Short
        } else {
            Mode::Plain
        };
        match self.name(mode) {
            Ok((name, _)) => f.write_str(&String::from_utf8_lossy(&name))?,
            Err((Error::NoRoom, first)) => {
                f.write_str(whole_characters(&first))?;
                f.write_str("{size limit reached}")?;
            }
            Err(_) => return f.write_str(&String::from_utf8_lossy(self.symbol)),
        }
        f.write_str(&String::from_utf8_lossy(self.suffix))
    }
}

/// Without a character that the buffer's end cut.
fn whole_characters(bytes: &[u8]) -> &str {
    match std::str::from_utf8(bytes) {
        Ok(text) => text,
        Err(error) => std::str::from_utf8(&bytes[..error.valid_up_to()]).unwrap_or(""),
    }
}
