//! What the programs of the comparison share: v0.rs of rustc-demangle as it
//! is, a marked copy of it, the answers made from both, and the line forms.

use std::cell::Cell;

pub mod judge;
pub mod lines;

/// v0.rs unchanged. Its readers are private; `probe`, a child, sees them.
#[allow(mismatched_lifetime_syntaxes, unused_macros)]
pub mod v0 {
    include!(concat!(env!("V0_DIR"), "/v0.rs"));

    pub mod probe;
}

/// The copy that `build` makes: it calls `mark` wherever an error is set and
/// `escape` for each quoted character.
#[allow(mismatched_lifetime_syntaxes, unused_macros, dead_code)]
mod marked {
    include!(concat!(env!("COPY_DIR"), "/marked.rs"));
}

thread_local! {
    static ERROR_SET: Cell<bool> = const { Cell::new(false) };
    static FOREIGN_QUOTED: Cell<bool> = const { Cell::new(false) };
}

/// Notes that the marked copy set an error.
fn mark() {
    ERROR_SET.set(true);
}

/// A quoted character as document 01 prints it: from U+0080 up always as
/// `\u{..}`, where the crate prints some of them as they are.
fn escape(c: char) -> Vec<char> {
    if c.is_ascii() {
        c.escape_debug().collect()
    } else {
        FOREIGN_QUOTED.set(true);
        c.escape_unicode().collect()
    }
}
