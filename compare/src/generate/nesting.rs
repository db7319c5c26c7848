//! Nestings of every recursive production, about as deep as v0.rs follows.

use crate::encode;
use crate::rng::Rng;

/// A production that contains itself. With `n` layers the deepest level is
/// `base + per * n`; layers of one level (`pad`) make up the difference.
struct Nest {
    name: &'static str,
    head: &'static str,
    open: &'static str,
    core: &'static str,
    close: &'static str,
    tail: &'static str,
    base: usize,
    per: usize,
}

type Row = (&'static str, &'static str, &'static str, &'static str, usize, usize);

/// Name, what opens a layer, what stands inside all, what closes a layer, the
/// level of what is inside with no layer, the levels of a layer.
const PATHS: &[Row] = &[
    ("path N", "Nv", "C1a", "1b", 1, 1),
    ("path N, capital", "NC", "C1a", "0", 1, 1),
    ("path I", "I", "C0", "E", 1, 1),
    ("path M, impl's path", "M", "C0", "u", 1, 1),
    ("path M, type", "MC0", "u", "", 0, 2),
    ("path X, impl's path", "X", "C0", "uC0", 1, 1),
    ("path X, type", "XC0", "u", "C0", 0, 2),
    ("path X, trait", "XC0u", "C0", "", 1, 1),
    ("path Y, type", "Y", "u", "C0", 0, 2),
    ("path Y, trait", "Yu", "C0", "", 1, 1),
];

const TYPES: &[Row] = &[
    ("type R", "R", "m", "", 1, 1),
    ("type R with a lifetime", "RL_", "m", "", 1, 1),
    ("type Q", "Q", "m", "", 1, 1),
    ("type P", "P", "m", "", 1, 1),
    ("type O", "O", "m", "", 1, 1),
    ("type S", "S", "m", "", 1, 1),
    ("type w", "wR", "m", "", 1, 1),
    ("type A, element", "A", "m", "j0_", 2, 1),
    ("type A, length", "AmVIC0", "m", "EU", 2, 3),
    ("type T", "T", "", "E", 1, 1),
    ("type T, two", "Tm", "", "E", 1, 1),
    ("type F, argument", "F", "m", "Eu", 1, 1),
    ("type F, binder", "FG_", "m", "Eu", 1, 1),
    ("type F, return", "FE", "m", "", 1, 1),
    ("type D, p", "DC0p0", "m", "EL_", 2, 1),
    ("type D, open by I", "DIC0", "m", "EEL_", 2, 1),
    ("type W", "W", "m", "N", 1, 1),
    ("type W, pattern", "WmRVIC0", "m", "EUp", 2, 3),
    ("type, named", "IC0", "m", "E", 2, 2),
    ("const in types", "R", "Amp", "", 3, 1),
    ("pattern O in types", "R", "WmONE", "", 3, 1),
    ("dyn trait in types", "R", "DC0EL_", "", 3, 1),
];

const CONSTS: &[Row] = &[
    ("const R", "R", "p", "", 2, 1),
    ("const R, string", "R", "Re61_", "", 2, 1),
    ("const Q", "Q", "h1_", "", 2, 1),
    ("const A", "A", "", "E", 1, 1),
    ("const T", "T", "", "E", 1, 1),
    ("const V, tuple", "VC0T", "", "E", 2, 1),
    ("const V, struct", "VC0S1f", "p", "E", 2, 1),
    ("const V, path", "VIC0K", "p", "EU", 2, 2),
];

const PATTERNS: &[Row] = &[
    ("pattern O", "O", "N", "E", 2, 1),
    ("pattern O, second", "ON", "N", "E", 2, 1),
    ("pattern O, constants", "O", "Rm0_m9_", "E", 3, 1),
];

const TRAITS: &[Row] = &[
    ("dyn trait, N", "Nv", "C0", "0", 3, 1),
];

fn nests() -> Vec<Nest> {
    let tables = [
        ("", PATHS, ""),
        ("IC0", TYPES, "E"),
        ("MC0", TYPES, ""),
        ("IC0K", CONSTS, "E"),
        ("IC0Wm", PATTERNS, "E"),
        ("IC0D", TRAITS, "EL_E"),
        ("IC0DI", TRAITS, "EEL_E"),
    ];
    let mut nests = Vec::new();
    for (head, rows, tail) in tables {
        for &(name, open, core, close, base, per) in rows {
            nests.push(Nest { name, head, open, core, close, tail, base, per });
        }
    }
    nests
}

impl Nest {
    /// What one layer of padding opens and closes with.
    fn pad(&self) -> (&'static str, &'static str) {
        match self.head {
            "" | "IC0D" | "IC0DI" => ("Nv", "1b"),
            "IC0Wm" => ("O", "E"),
            _ => ("R", ""),
        }
    }

    /// The nesting whose deepest level is `level`, ended in the way `end`.
    fn write(&self, level: usize, end: &str) -> String {
        let layers = (level - self.base) / self.per;
        let pads = (level - self.base) % self.per;
        let (pad_open, pad_close) = self.pad();
        let opened = format!("{}{}{}", self.head, pad_open.repeat(pads), self.open.repeat(layers));
        let closed = format!("{}{}{}", self.close.repeat(layers), pad_close.repeat(pads), self.tail);
        match end {
            "complete" => format!("{opened}{}{closed}", self.core),
            "broken inside" => format!("{opened}!{closed}"),
            "not closed" => format!("{opened}{}", self.core),
            _ => opened,
        }
    }
}

/// The levels in the order in which they are walked: the telling ones first.
const LEVELS: [usize; 5] = [501, 500, 499, 502, 498];

/// How a nesting ends.
const ENDS: [&str; 4] = ["complete", "broken inside", "not closed", "only opened"];

/// The nesting (behind its prefix) of that number, the production's name, and
/// how it ends. The first ones are every production at every level, complete.
pub fn nesting(rng: &mut Rng, number: usize) -> (Vec<u8>, &'static str, &'static str) {
    let nests = nests();
    let nest = &nests[number % nests.len()];
    let walk = number / nests.len();
    let end = match walk < LEVELS.len() {
        true => ENDS[0],
        false => ENDS[rng.below(ENDS.len())],
    };
    let level = LEVELS[walk % LEVELS.len()];
    (nest.write(level, end).into_bytes(), nest.name, end)
}

/// A nesting of type productions that change from layer to layer.
pub fn mixed_nesting(rng: &mut Rng) -> Vec<u8> {
    let last = rng.between(498, 502);
    let (mut level, mut opened, mut closed) = (1, String::from("IC0"), Vec::new());
    while level < last {
        let (_, open, _, close, _, per) = TYPES[rng.below(TYPES.len())];
        opened.push_str(open);
        closed.push(close);
        level += per;
    }
    closed.reverse();
    format!("{opened}m{}E", closed.concat()).into_bytes()
}

/// Back references that each stand for the one before, so that print alone
/// goes deep: two levels a step, or one between dyn traits.
pub fn chain(rng: &mut Rng) -> (Vec<u8>, &'static str) {
    let rows = [
        ("chain of types", "IC0", "m", "", "E", 250),
        ("chain of paths", "IC0", "C1a", "", "E", 250),
        ("chain of constants", "IC0", "Kp", "K", "E", 250),
        ("chain of dyn traits", "IC0D", "IC1aE", "", "EL_E", 500),
    ];
    let (name, head, first, before, tail, steps) = rows[rng.below(rows.len())];
    let mut out = [head, first].concat().into_bytes();
    let mut target = head.len() + before.len();
    for _ in 0..rng.between(steps - 4, steps + 2) {
        out.extend_from_slice(before.as_bytes());
        let here = out.len();
        out.push(b'B');
        out.extend(encode::integer_62(target as u128));
        target = here;
    }
    out.extend_from_slice(tail.as_bytes());
    (out, name)
}
