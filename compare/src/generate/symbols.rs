//! The lines for `oracle`: symbols of every kind, with a mode and a room.

use crate::damage::damage;
use crate::edges::edges;
use crate::grammar::{Grammar, Licence};
use crate::nesting;
use crate::rng::Rng;
use crate::tally::Tally;
use rig::judge::{self, Code, LARGEST_ROOM, LONGEST_SYMBOL};
use rig::lines::to_hex;

/// Good symbols kept for damaging.
const POOL: usize = 64;

pub struct Symbols {
    rng: Rng,
    pool: Vec<Vec<u8>>,
    /// Short strings walked so far: from the first one on, and from a start
    /// among the longer ones that depends on the seed.
    walked: [usize; 2],
    /// Nestings made so far.
    nested: usize,
    edges: Vec<Vec<u8>>,
    /// Edges asked for so far.
    asked: usize,
}

impl Symbols {
    pub fn new(seed: u64) -> Symbols {
        let mut rng = Rng::new(seed);
        let start = rng.below(SHORT_ALPHABET.len().pow(4) * OPENINGS.len());
        Symbols {
            rng,
            pool: vec![b"_RNvC1a1b".to_vec()],
            walked: [0, start],
            nested: 0,
            edges: edges(),
            asked: 0,
        }
    }

    pub fn line(&mut self, tally: &mut Tally) -> String {
        let kind = self.rng.weighted(&[
            (400, "grammatical"),
            (300, "damaged"),
            (200, "short string"),
            (40, "edge"),
            (15, "nesting"),
            (4, "nesting, mixed"),
            (2, "nesting, chain"),
            (30, "prefix"),
            (6, "non-ASCII byte"),
            (3, "about 4,096 bytes"),
        ]);
        tally.count("kinds of line", kind);
        let symbol = match kind {
            "grammatical" => self.grammatical(tally),
            "damaged" => self.damaged(tally),
            "short string" => self.short_string(),
            "edge" => self.edge(),
            "nesting" => self.nesting(tally),
            "nesting, mixed" => [b"_R".to_vec(), nesting::mixed_nesting(&mut self.rng)].concat(),
            "nesting, chain" => {
                let (chain, name) = nesting::chain(&mut self.rng);
                tally.count("nestings", name);
                [b"_R".to_vec(), chain].concat()
            }
            "prefix" => self.wrong_prefix(tally),
            "non-ASCII byte" => self.non_ascii(tally),
            _ => self.about_longest(),
        };
        self.question(&symbol, tally)
    }

    /// A line that holds a nesting, and no other kind.
    pub fn nesting_line(&mut self, tally: &mut Tally) -> String {
        let symbol = self.nesting(tally);
        self.question(&symbol, tally)
    }

    /// A line that holds an edge, and no other kind.
    pub fn edge_line(&mut self, tally: &mut Tally) -> String {
        let symbol = self.edge();
        self.question(&symbol, tally)
    }

    /// The line that asks for a symbol in some mode and room.
    fn question(&mut self, symbol: &[u8], tally: &mut Tally) -> String {
        let short = self.rng.chance(40);
        let room = self.room(symbol, short, tally);
        let mode = if short { 's' } else { 'p' };
        format!("{mode} {room} {}", to_hex(symbol))
    }

    /// A symbol by the grammar, with its prefix, perhaps a second path and a
    /// suffix.
    fn grammatical(&mut self, tally: &mut Tally) -> Vec<u8> {
        let licence = Licence {
            loose: self.rng.chance(50),
            wild: self.rng.chance(15),
        };
        let size = self.rng.weighted(&[(10, 3), (20, 8), (10, 20), (2, 60), (1, 200)]);
        let prefix = self.rng.weighted(&[(7, "_R"), (2, "R"), (1, "__R")]);
        let suffix = self.suffix();

        let mut grammar = Grammar::new(&mut self.rng, licence, size);
        grammar.note(match prefix {
            "_R" => "prefix _R",
            "R" => "prefix R",
            _ => "prefix __R",
        });
        grammar.path();
        second_path(&mut grammar);
        if !suffix.is_empty() {
            grammar.open("suffix", &suffix);
        }

        for &production in &grammar.used {
            tally.count("productions, in how many symbols", production);
        }
        let symbol = [prefix.as_bytes(), &grammar.out].concat();
        if symbol.len() < 400 {
            self.keep(symbol.clone());
        }
        symbol
    }

    fn keep(&mut self, symbol: Vec<u8>) {
        if self.pool.len() < POOL {
            self.pool.push(symbol);
        } else {
            let at = self.rng.below(POOL);
            self.pool[at] = symbol;
        }
    }

    fn suffix(&mut self) -> Vec<u8> {
        match self.rng.below(20) {
            0 => b".llvm.123".to_vec(),
            1 => self.rng.pick(&[".", "_", "@plt", "E", ".cold", "!", "\0"]).as_bytes().to_vec(),
            2 => {
                let length = self.rng.between(1, 6);
                self.rng.bytes(b".abz_09$@AZ ", length)
            }
            _ => Vec::new(),
        }
    }

    fn pooled(&mut self) -> Vec<u8> {
        let at = self.rng.below(self.pool.len());
        self.pool[at].clone()
    }

    fn damaged(&mut self, tally: &mut Tally) -> Vec<u8> {
        let (symbol, other) = (self.pooled(), self.pooled());
        let (copy, way) = damage(&mut self.rng, &symbol, &other);
        tally.count("damages", way);
        copy
    }

    /// The next string of one of the two walks.
    fn short_string(&mut self) -> Vec<u8> {
        let walk = self.rng.below(2);
        let number = self.walked[walk];
        self.walked[walk] += 1;
        let (opening, closing) = OPENINGS[number % OPENINGS.len()];
        let string = numbered_string(number / OPENINGS.len());
        [b"_R", opening.as_bytes(), &string, closing.as_bytes()].concat()
    }

    /// The next edge, in turn.
    fn edge(&mut self) -> Vec<u8> {
        let edge = &self.edges[self.asked % self.edges.len()];
        self.asked += 1;
        [b"_R", &edge[..]].concat()
    }

    fn nesting(&mut self, tally: &mut Tally) -> Vec<u8> {
        let (symbol, name, end) = nesting::nesting(&mut self.rng, self.nested);
        self.nested += 1;
        tally.count("nestings", name);
        tally.count("ends of nestings", end);
        [b"_R".to_vec(), symbol].concat()
    }

    fn wrong_prefix(&mut self, tally: &mut Tally) -> Vec<u8> {
        let prefix = self.rng.pick(&[
            "", "_", "r", "_r", "__", "__r", "___R", "_R_", "_R0", "_R1", "RR", "R_R", "_Z", "Q", " _R", "_Ra",
        ]);
        tally.count("prefixes that are wrong", prefix);
        if self.rng.chance(30) {
            return prefix.as_bytes().to_vec();
        }
        let rest = self.rng.weighted(&[(1, "R"), (1, "_R"), (1, "__R"), (3, "C1a"), (2, "NvC1a1b")]);
        [prefix, rest].concat().into_bytes()
    }

    fn non_ascii(&mut self, tally: &mut Tally) -> Vec<u8> {
        let mut symbol = self.pooled();
        let at = self.rng.below(symbol.len() + 1);
        let (name, bytes): (_, &[u8]) = self.rng.weighted(&[
            (2, ("a character", "é".as_bytes())),
            (1, ("a cut character", b"\xc3")),
            (1, ("0xff", b"\xff")),
            (1, ("0x80", b"\x80")),
        ]);
        tally.count("bytes from 0x80 up", name);
        symbol.splice(at..at, bytes.iter().copied());
        symbol
    }

    /// A symbol of 4,095 to 4,098 bytes: a long name, zeros, or suffix.
    fn about_longest(&mut self) -> Vec<u8> {
        let (before, after) = self.rng.weighted(&[
            (2, ("_RC4080", "")),
            (1, ("_RC1a.", "")),
            (1, ("_RC1a", "\u{e9}")),
            (1, ("_RIC0Kj0", "1_E")),
            (1, ("_RIC0Kj1", "_E")),
            (1, ("_RIC0KRe", "_E")),
            (1, ("!", "")),
        ]);
        let fill = if before.ends_with("Re") { b'6' } else { b'0' };
        let length = self.rng.between(LONGEST_SYMBOL - 1, LONGEST_SYMBOL + 2);
        let mut symbol = before.as_bytes().to_vec();
        symbol.resize(length - after.len(), fill);
        symbol.extend_from_slice(after.as_bytes());
        symbol
    }

    /// A room for the symbol: its text's own length, one beside that, or one
    /// that has nothing to do with it.
    fn room(&mut self, symbol: &[u8], short: bool, tally: &mut Tally) -> usize {
        let printed = judge::print(symbol, short, LARGEST_ROOM);
        tally.count("answers with the largest room", match (printed.code, printed.state) {
            (Code::Done, 'w') => "0 Done, whole",
            (Code::Done, _) => "0 Done, damaged",
            (Code::Invalid, _) => "1 Invalid",
            (Code::RecursedTooDeep, _) => "2 RecursedTooDeep",
            (Code::TooLong, _) => "3 TooLong",
            (Code::NoRoom, _) => "4 NoRoom",
        });
        let exact = match printed.code {
            Code::Done => printed.text.len(),
            _ => 300,
        };
        let small = self.rng.between(2, 64);
        let (room, name) = self.rng.weighted(&[
            (25, (exact, "exact")),
            (13, (exact.saturating_sub(1), "one short")),
            (8, (exact + 1, "one more")),
            (22, (300, "300")),
            (13, (16384, "16384")),
            (10, (small, "small")),
            (4, (0, "0")),
            (4, (1, "1")),
            (1, (LARGEST_ROOM, "65536")),
        ]);
        tally.count("rooms", name);
        room.min(LARGEST_ROOM)
    }
}

/// The instantiating crate's path: good or broken, where there is one.
fn second_path(grammar: &mut Grammar<'_>) {
    match grammar.rng.below(20) {
        0..=3 => {
            grammar.note("second path");
            grammar.path();
        }
        4 => {
            let broken = grammar.rng.pick(&["Z", "C", "C9a", "Nv", "IC0", "B", "B_", "BZZ_", "MC0", "IC0KcZ_E"]);
            grammar.open("second path, perhaps broken", broken.as_bytes());
        }
        _ => {}
    }
}

/// The letters of the short strings: those that open or end something.
const SHORT_ALPHABET: &[u8] = b"CNMXYIBTERDLKFGWOVAupmhesn_01";

/// What stands before and behind a short string.
const OPENINGS: [(&str, &str); 10] = [
    ("", ""),
    ("C", ""),
    ("Nv", "0"),
    ("IC0", "E"),
    ("MC0", ""),
    ("IC0K", "E"),
    ("IC0D", "EL_E"),
    ("IC0Wm", "E"),
    ("IC0F", "EuE"),
    ("IC0FG0_", "B5_E"),
];

/// The strings over the alphabet in order: the empty one, those of one
/// letter, those of two, and so on.
fn numbered_string(mut number: usize) -> Vec<u8> {
    let mut string = Vec::new();
    while number > 0 {
        number -= 1;
        string.push(SHORT_ALPHABET[number % SHORT_ALPHABET.len()]);
        number /= SHORT_ALPHABET.len();
    }
    string
}
