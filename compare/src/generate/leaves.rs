//! The rest of the grammar: constants and identifiers.

use crate::aimed;
use crate::encode;
use crate::grammar::{Grammar, Piece};
use rig::lines::to_hex;

impl Grammar<'_> {
    pub fn constant(&mut self) {
        let start = self.out.len();
        match self.tag(b"puuuiiibccesRQATTVVVB", b"puuiibce") {
            b'u' => self.unsigned(),
            b'i' => self.signed(),
            b'b' => self.boolean(),
            b'c' => self.character(),
            b'e' => self.string("const e", b"e"),
            b's' => self.string("const Re", b"Re"),
            b'R' => self.wrapped_const("const R", b"R"),
            b'Q' => self.wrapped_const("const Q", b"Q"),
            b'A' => {
                self.open("const A", b"A");
                self.const_list();
            }
            b'T' => {
                self.open("const T", b"T");
                self.const_list();
            }
            b'V' => self.compound(),
            b'B' => self.back_reference("const B", Piece::Const),
            _ => self.open("const p", b"p"),
        }
        if self.wild(6) {
            self.open("stray letter behind a const", b"f");
        }
        self.finished(Piece::Const, start);
    }

    fn wrapped_const(&mut self, production: &'static str, tag: &[u8]) {
        self.open(production, tag);
        self.constant();
    }

    fn const_list(&mut self) {
        for _ in 0..self.rng.below(4) {
            self.constant();
        }
        self.put(b"E");
    }

    fn compound(&mut self) {
        self.put(b"V");
        self.path();
        match self.rng.below(3) {
            0 => self.open("const V, unit", b"U"),
            1 => {
                self.open("const V, tuple", b"T");
                self.const_list();
            }
            _ => {
                self.open("const V, struct", b"S");
                for _ in 0..self.rng.below(3) {
                    self.disambiguator();
                    self.ident();
                    self.constant();
                }
                self.put(b"E");
            }
        }
    }

    fn unsigned(&mut self) {
        const TAGS: [&str; 6] = ["const h", "const t", "const m", "const y", "const o", "const j"];
        self.integer(&TAGS);
        self.nibbles();
    }

    fn signed(&mut self) {
        const TAGS: [&str; 6] = ["const a", "const s", "const l", "const x", "const n", "const i"];
        self.integer(&TAGS);
        if self.rng.chance(40) {
            self.open("const, negative", b"n");
        }
        self.nibbles();
    }

    /// Writes one of the tags, which each end the name of their production.
    fn integer(&mut self, tags: &[&'static str]) {
        let name = self.rng.pick(tags);
        self.open(name, &name.as_bytes()[name.len() - 1..]);
    }

    fn nibbles(&mut self) {
        let mut nibbles = format!("{:x}", self.rng.any_size());
        match self.rng.below(12) {
            0 => {
                self.note("nibbles, none");
                nibbles.clear();
            }
            1 => {
                self.note("nibbles, leading zeros");
                nibbles.insert_str(0, &"0".repeat(self.rng.between(1, 20)));
            }
            2 => {
                self.note("nibbles, sixteen to eighteen");
                nibbles = "f".repeat(self.rng.between(16, 18));
            }
            3 => {
                self.note("nibbles, more than sixteen");
                nibbles.insert_str(0, &"00a0"[self.rng.below(3)..]);
                nibbles.push_str(&"9e".repeat(self.rng.between(8, 12)));
            }
            4 if self.wild(30) => nibbles.push('G'),
            _ => {}
        }
        self.put(nibbles.as_bytes());
        self.put(b"_");
    }

    fn boolean(&mut self) {
        let refused = self.wild(6);
        let value = match refused {
            true => self.rng.pick(&["2_", "n0_", "10000000000000000_", "f", "A_"]),
            false => self.rng.pick(&["0_", "1_", "_", "00_", "01_", "00000000000000000001_"]),
        };
        self.open("const b", b"b");
        self.put(value.as_bytes());
    }

    fn character(&mut self) {
        let refused = self.wild(6);
        let value = match refused {
            true => self.rng.pick(&["d800", "dfff", "110000", "100000061", "10000000000000061"]).to_string(),
            false => {
                let zeros = "0".repeat(self.rng.weighted(&[(9, 0), (1, 18)]));
                format!("{zeros}{:x}", u32::from(self.quoted()))
            }
        };
        self.open("const c", b"c");
        self.put(value.as_bytes());
        self.put(b"_");
    }

    /// A character for inside quotes. Those from U+0080 up are rare: they are
    /// outside the domain.
    fn quoted(&mut self) -> char {
        match self.rng.below(50) {
            0..=24 => self.rng.byte(b"abcxyzABC 019{}<>:_-") as char,
            25..=36 => self.rng.byte(b"'\"\\\0\t\r\n") as char,
            37..=48 => self.rng.below(0x80) as u8 as char,
            _ if self.rng.chance(20) => {
                self.note("quoted character from U+0080 up");
                encode::foreign_char(self.rng)
            }
            _ => '\x7f',
        }
    }

    fn string(&mut self, production: &'static str, tag: &[u8]) {
        let length = self.rng.weighted(&[(1, 0), (5, 3), (3, 8), (1, 30)]);
        let text: String = (0..length).map(|_| self.quoted()).collect();
        let mut bytes = text.into_bytes();
        if self.wild(6) {
            self.note("string of bad UTF-8");
            bytes.extend_from_slice(self.rng.pick(encode::BAD_UTF8));
        }
        self.open(production, tag);
        self.put(to_hex(&bytes).as_bytes());
        if self.wild(6) {
            self.open("string of odd count", b"4");
        }
        self.put(b"_");
    }

    pub fn ident(&mut self) {
        match self.rng.below(40) {
            0..=23 => self.plain_ident("identifier", b"abcdefghijklmnopqrstuvwxyz_ABCXYZ0123456789$"),
            24 | 25 => self.open("identifier, empty", b"0"),
            26 => self.open("identifier, empty with _", b"0_"),
            27 => self.plain_ident("identifier of digits and _", b"_09"),
            28 => self.plain_ident("identifier with control bytes", b"a\0\n\x1b\x7f\"'\\ "),
            29 => self.marker_ident(),
            30..=33 => self.foreign_ident(),
            34 | 35 => self.broken_ident(),
            36 if self.rng.chance(20) => self.long_ident(),
            37 if self.wild(40) => self.refused_ident(),
            _ => self.open("identifier", b"1x"),
        }
    }

    fn plain_ident(&mut self, production: &'static str, alphabet: &[u8]) {
        let length = self.rng.weighted(&[(6, 1), (4, 3), (2, 9), (1, 14)]);
        let bytes = self.rng.bytes(alphabet, length);
        self.open(production, &encode::with_length(&bytes));
    }

    /// Names that look like what print writes for an error.
    fn marker_ident(&mut self) {
        let name = self.rng.pick(&["{invalid syntax}", "{recursion limit reached}", "?", "::", "punycode{a}"]);
        self.open("identifier like a marker", &encode::with_length(name.as_bytes()));
    }

    fn foreign_ident(&mut self) {
        let length = self.rng.between(1, 7);
        let mut text = encode::foreign_text(self.rng, length);
        if self.rng.chance(30) {
            self.note("identifier u, no ASCII");
            text.retain(|c| !c.is_ascii());
        }
        self.open("identifier u", b"u");
        self.put(&encode::with_length(&encode::punycode_ident(&text)));
    }

    fn broken_ident(&mut self) {
        if self.rng.chance(40) {
            let bytes = aimed::punycode(self.rng);
            self.open("identifier u, aimed", b"u");
            return self.put(&encode::with_length(&bytes));
        }
        let name = self.rng.pick(&[
            "bcher_kvA", "a_9", "_z", "zzzzzzzzzzzzzzzz", "99999999999999999999999999", "a_b_9z9z", "kva-", "ab_\n",
        ]);
        self.open("identifier u, broken", b"u");
        self.put(&encode::with_length(name.as_bytes()));
    }

    /// Punycode of about 128 characters, which is as many as print takes.
    fn long_ident(&mut self) {
        let length = self.rng.between(126, 131);
        let mut text: Vec<char> = self.rng.bytes(b"abc_", length).into_iter().map(char::from).collect();
        text[length / 2] = encode::foreign_char(self.rng);
        self.open("identifier u, long", b"u");
        self.put(&encode::with_length(&encode::punycode_ident(&text)));
    }

    fn refused_ident(&mut self) {
        let name = self.rng.pick(&["u0", "u2a_", "u1_", "9999", "01a", "18446744073709551616a", "x", "u"]);
        self.open("identifier, refused", name.as_bytes());
    }
}
