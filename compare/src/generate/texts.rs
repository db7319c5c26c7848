//! The lines for `readers`: a place and a text that starts there what one of
//! the readers is made for.

use crate::aimed;
use crate::damage::damage;
use crate::encode;
use crate::rng::Rng;
use crate::tally::Tally;
use rig::lines::to_hex;

pub struct Texts {
    rng: Rng,
}

impl Texts {
    pub fn new(seed: u64) -> Texts {
        Texts { rng: Rng::new(seed) }
    }

    pub fn line(&mut self, tally: &mut Tally) -> String {
        let kind = self.rng.weighted(&[
            (12, "letters and digits"),
            (6, "any bytes"),
            (12, "number near 2^64"),
            (8, "number of any size"),
            (8, "back reference"),
            (14, "identifier"),
            (12, "Punycode, good"),
            (10, "Punycode, damaged"),
            (3, "Punycode, 126 to 131 characters"),
            (4, "Punycode, huge deltas"),
            (10, "Punycode, aimed"),
            (14, "hex run"),
            (8, "UTF-8, good"),
            (8, "UTF-8, damaged"),
            (1, "empty text"),
        ]);
        tally.count("kinds of line", kind);
        let piece = self.piece(kind);

        let mut text = self.lead(kind);
        let start = text.len();
        // Damage may have put in a byte that no text for the readers holds.
        text.extend(piece.iter().map(|byte| byte & 0x7f));
        if kind != "empty text" && self.rng.chance(30) {
            let length = self.rng.between(1, 4);
            text.extend(self.rng.bytes(b"_09azAZE.", length));
        }
        let at = match self.rng.chance(8) {
            true => self.rng.below(text.len() + 4),
            false => start,
        };
        format!("{at} {}", to_hex(&text))
    }

    /// Bytes in front of the piece, so that places are not always 0. A back
    /// reference needs places to point to.
    fn lead(&mut self, kind: &str) -> Vec<u8> {
        let length = match kind {
            "back reference" => self.rng.below(150),
            "empty text" => 0,
            _ => self.rng.weighted(&[(7, 0), (1, 1), (1, 3), (1, 9)]),
        };
        self.rng.bytes(b"abCB_0u", length)
    }

    fn piece(&mut self, kind: &str) -> Vec<u8> {
        match kind {
            "letters and digits" => self.letters(),
            "any bytes" => {
                let length = self.rng.between(1, 6);
                (0..length).map(|_| self.rng.below(0x80) as u8).collect()
            }
            "number near 2^64" => self.near_limit(),
            "number of any size" => {
                let value = u128::from(self.rng.any_size());
                [self.tag(), encode::integer_62(value)].concat()
            }
            "back reference" => self.back_reference(),
            "identifier" => self.identifier(),
            "Punycode, good" => self.punycode(),
            "Punycode, damaged" => {
                let good = self.punycode();
                let other = self.punycode();
                damage(&mut self.rng, &good, &other).0
            }
            "Punycode, 126 to 131 characters" => self.long_punycode(),
            "Punycode, huge deltas" => self.huge_deltas(),
            "Punycode, aimed" => punycode_ident(&aimed::punycode(&mut self.rng)),
            "hex run" => self.hex_run(),
            "UTF-8, good" => self.utf8(false),
            "UTF-8, damaged" => self.utf8(true),
            _ => Vec::new(),
        }
    }

    fn letters(&mut self) -> Vec<u8> {
        let alphabet = self.rng.pick::<[u8]>(&[
            b"0123456789", b"0123456789abcdef_", b"abcxyzABCXYZ019_", b"_sGu0", b"CSvtAZaz@[`{/:", b"u_019az",
        ]);
        let length = self.rng.between(1, 10);
        self.rng.bytes(alphabet, length)
    }

    /// Nothing, or the tag of a number that may be absent.
    fn tag(&mut self) -> Vec<u8> {
        self.rng.pick::<[u8]>(&[b"", b"s", b"G"]).to_vec()
    }

    /// A number about as large as can be read, or a good deal too large.
    fn near_limit(&mut self) -> Vec<u8> {
        let mut value = (1_u128 << 64) - 5 + self.rng.below(10) as u128;
        if self.rng.chance(40) {
            value += (1 << 64) * multiple(&mut self.rng);
        }
        let mut text = self.tag();
        if self.rng.chance(15) {
            text.extend(b"0".repeat(self.rng.between(1, 30)));
        }
        text.extend(encode::integer_62(value));
        if self.rng.chance(5) {
            text.pop();
        }
        text
    }

    /// Places from 0 to a little beyond those of the lead.
    fn back_reference(&mut self) -> Vec<u8> {
        let target = self.rng.weighted(&[(9, 155), (1, usize::MAX)]);
        let target = self.rng.below(target) as u128;
        [b"B".to_vec(), encode::integer_62(target)].concat()
    }

    /// Identifiers with no Punycode, and lengths of every kind before them.
    fn identifier(&mut self) -> Vec<u8> {
        let count = self.rng.below(13);
        let name = self.rng.bytes(b"abz_09\x01 ", count);
        let length = match self.rng.below(10) {
            0 => format!("0{}", name.len()),
            1 => "00".to_string(),
            2 => (name.len() + self.rng.between(1, 4)).to_string(),
            3 => ((1_u128 << 64) - 20 + self.rng.below(30) as u128).to_string(),
            4 => ((1 << 64) * multiple(&mut self.rng) + name.len() as u128).to_string(),
            5 => "9".repeat(self.rng.between(18, 30)),
            _ => name.len().to_string(),
        };
        let head: &[u8] = self.rng.weighted(&[(4, &b""[..]), (1, b"u")]);
        let separator: &[u8] = self.rng.weighted(&[(1, &b""[..]), (1, b"_")]);
        [head, length.as_bytes(), separator, &name].concat()
    }

    fn punycode(&mut self) -> Vec<u8> {
        let length = self.rng.weighted(&[(6, 3), (3, 8), (1, 20)]);
        let length = self.rng.between(1, length);
        let mut text = encode::foreign_text(&mut self.rng, length);
        if self.rng.chance(30) {
            text.retain(|c| !c.is_ascii());
        }
        punycode_ident(&encode::punycode_ident(&text))
    }

    fn long_punycode(&mut self) -> Vec<u8> {
        let length = self.rng.between(126, 131);
        let letters = self.rng.bytes(b"abc_", length);
        let mut text: Vec<char> = letters.into_iter().map(char::from).collect();
        for _ in 0..self.rng.between(1, 4) {
            let at = self.rng.below(length);
            text[at] = encode::foreign_char(&mut self.rng);
        }
        if !text.iter().any(|c| !c.is_ascii()) {
            text[0] = encode::foreign_char(&mut self.rng);
        }
        punycode_ident(&encode::punycode_ident(&text))
    }

    /// Runs of high digits, whose weights or deltas do not fit any more.
    fn huge_deltas(&mut self) -> Vec<u8> {
        let mut code = self.rng.pick(&["", "a_", "abc_", "ab9a", "a_b"]).as_bytes().to_vec();
        let digit = self.rng.byte(b"9z80y");
        code.extend(vec![digit; self.rng.between(1, 30)]);
        let end = self.rng.pick(&["", "a", "b", "aa", "z9"]);
        code.extend_from_slice(end.as_bytes());
        punycode_ident(&code)
    }

    fn hex_run(&mut self) -> Vec<u8> {
        let count = self.rng.below(41);
        let alphabet = self.rng.pick::<[u8]>(&[b"0123456789abcdef", b"0", b"f", b"01", b"0g"]);
        let mut run = self.rng.bytes(alphabet, count);
        if self.rng.chance(40) {
            let zeros = self.rng.between(1, 20);
            run.splice(0..0, vec![b'0'; zeros]);
        }
        if !self.rng.chance(8) {
            run.push(b'_');
        }
        run
    }

    fn utf8(&mut self, damaged: bool) -> Vec<u8> {
        let length = self.rng.below(5) + usize::from(!damaged);
        let mut bytes = match length {
            0 => Vec::new(),
            _ => encode::foreign_text(&mut self.rng, length).iter().collect::<String>().into_bytes(),
        };
        if damaged && self.rng.chance(40) {
            bytes.extend_from_slice(self.rng.pick(encode::BAD_UTF8));
        }
        if damaged && !bytes.is_empty() {
            let at = self.rng.below(bytes.len());
            match self.rng.below(5) {
                0 => bytes.truncate(at),
                1 => bytes[at] = self.rng.next() as u8,
                2 => drop(bytes.remove(at)),
                _ => {}
            }
        }
        let mut hex = to_hex(&bytes);
        if damaged && self.rng.chance(15) {
            hex.push('4');
        }
        hex.push('_');
        hex.into_bytes()
    }
}

/// A factor for 2^64: a number so much too large would pass if it were kept
/// modulo 2^64.
fn multiple(rng: &mut Rng) -> u128 {
    1 + u128::from(rng.any_size() >> 4)
}

fn punycode_ident(bytes: &[u8]) -> Vec<u8> {
    [b"u".to_vec(), encode::with_length(bytes)].concat()
}
