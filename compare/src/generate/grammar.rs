//! Symbols by the grammar of v0.rs: paths, generic arguments, types, dyn
//! traits and patterns. Constants and identifiers are in `leaves`.

use crate::encode;
use crate::rng::Rng;
use std::collections::BTreeSet;

/// Kinds of piece that a back reference may stand for.
#[derive(Clone, Copy)]
pub enum Piece {
    Path,
    Type,
    Const,
    /// A path with generic arguments, which a dyn trait keeps open.
    Open,
}

/// What a symbol may hold that is not sound.
#[derive(Clone, Copy)]
pub struct Licence {
    /// Back references to any place and lifetimes that are not bound: the
    /// check accepts them, print does not.
    pub loose: bool,
    /// Pieces that the check refuses.
    pub wild: bool,
}

pub struct Grammar<'r> {
    pub rng: &'r mut Rng,
    /// The symbol's bytes behind its prefix.
    pub out: Vec<u8>,
    /// The productions used.
    pub used: BTreeSet<&'static str>,
    licence: Licence,
    /// Branching pieces that may still be begun.
    left: usize,
    /// Lifetimes bound around the piece that is being written.
    bound: usize,
    /// Where finished pieces start, by kind.
    starts: [Vec<usize>; 4],
}

impl<'r> Grammar<'r> {
    pub fn new(rng: &'r mut Rng, licence: Licence, size: usize) -> Grammar<'r> {
        Grammar {
            rng,
            out: Vec::new(),
            used: BTreeSet::new(),
            licence,
            left: size,
            bound: 0,
            starts: Default::default(),
        }
    }

    pub fn note(&mut self, production: &'static str) {
        self.used.insert(production);
    }

    pub fn put(&mut self, bytes: &[u8]) {
        self.out.extend_from_slice(bytes);
    }

    /// Notes a production and writes its tag.
    pub fn open(&mut self, production: &'static str, tag: &[u8]) {
        self.note(production);
        self.put(tag);
    }

    /// True with that chance where the symbol may hold refused pieces.
    pub fn wild(&mut self, percent: usize) -> bool {
        self.licence.wild && self.rng.chance(percent)
    }

    /// One of the tags, or of the leaves among them where the symbol is
    /// large enough.
    pub fn tag(&mut self, all: &[u8], leaves: &[u8]) -> u8 {
        let tags = if self.left == 0 { leaves } else { all };
        self.left = self.left.saturating_sub(1);
        self.rng.byte(tags)
    }

    pub fn finished(&mut self, piece: Piece, start: usize) {
        self.starts[piece as usize].push(start);
    }

    pub fn path(&mut self) {
        let start = self.out.len();
        match self.tag(b"CCNNNNMXYIIIB", b"CCCB") {
            b'N' => self.nested_path(),
            b'M' => {
                self.open("path M", b"M");
                self.impl_path();
                self.type_();
            }
            b'X' => {
                self.open("path X", b"X");
                self.impl_path();
                self.type_();
                self.path();
            }
            b'Y' => {
                self.open("path Y", b"Y");
                self.type_();
                self.path();
            }
            b'I' => return self.instance("path I"),
            b'B' => self.back_reference("path B", Piece::Path),
            _ => self.crate_root(),
        }
        if self.wild(6) {
            self.open("stray letter behind a path", b"Z");
        }
        self.finished(Piece::Path, start);
    }

    fn crate_root(&mut self) {
        self.open("path C", b"C");
        self.disambiguator();
        self.ident();
    }

    fn nested_path(&mut self) {
        self.open("path N", b"N");
        match self.rng.below(10) {
            0 | 1 => self.open("namespace C", b"C"),
            2 => self.open("namespace S", b"S"),
            3 => {
                let letter = self.rng.byte(b"ABDEFGHIJKLMNOPQRTUVWXYZ");
                self.open("namespace, other capital", &[letter]);
            }
            _ => {
                let letter = self.rng.byte(b"tvabcdefghijklmnopqrsuwxyz");
                self.open("namespace, small letter", &[letter]);
            }
        }
        self.path();
        self.disambiguator();
        self.ident();
    }

    /// The path of an impl, which is read and not printed.
    fn impl_path(&mut self) {
        self.disambiguator();
        self.path();
    }

    /// A path with generic arguments.
    fn instance(&mut self, production: &'static str) {
        let start = self.out.len();
        self.open(production, b"I");
        self.path();
        let count = self.rng.weighted(&[(1, 0), (5, 1), (3, 2), (1, 4)]);
        for _ in 0..count {
            self.generic_arg();
        }
        self.put(b"E");
        self.finished(Piece::Path, start);
        self.finished(Piece::Open, start);
    }

    fn generic_arg(&mut self) {
        match self.rng.below(10) {
            0 | 1 => {
                self.note("argument L");
                self.lifetime();
            }
            2..=4 => {
                self.open("argument K", b"K");
                self.constant();
            }
            _ => self.type_(),
        }
    }

    pub fn disambiguator(&mut self) {
        let value = match self.rng.below(20) {
            0..=13 => return,
            14..=16 => self.rng.below(70) as u128,
            17 | 18 => u128::from(self.rng.any_size()),
            _ => u128::from(u64::MAX) - 3 + self.rng.below(4) as u128,
        };
        self.note("disambiguator");
        let beyond = u128::from(self.wild(6)) * 3;
        self.put(&encode::opt_integer_62(b's', value + beyond));
    }

    /// A base-62 number, now and then with leading zeros.
    fn number_62(&mut self, value: u128) {
        if value > 0 && self.rng.chance(3) {
            let zeros = self.rng.between(1, 20);
            self.open("number with leading zeros", &b"0".repeat(zeros));
        }
        self.put(&encode::integer_62(value));
    }

    /// `L` and a number: 0, one that is bound, or (loosely) any.
    fn lifetime(&mut self) {
        let loose = self.licence.loose && self.rng.chance(25);
        let number = if loose {
            self.note("lifetime, any");
            self.rng.any_size() as u128 >> self.rng.below(60)
        } else if self.bound == 0 || self.rng.chance(25) {
            self.note("lifetime 0");
            0
        } else {
            self.note("lifetime, bound");
            self.rng.between(1, self.bound) as u128
        };
        self.put(b"L");
        self.number_62(number);
    }

    /// A binder, perhaps; answers how many lifetimes it binds. Huge ones are
    /// not counted as bound: nothing behind them is ever printed.
    fn binder(&mut self) -> usize {
        let (production, count) = match self.rng.below(100) {
            0..=54 => return 0,
            55..=89 => ("binder", self.rng.between(1, 3)),
            90..=97 => ("binder, past the letters", self.rng.between(20, 40)),
            _ => {
                let huge = self.rng.any_size() | 0x4000;
                self.open("binder, huge", &encode::opt_integer_62(b'G', u128::from(huge)));
                return 0;
            }
        };
        self.open(production, &encode::opt_integer_62(b'G', count as u128));
        count
    }

    pub fn type_(&mut self) {
        let start = self.out.len();
        if self.rng.chance(3) {
            self.open("type w", b"w");
        }
        match self.tag(b"bbbbbbNNNNRRQPOASTTTFFDDWB", b"bbbN") {
            b'R' => self.reference("type R", b"R"),
            b'Q' => self.reference("type Q", b"Q"),
            b'P' => self.wrapped_type("type P", b"P"),
            b'O' => self.wrapped_type("type O", b"O"),
            b'S' => self.wrapped_type("type S", b"S"),
            b'A' => {
                self.wrapped_type("type A", b"A");
                self.constant();
            }
            b'T' => self.tuple_type(),
            b'F' => self.fn_type(),
            b'D' => self.dyn_type(),
            b'W' => {
                self.wrapped_type("type W", b"W");
                self.pattern();
            }
            b'B' => self.back_reference("type B", Piece::Type),
            b'N' => {
                self.note("type, named");
                self.path();
            }
            _ => self.basic_type(),
        }
        self.finished(Piece::Type, start);
    }

    fn basic_type(&mut self) {
        const NAMES: [(&str, u8); 21] = [
            ("type b", b'b'), ("type c", b'c'), ("type e", b'e'), ("type u", b'u'),
            ("type a", b'a'), ("type s", b's'), ("type l", b'l'), ("type x", b'x'),
            ("type n", b'n'), ("type i", b'i'), ("type h", b'h'), ("type t", b't'),
            ("type m", b'm'), ("type y", b'y'), ("type o", b'o'), ("type j", b'j'),
            ("type f", b'f'), ("type d", b'd'), ("type z", b'z'), ("type p", b'p'),
            ("type v", b'v'),
        ];
        let (name, letter) = NAMES[self.rng.below(NAMES.len())];
        self.open(name, &[letter]);
        if self.wild(6) {
            self.open("stray letter behind a type", b"g");
        }
    }

    fn wrapped_type(&mut self, production: &'static str, tag: &[u8]) {
        self.open(production, tag);
        self.type_();
    }

    fn reference(&mut self, production: &'static str, tag: &[u8]) {
        self.open(production, tag);
        if self.rng.chance(45) {
            self.note("reference with a lifetime");
            self.lifetime();
        }
        self.type_();
    }

    fn tuple_type(&mut self) {
        let names = ["type T, none", "type T, one", "type T, more", "type T, more"];
        let count = self.rng.below(names.len());
        self.open(names[count], b"T");
        for _ in 0..count {
            self.type_();
        }
        self.put(b"E");
    }

    fn fn_type(&mut self) {
        self.open("type F", b"F");
        let bound = self.binder();
        self.bound += bound;
        if self.rng.chance(25) {
            self.open("fn, unsafe", b"U");
        }
        self.abi();
        for _ in 0..self.rng.below(4) {
            self.type_();
        }
        self.put(b"E");
        if self.rng.chance(50) {
            self.open("fn, returns u", b"u");
        } else {
            self.note("fn, returns a type");
            self.type_();
        }
        self.bound -= bound;
    }

    fn abi(&mut self) {
        match self.rng.below(10) {
            0 | 1 => self.open("fn, extern C", b"KC"),
            2 | 3 => {
                let name = self.rng.pick(&["C_unwind", "system", "_a__b_", "x_", "\"\\'\n", "a-b"]);
                self.open("fn, extern other", b"K");
                self.put(&encode::with_length(name.as_bytes()));
            }
            4 if self.wild(40) => {
                self.open("fn, extern refused", b"K");
                self.ident();
            }
            _ => {}
        }
    }

    fn dyn_type(&mut self) {
        self.open("type D", b"D");
        let bound = self.binder();
        self.bound += bound;
        for _ in 0..self.rng.weighted(&[(1, 0), (6, 1), (2, 2), (1, 3)]) {
            self.dyn_trait();
        }
        self.put(b"E");
        self.bound -= bound;
        if !self.wild(6) {
            self.lifetime();
        }
    }

    fn dyn_trait(&mut self) {
        match self.rng.below(10) {
            0..=3 => self.instance("dyn trait, open by I"),
            4 | 5 => self.back_reference("dyn trait, B", Piece::Open),
            _ => self.path(),
        }
        for _ in 0..self.rng.weighted(&[(4, 0), (4, 1), (2, 2)]) {
            self.open("dyn trait, p", b"p");
            self.ident();
            if self.rng.chance(25) {
                self.open("dyn trait, p with K", b"K");
                self.constant();
            } else {
                self.type_();
            }
        }
    }

    fn pattern(&mut self) {
        match self.tag(b"RRRON", b"RN") {
            b'O' => {
                self.open("pattern O", b"O");
                for _ in 0..self.rng.between(1, 3) {
                    self.pattern();
                }
                self.put(b"E");
            }
            b'N' => self.open("pattern N", b"N"),
            _ => {
                self.open("pattern R", b"R");
                self.constant();
                self.constant();
            }
        }
        if self.wild(6) {
            self.open("stray letter behind a pattern", b"Z");
        }
    }

    /// `B` and a place: a finished piece of the right kind, or (loosely) any
    /// earlier place, or (refused) one that is not earlier.
    pub fn back_reference(&mut self, production: &'static str, piece: Piece) {
        let here = self.out.len();
        let known = &self.starts[piece as usize];
        let right = (!known.is_empty()).then(|| known[self.rng.below(known.len())]);
        let loose = self.licence.loose && self.rng.chance(45);
        let target = match right {
            Some(place) if !loose => place,
            _ if self.wild(6) => here + self.rng.below(3),
            _ if self.licence.loose && here > 0 => {
                self.note("back reference to any place");
                self.rng.below(here)
            }
            _ => return self.stand_in(piece),
        };
        self.open(production, b"B");
        self.number_62(target as u128);
    }

    /// What is written where there is nothing to refer back to.
    fn stand_in(&mut self, piece: Piece) {
        match piece {
            Piece::Type => self.basic_type(),
            Piece::Const => self.open("const p", b"p"),
            Piece::Path | Piece::Open => self.crate_root(),
        }
    }
}
