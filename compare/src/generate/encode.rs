//! Writers of what v0.rs reads: base-62 numbers, Punycode, characters.

use crate::rng::Rng;

const DIGITS_62: &[u8; 62] = b"0123456789abcdefghijklmnopqrstuvwxyzABCDEFGHIJKLMNOPQRSTUVWXYZ";

/// Digits in base 62, `_` not included. Takes 128 bits, so that numbers just
/// too large for v0.rs can be written too.
pub fn digits_62(mut value: u128) -> Vec<u8> {
    let mut digits = Vec::new();
    loop {
        digits.push(DIGITS_62[(value % 62) as usize]);
        value /= 62;
        if value == 0 {
            digits.reverse();
            return digits;
        }
    }
}

/// What `integer_62` reads as `value`.
pub fn integer_62(value: u128) -> Vec<u8> {
    let mut text = match value {
        0 => Vec::new(),
        _ => digits_62(value - 1),
    };
    text.push(b'_');
    text
}

/// What `opt_integer_62` reads as `value`.
pub fn opt_integer_62(tag: u8, value: u128) -> Vec<u8> {
    match value {
        0 => Vec::new(),
        _ => [vec![tag], integer_62(value - 1)].concat(),
    }
}

/// RFC 3492's encoder: the ASCII characters of a text, and the code of the
/// others, which is empty where there are none.
pub fn punycode(text: &[char]) -> (Vec<u8>, Vec<u8>) {
    let ascii: Vec<u8> = text.iter().filter(|c| c.is_ascii()).map(|&c| c as u8).collect();
    let mut code = Vec::new();
    let (mut n, mut delta, mut bias) = (0x80, 0, FIRST_BIAS);
    let mut handled = ascii.len() as u64;
    while handled < text.len() as u64 {
        let scalars = || text.iter().map(|&c| u64::from(u32::from(c)));
        let least = scalars().filter(|&c| c >= n).min().expect("one is left");
        delta += (least - n) * (handled + 1);
        n = least;
        for c in scalars() {
            if c < n {
                delta += 1;
            } else if c == n {
                code.extend(self::delta(u128::from(delta), bias));
                bias = adapt(delta, handled + 1, handled == ascii.len() as u64);
                delta = 0;
                handled += 1;
            }
        }
        delta += 1;
        n += 1;
    }
    (ascii, code)
}

/// The bias that the first delta is written with.
pub const FIRST_BIAS: u64 = 72;

pub fn digit_36(value: u8) -> u8 {
    b"abcdefghijklmnopqrstuvwxyz0123456789"[usize::from(value)]
}

/// The digits of a delta. Takes 128 bits, so that deltas too large for v0.rs
/// can be written too.
pub fn delta(mut delta: u128, bias: u64) -> Vec<u8> {
    let mut digits = Vec::new();
    let mut k = 36_u64;
    loop {
        let t = u128::from(k.saturating_sub(bias).clamp(1, 26));
        if delta < t {
            digits.push(digit_36(delta as u8));
            return digits;
        }
        digits.push(digit_36((t + (delta - t) % (36 - t)) as u8));
        delta = (delta - t) / (36 - t);
        k += 36;
    }
}

/// The bias of the next delta.
pub fn adapt(delta: u64, handled: u64, first: bool) -> u64 {
    let mut delta = if first { delta / 700 } else { delta / 2 };
    delta += delta / handled;
    let mut k = 0;
    while delta > 455 {
        delta /= 35;
        k += 36;
    }
    k + 36 * delta / (delta + 38)
}

/// A random character from U+0080 up, of two to four bytes in UTF-8.
pub fn foreign_char(rng: &mut Rng) -> char {
    let (first, last) = rng.weighted(&[
        (5, (0x80, 0x7ff)),
        (3, (0x800, 0xd7ff)),
        (1, (0xe000, 0xffff)),
        (2, (0x1_0000, 0x10_ffff)),
        (1, (0x80, 0x80)),
        (1, (0xd7ff, 0xd7ff)),
        (1, (0xe000, 0xe000)),
        (1, (0x10_ffff, 0x10_ffff)),
    ]);
    char::from_u32(rng.between(first, last) as u32).expect("the ranges hold scalars only")
}

/// A random text with at least one character from U+0080 up.
pub fn foreign_text(rng: &mut Rng, length: usize) -> Vec<char> {
    let mut text: Vec<char> = (0..length)
        .map(|_| match rng.chance(50) {
            true => foreign_char(rng),
            false => rng.byte(b"abcdefghijklmnopqrstuvwxyzABCXYZ0189_$") as char,
        })
        .collect();
    let at = rng.below(length);
    text[at] = foreign_char(rng);
    text
}

/// The bytes of an identifier that stands for a text, behind its `u`.
pub fn punycode_ident(text: &[char]) -> Vec<u8> {
    let (ascii, code) = punycode(text);
    match ascii.is_empty() {
        true => code,
        false => [ascii, vec![b'_'], code].concat(),
    }
}

/// An identifier: its length, a `_` where its first byte calls for one, and
/// its bytes.
pub fn with_length(bytes: &[u8]) -> Vec<u8> {
    let mut text = bytes.len().to_string().into_bytes();
    if matches!(bytes.first(), Some(b'0'..=b'9' | b'_')) {
        text.push(b'_');
    }
    text.extend_from_slice(bytes);
    text
}

/// Bytes that are nearly UTF-8: too long a form, a surrogate, a scalar too
/// large, a cut sequence, a lone byte.
pub const BAD_UTF8: &[&[u8]] = &[
    b"\xc0\x80", b"\xc1\xbf", b"\xe0\x80\x80", b"\xe0\x9f\xbf", b"\xf0\x80\x80\x80", b"\xf0\x8f\xbf\xbf",
    b"\xed\xa0\x80", b"\xed\xbf\xbf", b"\xf4\x90\x80\x80", b"\xf5\x80\x80\x80", b"\xf7\xbf\xbf\xbf",
    b"\xf8\x88\x80\x80\x80", b"\xff", b"\x80", b"\xbf", b"\xc3", b"\xe2\x82", b"\xf0\x9f\x92", b"\xc3\x41",
    b"\xe2\x41\x82", b"\xe2\x82\x41", b"\xf0\x9f\x41\x92", b"\xf0\x9f\x92\x41", b"\xc3\xc3",
];
