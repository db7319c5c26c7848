//! Punycode aimed at the decoder's limits: deltas too large for 64 bits that
//! would give a good character if they were kept modulo 2^64 (or a code point
//! if it were kept modulo 2^32), and code points beside the good ones.

use crate::encode;
use crate::rng::Rng;

const TWO_64: u128 = 1 << 64;

/// The bytes of an identifier, behind its `u` and length.
pub fn punycode(rng: &mut Rng) -> Vec<u8> {
    let ascii = rng.pick(&["", "", "a", "ab", "a_b"]);
    let length = ascii.len() as u128 + 1;
    let c = u128::from(u32::from(encode::foreign_char(rng)));
    let place = rng.below(ascii.len() + 1) as u128;
    let good = (c - 0x80) * length + place;
    let code = match rng.below(6) {
        // The delta is good modulo 2^64.
        0 => first(good + TWO_64 * u128::from(1 + rng.any_size() / 2)),
        1 => first(good + TWO_64 * (1 + rng.below(3) as u128)),
        // The code point is good modulo 2^32.
        2 => first(good + length * (1 << 32) * (1 + u128::from(rng.any_size() >> 35))),
        // With no ASCII the code point is good modulo 2^64.
        3 => first(TWO_64 - 0x80 + rng.below(0x80) as u128),
        4 => beside_good(rng, length, place),
        _ if rng.chance(50) => vanishing_weights(rng, good as u64),
        _ => sum_too_large(rng, good, length),
    };
    match ascii {
        "" => code,
        _ => [ascii.as_bytes(), b"_", &code].concat(),
    }
}

/// A first delta.
fn first(delta: u128) -> Vec<u8> {
    encode::delta(delta, encode::FIRST_BIAS)
}

/// A code point at one of the borders.
fn beside_good(rng: &mut Rng, length: u128, place: u128) -> Vec<u8> {
    const BORDERS: [u128; 9] = [
        0x80, 0xd7ff, 0xd800, 0xdfff, 0xe000, 0x10_ffff, 0x11_0000, 0xffff_ffff, 1 << 32,
    ];
    let c = BORDERS[rng.below(BORDERS.len())];
    first((c - 0x80) * length + place)
}

/// A good first delta, then one that the insert place carries past 2^64.
fn sum_too_large(rng: &mut Rng, good: u128, length: u128) -> Vec<u8> {
    let next_place = good % length + 1;
    let beyond = rng.below(next_place as usize) as u128;
    let second = TWO_64 - next_place + beyond;
    let bias = encode::adapt(good as u64, length as u64, true);
    [first(good), encode::delta(second, bias)].concat()
}

/// A first delta of so many digits that the last weights are 0 modulo 2^64,
/// and the whole is `wanted`. With the first bias the weights are 1, 35, and
/// then 1225 times a power of ten; all digits from the third on are from 26
/// up, or the delta would end.
fn vanishing_weights(rng: &mut Rng, wanted: u64) -> Vec<u8> {
    const FREE: u32 = 20;
    let padding = rng.between(20, 70);
    let ones = (10_u128.pow(FREE) - 1) / 9;
    let mut weight = 1225_u64.wrapping_mul(10_u64.wrapping_pow(FREE));
    let mut padded = 0_u64;
    for _ in 0..padding {
        padded = padded.wrapping_add(26_u64.wrapping_mul(weight));
        weight = weight.wrapping_mul(10);
    }

    // The free digits' value: what is wanted modulo 2^64, and large enough
    // that each free digit can be at least 26.
    let least = 36 + 1225 * 26 * ones;
    let mut value = u128::from(wanted.wrapping_sub(padded));
    value += (least - value).div_ceil(TWO_64) * TWO_64;
    let low = 36 + (value - 36) % 1225;
    let mut high = (value - low) / 1225 - 26 * ones;

    let mut digits = vec![(low - 1) % 35 + 1, (low - 1) / 35];
    for _ in 0..FREE {
        digits.push(26 + high % 10);
        high /= 10;
    }
    digits.extend(vec![26; padding]);
    digits.push(0);
    digits.into_iter().map(|digit| encode::digit_36(digit as u8)).collect()
}
