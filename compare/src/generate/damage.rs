//! Damaged copies of good symbols.

use crate::rng::Rng;

/// Bytes that mean something to v0.rs, and a few that do not.
const ALPHABET: &[u8] = b"CNMXYIBTERQPOASFDLKGWUVZpsunvwmhjce_0123456789abdfgz!. \x01\x7f";

const WAYS: [&str; 7] = ["changed", "removed", "inserted", "doubled", "cut", "spliced", "twice"];

/// A copy of `symbol` with one damage done to it, and the damage's name.
pub fn damage(rng: &mut Rng, symbol: &[u8], other: &[u8]) -> (Vec<u8>, &'static str) {
    let way = WAYS[rng.weighted(&[(5, 0), (3, 1), (3, 2), (2, 3), (2, 4), (2, 5), (2, 6)])];
    if way == "twice" {
        let (once, _) = damage(rng, symbol, other);
        return (damage(rng, &once, other).0, way);
    }
    if symbol.is_empty() {
        return (rng.bytes(ALPHABET, 1), "inserted");
    }
    (damage_once(rng, symbol, other, way), way)
}

fn damage_once(rng: &mut Rng, symbol: &[u8], other: &[u8], way: &str) -> Vec<u8> {
    let at = rng.below(symbol.len());
    let mut copy = symbol.to_vec();
    match way {
        "changed" => copy[at] = any_byte(rng),
        "removed" => {
            let end = (at + rng.weighted(&[(5, 1), (1, 2), (1, 5)])).min(copy.len());
            copy.drain(at..end);
        }
        "inserted" => copy.insert(at, any_byte(rng)),
        "doubled" => {
            let end = (at + rng.between(1, 8)).min(copy.len());
            let part = copy[at..end].to_vec();
            copy.splice(at..at, part);
        }
        "cut" => copy.truncate(at),
        _ => {
            copy.truncate(at);
            copy.extend_from_slice(&other[rng.below(other.len() + 1)..]);
        }
    }
    copy
}

fn any_byte(rng: &mut Rng) -> u8 {
    match rng.below(100) {
        0 => rng.between(0x80, 0xff) as u8,
        1..=5 => rng.below(0x80) as u8,
        _ => rng.byte(ALPHABET),
    }
}
