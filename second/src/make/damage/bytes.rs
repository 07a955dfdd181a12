//! Damage to the bytes of a map file: rules 1 to 4, and any bit.

// All kinds of damage to bytes have one form, whether the length changes or not.
#![allow(clippy::ptr_arg)]

use crate::limits::*;
use crate::random::Random;

pub fn short(random: &mut Random, bytes: &mut Vec<u8>) {
    bytes.truncate(random.below(MAP_HEAD));
}

pub fn mark(random: &mut Random, bytes: &mut Vec<u8>) {
    let at = random.below(MAP_MARK.len());
    bytes[at] = bytes[at].wrapping_add(random.range(1, 255) as u8);
}

/// Puts number `at` (0 the version, 1 and 2 the counts) into the head.
fn set_head(bytes: &mut [u8], at: usize, number: usize) {
    let start = MAP_MARK.len() + 2 * at;
    bytes[start..start + 2].copy_from_slice(&(number as u16).to_le_bytes());
}

pub fn version(random: &mut Random, bytes: &mut Vec<u8>) {
    let any = random.range(2, 65_535) as usize;
    let version = random.pick(&[0, 2, 256, 257, any]);
    set_head(bytes, 0, version);
}

/// Sets a count over its number; half the time the length is made to fit.
fn set_many(random: &mut Random, bytes: &mut Vec<u8>, at: usize, most: usize, row: usize) {
    let start = MAP_MARK.len() + 2 * at;
    let old = u16::from_le_bytes([bytes[start], bytes[start + 1]]) as usize;
    let any = random.range(most as i64 + 1, 65_535) as usize;
    let many = random.pick(&[most + 1, most + 2, any]);
    set_head(bytes, at, many);
    if many < 1_000 && random.once_in(2) {
        bytes.resize(bytes.len() + (many - old) * row, random.bits() as u8);
    }
}

pub fn many_vertices(random: &mut Random, bytes: &mut Vec<u8>) {
    set_many(random, bytes, 1, MAP_VERTICES, MAP_VERTEX);
}

pub fn many_edges(random: &mut Random, bytes: &mut Vec<u8>) {
    set_many(random, bytes, 2, MAP_EDGES, MAP_EDGE);
}

pub fn cut(random: &mut Random, bytes: &mut Vec<u8>) {
    let rest = bytes.len() - MAP_HEAD;
    if rest > 0 {
        let most = random.pick(&[1, MAP_EDGE, rest]).min(rest);
        bytes.truncate(bytes.len() - random.range(1, most as i64) as usize);
    }
}

pub fn long(random: &mut Random, bytes: &mut Vec<u8>) {
    for _ in 0..random.range(1, 20) {
        bytes.push(random.bits() as u8);
    }
}

pub fn miscount(random: &mut Random, bytes: &mut Vec<u8>) {
    let (at, most) = random.pick(&[(1, MAP_VERTICES), (2, MAP_EDGES)]);
    let count = random.below(most + 1);
    set_head(bytes, at, count);
}

pub fn any_bytes(random: &mut Random, bytes: &mut Vec<u8>) {
    for _ in 0..random.range(1, 3) {
        let at = random.below(bytes.len());
        bytes[at] ^= 1 << random.below(8);
    }
}
