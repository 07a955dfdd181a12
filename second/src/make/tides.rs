//! Questions of all kinds for the height of tide: the ends of the ranges and their neighbours,
//! what is no number, exact halves, sums that cancel.

use crate::random::Random;
use crate::tide::{Question, Rule};

/// Patterns that a range, a sign or a size may be judged wrongly for: zeros, the least and the
/// greatest of the small, 1/4, 1/2, 1, 2, 4, the greatest, infinities, NaNs of every kind.
const EDGES: [u64; 18] = [
    0,
    1,
    0x000f_ffff_ffff_ffff,
    0x0010_0000_0000_0000,
    0x3fd0_0000_0000_0000,
    0x3fdf_ffff_ffff_ffff,
    0x3fe0_0000_0000_0000,
    0x3ff0_0000_0000_0000,
    0x4000_0000_0000_0000,
    0x4010_0000_0000_0000,
    0x7fef_ffff_ffff_ffff,
    0x7ff0_0000_0000_0000,
    0x7ff0_0000_0000_0001,
    0x7ff7_ffff_ffff_ffff,
    0x7ff8_0000_0000_0000,
    0x7ff8_0000_0000_0001,
    0x7fff_ffff_ffff_ffff,
    0x3ff0_0000_0000_0001,
];

const READINGS: [i32; 15] = [
    0,
    1,
    -1,
    2,
    -2,
    3,
    19_999,
    20_000,
    20_001,
    -19_999,
    -20_000,
    -20_001,
    20_002,
    i32::MAX,
    i32::MIN,
];

const RATIO: (u64, u64) = (0x3fd0_0000_0000_0000, 0x4010_0000_0000_0000);
const ONE: u64 = 0x3ff0_0000_0000_0000;

fn edge(random: &mut Random) -> u64 {
    let near = [0, 0, 0, 1, u64::MAX];
    random.pick(&EDGES).wrapping_add(random.pick(&near)) ^ random.pick(&[0, 0, 1 << 63])
}

/// A float of a range of patterns, with few digits, with all, or a decimal.
fn between(random: &mut Random, low: u64, high: u64) -> u64 {
    let any = low + random.bits() % (high - low + 1);
    let decimal = (random.range(0, 4000) as f64 / random.pick(&[1000.0, 100.0, 10.0])).to_bits();
    match random.below(3) {
        0 => any,
        1 => (any & !((1 << random.range(30, 51)) - 1)).max(low),
        _ => decimal.clamp(low, high),
    }
}

fn weight(random: &mut Random) -> u64 {
    match random.below(8) {
        0 => edge(random),
        1 => random.pick(&[0, 1 << 63, ONE]),
        2 => random.bits() % ONE,
        _ => between(random, ONE - (6 << 52), ONE),
    }
}

fn ratio(random: &mut Random) -> u64 {
    match random.below(8) {
        0 => edge(random),
        1 => random.pick(&[RATIO.0, RATIO.1]).wrapping_add(random.pick(&[0, 1, u64::MAX])),
        2 => random.bits(),
        _ => between(random, RATIO.0, RATIO.1),
    }
}

fn reading(random: &mut Random) -> Option<i32> {
    match random.below(16) {
        0 => None,
        1 => Some(random.bits() as i32),
        2..=5 => Some(random.pick(&READINGS)),
        6..=9 => Some(random.range(-50, 50) as i32),
        _ => Some(random.range(-20_000, 20_000) as i32),
    }
}

/// A ratio and a reading with a height of an exact half, or the ratio beside it.
fn half(random: &mut Random) -> Question {
    let digits = random.range(1, 13);
    let odd = 2 * random.range(0, 1 << (digits + 1)) + 1;
    let ratio = (odd as f64 / (1u64 << digits) as f64).clamp(0.25, 4.0).to_bits();
    let most = 20_000 >> (digits - 1);
    let first = (2 * random.range(-(most / 2), most / 2) + 1) << (digits - 1);
    let beside = ratio.wrapping_add(random.pick(&[0, 0, 1, u64::MAX]));
    Question { rule: Rule::Ratio(beside), readings: [Some(first as i32), reading(random)] }
}

/// Weights and readings whose products cancel, or nearly.
fn cancelling(random: &mut Random) -> Question {
    let a = between(random, ONE - (6 << 52), ONE);
    let b = a.wrapping_add(random.pick(&[0, 0, 1, u64::MAX])).min(ONE);
    let first = random.range(-20_000, 20_000) as i32;
    let second = (-first + random.pick(&[0, 0, 1, -1])).clamp(-20_000, 20_000);
    Question { rule: Rule::Weights(a, b), readings: [Some(first), Some(second)] }
}

/// Weights of few digits, or of hundredths, whose sum is a half or nearly.
fn half_sum(random: &mut Random) -> Question {
    let weight = |random: &mut Random| match random.below(2) {
        0 => (random.range(0, 16) as f64 / 16.0).to_bits(),
        _ => (random.range(0, 100) as f64 / 100.0).to_bits(),
    };
    let (a, b) = (weight(random), weight(random));
    let some = |random: &mut Random| Some(random.range(-200, 200) as i32);
    Question { rule: Rule::Weights(a, b), readings: [some(random), some(random)] }
}

pub fn question(random: &mut Random) -> Question {
    match random.below(16) {
        0 => Question { rule: Rule::Unset, readings: [reading(random), reading(random)] },
        1..=5 => Question {
            rule: Rule::Ratio(ratio(random)),
            readings: [reading(random), reading(random)],
        },
        6..=10 => {
            let rule = Rule::Weights(weight(random), weight(random));
            Question { rule, readings: [reading(random), reading(random)] }
        }
        11..=12 => half(random),
        13 => cancelling(random),
        _ => half_sum(random),
    }
}

/// A file of n records; what a question does not use holds anything.
pub fn file(seed: u64, n: usize) -> Vec<u8> {
    let mut random = Random::new(seed, "tides");
    (0..n).flat_map(|_| question(&mut random).record(random.bits())).collect()
}
