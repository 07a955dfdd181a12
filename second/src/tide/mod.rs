//! The height of tide by a zone's rule and two readings (02, Ask 5), in exact whole numbers:
//! no operation of the machine's floats is used.

pub mod units;

use crate::answer::Refusal;
use crate::limits::GAUGE_REACH;
use std::fmt;
use units::{Finite, Units, ONE};

/// "None, a ratio of one gauge, or a pair of weights for two gauges", by their patterns.
#[derive(Clone, Copy, PartialEq, Eq, Debug)]
pub enum Rule {
    Unset,
    Ratio(u64),
    Weights(u64, u64),
}

/// Bytes of a record.
pub const RECORD: usize = 32;

/// A question: a rule and both readings, a missing one as none.
#[derive(Clone, Copy, PartialEq, Eq, Debug)]
pub struct Question {
    pub rule: Rule,
    pub readings: [Option<i32>; 2],
}

/// What is answered: the height's pattern, whole millimetres and the rule.
#[derive(Clone, Copy, PartialEq, Eq, Debug)]
pub struct Height {
    pub pattern: u64,
    pub millimetres: i64,
    pub rule: Rule,
}

/// A float from low to high, in units of 2^-1074. A NaN and an infinity are never in range, and
/// of the negative ones -0 alone is, where 0 is.
fn within(pattern: u64, low: Units, high: Units) -> Result<Finite, Refusal> {
    match Finite::of_pattern(pattern) {
        Some(x) if x.units >= low && x.units <= high && (!x.negative || x.units.is_none()) => Ok(x),
        _ => Err(Refusal::new(15, 0)),
    }
}

fn weight(pattern: u64) -> Result<Finite, Refusal> {
    within(pattern, Units::NONE, Units::shifted(1, ONE))
}

fn read(reading: Option<i32>) -> Result<i32, Refusal> {
    reading.filter(|x| (-GAUGE_REACH..=GAUGE_REACH).contains(x)).ok_or(Refusal::new(16, 0))
}

impl Question {
    pub fn answer(&self) -> Result<Height, Refusal> {
        let [first, second] = self.readings;
        let height = match self.rule {
            Rule::Unset => return Err(Refusal::new(14, 0)),
            Rule::Ratio(ratio) => {
                within(ratio, Units::shifted(1, ONE - 2), Units::shifted(4, ONE))?
                    .times(read(first)?)
            }
            Rule::Weights(a, b) => {
                let (a, b) = (weight(a)?, weight(b)?);
                a.times(read(first)?).plus(&b.times(read(second)?))
            }
        };
        let (pattern, millimetres) = (height.pattern(), height.nearest());
        Ok(Height { pattern, millimetres, rule: self.rule })
    }

    /// The question of a record of 32 bytes: what the rule is (0 none, 1 a ratio, otherwise
    /// weights), whether each reading is there, a spare byte, the readings, four spare bytes, the
    /// floats by their patterns.
    pub fn of_record(record: &[u8]) -> Question {
        let word = |at: usize| u64::from_le_bytes(record[at..at + 8].try_into().expect("8 bytes"));
        let reading = |i: usize| (record[1 + i] != 0).then_some(word(4 + 4 * i) as u32 as i32);
        let rule = match record[0] {
            0 => Rule::Unset,
            1 => Rule::Ratio(word(16)),
            _ => Rule::Weights(word(16), word(24)),
        };
        Question { rule, readings: [reading(0), reading(1)] }
    }

    /// The record of a question, with spare in what is not used.
    pub fn record(&self, spare: u64) -> [u8; RECORD] {
        let mut out = [0; RECORD];
        let (kind, a, b) = match self.rule {
            Rule::Unset => (0, spare, spare),
            Rule::Ratio(a) => (1, a, spare),
            Rule::Weights(a, b) => (2, a, b),
        };
        out[0] = kind;
        out[3] = spare as u8;
        for (i, reading) in self.readings.iter().enumerate() {
            out[1 + i] = reading.is_some() as u8;
            out[4 + 4 * i..8 + 4 * i]
                .copy_from_slice(&reading.unwrap_or(spare as i32).to_le_bytes());
        }
        out[12..16].copy_from_slice(&(spare as u32).to_le_bytes());
        out[16..24].copy_from_slice(&a.to_le_bytes());
        out[24..].copy_from_slice(&b.to_le_bytes());
        out
    }
}

impl fmt::Display for Height {
    fn fmt(&self, out: &mut fmt::Formatter) -> fmt::Result {
        write!(out, "height {:016x} {}", self.pattern, self.millimetres)?;
        match self.rule {
            Rule::Unset => write!(out, " none"),
            Rule::Ratio(a) => write!(out, " ratio {a:016x}"),
            Rule::Weights(a, b) => write!(out, " weights {a:016x} {b:016x}"),
        }
    }
}

/// A line for each whole record of a file.
pub fn lines(file: &[u8]) -> String {
    let line = |record| match Question::of_record(record).answer() {
        Ok(height) => format!("{height}\n"),
        Err(refusal) => format!("{refusal}\n"),
    };
    file.chunks_exact(RECORD).map(line).collect()
}
