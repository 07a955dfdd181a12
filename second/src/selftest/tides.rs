//! Heights of tide by exact whole numbers, against the machine's floats.

use super::{holds, Found};
use crate::make::tides::question;
use crate::random::Random;
use crate::tide::{Question, Rule};

/// The height by the machine's product and sum, where the rule and the readings are in range.
fn by_machine(question: &Question) -> Option<f64> {
    let [first, second] = question.readings;
    let used = |reading: Option<i32>| Some(reading.filter(|x| x.abs_diff(0) <= 20_000)? as f64);
    let float = |low: f64, pattern: u64, high: f64| {
        Some(f64::from_bits(pattern)).filter(|x| low <= *x && *x <= high)
    };
    match question.rule {
        Rule::Unset => None,
        Rule::Ratio(k) => Some(float(0.25, k, 4.0)? * used(first)?),
        Rule::Weights(a, b) => {
            Some(float(0.0, a, 1.0)? * used(first)? + float(0.0, b, 1.0)? * used(second)?)
        }
    }
}

fn agrees(question: &Question) -> Found {
    let ours = question.answer().ok().map(|height| (height.pattern, height.millimetres));
    let theirs = by_machine(question).map(|x| (x.to_bits(), x.round() as i64));
    holds(ours == theirs, || {
        format!("{question:?}: {ours:?}, by the machine's floats {theirs:?}")
    })?;
    let record = question.record(0x5a5a_5a5a_5a5a_5a5a);
    holds(Question::of_record(&record) == *question, || {
        format!("{question:?} is lost in its record")
    })
}

/// A hundred questions.
pub fn hundred(seed: u64) -> Found {
    let mut random = Random::new(seed, "selftest tides");
    (0..100).try_for_each(|_| agrees(&question(&mut random)))
}
