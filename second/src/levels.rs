//! The water level at each sounding of a list: its zone by slabs, the zone's tide rule, and two
//! readings. What examples/levels.c does by the proved library, made here by this program's own ways.

use crate::check::check;
use crate::soundings::{count, places, Slabs};
use crate::tide::{Question, Rule};
use std::collections::HashMap;

/// The rule of a line of words.
fn rule(words: &[&str]) -> Option<(u16, Rule)> {
    let float = |word: &str| word.parse::<f64>().ok().map(f64::to_bits);
    let zone = words.first()?.parse().ok().filter(|&zone| zone > 0)?;
    let rule = match words[1..] {
        ["none"] => Rule::Unset,
        ["ratio", a] => Rule::Ratio(float(a)?),
        ["weights", a, b] => Rule::Weights(float(a)?, float(b)?),
        _ => return None,
    };
    Some((zone, rule))
}

/// The rules of a text, a line for each zone; or the number of the first line that is none.
pub fn rules(text: &str) -> Result<HashMap<u16, Rule>, usize> {
    let mut rules = HashMap::new();
    for (n, line) in text.lines().enumerate() {
        let words: Vec<&str> = line.split('#').next().unwrap_or("").split_whitespace().collect();
        if !words.is_empty() {
            let (zone, of_zone) = rule(&words).ok_or(n + 1)?;
            rules.insert(zone, of_zone);
        }
    }
    Ok(rules)
}

/// A line for each sounding, and then how many there are and how many have a level; or the refusal.
pub fn text(
    files: [&[u8]; 2],
    list: &[u8],
    rules: &HashMap<u16, Rule>,
    readings: [Option<i32>; 2],
) -> String {
    if let Err(refusal) = count(files, list, crate::limits::CELLS) {
        return format!("{refusal}\n");
    }
    let maps = files.map(|file| Slabs::new(&check(file).expect("a map that passes")));
    let places = places(list);
    let mut levels = 0;
    let mut out = String::new();
    for &(x, y) in &places {
        let [zone, block] = [0, 1].map(|m: usize| maps[m].label((x, y)));
        let rule = rules.get(&zone).copied().unwrap_or(Rule::Unset);
        let question = Question { rule, readings };
        let said = match question.answer() {
            _ if zone == 0 => "no zone".to_string(),
            Ok(height) => {
                levels += 1;
                format!("level {}", height.millimetres)
            }
            Err(refusal) => format!("refused {}", refusal.number),
        };
        out += &format!("{x} {y} {zone} {block} {said}\n");
    }
    out + &format!("soundings {} levels {levels}\n", places.len())
}
