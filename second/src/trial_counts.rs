//! Small lists of soundings and small years with the expected answers, a line each, for the script that
//! holds the definitions against them. README.md has the form of the lines.

use crate::limits::REACH;
use crate::make::damage::{damage_map, KINDS};
use crate::make::few::{few, two_few};
use crate::make::places::{bytes_of, KINDS as PLACES};
use crate::make::years;
use crate::map::Map;
use crate::overlay::Room;
use crate::ovfile::read;
use crate::random::Random;
use crate::soundings::{count, room};
use crate::year;

/// Most soundings of a line, and most bytes of a year's files and names.
const SOUNDINGS: usize = 8;
const LONGEST: usize = 700;

/// The lines of n rounds: a list of soundings, and a year.
pub fn run(seed: u64, n: usize) -> String {
    let mut out = String::new();
    for round in 0..n {
        let mut random = Random::new(seed.wrapping_add(round as u64), "trial-counts");
        out += &cells_line(&mut random, round);
        out += &year_line(&mut random, round);
    }
    out
}

/// The bytes as hexadecimal digits, `-` for none.
fn hex(bytes: &[u8]) -> String {
    match bytes {
        [] => "-".to_string(),
        _ => bytes.iter().map(|byte| format!("{byte:02x}")).collect(),
    }
}

/// Numbers parted by commas, `-` for none.
fn row<T: ToString>(numbers: &[T]) -> String {
    match numbers {
        [] => "-".to_string(),
        _ => numbers.iter().map(T::to_string).collect::<Vec<_>>().join(","),
    }
}

/// Two maps and soundings on corners, on edges and beside them, with at least three pairs if that can
/// be had in twelve tries.
fn telling(random: &mut Random) -> ([Map; 2], Vec<(i64, i64)>) {
    let mut tries = 0;
    loop {
        let maps = two_few(random);
        let mut places: Vec<_> = PLACES[..4].iter().flat_map(|kind| kind(random, &maps)).collect();
        random.shuffle(&mut places);
        places.truncate(1 + random.below(SOUNDINGS));
        let files = [maps[0].bytes(), maps[1].bytes()];
        let counted = count([&files[0], &files[1]], &bytes_of(&places), SOUNDINGS);
        tries += 1;
        if tries == 12 || counted.is_ok_and(|counted| counted.cells.len() > 2) {
            return (maps, places);
        }
    }
}

/// `cells ZONES BLOCKS LIST A B` and the answer.
fn cells_line(random: &mut Random, round: usize) -> String {
    let (maps, mut places) = telling(random);
    if round % 8 == 3 && !places.is_empty() {
        let at = random.below(places.len());
        places[at].1 = random.pick(&[REACH + 1, -REACH - 1]);
    }
    let mut list = bytes_of(&places);
    if round % 8 == 5 {
        list.truncate(list.len().saturating_sub(1 + random.below(3)));
    }
    let mut files = maps.map(|map| map.bytes());
    if round % 8 == 6 {
        let map: Map = few(random);
        let kind = random.below(KINDS.len());
        files[random.below(2)] = damage_map(&KINDS[kind], random, map);
    }
    let asked = count([&files[0], &files[1]], &list, SOUNDINGS).map_or(2, |c| c.cells.len());
    let less = if round % 4 == 1 { 1 } else { 0 };
    let labels = (2 * asked + random.below(3)).saturating_sub(less);
    let counts = (asked + random.below(2)).saturating_sub(less * random.below(2));
    let answer = match count([&files[0], &files[1]], &list, room(labels, counts)) {
        Ok(counted) => {
            let (mut pairs, mut times) = (vec![0u16; labels], vec![0u32; counts]);
            for (i, (&(zone, block), &n)) in counted.cells.iter().enumerate() {
                (pairs[2 * i], pairs[2 * i + 1], times[i]) = (zone, block, n);
            }
            let said = [counted.cells.len(), counted.soundings, counted.read as usize];
            let [entries, soundings, read] = said;
            format!("done {entries} {soundings} {read} {} {}", row(&pairs), row(&times))
        }
        Err(refusal) => refusal.whole(),
    };
    let [zones, blocks] = [0, 1].map(|m| hex(&files[m]));
    format!("cells {zones} {blocks} {} {labels} {counts} {answer}\n", hex(&list))
}

/// `year ZONE-NAMES BLOCK-NAMES TEXT FILE...`: what is printed, and the files. Runs of kinds that have
/// 400 files or 500 pairs are too long.
fn year_line(random: &mut Random, round: usize) -> String {
    let kinds = [1, 2, 5, 13, 2, 15];
    let (_, make) = years::KINDS[kinds[round % kinds.len()]];
    loop {
        let mut run = make(random);
        let bad = |file: &Vec<u8>| read(file, &Room::FULL).is_err();
        let first = run.files.iter().position(bad).unwrap_or(0);
        let first = first.saturating_sub(random.below(4));
        run.files.drain(..first);
        run.files.truncate(4);
        run.lists.iter_mut().for_each(|list| short(list));
        let long = run.files.iter().chain(&run.lists).map(Vec::len).sum::<usize>();
        if long <= LONGEST {
            let text = year::text(&run.files, [&run.lists[0], &run.lists[1]]);
            let [zones, blocks] = [0, 1].map(|k| hex(&run.lists[k]));
            let files: String = run.files.iter().map(|file| format!(" {}", hex(file))).collect();
            return format!("year {zones} {blocks} {}{files}\n", hex(&text));
        }
    }
}

/// The last 60 bytes of a list or less, from the start of an entry on where the list is whole.
fn short(list: &mut Vec<u8>) {
    while list.len() > 60 {
        let entry = list.len().min(3 + list[2] as usize);
        list.drain(..entry);
    }
}
