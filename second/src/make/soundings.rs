//! Lists of soundings over pairs of maps: on corners, on edges, beside them, on the rim; torn lists,
//! long ones, soundings too far, more pairs than there may be; and the tables that are lent for each.

use super::drawing::{Drawing, Palette, Place};
use super::pairs::{pair_files, KINDS as PAIRS};
use super::places::{bytes_of, place_near, KINDS};
use crate::limits::{CELLS, REACH, SOUNDINGS};
use crate::map::{decode, numbers, Map};
use crate::random::Random;
use crate::soundings::count;

/// A case: the numbers of the lent labels and of the lent counts, the two maps, and the list.
pub struct Case {
    pub lent: [u16; 2],
    pub maps: [Vec<u8>; 2],
    pub list: Vec<u8>,
}

/// n cases; case i has the seed `seed` + i. The last two of each hundred have 65,535 and 65,536
/// soundings.
pub fn make(seed: u64, n: u16) -> Vec<Case> {
    (0..n).map(|i| case(seed.wrapping_add(i as u64), i as usize)).collect()
}

fn case(seed: u64, i: usize) -> Case {
    let mut random = Random::new(seed, "cells");
    let many = i % 8 == 5;
    let (maps, mut places) = match many {
        true => (ladders(&mut random), cells(&mut random)),
        false => richest(&mut random, i),
    };
    match i % 100 {
        98 => lengthen(&mut random, &mut places, SOUNDINGS),
        99 => lengthen(&mut random, &mut places, SOUNDINGS + 1),
        _ => {}
    }
    if i % 7 == 3 {
        too_far(&mut random, &mut places, i);
    }
    let mut list = bytes_of(&places);
    if i % 11 == 10 {
        let torn = 1 + random.below(3);
        list.resize((list.len() + 4).saturating_sub(torn), 7);
    }
    let lent = lent(&mut random, &maps, &list, i);
    Case { lent, maps, list }
}

/// So many different labels are enough.
const ENOUGH: usize = 12;

/// Of some pairs of one kind with a list one with many different labels; every fourth is taken as it
/// comes. Pairs and lists take turns apart from each other.
fn richest(random: &mut Random, i: usize) -> ([Vec<u8>; 2], Vec<Place>) {
    let kind = PAIRS[(i + i / PAIRS.len()) % PAIRS.len()].name;
    let one = |random: &mut Random| {
        let maps = pair_files(kind, random.bits()).expect("a kind of pair");
        let places = list(random, &maps, i);
        let counted = count([&maps[0], &maps[1]], &bytes_of(&places), usize::MAX);
        (counted.map_or(0, |counted| counted.cells.len()), (maps, places))
    };
    let mut best = one(random);
    for _ in 1..if i % 4 == 0 { 1 } else { 6 } {
        if best.0 < ENOUGH {
            let other = one(random);
            best = if other.0 > best.0 { other } else { best };
        }
    }
    best.1
}

/// A list of soundings of one kind, with some about the maps, or of all kinds.
fn list(random: &mut Random, maps: &[Vec<u8>; 2], i: usize) -> Vec<Place> {
    let maps: Vec<Map> = maps.iter().filter_map(|file| decode(file).ok()).collect();
    let all = |random: &mut Random| KINDS.iter().flat_map(|k| k(random, &maps)).collect();
    let mut places: Vec<Place> = match i % 10 {
        0 if i % 20 == 0 => Vec::new(),
        k @ 1..=7 => [KINDS[k - 1](random, &maps), KINDS[5](random, &maps)].concat(),
        8 => vec![place_near(random, &maps); 1 + random.below(50)],
        _ => all(random),
    };
    random.shuffle(&mut places);
    places
}

/// Many more of the same soundings and some anywhere.
fn lengthen(random: &mut Random, places: &mut Vec<Place>, n: usize) {
    let known = places.clone();
    while places.len() < n {
        let new = known.is_empty() || random.once_in(3);
        places.push(match new {
            true => (random.range(-REACH, REACH), random.range(-REACH, REACH)),
            false => random.pick(&known),
        });
    }
    places.truncate(n);
}

/// One or several soundings too far: the first, the last, or any; just beyond the limit or at the
/// end of 16 bits.
fn too_far(random: &mut Random, places: &mut Vec<Place>, i: usize) {
    let far = |random: &mut Random, p: Place| {
        let c = random.pick(&[REACH + 1, -REACH - 1, 32_767, -32_768]);
        random.pick(&[(c, p.1), (p.0, c), (c, c)])
    };
    if places.is_empty() {
        places.push((0, 0));
    }
    let last = places.len() - 1;
    let at: Vec<usize> = match i / 7 % 4 {
        0 => vec![0],
        1 => vec![last],
        2 => (0..3).map(|_| random.below(last + 1)).collect(),
        _ => vec![random.below(last + 1)],
    };
    for k in at {
        places[k] = far(random, places[k]);
    }
}

const STRIPS: i64 = 38;
const SIDE: i64 = 6;

/// Two ladders of 38 strips across each other, so that there are 1,444 cells and more pairs than
/// may occur. (A ladder of n strips has 3n + 1 edges; there could be 99 strips.)
fn ladders(random: &mut Random) -> [Vec<u8>; 2] {
    let most = STRIPS * SIDE;
    [false, true].map(|level| {
        let at = |along: i64, side: i64| if level { (side, along) } else { (along, side) };
        let mut drawing = Drawing::new();
        for side in [0, most] {
            let rail: Vec<Place> = (0..=STRIPS).map(|k| at(k * SIDE, side)).collect();
            drawing.path(&rail);
        }
        for k in 0..=STRIPS {
            drawing.join(at(k * SIDE, 0), at(k * SIDE, most));
        }
        drawing.map(random, Palette::Each).bytes()
    })
}

/// Soundings in 1,333, 1,334 or 1,335 cells of the two ladders, or in any number, each in at least one.
fn cells(random: &mut Random) -> Vec<Place> {
    let n = match random.below(6) {
        0 => random.range(1, STRIPS * STRIPS) as usize,
        k => CELLS - 1 + k / 2,
    };
    let cell = |k: usize| (k as i64 % STRIPS * SIDE, k as i64 / STRIPS * SIDE);
    let mut order = random.order((STRIPS * STRIPS) as usize);
    order.truncate(n);
    let again: Vec<usize> = (0..200).map(|_| order[random.below(n)]).collect();
    order.extend(again);
    order
        .into_iter()
        .map(cell)
        .map(|(x, y)| {
            // The west and the south side belong to a cell, the east and the north side do not.
            (x + random.range(0, SIDE - 1), y + random.range(0, SIDE - 1))
        })
        .collect()
}

/// Tables for 1,334 pairs; every third case has just enough, a little more or a little less in one of
/// them or in both.
fn lent(random: &mut Random, maps: &[Vec<u8>; 2], list: &[u8], i: usize) -> [u16; 2] {
    let full = [2 * CELLS, CELLS];
    let found = count([&maps[0], &maps[1]], list, CELLS + 2);
    let (2, Ok(counted)) = (i % 3, found) else {
        let more = if random.once_in(4) { random.below(9) } else { 0 };
        return full.map(|n| (n + more) as u16);
    };
    let pairs = counted.cells.len();
    let only = random.below(4);
    let mut lent = full;
    for (k, asked) in [2 * pairs, pairs].into_iter().enumerate() {
        if only == k || only >= 2 {
            lent[k] = (asked + random.below(3)).saturating_sub(random.below(3));
        }
    }
    lent.map(|n| n as u16)
}

/// A pack: the number of cases, then of each the two lent lengths, the lengths of the two maps and, in
/// two numbers, of the list, then the three.
pub fn bytes(cases: &[Case]) -> Vec<u8> {
    let mut out = (cases.len() as u16).to_le_bytes().to_vec();
    for case in cases {
        let lengths = [case.maps[0].len() as u16, case.maps[1].len() as u16];
        for number in case.lent.into_iter().chain(lengths) {
            out.extend(number.to_le_bytes());
        }
        out.extend((case.list.len() as u32).to_le_bytes());
        case.maps.iter().chain([&case.list]).for_each(|part| out.extend(part));
    }
    out
}

/// The cases of a pack, or none where the bytes are no pack.
pub fn parse(bytes: &[u8]) -> Option<Vec<Case>> {
    let mut rest = bytes;
    let mut take = |n: usize| {
        let (part, more) = rest.split_at_checked(n)?;
        rest = more;
        Some(part.to_vec())
    };
    let count = numbers(&take(2)?)[0];
    let mut cases = Vec::new();
    for _ in 0..count {
        let head = numbers(&take(12)?);
        let maps = [take(head[2] as usize)?, take(head[3] as usize)?];
        let list = take(head[4] as usize + ((head[5] as usize) << 16))?;
        cases.push(Case { lent: [head[0], head[1]], maps, list });
    }
    rest.is_empty().then_some(cases)
}
