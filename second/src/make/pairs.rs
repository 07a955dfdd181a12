//! Pairs of maps that go together: alike, shifted, sharing stretches and corners, at and over
//! the room.

use super::close::close;
use super::damage;
use super::drawing::{Drawing, Place};
use super::few::two_few;
use super::plain::{cells, place};
use super::room::{edges_2000, over_edges, over_vertices, thousand};
use super::sizes::{comb, scale};
use super::telling::telling_maps;
use super::touching::{corners, shared};
use super::wild::{far_within, places, scribble};
use super::{kinds, map_file, valid_map};
use crate::limits::REACH;
use crate::literal::slip::OF_PAIRS;
use crate::map::{Edge, Map};
use crate::random::Random;

/// A kind of pair: its name, what it is, how it is made.
pub struct PairKind {
    pub name: &'static str,
    pub about: &'static str,
    make: fn(&mut Random) -> [Vec<u8>; 2],
}

const fn kind(
    name: &'static str,
    about: &'static str,
    make: fn(&mut Random) -> [Vec<u8>; 2],
) -> PairKind {
    PairKind { name, about, make }
}

pub const KINDS: &[PairKind] = &[
    kind("mixed", "two valid maps of any kinds", mixed),
    kind("few", "two maps of two to twelve edges", some_few),
    kind("telling", "two maps on which some slip would show", telling),
    kind("tiny", "two maps on the same few places", tiny),
    kind("same", "one map twice, numbered and labelled anew", same),
    kind("shift", "a map over itself, moved a little", shift),
    kind("shared", "the second map runs along edges of the first", shared),
    kind("corners", "corners of one map on edges of the other", corners),
    kind("pencil", "many edges of both maps through one point", pencil),
    kind("grids", "two upright grids with common lines", grids),
    kind("skews", "a skewed grid over an upright one", skews),
    kind("onion", "rings of the two maps by turns", onion),
    kind("thin", "edges that cross at very small angles", thin),
    kind("far", "denominators near 32,000,000 or 2,048,000,000", far),
    kind("close", "crossings that all but coincide", some_close),
    kind("combs", "long edges across long edges", combs),
    kind("full", "two maps of full size", full),
    kind("empty-first", "an empty map and any map", empty_first),
    kind("empty-second", "any map and an empty map", empty_second),
    kind("empties", "two empty maps", empties),
    kind("thousand", "998 to 1,002 overlay vertices", thousand),
    kind("edges-2000", "1,998 to 2,002 overlay edges", edges_2000),
    kind("over-vertices", "more than 1,000 overlay vertices", over_vertices),
    kind("over-edges", "more than 2,000 overlay edges", over_edges),
    kind("bad-first", "the first map is damaged", bad_first),
    kind("bad-second", "the second map is damaged", bad_second),
    kind("bad-both", "both maps are damaged", bad_both),
];

/// A kind that is not among all kinds: packs end with it.
pub const CLASHING: PairKind = kind("clashing", "a map with several clashes", clashing);

/// The two files of a pair of this kind; `any` takes one of all kinds.
pub fn pair_files(kind: &str, seed: u64) -> Option<[Vec<u8>; 2]> {
    let mut random = Random::new(seed, kind);
    if kind == "any" {
        let kind = &KINDS[random.below(KINDS.len())];
        return pair_files(kind.name, random.bits());
    }
    let kind = KINDS.iter().chain([&CLASHING]).find(|k| k.name == kind)?;
    let mut files = (kind.make)(&mut random);
    let fixed = kind.name.starts_with("empty") || kind.name.starts_with("bad");
    if !fixed && random.once_in(2) {
        files.reverse();
    }
    Some(files)
}

pub fn files(first: Map, second: Map) -> [Vec<u8>; 2] {
    [first.bytes(), second.bytes()]
}

pub fn two(random: &mut Random, first: &Drawing, second: &Drawing) -> [Vec<u8>; 2] {
    files(first.any_map(random), second.any_map(random))
}

fn mixed(random: &mut Random) -> [Vec<u8>; 2] {
    files(valid_map(random), valid_map(random))
}

fn some_few(random: &mut Random) -> [Vec<u8>; 2] {
    let [first, second] = two_few(random);
    files(first, second)
}

fn telling(random: &mut Random) -> [Vec<u8>; 2] {
    let slip = random.pick(OF_PAIRS);
    let [first, second] = match random.below(3) {
        0 => telling_maps(random, slip, |random| [valid_map(random), valid_map(random)]),
        _ => telling_maps(random, slip, two_few),
    };
    files(first, second)
}

fn tiny(random: &mut Random) -> [Vec<u8>; 2] {
    let some = random.range(4, 14) as usize;
    let reach = random.range(1, 4);
    let places = places(random, some, reach);
    let mut drawings = [Drawing::new(), Drawing::new()];
    for drawing in &mut drawings {
        let most = random.range(3, 40) as usize;
        scribble(drawing, random, &places, most, 120);
    }
    two(random, &drawings[0], &drawings[1])
}

fn same(random: &mut Random) -> [Vec<u8>; 2] {
    let drawing = drawing_of(&valid_map(random));
    two(random, &drawing, &drawing)
}

/// A drawing of a valid map.
pub fn drawing_of(map: &Map) -> Drawing {
    moved(map, |p| p)
}

/// A drawing of a valid map with its places moved; edges that no longer fit are left out.
pub fn moved(map: &Map, to: impl Fn(Place) -> Place) -> Drawing {
    let mut drawing = Drawing::new();
    for &Edge { from, to: end, .. } in &map.edges {
        drawing.join(to(map.place(from)), to(map.place(end)));
    }
    drawing
}

fn shift(random: &mut Random) -> [Vec<u8>; 2] {
    let map = valid_map(random);
    let (dx, dy) = place(random, 3);
    let half = random.once_in(3);
    let second =
        moved(&map, |(x, y)| if half { (x / 2 + dx, y / 2 + dy) } else { (x + dx, y + dy) });
    two(random, &drawing_of(&map), &second)
}

fn pencil(random: &mut Random) -> [Vec<u8>; 2] {
    let mut drawings = [Drawing::new(), Drawing::new()];
    let reach = random.pick(&[2, 4, 9, 100, 1_000, 5_300]);
    for _ in 0..random.range(1, 4) {
        let (x, y) = place(random, 2 * reach);
        let through = random.below(4);
        for (m, drawing) in drawings.iter_mut().enumerate() {
            for _ in 0..random.range(2, 20) {
                let (dx, dy) = place(random, reach);
                if m == through % 2 && through > 1 {
                    // The point lies within an edge of this map, not at its end.
                    drawing.join((x - dx, y - dy), (x + dx, y + dy));
                } else {
                    drawing.join((x, y), (x + dx, y + dy));
                }
            }
        }
    }
    for drawing in &mut drawings {
        let tips = drawing.places().to_vec();
        if !tips.is_empty() {
            let most = drawing.edges() + 10;
            scribble(drawing, random, &tips, most, 40);
        }
    }
    two(random, &drawings[0], &drawings[1])
}

fn grids(random: &mut Random) -> [Vec<u8>; 2] {
    let most = random.pick(&[12, 12, 500]);
    let unit = random.range(1, most);
    let mut grid = || {
        let mut drawing = Drawing::new();
        let (m, n) = (random.range(1, 7), random.range(1, 7));
        let (w, h) = (unit * random.range(1, 4), unit * random.range(1, 4));
        let (x, y) = place(random, 3);
        cells(&mut drawing, m, n, |i, j| (x * unit + i * w, y * unit + j * h));
        drawing
    };
    let (first, second) = (grid(), grid());
    two(random, &first, &second)
}

fn skews(random: &mut Random) -> [Vec<u8>; 2] {
    let (m, n) = (random.range(2, 9), random.range(2, 9));
    let most = random.pick(&[100, 100, 800]);
    let side = random.range(3, most);
    let mut upright = Drawing::new();
    cells(&mut upright, m, n, |i, j| (i * side, j * side));
    let (a, b) = (random.range(1, side), random.range(-side, side));
    let (x, y) = place(random, side);
    let mut skewed = Drawing::new();
    cells(&mut skewed, m, n, |i, j| (x + i * side + j * b, y + j * side + i * a / 2));
    two(random, &upright, &skewed)
}

fn onion(random: &mut Random) -> [Vec<u8>; 2] {
    let mut drawings = [Drawing::new(), Drawing::new()];
    let (x, y) = place(random, 50);
    let scale = random.pick(&[1, 1, 300]);
    for r in 1..=random.range(3, 16) {
        let r = r * random.range(2 * scale, 3 * scale);
        let drawing = &mut drawings[random.below(2)];
        if random.once_in(2) {
            drawing.rectangle((x - r, y - r), (x + r, y + r));
        } else {
            drawing.ring(&[(x, y - r), (x + r, y), (x, y + r), (x - r, y)]);
        }
    }
    two(random, &drawings[0], &drawings[1])
}

/// Two fans of long edges, all nearly along one line.
fn thin(random: &mut Random) -> [Vec<u8>; 2] {
    let mut drawings = [Drawing::new(), Drawing::new()];
    let near = [(1_990, 3), (1_990, 1_987), (5, 1_990), (-1_990, 1_200)];
    let wide = [(15_990, 3), (15_990, 15_987), (5, 15_990), (-15_990, 9_600)];
    let (dx, dy) = random.pick(&[near, wide].concat());
    for drawing in &mut drawings {
        let mut ends = Vec::new();
        for _ in 0..random.range(2, 14) {
            let (a, b) = (place(random, 9), place(random, 9));
            let (a, b) = ((a.0 - dx, a.1 - dy), (b.0 + dx, b.1 + dy));
            if drawing.join(a, b) {
                ends.extend([a, b]);
            }
        }
        scribble(drawing, random, &ends, 40, 60);
    }
    two(random, &drawings[0], &drawings[1])
}

fn far(random: &mut Random) -> [Vec<u8>; 2] {
    let reach = random.pick(&[2_000, REACH, REACH]);
    files(far_within(random, reach), far_within(random, reach))
}

/// Upright or lying.
fn some_close(random: &mut Random) -> [Vec<u8>; 2] {
    let [mut long, mut fans] = close(random).map(|drawing| drawing.any_map(random));
    if random.once_in(2) {
        for map in [&mut long, &mut fans] {
            *map = moved(map, |(x, y)| (y, x)).any_map(random);
        }
    }
    files(long, fans)
}

fn combs(random: &mut Random) -> [Vec<u8>; 2] {
    let (m, n) = (random.range(2, 28) as usize, random.range(2, 28) as usize);
    let scale = scale(random);
    let (first, second) = (comb(random, m, true, scale), comb(random, n, false, scale));
    two(random, &first, &second)
}

fn full(random: &mut Random) -> [Vec<u8>; 2] {
    let names: Vec<&str> = kinds().map(|k| k.name).filter(|n| n.starts_with("full")).collect();
    [0, 1].map(|_| map_file(random.pick(&names), random.bits()).unwrap_or_default())
}

fn empty_first(random: &mut Random) -> [Vec<u8>; 2] {
    files(Map::default(), valid_map(random))
}

fn empty_second(random: &mut Random) -> [Vec<u8>; 2] {
    files(valid_map(random), Map::default())
}

fn empties(_: &mut Random) -> [Vec<u8>; 2] {
    files(Map::default(), Map::default())
}

fn bad_first(random: &mut Random) -> [Vec<u8>; 2] {
    [damage::any(random), valid_map(random).bytes()]
}

fn bad_second(random: &mut Random) -> [Vec<u8>; 2] {
    [valid_map(random).bytes(), damage::any(random)]
}

fn bad_both(random: &mut Random) -> [Vec<u8>; 2] {
    [damage::any(random), damage::any(random)]
}

fn clashing(random: &mut Random) -> [Vec<u8>; 2] {
    [damage::several_clashes(random), valid_map(random).bytes()]
}
