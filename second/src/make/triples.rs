//! Three maps that go together, and damaged ones among them.

use super::damage;
use super::drawing::Drawing;
use super::few::three_few;
use super::melts::KINDS as MELTS;
use super::pairs::{drawing_of, moved, pair_files, CLASHING, KINDS as PAIRS};
use super::plain::{cells, place};
use super::room::size;
use super::sizes::{comb, filler, scale};
use super::telling::telling_maps;
use super::touching::along;
use super::valid_map;
use super::wild::{far_within, scribble};
use crate::limits::{MAPS, REACH, VERTICES};
use crate::literal::slip::{OF_PAIRS, OF_TRIPLES};
use crate::map::Map;
use crate::random::Random;

/// The files of zones, blocks and bed.
pub type Sheet = [Vec<u8>; MAPS];

/// A kind of three maps: its name, what it is, how it is made.
pub struct TripleKind {
    pub name: &'static str,
    pub about: &'static str,
    make: fn(&mut Random) -> Sheet,
}

pub(super) const fn kind(
    name: &'static str,
    about: &'static str,
    make: fn(&mut Random) -> Sheet,
) -> TripleKind {
    TripleKind { name, about, make }
}

pub const KINDS: &[TripleKind] = &[
    kind("three", "three valid maps of any kinds", three),
    kind("three-few", "three maps of two to seven edges", few),
    kind("three-telling", "three maps on which some slip would show", telling),
    kind("three-shared", "two maps run along edges of the third", shared),
    kind("three-same", "one map three times, or moved a little", same),
    kind("three-pencil", "edges of all three through one point", pencil),
    kind("three-grids", "three upright grids with common lines", grids),
    kind("three-far", "three maps with large denominators", far),
    kind("one-empty", "three maps, one or two of them empty", one_empty),
    kind("three-combs", "998 to 1,002 overlay vertices of three maps", three_combs),
    kind("bad-third", "the third map is damaged", bad_third),
    kind("bad-some", "two or three of three maps are damaged", bad_some),
];

/// The names of all kinds of pairs, and of three maps.
pub fn names() -> Vec<&'static str> {
    PAIRS.iter().map(|k| k.name).chain(KINDS.iter().map(|k| k.name)).collect()
}

/// The three files of a kind of pairs, with the empty map third, or of a kind of three maps; `any`
/// takes one of all kinds. Of pairs with clashes the empty map may stand anywhere.
pub fn sheet_files(kind: &str, seed: u64) -> Option<Sheet> {
    let mut random = Random::new(seed, kind);
    if kind == "any" {
        let name = random.pick(&names());
        return sheet_files(name, random.bits());
    }
    if let Some(kind) = KINDS.iter().chain(MELTS).find(|k| k.name == kind) {
        return Some((kind.make)(&mut random));
    }
    let [zones, blocks] = pair_files(kind, seed)?;
    let mut sheet = [zones, blocks, Map::default().bytes()];
    if kind == CLASHING.name {
        sheet.rotate_right(random.below(MAPS));
    }
    Some(sheet)
}

/// The files of three maps, in any order.
fn files(random: &mut Random, maps: [Map; MAPS]) -> Sheet {
    let mut sheet = maps.map(|map| map.bytes());
    random.shuffle(&mut sheet);
    sheet
}

fn drawn(random: &mut Random, drawings: &[Drawing; MAPS]) -> Sheet {
    let maps = drawings.each_ref().map(|drawing| drawing.any_map(random));
    files(random, maps)
}

fn three(random: &mut Random) -> Sheet {
    [(); MAPS].map(|()| valid_map(random).bytes())
}

fn few(random: &mut Random) -> Sheet {
    three_few(random).map(|map| map.bytes())
}

/// Two of three show one of the slips that need three maps.
fn telling(random: &mut Random) -> Sheet {
    let slips = if random.once_in(3) { OF_PAIRS } else { OF_TRIPLES };
    let slip = random.pick(slips);
    telling_maps(random, slip, three_few).map(|map| map.bytes())
}

fn shared(random: &mut Random) -> Sheet {
    let first = drawing_of(&valid_map(random));
    let second = along(random, &first);
    let beside = if random.once_in(2) { &first } else { &second };
    let third = along(random, beside);
    drawn(random, &[first, second, third])
}

fn same(random: &mut Random) -> Sheet {
    let map = valid_map(random);
    let drawings = [(); MAPS].map(|()| {
        let (dx, dy) = if random.once_in(3) { place(random, 2) } else { (0, 0) };
        moved(&map, |(x, y)| (x + dx, y + dy))
    });
    drawn(random, &drawings)
}

/// In each map edges through the point or out of it, and more between their ends.
fn pencil(random: &mut Random) -> Sheet {
    let reach = random.pick(&[2, 4, 9, 100, 1_000, 5_300]);
    let (x, y) = place(random, 2 * reach);
    let drawings = [(); MAPS].map(|()| {
        let mut drawing = Drawing::new();
        let through = random.once_in(2);
        for _ in 0..random.range(1, 9) {
            let (dx, dy) = place(random, reach);
            let from = if through { (x - dx, y - dy) } else { (x, y) };
            drawing.join(from, (x + dx, y + dy));
        }
        let tips = drawing.places().to_vec();
        if !tips.is_empty() {
            let most = drawing.edges() + 6;
            scribble(&mut drawing, random, &tips, most, 30);
        }
        drawing
    });
    drawn(random, &drawings)
}

fn grids(random: &mut Random) -> Sheet {
    let unit = random.pick(&[1, 5, 300]);
    let drawings = [(); MAPS].map(|()| {
        let mut drawing = Drawing::new();
        let (m, n) = (random.range(1, 5), random.range(1, 5));
        let (w, h) = (unit * random.range(1, 4), unit * random.range(1, 4));
        let (x, y) = place(random, 3);
        cells(&mut drawing, m, n, |i, j| (x * unit + i * w, y * unit + j * h));
        drawing
    });
    drawn(random, &drawings)
}

fn far(random: &mut Random) -> Sheet {
    let maps = [(); MAPS].map(|()| far_within(random, REACH));
    files(random, maps)
}

fn one_empty(random: &mut Random) -> Sheet {
    let mut sheet = three_few(random).map(|map| map.bytes());
    for _ in 0..random.range(1, 2) {
        sheet[random.below(MAPS)] = Map::default().bytes();
    }
    sheet
}

/// Three zigzags, two of them across the third, and a path that fills up to the wanted number of
/// vertices: often each two have room, and the three have not.
fn three_combs(random: &mut Random) -> Sheet {
    let scale = scale(random);
    let mut drawings = loop {
        let mut long = |upright| {
            let n = random.range(14, 26) as usize;
            comb(random, n, upright, scale)
        };
        let drawings = [long(true), long(false), long(false)];
        if (800..990).contains(&size(&drawings.each_ref()).0) {
            break drawings;
        }
    };
    let wanted = VERTICES + random.below(5) - 2;
    let missing = wanted - size(&drawings.each_ref()).0;
    filler(&mut drawings[2], random, missing, scale);
    drawn(random, &drawings)
}

fn bad_third(random: &mut Random) -> Sheet {
    [valid_map(random).bytes(), valid_map(random).bytes(), damage::any(random)]
}

/// Which are damaged goes through all that are two or more.
fn bad_some(random: &mut Random) -> Sheet {
    let bad = random.pick(&[[false, true, true], [true, false, true], [true, true, true]]);
    bad.map(|bad| if bad { damage::any(random) } else { valid_map(random).bytes() })
}
