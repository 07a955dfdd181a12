//! Sheets of which much melts, or nothing, or all; and packs of them with tables to lend.

use super::drawing::{label_faces, Drawing, Palette};
use super::pairs::moved;
use super::plain::{cells, place};
use super::triples::{kind, names, sheet_files, Sheet, TripleKind};
use super::{valid_map, Kind};
use crate::check::check;
use crate::limits::{EDGES, FACES, MAPS, VERTICES};
use crate::map::Map;
use crate::melt::melt_files;
use crate::overlay::{overlay_files, Overlay, Room};
use crate::pack::Entry;
use crate::random::Random;

pub const KINDS: &[TripleKind] = &[
    kind("merged", "two maps of cells with few labels", merged),
    kind("three-merged", "three maps of cells with few labels", three_merged),
    kind("relabelled", "maps of any kind with few labels, damaged ones too", relabelled),
    kind("ringed", "rings, islands and fences of one or two labels", ringed),
    kind("third-parts", "cells that only the third map parts", third_parts),
    kind("all-gone", "labels all 0: every edge goes", all_gone),
    kind("none-gone", "every cell with its own label: no edge goes", none_gone),
];

/// A map with other labels: those of its faces are drawn from 0 to n, or one face in five is 0 and the
/// others are n.
pub fn with_few(random: &mut Random, map: &mut Map) {
    let n = random.pick(&[0, 1, 1, 2, 3]);
    match random.once_in(3) {
        true => label_faces(map, |_| if random.once_in(5) { 0 } else { n }),
        false => label_faces(map, |_| random.below(n as usize + 1) as u16),
    }
}

/// The drawing of some cells.
fn cells_of(random: &mut Random, unit: i64) -> Drawing {
    let mut drawing = Drawing::new();
    let (m, n) = (random.range(1, 6), random.range(1, 6));
    let (w, h) = (unit * random.range(1, 4), unit * random.range(1, 4));
    let ((x, y), slant) = (place(random, 3), random.pick(&[0, 0, 1, unit]));
    cells(&mut drawing, m, n, |i, j| (x * unit + i * w + j * slant, y * unit + j * h));
    drawing
}

/// Some maps of cells, the rest empty.
fn cell_maps(random: &mut Random, some: usize) -> [Map; MAPS] {
    let unit = random.pick(&[1, 3, 40, 500]);
    let mut maps = [(); MAPS].map(|()| Map::default());
    for map in maps.iter_mut().take(some) {
        *map = cells_of(random, unit).any_map(random);
    }
    maps
}

fn merged(random: &mut Random) -> Sheet {
    let mut maps = cell_maps(random, 2);
    maps.iter_mut().for_each(|map| with_few(random, map));
    maps.map(|map| map.bytes())
}

fn three_merged(random: &mut Random) -> Sheet {
    let mut maps = cell_maps(random, MAPS);
    maps.iter_mut().for_each(|map| with_few(random, map));
    maps.map(|map| map.bytes())
}

/// Of any kind of sheet, those at and over the room and those with bad maps too.
fn relabelled(random: &mut Random) -> Sheet {
    let kind = random.pick(&names());
    let files = sheet_files(kind, random.bits()).expect("a kind");
    files.map(|file| match check(&file) {
        Ok(mut map) => {
            with_few(random, &mut map);
            map.bytes()
        }
        Err(_) => file,
    })
}

/// Rings and islands without a plan, a piece within another: holes that join.
fn ringed(random: &mut Random) -> Sheet {
    let wanted = ["nested", "islands", "touching", "dangling", "twice", "pieces", "tree"];
    let kinds: Vec<&Kind> = super::kinds().filter(|k| wanted.contains(&k.name)).collect();
    let empty = random.once_in(2);
    let mut maps = [(); MAPS].map(|()| (kinds[random.below(kinds.len())].make)(random));
    for map in &mut maps {
        let label = random.range(0, 1) as u16;
        label_faces(map, |_| if random.once_in(4) { 1 - label } else { label });
    }
    if empty {
        maps[MAPS - 1] = Map::default();
    }
    maps.map(|map| map.bytes())
}

/// The first two maps with a label for all their faces, the third with several.
fn third_parts(random: &mut Random) -> Sheet {
    let mut maps = cell_maps(random, MAPS);
    for map in maps.iter_mut().take(2) {
        let label = random.range(0, 2) as u16;
        label_faces(map, |_| label);
    }
    if random.once_in(2) {
        let (dx, dy) = place(random, 2);
        maps[2] = moved(&maps[0], |(x, y)| (x + dx, y + dy)).any_map(random);
    }
    maps.map(|map| map.bytes())
}

/// Faces within the maps, and no label but the outside's.
fn all_gone(random: &mut Random) -> Sheet {
    let mut maps = [(); MAPS].map(|()| valid_map(random));
    maps.iter_mut().for_each(|map| label_faces(map, |_| 0));
    maps.map(|map| map.bytes())
}

/// Cells with the labels 1, 2, 3 and so on; no edge ends within one.
fn none_gone(random: &mut Random) -> Sheet {
    let unit = random.pick(&[1, 3, 40, 500]);
    let some = random.range(1, 3) as usize;
    let mut sheet = [(); MAPS].map(|()| Map::default().bytes());
    for file in sheet.iter_mut().take(some) {
        *file = cells_of(random, unit).map(random, Palette::Each).bytes();
    }
    random.shuffle(&mut sheet);
    sheet
}

/// Kinds that take their turn beside these.
const BESIDE: &[&str] = &["any", "bad-first", "any", "bad-second", "any", "bad-third", "bad-some"];

/// n entries of these kinds in turn, each eighth of any kind or with a damaged map; entry i has the seed `seed` + i. Every
/// second is lent little: what the overlay asks, or what is left of it, or one less.
pub fn make(seed: u64, n: u16) -> Vec<Entry> {
    let entry = |i: u16| {
        let seed = seed.wrapping_add(i as u64);
        let turn = i as usize % (KINDS.len() + 1);
        let beside = BESIDE[i as usize / (KINDS.len() + 1) % BESIDE.len()];
        let kind = KINDS.get(turn).map_or(beside, |kind| kind.name);
        let files = sheet_files(kind, seed).expect("a kind");
        let full = [VERTICES, 2 * EDGES, EDGES, FACES].map(|rows| rows as u16);
        let little = Random::new(seed, "melt room").once_in(2);
        let rows = if little { near(&mut Random::new(seed, "melts"), &files, full) } else { full };
        Entry { rows, files }
    };
    (0..n).map(entry).collect()
}

/// Rows at or next to what the overlay asks or to what is left of it, in one of the tables or in all.
fn near(random: &mut Random, files: &Sheet, full: [u16; 4]) -> [u16; 4] {
    let melts = random.once_in(2);
    let done = match melts {
        true => melt_files(files, &Room::FULL),
        false => overlay_files(files, &Room::FULL),
    };
    let Ok(Overlay { tables: t, .. }) = done else {
        return full.map(|rows| random.below(rows as usize + 1) as u16);
    };
    let asked = [t.vertices.len(), t.half_edges.len(), t.sources.len(), t.faces.len()];
    let only = random.below(6);
    let mut rows = full;
    for (i, asked) in asked.into_iter().enumerate() {
        if only == i || only >= 4 {
            let less = if random.once_in(4) { 1 } else { 0 };
            let more = if random.once_in(3) { 1 } else { 0 };
            rows[i] = (asked + more).saturating_sub(less).min(full[i] as usize) as u16;
        }
    }
    rows
}
