//! Kinds of maps near or at the greatest numbers of vertices and edges.

use super::drawing::{Drawing, Place};
use super::plain::{cells, place};
use super::wild::triangulate;
use super::Kind;
use crate::limits::{MAP_VERTICES, REACH};
use crate::map::Map;
use crate::random::Random;

pub const KINDS: &[Kind] = &[
    Kind::new("full", "200 vertices and up to 300 edges", full),
    Kind::new("full-grid", "a grid of 14 by 14 vertices, 300 edges", full_grid),
    Kind::new("full-edges", "a triangulation with 300 edges", full_edges),
    Kind::new("full-path", "a path with 200 vertices", full_path),
    Kind::new("full-lone", "100 edges that stand alone", full_lone),
    Kind::new("comb", "a zigzag of long edges", any_comb),
];

/// About n places, one in each cell of a square grid, away from the cell's wall.
pub fn jittered(random: &mut Random, n: usize, reach: i64) -> Vec<Place> {
    let rows = (1..).find(|r| r * r >= n as i64).unwrap_or(1);
    let cell = 2 * reach / rows;
    let jitter = (cell * 2 / 5).max(0);
    let mut places: Vec<Place> = (0..rows * rows)
        .map(|i| {
            let (x, y) = place(random, jitter);
            (cell / 2 - reach + i % rows * cell + x, cell / 2 - reach + i / rows * cell + y)
        })
        .collect();
    random.shuffle(&mut places);
    places.truncate(n);
    places
}

/// A tree over all the places, then further edges between near ones.
fn full(random: &mut Random) -> Map {
    let mut drawing = Drawing::new();
    let reach = random.pick(&[150, 700, 2_000, REACH]);
    let mut places = jittered(random, MAP_VERTICES, reach);
    places.sort_unstable();
    let near =
        |i: usize, random: &mut Random| (i + random.range(1, 16) as usize).min(MAP_VERTICES - 1);
    for _ in 0..4_000 {
        let i = random.below(MAP_VERTICES - 1);
        let j = near(i, random);
        let new = |d: &Drawing, p: Place| !d.places().contains(&p);
        let useful = new(&drawing, places[i]) || new(&drawing, places[j]);
        if useful || drawing.vertices() > 190 {
            drawing.join(places[i], places[j]);
        }
    }
    drawing.any_map(random)
}

fn full_grid(random: &mut Random) -> Map {
    let mut drawing = Drawing::new();
    let most = random.pick(&[250, 2_200]);
    let side = random.range(2, most);
    let (x, y) = (random.range(-100, 100) - 7 * side, random.range(-100, 100) - 7 * side);
    let shear = random.range(-1, 1);
    cells(&mut drawing, 13, 13, |i, j| (x + i * side + shear * j, y + j * side));
    drawing.any_map(random)
}

fn full_edges(random: &mut Random) -> Map {
    let mut drawing = Drawing::new();
    let reach = random.pick(&[100, 900, 2_000, REACH]);
    let places = jittered(random, 110, reach);
    triangulate(&mut drawing, &places);
    drawing.any_map(random)
}

fn full_path(random: &mut Random) -> Map {
    let mut drawing = Drawing::new();
    let scale = scale(random);
    filler(&mut drawing, random, MAP_VERTICES, scale);
    if random.once_in(2) {
        let last = drawing.places()[MAP_VERTICES - 1];
        drawing.ring(&[drawing.places()[0], (2_000 * scale, 2_000 * scale), last]);
    }
    drawing.any_map(random)
}

fn full_lone(random: &mut Random) -> Map {
    let mut drawing = Drawing::new();
    let scale = scale(random);
    let places = jittered(random, MAP_VERTICES / 2, 1_900 * scale);
    for (x, y) in places {
        let step = place(random, 70 * scale);
        drawing.join((x, y), (x + step.0, y + step.1));
    }
    drawing.any_map(random)
}

/// Maps that fill the range fill 4,000 or 32,000 units each way: a scale of 1 or 8.
pub fn scale(random: &mut Random) -> i64 {
    random.pick(&[1, REACH / 2_000])
}

/// A path with n vertices in a narrow strip at the bottom of the range; the strip is left free
/// by [`comb`] and [`thick`] of the same scale.
pub fn filler(drawing: &mut Drawing, random: &mut Random, n: usize, scale: i64) {
    let mut place = |i: i64| {
        let height = (i % 2 * 15 - 1_999) * scale + random.range(0, 9 * scale);
        ((19 * i - 1_990) * scale, height)
    };
    let path: Vec<Place> = (0..n as i64).map(&mut place).collect();
    if n > 1 {
        drawing.path(&path);
    }
}

/// A zigzag of n long edges, from west to east or from south to north, above the strip.
pub fn comb(random: &mut Random, n: usize, upright: bool, scale: i64) -> Drawing {
    let mut drawing = Drawing::new();
    let step = 3_600 * scale / (n as i64 + 1);
    let jitter = step / 3;
    let zigzag: Vec<Place> = (0..=n as i64)
        .map(|i| {
            let along = -1_800 * scale + i * step + random.range(0, jitter);
            let side = if i % 2 == 0 { -1_900 } else { 1_900 };
            let across = side * scale + random.range(-30 * scale, 30 * scale);
            if upright {
                (along, across)
            } else {
                (across, along)
            }
        })
        .collect();
    drawing.path(&zigzag);
    drawing
}

fn any_comb(random: &mut Random) -> Map {
    let n = random.range(2, 199) as usize;
    let upright = random.once_in(2);
    let scale = scale(random);
    comb(random, n, upright, scale).any_map(random)
}

/// A triangulation of n places above the strip.
pub fn thick(random: &mut Random, n: usize, scale: i64) -> Drawing {
    let places = jittered(random, n, 1_900 * scale);
    let mut drawing = Drawing::new();
    triangulate(&mut drawing, &places);
    drawing
}
