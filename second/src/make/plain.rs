//! Kinds of maps with a plan: grids, rings, islands, pieces that touch, dangling edges.

use super::drawing::{Drawing, Palette, Place};
use super::Kind;
use crate::limits::REACH;
use crate::map::Map;
use crate::random::Random;

pub const KINDS: &[Kind] = &[
    Kind::new("empty", "no vertex and no edge", empty),
    Kind::new("edge", "one edge", edge),
    Kind::new("square", "one square", square),
    Kind::new("grid", "a grid of upright cells", grid),
    Kind::new("skew", "a skewed grid", skew),
    Kind::new("nested", "rings within rings", nested),
    Kind::new("islands", "islands, and islands on islands", islands),
    Kind::new("touching", "pieces that share a vertex", touching),
    Kind::new("dangling", "cells with edges that end within and without", dangling),
    Kind::new("twice", "walks that visit their smallest vertex twice", twice),
    Kind::new("star", "spokes from one vertex, with or without a rim", star),
];

fn empty(_: &mut Random) -> Map {
    Map::default()
}

/// A place in a square of half the side `reach` round the middle.
pub fn place(random: &mut Random, reach: i64) -> Place {
    (random.range(-reach, reach), random.range(-reach, reach))
}

/// A small, a middle or the greatest reach.
pub fn reach(random: &mut Random) -> i64 {
    random.pick(&[3, 6, 12, 50, 300, 2_000, REACH])
}

fn edge(random: &mut Random) -> Map {
    let reach = reach(random);
    let mut drawing = Drawing::new();
    while drawing.edges() == 0 {
        drawing.join(place(random, reach), place(random, reach));
    }
    drawing.any_map(random)
}

fn square(random: &mut Random) -> Map {
    let (x, y) = place(random, 1_000);
    let side = random.pick(&[1, 2, 3, 10, 77, 500, 1_000, 15_000]);
    let mut drawing = Drawing::new();
    drawing.rectangle((x, y), (x + side, y + side));
    let label = random.range(0, 65_535) as u16;
    drawing.map(random, Palette::Same(label))
}

/// A grid of m by n cells under a whole linear map.
pub fn cells(drawing: &mut Drawing, m: i64, n: i64, at: impl Fn(i64, i64) -> Place) {
    for j in 0..=n {
        drawing.path(&(0..=m).map(|i| at(i, j)).collect::<Vec<_>>());
    }
    for i in 0..=m {
        drawing.path(&(0..=n).map(|j| at(i, j)).collect::<Vec<_>>());
    }
}

fn grid(random: &mut Random) -> Map {
    let mut drawing = Drawing::new();
    let (m, n) = (random.range(1, 9), random.range(1, 9));
    let most = random.pick(&[40, 40, 1_700]);
    let (w, h) = (random.range(1, most), random.range(1, most));
    let (x, y) = place(random, 300);
    cells(&mut drawing, m, n, |i, j| (x + i * w, y + j * h));
    drawing.any_map(random)
}

fn skew(random: &mut Random) -> Map {
    let mut drawing = Drawing::new();
    let (m, n) = (random.range(1, 8), random.range(1, 8));
    let scale = random.pick(&[2, 9, 100, 900]);
    let (x, y) = place(random, 300);
    let (u, v) = loop {
        let (u, v) = (place(random, scale), place(random, scale));
        if u.0 * v.1 != u.1 * v.0 {
            break (u, v);
        }
    };
    cells(&mut drawing, m, n, |i, j| (x + i * u.0 + j * v.0, y + i * u.1 + j * v.1));
    drawing.any_map(random)
}

/// An upright or a standing square round a middle.
fn ring_round(drawing: &mut Drawing, (x, y): Place, r: i64, standing: bool) {
    if standing {
        drawing.ring(&[(x, y - r), (x + r, y), (x, y + r), (x - r, y)]);
    } else {
        drawing.rectangle((x - r, y - r), (x + r, y + r));
    }
}

fn nested(random: &mut Random) -> Map {
    let mut drawing = Drawing::new();
    let middle = place(random, 200);
    let step = random.pick(&[1, 2, 5, 30, 105]);
    let standing = random.once_in(2);
    for n in 1..=random.range(2, 12) {
        let other = random.once_in(3);
        ring_round(&mut drawing, middle, n * n * step, standing != other);
    }
    drawing.any_map(random)
}

fn islands(random: &mut Random) -> Map {
    let mut drawing = Drawing::new();
    let side = random.pick(&[40, 200, 1_500, 12_000]);
    if !random.once_in(4) {
        drawing.rectangle((-side, -side), (side, side));
    }
    for _ in 0..random.range(2, 14) {
        let middle = place(random, side - side / 5);
        let r = random.range(2, side / 4);
        ring_round(&mut drawing, middle, r, random.once_in(2));
        if random.once_in(2) {
            ring_round(&mut drawing, middle, r / 2, random.once_in(2));
        }
        if random.once_in(4) {
            drawing.join((middle.0, middle.1), (middle.0 + 1, middle.1));
        }
    }
    drawing.any_map(random)
}

fn touching(random: &mut Random) -> Map {
    let mut drawing = Drawing::new();
    let (mut x, mut y) = place(random, 100);
    let most = random.pick(&[20, 20, 1_200]);
    let side = random.range(2, most);
    for _ in 0..random.range(1, 6) {
        drawing.rectangle((x, y), (x + 2 * side, y + 2 * side));
        // An island that hangs in a corner of its ring, or stands outside at it.
        let corner = (x + random.range(0, 1) * 2 * side, y + random.range(0, 1) * 2 * side);
        let (dx, dy) = (random.pick(&[-1, 1]), random.pick(&[-1, 1]));
        let far = (corner.0 + dx * random.range(1, side), corner.1 + dy * random.range(1, side));
        drawing.ring(&[corner, far, (corner.0 + dx, corner.1 + 2 * dy * side - dy)]);
        x += 2 * side;
        y += random.pick(&[2, 0, -2]) * side;
    }
    drawing.any_map(random)
}

fn dangling(random: &mut Random) -> Map {
    let mut drawing = Drawing::new();
    let (m, n) = (random.range(1, 4), random.range(1, 4));
    let most = random.pick(&[60, 60, 3_000]);
    let side = random.range(6, most);
    let shear = random.range(-1, 1);
    cells(&mut drawing, m, n, |i, j| (i * side + shear * j, j * side));
    for _ in 0..random.range(1, 30) {
        let from = drawing.places()[random.below(drawing.vertices())];
        let step = place(random, side - 1);
        drawing.join(from, (from.0 + step.0, from.1 + step.1));
    }
    drawing.any_map(random)
}

/// Petals that rise from one vertex, some within others, and the same turned about.
fn twice(random: &mut Random) -> Map {
    let mut drawing = Drawing::new();
    let foot = place(random, 200);
    let most = random.pick(&[60, 60, 5_000]);
    let size = random.range(4, most);
    let down = random.once_in(4);
    let at = |x: i64, y: i64| (foot.0 + x, if down { foot.1 - y } else { foot.1 + y });
    for _ in 0..random.range(2, 8) {
        let (a, b) = (random.range(-size, size), random.range(-size, size));
        let (c, d) = (random.range(0, size), random.range(0, size));
        drawing.ring(&[at(0, 0), at(a, c), at(b, d)]);
        if random.once_in(3) {
            drawing.join(at(0, 0), at(b, c));
        }
    }
    if random.once_in(2) {
        drawing.ring(&[at(0, 0), at(3 * size, size + 1), at(0, 3 * size), at(-3 * size, size + 1)]);
    }
    while drawing.edges() == 0 {
        drawing.join(foot, place(random, size));
    }
    drawing.any_map(random)
}

fn star(random: &mut Random) -> Map {
    let mut drawing = Drawing::new();
    let (x, y) = place(random, 100);
    let reach = random.pick(&[1, 2, 5, 40, 1_000, 15_900]);
    let mut tips = vec![(x + reach, y), (x, y + reach), (x - reach, y), (x, y - reach)];
    for _ in 0..random.range(0, 30) {
        let step = place(random, reach);
        tips.push((x + step.0, y + step.1));
    }
    random.shuffle(&mut tips);
    for &tip in &tips {
        drawing.join((x, y), tip);
    }
    for i in 1..tips.len() {
        if random.once_in(2) {
            let other = tips[random.below(i)];
            drawing.join(tips[i], other);
        }
    }
    drawing.any_map(random)
}
