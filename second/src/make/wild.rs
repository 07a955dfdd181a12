//! Kinds of maps without a plan: edges drawn wherever they fit.

use super::drawing::{Drawing, Place};
use super::plain::{place, reach};
use super::Kind;
use crate::limits::REACH;
use crate::map::Map;
use crate::random::Random;

pub const KINDS: &[Kind] = &[
    Kind::new("edges", "edges that mostly stand alone", edges),
    Kind::new("tree", "edges that close no ring, in one piece", tree),
    Kind::new("tiny", "many edges on very few places", tiny),
    Kind::new("planar", "edges at random between random vertices", planar),
    Kind::new("wide", "the same over the whole range", wide),
    Kind::new("dense", "a triangulation with some edges left out", dense),
    Kind::new("pieces", "several such pieces, apart or one within another", pieces),
    Kind::new("far", "long edges that cross others far out of whole numbers", far),
];

fn edges(random: &mut Random) -> Map {
    let mut drawing = Drawing::new();
    let reach = reach(random).max(6);
    for _ in 0..random.range(2, 30) {
        let (x, y) = place(random, reach);
        let step = place(random, reach / 2);
        drawing.join((x, y), (x + step.0, y + step.1));
    }
    some_edge(&mut drawing, random);
    drawing.any_map(random)
}

/// Draws an edge if there is none.
fn some_edge(drawing: &mut Drawing, random: &mut Random) {
    while drawing.edges() == 0 {
        drawing.join(place(random, 5), place(random, 5));
    }
}

fn tree(random: &mut Random) -> Map {
    let mut drawing = Drawing::new();
    let reach = reach(random);
    let mut known = vec![place(random, reach)];
    for _ in 0..random.range(3, 60) {
        let new = place(random, reach);
        if !known.contains(&new) && drawing.join(random.pick(&known), new) {
            known.push(new);
        }
    }
    some_edge(&mut drawing, random);
    drawing.any_map(random)
}

/// Draws up to `most` edges between the places, in `tries` tries.
pub fn scribble(
    drawing: &mut Drawing,
    random: &mut Random,
    places: &[Place],
    most: usize,
    tries: usize,
) {
    for _ in 0..tries {
        if drawing.edges() >= most {
            return;
        }
        drawing.join(random.pick(places), random.pick(places));
    }
}

/// Some different places.
pub fn places(random: &mut Random, n: usize, reach: i64) -> Vec<Place> {
    (0..n).map(|_| place(random, reach)).collect()
}

fn tiny(random: &mut Random) -> Map {
    let mut drawing = Drawing::new();
    let reach = random.range(1, 4);
    let some = random.range(4, 40) as usize;
    let places = places(random, some, reach);
    scribble(&mut drawing, random, &places, 80, 200);
    some_edge(&mut drawing, random);
    drawing.any_map(random)
}

fn planar(random: &mut Random) -> Map {
    let mut drawing = Drawing::new();
    let reach = random.pick(&[10, 30, 200]);
    let some = random.range(5, 80) as usize;
    let places = places(random, some, reach);
    let most = random.range(4, 160) as usize;
    scribble(&mut drawing, random, &places, most, 600);
    some_edge(&mut drawing, random);
    drawing.any_map(random)
}

fn wide(random: &mut Random) -> Map {
    let mut drawing = Drawing::new();
    let some = random.range(5, 60) as usize;
    let mut places = places(random, some, REACH);
    places.extend([(REACH, REACH), (-REACH, REACH), (REACH, -REACH), (-REACH, -REACH)]);
    let most = random.range(4, 80) as usize;
    scribble(&mut drawing, random, &places, most, 500);
    some_edge(&mut drawing, random);
    drawing.any_map(random)
}

/// Joins the places by edges from the shortest on, as long as any fits.
pub fn triangulate(drawing: &mut Drawing, places: &[Place]) {
    let mut pairs = Vec::new();
    for (i, &a) in places.iter().enumerate() {
        for &b in &places[..i] {
            let length = (a.0 - b.0).pow(2) + (a.1 - b.1).pow(2);
            pairs.push((length, a, b));
        }
    }
    pairs.sort_unstable();
    for (_, a, b) in pairs {
        drawing.join(a, b);
    }
}

fn dense(random: &mut Random) -> Map {
    let reach = random.pick(&[5, 20, 400, 2_000, REACH]);
    let some = random.range(4, 40) as usize;
    let mut places = places(random, some, reach);
    places.sort_unstable();
    places.dedup();
    if random.once_in(2) {
        places.retain(|_| !random.once_in(5));
    }
    let mut whole = Drawing::new();
    triangulate(&mut whole, &places);
    let kept = random.range(0, 8) as usize;
    let mut drawing = Drawing::new();
    for s in whole.segments() {
        if random.below(8) < kept.max(2) {
            drawing.join((s.ax, s.ay), (s.bx, s.by));
        }
    }
    some_edge(&mut drawing, random);
    drawing.any_map(random)
}

fn pieces(random: &mut Random) -> Map {
    let mut drawing = Drawing::new();
    for _ in 0..random.range(2, 7) {
        let scale = random.pick(&[1, 1, 1, 90]);
        let (x, y) = place(random, 60 * scale);
        let reach = random.pick(&[2, 5, 15, 70]) * scale;
        let some = random.range(3, 12) as usize;
        let places: Vec<Place> =
            places(random, some, reach).iter().map(|p| (p.0 + x, p.1 + y)).collect();
        let most = drawing.edges() + 15;
        scribble(&mut drawing, random, &places, most, 40);
        if random.once_in(2) {
            let wall = reach + random.range(1, 9);
            drawing.rectangle((x - wall, y - wall), (x + wall, y + wall));
        }
    }
    some_edge(&mut drawing, random);
    drawing.any_map(random)
}

fn far(random: &mut Random) -> Map {
    let reach = random.pick(&[2_000, REACH]);
    far_within(random, reach)
}

/// Long edges from one side of a reach to the other, mostly near a diagonal, with some of
/// their ends joined.
pub fn far_within(random: &mut Random, reach: i64) -> Map {
    let mut drawing = Drawing::new();
    let rising = random.once_in(2);
    let width = random.pick(&[3, 40, 400]);
    let mut ends = Vec::new();
    for _ in 0..random.range(2, 24) {
        let (a, b) = (random.range(0, width), random.range(0, width));
        let (c, d) = (random.range(0, width), random.range(0, width));
        let (low, high) = ((-reach + a, -reach + b), (reach - c, reach - d));
        let flip = |p: Place| if rising { p } else { (p.0, -p.1) };
        if drawing.join(flip(low), flip(high)) {
            ends.extend([flip(low), flip(high)]);
        }
    }
    scribble(&mut drawing, random, &ends, 60, 80);
    drawing.any_map(random)
}
