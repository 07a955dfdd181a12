//! Maps of two to twelve edges, in many forms, alone and in pairs.

use super::drawing::{Drawing, Place};
use super::plain::place;
use super::wild::{places, scribble};
use super::Kind;
use crate::limits::REACH;
use crate::map::Map;
use crate::random::Random;

pub const KINDS: &[Kind] = &[Kind::new("few", "two to twelve edges", few)];

/// Least and most edges; most of each of three maps.
const LEAST: usize = 2;
const MOST: usize = 12;
const MOST_OF_THREE: usize = 7;

/// A form: draws into a drawing with the help of some places, all within a reach.
type Form = fn(&mut Drawing, &mut Random, &[Place], i64);

const FORMS: &[Form] = &[any_edges, triangles, petals, box_and_more, rays, long_edges, rows, rows];

fn any_edges(drawing: &mut Drawing, random: &mut Random, places: &[Place], _: i64) {
    scribble(drawing, random, places, MOST, 40);
}

/// Triangles apart, within one another, or with a vertex or an edge in common.
fn triangles(drawing: &mut Drawing, random: &mut Random, places: &[Place], _: i64) {
    for _ in 0..random.range(1, 5) {
        let corners = [random.pick(places), random.pick(places), random.pick(places)];
        drawing.ring(&corners);
    }
}

/// Triangles and edges that rise from one vertex.
fn petals(drawing: &mut Drawing, random: &mut Random, places: &[Place], _: i64) {
    let foot = places.iter().copied().min_by_key(|p| (p.1, p.0)).unwrap_or((0, 0));
    for _ in 0..random.range(2, 4) {
        drawing.ring(&[foot, random.pick(places), random.pick(places)]);
    }
}

/// A rectangle with edges, a triangle or another rectangle in it or across it.
fn box_and_more(drawing: &mut Drawing, random: &mut Random, places: &[Place], reach: i64) {
    drawing.rectangle((-reach, -reach), (reach, reach));
    match random.below(3) {
        0 => scribble(drawing, random, places, MOST, 20),
        1 => triangles(drawing, random, places, reach),
        _ => {
            let (a, b) = (random.pick(places), random.pick(places));
            drawing.rectangle((a.0.min(b.0), a.1.min(b.1)), (a.0.max(b.0), a.1.max(b.1)));
        }
    }
}

/// A box with walls that have a vertex at half its height, and small pieces at the same height:
/// what is seen looking west from them goes through vertices.
fn rows(drawing: &mut Drawing, random: &mut Random, _: &[Place], reach: i64) {
    let reach = reach.max(4);
    let corners = [(-reach, -reach), (reach, -reach), (reach, reach), (-reach, reach)];
    if random.below(5) > 0 {
        drawing.ring(&corners);
    }
    for _ in 0..random.range(1, 2) {
        let middle = (random.range(-reach, reach), 0);
        for corner in corners {
            if random.below(5) > 1 {
                drawing.join(middle, corner);
            }
        }
    }
    for _ in 0..random.range(1, 4) {
        let (x, y) = (random.range(-reach, reach), random.pick(&[0, 0, 0, 1, -1]));
        let (dx, dy) = (random.range(-2, 2), random.range(0, 2));
        if drawing.join((x, y), (x + dx, y + dy)) && random.once_in(2) {
            drawing.path(&[(x + dx, y + dy), (x + 1 - dx, y + 1), (x, y)]);
        }
    }
}

/// Edges from one vertex to others, some of those joined.
fn rays(drawing: &mut Drawing, random: &mut Random, places: &[Place], _: i64) {
    let from = random.pick(places);
    places.iter().for_each(|&to| {
        drawing.join(from, to);
    });
    scribble(drawing, random, places, MOST, 6);
}

/// Edges right across the reach.
fn long_edges(drawing: &mut Drawing, random: &mut Random, _: &[Place], reach: i64) {
    for _ in 0..random.range(2, 5) {
        let (a, b) = (random.range(-reach, reach), random.range(-reach, reach));
        let flip = random.pick(&[1, -1]);
        match random.below(3) {
            0 => drawing.join((a, -reach), (b, reach)),
            1 => drawing.join((-reach, a), (reach, b)),
            _ => {
                let (low, high) = (a.abs() / 9 - reach, reach - b.abs() / 9);
                drawing.join((-reach, low * flip), (high, reach * flip))
            }
        };
    }
    let ends = drawing.places().to_vec();
    if !ends.is_empty() {
        scribble(drawing, random, &ends, MOST, 8);
    }
}

/// One drawing in some form, with two to so many edges.
fn draw(random: &mut Random, places: &[Place], reach: i64, most: usize) -> Drawing {
    let most = random.range(LEAST as i64, most as i64) as usize;
    let mut drawing = Drawing::of_most(most);
    random.pick(FORMS)(&mut drawing, random, places, reach);
    while drawing.edges() < LEAST {
        drawing.join(place(random, reach), place(random, reach));
    }
    drawing
}

/// Small and large reaches, small ones more often.
fn some_reach(random: &mut Random) -> i64 {
    random.pick(&[1, 2, 2, 3, 3, 4, 7, 40, 500, 2_000, REACH])
}

pub fn few(random: &mut Random) -> Map {
    let reach = some_reach(random);
    let some = random.range(3, 9) as usize;
    let places = places(random, some, reach);
    draw(random, &places, reach, MOST).any_map(random)
}

/// Edges near one diagonal of the whole range over edges near the other: denominators up to the
/// greatest.
pub fn diagonals(random: &mut Random) -> [Map; 2] {
    let rising = random.pick(&[1, -1]);
    [rising, -rising].map(|slant| {
        let mut drawing = Drawing::new();
        while drawing.edges() < LEAST {
            let (a, b) = (place(random, 99), place(random, 99));
            let low = (a.0.abs() - REACH, slant * (a.1.abs() - REACH));
            let high = (REACH - b.0.abs(), slant * (REACH - b.1.abs()));
            drawing.join(low, high);
        }
        drawing.any_map(random)
    })
}

/// Two maps that mostly have places in common; now and then one is empty, or both are diagonals.
pub fn two_few(random: &mut Random) -> [Map; 2] {
    if random.once_in(20) {
        return diagonals(random);
    }
    some_few(random, MOST)
}

/// Three maps that mostly have places in common; now and then one is empty.
pub fn three_few(random: &mut Random) -> [Map; 3] {
    some_few(random, MOST_OF_THREE)
}

fn some_few<const N: usize>(random: &mut Random, most: usize) -> [Map; N] {
    let reach = some_reach(random);
    let some = random.range(3, 9) as usize;
    let mut common = places(random, some, reach);
    [(); N].map(|()| {
        if random.once_in(40) {
            return Map::default();
        }
        let map = draw(random, &common, reach, most).any_map(random);
        if random.once_in(3) {
            common = places(random, some, reach);
        }
        map
    })
}
