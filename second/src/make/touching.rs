//! Pairs of maps with stretches and corners in common.

use super::drawing::{Drawing, Place};
use super::pairs::{drawing_of, two};
use super::plain::place;
use super::valid_map;
use super::wild::scribble;
use crate::random::Random;

/// The whole places on the edges of a drawing, its vertices included.
fn places_on(drawing: &Drawing) -> Vec<Place> {
    let mut on = Vec::new();
    for s in drawing.segments() {
        let (dx, dy) = s.way();
        let steps = crate::point::common(dx, dy);
        on.extend((0..=steps.min(40)).map(|i| (s.ax + dx / steps * i, s.ay + dy / steps * i)));
    }
    on
}

pub fn shared(random: &mut Random) -> [Vec<u8>; 2] {
    let first = drawing_of(&valid_map(random));
    let second = along(random, &first);
    two(random, &first, &second)
}

/// A drawing that runs along edges of another, beyond their ends or between them, and more between
/// places on them.
pub fn along(random: &mut Random, first: &Drawing) -> Drawing {
    let mut second = Drawing::new();
    for s in first.segments() {
        let (dx, dy) = s.way();
        let steps = crate::point::common(dx, dy);
        let (ux, uy) = (dx / steps, dy / steps);
        let (i, j) = (random.range(-2, steps), random.range(0, steps + 2));
        if random.below(3) > 0 {
            second.join((s.ax + i * ux, s.ay + i * uy), (s.ax + j * ux, s.ay + j * uy));
        }
    }
    let on = places_on(first);
    if !on.is_empty() {
        let most = second.edges() + random.range(0, 20) as usize;
        scribble(&mut second, random, &on, most, 60);
    }
    second
}

pub fn corners(random: &mut Random) -> [Vec<u8>; 2] {
    let first = drawing_of(&valid_map(random));
    let mut second = Drawing::new();
    let mut on = places_on(&first);
    for _ in 0..=on.len() / 4 {
        on.push(place(random, 30));
    }
    let most = random.range(3, 80) as usize;
    scribble(&mut second, random, &on, most, 400);
    two(random, &first, &second)
}
