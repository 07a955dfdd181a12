//! Soundings in all kinds of places of two maps: on corners, on edges, beside them, on the rim.

use super::drawing::Place;
use crate::limits::REACH;
use crate::map::Map;
use crate::point::common;
use crate::random::Random;

/// Soundings over two maps, which may be damaged.
type Make = fn(&mut Random, &[Map]) -> Vec<Place>;

/// The kinds of soundings that a list is made of.
pub const KINDS: &[Make] = &[corners, on_edges, on_level, beside, on_rim, about, anywhere];

/// A list of about n soundings of all kinds over two maps.
pub fn mixed(seed: u64, n: usize, maps: &[Map]) -> Vec<u8> {
    let mut random = Random::new(seed, "list");
    let mut places = Vec::new();
    while places.len() < n {
        KINDS.iter().for_each(|kind| places.extend(kind(&mut random, maps)));
    }
    random.shuffle(&mut places);
    places.truncate(n);
    bytes_of(&places)
}

fn within(places: impl Iterator<Item = Place>) -> Vec<Place> {
    places.filter(|&(x, y)| x.abs() <= REACH && y.abs() <= REACH).collect()
}

/// All corners within the range.
fn all_corners(maps: &[Map]) -> Vec<Place> {
    let places = maps.iter().flat_map(|map| &map.vertices);
    within(places.map(|&(x, y)| (x as i64, y as i64)))
}

fn ends(maps: &[Map]) -> Vec<(Place, Place)> {
    let mut ends = Vec::new();
    for map in maps {
        let named = |v: u16| (v as usize) < map.vertices.len();
        let edges = map.edges.iter().filter(|e| named(e.from) && named(e.to));
        ends.extend(edges.map(|e| (map.place(e.from), map.place(e.to))));
    }
    ends
}

fn some(random: &mut Random, mut places: Vec<Place>, most: usize) -> Vec<Place> {
    random.shuffle(&mut places);
    places.truncate(most);
    places
}

fn corners(random: &mut Random, maps: &[Map]) -> Vec<Place> {
    some(random, all_corners(maps), 60)
}

/// Whole places on edges between their ends; where there is none, the whole place next to the middle.
fn on_edges(random: &mut Random, maps: &[Map]) -> Vec<Place> {
    let mut places = Vec::new();
    for (a, b) in ends(maps) {
        let (dx, dy) = (b.0 - a.0, b.1 - a.1);
        let steps = common(dx, dy);
        for _ in 0..2 {
            places.push(match steps {
                0 | 1 => (a.0 + dx / 2, a.1 + dy / 2),
                _ => {
                    let t = random.range(1, steps - 1);
                    (a.0 + dx / steps * t, a.1 + dy / steps * t)
                }
            });
        }
    }
    some(random, within(places.into_iter()), 80)
}

/// On level edges, at their ends, and a little beyond; with none, at the height of corners.
fn on_level(random: &mut Random, maps: &[Map]) -> Vec<Place> {
    let level: Vec<_> = ends(maps).into_iter().filter(|(a, b)| a.1 == b.1).collect();
    let mut places = Vec::new();
    for (a, b) in level {
        let (west, east) = (a.0.min(b.0), a.0.max(b.0));
        for x in [west - 1, west, random.range(west, east), east, east + 1] {
            places.push((x, a.1));
        }
    }
    if places.is_empty() {
        for (_, y) in all_corners(maps) {
            places.push((random.range(-REACH, REACH), y));
        }
    }
    some(random, within(places.into_iter()), 60)
}

/// A unit beside corners.
fn beside(random: &mut Random, maps: &[Map]) -> Vec<Place> {
    let mut near = |(x, y): Place| (x + random.range(-1, 1), y + random.range(-1, 1));
    let places: Vec<Place> = all_corners(maps).into_iter().map(&mut near).collect();
    some(random, within(places.into_iter()), 60)
}

/// On the rim of the range, and on the box round the maps.
fn on_rim(random: &mut Random, maps: &[Map]) -> Vec<Place> {
    let corners = all_corners(maps);
    let [xs, ys]: [Vec<i64>; 2] =
        [corners.iter().map(|p| p.0).collect(), corners.iter().map(|p| p.1).collect()];
    let mut out = vec![(REACH, REACH), (-REACH, -REACH), (REACH, -REACH), (-REACH, REACH)];
    for _ in 0..8 {
        let c = random.range(-REACH, REACH);
        let side = random.pick(&[-REACH, REACH]);
        out.push(if random.once_in(2) { (side, c) } else { (c, side) });
        if let (Some((west, east)), Some((low, high))) = (ends_of(&xs), ends_of(&ys)) {
            out.push((random.pick(&[west, east]), random.range(low, high)));
            out.push((random.range(west, east), random.pick(&[low, high])));
        }
    }
    out
}

fn ends_of(numbers: &[i64]) -> Option<(i64, i64)> {
    Some((*numbers.iter().min()?, *numbers.iter().max()?))
}

/// In the box round the maps.
fn about(random: &mut Random, maps: &[Map]) -> Vec<Place> {
    (0..60).map(|_| place_near(random, maps)).collect()
}

/// A place whose x and y each lie between those of two corners.
pub fn place_near(random: &mut Random, maps: &[Map]) -> Place {
    let corners = all_corners(maps);
    if corners.is_empty() {
        return (random.range(-REACH, REACH), random.range(-REACH, REACH));
    }
    let mut between = |c: fn(&Place) -> i64| {
        let (a, b) = (c(&random.pick(&corners)), c(&random.pick(&corners)));
        random.range(a.min(b), a.max(b))
    };
    (between(|p| p.0), between(|p| p.1))
}

/// Anywhere in the range, most often outside.
fn anywhere(random: &mut Random, _: &[Map]) -> Vec<Place> {
    (0..20).map(|_| (random.range(-REACH, REACH), random.range(-REACH, REACH))).collect()
}

/// The bytes of a list.
pub fn bytes_of(places: &[Place]) -> Vec<u8> {
    let mut out = Vec::with_capacity(4 * places.len());
    for &(x, y) in places {
        out.extend((x as i16).to_le_bytes());
        out.extend((y as i16).to_le_bytes());
    }
    out
}
