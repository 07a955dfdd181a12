//! The face of the tables in which a sounding lies, by a ray to the north that is moved a little to the
//! east: no look west, and no map. Heights are never reckoned: which of two edges is the nearer, and
//! whether one lies to the north, is told by the sides on which their ends lie.

use crate::melt::start;
use crate::point::{is_west, side, Point};
use crate::tables::{Labels, Tables};
use std::cmp::Ordering;

/// An edge that is not upright, from west to east, and the face below it.
struct Ceiling {
    west: Point,
    east: Point,
    below: u16,
}

impl Ceiling {
    /// Does the edge pass above the place just east and, much less, just north of p? One through p
    /// does so if it rises.
    fn above(&self, p: &Point) -> bool {
        match side(&self.west, &self.east, p) {
            0 => rises(&self.west, &self.east),
            below => below < 0,
        }
    }

    /// Of two edges that the ray meets, which is met first? They share no point but ends.
    fn order(&self, other: &Ceiling) -> Ordering {
        if is_west(&other.west, &self.west) {
            return other.order(self).reverse();
        }
        let begins = side(&self.west, &self.east, &other.west);
        let ends = side(&self.west, &self.east, &other.east);
        0.cmp(&if begins == 0 { ends } else { begins })
    }
}

/// Is b above a?
fn rises(a: &Point, b: &Point) -> bool {
    (a.y as i128) * (b.d as i128) < (b.y as i128) * (a.d as i128)
}

/// The edges of tables that a ray to the north can meet.
pub struct Ceilings<'a> {
    tables: &'a Tables,
    edges: Vec<Ceiling>,
}

impl Ceilings<'_> {
    pub fn new(tables: &Tables) -> Ceilings<'_> {
        let mut edges = Vec::new();
        for k in 0..tables.edges() {
            let [a, b] = [2 * k, 2 * k + 1].map(|h| start(tables, h));
            // Half-edge 2k + 1 has at its left what lies below an edge that runs to the east.
            if is_west(&a, &b) {
                edges.push(Ceiling { west: a, east: b, below: tables.half_edges[2 * k + 1].face });
            }
            if is_west(&b, &a) {
                edges.push(Ceiling { west: b, east: a, below: tables.half_edges[2 * k].face });
            }
        }
        Ceilings { tables, edges }
    }

    /// The face just east and just north of a place.
    pub fn face(&self, (x, y): (i64, i64)) -> usize {
        let p = Point::whole(x, y);
        let met = |c: &&Ceiling| !is_west(&p, &c.west) && is_west(&p, &c.east) && c.above(&p);
        let first = self.edges.iter().filter(met).min_by(|a, b| a.order(b));
        first.map_or(0, |c| c.below as usize)
    }

    /// The labels of that face.
    pub fn labels(&self, place: (i64, i64)) -> Labels {
        self.tables.faces[self.face(place)].labels
    }
}
