//! The label of a map at a point that lies on none of its edges, by a ray to the north.
//!
//! With coordinates up to 16,000 the d of a spot has 63 bits and its x and y 77; a height has 94,
//! and two heights are compared as products of 109.

use crate::map::Map;
use crate::point::Point;

/// The point (x / d, y / d) halfway between two points; d > 0, not in lowest terms.
#[derive(Clone, Copy, Debug)]
pub struct Spot {
    pub x: i128,
    pub y: i128,
    pub d: i128,
}

/// Halfway between a and b.
pub fn middle(a: &Point, b: &Point) -> Spot {
    let between = |s: i64, t: i64| s as i128 * b.d as i128 + t as i128 * a.d as i128;
    Spot { x: between(a.x, b.x), y: between(a.y, b.y), d: 2 * a.d as i128 * b.d as i128 }
}

/// An edge from west to east, with the label below it.
struct Roof {
    west: (i128, i128),
    run: i128,
    rise: i128,
    below: u16,
}

/// The edges of a map that a ray to the north can meet.
pub struct Roofs {
    roofs: Vec<Roof>,
}

impl Roofs {
    /// The edges of a map, those that stand upright left out.
    pub fn new(map: &Map) -> Roofs {
        let mut roofs = Vec::new();
        for edge in &map.edges {
            let (from, to) = (map.place(edge.from), map.place(edge.to));
            if from.0 == to.0 {
                continue;
            }
            let eastward = from.0 < to.0;
            let (west, east) = if eastward { (from, to) } else { (to, from) };
            roofs.push(Roof {
                west: (west.0 as i128, west.1 as i128),
                run: (east.0 - west.0) as i128,
                rise: (east.1 - west.1) as i128,
                below: if eastward { edge.right } else { edge.left },
            });
        }
        Roofs { roofs }
    }

    /// The label at a spot: what lies below the first edge to the north, 0 if there is none.
    ///
    /// The ray counts as moved a little to the east: an edge is met from its west end on, its
    /// east end left out, and of edges met in one point the least steep one comes first.
    pub fn label(&self, spot: &Spot) -> u16 {
        let mut first: Option<(i128, &Roof)> = None;
        for roof in &self.roofs {
            let along = spot.x - roof.west.0 * spot.d;
            if along < 0 || along >= roof.run * spot.d {
                continue;
            }
            let height = roof.west.1 * spot.d * roof.run + along * roof.rise;
            if height <= spot.y * roof.run {
                continue;
            }
            let nearer = first.is_none_or(|(h, r)| {
                let (new, old) = (height * r.run, h * roof.run);
                new < old || (new == old && roof.rise * r.run < r.rise * roof.run)
            });
            if nearer {
                first = Some((height, roof));
            }
        }
        first.map_or(0, |(_, roof)| roof.below)
    }
}
