//! Where a number stands in a cell: a point well inside, and how far the nearest edge is.

/// A place in the picture.
pub type At = (f64, f64);

/// Halvings of the step; the first step is a quarter of the cell.
const ROUNDS: usize = 12;

/// The eight ways a step may go.
const AROUND: [At; 8] = [
    (1.0, 0.0),
    (0.0, 1.0),
    (-1.0, 0.0),
    (0.0, -1.0),
    (1.0, 1.0),
    (-1.0, 1.0),
    (-1.0, -1.0),
    (1.0, -1.0),
];

/// A point inside the rings that is as far from their edges as a search by steps finds, and its
/// distance. The first points tried lie in the middle of the cell's width, at a height between two
/// corners, so that one of them is inside however thin the cell is.
pub fn inside(rings: &[Vec<At>]) -> (At, f64) {
    let mut heights: Vec<f64> = rings.iter().flatten().map(|p| p.1).collect();
    heights.sort_by(f64::total_cmp);
    heights.dedup();
    let mut best = ((0.0, 0.0), f64::MIN);
    for pair in heights.windows(2) {
        let y = (pair[0] + pair[1]) / 2.0;
        for span in crossings(rings, y).chunks_exact(2) {
            better(rings, &mut best, ((span[0] + span[1]) / 2.0, y));
        }
    }
    let tall = heights.last().zip(heights.first()).map_or(0.0, |(high, low)| high - low);
    let mut step = tall / 4.0;
    for _ in 0..ROUNDS {
        let mut moved = true;
        while moved {
            let (x, y) = best.0;
            moved = AROUND
                .iter()
                .any(|&(dx, dy)| better(rings, &mut best, (x + step * dx, y + step * dy)));
        }
        step /= 2.0;
    }
    best
}

/// Takes a point that has more room.
fn better(rings: &[Vec<At>], best: &mut (At, f64), p: At) -> bool {
    let room = room(rings, p);
    let better = room > best.1;
    if better {
        *best = (p, room);
    }
    better
}

/// The edges of the rings.
fn edges(rings: &[Vec<At>]) -> impl Iterator<Item = (At, At)> + '_ {
    rings.iter().flat_map(|r| (0..r.len()).map(|i| (r[i], r[(i + 1) % r.len()])))
}

/// Where the rings cross a height, from west to east.
fn crossings(rings: &[Vec<At>], y: f64) -> Vec<f64> {
    let over = edges(rings).filter(|(a, b)| (a.1 > y) != (b.1 > y));
    let mut found: Vec<f64> =
        over.map(|(a, b)| a.0 + (y - a.1) / (b.1 - a.1) * (b.0 - a.0)).collect();
    found.sort_by(f64::total_cmp);
    found
}

/// The distance to the nearest edge, below 0 outside.
fn room(rings: &[Vec<At>], p: At) -> f64 {
    let inside = crossings(rings, p.1).iter().filter(|&&x| x < p.0).count() % 2 == 1;
    let near = edges(rings).map(|(a, b)| distance(p, a, b)).fold(f64::MAX, f64::min);
    if inside {
        near
    } else {
        -near
    }
}

fn distance(p: At, a: At, b: At) -> f64 {
    let (dx, dy) = (b.0 - a.0, b.1 - a.1);
    let along = ((p.0 - a.0) * dx + (p.1 - a.1) * dy) / (dx * dx + dy * dy);
    let t = along.clamp(0.0, 1.0);
    (p.0 - a.0 - t * dx).hypot(p.1 - a.1 - t * dy)
}
