//! The overlay file's reader as document 01 says it, rule by rule over the bytes.

use crate::answer::Refusal;
use crate::limits::{EDGES, FACES, VERTICES};

/// The refusal of the reader, if any: 1, 2, 3, 4, 21, then 11 for the given room.
pub fn fault(file: &[u8], room: [usize; 3]) -> Option<Refusal> {
    let number = |at: usize| file[at] as usize + 256 * file[at + 1] as usize;
    let refuse = |n: u16, place: usize| Some(Refusal::new(n, place));
    if file.len() < 11 || file[0] != b'Z' || file[1] != b'O' || file[2] != b'V' {
        return refuse(1, 0);
    }
    let (vertex, edge, face) = match number(3) {
        1 => (14, 16, 8),
        2 => (16, 16, 8),
        3 => (16, 18, 10),
        _ => return refuse(2, 0),
    };
    let (v, e, f) = (number(5), number(7), number(9));
    if v > VERTICES || e > EDGES || f > FACES {
        return refuse(3, 0);
    }
    if file.len() != 11 + vertex * v + edge * e + face * f {
        return refuse(4, 0);
    }
    let field = |k: usize, i: usize| number(11 + vertex * v + edge * k + 2 * i);
    let maps = if edge == 18 { 3 } else { 2 };
    if let Some(k) = (0..e).find(|&k| !sound(&field, maps, k, [v, e, f])) {
        return refuse(21, k);
    }
    let over = [v, e, f].iter().zip(room).position(|(&count, room)| count > room);
    over.and_then(|kind| refuse(11, kind + 1))
}

/// "An edge record is sound if its lower number is below its upper and both are below the
/// vertex count, a source is not 0, both faces are below the face count, and each follower is
/// a half-edge of the file, starts where its half-edge ends, and follows no half-edge of lower
/// number."
fn sound(
    field: &dyn Fn(usize, usize) -> usize,
    maps: usize,
    k: usize,
    [v, e, f]: [usize; 3],
) -> bool {
    let (lower, upper) = (field(k, 0), field(k, 1));
    let origin = |h: usize| field(h / 2, h % 2);
    let follower = |h: usize| field(h / 2, 2 + maps + h % 2);
    let good = |h: usize| {
        let next = follower(h);
        next < 2 * e && origin(next) == origin(h ^ 1) && (0..h).all(|g| follower(g) != next)
    };
    lower < upper
        && lower < v
        && upper < v
        && (2..2 + maps).any(|i| field(k, i) != 0)
        && field(k, 4 + maps) < f
        && field(k, 5 + maps) < f
        && good(2 * k)
        && good(2 * k + 1)
}
