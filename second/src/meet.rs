//! How two edges meet (02, Ask 2), asked of eight numbers.
//!
//! What the edges have in common comes from their lines and boxes (`segment.rs`); one common
//! point is then looked up among the four ends.

use crate::answer::Refusal;
use crate::limits::REACH;
use crate::map::Map;
use crate::point::{common, Point};
use crate::segment::{shared, Segment, Shared};
use std::fmt;

/// How two edges meet, with the point where there is one.
#[derive(Clone, Copy, PartialEq, Eq, Debug)]
pub enum Meeting {
    Apart,
    Touching(Point),
    Crossing(Point),
    Sharing,
}

impl fmt::Display for Meeting {
    fn fmt(&self, out: &mut fmt::Formatter) -> fmt::Result {
        match self {
            Meeting::Apart => write!(out, "apart"),
            Meeting::Touching(p) => write!(out, "touching {} {} {}", p.x, p.y, p.d),
            Meeting::Crossing(p) => write!(out, "crossing {} {} {}", p.x, p.y, p.d),
            Meeting::Sharing => write!(out, "sharing"),
        }
    }
}

/// x / d in its own lowest terms: `7/3`, or `2`.
pub fn fraction(x: i64, d: i64) -> String {
    let g = common(x, d);
    match d / g {
        1 => format!("{}", x / g),
        d => format!("{}/{d}", x / g),
    }
}

/// What people are told of edges k and j that clash: `edge 17 crosses edge 23 at 7/3 2`.
pub fn sentence(map: &Map, k: usize, j: usize) -> String {
    sentence_with(map, k, j, |k| format!("edge {k}"))
}

/// The same with other words for an edge than its number.
pub fn sentence_with(map: &Map, k: usize, j: usize, name: impl Fn(usize) -> String) -> String {
    let at = |p: Point| format!("at {} {}", fraction(p.x, p.d), fraction(p.y, p.d));
    let (one, other) = (name(k), name(j));
    match meeting(&map.segment(k), &map.segment(j)) {
        Meeting::Apart => format!("{one} is apart from {other}"),
        Meeting::Touching(p) => format!("{one} touches {other} {}", at(p)),
        Meeting::Crossing(p) => format!("{one} crosses {other} {}", at(p)),
        Meeting::Sharing => format!("{one} shares a stretch with {other}"),
    }
}

/// How two edges meet.
pub fn meeting(s: &Segment, t: &Segment) -> Meeting {
    match shared(s, t) {
        Shared::Nothing => Meeting::Apart,
        Shared::Stretch(..) => Meeting::Sharing,
        Shared::At(p) if s.ends().contains(&p) || t.ends().contains(&p) => Meeting::Touching(p),
        Shared::At(p) => Meeting::Crossing(p),
    }
}

/// Eight numbers: x and y of the ends of the first edge, then of the second.
pub type Ask = [i16; 8];

/// Bytes of an asked pair of edges.
pub const ASK: usize = 16;

/// The first and the second edge.
pub fn edges(ask: &Ask) -> [Segment; 2] {
    let n = ask.map(i64::from);
    [Segment::new((n[0], n[1]), (n[2], n[3])), Segment::new((n[4], n[5]), (n[6], n[7]))]
}

/// Refusal 5 of either edge, then 7 of either; or how they meet.
pub fn asked(ask: &Ask) -> Result<Meeting, Refusal> {
    let far = |&n: &i16| i64::from(n).abs() > REACH;
    if let Some(i) = ask.iter().position(far) {
        return Err(Refusal::new(5, i / 4));
    }
    let both = edges(ask);
    if let Some(i) = both.iter().position(|s| s.way() == (0, 0)) {
        return Err(Refusal::new(7, i));
    }
    Ok(meeting(&both[0], &both[1]))
}

/// The bytes of one: each number low byte first.
pub fn bytes(ask: &Ask) -> Vec<u8> {
    ask.iter().flat_map(|n| n.to_le_bytes()).collect()
}

/// The numbers in sixteen bytes.
pub fn parse(record: &[u8]) -> Ask {
    let mut ask: Ask = [0; 8];
    for (n, b) in ask.iter_mut().zip(record.chunks(2)) {
        *n = i16::from_le_bytes([b[0], b[1]]);
    }
    ask
}

/// A line for each sixteen bytes; `short` for fewer at the end.
pub fn lines(file: &[u8]) -> String {
    let line = |record: &[u8]| {
        if record.len() < ASK {
            return "short\n".to_string();
        }
        match asked(&parse(record)) {
            Ok(meeting) => format!("{meeting}\n"),
            Err(refusal) => format!("{refusal}\n"),
        }
    };
    file.chunks(ASK).map(line).collect()
}
