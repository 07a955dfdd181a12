//! Two edges as eight numbers: every way to meet, and every refusal at either edge.

use crate::limits::REACH;
use crate::meet::{asked, Ask, Meeting};
use crate::random::Random;

/// Both ends of the first edge, then of the second.
type Ends = [(i64, i64); 4];

/// What is made, and how.
const KINDS: &[(&str, fn(&mut Random) -> Ends)] = &[
    ("four points", four),
    ("a crossing", crossing),
    ("a crossing far from whole numbers", wide),
    ("an end within the other edge", tee),
    ("an end beside the other edge", near),
    ("a common end at an angle", angle),
    ("in one line, end to end", |r| in_line(r, |i, j| [0, i, i, j])),
    ("in one line, a gap between", |r| in_line(r, |i, j| [0, i, i + 1, j])),
    ("in one line, overlapping", |r| in_line(r, |i, j| [0, i + 1, i, j])),
    ("in one line, one within the other", |r| in_line(r, |i, j| [0, j, i, i + 1])),
    ("in one line with a common end", |r| in_line(r, |i, j| [0, i, 0, j])),
    ("one edge twice", |r| in_line(r, |_, j| [0, j, 0, j])),
    ("side by side", parallel),
    ("level and upright", square_on),
    ("at the end of the range", at_reach),
    ("a coordinate beyond the range", |r| beyond(r, 1)),
    ("several beyond the range", |r| beyond(r, 5)),
    ("an edge of no length", no_length),
    ("no length, and beyond the range", no_length_beyond),
    ("any numbers", |r| std::array::from_fn(|_| (any_number(r), any_number(r)))),
];

/// n of all kinds in turn, either edge first and each either way round, and then the first
/// `seed` % 16 bytes of one more.
pub fn file(seed: u64, n: usize) -> Vec<u8> {
    let ask = |i: usize| {
        let (name, make) = KINDS[i % KINDS.len()];
        let mut random = Random::new(seed.wrapping_add(i as u64), name);
        let ends = make(&mut random);
        crate::meet::bytes(&turned(&mut random, ends))
    };
    let mut file: Vec<u8> = (0..n).flat_map(ask).collect();
    file.extend(&ask(n)[..(seed % 16) as usize]);
    file
}

fn turned(random: &mut Random, [a, b, c, d]: Ends) -> Ask {
    let [a, b] = if random.once_in(2) { [b, a] } else { [a, b] };
    let [c, d] = if random.once_in(2) { [d, c] } else { [c, d] };
    let all = if random.once_in(2) { [c, d, a, b] } else { [a, b, c, d] };
    let mut ask: Ask = [0; 8];
    for (i, (x, y)) in all.into_iter().enumerate() {
        (ask[2 * i], ask[2 * i + 1]) = (x as i16, y as i16);
    }
    ask
}

fn any_number(random: &mut Random) -> i64 {
    random.bits() as i16 as i64
}

fn within(random: &mut Random, most: i64) -> (i64, i64) {
    (random.range(-most, most), random.range(-most, most))
}

fn size(random: &mut Random) -> i64 {
    random.pick(&[2, 4, 10, 100, REACH])
}

/// Two different points.
fn edge(random: &mut Random, most: i64) -> [(i64, i64); 2] {
    loop {
        let [a, b] = [within(random, most), within(random, most)];
        if a != b {
            return [a, b];
        }
    }
}

fn four(random: &mut Random) -> Ends {
    let most = size(random);
    let [[a, b], [c, d]] = [edge(random, most), edge(random, most)];
    [a, b, c, d]
}

fn crossing(random: &mut Random) -> Ends {
    loop {
        let ends = four(random);
        if matches!(asked(&turned(random, ends)), Ok(Meeting::Crossing(_))) {
            return ends;
        }
    }
}

/// From corner to corner of the range.
fn wide(random: &mut Random) -> Ends {
    [(-1, -1), (1, 1), (-1, 1), (1, -1)].map(|(x, y)| {
        let mut inward = || REACH - random.range(0, 4);
        (x * inward(), y * inward())
    })
}

/// Points at equal steps along a line, from number 0 to n; often level or upright.
fn steps(random: &mut Random, n: i64) -> Vec<(i64, i64)> {
    let most = random.pick(&[1, 3, 40, 2 * REACH / n]);
    let step = loop {
        let (x, y) = within(random, most);
        let step = random.pick(&[(x, y), (x, y), (x, 0), (0, y)]);
        if step != (0, 0) {
            break step;
        }
    };
    let mut start = |step: i64| {
        let whole = n * step;
        random.range(-REACH - whole.min(0), REACH - whole.max(0))
    };
    let (x, y) = (start(step.0), start(step.1));
    (0..=n).map(|k| (x + k * step.0, y + k * step.1)).collect()
}

/// Four points of one line, chosen by two numbers 1 <= i, i + 2 <= j.
fn in_line(random: &mut Random, choice: fn(usize, usize) -> [usize; 4]) -> Ends {
    let n = random.range(3, 8) as usize;
    let i = random.range(1, n as i64 - 2) as usize;
    let points = steps(random, n as i64);
    choice(i, n).map(|k| points[k])
}

fn tee(random: &mut Random) -> Ends {
    let most = size(random);
    loop {
        let [a, _, c, b] = in_line(random, |i, j| [0, 0, i, j]);
        let away = within(random, most);
        let d = (c.0 + away.0, c.1 + away.1);
        if away != (0, 0) && d.0.abs().max(d.1.abs()) <= REACH {
            return [a, b, c, d];
        }
    }
}

fn near(random: &mut Random) -> Ends {
    let [a, b, c, d] = tee(random);
    let off = random.pick(&[(1, 0), (-1, 0), (0, 1), (0, -1)]);
    [a, b, ((c.0 + off.0).clamp(-REACH, REACH), (c.1 + off.1).clamp(-REACH, REACH)), d]
}

fn angle(random: &mut Random) -> Ends {
    let most = size(random);
    let [a, b] = edge(random, most);
    loop {
        let d = within(random, most);
        if d != a {
            return [a, b, a, d];
        }
    }
}

fn parallel(random: &mut Random) -> Ends {
    let [a, b, c, d] = in_line(random, |i, j| [0, i + 1, i, j]);
    let off = random.pick(&[(1, 0), (-1, 0), (0, 1), (0, -1), (7, 3)]);
    let moved = |p: (i64, i64)| (p.0 + off.0, p.1 + off.1);
    let (c, d) = (moved(c), moved(d));
    let fits = |p: (i64, i64)| p.0.abs().max(p.1.abs()) <= REACH;
    if fits(c) && fits(d) {
        [a, b, c, d]
    } else {
        parallel(random)
    }
}

fn square_on(random: &mut Random) -> Ends {
    let most = random.pick(&[2, 3, 50]);
    let [(ax, ay), (cx, cy)] = [within(random, most), within(random, most)];
    let mut long = || random.range(1, most);
    [(ax, ay), (ax + long(), ay), (cx, cy), (cx, cy + long())]
}

fn at_reach(random: &mut Random) -> Ends {
    let mut ends = four(random);
    let end = random.below(4);
    let [low, high] = [-REACH, REACH];
    ends[end] = random.pick(&[(low, ends[end].1), (high, low), (ends[end].0, high), (high, high)]);
    ends
}

/// Some of the coordinates made too large.
fn beyond(random: &mut Random, most: usize) -> Ends {
    let mut ends = four(random);
    for _ in 0..random.range(1, most as i64) {
        let far = random.pick(&[REACH + 1, -REACH - 1, -32_768, 32_767]);
        let end = &mut ends[random.below(4)];
        *end = if random.once_in(2) { (far, end.1) } else { (end.0, far) };
    }
    ends
}

fn no_length(random: &mut Random) -> Ends {
    let [a, b, c, d] = four(random);
    random.pick(&[[a, a, c, d], [a, a, c, d], [a, b, c, c], [a, a, c, c], [a, a, a, a]])
}

/// An edge of no length, in the range or beyond it; the other one beyond.
fn no_length_beyond(random: &mut Random) -> Ends {
    let [a, b, c, d] = beyond(random, 3);
    random.pick(&[[a, a, c, d], [a, a, c, d], [a, b, c, c], [a, a, c, c]])
}
