//! Mending (02, Ask 9) by another way than the definitions: places and pairs of places are
//! remembered in maps as they come by, and what is kept is numbered afresh at the end.

use crate::answer::Refusal;
use crate::check::check;
use crate::limits::REACH;
use crate::map::{decode, Edge, Map};
use std::collections::{BTreeMap, HashMap, HashSet};

/// A mended map, and the steps taken with the original numbers.
pub struct Mended {
    pub map: Map,
    pub list: Vec<(u16, u16)>,
}

/// What a file is mended to, or refusals 1 to 5 and 7.
pub fn mend(bytes: &[u8]) -> Result<Mended, Refusal> {
    let map = decode(bytes)?;
    let beyond = |c: i16| !(-REACH..=REACH).contains(&(c as i64));
    if let Some(v) = map.vertices.iter().position(|&(x, y)| beyond(x) || beyond(y)) {
        return Err(Refusal::new(5, v));
    }
    let named = |v: u16| (v as usize) < map.vertices.len();
    if let Some(k) = map.edges.iter().position(|e| !named(e.from) || !named(e.to)) {
        return Err(Refusal::new(7, k));
    }
    Ok(mended(&map))
}

/// The four steps. An edge is known by the places of its ends.
fn mended(map: &Map) -> Mended {
    let mut steps: [Vec<u16>; 4] = Default::default();
    let mut owner: HashMap<(i16, i16), u16> = HashMap::new();
    for (v, &place) in map.vertices.iter().enumerate() {
        if owner.contains_key(&place) {
            steps[0].push(v as u16);
        } else {
            owner.insert(place, v as u16);
        }
    }
    let mut known: HashSet<[(i16, i16); 2]> = HashSet::new();
    let mut kept: Vec<(Edge, [(i16, i16); 2])> = Vec::new();
    for (k, &edge) in map.edges.iter().enumerate() {
        let ends = [map.vertices[edge.from as usize], map.vertices[edge.to as usize]];
        let mut pair = ends;
        pair.sort();
        if ends[0] == ends[1] {
            steps[1].push(k as u16);
        } else if !known.insert(pair) {
            steps[2].push(k as u16);
        } else {
            kept.push((edge, ends));
        }
    }
    let used: BTreeMap<u16, (i16, i16)> =
        kept.iter().flat_map(|(_, ends)| ends).map(|place| (owner[place], *place)).collect();
    steps[3] = owner.values().copied().filter(|v| !used.contains_key(v)).collect();
    steps[3].sort();
    let number: HashMap<(i16, i16), u16> = used.values().copied().zip(0u16..).collect();
    let edge = |(e, [from, to]): &(Edge, [(i16, i16); 2])| Edge {
        from: number[from],
        to: number[to],
        ..*e
    };
    let list = (1u16..).zip(&steps).flat_map(|(step, n)| n.iter().map(move |&i| (step, i)));
    Mended {
        map: Map {
            vertices: used.values().copied().collect(),
            edges: kept.iter().map(edge).collect(),
        },
        list: list.collect(),
    }
}

/// The lines that `mendmap` prints of what was done, and the check's line of the mended file.
pub fn lines(mended: &Mended) -> String {
    let words = |step: u16| match step {
        1 => "vertex merged",
        2 => "edge without length dropped",
        3 => "edge doubled dropped",
        _ => "vertex without edge dropped",
    };
    let mut out = String::new();
    for &(step, number) in &mended.list {
        out += &format!("{step} {number} {}\n", words(step));
    }
    match check(&mended.map.bytes()) {
        Ok(map) => out + &format!("ok {} {}\n", map.vertices.len(), map.edges.len()),
        Err(refusal) => out + &format!("{refusal}\n"),
    }
}

/// What a call with a lent file of so many bytes and a lent list of so many numbers answers, and
/// then all that the two hold: `done LENGTH ENTRIES DIGEST` or `REFUSAL DIGEST`.
pub fn answer(bytes: &[u8], room: usize, list: usize) -> String {
    let done = mend(bytes).and_then(|mended| {
        let file = mended.map.bytes();
        if file.len() > room {
            Err(Refusal::new(11, 4))
        } else if 2 * mended.list.len() > list {
            Err(Refusal::new(11, 5))
        } else {
            Ok((file, mended.list))
        }
    });
    let (mut out, mut numbers) = (vec![0u8; room], vec![0u16; list]);
    let said = match done {
        Ok((file, entries)) => {
            out[..file.len()].copy_from_slice(&file);
            for (i, &(step, number)) in entries.iter().enumerate() {
                (numbers[2 * i], numbers[2 * i + 1]) = (step, number);
            }
            format!("done {} {}", file.len(), entries.len())
        }
        Err(refusal) => refusal.to_string(),
    };
    let mut sum = crate::tables::Fnv::new();
    sum.add(&out);
    numbers.iter().for_each(|n| sum.add(&n.to_le_bytes()));
    format!("{said} {:016x}", sum.value)
}
