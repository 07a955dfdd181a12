//! Soundings by cell (02, Asks 3 and 8) by another way than looking west: a map is cut into upright
//! slabs at the x of its corners, the edges across a slab stand in one order from south to north, and a
//! sounding's place among them is found by halving. The sounding is moved a little to the east, and
//! much less to the north.
//!
//! With coordinates up to 16,000 a height has 32 bits over a run of 15; two in the middle of a slab
//! are compared as products of 48.

use crate::answer::Refusal;
use crate::check::check;
use crate::limits::{CELLS, REACH, SOUNDING, SOUNDINGS};
use crate::map::{numbers, Map};
use std::cmp::Ordering;
use std::collections::BTreeMap;

/// An edge that is not upright, from west to east, with the labels on its two sides.
struct Bar {
    west: (i64, i64),
    run: i64,
    rise: i64,
    below: u16,
    above: u16,
}

impl Bar {
    /// The edge's height where twice the x is `x2`, times twice its run.
    fn height(&self, x2: i64) -> i64 {
        2 * self.west.1 * self.run + (x2 - 2 * self.west.0) * self.rise
    }

    /// Does the edge pass beneath the place just east and, much less, just north of (x, y)? One
    /// through it does so unless it rises.
    fn beneath(&self, (x, y): (i64, i64)) -> bool {
        match self.height(2 * x).cmp(&(2 * self.run * y)) {
            Ordering::Less => true,
            Ordering::Equal => self.rise <= 0,
            Ordering::Greater => false,
        }
    }
}

/// A map in slabs: the x of its corners, the edges across each slab between two of them from south
/// to north, and the heights of the edges' lower ends in order.
pub struct Slabs {
    bars: Vec<Bar>,
    walls: Vec<i64>,
    slabs: Vec<Vec<usize>>,
    lows: Vec<i64>,
}

impl Slabs {
    /// The slabs of a map that passes the check.
    pub fn new(map: &Map) -> Slabs {
        let mut bars = Vec::new();
        let mut lows = Vec::new();
        for edge in &map.edges {
            let (from, to) = (map.place(edge.from), map.place(edge.to));
            lows.push(from.1.min(to.1));
            let (west, east, [above, below]) = match from.0.cmp(&to.0) {
                Ordering::Less => (from, to, [edge.left, edge.right]),
                Ordering::Greater => (to, from, [edge.right, edge.left]),
                Ordering::Equal => continue,
            };
            bars.push(Bar { west, run: east.0 - west.0, rise: east.1 - west.1, below, above });
        }
        lows.sort_unstable();
        let mut walls: Vec<i64> = map.vertices.iter().map(|&(x, _)| x as i64).collect();
        walls.sort_unstable();
        walls.dedup();
        let slabs = walls.windows(2).map(|pair| slab(&bars, pair[0], pair[1])).collect();
        Slabs { bars, walls, slabs, lows }
    }

    /// The label just east and just north of a place.
    pub fn label(&self, place: (i64, i64)) -> u16 {
        let past = self.walls.partition_point(|&wall| wall <= place.0);
        if past == 0 || past == self.walls.len() {
            return 0;
        }
        let slab = &self.slabs[past - 1];
        let under = slab.partition_point(|&k| self.bars[k].beneath(place));
        let from_south = if under == 0 { 0 } else { self.bars[slab[under - 1]].above };
        let from_north = slab.get(under).map_or(0, |&k| self.bars[k].below);
        assert_eq!(from_south, from_north, "one label between two neighbours of a slab");
        from_south
    }

    /// The number of edges whose lower end is not above a height.
    pub fn read(&self, y: i64) -> u64 {
        self.lows.partition_point(|&low| low <= y) as u64
    }
}

/// The edges from the wall at `west` to the wall at `east`, from south to north; none meet between.
fn slab(bars: &[Bar], west: i64, east: i64) -> Vec<usize> {
    let across = |bar: &Bar| bar.west.0 <= west && east <= bar.west.0 + bar.run;
    let mut slab: Vec<usize> = (0..bars.len()).filter(|&k| across(&bars[k])).collect();
    let height = |k: usize| bars[k].height(west + east);
    slab.sort_by(|&j, &k| (height(j) * bars[k].run).cmp(&(height(k) * bars[j].run)));
    slab
}

/// What a list of soundings comes to: how many have each pair, how many there are, and how many edges
/// are read (Ask 8).
pub struct Counted {
    pub cells: BTreeMap<(u16, u16), u32>,
    pub soundings: usize,
    pub read: u64,
}

impl Counted {
    /// `ZONE BLOCK COUNT` for each pair, and `read N` if that is asked for.
    pub fn lines(&self, read: bool) -> String {
        let line = |(&(zone, block), n): (&(u16, u16), &u32)| format!("{zone} {block} {n}\n");
        let mut out: String = self.cells.iter().map(line).collect();
        if read {
            out += &format!("read {}\n", self.read);
        }
        out
    }
}

/// The soundings of a list; a torn last one is left out.
pub fn places(list: &[u8]) -> Vec<(i64, i64)> {
    let signed = |n: &u16| *n as i16 as i64;
    numbers(list).chunks_exact(2).map(|n| (signed(&n[0]), signed(&n[1]))).collect()
}

/// Room for so many pairs, in a lent table of labels and one of counts with so many numbers.
pub fn room(labels: usize, counts: usize) -> usize {
    CELLS.min(labels / 2).min(counts)
}

/// The soundings of a list by cell of two map files, or the refusal.
pub fn count(files: [&[u8]; 2], list: &[u8], room: usize) -> Result<Counted, Refusal> {
    let zones = check(files[0]).map_err(|r| r.in_map(1))?;
    let blocks = check(files[1]).map_err(|r| r.in_map(2))?;
    if list.len() % SOUNDING != 0 || list.len() / SOUNDING > SOUNDINGS {
        return Err(Refusal::new(12, 0));
    }
    let places = places(list);
    let beyond = |c: i64| c.abs() > REACH;
    if let Some(far) = places.iter().position(|&(x, y)| beyond(x) || beyond(y)) {
        return Err(Refusal::new(13, far));
    }
    let maps = [Slabs::new(&zones), Slabs::new(&blocks)];
    let mut counted = Counted { cells: BTreeMap::new(), soundings: places.len(), read: 0 };
    for &place in &places {
        let [zone, block] = [0, 1].map(|m| maps[m].label(place));
        *counted.cells.entry((zone, block)).or_insert(0) += 1;
        counted.read += maps[0].read(place.1) + maps[1].read(place.1);
    }
    if counted.cells.len() > room {
        return Err(Refusal::new(11, 6));
    }
    Ok(counted)
}

/// What `second cells` prints.
pub fn text(files: [&[u8]; 2], list: &[u8], read: bool) -> String {
    match count(files, list, CELLS) {
        Ok(counted) => counted.lines(read),
        Err(refusal) => format!("{refusal}\n"),
    }
}

/// What a call with lent tables of so many labels and counts answers, and then all that the two hold:
/// `done ENTRIES SOUNDINGS DIGEST` or `REFUSAL DIGEST`; with `read`, READ stands before the digest.
pub fn answer(files: [&[u8]; 2], list: &[u8], lent: [usize; 2], read: bool) -> String {
    let (mut labels, mut counts) = (vec![0u16; lent[0]], vec![0u32; lent[1]]);
    let said = match count(files, list, room(lent[0], lent[1])) {
        Ok(counted) => {
            for (i, (&(zone, block), &n)) in counted.cells.iter().enumerate() {
                (labels[2 * i], labels[2 * i + 1], counts[i]) = (zone, block, n);
            }
            let reads = if read { format!(" {}", counted.read) } else { String::new() };
            format!("done {} {}{reads}", counted.cells.len(), counted.soundings)
        }
        Err(refusal) => refusal.to_string(),
    };
    let mut sum = crate::tables::Fnv::new();
    labels.iter().for_each(|n| sum.add(&n.to_le_bytes()));
    counts.iter().for_each(|n| sum.add(&n.to_le_bytes()));
    format!("{said} {:016x}", sum.value)
}
