//! Many sheets in one file, each with the tables that are lent for its overlay.
//!
//! A pack is a number of entries, then the entries. Each has seven numbers, the rows of the lent
//! tables of vertices, half-edges, sources and faces and the lengths of the three map files, and
//! then the three files. All numbers have 16 bits, low byte first.

use crate::limits::{EDGES, FACES, MAPS, VERTICES};
use crate::make::pairs::CLASHING;
use crate::make::triples::{names, sheet_files, Sheet};
use crate::map::Map;
use crate::melt::melt_files;
use crate::overlay::{overlay_files, Room};
use crate::random::Random;
use crate::selftest::orders::{self, Laid};

/// An entry of a pack: the rows of the four lent tables, and the three files.
#[derive(Clone)]
pub struct Entry {
    pub rows: [u16; 4],
    pub files: Sheet,
}

impl Entry {
    pub fn room(&self) -> Room {
        let [v, h, s, f] = self.rows.map(usize::from);
        Room::lent(v, h, s, f)
    }

    /// `done V E F DIGEST` or the refusal with its other edge, of the overlay in the lent tables.
    pub fn answer(&self) -> String {
        match overlay_files(&self.files, &self.room()) {
            Ok(overlay) => format!("done {}", overlay.tables.digest()),
            Err(refusal) => refusal.whole(),
        }
    }

    /// The same of the melted tables.
    pub fn melted(&self) -> String {
        match melt_files(&self.files, &self.room()) {
            Ok(melted) => format!("done {}", melted.tables.digest()),
            Err(refusal) => refusal.whole(),
        }
    }
}

/// n entries of all kinds in turn, and a tenth as many with several clashes; entry i has the seed
/// `seed` + i. Every third is lent tables that just suffice or are too short.
pub fn make(seed: u64, n: u16) -> Vec<Entry> {
    let names = names();
    let entry = |i: u16| {
        let seed = seed.wrapping_add(i as u64);
        let kind = if i < n { names[i as usize % names.len()] } else { CLASHING.name };
        let files = sheet_files(kind, seed).expect("a kind");
        let full = [VERTICES, 2 * EDGES, EDGES, FACES].map(|rows| rows as u16);
        let little = Random::new(seed, "room").once_in(3);
        let rows = if little { near(&mut Random::new(seed, "pack"), &files, full) } else { full };
        Entry { rows, files }
    };
    (0..n + n / 10).map(entry).collect()
}

/// The entries, and behind them the same files in other orders with the same rows: the first two
/// exchanged where the third map is empty, and all five other orders where it is not.
pub fn with_orders(entries: Vec<Entry>) -> Vec<Entry> {
    let empty = Map::default().bytes();
    let others = |entry: &Entry| -> Vec<Entry> {
        let two = entry.files[MAPS - 1] == empty;
        let orders = orders::all().into_iter().skip(1);
        let orders = orders.filter(|order| !two || order[MAPS - 1] == MAPS - 1);
        orders
            .map(|order| Entry { rows: entry.rows, files: order.map(|m| entry.files[m].clone()) })
            .collect()
    };
    let behind: Vec<Entry> = entries.iter().flat_map(others).collect();
    [entries, behind].concat()
}

/// Lays each entry in all six orders and holds the answers to each other (02, Ask 11): how many were
/// done, refused for room and refused for a map.
pub fn in_all_orders(entries: &[Entry]) -> Result<String, String> {
    let (mut done, mut no_room, mut bad) = (0, 0, 0);
    for (i, entry) in entries.iter().enumerate() {
        match orders::six(&entry.files, &entry.room()).map_err(|what| format!("{i}: {what}"))? {
            Laid::Done => done += 1,
            Laid::NoRoom => no_room += 1,
            Laid::Bad => bad += 1,
        }
    }
    let counts = format!("{done} done, {no_room} without room, {bad} with a bad map");
    Ok(format!("{} entries in six orders: {counts}; no fault found\n", entries.len()))
}

/// Rows at or next to what the overlay asks, in one of the tables or in all.
fn near(random: &mut Random, files: &Sheet, full: [u16; 4]) -> [u16; 4] {
    let Ok(overlay) = overlay_files(files, &Room::FULL) else {
        return full.map(|rows| random.below(rows as usize + 1) as u16);
    };
    let t = overlay.tables;
    let asked = [t.vertices.len(), t.half_edges.len(), t.sources.len(), t.faces.len()];
    let only = random.below(8);
    let mut rows = full;
    for (i, asked) in asked.into_iter().enumerate() {
        if only == i || only >= 4 {
            let less = if random.once_in(3) { random.below(3) } else { 0 };
            rows[i] = (asked + random.below(2)).saturating_sub(less).min(full[i] as usize) as u16;
        }
    }
    rows
}

pub fn bytes(entries: &[Entry]) -> Vec<u8> {
    let mut out = (entries.len() as u16).to_le_bytes().to_vec();
    for entry in entries {
        let lengths = entry.files.each_ref().map(|file| file.len() as u16);
        for number in entry.rows.into_iter().chain(lengths) {
            out.extend(number.to_le_bytes());
        }
        entry.files.iter().for_each(|file| out.extend(file));
    }
    out
}

/// The entries of a pack, or none where the bytes are no pack.
pub fn parse(bytes: &[u8]) -> Option<Vec<Entry>> {
    let mut rest = bytes;
    let mut take = |n: usize| {
        let (part, more) = rest.split_at_checked(n)?;
        rest = more;
        Some(part.to_vec())
    };
    let number = |part: &[u8]| u16::from_le_bytes([part[0], part[1]]);
    let count = number(&take(2)?);
    let mut entries = Vec::new();
    for _ in 0..count {
        let head = take(2 * (4 + MAPS))?;
        let field = |i: usize| number(&head[2 * i..]);
        let rows = [0, 1, 2, 3].map(field);
        let files = [take(field(4) as usize)?, take(field(5) as usize)?, take(field(6) as usize)?];
        entries.push(Entry { rows, files });
    }
    rest.is_empty().then_some(entries)
}
