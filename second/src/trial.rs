//! Small random inputs with the expected answers, a line each, for a script that holds the
//! definitions against them. README.md has the form of the lines.

use crate::check::check;
use crate::literal::slip::{melting_tells, OF_MAPS, OF_MELTING, OF_PAIRS, OF_TRIPLES};
use crate::make::damage::{damage_map, KINDS};
use crate::make::few::{diagonals, few, three_few, two_few};
use crate::make::meets;
use crate::make::melts::with_few;
use crate::make::overlay_damage;
use crate::make::table_damage::{self, Order};
use crate::make::telling::{sought, telling_map, telling_maps};
use crate::make::triples::Sheet;
use crate::map::Map;
use crate::meet::{asked, parse, Ask, ASK};
use crate::melt::melt_files;
use crate::overlay::{overlay_files, Overlay, Room};
use crate::ovfile::{file_of, read, write};
use crate::random::Random;
use crate::tables::Tables;
use std::fmt::Write;

/// Map lines for each pair line.
const MAPS: usize = 5;
/// One map in so many is made to show a slip, and is not always valid.
const TELLING: usize = 3;
/// Meet lines for each pair line.
const MEETS: usize = 20;
/// No file of a map line is longer.
const LONGEST: usize = 260;

/// The lines of n rounds: a pair, three maps at once, maps melted, five maps, a room, a file read, a file written, and of
/// all kinds of two edges how they meet.
pub fn run(seed: u64, n: usize) -> String {
    let mut out = String::new();
    for round in 0..n {
        let mut random = Random::new(seed.wrapping_add(round as u64), "trial");
        let files = pair(&mut random, round);
        let mut line = |text: String| writeln!(out, "{text}").expect("a string takes all text");
        line(laid_line(&files));
        line(laid_line(&three(&mut random, round)));
        line(melt_line(&mut Random::new(seed.wrapping_add(round as u64), "trial melt"), round));
        for i in 0..MAPS {
            let file = map(&mut random, round * MAPS + i);
            line(map_line(&file));
        }
        line(room_line(&mut random, round));
        line(read_line(&mut random));
        line(write_line(&mut random));
        for record in meets::file(random.bits() / 16 * 16, MEETS).chunks(ASK) {
            line(meet_line(&parse(record)));
        }
    }
    out
}

/// The bytes as hexadecimal digits, `-` for none.
fn hex(bytes: &[u8]) -> String {
    match bytes {
        [] => "-".to_string(),
        _ => bytes.iter().map(|byte| format!("{byte:02x}")).collect(),
    }
}

/// The pair of a round. Of four pairs three are made to show a slip, and of the fourth kind
/// every second has a damaged file and every fourth the greatest denominators.
fn pair(random: &mut Random, round: usize) -> [Vec<u8>; 2] {
    let [first, second] = match round % 4 {
        0 if round % 16 == 8 => diagonals(random),
        0 => two_few(random),
        _ => telling_maps(random, OF_PAIRS[(round - round / 4 - 1) % OF_PAIRS.len()], two_few),
    };
    let mut files = [first.bytes(), second.bytes()];
    if round % 8 == 4 {
        let kind = random.below(KINDS.len());
        files[random.below(2)] = damaged(random, kind);
    }
    files
}

/// The three maps of a round, one of three made to show a slip that needs three; of four sheets one
/// has a damaged file, of eight two.
fn three(random: &mut Random, round: usize) -> Sheet {
    let maps = match round % 3 {
        0 => three_few(random),
        _ => telling_maps(random, OF_TRIPLES[round / 3 % OF_TRIPLES.len()], three_few),
    };
    let mut files = maps.map(|map| map.bytes());
    let bad: &[usize] = match round % 8 {
        2 => &[2],
        6 => random.pick(&[&[1, 2], &[0, 2], &[0, 1]]),
        _ => &[],
    };
    for &m in bad {
        let kind = random.below(KINDS.len());
        files[m] = damaged(random, kind);
    }
    files
}

/// The file of map line i: every third is made to show a slip, the others go through all kinds
/// of damage.
fn map(random: &mut Random, i: usize) -> Vec<u8> {
    match i % TELLING {
        0 => telling_map(random, OF_MAPS[i / TELLING % OF_MAPS.len()], few).bytes(),
        _ => damaged(random, (i - i / TELLING - 1) % KINDS.len()),
    }
}

/// A small map that is refused by the rule for which this kind of damage is meant.
fn damaged(random: &mut Random, kind: usize) -> Vec<u8> {
    let kind = &KINDS[kind];
    loop {
        let map = few(random);
        let file = damage_map(kind, random, map);
        let meant = |number: u16| kind.rule == 0 || kind.rule == number;
        let refused = check(&file).is_err_and(|refusal| meant(refusal.number));
        if refused && file.len() <= LONGEST {
            return file;
        }
    }
}

/// The files, and their overlay with its file.
fn laid_line(files: &[Vec<u8>]) -> String {
    let done = overlay_files(files, &Room::FULL);
    let answer = match done.and_then(|o| file_of(&o.tables).map(|file| (o, file))) {
        Ok((overlay, file)) => format!("done {} {}", overlay.tables.digest(), hex(&file)),
        Err(refusal) => refusal.whole(),
    };
    format!("pair {} {answer}", all_hex(files))
}

fn all_hex(files: &[Vec<u8>]) -> String {
    files.iter().map(|file| hex(file)).collect::<Vec<_>>().join(" ")
}

fn map_line(file: &[u8]) -> String {
    let answer = match check(file) {
        Ok(map) => format!("ok {} {}", map.vertices.len(), map.edges.len()),
        Err(refusal) => refusal.whole(),
    };
    format!("map {} {answer}", hex(file))
}

/// Rows of lent tables (vertices, half-edges, sources, faces) about as many as are needed.
fn rows(random: &mut Random, needs: [usize; 4]) -> [usize; 4] {
    if random.once_in(6) {
        return needs;
    }
    needs.map(|n| match random.below(8) {
        0 => n.saturating_sub(1),
        1 => n.saturating_sub(2),
        2 => random.below(n + 1),
        3 => n,
        _ => n + random.below(4),
    })
}

/// The rows that an overlay needs.
fn needs(files: &Sheet) -> [usize; 4] {
    match overlay_files(files, &Room::FULL) {
        Ok(Overlay { tables: t, .. }) => {
            [t.vertices.len(), t.half_edges.len(), t.edges(), t.faces.len()]
        }
        Err(_) => [5, 10, 5, 2],
    }
}

fn words(rows: [usize; 4]) -> String {
    rows.map(|n| n.to_string()).join(" ")
}

fn room_line(random: &mut Random, round: usize) -> String {
    let files = match round % 2 {
        0 => three(random, round),
        _ => {
            let [zones, blocks] = pair(random, round);
            [zones, blocks, Map::default().bytes()]
        }
    };
    let rows = rows(random, needs(&files));
    let room = Room::lent(rows[0], rows[1], rows[2], rows[3]);
    let answer = match overlay_files(&files, &room) {
        Ok(overlay) => format!("done {}", overlay.tables.digest()),
        Err(refusal) => refusal.whole(),
    };
    format!("room {} {} {answer}", all_hex(&files), words(rows))
}

/// Maps with few labels, of two rounds one sought out so that a slip of melting would show; of four one is
/// lent about what the overlay asks, of eight one has a damaged file.
fn melt_line(random: &mut Random, round: usize) -> String {
    let slip = OF_MELTING[round / 2 % OF_MELTING.len()];
    let few = |random: &mut Random| {
        let mut maps = three_few(random);
        maps.iter_mut().for_each(|map| with_few(random, map));
        maps
    };
    let maps = match round % 2 {
        0 => few(random),
        _ => sought(random, few, |maps| melting_tells(slip, &maps.each_ref())),
    };
    let mut files = maps.map(|map| map.bytes());
    if round % 8 == 6 {
        let kind = random.below(KINDS.len());
        files[random.below(files.len())] = damaged(random, kind);
    }
    let needs = needs(&files);
    let rows = if round % 4 == 2 { rows(random, needs) } else { needs.map(|n| n + 1) };
    let room = Room::lent(rows[0], rows[1], rows[2], rows[3]);
    let done = melt_files(&files, &room);
    let answer = match done.and_then(|o| file_of(&o.tables).map(|file| (o, file))) {
        Ok((melted, file)) => format!("done {} {}", melted.tables.digest(), hex(&file)),
        Err(refusal) => refusal.whole(),
    };
    format!("melt {} {} {answer}", all_hex(&files), words(rows))
}

/// The tables of a small overlay, and its file.
fn small_overlay(random: &mut Random) -> (Tables, Vec<u8>) {
    loop {
        let files: Vec<Vec<u8>> = match random.once_in(2) {
            true => two_few(random).iter().map(Map::bytes).collect(),
            false => three_few(random).iter().map(Map::bytes).collect(),
        };
        let done = overlay_files(&files, &Room::FULL).map(|o| o.tables);
        if let Ok(both) = done.and_then(|t| file_of(&t).map(|file| (t, file))) {
            return both;
        }
    }
}

fn read_line(random: &mut Random) -> String {
    let (t, mut file) = small_overlay(random);
    file = match random.once_in(5) {
        true => overlay_damage::any_version(random, &file),
        false => overlay_damage::damaged(random, &file),
    };
    let full = [t.vertices.len(), t.half_edges.len(), t.edges(), t.faces.len()];
    let rows = if random.once_in(4) { rows(random, full) } else { full.map(|n| n + 1) };
    let room = Room::lent(rows[0], rows[1], rows[2], rows[3]);
    let answer = match read(&file, &room) {
        Ok(tables) => {
            let newest = file_of(&tables).expect("what was read is written");
            format!("done {} {}", tables.digest(), hex(&newest))
        }
        Err(refusal) => refusal.whole(),
    };
    format!("read {} {} {answer}", hex(&file), words(rows))
}

/// The rows of a table as text: fields parted by commas, rows by semicolons, `-` for no row.
fn text<T, const N: usize>(rows: &[T], fields: impl Fn(&T) -> [i64; N]) -> String {
    let row = |row: &T| fields(row).map(|n| n.to_string()).join(",");
    match rows {
        [] => "-".to_string(),
        _ => rows.iter().map(row).collect::<Vec<_>>().join(";"),
    }
}

fn write_line(random: &mut Random) -> String {
    let (tables, _) = small_overlay(random);
    let Order { tables: t, counts: c, length } = table_damage::damaged(random, &tables);
    let answer = match write(&t, c, length) {
        Ok(file) => format!("done {}", hex(&file)),
        Err(refusal) => refusal.whole(),
    };
    let vertices = text(&t.vertices, |v| [v.x, v.y, v.d, v.out as i64]);
    let half_edges = text(&t.half_edges, |h| {
        [h.origin, h.twin, h.follower, h.predecessor, h.face].map(i64::from)
    });
    let stored = |source: Option<u16>| source.map_or(0, |k| k as i64 + 1);
    let sources = text(&t.sources, |s| s.map(stored));
    let faces = text(&t.faces, |f| {
        let [a, b, c] = f.labels;
        [a, b, c, f.least, f.holes].map(i64::from)
    });
    let counts = words([c.vertices, c.edges, c.faces, length]);
    format!("write {counts} {vertices} {half_edges} {sources} {faces} {answer}")
}

fn meet_line(ask: &Ask) -> String {
    let answer = match asked(ask) {
        Ok(meeting) => meeting.to_string(),
        Err(refusal) => refusal.whole(),
    };
    format!("meet {} {answer}", ask.map(|n| n.to_string()).join(" "))
}
