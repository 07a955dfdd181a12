//! Runs of overlay files with two lists of names: none, few, 400 and 401 files, bad ones in every
//! place, 500 and 501 pairs, torn lists, empty names, doubled labels.

use super::names::{list, tear};
use super::overlay_damage::{any_version, damaged};
use super::triples::sheet_files;
use crate::limits::{NO_HALF_EDGE, YEAR_FILES, YEAR_PAIRS};
use crate::map::numbers;
use crate::overlay::{overlay_files, Room};
use crate::ovfile::{file_as, file_of, read};
use crate::random::Random;
use crate::tables::{FaceRow, Tables};
use crate::version::Version;

/// A run: the lists of zone names and of block names, and the files.
pub struct Run {
    pub lists: [Vec<u8>; 2],
    pub files: Vec<Vec<u8>>,
}

/// A kind of run.
type Make = fn(&mut Random) -> Run;

/// All kinds of runs, each with the refusal that it is meant for, 0 for none.
pub const KINDS: &[(u16, Make)] = &[
    (0, none),
    (0, few),
    (0, some),
    (0, most_files),
    (18, over_files),
    (17, one_bad),
    (17, last_bad),
    (18, bad_past_all),
    (17, bad_before_over),
    (0, most_pairs),
    (19, over_pairs),
    (17, bad_behind_pairs),
    (18, pairs_and_files),
    (20, torn),
    (19, torn_and_pairs),
    (17, several_bad),
];

/// n runs of all kinds in turn; run i has the seed `seed` + i.
pub fn make(seed: u64, n: u16) -> Vec<Run> {
    let run = |i: u16| {
        let mut random = Random::new(seed.wrapping_add(i as u64), "year");
        KINDS[i as usize % KINDS.len()].1(&mut random)
    };
    (0..n).map(run).collect()
}

fn pair(random: &mut Random) -> (u16, u16) {
    // Few enough that a run of these alone has no more than 400 pairs.
    (random.below(20) as u16, random.below(20) as u16 * random.pick(&[0, 1, 1, 1]))
}

/// A file of faces alone, with these pairs on faces other than 0, in any version; one of three maps has
/// third labels too. Face 0 has any labels, which do not count; with no pair there may be no face at all.
fn faces_file(random: &mut Random, pairs: &[(u16, u16)]) -> Vec<u8> {
    let version = random.pick(Version::ALL);
    let outside = if random.once_in(3) { (random.below(9) as u16, 7) } else { (0, 0) };
    let none = pairs.is_empty() && random.once_in(2);
    let mut row = |&(zone, block): &(u16, u16)| {
        let bed = if version.maps < 3 { 0 } else { random.below(4) as u16 };
        FaceRow { labels: [zone, block, bed], least: random.below(9) as u16, holes: 0 }
    };
    let mut faces = vec![FaceRow { least: NO_HALF_EDGE, ..row(&outside) }];
    faces.extend(pairs.iter().map(row));
    if none {
        faces.clear();
    }
    let tables = Tables { faces, ..Tables::default() };
    file_as(version, &tables).expect("tables of faces alone can be written")
}

fn small_file(random: &mut Random) -> Vec<u8> {
    let n = random.below(7);
    let pairs: Vec<(u16, u16)> = (0..n).map(|_| pair(random)).collect();
    faces_file(random, &pairs)
}

/// The overlay file of two or three small maps, in any version that holds it.
fn sheet_file(random: &mut Random) -> Vec<u8> {
    let kinds =
        ["few", "tiny", "onion", "grids", "empty-first", "empties", "three-few", "three-grids"];
    loop {
        let sheet = sheet_files(random.pick(&kinds), random.bits()).expect("a kind of sheet");
        let overlay = overlay_files(&sheet, &Room::FULL);
        if let Ok(file) = overlay.and_then(|overlay| file_of(&overlay.tables)) {
            if file.len() < 6_000 {
                return any_version(random, &file);
            }
        }
    }
}

fn bad_file(random: &mut Random) -> Vec<u8> {
    if random.once_in(6) {
        return Vec::new();
    }
    loop {
        let file = if random.once_in(2) { sheet_file(random) } else { small_file(random) };
        let damaged = damaged(random, &file);
        if read(&damaged, &Room::FULL).is_err() {
            return damaged;
        }
    }
}

/// Files one of eight of which is a whole overlay.
fn files(random: &mut Random, n: usize) -> Vec<Vec<u8>> {
    let file = |random: &mut Random| match random.below(8) {
        0 if n < 50 => sheet_file(random),
        _ => small_file(random),
    };
    (0..n).map(|_| file(random)).collect()
}

fn run(random: &mut Random, files: Vec<Vec<u8>>) -> Run {
    Run { lists: [list(random), list(random)], files }
}

fn none(random: &mut Random) -> Run {
    run(random, Vec::new())
}

fn few(random: &mut Random) -> Run {
    let n = 1 + random.below(5);
    let files = (0..n).map(|_| sheet_file(random)).collect();
    run(random, files)
}

fn some(random: &mut Random) -> Run {
    let n = 1 + random.below(40);
    let files = files(random, n);
    run(random, files)
}

fn most_files(random: &mut Random) -> Run {
    let files = files(random, YEAR_FILES);
    run(random, files)
}

fn over_files(random: &mut Random) -> Run {
    let n = YEAR_FILES + 1 + random.below(2);
    let files = files(random, n);
    run(random, files)
}

/// A bad file first, last or anywhere, in a short run.
fn one_bad(random: &mut Random) -> Run {
    let mut run = some(random);
    let last = run.files.len() - 1;
    let any = random.below(last + 1);
    let at = random.pick(&[0, last, any]);
    run.files[at] = bad_file(random);
    run
}

/// The 400th of 400 files is bad.
fn last_bad(random: &mut Random) -> Run {
    let mut run = most_files(random);
    run.files[YEAR_FILES - 1] = bad_file(random);
    run
}

/// The 401st file is bad, and is not read.
fn bad_past_all(random: &mut Random) -> Run {
    let mut run = over_files(random);
    run.files[YEAR_FILES] = bad_file(random);
    run
}

/// There is a 401st file, and one of the first 400 is bad.
fn bad_before_over(random: &mut Random) -> Run {
    let mut run = over_files(random);
    let at = random.pick(&[0, 1, YEAR_FILES / 2, YEAR_FILES - 1]);
    run.files[at] = bad_file(random);
    run
}

fn several_bad(random: &mut Random) -> Run {
    let mut run = some(random);
    for _ in 0..3 {
        let at = random.below(run.files.len());
        run.files[at] = bad_file(random);
    }
    run
}

/// Files with so many different pairs together, some of them several times; in one file, or in many.
fn pairs_files(random: &mut Random, n: usize) -> Vec<Vec<u8>> {
    let wide = random.pick(&[23, 256, 65_536]);
    let mut order = random.order(600);
    order.truncate(n);
    // 600 places in rows of 23 that lie far apart, in any order, give different pairs.
    let pair = |k: usize| ((k / 23 * (wide / 27).max(1)) as u16, (k % 23 * (wide / 23)) as u16);
    let many = random.pick(&[1, 2, 9, 60]);
    let mut shares: Vec<Vec<(u16, u16)>> = vec![Vec::new(); many];
    for &k in &order {
        shares[random.below(many)].push(pair(k));
        if random.once_in(4) {
            shares[random.below(many)].push(pair(k));
        }
    }
    shares.iter().map(|pairs| faces_file(random, pairs)).collect()
}

fn most_pairs(random: &mut Random) -> Run {
    let n = YEAR_PAIRS - random.pick(&[0, 0, 1]);
    let files = pairs_files(random, n);
    run(random, files)
}

fn over_pairs(random: &mut Random) -> Run {
    let n = YEAR_PAIRS + random.pick(&[1, 1, 2, 90]);
    let files = pairs_files(random, n);
    run(random, files)
}

/// More than 500 pairs, and a bad file behind them.
fn bad_behind_pairs(random: &mut Random) -> Run {
    let mut run = over_pairs(random);
    run.files.push(bad_file(random));
    run
}

/// More than 500 pairs and more than 400 files.
fn pairs_and_files(random: &mut Random) -> Run {
    let mut run = over_pairs(random);
    let more = YEAR_FILES + 1 - run.files.len();
    run.files.extend(files(random, more));
    run
}

/// One list or both end inside an entry.
fn torn(random: &mut Random) -> Run {
    let mut run = some(random);
    tear(random, &mut run.lists);
    run
}

fn torn_and_pairs(random: &mut Random) -> Run {
    let mut run = over_pairs(random);
    tear(random, &mut run.lists);
    run
}

/// A pack: the number of runs, then of each the lengths of the two lists, the number of files, the
/// lists, and of each file its length and the file.
pub fn bytes(runs: &[Run]) -> Vec<u8> {
    let mut out = (runs.len() as u16).to_le_bytes().to_vec();
    for run in runs {
        for length in [run.lists[0].len(), run.lists[1].len(), run.files.len()] {
            out.extend((length as u16).to_le_bytes());
        }
        run.lists.iter().for_each(|list| out.extend(list));
        for file in &run.files {
            out.extend((file.len() as u16).to_le_bytes());
            out.extend(file);
        }
    }
    out
}

/// The runs of a pack, or none where the bytes are no pack.
pub fn parse(bytes: &[u8]) -> Option<Vec<Run>> {
    let mut rest = bytes;
    let mut take = |n: usize| {
        let (part, more) = rest.split_at_checked(n)?;
        rest = more;
        Some(part.to_vec())
    };
    let mut runs = Vec::new();
    for _ in 0..numbers(&take(2)?)[0] {
        let head = numbers(&take(6)?);
        let lists = [take(head[0] as usize)?, take(head[1] as usize)?];
        let mut files = Vec::new();
        for _ in 0..head[2] {
            let length = numbers(&take(2)?)[0] as usize;
            files.push(take(length)?);
        }
        runs.push(Run { lists, files });
    }
    rest.is_empty().then_some(runs)
}
