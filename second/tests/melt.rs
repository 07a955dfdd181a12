//! Cells melted together: sheets/merged, whose melted tables were worked out on paper, every refusal,
//! every slip, and soundings looked up in what is left.

use second::answer::Refusal;
use second::check::check;
use second::literal::slip::{melting_tells, OF_MELTING};
use second::make::melts::{make, KINDS};
use second::make::triples::sheet_files;
use second::map::Map;
use second::melt::melt_files;
use second::overlay::{overlay_files, Room};
use second::ovfile::{file_of, read};
use second::pack::{bytes, parse};
use second::selftest::melting;
use second::text;
use std::collections::HashSet;

/// The maps of sheets/merged, and an empty third.
fn merged() -> [Map; 3] {
    let map = |name: &str| {
        let path = format!("../sheets/merged/{name}.txt");
        let text = std::fs::read_to_string(path).expect("the sheet's text");
        text::parse(&text).expect("a map")
    };
    [map("zones"), map("blocks"), Map::default()]
}

/// Two zones of one label side by side with a fence in the second, and a block over the lower half. Of
/// the overlay's 11 vertices, 13 edges and 5 faces the line between the zones (two pieces) and the
/// fence go, and the fence's ends; 4 has two edges and stays.
///
/// ```text
///   4  6-----7-----8
///   2  3-----4-----5
///   0  0-----1-----2
///      0     4     8
/// ```
const VERTICES: [(i64, i64, u16); 9] = [
    (0, 0, 0),
    (4, 0, 1),
    (8, 0, 5),
    (0, 2, 3),
    (4, 2, 9),
    (8, 2, 7),
    (0, 4, 11),
    (4, 4, 17),
    (8, 4, 15),
];

const EDGES: &str = "\
edge 0 0 1 both 0 0
edge 1 0 3 both 5 3
edge 2 1 2 both 1 0
edge 3 2 5 both 2 1
edge 4 3 4 second 2
edge 5 3 6 first 5
edge 6 4 5 second 2
edge 7 5 8 first 2
edge 8 6 7 first 4
edge 9 7 8 first 3
";

/// Round all of it clockwise; the block's cell; the rest of the zone.
const WALKS: [(u16, &[u16]); 3] =
    [(0, &[1, 2, 10, 16, 18, 15, 7, 5]), (1, &[0, 4, 6, 13, 9, 3]), (2, &[8, 12, 14, 19, 17, 11])];

const FACES: [([u16; 3], u16, u16); 3] =
    [([0, 0, 0], 65_535, 1), ([1, 7, 0], 0, 0), ([1, 0, 0], 8, 0)];

#[test]
fn the_tables_worked_out_on_paper() {
    let files = merged().map(|map| map.bytes());
    let laid = overlay_files(&files, &Room::FULL).expect("valid maps").tables;
    assert_eq!((laid.vertices.len(), laid.edges(), laid.faces.len()), (11, 13, 5));
    let done = melt_files(&files, &Room::FULL).expect("valid maps");
    let t = &done.tables;
    let vertices: Vec<_> = t.vertices.iter().map(|v| (v.x, v.y, v.out)).collect();
    assert_eq!(vertices, VERTICES);
    assert!(t.vertices.iter().all(|v| v.d == 1));
    assert_eq!(t.edge_lines(), EDGES);
    let mut seen = 0;
    for (face, walk) in WALKS {
        for (i, &h) in walk.iter().enumerate() {
            let next = walk[(i + 1) % walk.len()];
            let row = t.half_edges[h as usize];
            assert_eq!((row.twin, row.follower, row.face), (h ^ 1, next, face), "half-edge {h}");
            assert_eq!(t.half_edges[next as usize].predecessor, h);
            assert_eq!(done.labels[h as usize], FACES[face as usize].0);
            seen += 1;
        }
    }
    assert_eq!((seen, t.half_edges.len()), (20, 20));
    let faces: Vec<_> = t.faces.iter().map(|f| (f.labels, f.least, f.holes)).collect();
    assert_eq!(faces, FACES);
    let file = file_of(t).expect("the file is written");
    assert_eq!(file.len(), 11 + 16 * 9 + 18 * 10 + 10 * 3);
    assert_eq!(read(&file, &Room::FULL).as_ref(), Ok(t));
    assert!(melting::of_maps(&merged()).is_ok());
}

/// "11 included, which is judged on the overlay before melting."
#[test]
fn room_is_judged_on_the_overlay() {
    let files = merged().map(|map| map.bytes());
    let melted = |v: usize, h: usize, s: usize, f: usize| {
        melt_files(&files, &Room::lent(v, h, s, f)).err().map(|r| (r.number, r.map, r.place))
    };
    assert_eq!(melted(11, 26, 13, 5), None);
    assert_eq!(melted(9, 20, 10, 3), Some((11, 0, 1)));
    assert_eq!(melted(10, 26, 13, 5), Some((11, 0, 1)));
    assert_eq!(melted(11, 25, 13, 3), Some((11, 0, 2)));
    assert_eq!(melted(11, 26, 12, 5), Some((11, 0, 2)));
    assert_eq!(melted(11, 26, 13, 4), Some((11, 0, 3)));
}

/// Refusals are the overlay's, whatever the maps and the room; each is reached, 11 also where what is
/// left would have room. Of what is done all goes now and then, or nothing, or a part.
#[test]
fn packs_reach_every_answer() {
    let entries = make(1, 480);
    assert_eq!(parse(&bytes(&entries)).map(|again| again.len()), Some(480));
    let (mut refusals, mut maps) = (HashSet::new(), HashSet::new());
    let (mut left_would_fit, mut all, mut part, mut none) = ([0; 4], 0, 0, 0);
    for entry in &entries {
        let laid = overlay_files(&entry.files, &entry.room());
        match melt_files(&entry.files, &entry.room()) {
            Ok(done) => {
                let laid = laid.expect("refused where melting is done").tables;
                let gone = laid.edges() - done.tables.edges();
                none += (gone == 0) as usize;
                all += (laid.edges() > 0 && gone == laid.edges()) as usize;
                part += (gone > 0 && gone < laid.edges()) as usize;
            }
            Err(refusal) => {
                assert_eq!(laid.err(), Some(refusal));
                let Refusal { number, map, place, .. } = refusal;
                refusals.insert(if number == 11 { (11, place) } else { (number, 0) });
                maps.insert(map);
                if number == 11 {
                    if let Ok(done) = melt_files(&entry.files, &Room::FULL) {
                        let t = done.tables;
                        let counts = [t.vertices.len(), t.edges(), t.faces.len()];
                        let room = entry.room();
                        let rooms = [room.vertices, room.edges, room.faces];
                        let fits = counts.iter().zip(rooms).all(|(&n, room)| n <= room);
                        left_would_fit[place] += fits as usize;
                    }
                }
            }
        }
    }
    let ten = (1..=10).filter(|&n| refusals.contains(&(n, 0))).count();
    assert!(ten == 10 && (1..=3).all(|place| refusals.contains(&(11, place))), "{refusals:?}");
    assert_eq!(maps, HashSet::from([0, 1, 2, 3]));
    assert!(left_would_fit[1..].iter().all(|&n| n >= 5), "{left_would_fit:?}");
    assert!(all >= 20 && none >= 20 && part >= 100, "{all} {none} {part}");
}

fn valid(files: &[Vec<u8>; 3]) -> Option<[Map; 3]> {
    let maps: Vec<Map> = files.iter().filter_map(|file| check(file).ok()).collect();
    maps.try_into().ok()
}

/// Melting that forgets the third labels, fences, or vertices without an edge: each shows often.
#[test]
fn packs_tell_slips() {
    let mut shown = vec![0; OF_MELTING.len()];
    for entry in make(1, 160) {
        let laid = overlay_files(&entry.files, &Room::FULL);
        let small = laid.is_ok_and(|laid| laid.tables.edges() < 300);
        let Some(maps) = valid(&entry.files).filter(|_| small) else { continue };
        for (count, &slip) in shown.iter_mut().zip(OF_MELTING) {
            *count += melting_tells(slip, &maps.each_ref()) as usize;
        }
    }
    assert!(shown.iter().all(|&n| n >= 10), "{shown:?}");
}

/// All laws of melting on sheets of each kind: labels that stay, faces that join, soundings.
#[test]
fn every_kind_keeps_the_laws() {
    for kind in KINDS {
        for seed in 0..8 {
            let files = sheet_files(kind.name, seed).expect("a kind");
            let laid = overlay_files(&files, &Room::FULL).is_ok();
            if let Some(maps) = valid(&files).filter(|_| laid) {
                let found = melting::of_maps(&maps);
                assert_eq!(found, Ok(()), "{} {seed}", kind.name);
            }
        }
    }
}

/// A zone with an island, both merged with what lies round them, and a hole that joins another.
#[test]
fn islands_go_and_holes_join() {
    let rings = |labels: [u16; 3]| {
        let ring = |v: usize, (low, high): (i64, i64), left: u16, right: u16| {
            format!(
                "vertex {low} {low}\nvertex {high} {low}\nvertex {high} {high}\nvertex {low} {high}\n\
                 path {left} {right} {} {} {} {} {}\n",
                v,
                v + 1,
                v + 2,
                v + 3,
                v
            )
        };
        let [a, b, c] = labels;
        let text = [ring(0, (0, 9), a, 0), ring(4, (2, 7), b, a), ring(8, (4, 5), c, b)].concat();
        text::parse(&text).expect("a map").bytes()
    };
    let empty = Map::default().bytes();
    let left = |labels: [u16; 3]| {
        let t = melt_files(&[&rings(labels), &empty, &empty], &Room::FULL).expect("valid").tables;
        let faces: Vec<_> = t.faces.iter().map(|f| (f.labels[0], f.holes)).collect();
        (t.vertices.len(), faces)
    };
    assert_eq!(left([1, 2, 3]), (12, vec![(0, 1), (1, 1), (2, 1), (3, 0)]));
    assert_eq!(left([1, 1, 3]), (8, vec![(0, 1), (1, 1), (3, 0)]));
    assert_eq!(left([1, 2, 2]), (8, vec![(0, 1), (1, 1), (2, 0)]));
    assert_eq!(left([0, 0, 3]), (4, vec![(0, 1), (3, 0)]));
    assert_eq!(left([1, 1, 1]), (4, vec![(0, 1), (1, 0)]));
    assert_eq!(left([0, 0, 0]), (0, vec![(0, 0)]));
}
