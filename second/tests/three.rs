//! Three maps: sheets/bed, whose tables were worked out on paper before any program printed them.
//!
//! ```text
//!   y
//!   6  13-----------14----------15----------16      zone  (0, 0) to (6, 6), label 1
//!      |    A       |    E      |           |       block (2, 0) to (7, 5), label 7
//!   5  |    9-------10----------11----12    |       bed   (3, 0) to (9, 6), label 9, and in it
//!      |    |   B   |    C      |  F  |  G  |             the rock 6 7 8, label 4
//!   3  |    |       |      8    |     |     |
//!   1  |    |       |  6---7    |     |     |
//!   0  0----1-------2-----------3-----4-----5
//!   x  0    2       3  4   5    6     7     9
//! ```
//!
//! Vertices. Corners: 4 of the zone, 4 of the block, 7 of the bed; (6, 0) and the others on the ground
//! line are corners of one map on edges of others. Meetings that are no corner: (6, 5), where the
//! zone's right side crosses the block's top, and (3, 5), where the block's top crosses the bed's
//! left side, no edge of the first map being near. Together 15 + 2 = 17, by y, then x.

use second::answer::Refusal;
use second::check::check;
use second::literal;
use second::map::Map;
use second::overlay::{overlay_files, Room};
use second::ovfile::{file_as, file_of, read};
use second::pack::{bytes, in_all_orders, parse, with_orders, Entry};
use second::selftest::orders::{self, Laid};
use second::tables::Tables;
use second::text;
use second::version::Version;

/// The maps of sheets/bed: zones, blocks, bed.
fn maps() -> [Map; 3] {
    ["zones", "blocks", "bed"].map(|name| {
        let path = format!("../sheets/bed/{name}.txt");
        let text = std::fs::read_to_string(path).expect("the sheet's text");
        text::parse(&text).expect("a map")
    })
}

fn laid(files: &[Vec<u8>]) -> Result<Tables, Refusal> {
    overlay_files(files, &Room::FULL).map(|done| done.tables)
}

/// Vertices with their least half-edges: that of the edge of least number at the vertex, 2k if the
/// vertex is its lower end, else 2k + 1.
const VERTICES: [(i64, i64, u16); 17] = [
    (0, 0, 0),  // 0: edge 0 begins here
    (2, 0, 1),  // 1: edge 0 ends here
    (3, 0, 5),  // 2: edge 2 ends here
    (6, 0, 9),  // 3: edge 4 ends here
    (7, 0, 13), // 4: edge 6 ends here
    (9, 0, 17), // 5: edge 8 ends here
    (4, 1, 22), // 6: edge 11 begins here
    (5, 1, 23), // 7: edge 11 ends here
    (5, 3, 25), // 8: edge 12 ends here
    (2, 5, 7),  // 9: edge 3 ends here
    (3, 5, 11), // 10: edge 5 ends here
    (6, 5, 15), // 11: edge 7 ends here
    (7, 5, 19), // 12: edge 9 ends here
    (0, 6, 3),  // 13: edge 1 ends here
    (3, 6, 33), // 14: edge 16 ends here
    (6, 6, 37), // 15: edge 18 ends here
    (9, 6, 21), // 16: edge 10 ends here
];

/// Edges, from each vertex upward those to the smaller vertex first: sides 0 to 3 of each square are
/// bottom, right, top and left, and 4 to 6 are those of the rock.
const EDGES: &str = "\
edge 0 0 1 first 0
edge 1 0 13 first 3
edge 2 1 2 both 0 0
edge 3 1 9 second 3
edge 4 2 3 all 0 0 0
edge 5 2 10 third 3
edge 6 3 4 second 0 third 0
edge 7 3 11 first 1
edge 8 4 5 third 0
edge 9 4 12 second 1
edge 10 5 16 third 1
edge 11 6 7 third 4
edge 12 6 8 third 6
edge 13 7 8 third 5
edge 14 9 10 second 2
edge 15 10 11 second 2
edge 16 10 14 third 3
edge 17 11 12 second 2
edge 18 11 15 first 1
edge 19 13 14 first 2
edge 20 14 15 first 2 third 2
edge 21 15 16 third 2
";

/// Walks with their faces, each followed with its face at the left: an outer walk counter-clockwise,
/// a hole walk clockwise. Going up an edge k is half-edge 2k, going down 2k + 1. They have 44
/// half-edges together, each once.
const WALKS: [(u16, &[u16]); 9] = [
    (0, &[1, 2, 38, 40, 42, 21, 17, 13, 9, 5]), // round all of it: the hole of the outside
    (1, &[0, 6, 28, 32, 39, 3]),                // A, west and north of the block
    (2, &[4, 10, 29, 7]),                       // B, between block's and bed's left sides
    (3, &[8, 14, 31, 11]),                      // C, in all three
    (4, &[12, 18, 35, 15]),                     // F, east of the zone, in the block
    (5, &[16, 20, 43, 37, 34, 19]),             // G, in the bed alone
    (6, &[22, 26, 25]),                         // the rock
    (3, &[23, 24, 27]),                         // round the rock: the hole of C
    (7, &[30, 36, 41, 33]),                     // E, north of the block, in zone and bed
];

/// Faces: the triple, the least half-edge, the holes. Numbered by the least half-edges 0, 4, 8, 12,
/// 16, 22, 30. 17 - 22 + 8 = 1 + 2 pieces.
const FACES: [([u16; 3], u16, u16); 8] = [
    ([0, 0, 0], 65_535, 1),
    ([1, 0, 0], 0, 0),
    ([1, 7, 0], 4, 0),
    ([1, 7, 9], 8, 1),
    ([0, 7, 9], 12, 0), // the one gap: a block and no zone
    ([0, 0, 9], 16, 0), // no gap: neither
    ([1, 7, 4], 22, 0),
    ([1, 0, 9], 30, 0),
];

#[test]
fn the_tables_worked_out_on_paper() {
    let files = maps().map(|map| map.bytes());
    let done = overlay_files(&files, &Room::FULL).expect("three valid maps");
    let t = &done.tables;
    let vertices: Vec<_> = t.vertices.iter().map(|v| (v.x, v.y, v.out)).collect();
    assert_eq!(vertices, VERTICES);
    assert!(t.vertices.iter().all(|v| v.d == 1));
    assert_eq!(t.edge_lines(), EDGES);
    let mut seen = 0;
    for (face, walk) in WALKS {
        for (i, &h) in walk.iter().enumerate() {
            let next = walk[(i + 1) % walk.len()];
            let row = t.half_edges[h as usize];
            assert_eq!((row.twin, row.follower, row.face), (h ^ 1, next, face), "half-edge {h}");
            assert_eq!(t.half_edges[next as usize].predecessor, h);
            let labels = FACES[face as usize].0;
            assert_eq!(done.labels[h as usize], labels, "the triple of half-edge {h}");
            seen += 1;
        }
    }
    assert_eq!((seen, t.half_edges.len()), (44, 44));
    let faces: Vec<_> = t.faces.iter().map(|f| (f.labels, f.least, f.holes)).collect();
    assert_eq!(faces, FACES);
    assert_eq!(t.gaps(), 1);
    let maps = maps();
    let (tables, labels) = literal::overlay::overlay(&maps.each_ref(), None);
    assert_eq!((&tables, &labels), (t, &done.labels));
}

/// 11 + 16 * 17 + 18 * 22 + 10 * 8 bytes. No older version holds a third map.
#[test]
fn its_file() {
    let tables = laid(&maps().map(|map| map.bytes())).expect("three valid maps");
    let file = file_of(&tables).expect("the file is written");
    assert_eq!((file.len(), file[3]), (759, 3));
    assert_eq!(read(&file, &Room::FULL), Ok(tables.clone()));
    assert!(file_as(Version::FIRST, &tables).is_err());
    assert!(file_as(Version::SECOND, &tables).is_err());
}

/// "The two-map overlay is the one with an empty third map, third labels all 0."
#[test]
fn an_empty_third_map() {
    let [zones, blocks, _] = maps().map(|map| map.bytes());
    let two = laid(&[zones.clone(), blocks.clone()]).expect("two valid maps");
    let three = laid(&[zones, blocks, Map::default().bytes()]).expect("three valid maps");
    assert_eq!(two, three);
    assert!(three.sources.iter().all(|sources| sources[2].is_none()));
    assert!(three.faces.iter().all(|face| face.labels[2] == 0));
    assert_eq!((three.vertices.len(), three.edges(), three.faces.len()), (9, 11, 4));
    let newest = file_of(&three).expect("version 3");
    assert_eq!(newest.len(), 11 + 16 * 9 + 18 * 11 + 10 * 4);
    for (version, length) in [(Version::FIRST, 345), (Version::SECOND, 363)] {
        let older = file_as(version, &three).expect("an older version holds two maps");
        assert_eq!(older.len(), length);
        assert_eq!(read(&older, &Room::FULL), Ok(three.clone()));
    }
}

/// Refusals: the maps in their order, the third last; then room.
#[test]
fn refusals_of_the_third_map() {
    let good = maps().map(|map| map.bytes());
    let bad = maps().map(|mut map| {
        map.edges[1].left = 5;
        map.bytes()
    });
    let alone = Refusal::new(10, 0);
    assert_eq!(bad.clone().map(|file| check(&file).err()), [Some(alone); 3]);
    let with = |which: [bool; 3]| {
        let files = [0, 1, 2].map(|m| if which[m] { bad[m].clone() } else { good[m].clone() });
        laid(&files).err()
    };
    let refused = |map| Some(alone.in_map(map));
    assert_eq!(with([false, false, true]), refused(3));
    assert_eq!(with([false, true, true]), refused(2));
    assert_eq!(with([true, false, true]), refused(1));
    assert_eq!(with([true, true, true]), refused(1));
    assert_eq!(with([false, false, false]), None);
    let no_room = Room { vertices: 0, edges: 0, faces: 0 };
    let laid = |third: &[u8]| {
        let files = [&good[0][..], &good[1], third];
        overlay_files(&files, &no_room).err()
    };
    assert_eq!(laid(&bad[2]), refused(3));
    assert_eq!(laid(&[]), Some(Refusal::new(1, 0).in_map(3)));
    assert_eq!(laid(&good[2]), Some(Refusal::new(11, 1)));
}

/// Room for 17 vertices, 22 edges and 8 faces is just enough; one less of each is refused.
#[test]
fn room_for_three_maps() {
    let files = maps().map(|map| map.bytes());
    let laid = |v: usize, h: usize, s: usize, f: usize| {
        overlay_files(&files, &Room::lent(v, h, s, f)).err().map(|r| (r.number, r.map, r.place))
    };
    assert_eq!(laid(17, 44, 22, 8), None);
    assert_eq!(laid(16, 43, 21, 7), Some((11, 0, 1)));
    assert_eq!(laid(17, 43, 22, 7), Some((11, 0, 2)));
    assert_eq!(laid(17, 44, 21, 7), Some((11, 0, 2)));
    assert_eq!(laid(17, 44, 22, 7), Some((11, 0, 3)));
}

/// Ask 11 over the sheet: in all six orders, with all its room and with one vertex too few, and with
/// one and two bad maps. What differs in another order is found.
#[test]
fn every_order() {
    let good = maps().map(|map| map.bytes());
    let laid = |files: &[Vec<u8>; 3], vertices| {
        let room = Room { vertices, ..Room::FULL };
        orders::six(files, &room).map(|laid| match laid {
            Laid::Done => "done",
            Laid::NoRoom => "no room",
            Laid::Bad => "bad",
        })
    };
    assert_eq!(laid(&good, 17), Ok("done"));
    assert_eq!(laid(&good, 16), Ok("no room"));
    let mut bad = good.clone();
    bad[1].pop();
    assert_eq!(laid(&bad, 17), Ok("bad"));
    bad[2][0] = b'X';
    assert_eq!(laid(&bad, 17), Ok("bad"));
}

/// A pack with its other orders: five of three maps, one of two.
#[test]
fn orders_in_a_pack() {
    let rows = [1_000, 4_000, 2_000, 1_334];
    let three = Entry { rows, files: maps().map(|map| map.bytes()) };
    let mut two = three.clone();
    two.files[2] = Map::default().bytes();
    let all = with_orders(vec![three.clone(), two.clone()]);
    assert_eq!(all.len(), 2 + 5 + 1);
    assert_eq!(parse(&bytes(&all)).map(|entries| entries.len()), Some(8));
    let last = &all[7].files;
    assert_eq!([&last[0], &last[1]], [&two.files[1], &two.files[0]]);
    let answers: Vec<String> = all[2..7].iter().map(Entry::answer).collect();
    assert!(answers.iter().all(|a| a.starts_with("done 17 22 8 ") && *a != three.answer()));
    assert!(in_all_orders(&all).is_ok());
}
