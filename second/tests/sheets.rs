//! The worked sheets S1 to S12 of document 01.

use second::answer::Refusal;
use second::check::check;
use second::map::{Edge, Map};
use second::overlay::{overlay_files, Overlay, Room};
use second::ovfile::{file_as, file_of, read};
use second::point::{side, Point};
use second::version::Version;

/// A map of edges (from, to, left, right).
fn map(vertices: &[(i16, i16)], edges: &[(u16, u16, u16, u16)]) -> Map {
    let edge = |&(from, to, left, right): &(u16, u16, u16, u16)| Edge { from, to, left, right };
    Map { vertices: vertices.to_vec(), edges: edges.iter().map(edge).collect() }
}

/// One edge with labels 0.
fn lone(a: (i16, i16), b: (i16, i16)) -> Map {
    map(&[a, b], &[(0, 1, 0, 0)])
}

/// A square with its edges in turn.
fn square(low: i16, high: i16, left: [u16; 4], right: u16) -> Map {
    let corners = [(low, low), (high, low), (high, high), (low, high)];
    let edges: Vec<_> = (0..4).map(|k| (k, (k + 1) % 4, left[k as usize], right)).collect();
    map(&corners, &edges)
}

fn overlay(first: &Map, second: &Map) -> Overlay {
    overlay_files(&[first.bytes(), second.bytes()], &Room::FULL).expect("the overlay is done")
}

fn refusal(map: &Map) -> Refusal {
    check(&map.bytes()).expect_err("the map is refused")
}

fn has_vertex(overlay: &Overlay, x: i64, y: i64, d: i64) -> bool {
    overlay.tables.vertices.iter().any(|v| (v.x, v.y, v.d) == (x, y, d))
}

#[test]
fn s1_a_crossing() {
    let done = overlay(&lone((0, 0), (3, 2)), &lone((0, 2), (3, 1)));
    assert!(has_vertex(&done, 6, 4, 3));
    assert_eq!(done.tables.vertices.len(), 5);
}

#[test]
fn s2_an_end_on_an_edge() {
    let done = overlay(&lone((0, 0), (4, 0)), &lone((2, 0), (2, 3)));
    assert!(has_vertex(&done, 2, 0, 1));
    assert_eq!(done.tables.vertices.len(), 4);
}

#[test]
fn s3_a_shared_stretch() {
    let done = overlay(&lone((0, 0), (4, 0)), &lone((2, 0), (6, 0)));
    let sources = vec![[Some(0), None, None], [Some(0), Some(0), None], [None, Some(0), None]];
    assert_eq!(done.tables.sources, sources);
}

#[test]
fn s4_a_side() {
    let [a, b, p] = [(0, 0), (4, 3), (3, 2)].map(|(x, y)| Point::whole(x, y));
    assert_eq!(side(&a, &b, &p), -1);
}

#[test]
fn s5_two_empty_maps() {
    let tables = overlay(&Map::default(), &Map::default()).tables;
    assert_eq!((tables.vertices.len(), tables.edges(), tables.faces.len()), (0, 0, 1));
}

#[test]
fn s6_one_edge() {
    let tables = overlay(&lone((0, 0), (3, 2)), &Map::default()).tables;
    assert_eq!((tables.vertices.len(), tables.edges(), tables.faces.len()), (2, 1, 1));
    assert_eq!(tables.faces[0].holes, 1);
}

#[test]
fn s7_the_range() {
    assert!(check(&lone((-16_000, 0), (0, 0)).bytes()).is_ok());
    assert_eq!(refusal(&lone((-16_001, 0), (0, 0))), Refusal::new(5, 0));
}

#[test]
fn s8_the_number_of_vertices() {
    let of = |n: i16| Map { vertices: (0..n).map(|x| (x, 0)).collect(), edges: Vec::new() };
    assert_eq!(refusal(&of(200)), Refusal::new(9, 0));
    assert_eq!(refusal(&of(201)), Refusal::new(3, 0));
}

#[test]
fn s9_labels_that_differ() {
    assert_eq!(refusal(&square(0, 4, [1, 1, 2, 1], 0)), Refusal::new(10, 2));
}

#[test]
fn s10_a_label_outside() {
    assert_eq!(refusal(&square(0, 4, [1; 4], 5)), Refusal::new(10, 7));
}

#[test]
fn s11_a_block_within_a_zone() {
    let done = overlay(&square(0, 10, [1; 4], 0), &square(4, 6, [7; 4], 0)).tables;
    assert_eq!((done.vertices.len(), done.edges()), (8, 8));
    let labels: Vec<_> = done.faces.iter().map(|f| f.labels).collect();
    assert_eq!(labels, [[0, 0, 0], [1, 0, 0], [1, 7, 0]]);
    assert_eq!(done.faces[1].holes, 1);
}

#[test]
fn s12_the_listing() {
    let done = overlay(&square(0, 4, [1; 4], 0), &square(2, 6, [7; 4], 0)).tables;
    let lines = [
        "vertices 10 edges 12 faces 4",
        "face 0 0 0 - 1",
        "face 1 1 0 0 0",
        "face 2 1 7 6 0",
        "face 3 0 7 10 0",
        "gaps 1",
    ];
    assert_eq!(done.listing(), lines.join("\n") + "\n");
    let file = file_of(&done).expect("the file is written");
    assert_eq!(file.len(), 427);
    for (version, length) in [(Version::FIRST, 375), (Version::SECOND, 395)] {
        let older = file_as(version, &done).expect("an older version holds two maps");
        assert_eq!(older.len(), length);
        assert_eq!(read(&older, &Room::FULL), read(&file, &Room::FULL));
    }
    assert_eq!(read(&file, &Room::FULL), Ok(done));
}
