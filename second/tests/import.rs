//! Polygons to maps: the estuary there and back again, what is joined and split, and every refusal.

use second::import::import;
use second::import::json::{parse, Json};
use second::map::Map;
use second::overlay::{overlay_files, Room};
use second::show::{cells, geojson};
use second::text;
use std::collections::BTreeSet;

fn sheet(name: &str) -> Vec<u8> {
    let path = format!("{}/../sheets/{name}.zmp", env!("CARGO_MANIFEST_DIR"));
    std::fs::read(path).expect("a map of sheets/")
}

/// A map as sets: its vertices; its edges by their places, from the lesser end.
fn sets(map: &Map) -> (BTreeSet<(i16, i16)>, BTreeSet<[i64; 6]>) {
    let edge = |e: &second::map::Edge| {
        let e = if map.place(e.from) < map.place(e.to) { *e } else { e.turned() };
        let ((x, y), (u, v)) = (map.place(e.from), map.place(e.to));
        [x, y, u, v, e.left as i64, e.right as i64]
    };
    (map.vertices.iter().copied().collect(), map.edges.iter().map(edge).collect())
}

/// A map laid over nothing, as GeoJSON, and imported again.
fn there_and_back(file: &[u8]) -> Map {
    let files = [file.to_vec(), Map::default().bytes()];
    let tables = overlay_files(&files, &Room::FULL).expect("a valid map").tables;
    let text = geojson::text(&tables, &cells(&tables).expect("cells"));
    import(&text, "zone").expect("imported")
}

#[test]
fn the_round_trip() {
    for name in ["estuary/zones", "estuary/blocks", "mudflat/zones", "coast/zones", "coast/blocks"]
    {
        let file = sheet(name);
        let map = second::check::check(&file).expect("a valid map");
        let back = there_and_back(&file);
        assert_eq!(sets(&back), sets(&map), "{name}");
        assert_eq!((back.vertices.len(), back.edges.len()), (map.vertices.len(), map.edges.len()));
    }
}

/// The estuary's listing is the same, for the overlay numbers by place.
#[test]
fn the_listing_of_the_round_trip() {
    let (zones, blocks) = (sheet("estuary/zones"), sheet("estuary/blocks"));
    let back = text::parse(&text::print(&there_and_back(&zones))).expect("a text map");
    let listing = |zones: Vec<u8>| {
        let files = [zones, blocks.clone()];
        overlay_files(&files, &Room::FULL).expect("laid").tables.listing()
    };
    assert_eq!(listing(back.bytes()), listing(zones));
}

/// A collection of polygons: the label and the coordinates of each.
fn of(polygons: &[(&str, &str)]) -> Result<Map, String> {
    let feature = |(label, rings): &(&str, &str)| {
        format!(
            "{{\"type\": \"Feature\", \"properties\": {{\"zone\": {label}}}, \
             \"geometry\": {{\"type\": \"Polygon\", \"coordinates\": [{rings}]}}}}"
        )
    };
    let features: Vec<String> = polygons.iter().map(feature).collect();
    let all = features.join(",");
    import(&format!("{{\"type\": \"FeatureCollection\", \"features\": [{all}]}}"), "zone")
}

const SQUARE: &str = "[[0,0],[4,0],[4,4],[0,4],[0,0]]";

/// Two squares that share part of a side: it is split where the other has a corner, and stands once.
/// The second runs clockwise, as older files do.
#[test]
fn shared_and_split() {
    let map = of(&[("1", SQUARE), ("2", "[[4.0,1],[4,3e0],[8,3],[8,1],[4,1]]")]).expect("imported");
    assert_eq!((map.vertices.len(), map.edges.len()), (8, 9));
    assert!(sets(&map).1.contains(&[4, 1, 4, 3, 1, 2]));
    assert!(sets(&map).1.contains(&[4, 0, 4, 1, 1, 0]));
}

/// A hole, and another polygon in it; a label 0 is nothing.
#[test]
fn a_hole() {
    let holed = format!("{SQUARE}, [[1,1],[3,1],[3,3],[1,3],[1,1]]");
    let map = of(&[("1", &holed), ("0", "[[1,1],[3,1],[3,3],[1,3],[1,1]]")]).expect("imported");
    assert_eq!((map.vertices.len(), map.edges.len()), (8, 8));
    assert!(sets(&map).1.contains(&[1, 1, 3, 1, 0, 1]));
}

/// A multipolygon, by itself, and the place of what is wrong in it.
#[test]
fn a_multipolygon() {
    let of = |second: &str| {
        let text = format!(
            "{{\"type\": \"Feature\", \"properties\": {{\"zone\": 3}}, \"geometry\": \
             {{\"type\": \"MultiPolygon\", \"coordinates\": [[{SQUARE}], [{second}]]}}}}"
        );
        import(&text, "zone")
    };
    let map = of("[[4,4],[8,4],[8,8],[4,4]]").expect("imported");
    assert_eq!((map.vertices.len(), map.edges.len()), (6, 7));
    let fraction = of("[[4,4],[8,4],[8,8.25],[4,4]]");
    assert_eq!(fraction, Err("feature 0, polygon 1, ring 0: 8 8.25 is not whole".to_string()));
}

fn refused(polygons: &[(&str, &str)], want: &str) {
    assert_eq!(of(polygons).expect_err("refused"), want);
}

#[test]
fn refusals_of_rings() {
    let ring = |ring: &str, want: &str| refused(&[("1", SQUARE), ("2", ring)], want);
    ring("[[5,5],[9,5.5],[9,9],[5,5]]", "feature 1, ring 0: 9 5.5 is not whole");
    ring("[[5,5],[16001,5],[9,9],[5,5]]", "feature 1, ring 0: 16001 5 lies beyond 16000");
    ring("[[5,5],[9,5,1],[9,9],[5,5]]", "feature 1, ring 0: a position has 3 numbers, not two");
    ring("[[5,5],[9,5],[5,5]]", "feature 1, ring 0: it has fewer than four positions");
    let open = "feature 1, ring 0: it begins at 5 5 and does not end there, but at 6 6";
    ring("[[5,5],[9,5],[9,9],[6,6]]", open);
    ring("[[5,5],[9,5],[9,5],[9,9],[5,5]]", "feature 1, ring 0: it comes to 9 5 twice");
    ring("[[5,5],[9,5],[7,5],[7,9],[5,5]]", "feature 1, ring 0: it comes to 7 5 twice");
    let outside = "feature 1, ring 1: the edge from 20 20 to 21 21 of a hole does not lie inside \
                   its outline";
    ring("[[5,5],[9,5],[9,9],[5,5]], [[20,20],[21,21],[21,20],[20,20]]", outside);
}

#[test]
fn refusals_of_labels() {
    let label = |label: &str, said: &str| {
        let want = format!("feature 0: its zone is {said}, not a whole number from 0 to 65535");
        refused(&[(label, SQUARE)], &want);
    };
    label("65536", "65536");
    label("-1", "-1");
    label("1.5", "1.5");
    label("\"one\"", "\"one\"");
    label("null", "null");
    assert_eq!(of(&[("65535", SQUARE)]).expect("imported").edges[0].left, 65_535);
}

#[test]
fn refusals_of_overlaps() {
    let with = |ring: &str, want: &str| refused(&[("1", SQUARE), ("2", ring)], want);
    let crosses =
        "feature 0, ring 0: the edge from 4 0 to 4 4 crosses feature 1, ring 0: the edge \
                   from 3 3 to 6 2, at 4 8/3";
    with("[[3,3],[6,2],[6,6],[3,3]]", crosses);
    let inside = "feature 1, ring 0: the edge from 1 1 to 2 1 runs inside of feature 0, ring 0: \
                  they overlap";
    with("[[1,1],[2,1],[2,2],[1,1]]", inside);
    let twice = "feature 0, ring 0: the edge from 0 0 to 4 0 has on the same side feature 1, \
                 ring 0: they overlap";
    with(SQUARE, twice);
    let round = "feature 0, ring 0: the edge from 0 0 to 4 0 runs inside of feature 1, ring 0: \
                 they overlap";
    with("[[-9,-9],[9,-9],[9,9],[-9,9],[-9,-9]]", round);
}

/// A corner beside an edge and not on it: nothing is snapped. Where a polygon fills the gap it is none.
#[test]
fn a_gap_of_a_hair() {
    let north = "[[0,0],[1000,1],[1000,500],[0,500],[0,0]]";
    let south = "[[0,0],[0,-500],[1000,-500],[1000,1],[500,0],[0,0]]";
    let hair = "feature 0, ring 0: the edge from 0 0 to 1000 1 passes 500 0 at a distance of \
                0.5000 with nothing between: a gap of a hair";
    refused(&[("1", north), ("2", south)], hair);
    let sliver = "[[0,0],[500,0],[1000,1],[0,0]]";
    assert!(of(&[("1", north), ("2", south), ("0", sliver)]).is_ok());
}

#[test]
fn refusals_of_files() {
    let said = |text: &str| import(text, "zone").expect_err("refused");
    assert_eq!(said("{\n\"type\": }"), "line 2: not JSON: a value should stand here");
    assert_eq!(said("[]"), "not a FeatureCollection of GeoJSON");
    let line = "{\"type\":\"Feature\",\"properties\":{\"zone\":1},\"geometry\":{\"type\":\
                \"LineString\",\"coordinates\":[[0,0],[1,1]]}}";
    assert_eq!(said(line), "feature 0: its geometry is no polygon: LineString");
    let many: Vec<String> = (0..201).map(|i| format!("[{i},{}]", i * i / 4)).collect();
    let ring = format!("[{}, [0,0]]", many.join(","));
    refused(&[("1", &ring)], "201 vertices, and a map has 200 at most");
}

#[test]
fn numbers_and_texts() {
    let whole = |text: &str| parse(text).expect("JSON").whole();
    assert_eq!(
        ["4", "4.0", "-0.0", "1.5e1", "-12e2", "120e-1"].map(whole),
        [4, 4, 0, 15, -1200, 12].map(Some)
    );
    assert_eq!(["4.5", "1e-1", "1e99", "0.30", "9007199254740993.5"].map(whole), [None; 5]);
    assert_eq!(parse(" \"a\\u00e9\\ud83d\\ude00\\n\" "), Ok(Json::Text("aé😀\n".to_string())));
    for bad in ["01", "1.", "-", "[1,]", "{\"a\":1,}", "\"a", "nul", "1 2", "{1:2}"] {
        assert!(parse(bad).is_err(), "{bad}");
    }
    assert!(parse(&"[".repeat(100_000)).is_err());
}
