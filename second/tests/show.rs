//! Overlay files to look at: the sample's picture and layer byte for byte, and what the cells of other
//! sheets are.

use second::limits::MAPS;
use second::map::{Edge, Map};
use second::melt::melt_files;
use second::overlay::{overlay_files, Room};
use second::ovfile::file_of;
use second::show::{cells, csv, decimal, geojson, label, svg, Cell};
use second::tables::Tables;

/// The tables of a sheet of `sheets/`.
fn sheet(name: &str) -> Tables {
    let path = |map: &str| format!("{}/../sheets/{name}/{map}.zmp", env!("CARGO_MANIFEST_DIR"));
    let there = ["zones", "blocks", "bed"].iter().take(MAPS);
    let files: Vec<Vec<u8>> = there.filter_map(|map| std::fs::read(path(map)).ok()).collect();
    overlay_files(&files, &Room::FULL).expect("the sheet is laid").tables
}

/// What is left of a sheet of two maps when it is melted.
fn melted(name: &str) -> Tables {
    let path = |map| format!("{}/../sheets/{name}/{map}.zmp", env!("CARGO_MANIFEST_DIR"));
    let files = ["zones", "blocks"].map(|map| std::fs::read(path(map)).expect("a map"));
    melt_files(&files, &Room::FULL).expect("the sheet is melted").tables
}

fn data(name: &str) -> String {
    let path = format!("{}/tests/data/{name}", env!("CARGO_MANIFEST_DIR"));
    std::fs::read_to_string(path).expect("a file of tests/data")
}

#[test]
fn the_sample() {
    let tables = sheet("sample");
    let cells = cells(&tables).expect("cells");
    assert_eq!(svg::text("sample", &tables, &cells), data("sample.svg"));
    assert_eq!(geojson::text(&tables, &cells), data("sample.geojson"));
    assert_eq!(csv::text(&tables, &cells), data("sample.csv"));
}

/// The pictures of the documents are those of the sheets.
#[test]
fn the_pictures_of_the_documents() {
    for name in ["sample", "mudflat", "estuary", "coast", "bed", "merged", "melted"] {
        let tables = if name == "melted" { melted("merged") } else { sheet(name) };
        let path = format!("{}/../docs/sheets/{name}.svg", env!("CARGO_MANIFEST_DIR"));
        let stored = std::fs::read_to_string(path).expect("a picture of docs/sheets");
        let picture = svg::text(name, &tables, &cells(&tables).expect("cells"));
        assert!(picture == stored, "docs/sheets/{name}.svg is not its picture");
    }
}

/// Each cell has its face's triple and as many holes as its row says, the gaps are as many as the
/// listing counts, and the number of each stands inside it.
#[test]
fn the_cells_of_the_sheets() {
    for name in ["sample", "mudflat", "estuary", "coast", "bed"] {
        let tables = sheet(name);
        let cells = cells(&tables).expect("cells");
        assert_eq!(cells.len() + 1, tables.faces.len());
        assert_eq!(cells.iter().filter(|cell| cell.is_gap()).count(), tables.gaps());
        for cell in &cells {
            let row = &tables.faces[cell.face];
            assert_eq!((cell.labels, cell.holes.len()), (row.labels, row.holes as usize));
            let place = |&v: &usize| decimal(&tables.vertices[v]);
            let rings: Vec<_> = cell.rings().map(|r| r.iter().map(place).collect()).collect();
            assert!(label::inside(&rings).1 > 0.0, "{name}: the number of face {}", cell.face);
        }
    }
}

fn one(vertices: &[(i16, i16)], edges: &[(u16, u16, u16, u16)]) -> Vec<Cell> {
    let edge = |&(from, to, left, right): &(u16, u16, u16, u16)| Edge { from, to, left, right };
    let map = Map { vertices: vertices.to_vec(), edges: edges.iter().map(edge).collect() };
    let files = [map.bytes(), Map::default().bytes()];
    let tables = overlay_files(&files, &Room::FULL).expect("one map").tables;
    cells(&tables).expect("cells")
}

/// A square with a triangle in it that touches its corner (one walk, two rings), and an edge that ends
/// in the open, which no ring has.
#[test]
fn a_walk_that_touches_itself() {
    let vertices = [(0, 0), (9, 0), (9, 9), (0, 9), (4, 2), (2, 4), (7, 7)];
    let square = [(0, 1, 1, 0), (1, 2, 1, 0), (2, 3, 1, 0), (3, 0, 1, 0)];
    let triangle = [(0, 4, 2, 1), (4, 5, 2, 1), (5, 0, 2, 1)];
    let edges: Vec<_> = square.into_iter().chain(triangle).chain([(2, 6, 1, 1)]).collect();
    let cells = one(&vertices, &edges);
    assert_eq!(cells.len(), 2);
    let sizes: Vec<_> =
        cells.iter().map(|c| (c.labels[0], c.outline.len(), c.holes.len())).collect();
    assert!(sizes.contains(&(1, 4, 1)) && sizes.contains(&(2, 3, 0)), "{sizes:?}");
}

/// A file whose places are not those of an overlay is told, not drawn: the reader lets it pass.
#[test]
fn no_outline() {
    let mut tables = sheet("sample");
    tables.vertices.iter_mut().for_each(|v| v.x = 0);
    assert!(file_of(&tables).is_ok());
    assert_eq!(cells(&tables), Err("face 1 has no outline".to_string()));
    tables.vertices[3].d = 0;
    assert_eq!(cells(&tables), Err("vertex 3 has D 0".to_string()));
}
