//! The cells as GeoJSON: one feature a cell, a polygon with its holes.

use super::{decimal, exact, Cell, NOTE};
use crate::tables::Tables;

/// A feature to a line. The property `exact` has the same corners as the rings, exactly: corners
/// parted by commas, rings by semicolons, the first corner not said again.
pub fn text(tables: &Tables, cells: &[Cell]) -> String {
    let features: Vec<String> = cells.iter().map(|cell| feature(tables, cell)).collect();
    format!(
        "{{\"type\": \"FeatureCollection\", \"description\": \"{NOTE}\", \"features\": [\n{}\n]}}\n",
        features.join(",\n")
    )
}

fn feature(tables: &Tables, cell: &Cell) -> String {
    let [zone, block, bed] = cell.labels;
    let rings: Vec<String> = cell.rings().map(|ring| closed(tables, ring)).collect();
    let corners = |ring: &Vec<usize>| {
        ring.iter().map(|&v| exact(&tables.vertices[v])).collect::<Vec<_>>().join(", ")
    };
    let exact: Vec<String> = cell.rings().map(corners).collect();
    format!(
        "{{\"type\": \"Feature\", \"properties\": {{\"face\": {}, \"zone\": {zone}, \
         \"block\": {block}, \"bed\": {bed}, \"gap\": {}, \"exact\": \"{}\"}}, \
         \"geometry\": {{\"type\": \"Polygon\", \"coordinates\": [{}]}}}}",
        cell.face,
        cell.is_gap(),
        exact.join("; "),
        rings.join(", ")
    )
}

/// A ring whose last position is its first again, as GeoJSON asks.
fn closed(tables: &Tables, ring: &[usize]) -> String {
    let place = |&v: &usize| {
        let (x, y) = decimal(&tables.vertices[v]);
        format!("[{x}, {y}]")
    };
    let places: Vec<String> = ring.iter().chain(&ring[..1]).map(place).collect();
    format!("[{}]", places.join(", "))
}
