//! GeoJSON polygons with whole coordinates, to a map: an edge with the label of the polygon at its left
//! and of the one at its right. Nothing is moved: what does not fit is refused with its place.

pub mod json;
mod plane;

use crate::check::fault;
use crate::limits::REACH;
use crate::map::Map;
use json::Json;
use std::fmt;

/// Whole coordinates.
pub type At = (i64, i64);

/// Where a ring stands in the file, all counted from 0; ring 0 of a polygon is its outline.
#[derive(Clone, Copy, Debug, PartialEq, Eq)]
pub struct Whence {
    pub feature: usize,
    /// The polygon of a multipolygon.
    pub polygon: Option<usize>,
    pub ring: usize,
}

impl fmt::Display for Whence {
    fn fmt(&self, out: &mut fmt::Formatter) -> fmt::Result {
        write!(out, "feature {}", self.feature)?;
        if let Some(polygon) = self.polygon {
            write!(out, ", polygon {polygon}")?;
        }
        write!(out, ", ring {}", self.ring)
    }
}

/// A ring: its corners, the first not said again at the end.
#[derive(Clone, Debug)]
pub struct Ring {
    pub whence: Whence,
    pub corners: Vec<At>,
}

/// A polygon: its label, its outline and its holes.
#[derive(Clone, Debug)]
pub struct Polygon {
    pub label: u16,
    pub rings: Vec<Ring>,
}

/// The map of the polygons in a GeoJSON text; their labels are the property of this name.
pub fn import(text: &str, property: &str) -> Result<Map, String> {
    let map = plane::map(polygons(&json::parse(text)?, property)?)?;
    match fault(&map) {
        Some(refusal) => Err(format!("the map would be refused: {refusal}")),
        None => Ok(map),
    }
}

fn polygons(file: &Json, property: &str) -> Result<Vec<Polygon>, String> {
    let features = match file.get("type").and_then(Json::text) {
        Some("FeatureCollection") => file.get("features").and_then(Json::list),
        Some("Feature") => Some(std::slice::from_ref(file)),
        _ => None,
    };
    let features = features.ok_or("not a FeatureCollection of GeoJSON")?;
    let mut out = Vec::new();
    for (n, feature) in features.iter().enumerate() {
        let label = label(feature, property).map_err(|why| format!("feature {n}: {why}"))?;
        let geometry = feature.get("geometry").unwrap_or(&Json::Null);
        let parts = geometry.get("coordinates").and_then(Json::list);
        match (geometry.get("type").and_then(Json::text), parts) {
            (Some("Polygon"), Some(rings)) => out.push(polygon(n, None, label, rings)?),
            (Some("MultiPolygon"), Some(parts)) => {
                for (p, part) in parts.iter().enumerate() {
                    let wrong = || format!("feature {n}, polygon {p}: not a list of rings");
                    out.push(polygon(n, Some(p), label, part.list().ok_or_else(wrong)?)?);
                }
            }
            (Some("Polygon" | "MultiPolygon"), None) => {
                return Err(format!("feature {n}: its polygon has no list of coordinates"));
            }
            (kind, _) => {
                let kind = kind.unwrap_or("none");
                return Err(format!("feature {n}: its geometry is no polygon: {kind}"));
            }
        }
    }
    Ok(out)
}

fn label(feature: &Json, property: &str) -> Result<u16, String> {
    let properties = feature.get("properties").unwrap_or(&Json::Null);
    let value = properties.get(property).ok_or(format!("it has no property {property}"))?;
    let label = value.whole().and_then(|label| u16::try_from(label).ok());
    let wrong =
        || format!("its {property} is {}, not a whole number from 0 to 65535", value.said());
    label.ok_or_else(wrong)
}

fn polygon(
    feature: usize,
    polygon: Option<usize>,
    label: u16,
    rings: &[Json],
) -> Result<Polygon, String> {
    let read = |(ring, positions): (usize, &Json)| {
        let whence = Whence { feature, polygon, ring };
        let corners = corners(positions).map_err(|why| format!("{whence}: {why}"))?;
        Ok::<Ring, String>(Ring { whence, corners })
    };
    let rings = rings.iter().enumerate().map(read).collect::<Result<Vec<_>, _>>()?;
    match rings.is_empty() {
        true => Err(format!("feature {feature}: a polygon has no ring")),
        false => Ok(Polygon { label, rings }),
    }
}

/// The corners of a ring whose last position is its first again.
fn corners(positions: &Json) -> Result<Vec<At>, String> {
    let positions = positions.list().ok_or("not a list of positions")?;
    let mut corners = positions.iter().map(position).collect::<Result<Vec<At>, String>>()?;
    if corners.len() < 4 {
        return Err("it has fewer than four positions".to_string());
    }
    let (first, last) = (corners[0], corners[corners.len() - 1]);
    if first != last {
        let ((x, y), (u, v)) = (first, last);
        return Err(format!("it begins at {x} {y} and does not end there, but at {u} {v}"));
    }
    corners.pop();
    Ok(corners)
}

fn position(position: &Json) -> Result<At, String> {
    let numbers = position.list().unwrap_or(&[]);
    let [x, y] = numbers else {
        return Err(format!("a position has {} numbers, not two", numbers.len()));
    };
    let said = format!("{} {}", x.said(), y.said());
    let (x, y) = match (x.whole(), y.whole()) {
        (Some(x), Some(y)) => (x, y),
        _ => return Err(format!("{said} is not whole")),
    };
    match x.abs() > REACH || y.abs() > REACH {
        true => Err(format!("{said} lies beyond {REACH}")),
        false => Ok((x, y)),
    }
}
