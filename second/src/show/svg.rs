//! The picture: cells in the colour of their zone, gaps in red, the edges of each map in a line of its
//! own, each face's number in it. North is up.

use super::label::{self, At};
use super::{decimal, exact, legend, Cell, NOTE};
use crate::limits::MAPS;
use crate::tables::Tables;
use std::fmt::Write;

/// The room of the sheet in the picture, and what stands round it.
const WIDE: f64 = 720.0;
const HIGH: f64 = 560.0;
const LEFT: f64 = 64.0;
const TOP: f64 = 76.0;
const BELOW: f64 = 44.0;

/// How the edges of each map are drawn. What lies above lets what lies below show.
pub const LINES: [&str; MAPS] = ["zones", "blocks", "bed"];

const STYLE: &str = "\
text{font-family:Helvetica,Arial,sans-serif;fill:#222}
.head{font-size:19px;font-weight:bold}.sub,.key{font-size:12px}.tick{font-size:10px;fill:#666}
.n{text-anchor:middle;font-weight:bold;paint-order:stroke;stroke:#fff;stroke-width:.2em}
.l{text-anchor:middle;fill:#333;paint-order:stroke;stroke:#fff;stroke-width:.32em}
.frame{fill:none;stroke:#bbb}.grid{stroke:#ddd}
.zones,.blocks,.bed{fill:none;stroke-linecap:round}
.zones{stroke:#14609e;stroke-width:2.6}.blocks{stroke:#222;stroke-width:1.2;stroke-dasharray:5 4}
.bed{stroke:#96521c;stroke-width:1.9;stroke-dasharray:.1 4}
.v{fill:#222}.none{fill:#f1f1ef}.bare{fill-opacity:.4}";

/// From the sheet to the picture.
struct Scale {
    low: At,
    high: At,
    unit: f64,
}

impl Scale {
    fn of(tables: &Tables) -> Scale {
        let places: Vec<At> = tables.vertices.iter().map(decimal).collect();
        let least = |c: fn(&At) -> f64| places.iter().map(c).reduce(f64::min).unwrap_or(0.0);
        let most = |c: fn(&At) -> f64| places.iter().map(c).reduce(f64::max).unwrap_or(0.0);
        let (low, high) = ((least(|p| p.0), least(|p| p.1)), (most(|p| p.0), most(|p| p.1)));
        let fits = |room: f64, size: f64| if size > 0.0 { room / size } else { f64::MAX };
        let unit = fits(WIDE, high.0 - low.0).min(fits(HIGH, high.1 - low.1));
        Scale { low, high, unit: if unit < f64::MAX { unit } else { 1.0 } }
    }

    fn at(&self, p: At) -> At {
        (LEFT + (p.0 - self.low.0) * self.unit, TOP + (self.high.1 - p.1) * self.unit)
    }

    /// Width and height of the sheet in the picture.
    fn size(&self) -> At {
        ((self.high.0 - self.low.0) * self.unit, (self.high.1 - self.low.1) * self.unit)
    }
}

/// A number of the picture, to a tenth or a hundredth and no longer than it need be.
pub fn px(n: f64) -> String {
    let text = format!("{n:.2}");
    let text = text.trim_end_matches('0').trim_end_matches('.');
    if text == "-0" {
        "0".to_string()
    } else {
        text.to_string()
    }
}

/// The picture of an overlay, with a name over it.
pub fn text(name: &str, tables: &Tables, cells: &[Cell]) -> String {
    let scale = Scale::of(tables);
    let (wide, high) = scale.size();
    let key = legend::text(LEFT + wide + 28.0, TOP + 4.0, tables, cells);
    let full = (LEFT + wide + 28.0 + legend::WIDE, TOP + BELOW + high.max(key.high));
    let mut out = format!(
        "<svg xmlns=\"http://www.w3.org/2000/svg\" viewBox=\"0 0 {0} {1}\" width=\"{0}\" \
         height=\"{1}\">\n",
        px(full.0.ceil()),
        px(full.1.ceil())
    );
    let name = escaped(name);
    out += &format!("<title>{name}</title>\n<desc>{NOTE}</desc>\n<style>\n{STYLE}\n</style>\n");
    out += legend::PATTERN;
    out += "<rect width=\"100%\" height=\"100%\" fill=\"#fff\"/>\n";
    out += &format!("<text class=\"head\" x=\"{}\" y=\"34\">{name}</text>\n", px(LEFT));
    out += &format!("<text class=\"sub\" x=\"{}\" y=\"54\">{}</text>\n", px(LEFT), counts(tables));
    out += &axes(&scale);
    out += &shapes(&scale, tables, cells);
    out += &lines(&scale, tables);
    out += &corners(&scale, tables);
    out += &numbers(&scale, tables, cells);
    out + &key.text + "</svg>\n"
}

fn counts(tables: &Tables) -> String {
    let gaps = match tables.gaps() {
        1 => "1 gap".to_string(),
        n => format!("{n} gaps"),
    };
    let (v, e, f) = (tables.vertices.len(), tables.edges(), tables.faces.len());
    format!("{v} vertices, {e} edges, {f} faces with the outside, {gaps}; {NOTE}")
}

/// A frame with round numbers of x and y.
fn axes(scale: &Scale) -> String {
    let (wide, high) = scale.size();
    let mut out = String::new();
    for x in ticks(scale.low.0, scale.high.0) {
        let (px_, _) = scale.at((x as f64, 0.0));
        let (top, foot) = (TOP + high, TOP + high + 18.0);
        out += &format!(
            "<path class=\"grid\" d=\"M{0} {1}V{2}\"/><text class=\"tick\" text-anchor=\"middle\" \
             x=\"{0}\" y=\"{3}\">{x}</text>\n",
            px(px_),
            px(TOP),
            px(top),
            px(foot)
        );
    }
    for y in ticks(scale.low.1, scale.high.1) {
        let (_, py) = scale.at((0.0, y as f64));
        out += &format!(
            "<path class=\"grid\" d=\"M{0} {1}H{2}\"/><text class=\"tick\" text-anchor=\"end\" \
             x=\"{3}\" y=\"{4}\">{y}</text>\n",
            px(LEFT),
            px(py),
            px(LEFT + wide),
            px(LEFT - 9.0),
            px(py + 3.5)
        );
    }
    let (l, t) = (px(LEFT), px(TOP));
    let frame = format!("x=\"{l}\" y=\"{t}\" width=\"{}\" height=\"{}\"", px(wide), px(high));
    out + &format!("<rect class=\"frame\" {frame}/>\n")
}

/// Whole numbers from low to high, 4 to 9 of them where there are so many, a round step apart.
fn ticks(low: f64, high: f64) -> Vec<i64> {
    let steps = (0..).flat_map(|k| [1, 2, 5].map(|n| n * 10i64.pow(k)));
    let step = steps.take(24).find(|&s| (high - low) / s as f64 <= 8.0).unwrap_or(i64::MAX);
    let first = (low / step as f64).ceil() as i64;
    let last = (high / step as f64).floor() as i64;
    (first..=last).map(|i| i * step).collect()
}

/// The cells as areas.
fn shapes(scale: &Scale, tables: &Tables, cells: &[Cell]) -> String {
    let zones = legend::zones(cells);
    let mut out = String::from("<g fill-rule=\"evenodd\">\n");
    for cell in cells {
        let ring = |ring: &Vec<usize>| {
            let places = ring.iter().map(|&v| {
                let (x, y) = scale.at(decimal(&tables.vertices[v]));
                format!("{} {}", px(x), px(y))
            });
            format!("M{}Z", places.collect::<Vec<_>>().join("L"))
        };
        let path: String = cell.rings().map(ring).collect();
        let fill = legend::fill(cell, &zones);
        let said = legend::sentence(cell);
        writeln!(out, "<path {fill} d=\"{path}\"><title>{said}</title></path>")
            .expect("a string takes all text");
    }
    out + "</g>\n"
}

/// The edges of each map, one path a map; an edge of several maps is drawn once for each.
fn lines(scale: &Scale, tables: &Tables) -> String {
    let mut out = String::new();
    for (m, class) in LINES.iter().enumerate() {
        let edge = |k: usize| {
            let ends = [2 * k, 2 * k + 1].map(|h| tables.half_edges[h].origin as usize);
            let [a, b] = ends.map(|v| scale.at(decimal(&tables.vertices[v])));
            format!("M{} {}L{} {}", px(a.0), px(a.1), px(b.0), px(b.1))
        };
        let from = (0..tables.edges()).filter(|&k| tables.sources[k][m].is_some());
        let path: String = from.map(edge).collect();
        if !path.is_empty() {
            out += &format!("<path class=\"{class}\" d=\"{path}\"/>\n");
        }
    }
    out
}

/// The vertices as dots; each says its place, as decimals and exactly.
fn corners(scale: &Scale, tables: &Tables) -> String {
    let size = px(if tables.vertices.len() > 100 { 1.3 } else { 2.4 });
    let mut out = String::from("<g class=\"v\">\n");
    for (v, row) in tables.vertices.iter().enumerate() {
        let (x, y) = decimal(row);
        let (at, exact) = (scale.at((x, y)), exact(row));
        let said = match row.d {
            1 => format!("vertex {v}: {exact}"),
            _ => format!("vertex {v}: {x:.6} {y:.6}, exactly {exact}"),
        };
        let (cx, cy) = (px(at.0), px(at.1));
        writeln!(
            out,
            "<circle cx=\"{cx}\" cy=\"{cy}\" r=\"{size}\"><title>{said}</title></circle>"
        )
        .expect("a string takes all text");
    }
    out + "</g>\n"
}

/// The number of each face, as large as its cell lets it be; and its labels where there is room.
fn numbers(scale: &Scale, tables: &Tables, cells: &[Cell]) -> String {
    let mut out = String::from("<g pointer-events=\"none\">\n");
    for cell in cells {
        let place = |&v: &usize| scale.at(decimal(&tables.vertices[v]));
        let rings: Vec<Vec<At>> = cell.rings().map(|r| r.iter().map(place).collect()).collect();
        let ((x, y), room) = label::inside(&rings);
        let number = cell.face.to_string();
        let size = (room * 2.4 / number.len() as f64).min(room * 1.1).clamp(0.5, 16.0);
        let labels = legend::labels(cell, tables);
        let with_labels = room > 17.0 && labels.chars().count() as f64 * 4.8 < room * 2.0;
        let base = y + if with_labels { 0.0 } else { size * 0.36 };
        let (x, base, size) = (px(x), px(base), px(size));
        writeln!(
            out,
            "<text class=\"n\" x=\"{x}\" y=\"{base}\" font-size=\"{size}\">{number}</text>"
        )
        .expect("a string takes all text");
        if with_labels {
            let y = px(y + 13.0);
            writeln!(out, "<text class=\"l\" x=\"{x}\" y=\"{y}\" font-size=\"10\">{labels}</text>")
                .expect("a string takes all text");
        }
    }
    out + "</g>\n"
}

/// Text as it may stand in an SVG file.
fn escaped(text: &str) -> String {
    text.replace('&', "&amp;").replace('<', "&lt;").replace('>', "&gt;")
}
