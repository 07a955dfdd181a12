//! What the colours, lines and numbers of the picture mean.

use super::svg::{px, LINES};
use super::Cell;
use crate::tables::Tables;
use std::collections::BTreeSet;

/// The width of the legend.
pub const WIDE: f64 = 230.0;

/// The colours of the zones in turn, by the order of their labels. Red is for gaps.
const COLOURS: [&str; 12] = [
    "#9ecae1", "#c7e59b", "#fdd995", "#cbb8de", "#96d6c4", "#e8cfae", "#b9c6f2", "#e9ec8f",
    "#a9cfa6", "#d3d3ef", "#f0c2e0", "#bfe3ea",
];

/// Most zones that the legend lists.
const LISTED: usize = 14;

/// A gap is red, and striped for those who do not see red.
pub const PATTERN: &str = "<defs><pattern id=\"gap\" width=\"7\" height=\"7\" \
    patternUnits=\"userSpaceOnUse\" patternTransform=\"rotate(45)\"><rect width=\"7\" height=\"7\" \
    fill=\"#f79a9a\"/><rect width=\"2\" height=\"7\" fill=\"#e0303a\"/></pattern></defs>\n";

/// The zones of the sheet, in the order of their labels.
pub fn zones(cells: &[Cell]) -> Vec<u16> {
    let all: BTreeSet<u16> = cells.iter().map(|cell| cell.labels[0]).filter(|&z| z > 0).collect();
    all.into_iter().collect()
}

/// How a cell is filled: by its zone, paler in no block; a gap red.
pub fn fill(cell: &Cell, zones: &[u16]) -> String {
    let [zone, block, _] = cell.labels;
    match zones.binary_search(&zone) {
        Err(_) if block > 0 => "fill=\"url(#gap)\"".to_string(),
        Err(_) => "class=\"none\"".to_string(),
        Ok(i) => {
            let bare = if block == 0 { " class=\"bare\"" } else { "" };
            format!("fill=\"{}\"{bare}", COLOURS[i % COLOURS.len()])
        }
    }
}

/// What is said of a cell where one points at it.
pub fn sentence(cell: &Cell) -> String {
    let said = |word: &str, label: u16| match label {
        0 => format!("no {word}"),
        _ => format!("{word} {label}"),
    };
    let [zone, block, bed] = cell.labels;
    let gap = if cell.is_gap() { ", a gap" } else { "" };
    let bed = if bed > 0 { format!(", bed {bed}") } else { String::new() };
    format!("face {}: {}, {}{bed}{gap}", cell.face, said("zone", zone), said("block", block))
}

/// Does a third map leave anything?
fn has_bed(tables: &Tables) -> bool {
    tables.sources.iter().any(|s| s[2].is_some()) || tables.faces.iter().any(|f| f.labels[2] > 0)
}

/// The labels of a cell: zone, block, and bed where the sheet has one; a dash for none.
pub fn labels(cell: &Cell, tables: &Tables) -> String {
    let maps = if has_bed(tables) { 3 } else { 2 };
    let word = |&label: &u16| if label > 0 { label.to_string() } else { "–".to_string() };
    cell.labels[..maps].iter().map(word).collect::<Vec<_>>().join(" · ")
}

/// The legend, and how high it is.
pub struct Legend {
    pub text: String,
    pub high: f64,
}

/// A line of the legend: what is shown, and what it means.
struct Lines {
    x: f64,
    y: f64,
    text: String,
}

impl Lines {
    fn line(&mut self, sign: &str, words: &str) {
        let (x, y) = (px(self.x), px(self.y));
        self.text += &format!("<g transform=\"translate({x} {y})\">{sign}");
        self.text += &format!("<text class=\"key\" x=\"38\" y=\"11\">{words}</text></g>\n");
        self.y += 21.0;
    }

    fn area(&mut self, fill: &str, words: &str) {
        let sign = format!("<rect {fill} width=\"28\" height=\"14\" stroke=\"#999\"/>");
        self.line(&sign, words);
    }
}

pub fn text(x: f64, y: f64, tables: &Tables, cells: &[Cell]) -> Legend {
    let mut out = Lines { x, y, text: String::new() };
    let zones = zones(cells);
    for (i, zone) in zones.iter().take(LISTED).enumerate() {
        let fill = format!("fill=\"{}\"", COLOURS[i % COLOURS.len()]);
        out.area(&fill, &format!("zone {zone}"));
    }
    if zones.len() > LISTED {
        out.line("", &format!("and {} more zones", zones.len() - LISTED));
    }
    if cells.iter().any(|cell| cell.labels[0] > 0 && cell.labels[1] == 0) {
        out.area("class=\"bare\" fill=\"#8aa\"", "paler: in no block");
    }
    out.area("fill=\"url(#gap)\"", "gap: in a block, in no zone");
    if cells.iter().any(|cell| cell.labels[0] == 0 && cell.labels[1] == 0) {
        out.area("class=\"none\"", "in no zone and in no block");
    }
    out.y += 8.0;
    let words = ["edge of the zones", "edge of the blocks", "edge of the bed"];
    for (class, words) in LINES.iter().zip(words).take(if has_bed(tables) { 3 } else { 2 }) {
        out.line(&format!("<path class=\"{class}\" d=\"M1 7H27\"/>"), words);
    }
    out.y += 8.0;
    let number = "<text class=\"n\" x=\"14\" y=\"12\" font-size=\"13\">2</text>";
    out.line(number, "number of the face");
    let (sign, words) = match has_bed(tables) {
        true => ("1 · 7 · 9", "zone, block, bed"),
        false => ("1 · 7", "zone, block"),
    };
    let sign = format!("<text class=\"l\" x=\"14\" y=\"11\" font-size=\"10\">{sign}</text>");
    out.line(&sign, &format!("its {words} (– none)"));
    out.line("", "point at a cell or a corner");
    out.y -= 6.0;
    out.line("", "and its labels or place are told");
    Legend { high: out.y - y, text: out.text }
}
