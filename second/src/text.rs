//! Maps as text: one line for each vertex and edge. README.md has the form.

use crate::map::{Edge, Map};
use std::collections::HashMap;
use std::fmt::Write;

/// Where the rows of a map stand in its text, lines counted from 1; and the names of its vertices.
#[derive(Clone, PartialEq, Eq, Debug, Default)]
pub struct Lines {
    pub vertices: Vec<usize>,
    pub edges: Vec<usize>,
    pub names: Vec<Option<String>>,
}

/// The map that a text stands for, or the line that is wrong and why.
pub fn parse(text: &str) -> Result<Map, String> {
    parse_lines(text).map(|(map, _)| map)
}

/// The same, with the lines of its vertices and edges.
pub fn parse_lines(text: &str) -> Result<(Map, Lines), String> {
    let mut reader = Reader::default();
    for (i, line) in text.lines().enumerate() {
        let words: Vec<&str> = line.split('#').next().unwrap_or("").split_whitespace().collect();
        reader.line(&words).map_err(|why| format!("line {}: {why}", i + 1))?;
        reader.lines.vertices.resize(reader.map.vertices.len(), i + 1);
        reader.lines.edges.resize(reader.map.edges.len(), i + 1);
    }
    reader.lines.names.resize(reader.map.vertices.len(), None);
    for (name, &v) in &reader.names {
        reader.lines.names[v as usize] = Some(name.clone());
    }
    let rows = reader.map.vertices.len().max(reader.map.edges.len());
    if rows > u16::MAX as usize {
        return Err("too many lines for a map file".to_string());
    }
    Ok((reader.map, reader.lines))
}

#[derive(Default)]
struct Reader {
    map: Map,
    names: HashMap<String, u16>,
    lines: Lines,
}

impl Reader {
    fn line(&mut self, words: &[&str]) -> Result<(), String> {
        match words {
            [] => Ok(()),
            ["vertex", x, y] => self.vertex(x, y),
            ["vertex", x, y, name] => {
                let number = self.map.vertices.len() as u16;
                if name.starts_with(|c: char| c.is_ascii_digit()) {
                    return Err(format!("a name must not begin with a digit: {name}"));
                }
                if self.names.insert(name.to_string(), number).is_some() {
                    return Err(format!("this name stands twice: {name}"));
                }
                self.vertex(x, y)
            }
            ["edge", from, to, left, right] => self.edge(from, to, left, right),
            ["path", left, right, ends @ ..] if ends.len() > 1 => {
                ends.windows(2).try_for_each(|pair| self.edge(pair[0], pair[1], left, right))
            }
            [word, ..] => {
                Err(format!("not a line of a map, or with too many or too few words: {word}"))
            }
        }
    }

    fn vertex(&mut self, x: &str, y: &str) -> Result<(), String> {
        self.map.vertices.push((number(x)?, number(y)?));
        Ok(())
    }

    /// The number of a vertex: a number as it stands, or that of a name.
    fn end(&self, word: &str) -> Result<u16, String> {
        match self.names.get(word) {
            Some(&v) => Ok(v),
            None => number(word),
        }
    }

    fn edge(&mut self, from: &str, to: &str, left: &str, right: &str) -> Result<(), String> {
        let (from, to) = (self.end(from)?, self.end(to)?);
        self.map.edges.push(Edge { from, to, left: number(left)?, right: number(right)? });
        Ok(())
    }
}

fn number<T: std::str::FromStr>(word: &str) -> Result<T, String> {
    word.parse().map_err(|_| format!("not a name, nor a number that fits: {word}"))
}

/// The text of a map, with the numbers of its vertices and edges as comments.
pub fn print(map: &Map) -> String {
    let mut out = String::new();
    for (v, (x, y)) in map.vertices.iter().enumerate() {
        let line = format!("vertex {x} {y}");
        writeln!(out, "{line:24}# {v}").expect("a string takes all text");
    }
    for (k, e) in map.edges.iter().enumerate() {
        let line = format!("edge {} {} {} {}", e.from, e.to, e.left, e.right);
        writeln!(out, "{line:24}# {k}").expect("a string takes all text");
    }
    out
}
