//! The commands of a surveyor's desk: check and text, show and import. Their exit status tells: 0 done,
//! 1 refused, 2 a file that cannot be opened or written.

use crate::save;
use second::answer::Refusal;
use second::check::check;
use second::import::import;
use second::map::{decode, Map};
use second::overlay::Room;
use second::ovfile::read;
use second::place;
use second::show;
use second::tables::Tables;
use second::text::{self, Lines};
use std::io::Write;
use std::path::Path;
use std::process::ExitCode;

/// How a command of the desk ended, with what is said on standard output, or on standard error.
enum End {
    Done(String),
    Refused { line: String, why: String },
    Wrong { line: String, why: String },
}

/// What could not be done at all.
fn wrong(why: String) -> End {
    End::Wrong { line: String::new(), why }
}

impl End {
    /// Says it, the line before the reason. A reader that has seen enough may close the pipe.
    fn told(self) -> u8 {
        let (out, error, code) = match self {
            End::Done(text) => (text, String::new(), 0),
            End::Refused { line, why } => (line, why, 1),
            End::Wrong { line, why } => (line, why, 2),
        };
        let mut to = std::io::stdout();
        let _ = to.write_all(out.as_bytes()).and_then(|()| to.flush());
        if !error.is_empty() {
            eprintln!("{error}");
        }
        code
    }
}

/// The command, if it is one of the desk's.
pub fn run(args: &[&str]) -> Option<ExitCode> {
    let code = match args {
        ["check", files @ ..] if !files.is_empty() => {
            files.iter().map(|file| checked(file).told()).max().unwrap_or(0)
        }
        ["text", file, out] => made(file, out).told(),
        ["show", file, form] => shown(file, form)?.told(),
        ["import", file, label, out] => imported(file, label, out).told(),
        _ => return None,
    };
    Some(ExitCode::from(code))
}

fn opened(path: &str) -> Result<Vec<u8>, End> {
    std::fs::read(path).map_err(|why| wrong(format!("cannot open {path}: {why}")))
}

/// 01's line of a map, and a sentence that says where where it is refused.
fn line(path: &str, map: &Map, lines: Option<&Lines>) -> End {
    match check(&map.bytes()).err() {
        None => End::Done(format!("ok {} {}\n", map.vertices.len(), map.edges.len())),
        Some(refusal) => End::Refused {
            line: format!("{refusal}\n"),
            why: format!("{path}: {}", place::sentence(map, &refusal, lines)),
        },
    }
}

/// The check of a map file, or of a text map by its name. A file that cannot be opened counts as a file
/// of 0 bytes, and is told.
fn checked(path: &str) -> End {
    if path.ends_with(".txt") {
        return match parsed(path) {
            Ok((map, lines)) => line(path, &map, Some(&lines)),
            Err(end) => end,
        };
    }
    let file = match std::fs::read(path) {
        Ok(file) => file,
        Err(why) => {
            let line = format!("{}\n", Refusal::new(1, 0));
            return End::Wrong { line, why: format!("cannot open {path}: {why}") };
        }
    };
    match decode(&file) {
        Ok(map) => line(path, &map, None),
        Err(refusal) => End::Refused {
            line: format!("{refusal}\n"),
            why: format!("{path}: {}", place::file_sentence(&refusal)),
        },
    }
}

fn parsed(path: &str) -> Result<(Map, Lines), End> {
    let text = String::from_utf8_lossy(&opened(path)?).into_owned();
    text::parse_lines(&text).map_err(|why| wrong(format!("{path}: {why}")))
}

/// A map file of a text map. It is written where it is refused, too: a text can say any map.
fn made(path: &str, out: &str) -> End {
    match parsed(path) {
        Ok((map, lines)) => match save(out, &map.bytes()) {
            Ok(()) => line(path, &map, Some(&lines)),
            Err(why) => wrong(why),
        },
        Err(end) => end,
    }
}

/// The text map of the polygons in a GeoJSON file. Where it is refused nothing is written.
fn imported(path: &str, label: &str, out: &str) -> End {
    let file = match opened(path) {
        Ok(file) => file,
        Err(end) => return end,
    };
    let map = match import(&String::from_utf8_lossy(&file), label) {
        Ok(map) => map,
        Err(why) => return End::Refused { line: String::new(), why: format!("{path}: {why}") },
    };
    let label: String = label.chars().filter(|c| !c.is_control()).collect();
    let head = format!("# Polygons of a GeoJSON file, with their property {label} as labels.\n");
    match save(out, (head + &text::print(&map)).as_bytes()) {
        Ok(()) => End::Done(format!("ok {} {}\n", map.vertices.len(), map.edges.len())),
        Err(why) => wrong(why),
    }
}

/// None where there is no such form.
fn shown(path: &str, form: &str) -> Option<End> {
    let form: fn(&str, &Tables, &[show::Cell]) -> String = match form {
        "--svg" => show::svg::text,
        "--geojson" => |_, tables, cells| show::geojson::text(tables, cells),
        "--csv" => |_, tables, cells| show::csv::text(tables, cells),
        _ => return None,
    };
    let file = match opened(path) {
        Ok(file) => file,
        Err(end) => return Some(end),
    };
    let name = Path::new(path).file_stem().unwrap_or_default().to_string_lossy();
    Some(match read(&file, &Room::FULL) {
        Ok(tables) => match show::cells(&tables) {
            Ok(cells) => End::Done(form(&name, &tables, &cells)),
            Err(why) => End::Refused { line: String::new(), why: format!("{path}: {why}") },
        },
        Err(refusal) => End::Refused { line: format!("{refusal}\n"), why: String::new() },
    })
}
