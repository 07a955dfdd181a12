//! The self-check: laws that every overlay obeys, document 01 by its own ways, and heights of tide
//! by the machine's floats.

mod files;
mod laws;
pub mod melting;
pub mod orders;
mod tides;
mod turned;

use crate::check::{check, fault};
use crate::limits::MAPS;
use crate::literal;
use crate::make::triples::{sheet_files, Sheet};
use crate::make::{self, map_file};
use crate::map::{decode, Map};
use crate::meet;
use crate::overlay::{overlay, Overlay, Room};
use crate::random::Random;
use crate::segment::Segment;

/// What a check found wrong.
pub type Found = Result<(), String>;

/// An error with this text unless it holds.
fn holds(it: bool, what: impl Fn() -> String) -> Found {
    if it {
        Ok(())
    } else {
        Err(what())
    }
}

/// Runs n sheets, n single maps of any kinds and n hundred heights of tide; says how many of each
/// answer there were, or what is wrong with which input.
pub fn run(n: u64, seed: u64) -> Result<String, String> {
    let (mut done, mut refused, mut valid) = (0, 0, 0);
    for i in 0..n {
        let seed = Random::new(seed.wrapping_add(i), "selftest").bits();
        let file = map_file("any", seed).expect("any is a kind");
        let one = single(&file).map_err(|what| format!("make any {seed}: {what}"))?;
        valid += one as u64;
        meets(seed).map_err(|what| format!("make-meets {seed} 20: {what}"))?;
        let clashing = sheet_files("clashing", seed).expect("a kind");
        clashing.iter().try_for_each(|file| single(file).map(|_| ()))?;
        let files = sheet_files("any", seed).expect("any is a kind");
        tides::hundred(seed).map_err(|what| format!("tides {seed}: {what}"))?;
        match sheet(&files).map_err(|what| format!("sheet any {seed}: {what}"))? {
            true => done += 1,
            false => refused += 1,
        }
    }
    let maps = format!("{valid} maps valid, {} refused", n - valid);
    Ok(format!("{maps}; {done} overlays done, {refused} refused; no fault found\n"))
}

/// Checks of one file; says whether it is valid.
fn single(file: &[u8]) -> Result<bool, String> {
    let Ok(map) = decode(file) else { return Ok(false) };
    holds(map.bytes() == file, || "the bytes of the map differ from the file".into())?;
    let (found, literal) = (fault(&map), literal::check::fault(&map, None));
    holds(found == literal, || format!("check: {found:?}, by 01's words {literal:?}"))?;
    turned::checks(&map, found)?;
    Ok(found.is_none())
}

/// How two edges meet is what 01's parameters say, whichever edge and whichever end comes first.
fn meets(seed: u64) -> Found {
    for record in make::meets::file(seed, 20).chunks_exact(meet::ASK) {
        let ask = meet::parse(record);
        let Ok(found) = meet::asked(&ask) else { continue };
        let [s, t] = meet::edges(&ask);
        let literal = literal::meet::meeting(&s, &t);
        holds(found == literal, || format!("{ask:?}: {found}, by parameters {literal}"))?;
        let back = Segment { ax: s.bx, ay: s.by, bx: s.ax, by: s.ay };
        let turned = [meet::meeting(&t, &s), meet::meeting(&back, &t)];
        holds(turned == [found; 2], || format!("{ask:?}: {found}, turned {turned:?}"))?;
    }
    Ok(())
}

/// Checks of three maps; says whether there is an overlay.
fn sheet(files: &Sheet) -> Result<bool, String> {
    for file in files {
        single(file)?;
    }
    orders::six(files, &Room::FULL)?;
    let maps: Vec<Map> = files.iter().filter_map(|file| check(file).ok()).collect();
    let Ok(maps) = <[Map; MAPS]>::try_from(maps) else { return Ok(false) };
    let done = match overlay(&maps.each_ref(), &Room::FULL) {
        Ok(done) => done,
        Err(_) => return Ok(false),
    };
    by_01(&maps.each_ref(), &done)?;
    laws::all(&maps.each_ref(), &done)?;
    files::all(&done)?;
    turned::overlays(&maps, &done)?;
    orders::with_empty(&maps)?;
    melting::all(&maps, &done)?;
    Ok(true)
}

/// The tables and labels are those of document 01's own ways.
fn by_01(maps: &[&Map], done: &Overlay) -> Found {
    let (tables, labels) = literal::overlay::overlay(maps, None);
    holds(tables.vertices == done.tables.vertices, || "vertices differ from 01's".into())?;
    holds(tables.sources == done.tables.sources, || "sources differ from 01's".into())?;
    holds(tables.half_edges == done.tables.half_edges, || "half-edges differ from 01's".into())?;
    holds(tables.faces == done.tables.faces, || "faces differ from 01's".into())?;
    holds(labels == done.labels, || "labels differ from 01's".into())
}
