//! Laws of overlay files: reading returns what was written, writing what was read; the refusals
//! of reader and writer.

use super::{holds, Found};
use crate::literal;
use crate::make::overlay_damage::damaged;
use crate::make::table_damage;
use crate::overlay::{Overlay, Room};
use crate::ovfile::{file_as, file_of, read, write};
use crate::random::Random;
use crate::tables::Tables;
use crate::version::Version;

/// Damaged files for each overlay.
const TRIES: u64 = 8;

pub fn all(done: &Overlay) -> Found {
    let file = file_of(&done.tables).map_err(|refusal| format!("the writer: {refusal}"))?;
    let again = read(&file, &Room::FULL).map_err(|refusal| format!("the reader: {refusal}"))?;
    holds(again == done.tables, || "reading does not return what was written".into())?;
    let tries = if file.len() < 20_000 { TRIES } else { 1 };
    for seed in 0..tries {
        let mut random = Random::new(seed + file.len() as u64, "files");
        reader(&damaged(&mut random, &file), &mut random)?;
        writer(&done.tables, &mut random)?;
    }
    for &version in Version::ALL {
        if let Ok(file) = file_as(version, &done.tables) {
            let same = read(&file, &Room::FULL).as_ref() == Ok(&done.tables);
            holds(same, || format!("version {} is not read as it was", version.number))?;
            reader(&file, &mut Random::new(0, "files"))?;
        }
    }
    Ok(())
}

/// The reader refuses as 01's words say. What it takes is written as the same bytes in its own
/// version, and in the newest it is read as the same tables.
fn reader(file: &[u8], random: &mut Random) -> Found {
    let room = match random.below(3) {
        0 => Room { vertices: random.below(20), edges: random.below(20), faces: random.below(9) },
        _ => Room::FULL,
    };
    let found = read(file, &room);
    let literal = literal::reader::fault(file, [room.vertices, room.edges, room.faces]);
    let refusal = found.as_ref().err().copied();
    holds(refusal == literal, || format!("reader: {refusal:?}, by 01's words {literal:?}"))?;
    match found {
        Ok(tables) => {
            let here = Version::in_head(file).ok_or("a file of no version is read")?;
            let twice = file_as(here, &tables)?;
            holds(twice == file, || "writing what was read gives other bytes".into())?;
            let newest = file_of(&tables).map_err(|refusal| format!("the writer: {refusal}"))?;
            let same = read(&newest, &Room::FULL) == Ok(tables);
            holds(same, || "the newest version of what was read is read otherwise".into())
        }
        Err(_) => Ok(()),
    }
}

/// The writer refuses as 01's words say, and what it writes is read as the counted rows.
fn writer(tables: &Tables, random: &mut Random) -> Found {
    let order = table_damage::damaged(random, tables);
    let written = write(&order.tables, order.counts, order.length);
    let literal = literal::writer::fault(&order.tables, order.counts, order.length);
    let refusal = written.as_ref().err().copied();
    holds(refusal == literal, || format!("writer: {refusal:?}, by 01's words {literal:?}"))?;
    let Ok(file) = written else { return Ok(()) };
    let mut counted = order.tables;
    counted.vertices.truncate(order.counts.vertices);
    counted.half_edges.truncate(2 * order.counts.edges);
    counted.sources.truncate(order.counts.edges);
    counted.faces.truncate(order.counts.faces);
    let read = read(&file, &Room::FULL);
    holds(read == Ok(counted), || "what was written is not read back".into())
}
