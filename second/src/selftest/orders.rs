//! Which map comes first (02, Ask 11), for every order of the maps (Ask 13).

use super::{holds, Found};
use crate::answer::Refusal;
use crate::check::check;
use crate::limits::MAPS;
use crate::make::triples::Sheet;
use crate::map::Map;
use crate::overlay::{overlay, overlay_files, Overlay, Room};

/// An order of the maps: `order[k]` is the one that is handed in as map k + 1.
pub type Order = [usize; MAPS];

/// What comes of a sheet in every order.
pub enum Laid {
    Done,
    NoRoom,
    Bad,
}

/// All orders, the given one first.
pub fn all() -> Vec<Order> {
    vec![[0, 1, 2], [1, 0, 2], [0, 2, 1], [2, 1, 0], [1, 2, 0], [2, 0, 1]]
}

/// Lays three files in all six orders, in the same room. With valid maps vertices, half-edges and
/// faces are the same, but for sources and labels, which are in the order of the maps; a refusal for
/// room is the same. The first bad map that is handed in is named by its place in the order, and
/// with what it is refused alone.
pub fn six(files: &Sheet, room: &Room) -> Result<Laid, String> {
    let alone = files.each_ref().map(|file| check(file).err());
    let given = overlay_files(files, room);
    for order in all() {
        let laid = overlay_files(&order.map(|m| &files[m]), room);
        let bad = (0..MAPS).find(|&k| alone[order[k]].is_some());
        let named = bad.and_then(|k| alone[order[k]].map(|r| r.in_map(k as u16 + 1)));
        same(&given, &laid, order, named).map_err(|what| format!("order {order:?}: {what}"))?;
    }
    Ok(match (given, alone.iter().any(Option::is_some)) {
        (Ok(_), _) => Laid::Done,
        (Err(_), false) => Laid::NoRoom,
        (Err(_), true) => Laid::Bad,
    })
}

/// The answer in an order against the given one, and against the refusal of the first bad map.
fn same(
    given: &Result<Overlay, Refusal>,
    laid: &Result<Overlay, Refusal>,
    order: Order,
    named: Option<Refusal>,
) -> Found {
    match (given, laid, named) {
        (Err(_), Err(laid), Some(named)) => {
            holds(*laid == named, || format!("{laid} should be {named}"))
        }
        (Err(given), Err(laid), None) => {
            let room = given.number == 11 && given.map == 0;
            holds(room && given == laid, || format!("{laid} should be {given}"))
        }
        (Ok(given), Ok(laid), None) => exchanged(given, laid, order),
        _ => Err("done in one order and refused in another".into()),
    }
}

pub fn exchanged(given: &Overlay, laid: &Overlay, order: Order) -> Found {
    let (a, b) = (&given.tables, &laid.tables);
    holds(a.vertices == b.vertices, || "other vertices".into())?;
    holds(a.half_edges == b.half_edges, || "other half-edges".into())?;
    let sources = a.sources.iter().map(|row| order.map(|m| row[m]));
    holds(sources.eq(b.sources.iter().copied()), || "sources out of order".into())?;
    let labels = given.labels.iter().map(|row| order.map(|m| row[m]));
    holds(labels.eq(laid.labels.iter().copied()), || "labels out of order".into())?;
    let faces = a.faces.iter().map(|f| (order.map(|m| f.labels[m]), f.least, f.holes));
    let laid = b.faces.iter().map(|f| (f.labels, f.least, f.holes));
    holds(faces.eq(laid), || "other faces".into())
}

/// "Laying the empty map over a map must give each half-edge that map's label and 0", wherever the map
/// stands; and two maps are those two with an empty third.
pub fn with_empty(maps: &[Map; MAPS]) -> Found {
    let empty = Map::default();
    for (m, map) in maps.iter().enumerate() {
        let mut list = [&empty; MAPS];
        list[m] = map;
        let done = overlay(&list, &Room::FULL).map_err(|refusal| refusal.to_string())?;
        for (h, labels) in done.labels.iter().enumerate() {
            let k = done.tables.sources[h / 2][m].ok_or("an edge from no map")? as usize;
            let [from, to] = map.segment(k).ends();
            let upward = [map.label(2 * k), map.label(2 * k + 1)];
            let label = upward[(h + (from > to) as usize) % 2];
            let mut want = [0; MAPS];
            want[m] = label;
            holds(*labels == want, || format!("half-edge {h} beside empty maps: {labels:?}"))?;
        }
    }
    let two = overlay(&[&maps[0], &maps[1]], &Room::FULL).map(|done| done.tables);
    let three = overlay(&[&maps[0], &maps[1], &empty], &Room::FULL).map(|done| done.tables);
    holds(two == three, || "two maps, and two with an empty third, differ".into())
}
