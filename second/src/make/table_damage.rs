//! Tables, counts and buffer lengths for the writer of overlay files, for every refusal it has.

use crate::limits::MAPS;
use crate::ovfile::Counts;
use crate::random::Random;
use crate::tables::Tables;
use crate::version::Version;

/// What the writer is given: tables, counts and the length of the lent buffer.
pub struct Order {
    pub tables: Tables,
    pub counts: Counts,
    pub length: usize,
}

impl Order {
    /// The whole tables, and a buffer that just holds the file.
    pub fn whole(tables: &Tables) -> Order {
        let counts = Counts::of(tables);
        Order { tables: tables.clone(), counts, length: counts.length(Version::NEWEST) }
    }
}

type Damage = fn(&mut Random, &mut Order);

/// The refusal that a damage is meant for, 0 for changes that the writer takes.
const KINDS: &[(u16, Damage)] = &[
    (0, |_, _| ()),
    (0, spare),
    (0, harmless),
    (3, count_over),
    (3, table_short),
    (5, wide),
    (5, outgoing),
    (21, links),
    (21, source),
    (21, ends_and_faces),
    (21, fewer),
    (11, buffer_short),
];

/// An order, damaged in one way, rarely in two.
pub fn damaged(random: &mut Random, tables: &Tables) -> Order {
    let mut order = Order::whole(tables);
    for _ in 0..random.pick(&[1, 1, 1, 2]) {
        random.pick(KINDS).1(random, &mut order);
    }
    order
}

/// Rows and bytes to spare.
fn spare(random: &mut Random, order: &mut Order) {
    let t = &mut order.tables;
    t.vertices.extend(t.vertices.first().copied());
    t.half_edges.extend(t.half_edges.first().copied());
    t.sources.extend(t.sources.first().copied());
    t.faces.extend(t.faces.first().copied());
    order.length += random.below(20);
}

/// One of the rows of a table, if it has any.
fn row<'a, T>(random: &mut Random, rows: &'a mut [T]) -> Option<&'a mut T> {
    if rows.is_empty() {
        return None;
    }
    let at = random.below(rows.len());
    rows.get_mut(at)
}

/// Coordinates that just fit, and labels.
fn harmless(random: &mut Random, order: &mut Order) {
    if let Some(vertex) = row(random, &mut order.tables.vertices) {
        vertex.x = random.pick(&[(1 << 47) - 1, -1 << 47, 1 << 39, 0]);
        vertex.d = random.pick(&[0, (1 << 32) - 1]);
    }
    if let Some(face) = row(random, &mut order.tables.faces) {
        face.labels[random.below(MAPS)] = random.bits() as u16;
        face.least = random.bits() as u16;
    }
}

fn count_over(random: &mut Random, order: &mut Order) {
    let counts = &mut order.counts;
    let more = random.pick(&[1, 2, 1_000, 65_000]);
    match random.below(3) {
        0 => counts.vertices += more,
        1 => counts.edges += more,
        _ => counts.faces += more,
    }
}

fn table_short(random: &mut Random, order: &mut Order) {
    let t = &mut order.tables;
    match random.below(4) {
        0 => drop(t.vertices.pop()),
        1 => drop(t.half_edges.pop()),
        2 => drop(t.sources.pop()),
        _ => drop(t.faces.pop()),
    }
}

fn wide(random: &mut Random, order: &mut Order) {
    let far = random.pick(&[1 << 47, (-1 << 47) - 1, i64::MAX, i64::MIN]);
    if let Some(vertex) = row(random, &mut order.tables.vertices) {
        match random.below(3) {
            0 => vertex.x = far,
            1 => vertex.y = far,
            _ => vertex.d = random.pick(&[-1, 1 << 32, i64::MAX, i64::MIN]),
        }
    }
}

fn outgoing(random: &mut Random, order: &mut Order) {
    let any = random.below(order.tables.half_edges.len() + 1) as u16;
    if let Some(vertex) = row(random, &mut order.tables.vertices) {
        vertex.out = random.pick(&[0, 65_535, any]);
    }
}

fn links(random: &mut Random, order: &mut Order) {
    let any = random.below(order.tables.half_edges.len() + 2) as u16;
    if let Some(half_edge) = row(random, &mut order.tables.half_edges) {
        match random.below(3) {
            0 => half_edge.twin = any,
            1 => half_edge.follower = any,
            _ => half_edge.predecessor = any,
        }
    }
}

fn source(random: &mut Random, order: &mut Order) {
    if let Some(sources) = row(random, &mut order.tables.sources) {
        let number = Some(random.pick(&[65_535, 65_535, 65_534]));
        let mut only = [None; MAPS];
        only[random.below(MAPS)] = number;
        let others = sources.map(|known| known.or(number));
        *sources = random.pick(&[only, only, others]);
    }
}

/// Origins and faces changed; the outgoing entries are put right again.
fn ends_and_faces(random: &mut Random, order: &mut Order) {
    let faces = order.tables.faces.len() as u16;
    let vertices = order.tables.vertices.len();
    if let Some(half_edge) = row(random, &mut order.tables.half_edges) {
        match random.below(3) {
            0 => half_edge.face = random.pick(&[faces, faces + 1, 65_535]),
            _ => half_edge.origin = random.below(vertices + 1) as u16,
        }
    }
    order.tables.set_least_outgoing();
}

/// The last edge left out of the count; the outgoing entries mostly follow.
fn fewer(random: &mut Random, order: &mut Order) {
    if order.counts.edges == 0 {
        return;
    }
    order.counts.edges -= 1;
    if random.below(3) > 0 {
        let mut counted = order.tables.clone();
        counted.half_edges.truncate(2 * order.counts.edges);
        counted.set_least_outgoing();
        order.tables.vertices = counted.vertices;
    }
}

fn buffer_short(random: &mut Random, order: &mut Order) {
    order.length -= random.range(1, order.length.min(30) as i64) as usize;
}
