//! Overlay files: the writer and the reader with all their refusals. Both are over a version; the
//! reader takes every one, the writer's own is the newest.

use crate::answer::Refusal;
use crate::limits::*;
use crate::map::numbers;
use crate::overlay::Room;
use crate::tables::{FaceRow, HalfEdgeRow, Sources, Tables, VertexRow};
use crate::version::Version;

/// The counts that a file announces.
#[derive(Clone, Copy, PartialEq, Eq, Debug)]
pub struct Counts {
    pub vertices: usize,
    pub edges: usize,
    pub faces: usize,
}

impl Counts {
    /// The counts of whole tables.
    pub fn of(tables: &Tables) -> Counts {
        Counts { vertices: tables.vertices.len(), edges: tables.edges(), faces: tables.faces.len() }
    }

    /// Is a count over its number?
    fn over(&self) -> bool {
        self.vertices > VERTICES || self.edges > EDGES || self.faces > FACES
    }

    /// The length of the file in this version.
    pub fn length(&self, version: Version) -> usize {
        OVERLAY_HEAD
            + version.vertex() * self.vertices
            + 2 * version.edge_numbers() * self.edges
            + 2 * version.face_numbers() * self.faces
    }
}

/// An edge record of a file, its fields as they stand; a source that the version has not is 0.
#[derive(Clone, Copy, PartialEq, Eq, Debug)]
struct Record {
    ends: [u16; 2],
    sources: [u16; MAPS],
    followers: [u16; 2],
    faces: [u16; 2],
}

/// Where half-edge h of the records starts.
fn origin(records: &[Record], h: usize) -> u16 {
    records[h / 2].ends[h % 2]
}

/// The least edge whose record is not sound.
fn unsound(records: &[Record], counts: &Counts) -> Option<usize> {
    let mut taken = vec![false; 2 * records.len()];
    for (k, record) in records.iter().enumerate() {
        let [lower, upper] = record.ends;
        let mut sound = lower < upper
            && (upper as usize) < counts.vertices
            && record.sources != [0; MAPS]
            && record.faces.iter().all(|&f| (f as usize) < counts.faces);
        for (follower, end) in record.followers.into_iter().zip([upper, lower]) {
            let known = (follower as usize) < taken.len();
            sound &= known && origin(records, follower as usize) == end;
            sound &= known && !std::mem::replace(&mut taken[follower as usize], true);
        }
        if !sound {
            return Some(k);
        }
    }
    None
}

/// The refusal of the writer, or the file. `length` is the length of the lent buffer.
pub fn write(tables: &Tables, counts: Counts, length: usize) -> Result<Vec<u8>, Refusal> {
    write_as(Version::NEWEST, tables, counts, length)
}

/// The same for a file of any version.
fn write_as(
    version: Version,
    tables: &Tables,
    counts: Counts,
    length: usize,
) -> Result<Vec<u8>, Refusal> {
    let rows_short = counts.vertices > tables.vertices.len()
        || counts.edges > tables.half_edges.len() / 2
        || counts.edges > tables.sources.len()
        || counts.faces > tables.faces.len();
    if counts.over() || rows_short {
        return Err(Refusal::new(3, 0));
    }
    let half_edges = &tables.half_edges[..2 * counts.edges];
    let fits = |v: usize| vertex_fits(version, &tables.vertices[v], v, half_edges);
    if let Some(v) = (0..counts.vertices).find(|&v| !fits(v)) {
        return Err(Refusal::new(5, v));
    }
    let sources = &tables.sources[..counts.edges];
    let records: Vec<Record> = half_edges.chunks(2).zip(sources).map(record).collect();
    let linked = |k: &usize| rows_linked(half_edges, &sources[*k], *k);
    let unlinked = (0..counts.edges).find(|k| !linked(k));
    let faults = [unsound(&records, &counts), unlinked];
    if let Some(&k) = faults.iter().flatten().min() {
        return Err(Refusal::new(21, k));
    }
    if length < counts.length(version) {
        return Err(Refusal::new(11, 4));
    }
    Ok(file_bytes(version, tables, &records, &counts))
}

/// Do X, Y and D fit their bytes, and is the outgoing entry the least half-edge there?
fn vertex_fits(version: Version, row: &VertexRow, v: usize, half_edges: &[HalfEdgeRow]) -> bool {
    let wide = 1i64 << (8 * version.wide - 1);
    let fits = |c: i64| -wide <= c && c < wide;
    let least = half_edges.iter().position(|h| h.origin as usize == v);
    fits(row.x)
        && fits(row.y)
        && u32::try_from(row.d).is_ok()
        && row.out == least.map_or(NO_HALF_EDGE, |h| h as u16)
}

/// The record of an edge; a source with number 65,535 has none and is refused elsewhere.
fn record((rows, sources): (&[HalfEdgeRow], &Sources)) -> Record {
    let stored = |source: Option<u16>| source.map_or(0, |k| k.wrapping_add(1));
    Record {
        ends: [rows[0].origin, rows[1].origin],
        sources: sources.map(stored),
        followers: [rows[0].follower, rows[1].follower],
        faces: [rows[0].face, rows[1].face],
    }
}

/// What the writer asks of edge k besides soundness: sources, twins and predecessors.
fn rows_linked(half_edges: &[HalfEdgeRow], sources: &Sources, k: usize) -> bool {
    let linked = |h: usize| {
        let row = half_edges[h];
        let before = half_edges.get(row.predecessor as usize);
        row.twin as usize == h ^ 1 && before.is_some_and(|b| b.follower as usize == h)
    };
    !sources.contains(&Some(u16::MAX)) && linked(2 * k) && linked(2 * k + 1)
}

/// The bytes of a file that is not refused.
fn file_bytes(version: Version, tables: &Tables, records: &[Record], counts: &Counts) -> Vec<u8> {
    let mut out = Vec::with_capacity(counts.length(version));
    out.extend_from_slice(OVERLAY_MARK);
    for n in [version.number as usize, counts.vertices, counts.edges, counts.faces] {
        out.extend_from_slice(&(n as u16).to_le_bytes());
    }
    for row in &tables.vertices[..counts.vertices] {
        out.extend_from_slice(&row.x.to_le_bytes()[..version.wide]);
        out.extend_from_slice(&row.y.to_le_bytes()[..version.wide]);
        out.extend_from_slice(&(row.d as u32).to_le_bytes());
    }
    for r in records {
        let sources = &r.sources[..version.maps];
        for field in [&r.ends, sources, &r.followers, &r.faces].concat() {
            out.extend_from_slice(&field.to_le_bytes());
        }
    }
    for row in &tables.faces[..counts.faces] {
        for field in [&row.labels[..version.maps], &[row.least, row.holes]].concat() {
            out.extend_from_slice(&field.to_le_bytes());
        }
    }
    out
}

/// The whole of the tables as a file.
pub fn file_of(tables: &Tables) -> Result<Vec<u8>, Refusal> {
    let counts = Counts::of(tables);
    write(tables, counts, counts.length(Version::NEWEST))
}

/// The whole of the tables as a file of any version, if it holds them: nothing of a map is left out.
pub fn file_as(version: Version, tables: &Tables) -> Result<Vec<u8>, String> {
    if !version.has_all_maps(tables) {
        return Err(format!("version {} has {} maps only", version.number, version.maps));
    }
    let counts = Counts::of(tables);
    write_as(version, tables, counts, counts.length(version)).map_err(|refusal| refusal.to_string())
}

/// The refusal of the reader, or the tables.
pub fn read(bytes: &[u8], room: &Room) -> Result<Tables, Refusal> {
    if bytes.len() < OVERLAY_HEAD || !bytes.starts_with(OVERLAY_MARK) {
        return Err(Refusal::new(1, 0));
    }
    let head = numbers(&bytes[OVERLAY_MARK.len()..OVERLAY_HEAD]);
    let [vertices, edges, faces] = [1, 2, 3].map(|i| head[i] as usize);
    let counts = Counts { vertices, edges, faces };
    let version = Version::of(head[0]).ok_or(Refusal::new(2, 0))?;
    if counts.over() {
        return Err(Refusal::new(3, 0));
    }
    if bytes.len() != counts.length(version) {
        return Err(Refusal::new(4, 0));
    }
    let (vertices, rest) = bytes[OVERLAY_HEAD..].split_at(version.vertex() * counts.vertices);
    let (edges, faces) = rest.split_at(2 * version.edge_numbers() * counts.edges);
    let edges = numbers(edges);
    let records = edges.chunks(version.edge_numbers());
    let records: Vec<Record> = records.map(|n| stored_record(version, n)).collect();
    if let Some(k) = unsound(&records, &counts) {
        return Err(Refusal::new(21, k));
    }
    let needs = [counts.vertices, counts.edges, counts.faces];
    let rooms = [room.vertices, room.edges, room.faces];
    if let Some(kind) = (0..3).find(|&i| needs[i] > rooms[i]) {
        return Err(Refusal::new(11, kind + 1));
    }
    let mut tables = Tables {
        vertices: vertices.chunks(version.vertex()).map(|b| stored_vertex(version, b)).collect(),
        half_edges: half_edges(&records),
        sources: records.iter().map(stored_sources).collect(),
        faces: numbers(faces)
            .chunks(version.face_numbers())
            .map(|n| stored_face(version, n))
            .collect(),
    };
    tables.set_least_outgoing();
    Ok(tables)
}

/// A number for each map: those that are stored, then 0.
fn of_each_map(stored: &[u16]) -> [u16; MAPS] {
    std::array::from_fn(|m| stored.get(m).copied().unwrap_or(0))
}

fn stored_record(version: Version, n: &[u16]) -> Record {
    let (sources, rest) = n[2..].split_at(version.maps);
    Record {
        ends: [n[0], n[1]],
        sources: of_each_map(sources),
        followers: [rest[0], rest[1]],
        faces: [rest[2], rest[3]],
    }
}

/// X and Y in two's complement, D without a sign.
fn stored_vertex(version: Version, bytes: &[u8]) -> VertexRow {
    let number = |b: &[u8]| b.iter().rev().fold(0i64, |n, &byte| n << 8 | byte as i64);
    let signed = |b: &[u8]| number(b) << (64 - 8 * b.len()) >> (64 - 8 * b.len());
    let (x, rest) = bytes.split_at(version.wide);
    let (y, d) = rest.split_at(version.wide);
    VertexRow { x: signed(x), y: signed(y), d: number(d), out: NO_HALF_EDGE }
}

fn stored_sources(record: &Record) -> Sources {
    record.sources.map(|stored| stored.checked_sub(1))
}

fn stored_face(version: Version, n: &[u16]) -> FaceRow {
    let (labels, rest) = n.split_at(version.maps);
    FaceRow { labels: of_each_map(labels), least: rest[0], holes: rest[1] }
}

/// The half-edge rows of sound records.
fn half_edges(records: &[Record]) -> Vec<HalfEdgeRow> {
    let row = |h: usize| {
        let record = &records[h / 2];
        HalfEdgeRow {
            origin: record.ends[h % 2],
            twin: (h ^ 1) as u16,
            follower: record.followers[h % 2],
            predecessor: 0,
            face: record.faces[h % 2],
        }
    };
    let mut rows: Vec<HalfEdgeRow> = (0..2 * records.len()).map(row).collect();
    for h in 0..rows.len() {
        let follower = rows[h].follower as usize;
        rows[follower].predecessor = h as u16;
    }
    rows
}
