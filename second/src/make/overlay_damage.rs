//! Damaged overlay files of every version, for every refusal of the reader, and harmless changes.

// All kinds of damage have one form, whether the length changes or not.
#![allow(clippy::ptr_arg)]

use crate::limits::*;
use crate::map::numbers;
use crate::overlay::Room;
use crate::ovfile::{file_as, read};
use crate::random::Random;
use crate::version::Version;

/// Version and counts in the head.
const VERSION: usize = 0;
const COUNTS: [usize; 3] = [1, 2, 3];

/// A kind of damage.
type Damage = fn(&mut Random, &mut Vec<u8>);

/// The refusal that a damage is meant for, 0 for changes that the reader takes.
pub const KINDS: &[(u16, Damage)] = &[
    (1, short),
    (1, mark),
    (2, version),
    (3, many),
    (4, cut),
    (4, long),
    (4, miscount),
    (4, other_version),
    (21, bad_ends),
    (21, no_source),
    (21, bad_face),
    (21, bad_follower),
    (21, follower_elsewhere),
    (21, follower_doubled),
    (21, any_field),
    (0, harmless),
    (0, any_bit),
];

/// The file as any version that holds it; one that is refused, as it stands.
pub fn any_version(random: &mut Random, file: &[u8]) -> Vec<u8> {
    let version = random.pick(Version::ALL);
    let tables = read(file, &Room::FULL).ok();
    let other = tables.and_then(|tables| file_as(version, &tables).ok());
    other.unwrap_or(file.to_vec())
}

/// The file as any version, damaged in one of these ways.
pub fn damaged(random: &mut Random, file: &[u8]) -> Vec<u8> {
    let mut bytes = any_version(random, file);
    if bytes.len() >= OVERLAY_HEAD {
        random.pick(KINDS).1(random, &mut bytes);
    }
    bytes
}

fn short(random: &mut Random, bytes: &mut Vec<u8>) {
    bytes.truncate(random.below(OVERLAY_HEAD));
}

fn mark(random: &mut Random, bytes: &mut Vec<u8>) {
    let at = random.below(OVERLAY_MARK.len());
    bytes[at] ^= 1 << random.below(8);
}

fn head(bytes: &[u8], at: usize) -> usize {
    numbers(&bytes[OVERLAY_MARK.len()..OVERLAY_HEAD])[at] as usize
}

fn set(bytes: &mut [u8], start: usize, number: usize) {
    bytes[start..start + 2].copy_from_slice(&(number as u16).to_le_bytes());
}

fn set_head(bytes: &mut [u8], at: usize, number: usize) {
    set(bytes, OVERLAY_MARK.len() + 2 * at, number);
}

fn version(random: &mut Random, bytes: &mut Vec<u8>) {
    let next = Version::NEWEST.number as usize + 1;
    let any = random.range(next as i64, 65_535) as usize;
    let version = random.pick(&[0, next, 257, 258, 259, any]);
    set_head(bytes, VERSION, version);
}

/// Another known version in the head alone; a file without a vertex has the same length in the first
/// two.
fn other_version(random: &mut Random, bytes: &mut Vec<u8>) {
    let here = Version::in_head(bytes);
    let others: Vec<u16> =
        Version::ALL.iter().filter(|&&v| Some(v) != here).map(|v| v.number).collect();
    let number = random.pick(&others);
    set_head(bytes, VERSION, number as usize);
}

/// The version of the file.
fn version_of(bytes: &[u8]) -> Version {
    Version::in_head(bytes).unwrap_or(Version::NEWEST)
}

/// Bytes of a vertex of the file.
fn vertex(bytes: &[u8]) -> usize {
    version_of(bytes).vertex()
}

fn many(random: &mut Random, bytes: &mut Vec<u8>) {
    let kind = random.below(COUNTS.len());
    let most = [VERTICES, EDGES, FACES][kind];
    let any = random.range(most as i64 + 1, 65_535) as usize;
    let many = random.pick(&[most + 1, any]);
    set_head(bytes, COUNTS[kind], many);
}

fn cut(random: &mut Random, bytes: &mut Vec<u8>) {
    let rest = bytes.len() - OVERLAY_HEAD;
    bytes.truncate(OVERLAY_HEAD + random.below(rest.max(1)));
}

fn long(random: &mut Random, bytes: &mut Vec<u8>) {
    let version = version_of(bytes);
    let more = random.pick(&[1, 2, 2 * version.face_numbers(), 2 * version.edge_numbers()]);
    bytes.resize(bytes.len() + more, random.bits() as u8);
}

fn miscount(random: &mut Random, bytes: &mut Vec<u8>) {
    let at = random.pick(&COUNTS);
    let count = head(bytes, at) + 1 - random.pick(&[0, 2]).min(head(bytes, at) + 1);
    set_head(bytes, at, count);
}

/// Where a field of an edge record stands: the ends, the sources, the followers, the faces. None if
/// the file has no edge.
fn field(random: &mut Random, bytes: &[u8], field: usize) -> Option<usize> {
    let (vertices, edges) = (head(bytes, COUNTS[0]), head(bytes, COUNTS[1]));
    let start = OVERLAY_HEAD + vertex(bytes) * vertices;
    let edge = 2 * version_of(bytes).edge_numbers();
    (edges > 0).then(|| start + edge * random.below(edges) + 2 * field)
}

/// Puts a number into one of some fields of any edge.
fn set_field(random: &mut Random, bytes: &mut [u8], fields: &[usize], number: usize) {
    let chosen = random.pick(fields);
    if let Some(at) = field(random, bytes, chosen) {
        set(bytes, at, number);
    }
}

fn bad_ends(random: &mut Random, bytes: &mut Vec<u8>) {
    let vertices = head(bytes, COUNTS[0]);
    let any = random.range(0, 65_535) as usize;
    let end = random.pick(&[0, vertices, vertices.max(1) - 1, any]);
    set_field(random, bytes, &[0, 1], end);
}

/// No source, or only the last one that the version has.
fn no_source(random: &mut Random, bytes: &mut Vec<u8>) {
    let maps = version_of(bytes).maps;
    if let Some(at) = field(random, bytes, 2) {
        let last = random.pick(&[0, 0, 1]);
        (0..maps).for_each(|m| set(bytes, at + 2 * m, if m + 1 == maps { last } else { 0 }));
    }
}

/// The fields of the followers, and of the faces.
fn followers_at(bytes: &[u8]) -> [usize; 2] {
    [2, 3].map(|i| version_of(bytes).maps + i)
}

fn faces_at(bytes: &[u8]) -> [usize; 2] {
    followers_at(bytes).map(|i| i + 2)
}

fn bad_face(random: &mut Random, bytes: &mut Vec<u8>) {
    let faces = head(bytes, COUNTS[2]);
    let face = random.pick(&[faces, faces + 1, 65_535]);
    let faces = faces_at(bytes);
    set_field(random, bytes, &faces, face);
}

fn bad_follower(random: &mut Random, bytes: &mut Vec<u8>) {
    let half_edges = 2 * head(bytes, COUNTS[1]);
    let follower = random.pick(&[half_edges, half_edges + 1, 65_535]);
    let followers = followers_at(bytes);
    set_field(random, bytes, &followers, follower);
}

fn follower_elsewhere(random: &mut Random, bytes: &mut Vec<u8>) {
    let half_edges = 2 * head(bytes, COUNTS[1]);
    let follower = random.below(half_edges.max(1));
    let followers = followers_at(bytes);
    set_field(random, bytes, &followers, follower);
}

/// A follower of one half-edge given to another as well.
fn follower_doubled(random: &mut Random, bytes: &mut Vec<u8>) {
    let followers = followers_at(bytes);
    let chosen = random.pick(&followers);
    if let Some(at) = field(random, bytes, chosen) {
        let follower = u16::from_le_bytes([bytes[at], bytes[at + 1]]);
        set_field(random, bytes, &followers, follower as usize);
    }
}

fn any_field(random: &mut Random, bytes: &mut Vec<u8>) {
    for _ in 0..random.range(1, 3) {
        let number = random.below(2 * head(bytes, COUNTS[1]) + 2);
        let fields: Vec<usize> = (0..version_of(bytes).edge_numbers()).collect();
        set_field(random, bytes, &fields, number);
    }
}

/// Changes what the reader gives back as it stands: a byte of a vertex or of a face row.
fn harmless(random: &mut Random, bytes: &mut Vec<u8>) {
    let vertices = vertex(bytes) * head(bytes, COUNTS[0]);
    let faces = 2 * version_of(bytes).face_numbers() * head(bytes, COUNTS[2]);
    for _ in 0..random.range(1, 6) {
        let at = random.below((vertices + faces).max(1));
        let at = if at < vertices { OVERLAY_HEAD + at } else { bytes.len() - 1 - (at - vertices) };
        bytes[at] = random.pick(&[0, 1, 127, 128, 255]);
    }
}

fn any_bit(random: &mut Random, bytes: &mut Vec<u8>) {
    let at = random.below(bytes.len());
    bytes[at] ^= 1 << random.below(8);
}
