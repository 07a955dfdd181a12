//! Versions of the overlay file: they differ in the bytes of X and Y and in the number of maps.

use crate::limits::{OVERLAY_HEAD, OVERLAY_MARK};
use crate::map::numbers;
use crate::tables::Tables;

/// A version: its number, the bytes of X and of Y, and the maps of which it has sources and labels.
#[derive(Clone, Copy, PartialEq, Eq, Debug)]
pub struct Version {
    pub number: u16,
    pub wide: usize,
    pub maps: usize,
}

impl Version {
    pub const FIRST: Version = Version { number: 1, wide: 5, maps: 2 };
    pub const SECOND: Version = Version { number: 2, wide: 6, maps: 2 };
    pub const THIRD: Version = Version { number: 3, wide: 6, maps: 3 };
    /// All that are read.
    pub const ALL: &'static [Version] = &[Version::FIRST, Version::SECOND, Version::THIRD];
    /// The one that is written.
    pub const NEWEST: Version = Version::THIRD;

    /// The version with this number, if there is one.
    pub fn of(number: u16) -> Option<Version> {
        Version::ALL.iter().copied().find(|version| version.number == number)
    }

    /// The version that the head of a file names, if it has a head and there is such a version.
    pub fn in_head(bytes: &[u8]) -> Option<Version> {
        let head = bytes.get(OVERLAY_MARK.len()..OVERLAY_HEAD)?;
        Version::of(numbers(head)[0])
    }

    /// Bytes of a vertex: X, Y, and D in four.
    pub fn vertex(self) -> usize {
        2 * self.wide + 4
    }

    /// 16-bit numbers of an edge record: ends, sources, followers, faces.
    pub fn edge_numbers(self) -> usize {
        6 + self.maps
    }

    /// 16-bit numbers of a face row: labels, least half-edge, holes.
    pub fn face_numbers(self) -> usize {
        self.maps + 2
    }

    /// Did maps of which this version has no sources and labels leave nothing in the tables?
    pub fn has_all_maps(self, tables: &Tables) -> bool {
        let no_source = tables.sources.iter().all(|s| s[self.maps..].iter().all(Option::is_none));
        let no_label = tables.faces.iter().all(|f| f.labels[self.maps..].iter().all(|&l| l == 0));
        no_source && no_label
    }
}
