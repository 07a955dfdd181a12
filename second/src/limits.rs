//! The numbers of document 01 and of the requests, each once, by name.

/// Bytes of a map file before its first vertex.
pub const MAP_HEAD: usize = 9;
/// Bytes of a vertex in a map file.
pub const MAP_VERTEX: usize = 4;
/// Bytes of an edge in a map file.
pub const MAP_EDGE: usize = 8;
/// Mark of a map file.
pub const MAP_MARK: &[u8; 3] = b"ZMP";
/// Version of a map file.
pub const MAP_VERSION: u16 = 1;

/// Most vertices of a map.
pub const MAP_VERTICES: usize = 200;
/// Most edges of a map.
pub const MAP_EDGES: usize = 300;
/// A coordinate lies from -REACH to REACH.
pub const REACH: i64 = 16_000;

/// Maps of an overlay: zones, blocks, bed (02, Ask 13).
pub const MAPS: usize = 3;
/// Greatest denominator of an overlay vertex.
pub const DENOMINATOR: i64 = 2_048_000_000;
/// Most vertices of an overlay.
pub const VERTICES: usize = 1_000;
/// Most edges of an overlay.
pub const EDGES: usize = 2_000;
/// Most faces of an overlay, face 0 included.
pub const FACES: usize = 1_334;

/// Mark of an overlay file.
pub const OVERLAY_MARK: &[u8; 3] = b"ZOV";
/// Bytes of an overlay file before its first vertex.
pub const OVERLAY_HEAD: usize = 11;

/// Stands for "no half-edge" in the tables.
pub const NO_HALF_EDGE: u16 = 65_535;

/// A reading lies from -GAUGE_REACH to GAUGE_REACH (02, Ask 5).
pub const GAUGE_REACH: i32 = 20_000;

/// Bytes of a sounding (02, Ask 3).
pub const SOUNDING: usize = 4;
/// Most soundings of a list.
pub const SOUNDINGS: usize = 65_535;
/// Most different pairs of a list of soundings.
pub const CELLS: usize = 1_334;

/// Most overlay files of a year (02, Ask 14).
pub const YEAR_FILES: usize = 400;
/// Most pairs of a year.
pub const YEAR_PAIRS: usize = 500;
