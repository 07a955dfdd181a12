//! The slips that document 01 guards against, and some near them. An input on which a slip
//! changes the answer is worth trying: it tells the slip from the truth.

use super::{check, melt, overlay};
use crate::map::Map;

/// A slip. The functions of this folder do as 01 says where they are given none.
#[derive(Clone, Copy, PartialEq, Eq, Debug)]
pub enum Slip {
    /// "Splitting an edge only at its first crossing."
    FirstCrossing,
    /// "Taking a block's zone from its boundary only."
    BoundaryOnly,
    /// "Judging hole or outer from any corner of a walk that visits its smallest vertex twice."
    AnyCorner,
    /// "Storing 4/2 as a second vertex beside 2."
    NotLowest,
    /// "Counting an edge's upper end as well as its lower end when looking west."
    UpperEnd,
    /// "Cutting the shared piece of S3 out twice."
    SharedTwice,
    /// Looking west: among equals the greatest upward angle.
    GreatestAngle,
    /// Looking west along e: edges through p never count.
    NotThrough,
    /// Looking west along e: edges through p of smaller angle count.
    SmallerAngle,
    /// Looking west along a level e: edges that rise from p do not count.
    NotOverLevel,
    /// Looking west for a hole walk: edges at its smallest vertex count.
    NotStrict,
    /// The smallest vertex is that of least number.
    LeastNumber,
    /// The greatest angle is judged among the walk's own half-edges.
    OwnAngles,
    /// A hole walk that sees another hole walk belongs to face 0.
    OneStep,
    /// Edges of the second and the third map are not cut where they meet.
    FirstMapOnly,
    /// A piece of all three maps keeps two sources.
    TwoSources,
    /// The third label is the second's.
    ThirdAsSecond,
    /// Rule 8 names the later of two edges.
    LaterEdge,
    /// Rule 10 compares a hole walk with 0, whatever is seen.
    OutsideOnly,
    /// Rule 10 compares a hole walk with the least half-edge of the walk seen.
    WalkSeen,
    /// Rule 10 judges hole walks only where no follower differs.
    FollowersFirst,
    /// Melting: the third labels are not compared.
    PairsOnly,
    /// Melting: an edge goes only where the same face lies on both sides.
    FencesOnly,
    /// Melting: an edge with the same face on both sides stays.
    FencesStay,
    /// Melting: vertices left without an edge stay.
    LonelyStay,
}

/// Slips that show in the check of a map.
pub const OF_MAPS: &[Slip] = &[
    Slip::UpperEnd,
    Slip::GreatestAngle,
    Slip::NotStrict,
    Slip::LeastNumber,
    Slip::OwnAngles,
    Slip::AnyCorner,
    Slip::LaterEdge,
    Slip::OutsideOnly,
    Slip::WalkSeen,
    Slip::FollowersFirst,
];

/// Slips that show in the overlay of two maps. There vertices are numbered in point order.
pub const OF_PAIRS: &[Slip] = &[
    Slip::FirstCrossing,
    Slip::BoundaryOnly,
    Slip::AnyCorner,
    Slip::NotLowest,
    Slip::UpperEnd,
    Slip::SharedTwice,
    Slip::GreatestAngle,
    Slip::NotThrough,
    Slip::SmallerAngle,
    Slip::NotOverLevel,
    Slip::NotStrict,
    Slip::OwnAngles,
    Slip::OneStep,
];

/// Slips that show only in the overlay of three maps.
pub const OF_TRIPLES: &[Slip] = &[Slip::FirstMapOnly, Slip::TwoSources, Slip::ThirdAsSecond];

/// Slips that show in the melted tables.
pub const OF_MELTING: &[Slip] =
    &[Slip::PairsOnly, Slip::FencesOnly, Slip::FencesStay, Slip::LonelyStay];

/// Does the check of a map show the slip?
pub fn map_tells(slip: Slip, map: &Map) -> bool {
    check::fault(map, None) != check::fault(map, Some(slip))
}

/// Does the overlay of valid maps show the slip?
pub fn maps_tell(slip: Slip, maps: &[&Map]) -> bool {
    overlay::overlay(maps, None) != overlay::overlay(maps, Some(slip))
}

/// Do the melted tables of valid maps show the slip?
pub fn melting_tells(slip: Slip, maps: &[&Map]) -> bool {
    melt::melted(maps, None) != melt::melted(maps, Some(slip))
}
