//! Refusals, as document 01 numbers and prints them.

use std::fmt;

/// A refusal: its number, the map (0 where no one map is meant) and the place; and with number 8
/// the least edge that clashes with the one at that place, 0 otherwise.
#[derive(Clone, Copy, PartialEq, Eq, Debug, PartialOrd, Ord, Hash)]
pub struct Refusal {
    pub number: u16,
    pub map: u16,
    pub place: usize,
    pub other: usize,
}

impl Refusal {
    /// A refusal with map 0; `in_map` puts the map in.
    pub fn new(number: u16, place: usize) -> Refusal {
        Refusal { number, map: 0, place, other: 0 }
    }

    /// The same refusal, of the map with this number.
    pub fn in_map(self, map: u16) -> Refusal {
        Refusal { map, ..self }
    }

    /// The same refusal, with the other edge.
    pub fn beside(self, other: usize) -> Refusal {
        Refusal { other, ..self }
    }

    /// Its line, with the other edge too: `refused N map M place P other J`.
    pub fn whole(&self) -> String {
        format!("{self} other {}", self.other)
    }
}

impl fmt::Display for Refusal {
    fn fmt(&self, out: &mut fmt::Formatter) -> fmt::Result {
        write!(out, "refused {} map {} place {}", self.number, self.map, self.place)
    }
}
