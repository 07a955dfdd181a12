//! A second map overlay, written from document 01 alone and on purpose by other ways than the
//! proved one: crossings from line equations, faces from areas and containment, labels by a
//! ray to the north from the middle of a piece. See README.md.

pub mod answer;
pub mod area;
pub mod check;
pub mod counting;
pub mod graph;
pub mod import;
pub mod levels;
pub mod limits;
pub mod literal;
pub mod locate;
pub mod make;
pub mod map;
pub mod meet;
pub mod melt;
pub mod mend;
pub mod natural;
pub mod overlay;
pub mod ovfile;
pub mod pack;
pub mod place;
pub mod point;
pub mod random;
pub mod segment;
pub mod selftest;
pub mod show;
pub mod soundings;
pub mod tables;
pub mod text;
pub mod tide;
pub mod trial;
pub mod trial_counts;
pub mod version;
pub mod within;
pub mod year;
