//! Document 01 once more, this time by its own ways and word by word, without regard to time:
//! the self-check holds the rest of the program against it.

pub mod check;
pub mod meet;
pub mod melt;
pub mod net;
pub mod overlay;
pub mod reader;
pub mod slip;
pub mod writer;
