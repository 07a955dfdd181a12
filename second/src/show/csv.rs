//! A table of the cells: a line for each corner of each ring.

use super::{decimal, Cell, NOTE};
use crate::meet::fraction;
use crate::tables::Tables;
use std::fmt::Write;

/// Ring 0 is the outline, the others are holes. The note is the last column, so that the first line
/// is one of column names.
pub fn text(tables: &Tables, cells: &[Cell]) -> String {
    let mut out =
        String::from("face,zone,block,bed,gap,ring,corner,vertex,x,y,exact_x,exact_y,note\n");
    for cell in cells {
        let [zone, block, bed] = cell.labels;
        let gap = cell.is_gap() as u8;
        for (r, ring) in cell.rings().enumerate() {
            for (i, &v) in ring.iter().enumerate() {
                let row = &tables.vertices[v];
                let (x, y) = decimal(row);
                let (ex, ey) = (fraction(row.x, row.d), fraction(row.y, row.d));
                let face = cell.face;
                writeln!(
                    out,
                    "{face},{zone},{block},{bed},{gap},{r},{i},{v},{x},{y},{ex},{ey},\"{NOTE}\""
                )
                .expect("a string takes all text");
            }
        }
    }
    out
}
