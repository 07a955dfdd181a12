//! The year in whole numbers (02, Ask 14): pairs of zone and block over many overlay files, by sorting all
//! faces with the numbers of their sheets, and names by label.

use crate::answer::Refusal;
use crate::limits::{YEAR_FILES, YEAR_PAIRS};
use crate::overlay::Room;
use crate::ovfile::read;
use crate::tables::{Fnv, Tables};
use std::collections::HashMap;

/// A pair with the number of sheets and of faces other than 0 that have it, and the name shown.
pub struct Row<'a> {
    pub pair: (u16, u16),
    pub sheets: u32,
    pub faces: u32,
    pub name: &'a [u8],
}

/// The rows by pair, and the number of gaps.
pub struct Year<'a> {
    pub rows: Vec<Row<'a>>,
    pub gaps: usize,
}

/// The names of a list by label, the first one for each; none where it ends inside an entry.
pub fn names(list: &[u8]) -> Option<HashMap<u16, &[u8]>> {
    let mut names = HashMap::new();
    let mut rest = list;
    while !rest.is_empty() {
        let (head, more) = rest.split_at_checked(3)?;
        let (name, more) = more.split_at_checked(head[2] as usize)?;
        names.entry(u16::from_le_bytes([head[0], head[1]])).or_insert(name);
        rest = more;
    }
    Some(names)
}

/// The pair of zone and block of each face other than 0.
fn pairs(sheet: &Tables) -> impl Iterator<Item = (u16, u16)> + '_ {
    sheet.faces.iter().skip(1).map(|face| (face.labels[0], face.labels[1]))
}

/// The year of some overlay files and the lists of zone names and of block names, or the refusal.
pub fn year<'a>(files: &[Vec<u8>], lists: [&'a [u8]; 2]) -> Result<Year<'a>, Refusal> {
    let mut found: Vec<((u16, u16), usize)> = Vec::new();
    let mut gaps = 0;
    for (i, file) in files.iter().take(YEAR_FILES).enumerate() {
        let sheet = read(file, &Room::FULL).map_err(|_| Refusal::new(17, i))?;
        found.extend(pairs(&sheet).map(|pair| (pair, i)));
        gaps += sheet.gaps();
    }
    if files.len() > YEAR_FILES {
        return Err(Refusal::new(18, 0));
    }
    found.sort_unstable();
    let groups: Vec<&[((u16, u16), usize)]> = found.chunk_by(|a, b| a.0 == b.0).collect();
    if groups.len() > YEAR_PAIRS {
        return Err(Refusal::new(19, 0));
    }
    let [Some(zones), Some(blocks)] = lists.map(names) else {
        return Err(Refusal::new(20, 0));
    };
    let row = |group: &&[((u16, u16), usize)]| {
        let (zone, block) = group[0].0;
        let name = if zone > 0 { zones.get(&zone) } else { blocks.get(&block) };
        Row {
            pair: (zone, block),
            sheets: group.chunk_by(|a, b| a.1 == b.1).count() as u32,
            faces: group.len() as u32,
            name: name.copied().unwrap_or_default(),
        }
    };
    Ok(Year { rows: groups.iter().map(row).collect(), gaps })
}

/// What `second year` prints: names stand as they are, so it may be no text.
pub fn text(files: &[Vec<u8>], lists: [&[u8]; 2]) -> Vec<u8> {
    let year = match year(files, lists) {
        Ok(year) => year,
        Err(refusal) => return format!("{refusal}\n").into_bytes(),
    };
    let mut out = Vec::new();
    for Row { pair: (zone, block), sheets, faces, name } in &year.rows {
        out.extend(format!("{zone} {block} {sheets} {faces} ").into_bytes());
        out.extend_from_slice(name);
        out.push(b'\n');
    }
    out.extend(format!("gaps {}\n", year.gaps).into_bytes());
    out
}

/// `done ROWS GAPS DIGEST` or the refusal.
pub fn answer(files: &[Vec<u8>], lists: [&[u8]; 2]) -> String {
    let year = match year(files, lists) {
        Ok(year) => year,
        Err(refusal) => return refusal.to_string(),
    };
    let mut sum = Fnv::new();
    for row in &year.rows {
        sum.add(&row.pair.0.to_le_bytes());
        sum.add(&row.pair.1.to_le_bytes());
        sum.add(&row.sheets.to_le_bytes());
        sum.add(&row.faces.to_le_bytes());
        sum.add(&[row.name.len() as u8]);
        sum.add(row.name);
    }
    format!("done {} {} {:016x}", year.rows.len(), year.gaps, sum.value)
}

/// A name list from lines `LABEL NAME`. The name is all that stands behind the first blank; a line
/// without one gives an empty name. Empty lines, and those that begin with #, are passed over.
pub fn list_of_text(text: &[u8]) -> Result<Vec<u8>, String> {
    let mut out = Vec::new();
    for (i, line) in text.split(|&byte| byte == b'\n').enumerate() {
        if line.is_empty() || line[0] == b'#' {
            continue;
        }
        let why = |what: &str| format!("line {}: {what}", i + 1);
        let blank = line.iter().position(|&byte| byte == b' ');
        let (label, name) = match blank {
            Some(at) => (&line[..at], &line[at + 1..]),
            None => (line, &line[line.len()..]),
        };
        let label = std::str::from_utf8(label).ok().filter(|word| !word.starts_with('+'));
        let label: Option<u16> = label.and_then(|word| word.parse().ok());
        let label = label.ok_or_else(|| why("not a label from 0 to 65535"))?;
        let length = u8::try_from(name.len()).map_err(|_| why("a name of more than 255 bytes"))?;
        out.extend(label.to_le_bytes());
        out.push(length);
        out.extend_from_slice(name);
    }
    Ok(out)
}
