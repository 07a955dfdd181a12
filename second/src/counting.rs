//! The commands that count: soundings by cell, and the year.

use crate::levels;
use crate::make;
use crate::map::{decode, Map};
use crate::overlay::Room;
use crate::ovfile::read;
use crate::soundings;
use crate::within::Ceilings;
use crate::year;
use std::collections::BTreeMap;
use std::io::Write;

pub const USAGE: &str = "
second cells [--read] ZONES BLOCKS LIST   soundings by cell, and the edges read
second cells-in FILE.zov LIST             soundings by cell, looked up in the tables of an overlay file
second levels ZONES BLOCKS LIST RULES A B the water level at each sounding: tide rules, two readings
second make-list SEED N ZONES BLOCKS OUT  make a list of N soundings over two maps
second make-cells SEED N FILE             N pairs of maps with a list of soundings in one file
second cells-answers [--read] FILE        the answer and digest of each case of such a pack
second unpack-cells FILE I DIR            make the maps and the list of case I in DIR
second year ZONE-NAMES BLOCK-NAMES FILE.. pairs, sheets, faces and names over many overlay files
second names IN.txt OUT                   make a name list from lines `LABEL NAME`
second make-years SEED N FILE             N runs of overlay files with their name lists in one file
second year-answers FILE                  the answer and digest of each run of such a pack
second unpack-years FILE I DIR            make the name lists and the files of run I in DIR
second trial-counts SEED N                N rounds of small lists of soundings and years with their answers";

/// What a command prints, or why it could not be done.
type Outcome = Result<String, String>;

/// The outcome of one of these commands, or none for other words.
pub fn run(args: &[&str]) -> Option<Outcome> {
    Some(match args {
        ["cells", "--read", zones, blocks, list] => Ok(cells([zones, blocks, list], true)),
        ["cells", zones, blocks, list] => Ok(cells([zones, blocks, list], false)),
        ["cells-in", file, list] => Ok(cells_in(file, list)),
        ["levels", zones, blocks, list, rules, readings @ ..] => {
            levels_of([zones, blocks, list], rules, readings)
        }
        ["make-list", seed, n, zones, blocks, out] => make_list(seed, n, [zones, blocks], out),
        ["make-cells", seed, n, out] => make_cells(seed, n, out),
        ["cells-answers", "--read", file] => cells_answers(file, true),
        ["cells-answers", file] => cells_answers(file, false),
        ["unpack-cells", file, i, dir] => unpack_cells(file, i, dir),
        ["year", zones, blocks, files @ ..] => year_of([zones, blocks], files),
        ["names", file, out] => name_list(file, out),
        ["make-years", seed, n, out] => make_years(seed, n, out),
        ["year-answers", file] => year_answers(file),
        ["unpack-years", file, i, dir] => unpack_years(file, i, dir),
        ["trial-counts", seed, n] => trial_counts(seed, n),
        _ => return None,
    })
}

/// The bytes of a file; one that cannot be opened counts as a file of 0 bytes.
fn bytes(path: &str) -> Vec<u8> {
    std::fs::read(path).unwrap_or_default()
}

fn save(path: &str, bytes: &[u8]) -> Outcome {
    std::fs::write(path, bytes).map(|()| String::new()).map_err(|why| format!("{path}: {why}"))
}

fn number<T: std::str::FromStr>(word: &str) -> Result<T, String> {
    word.parse().map_err(|_| format!("not a number in range: {word}"))
}

fn cells(files: [&str; 3], read: bool) -> String {
    let [zones, blocks, list] = files.map(bytes);
    soundings::text([&zones, &blocks], &list, read)
}

/// The file's cells in place of the maps; the list is taken as it stands.
fn cells_in(file: &str, list: &str) -> String {
    match read(&bytes(file), &Room::FULL) {
        Ok(tables) => {
            let ceilings = Ceilings::new(&tables);
            let mut cells = BTreeMap::new();
            for place in soundings::places(&bytes(list)) {
                let [zone, block, ..] = ceilings.labels(place);
                *cells.entry((zone, block)).or_insert(0u32) += 1;
            }
            cells.iter().map(|((zone, block), n)| format!("{zone} {block} {n}\n")).collect()
        }
        Err(refusal) => format!("{refusal}\n"),
    }
}

/// A reading in whole millimetres, `-` for a missing one.
fn reading(word: &str) -> Result<Option<i32>, String> {
    let held = |n: i64| n.clamp(-1_000_000, 1_000_000) as i32;
    if word == "-" {
        Ok(None)
    } else {
        number(word).map(held).map(Some)
    }
}

fn levels_of(files: [&str; 3], rules: &str, readings: &[&str]) -> Outcome {
    let [zones, blocks, list] = files.map(bytes);
    let text = String::from_utf8_lossy(&bytes(rules)).into_owned();
    let table = levels::rules(&text).map_err(|n| format!("{rules}: line {n} is no rule"))?;
    let [first, second] = readings else { return Err("two readings".to_string()) };
    Ok(levels::text([&zones, &blocks], &list, &table, [reading(first)?, reading(second)?]))
}

fn make_list(seed: &str, n: &str, maps: [&str; 2], out: &str) -> Outcome {
    let maps: Vec<Map> = maps.iter().filter_map(|path| decode(&bytes(path)).ok()).collect();
    save(out, &make::places::mixed(number(seed)?, number(n)?, &maps))
}

fn make_cells(seed: &str, n: &str, out: &str) -> Outcome {
    save(out, &make::soundings::bytes(&make::soundings::make(number(seed)?, number(n)?)))
}

fn cell_cases(file: &str) -> Result<Vec<make::soundings::Case>, String> {
    make::soundings::parse(&bytes(file)).ok_or(format!("{file}: not a pack of soundings"))
}

/// `I ANSWER` for each case of a pack.
fn cells_answers(file: &str, read: bool) -> Outcome {
    let line = |(i, c): (usize, &make::soundings::Case)| {
        let files = [&c.maps[0][..], &c.maps[1][..]];
        format!("{i} {}\n", soundings::answer(files, &c.list, c.lent.map(usize::from), read))
    };
    Ok(cell_cases(file)?.iter().enumerate().map(line).collect())
}

/// The maps and the list of one case; prints the numbers of the lent labels and counts.
fn unpack_cells(file: &str, i: &str, dir: &str) -> Outcome {
    let cases = cell_cases(file)?;
    let case = cases.get(number::<usize>(i)?).ok_or("no such case")?;
    std::fs::create_dir_all(dir).map_err(|why| format!("{dir}: {why}"))?;
    save(&format!("{dir}/zones.zmp"), &case.maps[0])?;
    save(&format!("{dir}/blocks.zmp"), &case.maps[1])?;
    save(&format!("{dir}/list"), &case.list)?;
    Ok(format!("{} {}\n", case.lent[0], case.lent[1]))
}

/// Names stand as they are, so what is printed may be no text.
fn year_of(lists: [&str; 2], files: &[&str]) -> Outcome {
    let [zones, blocks] = lists.map(bytes);
    let files: Vec<Vec<u8>> = files.iter().map(|path| bytes(path)).collect();
    // A reader that has seen enough may close the pipe.
    let _ = std::io::stdout().write_all(&year::text(&files, [&zones, &blocks]));
    Ok(String::new())
}

fn name_list(file: &str, out: &str) -> Outcome {
    let text = std::fs::read(file).map_err(|why| format!("{file}: {why}"))?;
    save(out, &year::list_of_text(&text).map_err(|why| format!("{file}: {why}"))?)
}

fn make_years(seed: &str, n: &str, out: &str) -> Outcome {
    save(out, &make::years::bytes(&make::years::make(number(seed)?, number(n)?)))
}

fn year_runs(file: &str) -> Result<Vec<make::years::Run>, String> {
    make::years::parse(&bytes(file)).ok_or(format!("{file}: not a pack of years"))
}

/// `I ANSWER` for each run of a pack.
fn year_answers(file: &str) -> Outcome {
    let line = |(i, run): (usize, &make::years::Run)| {
        format!("{i} {}\n", year::answer(&run.files, [&run.lists[0], &run.lists[1]]))
    };
    Ok(year_runs(file)?.iter().enumerate().map(line).collect())
}

/// DIR/zone-names, block-names and 000.zov, 001.zov and so on.
fn unpack_years(file: &str, i: &str, dir: &str) -> Outcome {
    let runs = year_runs(file)?;
    let run = runs.get(number::<usize>(i)?).ok_or("no such run")?;
    std::fs::create_dir_all(dir).map_err(|why| format!("{dir}: {why}"))?;
    save(&format!("{dir}/zone-names"), &run.lists[0])?;
    save(&format!("{dir}/block-names"), &run.lists[1])?;
    for (k, file) in run.files.iter().enumerate() {
        save(&format!("{dir}/{k:03}.zov"), file)?;
    }
    Ok(String::new())
}

fn trial_counts(seed: &str, n: &str) -> Outcome {
    Ok(crate::trial_counts::run(number(seed)?, number(n)?))
}
