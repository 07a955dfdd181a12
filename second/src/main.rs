//! The command line of the second program.

use second::answer::Refusal;
use second::check::check;
use second::counting;
use second::limits::MAPS;
use second::make;
use second::map::decode;
use second::meet;
use second::melt::melt_files;
use second::mend;
use second::overlay::{overlay_files, Overlay, Room};
use second::ovfile::{file_as, file_of, read};
use second::pack;
use second::random::Random;
use second::text;
use second::version::Version;
use std::io::Write;
use std::process::ExitCode;

const USAGE: &str = "\
second list DIR                           list the overlay of DIR/zones.zmp and DIR/blocks.zmp
second check FILE...                      check map files, or text maps (.txt), a line for each; what is
                                          wrong, and where, on standard error
second overlay [BED] ZONES BLOCKS OUT     write the overlay file
second melt [BED] ZONES BLOCKS [OUT]      list the melted tables, and write them as an overlay file
second read FILE [ROOM]                   check and list an overlay file
second edges FILE                         check an overlay file and list its edges
second rewrite FILE OUT                   read an overlay file and write it again
second as-version N FILE OUT              the same, as a file of version N
second digest [BED] ZONES BLOCKS [ROOM]   counts and digest of the overlay's tables
second melt-digest [BED] ZONES BLOCKS [ROOM]
                                          the same of the melted tables
second kinds                              the kinds of maps, pairs and sheets
second make KIND SEED OUT.zmp             make a map file
second pair KIND SEED DIR                 make DIR/zones.zmp and DIR/blocks.zmp
second sheet KIND SEED DIR                make them and DIR/bed.zmp
second set SEED N DIR                     make N pairs of all kinds in turn, in folders of DIR
second digests DIR                        the digest of the maps in each folder of DIR
second melt-digests DIR                   the same of the melted tables
second pack SEED N FILE                   N sheets of all kinds and N/10 clashing ones in one file, with
                                          tables to lend
second pack SEED N FILE --orders          behind them the same maps in other orders
second answers FILE                       the answer and digest of each entry of a pack
second orders FILE                        lay each entry in all six orders, and compare (02, Ask 11)
second melt-pack SEED N FILE              N sheets of which much melts in one file, as a pack
second melt-answers FILE                  the answer and digest of the melted tables of each entry
second unpack FILE I DIR                  make the maps of entry I of a pack in DIR, and say its ROOM
second mend IN OUT                        mend a map file, and list what was done
second mend-pack SEED N FILE              N files to be mended in one file, with the room to lend
second mend-answers FILE                  the answer for each file of such a pack, and a digest
second damage-overlay SEED FILE OUT       damage an overlay file
second meets FILE                         how two edges meet, for each 16 bytes of a file
second clash FILE                         of a map file refused with 8, how the two edges meet
second make-meets SEED N FILE             N pairs of edges of all kinds, for `meets`
second show FILE.zov --svg                a picture of an overlay file: for viewing, not proved
second show FILE.zov --geojson            the same as GeoJSON, one feature a cell, with its holes
second show FILE.zov --csv                the same as a table, a line for each corner of each cell
second import IN.geojson LABEL OUT.txt    a text map of polygons with whole coordinates; LABEL is the property
                                          with their labels; what does not fit is refused with its place
second text FILE.txt OUT.zmp              make a map file from text, and check it
second untext FILE.zmp                    the text of a map file
second tides FILE                         the height of tide of each record
second make-tides SEED N FILE             make N records of all kinds
second trial SEED N                       N rounds of small inputs with their answers
second selftest N SEED                    check the program itself on N sheets, N maps, 100 N tides

BED is `--bed BED`, the third map's file; without it the third map is empty.
ROOM is `--room V E F` (vertices, edges, faces there is room for) or `--tables V H S F` (rows
of the lent tables of vertices, half-edges, sources, faces).";

/// The names of a sheet's maps.
const NAMES: [&str; MAPS] = ["zones", "blocks", "bed"];

/// What a command prints, or why it could not be done.
type Outcome = Result<String, String>;

mod desk;

fn main() -> ExitCode {
    let args: Vec<String> = std::env::args().skip(1).collect();
    let args: Vec<&str> = args.iter().map(String::as_str).collect();
    if let Some(code) = desk::run(&args) {
        return code;
    }
    match run(&args) {
        Ok(text) => {
            // A reader that has seen enough may close the pipe.
            let _ = std::io::stdout().write_all(text.as_bytes());
            ExitCode::SUCCESS
        }
        Err(text) => {
            eprintln!("{text}");
            ExitCode::from(2)
        }
    }
}

fn run(args: &[&str]) -> Outcome {
    match args {
        ["list", dir] => {
            let files = ["zones", "blocks"].map(|name| bytes(&format!("{dir}/{name}.zmp")));
            Ok(list(&files))
        }
        ["overlay", "--bed", bed, zones, blocks, out] => overlay(&[zones, blocks, bed], out),
        ["overlay", zones, blocks, "--bed", bed, out] => overlay(&[zones, blocks, bed], out),
        ["overlay", zones, blocks, out] => overlay(&[zones, blocks], out),
        ["melt", "--bed", bed, zones, blocks, out @ ..] => melted(&[zones, blocks, bed], out),
        ["melt", zones, blocks, out @ ..] => melted(&[zones, blocks], out),
        ["read", file, room @ ..] => read_file(file, &room_of(room)?),
        ["edges", file] => Ok(edges(file)),
        ["rewrite", file, out] => rewrite(Version::NEWEST, file, out),
        ["as-version", n, file, out] => {
            rewrite(Version::of(number(n)?).ok_or("no such version")?, file, out)
        }
        ["digest", "--bed", bed, zones, blocks, room @ ..] => {
            Ok(digest(laid(&[zones, blocks, bed], &room_of(room)?)))
        }
        ["digest", zones, blocks, room @ ..] => Ok(digest(laid(&[zones, blocks], &room_of(room)?))),
        ["melt-digest", "--bed", bed, zones, blocks, room @ ..] => {
            Ok(digest(melt_of(&[zones, blocks, bed], &room_of(room)?)))
        }
        ["melt-digest", zones, blocks, room @ ..] => {
            Ok(digest(melt_of(&[zones, blocks], &room_of(room)?)))
        }
        ["kinds"] => Ok(kinds()),
        ["make", kind, seed, out] => {
            let file = make::map_file(kind, number(seed)?).ok_or("no such kind of map")?;
            save(out, &file).map(|()| String::new())
        }
        ["set", seed, n, dir] => set(number(seed)?, number(n)?, dir),
        ["digests", dir] => digests(dir, laid),
        ["melt-digests", dir] => digests(dir, melt_of),
        ["pack", seed, n, out] => {
            let entries = pack::make(number(seed)?, number(n)?);
            save(out, &pack::bytes(&entries)).map(|()| String::new())
        }
        ["pack", seed, n, out, "--orders"] => {
            let entries = pack::with_orders(pack::make(number(seed)?, number(n)?));
            save(out, &pack::bytes(&entries)).map(|()| String::new())
        }
        ["orders", file] => pack::in_all_orders(&packed(file)?),
        ["answers", file] => answers(file, pack::Entry::answer),
        ["melt-pack", seed, n, out] => {
            let entries = make::melts::make(number(seed)?, number(n)?);
            save(out, &pack::bytes(&entries)).map(|()| String::new())
        }
        ["melt-answers", file] => answers(file, pack::Entry::melted),
        ["unpack", file, i, dir] => unpack(file, number(i)?, dir),
        ["mend", file, out] => mend_file(file, out),
        ["mend-pack", seed, n, out] => {
            let cases = make::mends::make(number(seed)?, number(n)?);
            save(out, &make::mends::bytes(&cases)).map(|()| String::new())
        }
        ["mend-answers", file] => mend_answers(file),
        ["damage-overlay", seed, file, out] => damage_overlay(number(seed)?, file, out),
        ["meets", file] => Ok(meet::lines(&bytes(file))),
        ["clash", file] => clash(file),
        ["make-meets", seed, n, out] => {
            let file = make::meets::file(number(seed)?, number(n)?);
            save(out, &file).map(|()| String::new())
        }
        ["untext", file] => to_text(file),
        ["tides", file] => Ok(second::tide::lines(&bytes(file))),
        ["make-tides", seed, n, out] => {
            save(out, &make::tides::file(number(seed)?, number(n)?)).map(|()| String::new())
        }
        ["trial", seed, n] => Ok(second::trial::run(number(seed)?, number(n)?)),
        ["selftest", n, seed] => second::selftest::run(number(n)?, number(seed)?),
        ["pair", kind, seed, dir] => pair(kind, number(seed)?, dir),
        ["sheet", kind, seed, dir] => sheet(kind, number(seed)?, dir),
        _ => counting::run(args).unwrap_or_else(|| Err(format!("{USAGE}{}", counting::USAGE))),
    }
}

/// The bytes of a file; one that cannot be opened counts as a file of 0 bytes.
fn bytes(path: &str) -> Vec<u8> {
    std::fs::read(path).unwrap_or_default()
}

fn save(path: &str, bytes: &[u8]) -> Result<(), String> {
    std::fs::write(path, bytes).map_err(|why| format!("{path}: {why}"))
}

fn number<T: std::str::FromStr>(word: &str) -> Result<T, String> {
    word.parse().map_err(|_| format!("not a number in range: {word}"))
}

fn room_of(args: &[&str]) -> Result<Room, String> {
    match args {
        [] => Ok(Room::FULL),
        ["--room", v, e, f] => {
            let edges: usize = number(e)?;
            Ok(Room::lent(number(v)?, edges.saturating_mul(2), edges, number(f)?))
        }
        ["--tables", v, h, s, f] => Ok(Room::lent(number(v)?, number(h)?, number(s)?, number(f)?)),
        _ => Err(USAGE.to_string()),
    }
}

fn list(files: &[Vec<u8>]) -> String {
    match overlay_files(files, &Room::FULL) {
        Ok(overlay) => overlay.tables.listing(),
        Err(refusal) => format!("{refusal}\n"),
    }
}

/// The sentence for a map file that is refused with 8.
fn clash(path: &str) -> Outcome {
    let file = bytes(path);
    match (check(&file), decode(&file)) {
        (Err(refusal), Ok(map)) if refusal.number == 8 => {
            Ok(meet::sentence(&map, refusal.place, refusal.other) + "\n")
        }
        _ => Err(format!("{path}: not refused with 8")),
    }
}

/// The overlay of the maps in some files.
fn laid(paths: &[&str], room: &Room) -> Result<Overlay, Refusal> {
    let files: Vec<Vec<u8>> = paths.iter().map(|path| bytes(path)).collect();
    overlay_files(&files, room)
}

fn overlay(paths: &[&str], out: &str) -> Outcome {
    match laid(paths, &Room::FULL).and_then(|overlay| file_of(&overlay.tables)) {
        Ok(file) => save(out, &file).map(|()| format!("{} bytes\n", file.len())),
        Err(refusal) => Ok(format!("{refusal}\n")),
    }
}

/// The melted tables of the maps in some files.
fn melt_of(paths: &[&str], room: &Room) -> Result<Overlay, Refusal> {
    let files: Vec<Vec<u8>> = paths.iter().map(|path| bytes(path)).collect();
    melt_files(&files, room)
}

/// The listing of the melted tables; where a file is asked for, they are written. Refused, none is.
fn melted(paths: &[&str], out: &[&str]) -> Outcome {
    let tables = match melt_of(paths, &Room::FULL) {
        Ok(melted) => melted.tables,
        Err(refusal) => return Ok(format!("{refusal}\n")),
    };
    match out {
        [] => {}
        [out] => save(out, &file_of(&tables).map_err(|refusal| refusal.to_string())?)?,
        _ => return Err(USAGE.to_string()),
    }
    Ok(tables.listing())
}

fn read_file(path: &str, room: &Room) -> Outcome {
    Ok(match read(&bytes(path), room) {
        Ok(tables) => tables.listing(),
        Err(refusal) => format!("{refusal}\n"),
    })
}

fn edges(path: &str) -> String {
    match read(&bytes(path), &Room::FULL) {
        Ok(tables) => tables.edge_lines(),
        Err(refusal) => format!("{refusal}\n"),
    }
}

fn rewrite(version: Version, path: &str, out: &str) -> Outcome {
    let tables = read(&bytes(path), &Room::FULL).map_err(|refusal| refusal.to_string());
    match tables.and_then(|tables| file_as(version, &tables)) {
        Ok(file) => save(out, &file).map(|()| format!("{} bytes\n", file.len())),
        Err(why) => Ok(format!("{why}\n")),
    }
}

fn digest(done: Result<Overlay, Refusal>) -> String {
    match done {
        Ok(overlay) => format!("done {}\n", overlay.tables.digest()),
        Err(refusal) => format!("{refusal}\n"),
    }
}

fn kinds() -> String {
    let mut out = String::from("maps:\n");
    let mut line = |name: &str, about: &str| out += &format!("  {name:14} {about}\n");
    make::kinds().for_each(|k| line(k.name, k.about));
    line("any", "any of these, or damaged");
    out += "damaged maps:\n";
    for k in make::damage::KINDS {
        let rule = if k.rule == 0 { "any".to_string() } else { k.rule.to_string() };
        out += &format!("  {:14} {} (rule {rule})\n", k.name, k.about);
    }
    out += "pairs:\n";
    for k in make::pairs::KINDS.iter().chain([&make::pairs::CLASHING]) {
        out += &format!("  {:14} {}\n", k.name, k.about);
    }
    out += "sheets of three maps:\n";
    for k in make::triples::KINDS.iter().chain(make::melts::KINDS) {
        out += &format!("  {:14} {}\n", k.name, k.about);
    }
    out + "  any            any of the sheets that are not made to melt, and of the pairs but the last\n"
}

fn pair(kind: &str, seed: u64, dir: &str) -> Outcome {
    save_maps(&make::pairs::pair_files(kind, seed).ok_or("no such kind of pair")?, dir)
}

fn sheet(kind: &str, seed: u64, dir: &str) -> Outcome {
    save_maps(&make::triples::sheet_files(kind, seed).ok_or("no such kind of sheet")?, dir)
}

/// Two or three maps in a folder.
fn save_maps(files: &[Vec<u8>], dir: &str) -> Outcome {
    std::fs::create_dir_all(dir).map_err(|why| format!("{dir}: {why}"))?;
    for (file, name) in files.iter().zip(NAMES) {
        save(&format!("{dir}/{name}.zmp"), file)?;
    }
    Ok(String::new())
}

/// Pair i is in the folder `NNNN-KIND` and has the seed SEED + i.
fn set(seed: u64, n: usize, dir: &str) -> Outcome {
    let kinds = make::pairs::KINDS;
    for i in 0..n {
        let kind = kinds[i % kinds.len()].name;
        pair(kind, seed.wrapping_add(i as u64), &format!("{dir}/{i:04}-{kind}"))?;
    }
    Ok(String::new())
}

/// `NAME ANSWER` for each folder, in the order of their names.
fn digests(dir: &str, done: fn(&[&str], &Room) -> Result<Overlay, Refusal>) -> Outcome {
    let why = |why: std::io::Error| format!("{dir}: {why}");
    let mut folders: Vec<_> =
        std::fs::read_dir(dir).map_err(why)?.collect::<Result<_, _>>().map_err(why)?;
    folders.retain(|entry| entry.path().is_dir());
    folders.sort_by_key(|entry| entry.file_name());
    let line = |entry: &std::fs::DirEntry| {
        let path = |name: &str| entry.path().join(format!("{name}.zmp"));
        let there = NAMES.iter().filter(|&&name| name != "bed" || path(name).exists());
        let paths: Vec<String> =
            there.map(|name| path(name).to_string_lossy().into_owned()).collect();
        let paths: Vec<&str> = paths.iter().map(String::as_str).collect();
        let answer = digest(done(&paths, &Room::FULL));
        format!("{} {answer}", entry.file_name().to_string_lossy())
    };
    Ok(folders.iter().map(line).collect())
}

fn packed(file: &str) -> Result<Vec<pack::Entry>, String> {
    pack::parse(&bytes(file)).ok_or(format!("{file}: not a pack"))
}

/// `I ANSWER` for each entry of a pack.
fn answers(file: &str, answer: fn(&pack::Entry) -> String) -> Outcome {
    let entries = packed(file)?;
    Ok(entries.iter().enumerate().map(|(i, e)| format!("{i} {}\n", answer(e))).collect())
}

fn unpack(file: &str, i: usize, dir: &str) -> Outcome {
    let entries = packed(file)?;
    let entry = entries.get(i).ok_or("no such entry")?;
    let [v, h, s, f] = entry.rows;
    save_maps(&entry.files, dir).map(|_| format!("--tables {v} {h} {s} {f}\n"))
}

/// The file is written where it is not refused.
fn mend_file(file: &str, out: &str) -> Outcome {
    match mend::mend(&bytes(file)) {
        Ok(mended) => save(out, &mended.map.bytes()).map(|()| mend::lines(&mended)),
        Err(refusal) => Ok(format!("{refusal}\n")),
    }
}

/// `I ANSWER` for each file of a pack of files to be mended.
fn mend_answers(file: &str) -> Outcome {
    let cases = make::mends::parse(&bytes(file)).ok_or(format!("{file}: not a pack of files"))?;
    let line = |(i, c): (usize, &make::mends::Case)| {
        format!("{i} {}\n", mend::answer(&c.file, c.room as usize, c.list as usize))
    };
    Ok(cases.iter().enumerate().map(line).collect())
}

fn damage_overlay(seed: u64, file: &str, out: &str) -> Outcome {
    let mut random = Random::new(seed, "damage-overlay");
    let damaged = make::overlay_damage::damaged(&mut random, &bytes(file));
    save(out, &damaged).map(|()| String::new())
}

fn to_text(file: &str) -> Outcome {
    let map = decode(&bytes(file)).map_err(|refusal| format!("{file}: {refusal}"))?;
    Ok(text::print(&map))
}
