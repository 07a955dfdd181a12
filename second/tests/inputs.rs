//! The seeded inputs and the text form: every kind does what it says.

use second::check::check;
use second::make::{damage, kinds, map_file, pairs, triples};
use second::map::decode;
use second::overlay::{overlay_files, Room};
use second::text;
use std::collections::HashSet;

const SEEDS: std::ops::Range<u64> = 0..12;

#[test]
fn valid_kinds_are_valid() {
    for kind in kinds() {
        for seed in SEEDS {
            let file = map_file(kind.name, seed).expect("a kind");
            assert!(check(&file).is_ok(), "{} {seed}", kind.name);
        }
    }
}

#[test]
fn damaged_kinds_break_their_rule() {
    for kind in damage::KINDS {
        for seed in SEEDS {
            let file = map_file(kind.name, seed).expect("a kind");
            let refusal = check(&file).expect_err("a damaged file is refused");
            let meant = kind.rule == 0 || kind.rule == refusal.number;
            assert!(meant, "{} {seed}: {refusal}", kind.name);
        }
    }
}

#[test]
fn a_seed_gives_the_same_files() {
    for kind in pairs::KINDS.iter().take(16) {
        assert_eq!(pairs::pair_files(kind.name, 5), pairs::pair_files(kind.name, 5));
    }
    assert_ne!(map_file("planar", 1), map_file("planar", 2));
    assert_eq!(map_file("no such kind", 1), None);
}

#[test]
fn pairs_over_the_room_are_refused() {
    for (kind, place) in [("over-vertices", 1), ("over-edges", 2)] {
        let files = pairs::pair_files(kind, 3).expect("a kind");
        let refusal = overlay_files(&files, &Room::FULL).err().expect("refused");
        assert_eq!((refusal.number, refusal.map, refusal.place), (11, 0, place));
    }
}

/// Kinds of three maps are valid but for those that say otherwise; of the latter each way to be bad
/// comes up.
#[test]
fn sheets_of_three_maps() {
    let mut bad_ones = HashSet::new();
    for kind in triples::KINDS {
        for seed in SEEDS {
            let files = triples::sheet_files(kind.name, seed).expect("a kind");
            let bad = files.each_ref().map(|file| check(file).is_err());
            let want = kind.name.starts_with("bad");
            assert_eq!(bad.contains(&true), want, "{} {seed}", kind.name);
            bad_ones.insert(bad);
        }
    }
    let [t, f] = [true, false];
    let ways = [[f, f, f], [f, f, t], [f, t, t], [t, f, t], [t, t, t]];
    assert_eq!(bad_ones, HashSet::from(ways));
}

/// Of three combs, each two have room more often than all three.
#[test]
fn three_maps_over_the_room() {
    let over = |seed: u64| {
        let files = triples::sheet_files("three-combs", seed).expect("a kind");
        let refusal = overlay_files(&files, &Room::FULL).err();
        let two = overlay_files(&files[..2], &Room::FULL).is_ok();
        two && refusal.is_some_and(|r| (r.number, r.map, r.place) == (11, 0, 1))
    };
    assert!((0..40).filter(|&seed| over(seed)).count() >= 8);
}

/// Pieces from all three maps, from each two, and meetings of the second and the third alone.
#[test]
fn every_kind_of_source_is_made() {
    let mut kinds = HashSet::new();
    for kind in ["three-shared", "three-same", "three-grids", "three-telling"] {
        for seed in SEEDS {
            let files = triples::sheet_files(kind, seed).expect("a kind");
            let done = overlay_files(&files, &Room::FULL);
            let sources = done.map(|done| done.tables.sources).unwrap_or_default();
            kinds.extend(sources.iter().map(|s| s.map(|k| k.is_some())));
        }
    }
    assert_eq!(kinds.len(), 7);
}

#[test]
fn text_gives_the_map_back() {
    for kind in kinds() {
        let map = decode(&map_file(kind.name, 7).expect("a kind")).expect("a map");
        assert_eq!(text::parse(&text::print(&map)), Ok(map));
    }
}

#[test]
fn text_with_names_and_paths() {
    let written = "vertex 0 0 a # south-west\nvertex 4 0 b\n\nvertex 4 4\npath 1 0 a b 2 a";
    let plain = "vertex 0 0\nvertex 4 0\nvertex 4 4\nedge 0 1 1 0\nedge 1 2 1 0\nedge 2 0 1 0\n";
    assert_eq!(text::parse(written), text::parse(plain));
    for (wrong, line) in [("vertex 1", 1), ("vertex 1 2\nedge 0 x 1 1", 2), ("vertex 40000 1", 1)] {
        let why = text::parse(wrong).expect_err("a wrong line");
        assert!(why.starts_with(&format!("line {line}:")), "{why}");
    }
}

#[test]
fn the_program_agrees_with_itself() {
    assert!(second::selftest::run(60, 1).is_ok());
}
