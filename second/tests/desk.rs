//! The program as it is started: what it prints, what it says on standard error, its exit status.

use std::path::{Path, PathBuf};
use std::process::Command;

/// A folder of its own for a test.
fn folder(name: &str) -> PathBuf {
    let path = Path::new(env!("CARGO_TARGET_TMPDIR")).join(name);
    std::fs::create_dir_all(&path).expect("a folder");
    path
}

/// Standard output, standard error, exit status, started in a folder.
fn second(dir: &Path, words: &[&str]) -> (String, String, i32) {
    let said = Command::new(env!("CARGO_BIN_EXE_second")).current_dir(dir).args(words).output();
    let said = said.expect("the program starts");
    let text = |bytes: Vec<u8>| String::from_utf8(bytes).expect("text");
    (text(said.stdout), text(said.stderr), said.status.code().expect("an exit status"))
}

fn write(dir: &Path, name: &str, text: &str) {
    std::fs::write(dir.join(name), text).expect("a file is written");
}

/// What `second check` says of a text map, and of the map file that is made of it.
fn checked(name: &str, text: &str, line: &str, told: &str, of_file: &str) {
    let dir = folder(name);
    write(&dir, "map.txt", text);
    let want = (format!("{line}\n"), format!("map.txt: {told}\n"), 1);
    assert_eq!(second(&dir, &["check", "map.txt"]), want);
    assert_eq!(second(&dir, &["text", "map.txt", "map.zmp"]), want);
    let want = (format!("{line}\n"), format!("map.zmp: {of_file}\n"), 1);
    assert_eq!(second(&dir, &["check", "map.zmp"]), want);
}

#[test]
fn edges_that_cross() {
    let text = "# two diagonals\nvertex 0 0 a\nvertex 10 0 b\nvertex 10 10 c\nvertex 0 10 d\n\
                edge b d 0 0\nedge a c 0 0\n";
    let told = "line 6: edge 0 (b to d) crosses edge 1 (a to c) at 5 5";
    checked("cross", text, "refused 8 map 0 place 0", told, "edge 0 crosses edge 1 at 5 5");
}

#[test]
fn a_vertex_on_another() {
    let text = "vertex 1 2\nvertex 10 20 here\n\nvertex 10 20\nedge 0 1 0 0\nedge 0 2 0 0\n";
    let told = "line 4: vertex 2 lies on vertex 1 (here), at 10 20";
    let file = "vertex 2 lies on vertex 1, at 10 20";
    checked("doubled", text, "refused 6 map 0 place 2", told, file);
}

#[test]
fn other_places() {
    let text = "vertex 1 2\nvertex -16001 20\nedge 0 1 0 0\n";
    let told = "vertex 1 lies beyond 16000, at -16001 20";
    let in_text = format!("line 2: {told}");
    checked("far", text, "refused 5 map 0 place 1", &in_text, told);
    let text = "vertex 1 2 a\nvertex 3 4\nedge a a 0 0\n";
    let told = "line 3: edge 0 (a to a) begins and ends in vertex 0 (a), at 1 2";
    let file = "edge 0 begins and ends in vertex 0, at 1 2";
    checked("point", text, "refused 7 map 0 place 0", told, file);
    let text = "vertex 1 2 a\nvertex 3 4\nedge a 1 0 0\nedge a 9 0 0\n";
    let told = "line 4: edge 1 (a to 9) has an end 9, and there are 2 vertices";
    let file = "edge 1 has an end 9, and there are 2 vertices";
    checked("end", text, "refused 7 map 0 place 1", told, file);
    let text = "vertex 1 2 a\nvertex 3 4\nvertex 5 6 c\nedge a 1 0 0\n";
    let told = "line 3: vertex 2 (c) has no edge, at 5 6";
    checked("lonely", text, "refused 9 map 0 place 2", told, "vertex 2 has no edge, at 5 6");
    let text = "vertex 0 0\nvertex 4 0\nvertex 0 4\npath 1 0 0 1 2\nedge 2 0 2 0\n";
    let told = "the label 1 at the left of edge 1";
    let rest = "disagrees with others round its cell, from 4 0 to 0 4";
    let (in_text, file) = (format!("line 4: {told} (1 to 2) {rest}"), format!("{told} {rest}"));
    checked("labels", text, "refused 10 map 0 place 2", &in_text, &file);
}

/// 01's line stays as it is also where a file holds no map; what cannot be opened is 2.
#[test]
fn files_that_are_no_maps() {
    let dir = folder("no-maps");
    write(&dir, "empty.zmp", "");
    write(&dir, "second.zmp", "ZMP\u{2}\0\0\0\0\0");
    write(&dir, "good.txt", "vertex 0 0\nvertex 1 0\nedge 0 1 0 0\n");
    let (out, error, code) = second(&dir, &["check", "good.txt", "empty.zmp", "second.zmp"]);
    assert_eq!(out, "ok 2 1\nrefused 1 map 0 place 0\nrefused 2 map 0 place 0\n");
    assert_eq!(error, "empty.zmp: not a map file\nsecond.zmp: not a map file of version 1\n");
    assert_eq!(code, 1);
    let (out, error, code) = second(&dir, &["check", "nosuch.zmp", "good.txt"]);
    assert_eq!((out.as_str(), code), ("refused 1 map 0 place 0\nok 2 1\n", 2));
    assert!(error.starts_with("cannot open nosuch.zmp: "));
    write(&dir, "wrong.txt", "vertex 0 0\nvertices 1 0\n");
    let (out, error, code) = second(&dir, &["text", "wrong.txt", "wrong.zmp"]);
    assert_eq!((out.as_str(), code), ("", 2));
    assert!(error.starts_with("wrong.txt: line 2: "));
    assert!(!dir.join("wrong.zmp").exists());
    assert_eq!(second(&dir, &["text", "good.txt", "no/such/folder.zmp"]).2, 2);
    assert_eq!(second(&dir, &["text", "good.txt"]).2, 2);
    assert_eq!(second(&dir, &["text", "good.txt", "good.zmp"]), ("ok 2 1\n".into(), "".into(), 0));
    let many: String = (0..201).map(|x| format!("vertex {x} 0\n")).collect();
    write(&dir, "many.txt", &many);
    let (out, error, code) = second(&dir, &["check", "many.txt"]);
    assert_eq!((out.as_str(), code), ("refused 3 map 0 place 0\n", 1));
    assert_eq!(error, "many.txt: more than 200 vertices or 300 edges\n");
}

/// Show and import, started: the sample's file, one that is refused, one that is not there.
#[test]
fn show_and_import() {
    let dir = folder("show");
    let sheets = format!("{}/../sheets", env!("CARGO_MANIFEST_DIR"));
    let map = |name: &str| format!("{sheets}/{name}.zmp");
    let (zones, blocks) = (map("sample/zones"), map("sample/blocks"));
    assert_eq!(second(&dir, &["overlay", &zones, &blocks, "sample.zov"]).2, 0);
    for form in ["svg", "geojson", "csv"] {
        let data = format!("{}/tests/data/sample.{form}", env!("CARGO_MANIFEST_DIR"));
        let want = std::fs::read_to_string(data).expect("a file of tests/data");
        let shown = second(&dir, &["show", "sample.zov", &format!("--{form}")]);
        assert_eq!(shown, (want, String::new(), 0));
    }
    write(&dir, "not.zov", "ZOV");
    let want = ("refused 1 map 0 place 0\n".to_string(), String::new(), 1);
    assert_eq!(second(&dir, &["show", "not.zov", "--svg"]), want);
    assert_eq!(second(&dir, &["show", "nosuch.zov", "--svg"]).2, 2);
    assert_eq!(second(&dir, &["show", "sample.zov", "--gif"]).2, 2);
    let layer = second(&dir, &["show", "sample.zov", "--geojson"]).0;
    write(&dir, "sample.geojson", &layer);
    let done = ("ok 10 12\n".to_string(), String::new(), 0);
    assert_eq!(second(&dir, &["import", "sample.geojson", "block", "blocks.txt"]), done);
    assert_eq!(second(&dir, &["check", "blocks.txt"]), done);
    let (out, error, code) = second(&dir, &["import", "sample.geojson", "exact", "no.txt"]);
    assert_eq!((out.as_str(), code), ("", 1));
    assert!(error.starts_with("sample.geojson: feature 0: its exact is "), "{error}");
    assert!(!dir.join("no.txt").exists());
}
