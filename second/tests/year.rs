//! The year: 02's words on small files, counts one by one on many, every refusal in its place.

use second::answer::Refusal;
use second::limits::{NO_HALF_EDGE, YEAR_FILES, YEAR_PAIRS};
use second::make::years::{bytes, make, parse, KINDS};
use second::overlay::Room;
use second::ovfile::{file_as, read};
use second::tables::{FaceRow, Tables};
use second::version::Version;
use second::year::{answer, list_of_text, names, text, year};
use std::collections::{BTreeSet, HashMap};

/// An overlay file of faces alone: face 0, and one for each pair; each has a third label, if it can.
fn file(version: Version, pairs: &[(u16, u16)]) -> Vec<u8> {
    let bed = if version.maps > 2 { 9 } else { 0 };
    let row =
        |&(zone, block): &(u16, u16)| FaceRow { labels: [zone, block, bed], least: 0, holes: 0 };
    let outside = FaceRow { least: NO_HALF_EDGE, ..row(&(0, 0)) };
    let faces = [outside].into_iter().chain(pairs.iter().map(row)).collect();
    file_as(version, &Tables { faces, ..Tables::default() }).expect("a file")
}

fn entry(label: u16, name: &[u8]) -> Vec<u8> {
    [&label.to_le_bytes()[..], &[name.len() as u8], name].concat()
}

#[test]
fn lines_of_a_year() {
    let files = [
        file(Version::FIRST, &[(3, 7), (3, 7), (0, 7), (0, 0)]),
        file(Version::SECOND, &[(3, 7), (256, 1), (0, 0), (0, 0)]),
        file(Version::THIRD, &[(256, 1)]),
        file(Version::NEWEST, &[]),
    ];
    let zones = [entry(3, b"Ness"), entry(0, b"none"), entry(256, b""), entry(3, b"late")].concat();
    let blocks = [entry(1, b"one"), entry(7, b"up per")].concat();
    let shown = text(&files, [&zones, &blocks]);
    let want = "0 0 2 3 \n0 7 1 1 up per\n3 7 2 3 Ness\n256 1 2 2 \ngaps 1\n";
    assert_eq!(String::from_utf8_lossy(&shown), want);
    assert_eq!(text(&[], [&zones, &blocks]), b"gaps 0\n");
    assert_eq!(text(&[vec![]], [&[], &[]]), b"refused 17 map 0 place 0\n");
}

#[test]
fn names_are_parts_of_their_list() {
    let list = [entry(5, b"abc"), entry(5, b"d"), entry(9, b"")].concat();
    let found = names(&list).expect("a whole list");
    assert_eq!((found.len(), found[&5], found[&9]), (2, &b"abc"[..], &b""[..]));
    assert_eq!(found[&5].as_ptr(), list[3..].as_ptr());
    let whole = |n: usize| [0, 6, 10, 13].contains(&n);
    assert!((0..=list.len()).all(|n| names(&list[..n]).is_some() == whole(n)));
}

/// Each refusal goes before those of greater number.
#[test]
fn refusals_in_their_order() {
    let of = |files: &[Vec<u8>], lists: [&[u8]; 2]| year(files, lists).err();
    let pairs: Vec<(u16, u16)> = (0..YEAR_PAIRS as u16 + 1).map(|n| (n, n % 3)).collect();
    let over = file(Version::SECOND, &pairs);
    let most = file(Version::FIRST, &pairs[1..]);
    let torn: &[u8] = &[1, 0];
    assert_eq!(of(&[most.clone()], [&[], &[]]), None);
    assert_eq!(of(&[most.clone(), most.clone()], [torn, &[]]), Some(Refusal::new(20, 0)));
    assert_eq!(of(&[most.clone()], [&[], torn]), Some(Refusal::new(20, 0)));
    assert_eq!(of(&[over.clone()], [torn, torn]), Some(Refusal::new(19, 0)));
    assert_eq!(of(&[most.clone(), over.clone()], [&[], &[]]), Some(Refusal::new(19, 0)));
    let mut files = vec![over; YEAR_FILES + 1];
    files[YEAR_FILES] = vec![];
    assert_eq!(of(&files, [torn, torn]), Some(Refusal::new(18, 0)));
    files[YEAR_FILES - 1] = vec![1];
    assert_eq!(of(&files, [torn, torn]), Some(Refusal::new(17, YEAR_FILES - 1)));
    files[0] = most[..most.len() - 1].to_vec();
    assert_eq!(of(&files, [torn, torn]), Some(Refusal::new(17, 0)));
}

/// Runs of all kinds give the answer that they are meant for, and their rows are counted pair by
/// pair and file by file; the gaps are those of the rows.
#[test]
fn runs_of_all_kinds() {
    let runs = make(1, 96);
    let read_back = parse(&bytes(&runs)).expect("a pack");
    let (mut done, mut rows, mut named) = (0, 0, 0);
    for (i, run) in runs.iter().enumerate() {
        assert!(run.lists == read_back[i].lists && run.files == read_back[i].files);
        let lists = [&run.lists[0][..], &run.lists[1][..]];
        let (meant, _) = KINDS[i % KINDS.len()];
        match year(&run.files, lists) {
            Err(refusal) => {
                assert_eq!(refusal.number, meant, "run {i}");
                assert_eq!(answer(&run.files, lists), refusal.to_string());
            }
            Ok(found) => {
                assert_eq!(meant, 0, "run {i}");
                done += 1;
                rows += found.rows.len();
                named += found.rows.iter().filter(|row| !row.name.is_empty()).count();
                let sheets: Vec<Vec<(u16, u16)>> = run.files.iter().map(|f| pairs(f)).collect();
                let all: BTreeSet<(u16, u16)> = sheets.iter().flatten().copied().collect();
                assert!(found.rows.iter().map(|row| row.pair).eq(all));
                for row in &found.rows {
                    let with = sheets.iter().filter(|sheet| sheet.contains(&row.pair));
                    let faces = sheets.iter().flatten().filter(|&&pair| pair == row.pair);
                    assert_eq!(row.sheets as usize, with.count());
                    assert_eq!(row.faces as usize, faces.count());
                }
                let gap = |&&(zone, block): &&(u16, u16)| zone == 0 && block != 0;
                assert_eq!(found.gaps, sheets.iter().flatten().filter(gap).count());
            }
        }
    }
    assert!(done == 30 && rows > 3_000 && named > 500, "{done} {rows} {named}");
}

/// Counts with a slip: a sheet for each face, face 0 counted, gaps outside the blocks too, the last name
/// for a label, the zone list's name for zone 0. Each shows in most of the runs that are done.
#[test]
fn runs_tell_slips() {
    let (mut done, mut shown) = (0, [0; 5]);
    for run in make(1, 96) {
        let lists = [&run.lists[0][..], &run.lists[1][..]];
        let Ok(found) = year(&run.files, lists) else { continue };
        if found.rows.is_empty() {
            continue;
        }
        done += 1;
        let outside = run.files.iter().filter_map(|file| {
            let tables = read(file, &Room::FULL).expect("a file that is read");
            tables.faces.first().map(|face| (face.labels[0], face.labels[1]))
        });
        let all = run.files.iter().flat_map(|file| pairs(file));
        let [zones, blocks] = lists.map(last_names);
        shown[0] += found.rows.iter().any(|row| row.sheets != row.faces) as usize;
        shown[1] += (outside.count() > 0) as usize;
        shown[2] += (all.filter(|pair| pair.0 == 0).count() != found.gaps) as usize;
        let name =
            |list: &HashMap<u16, Vec<u8>>, label| list.get(&label).cloned().unwrap_or_default();
        shown[3] += found.rows.iter().any(|row| {
            let (zone, block) = row.pair;
            row.name != if zone > 0 { name(&zones, zone) } else { name(&blocks, block) }
        }) as usize;
        let first = names(lists[0]).expect("a whole list");
        let of_0 = first.get(&0).copied().unwrap_or_default();
        shown[4] += found.rows.iter().any(|row| row.pair.0 == 0 && row.name != of_0) as usize;
    }
    assert!(shown.iter().all(|&n| 2 * n > done), "{shown:?} of {done}");
}

fn last_names(list: &[u8]) -> HashMap<u16, Vec<u8>> {
    let (mut names, mut rest) = (HashMap::new(), list);
    while let [low, high, length, more @ ..] = rest {
        let (name, after) = more.split_at(*length as usize);
        names.insert(u16::from_le_bytes([*low, *high]), name.to_vec());
        rest = after;
    }
    names
}

fn pairs(file: &[u8]) -> Vec<(u16, u16)> {
    let tables = read(file, &Room::FULL).expect("a file that is read");
    let pairs = tables.faces.iter().map(|face| (face.labels[0], face.labels[1]));
    pairs.skip(1).collect()
}

#[test]
fn lists_from_text() {
    let list = list_of_text(b"# zones\n3 Ness\n\n0 a b \n65535\n7 ").expect("a list");
    let want = [entry(3, b"Ness"), entry(0, b"a b "), entry(65535, b""), entry(7, b"")].concat();
    assert_eq!(list, want);
    let long = [&b"1 "[..], &[b'n'; 256]].concat();
    for (wrong, line) in
        [(&b"65536 a"[..], 1), (b"1 a\nx y", 2), (b" 1 a", 1), (b"+1 a", 1), (&long, 1)]
    {
        let why = list_of_text(wrong).expect_err("a wrong line");
        assert!(why.starts_with(&format!("line {line}:")), "{why}");
    }
    assert!(list_of_text(&long[..257]).is_ok());
}
