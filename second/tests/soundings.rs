//! Soundings by cell: 02's words on small maps, the look of document 01 on many, every answer reached.

use second::answer::Refusal;
use second::check::check;
use second::limits::{CELLS, SOUNDINGS};
use second::literal::net::Net;
use second::literal::slip::Slip;
use second::make::places::mixed;
use second::make::soundings::{bytes, make, parse};
use second::map::{decode, Edge, Map};
use second::overlay::{overlay, Room};
use second::point::Point;
use second::soundings::{answer, count, places, room, text, Slabs};
use second::text as maps;
use std::collections::BTreeMap;

/// The label by "look west with edges through p counted as west, nearest by greatest x, then
/// smallest upward angle": document 01's look along east.
fn looked(map: &Map, (x, y): (i64, i64)) -> u16 {
    by_net(&Net::of(map, None), map, (x, y))
}

fn by_net(net: &Net, map: &Map, (x, y): (i64, i64)) -> u16 {
    net.seen(&Point::whole(x, y), Some((1, 0))).map_or(0, |h| map.label(h))
}

/// "The number of edges of that map whose lower y is not above the sounding's y."
fn edges_below(map: &Map, y: i64) -> u64 {
    let low = |k: &usize| map.place(map.edges[*k].from).1.min(map.place(map.edges[*k].to).1);
    (0..map.edges.len()).filter(|k| low(k) <= y).count() as u64
}

fn square(label: u16) -> Map {
    let path = format!("path {label} 0 0 1 2 3 0");
    let text = format!("vertex 0 0\nvertex 4 0\nvertex 4 4\nvertex 0 4\n{path}");
    maps::parse(&text).expect("a map")
}

fn list(places: &[(i16, i16)]) -> Vec<u8> {
    places.iter().flat_map(|&(x, y)| [x.to_le_bytes(), y.to_le_bytes()].concat()).collect()
}

#[test]
fn the_west_and_south_sides_belong_within() {
    let slabs = Slabs::new(&square(7));
    for (place, label) in [
        ((0, 2), 7),
        ((4, 2), 0),
        ((2, 0), 7),
        ((2, 4), 0),
        ((0, 0), 7),
        ((4, 0), 0),
        ((0, 4), 0),
        ((4, 4), 0),
        ((2, 2), 7),
        ((-1, 2), 0),
        ((5, 2), 0),
    ] {
        assert_eq!(slabs.label(place), label, "{place:?}");
    }
}

#[test]
fn edges_through_a_sounding_lie_west_of_it() {
    let text = "vertex 0 0\nvertex 4 -4\nvertex 4 4\nvertex -4 4\nvertex -4 -4\n\
        edge 0 1 1 4\nedge 0 2 2 1\nedge 0 3 3 2\nedge 0 4 4 3\n\
        edge 1 2 1 0\nedge 2 3 2 0\nedge 3 4 3 0\nedge 4 1 4 0";
    let map = maps::parse(text).expect("a map");
    assert!(check(&map.bytes()).is_ok());
    let slabs = Slabs::new(&map);
    let at = [(0, 0), (2, 2), (-2, 2), (-2, -2), (2, -2), (0, -1), (0, 1), (-4, 4), (-4, -4)];
    assert_eq!(at.map(|place| slabs.label(place)), [1, 1, 2, 4, 1, 4, 2, 0, 4]);
    assert!(at.iter().all(|&place| slabs.label(place) == looked(&map, place)));
}

/// On cases of all kinds the label of every sounding is what document 01's look sees, and the edges
/// read are those that are not above it; the counts add up; each pair is that of a face.
#[test]
fn every_sounding_as_01_looks() {
    let (mut tried, mut on_edges) = (0, 0);
    for case in make(1, 97) {
        let maps: Vec<Map> = case.maps.iter().filter_map(|file| check(file).ok()).collect();
        let Ok(counted) = count([&case.maps[0], &case.maps[1]], &case.list, 9_999) else {
            continue;
        };
        let (mut cells, mut read) = (BTreeMap::new(), 0);
        let nets = [0, 1].map(|m| Net::of(&maps[m], None));
        let slabs = Slabs::new(&maps[0]);
        for place in places(&case.list) {
            let [zone, block] = [0, 1].map(|m| by_net(&nets[m], &maps[m], place));
            *cells.entry((zone, block)).or_insert(0u32) += 1;
            read += maps.iter().map(|map| edges_below(map, place.1)).sum::<u64>();
            tried += 1;
            let left = slabs.label((place.0 - 1, place.1));
            on_edges += (left != zone) as usize;
        }
        assert_eq!((&counted.cells, counted.read), (&cells, read));
        assert_eq!(counted.cells.values().sum::<u32>() as usize, counted.soundings);
        if let Ok(done) = overlay(&[&maps[0], &maps[1]], &Room::FULL) {
            let known = |&(zone, block): &(u16, u16)| {
                (zone, block) == (0, 0) || done.labels.contains(&[zone, block, 0])
            };
            assert!(counted.cells.keys().all(known));
        }
    }
    assert!(tried > 5_000 && on_edges > 200, "{tried} {on_edges}");
}

#[test]
fn refusals_in_their_order() {
    let map = square(3).bytes();
    let files = [&map[..], &map[..]];
    let of = |files: [&[u8]; 2], list: &[u8], room| count(files, list, room).err();
    let far = list(&[(1, 1), (16_000, -16_000), (0, 16_001), (-16_001, 0)]);
    assert_eq!(of([&map, &map[1..]], &far[1..], 0), Some(Refusal::new(1, 0).in_map(2)));
    assert_eq!(of(files, &far[1..], 0), Some(Refusal::new(12, 0)));
    assert_eq!(of(files, &far, 0), Some(Refusal::new(13, 2)));
    assert_eq!(of(files, &far[..8], 1), Some(Refusal::new(11, 6)));
    assert_eq!(of(files, &far[..8], 2), None);
    assert_eq!(of(files, &[], 0), None);
    assert_eq!(of(files, &vec![0; 4 * SOUNDINGS], 1), None);
    assert_eq!(of(files, &vec![0; 4 * SOUNDINGS + 4], 1), Some(Refusal::new(12, 0)));
    assert_eq!(of(files, &vec![255; 4 * SOUNDINGS + 4], 1), Some(Refusal::new(12, 0)));
    assert_eq!([room(5, 9), room(9, 3), room(3_000, 3_000)], [2, 3, CELLS]);
}

#[test]
fn lines_of_a_list() {
    let [zones, blocks] = [square(3), square(9)].map(|map| map.bytes());
    let some = list(&[(1, 1), (9, 9), (1, 1), (-1, -1)]);
    assert_eq!(text([&zones, &blocks], &some, false), "0 0 2\n3 9 2\n");
    assert_eq!(text([&zones, &blocks], &some, true), "0 0 2\n3 9 2\nread 20\n");
    assert_eq!(text([&zones, &blocks], &some[1..], true), "refused 12 map 0 place 0\n");
    assert_eq!(text([&zones, &blocks], &[], true), "read 0\n");
}

/// A pack reads back as it was made; every refusal and every room is reached.
#[test]
fn packs_reach_every_answer() {
    let cases = make(1, 300);
    let read = parse(&bytes(&cases)).expect("a pack");
    assert_eq!(cases.len(), read.len());
    let (mut refused, mut done, mut most, mut full) = ([0; 14], 0, 0, 0);
    for (a, b) in cases.iter().zip(&read) {
        assert_eq!((a.lent, &a.maps, &a.list), (b.lent, &b.maps, &b.list));
        let files = [&a.maps[0][..], &a.maps[1][..]];
        let [labels, counts] = a.lent.map(usize::from);
        match count(files, &a.list, room(labels, counts)) {
            Ok(counted) => {
                done += 1;
                most += (counted.soundings == SOUNDINGS) as usize;
                full += (counted.cells.len() == CELLS) as usize;
                let line = answer(files, &a.list, [labels, counts], false);
                let start = format!("done {} {} ", counted.cells.len(), counted.soundings);
                assert!(line.starts_with(&start), "{line}");
            }
            Err(refusal) => {
                assert!(refusal.number != 11 || (refusal.map, refusal.place) == (0, 6));
                refused[refusal.number as usize] += 1;
            }
        }
    }
    assert!(done > 150 && most > 0 && full > 0, "{done} {most} {full}");
    assert!((1..=10).filter(|&n| refused[n] > 0).count() > 7, "{refused:?}");
    assert!((11..=13).all(|n| refused[n] > 15), "{refused:?}");
}

/// Looks with a slip: an edge that ends at the sounding counts, one through it does not, the greatest
/// angle is the nearest, or the sounding belongs to what lies south of its height. Each shows often.
#[test]
fn packs_tell_slips() {
    let cases = make(1, 97);
    let slips = [Slip::UpperEnd, Slip::NotThrough, Slip::GreatestAngle];
    let mut shown = [0; 4];
    for case in &cases {
        if count([&case.maps[0], &case.maps[1]], &case.list, CELLS).is_err() {
            continue;
        }
        let maps: Vec<Map> = case.maps.iter().filter_map(|file| check(file).ok()).collect();
        let all = places(&case.list);
        for map in &maps {
            let net = Net::of(map, None);
            for (k, slip) in slips.into_iter().enumerate() {
                let wrong = Net::of(map, Some(slip));
                let differs = |&p: &(i64, i64)| by_net(&wrong, map, p) != by_net(&net, map, p);
                shown[k] += all.iter().any(differs) as usize;
            }
            // South of its height: the map upside down, with every edge's sides exchanged.
            let turned = upside_down(map);
            let under = Net::of(&turned, None);
            let south = |(x, y): (i64, i64)| by_net(&under, &turned, (x, -y));
            shown[3] += all.iter().any(|&p| south(p) != by_net(&net, map, p)) as usize;
        }
    }
    assert!(shown.iter().all(|&n| n >= 10), "{shown:?}");
}

fn upside_down(map: &Map) -> Map {
    let vertices = map.vertices.iter().map(|&(x, y)| (x, -y)).collect();
    let exchanged = |e: &Edge| Edge { left: e.right, right: e.left, ..*e };
    Map { vertices, edges: map.edges.iter().map(exchanged).collect() }
}

#[test]
fn a_list_over_two_maps() {
    let maps = [square(3), decode(&square(9).bytes()).expect("a map")];
    let list = mixed(1, 200, &maps);
    assert_eq!((list.len(), &list), (800, &mixed(1, 200, &maps)));
    assert!(count([&maps[0].bytes(), &maps[1].bytes()], &list, CELLS).is_ok());
}
