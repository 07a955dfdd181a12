//! Sheets from -16,000 to 16,000: areas, crossings with large denominators, points that all but
//! coincide. Each overlay is also held to 01's own ways.

use second::area::Area;
use second::check::check;
use second::literal;
use second::make::drawing::label_faces;
use second::make::pairs::pair_files;
use second::map::{Edge, Map};
use second::overlay::{overlay, overlay_files, Room};
use second::point::Point;
use second::segment::{clash, Segment};
use second::tables::{Tables, VertexRow};

const FAR: i16 = 16_000;

/// A map of these edges, each face with a label of its own.
fn map(edges: &[[(i16, i16); 2]]) -> Map {
    let mut map = Map::default();
    for ends in edges {
        let [from, to] = ends.map(|end| {
            let known = map.vertices.iter().position(|&v| v == end);
            known.unwrap_or_else(|| {
                map.vertices.push(end);
                map.vertices.len() - 1
            }) as u16
        });
        map.edges.push(Edge { from, to, left: 0, right: 0 });
    }
    label_faces(&mut map, |face| face as u16);
    map
}

/// A closed path through these corners.
fn ring(corners: &[(i16, i16)]) -> Vec<[(i16, i16); 2]> {
    let next = corners.iter().cycle().skip(1);
    corners.iter().zip(next).map(|(&a, &b)| [a, b]).collect()
}

fn square(low: i16, high: i16) -> Vec<[(i16, i16); 2]> {
    ring(&[(low, low), (high, low), (high, high), (low, high)])
}

/// The tables of the overlay of two valid maps, which are those of 01's own ways.
fn tables(first: &Map, second: &Map) -> Tables {
    assert_eq!([first, second].map(|map| check(&map.bytes()).err()), [None, None]);
    let done = overlay(&[first, second], &Room::FULL).expect("the overlay is done");
    let (tables, labels) = literal::overlay::overlay(&[first, second], None);
    assert_eq!(done.tables, tables);
    assert_eq!(done.labels, labels);
    tables
}

/// The crossing of two lone edges.
fn crossing(first: [(i16, i16); 2], second: [(i16, i16); 2]) -> VertexRow {
    let tables = tables(&map(&[first]), &map(&[second]));
    assert_eq!(tables.vertices.len(), 5);
    *tables.vertices.iter().find(|v| v.d > 1).expect("a crossing between whole numbers")
}

#[test]
fn the_whole_sheet_is_not_inside_out() {
    let done = tables(&map(&square(-FAR, FAR)), &Map::default());
    let faces: Vec<_> = done.faces.iter().map(|f| (f.labels, f.holes)).collect();
    assert_eq!(faces, [([0, 0, 0], 1), ([1, 0, 0], 0)]);
    let inner: Vec<_> = (0..8).filter(|&h| done.half_edges[h].face == 1).collect();
    assert_eq!(inner, [0, 3, 4, 7]);
}

#[test]
fn rings_within_the_whole_sheet() {
    let rings = [FAR, FAR - 1, 8_000, 3, 1].map(|side| square(-side, side)).concat();
    let standing = ring(&[(0, -FAR), (FAR, 0), (0, FAR), (-FAR, 0)]);
    let done = tables(&map(&rings), &map(&standing));
    assert_eq!(done.faces.iter().map(|f| f.holes).sum::<u16>(), 3);
}

#[test]
fn a_denominator_over_thirty_bits() {
    let rising = [(-FAR, -FAR), (FAR, FAR - 1)];
    let falling = [(-FAR, FAR), (FAR - 1, -FAR)];
    let at = crossing(rising, falling);
    assert_eq!((at.x, at.y, at.d), (-16_000, -1_023_984_000, 2_047_936_001));
    assert!(at.d > 1 << 30);
    let level = crossing([(-FAR, -FAR), (FAR, -FAR + 1)], [(-FAR + 1, -FAR), (FAR, FAR)]);
    assert_eq!((level.x, level.y), (-16_382_464_016_000, -16_383_487_984_000));
    assert_eq!(level.d, 1_023_968_001);
}

/// Edges from corner to corner whose directions differ by one unit.
#[test]
fn nearly_parallel_across_the_sheet() {
    let first = [[(-FAR, -FAR), (FAR, FAR - 1)], [(-FAR, 1 - FAR), (FAR - 1, FAR)]];
    let second = [[(7 - FAR, -FAR), (FAR - 3, FAR)], [(9 - FAR, -FAR), (FAR - 2, FAR)]];
    let rows = tables(&map(&first), &map(&second)).vertices;
    let crossings: Vec<_> =
        rows.iter().filter(|v| v.x.abs() < 15_000 * v.d).map(|v| (v.x, v.y, v.d)).collect();
    let met = [
        (153_616_000, 153_593_600, 35_199),
        (3_072_176_000, 3_071_888_000, 383_989),
        (9_599, 9_600, 1),
        (143_989, 144_000, 11),
    ];
    assert_eq!(crossings, met);
}

/// Two crossings whose heights differ by 1 / (D1 D2), some 2^-60, and the sliver between them.
#[test]
fn points_that_differ_in_the_low_word_only() {
    let low = [[(-FAR, -FAR), (FAR, 1 - FAR)]];
    let foot = (1 - FAR, -FAR);
    let fan = ring(&[foot, (FAR, FAR), (FAR - 1, FAR - 1)]);
    let done = tables(&map(&low), &map(&fan));
    let large: Vec<&VertexRow> = done.vertices.iter().filter(|v| v.d > 1).collect();
    let [a, b] = large[..] else { panic!("{} crossings", large.len()) };
    let across = |s: i64, t: i64| s as i128 * t as i128;
    assert_eq!(across(b.y, a.d) - across(a.y, b.d), 1);
    assert_eq!(across(b.x, a.d) - across(a.x, b.d), 32_000);
    assert_eq!(done.faces.len(), 3);
    let sheet = ring(&[(-FAR, -FAR), (FAR, 1 - FAR), (FAR, FAR), (-FAR, FAR)]);
    assert_eq!(tables(&map(&sheet), &map(&fan)).faces.len(), 5);
}

#[test]
fn areas_of_whole_corners_are_whole() {
    let corners = [(-FAR, -FAR), (FAR, -FAR), (FAR, FAR), (-FAR, FAR)];
    let points = corners.map(|(x, y)| Point::whole(x as i64, y as i64));
    let step = |i: usize| Area::step(&points[i], &points[(i + 1) % 4]);
    let whole: Area = (0..4).map(step).sum();
    let strip = Area::step(&Point::whole(32_000, 0), &Point::whole(32_000, 64_000));
    assert_eq!(whole, strip);
}

#[test]
fn a_step_and_its_way_back_are_nothing() {
    let a = Point::lowest(1, 2, 2_047_936_001);
    let b = Point::lowest(-3, 5, 2_047_936_003);
    let there = Area::step(&a, &b);
    assert_eq!(there.clone() + Area::step(&b, &a), Area::default());
    assert!(there > Area::default() && -there.clone() < Area::default());
    assert_eq!(there.clone() - there, Area::default());
}

/// Three points with D of 30, 30 and 31 bits whose determinant is 1: twice the area of their triangle
/// is 1 / (D1 D2 D3), some 2^-91, the least that there is with such D.
#[test]
fn the_least_triangle() {
    let n = 1_024_000_000;
    let corners = [(1, 0, n), (1, 1, 2 * n - 1), (0, 1, n)].map(|(x, y, d)| Point::lowest(x, y, d));
    let round = |order: [usize; 3]| -> Area {
        (0..3).map(|i| Area::step(&corners[order[i]], &corners[order[(i + 1) % 3]])).sum()
    };
    let area = round([0, 1, 2]);
    assert_eq!((area.sign(), round([2, 1, 0]).sign()), (1, -1));
    assert_eq!(area.clone() + round([1, 0, 2]), Area::default());
    assert!(area < Area::fraction(1, u64::MAX));
}

/// Sums that are right only if nothing is cut off.
#[test]
fn areas_are_exact() {
    let third = Area::fraction(1, 3);
    assert_eq!(third.clone() + third.clone() + third, Area::fraction(1, 1));
    // 1 / (n - 1) - 2 / n + 1 / (n + 1) = 2 / (n (n - 1) (n + 1)), some 2^-184.
    let n = 2_048_000_000u64 * 2_047_999_999;
    let twice = Area::fraction(1, n - 1) + Area::fraction(-2, n) + Area::fraction(1, n + 1);
    assert_eq!((twice.sign(), (-twice).sign()), (1, -1));
}

/// The vertices of the overlays of some pairs of a kind.
fn made(kind: &str, pairs: u64) -> Vec<Vec<VertexRow>> {
    let vertices = |seed: u64| {
        let files = pair_files(kind, seed).expect("a kind");
        overlay_files(&files, &Room::FULL).ok().map(|done| done.tables.vertices)
    };
    (0..pairs).filter_map(vertices).collect()
}

#[test]
fn denominators_over_thirty_bits_are_made() {
    let large = |rows: &Vec<VertexRow>| rows.iter().filter(|v| v.d > 1 << 30).count();
    for (kind, seeds, least) in [("far", 40, 10), ("few", 400, 10)] {
        let pairs = made(kind, seeds).iter().filter(|rows| large(rows) > 0).count();
        assert!(pairs >= least, "{kind}: {pairs}");
    }
}

/// Neighbours in the order whose cross products differ by less than 2^31, with denominators that
/// have 28 bits or more.
#[test]
fn points_that_all_but_coincide_are_made() {
    let across = |s: i64, t: i64| s as i128 * t as i128;
    let close = |a: &VertexRow, b: &VertexRow| {
        let apart = across(b.y, a.d) - across(a.y, b.d);
        a.d.min(b.d) >= 1 << 27 && 0 < apart && apart < 1 << 31
    };
    let any = |rows: &&Vec<VertexRow>| rows.windows(2).any(|pair| close(&pair[0], &pair[1]));
    let pairs = made("close", 40).iter().filter(any).count();
    assert!(pairs >= 5, "{pairs}");
}

/// Edges longer than 31,000 of which one turns into the other by less than 1 in 1,000.
#[test]
fn nearly_parallel_edges_are_made() {
    let near = |s: &Segment, t: &Segment| {
        let ((a, b), (c, d)) = (s.way(), t.way());
        let long = a.abs().max(b.abs()).min(c.abs().max(d.abs())) > 31_000;
        long && (a * d - b * c).abs() < 1_000_000 && clash(s, t)
    };
    let any = |seed: &u64| {
        let maps =
            pair_files("thin", *seed).expect("a kind").map(|file| check(&file).expect("valid"));
        let second = maps[1].segments();
        maps[0].segments().iter().any(|s| second.iter().any(|t| near(s, t)))
    };
    let pairs = (0..40).filter(any).count();
    assert!(pairs >= 10, "{pairs}");
}
