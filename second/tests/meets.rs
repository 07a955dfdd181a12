//! How two edges meet: 02's words on small edges, and the seeded ones reach every answer.

use second::answer::Refusal;
use second::check::check;
use second::map::{Edge, Map};
use second::meet::{asked, lines, Meeting};
use second::point::Point;

#[test]
fn every_way_to_meet() {
    let at = |x, y, d| Point { x, y, d };
    assert_eq!(asked(&[0, 0, 3, 2, 0, 2, 3, 1]), Ok(Meeting::Crossing(at(6, 4, 3))));
    assert_eq!(asked(&[0, 0, 4, 0, 2, 0, 2, 3]), Ok(Meeting::Touching(at(2, 0, 1))));
    assert_eq!(asked(&[0, 0, 4, 0, 2, 0, 6, 0]), Ok(Meeting::Sharing));
    assert_eq!(asked(&[0, 0, 4, 0, 4, 0, 6, 0]), Ok(Meeting::Touching(at(4, 0, 1))));
    assert_eq!(asked(&[0, 0, 4, 0, 5, 0, 6, 0]), Ok(Meeting::Apart));
    assert_eq!(asked(&[0, 0, 4, 1, 4, 1, 0, 0]), Ok(Meeting::Sharing));
    assert_eq!(asked(&[0, 0, 4, 0, 0, 1, 4, 1]), Ok(Meeting::Apart));
}

#[test]
fn five_before_seven() {
    assert_eq!(asked(&[1, 1, 1, 1, 16001, 0, 1, 1]), Err(Refusal::new(5, 1)));
    assert_eq!(asked(&[-32768, 1, 1, 1, 16001, 0, 1, 1]), Err(Refusal::new(5, 0)));
    assert_eq!(asked(&[1, 1, 1, 1, 16000, 0, 1, 1]), Err(Refusal::new(7, 0)));
    assert_eq!(asked(&[1, 1, 1, 2, -16000, 0, -16000, 0]), Err(Refusal::new(7, 1)));
}

#[test]
fn the_least_other_edge() {
    let vertices = vec![(0, 5), (9, 5), (1, 0), (1, 9), (2, 0), (2, 9), (20, 0), (21, 1)];
    let edge = |from, to| Edge { from, to, left: 0, right: 0 };
    let edges = vec![edge(6, 7), edge(4, 5), edge(2, 3), edge(0, 1)];
    let refusal = check(&Map { vertices, edges }.bytes()).expect_err("edges that cross");
    assert_eq!(refusal, Refusal::new(8, 1).beside(3));
    assert_eq!(refusal.whole(), "refused 8 map 0 place 1 other 3");
}

#[test]
fn every_answer_is_reached() {
    let file = second::make::meets::file(7, 2000);
    let text = lines(&file);
    let all: Vec<&str> = text.lines().collect();
    assert_eq!((all.len(), all[2000]), (2001, "short"));
    let kinds = ["apart", "touching ", "crossing ", "sharing"];
    let refused = ["refused 5 map 0 place 0", "refused 5 map 0 place 1"];
    let empty = ["refused 7 map 0 place 0", "refused 7 map 0 place 1"];
    for start in kinds.iter().chain(&refused).chain(&empty) {
        let hits = all.iter().filter(|line| line.starts_with(start)).count();
        println!("{start}: {hits}");
        assert!(hits >= 20, "{start}: {hits}");
    }
}
