//! The trial lines: every rule is hit, and every slip shows.

use second::check::check;
use second::literal::slip::{map_tells, maps_tell, OF_MAPS, OF_PAIRS, OF_TRIPLES};
use second::map::{decode, Map};
use second::trial;

const ROUNDS: usize = 40;

/// The lines that begin with this word, as words.
fn lines<'a>(text: &'a str, word: &'a str) -> Vec<Vec<&'a str>> {
    let split = text.lines().map(|line| line.split(' ').collect::<Vec<_>>());
    split.filter(|words| words[0] == word).collect()
}

/// The overlays of so many maps.
fn pairs(text: &str, maps: usize) -> Vec<Vec<&str>> {
    let answered = |words: &Vec<&str>| ["done", "refused"].contains(&words[maps + 1]);
    lines(text, "pair").into_iter().filter(answered).collect()
}

fn bytes(hex: &str) -> Vec<u8> {
    let digits: Vec<u32> = hex.chars().filter_map(|c| c.to_digit(16)).collect();
    digits.chunks_exact(2).map(|d| (d[0] * 16 + d[1]) as u8).collect()
}

#[test]
fn every_rule_is_hit_five_times() {
    let text = trial::run(1, ROUNDS);
    let maps = lines(&text, "map");
    assert_eq!((pairs(&text, 2).len(), maps.len()), (ROUNDS, 5 * ROUNDS));
    for rule in 1..=10 {
        let refused = |words: &&Vec<&str>| words[2] == "refused" && words[3] == rule.to_string();
        let hits = maps.iter().filter(refused).count();
        assert!(hits >= 5, "rule {rule}: {hits}");
    }
}

#[test]
fn every_slip_of_a_map_shows() {
    let text = trial::run(1, ROUNDS);
    let maps: Vec<Map> =
        lines(&text, "map").iter().filter_map(|words| decode(&bytes(words[1])).ok()).collect();
    for &slip in OF_MAPS {
        let shown = maps.iter().filter(|map| map_tells(slip, map)).count();
        println!("{slip:?}: {shown}");
        assert!(shown >= 3, "{slip:?}: {shown}");
    }
}

#[test]
fn every_slip_of_a_pair_shows() {
    let text = trial::run(1, ROUNDS);
    let pairs = pairs(&text, 2);
    for &slip in OF_PAIRS {
        let tells = |words: &&Vec<&str>| match (check(&bytes(words[1])), check(&bytes(words[2]))) {
            (Ok(first), Ok(second)) => maps_tell(slip, &[&first, &second]),
            _ => false,
        };
        let shown = pairs.iter().filter(tells).count();
        println!("{slip:?}: {shown}");
        assert!(shown >= 2, "{slip:?}: {shown}");
    }
}

#[test]
fn every_slip_of_three_maps_shows() {
    let text = trial::run(1, ROUNDS);
    let sheets = pairs(&text, 3);
    assert_eq!(sheets.len(), ROUNDS);
    for &slip in OF_TRIPLES {
        let tells = |words: &&Vec<&str>| {
            let maps: Vec<Map> = words[1..4].iter().filter_map(|w| check(&bytes(w)).ok()).collect();
            maps.len() == 3 && maps_tell(slip, &maps.iter().collect::<Vec<_>>())
        };
        let shown = sheets.iter().filter(tells).count();
        println!("{slip:?}: {shown}");
        assert!(shown >= 3, "{slip:?}: {shown}");
    }
    let of_map = |m: &str| sheets.iter().filter(|w| w[4] == "refused" && w[7] == m).count();
    assert!(of_map("3") >= 3 && of_map("2") >= 1 && of_map("1") >= 1);
}
