//! The trial lines of counts: they are the same for a seed, short, and reach every answer.

use second::trial_counts::run;

#[test]
fn lines_reach_every_answer() {
    let text = run(1, 120);
    assert_eq!(text, run(1, 120));
    let lines: Vec<&str> = text.lines().collect();
    assert_eq!(lines.len(), 240);
    assert!(lines.iter().all(|line| line.len() < 5_000));
    let hits = |start: &str, part: &str| {
        let found = lines.iter().filter(|line| line.starts_with(start) && line.contains(part));
        found.count()
    };
    for part in [" done 3 ", " done 4 ", "refused 11 map 0 place 6", "refused 12 ", "refused 13 "] {
        assert!(hits("cells", part) >= 5, "{part}: {}", hits("cells", part));
    }
    // The text of a year stands in hexadecimal digits: `gaps`, `refused 17`, `refused 20`.
    for part in [" - ", "67617073", "72656675736564203137", "72656675736564203230"] {
        assert!(hits("year", part) >= 5, "{part}: {}", hits("year", part));
    }
}
