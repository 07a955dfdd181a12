//! Mending: what 02 says of it, on many files.

use second::check::check;
use second::make::mends;
use second::mend::mend;

/// A mended file is refused with 8 or 10 or not at all, mending it again does nothing, and a file
/// that passes comes out the same.
#[test]
fn mended_files_keep_what_is_said() {
    let (mut done, mut steps, mut refused) = (0, [0; 5], [0; 12]);
    for case in mends::make(1, 400) {
        match mend(&case.file) {
            Err(refusal) => refused[refusal.number as usize] += 1,
            Ok(mended) => {
                done += 1;
                mended.list.iter().for_each(|&(step, _)| steps[step as usize] += 1);
                let file = mended.map.bytes();
                if let Err(refusal) = check(&file) {
                    assert!(matches!(refusal.number, 8 | 10), "{refusal}");
                }
                let again = mend(&file).expect("a mended file can be mended");
                assert!(again.list.is_empty() && again.map == mended.map);
                assert!(mended.list.windows(2).all(|pair| pair[0] < pair[1]));
                if check(&case.file).is_ok() {
                    assert!(mended.list.is_empty() && file == case.file);
                }
            }
        }
    }
    assert!(done > 200 && steps[1..].iter().all(|&n| n > 20), "{done} {steps:?}");
    assert!([1, 2, 3, 4, 5, 7].iter().all(|&n| refused[n] > 0), "{refused:?}");
}

/// A pack reads back as it was made.
#[test]
fn packs_of_files_are_read_back() {
    let cases = mends::make(7, 30);
    let read = mends::parse(&mends::bytes(&cases)).expect("a pack");
    assert!(cases
        .iter()
        .zip(&read)
        .all(|(a, b)| (a.room, a.list, &a.file) == (b.room, b.list, &b.file)));
    assert_eq!(cases.len(), read.len());
}
