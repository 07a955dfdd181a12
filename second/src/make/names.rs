//! Lists of names, whole and torn.

use crate::random::Random;

/// Makes one list or both end inside an entry.
pub fn tear(random: &mut Random, lists: &mut [Vec<u8>; 2]) {
    let which = random.below(3);
    for (k, list) in lists.iter_mut().enumerate() {
        if which == k || which == 2 {
            let name = random.below(4);
            list.extend([random.below(20) as u8, 0, name as u8 + 1]);
            list.extend(vec![b'x'; name]);
            let cut = random.below(if name > 0 { 2 } else { 3 });
            list.truncate(list.len() - cut);
        }
    }
}

/// Entries for labels that occur and others, doubled now and then, with names of 0 to 255 bytes of any
/// kind. Now and then there is none at all.
pub fn list(random: &mut Random) -> Vec<u8> {
    let n = if random.once_in(6) { 0 } else { random.below(40) };
    let mut out = Vec::new();
    for _ in 0..n {
        let label = if random.once_in(8) { random.bits() as u16 } else { random.below(20) as u16 };
        let length = match random.below(16) {
            0 | 1 => 0,
            2 => 255,
            _ => 1 + random.below(12),
        };
        let plain = !random.once_in(5);
        let mut byte = || if plain { b'a' + random.below(26) as u8 } else { random.bits() as u8 };
        let name: Vec<u8> = (0..length).map(|_| byte()).collect();
        out.extend(label.to_le_bytes());
        out.push(length as u8);
        out.extend(name);
    }
    out
}
