//! The verdicts.

use super::types::Class;

/// A finding's level, which is the verdict it brings: 1 FR, 2 RR, 3 TR, 4 GR.
pub fn level(finding: u32) -> u8 {
    match finding {
        0 => 4,
        1..=15 => 3,
        16..=18 => 3,
        19 | 20 => 1,
        21 | 22 => 3,
        23 => 1,
        24 => 2,
        25..=32 => 3,
        33..=37 => 1,
        38 | 39 => 3,
        40 => 1,
        41 | 42 => 3,
        43 | 44 => 2,
        45 | 46 => 1,
        47 | 48 => 3,
        _ => unreachable!("no such finding"),
    }
}

/// The largest of a set's levels; 0 where it is empty.
pub fn own(set: u64) -> u8 {
    let held = (0..64).filter(|finding| set >> finding & 1 == 1);
    held.map(level).max().unwrap_or(0)
}

/// The verdicts of all records.
pub fn verdicts(classes: &[Class], sets: &[u64]) -> Vec<u8> {
    let mut verdicts: Vec<u8> = sets.iter().map(|&set| own(set)).collect();
    // A TR finding rejects all of its transaction.
    let mut at = 0;
    while at < classes.len() {
        let begin = at;
        at += 1;
        if classes[begin] != Class::Header {
            continue;
        }
        while classes[at] == Class::Detail {
            at += 1;
        }
        let has_tr = |set: &u64| (0..64).any(|n| set >> n & 1 == 1 && level(n) == 3);
        if sets[begin..at].iter().any(has_tr) {
            for verdict in &mut verdicts[begin..at] {
                *verdict = (*verdict).max(3);
            }
        }
    }
    // Finding 0 rejects all of its group, from the GRH to the GRT.
    let mut begin = 0;
    for at in 0..classes.len() {
        match classes[at] {
            Class::Grh => begin = at,
            Class::Grt if sets[begin..=at].iter().any(|set| set & 1 == 1) => {
                verdicts[begin..=at].fill(4);
            }
            _ => {}
        }
    }
    verdicts
}
