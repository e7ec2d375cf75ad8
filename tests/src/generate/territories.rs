//! Territory tables: right ones of every shape, and wrong ones.

use super::Random;
use crate::reference::territories::{ENTRY, MOST_TERRITORIES, NO_GROUP};

/// An entry: its code and the position of its group.
pub type Entry = ([u8; 4], u16);

/// The bytes of these entries.
pub fn of(entries: &[Entry]) -> Vec<u8> {
    let bytes = |(code, group): &Entry| [&code[..], &group.to_le_bytes()].concat();
    entries.iter().flat_map(bytes).collect()
}

/// The entries of a table; a part of one at the end is none.
pub fn entries(table: &[u8]) -> Vec<Entry> {
    let entry = |bytes: &[u8]| {
        let (code, group) = bytes.split_at(4);
        let code = code.try_into().expect("four bytes");
        (code, u16::from_le_bytes([group[0], group[1]]))
    };
    table.chunks_exact(ENTRY).map(entry).collect()
}

/// Of the world, of which Europe is a part, and two countries outside of any
/// group; groups stand before and after what has no members.
pub const USUAL: [Entry; 8] = [
    (*b"0840", NO_GROUP),
    (*b"2136", NO_GROUP),
    (*b"0036", 1),
    (*b"2120", 1),
    (*b"0276", 3),
    (*b"0250", 3),
    (*b"0756", 3),
    (*b"0702", NO_GROUP),
];

pub fn usual() -> Vec<u8> {
    of(&USUAL)
}

/// A code that no other position has: its digits, with a letter for more.
pub fn code(at: usize) -> [u8; 4] {
    let code = match at {
        0..10_000 => format!("{at:04}"),
        _ => {
            let letter = b'A' + ((at - 10_000) / 1_000) as u8;
            format!("{}{:03}", char::from(letter), at % 1_000)
        }
    };
    code.into_bytes().try_into().expect("four bytes")
}

/// So many territories in no group.
pub fn flat(entries: usize) -> Vec<Entry> {
    (0..entries).map(|at| (code(at), NO_GROUP)).collect()
}

/// Each but the first in the one before.
pub fn chain(entries: usize) -> Vec<Entry> {
    let group = |at: usize| at.checked_sub(1).map_or(NO_GROUP, |group| group as u16);
    (0..entries).map(|at| (code(at), group(at))).collect()
}

/// All in the first.
pub fn wide(entries: usize) -> Vec<Entry> {
    let group = |at: usize| if at == 0 { NO_GROUP } else { 0 };
    (0..entries).map(|at| (code(at), group(at))).collect()
}

/// Each in any one before it, or in none.
pub fn groups(entries: usize, random: &mut Random) -> Vec<Entry> {
    let outside = random.between(2, 6);
    let near = random.one_in(2);
    let group = |at: usize| match at {
        0 => NO_GROUP,
        _ if random.one_in(outside) => NO_GROUP,
        _ if near => at as u16 - 1 - random.below(at.min(3)) as u16,
        _ => random.below(at) as u16,
    };
    let groups: Vec<u16> = (0..entries).map(group).collect();
    (0..).map(code).zip(groups).collect()
}

/// Codes that differ in one byte alone, are blank, or cannot stand in a file;
/// no two alike.
fn odd_codes(entries: &mut [Entry], random: &mut Random) {
    let place = random.below(4);
    let base = random.of(&[*b"2136", *b"    ", *b"0000", [255; 4], [0; 4]]);
    let bytes: Vec<u8> = match random.one_in(2) {
        true => (b' '..=255).collect(),
        false => (0..=255).collect(),
    };
    // Any first byte, then each after it: as many codes as bytes.
    let first = random.below(bytes.len());
    for (at, (code, _)) in entries.iter_mut().enumerate().take(bytes.len()) {
        *code = base;
        code[place] = bytes[(first + at) % bytes.len()];
    }
}

/// A table that is refused by nothing.
pub fn any(random: &mut Random) -> Vec<u8> {
    let few = random.between(1, 12);
    let mut entries = match random.below(32) {
        0..=8 => USUAL.to_vec(),
        9 => Vec::new(),
        10 => flat(1),
        11..=13 => flat(few),
        14..=16 => chain(few),
        17..=19 => wide(few + 1),
        20..=27 => groups(few + 1, random),
        28 => groups(random.between(20, 120), random),
        29 => groups(MOST_TERRITORIES, random),
        30 => random.of(&[flat, chain, wide])(random.of(&[255, 256, 257, 300])),
        _ => random.of(&[flat, chain, wide])(MOST_TERRITORIES),
    };
    if entries.len() < 200 && random.one_in(8) {
        odd_codes(&mut entries, random);
    }
    of(&entries)
}

/// Makes a table such that it is refused.
pub fn spoil(table: &mut Vec<u8>, random: &mut Random) {
    let mut entries = entries(table);
    if entries.is_empty() || entries.len() > 500 {
        entries = USUAL.to_vec();
    }
    match random.below(10) {
        0 | 1 => {
            // Not all of the last entry.
            *table = of(&entries);
            table.truncate(table.len() - random.between(1, ENTRY - 1));
            return;
        }
        2 => entries = flat(random.of(&[513, 514, 600, 1024, 1025])),
        3 => {
            entries = flat(MOST_TERRITORIES);
            entries.extend([(code(9_999), NO_GROUP)]);
        }
        4 | 5 => {
            // A code twice, in the same group or in none.
            let (code, group) = random.of(&entries);
            entries.push((code, random.of(&[NO_GROUP, group])));
        }
        _ => {
            // A position that is not earlier.
            let at = random.below(entries.len());
            let last = entries.len() as u16 - 1;
            let positions = [
                at as u16,
                at as u16 + 1,
                last,
                last + 1,
                513,
                at as u16 + 256,
                32_768,
                NO_GROUP - 1,
            ];
            let wrong = |position: &u16| usize::from(*position) >= at;
            let positions: Vec<u16> = positions.into_iter().filter(wrong).collect();
            entries[at].1 = random.of(&positions);
        }
    }
    *table = of(&entries);
}
