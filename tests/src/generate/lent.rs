//! What is lent besides the file: tables, tolerance and buffers.

use super::Random;
use crate::reference::listing::TABLES;

/// The entry sizes of the three tables.
pub const SIZES: [usize; 3] = [2, 3, 3];

/// The listing program's tables.
pub fn usual() -> [Vec<u8>; 3] {
    [TABLES.languages, TABLES.societies, TABLES.categories].map(<[u8]>::to_vec)
}

/// Tables that are refused by nothing: the usual ones, or any others.
pub fn tables(random: &mut Random) -> [Vec<u8>; 3] {
    let mut tables = usual();
    for (table, size) in tables.iter_mut().zip(SIZES) {
        let entries = match random.below(24) {
            0..=13 => continue,
            14 => 0,
            15 => 1,
            16 => random.between(100, 400),
            _ => random.between(1, 12),
        };
        let high = random.one_in(4);
        let usual = std::mem::take(table);
        for _ in 0..entries {
            match random.below(8) {
                0 => table.extend(vec![b' '; size]),
                1 | 2 => table.extend(&usual[size * random.below(3)..][..size]),
                3 if table.len() >= size => {
                    // Once more.
                    let again = table[..size].to_vec();
                    table.extend(again);
                }
                4 if high => table.extend((0..size).map(|_| random.byte())),
                _ => table.extend((0..size).map(|_| random.of(b"ABCDEFSPOJZR012345"))),
            }
        }
    }
    tables
}

/// Makes one or more of the tables such that they are refused.
pub fn spoil(tables: &mut [Vec<u8>; 3], random: &mut Random) {
    for _ in 0..random.between(1, 2) {
        let which = random.below(3);
        let (table, size) = (&mut tables[which], SIZES[which]);
        match random.below(6) {
            0 | 1 => table.push(b'A'),
            2 => {
                table.pop();
            }
            3 => *table = vec![b' '; 1],
            4 => {
                let entries = random.of(&[1025, 1026, 1365, 2048]);
                *table = random.pattern(size * entries);
            }
            _ => {
                let more = random.between(1, size - 1);
                *table = random.pattern(size * 1024 + more);
            }
        }
    }
}

/// A tolerance that is allowed; most often the largest.
pub fn tolerance(random: &mut Random) -> u64 {
    if random.one_in(2) {
        return 6;
    }
    random.between(0, 6) as u64
}

/// One that is not, those among them that fit where bits are lost.
pub fn too_large(random: &mut Random) -> u64 {
    let any = random.draw() | 8;
    random.of(&[
        7,
        8,
        255,
        256,
        262,
        65_536,
        1 << 32,
        (1 << 32) + 6,
        1 << 63,
        u64::MAX,
        any,
    ])
}

/// The length of a buffer for which so many bytes are enough; too short so
/// many times in sixty.
pub fn length(enough: usize, too_short: usize, random: &mut Random) -> usize {
    match random.below(60) {
        time if time < too_short => match time % 4 {
            0 | 1 => enough.saturating_sub(1),
            2 => random.between(0, enough),
            _ => 0,
        },
        time if time < too_short + 6 => enough + random.between(1, 40),
        59 => enough + 1,
        _ => enough,
    }
}
