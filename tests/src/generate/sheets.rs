//! Sheets as they are before a call: fresh, such as calls make, of any bytes,
//! with numbers at their limits, full, too short and longer.

use super::Random;
use crate::reference::sheet::{BYTES, FINDINGS, MOST_FILES, NUMBERS};

/// Numbers at which one of fewer bits ends, or a sum of 64.
pub const LIMITS: [u64; 13] = [
    1,
    (1 << 16) - 1,
    (1 << 31) - 1,
    1 << 31,
    (1 << 32) - 1,
    1 << 32,
    (1 << 63) - 2,
    (1 << 63) - 1,
    1 << 63,
    (1 << 63) + 1,
    u64::MAX - 5000,
    u64::MAX - 1,
    u64::MAX,
];

/// First numbers, the files taken, around the most and beyond.
pub const FILES: [u64; 13] = [
    0,
    1,
    MOST_FILES - 2,
    MOST_FILES - 1,
    MOST_FILES,
    MOST_FILES + 1,
    2 * MOST_FILES,
    1 << 16,
    1 << 32,
    (1 << 32) + 7,
    1 << 63,
    (1 << 63) + 7,
    u64::MAX,
];

/// The bytes of these numbers.
pub fn of(numbers: impl IntoIterator<Item = u64>) -> Vec<u8> {
    let bytes: Vec<u8> = numbers.into_iter().flat_map(u64::to_le_bytes).collect();
    assert_eq!(bytes.len(), BYTES);
    bytes
}

/// Any of them.
pub fn any(random: &mut Random) -> Vec<u8> {
    let mut sheet = match random.below(16) {
        0..=2 => vec![0; BYTES],
        3..=7 => used(random),
        8..=10 => random.pattern(BYTES),
        _ => of((0..NUMBERS).map(|at| at_limit(at, random))),
    };
    // Most of them can take a file more.
    let files = match random.below(16) {
        0..=10 => Some(random.below(MOST_FILES as usize) as u64),
        11..=13 => Some(random.of(&FILES)),
        _ => None,
    };
    if let Some(files) = files {
        sheet[..8].copy_from_slice(&files.to_le_bytes());
    }
    match random.below(16) {
        0 | 1 => sheet.truncate(match random.below(3) {
            0 => BYTES - 1,
            1 => random.below(9),
            _ => random.below(BYTES),
        }),
        2..=4 => {
            let beyond = match random.below(3) {
                0 => 1,
                1 => 12 * 8,
                _ => random.between(1, 200),
            };
            sheet.extend(random.pattern(beyond));
        }
        _ => {}
    }
    sheet
}

/// A number that a file brings to its limit, or that has come to one.
fn at_limit(at: usize, random: &mut Random) -> u64 {
    match random.below(3) {
        0 => 0,
        1 => random.of(&LIMITS),
        // The sums of the differences from either side of theirs.
        _ if [5, 9, 13].contains(&at) => (1 << 63) - 3000 + random.below(6000) as u64,
        _ => u64::MAX - random.below(20) as u64,
    }
}

/// Figures such as calls make, though of no files.
fn used(random: &mut Random) -> Vec<u8> {
    let files = random.below(MOST_FILES as usize) as u64;
    let mut numbers = vec![files, files / 3];
    for _ in ["PR", "MR", "SR"] {
        let misses = random.below(5000) as u64;
        let most = random.of(&[1, 10, 5000, 10_000]);
        numbers.extend([misses, random.below(most) as u64, random.below(most) as u64]);
        let differences = random.below(1 << 24) as u64;
        // As often short as over.
        numbers.push(match random.one_in(2) {
            true => differences,
            false => differences.wrapping_neg(),
        });
    }
    numbers.extend((0..FINDINGS).map(|_| random.below(1000) as u64));
    numbers.extend((FINDINGS + 14..NUMBERS).map(|_| random.below(1 << 20) as u64));
    of(numbers)
}
