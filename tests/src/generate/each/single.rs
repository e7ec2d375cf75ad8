//! Records by themselves, whose types' lengths are asked: every type, what is
//! near one, and any bytes.

use super::{add_with, FIRST};
use crate::calls::Call;
use crate::generate::right::plain;
use crate::generate::{Case, Random};
use crate::reference::types::{Type, TYPES};

pub fn all(all: &mut Vec<Case>) {
    let mut add = |kind: String, records: Vec<Vec<u8>>| {
        let kind = format!("each record: {kind}");
        add_with(all, kind, Vec::new(), &[Call::Record]).records = records;
    };
    for row in &TYPES {
        add(format!("{} and near it", row.name), near(row));
    }
    for first in b'A'..=b'Z' {
        let letters = || b'A'..=b'Z';
        let of_two = letters().flat_map(|second| letters().map(move |third| [second, third]));
        let records = of_two.map(|[second, third]| vec![first, second, third]);
        add(format!("letters from {}", first as char), records.collect());
    }
    // Every one of fewer than three bytes.
    add("of no byte and of one".to_string(), {
        let of_one = (0..=255).map(|byte| vec![byte]);
        [vec![]].into_iter().chain(of_one).collect()
    });
    for from in (0..=255).step_by(16) {
        let of_two = (from..=from + 15).flat_map(|one| (0..=255).map(move |two| vec![one, two]));
        add(format!("of two bytes from {from}"), of_two.collect());
    }
    let mut random = Random::new(FIRST);
    for least in [0, 32, 128] {
        let mut records = Vec::new();
        for _ in 0..4096 {
            let length = random.below(8);
            let byte = |_| random.between(least, 255) as u8;
            records.push((0..length).map(byte).collect());
        }
        add(format!("any bytes from {least}"), records);
    }
}

/// A type in several lengths, each shorter one directly after one that is not,
/// and with its name changed.
fn near(row: &Type) -> Vec<Vec<u8>> {
    let (name, whole) = (row.name.as_bytes(), plain(row));
    let mut records = Vec::new();
    for length in [0, 1, 2, 3, 4, row.length() - 1, row.length()] {
        records.push(whole.clone());
        records.push(whole[..length].to_vec());
    }
    // Longer than any type, and bytes that no record has.
    for length in [row.length() + 1, row.length() + 2, 664, 70_000] {
        for byte in [0, b' ', 255] {
            let mut record = whole.clone();
            record.resize(length.max(whole.len()), byte);
            records.push(record);
        }
    }
    // One byte changed.
    for at in 0..3 {
        for byte in (0..=255).filter(|&byte| byte != name[at]) {
            let mut record = name.to_vec();
            record[at] = byte;
            records.push(record);
        }
    }
    // All that is not one byte's change: in lower case, with the highest bits
    // of two or three bytes, in another order, and not at the begin.
    records.push(name.to_ascii_lowercase());
    for high in [[1, 1, 0], [1, 0, 1], [0, 1, 1], [1, 1, 1]] {
        let bytes = name.iter().zip(high).map(|(byte, high)| byte | high << 7);
        records.push(bytes.collect());
    }
    let [a, b, c] = [name[0], name[1], name[2]];
    for name in [[a, c, b], [b, a, c], [b, c, a], [c, a, b], [c, b, a]] {
        records.push(name.to_vec());
    }
    for before in [0, b' ', b'0', 255] {
        records.push([&[before], name].concat());
    }
    records
}
