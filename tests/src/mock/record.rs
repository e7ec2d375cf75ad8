//! Faults of the length that a record's type has.

use std::process::exit;

use tests::calls::{Guard, Reply};
use tests::reference::record_length;
use tests::reference::types::{find, TYPES};

use crate::asked::Asked;
use crate::Fault;

/// Each record's answer is this.
fn answered(asked: &Asked, length: fn(&[u8]) -> u32) -> Reply {
    let mut right = asked.right();
    let lengths = asked.records().into_iter().map(length);
    right.buffers[0] = lengths.flat_map(u32::to_le_bytes).collect();
    right
}

/// The same of other bytes in the record's place.
fn as_if(record: &[u8], change: fn(&mut Vec<u8>)) -> u32 {
    let mut record = record.to_vec();
    change(&mut record);
    record_length(&record)
}

pub const FAULTS: &[Fault] = &[
    ("record-own-length", |asked| {
        answered(asked, |record| match find(record) {
            Some(_) => record.len() as u32,
            None => 0,
        })
    }),
    ("record-judged", |asked| {
        // None where the record has not the length itself.
        answered(asked, |record| match record_length(record) {
            length if length as usize == record.len() => length,
            _ => 0,
        })
    }),
    ("record-with-its-pair", |asked| {
        answered(asked, |record| match record_length(record) {
            0 => 0,
            length => length + 2,
        })
    }),
    ("record-8-bits", |asked| {
        answered(asked, |record| record_length(record) & 0xff)
    }),
    ("record-grt-27", |asked| {
        // Without the last row, whose columns are lost in the text of 001.
        answered(asked, |record| match record.starts_with(b"GRT") {
            true => 27,
            false => record_length(record),
        })
    }),
    ("record-without-last-type", |asked| {
        answered(asked, |record| match record.starts_with(b"XRF") {
            true => 0,
            false => record_length(record),
        })
    }),
    ("record-isw-known", |asked| {
        answered(asked, |record| match record.starts_with(b"ISW") {
            true => 260,
            false => record_length(record),
        })
    }),
    ("record-unknown-detail", |asked| {
        // Any other letters as long as a prefix.
        answered(asked, |record| {
            let letters = record.get(..3).unwrap_or(&[]);
            match record_length(record) {
                0 if !letters.is_empty() && letters.iter().all(u8::is_ascii_uppercase) => 19,
                length => length,
            }
        })
    }),
    ("record-two-bytes", |asked| {
        // Of two bytes, whatever type begins so.
        answered(asked, |record| match record.len() {
            2 => TYPES
                .iter()
                .find(|row| row.name.as_bytes().starts_with(record))
                .map_or(0, |row| row.length() as u32),
            _ => record_length(record),
        })
    }),
    ("record-third-byte", |asked| {
        // Takes NWS for NWR.
        answered(asked, |record| match record.starts_with(b"NWS") {
            true => 260,
            false => record_length(record),
        })
    }),
    ("record-lower-case", |asked| {
        answered(asked, |record| {
            as_if(record, |record| record.make_ascii_uppercase())
        })
    }),
    ("record-seven-bits", |asked| {
        answered(asked, |record| {
            as_if(record, |record| {
                record.iter_mut().for_each(|byte| *byte &= 0x7f)
            })
        })
    }),
    ("record-blank-before", |asked| {
        answered(asked, |record| {
            as_if(record, |record| {
                if record.starts_with(b" ") {
                    record.remove(0);
                }
            })
        })
    }),
    ("record-order-of-bytes", |asked| {
        // The three bytes as one number, read from the other end as well.
        answered(asked, |record| {
            let backwards = as_if(record, |record| {
                let end = record.len().min(3);
                record[..end].reverse();
            });
            record_length(record).max(backwards)
        })
    }),
    ("record-sum", |asked| {
        // By the sum of the bytes.
        answered(asked, |record| {
            let sum = |bytes: &[u8]| bytes.iter().map(|&byte| u32::from(byte)).sum::<u32>();
            let name = record.get(..3).unwrap_or(&[]);
            let same = TYPES
                .iter()
                .find(|row| sum(row.name.as_bytes()) == sum(name));
            match record_length(record) {
                0 => same.map_or(0, |row| row.length() as u32),
                length => length,
            }
        })
    }),
    ("record-most-bytes", |asked| {
        // None where more is lent than 16 bits count.
        answered(asked, |record| match record.len() {
            0..=65_535 => record_length(record),
            _ => 0,
        })
    }),
    ("record-changes-what-is-lent", |asked| {
        let mut right = asked.right();
        right.changed = asked.records().contains(&&b""[..]);
        right
    }),
    ("record-outside, guarded", |asked| {
        let short = asked.records().iter().any(|record| record.len() < 3);
        if asked.guard == Guard::After && short {
            exit(139);
        }
        asked.right()
    }),
    ("record-outside-before, guarded", |asked| {
        if asked.guard == Guard::Before {
            exit(139);
        }
        asked.right()
    }),
];
