//! Right files: any shape, every type, any text.

use super::Random;
use crate::reference::types::{find, Class, Type, TYPES};

/// The records of a right file, from tiny to some hundred records.
pub fn records(random: &mut Random) -> Vec<Vec<u8>> {
    let types = types(random);
    write(&types, random)
}

/// The types of a right file in their order.
fn types(random: &mut Random) -> Vec<&'static Type> {
    // Most groups, transactions in a group and details in a transaction.
    let (groups, transactions, details) = match random.below(32) {
        0..=13 => (1, 2, 2),
        14..=24 => (3, 3, 5),
        25..=28 => (6, 6, 10),
        29 => (120, 1, 1),
        30 => (2, 120, 1),
        _ => (1, 2, 250),
    };
    let few = random.one_in(4).then(|| detail(random));
    let mut types = vec![named("HDR")];
    for _ in 0..random.between(1, groups) {
        types.push(named("GRH"));
        for _ in 0..random.between(1, transactions) {
            types.push(header(random));
            for _ in 0..random.between(0, details) {
                types.push(few.unwrap_or_else(|| detail(random)));
            }
        }
        types.push(named("GRT"));
    }
    types.push(named("TRL"));
    types
}

pub fn named(name: &str) -> &'static Type {
    find(name.as_bytes()).expect("a known type")
}

pub fn header(random: &mut Random) -> &'static Type {
    named(random.of(&["NWR", "REV"]))
}

pub fn detail(random: &mut Random) -> &'static Type {
    of_class(Class::Detail, random)
}

pub fn of_class(class: Class, random: &mut Random) -> &'static Type {
    let types: Vec<_> = TYPES.iter().filter(|row| row.class == class).collect();
    random.of(&types)
}

/// Records of these types with any text, each with the number it has by
/// counting; right where the types stand in right places.
pub fn write(types: &[&'static Type], random: &mut Random) -> Vec<Vec<u8>> {
    let mut records: Vec<_> = types.iter().map(|row| blank(row, random)).collect();
    for record in records
        .iter_mut()
        .filter(|record| record.starts_with(b"HDR"))
    {
        let revision = random.of(&["000", "001", "002"]);
        put(record, 102, "2.2");
        put(record, 105, revision);
    }
    number(&mut records);
    records
}

/// Numbers records by counting. The counting is not the reference's, so that
/// the two can be held against each other.
pub fn number(records: &mut [Vec<u8>]) {
    let (mut group, mut group_begin) = (0, 0);
    let (mut transactions, mut before_group) = (0, 0);
    let mut header_at = 0;
    for (at, record) in records.iter_mut().enumerate() {
        let class = find(record).expect("a known type").class;
        match class {
            Class::Hdr => {}
            Class::Grh => {
                group += 1;
                group_begin = at;
                before_group = transactions;
                put(record, 7, &format!("{group:05}"));
            }
            Class::Header | Class::Detail => {
                if class == Class::Header {
                    transactions += 1;
                    header_at = at;
                }
                let transaction = (transactions - before_group).max(1) - 1;
                put(record, 4, &format!("{transaction:08}"));
                put(record, 12, &format!("{:08}", at - header_at));
            }
            Class::Grt => {
                put(record, 4, &format!("{group:05}"));
                put(record, 9, &format!("{:08}", transactions - before_group));
                put(record, 17, &format!("{:08}", at + 1 - group_begin));
            }
            Class::Trl => {
                put(record, 4, &format!("{group:05}"));
                put(record, 9, &format!("{transactions:08}"));
                put(record, 17, &format!("{:08}", at + 1));
            }
        }
    }
}

/// A record of a type with blanks in its fields.
pub fn plain(row: &Type) -> Vec<u8> {
    let mut record = vec![b' '; row.length()];
    record[..3].copy_from_slice(row.name.as_bytes());
    record
}

/// A record of a type with any text in its fields.
pub fn blank(row: &Type, random: &mut Random) -> Vec<u8> {
    let length = row.length();
    let mut record: Vec<u8> = match random.below(8) {
        0 | 1 => vec![b' '; length],
        2 | 3 => (0..length)
            .map(|_| random.of(b"  ABCDEFGHIJKLMNOPQRSTUVWXYZ0123456789"))
            .collect(),
        4 => {
            let byte = random.of(&[b'0', b'9', 127, 128, 160, 255]);
            vec![byte; length]
        }
        // Names of types inside a record mean nothing.
        5 => (0..length)
            .map(|_| random.of(b"HDRGRTLNWEV02.00"))
            .collect(),
        _ => (0..length).map(|_| random.text()).collect(),
    };
    record[..3].copy_from_slice(row.name.as_bytes());
    if row.class == Class::Grh && random.one_in(2) {
        put(&mut record, 4, random.of(&["NWR", "REV"]));
    }
    record
}

/// Puts text into a record at a position counted from 1, where it fits.
pub fn put(record: &mut [u8], start: usize, text: &str) {
    put_bytes(record, start, text.as_bytes());
}

pub fn put_bytes(record: &mut [u8], start: usize, bytes: &[u8]) {
    if let Some(part) = record.get_mut(start - 1..start - 1 + bytes.len()) {
        part.copy_from_slice(bytes);
    }
}
