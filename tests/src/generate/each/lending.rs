//! Tables, tolerances and buffers at their limits, and sets of findings.

use super::{add_with, FIRST};
use crate::calls::Call;
use crate::generate::lent::SIZES;
use crate::generate::right::number;
use crate::generate::works::{file, of, plain_work, set_shares};
use crate::generate::{join, Case, Random};

pub fn all(all: &mut Vec<Case>) {
    tables(all);
    tolerances(all);
    lengths(all);
    sets(all);
    inputs(all);
}

fn file_a() -> Vec<u8> {
    join(&file("NWR", vec![plain_work()]))
}

/// File A, but that one hundredth of each right is missing.
fn one_short() -> Vec<u8> {
    let mut work = plain_work();
    set_shares(&mut work[1], [9_999; 3]);
    join(&file("NWR", vec![work]))
}

const CHECKS: [Call; 2] = [Call::Check, Call::Within];

/// Each table with so many entries and bytes; where it is long, the last
/// entry is the only one that the file asks for.
fn tables(all: &mut Vec<Case>) {
    for (which, size) in SIZES.into_iter().enumerate() {
        let full = size * 1024;
        for length in [
            0,
            1,
            2,
            3,
            4,
            5,
            6,
            7,
            full - size,
            full - 1,
            full,
            full + 1,
            full + size - 1,
            full + size,
            2 * full,
            65_536,
            65_536 + size,
        ] {
            let mut work = plain_work();
            work[0][79..81].copy_from_slice(b"EN");
            let kind = format!("each table: {which} of {length} bytes");
            let case = add_with(all, kind, join(&file("NWR", vec![work])), &CHECKS);
            let last = case.tables[which][..size].to_vec();
            let mut table = vec![b'x'; length.saturating_sub(size)];
            table.extend(&last[..size.min(length)]);
            case.tables[which] = table;
        }
    }
    // Several wrong ones: the first.
    for wrong in 1..8 {
        let case = add_with(all, format!("each table: {wrong} wrong"), file_a(), &CHECKS);
        for (which, table) in case.tables.iter_mut().enumerate() {
            if wrong >> which & 1 == 1 {
                table.push(b'x');
            }
        }
    }
    // Before a bad file, and after a bad tolerance.
    for tolerance in [6, 7] {
        let kind = format!("each table: wrong, no file, tolerance {tolerance}");
        let case = add_with(all, kind, Vec::new(), &CHECKS);
        case.tables[2].push(b'x');
        case.tolerance = tolerance;
    }
}

fn tolerances(all: &mut Vec<Case>) {
    let small = (0..=12).chain([255, 256, 257, 262, 263, 65_536, 65_542]);
    for tolerance in small.chain([1 << 31, 1 << 32, (1 << 32) + 6, 1 << 63, u64::MAX]) {
        // With the last, the forms differ where the tolerance is any but 0.
        for (words, file) in [
            ("", file_a()),
            (", no file", Vec::new()),
            (", one short", one_short()),
        ] {
            let kind = format!("each tolerance: {tolerance}{words}");
            add_with(all, kind, file, &CHECKS).tolerance = tolerance;
        }
    }
}

/// Each buffer around what is just enough, six records.
fn lengths(all: &mut Vec<Case>) {
    for verdicts in [0, 1, 5, 6, 7, 64] {
        for findings in [0, 6, 8, 40, 46, 47, 48, 49, 56, 400] {
            let kind = format!("each length: {verdicts} and {findings} bytes");
            let case = add_with(all, kind, file_a(), &CHECKS);
            let mut random = Random::new(FIRST);
            case.verdicts = random.pattern(verdicts);
            case.findings = random.pattern(findings);
        }
    }
}

fn sets(all: &mut Vec<Case>) {
    let mut random = Random::new(FIRST);
    let single = (0..64).map(|finding| 1 << finding);
    let from = (0..64).map(|finding| u64::MAX << finding);
    let below = (0..64).map(|finding| u64::MAX >> finding);
    let without = (0..64).map(|finding| !(1 << finding));
    let any: Vec<u64> = (0..200).map(|_| random.draw() & random.draw()).collect();
    for set in single
        .chain(from)
        .chain(below)
        .chain(without)
        .chain(any)
        .chain([0])
    {
        let kind = format!("each set: {set:#x}");
        add_with(all, kind, Vec::new(), &[Call::Bits]).set = set;
    }
}

/// Inputs of the listing program.
fn inputs(all: &mut Vec<Case>) {
    let mut add = |kind: &str, input: Vec<u8>| {
        add_with(all, format!("each input: {kind}"), input, &[Call::Listing]);
    };
    add("none", Vec::new());
    add("file A", file_a());
    for length in [65_535, 65_536, 65_537, 131_072] {
        add(&format!("{length} spaces"), vec![b' '; length]);
        // A right file and text after it, which is looked at before.
        let mut input = file_a();
        input.resize(length, b' ');
        add(&format!("file A, filled up to {length}"), input);
    }
    for length in [65_534, 65_536, 65_538] {
        add(
            &format!("{length} bytes of empty lines"),
            b"\r\n".repeat(length / 2),
        );
    }
    // A right file of exactly the most bytes that are read, and one more:
    // TER has 26 bytes with its end, IND 27.
    for length in [65_536usize, 65_537] {
        let left = length - file_a().len();
        let mut work = plain_work();
        work.extend(vec![of("IND", &[]); left % 26]);
        let ters = (left - 27 * (left % 26)) / 26;
        work.extend(vec![of("TER", &[]); ters]);
        let input = join(&file("NWR", vec![work]));
        assert_eq!(input.len(), length);
        add(&format!("right, {length} bytes"), input);
    }
    // Groups and transactions counted.
    for (groups, transactions) in [(1, 12), (3, 1), (12, 2), (100, 1)] {
        let mut records = file("NWR", Vec::new());
        let group = file("NWR", vec![plain_work(); transactions]);
        let group = &group[1..group.len() - 1];
        records.splice(1..3, std::iter::repeat_n(group, groups).flatten().cloned());
        number(&mut records);
        add(
            &format!("{groups} groups of {transactions}"),
            join(&records),
        );
    }
}
