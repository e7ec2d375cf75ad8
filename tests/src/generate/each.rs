//! Small files that go through every possibility in turn: every type, every
//! step, every number's byte, every byte value; shares by territory, records by
//! themselves, and sheets.
//! Their seeds are their numbers here, counted from `FIRST`.

mod claims;
mod judged;
mod late;
mod lending;
mod sheets;
mod single;

use std::sync::OnceLock;

use super::right::{blank, named, put, write};
use super::{join, works, Case, Random};
use crate::calls::Call;
use crate::reference::types::{Class, Type, TYPES};

/// The seed of the first.
pub const FIRST: u64 = 1 << 20;

/// How many there are.
pub fn number() -> u64 {
    all().len() as u64
}

pub fn case(seed: u64) -> Option<Case> {
    all().get(usize::try_from(seed - FIRST).ok()?).cloned()
}

fn all() -> &'static [Case] {
    static ALL: OnceLock<Vec<Case>> = OnceLock::new();
    ALL.get_or_init(|| {
        let mut all = Vec::new();
        judged::all(&mut all);
        late::all(&mut all);
        claims::all(&mut all);
        lending::all(&mut all);
        types(&mut all);
        steps(&mut all);
        two_faults(&mut all);
        numbers(&mut all);
        versions(&mut all);
        bytes(&mut all);
        cuts(&mut all);
        buffers(&mut all);
        single::all(&mut all);
        sheets::all(&mut all);
        all
    })
}

/// Adds a file; what else is lent can then be changed. Where a form of the check
/// is compared, the one with territories is too.
fn add_with<'a>(
    all: &'a mut Vec<Case>,
    kind: String,
    file: Vec<u8>,
    calls: &[Call],
) -> &'a mut Case {
    let seed = FIRST + all.len() as u64;
    let mut calls = calls.to_vec();
    if calls.iter().any(|call| call.is_check()) {
        calls.push(Call::Claims);
    }
    all.push(Case::new(seed, kind, file, &calls));
    all.last_mut().expect("just added")
}

/// Adds a file about its structure.
fn add(all: &mut Vec<Case>, kind: String, file: Vec<u8>) {
    use Call::{Check, Number, Structure, Within};
    // The two forms of the check, and the others, in turn.
    let calls: &[Call] = match all.len() % 4 {
        0 => &[Check, Number],
        1 => &[Within, Structure],
        2 => &[Within, Number],
        _ => &[Check, Structure],
    };
    add_with(all, kind, file, calls);
}

/// Two groups, three transactions, three details.
const NAMES: [&str; 12] = [
    "HDR", "GRH", "NWR", "TER", "TER", "REV", "XRF", "GRT", "GRH", "NWR", "GRT", "TRL",
];

fn rows() -> Vec<&'static Type> {
    NAMES.iter().map(|name| named(name)).collect()
}

fn records() -> Vec<Vec<u8>> {
    write(&rows(), &mut Random::new(FIRST))
}

/// Each type in its right length, one byte short and one byte long.
fn types(all: &mut Vec<Case>) {
    for row in &TYPES {
        let mut rows = rows();
        let place = match row.class {
            Class::Hdr => 0,
            Class::Detail => 4,
            Class::Header => 5,
            Class::Grt => 7,
            Class::Grh => 8,
            Class::Trl => 11,
        };
        rows[place] = row;
        for change in ["", ", one byte short", ", one byte long"] {
            let mut records = write(&rows, &mut Random::new(FIRST));
            match change {
                "" => {}
                ", one byte short" => records[place].truncate(row.length() - 1),
                _ => records[place].push(b' '),
            }
            add(
                all,
                format!("each type: {}{change}", row.name),
                join(&records),
            );
        }
    }
}

/// Each class of record after each other, and the file's end after each.
fn steps(all: &mut Vec<Case>) {
    let ways: [&[&str]; 7] = [
        &[],
        &["HDR"],
        &["HDR", "GRH"],
        &["HDR", "GRH", "NWR"],
        &["HDR", "GRH", "NWR", "SWR"],
        &["HDR", "GRH", "NWR", "GRT"],
        &["HDR", "GRH", "NWR", "GRT", "TRL"],
    ];
    let next = ["", "HDR", "GRH", "NWR", "SWR", "GRT", "TRL"];
    for way in ways {
        for next in next {
            let names = way.iter().copied().chain([next]).filter(|n| !n.is_empty());
            let rows: Vec<_> = names.map(named).collect();
            let records = write(&rows, &mut Random::new(FIRST));
            let next = if next.is_empty() { "end" } else { next };
            let kind = format!("each step: [{}], {next}", way.join(" "));
            add(all, kind, join(&records));
        }
    }
}

/// The scope's file of two faults. The one that is looked for first is
/// answered, whichever stands first.
fn two_faults(all: &mut Vec<Case>) {
    use Call::{Check, Counted, Listing, Number, Structure, Within};
    let mut work = works::plain_work();
    let writer = work[1].clone();
    work.resize(8, writer);
    let mut records = works::file("NWR", vec![work]);
    records[3] = records[0].clone();
    records[9].pop();
    let kind = "bad length in record 9 and a second HDR at 3".to_string();
    let calls = [Check, Within, Number, Structure, Counted, Listing];
    add_with(all, kind, join(&records), &calls);
}

/// Each byte of each number, another digit and a blank.
fn numbers(all: &mut Vec<Case>) {
    let right = records();
    for (place, name) in NAMES.iter().enumerate() {
        let positions = match *name {
            "HDR" => 0..0,
            "GRH" => 7..12,
            "GRT" | "TRL" => 4..25,
            _ => 4..20,
        };
        for position in positions {
            for blank in [false, true] {
                let mut records = right.clone();
                let byte = &mut records[place][position - 1];
                *byte = if blank {
                    b' '
                } else {
                    b'0' + (*byte - b'0' + 1) % 10
                };
                let what = if blank { "blank" } else { "one more" };
                let kind = format!("each number: record {place} {name}, {position} {what}");
                add(all, kind, join(&records));
            }
        }
    }
}

/// Each byte of version and revision and their neighbours; many revisions.
fn versions(all: &mut Vec<Case>) {
    for position in 101..=108 {
        for byte in b" 0123.,A/\xff" {
            let mut records = records();
            records[0][position - 1] = *byte;
            let kind = format!("each version byte: {position} is {byte}");
            add(all, kind, join(&records));
        }
    }
    for revision in (0..=25).chain([99, 100, 101, 102, 200, 256, 257, 258, 512, 999]) {
        let mut records = records();
        put(&mut records[0], 105, &format!("{revision:03}"));
        add(all, format!("each revision: {revision:03}"), join(&records));
    }
}

/// Each byte value in several positions.
fn bytes(all: &mut Vec<Case>) {
    let right = records();
    for byte in 0..=255u8 {
        for (place, position) in [(3, 1), (3, 20), (6, 38), (11, 3)] {
            let mut records = right.clone();
            records[place][position - 1] = byte;
            let kind = format!("each byte: {byte} in record {place} at {position}");
            add(all, kind, join(&records));
        }
    }
    for byte in 0..32 {
        let mut records = right.clone();
        records[4].push(byte);
        add(
            all,
            format!("each control: {byte} before a pair"),
            join(&records),
        );
        let mut file = join(&right);
        file.push(byte);
        add(all, format!("each control: {byte} at the end"), file);
        let mut file = join(&right);
        file.insert(0, byte);
        add(all, format!("each control: {byte} at the start"), file);
        let mut file = join(&right);
        let end = right[0].len();
        file.insert(end + 1, byte);
        add(all, format!("each control: {byte} between CR and LF"), file);
    }
}

/// Cut at every byte; the file of the scope, which is smaller.
fn cuts(all: &mut Vec<Case>) {
    let file = join(&works::file("NWR", vec![works::plain_work()]));
    for length in 0..file.len() {
        add(
            all,
            format!("each cut: {length} bytes"),
            file[..length].to_vec(),
        );
    }
}

/// A right and an unnumbered file with buffers of several lengths.
fn buffers(all: &mut Vec<Case>) {
    let right = join(&records());
    let mut unnumbered = records();
    for record in &mut unnumbered[1..] {
        let start = if record.starts_with(b"GRH") { 6 } else { 3 };
        record[start..start + 5].fill(b' ');
    }
    let unnumbered = join(&unnumbered);
    let mut wrong = records();
    wrong[11] = blank(named("TRL"), &mut Random::new(FIRST));
    put(&mut wrong[0], 102, "2.1");
    let wrong = join(&wrong);
    for (name, file) in [
        ("right", right),
        ("unnumbered", unnumbered),
        ("version 2.1", wrong),
    ] {
        let length = file.len() as isize;
        for longer in [
            -length,
            1 - length,
            -length / 2,
            -3,
            -2,
            -1,
            0,
            1,
            2,
            3,
            length,
        ] {
            let kind = format!("each buffer: {name}, {longer:+} bytes");
            let calls = [Call::Number, Call::Counted];
            let case = add_with(all, kind, file.clone(), &calls);
            let length = file.len().checked_add_signed(longer);
            case.out = Random::new(FIRST).pattern(length.expect("a length"));
        }
    }
}
