//! Works that go through the values of each finding and the limits of each
//! value, several in a file.

use super::add_with;
use crate::calls::Call;
use crate::generate::right::{number, put, put_bytes};
use crate::generate::values::{
    fields, DATES, DESIGNATIONS, DURATIONS, INDICATORS, NO_DESIGNATIONS, NO_PUBLISHER_TYPES,
    PUBLISHER_TYPES, SEQUENCES, SHARES, TAXES,
};
use crate::generate::works::{
    complete, file, of, plain_work, publisher, set_shares, share_start, writer, Records,
};
use crate::generate::{join, Case};
use crate::reference::listing::LONGEST_INPUT;
use crate::reference::types::{Class, TYPES};

pub fn all(all: &mut Vec<Case>) {
    header_fields(all);
    edges(all);
    shares(all);
    totals(all);
    wrapped(all);
    many(all);
    bytes(all);
    designations(all);
    publisher_types(all);
    indicators(all);
    sequences(all);
    chains(all);
    recordings(all);
    titles(all);
    orders(all);
    leaders(all);
    groups(all);
}

/// Adds files of works, so many in each, which are about something else than
/// the tolerance: one form of the check for each, the listing program for some.
fn add(all: &mut Vec<Case>, kind: &str, works: Vec<Records>) {
    for (part, works) in works.chunks(16).enumerate() {
        let records = file("NWR", works.to_vec());
        let calls: &[Call] = match all.len() % 8 {
            0 => &[Call::Check, Call::Listing],
            1..=4 => &[Call::Check],
            _ => &[Call::Within],
        };
        let kind = format!("each {kind}, part {part}");
        add_with(all, kind, join(&records), calls);
    }
}

/// The same of works that are about it: both forms of the check, the longer one
/// with this tolerance.
fn add_within(all: &mut Vec<Case>, kind: &str, tolerance: u64, works: Vec<Records>) {
    for (part, works) in works.chunks(16).enumerate() {
        let records = file("NWR", works.to_vec());
        let calls: &[Call] = match all.len() % 8 {
            0 => &[Call::Check, Call::Within, Call::Listing],
            _ => &[Call::Check, Call::Within],
        };
        let kind = format!("each {kind}, tolerance {tolerance}, part {part}");
        add_with(all, kind, join(&records), calls).tolerance = tolerance;
    }
}

/// The plain work with a text on its header.
fn headed(start: usize, text: &str) -> Records {
    let mut work = plain_work();
    put(&mut work[0], start, text);
    work
}

fn header_fields(all: &mut Vec<Case>) {
    let mut works = Vec::new();
    for date in DATES {
        works.push(headed(107, date));
    }
    for (year, leap) in [(2023, 28), (2024, 29), (1900, 28), (2000, 29)] {
        for month in 1..=12 {
            for day in [1, leap, 29, 30, 31, 32] {
                works.push(headed(107, &format!("{year}{month:02}{day:02}")));
            }
        }
    }
    add(all, "date", works);

    let mut works = Vec::new();
    for duration in DURATIONS {
        for category in ["POP", "SER", "ser", "   ", "XXX"] {
            for with in ["", "INS", "IND"] {
                let mut work = headed(127, &format!("{category}{duration}"));
                if !with.is_empty() {
                    work.push(of(with, &[]));
                }
                works.push(work);
            }
        }
    }
    add(all, "duration", works);

    let mut works = Vec::new();
    for base in ["T0345246801", "T0030749586", "T0000000009", "T9999999994"] {
        for at in 0..11 {
            for byte in b"0123456789TtX ./:" {
                let mut work = headed(96, base);
                work[0][95 + at] = *byte;
                works.push(work);
            }
        }
    }
    add(all, "ISWC", works);

    let mut works = Vec::new();
    for code in [
        "EN", "FR", "DE", "NF", "RD", "E ", " E", "  ", "en", "XX", "E\u{7f}",
    ] {
        works.push(headed(80, code));
    }
    for code in [
        "POP", "JAZ", "SER", "OPJ", "PJA", "   ", "PO ", "pop", "XXX",
    ] {
        works.push(headed(127, code));
    }
    add(all, "code", works);
}

/// Each field blank between entered neighbours, then entered in its first and
/// its last byte alone.
fn edges(all: &mut Vec<Case>) {
    for name in [
        "NWR", "SPU", "OPU", "SWR", "OWR", "EWT", "VER", "PER", "REC",
    ] {
        let mut works = Vec::new();
        for &(start, size, _) in fields(name.as_bytes()) {
            for form in 0..4 {
                let mut work = plain_work();
                let record = match name {
                    "NWR" => &mut work[0],
                    "SWR" => &mut work[1],
                    "SPU" | "OPU" => {
                        work.insert(1, publisher(name, "E ", [0; 3]));
                        &mut work[1]
                    }
                    "OWR" => {
                        work.push(writer(name, "C ", [0; 3]));
                        &mut work[2]
                    }
                    _ => {
                        work.push(of(name, &[]));
                        &mut work[2]
                    }
                };
                put_bytes(record, start, &vec![b' '; size]);
                let filled = match form {
                    0 => start - 1,
                    1 => start + size,
                    2 => start,
                    _ => start + size - 1,
                };
                // Not into the number before the first field.
                if filled >= 20 {
                    put(record, filled, "X");
                }
                works.push(work);
            }
        }
        add(all, &format!("edge of {name}"), works);
    }
}

/// Each value in each share field.
fn shares(all: &mut Vec<Case>) {
    for name in ["SPU", "OPU", "SWR", "OWR"] {
        let mut works = Vec::new();
        for share in SHARES {
            for right in 0..3 {
                let mut work = plain_work();
                let record = match name {
                    "SPU" | "OPU" => publisher(name, "E ", [0; 3]),
                    _ => writer(name, "C ", [0; 3]),
                };
                work.insert(1, record);
                set_shares(&mut work[2], [0; 3]);
                let start = share_start(&work[1], right).expect("a share");
                put(&mut work[1], start, share);
                works.push(work);
            }
        }
        add_within(all, &format!("share of {name}"), 6, works);
    }
}

/// Works with a total of a right so far from a limit: of publishers, of writers,
/// of all.
fn off_by(right: usize, near: usize, off: isize) -> [Records; 4] {
    let one = near.saturating_add_signed(off);
    let rest = 10_000usize.saturating_sub(one);
    let pair = |of_publisher: usize, of_writer: usize| {
        let mut work = plain_work();
        let mut shares = [0; 3];
        shares[right] = of_writer;
        set_shares(&mut work[1], shares);
        shares[right] = of_publisher;
        work.insert(1, publisher("SPU", "E ", shares));
        work
    };
    [
        pair(one, rest),
        pair(rest, one),
        pair(0, one),
        pair(5000, (one + 5000).saturating_sub(near)),
    ]
}

/// Totals at each limit and one off it, for each tolerance; the short form has
/// those of all.
fn totals(all: &mut Vec<Case>) {
    let limits = || (0..3).flat_map(|right| [0, 5000, 10_000].map(|near| (right, near)));
    for tolerance in 0..=6 {
        let t = tolerance as isize;
        let mut works = Vec::new();
        for (right, near) in limits() {
            for off in [-t - 1, -t, -1, 0, 1, t, t + 1] {
                works.extend(off_by(right, near, off));
            }
        }
        // Writers' PR, of one and of two together; without a publisher, and
        // with one who has half or all the rest.
        let t = tolerance as usize;
        for pr in [0, t, t + 1, 4999 - t, 5000 - t] {
            for shares in [vec![pr], vec![pr - pr / 2, pr / 2]] {
                for of_publisher in [0, 5000, 10_000 - pr] {
                    let mut work = vec![plain_work().remove(0)];
                    if of_publisher > 0 {
                        work.push(publisher("SPU", "E ", [of_publisher, 0, 0]));
                    }
                    for (name, &share) in ["SWR", "OWR"].into_iter().zip(&shares) {
                        work.push(writer(name, "C ", [share, 0, 0]));
                    }
                    works.push(work);
                }
            }
        }
        add_within(all, "total", tolerance, works);
    }
    // The listing program has a tolerance of its own. In few files, since it is
    // started for each: as many works as it still reads.
    let mut works = Vec::new();
    for (right, near) in limits() {
        for off in -7..=7 {
            works.extend(off_by(right, near, off));
        }
    }
    for (part, works) in works.chunks(100).enumerate() {
        let input = join(&file("NWR", works.to_vec()));
        assert!(input.len() <= LONGEST_INPUT);
        add_with(
            all,
            format!("each total listed, part {part}"),
            input,
            &[Call::Listing],
        );
    }
}

/// Totals that are right, or nothing, once they are cut to fewer bits.
fn wrapped(all: &mut Vec<Case>) {
    let mut works = Vec::new();
    for right in 0..3 {
        for name in ["SWR", "OPU", "SPU"] {
            // So many at 10000 and one more: 75536 and its neighbours, 65536,
            // and others for fewer bits and one more.
            for (full, last) in [
                (7, 5536),
                (7, 5535),
                (7, 5537),
                (6, 5536),
                (6, 5537),
                (7, 1072 + 65_536),
                (0, 256),
                (0, 65_536),
            ] {
                let mut work = plain_work();
                set_shares(&mut work[1], [0; 3]);
                for place in 0..=full {
                    let mut shares = [0; 3];
                    shares[right] = if place < full { 10_000 } else { last };
                    let record = match name {
                        "SWR" => writer("SWR", "C ", shares),
                        _ => publisher(name, "E ", shares),
                    };
                    let at = if name == "SWR" { work.len() } else { 1 };
                    work.insert(at, record);
                }
                works.push(work);
            }
        }
    }
    add_within(all, "wrapped total", 6, works);
}

/// More records of a kind than a byte counts.
fn many(all: &mut Vec<Case>) {
    for number in [255, 256, 257, 258] {
        for record in [
            publisher("SPU", "E ", [0, 1, 0]),
            publisher("OPU", "  ", [0; 3]),
            of("EWT", &[(20, "T")]),
            of("VER", &[(20, "T")]),
        ] {
            let mut work = plain_work();
            let at = if matches!(&record[..3], b"SPU" | b"OPU") {
                1
            } else {
                work.len()
            };
            work.splice(at..at, vec![record; number]);
            add(all, &format!("count of {number}"), vec![work]);
        }
    }
}

/// Each byte that can stand in a text, in one place of each kind of field.
fn bytes(all: &mut Vec<Case>) {
    let [mut header, writer] = <[_; 2]>::try_from(plain_work()).expect("two records");
    for (start, text) in [
        (20, " "),
        (80, "EN"),
        (96, "T0345246801"),
        (107, "20240229"),
    ] {
        put(&mut header, start, text);
    }
    let mut spu = publisher("SPU", "E ", [0, 1, 0]);
    put(&mut spu, 79, "123456789");
    let opu = publisher("OPU", "E ", [0; 3]);
    let rec = of("REC", &[(20, "00000000"), (88, "000000")]);
    let mut works = Vec::new();
    // The work's records before and after the one that changes.
    for (before, record, after, positions) in [
        (None, &header, Some(&writer), &[50, 101, 114, 129, 135][..]),
        (Some(&header), &spu, None, &[21, 76, 78, 83, 120]),
        (Some(&header), &opu, None, &[76, 77]),
        (Some(&header), &writer, None, &[106, 134]),
        (Some(&header), &rec, None, &[27, 93]),
    ] {
        for &position in positions {
            for byte in 32..=255 {
                let mut record = record.clone();
                record[position - 1] = byte;
                let work = [before.cloned(), Some(record), after.cloned()];
                works.push(work.into_iter().flatten().collect());
            }
        }
    }
    add(all, "byte", works);
}

fn designations(all: &mut Vec<Case>) {
    let mut works = Vec::new();
    for designation in DESIGNATIONS.iter().chain(&NO_DESIGNATIONS) {
        for version in ["MOD", "ORI", "   "] {
            for relationship in ["MUS", "MTX"] {
                for name in ["SWR", "OWR"] {
                    let mut work = headed(137, relationship);
                    put(&mut work[0], 143, version);
                    work[1] = writer(name, designation, [10_000; 3]);
                    works.push(work.clone());
                    // With a second writer.
                    work.push(writer("OWR", "C ", [0; 3]));
                    works.push(work);
                }
            }
        }
    }
    add(all, "designation", works);
    let mut without = plain_work();
    without.pop();
    let mut modified = without.clone();
    put(&mut modified[0], 143, "MOD");
    add(all, "work without writers", vec![without, modified]);
}

/// Each type first in its chain and after others, with a share and without.
fn publisher_types(all: &mut Vec<Case>) {
    for name in ["SPU", "OPU"] {
        for share in [0, 1] {
            let mut works = Vec::new();
            for kind in PUBLISHER_TYPES.iter().chain(&NO_PUBLISHER_TYPES) {
                for before in ["", "SPU E ", "OPU E ", "OPU   ", "SPU AQ", "SPU XX"] {
                    for earlier in [0, 1] {
                        let mut work = plain_work();
                        work.insert(1, publisher(name, kind, [0, share, 0]));
                        if !before.is_empty() {
                            let (name, kind) = before.split_at(4);
                            let shares = [earlier, 0, 0];
                            work.insert(1, publisher(name.trim(), kind, shares));
                        }
                        complete(&mut work);
                        works.push(work);
                    }
                }
            }
            add(
                all,
                &format!("publisher type of {name}, share {share}"),
                works,
            );
        }
    }
}

fn indicators(all: &mut Vec<Case>) {
    let mut works = Vec::new();
    let published = |name: &str| {
        let mut work = plain_work();
        work.insert(1, publisher(name, "E ", [0, 0, 1]));
        complete(&mut work);
        work
    };
    for name in ["SPU", "OPU"] {
        for title in ["B", " "] {
            for indicator in INDICATORS {
                let mut work = published(name);
                put(&mut work[1], 31, title);
                put(&mut work[1], 76, indicator);
                works.push(work);
            }
        }
        for tax in TAXES {
            let mut work = published(name);
            put(&mut work[1], 79, tax);
            works.push(work);
        }
        for start in [113, 121, 129] {
            for society in [
                "035", "044", "058", "350", "503", "   ", "35 ", " 35", "999",
            ] {
                let mut work = published(name);
                put(&mut work[1], start, society);
                works.push(work);
            }
        }
    }
    add(all, "indicator, tax number and society", works);
}

/// A work of publishers: name, sequence number, type and MR share.
fn chain(publishers: &[(&str, &str, &str, usize)]) -> Records {
    let mut work = plain_work();
    for &(name, sequence, kind, share) in publishers.iter().rev() {
        let mut record = publisher(name, kind, [0, share, 0]);
        put(&mut record, 20, sequence);
        work.insert(1, record);
    }
    complete(&mut work);
    work
}

fn sequences(all: &mut Vec<Case>) {
    let mut works = Vec::new();
    for one in SEQUENCES {
        for other in SEQUENCES {
            works.push(chain(&[("SPU", one, "E ", 1), ("OPU", other, "E ", 1)]));
        }
    }
    add(all, "sequence", works);
    // All numbers in a row, and past the last.
    let mut texts: Vec<_> = (1..=99).map(|number| format!("{number:02}")).collect();
    texts.extend(["99", "00", "01", "0A", "01", "02"].map(String::from));
    let row: Vec<_> = texts
        .iter()
        .map(|text| ("SPU", text.as_str(), "E ", 1))
        .collect();
    add(all, "sequence in a row", vec![chain(&row)]);
}

/// Chains by their number, together or not.
fn chains(all: &mut Vec<Case>) {
    let mut works = Vec::new();
    let forms = [
        "SPU E ", "SPU AQ", "SPU AM", "SPU XX", "OPU E ", "OPU   ", "OPU AM", "OPU AQ",
    ];
    for first in forms {
        for second in forms {
            for (numbers, shares) in [
                (["01", "01"], [1, 0]),
                (["01", "01"], [0, 1]),
                (["01", "02"], [1, 1]),
                (["00", "00"], [1, 1]),
                (["99", "99"], [0, 0]),
                (["0A", "0A"], [1, 1]),
            ] {
                let part = |form: &'static str| (&form[..3], &form[4..]);
                let ((one, kind), (other, other_kind)) = (part(first), part(second));
                // Something of another chain between them.
                works.push(chain(&[
                    (one, numbers[0], kind, shares[0]),
                    ("SPU", "50", "E ", 1),
                    (other, numbers[1], other_kind, shares[1]),
                ]));
            }
        }
    }
    add(all, "chain", works);
}

fn recordings(all: &mut Vec<Case>) {
    let mut works = Vec::new();
    for date in ["00000000", "20240229", "19000229", "        ", "0000000 "] {
        for duration in ["000000", "995959", "000060", "      "] {
            for filled in [0, 28, 87, 94, 98, 99, 300, 540] {
                let mut record = of("REC", &[(20, date), (88, duration)]);
                if filled > 0 {
                    put(&mut record, filled, "X");
                }
                let mut work = plain_work();
                work.push(record);
                works.push(work);
            }
        }
    }
    add(all, "recording", works);
}

/// EWT and VER none to three times, and titles blank.
fn titles(all: &mut Vec<Case>) {
    let mut works = Vec::new();
    for ewts in 0..4 {
        for vers in 0..4 {
            for title in ["T", " "] {
                let mut work = plain_work();
                work.extend(vec![of("EWT", &[(20, title)]); ewts]);
                work.extend(vec![of("VER", &[(20, title)]); vers]);
                works.push(work);
            }
        }
    }
    add(all, "EWT and VER", works);
}

/// The types of details, by the order of the table.
fn details() -> impl Iterator<Item = &'static str> {
    TYPES
        .iter()
        .filter(|row| row.class == Class::Detail)
        .map(|row| row.name)
}

/// Each detail after each other.
fn orders(all: &mut Vec<Case>) {
    let mut works = Vec::new();
    for one in details() {
        for other in details() {
            let work = vec![plain_work().remove(0), of(one, &[]), of(other, &[])];
            works.push(work);
        }
    }
    add(all, "order of two", works);
}

/// After each leader each two of the types that follow leaders.
fn leaders(all: &mut Vec<Case>) {
    let followers = [
        "NPN", "SPT", "OPT", "NWN", "SWT", "OWT", "PWR", "NET", "NOW", "NVT", "NPR", "IND", "NCT",
    ];
    // And two that nothing follows, of which one is skipped.
    let leaders = [
        "SPU", "OPU", "SWR", "OWR", "EWT", "VER", "PER", "INS", "COM", "ALT", "TER",
    ];
    let mut works = Vec::new();
    for leader in leaders {
        for one in followers {
            for other in followers {
                let header = plain_work().remove(0);
                works.push(vec![header, of(leader, &[]), of(one, &[]), of(other, &[])]);
            }
        }
    }
    // The leader again, which starts afresh, and another one before.
    for (leader, last, first) in [
        ("SPU", "SPT", "NPN"),
        ("OPU", "OPT", "NPN"),
        ("SWR", "PWR", "NWN"),
        ("OWR", "PWR", "NWN"),
        ("EWT", "NOW", "NET"),
        ("VER", "NOW", "NVT"),
        ("COM", "NOW", "NCT"),
        ("PER", "NPR", "NPR"),
        ("INS", "IND", "IND"),
    ] {
        for between in [leader, "SPU", "ALT", "TER", "MSG", "PER", "INS", "XRF"] {
            let names = [leader, last, between, first];
            let mut work = vec![plain_work().remove(0)];
            work.extend(names.map(|name| of(name, &[])));
            works.push(work);
        }
    }
    add(all, "order after a leader", works);
}

/// Groups of works of one type and the other.
fn groups(all: &mut Vec<Case>) {
    for (first, second) in [
        ("NWR", "REV"),
        ("REV", "NWR"),
        ("ISW", "NWR"),
        ("   ", "nwr"),
    ] {
        for odd in 0..4 {
            let mut records = file(first, vec![plain_work(); 3]);
            let mut group = file(second, vec![plain_work(); 2]);
            let end = records.len() - 1;
            records.splice(end..end, group.drain(1..7));
            if odd > 0 {
                put(&mut records[2 * odd], 1, "REV");
            }
            number(&mut records);
            let kind = format!("each group: {first}, {second}, {odd}");
            add_with(all, kind, join(&records), &[Call::Within, Call::Listing]);
        }
    }
}
