//! Works: transactions with few findings or none.

use std::cmp::Ordering;

use super::right::{detail, named, number, plain, put, put_bytes};
use super::values::{right_iswc, writable, DESIGNATIONS};
use super::{changes, claims, Random};
use crate::reference::lines::Line;
use crate::reference::types::find;
use crate::reference::values::digits;
use crate::reference::verdicts::level;
use crate::reference::{field, findings, Tables};

pub type Records = Vec<Vec<u8>>;

/// What a work is made for.
pub struct Lent<'a> {
    pub tables: &'a [Vec<u8>; 3],
    pub territories: &'a [u8],
    pub tolerance: u64,
}

/// The records of a file of works, rightly numbered.
pub fn records(lent: &Lent, random: &mut Random) -> Records {
    let (groups, transactions) = match random.below(16) {
        0..=9 => (1, 1),
        10..=13 => (1, 3),
        14 => (3, 1),
        _ => (3, 3),
    };
    let mixed = random.one_in(12);
    let mut records = vec![plain(named("HDR"))];
    put(
        &mut records[0],
        102,
        random.of(&["2.2000", "2.2001", "2.2002"]),
    );
    for _ in 0..random.between(1, groups) {
        let kind = random.of(&["NWR", "REV"]);
        let mut grh = plain(named("GRH"));
        put(&mut grh, 4, kind);
        if random.one_in(60) {
            put(
                &mut grh,
                4,
                random.of(&["NWR", "REV", "ISW", "   ", "nwr", "NW "]),
            );
        }
        records.push(grh);
        for _ in 0..random.between(1, transactions) {
            let mut work = right(kind, lent, random);
            if mixed {
                changes::mix(&mut work, lent, random);
            }
            for _ in 0..random.of(&[0, 0, 0, 1, 1, 1, 1, 1, 2, 2, 3, 5]) {
                changes::change(&mut work, lent, random);
            }
            records.extend(work);
        }
        records.push(plain(named("GRT")));
    }
    records.push(plain(named("TRL")));
    number(&mut records);
    records
}

/// The records of a file of several groups in which no transaction is rejected
/// but from a late one on, or none at all. Those before it may have findings
/// that reject less.
pub fn late(lent: &Lent, random: &mut Random) -> Records {
    let groups: Vec<usize> = (0..random.between(2, 4))
        .map(|_| random.between(1, 4))
        .collect();
    let all = groups.iter().sum();
    let rejected = match random.below(8) {
        0 => all,
        _ => random.between(1, all - 1),
    };
    let mut records = vec![of("HDR", &[(102, "2.2001")])];
    let mut transaction = 0;
    for transactions in groups {
        let kind = random.of(&["NWR", "REV"]);
        records.push(of("GRH", &[(4, kind)]));
        for _ in 0..transactions {
            records.extend(match transaction.cmp(&rejected) {
                Ordering::Less => accepted(kind, lent, random),
                Ordering::Equal => self::rejected(kind, lent, random),
                Ordering::Greater => changed(kind, lent, random),
            });
            transaction += 1;
        }
        records.push(of("GRT", &[]));
    }
    records.push(of("TRL", &[]));
    number(&mut records);
    records
}

/// A work with few changes or none.
fn changed(kind: &str, lent: &Lent, random: &mut Random) -> Records {
    let mut work = right(kind, lent, random);
    for _ in 0..random.of(&[0, 1, 1, 2]) {
        changes::change(&mut work, lent, random);
    }
    work
}

/// One without a TR or GR finding, where the tables allow it.
fn accepted(kind: &str, lent: &Lent, random: &mut Random) -> Records {
    let mut work = changed(kind, lent, random);
    for _ in 0..20 {
        if rejecting(kind, &work, lent) == 0 {
            break;
        }
        work = changed(kind, lent, random);
    }
    work
}

/// One with one such finding, or else with some.
fn rejected(kind: &str, lent: &Lent, random: &mut Random) -> Records {
    let mut best = plain_work();
    best.truncate(1);
    for _ in 0..20 {
        let mut work = changed(kind, lent, random);
        if random.one_in(12) {
            changes::header_type(&mut work, random);
        }
        match rejecting(kind, &work, lent) {
            0 => {}
            1 => return work,
            _ => best = work,
        }
    }
    best
}

/// How many TR and GR findings a work's records have in a group of this type.
fn rejecting(kind: &str, work: &Records, lent: &Lent) -> usize {
    let mut records = vec![of("GRH", &[(4, kind)])];
    records.extend_from_slice(work);
    let line = |text: &Vec<u8>| find(text).expect("a known type").class;
    let classes: Vec<_> = records.iter().map(line).collect();
    let lines: Vec<_> = records.iter().map(|text| Line { at: 0, text }).collect();
    let tables = Tables::of(lent.tables);
    let sets = findings::sets(&lines, &classes, tables, lent.tolerance);
    let of_set = |set: &u64| {
        let held = (0..64).filter(|finding| set >> finding & 1 == 1);
        held.filter(|&finding| level(finding) >= 3).count()
    };
    sets.iter().map(of_set).sum()
}

/// The records of a file with one group of these works.
pub fn file(group_type: &str, works: Vec<Records>) -> Records {
    let mut records = vec![of("HDR", &[(102, "2.2002")]), of("GRH", &[(4, group_type)])];
    records.extend(works.into_iter().flatten());
    records.extend([of("GRT", &[]), of("TRL", &[])]);
    number(&mut records);
    records
}

/// The work of the scope's file A: a header and a writer with everything.
pub fn plain_work() -> Records {
    let header = [(20, "A"), (82, "1"), (107, "00000000"), (127, "POP000000")];
    let writer = [(20, "1"), (29, "B"), (105, "C")];
    let mut work = vec![of("NWR", &header), of("SWR", &writer)];
    set_shares(&mut work[1], [10_000; 3]);
    work
}

/// A publisher without findings where an SPU is the first of its chain 01.
pub fn publisher(name: &str, kind: &str, shares: [usize; 3]) -> Vec<u8> {
    let mut publisher = of(name, &[(20, "01"), (22, "1"), (31, "B"), (77, kind)]);
    set_shares(&mut publisher, shares);
    publisher
}

/// A writer without findings.
pub fn writer(name: &str, designation: &str, shares: [usize; 3]) -> Vec<u8> {
    let mut writer = of(name, &[(20, "1"), (29, "B"), (105, designation)]);
    set_shares(&mut writer, shares);
    writer
}

/// Puts the shares of PR, MR and SR into a record that has them.
pub fn set_shares(record: &mut [u8], shares: [usize; 3]) {
    for (right, share) in shares.into_iter().enumerate() {
        let start = share_start(record, right).expect("a record with shares");
        put(record, start, &format!("{share:05}"));
    }
}

/// Gives the first writer of a work what the others leave of each right, so
/// that no tolerance matters.
pub fn complete(work: &mut Records) {
    let is_writer = |record: &Vec<u8>| matches!(&record[..3], b"SWR" | b"OWR");
    let writer = work.iter().position(is_writer).expect("a writer");
    set_shares(&mut work[writer], [0; 3]);
    let rest = [0, 1, 2].map(|right| {
        let share = |record: &Vec<u8>| digits(field(record, share_start(record, right)?, 5));
        10_000 - work.iter().filter_map(share).sum::<u64>() as usize
    });
    set_shares(&mut work[writer], rest);
}

/// A record of a type, blank but for these texts.
pub fn of(name: &str, texts: &[(usize, &str)]) -> Vec<u8> {
    let mut record = plain(named(name));
    for &(start, text) in texts {
        put(&mut record, start, text);
    }
    record
}

/// A work without findings, as far as the tables allow; a right that nobody
/// owns a share in, or an SPU that owns nothing, comes up by chance.
pub fn right(header: &str, lent: &Lent, random: &mut Random) -> Records {
    let mut work = vec![self::header(header, lent, random)];
    let category_ser = &work[0][126..129] == b"SER";
    let mut publishers = publishers(lent, random);
    let mut writers = writers(&work[0], lent, random);
    let half = random.of(&[5000, 5000, 0, 2500, 1234]);
    for (right, most) in [half, 2 * half, 10_000 - half].into_iter().enumerate() {
        if random.one_in(8) {
            continue;
        }
        let rest = give(&mut publishers, right, most, random);
        give(&mut writers, right, 10_000 - rest, random);
    }
    work.extend(publishers);
    work.extend(writers);
    others(&mut work, category_ser, random);
    work
}

fn header(name: &str, lent: &Lent, random: &mut Random) -> Vec<u8> {
    let mut header = of(
        name,
        &[
            (20, "A TITLE"),
            (82, "W1"),
            (107, "00000000"),
            (130, "000000"),
            (136, "U"),
        ],
    );
    let any = |table: &[u8], size: usize, random: &mut Random| match table.len() / size {
        0 => vec![b' '; size],
        entries => writable(table[size * random.below(entries)..][..size].to_vec()),
    };
    if random.one_in(3) {
        put_bytes(&mut header, 80, &any(&lent.tables[0], 2, random));
    }
    if random.one_in(3) {
        put_bytes(&mut header, 96, &right_iswc(random));
    }
    if random.one_in(4) {
        put(
            &mut header,
            107,
            random.of(&["20240229", "19991231", "00010101"]),
        );
    }
    put_bytes(&mut header, 127, &any(&lent.tables[2], 3, random));
    if &header[126..129] == b"SER" || random.one_in(3) {
        put(&mut header, 130, random.of(&["000330", "995959", "000001"]));
    }
    put(&mut header, 137, random.of(&["MUS", "MTX", "   "]));
    put(&mut header, 143, random.of(&["MOD", "ORI", "ORI", "   "]));
    header
}

/// Chains of publishers, without shares.
fn publishers(lent: &Lent, random: &mut Random) -> Records {
    let mut publishers = Vec::new();
    let (spus, opus) = random.of(&[
        (0, 0),
        (0, 0),
        (1, 0),
        (1, 0),
        (2, 0),
        (0, 1),
        (0, 2),
        (1, 1),
        (1, 1),
        (2, 1),
        (3, 2),
    ]);
    let mut sequence = 0;
    for chain in 0..spus + opus {
        sequence += 1;
        let name = if chain < spus { "SPU" } else { "OPU" };
        let kinds: &[&str] = match random.below(8) {
            0 => &["E ", "AQ"],
            1 => &["E ", "AM"],
            2 => &["E ", "SE", "AM"],
            3 if chain < spus => &["E ", "ES", "AQ"],
            4 if chain < spus => &["PA", "E "],
            _ => &["E "],
        };
        for kind in kinds {
            let mut publisher = of(name, &[(77, kind), (116, "00000   00000   00000")]);
            put(&mut publisher, 20, &format!("{sequence:02}"));
            if name == "SPU" || random.one_in(2) {
                put(&mut publisher, 22, "P1");
                put(&mut publisher, 31, "A PUBLISHER");
            } else {
                put(&mut publisher, 76, "Y");
                if random.one_in(16) {
                    put(&mut publisher, 31, "A PUBLISHER");
                }
            }
            let societies = &lent.tables[1];
            for start in [113, 121, 129] {
                if societies.len() >= 3 && random.one_in(3) {
                    let entry = 3 * random.below(societies.len() / 3);
                    let society = writable(societies[entry..entry + 3].to_vec());
                    put_bytes(&mut publisher, start, &society);
                }
            }
            publishers.push(publisher);
            if random.one_in(24) {
                publishers.push(of("NPN", &[]));
            }
            if random.one_in(4) {
                let territory = if name == "SPU" { "SPT" } else { "OPT" };
                publishers.push(claims::any(territory, lent.territories, random));
            }
            if random.one_in(8) {
                publishers.push(claims::any("OPT", lent.territories, random));
            }
        }
    }
    publishers
}

/// Writers whose designations fit the header, without shares.
fn writers(header: &[u8], lent: &Lent, random: &mut Random) -> Records {
    let (music, version) = (&header[136..139] == b"MUS", &header[142..145]);
    let mut writers = Vec::new();
    let (swrs, owrs) = random.of(&[(1, 0), (1, 0), (2, 0), (0, 1), (1, 1), (2, 2)]);
    let adapter = version == b"MOD";
    for place in 0..swrs + owrs + usize::from(adapter) {
        let name = if place < swrs { "SWR" } else { "OWR" };
        let designation = match (place, music) {
            (0, true) => "C ",
            (0, false) => random.of(&["CA", "A ", "C "]),
            (1, true) if adapter => random.of(&["AR", "AD", "SR"]),
            (1, false) if adapter => random.of(&["AR", "AD", "SR", "SA", "TR"]),
            (_, true) => random.of(&["C ", "PA"]),
            _ if version == b"ORI" => random.of(&["CA", "A ", "C ", "PA"]),
            _ => random.of(&DESIGNATIONS),
        };
        let shares = "00000   00000   00000";
        let mut writer = of(name, &[(105, designation), (130, shares)]);
        if name == "SWR" || random.one_in(2) {
            put(&mut writer, 20, "W1");
            put(&mut writer, 29, "A WRITER");
        }
        writers.push(writer);
        if random.one_in(24) {
            writers.push(of("NWN", &[]));
        }
        if random.one_in(5) {
            let territory = if name == "SWR" { "SWT" } else { "OWT" };
            writers.push(claims::any(territory, lent.territories, random));
        }
        if random.one_in(5) {
            writers.push(of("PWR", &[]));
        }
    }
    writers
}

/// Where a record of a type has the share of a right: PR, MR, SR.
pub fn share_start(record: &[u8], right: usize) -> Option<usize> {
    match &record[..3] {
        b"SPU" | b"OPU" => Some([116, 124, 132][right]),
        b"SWR" | b"OWR" => Some([130, 138, 146][right]),
        _ => None,
    }
}

/// Gives shares of a right to those of the records that may own, so that they
/// come to this total; what was given, 0 where there is none to give to.
pub fn give(records: &mut [Vec<u8>], right: usize, total: usize, random: &mut Random) -> usize {
    let is_publisher = |record: &[u8]| matches!(&record[..3], b"SPU" | b"OPU");
    let acquired = |chain: &[u8]| {
        let acquirer = |record: &Vec<u8>| {
            is_publisher(record) && &record[76..78] == b"AQ" && &record[19..21] == chain
        };
        records.iter().any(acquirer)
    };
    let owner = |record: &[u8]| match &record[..3] {
        // Where there is an acquirer, the E before it owns nothing.
        _ if is_publisher(record) => match &record[76..78] {
            b"AQ" => true,
            b"E " => !acquired(&record[19..21]),
            _ => false,
        },
        b"SWR" | b"OWR" => true,
        _ => false,
    };
    let owners: Vec<usize> = (0..records.len())
        .filter(|&at| owner(&records[at]))
        .collect();
    let mut left = total;
    for (place, &at) in owners.iter().enumerate() {
        let share = match owners.len() - place {
            1 => left,
            _ => random.between(0, left),
        };
        let share = share.min(99_999);
        left -= share;
        let start = share_start(&records[at], right).expect("an owner");
        put(&mut records[at], start, &format!("{share:05}"));
    }
    total - left
}

/// Some of the other details, in their order.
fn others(work: &mut Records, category_ser: bool, random: &mut Random) {
    let mut add = |name: &str, texts: &[(usize, &str)], times: usize, random: &mut Random| {
        let there = random.one_in(times);
        if there {
            work.push(of(name, texts));
        }
        there
    };
    add("ALT", &[(20, "OTHER")], 8, random);
    add("NAT", &[], 40, random);
    for (name, with) in [("EWT", "NET"), ("VER", "NVT")] {
        if add(name, &[(20, "A TITLE")], 8, random) {
            add(with, &[], 12, random);
            add("NOW", &[], 12, random);
        }
    }
    add("PER", &[(20, "AN ARTIST")], 5, random);
    add("NPR", &[], 24, random);
    add(
        "REC",
        &[(20, "00000000"), (88, "000000"), (99, "AN ALBUM")],
        8,
        random,
    );
    add("REC", &[(20, "20240229"), (88, "000330")], 16, random);
    add("ORN", &[(20, "LIB")], 16, random);
    let instruments = if category_ser { 1 } else { 12 };
    if random.one_in(2) {
        add("INS", &[], instruments, random);
        add("IND", &[], 12, random);
    } else {
        add("IND", &[], instruments, random);
    }
    if add("COM", &[(20, "A PART")], 12, random) {
        add("NCT", &[], 12, random);
        add("NOW", &[], 12, random);
    }
    add("ARI", &[], 12, random);
    add("XRF", &[], 12, random);
    if random.one_in(16) {
        let name = random.of(&["TER", "IPA", "NPA", "MSG"]);
        let at = random.between(1, work.len());
        work.insert(at, of(name, &[]));
    }
    if random.one_in(48) {
        work.push(plain(detail(random)));
    }
}
