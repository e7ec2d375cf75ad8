//! Changes of a work: each brings few findings, or none.

use super::right::{detail, plain, put, put_bytes};
use super::values::{
    fields, wild, Pool, DESIGNATIONS, NO_PUBLISHER_TYPES, PUBLISHER_TYPES, SEQUENCES,
};
use super::works::{give, of, share_start, Lent, Records};
use super::{works, Random};

/// Changes one thing.
pub fn change(work: &mut Records, lent: &Lent, random: &mut Random) {
    match random.below(28) {
        0..=7 => field(work, lent, random),
        8..=10 => total(work, lent, random),
        11..=13 => order(work, random),
        14..=18 => chain(work, random),
        19..=22 => roles(work, random),
        23 | 24 => serious(work, random),
        25 | 26 => rejected(work, random),
        _ if random.one_in(2) => header_type(work, random),
        _ => byte(work, random),
    }
}

/// Puts any values into many fields.
pub fn mix(work: &mut Records, lent: &Lent, random: &mut Random) {
    let times = random.between(2, 6);
    for record in work.iter_mut() {
        for &(start, size, pool) in fields(&record[..3]) {
            if random.one_in(times) {
                put_bytes(record, start, &wild(pool, size, lent.tables, random));
            }
        }
    }
}

/// Where a record of one of these types stands.
fn any(work: &Records, types: &[&[u8]], random: &mut Random) -> Option<usize> {
    let places: Vec<_> = (0..work.len())
        .filter(|&at| types.contains(&&work[at][..3]))
        .collect();
    (!places.is_empty()).then(|| random.of(&places))
}

/// Another value in one field. The type of record is chosen first, so that
/// those that come seldom have their turn.
fn field(work: &mut Records, lent: &Lent, random: &mut Random) {
    let types: &[&[u8]] = match random.below(14) {
        0..=3 => &[b"NWR", b"REV"],
        4 | 5 => &[b"SPU"],
        6 | 7 => &[b"OPU"],
        8 | 9 => &[b"SWR"],
        10 | 11 => &[b"OWR"],
        12 => &[b"EWT", b"VER", b"PER"],
        _ => &[b"REC"],
    };
    let at = match any(work, types, random) {
        Some(at) => at,
        None if types == [b"REC"] => {
            let at = place_of_rec(work);
            let texts = [(20, "20240229"), (88, "000330"), (99, "AN ALBUM")];
            work.insert(at, of("REC", &texts));
            at
        }
        None => random.below(work.len()),
    };
    let name = work[at][..3].to_vec();
    let fields = fields(&name);
    if fields.is_empty() {
        return byte(work, random);
    }
    let (start, size, pool) = random.of(fields);
    // A name that is gone and an indicator that says so go together.
    if pool == Pool::Indicator && random.one_in(3) {
        put_bytes(&mut work[at], 31, &[b' '; 45]);
    }
    let value = wild(pool, size, lent.tables, random);
    put_bytes(&mut work[at], start, &value);
}

/// Brings totals of a right to a limit or one off it.
fn total(work: &mut Records, lent: &Lent, random: &mut Random) {
    let is_writer = |record: &Vec<u8>| matches!(&record[..3], b"SWR" | b"OWR");
    let Some(mut first_writer) = work.iter().position(is_writer) else {
        return;
    };
    if random.one_in(3) {
        // More than half of PR needs two publishers, or one has too much.
        work.insert(first_writer, another_owner(&work[..first_writer]));
        first_writer += 1;
    }
    let (publishers, writers) = work.split_at_mut(first_writer);
    // The limits of none and of the largest too, whatever the tolerance: the
    // file goes into sheets, and may be listed or checked in the other form.
    let t = lent.tolerance as isize;
    let limits = [0, t, t + 1, -t, -t - 1, 1, -1, 3, 6, 7, -6, -7];
    let off = |random: &mut Random| random.of(&limits);
    if random.one_in(3) {
        // Both near their half of PR.
        let halves = [off(random), off(random)].map(|off| (5_000 + off) as usize);
        give(publishers, 0, halves[0], random);
        give(writers, 0, halves[1], random);
        return;
    }
    let right = random.below(3);
    let near = random.of(&[0, 5_000, 5_000, 10_000, 10_000]);
    let target = (near + off(random)).max(0) as usize;
    let (one, other) = match random.one_in(2) {
        true => (publishers, writers),
        false => (writers, publishers),
    };
    let given = give(one, right, target, random);
    match random.below(4) {
        0 | 1 => {
            // Together near the full share.
            let off = match random.one_in(3) {
                true => 0,
                false => off(random),
            };
            let together = 10_000 + off;
            let rest = (together - given as isize).max(0) as usize;
            give(other, right, rest, random);
        }
        2 => {
            give(other, right, 0, random);
        }
        _ => {}
    }
}

/// An OPU of a new chain after these records.
fn another_owner(before: &[Vec<u8>]) -> Vec<u8> {
    let last = before
        .iter()
        .rfind(|record| matches!(&record[..3], b"SPU" | b"OPU"));
    let number = last.and_then(|record| std::str::from_utf8(&record[19..21]).ok()?.parse().ok());
    let number = number.unwrap_or(0) + 1;
    let mut owner = works::publisher("OPU", "E ", [0; 3]);
    put(&mut owner, 20, &format!("{:02}", number % 100));
    owner
}

/// Moves, repeats, removes or puts in details.
fn order(work: &mut Records, random: &mut Random) {
    let details = work.len() - 1;
    let place = |random: &mut Random| 1 + random.below(details.max(1));
    match random.below(10) {
        0 if details > 1 => {
            let at = random.between(1, details - 1);
            work.swap(at, at + 1);
        }
        1 if details > 1 => {
            let (one, other) = (place(random), place(random));
            work.swap(one, other);
        }
        2 if details > 0 => {
            work.remove(place(random));
        }
        3 if details > 0 => {
            let again = work[place(random)].clone();
            let at = random.between(1, details + 1);
            work.insert(at, again);
        }
        4..=6 => {
            let name = random.of(&["EWT", "VER"]);
            let mut again = of(name, &[(20, "A TITLE")]);
            if random.one_in(8) {
                put(&mut again, 20, "       ");
            }
            let at = any(work, &[name.as_bytes()], random).unwrap_or(work.len());
            work.insert(at, again.clone());
            if random.one_in(2) {
                work.insert(at, again);
            }
        }
        7 => {
            let type_of = random.of(&["SWR", "OWR", "INS", "IND"]).as_bytes();
            work.retain(|record| !record.starts_with(type_of));
        }
        _ => {
            let at = random.between(1, details + 1);
            work.insert(at, plain(detail(random)));
        }
    }
}

/// Another version, relationship or designation.
fn roles(work: &mut Records, random: &mut Random) {
    match random.below(3) {
        0 => put(&mut work[0], 143, random.of(&["MOD", "ORI", "   "])),
        1 => put(&mut work[0], 137, random.of(&["MUS", "MUS", "TXT"])),
        _ => {
            if let Some(at) = any(work, &[b"SWR", b"OWR"], random) {
                put(&mut work[at], 105, random.of(&DESIGNATIONS));
            }
        }
    }
}

/// Makes the work a serious one, with a duration or with instruments, or with
/// both or neither.
fn serious(work: &mut Records, random: &mut Random) {
    put(&mut work[0], 127, "SER");
    let duration = random.of(&["000330", "000330", "000000", "000060", "      "]);
    put(&mut work[0], 130, duration);
    if random.one_in(2) {
        work.retain(|record| !record.starts_with(b"XRF") && !record.starts_with(b"ARI"));
        work.push(of(random.of(&["INS", "IND"]), &[]));
    }
}

/// Puts in a record that is rejected alone.
fn rejected(work: &mut Records, random: &mut Random) {
    let empty = match random.below(4) {
        0 => of(random.of(&["TER", "IPA", "NPA", "MSG"]), &[]),
        1 => of("PER", &[(20, " ")]),
        _ => of("REC", &[(20, "00000000"), (88, "000000")]),
    };
    let at = place_of_rec(work);
    work.insert(at, empty);
}

/// Where a REC or a last PER stands in the right order.
fn place_of_rec(work: &Records) -> usize {
    let later: [&[u8]; 8] = [
        b"REC", b"ORN", b"INS", b"IND", b"COM", b"NCT", b"ARI", b"XRF",
    ];
    let place = work.iter().position(|record| later.contains(&&record[..3]));
    place.unwrap_or(work.len())
}

/// Changes numbers, types or shares of publishers.
fn chain(work: &mut Records, random: &mut Random) {
    let publishers: Vec<_> = (0..work.len())
        .filter(|&at| matches!(&work[at][..3], b"SPU" | b"OPU"))
        .collect();
    if publishers.is_empty() {
        return publisher(work, random);
    }
    let at = random.of(&publishers);
    match random.below(15) {
        0 => put(&mut work[at], 20, random.of(&SEQUENCES)),
        1 => {
            // All in one chain.
            let number = random.of(&["01", "01", "00", "99", "0A"]);
            for &at in &publishers {
                put(&mut work[at], 20, number);
            }
        }
        2 => {
            // Counted from another number, 00 after 99.
            let first = random.of(&[0, 2, 97, 98, 99]);
            for &at in &publishers {
                let number = std::str::from_utf8(&work[at][19..21]).unwrap_or("");
                let number = number.parse().unwrap_or(0) + first;
                put(&mut work[at], 20, &format!("{:02}", number % 100));
            }
        }
        3 => {
            let other = random.of(&publishers);
            let number = work[other][19..21].to_vec();
            put_bytes(&mut work[at], 20, &number);
        }
        4 => put(&mut work[at], 77, random.of(&PUBLISHER_TYPES)),
        5 => put(&mut work[at], 77, random.of(&NO_PUBLISHER_TYPES)),
        6 => {
            let name = random.of(&["SPU", "OPU"]);
            put(&mut work[at], 1, name);
        }
        7 => {
            let right = random.below(3);
            let start = share_start(&work[at], right).expect("a publisher");
            put(
                &mut work[at],
                start,
                random.of(&["00000", "00001", "02500", "0000A"]),
            );
        }
        8..=12 => {
            // Another one in the same chain, which an SPU may have begun.
            let number = work[at][19..21].to_vec();
            let (name, kind) = random.of(&[
                ("SPU", "AQ"),
                ("SPU", "AQ"),
                ("SPU", "AQ"),
                ("SPU", "E "),
                ("OPU", "AM"),
                ("OPU", "E "),
                ("OPU", "  "),
            ]);
            let mut new = works::publisher(name, kind, [0; 3]);
            put_bytes(&mut new, 20, &number);
            if name == "OPU" && random.one_in(2) {
                put(&mut new, 76, "Y");
            }
            let at = match name {
                "SPU" => at + 1,
                _ => publishers[publishers.len() - 1] + 1,
            };
            work.insert(at, new);
        }
        _ => publisher(work, random),
    }
}

/// Puts in a publisher, of a chain that is there or a new one.
fn publisher(work: &mut Records, random: &mut Random) {
    let name = random.of(&["SPU", "SPU", "OPU"]);
    let mut new = of(
        name,
        &[(22, "P2"), (31, "ANOTHER"), (116, "00000   00000   00000")],
    );
    put(
        &mut new,
        77,
        random.of(&["E ", "AQ", "AQ", "AM", "PA", "  "]),
    );
    put(&mut new, 20, random.of(&["01", "01", "02", "03", "00"]));
    let at = match any(work, &[name.as_bytes()], random) {
        Some(at) => at + random.below(2),
        None => 1,
    };
    work.insert(at, new);
}

/// Another type of header, or the same.
pub fn header_type(work: &mut Records, random: &mut Random) {
    put(&mut work[0], 1, random.of(&["NWR", "REV"]));
}

/// Any byte of a record's text.
fn byte(work: &mut Records, random: &mut Random) {
    let at = random.below(work.len());
    let length = work[at].len();
    let byte = random.text();
    work[at][random.between(19, length - 1)] = byte;
}
