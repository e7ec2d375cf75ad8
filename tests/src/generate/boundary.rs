//! Files at the limits, each made once. Their seeds are their numbers here;
//! those that show a fault soonest come first.

use super::damage::unnumber;
use super::right::{blank, detail, header, named, number as number_all, put, write};
use super::{claims, join, works, Case, Random};
use crate::calls::Call;
use crate::reference::claims::ENTRY;
use crate::reference::lines::{LARGEST_FILE, MOST_RECORDS};
use crate::reference::types::Type;

/// What is compared, and what is lent for it. Not all calls for each file,
/// since they are large.
#[derive(Clone, Copy)]
enum Calls {
    /// The check, with territories too, numbering and the structure alone.
    All,
    /// The check and numbering.
    Both,
    /// Those, and the numbers of groups and transactions both ways.
    Counted,
    /// The check alone: the same file stands here with another buffer, or
    /// numbering would be no other than for that one.
    Check,
    /// The check in its short form, the buffers so many bytes longer than
    /// they must be.
    Buffers(isize, isize),
    /// Numbering alone, the buffer so many bytes longer than the file.
    Number(isize),
    /// The check, with territories too, and numbering, no buffers: something else
    /// is refused before.
    Refused,
    /// The check with territories alone, the list so many entries longer than it
    /// must be.
    Claims(isize),
}

type Boundary = (&'static str, Calls, fn(&mut Random) -> Vec<u8>);

const BOUNDARIES: &[Boundary] = &[
    ("16,777,217 bytes of zero", Calls::Refused, |_| {
        vec![0; LARGEST_FILE + 1]
    }),
    ("131,072 empty lines", Calls::Both, |_| {
        b"\r\n".repeat(MOST_RECORDS)
    }),
    ("131,073 empty lines", Calls::Both, |_| {
        b"\r\n".repeat(MOST_RECORDS + 1)
    }),
    ("131,073 empty lines, then text", Calls::All, |_| {
        let mut file = b"\r\n".repeat(MOST_RECORDS + 1);
        file.push(b' ');
        file
    }),
    ("8,388,607 empty lines, then LF CR", Calls::Refused, |_| {
        let mut file = b"\r\n".repeat(LARGEST_FILE / 2);
        file.swap(LARGEST_FILE - 2, LARGEST_FILE - 1);
        file
    }),
    // 2^32 and 10000 together.
    (
        "42,951 writers whose total is 10000 in 32 bits",
        Calls::Check,
        |_| join(&of_writers(&[(42_950, 99_999), (1, 20_246)])),
    ),
    // 2^32, and more publishers of one chain than sixteen bits count.
    (
        "42,951 publishers whose total is 0 in 32 bits",
        Calls::Check,
        |_| join(&of_publishers(&[(42_950, 99_999), (1, 10_246)])),
    ),
    ("65,537 publishers of one chain", Calls::Check, |_| {
        join(&of_publishers(&[(65_537, 1)]))
    }),
    ("92,000 writers at 99999", Calls::Check, |_| {
        join(&of_writers(&[(92_000, 99_999)]))
    }),
    ("right, 131,072 records", Calls::All, |random| {
        join(&of_records(MOST_RECORDS, random))
    }),
    ("right, 16,777,216 bytes", Calls::Both, |random| {
        join(&of_size(LARGEST_FILE, random))
    }),
    (
        "right, 16,777,216 bytes, buffer short",
        Calls::Number(-1),
        |random| join(&of_size(LARGEST_FILE, random)),
    ),
    (
        "unnumbered, 16,777,215 bytes, buffer longer",
        Calls::Number(1),
        |random| {
            let mut records = of_size(LARGEST_FILE - 1, random);
            unnumber(&mut records, random);
            join(&records)
        },
    ),
    ("right, 16,777,217 bytes", Calls::Both, |random| {
        join(&of_size(LARGEST_FILE + 1, random))
    }),
    ("16,777,216 bytes without a pair", Calls::Refused, |_| {
        vec![255; LARGEST_FILE]
    }),
    ("8,388,608 empty lines", Calls::Refused, |_| {
        b"\r\n".repeat(LARGEST_FILE / 2)
    }),
    (
        "right, 131,072 records, buffer short",
        Calls::Number(-1),
        |random| join(&of_records(MOST_RECORDS, random)),
    ),
    (
        "unnumbered, 131,071 records, buffer longer",
        Calls::Number(4096),
        |random| {
            let mut records = of_records(MOST_RECORDS - 1, random);
            unnumber(&mut records, random);
            join(&records)
        },
    ),
    ("right, 131,073 records", Calls::All, |random| {
        join(&of_records(MOST_RECORDS + 1, random))
    }),
    (
        "131,073 records, the first of an unknown type",
        Calls::Refused,
        |random| {
            let mut records = of_records(MOST_RECORDS + 1, random);
            records[0][0] = b'A';
            join(&records)
        },
    ),
    (
        "131,073 records, the last without its pair",
        Calls::Both,
        |random| {
            let mut file = join(&of_records(MOST_RECORDS + 1, random));
            file.truncate(file.len() - 2);
            file
        },
    ),
    (
        "131,072 records, the last unknown, HDR at 3",
        Calls::Both,
        |random| {
            let mut records = of_records(MOST_RECORDS, random);
            records[MOST_RECORDS - 1][0] = b'A';
            records[3] = blank(named("HDR"), random);
            join(&records)
        },
    ),
    ("131,072 records without TRL", Calls::Both, |random| {
        let mut records = of_records(MOST_RECORDS + 1, random);
        records.pop();
        join(&records)
    }),
    (
        "131,072 records, TRL and version wrong",
        Calls::Both,
        |random| {
            let mut records = of_records(MOST_RECORDS, random);
            put(&mut records[MOST_RECORDS - 1], 17, "00131071");
            put(&mut records[0], 102, "2.1");
            join(&records)
        },
    ),
    ("131,072 records, revision 003", Calls::Refused, |random| {
        let mut records = of_records(MOST_RECORDS, random);
        put(&mut records[0], 105, "003");
        join(&records)
    }),
    ("right, 43,690 groups", Calls::Counted, |random| {
        join(&of_groups(random))
    }),
    (
        "43,690 groups, the first GRT and the last GRH wrong",
        Calls::Check,
        |random| {
            let mut records = of_groups(random);
            put(&mut records[3], 4, "00000");
            put(&mut records[MOST_RECORDS - 4], 7, "43689");
            join(&records)
        },
    ),
    ("right, 131,067 details", Calls::All, |random| {
        join(&of_details(random))
    }),
    ("131,067 details, the last wrong", Calls::Check, |random| {
        let mut records = of_details(random);
        put(&mut records[MOST_RECORDS - 3], 12, "00131066");
        join(&records)
    }),
    (
        "131,067 details, GRT records in sixteen bits",
        Calls::Check,
        |random| {
            let mut records = of_details(random);
            put(&mut records[MOST_RECORDS - 2], 17, "00065534");
            join(&records)
        },
    ),
    (
        "right, 12,000 transactions in one group",
        Calls::Counted,
        |random| {
            let mut types = vec![named("HDR"), named("GRH")];
            types.extend((0..12_000).map(|_| header(random)));
            types.extend([named("GRT"), named("TRL")]);
            join(&write(&types, random))
        },
    ),
    (
        "right, 131,072 records, no verdict for the last",
        Calls::Buffers(-1, 0),
        |random| join(&of_records(MOST_RECORDS, random)),
    ),
    (
        "right, 131,072 records, findings one byte short",
        Calls::Buffers(1, -1),
        |random| join(&of_records(MOST_RECORDS, random)),
    ),
    (
        "right, 131,072 records, buffers longer",
        Calls::Buffers(3, 5),
        |random| join(&of_records(MOST_RECORDS, random)),
    ),
    // 2^32 and 10000 together, as above, in one territory.
    (
        "42,951 claims whose total is 10000 in 32 bits",
        Calls::Claims(0),
        |_| join(&of_parties(&[(42_950, "99999"), (1, "20246")])),
    ),
    // More parties than sixteen bits count; only two of them claim.
    (
        "65,537 parties, the first and the last together over",
        Calls::Claims(1),
        |_| join(&of_parties(&[(1, "06000"), (65_535, ""), (1, "04007")])),
    ),
    ("131,065 claims of one party", Calls::Claims(0), |random| {
        join(&of_claims(131_065, random))
    }),
    (
        "131,065 claims of one party, list short",
        Calls::Claims(-1),
        |random| join(&of_claims(131_065, random)),
    ),
    // One entry, and as many claims in sixteen bits.
    (
        "65,537 claims, list of one",
        Calls::Claims(-65_536),
        |random| join(&of_claims(65_537, random)),
    ),
    (
        "37,785 transactions, the last over",
        Calls::Claims(0),
        |_| {
            let mut works = vec![works::plain_work(); 37_785];
            works[37_784].push(claims::claim("SWT", "I", b"0756", [0, 10_007, 0]));
            join(&works::file("NWR", works))
        },
    ),
    // More transactions than fifteen bits count.
    (
        "37,785 transactions, the last rejected",
        Calls::Check,
        |_| {
            let mut works = vec![works::plain_work(); 37_785];
            put(&mut works[37_784][1], 29, " ");
            join(&works::file("NWR", works))
        },
    ),
    (
        "32,703 groups, the last header of another type",
        Calls::Check,
        |_| {
            let group = &works::file("NWR", vec![works::plain_work()])[1..5];
            let mut records = works::file("NWR", Vec::new());
            records.splice(1..3, std::iter::repeat_n(group, 32_703).flatten().cloned());
            let header = records.len() - 4;
            put(&mut records[header], 1, "REV");
            number_all(&mut records);
            join(&records)
        },
    ),
];

/// How many there are.
pub fn number() -> u64 {
    BOUNDARIES.len() as u64
}

pub fn case(seed: u64) -> Option<Case> {
    let (kind, calls, file) = BOUNDARIES.get(usize::try_from(seed).ok()?)?;
    let mut random = Random::new(seed);
    let file = file(&mut random);
    use Call::{Check, Claims, Counted, Number, Structure, Within};
    let asked: &[Call] = match calls {
        Calls::All => &[Within, Claims, Number, Structure],
        Calls::Both => &[Within, Number],
        Calls::Counted => &[Within, Number, Structure, Counted],
        Calls::Check => &[Within],
        Calls::Buffers(..) => &[Check],
        Calls::Number(_) => &[Number],
        Calls::Refused => &[Check, Claims, Number],
        Calls::Claims(_) => &[Claims],
    };
    let mut case = Case::new(seed, kind.to_string(), file, asked);
    let mut longer = |buffer: &mut Vec<u8>, more: isize| {
        let length = buffer.len().checked_add_signed(more).expect("a length");
        *buffer = random.pattern(length);
    };
    match *calls {
        Calls::Buffers(verdicts, findings) => {
            longer(&mut case.verdicts, verdicts);
            longer(&mut case.findings, findings);
        }
        Calls::Number(more) => longer(&mut case.out, more),
        Calls::Refused => {
            case.verdicts.clear();
            case.findings.clear();
            case.claims.clear();
            case.over.clear();
            case.out.clear();
        }
        Calls::Claims(more) => longer(&mut case.claims, more * ENTRY as isize),
        _ => {}
    }
    Some(case)
}

/// A right file of exactly this many bytes.
fn of_size(size: usize, random: &mut Random) -> Vec<Vec<u8>> {
    let line = |row: &Type| row.length() + 2;
    let mut types = vec![named("HDR"), named("GRH"), header(random)];
    let mut left = size - types.iter().map(|row| line(row)).sum::<usize>();
    left -= line(named("GRT")) + line(named("TRL"));
    // Any of the rest, then as many TER (26) and IND (27) as fill it exactly.
    while left > 4096 {
        let next = match random.below(40) {
            0 => vec![named("GRT"), named("GRH"), header(random)],
            1 | 2 => vec![header(random)],
            _ => vec![detail(random)],
        };
        left -= next.iter().map(|row| line(row)).sum::<usize>();
        types.extend(next);
    }
    let (ter, ind) = (named("TER"), named("IND"));
    let odd = left % line(ter);
    types.extend(vec![ind; odd]);
    left -= odd * line(ind);
    types.extend(vec![ter; left / line(ter)]);
    types.extend([named("GRT"), named("TRL")]);
    let records = write(&types, random);
    assert_eq!(records.iter().map(|r| r.len() + 2).sum::<usize>(), size);
    records
}

/// A right file of exactly this many records, in groups and transactions of
/// any size; short records, so that the bytes stay far from their limit.
fn of_records(number: usize, random: &mut Random) -> Vec<Vec<u8>> {
    let mut types = vec![named("HDR"), named("GRH"), header(random)];
    while types.len() < number - 2 {
        let left = number - 2 - types.len();
        match random.below(400) {
            0 if left >= 3 => types.extend([named("GRT"), named("GRH"), header(random)]),
            1..=9 => types.push(header(random)),
            _ => types.push(named(random.of(&["TER", "IND", "XRF", "SWT", "OWT"]))),
        }
    }
    types.extend([named("GRT"), named("TRL")]);
    write(&types, random)
}

/// The most groups there can be: HDR, 43,690 times GRH, header, GRT, and TRL.
fn of_groups(random: &mut Random) -> Vec<Vec<u8>> {
    let mut types = vec![named("HDR")];
    for _ in 0..43_690 {
        types.extend([named("GRH"), header(random), named("GRT")]);
    }
    types.push(named("TRL"));
    assert_eq!(types.len(), MOST_RECORDS);
    write(&types, random)
}

/// The most details there can be in one transaction.
fn of_details(random: &mut Random) -> Vec<Vec<u8>> {
    let mut types = vec![named("HDR"), named("GRH"), header(random)];
    types.extend((0..131_067).map(|_| named(random.of(&["TER", "IND", "XRF"]))));
    types.extend([named("GRT"), named("TRL")]);
    assert_eq!(types.len(), MOST_RECORDS);
    write(&types, random)
}

/// One transaction of E publishers, all of one chain: so many with this share
/// of each right.
fn of_publishers(shares: &[(usize, usize)]) -> Vec<Vec<u8>> {
    let mut work = works::plain_work();
    for &(number, share) in shares {
        let publisher = works::publisher("SPU", "E ", [share; 3]);
        work.splice(1..1, vec![publisher; number]);
    }
    works::file("NWR", vec![work])
}

/// One transaction of writers: so many with this share of each right.
fn of_writers(shares: &[(usize, usize)]) -> Vec<Vec<u8>> {
    let mut work = works::plain_work();
    let writer = work.pop().expect("a writer");
    for &(number, share) in shares {
        let mut writer = writer.clone();
        works::set_shares(&mut writer, [share; 3]);
        work.extend(vec![writer; number]);
    }
    works::file("NWR", vec![work])
}

/// One transaction of other writers: so many that claim this share of MR in one
/// territory; without one they claim nothing.
fn of_parties(shares: &[(usize, &str)]) -> Vec<Vec<u8>> {
    let mut work = works::plain_work();
    for &(number, share) in shares {
        let mut party = vec![works::writer("OWR", "C ", [0; 3])];
        if !share.is_empty() {
            let mut claim = claims::claim("OWT", "I", b"0276", [0; 3]);
            put(&mut claim, 34, share);
            party.push(claim);
        }
        work.extend(std::iter::repeat_n(party, number).flatten());
    }
    works::file("NWR", vec![work])
}

/// One transaction of a party with so many claims, of which the last are over.
fn of_claims(number: usize, random: &mut Random) -> Vec<Vec<u8>> {
    let mut work = works::plain_work();
    for at in 0..number {
        let code = random.of(&[b"0840", b"2136", b"0276", b"9999"]);
        let share = if at + 40 < number { 1 } else { 10_007 };
        work.push(claims::claim("SWT", "I", code, [share, 0, 0]));
    }
    works::file("NWR", vec![work])
}
