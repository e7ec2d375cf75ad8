//! The first work to look at.

use super::*;
use First::{At, None as Nothing};

type Work = Vec<Vec<u8>>;

/// The records of a file of these groups, not numbered yet.
fn groups(groups: &[&[&Work]]) -> Vec<Vec<u8>> {
    let mut records = vec![hdr()];
    for works in groups {
        records.push(grh(""));
        records.extend(works.iter().flat_map(|work| work.iter().cloned()));
        records.push(grt(""));
    }
    records.push(trl(""));
    records
}

/// The same, rightly numbered and as one.
fn numbered(records: &[Vec<u8>]) -> Vec<u8> {
    let unnumbered = join(records);
    let mut file = vec![0; unnumbered.len()];
    assert!(matches!(
        numbering(&unnumbered, &mut file),
        Answer::Passed { .. }
    ));
    file
}

fn within(tolerance: u64, records: &[Vec<u8>]) -> First {
    first_rejected(tolerance, &numbered(records), &TABLES)
}

fn first(of: &[&[&Work]]) -> First {
    within(6, &groups(of))
}

/// The verdicts of these groups' records.
fn verdicts(of: &[&[&Work]]) -> Vec<u8> {
    judge_all(&groups(of), &TABLES, 6).verdicts
}

fn good() -> Work {
    vec![nwr(""), swr("")]
}

/// TR on the header alone.
fn bad_header() -> Work {
    let work = vec![header(&[(20, " ")]), swr("")];
    assert_eq!(judge(&work), [vec![16], vec![]]);
    work
}

/// TR on the detail alone.
fn bad_detail() -> Work {
    let work = vec![nwr(""), over(swr(""), &[(20, " ")])];
    assert_eq!(judge(&work), [vec![], vec![42]]);
    work
}

/// GR, and nothing else.
fn other_type() -> Work {
    let work = vec![over(nwr(""), &[(1, "REV")]), swr("")];
    assert_eq!(judge(&work), [vec![0], vec![]]);
    work
}

#[test]
fn nothing_to_look_at() {
    let good = good();
    assert_eq!(first_rejected(6, &file_a(), &TABLES), Nothing);
    assert_eq!(first(&[&[&good]]), Nothing);
    assert_eq!(
        first(&[&[&good, &good], &[&good], &[&good, &good, &good]]),
        Nothing
    );
    // The number that stands for it, which no transaction has.
    assert_eq!(Nothing.packed(), (1 << 32) - 1);
    assert_eq!(At(0).packed(), 0);
    assert_eq!(At(7).packed(), 7);
    let refused = First::Refused {
        number: 7,
        place: 3,
    };
    assert_eq!(refused.packed(), 0x7_0000_0003);
}

#[test]
fn counted_over_the_whole_file() {
    let (good, bad) = (good(), bad_header());
    // First of the second group, second of it, alone in the third.
    assert_eq!(first(&[&[&good, &good], &[&bad, &good]]), At(2));
    assert_eq!(first(&[&[&good, &good], &[&good, &bad, &good]]), At(3));
    assert_eq!(
        first(&[&[&good, &good], &[&good, &good, &good], &[&bad]]),
        At(5)
    );
    // Not the number that stands in its prefix.
    let records = groups(&[&[&good, &good], &[&good, &bad]]);
    let file = numbered(&records);
    let prefix = file
        .split(|&byte| byte == b'\n')
        .filter(|line| line.starts_with(b"NWR"))
        .nth(3)
        .unwrap();
    assert_eq!(&prefix[3..11], b"00000001");
    assert_eq!(first_rejected(6, &file, &TABLES), At(3));
}

#[test]
fn each_place_in_a_file() {
    let sizes = [2, 3, 1, 2];
    for bad in [bad_header(), bad_detail(), other_type()] {
        for at in 0..8 {
            let good = good();
            let mut works = [&good; 8];
            works[at] = &bad;
            let mut left = &works[..];
            let of: Vec<&[&Work]> = sizes
                .map(|size| {
                    let group;
                    (group, left) = left.split_at(size);
                    group
                })
                .to_vec();
            assert_eq!(first(&of), At(at as u64));
        }
    }
}

#[test]
fn lesser_levels_name_none() {
    let rec = |parts: &[(usize, &str)]| {
        let rec = over(detail("REC"), &[(20, "00000000"), (88, "000000")]);
        over(rec, parts)
    };
    let opu = |parts: &[(usize, &str)]| vec![nwr(""), publisher("OPU", [0; 3], parts), swr("")];
    let also = |detail: Vec<u8>| vec![nwr(""), swr(""), detail];
    // Each FR and each RR finding by itself.
    let works: Vec<(u32, Work)> = vec![
        (19, vec![header(&[(96, "T0345246802")]), swr("")]),
        (20, vec![header(&[(107, "20231301")]), swr("")]),
        (23, vec![header(&[(130, "000060")]), swr("")]),
        (24, also(detail("TER"))),
        (33, opu(&[(76, "X")])),
        (34, opu(&[(76, "Y")])),
        (35, opu(&[(77, "XX")])),
        (36, opu(&[(113, "999")])),
        (37, opu(&[(79, "12345678X")])),
        (40, {
            let other = writer("OWR", [0; 3], &[(105, "XX")]);
            also(other)
        }),
        (43, also(detail("EWT"))),
        (44, also(rec(&[]))),
        (45, also(rec(&[(20, "19000229"), (99, "A")]))),
        (46, also(rec(&[(88, "000060"), (99, "A")]))),
    ];
    let good = good();
    let mut all = Vec::new();
    for (finding, work) in &works {
        let set: Vec<u32> = judge(work).concat();
        assert_eq!(set, [*finding]);
        assert_eq!(first(&[&[work]]), Nothing, "{finding}");
        assert_eq!(first(&[&[&good, work], &[work]]), Nothing, "{finding}");
        // And they hide none that comes later.
        let bad = bad_detail();
        assert_eq!(first(&[&[work, &good], &[work, &bad]]), At(3), "{finding}");
        all.push(work);
    }
    assert_eq!(first(&[&all]), Nothing);
    // All of them, so every other one of 0 to 46 is TR or GR.
    assert_eq!(works.len(), 47 - 33);
}

#[test]
fn what_falls_with_its_group() {
    let (good, other) = (good(), other_type());
    // All of the group is rejected, but one alone has the finding.
    let of: &[&[&Work]] = &[&[&good], &[&good, &good, &other, &good]];
    assert_eq!(
        verdicts(of),
        [0, 0, 0, 0, 0, 4, 4, 4, 4, 4, 4, 4, 4, 4, 4, 0]
    );
    assert_eq!(first(of), At(3));
    // Nor one after it, and one before only for a finding of its own.
    assert_eq!(first(&[&[&other, &good, &bad_header()]]), At(0));
    assert_eq!(first(&[&[&good, &bad_header(), &other]]), At(1));
    assert_eq!(first(&[&[&good, &other, &bad_header()]]), At(1));
    let lesser = vec![header(&[(96, "X")]), detail("TER"), swr("")];
    assert_eq!(first(&[&[&lesser, &good, &other]]), At(2));
    // An unknown type of group: all of its headers have it, the first is named.
    let mut records = groups(&[&[&good, &good], &[&good, &good]]);
    assert_eq!(records[7], grh(""));
    records[7] = over(grh(""), &[(4, "XXX")]);
    assert_eq!(within(6, &records), At(2));
    // REV in a group of REV is right, and NWR there is not.
    let mut records = groups(&[&[&good], &[&other, &good]]);
    assert_eq!(records[5], grh(""));
    records[5] = over(grh(""), &[(4, "REV")]);
    assert_eq!(within(6, &records), At(2));
}

#[test]
fn a_header_or_a_detail_alone() {
    let good = good();
    assert_eq!(first(&[&[&good, &bad_header()]]), At(1));
    assert_eq!(first(&[&[&good, &bad_detail()]]), At(1));
    // A header without details, and the last of several details.
    assert_eq!(first(&[&[&good, &vec![nwr("")]]]), At(1));
    let mut last = good.clone();
    last.push(writer("SWR", [0; 3], &[(105, "XX")]));
    assert_eq!(judge(&last), [vec![], vec![], vec![39]]);
    assert_eq!(first(&[&[&good, &last, &good]]), At(1));
    // Beside others of a lesser level, before it and after, in number too.
    let mixed = vec![
        header(&[(96, "X"), (127, "XXX")]),
        detail("TER"),
        swr(""),
        detail("PER"),
    ];
    assert_eq!(judge(&mixed), [vec![19, 21], vec![24], vec![], vec![43]]);
    assert_eq!(first(&[&[&good], &[&mixed]]), At(1));
    let mixed = vec![header(&[(20, " "), (96, "X")]), swr("")];
    assert_eq!(judge(&mixed), [vec![16, 19], vec![]]);
    assert_eq!(first(&[&[&good], &[&mixed]]), At(1));
}

#[test]
fn the_first_of_several() {
    let (good, header, detail, other) = (good(), bad_header(), bad_detail(), other_type());
    for (one, two) in [
        (&header, &detail),
        (&detail, &header),
        (&detail, &other),
        (&other, &detail),
        (&other, &other),
        (&header, &header),
    ] {
        assert_eq!(first(&[&[one, two]]), At(0));
        assert_eq!(first(&[&[&good, one, &good, two]]), At(1));
        assert_eq!(first(&[&[&good, &good], &[one, &good], &[two, two]]), At(2));
        assert_eq!(first(&[&[one], &[two]]), At(0));
    }
}

#[test]
fn each_refusal() {
    let (good, bad) = (good(), bad_header());
    let right = {
        let file = numbered(&groups(&[&[&bad, &good], &[&good]]));
        file.split_inclusive(|&byte| byte == b'\n')
            .map(|line| line[..line.len() - 2].to_vec())
            .collect::<Vec<_>>()
    };
    assert_eq!(first_rejected(6, &join(&right), &TABLES), At(0));
    let refused = |number, place| First::Refused { number, place };
    // What is lent besides the file, with it and without.
    for file in [&join(&right)[..], b"", b"X"] {
        assert_eq!(first_rejected(7, file, &TABLES), refused(1, 0));
        assert_eq!(first_rejected(u64::MAX, file, &TABLES), refused(1, 0));
        for place in 0..3 {
            let mut tables = TABLES;
            let table = [
                &mut tables.languages,
                &mut tables.societies,
                &mut tables.categories,
            ];
            *table.into_iter().nth(place).unwrap() = b"1234567";
            assert_eq!(first_rejected(6, file, &tables), refused(2, place as u32));
            assert_eq!(first_rejected(7, file, &tables), refused(1, 0));
        }
    }
    let with = |change: &dyn Fn(&mut Vec<Vec<u8>>)| {
        let mut records = right.clone();
        change(&mut records);
        first_rejected(6, &join(&records), &TABLES)
    };
    // Each though a transaction that is to be looked at stands before.
    let mut large = join(&right);
    large.resize(16_777_217, b' ');
    assert_eq!(first_rejected(6, &large, &TABLES), refused(3, 0));
    large.truncate(16_777_216);
    assert_eq!(first_rejected(6, &large, &TABLES), refused(4, 12));
    assert_eq!(with(&|records| records[9][40] = 9), refused(4, 9));
    let mut lines = join(&right);
    lines.extend(b"\r\n".repeat(131_072));
    assert_eq!(first_rejected(6, &lines, &TABLES), refused(5, 131_072));
    assert_eq!(with(&|records| records[9].push(b' ')), refused(6, 9));
    assert_eq!(
        with(&|records| records[8][..3].copy_from_slice(b"ISW")),
        refused(6, 8)
    );
    assert_eq!(with(&|records| records.swap(10, 11)), refused(7, 10));
    assert_eq!(with(&|records| drop(records.pop())), refused(7, 11));
    assert_eq!(first_rejected(6, b"", &TABLES), refused(7, 0));
    assert_eq!(with(&|records| records[9][18] = b'2'), refused(8, 9));
    assert_eq!(with(&|records| records[10][23] = b'9'), refused(9, 10));
    assert_eq!(with(&|records| records[0][101] = b'3'), refused(10, 0));
    // In their order.
    assert_eq!(
        with(&|records| {
            records[0][101] = b'3';
            records[10][23] = b'9';
        }),
        refused(9, 10)
    );
    assert_eq!(
        with(&|records| {
            records[6][23] = b'9';
            records[9][18] = b'2';
        }),
        refused(8, 9)
    );
    assert_eq!(
        with(&|records| {
            records.swap(3, 6);
            records[9].push(b' ');
        }),
        refused(6, 9)
    );
    // As the check, with room enough and without; 11 is the check's alone.
    let file = join(&right);
    assert_eq!(
        check(6, &file, &TABLES, &mut [0; 11], &mut [0; 96]),
        refusal(11, 0)
    );
    assert_eq!(first_rejected(6, &file, &TABLES), At(0));
}

#[test]
fn tolerances() {
    let good = good();
    for off in 0..=8u32 {
        let short = vec![nwr(""), writer("SWR", [10_000 - off; 3], &[])];
        let over = vec![
            nwr(""),
            publisher("SPU", [5_000, 0, 0], &[]),
            writer("SWR", [5_000 + off, 10_000, 10_000], &[]),
        ];
        for work in [short, over] {
            let records = groups(&[&[&good], &[&good, &work]]);
            for tolerance in 0..=6 {
                let expected = match u64::from(off) > tolerance {
                    true => At(2),
                    false => Nothing,
                };
                assert_eq!(within(tolerance, &records), expected, "{off}, {tolerance}");
            }
            let refused = First::Refused {
                number: 1,
                place: 0,
            };
            for tolerance in [7, 8, 262, 1 << 32, (1 << 32) + 6, u64::MAX] {
                assert_eq!(within(tolerance, &records), refused);
            }
        }
    }
}

/// The lent tables decide, as in the check.
#[test]
fn tables() {
    let records = groups(&[&[&good(), &vec![header(&[(80, "EN"), (127, "JAZ")]), swr("")]]]);
    let with = |languages, categories| {
        let tables = Tables {
            languages,
            categories,
            ..TABLES
        };
        first_rejected(6, &numbered(&records), &tables)
    };
    assert_eq!(with(b"DEEN", b"JAZPOP"), Nothing);
    assert_eq!(with(b"DEFR", b"JAZPOP"), At(1));
    assert_eq!(with(b"", b"JAZPOP"), At(1));
    assert_eq!(with(b"EN", b"POP"), At(1));
    assert_eq!(with(b"EN", b"JAZ"), At(0));
    assert_eq!(with(b"EN", b""), At(0));
}
