//! The tolerance that a call has by itself: none in the short form of the check,
//! 6 in the listing program and on the sheet (M-104).

use super::*;

type Work = Vec<Vec<u8>>;

/// A work of these publishers and writers; PR, MR and SR of each.
fn owned(publishers: &[[u32; 3]], writers: &[[u32; 3]]) -> Work {
    let mut work = vec![nwr("")];
    for (chain, &shares) in (1..).zip(publishers) {
        let number = format!("{chain:02}");
        work.push(publisher("OPU", shares, &[(20, &number)]));
    }
    work.extend(writers.iter().map(|&shares| writer("SWR", shares, &[])));
    work
}

/// Works of which one total is so far off: what it is, and the findings that
/// this brings where the tolerance is less.
fn works(off: u32) -> Vec<(String, &'static [u32], Work)> {
    let mut works: Vec<(String, &'static [u32], Work)> = vec![
        (
            "publishers' PR over half, the writer has the rest".to_string(),
            &[1, 2],
            owned(
                &[[3_000 + off, 0, 0], [2_000, 0, 0]],
                &[[5_000 - off, 0, 0]],
            ),
        ),
        (
            "publishers' PR over half, the writer has half".to_string(),
            &[1, 3],
            owned(&[[3_000 + off, 0, 0], [2_000, 0, 0]], &[[5_000, 0, 0]]),
        ),
        (
            "writers' PR under half".to_string(),
            &[2, 3],
            owned(&[[5_000, 0, 0]], &[[3_000 - off, 0, 0], [2_000, 0, 0]]),
        ),
    ];
    for (right, name) in ["PR", "MR", "SR"].into_iter().enumerate() {
        let of = |share: u32| {
            let mut shares = [0; 3];
            shares[right] = share;
            shares
        };
        if name != "PR" {
            works.push((
                format!("publishers' {name} over all"),
                &[1, 3],
                owned(&[of(6_000 + off), of(4_000)], &[of(0)]),
            ));
        }
        works.push((
            format!("writers' {name} over all"),
            &[2, 3],
            owned(&[], &[of(6_000 + off), of(4_000)]),
        ));
        works.push((
            format!("{name} of both over all"),
            &[3],
            owned(&[of(4_000)], &[of(6_000 + off)]),
        ));
        works.push((
            format!("{name} of both under all"),
            &[3],
            owned(&[of(4_000)], &[of(6_000 - off)]),
        ));
        works.push((
            format!("{name} of one writer under all"),
            &[3],
            owned(&[], &[of(10_000 - off)]),
        ));
    }
    works
}

fn numbered(work: &[Vec<u8>]) -> Vec<u8> {
    let unnumbered = join(&file_of(work));
    let mut file = vec![0; unnumbered.len()];
    let answer = numbering(&unnumbered, &mut file);
    assert_eq!(answer, passes(1, 1, work.len() as u64 + 4));
    file
}

/// The findings of a work's records by the short form.
fn judge_short(work: &[Vec<u8>]) -> Vec<Vec<u32>> {
    let records = work.len() + 4;
    let (mut verdicts, mut findings) = (vec![9; records], vec![9; 8 * records]);
    let answer = check_short(&numbered(work), &TABLES, &mut verdicts, &mut findings);
    assert_eq!(answer, passes(1, 1, records as u64));
    let set = |set: &[u8]| {
        let set = u64::from_le_bytes(set.try_into().unwrap());
        (0..64).filter(|n| set >> n & 1 == 1).collect()
    };
    findings[16..8 * (records - 2)].chunks(8).map(set).collect()
}

/// These findings on the header, and none on the details.
fn on_header(findings: &[u32], work: &[Vec<u8>]) -> Vec<Vec<u32>> {
    let mut all = vec![vec![]; work.len()];
    all[0] = findings.to_vec();
    all
}

/// The listing and the sheet of a work that has these findings on its header.
fn listed_and_counted(findings: &[u32], work: &[Vec<u8>]) {
    let (file, verdict) = (numbered(work), if findings.is_empty() { 0 } else { 3 });
    let lowest = findings.first().map_or("-".to_string(), u32::to_string);
    let line = format!("\n2 NWR {verdict} {} {lowest}\n", findings.len());
    let text = String::from_utf8(listing(&file)).unwrap();
    assert!(text.contains(&line), "{line}{text}");
    let mut sheet = vec![0; 664];
    sheet_add(&mut sheet, &file, &TABLES);
    let number = |at: usize| u64::from_le_bytes(sheet[8 * at..8 * at + 8].try_into().unwrap());
    for finding in 0..64 {
        let records = u64::from(findings.contains(&finding));
        assert_eq!(number(14 + finding as usize), records, "{finding}: {text}");
    }
    let rejected = if findings.is_empty() { 0 } else { work.len() };
    assert_eq!(number(78 + 3), rejected as u64, "{text}");
}

/// The short form finds it and 0 does; with the largest tolerance nothing is.
#[test]
fn one_hundredth_off() {
    let mut found = [0; 4];
    for (what, findings, work) in works(1) {
        assert_eq!(judge_short(&work), on_header(findings, &work), "{what}");
        assert_eq!(judge_within(0, &work), on_header(findings, &work), "{what}");
        assert_eq!(judge_within(6, &work), on_header(&[], &work), "{what}");
        listed_and_counted(&[], &work);
        findings.iter().for_each(|&n| found[n as usize] += 1);
    }
    assert_eq!(found, [0, 4, 5, 16]);
}

#[test]
fn exactly_full() {
    for (what, _, work) in works(0) {
        let none = on_header(&[], &work);
        assert_eq!(judge_short(&work), none, "{what}");
        for tolerance in 0..=6 {
            assert_eq!(judge_within(tolerance, &work), none, "{what}");
        }
        listed_and_counted(&[], &work);
    }
}

/// Off by up to 7: the short form finds all of it, the listing and the sheet let
/// 6 through and not 7, and the check what its tolerance says.
#[test]
fn off_by_more() {
    for off in 1..=7 {
        for (what, findings, work) in works(off) {
            let of = |tolerance: u32| if off > tolerance { findings } else { &[] };
            assert_eq!(judge_short(&work), on_header(findings, &work), "{what}");
            for tolerance in 0..=6 {
                let judged = judge_within(tolerance.into(), &work);
                let expected = on_header(of(tolerance), &work);
                assert_eq!(judged, expected, "{what}, {off}, {tolerance}");
            }
            listed_and_counted(of(6), &work);
        }
    }
}

/// The zero of finding 2 has the tolerance, that of 3 none.
#[test]
fn writers_with_next_to_nothing() {
    for pr in 0..=7 {
        let work = owned(&[], &[[pr, 0, 0]]);
        let of = |tolerance: u32| match pr {
            0 => &[][..],
            _ if pr > tolerance => &[2, 3],
            _ => &[3],
        };
        assert_eq!(judge_short(&work), on_header(of(0), &work), "{pr}");
        for tolerance in 0..=6 {
            let judged = judge_within(tolerance.into(), &work);
            assert_eq!(judged, on_header(of(tolerance), &work), "{pr}, {tolerance}");
        }
        listed_and_counted(of(6), &work);
    }
}

/// What is lent is refused from 2 on, whatever the file.
#[test]
fn refusals_of_the_short_form() {
    let wrong = Tables {
        languages: b"E",
        ..TABLES
    };
    let short = |file: &[u8], tables: &Tables, room: usize| {
        let (mut verdicts, mut findings) = (vec![9; room], vec![9; 8 * room]);
        let answer = check_short(file, tables, &mut verdicts, &mut findings);
        let written = verdicts.iter().chain(&findings).any(|&byte| byte != 9);
        assert_eq!(written, matches!(answer, Answer::Passed { .. }));
        answer
    };
    let off = numbered(&owned(&[], &[[9_999; 3]]));
    for file in [&file_a()[..], &off, b"", b"X"] {
        assert_eq!(short(file, &wrong, 6), refusal(2, 0));
        assert_eq!(short(file, &wrong, 0), refusal(2, 0));
    }
    for file in [&file_a()[..], &off] {
        assert_eq!(short(file, &TABLES, 6), passes(1, 1, 6));
        assert_eq!(short(file, &TABLES, 5), refusal(11, 0));
    }
    assert_eq!(short(b"", &TABLES, 0), refusal(7, 0));
    assert_eq!(short(b"X", &TABLES, 0), refusal(4, 0));
}
