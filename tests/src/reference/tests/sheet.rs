//! The client's catalogue sheet.

use super::*;
use crate::generate::{case, seeds, spread};
use crate::reference::sheet::{judge, Sheet, BYTES};

/// The numbers of a sheet.
fn numbers(sheet: &[u8]) -> Vec<u64> {
    let number = |bytes: &[u8]| u64::from_le_bytes(bytes.try_into().unwrap());
    sheet.chunks_exact(8).map(number).collect()
}

/// A sheet of zeros but for these numbers.
fn sheet_of(some: &[(usize, u64)]) -> Vec<u8> {
    let mut sheet = vec![0; 664];
    for &(at, number) in some {
        sheet[8 * at..8 * at + 8].copy_from_slice(&number.to_le_bytes());
    }
    sheet
}

/// The places of the first findings' and verdicts' numbers.
const FINDING: usize = 14;
const VERDICT: usize = 78;

/// The fresh sheet with these records' file, numbered, on it.
fn sheet_with(records: &[Vec<u8>]) -> Vec<u8> {
    let mut sheet = vec![0; 664];
    let answer = sheet_add(&mut sheet, &numbered(records), &TABLES);
    assert_eq!(answer.packed(), records.len() as u64);
    sheet
}

fn numbered(records: &[Vec<u8>]) -> Vec<u8> {
    let unnumbered = join(records);
    let mut file = vec![0; unnumbered.len()];
    numbering(&unnumbered, &mut file);
    file
}

/// The figures of PR, MR and SR for works whose one writer has these shares:
/// misses, shortfall, excess, differences.
fn rights(works: &[[u32; 3]]) -> [[i64; 4]; 3] {
    let work = |&shares: &[u32; 3]| [nwr(""), writer("SWR", shares, &[])];
    let works: Vec<Vec<u8>> = works.iter().flat_map(work).collect();
    figures(&sheet_with(&file_of(&works)))
}

fn figures(sheet: &[u8]) -> [[i64; 4]; 3] {
    let numbers = numbers(sheet);
    [2, 6, 10].map(|at| [0, 1, 2, 3].map(|figure| numbers[at + figure] as i64))
}

const NONE: [i64; 4] = [0; 4];

#[test]
fn file_a_on_a_fresh_sheet() {
    let mut sheet = vec![0; 664];
    assert_eq!(sheet_add(&mut sheet, &file_a(), &TABLES), passes(1, 1, 6));
    assert_eq!(sheet, sheet_of(&[(0, 1), (VERDICT, 6)]));
    assert_eq!(sheet_add(&mut sheet, &file_a(), &TABLES), passes(1, 1, 6));
    assert_eq!(sheet, sheet_of(&[(0, 2), (VERDICT, 12)]));
    assert_eq!(BYTES, 664);
}

/// A refused file is counted, and nothing of it.
#[test]
fn refused_files() {
    let mut sheet = vec![0; 664];
    let add = |sheet: &mut Vec<u8>, file: &[u8], tables: &Tables| sheet_add(sheet, file, tables);
    assert_eq!(add(&mut sheet, b"", &TABLES), refusal(7, 0));
    assert_eq!(sheet, sheet_of(&[(0, 1), (1, 1)]));
    // Each refusal of the check but 1 and 11.
    let with = |change: &dyn Fn(&mut Vec<Vec<u8>>)| {
        let mut records = records_a();
        change(&mut records);
        join(&records)
    };
    let wrong = Tables {
        categories: b"POPX",
        ..TABLES
    };
    let refused = [
        (refusal(2, 2), file_a(), wrong),
        (refusal(3, 0), vec![b' '; 16_777_217], TABLES),
        (refusal(4, 3), with(&|records| records[3][50] = 9), TABLES),
        (refusal(5, 131_072), b"\r\n".repeat(131_073), TABLES),
        (
            refusal(6, 2),
            with(&|records| records[2].push(b' ')),
            TABLES,
        ),
        (refusal(7, 5), with(&|records| drop(records.pop())), TABLES),
        (
            refusal(8, 3),
            with(&|records| records[3][18] = b'7'),
            TABLES,
        ),
        (
            refusal(9, 4),
            with(&|records| records[4][23] = b'7'),
            TABLES,
        ),
        (
            refusal(10, 0),
            with(&|records| records[0][101] = b'3'),
            TABLES,
        ),
    ];
    for (number, (answer, file, tables)) in (2..).zip(refused) {
        assert_eq!(add(&mut sheet, &file, &tables), answer);
        assert_eq!(sheet, sheet_of(&[(0, number), (1, number)]));
    }
    assert_eq!(add(&mut sheet, &file_a(), &TABLES), passes(1, 1, 6));
    assert_eq!(sheet, sheet_of(&[(0, 11), (1, 10), (VERDICT, 6)]));
}

#[test]
fn figures_of_a_right() {
    // Neither the full share nor exactly nothing; of each right by itself.
    assert_eq!(rights(&[[10_000; 3], [0; 3]]), [NONE; 3]);
    assert_eq!(rights(&[[9_999, 10_000, 0]]), [[1, 1, 0, -1], NONE, NONE]);
    assert_eq!(
        rights(&[[10_000, 10_001, 1]]),
        [NONE, [1, 0, 1, 1], [1, 9_999, 0, -9_999]]
    );
    // The tolerance has no part in it.
    for off in 0..=8 {
        let misses = i64::from(off > 0);
        let difference = i64::from(off);
        assert_eq!(
            rights(&[[10_000 - off, 10_000 + off, off]]),
            [
                [misses, difference, 0, -difference],
                [misses, 0, difference, difference],
                match off {
                    0 => NONE,
                    _ => [1, 10_000 - difference, 0, difference - 10_000],
                }
            ],
        );
    }
    // The largest of several, wherever it stands, and the sum of both signs.
    assert_eq!(
        rights(&[
            [9_000, 99_999, 10_000],
            [8_500, 10_010, 0],
            [12_000, 20_000, 10_000],
            [9_990, 10_000, 0],
            [10_500, 10_001, 4_000],
        ]),
        [
            [5, 1_500, 2_000, -1_000 - 1_500 + 2_000 - 10 + 500],
            [4, 0, 89_999, 89_999 + 10 + 10_000 + 1],
            [1, 6_000, 0, -6_000],
        ]
    );
}

#[test]
fn totals_of_all_four_kinds() {
    let works = [
        nwr(""),
        publisher("SPU", [1, 20, 300], &[]),
        publisher("OPU", [2, 40, 600], &[]),
        writer("SWR", [4, 80, 1_200], &[]),
        writer("OWR", [8, 160, 2_400], &[]),
    ];
    assert_eq!(
        figures(&sheet_with(&file_of(&works))),
        [
            [1, 9_985, 0, -9_985],
            [1, 9_700, 0, -9_700],
            [1, 5_500, 0, -5_500]
        ]
    );
    // Five digits beyond a limit count in full, others nothing; whatever the
    // record's other findings.
    let works = [
        nwr(""),
        publisher("SPU", [99_999, 0, 0], &[(77, "XX"), (124, " 5000")]),
        writer("SWR", [10_000; 3], &[(138, "1000A"), (29, " ")]),
        writer("OWR", [0, 0, 1], &[(130, "     ")]),
    ];
    assert_eq!(
        figures(&sheet_with(&file_of(&works))),
        [[1, 0, 99_999, 99_999], NONE, [1, 0, 1, 1]]
    );
    // In more than sixteen bits.
    let mut work = vec![nwr("")];
    work.extend(vec![writer("SWR", [10_000; 3], &[]); 7]);
    work.push(writer("SWR", [5_536; 3], &[]));
    assert_eq!(
        figures(&sheet_with(&file_of(&work))),
        [[1, 0, 65_536, 65_536]; 3]
    );
}

/// Rejected transactions and groups are among them, and every record.
#[test]
fn records_of_all_verdicts() {
    let good = [nwr(""), swr("")];
    let lesser = [
        header(&[(96, "X")]),
        detail("TER"),
        writer("SWR", [9_994; 3], &[]),
        detail("MSG"),
    ];
    let bad = [
        header(&[(20, " ")]),
        writer("SWR", [9_000; 3], &[]),
        detail("TER"),
    ];
    let mut records = file_of(&[&good[..], &lesser, &bad].concat());
    let other = [
        over(nwr(""), &[(1, "REV")]),
        writer("SWR", [10_000, 0, 10_005], &[]),
    ];
    let end = records.len() - 1;
    let group = [&[grh("")][..], &good, &other, &[grt("")]].concat();
    records.splice(end..end, group);
    let judged = judge_all(&records, &TABLES, 6);
    assert_eq!(
        judged.verdicts,
        [0, 0, 0, 0, 1, 2, 0, 2, 3, 3, 3, 0, 4, 4, 4, 4, 4, 4, 0]
    );
    let sheet = sheet_with(&records);
    let mut expected = sheet_of(&[
        (0, 1),
        (FINDING, 1),
        (FINDING + 3, 1),
        (FINDING + 16, 1),
        (FINDING + 19, 1),
        (FINDING + 24, 3),
        (FINDING + 41, 1),
        (VERDICT, 7),
        (VERDICT + 1, 1),
        (VERDICT + 2, 2),
        (VERDICT + 3, 3),
        (VERDICT + 4, 6),
    ]);
    // Figures of all of them: 9994, 9000, and SR 10005 of the group that falls.
    let rights = [
        [2, 1_000, 0, -1_006],
        [2, 1_000, 0, -1_006],
        [3, 1_000, 5, -1_001],
    ];
    for (right, figures) in rights.into_iter().enumerate() {
        for (figure, number) in figures.into_iter().enumerate() {
            let at = 8 * (2 + 4 * right + figure);
            expected[at..at + 8].copy_from_slice(&i64::to_le_bytes(number));
        }
    }
    assert_eq!(numbers(&sheet), numbers(&expected));
}

/// Its check has the tables that are lent. Its tolerance stands with that of the
/// short form.
#[test]
fn checks_with_the_lent_tables() {
    let tables = Tables {
        categories: b"JAZ",
        ..TABLES
    };
    let mut sheet = vec![0; 664];
    sheet_add(&mut sheet, &file_a(), &tables);
    let expected = [(0, 1), (FINDING + 21, 1), (VERDICT, 4), (VERDICT + 3, 2)];
    assert_eq!(sheet, sheet_of(&expected));
}

#[test]
fn full_and_too_short() {
    let wrong = Tables {
        languages: b"E",
        ..TABLES
    };
    // The 4,096th file is taken, passed or refused.
    for (file, answer, refused) in [(file_a(), passes(1, 1, 6), 0), (vec![], refusal(7, 0), 1)] {
        let mut sheet = sheet_of(&[(0, 4_095)]);
        assert_eq!(sheet_add(&mut sheet, &file, &TABLES), answer);
        assert_eq!(numbers(&sheet)[..2], [4_096, refused]);
    }
    // Then none, whatever it is, and nothing changes.
    for files in [4_096, 4_097, 1 << 32, 1 << 63, u64::MAX] {
        let full = sheet_of(&[(0, files), (7, 3), (82, 9)]);
        for (file, tables) in [(file_a(), TABLES), (vec![], TABLES), (file_a(), wrong)] {
            let mut sheet = full.clone();
            assert_eq!(sheet_add(&mut sheet, &file, &tables), refusal(12, 0));
            assert_eq!(sheet, full);
            // Too short comes first.
            let mut short = full[..663].to_vec();
            assert_eq!(sheet_add(&mut short, &file, &tables), refusal(11, 0));
            assert_eq!(short, full[..663]);
        }
    }
    for length in [0, 1, 7, 8, 100, 656, 663] {
        let mut sheet = vec![0; length];
        for (file, tables) in [(file_a(), TABLES), (vec![], TABLES), (file_a(), wrong)] {
            assert_eq!(sheet_add(&mut sheet, &file, &tables), refusal(11, 0));
            assert_eq!(sheet, vec![0; length]);
        }
    }
    // Bytes beyond stay.
    let mut sheet = vec![0; 664];
    sheet.extend([9; 96]);
    assert_eq!(sheet_add(&mut sheet, &file_a(), &TABLES), passes(1, 1, 6));
    assert_eq!(sheet[..664], sheet_of(&[(0, 1), (VERDICT, 6)]));
    assert_eq!(sheet[664..], [9; 96]);
}

/// What no calls have made: sums stop, a largest is the larger of the two.
#[test]
fn sheets_of_any_numbers() {
    const LEAST: u64 = 1 << 63;
    let short = file_of(&[nwr(""), writer("SWR", [9_000, 10_000, 9_990], &[])]);
    let added = |number: usize, before: u64| {
        let mut sheet = sheet_of(&[(number, before)]);
        sheet_add(&mut sheet, &numbered(&short), &TABLES);
        numbers(&sheet)[number]
    };
    // Misses, finding 3 and verdict 0 once, four times.
    for (number, more) in [(2, 1), (6, 0), (10, 1), (FINDING + 3, 1), (VERDICT, 4)] {
        assert_eq!(added(number, 5), 5 + more);
        assert_eq!(added(number, u64::MAX - more), u64::MAX);
        assert_eq!(added(number, u64::MAX), u64::MAX);
        if more > 0 {
            assert_eq!(added(number, u64::MAX - more - 1), u64::MAX - 1);
            assert_eq!(added(number, u64::MAX - more + 1), u64::MAX);
        }
    }
    // The largest shortfall.
    for (before, after) in [(999, 1_000), (1_000, 1_000), (1_001, 1_001)] {
        assert_eq!(added(3, before), after);
    }
    assert_eq!((added(3, LEAST), added(3, u64::MAX)), (LEAST, u64::MAX));
    assert_eq!((added(4, 7), added(7, 7)), (7, 7));
    // The sum of the differences, -1000 more.
    for (before, after) in [
        (1_000, 0),
        (0, 1_000u64.wrapping_neg()),
        (LEAST, LEAST),
        (LEAST + 999, LEAST),
        (LEAST + 1_000, LEAST),
        (LEAST + 1_001, LEAST + 1),
        (LEAST - 1, LEAST - 1_001),
    ] {
        assert_eq!(added(5, before), after, "{before:#x}");
    }
    // And 2000 more, by the file's figure: once 3000 over, once 1000 short.
    let works = [
        [nwr(""), writer("SWR", [13_000, 10_000, 10_000], &[])],
        [nwr(""), writer("SWR", [9_000, 10_000, 10_000], &[])],
    ];
    let file = numbered(&file_of(&works.concat()));
    for (before, after) in [
        (LEAST - 1, LEAST - 1),
        (LEAST - 2_000, LEAST - 1),
        (LEAST - 2_001, LEAST - 1),
        (LEAST - 2_002, LEAST - 2),
        (LEAST, LEAST + 2_000),
    ] {
        let mut sheet = sheet_of(&[(5, before)]);
        sheet_add(&mut sheet, &file, &TABLES);
        assert_eq!(numbers(&sheet)[5], after, "{before:#x}");
    }
    // Of refused files, too.
    for (before, after) in [(u64::MAX - 1, u64::MAX), (u64::MAX, u64::MAX)] {
        let mut sheet = sheet_of(&[(1, before)]);
        sheet_add(&mut sheet, b"", &TABLES);
        assert_eq!(sheet, sheet_of(&[(0, 1), (1, after)]));
    }
    // Numbers that nothing is added to stay.
    let mut sheet: Vec<u8> = (0..83u64).flat_map(|n| (n << 40).to_le_bytes()).collect();
    let before = numbers(&sheet);
    sheet_add(&mut sheet, &file_a(), &TABLES);
    let mut after = before.clone();
    (after[0], after[VERDICT]) = (1, before[VERDICT] + 6);
    assert_eq!(numbers(&sheet), after);
}

/// A sheet that is added to file by file is that of the list, in any order.
#[test]
fn one_by_one_as_the_list() {
    let cases: Vec<_> = spread(7, 600)
        .into_iter()
        .chain(seeds(8, 400))
        .filter_map(case)
        .filter(|case| case.lends_a_file())
        .collect();
    assert!(cases.len() > 800);
    for cases in [&cases[..], &cases[..1], &cases[100..117], &[]] {
        let judged = |case: &_| {
            let case: &crate::generate::Case = case;
            judge(&case.file, &Tables::of(&case.tables))
        };
        let list: Vec<_> = cases.iter().map(judged).collect();
        let whole = Sheet::of_list(&list);
        let (mut sheet, mut records) = (vec![0; 664], 0);
        for case in cases {
            let answer = sheet_add(&mut sheet, &case.file, &Tables::of(&case.tables));
            if let Answer::Passed { records: some, .. } = answer {
                records += some;
            }
        }
        assert_eq!(Sheet::of_bytes(&sheet), whole);
        assert_eq!(sheet, whole.bytes());
        let mut backwards = vec![0; 664];
        for case in cases.iter().rev() {
            sheet_add(&mut backwards, &case.file, &Tables::of(&case.tables));
        }
        assert_eq!(backwards, sheet);
        // All records of the files passed have one verdict.
        assert_eq!(whole.verdicts.iter().sum::<u64>(), records);
        assert_eq!(whole.files, cases.len() as u64);
        assert!(whole.refused <= whole.files);
        for right in whole.rights {
            assert!(right.shortfall < 10_000);
            assert_eq!(right.misses == 0, right.shortfall == 0 && right.excess == 0);
        }
    }
}
