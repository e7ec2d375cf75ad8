//! Refusals 1, 2 and 11, and the bytes that are written.

use super::*;

fn answer(tolerance: u64, tables: &Tables, file: &[u8]) -> Answer {
    check(tolerance, file, tables, &mut [0; 6], &mut [0; 48])
}

#[test]
fn refusal_1() {
    for tolerance in 0..=6 {
        assert_eq!(answer(tolerance, &TABLES, &file_a()), passes(1, 1, 6));
    }
    for tolerance in [7, 256, 1 << 32, u64::MAX] {
        assert_eq!(answer(tolerance, &TABLES, &file_a()), refusal(1, 0));
        // Before 2 and what follows.
        let tables = Tables {
            languages: b"E",
            ..TABLES
        };
        assert_eq!(answer(tolerance, &tables, b""), refusal(1, 0));
    }
}

#[test]
fn refusal_2() {
    let languages = |length: usize| vec![b'A'; length];
    for (length, right) in [
        (0, true),
        (1, false),
        (2, true),
        (3, false),
        (2048, true),
        (2049, false),
        (2050, false),
    ] {
        let languages = languages(length);
        let tables = Tables {
            languages: &languages,
            ..TABLES
        };
        let expected = if right {
            passes(1, 1, 6)
        } else {
            refusal(2, 0)
        };
        assert_eq!(answer(6, &tables, &file_a()), expected, "{length}");
    }
    for (length, right) in [
        (0, true),
        (1, false),
        (2, false),
        (3, true),
        (3072, true),
        (3073, false),
        (3075, false),
    ] {
        let societies = languages(length);
        let tables = Tables {
            societies: &societies,
            ..TABLES
        };
        let expected = if right {
            passes(1, 1, 6)
        } else {
            refusal(2, 1)
        };
        assert_eq!(answer(6, &tables, &file_a()), expected, "{length}");
        let tables = Tables {
            categories: &societies,
            ..TABLES
        };
        let expected = if right {
            passes(1, 1, 6)
        } else {
            refusal(2, 2)
        };
        assert_eq!(answer(6, &tables, &file_a()), expected, "{length}");
    }
    // The first of several, and before all of the file.
    let tables = Tables {
        societies: b"1",
        categories: b"1",
        ..TABLES
    };
    assert_eq!(answer(6, &tables, b""), refusal(2, 1));
}

#[test]
fn refusal_11() {
    for (verdicts, findings, right) in [
        (6, 48, true),
        (7, 60, true),
        (5, 48, false),
        (6, 47, false),
        (0, 0, false),
        (48, 6, false),
    ] {
        let (mut verdicts, mut findings) = (vec![9; verdicts], vec![9; findings]);
        let answer = check(6, &file_a(), &TABLES, &mut verdicts, &mut findings);
        if right {
            assert_eq!(answer, passes(1, 1, 6));
            assert!(verdicts[..6]
                .iter()
                .chain(&findings[..48])
                .all(|&byte| byte == 0));
            // Bytes beyond stay.
            assert!(verdicts[6..]
                .iter()
                .chain(&findings[48..])
                .all(|&byte| byte == 9));
        } else {
            assert_eq!(answer, refusal(11, 0));
            assert!(verdicts.iter().chain(&findings).all(|&byte| byte == 9));
        }
    }
    // 10 stands before it.
    let mut records = records_a();
    records[0] = over(hdr(), &[(102, "2.1")]);
    assert_eq!(
        check(6, &join(&records), &TABLES, &mut [], &mut []),
        refusal(10, 0)
    );
}

#[test]
fn sets_least_significant_byte_first() {
    let work = [nwr(""), detail("TER"), over(swr(""), &[(29, " ")])];
    let file = join(&file_of(&work));
    let mut numbered = vec![0; file.len()];
    numbering(&file, &mut numbered);
    let (mut verdicts, mut findings) = ([9; 7], [9; 56]);
    check(6, &numbered, &TABLES, &mut verdicts, &mut findings);
    assert_eq!(verdicts, [0, 0, 3, 3, 3, 0, 0]);
    assert_eq!(findings[24..32], [0, 0, 0, 1, 0, 0, 0, 0]);
    assert_eq!(findings[32..40], [0, 0, 0, 0, 1 << 6, 0, 0, 0]);
}
