//! Each finding: an example that has it, a neighbour that hasn't. 8 stands in
//! a file of its own.

use super::*;

/// The plain header and writer, with a text put over the header.
fn headed(parts: &[(usize, &str)]) -> Vec<u32> {
    judge(&[header(parts), swr("")])[0].clone()
}

/// A transaction of the plain header, these records, and a plain writer.
fn with(records: &[Vec<u8>]) -> Vec<Vec<u32>> {
    judge(&[&[nwr("")], records, &[swr("")]].concat())
}

/// The findings of one publisher, the only one; its shares are 0.
fn of_publisher(name: &str, parts: &[(usize, &str)]) -> Vec<u32> {
    with(&[publisher(name, [0; 3], parts)])[1].clone()
}

/// Publishers' chains: name, sequence number, type and MR share; the findings
/// of the header without 1 and 3, then those of the publishers.
fn chain(publishers: &[(&str, &str, &str, u32)]) -> Vec<Vec<u32>> {
    let records: Vec<_> = publishers
        .iter()
        .map(|&(name, number, kind, mr)| publisher(name, [0, mr, 0], &[(20, number), (77, kind)]))
        .collect();
    let mut all = with(&records);
    all.pop();
    all[0].retain(|&finding| finding != 1 && finding != 3);
    all
}

fn rec(parts: &[(usize, &str)]) -> Vec<u32> {
    let record = over(detail("REC"), parts);
    judge(&[nwr(""), swr(""), record])[2].clone()
}

fn none() -> Vec<u32> {
    Vec::new()
}

#[test]
fn finding_0() {
    assert_eq!(headed(&[(1, "REV")]), [0]);
    assert_eq!(headed(&[]), none());
}

#[test]
fn finding_1() {
    let totals = |tolerance, shares: [[u32; 3]; 2]| {
        let work = [
            nwr(""),
            publisher("SPU", shares[0], &[]),
            publisher("OPU", shares[1], &[(20, "02")]),
            writer("SWR", [5000, 0, 0], &[]),
        ];
        judge_within(tolerance, &work)[0].contains(&1)
    };
    assert!(!totals(6, [[5000, 0, 0], [6, 0, 0]]));
    assert!(totals(6, [[5000, 0, 0], [7, 0, 0]]));
    assert!(!totals(0, [[2500, 0, 0], [2500, 0, 0]]));
    assert!(totals(0, [[5000, 0, 0], [1, 0, 0]]));
    assert!(!totals(6, [[0, 10_000, 0], [0, 6, 0]]));
    assert!(totals(6, [[0, 10_000, 0], [0, 7, 0]]));
    assert!(totals(3, [[0, 0, 10_000], [0, 0, 4]]));
    assert!(!totals(3, [[0, 0, 10_000], [0, 0, 3]]));
}

#[test]
fn finding_2() {
    let totals = |tolerance, shares: [u32; 3]| {
        let work = [
            nwr(""),
            writer("SWR", shares, &[]),
            writer("OWR", [0; 3], &[]),
        ];
        judge_within(tolerance, &work)[0].contains(&2)
    };
    assert!(!totals(6, [0, 0, 0]));
    assert!(!totals(6, [6, 0, 0]));
    assert!(totals(6, [7, 0, 0]));
    assert!(totals(6, [4993, 0, 0]));
    assert!(!totals(6, [4994, 0, 0]));
    assert!(totals(0, [1, 0, 0]));
    assert!(totals(0, [4999, 0, 0]));
    assert!(!totals(0, [5000, 0, 0]));
    assert!(!totals(6, [10_006, 10_006, 10_006]));
    assert!(totals(6, [10_007, 0, 0]));
    assert!(totals(6, [0, 10_007, 0]));
    assert!(totals(0, [0, 0, 10_001]));
    // MR and SR have no least total.
    for t in [0, 1, 6] {
        for small in [0, 1, t, t + 1, 4999 - t, 5000 - t] {
            for pr in [0, t, 5000] {
                assert!(!totals(t.into(), [pr, small, 0]), "{pr}, {small}, {t}");
                assert!(!totals(t.into(), [pr, 0, small]), "{pr}, {small}, {t}");
            }
            // And theirs does not make up for PR.
            assert!(totals(t.into(), [t + 1, small, small]), "{small}, {t}");
        }
    }
}

/// Writers' PR at its limits: 2 takes up to t for nothing, 3 keeps its exact 0.
#[test]
fn finding_2_and_3() {
    for t in [0, 1, 6] {
        let small = if t == 0 { none() } else { vec![3] };
        // The writers' total, and the header's findings: without a publisher,
        // with one who has half, with one who has all the rest.
        for (pr, alone, half, rest) in [
            (0, none(), vec![3], vec![1]),
            (t, small, vec![3], vec![1]),
            (t + 1, vec![2, 3], vec![2, 3], vec![1, 2]),
            (4999 - t, vec![2, 3], vec![2, 3], vec![1, 2]),
            (5000 - t, vec![3], none(), none()),
        ] {
            // One writer's, and two writers' together.
            for shares in [vec![pr], vec![pr - pr / 2, pr / 2]] {
                let writers = ["SWR", "OWR"].into_iter().zip(shares);
                let writers: Vec<_> = writers
                    .map(|(name, share)| writer(name, [share, 0, 0], &[]))
                    .collect();
                let findings = |publishers: &[Vec<u8>]| {
                    let work = [&[nwr("")], publishers, &writers].concat();
                    judge_within(t.into(), &work)[0].clone()
                };
                let beside = |share| findings(&[publisher("SPU", [share, 0, 0], &[])]);
                assert_eq!(findings(&[]), alone, "{pr}, {t}");
                assert_eq!(beside(5000), half, "{pr}, {t}");
                assert_eq!(beside(10_000 - pr), rest, "{pr}, {t}");
            }
        }
    }
}

#[test]
fn finding_3() {
    let totals = |tolerance, publishers: [u32; 3], writers: [u32; 3]| {
        let work = [
            nwr(""),
            publisher("SPU", publishers, &[]),
            writer("SWR", writers, &[]),
        ];
        judge_within(tolerance, &work)[0].contains(&3)
    };
    assert!(!totals(6, [5000, 0, 10_000], [5000, 0, 6]));
    assert!(totals(6, [5000, 0, 10_000], [5000, 0, 7]));
    assert!(!totals(6, [4994, 0, 0], [5000, 0, 0]));
    assert!(totals(6, [4993, 0, 0], [5000, 0, 0]));
    assert!(totals(6, [5000, 1, 0], [5000, 0, 0]));
    assert!(totals(0, [5000, 0, 0], [5000, 0, 9999]));
    assert!(!totals(0, [5000, 0, 0], [5000, 0, 10_000]));
    // Nothing is exactly 0, whatever the tolerance.
    for tolerance in 0..=6 {
        assert!(!totals(tolerance, [0; 3], [0; 3]));
        for right in 0..3 {
            for small in 1..=7 {
                let mut shares = [0; 3];
                shares[right] = small;
                assert!(totals(tolerance, [0; 3], shares), "{small}, {tolerance}");
                assert!(totals(tolerance, shares, [0; 3]), "{small}, {tolerance}");
            }
        }
    }
}

#[test]
fn totals_take_what_is_no_share_for_0() {
    let work = |share: &str| [nwr(""), swr(""), writer("OWR", [0; 3], &[(138, share)])];
    assert_eq!(judge(&work("0500A"))[0], none());
    assert_eq!(judge(&work("     "))[0], none());
    assert_eq!(judge(&work("00500"))[0], [2, 3]);
    // Beyond its limit a share counts in full.
    assert_eq!(
        judge(&[nwr(""), writer("SWR", [99_999; 3], &[])])[0],
        [2, 3]
    );
}

#[test]
fn finding_4_and_5() {
    assert_eq!(judge(&[nwr("")])[0], [4, 5]);
    assert_eq!(judge(&[header(&[(143, "MOD")])])[0], [4, 5, 6]);
    for (designation, right) in [
        ("CA", true),
        ("A ", true),
        ("C ", true),
        ("AR", false),
        ("PA", false),
        ("TR", false),
        ("  ", false),
        (" C", false),
        ("CC", false),
    ] {
        let work = [nwr(""), writer("OWR", [10_000; 3], &[(105, designation)])];
        assert_eq!(judge(&work)[0].contains(&5), !right, "{designation}");
        assert!(!judge(&work)[0].contains(&4));
    }
}

#[test]
fn finding_6_and_7() {
    for (designation, adapter) in [
        ("AR", true),
        ("AD", true),
        ("SR", true),
        ("SA", true),
        ("TR", true),
        ("CA", false),
        ("A ", false),
        ("C ", false),
        ("PA", false),
        ("  ", false),
    ] {
        let findings = |version: &str| {
            let other = writer("OWR", [0; 3], &[(105, designation)]);
            judge(&[header(&[(143, version)]), swr(""), other])[0].clone()
        };
        assert_eq!(findings("MOD").contains(&6), !adapter, "{designation}");
        assert_eq!(findings("ORI").contains(&7), adapter, "{designation}");
        assert!(!findings("   ").contains(&6) && !findings("   ").contains(&7));
        assert!(!findings("mod").contains(&6) && !findings("ori").contains(&7));
    }
}

#[test]
fn finding_9() {
    let serious = |details: &[&str]| {
        let mut work = vec![header(&[(127, "SER000001")]), swr("")];
        work.extend(details.iter().map(|name| detail(name)));
        judge(&work)[0].clone()
    };
    assert_eq!(serious(&[]), [9]);
    assert_eq!(serious(&["ORN"]), [9]);
    assert_eq!(serious(&["INS"]), none());
    assert_eq!(serious(&["IND"]), none());
    // Anywhere in the transaction, out of order too.
    assert_eq!(serious(&["XRF", "IND"]), [8]);
}

#[test]
fn finding_10() {
    for (designation, words) in [
        ("CA", true),
        ("A ", true),
        ("SA", true),
        ("TR", true),
        ("C ", false),
        ("AR", false),
        ("AD", false),
        ("SR", false),
        ("PA", false),
    ] {
        let work = |relationship: &str| {
            let other = writer("OWR", [0; 3], &[(105, designation)]);
            judge(&[header(&[(137, relationship)]), swr(""), other])[0].clone()
        };
        assert_eq!(work("MUS").contains(&10), words, "{designation}");
        assert_eq!(work("MTX"), none());
    }
}

#[test]
fn finding_11() {
    let e = |numbers: [&'static str; 2]| {
        chain(&[("SPU", numbers[0], "E ", 1), ("SPU", numbers[1], "E ", 1)])[0].contains(&11)
    };
    assert!(e(["01", "01"]));
    assert!(!e(["01", "02"]));
    // 00 is a chain; what has no two digits is in none.
    assert!(e(["00", "00"]));
    assert!(!e(["0A", "0A"]));
    // OPUs too, and those without a type that is known.
    for kind in ["E ", "  ", "XX", "e "] {
        let opus = [("OPU", "01", kind, 0), ("OPU", "01", "E ", 0)];
        assert!(chain(&opus)[0].contains(&11), "{kind}");
    }
    let opus = [("OPU", "01", "AM", 0), ("OPU", "01", "E ", 0)];
    assert!(!chain(&opus)[0].contains(&11));
    // An SPU of an unknown type is none.
    let spus = [("SPU", "01", "  ", 0), ("SPU", "01", "E ", 1)];
    assert!(!chain(&spus)[0].contains(&11));
    // They need not stand together.
    let apart = [
        ("SPU", "01", "E ", 1),
        ("SPU", "02", "E ", 1),
        ("SPU", "01", "E ", 1),
    ];
    assert!(chain(&apart)[0].contains(&11));
}

#[test]
fn finding_12() {
    let spu = |kind, share| chain(&[("SPU", "01", kind, share)])[0].contains(&12);
    assert!(spu("E ", 0));
    assert!(!spu("E ", 1));
    assert!(!spu("AQ", 1));
    // No E or AQ at all totals 0.
    assert!(spu("PA", 0));
    assert!(spu("AM", 1));
    assert!(spu("XX", 1));
    // Any of the three rights, any of the chain's records.
    let sr = publisher("SPU", [0, 0, 1], &[]);
    assert!(!with(&[sr])[0].contains(&12));
    let later = [
        ("SPU", "01", "PA", 0),
        ("SPU", "01", "E ", 0),
        ("SPU", "01", "AQ", 1),
    ];
    assert!(!chain(&later)[0].contains(&12));
    // OPU shares don't count, and an OPU's chain is not asked.
    assert!(chain(&[("SPU", "01", "E ", 0), ("OPU", "01", "E ", 1)])[0].contains(&12));
    assert!(!chain(&[("OPU", "01", "E ", 0)])[0].contains(&12));
    assert!(!chain(&[("OPU", "01", "E ", 0), ("SPU", "01", "E ", 0)])[0].contains(&12));
    // One of several chains; none without two digits.
    assert!(chain(&[("SPU", "01", "E ", 1), ("SPU", "02", "E ", 0)])[0].contains(&12));
    assert!(!chain(&[("SPU", " 1", "E ", 0)])[0].contains(&12));
}

#[test]
fn finding_13() {
    let two = |one, other, numbers: [&'static str; 2]| {
        chain(&[(one, numbers[0], "E ", 1), (other, numbers[1], "AM", 0)])[0].contains(&13)
    };
    assert!(two("SPU", "OPU", ["01", "01"]));
    assert!(!two("SPU", "OPU", ["01", "02"]));
    assert!(!two("OPU", "SPU", ["01", "01"]));
    assert!(!two("SPU", "SPU", ["01", "01"]));
    assert!(!two("SPU", "OPU", ["1 ", "1 "]));
    assert!(two("SPU", "OPU", ["99", "99"]));
}

#[test]
fn finding_14() {
    let two = |first: (&'static str, &'static str, u32),
               second: (&'static str, &'static str, u32)| {
        let (name, kind, share) = first;
        let (other, other_kind, other_share) = second;
        chain(&[
            (name, "01", kind, share),
            (other, "01", other_kind, other_share),
        ])[0]
            .contains(&14)
    };
    assert!(two(("SPU", "E ", 1), ("SPU", "AQ", 1)));
    assert!(!two(("SPU", "E ", 0), ("SPU", "AQ", 1)));
    assert!(!two(("SPU", "AQ", 1), ("SPU", "E ", 1)));
    assert!(!two(("SPU", "E ", 1), ("OPU", "AQ", 1)));
    // The earlier E may be an OPU, by default too.
    assert!(two(("OPU", "E ", 1), ("SPU", "AQ", 0)));
    assert!(two(("OPU", "  ", 1), ("SPU", "AQ", 0)));
    assert!(!two(("OPU", "AM", 1), ("SPU", "AQ", 0)));
    // Any earlier one of the chain.
    let three = [
        ("SPU", "01", "E ", 1),
        ("SPU", "01", "E ", 0),
        ("SPU", "01", "AQ", 0),
    ];
    assert!(chain(&three)[0].contains(&14));
    let other = [
        ("SPU", "02", "E ", 1),
        ("SPU", "01", "E ", 0),
        ("SPU", "01", "AQ", 1),
    ];
    assert!(!chain(&other)[0].contains(&14));
    // A share that isn't five digits counts 0.
    let e = publisher("SPU", [0; 3], &[(116, "0000A")]);
    let aq = publisher("SPU", [0, 1, 0], &[(77, "AQ")]);
    assert!(!with(&[e, aq])[0].contains(&14));
}

#[test]
fn finding_15() {
    let titles = |names: &[&str]| {
        let mut work = vec![nwr(""), swr("")];
        work.extend(names.iter().map(|name| over(detail(name), &[(20, "T")])));
        judge(&work)[0].clone()
    };
    assert_eq!(titles(&["EWT", "VER"]), none());
    assert_eq!(titles(&["EWT", "EWT"]), [15]);
    assert_eq!(titles(&["VER", "VER"]), [15]);
    // Rejected ones count.
    let work = [nwr(""), swr(""), detail("VER"), detail("VER")];
    assert_eq!(judge(&work)[0], [15]);
}

#[test]
fn finding_16_and_18() {
    assert_eq!(headed(&[(20, " ")]), [16]);
    assert_eq!(headed(&[(20, " "), (79, "X")]), none());
    assert_eq!(headed(&[(20, " "), (80, "EN")]), [16]);
    assert_eq!(headed(&[(82, " ")]), [18]);
    assert_eq!(headed(&[(82, " "), (95, "1")]), none());
    assert_eq!(headed(&[(82, " "), (96, "T0345246801")]), [18]);
    // Only byte 32 is blank.
    let mut nwr = header(&[]);
    nwr[19] = 160;
    assert_eq!(judge(&[nwr, swr("")])[0], none());
}

#[test]
fn finding_17() {
    for code in ["EN", "FR", "DE", "  "] {
        assert_eq!(headed(&[(80, code)]), none(), "{code}");
    }
    // Not across two entries.
    for code in ["NF", "en", "E ", " E", "XX"] {
        assert_eq!(headed(&[(80, code)]), [17], "{code}");
    }
    let tables = Tables {
        languages: b"",
        ..TABLES
    };
    for (code, held) in [("EN", vec![17]), ("  ", none())] {
        let records = file_of(&[header(&[(80, code)]), swr("")]);
        assert_eq!(judge_all(&records, &tables, 6).findings[2], held);
    }
}

#[test]
fn finding_19() {
    for iswc in ["           ", "T0000000009", "T9999999994"] {
        assert_eq!(headed(&[(96, iswc)]), none(), "{iswc}");
    }
    // The first would be right without the leading 1.
    for iswc in [
        "T0000000000",
        "t0345246801",
        " 0345246801",
        "T034524680 ",
        "T03452468A1",
        "T-034524680",
        "1          ",
        "00000000000",
        "T3045246801",
    ] {
        assert_eq!(headed(&[(96, iswc)]), [19], "{iswc}");
    }
}

#[test]
fn finding_20() {
    for date in [
        "00000000", "20240229", "00010101", "99991231", "20000229", "20230430",
    ] {
        assert_eq!(headed(&[(107, date)]), none(), "{date}");
    }
    for date in [
        "        ", "20230229", "19000229", "21000229", "20230431", "20230100", "20230001",
        "20231301", "00000101", "2023010A", "0000000 ", "20231232",
    ] {
        assert_eq!(headed(&[(107, date)]), [20], "{date}");
    }
}

#[test]
fn finding_21() {
    for category in ["POP", "JAZ"] {
        assert_eq!(headed(&[(127, category)]), none());
    }
    for category in ["   ", "OPJ", "pop", "PO ", "XXX"] {
        assert_eq!(headed(&[(127, category)]), [21], "{category}");
    }
    // Blank even where the table has a blank entry.
    let tables = Tables {
        categories: b"   POP",
        ..TABLES
    };
    let records = file_of(&[header(&[(127, "   ")]), swr("")]);
    assert_eq!(judge_all(&records, &tables, 6).findings[2], [21]);
}

#[test]
fn finding_22_and_23() {
    let duration = |category: &str, duration: &str| {
        let header = header(&[(127, category), (130, duration)]);
        judge(&[header, swr(""), detail("INS")])[0].clone()
    };
    for right in ["000001", "995959", "240000"] {
        assert_eq!(duration("SER", right), none());
        assert_eq!(duration("POP", right), none());
    }
    assert_eq!(duration("SER", "000000"), [22]);
    assert_eq!(duration("POP", "000000"), none());
    for wrong in ["      ", "000060", "006000", "00000A", " 00000"] {
        assert_eq!(duration("SER", wrong), [22], "{wrong}");
        assert_eq!(duration("POP", wrong), [23], "{wrong}");
        assert_eq!(duration("   ", wrong), [21, 23], "{wrong}");
    }
    // SER is three bytes, in the lent table or not.
    let tables = Tables {
        categories: b"POP",
        ..TABLES
    };
    let records = file_of(&[header(&[(127, "SER")]), swr("")]);
    assert_eq!(judge_all(&records, &tables, 6).findings[2], [9, 21, 22]);
}

#[test]
fn finding_24() {
    for name in ["TER", "IPA", "NPA", "MSG"] {
        assert_eq!(judge(&[nwr(""), swr(""), detail(name)])[2], [24]);
    }
    assert_eq!(judge(&[nwr(""), swr(""), detail("ALT")])[2], none());
}

#[test]
fn finding_25() {
    let wrong = |numbers: &[&'static str]| {
        let publishers: Vec<_> = numbers
            .iter()
            .map(|&number| ("OPU", number, "AM", 0))
            .collect();
        let all = chain(&publishers);
        let held = all[1..].iter().map(|findings| findings.contains(&25));
        held.collect::<Vec<_>>()
    };
    assert_eq!(wrong(&["01"]), [false]);
    assert_eq!(wrong(&["00"]), [true]);
    assert_eq!(wrong(&["02"]), [true]);
    assert_eq!(wrong(&["01", "01", "02", "02", "03"]), [false; 5]);
    assert_eq!(wrong(&["01", "03", "03", "02"]), [false, true, false, true]);
    // Against the record directly before, right or wrong.
    assert_eq!(wrong(&["05", "05", "06"]), [true, false, false]);
    assert_eq!(wrong(&["00", "01"]), [true, false]);
    // Nothing fits after a record without two digits, 01 neither.
    assert_eq!(wrong(&["  ", "01", "01"]), [true, true, false]);
    assert_eq!(wrong(&["01", "1 ", "01", "02"]), [false, true, true, false]);
    assert_eq!(wrong(&["99", "99", "00"]), [true, false, true]);
    // Over SPU and OPU alike.
    let mixed = [("SPU", "01", "E ", 1), ("OPU", "02", "E ", 0)];
    assert!(!chain(&mixed)[2].contains(&25));
}

#[test]
fn finding_26_and_27() {
    assert_eq!(of_publisher("SPU", &[(22, " ")]), [26]);
    assert_eq!(of_publisher("OPU", &[(22, " ")]), none());
    assert_eq!(of_publisher("SPU", &[]), none());
    assert_eq!(of_publisher("SPU", &[(31, " ")]), [27]);
    assert_eq!(of_publisher("SPU", &[(31, " "), (76, "Y")]), [27, 29]);
    assert_eq!(of_publisher("SPU", &[(31, " "), (75, "B")]), none());
    assert_eq!(of_publisher("OPU", &[(31, " ")]), [27]);
    assert_eq!(of_publisher("OPU", &[(31, " "), (76, "N")]), [27]);
    assert_eq!(of_publisher("OPU", &[(31, " "), (76, "Y")]), none());
    assert_eq!(of_publisher("OPU", &[(31, " "), (76, "X")]), [27, 33]);
}

#[test]
fn finding_28_and_35() {
    for kind in ["E ", "AM", "PA", "SE", "ES"] {
        assert_eq!(of_publisher("SPU", &[(77, kind)]), none(), "{kind}");
        assert_eq!(of_publisher("OPU", &[(77, kind)]), none(), "{kind}");
    }
    for kind in ["  ", " E", "e ", "EE", "A ", "XX", "am"] {
        assert_eq!(of_publisher("SPU", &[(77, kind)]), [28], "{kind}");
        assert_eq!(of_publisher("OPU", &[(77, kind)]), [35], "{kind}");
    }
}

#[test]
fn finding_29_33_and_34() {
    for (indicator, of_spu, of_opu) in [
        (" ", none(), none()),
        ("Y", vec![29], vec![34]),
        ("N", vec![29], none()),
        ("U", vec![29], vec![33]),
        ("y", vec![29], vec![33]),
    ] {
        assert_eq!(
            of_publisher("SPU", &[(76, indicator)]),
            of_spu,
            "{indicator}"
        );
        assert_eq!(
            of_publisher("OPU", &[(76, indicator)]),
            of_opu,
            "{indicator}"
        );
    }
}

#[test]
fn finding_30() {
    for name in ["SPU", "OPU"] {
        for (start, most) in [(116, 5000), (124, 10_000), (132, 10_000)] {
            let share = |text: &str| of_publisher(name, &[(start, text)]);
            assert_eq!(share(&format!("{most:05}")), none());
            assert_eq!(share(&format!("{:05}", most + 1)), [30]);
            for wrong in ["99999", "     ", "0000 ", " 0000", "0000A", "-0001"] {
                assert_eq!(share(wrong), [30], "{wrong}");
            }
        }
    }
}

#[test]
fn finding_31() {
    for (name, kind, held) in [
        ("SPU", "E ", false),
        ("SPU", "AM", true),
        ("SPU", "PA", true),
        ("SPU", "SE", true),
        ("SPU", "ES", true),
        ("OPU", "E ", false),
        ("OPU", "AQ", false),
        ("OPU", "AM", true),
        // With the default in force.
        ("OPU", "  ", false),
        ("OPU", "XX", false),
    ] {
        for start in [116, 124, 132] {
            let findings = of_publisher(name, &[(77, kind), (start, "00001")]);
            assert_eq!(findings.contains(&31), held, "{name} {kind}");
            assert!(!of_publisher(name, &[(77, kind), (start, "0000A")]).contains(&31));
        }
        assert!(!of_publisher(name, &[(77, kind)]).contains(&31));
    }
    // An SPU of unknown type with a share.
    assert_eq!(of_publisher("SPU", &[(77, "XX"), (116, "00001")]), [28, 31]);
}

#[test]
fn finding_32() {
    let last =
        |publishers: &[(&str, &str, &str, u32)]| chain(publishers).last().unwrap().contains(&32);
    assert!(last(&[("SPU", "01", "AQ", 1)]));
    assert!(!last(&[("SPU", "01", "E ", 0), ("SPU", "01", "AQ", 1)]));
    assert!(!last(&[
        ("SPU", "01", "E ", 0),
        ("SPU", "01", "SE", 0),
        ("SPU", "01", "AQ", 1)
    ]));
    assert!(last(&[("SPU", "01", "E ", 0), ("SPU", "02", "AQ", 1)]));
    // Only an E SPU, and an earlier one.
    assert!(last(&[("OPU", "01", "E ", 0), ("SPU", "01", "AQ", 1)]));
    assert!(last(&[("OPU", "01", "  ", 0), ("SPU", "01", "AQ", 1)]));
    assert!(chain(&[("SPU", "01", "AQ", 1), ("SPU", "01", "E ", 0)])[1].contains(&32));
    // In no chain.
    assert!(last(&[("SPU", "1 ", "E ", 0), ("SPU", "1 ", "AQ", 1)]));
    assert!(!last(&[("SPU", "00", "E ", 0), ("SPU", "00", "AQ", 1)]));
    // OPUs are not asked.
    assert!(!last(&[("OPU", "01", "AQ", 1)]));
}

#[test]
fn finding_36() {
    for name in ["SPU", "OPU"] {
        for start in [113, 121, 129] {
            for society in ["035", "044", "058", "   "] {
                assert_eq!(of_publisher(name, &[(start, society)]), none());
            }
            for society in ["350", "35 ", " 35", "000"] {
                assert_eq!(of_publisher(name, &[(start, society)]), [36], "{society}");
            }
        }
    }
    // Not of writers.
    assert_eq!(with(&[writer("SWR", [0; 3], &[(127, "XXX")])])[1], none());
}

#[test]
fn finding_37() {
    for name in ["SPU", "OPU"] {
        for tax in ["         ", "123456789", "000000000"] {
            assert_eq!(of_publisher(name, &[(79, tax)]), none());
        }
        for tax in [
            "12345678 ",
            " 12345678",
            "12345678A",
            "ABCDEFGHI",
            "1        ",
        ] {
            assert_eq!(of_publisher(name, &[(79, tax)]), [37], "{tax}");
        }
    }
    assert_eq!(with(&[writer("SWR", [0; 3], &[(107, "X")])])[1], none());
}

#[test]
fn finding_38_and_42() {
    let writers =
        |name: &str, parts: &[(usize, &str)]| with(&[writer(name, [0; 3], parts)])[1].clone();
    assert_eq!(writers("SWR", &[]), none());
    assert_eq!(writers("SWR", &[(29, " ")]), [38]);
    assert_eq!(writers("SWR", &[(29, " "), (73, "B")]), none());
    assert_eq!(writers("SWR", &[(29, " "), (74, "B")]), [38]);
    assert_eq!(writers("SWR", &[(20, " ")]), [42]);
    assert_eq!(writers("SWR", &[(20, " "), (28, "1")]), none());
    assert_eq!(writers("SWR", &[(20, "          ")]), [38, 42]);
    assert_eq!(writers("OWR", &[(20, "          ")]), none());
}

#[test]
fn finding_39_and_40() {
    let writers = |name: &str, text: &str| with(&[writer(name, [0; 3], &[(105, text)])])[1].clone();
    for designation in ["CA", "A ", "C ", "AR", "AD", "SR", "SA", "TR", "PA"] {
        assert_eq!(writers("SWR", designation), none());
        assert_eq!(writers("OWR", designation), none());
    }
    for designation in [" C", "c ", "CC", "AC", "XX", "E "] {
        assert_eq!(writers("SWR", designation), [39], "{designation}");
        assert_eq!(writers("OWR", designation), [40], "{designation}");
    }
    assert_eq!(writers("SWR", "  "), [39]);
    assert_eq!(writers("OWR", "  "), none());
}

#[test]
fn finding_41() {
    for name in ["SWR", "OWR"] {
        for start in [130, 138, 146] {
            let share = |text: &str| with(&[writer(name, [0; 3], &[(start, text)])])[1].clone();
            assert_eq!(share("10000"), none());
            for wrong in ["10001", "99999", "     ", "0000 ", "0000A"] {
                assert_eq!(share(wrong), [41], "{wrong}");
            }
        }
    }
}

#[test]
fn finding_43() {
    let titled = |name: &str, start: usize| {
        let record = over(detail(name), &[(start, "T")]);
        judge(&[nwr(""), swr(""), record])[2].clone()
    };
    for name in ["EWT", "VER"] {
        assert_eq!(titled(name, 20), none());
        assert_eq!(titled(name, 79), none());
        assert_eq!(titled(name, 80), [43]);
    }
    assert_eq!(titled("PER", 20), none());
    assert_eq!(titled("PER", 64), none());
    assert_eq!(titled("PER", 65), [43]);
}

#[test]
fn finding_44() {
    assert_eq!(rec(&[(20, "00000000"), (88, "000000")]), [44]);
    assert_eq!(rec(&[(20, "20240229"), (88, "000000")]), none());
    assert_eq!(rec(&[(20, "00000000"), (88, "000001")]), none());
    for start in [99, 300, 540] {
        assert_eq!(
            rec(&[(20, "00000000"), (88, "000000"), (start, "X")]),
            none()
        );
    }
    // Not looked at.
    for start in [28, 87, 94, 98] {
        assert_eq!(rec(&[(20, "00000000"), (88, "000000"), (start, "X")]), [44]);
    }
    // After the defaults.
    assert_eq!(rec(&[]), [44, 45, 46]);
    assert_eq!(rec(&[(20, "20230229"), (88, "000000")]), [44, 45]);
    assert_eq!(rec(&[(20, "00000000"), (88, "000060")]), [44, 46]);
    assert_eq!(rec(&[(20, "20240229")]), [46]);
}

#[test]
fn finding_45_and_46() {
    let rec = |date, duration| rec(&[(20, date), (88, duration), (99, "X")]);
    assert_eq!(rec("00000000", "000000"), none());
    assert_eq!(rec("20240229", "995959"), none());
    assert_eq!(rec("19000229", "995959"), [45]);
    assert_eq!(rec("        ", "000000"), [45]);
    assert_eq!(rec("0000000 ", "000000"), [45]);
    assert_eq!(rec("00000000", "      "), [46]);
    assert_eq!(rec("00000000", "000060"), [46]);
    assert_eq!(rec("2023131A", "00006A"), [45, 46]);
}
