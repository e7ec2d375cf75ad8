//! Shares by territory: refusals 13 and 14, findings 47 and 48, the list and
//! where a total is over first.

use super::*;
use crate::reference::check_claims;
use crate::reference::claims::{Room, ENTRY};

type Work = Vec<Vec<u8>>;

/// The world, in it Europe and Australia, in Europe Germany and France; and the
/// United States by themselves.
const WORLD: [(&str, u16); 6] = [
    ("2136", 65_535),
    ("2120", 0),
    ("0276", 1),
    ("0250", 1),
    ("0036", 0),
    ("0840", 65_535),
];

fn table(entries: &[(&str, u16)]) -> Vec<u8> {
    let bytes = |(code, group): &(&str, u16)| [code.as_bytes(), &group.to_le_bytes()].concat();
    entries.iter().flat_map(bytes).collect()
}

/// A claim: its type, mark and code, and its shares.
fn claim(name: &str, mark_and_code: &str, [pr, mr, sr]: [&str; 3]) -> Vec<u8> {
    match name {
        "SPT" | "OPT" => over(
            detail(name),
            &[(35, pr), (40, mr), (45, sr), (50, mark_and_code)],
        ),
        _ => over(
            detail(name),
            &[(29, pr), (34, mr), (39, sr), (44, mark_and_code)],
        ),
    }
}

/// One of PR alone, by a writer.
fn of_pr(mark_and_code: &str, pr: &str) -> Vec<u8> {
    claim("SWT", mark_and_code, [pr, "00000", "00000"])
}

/// What is lent, as it was before; nines are what no call writes.
struct Lent {
    tolerance: u64,
    table: Vec<u8>,
    entries: usize,
    verdicts: usize,
    findings: usize,
    over: usize,
}

impl Lent {
    /// Enough for these records.
    fn to(records: &[Vec<u8>]) -> Lent {
        Lent {
            tolerance: 6,
            table: table(&WORLD),
            entries: 20,
            verdicts: records.len(),
            findings: 8 * records.len(),
            over: 8,
        }
    }
}

/// The answer, the buffers and what else can be seen.
struct Seen {
    answer: Answer,
    list: Vec<u8>,
    verdicts: Vec<u8>,
    findings: Vec<u8>,
    over: Vec<u8>,
}

impl Seen {
    fn untouched(&self) -> bool {
        let all = [&self.list, &self.verdicts, &self.findings, &self.over];
        all.iter().all(|bytes| bytes.iter().all(|&byte| byte == 9))
    }

    fn findings(&self) -> Vec<Vec<u32>> {
        let set = |set: &[u8]| {
            let set = u64::from_le_bytes(set.try_into().unwrap());
            (0..64).filter(|n| set >> n & 1 == 1).collect()
        };
        self.findings.chunks_exact(8).map(set).collect()
    }
}

fn ask_file(file: &[u8], lent: &Lent) -> Seen {
    let [mut list, mut verdicts, mut findings, mut over] = [
        ENTRY * lent.entries,
        lent.verdicts,
        lent.findings,
        lent.over,
    ]
    .map(|length| vec![9; length]);
    let room = Room {
        list: &mut list,
        verdicts: &mut verdicts,
        findings: &mut findings,
        over: &mut over,
    };
    let answer = check_claims(lent.tolerance, file, &TABLES, &lent.table, room);
    Seen {
        answer,
        list,
        verdicts,
        findings,
        over,
    }
}

fn numbered(records: &[Vec<u8>]) -> Vec<u8> {
    let unnumbered = join(records);
    let mut file = vec![0; unnumbered.len()];
    numbering(&unnumbered, &mut file);
    file
}

fn ask(records: &[Vec<u8>], lent: &Lent) -> Seen {
    ask_file(&numbered(records), lent)
}

/// Where a work alone is over, with so much tolerance: the territory's position.
/// Its header has 47 exactly then.
fn over_within(tolerance: u64, work: &[Vec<u8>]) -> Option<u32> {
    let records = file_of(work);
    let lent = Lent {
        tolerance,
        ..Lent::to(&records)
    };
    let seen = ask(&records, &lent);
    assert_eq!(seen.answer, passes(1, 1, records.len() as u64));
    assert!(seen.list.iter().all(|&byte| byte == 0));
    let over = match seen.over[..] {
        [0, 0, 0, 0, position, 0, 0, 0] => Some(u32::from(position)),
        [255, 255, 255, 255, 255, 255, 255, 255] => None,
        ref other => panic!("{other:?}"),
    };
    assert_eq!(seen.findings()[2].contains(&47), over.is_some());
    over
}

fn over_in(work: &[Vec<u8>]) -> Option<u32> {
    over_within(6, work)
}

/// A work of one writer with these claims.
fn of_writer(claims: &[Vec<u8>]) -> Work {
    let mut work = vec![nwr(""), swr("")];
    work.extend_from_slice(claims);
    work
}

#[test]
fn totals_at_the_limit() {
    for tolerance in 0..=6 {
        for right in 0..3 {
            let with = |share: u64| {
                let share = format!("{share:05}");
                let mut shares = ["00000"; 3];
                shares[right] = &share;
                over_within(tolerance, &of_writer(&[claim("SWT", "I0840", shares)]))
            };
            assert_eq!(with(9_999 + tolerance), None);
            assert_eq!(with(10_000 + tolerance), None);
            assert_eq!(with(10_001 + tolerance), Some(5));
            // There is no other limit.
            assert_eq!(with(99_999), Some(5));
        }
    }
    // Each right by itself.
    let shares = ["10006", "10006", "10006"];
    assert_eq!(over_in(&of_writer(&[claim("SWT", "I0840", shares)])), None);
}

/// All four kinds of claim, each where 001 has its fields.
#[test]
fn all_parties_together() {
    let two_thousand = ["00000", "02502", "00000"];
    let mut work = vec![nwr("")];
    let mut publishers = Vec::new();
    for (party, kind) in [("SPU", "SPT"), ("OPU", "OPT")] {
        publishers.push(publisher(party, [0; 3], &[]));
        publishers.push(claim(kind, "I0276", two_thousand));
    }
    work.extend(publishers);
    work.extend([swr(""), claim("SWT", "I0276", two_thousand)]);
    work.extend([
        writer("OWR", [0; 3], &[]),
        claim("OWT", "I0276", two_thousand),
    ]);
    // 10008 together; without any one of them less than all.
    assert_eq!(over_in(&work), Some(2));
    for at in [2, 4, 6, 8] {
        let mut less = work.clone();
        less.remove(at);
        assert_eq!(over_in(&less), None);
    }
    // Two of one party: the last alone.
    work.remove(5);
    work.insert(5, detail("NWN"));
    assert_eq!(over_in(&work), None);
}

#[test]
fn the_last_claim_counts() {
    let over = |mark: &str| of_pr(mark, "10007");
    let none = |mark: &str| of_pr(mark, "00000");
    // By itself, by its group, by the group of that.
    for code in ["I0276", "I2120", "I2136"] {
        assert_eq!(over_in(&of_writer(&[over(code)])), Some(2));
        assert_eq!(over_in(&of_writer(&[none(code), over("I0276")])), Some(2));
        // France and Australia stay over where their group was.
        let left = match code {
            "I0276" => None,
            _ => Some(3),
        };
        for last in [none("I0276"), over("E0276"), none("E0276")] {
            assert_eq!(over_in(&of_writer(&[over(code), last])), left, "{code}");
        }
    }
    // A group after its member, with all of it again.
    assert_eq!(
        over_in(&of_writer(&[over("E0276"), over("I2120")])),
        Some(2)
    );
    assert_eq!(over_in(&of_writer(&[over("I0276"), none("I2136")])), None);
    assert_eq!(
        over_in(&of_writer(&[over("I2136"), over("E2120")])),
        Some(4)
    );
    // Not its own group's other member, nor what is in no group.
    assert_eq!(over_in(&of_writer(&[over("I0250")])), Some(3));
    assert_eq!(
        over_in(&of_writer(&[over("I0840"), over("E2136")])),
        Some(5)
    );
}

#[test]
fn parties_end_at_the_next_of_any_kind() {
    let [more, less] = [of_pr("I0276", "06000"), of_pr("I0276", "04007")];
    for (name, next) in [
        ("SPU", publisher("SPU", [0; 3], &[])),
        ("OPU", publisher("OPU", [0; 3], &[])),
        ("SWR", swr("")),
        ("OWR", writer("OWR", [0; 3], &[])),
    ] {
        let work = of_writer(&[more.clone(), next, less.clone()]);
        assert_eq!(over_in(&work), Some(2), "{name}");
    }
    // Any other record leaves it as it is.
    for name in ["NPN", "NWN", "PWR", "ALT", "TER", "PER", "XRF"] {
        let work = of_writer(&[more.clone(), detail(name), less.clone()]);
        assert_eq!(over_in(&work), None, "{name}");
        let work = of_writer(&[detail(name), of_pr("I0276", "10007")]);
        assert_eq!(over_in(&work), Some(2), "{name}");
    }
    // The number on the claim is not read.
    let other = over(of_pr("I0276", "04007"), &[(20, "X")]);
    assert_eq!(over_in(&of_writer(&[more, other])), None);
}

#[test]
fn claims_before_any_party() {
    let over = of_pr("I0276", "10007");
    assert_eq!(over_in(&[nwr(""), over.clone(), swr("")]), None);
    assert_eq!(over_in(&[nwr(""), over.clone()]), None);
    // Nor the party's of the work before.
    let records = file_of(&[nwr(""), swr(""), nwr(""), over.clone(), swr("")]);
    let seen = ask(&records, &Lent::to(&records));
    assert_eq!(seen.over, [255; 8]);
    // 48 is set on them.
    let wrong = of_pr("X0276", "00000");
    let records = file_of(&[nwr(""), wrong, swr("")]);
    let seen = ask(&records, &Lent::to(&records));
    assert_eq!(seen.findings()[2..5], [vec![8], vec![48], vec![]]);
}

#[test]
fn finding_48() {
    let found = |claim: Vec<u8>| {
        let records = file_of(&of_writer(&[of_pr("I0840", "10007"), claim]));
        let seen = ask(&records, &Lent::to(&records));
        let findings = seen.findings();
        // Where it is ignored, what stands before it counts.
        assert_eq!(findings[2] == [47], findings[5] == [48], "{findings:?}");
        let verdict = if findings[2].is_empty() { 0 } else { 3 };
        assert_eq!(seen.verdicts[2..6], [verdict; 4]);
        findings[5].clone()
    };
    for right in ["I0840", "E0840"] {
        assert_eq!(found(of_pr(right, "00000")), []);
    }
    for wrong in [
        "J0840", " 0840", "i0840", "e0840", "I0841", "I    ", "I840 ",
    ] {
        assert_eq!(found(of_pr(wrong, "00000")), [48], "{wrong}");
    }
    for share in ["     ", "0000 ", " 0000", "0000A", "-0000", "0.000"] {
        for right in 0..3 {
            let mut shares = ["00000"; 3];
            shares[right] = share;
            // Of an exclude too.
            assert_eq!(found(claim("SWT", "I0840", shares)), [48], "{share}");
            assert_eq!(found(claim("SWT", "E0840", shares)), [48], "{share}");
        }
    }
    assert_eq!(found(claim("SWT", "E0840", ["99999"; 3])), []);
    // An ignored claim gives nothing.
    let wrong = [of_pr("X0840", "99999"), of_pr("I9999", "99999")];
    assert_eq!(over_in(&of_writer(&wrong)), None);
}

/// Without a table there is neither finding, and with an empty one each claim
/// has 48.
#[test]
fn tables_that_are_none() {
    let work = of_writer(&[of_pr("I0840", "10007"), of_pr("X0840", "00000")]);
    for tolerance in [0, 6] {
        assert_eq!(judge_within(tolerance, &work), vec![vec![]; 4]);
    }
    let records = file_of(&work);
    let lent = Lent {
        table: Vec::new(),
        ..Lent::to(&records)
    };
    let seen = ask(&records, &lent);
    assert_eq!(seen.findings()[2..6], [vec![], vec![], vec![48], vec![48]]);
    assert_eq!(seen.over, [255; 8]);
}

/// The first territory of the table, of the first transaction of the file.
#[test]
fn over_first() {
    let good = of_writer(&[]);
    let one = of_writer(&[of_pr("I0840", "10007")]);
    let two = of_writer(&[of_pr("I0840", "10007"), of_pr("I0250", "10007")]);
    let records = file_of(&[&good[..], &one, &two].concat());
    let seen = ask(&records, &Lent::to(&records));
    assert_eq!(seen.over, [1, 0, 0, 0, 5, 0, 0, 0]);
    let with_47 = |seen: &Seen| seen.findings().iter().filter(|f| f.contains(&47)).count();
    assert_eq!(with_47(&seen), 2);
    // In a later group, which falls: the findings are set as usual.
    let mut fallen = two;
    fallen[0] = over(nwr(""), &[(1, "REV")]);
    let first = [vec![hdr(), grh("")], good.clone(), vec![grt(""), grh("")]].concat();
    let records = [first, good, fallen, one, vec![grt(""), trl("")]].concat();
    let seen = ask(&records, &Lent::to(&records));
    assert_eq!(seen.answer, passes(2, 4, 17));
    assert_eq!(seen.over, [2, 0, 0, 0, 3, 0, 0, 0]);
    assert_eq!(seen.verdicts[5..16], [4; 11]);
    assert_eq!(seen.findings()[8], [0, 47]);
    assert_eq!(with_47(&seen), 2);
}

#[test]
fn refusal_13() {
    let records = file_of(&of_writer(&[]));
    let right = |entries: &[(&str, u16)]| {
        let lent = Lent {
            table: table(entries),
            ..Lent::to(&records)
        };
        let seen = ask(&records, &lent);
        let passed = seen.answer == passes(1, 1, 6);
        assert!(passed || (seen.answer == refusal(13, 0) && seen.untouched()));
        passed
    };
    assert!(right(&[]) && right(&WORLD));
    let none = 65_535;
    assert!(right(&[("    ", none), ("A   ", 0), ("   A", 1)]));
    assert!(!right(&[("0001", none), ("0001", none)]));
    assert!(!right(&[("0001", none), ("0002", none), ("0001", 1)]));
    // Own, later, beyond, the last that is a position.
    for position in [1, 2, 3, 256, 65_534] {
        assert!(!right(&[
            ("0001", none),
            ("0002", position),
            ("0003", none)
        ]));
    }
    assert!(!right(&[("0001", 0)]));
    // As many as there may be, each in the one before.
    let codes: Vec<String> = (0..513).map(|at| format!("{at:04}")).collect();
    let group = |at: usize| at.checked_sub(1).map_or(none, |group| group as u16);
    let entries: Vec<_> = (0..513).map(|at| (&codes[at][..], group(at))).collect();
    assert!(right(&entries[..512]) && !right(&entries));
    // The position's second byte counts: 257 is not 1.
    assert!(right(&[&entries[..300], &[("A   ", 257)]].concat()));
    assert!(!right(&[("0001", none), ("0002", none), ("0003", 257)]));
    for length in [1, 5, 7, 35, 3071, 3073, 3077] {
        let lent = Lent {
            table: vec![b' '; length],
            ..Lent::to(&records)
        };
        assert_eq!(ask(&records, &lent).answer, refusal(13, 0));
    }
    // Five bytes of an entry more.
    let mut long = table(&WORLD);
    long.extend(b"00010");
    let lent = Lent {
        table: long,
        ..Lent::to(&records)
    };
    assert_eq!(ask(&records, &lent).answer, refusal(13, 0));
}

/// A group that is only held through others, as deep as it can be.
#[test]
fn through_all_groups() {
    let codes: Vec<String> = (0..512).map(|at| format!("{at:04}")).collect();
    let group = |at: usize| at.checked_sub(1).map_or(65_535, |group| group as u16);
    let entries: Vec<_> = (0..512).map(|at| (&codes[at][..], group(at))).collect();
    let work = of_writer(&[of_pr("I0000", "10007"), of_pr("I0511", "10008")]);
    let records = file_of(&work);
    let lent = Lent {
        table: table(&entries),
        ..Lent::to(&records)
    };
    assert_eq!(ask(&records, &lent).over, [0, 0, 0, 0, 255, 1, 0, 0]);
    let work = of_writer(&[of_pr("I0000", "10007"), of_pr("E0511", "00000")]);
    let records = file_of(&work);
    assert_eq!(
        ask(&records, &lent_with(&records, lent.table)).over,
        [255; 8]
    );
}

fn lent_with(records: &[Vec<u8>], table: Vec<u8>) -> Lent {
    Lent {
        table,
        ..Lent::to(records)
    }
}

#[test]
fn refusal_14() {
    let claims = |number: usize| of_writer(&vec![of_pr("I0840", "00001"); number]);
    let records = file_of(&[claims(2), claims(3), claims(1), claims(4)].concat());
    let within = |entries: usize| {
        let lent = Lent {
            entries,
            ..Lent::to(&records)
        };
        let seen = ask(&records, &lent);
        let passed = seen.answer == passes(1, 4, 22);
        assert_eq!(seen.untouched(), !passed);
        assert!(!passed || seen.list.iter().all(|&byte| byte == 0));
        seen.answer
    };
    // The first that has more, by its header's place.
    assert_eq!(
        [0, 1, 2, 3].map(within),
        [2, 2, 6, 14].map(|place| refusal(14, place))
    );
    assert_eq!([4, 5].map(within), [passes(1, 4, 22); 2]);
    // Ignored ones take an entry too; other records none.
    let ignored = [
        vec![nwr(""), of_pr("I0840", "00000"), swr("")],
        vec![of_pr("X", "     "), detail("NWN"), detail("ALT")],
    ];
    let records = file_of(&ignored.concat());
    for (entries, answer) in [(1, refusal(14, 2)), (2, passes(1, 1, 10))] {
        let lent = Lent {
            entries,
            ..Lent::to(&records)
        };
        assert_eq!(ask(&records, &lent).answer, answer);
    }
    // A list of no entries is one.
    let records = file_of(&of_writer(&[]));
    let lent = Lent {
        entries: 0,
        ..Lent::to(&records)
    };
    assert_eq!(ask(&records, &lent).answer, passes(1, 1, 6));
}

/// 1, 2, 13, 3 to 11, 14.
#[test]
fn order_of_refusals() {
    let records = file_of(&of_writer(&[of_pr("I0840", "10007")]));
    let file = numbered(&records);
    let lent = |wrong: u32| Lent {
        tolerance: if wrong & 1 != 0 { 7 } else { 6 },
        table: if wrong & 2 != 0 {
            vec![0]
        } else {
            table(&WORLD)
        },
        over: if wrong & 4 != 0 { 7 } else { 8 },
        entries: if wrong & 8 != 0 { 0 } else { 1 },
        ..Lent::to(&records)
    };
    for wrong in 0..16 {
        let expected = match wrong {
            _ if wrong & 1 != 0 => refusal(1, 0),
            _ if wrong & 2 != 0 => refusal(13, 0),
            _ if wrong & 4 != 0 => refusal(11, 0),
            _ if wrong & 8 != 0 => refusal(14, 2),
            _ => passes(1, 1, 7),
        };
        let seen = ask_file(&file, &lent(wrong));
        assert_eq!(seen.answer, expected);
        assert_eq!(seen.untouched(), wrong != 0);
        // Any fault of the file stands between the tables and the room.
        let expected = match wrong {
            _ if wrong & 3 != 0 => expected,
            _ => refusal(7, 6),
        };
        let cut = &file[..file.len() - 26];
        assert_eq!(ask_file(cut, &lent(wrong)).answer, expected);
    }
    // 2 before 13.
    let wrong = Tables {
        categories: b"X",
        ..TABLES
    };
    let room = Room {
        list: &mut [],
        verdicts: &mut [],
        findings: &mut [],
        over: &mut [],
    };
    assert_eq!(check_claims(6, b"", &wrong, &[0], room), refusal(2, 2));
    // Room for records as in the other forms.
    for (verdicts, findings) in [(6, 56), (7, 55), (0, 0)] {
        let lent = Lent {
            verdicts,
            findings,
            ..Lent::to(&records)
        };
        let seen = ask_file(&file, &lent);
        assert!(seen.answer == refusal(11, 0) && seen.untouched());
    }
}

/// Bytes beyond what is written stay, but for the list.
#[test]
fn bytes_beyond() {
    let records = file_of(&of_writer(&[of_pr("I0840", "10007")]));
    let lent = Lent {
        verdicts: 9,
        findings: 60,
        over: 11,
        entries: 30,
        ..Lent::to(&records)
    };
    let seen = ask(&records, &lent);
    assert_eq!(seen.answer, passes(1, 1, 7));
    assert_eq!(seen.verdicts[7..], [9; 2]);
    assert_eq!(seen.findings[56..], [9; 4]);
    assert_eq!(seen.over, [0, 0, 0, 0, 5, 0, 0, 0, 9, 9, 9]);
    assert_eq!(seen.list, [0; 720]);
}

/// All but 47 and 48 is as in the form without territories.
#[test]
fn the_other_findings() {
    use crate::calls::{expected, Call, Guard};
    use crate::generate::{case, spread};
    let mut passed = 0;
    for seed in spread(6, 3000) {
        let case = case(seed).unwrap();
        if !case.calls.contains(&Call::Claims) {
            continue;
        }
        let claims = expected(&case.request(Call::Claims, Guard::None));
        let within = expected(&case.request(Call::Within, Guard::None));
        match claims.refusal() {
            13 => assert!(within.refusal() == 0 || within.refusal() > 2),
            11 | 14 => assert!(matches!(within.refusal(), 0 | 11)),
            0 => {
                assert_eq!(claims.packed, within.packed);
                for record in 0..claims.packed as usize {
                    let (set, without) = (claims.set(record), within.set(record));
                    assert_eq!(set & !(3 << 47), without);
                    assert_eq!(without >> 47, 0);
                }
                passed += 1;
            }
            _ => assert_eq!(claims.packed, within.packed),
        }
    }
    assert!(passed > 500, "{passed}");
}
