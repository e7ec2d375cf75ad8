//! Shares by territory: totals at the limit, parties, groups in groups, what is
//! ignored, where it is over first, lists and territory tables of every kind.

use super::add_with;
use crate::calls::Call;
use crate::generate::claims::{claim, starts, CLAIMS, PARTIES};
use crate::generate::right::{number, put, put_bytes};
use crate::generate::territories::{self, chain, code, flat, wide, Entry, USUAL};
use crate::generate::works::{complete, file, of, plain_work, publisher, writer, Records};
use crate::generate::{join, Case, Random};
use crate::reference::claims::ENTRY;
use crate::reference::territories::{MOST_TERRITORIES, NO_GROUP};
use crate::reference::types::{Class, TYPES};

pub fn all(all: &mut Vec<Case>) {
    limits(all);
    wrapped(all);
    parties(all);
    between(all);
    before(all);
    many(all);
    two_claims(all);
    two_parties(all);
    first_territory(all);
    marks(all);
    codes(all);
    shares(all);
    other_fields(all);
    several(all);
    shapes(all);
    lists(all);
    counts(all);
    tables(all);
    lengths(all);
}

/// A record by its name; a claim with its mark, its code and its three shares
/// besides, which need be none.
fn record(text: &str) -> Vec<u8> {
    let words: Vec<&str> = text.split_whitespace().collect();
    let name = words[0];
    let mut record = match name {
        "SPU" | "OPU" => publisher(name, "E ", [0; 3]),
        "SWR" | "OWR" => writer(name, "C ", [0; 3]),
        _ => of(name, &[]),
    };
    if let [_, mark, code, shares @ ..] = &words[..] {
        record = claim(name, mark, code.as_bytes(), [0; 3]);
        for (start, share) in starts(&record).into_iter().zip(shares) {
            put(&mut record, start, &format!("{share:0>5}"));
        }
    }
    record
}

/// A work of these records; its first writer owns all, if there is one.
fn work<T: AsRef<str>>(records: &[T]) -> Records {
    let mut work = vec![plain_work().remove(0)];
    work.extend(records.iter().map(|text| record(text.as_ref())));
    let is_writer = |record: &Vec<u8>| matches!(&record[..3], b"SWR" | b"OWR");
    if work.iter().any(is_writer) {
        complete(&mut work);
    }
    work
}

/// Adds a file of these works; what is lent can then be changed.
fn add<'a>(all: &'a mut Vec<Case>, kind: &str, works: Vec<Records>) -> &'a mut Case {
    let kind = format!("each claim: {kind}");
    add_with(all, kind, join(&file("NWR", works)), &[Call::Within])
}

/// Files of so many works each, where none decides what another shows.
fn add_some(all: &mut Vec<Case>, kind: &str, works: Vec<Records>) {
    for (part, works) in works.chunks(12).enumerate() {
        add(all, &format!("{kind}, part {part}"), works.to_vec());
    }
}

/// The kind of claim that belongs to a party.
fn of_party(party: &str) -> &'static str {
    match party {
        "SPU" => "SPT",
        "OPU" => "OPT",
        "SWR" => "SWT",
        _ => "OWT",
    }
}

/// A share of one right alone, in words.
fn alone(right: usize, share: usize) -> String {
    let mut shares = [0; 3];
    shares[right] = share;
    let [pr, mr, sr] = shares;
    format!("{pr} {mr} {sr}")
}

/// A party for each of these shares of a right, with its claim there.
fn claiming(code: &str, right: usize, shares: &[usize]) -> Vec<String> {
    let mut records = Vec::new();
    for (place, &share) in shares.iter().enumerate() {
        // From the end, so that one alone is a writer.
        let party = PARTIES[(6 - place % 4) % 4];
        let claim = of_party(party);
        records.push(party.to_string());
        records.push(format!("{claim} I {code} {}", alone(right, share)));
    }
    records
}

/// Each tolerance, each right alone: one below the limit, at it and one above.
fn limits(all: &mut Vec<Case>) {
    for tolerance in 0..=6 {
        for right in 0..3 {
            let mut works = Vec::new();
            for total in [9_999, 10_000, 10_001].map(|total| total + tolerance) {
                let forms = [
                    vec![total],
                    vec![total - 5_000, 5_000],
                    vec![1, total - 3, 0, 1, 1],
                    vec![2_500, 2_500, 2_500, total - 7_500],
                ];
                works.extend(forms.map(|shares| work(&claiming("0276", right, &shares))));
            }
            let kind = format!("limit of right {right}, tolerance {tolerance}");
            add(all, &kind, works).tolerance = tolerance as u64;
        }
    }
    // All rights below the limit, but not together.
    let together = ["SWR", "SWT I 0276 10006 10006 10006", "OWR"];
    add(all, "limit of each right", vec![work(&together)]);
}

/// Totals that are within the limit once they are cut to fewer bits, and shares
/// that are more than one party can have.
fn wrapped(all: &mut Vec<Case>) {
    for right in 0..3 {
        let totals = [
            vec![99_999],
            vec![65_536],
            vec![65_536, 10_000],
            vec![32_768, 32_768],
            vec![
                10_000, 10_000, 10_000, 10_000, 10_000, 10_000, 10_000, 5_536,
            ],
            vec![256],
            vec![10_240],
            vec![10_007 + 65_536],
        ];
        let works = totals.map(|shares| work(&claiming("0276", right, &shares)));
        add(
            all,
            &format!("wrapped total of right {right}"),
            works.into(),
        );
    }
}

/// Each kind of claim after each kind of party, and after each two.
fn parties(all: &mut Vec<Case>) {
    let mut works = Vec::new();
    for party in PARTIES {
        for claim in CLAIMS {
            let all = format!("{claim} I 0276 0 10007 0");
            works.push(work(&[party, &all]));
            let most = format!("{claim} I 0276 0 10006 0");
            works.push(work(&[party, &most]));
        }
        for other in PARTIES {
            for claim in CLAIMS {
                let one = format!("{} I 0276 0 0 6000", of_party(party));
                let two = format!("{claim} I 0276 0 0 4007");
                // Together, and overtaken where they were one party.
                works.push(work(&[party, &one, other, &two]));
            }
        }
        // One without claims between the two, and after them.
        let one = format!("{} I 0276 0 0 6000", of_party(party));
        works.push(work(&[party, &one, "SPU", "OPU", "SWR", "OWR"]));
        works.push(work(&[party, &one, "OPU", "SWR", "SWT I 0250 0 0 6000"]));
    }
    add_some(all, "party", works);
}

/// Each detail between a party and its claims, and between two of them: only
/// parties end what belongs to one.
fn between(all: &mut Vec<Case>) {
    let mut works = Vec::new();
    for row in TYPES.iter().filter(|row| row.class == Class::Detail) {
        for (party, claim) in [("SPU", "OPT"), ("OWR", "SWT")] {
            let more = format!("{claim} I 0276 6000 0 0");
            let less = format!("{claim} I 0276 5000 0 0");
            works.push(work(&[party, &more, row.name, &less]));
            let over = format!("{claim} I 0276 10007 0 0");
            works.push(work(&[party, row.name, &over]));
        }
    }
    add_some(all, "record between", works);
}

/// Claims before any party are nobody's; 48 is set on them all the same.
fn before(all: &mut Vec<Case>) {
    let mut works = Vec::new();
    for name in CLAIMS {
        let over = format!("{name} I 0276 10007 0 0");
        let wrong = format!("{name} X 0276 0 0 0");
        let some = format!("{name} I 0276 6000 0 0");
        let rest = "SWT I 0276 4007 0 0";
        works.push(work(&[&over[..], "SWR"]));
        works.push(work(&[&over[..]]));
        works.push(work(&[&wrong[..], "SWR"]));
        works.push(work(&[&over[..], &wrong, &over, "ALT", "SWR", rest]));
        works.push(work(&[&some[..], "SWR", rest]));
        works.push(work(&["PER", &over, "SWR", rest, "OWR", &some]));
        works.push(work(&["SWR", rest, &over]));
    }
    add_some(all, "before any party", works);
    // Nor the last party's of the work before.
    let works = vec![
        work(&["SWR", "SWT I 0276 6000 0 0"]),
        work(&["OWT I 0276 10007 0 0"]),
        work(&["SPT I 0276 6000 0 0", "SWR", "SWT I 0276 5000 0 0"]),
    ];
    add(all, "before any party, after another work", works);
}

/// More parties than a byte counts, of which the first and the last claim.
fn many(all: &mut Vec<Case>) {
    for parties in [255, 256, 257, 258] {
        let mut records = vec!["OWR"; parties];
        records.push("OWT I 0276 0 6000 0");
        records.insert(1, "OWT I 0276 0 4007 0");
        add(all, &format!("{parties} parties"), vec![work(&records)]);
    }
    for claims in [255, 256, 257, 258] {
        let mut records = vec!["SWR", "SWT I 0276 0 10007 0"];
        records.resize(claims + 1, "SWT I 0250 0 1 0");
        add(all, &format!("{claims} claims"), vec![work(&records)]);
        // The last of them counts.
        records.push("SWT E 2120 0 0 0");
        add(
            all,
            &format!("{claims} claims and one more"),
            vec![work(&records)],
        );
    }
}

/// Groups in groups, each held by the one before; and beside them others.
const DEEP: [Entry; 10] = [
    (*b"2136", NO_GROUP),
    (*b"2120", 0),
    (*b"2122", 1),
    (*b"0040", 1),
    (*b"2130", 2),
    (*b"0276", 4),
    (*b"2106", NO_GROUP),
    (*b"0756", 4),
    (*b"0840", 6),
    (*b"0702", NO_GROUP),
];

/// What two claims of one party can be: mark and share of each.
const FORMS: [[&str; 2]; 6] = [
    ["I 10007", "I 0"],
    ["I 0", "I 10007"],
    ["I 10007", "E 10007"],
    ["E 10007", "I 10007"],
    ["I 10007", "X 0"],
    ["I 10006", "I 10007"],
];

/// One claim on each territory and group, and each two of one party in either
/// order: the last that names a territory counts, be it the outer or the inner.
/// Each form is the first of some file.
fn two_claims(all: &mut Vec<Case>) {
    let text = |form: &str, (code, _): Entry| {
        let (mark, share) = form.split_once(' ').expect("two words");
        format!("SWT {mark} {} 0 {share} 0", words(code))
    };
    for (number, one) in DEEP.into_iter().enumerate() {
        let claim = text("I 10007", one);
        let case = add(all, &claim, vec![work(&["OWR", "SWR", &claim])]);
        case.territories = territories::of(&DEEP);
        for (place, other) in DEEP.into_iter().enumerate() {
            let mut forms = FORMS;
            forms.rotate_left((number + place) % FORMS.len());
            let works =
                forms.map(|form| work(&["SWR", &text(form[0], one), &text(form[1], other)]));
            let kind = format!("{} then {} of one party", words(one.0), words(other.0));
            add(all, &kind, works.into()).territories = territories::of(&DEEP);
        }
    }
}

/// Each two territories or groups, one for each of two parties.
fn two_parties(all: &mut Vec<Case>) {
    for (number, (one, _)) in DEEP.into_iter().enumerate() {
        let mut others = DEEP;
        others.rotate_left(number);
        let works = others.map(|(other, _)| {
            let claims = [
                format!("OPT I {} 6000 0 0", words(one)),
                format!("OWT I {} 4007 0 0", words(other)),
            ];
            work(&["SPU", &claims[0], "OWR", &claims[1]])
        });
        let kind = format!("{} of one party and all of another", words(one));
        add(all, &kind, works.into()).territories = territories::of(&DEEP);
    }
}

/// A code that is text.
fn words(code: [u8; 4]) -> String {
    String::from_utf8_lossy(&code).into_owned()
}

/// Over in two territories, of the same right or of others: the first of the
/// table is answered, whichever is claimed first.
fn first_territory(all: &mut Vec<Case>) {
    let memberless = [0, 2, 4, 5, 6, 7].map(|at| USUAL[at].0);
    for (number, one) in memberless.into_iter().enumerate() {
        for (place, other) in memberless.into_iter().enumerate() {
            let [one, other] = [one, other].map(words);
            let rights = [number % 3, place % 3];
            let claims = [
                format!("SWT I {one} {}", alone(rights[0], 10_007)),
                format!("SWT I {other} {}", alone(rights[1], 10_007)),
            ];
            let kind = format!("{}, {}", claims[0], claims[1]);
            add(all, &kind, vec![work(&["SWR", &claims[0], &claims[1]])]);
        }
    }
    // Each group by a claim on itself alone, after claims that are not over.
    for (code, _) in USUAL {
        let code = words(code);
        let over = format!("SPT I {code} 0 0 10007");
        let records = ["SWR", "SWT I 0840 0 10006 0", "SPU", &over];
        add(all, &format!("{code} after another"), vec![work(&records)]);
    }
}

/// Each byte in the mark's place, behind a claim that it would end.
fn marks(all: &mut Vec<Case>) {
    for (party, name) in [("SWR", "SWT"), ("OPU", "OPT")] {
        let mut works = Vec::new();
        for byte in 32..=255 {
            let over = format!("{name} I 0276 10007 0 0");
            let nothing = format!("{name} I 0276 0 0 0");
            let mut work = work(&[party, &over, &nothing]);
            let mark = starts(&work[3])[3];
            work[3][mark - 1] = byte;
            works.push(work);
        }
        add_some(all, &format!("mark of {name}"), works);
    }
}

/// Codes that the table hasn't: one byte off, blank, in other places, of its
/// bytes beside the codes. They hide no claim before them, and count nowhere.
fn codes(all: &mut Vec<Case>) {
    let mut missing: Vec<[u8; 4]> = Vec::new();
    for at in 0..4 {
        for byte in b" 0139/:A\x7f\xff" {
            let mut code = *b"0276";
            code[at] = *byte;
            missing.push(code);
        }
    }
    missing.extend([*b"    ", *b"2760", *b"6027", *b"276 ", *b" 276", *b"0I27"]);
    // Across two entries: what stands between is 255 twice.
    missing.extend([
        *b"40\xff\xff",
        *b"0\xff\xff2",
        *b"\xff\xff21",
        *b"2\xff\xff ",
    ]);
    let mut works = Vec::new();
    for name in CLAIMS {
        for code in &missing {
            let mut one = work(&["SWR", "SWT I 0276 10007 0 0"]);
            one.push(claim(name, "I", code, [0; 3]));
            works.push(one);
            let mut other = work(&["SWR"]);
            other.push(claim(name, "I", code, [10_007; 3]));
            works.push(other);
        }
    }
    add_some(all, "code", works);
    // Blank and odd ones that the table has.
    for code in [*b"    ", *b"\xff\xff\xff\xff", *b"2WL ", *b"0000", *b"IIII"] {
        let table = [(*b"2136", NO_GROUP), (code, 0), (*b"0840", NO_GROUP)];
        let mut work = work(&["SWR"]);
        work.push(claim("SWT", "I", &code, [0, 0, 10_007]));
        let kind = format!("code \"{}\"", code.escape_ascii());
        add(all, &kind, vec![work]).territories = territories::of(&table);
    }
}

/// Each byte of each share something else than a digit; and an exclude with
/// shares, that are none or are.
fn shares(all: &mut Vec<Case>) {
    let mut works = Vec::new();
    for name in CLAIMS {
        for right in 0..3 {
            for digit in 0..5 {
                for byte in b" /:-" {
                    let mut work = work(&["SWR", "SWT I 0276 0 0 10007"]);
                    let mut ignored = claim(name, "I", b"0276", [0; 3]);
                    let start = starts(&ignored)[right];
                    ignored[start - 1 + digit] = *byte;
                    work.push(ignored);
                    works.push(work);
                }
            }
        }
    }
    for share in [
        "00000", "99999", "0000A", "     ", "1    ", "+0001", "0x000",
    ] {
        for mark in ["I", "E"] {
            for right in 0..3 {
                let mut work = work(&["SWR", "SWT I 0276 0 10007 0"]);
                let mut last = claim("SWT", mark, b"0276", [0; 3]);
                let start = starts(&last)[right];
                put(&mut last, start, share);
                work.push(last);
                works.push(work);
            }
        }
    }
    add_some(all, "share", works);
}

/// All that is not read says something else; and the fields stand where the
/// other kind of claim has its own.
fn other_fields(all: &mut Vec<Case>) {
    let mut works = Vec::new();
    for name in CLAIMS {
        for filler in [b'9', b'I', b'E', b' ', b'0'] {
            let mut right = claim(name, "I", b"0276", [0, 10_007, 0]);
            let read = starts(&right)[0] - 1;
            right[19..read].fill(filler);
            let end = starts(&right)[4] + 3;
            right[end..].fill(filler);
            let mut one = work(&["SWR"]);
            one.push(right);
            works.push(one);
        }
        let other = if name.ends_with("PT") { "SWT" } else { "SPT" };
        let mut moved = claim(other, "I", b"0276", [10_007; 3]);
        put(&mut moved, 1, name);
        moved.resize(of(name, &[]).len(), b' ');
        let mut one = work(&["SWR"]);
        one.push(moved);
        works.push(one);
        // The party's number is not read.
        let mut two = work(&["SWR", "SWT I 0276 6000 0 0", "OWR"]);
        put_bytes(&mut two[2], 20, b"1");
        let mut claim = claim(name, "I", b"0276", [4_007, 0, 0]);
        put(&mut claim, 20, "1");
        two.push(claim);
        works.push(two);
    }
    add_some(all, "other field", works);
}

/// How many transactions each group of these files has.
const GROUPS: [usize; 4] = [2, 3, 1, 2];

/// The records of these works in such groups.
fn grouped(works: Vec<Records>) -> Records {
    let mut works = works.into_iter();
    let mut records = vec![of("HDR", &[(102, "2.2001")])];
    for transactions in GROUPS {
        records.push(of("GRH", &[(4, "NWR")]));
        records.extend(works.by_ref().take(transactions).flatten());
        records.push(of("GRT", &[]));
    }
    records.push(of("TRL", &[]));
    number(&mut records);
    records
}

/// Over in each transaction alone, in each two in other territories, beside
/// claims that are wrong, and in a group that falls by another header or its own.
fn several(all: &mut Vec<Case>) {
    let least = || work(&["SWR", "SWT I 2136 10006 10006 10006"]);
    let over = |code: &str| work(&["SWR".to_string(), format!("SWT I {code} 0 10007 0")]);
    let wrong = || work(&["SWR", "SWT I 0276 1000 0 0", "SWT I 9999 99999 0 0"]);
    let number: usize = GROUPS.iter().sum();
    let mut add = |kind: String, works: Vec<Records>| {
        let kind = format!("each claim: {kind}");
        add_with(all, kind, join(&grouped(works)), &[Call::Within]);
    };
    add("none of several".to_string(), vec![least(); number]);
    for at in 0..number {
        let mut works = vec![least(); number];
        works[at] = over("0756");
        add(format!("over in {at}"), works.clone());
        // 48 alone before it, and in its own work too.
        works[0].extend(wrong()[3..].to_vec());
        works[at].extend(wrong()[3..].to_vec());
        add(format!("wrong in 0, over in {at}"), works.clone());
        for falls in [at, (at + 1) % number] {
            let mut works = works.clone();
            put(&mut works[falls][0], 1, "REV");
            add(format!("over in {at}, another type in {falls}"), works);
        }
        for later in at + 1..number {
            for (one, other) in [("0756", "0840"), ("0840", "0756")] {
                let mut works = vec![least(); number];
                works[at] = over(one);
                works[later] = over(other);
                add(format!("over in {at} and {later}, {one} first"), works);
            }
        }
    }
    // More than a byte counts.
    for at in [127, 128, 255, 256, 298] {
        let mut works = vec![least(); 300];
        works[at] = over("0250");
        works[299] = over("0840");
        let kind = format!("each claim: over in {at} of 300");
        add_with(all, kind, join(&file("NWR", works)), &[Call::Within]);
    }
}

/// Tables as large as they can be: of no groups, each in the one before, all in
/// one, and as many groups in groups as territories in the innermost.
fn shapes(all: &mut Vec<Case>) {
    let half = MOST_TERRITORIES / 2;
    let mut leaves = chain(half);
    leaves.extend((half..MOST_TERRITORIES).map(|at| (code(at), half as u16 - 1)));
    let shapes = [
        ("flat", flat(MOST_TERRITORIES)),
        ("chain", chain(MOST_TERRITORIES)),
        ("wide", wide(MOST_TERRITORIES)),
        ("leaves", leaves),
    ];
    let text = |mark: &str, at: usize, share: usize| format!("SWT {mark} {at:04} 0 {share} 0");
    for (name, table) in shapes {
        let table = territories::of(&table);
        for at in [0, 1, 255, 256, 511] {
            let mut add = |kind: String, records: &[&str]| {
                let kind = format!("{name}, {kind}");
                add(all, &kind, vec![work(records)]).territories = table.clone();
            };
            let over = text("I", at, 10_007);
            add(format!("over in {at}"), &["SWR", &over]);
            let less = text("I", at, 10_006);
            add(format!("not over in {at}"), &["SWR", &less]);
            for inner in [511, 256, 1] {
                let not = text("E", inner, 0);
                add(format!("{at} without {inner}"), &["SWR", &over, &not]);
                let with = [&text("I", 0, 6_000), "OWR", &text("I", at, 4_007)];
                let two = ["SWR", with[0], with[1], with[2], &text("E", inner, 0)];
                add(format!("0 and {at}, of one without {inner}"), &two);
            }
        }
    }
}

/// A work of so many claims; if they are wrong, they are ignored, and a third of
/// them stand before any party.
fn with_claims(claims: usize, wrong: bool) -> Records {
    let text = if wrong {
        "SWT X 0276 0 0 0"
    } else {
        "SWT I 0276 1 0 0"
    };
    let mut records = vec![text; claims];
    records.insert(if wrong { claims / 3 } else { 0 }, "SWR");
    work(&records)
}

fn shorten(bytes: &mut Vec<u8>) {
    bytes.pop();
}

/// Works of some claims each, and lists of every length: refused where there are
/// more in one, by the first such; and beside all that is refused before.
fn lists(all: &mut Vec<Case>) {
    // What else is wrong.
    type Wrong = (&'static str, fn(&mut Case));
    let others: [Wrong; 12] = [
        ("", |_| {}),
        (", over short", |case| case.over.truncate(7)),
        (", no over", |case| case.over.clear()),
        (", verdicts short", |case| shorten(&mut case.verdicts)),
        (", findings short", |case| shorten(&mut case.findings)),
        (", tolerance 7", |case| case.tolerance = 7),
        (", table wrong", |case| case.tables[1].push(b'0')),
        (", territories wrong", |case| shorten(&mut case.territories)),
        (", no territories", |case| case.territories.clear()),
        (", version wrong", |case| case.file[101] = b'3'),
        (", TRL wrong", |case| {
            let last = case.file.len() - 3;
            case.file[last] = b'X';
        }),
        (", text at the end", |case| case.file.push(b'X')),
    ];
    let claims = [3, 1, 4, 1, 5, 0, 2, 6];
    for entries in 0..=8 {
        for (words, change) in others {
            let works = claims.map(|claims| with_claims(claims, claims % 2 == 0));
            let kind = format!("each claim: list of {entries}{words}");
            let file = join(&grouped(works.into()));
            let case = add_with(all, kind, file, &[Call::Within]);
            case.claims = Random::new(case.seed).pattern(ENTRY * entries);
            change(case);
        }
    }
    // As it was left by a call before, and full of ones.
    for byte in [0, 1, 255] {
        for entries in [4, 6, 9] {
            let works = claims.map(|claims| with_claims(claims, false));
            let kind = format!("each claim: list of {entries} of bytes {byte}");
            let file = join(&grouped(works.into()));
            let case = add_with(all, kind, file, &[Call::Within]);
            case.claims = vec![byte; ENTRY * entries];
        }
    }
    // Over before and after the work that has too many.
    for (one, other) in [(1, 3), (3, 1), (3, 3), (1, 1)] {
        let mut works = vec![with_claims(one, false), with_claims(other, false)];
        for work in &mut works {
            let last = work.len() - 1;
            work[last] = record("SWT I 0276 0 10007 0");
        }
        let case = add(all, &format!("list of 2, over in {one} and {other}"), works);
        case.claims = Random::new(case.seed).pattern(2 * ENTRY);
    }
}

/// More claims than a byte counts.
fn counts(all: &mut Vec<Case>) {
    for claims in [255, 256, 257, 258, 513] {
        for entries in [0, 1, 2, 254, 255, 256, 257, 512, 513, 514] {
            let works = vec![with_claims(1, false), with_claims(claims, claims % 2 == 0)];
            let case = add(all, &format!("{claims} claims, list of {entries}"), works);
            case.claims = Random::new(case.seed).pattern(ENTRY * entries);
        }
    }
}

/// Territory tables of every length, with a code twice, and with positions that
/// are earlier and not.
fn tables(all: &mut Vec<Case>) {
    let works = || vec![work(&["SWR", "SWT I 0001 0 10007 0", "SWT I 0276 0 0 0"])];
    let mut add = |kind: String, table: Vec<u8>| {
        let case = self::add(all, &format!("table {kind}"), works());
        case.territories = table.clone();
        // Before all of the file; of some, since there are many.
        if all.len().is_multiple_of(4) {
            let kind = format!("each claim: table {kind}, no file");
            add_with(all, kind, Vec::new(), &[Call::Within]).territories = table;
        }
    };
    let full = 6 * MOST_TERRITORIES;
    let lengths = (0..=25).chain(full - 7..=full + 13);
    for length in lengths.chain([2 * full, 6 * 1025, 65_536, 65_538, 196_608]) {
        let mut table = territories::of(&flat(length / 6 + 1));
        table.truncate(length);
        add(format!("of {length} bytes"), table);
    }
    // A code twice: neighbours, ends, groups and what they hold.
    for (one, other) in [(0, 1), (0, 7), (6, 7), (1, 3), (3, 6), (4, 5), (2, 0)] {
        let mut table = USUAL;
        table[other].0 = table[one].0;
        add(
            format!("with {one} again at {other}"),
            territories::of(&table),
        );
    }
    for (one, other) in [(0, 511), (255, 256), (0, 256), (510, 511)] {
        let mut table = flat(MOST_TERRITORIES);
        table[other].0 = table[one].0;
        let kind = format!("of 512 with {one} again at {other}");
        add(kind, territories::of(&table));
    }
    // Alike but for one byte, which may be one that no file has.
    for at in 0..4 {
        for byte in [0, 10, 13, 31, b' ', 127, 128, 255] {
            let mut code = *b"0001";
            code[at] = byte;
            let table = [(*b"0001", NO_GROUP), (code, NO_GROUP), (*b"0002", 1)];
            let table = territories::of(&table);
            add(format!("with byte {byte} at {at}"), table);
        }
    }
    positions(&mut add);
}

/// Each position of an entry among some, in small and in large tables.
fn positions(add: &mut impl FnMut(String, Vec<u8>)) {
    for at in [0, 1, 5, 7] {
        let near = (0..=10).chain([255, 256, 257, 511, 512, 513]);
        let bytes = [at as u16 + 256, at as u16 * 256, 0x00ff, 0xff00, 0xfeff];
        for position in near.chain(bytes).chain([32_767, 32_768, 65_534, 65_535]) {
            let mut table = flat(8);
            table[at].1 = position;
            let kind = format!("with {position} at {at}");
            add(kind, territories::of(&table));
        }
    }
    for at in [255, 256, 257, 511] {
        for position in [0, 1, 254, 255, 256, 257, 258, 510, 511, 512, 65_534] {
            let mut table = flat(MOST_TERRITORIES);
            table[at].1 = position;
            let kind = format!("of 512 with {position} at {at}");
            add(kind, territories::of(&table));
        }
    }
}

/// What is lent for the answer, longer and shorter, passed and not; with a list
/// of no entries where there are no claims.
fn lengths(all: &mut Vec<Case>) {
    for length in (0..=9).chain([12, 16, 24, 100]) {
        for share in [10_006, 10_007] {
            let claim = format!("SWT I 0756 0 0 {share}");
            let case = add(
                all,
                &format!("over of {length} bytes, {share}"),
                vec![work(&["SWR", "SWT I 2136 1 1 1"]), work(&["SWR", &claim])],
            );
            case.over = Random::new(case.seed).pattern(length);
        }
    }
    for entries in [0, 1, 2, 5] {
        let case = add(
            all,
            &format!("no claims, list of {entries}"),
            vec![plain_work()],
        );
        case.claims = Random::new(case.seed).pattern(ENTRY * entries);
    }
    for (verdicts, findings, over) in [(7, 56, 8), (6, 56, 8), (7, 55, 8), (9, 64, 9)] {
        let kind = format!("buffers of {verdicts}, {findings} and {over} bytes");
        let case = add(all, &kind, vec![work(&["SWR", "SWT I 0756 0 0 10007"])]);
        let mut random = Random::new(case.seed);
        case.verdicts = random.pattern(verdicts);
        case.findings = random.pattern(findings);
        case.over = random.pattern(over);
    }
}
