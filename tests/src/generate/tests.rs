//! The made files are what their kinds say.

mod claims;
mod tolerances;

use std::collections::{HashMap, HashSet};

use super::damage::{all, FAMILIES};
use super::*;
use crate::calls::{expected, two_buffers};
use crate::read_off::{transactions, REJECTING};
use crate::reference::first::NO_TRANSACTION;
use crate::reference::sheet::{Sheet, MOST_FILES};
use crate::reference::types::{find, Class, TYPES};
use crate::reference::{listing, numbering, structure, Answer};

fn refusal(answer: Answer) -> u32 {
    match answer {
        Answer::Refused { number, .. } => number,
        Answer::Passed { .. } => 0,
    }
}

#[test]
fn right_files_pass() {
    let (mut types, mut bytes, mut most) = (HashSet::new(), HashSet::new(), 0);
    let mut revisions = HashSet::new();
    for seed in 0..1500 {
        let records = right::records(&mut Random::new(seed));
        let file = join(&records);
        let of = |class| {
            records
                .iter()
                .filter(|r| find(r).unwrap().class == class)
                .count()
        };
        let expected = Answer::Passed {
            groups: of(Class::Grh) as u64,
            transactions: of(Class::Header) as u64,
            records: records.len() as u64,
        };
        assert_eq!(structure(&file), expected);
        let mut out = vec![0; file.len()];
        assert_eq!(numbering(&file, &mut out), expected);
        assert_eq!(out, file);
        most = most.max(records.len());
        revisions.insert(records[0][104..107].to_vec());
        types.extend(records.iter().map(|r| r[..3].to_vec()));
        bytes.extend(file);
    }
    assert_eq!(types.len(), 38);
    assert_eq!(revisions.len(), 3);
    assert!(most > 200, "{most}");
    assert!((32..=255).all(|byte| bytes.contains(&byte)));
}

/// What works are made for here.
fn with_lent<T>(seed: u64, make: impl Fn(&Lent, &mut Random) -> T) -> T {
    let mut random = Random::new(seed);
    let tables = lent::tables(&mut random);
    let lent = Lent {
        tables: &tables,
        territories: &territories::usual(),
        tolerance: lent::tolerance(&mut random),
    };
    make(&lent, &mut random)
}

#[test]
fn works_pass() {
    let (mut types, mut sizes) = (HashSet::new(), 0);
    for seed in 0..2000 {
        let records = with_lent(seed, works::records);
        let file = join(&records);
        assert_eq!(refusal(structure(&file)), 0);
        sizes += file.len();
        types.extend(records.iter().map(|r| r[..3].to_vec()));
    }
    assert_eq!(types.len(), 38);
    // Small, since there are many.
    assert!(sizes / 2000 < 5000, "{sizes}");
}

/// Many transactions have no finding or one, and each finding is the only one
/// of some transaction; but 4 never comes without 5.
#[test]
fn works_are_nearly_right() {
    let (mut alone, mut by_number) = (HashMap::new(), [0; 65]);
    let seeds = [1, 2].into_iter().flat_map(|run| seeds(run, 9000));
    for seed in seeds.filter(|&seed| matches!(kind(seed), Kind::Works)) {
        let case = case(seed).unwrap();
        // In the form that it is made for.
        let check = case.calls.iter().rfind(|call| call.is_check()).unwrap();
        let reply = expected(&case.request(*check, Guard::None));
        if reply.refusal() != 0 {
            continue;
        }
        let lines = crate::reference::lines::lines(&case.file);
        let mut sets: Vec<u64> = Vec::new();
        for (record, line) in lines.iter().enumerate() {
            match find(line.text).unwrap().class {
                Class::Header => sets.push(reply.set(record)),
                Class::Detail => *sets.last_mut().unwrap() |= reply.set(record),
                _ => {}
            }
        }
        for set in sets {
            by_number[set.count_ones() as usize] += 1;
            if set.count_ones() == 1 {
                *alone.entry(set.trailing_zeros()).or_insert(0) += 1;
            }
        }
    }
    let all: i32 = by_number.iter().sum();
    assert!(
        by_number[0] * 6 > all && by_number[1] * 6 > all,
        "{by_number:?}"
    );
    let missing: Vec<_> = (0..47)
        .filter(|finding| !alone.contains_key(finding))
        .collect();
    assert_eq!(missing, [4], "{alone:?}");
}

#[test]
fn unnumbered_files_become_right_ones() {
    for seed in 0..500 {
        for records in [
            right::records(&mut Random::new(seed)),
            with_lent(seed, works::records),
        ] {
            let right = join(&records);
            let mut unnumbered = records;
            damage::unnumber(&mut unnumbered, &mut Random::new(seed));
            let file = join(&unnumbered);
            let mut out = vec![0; file.len()];
            assert_eq!(numbering(&file, &mut out), structure(&right));
            assert!(out == right, "{seed}");
        }
    }
}

#[test]
fn a_seed_gives_the_same_file() {
    for seed in seeds(5, 300) {
        let (one, other) = (case(seed).unwrap(), case(seed).unwrap());
        assert_eq!(one.kind, other.kind);
        assert_eq!(one.file, other.file);
        assert_eq!(one.tables, other.tables);
        assert_eq!(one.territories, other.territories);
        assert_eq!(one.tolerance, other.tolerance);
        assert_eq!(one.verdicts, other.verdicts);
        assert_eq!(one.findings, other.findings);
        assert_eq!(one.claims, other.claims);
        assert_eq!(one.over, other.over);
        assert_eq!(one.out, other.out);
        assert_eq!(one.set, other.set);
        assert_eq!(one.records, other.records);
        assert_eq!(one.sheet, other.sheet);
        assert_eq!(one.calls, other.calls);
    }
}

#[test]
fn every_seed_gives_a_file() {
    for run in 0..6 {
        for seed in seeds(run, FILES_WITH_ONCE - 1) {
            assert!(case(seed).unwrap().file.len() < 1_000_000);
        }
    }
}

#[test]
fn each_damage_reaches_its_refusal() {
    let mut names = HashSet::new();
    for damage in all() {
        assert!(names.insert(&damage.name), "{} twice", damage.name);
        assert!(FAMILIES.contains(&damage.family));
        let kind = Kind::Damaged(vec![damage]);
        let reached = (0..400).any(|seed| {
            let answer = structure(&with_lent(seed, |lent, random| file(&kind, lent, random)));
            damage.family == 0 || refusal(answer) == damage.family
        });
        assert!(reached, "{} never brings {}", damage.name, damage.family);
    }
}

/// Numbering changes nothing in a file that passes, makes one of any other that
/// it takes, and leaves the bytes beyond.
#[test]
fn promises_of_numbering() {
    let mut numbered = 0;
    for seed in seeds(3, 2500) {
        let case = case(seed).unwrap();
        let (file, mut out) = (&case.file, case.out.clone());
        let answer = numbering(file, &mut out);
        if refusal(answer) != 0 {
            assert_eq!(out, case.out);
            continue;
        }
        numbered += 1;
        let (written, beyond) = out.split_at(file.len());
        assert_eq!(beyond, &case.out[file.len()..]);
        assert_eq!(structure(written), answer);
        if structure(file) == answer {
            assert_eq!(written, file);
        } else {
            assert!(matches!(refusal(structure(file)), 8 | 9));
            assert_ne!(written, file);
        }
    }
    assert!(numbered > 500);
}

#[test]
fn boundary_answers() {
    // The refusals of the calls that judge a file, in their order, 0 for passed.
    let expected_answers: [&[u64]; 42] = [
        &[3, 3, 3],
        &[6, 6],
        &[5, 5],
        &[4, 4, 4, 4],
        &[4, 4, 4],
        &[0],
        &[0],
        &[0],
        &[0],
        &[0, 0, 0, 0],
        &[0, 0],
        &[11],
        &[0],
        &[3, 3],
        &[4, 4, 4],
        &[5, 5, 5],
        &[11],
        &[0],
        &[5, 5, 5, 5],
        &[5, 5, 5],
        &[4, 4],
        &[6, 6],
        &[7, 7],
        &[9, 10],
        &[10, 10, 10],
        &[0, 0, 0, 0],
        &[8],
        &[0, 0, 0, 0],
        &[8],
        &[9],
        &[0, 0, 0, 0],
        &[11],
        &[11],
        &[0],
        &[0],
        &[0],
        &[0],
        &[14],
        &[14],
        &[0],
        &[0],
        &[0],
    ];
    assert_eq!(boundary::number(), expected_answers.len() as u64);
    for (seed, refusals) in expected_answers.into_iter().enumerate() {
        let case = case(seed as u64).unwrap();
        let answer = |&call| expected(&case.request(call, Guard::None)).refusal();
        let (judging, others) = case.calls.split_at(case.calls.len() - 2);
        let answers: Vec<_> = judging.iter().map(answer).collect();
        assert_eq!(
            (answers.as_slice(), others),
            (refusals, &[Call::First, Call::Record][..]),
            "{}",
            case.kind
        );
        // As the check, but that no room is needed; numbering looks at less.
        let first = answer(&Call::First);
        match (judging[0], refusals[0]) {
            (_, 11 | 14) => assert_eq!(first, 0),
            (Call::Number, 0) => assert_eq!(first, 8),
            (_, refusal) => assert_eq!(first, refusal),
        }
    }
    // The last transaction of so many.
    for (seed, transaction) in [(40, 37_784), (41, 32_702)] {
        let request = case(seed).unwrap().request(Call::First, Guard::None);
        assert_eq!(expected(&request).packed, transaction);
    }
    // What is over there.
    for (seed, over) in [(34, [0, 4]), (35, [0, 4]), (36, [0, 0]), (39, [37_784, 6])] {
        let request = case(seed).unwrap().request(Call::Claims, Guard::None);
        assert_eq!(expected(&request).over(), over);
    }
    assert!(case(boundary::number()).is_none());
    assert!(case(each::FIRST + each::number()).is_none());
}

/// Every call that takes a file answers the scope's file of two faults by 6
/// at 9.
#[test]
fn two_faults() {
    let mut cases = (each::FIRST..).map_while(case);
    let kind = "bad length in record 9 and a second HDR at 3";
    let case = cases.find(|case| case.kind == kind).unwrap();
    let answered = |call| expected(&case.request(call, Guard::None)).packed;
    let calls = [
        Call::Check,
        Call::Within,
        Call::Number,
        Call::Structure,
        Call::Counted,
    ];
    assert_eq!(calls.map(answered), [0x6_0000_0009; 5]);
    assert_eq!(answered(Call::First), 0x6_0000_0009);
    assert_eq!(listing(&case.file), b"REFUSED 6 9\n");
    assert_eq!(answered(Call::Claims), 0x6_0000_0009);
    let others = [Call::Listing, Call::Claims, Call::First, Call::Record];
    assert_eq!(case.calls, [&calls[..], &others].concat());
}

/// Totals and numbers that do not fit 32 or 16 bits.
#[test]
fn large_totals() {
    for (kind, header, detail) in [
        ("92,000 writers", vec![2, 3], vec![41]),
        ("42,951 writers", vec![2, 3], vec![41]),
        ("42,951 publishers", vec![1, 3, 11], vec![30]),
        ("65,537 publishers", vec![1, 3, 11], vec![]),
    ] {
        let mut cases = limits().into_iter().map(|seed| case(seed).unwrap());
        let case = cases.find(|case| case.kind.starts_with(kind)).unwrap();
        let reply = expected(&case.request(Call::Within, Guard::None));
        let set = |findings: Vec<u32>| findings.iter().map(|n| 1 << n).sum::<u64>();
        assert_eq!(
            (reply.set(2), reply.set(3)),
            (set(header), set(detail)),
            "{kind}"
        );
    }
}

/// Writers' PR at each limit of finding 2 and one off it, with every tolerance:
/// of one writer and of several, with a publisher and without.
#[test]
fn totals_of_writers() {
    let mut made = HashSet::new();
    for case in (each::FIRST..each::FIRST + each::number()).filter_map(case) {
        if !case.kind.starts_with("each total, ") {
            continue;
        }
        // Of each work: publishers, writers, and the writers' PR.
        let mut works: Vec<[u64; 3]> = Vec::new();
        for record in texts(&case.file) {
            match (&record[..3], works.last_mut()) {
                (b"NWR", _) => works.push([0; 3]),
                (b"SPU", Some(work)) => work[0] += 1,
                (b"SWR" | b"OWR", Some(work)) => {
                    let share = std::str::from_utf8(&record[129..134]).unwrap();
                    work[1] += 1;
                    work[2] += share.parse::<u64>().unwrap();
                }
                _ => {}
            }
        }
        for [publishers, writers, pr] in works {
            made.insert((case.tolerance, publishers > 0, writers > 1, pr));
        }
    }
    for t in 0..=6 {
        for pr in [0, t, t + 1, 4999 - t, 5000 - t] {
            for publisher in [false, true] {
                for several in [false, true] {
                    let work = (t, publisher, several, pr);
                    assert!(made.contains(&work), "{work:?}");
                }
            }
        }
    }
}

#[test]
fn a_run_is_wide() {
    let (mut damages, mut wrong_steps, mut ends) = (HashMap::new(), HashSet::new(), HashSet::new());
    let mut wrong_bytes: HashMap<_, u32> = HashMap::new();
    let seeds = seeds(0, 20_000);
    assert_eq!(seeds.len(), 20_000);
    assert_eq!(seeds.iter().collect::<HashSet<_>>().len(), 20_000);
    for seed in seeds {
        if seed >= FIRST_SEED {
            if let Kind::Damaged(list) = kind(seed) {
                for damage in list {
                    *damages.entry(damage.name.clone()).or_insert(0) += 1;
                }
            }
        } else if seed < each::FIRST {
            continue;
        }
        let case = case(seed).unwrap();
        let Answer::Refused { number, place } = structure(&case.file) else {
            continue;
        };
        if !(7..=9).contains(&number) {
            continue;
        }
        let place = place as usize;
        let lines = crate::reference::lines::lines(&case.file);
        let classes: Vec<_> = lines.iter().map(|l| find(l.text).unwrap().class).collect();
        if number == 7 {
            let before = place.checked_sub(1).map(|at| format!("{:?}", classes[at]));
            match classes.get(place) {
                Some(class) => wrong_steps.insert((before, format!("{class:?}"))),
                None => ends.insert(before),
            };
            continue;
        }
        // A number that is the record's only wrong one, in one byte only.
        let record = lines[place].text;
        let numbers = &crate::reference::numbers::right_numbers(&classes)[place];
        let differing: Vec<_> = numbers
            .iter()
            .flat_map(|n| (0..n.digits.len()).map(move |i| (n.start + i, n.digits.as_bytes()[i])))
            .filter(|&(position, digit)| record[position - 1] != digit)
            .collect();
        if let [(position, _)] = differing[..] {
            let class = format!("{:?}", classes[place]);
            *wrong_bytes.entry((class, position)).or_default() += 1;
        }
    }
    // Each damage, each step that is none, each byte of each number.
    for damage in all() {
        assert!(
            damages.contains_key(&damage.name),
            "{} missing",
            damage.name
        );
    }
    assert_eq!(wrong_steps.len(), 7 * 6 - 11);
    assert_eq!(ends.len(), 6);
    assert_eq!(wrong_bytes.len(), 5 + 2 * 16 + 2 * 21);
    assert!(
        wrong_bytes.values().all(|&times| times >= 2),
        "{wrong_bytes:?}"
    );
}

/// The records whose types' lengths are asked: those of every file, and what no
/// file has.
#[test]
fn records_of_every_kind() {
    let mut records = HashSet::new();
    for seed in each::FIRST..each::FIRST + each::number() {
        let case = case(seed).unwrap();
        let asked = case.calls.contains(&Call::Record);
        assert_eq!(
            asked,
            !case.file.is_empty() || !case.records.is_empty(),
            "{}",
            case.kind
        );
        records.extend(case.records);
    }
    for row in &TYPES {
        let name = row.name.as_bytes();
        assert!(records.contains(name) && records.contains(&right::plain(row)));
        for at in 0..3 {
            for byte in 0..=255 {
                let mut near = name.to_vec();
                near[at] = byte;
                assert!(records.contains(&near), "{near:?}");
            }
        }
    }
    for aside in ["AGR", "ISW", "EXC", "ACK"] {
        assert!(records.contains(aside.as_bytes()));
    }
    let of_length = |length| records.iter().filter(move |record| record.len() == length);
    assert_eq!(
        [0, 1, 2].map(|length| of_length(length).count()),
        [1, 256, 65_536]
    );
    let letters = |record: &&Vec<u8>| record.iter().all(u8::is_ascii_uppercase);
    assert_eq!(of_length(3).filter(letters).count(), 26 * 26 * 26);
    let high = |record: &&Vec<u8>| record.iter().all(|&byte| byte > 127);
    assert!(of_length(3).filter(high).count() > 500);
    let known = |record: &&Vec<u8>| find(record).is_some();
    assert!(records
        .iter()
        .filter(known)
        .any(|record| record.len() > 65_535));
    // In files: also what stands after the last pair.
    for (file, records) in [
        (&b""[..], &[][..]),
        (b"\r\n", &[&b""[..]]),
        (b"NWR\r\n\r\nTE", &[b"NWR", b"", b"TE"]),
        (b"A\rB\nC\r\r\n\n\r", &[b"A\rB\nC\r", b"\n\r"]),
    ] {
        assert_eq!(texts(file), records);
    }
}

/// Every file is asked for its first work to look at, with the tolerance of its
/// check.
#[test]
fn first_of_every_file() {
    for seed in spread(4, 4000) {
        let case = case(seed).unwrap();
        let asked = case.calls.contains(&Call::First);
        let only_bits_or_records =
            |call: &Call| matches!(call, Call::Bits | Call::First | Call::Record);
        let aside = case.file.is_empty() && case.calls.iter().all(only_bits_or_records);
        assert_eq!(asked, case.lends_a_file(), "{}", case.kind);
        assert_eq!(asked, !aside && case.list.is_empty(), "{}", case.kind);
        let request = case.request(Call::First, Guard::None);
        assert_eq!(request.buffers, two_buffers(vec![], vec![]));
        assert_eq!((&request.file, &request.tables), (&case.file, &case.tables));
        let check = case.calls.iter().rfind(|call| call.is_check());
        match check {
            Some(Call::Check) => assert_eq!(request.number, 0),
            _ => assert_eq!(request.number, case.tolerance),
        }
    }
}

/// What `first` answers in a default run: every kind of answer, for every
/// finding, and with everything before it that could be taken for it.
#[test]
fn first_answers_of_a_run() {
    let mut answers: HashMap<&str, u32> = HashMap::new();
    // Files whose answer would be another without the finding; or with it,
    // where it is of a lesser level.
    let mut decided = [0; 47];
    let rejecting: u64 = REJECTING.iter().map(|finding| 1 << finding).sum();
    for seed in seeds(0, 20_000) {
        if seed < each::FIRST {
            continue;
        }
        let case = case(seed).unwrap();
        if !case.calls.contains(&Call::First) {
            continue;
        }
        let mut count = |words| *answers.entry(words).or_default() += 1;
        let mut request = case.request(Call::First, Guard::None);
        let first = expected(&request);
        if first.refusal() != 0 {
            count("refused");
            continue;
        }
        let check = case.calls.iter().rfind(|call| call.is_check());
        let refusal = |&call: &Call| expected(&case.request(call, Guard::None)).refusal();
        if check.map(refusal) == Some(11) {
            count("no room for the check");
        }
        // All findings, with room enough.
        let lines = crate::reference::lines::lines(&case.file);
        request.call = Call::Within;
        request.buffers = two_buffers(vec![0; lines.len()], vec![0; 8 * lines.len()]);
        let checked = expected(&request);
        let sets = transactions(&case.file, &checked);
        let position = |taken: u64| sets.iter().position(|set| set & taken != 0);
        let named = position(rejecting);
        for (finding, files) in decided.iter_mut().enumerate() {
            *files += u32::from(position(rejecting ^ 1 << finding) != named);
        }
        let classes: Vec<_> = lines.iter().map(|l| find(l.text).unwrap().class).collect();
        let headers: Vec<_> = (0..lines.len())
            .filter(|&at| classes[at] == Class::Header)
            .collect();
        let Some(named) = named else {
            count("none");
            count(match sets.iter().all(|&set| set == 0) {
                true => "none, and no finding at all",
                false => "none, but lesser findings",
            });
            continue;
        };
        assert_eq!(first.packed, named as u64);
        let begin = headers[named];
        let group = classes[..begin].iter().rposition(|&c| c == Class::Grh);
        let group = group.unwrap();
        match (named, group) {
            (0, _) => count("transaction 0"),
            (_, 1) => count("a later one"),
            _ => count("a later one in a later group"),
        }
        if sets[..named].iter().any(|&set| set != 0) {
            count("lesser findings before");
        }
        if sets[named + 1..].iter().any(|set| set & rejecting != 0) {
            count("others after");
        }
        let details = classes[begin + 1..]
            .iter()
            .take_while(|&&c| c == Class::Detail);
        let details = begin + 1..begin + 1 + details.count();
        let of_details = details.fold(0, |sum, record| sum | checked.set(record));
        match (checked.set(begin) & rejecting, of_details & rejecting) {
            (1, 0) => count("by its type alone"),
            (_, 0) => count("by its header alone"),
            (0, _) => count("by a detail alone"),
            _ => count("by both"),
        }
        // Rejected by the verdict, and before it.
        let verdicts = &checked.buffers[0];
        if headers[..named].iter().any(|&at| verdicts[at] >= 3) {
            count("after one that falls with its group");
        }
    }
    for (words, least) in [
        ("refused", 5000),
        ("no room for the check", 500),
        ("none", 1000),
        ("none, and no finding at all", 500),
        ("none, but lesser findings", 500),
        ("transaction 0", 1000),
        ("a later one", 500),
        ("a later one in a later group", 500),
        ("lesser findings before", 300),
        ("others after", 300),
        ("by its type alone", 100),
        ("by its header alone", 1000),
        ("by a detail alone", 500),
        ("by both", 500),
        ("after one that falls with its group", 50),
    ] {
        let files = answers.remove(words).unwrap_or(0);
        println!("{words}: {files}");
        assert!(files >= least, "{words}: {files}");
    }
    assert!(answers.is_empty(), "{answers:?}");
    println!("decided: {decided:?}");
    // 4 never comes without 5.
    assert_eq!(decided[4], 0);
    decided[4] = decided[5];
    assert!(decided.iter().all(|&files| files >= 12), "{decided:?}");
}

/// The files about it by hand: where the kind says so, that one is named.
#[test]
fn late_files() {
    let mut number = 0;
    for case in (each::FIRST..each::FIRST + each::number()).filter_map(case) {
        let Some(words) = case.kind.strip_prefix("each late: ") else {
            continue;
        };
        number += 1;
        let reply = expected(&case.request(Call::First, Guard::None));
        let words: Vec<_> = words.split(", ").collect();
        let at = |words: &[&str]| words.last().unwrap().parse().unwrap();
        let accepted = |words: &str| !words.contains("TR") && words != "GR";
        let expected = match words[..] {
            ["none"] => NO_TRANSACTION,
            [finding, at] if finding.starts_with("finding ") => {
                let finding: u32 = finding["finding ".len()..].parse().unwrap();
                let mut request = case.request(Call::Within, Guard::None);
                request.number = case.tolerance_of(Call::First).unwrap();
                let sets = transactions(&case.file, &expected(&request));
                // That finding alone in that one alone.
                let at: usize = at.parse().unwrap();
                let set = |place| u64::from(place == at) << finding;
                assert!((0..8).map(set).eq(sets), "{}", case.kind);
                match REJECTING.contains(&finding) {
                    true => at as u64,
                    false => NO_TRANSACTION,
                }
            }
            [buffers] if buffers.starts_with("buffers") => 4,
            [form, at, then, later] if then.starts_with("then ") => match accepted(form) {
                true => later.parse().unwrap(),
                false => at.parse().unwrap(),
            },
            [form, short] if short.ends_with(" short") => {
                let tolerance: u64 = match form.strip_prefix("tolerance ") {
                    Some(tolerance) => tolerance.parse().unwrap(),
                    None => 0,
                };
                let short: u64 = short[..1].parse().unwrap();
                match tolerance {
                    7 => 1 << 32,
                    _ if short > tolerance => 2,
                    _ => NO_TRANSACTION,
                }
            }
            [_, refused, ..] if refused.starts_with("refused ") => {
                let refusal = refused["refused ".len()..].parse::<u64>().unwrap();
                assert_eq!(reply.refusal(), refusal, "{}", case.kind);
                reply.packed
            }
            [groups, _, _] if groups.ends_with(" groups") => at(&words),
            [form, _] if accepted(form) => NO_TRANSACTION,
            [_, _] => at(&words),
            _ => panic!("{}", case.kind),
        };
        assert_eq!(reply.packed, expected, "{}", case.kind);
    }
    assert!(number > 700, "{number}");
}

/// What the sheets of a default run are: those that files have of their own, of
/// every kind and for every answer, and the lists.
#[test]
fn sheets_of_a_run() {
    let mut sheets: HashMap<&str, u32> = HashMap::new();
    let mut lists = Vec::new();
    for seed in seeds(0, 20_000) {
        if seed < each::FIRST {
            continue;
        }
        let case = case(seed).unwrap();
        if !case.list.is_empty() {
            lists.push(case);
            continue;
        }
        if !case.calls.contains(&Call::Sheet) {
            continue;
        }
        let mut count = |words, holds: bool| {
            *sheets.entry(words).or_default() += u32::from(holds);
        };
        let request = case.request(Call::Sheet, Guard::None);
        assert_eq!((&request.file, &request.tables), (&case.file, &case.tables));
        assert_eq!(request.buffers, two_buffers(case.sheet.clone(), vec![]));
        let (before, after) = (&case.sheet, expected(&request));
        count("too short", before.len() < BYTES);
        count("one byte short", before.len() == BYTES - 1);
        count("longer", before.len() > BYTES);
        let first = before.first_chunk().map(|bytes| u64::from_le_bytes(*bytes));
        let full = first.is_some_and(|files| files >= MOST_FILES);
        count("too short and full", before.len() < BYTES && full);
        assert_eq!(before.len() < BYTES, after.refusal() == 11);
        if before.len() < BYTES {
            continue;
        }
        assert_eq!(full, after.refusal() == 12);
        count("fresh", before[..BYTES].iter().all(|&byte| byte == 0));
        count("full", full);
        count("full by its one number too", first == Some(MOST_FILES));
        let fresh = case.added_to(vec![0; BYTES], Guard::None);
        let refused = expected(&fresh).refusal() != 0;
        count("full, and the file refused", full && refused);
        count("refused on any other", !full && refused);
        if full || refused {
            continue;
        }
        let [before, after] = [before, &after.buffers[0]].map(|sheet| Sheet::of_bytes(sheet));
        count("taken", true);
        count("the last that is taken", after.files == MOST_FILES);
        let stopped = |before: &[u64], after: &[u64]| {
            let mut numbers = before.iter().zip(after);
            numbers.any(|(&before, &after)| before < after && after == u64::MAX)
        };
        count(
            "a sum that reaches its largest number",
            stopped(&before.findings, &after.findings)
                || stopped(&before.verdicts, &after.verdicts),
        );
        for (before, after) in before.rights.into_iter().zip(after.rights) {
            let stops = after.differences;
            let changed = before.differences != stops;
            count(
                "differences up to the largest",
                changed && stops == i64::MAX,
            );
            count(
                "differences down to the least",
                changed && stops == i64::MIN,
            );
            count("a larger shortfall", after.shortfall > before.shortfall);
            count("a larger excess", after.excess > before.excess);
            let missed = after.misses > before.misses;
            count(
                "none that is larger",
                missed && after.excess == before.excess,
            );
        }
    }
    for (words, least) in [
        ("too short", 200),
        ("one byte short", 50),
        ("longer", 200),
        ("too short and full", 30),
        ("fresh", 100),
        ("full", 200),
        ("full by its one number too", 20),
        ("full, and the file refused", 50),
        ("refused on any other", 300),
        ("taken", 500),
        ("the last that is taken", 20),
        ("a sum that reaches its largest number", 80),
        ("differences up to the largest", 12),
        ("differences down to the least", 12),
        ("a larger shortfall", 100),
        ("a larger excess", 100),
        ("none that is larger", 200),
    ] {
        let number = sheets.remove(words).unwrap_or(0);
        println!("{words}: {number}");
        assert!(number >= least, "{words}: {number}");
    }
    assert!(sheets.is_empty(), "{sheets:?}");
    // The longest goes beyond what a sheet takes; every list has files of both
    // kinds, and that one after it is full.
    assert_eq!(lists.len(), 9);
    for list in lists {
        let files = list.list.iter().map(|&seed| case(seed).unwrap());
        let refused: Vec<_> = files
            .map(|file| file.added_to(vec![0; BYTES], Guard::None))
            .map(|request| expected(&request).refusal() != 0)
            .collect();
        let beyond = match list.list.len() as u64 > MOST_FILES {
            true => &refused[MOST_FILES as usize..],
            false => &refused[..],
        };
        assert!(
            beyond.contains(&true) && beyond.contains(&false),
            "{}",
            list.kind
        );
        assert!(list.list.len() > 50);
        println!("{}: {} files", list.kind, list.list.len());
    }
}

#[test]
fn a_spread_run_is_of_small_files() {
    for files in [1, 2, 50, 400, 30_000] {
        let seeds = spread(0, files);
        assert!(seeds.len() as u64 <= files && !seeds.is_empty());
        let small = |&seed: &u64| case(seed).is_some_and(|case| case.file.len() < 1_000_000);
        assert!(seeds.iter().step_by(7).all(small));
    }
    assert!(each::number() + boundary::number() < FILES_WITH_ONCE);
}
