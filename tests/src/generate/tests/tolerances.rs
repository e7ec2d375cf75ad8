//! The tolerances of the calls: what the files have that shows each of them.

use std::collections::BTreeMap;

use super::*;
use crate::reference::findings::{self, transaction, Transaction};
use crate::reference::lines::lines;
use crate::reference::listing::LONGEST_INPUT;
use crate::reference::Tables;

/// A limit of a total: the finding that has it, what it is near, and the right.
type Limit = (u32, &'static str, usize);

/// How far from it the totals must be.
fn limits() -> Vec<(Limit, std::ops::RangeInclusive<i64>)> {
    let mut limits = vec![
        ((1, "half", 0), -7..=7),
        ((1, "full", 1), -7..=7),
        ((1, "full", 2), -7..=7),
        ((2, "half", 0), -7..=7),
        ((2, "nothing", 0), 0..=7),
    ];
    for right in 0..3 {
        limits.push(((2, "full", right), -7..=7));
        limits.push(((3, "full", right), -7..=7));
        limits.push(((3, "nothing", right), 0..=7));
    }
    limits
}

/// How far the totals of a transaction are from each.
fn off_limits(transaction: &Transaction) -> impl Iterator<Item = (Limit, i64)> {
    let add = |sum: [i64; 3], shares: [u64; 3]| [0, 1, 2].map(|at| sum[at] + shares[at] as i64);
    let publishers = transaction.publishers.iter().map(|one| one.shares);
    let publishers = publishers.fold([0; 3], add);
    let writers = transaction.writers.iter().map(|one| one.shares);
    let writers = writers.fold([0; 3], add);
    let off = move |limit: Limit| {
        let (finding, near, right) = limit;
        let total = match finding {
            1 => publishers[right],
            2 => writers[right],
            _ => publishers[right] + writers[right],
        };
        let near = match near {
            "nothing" => 0,
            "half" => 5_000,
            _ => 10_000,
        };
        (limit, total - near)
    };
    limits().into_iter().map(move |(limit, _)| off(limit))
}

/// Each call that has a tolerance of its own is asked of totals at every limit
/// and up to 7 off it; and for each of the three findings there are works that
/// each tolerance just lets through.
#[test]
fn totals_of_each_call() {
    const CALLS: [Call; 3] = [Call::Check, Call::Listing, Call::Sheet];
    let mut totals: BTreeMap<(Call, Limit, i64), u32> = BTreeMap::new();
    let mut let_through: BTreeMap<(Call, u32, usize), u32> = BTreeMap::new();
    for seed in seeds(0, 20_000) {
        if seed < each::FIRST {
            continue;
        }
        let case = case(seed).unwrap();
        if !case.lends_a_file() || refusal(structure(&case.file)) != 0 {
            continue;
        }
        let passed = |request: Request| expected(&request).refusal() == 0;
        let asked = |call: &Call| match call {
            // Every file goes into one.
            Call::Sheet => passed(case.added_to(vec![0; BYTES], Guard::None)),
            Call::Check if case.calls.contains(call) => passed(case.request(*call, Guard::None)),
            call => case.calls.contains(call) && case.file.len() <= LONGEST_INPUT,
        };
        let asked: Vec<Call> = CALLS.into_iter().filter(asked).collect();
        let lines = lines(&case.file);
        let classes: Vec<_> = lines.iter().map(|l| find(l.text).unwrap().class).collect();
        // The findings 1 to 3 need no tables.
        let within = |tolerance| {
            let tables = Tables::of(&case.tables);
            findings::transactions(&lines, &classes, tables, tolerance)
        };
        let works: Vec<_> = (0..=6).map(within).collect();
        for at in 0..works[0].len() {
            for (limit, off) in off_limits(&works[0][at].1) {
                for &call in &asked {
                    *totals.entry((call, limit, off)).or_default() += 1;
                }
            }
            let sets = works.iter().map(|works| transaction::set(&works[at].1));
            let sets: Vec<u64> = sets.collect();
            for finding in 1..=3 {
                // The least tolerance that lets it through; 7 where none does.
                let found = sets.iter().take_while(|&set| set >> finding & 1 == 1);
                let least = found.count();
                for &call in &asked {
                    *let_through.entry((call, finding, least)).or_default() += 1;
                }
            }
        }
    }
    for call in CALLS {
        for (limit, range) in limits() {
            let number = |off| totals.get(&(call, limit, off)).copied().unwrap_or(0);
            let numbers: Vec<u32> = range.clone().map(number).collect();
            println!("{call:?}, {limit:?}: {numbers:?}");
            for (off, number) in range.zip(numbers) {
                // Where no tolerance and the largest end; the listing program
                // is started for few files.
                let least = match (call, off) {
                    (Call::Check | Call::Sheet, -7 | -6 | -1..=1 | 6 | 7) => 5,
                    _ => 1,
                };
                assert!(number >= least, "{call:?}, {limit:?}, {off}: {number}");
            }
        }
        for finding in 1..=3 {
            let number = |least| let_through.get(&(call, finding, least)).copied();
            let numbers = [0, 1, 2, 3, 4, 5, 6, 7].map(|least| number(least).unwrap_or(0));
            println!("{call:?}, finding {finding}: {numbers:?}");
            assert!(
                numbers.iter().all(|&number| number >= 4),
                "{call:?}, {finding}"
            );
        }
    }
}

/// The short form answers as the other does with 0, never by 1. Of many files
/// both are asked, with every tolerance; where it is not 0, some answers differ.
#[test]
fn both_forms() {
    let (mut short, mut one_short, mut both) = (0, 0, [[0; 2]; 8]);
    for seed in seeds(0, 20_000) {
        if seed < each::FIRST {
            continue;
        }
        let case = case(seed).unwrap();
        if !case.calls.contains(&Call::Check) {
            continue;
        }
        short += 1;
        let reply = expected(&case.request(Call::Check, Guard::None));
        assert_ne!(reply.refusal(), 1, "{}", case.kind);
        let mut request = case.request(Call::Within, Guard::None);
        if case.calls.contains(&Call::Within) {
            let other = expected(&request);
            assert_eq!(other.refusal() == 1, case.tolerance > 6, "{}", case.kind);
            let counts: &mut [u32; 2] = &mut both[case.tolerance.min(7) as usize];
            counts[0] += 1;
            counts[1] += u32::from(other != reply);
            if case.kind.ends_with(", one short") {
                assert_eq!(other == reply, case.tolerance == 0, "{}", case.kind);
                one_short += 1;
            }
        }
        request.number = 0;
        assert_eq!(expected(&request), reply, "{}", case.kind);
    }
    println!("short: {short}; both, and of them with other answers: {both:?}");
    assert!(short > 5000, "{short}");
    assert!(one_short > 20, "{one_short}");
    assert!(both.iter().all(|[files, _]| *files > 80), "{both:?}");
    assert_eq!(both[0][1], 0);
    assert!(both[1..].iter().all(|[_, others]| *others > 12), "{both:?}");
}

/// A file is made for the tolerance that its check has: one of which only late
/// works are rejected is so in the short form too. What the tables reject is
/// rejected in each work.
#[test]
fn late_in_the_short_form() {
    let [mut files, mut later] = [0; 2];
    for seed in seeds(1, 9000) {
        let case = case(seed).unwrap();
        let short = case.calls.starts_with(&[Call::Check]) && !case.calls.contains(&Call::Within);
        if !matches!(kind(seed), Kind::Late) || !short {
            continue;
        }
        let checked = expected(&case.request(Call::Check, Guard::None));
        if checked.refusal() != 0 {
            continue;
        }
        let works = transactions(&case.file, &checked);
        let rejected = |set: &u64| REJECTING.iter().any(|finding| set >> finding & 1 == 1);
        let by_shares = |set: u64| set & 0b1110 != 0 && !rejected(&(set & !0b1110));
        assert!(!by_shares(works[0]), "{seed}");
        files += 1;
        later += u32::from(works[1..].iter().any(|&set| by_shares(set)));
    }
    println!("{files} files, {later} with a later work that is rejected by its shares");
    assert!(files > 200 && later > 20, "{files}, {later}");
}
