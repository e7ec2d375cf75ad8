//! Shares by territory: what the files, tables and lists of a run have.

use std::collections::BTreeMap;

use super::*;
use crate::calls::Reply;
use crate::generate::claims::{is_claim, is_party, most_in};
use crate::reference::lines::lines;
use crate::reference::territories::{MOST_TERRITORIES, NO_GROUP};

/// The files of a default run that are asked, but for the largest.
fn asked() -> impl Iterator<Item = Case> {
    let small = |seed: &u64| *seed >= each::FIRST;
    let seeds = seeds(0, 20_000).into_iter().filter(small);
    let cases = seeds.map(|seed| case(seed).unwrap());
    cases.filter(|case| case.calls.contains(&Call::Claims))
}

/// How often something came up.
#[derive(Default)]
struct Counts(BTreeMap<String, u32>);

impl Counts {
    fn add(&mut self, words: &str, holds: bool) {
        *self.0.entry(words.to_string()).or_default() += u32::from(holds);
    }

    /// Each at least so often, and nothing else.
    fn at_least(mut self, least: &[(&str, u32)]) {
        for (words, least) in least {
            let number = self.0.remove(*words).unwrap_or(0);
            println!("{words}: {number}");
            assert!(number >= *least, "{words}: {number}");
        }
        assert!(self.0.is_empty(), "{:?}", self.0);
    }
}

fn answer(case: &Case) -> Reply {
    expected(&case.request(Call::Claims, Guard::None))
}

/// How many groups are around an entry, where positions are earlier.
fn depth(table: &[territories::Entry], at: usize) -> usize {
    match table[at].1 {
        NO_GROUP => 0,
        group => 1 + depth(table, usize::from(group)),
    }
}

/// Tables of every shape, right and wrong.
#[test]
fn tables_of_a_run() {
    let mut counts = Counts::default();
    for case in asked() {
        let mut count = |words, holds| counts.add(words, holds);
        let (length, table) = (
            case.territories.len(),
            territories::entries(&case.territories),
        );
        let reply = answer(&case);
        let not_earlier = |at: usize| {
            let group = table[at].1;
            group != NO_GROUP && usize::from(group) >= at
        };
        let wrong_position = (0..table.len()).find(|&at| not_earlier(at));
        let twice = (1..table.len()).any(|at| {
            let mut before = table[..at].iter();
            table.len() <= MOST_TERRITORIES && before.any(|other| other.0 == table[at].0)
        });
        let no_entries = length % 6 != 0;
        let too_many = table.len() > MOST_TERRITORIES;
        let wrong = no_entries || too_many || twice || wrong_position.is_some();
        assert_eq!(wrong && reply.refusal() > 2, reply.refusal() == 13);
        assert!(!wrong || matches!(reply.refusal(), 1 | 2 | 13));
        count("part of an entry", no_entries);
        count("too many", too_many);
        count("one too many", table.len() == MOST_TERRITORIES + 1);
        count("a code twice", twice);
        if let Some(at) = wrong_position {
            let group = usize::from(table[at].1);
            count("own position", group == at);
            count("a later position", group > at && group < table.len());
            count("a position beyond", group >= table.len());
            count("65534", group == 65_534);
        }
        count("wrong, and the file too", wrong && refused(&case));
        if wrong {
            continue;
        }
        let deepest = (0..table.len()).map(|at| depth(&table, at)).max();
        count("empty", table.is_empty());
        count("of no groups", deepest == Some(0));
        count("groups", deepest == Some(1));
        count("groups in groups", deepest >= Some(2));
        count("as deep as can be", deepest == Some(MOST_TERRITORIES - 1));
        count("as many as can be", table.len() == MOST_TERRITORIES);
        let all_in_one = table.iter().skip(1).all(|&(_, group)| group == 0);
        count("all in one of many", all_in_one && table.len() > 200);
    }
    counts.at_least(&[
        ("part of an entry", 100),
        ("too many", 60),
        ("one too many", 20),
        ("a code twice", 50),
        ("own position", 20),
        ("a later position", 20),
        ("a position beyond", 60),
        ("65534", 12),
        ("wrong, and the file too", 100),
        ("empty", 100),
        ("of no groups", 300),
        ("groups", 300),
        ("groups in groups", 2000),
        ("as deep as can be", 50),
        ("as many as can be", 200),
        ("all in one of many", 50),
    ]);
}

/// Whether the file itself is refused.
fn refused(case: &Case) -> bool {
    refusal(structure(&case.file)) != 0
}

/// The claims of each transaction of a right file.
fn claims_in(file: &[u8]) -> Vec<usize> {
    let mut claims: Vec<usize> = Vec::new();
    for line in lines(file) {
        match find(line.text).unwrap().class {
            Class::Header => claims.push(0),
            Class::Detail if is_claim(line.text) => *claims.last_mut().unwrap() += 1,
            _ => {}
        }
    }
    claims
}

/// Lists that are as long as they must be, and longer and shorter; what is
/// written, and what is refused before.
#[test]
fn lists_of_a_run() {
    let mut counts = Counts::default();
    for case in asked() {
        let mut count = |words, holds| counts.add(words, holds);
        let reply = answer(&case);
        assert_eq!(case.claims.len() % ENTRY, 0);
        let entries = case.claims.len() / ENTRY;
        count("over too short", case.over.len() < OVER);
        count("over longer", case.over.len() > OVER);
        if refused(&case) {
            continue;
        }
        let claims = claims_in(&case.file);
        let most = claims.iter().copied().max().unwrap();
        assert_eq!(most, most_in(&case.file));
        let full: Vec<usize> = (0..claims.len())
            .filter(|&at| claims[at] > entries)
            .collect();
        let too_short = |length: usize, needed: usize| length < needed;
        let records = records_in(&case.file);
        let short = too_short(case.verdicts.len(), records)
            || too_short(case.findings.len(), 8 * records)
            || too_short(case.over.len(), OVER);
        match (reply.refusal(), short) {
            (1 | 2 | 13, _) => continue,
            (refusal, true) => assert_eq!(refusal, 11),
            (refusal, false) => assert_eq!(refusal == 14, !full.is_empty()),
        }
        count("14 and 11", short && !full.is_empty());
        let of_over = case.over.len() < OVER
            && case.verdicts.len() >= records
            && case.findings.len() >= 8 * records;
        count("11 for over alone", of_over);
        count("14 and over too short", of_over && !full.is_empty());
        if reply.refusal() == 14 {
            count("14", true);
            count("14 at the first", full[0] == 0);
            count("14 at a later one", full[0] > 0);
            count("14 at several", full.len() > 1);
            count("one more than entries", claims[full[0]] == entries + 1);
            count("14 without an entry", entries == 0);
            let buffers = case.request(Call::Claims, Guard::None).buffers;
            assert_eq!(reply.buffers, buffers);
        }
        if reply.refusal() == 0 {
            count("as many as entries", most == entries && most > 0);
            count("fewer than entries", most < entries);
            count("no claims, no entries", entries == 0);
            count(
                "any bytes in it before",
                case.claims.iter().any(|&byte| byte != 0),
            );
            assert!(reply.buffers[2].iter().all(|&byte| byte == 0));
        }
    }
    counts.at_least(&[
        ("over too short", 200),
        ("over longer", 500),
        ("14 and 11", 50),
        ("11 for over alone", 80),
        ("14 and over too short", 15),
        ("14", 300),
        ("14 at the first", 200),
        ("14 at a later one", 50),
        ("14 at several", 50),
        ("one more than entries", 100),
        ("14 without an entry", 150),
        ("as many as entries", 1500),
        ("fewer than entries", 700),
        ("no claims, no entries", 500),
        ("any bytes in it before", 2500),
    ]);
}

/// What is over and what has 48, and that each tolerance decides some of it.
#[test]
fn findings_of_claims() {
    let mut counts = Counts::default();
    // Files whose answer would be another with one less or more.
    let mut decided = [[0; 2]; 7];
    for case in asked() {
        let reply = answer(&case);
        if reply.refusal() != 0 {
            continue;
        }
        let t = case.tolerance as usize;
        for (files, other) in decided[t].iter_mut().zip([t.wrapping_sub(1), t + 1]) {
            let mut request = case.request(Call::Claims, Guard::None);
            request.number = other as u64;
            let of = |reply: &Reply| {
                (0..reply.packed as usize)
                    .map(|at| reply.set(at) >> 47)
                    .collect::<Vec<_>>()
            };
            *files += u32::from(other <= 6 && of(&expected(&request)) != of(&reply));
        }
        count_of(&case, &reply, &mut counts);
    }
    println!("decided: {decided:?}");
    for (t, [less, more]) in decided.into_iter().enumerate() {
        assert!(t == 0 || less >= 5, "{t}: {less}");
        assert!(t == 6 || more >= 5, "{t}: {more}");
    }
    counts.at_least(&[
        ("over", 1200),
        ("over in several", 200),
        ("over not in the first", 400),
        ("over in a fallen group", 30),
        ("over alone in its work", 300),
        ("over and 48", 200),
        ("over in a territory beyond 255", 12),
        ("SPT over alone", 20),
        ("OPT over alone", 20),
        ("SWT over alone", 300),
        ("OWT over alone", 20),
        ("48", 1000),
        ("48 before any party", 50),
        ("48 alone in its work", 100),
        ("48 on SPT", 200),
        ("48 on OPT", 200),
        ("48 on SWT", 200),
        ("48 on OWT", 200),
        ("a claim before any party", 200),
        ("a writer's claim after a publisher", 100),
        ("a publisher's claim after a writer", 100),
    ]);
}

fn count_of(case: &Case, reply: &Reply, counts: &mut Counts) {
    let lines = lines(&case.file);
    let classes: Vec<_> = lines.iter().map(|l| find(l.text).unwrap().class).collect();
    let [transaction, territory] = reply.over();
    let over = transaction != NO_TRANSACTION;
    counts.add("over", over);
    counts.add("over not in the first", over && transaction > 0);
    counts.add("over in a territory beyond 255", over && territory > 255);
    let mut overs = 0;
    let mut seen: HashSet<String> = HashSet::new();
    for header in (0..lines.len()).filter(|&at| classes[at] == Class::Header) {
        let details = classes[header + 1..].iter();
        let details = details.take_while(|&&class| class == Class::Detail).count();
        let records = header..header + 1 + details;
        let all = records
            .clone()
            .fold(0, |all, record| all | reply.set(record));
        let mut see = |words: &str, holds: bool| {
            if holds {
                seen.insert(words.to_string());
            }
        };
        let is_over = all >> 47 & 1 == 1;
        overs += u32::from(is_over);
        see(
            "over in a fallen group",
            is_over && reply.buffers[0][header] == 4,
        );
        see("over alone in its work", all == 1 << 47);
        see("over and 48", all >> 47 == 3);
        see("48 alone in its work", all == 1 << 48);
        let mut party: Option<&[u8]> = None;
        let mut kinds = HashSet::new();
        for record in records.skip(1) {
            let text = lines[record].text;
            if is_party(text) {
                party = Some(&text[..3]);
            }
            if !is_claim(text) {
                continue;
            }
            let name = std::str::from_utf8(&text[..3]).unwrap();
            kinds.insert(name);
            let wrong = reply.set(record) >> 48 & 1 == 1;
            see("48", wrong);
            see(&format!("48 on {name}"), wrong);
            see("48 before any party", wrong && party.is_none());
            see("a claim before any party", party.is_none());
            let of_writer = name.ends_with("WT");
            let after_writer = party.map(|name| name.ends_with(b"WR"));
            see(
                "a writer's claim after a publisher",
                of_writer && after_writer == Some(false),
            );
            see(
                "a publisher's claim after a writer",
                !of_writer && after_writer == Some(true),
            );
        }
        for kind in &kinds {
            see(&format!("{kind} over alone"), is_over && kinds.len() == 1);
        }
    }
    counts.add("over in several", overs > 1);
    for words in seen {
        counts.add(&words, true);
    }
}
