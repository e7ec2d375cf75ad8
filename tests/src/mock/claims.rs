//! Faults of shares by territory: the rules by which totals are worked out, each
//! of which can be another one.

use std::collections::BTreeMap;

use tests::calls::Reply;
use tests::generate::territories::usual;
use tests::reference::field;
use tests::reference::first::NO_TRANSACTION;
use tests::reference::lines::lines;
use tests::reference::territories::territories;
use tests::reference::types::Class;
use tests::reference::values::{blank, digits};

use crate::asked::{classes, write_sets, Asked};
use crate::Fault;

const FULL: u64 = 10_000;

/// The lent table: codes, and the positions of their groups.
pub struct Table {
    codes: Vec<Vec<u8>>,
    groups: Vec<Option<usize>>,
}

impl Table {
    pub fn of(bytes: &[u8]) -> Table {
        let entries = territories(bytes);
        Table {
            codes: entries.iter().map(|entry| entry.code.to_vec()).collect(),
            groups: entries.iter().map(|entry| entry.group).collect(),
        }
    }

    fn has_members(&self, at: usize) -> bool {
        self.groups.contains(&Some(at))
    }

    /// Through how many groups one holds the other, 0 for itself.
    fn levels(&self, outer: usize, inner: usize) -> Option<usize> {
        let (mut at, mut levels) = (inner, 0);
        while at != outer {
            at = self.groups[at]?;
            levels += 1;
        }
        Some(levels)
    }

    /// How many groups are around it.
    fn depth(&self, at: usize) -> usize {
        self.groups[at].map_or(0, |group| 1 + self.depth(group))
    }
}

/// A claim as it is read.
pub struct Claim<'a> {
    text: &'a [u8],
    owner: Option<usize>,
    territory: Option<usize>,
    mark: u8,
    shares: [Option<u64>; 3],
}

impl Claim<'_> {
    fn gives(&self) -> [u64; 3] {
        self.shares.map(|share| share.unwrap_or(0))
    }

    /// Whether 48 is set by something else than these.
    fn wrong_but_for(&self, code: bool, mark: bool, shares: [bool; 3]) -> bool {
        let no_share = (0..3).any(|right| !shares[right] && self.shares[right].is_none());
        !code && self.territory.is_none() || !mark && !b"IE".contains(&self.mark) || no_share
    }
}

/// How far the records of a transaction have come: the numbers of its parties.
#[derive(Default)]
struct Parties {
    number: usize,
    last: Option<usize>,
    last_publisher: Option<usize>,
    last_writer: Option<usize>,
    claims: usize,
}

/// What a right answer rests on.
#[derive(Clone, Copy)]
struct Rules {
    /// Which records are claims, and which begin a party.
    claims: fn(&[u8]) -> bool,
    begins: fn(&[u8]) -> bool,
    /// Whose a claim is.
    owner: fn(&Parties, &[u8]) -> Option<usize>,
    /// Whether parties go on from one transaction into the next.
    go_on: bool,
    /// Where PR, MR, SR, mark and code start, and how a share and a code are read.
    starts: fn(&[u8]) -> [usize; 5],
    share: fn(&[u8]) -> Option<u64>,
    position: fn(&Table, &[u8]) -> Option<usize>,
    /// Whether a claim has 48, and whether it counts where it has an owner.
    wrong: fn(&Table, &Claim) -> bool,
    counts: fn(&Claim) -> bool,
    /// In which territories totals are judged, and which a claim is about.
    judged: fn(&Table, usize) -> bool,
    names: fn(&Table, usize, usize) -> bool,
    /// What those of a party that are about a territory give.
    given: fn(&Table, &[&Claim]) -> [u64; 3],
    /// What becomes of a sum, and which totals are over.
    sum: fn(u64) -> u64,
    over: fn([u64; 3], u64) -> bool,
}

const RIGHT: Rules = Rules {
    claims: |text| is(text, &["SPT", "OPT", "SWT", "OWT"]),
    begins: |text| is(text, &["SPU", "OPU", "SWR", "OWR"]),
    owner: |parties, _| parties.last,
    go_on: false,
    starts,
    share: digits,
    position: |table, code| table.codes.iter().position(|one| one == code),
    wrong: |_, claim| claim.wrong_but_for(false, false, [false; 3]),
    counts: |claim| !claim.wrong_but_for(false, false, [false; 3]),
    judged: |table, at| !table.has_members(at),
    names: |table, named, at| table.levels(named, at).is_some(),
    given: |_, claims| claims.last().map_or([0; 3], |last| included(last)),
    sum: |sum| sum,
    over: |totals, t| totals.iter().any(|&total| total > FULL + t),
};

fn is(text: &[u8], names: &[&str]) -> bool {
    names.iter().any(|name| text.starts_with(name.as_bytes()))
}

fn starts(text: &[u8]) -> [usize; 5] {
    match is(text, &["SPT", "OPT"]) {
        true => [35, 40, 45, 50, 51],
        false => [29, 34, 39, 44, 45],
    }
}

fn included(claim: &Claim) -> [u64; 3] {
    match claim.mark {
        b'I' => claim.gives(),
        _ => [0; 3],
    }
}

/// What is judged by rules: the records' sets of 47 and 48 alone, and every
/// transaction and territory that is over, in their order.
pub struct Judged {
    classes: Vec<Class>,
    pub sets: Vec<u64>,
    pub over: Vec<(u64, u64)>,
}

/// Judges a file that passes.
fn judge(file: &[u8], tolerance: u64, table: &[u8], rules: &Rules) -> Judged {
    let lines = lines(file);
    let classes = classes(&lines);
    let table = Table::of(table);
    let judged: Vec<usize> = (0..table.codes.len())
        .filter(|&at| (rules.judged)(&table, at))
        .collect();
    let mut sets = vec![0; lines.len()];
    let (mut over, mut parties, mut transaction) = (Vec::new(), Parties::default(), 0);
    for header in (0..lines.len()).filter(|&at| classes[at] == Class::Header) {
        if !rules.go_on {
            parties = Parties::default();
        }
        let mut claims = Vec::new();
        for (record, line) in lines.iter().enumerate().skip(header + 1) {
            if classes[record] != Class::Detail {
                break;
            }
            if let Some(claim) = step(&table, rules, &mut parties, line.text) {
                sets[record] |= u64::from((rules.wrong)(&table, &claim)) << 48;
                claims.push(claim);
            }
        }
        let counting = claims.iter().filter(|claim| (rules.counts)(claim));
        let mut owners: BTreeMap<usize, Vec<&Claim>> = BTreeMap::new();
        for claim in counting {
            if let Some(owner) = claim.owner {
                owners.entry(owner).or_default().push(claim);
            }
        }
        for &at in &judged {
            let totals = total(&table, rules, &owners, at);
            if (rules.over)(totals, tolerance) {
                sets[header] |= 1 << 47;
                over.push((transaction, at as u64));
            }
        }
        transaction += 1;
    }
    Judged {
        classes,
        sets,
        over,
    }
}

/// One record more; the claim that it is, if it is one.
fn step<'a>(
    table: &Table,
    rules: &Rules,
    parties: &mut Parties,
    text: &'a [u8],
) -> Option<Claim<'a>> {
    if (rules.begins)(text) {
        parties.last = Some(parties.number);
        match is(text, &["SPU", "OPU"]) {
            true => parties.last_publisher = parties.last,
            false => parties.last_writer = parties.last,
        }
        parties.number += 1;
    }
    if !(rules.claims)(text) {
        return None;
    }
    parties.claims += 1;
    let [pr, mr, sr, mark, code] = (rules.starts)(text);
    Some(Claim {
        text,
        owner: (rules.owner)(parties, text),
        territory: text
            .get(code - 1..code + 3)
            .and_then(|code| (rules.position)(table, code)),
        mark: text[mark - 1],
        shares: [pr, mr, sr].map(|start| (rules.share)(field(text, start, 5))),
    })
}

fn total(
    table: &Table,
    rules: &Rules,
    owners: &BTreeMap<usize, Vec<&Claim>>,
    at: usize,
) -> [u64; 3] {
    let mut totals = [0; 3];
    for claims in owners.values() {
        let names = |claim: &&&Claim| {
            claim
                .territory
                .is_some_and(|named| (rules.names)(table, named, at))
        };
        let about: Vec<&Claim> = claims.iter().filter(names).copied().collect();
        let given = (rules.given)(table, &about);
        totals = [0, 1, 2].map(|right| (rules.sum)(totals[right] + given[right]));
    }
    totals
}

/// What is over first; for none, the number that stands for it twice.
pub fn write_over(reply: &mut Reply, over: Option<(u64, u64)>) {
    let (transaction, territory) = over.unwrap_or((NO_TRANSACTION, NO_TRANSACTION));
    let numbers = [transaction as u32, territory as u32];
    let bytes: Vec<u8> = numbers.into_iter().flat_map(u32::to_le_bytes).collect();
    reply.buffers[3][..8].copy_from_slice(&bytes);
}

/// The answer by these rules, where it passes.
fn by(asked: &Asked, rules: &Rules) -> Reply {
    let mut right = asked.right();
    if right.refusal() == 0 {
        let judged = judge(&asked.file, asked.number, &asked.territories, rules);
        let sets = judged.sets.iter().enumerate();
        let sets = sets.map(|(record, set)| right.set(record) & !(3 << 47) | set);
        let sets: Vec<u64> = sets.collect();
        write_sets(&mut right, &judged.classes, &sets);
        write_over(&mut right, judged.over.first().copied());
    }
    right
}

/// What is right, where it passes.
pub fn judged(asked: &Asked) -> Judged {
    judge(&asked.file, asked.number, &asked.territories, &RIGHT)
}

/// What a call without a territory table would find, had it one of its own.
pub fn of_a_table(file: &[u8], tolerance: u64) -> Vec<u64> {
    judge(file, tolerance, &usual(), &RIGHT).sets
}

/// The answer with some rules changed.
fn with(asked: &Asked, change: fn(&mut Rules)) -> Reply {
    let mut rules = RIGHT;
    change(&mut rules);
    by(asked, &rules)
}

/// The check as if it were lent a territory table, though it has none.
fn without_a_table(asked: &Asked, finding: u32) -> Reply {
    let mut right = asked.right();
    if asked.call.judges() && right.refusal() == 0 {
        let sets = of_a_table(&asked.file, asked.tolerance()).into_iter();
        let sets = sets.enumerate();
        let sets = sets.map(|(record, set)| right.set(record) | set & 1 << finding);
        let sets: Vec<u64> = sets.collect();
        write_sets(&mut right, &classes(&lines(&asked.file)), &sets);
    }
    right
}

/// The right answer with the findings of each transaction changed, where it has
/// 47, and with nothing else.
fn sets_changed(asked: &Asked, change: fn(&mut [u64])) -> Reply {
    asked.judged(|_, _, sets| {
        if sets[0] >> 47 & 1 == 1 {
            change(sets);
        }
    })
}

/// The right answer, but that the verdicts are as if a finding were none.
fn without_level(asked: &Asked, finding: u32, instead: u64) -> Reply {
    let mut right = asked.right();
    if right.refusal() != 0 {
        return right;
    }
    let classes = classes(&lines(&asked.file));
    let mut other = right.clone();
    let set = |record| match right.set(record) {
        set if set >> finding & 1 == 1 => set & !(1 << finding) | instead,
        set => set,
    };
    let sets: Vec<u64> = (0..classes.len()).map(set).collect();
    write_sets(&mut other, &classes, &sets);
    right.buffers[0] = other.buffers[0].clone();
    right
}

/// Whether it is of a kind that publishers have.
fn is_publishers(claim: &Claim) -> bool {
    is(claim.text, &["SPT", "OPT"])
}

pub const FAULTS: &[Fault] = &[
    // Which claim of a party counts.
    ("47-first-claim", |asked| {
        with(asked, |rules| {
            rules.given = |_, claims| claims.first().map_or([0; 3], |one| included(one));
        })
    }),
    ("47-largest-claim", |asked| {
        with(asked, |rules| {
            rules.given = |_, claims| {
                let of = |right: usize| claims.iter().map(move |claim| included(claim)[right]);
                [0, 1, 2].map(|right| of(right).max().unwrap_or(0))
            };
        })
    }),
    ("47-sum-of-claims", |asked| {
        with(asked, |rules| {
            rules.given = |_, claims| {
                let of = |right: usize| claims.iter().map(|claim| included(claim)[right]).sum();
                [0, 1, 2].map(of)
            };
        })
    }),
    ("47-inner-claim", |asked| {
        // The one on the innermost, whichever is the last.
        with(asked, |rules| {
            rules.given = |table, claims| {
                let depth = |claim: &&&Claim| table.depth(claim.territory.expect("named"));
                let inner = claims.iter().max_by_key(depth);
                inner.map_or([0; 3], |claim| included(claim))
            };
        })
    }),
    ("47-outer-claim", |asked| {
        with(asked, |rules| {
            rules.given = |table, claims| {
                let depth = |claim: &&&Claim| table.depth(claim.territory.expect("named"));
                let outer = claims.iter().rev().min_by_key(depth);
                outer.map_or([0; 3], |claim| included(claim))
            };
        })
    }),
    ("47-exclude-ignored", |asked| {
        with(asked, |rules| {
            rules.counts = |claim| (RIGHT.counts)(claim) && claim.mark == b'I';
        })
    }),
    ("47-exclude-with-its-shares", |asked| {
        with(asked, |rules| {
            rules.given = |_, claims| claims.last().map_or([0; 3], |claim| claim.gives());
        })
    }),
    ("47-exclude-for-good", |asked| {
        with(asked, |rules| {
            rules.given = |table, claims| match claims.iter().any(|claim| claim.mark == b'E') {
                true => [0; 3],
                false => (RIGHT.given)(table, claims),
            };
        })
    }),
    ("47-exclude-takes-off", |asked| {
        // The share of the exclude from that of the include before.
        with(asked, |rules| {
            rules.given = |_, claims| {
                claims.iter().fold([0; 3], |given, claim| match claim.mark {
                    b'I' => claim.gives(),
                    _ => [0, 1, 2].map(|at| given[at].saturating_sub(claim.gives()[at])),
                })
            };
        })
    }),
    ("47-zero-claim-ignored", |asked| {
        with(asked, |rules| {
            rules.counts =
                |claim| (RIGHT.counts)(claim) && (claim.mark == b'E' || claim.gives() != [0; 3]);
        })
    }),
    ("47-each-right-by-itself", |asked| {
        // The last claim that gives some of a right.
        with(asked, |rules| {
            rules.given = |_, claims| {
                [0, 1, 2].map(|right| {
                    let gives = |claim: &&&Claim| claim.mark == b'E' || claim.gives()[right] > 0;
                    let last = claims.iter().rfind(gives);
                    last.map_or(0, |claim| included(claim)[right])
                })
            };
        })
    }),
    ("47-last-claim-lost", |asked| {
        with(asked, |rules| {
            rules.given = |_, claims| match claims {
                [.., before, _] => included(before),
                [one] => included(one),
                [] => [0; 3],
            };
        })
    }),
    // Groups.
    ("47-no-groups", |asked| {
        with(asked, |rules| rules.names = |_, named, at| named == at)
    }),
    ("47-not-through-others", |asked| {
        with(asked, |rules| {
            rules.names = |table, named, at| table.levels(named, at).is_some_and(|n| n <= 1);
        })
    }),
    ("47-through-two", |asked| {
        with(asked, |rules| {
            rules.names = |table, named, at| table.levels(named, at).is_some_and(|n| n <= 2);
        })
    }),
    ("47-through-255", |asked| {
        with(asked, |rules| {
            rules.names = |table, named, at| table.levels(named, at).is_some_and(|n| n <= 255);
        })
    }),
    ("47-through-510", |asked| {
        with(asked, |rules| {
            rules.names = |table, named, at| table.levels(named, at).is_some_and(|n| n <= 510);
        })
    }),
    ("47-not-itself", |asked| {
        // A group alone, where there is one.
        with(asked, |rules| {
            rules.names = |table, named, at| match table.groups[at] {
                Some(_) => table.levels(named, at).is_some_and(|n| n > 0),
                None => named == at,
            };
        })
    }),
    ("47-member-for-its-group", |asked| {
        // A claim on a member is one on all that its group holds.
        with(asked, |rules| {
            rules.names = |table, named, at| {
                table.levels(named, at).is_some()
                    || table.groups[named].is_some_and(|group| table.groups[at] == Some(group))
            };
        })
    }),
    ("47-in-groups-too", |asked| {
        // As if a group had no members.
        with(asked, |rules| rules.judged = |_, _| true)
    }),
    ("47-in-groups-alone", |asked| {
        with(asked, |rules| {
            rules.judged = |table, at| table.has_members(at)
        })
    }),
    ("47-in-no-group-alone", |asked| {
        with(asked, |rules| {
            rules.judged = |table, at| !table.has_members(at) && table.groups[at].is_none();
        })
    }),
    ("47-members-of-the-last-alone", |asked| {
        // One is a group only where the next entry says so.
        with(asked, |rules| {
            rules.judged = |table, at| table.groups.get(at + 1) != Some(&Some(at));
        })
    }),
    ("47-without-first-territory", |asked| {
        with(asked, |rules| {
            rules.judged = |table, at| at > 0 && !table.has_members(at)
        })
    }),
    ("47-without-last-territory", |asked| {
        with(asked, |rules| {
            rules.judged = |table, at| at + 1 < table.codes.len() && !table.has_members(at);
        })
    }),
    ("47-256-territories", |asked| {
        with(asked, |rules| {
            rules.judged = |table, at| at < 256 && !table.has_members(at)
        })
    }),
    ("47-511-territories", |asked| {
        with(asked, |rules| {
            rules.judged = |table, at| at < 511 && !table.has_members(at)
        })
    }),
    // Parties.
    ("47-party-ends-at-its-own-kind", |asked| {
        with(asked, |rules| {
            rules.owner = |parties, text| match is(text, &["SPT", "OPT"]) {
                true => parties.last_publisher,
                false => parties.last_writer,
            };
        })
    }),
    ("47-one-party", |asked| {
        with(asked, |rules| {
            rules.owner = |parties, _| parties.last.map(|_| 0)
        })
    }),
    ("47-two-parties", |asked| {
        // One for all publishers, one for all writers.
        with(asked, |rules| {
            rules.owner = |parties, _| Some(usize::from(parties.last? == parties.last_writer?));
        })
    }),
    ("47-each-claim-a-party", |asked| {
        with(asked, |rules| {
            rules.owner = |parties, _| parties.last.map(|_| parties.claims);
        })
    }),
    ("47-spu-begins-none", |asked| {
        with(asked, |rules| {
            rules.begins = |text| is(text, &["OPU", "SWR", "OWR"])
        })
    }),
    ("47-opu-begins-none", |asked| {
        with(asked, |rules| {
            rules.begins = |text| is(text, &["SPU", "SWR", "OWR"])
        })
    }),
    ("47-swr-begins-none", |asked| {
        with(asked, |rules| {
            rules.begins = |text| is(text, &["SPU", "OPU", "OWR"])
        })
    }),
    ("47-owr-begins-none", |asked| {
        with(asked, |rules| {
            rules.begins = |text| is(text, &["SPU", "OPU", "SWR"])
        })
    }),
    ("47-any-record-begins", |asked| {
        with(asked, |rules| rules.begins = |text| !(RIGHT.claims)(text))
    }),
    ("47-name-begins", |asked| {
        with(asked, |rules| {
            rules.begins = |text| (RIGHT.begins)(text) || is(text, &["NPN", "NWN"]);
        })
    }),
    ("47-pwr-begins", |asked| {
        with(asked, |rules| {
            rules.begins = |text| (RIGHT.begins)(text) || is(text, &["PWR"]);
        })
    }),
    ("47-before-any-party", |asked| {
        with(asked, |rules| {
            rules.owner = |parties, _| Some(parties.last.unwrap_or(usize::MAX))
        })
    }),
    ("47-before-any-party-the-first", |asked| {
        with(asked, |rules| {
            rules.owner = |parties, _| Some(parties.last.unwrap_or(0))
        })
    }),
    ("47-party-of-the-work-before", |asked| {
        with(asked, |rules| rules.go_on = true)
    }),
    ("47-by-the-party-number", |asked| {
        // The one that the claim names.
        with(asked, |rules| {
            rules.owner = |parties, text| {
                let number = field(text, 20, 9).iter();
                let number = number.fold(0, |sum: usize, &byte| {
                    sum.wrapping_mul(31) + usize::from(byte)
                });
                parties.last.map(|_| number)
            };
        })
    }),
    ("47-parties-8-bits", |asked| {
        with(asked, |rules| {
            rules.owner = |parties, _| parties.last.map(|last| last & 0xff)
        })
    }),
    ("47-parties-16-bits, large", |asked| {
        with(asked, |rules| {
            rules.owner = |parties, _| parties.last.map(|last| last & 0xffff)
        })
    }),
    ("47-without-first-party", |asked| {
        with(asked, |rules| {
            rules.owner = |parties, _| parties.last.filter(|&last| last > 0)
        })
    }),
    ("47-spt-not-counted", |asked| {
        with(asked, |rules| {
            rules.counts = |claim| (RIGHT.counts)(claim) && !is(claim.text, &["SPT"]);
        })
    }),
    ("47-opt-not-counted", |asked| {
        with(asked, |rules| {
            rules.counts = |claim| (RIGHT.counts)(claim) && !is(claim.text, &["OPT"]);
        })
    }),
    ("47-swt-not-counted", |asked| {
        with(asked, |rules| {
            rules.counts = |claim| (RIGHT.counts)(claim) && !is(claim.text, &["SWT"]);
        })
    }),
    ("47-owt-not-counted", |asked| {
        with(asked, |rules| {
            rules.counts = |claim| (RIGHT.counts)(claim) && !is(claim.text, &["OWT"]);
        })
    }),
    ("47-opt-of-an-spu-not-counted", |asked| {
        with(asked, |rules| {
            rules.owner = |parties, text| match is(text, &["SWT", "OWT"]) {
                true => parties.last.filter(|_| parties.last == parties.last_writer),
                false => parties
                    .last
                    .filter(|_| parties.last == parties.last_publisher),
            };
        })
    }),
    // Totals and their limit.
    ("47-pr-alone", |asked| {
        with(asked, |rules| rules.over = |totals, t| totals[0] > FULL + t)
    }),
    ("47-mr-alone", |asked| {
        with(asked, |rules| rules.over = |totals, t| totals[1] > FULL + t)
    }),
    ("47-sr-alone", |asked| {
        with(asked, |rules| rules.over = |totals, t| totals[2] > FULL + t)
    }),
    ("47-without-pr", |asked| {
        with(asked, |rules| {
            rules.over = |totals, t| totals[1].max(totals[2]) > FULL + t
        })
    }),
    ("47-without-mr", |asked| {
        with(asked, |rules| {
            rules.over = |totals, t| totals[0].max(totals[2]) > FULL + t
        })
    }),
    ("47-without-sr", |asked| {
        with(asked, |rules| {
            rules.over = |totals, t| totals[0].max(totals[1]) > FULL + t
        })
    }),
    ("47-all-rights", |asked| {
        with(asked, |rules| {
            rules.over = |totals, t| totals.iter().all(|&sum| sum > FULL + t)
        })
    }),
    ("47-rights-together", |asked| {
        with(asked, |rules| {
            rules.over = |totals, t| totals.iter().sum::<u64>() > FULL + t
        })
    }),
    ("47-tolerance-not-added", |asked| {
        with(asked, |rules| {
            rules.over = |totals, _| totals.iter().any(|&sum| sum > FULL)
        })
    }),
    ("47-tolerance-always-6", |asked| {
        with(asked, |rules| {
            rules.over = |totals, _| totals.iter().any(|&sum| sum > FULL + 6)
        })
    }),
    ("47-tolerance-twice", |asked| {
        with(asked, |rules| {
            rules.over = |totals, t| totals.iter().any(|&sum| sum > FULL + 2 * t)
        })
    }),
    ("47-tolerance-taken-off", |asked| {
        with(asked, |rules| {
            rules.over = |totals, t| totals.iter().any(|&sum| sum > FULL - t)
        })
    }),
    ("47-at-the-limit", |asked| {
        with(asked, |rules| {
            rules.over = |totals, t| totals.iter().any(|&sum| sum >= FULL + t)
        })
    }),
    ("47-one-above-the-limit", |asked| {
        with(asked, |rules| {
            rules.over = |totals, t| totals.iter().any(|&sum| sum > FULL + t + 1)
        })
    }),
    ("47-short-too", |asked| {
        // As finding 3 has it.
        with(asked, |rules| {
            rules.over = |totals, t| {
                let full = FULL - t..=FULL + t;
                totals.iter().any(|sum| *sum > 0 && !full.contains(sum))
            };
        })
    }),
    ("47-totals-16-bits", |asked| {
        with(asked, |rules| rules.sum = |sum| sum & 0xffff)
    }),
    ("47-totals-32-bits, large", |asked| {
        with(asked, |rules| rules.sum = |sum| sum & 0xffff_ffff)
    }),
    ("47-shares-16-bits", |asked| {
        with(asked, |rules| {
            rules.given = |table, claims| (RIGHT.given)(table, claims).map(|share| share & 0xffff);
        })
    }),
    ("47-a-share-at-most-all", |asked| {
        with(asked, |rules| {
            rules.given = |table, claims| (RIGHT.given)(table, claims).map(|share| share.min(FULL));
        })
    }),
    ("47-a-share-over-all-ignored", |asked| {
        with(asked, |rules| {
            rules.counts =
                |claim| (RIGHT.counts)(claim) && claim.gives().iter().all(|&share| share <= FULL);
        })
    }),
    ("47-more-than-half-ignored", |asked| {
        // The most that 001 gives a publisher of PR.
        with(asked, |rules| {
            rules.counts = |claim| {
                (RIGHT.counts)(claim) && !(is_publishers(claim) && claim.gives()[0] > FULL / 2)
            };
        })
    }),
    // Claims that are ignored.
    ("47-ignored-hides", |asked| {
        with(asked, |rules| {
            rules.counts = |_| true;
            rules.given = |_, claims| match claims.last() {
                Some(last) if (RIGHT.counts)(last) => included(last),
                _ => [0; 3],
            };
        })
    }),
    ("47-wrong-mark-includes", |asked| {
        with(asked, |rules| {
            rules.counts = |claim| !claim.wrong_but_for(false, true, [false; 3]);
            rules.given = |_, claims| match claims.last() {
                Some(last) if last.mark != b'E' => last.gives(),
                _ => [0; 3],
            };
        })
    }),
    ("47-wrong-mark-excludes", |asked| {
        with(asked, |rules| {
            rules.counts = |claim| !claim.wrong_but_for(false, true, [false; 3]);
        })
    }),
    ("47-no-share-as-0", |asked| {
        with(asked, |rules| {
            rules.counts = |claim| !claim.wrong_but_for(false, false, [true; 3]);
        })
    }),
    ("47-no-sr-as-0", |asked| {
        with(asked, |rules| {
            rules.counts = |claim| !claim.wrong_but_for(false, false, [false, false, true]);
        })
    }),
    ("47-exclude-without-shares", |asked| {
        // What an exclude has as shares is not looked at.
        with(asked, |rules| {
            rules.counts = |claim| !claim.wrong_but_for(false, false, [claim.mark == b'E'; 3]);
        })
    }),
    // On which records, and of what level.
    ("47-on-all-records", |asked| {
        sets_changed(asked, |sets| {
            sets.iter_mut().for_each(|set| *set |= 1 << 47)
        })
    }),
    ("47-on-the-last-record", |asked| {
        sets_changed(asked, |sets| {
            sets[0] &= !(1 << 47);
            let last = sets.len() - 1;
            sets[last] |= 1 << 47;
        })
    }),
    ("47-not-in-a-fallen-group", |asked| {
        sets_changed(asked, |sets| {
            if sets[0] & 1 == 1 {
                sets[0] &= !(1 << 47);
            }
        })
    }),
    ("47-not-beside-3", |asked| {
        sets_changed(asked, |sets| {
            if sets[0] >> 3 & 1 == 1 {
                sets[0] &= !(1 << 47);
            }
        })
    }),
    ("47-not-beside-48", |asked| {
        sets_changed(asked, |sets| {
            if sets.iter().any(|set| set >> 48 & 1 == 1) {
                sets[0] &= !(1 << 47);
            }
        })
    }),
    ("47-as-49", |asked| {
        // The next that was free when it came.
        let mut right = asked.right();
        for record in 0..right.buffers[1].len() / 8 * usize::from(right.refusal() == 0) {
            let set = right.set(record);
            let other = set & !(1 << 47) | (set >> 47 & 1) << 49;
            right.buffers[1][8 * record..8 * record + 8].copy_from_slice(&other.to_le_bytes());
        }
        right
    }),
    ("47-without-level", |asked| without_level(asked, 47, 0)),
    ("47-fr", |asked| without_level(asked, 47, 1 << 19)),
    ("47-rr", |asked| without_level(asked, 47, 1 << 24)),
    ("47-gr", |asked| without_level(asked, 47, 1)),
    ("48-without-level", |asked| without_level(asked, 48, 0)),
    ("48-fr", |asked| without_level(asked, 48, 1 << 19)),
    ("48-rr", |asked| without_level(asked, 48, 1 << 24)),
    ("48-gr", |asked| without_level(asked, 48, 1)),
    // What has 48.
    ("48-not-for-the-mark", |asked| {
        with(asked, |rules| {
            rules.wrong = |_, claim| claim.wrong_but_for(false, true, [false; 3]);
        })
    }),
    ("48-not-for-the-code", |asked| {
        with(asked, |rules| {
            rules.wrong = |_, claim| claim.wrong_but_for(true, false, [false; 3]);
        })
    }),
    ("48-not-for-pr", |asked| {
        with(asked, |rules| {
            rules.wrong = |_, claim| claim.wrong_but_for(false, false, [true, false, false]);
        })
    }),
    ("48-not-for-mr", |asked| {
        with(asked, |rules| {
            rules.wrong = |_, claim| claim.wrong_but_for(false, false, [false, true, false]);
        })
    }),
    ("48-not-for-sr", |asked| {
        with(asked, |rules| {
            rules.wrong = |_, claim| claim.wrong_but_for(false, false, [false, false, true]);
        })
    }),
    ("48-not-for-an-exclude's-shares", |asked| {
        with(asked, |rules| {
            rules.wrong = |_, claim| claim.wrong_but_for(false, false, [claim.mark == b'E'; 3]);
        })
    }),
    ("48-not-before-a-party", |asked| {
        with(asked, |rules| {
            rules.wrong = |table, claim| claim.owner.is_some() && (RIGHT.wrong)(table, claim);
        })
    }),
    ("48-not-on-opt-and-owt", |asked| {
        with(asked, |rules| {
            rules.wrong =
                |table, claim| !is(claim.text, &["OPT", "OWT"]) && (RIGHT.wrong)(table, claim);
        })
    }),
    ("48-not-on-spt", |asked| {
        with(asked, |rules| {
            rules.wrong = |table, claim| !is(claim.text, &["SPT"]) && (RIGHT.wrong)(table, claim);
        })
    }),
    ("48-not-on-swt", |asked| {
        with(asked, |rules| {
            rules.wrong = |table, claim| !is(claim.text, &["SWT"]) && (RIGHT.wrong)(table, claim);
        })
    }),
    ("48-not-for-an-empty-table", |asked| {
        with(asked, |rules| {
            rules.wrong = |table, claim| !table.codes.is_empty() && (RIGHT.wrong)(table, claim);
        })
    }),
    ("48-before-a-party", |asked| {
        with(asked, |rules| {
            rules.wrong = |table, claim| claim.owner.is_none() || (RIGHT.wrong)(table, claim);
        })
    }),
    ("48-for-a-group", |asked| {
        with(asked, |rules| {
            rules.wrong = |table, claim| {
                let group = claim.territory.is_some_and(|at| table.has_members(at));
                group || (RIGHT.wrong)(table, claim)
            };
        })
    }),
    ("48-for-more-than-all", |asked| {
        with(asked, |rules| {
            rules.wrong = |table, claim| {
                claim.gives().iter().any(|&share| share > FULL) || (RIGHT.wrong)(table, claim)
            };
        })
    }),
    ("48-for-more-than-half", |asked| {
        with(asked, |rules| {
            rules.wrong = |table, claim| {
                let more = is_publishers(claim) && claim.gives()[0] > FULL / 2;
                more || (RIGHT.wrong)(table, claim)
            };
        })
    }),
    ("48-for-an-exclude-with-shares", |asked| {
        with(asked, |rules| {
            rules.wrong = |table, claim| {
                claim.mark == b'E' && claim.gives() != [0; 3] || (RIGHT.wrong)(table, claim)
            };
        })
    }),
    ("48-for-an-include-without-shares", |asked| {
        // An edit of 001 that has no number here.
        with(asked, |rules| {
            rules.wrong = |table, claim| {
                claim.mark == b'I' && claim.gives() == [0; 3] || (RIGHT.wrong)(table, claim)
            };
        })
    }),
    ("48-without-a-party-number", |asked| {
        with(asked, |rules| {
            rules.wrong = |table, claim| {
                blank(field(claim.text, 20, 9)) && is(claim.text, &["SPT", "SWT"])
                    || (RIGHT.wrong)(table, claim)
            };
        })
    }),
    ("48-for-a-kind-of-another-party", |asked| {
        // A writer's claim after a publisher, and the other way round.
        with(asked, |rules| {
            rules.owner = |parties, text| match is(text, &["SPT", "OPT"]) {
                true => parties
                    .last
                    .filter(|_| parties.last == parties.last_publisher),
                false => parties.last.filter(|_| parties.last == parties.last_writer),
            };
            rules.wrong = |table, claim| claim.owner.is_none() || (RIGHT.wrong)(table, claim);
        })
    }),
    // How a claim's fields are read.
    ("48-marks-of-any-case", |asked| {
        asked.with(|request| mark_changed(&mut request.file, |mark| mark.to_ascii_uppercase()))
    }),
    ("48-blank-mark-includes", |asked| {
        asked.with(|request| {
            mark_changed(
                &mut request.file,
                |mark| if mark == b' ' { b'I' } else { mark },
            );
        })
    }),
    ("48-share-of-blanks", |asked| {
        with(asked, |rules| {
            rules.share = |share| digits(share).or(blank(share).then_some(0));
        })
    }),
    ("48-share-with-blanks-before", |asked| {
        with(asked, |rules| {
            rules.share = |share| {
                let text: Vec<u8> = share.iter().copied().skip_while(|b| *b == b' ').collect();
                digits(&text).filter(|_| !text.is_empty())
            };
        })
    }),
    ("48-share-with-slash", |asked| {
        // The byte before 0 as a digit.
        with(asked, |rules| {
            rules.share = |share| {
                let digit = |&byte: &u8| if byte == b'/' { b'0' } else { byte };
                digits(&share.iter().map(digit).collect::<Vec<_>>())
            };
        })
    }),
    ("48-share-with-colon", |asked| {
        with(asked, |rules| {
            rules.share = |share| {
                let digit = |&byte: &u8| if byte == b':' { b'9' } else { byte };
                digits(&share.iter().map(digit).collect::<Vec<_>>())
            };
        })
    }),
    ("48-share-of-four-digits", |asked| {
        with(asked, |rules| {
            rules.share = |share| digits(&share[..4]).map(|share| share * 10)
        })
    }),
    ("48-writers-places", |asked| {
        with(asked, |rules| rules.starts = |_| [29, 34, 39, 44, 45])
    }),
    ("48-publishers-places", |asked| {
        with(asked, |rules| {
            // What lies beyond a record is blank.
            rules.starts = |text| match is(text, &["SWT", "OWT"]) {
                true => [35, 40, 45, 50, 49],
                false => starts(text),
            };
        })
    }),
    ("48-pr-and-mr-exchanged", |asked| {
        with(asked, |rules| {
            rules.starts = |text| {
                let [pr, mr, sr, mark, code] = starts(text);
                [mr, pr, sr, mark, code]
            };
            rules.wrong = |_, claim| claim.wrong_but_for(false, false, [false, true, false]);
        })
    }),
    ("48-code-before-mark", |asked| {
        with(asked, |rules| {
            rules.starts = |text| {
                let [pr, mr, sr, mark, _] = starts(text);
                [pr, mr, sr, mark + 4, mark]
            };
        })
    }),
    ("48-lookup-unaligned", |asked| {
        let right = asked.right();
        let bytes = &asked.territories;
        let somewhere = |code: &[u8]| bytes.windows(4).any(|part| part == code);
        match right.refusal() {
            0 => asked.judged(|_, work, sets| {
                for (text, set) in work.iter().zip(sets) {
                    if (RIGHT.claims)(text) && somewhere(field(text, starts(text)[4], 4)) {
                        let known =
                            (RIGHT.position)(&Table::of(bytes), field(text, starts(text)[4], 4));
                        *set &= !(u64::from(known.is_none()) << 48);
                    }
                }
            }),
            _ => right,
        }
    }),
    ("48-lookup-three-bytes", |asked| {
        with(asked, |rules| {
            rules.position = |table, code| table.codes.iter().position(|one| one[..3] == code[..3]);
        })
    }),
    ("48-lookup-last-three-bytes", |asked| {
        with(asked, |rules| {
            rules.position = |table, code| table.codes.iter().position(|one| one[1..] == code[1..]);
        })
    }),
    ("48-lookup-without-last-entry", |asked| {
        with(asked, |rules| {
            rules.position =
                |table, code| (RIGHT.position)(table, code).filter(|at| at + 1 < table.codes.len());
        })
    }),
    ("48-lookup-without-first-entry", |asked| {
        with(asked, |rules| {
            rules.position = |table, code| (RIGHT.position)(table, code).filter(|&at| at > 0);
        })
    }),
    ("48-lookup-sorted", |asked| {
        // Halves a table that is in any order.
        with(asked, |rules| {
            rules.position = |table, code| {
                table
                    .codes
                    .binary_search_by(|one| one.as_slice().cmp(code))
                    .ok()
            };
        })
    }),
    ("48-lookup-256-entries", |asked| {
        with(asked, |rules| {
            rules.position = |table, code| (RIGHT.position)(table, code).filter(|&at| at < 256);
        })
    }),
    ("48-lookup-by-number", |asked| {
        // Codes that are digits alone.
        with(asked, |rules| {
            rules.position = |table, code| digits(code).and_then(|_| (RIGHT.position)(table, code));
        })
    }),
    ("48-lookup-seven-bits", |asked| {
        with(asked, |rules| {
            rules.position = |table, code| {
                let bits = |code: &[u8]| code.iter().map(|byte| byte & 0x7f).collect::<Vec<_>>();
                table.codes.iter().position(|one| bits(one) == bits(code))
            };
        })
    }),
    ("48-blank-code", |asked| {
        // Missing, though the table has it.
        with(asked, |rules| {
            rules.position = |table, code| (RIGHT.position)(table, code).filter(|_| !blank(code));
        })
    }),
    ("48-on-the-header", |asked| {
        asked.judged(|_, _, sets| {
            if sets.iter().any(|set| set >> 48 & 1 == 1) {
                sets.iter_mut().for_each(|set| *set &= !(1 << 48));
                sets[0] |= 1 << 48;
            }
        })
    }),
    ("48-once", |asked| {
        // On the first of a transaction alone.
        asked.judged(|_, _, sets| {
            let wrong = |set: &&mut u64| **set >> 48 & 1 == 1;
            sets.iter_mut()
                .filter(wrong)
                .skip(1)
                .for_each(|set| *set &= !(1 << 48));
        })
    }),
];

/// Those of the calls that are lent no territory table.
pub const WITHOUT_A_TABLE: &[Fault] = &[
    ("without-a-table-47", |asked| without_a_table(asked, 47)),
    ("without-a-table-48", |asked| without_a_table(asked, 48)),
];

/// Changes the mark of each claim in a file's lines.
fn mark_changed(file: &mut [u8], change: fn(u8) -> u8) {
    for line in file.split_mut(|&byte| byte == b'\n') {
        if line.len() > 50 && (RIGHT.claims)(line) {
            let mark = starts(line)[3] - 1;
            line[mark] = change(line[mark]);
        }
    }
}

#[cfg(test)]
mod rules {
    use super::*;
    use tests::calls::{Call, Guard};
    use tests::generate::{case, limits, spread};

    /// Without a fault the rules answer as the reference does.
    #[test]
    fn right_rules() {
        let mut passed = 0;
        for seed in spread(3, 4000).into_iter().chain(limits()) {
            let case = case(seed).expect("a case");
            if case.calls.contains(&Call::Claims) {
                let asked = Asked(case.request(Call::Claims, Guard::None));
                let right = asked.right();
                assert!(by(&asked, &RIGHT) == right, "{}", case.kind);
                passed += u32::from(right.refusal() == 0);
            }
        }
        assert!(passed > 800, "{passed}");
    }
}
