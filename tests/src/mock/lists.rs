//! Faults of what is lent for shares by territory: refusals 13 and 14, the list
//! of claims, and where a total is said to be over.

use std::process::exit;

use tests::calls::{Guard, Reply};
use tests::generate::claims::is_claim;
use tests::generate::territories::{entries, of, Entry};
use tests::reference::claims::ENTRY;
use tests::reference::lines::lines;
use tests::reference::territories::NO_GROUP;
use tests::reference::types::Class;

use crate::asked::{classes, place, with_place, Asked};
use crate::claims::{judged, write_over};
use crate::Fault;

/// Faults of the check that this one could have besides those that every call
/// could have.
pub const SHARED: &[&str] = &[
    "tolerance-7",
    "tolerance-32-bits",
    "tolerance-8-bits",
    "tolerance-always-6",
    "tolerance-always-0",
    "two-before-one",
    "entries-1024",
    "lookup-first-entry",
    "short-verdicts",
    "short-findings",
    "findings-one-byte-each",
    "eleven-first",
    "writes-beyond-verdicts",
    "writes-beyond-findings",
    "clears-buffers",
    "writes-on-refusal",
    "writes-nothing",
    "sets-backwards",
    "sets-32-bits",
    "verdicts-own-only",
    "verdict-of-the-lowest",
    "group-without-its-ends",
    "group-over-hdr-and-trl",
    "groups-run-together",
    "first-transaction-only",
    "all-alike",
    "changes-what-is-lent",
    "totals-16-bits",
    "iswc-without-1",
    "opu-blank-type-none",
];

/// The right answer to another table, where this one is refused by 13.
fn table_taken(asked: &Asked, change: fn(&mut Vec<u8>)) -> Reply {
    let right = asked.right();
    match right.refusal() {
        13 => asked.with(|request| change(&mut request.territories)),
        _ => right,
    }
}

/// The same with its entries changed.
fn entries_taken(asked: &Asked, change: fn(usize, &mut Entry)) -> Reply {
    let right = asked.right();
    match right.refusal() {
        13 => asked.with(|request| entries_changed(&mut request.territories, change)),
        _ => right,
    }
}

fn entries_changed(table: &mut Vec<u8>, change: fn(usize, &mut Entry)) {
    if table.len().is_multiple_of(6) {
        let mut changed = entries(table);
        let numbered = changed.iter_mut().enumerate();
        numbered.for_each(|(at, entry)| change(at, entry));
        *table = of(&changed);
    }
}

/// A code that is there once.
fn renamed(at: usize, (code, _): &mut Entry) {
    *code = tests::generate::territories::code(9_000 + at);
}

/// Where the table is right and this holds of it, refused by 13.
fn table_refused(asked: &Asked, wrong: fn(&[Entry]) -> bool) -> Reply {
    let right = asked.right();
    match right.refusal() {
        0 | 3..=11 | 14 if wrong(&entries(&asked.territories)) => asked.refused(13, 0),
        _ => right,
    }
}

/// Where the table is wrong, what the answer is without it, if this holds.
fn later_than(asked: &Asked, holds: fn(u64) -> bool) -> Reply {
    let right = asked.right();
    if right.refusal() != 13 {
        return right;
    }
    let other = asked.with(|request| request.territories.clear());
    match holds(other.refusal()) {
        true => asked.refused(other.refusal() as u32, place(&other)),
        false => right,
    }
}

/// A transaction: the record of its header, and its claims' and parties' records.
struct Work {
    header: usize,
    claims: Vec<usize>,
    parties: Vec<usize>,
    group: usize,
}

/// Those of a file that is structurally right.
fn works(asked: &Asked) -> Vec<Work> {
    let lines = lines(&asked.file);
    let (mut works, mut group): (Vec<Work>, usize) = (Vec::new(), 0);
    for (record, class) in classes(&lines).into_iter().enumerate() {
        let text = lines[record].text;
        match class {
            Class::Grh => group += 1,
            Class::Header => works.push(Work {
                header: record,
                claims: Vec::new(),
                parties: Vec::new(),
                group,
            }),
            Class::Detail => {
                let work = works.last_mut().expect("a header before");
                if is_claim(text) {
                    work.claims.push(record);
                } else if matches!(&text[..3], b"SPU" | b"OPU" | b"SWR" | b"OWR") {
                    work.parties.push(record);
                }
            }
            _ => {}
        }
    }
    works
}

/// The answer with 14 by another count: where it would pass or is refused by it,
/// the first transaction for which this says at what place.
fn fourteen(asked: &Asked, at: fn(&[Work], usize, usize) -> Option<usize>) -> Reply {
    let right = asked.right();
    if !matches!(right.refusal(), 0 | 14) {
        return right;
    }
    let (works, entries) = (works(asked), asked.buffers[2].len() / ENTRY);
    match (0..works.len()).find_map(|work| at(&works, work, entries)) {
        Some(place) => asked.refused(14, place as u64),
        None => with_room(asked),
    }
}

/// What is answered with an entry for each record.
fn with_room(asked: &Asked) -> Reply {
    asked.with(|request| request.buffers[2] = vec![0; ENTRY * asked.pairs()])
}

/// Where it is refused by 14, another place.
fn placed(asked: &Asked, at: fn(&[Work], usize) -> usize) -> Reply {
    let right = asked.right();
    match right.refusal() {
        14 => {
            let header = place(&right) as usize;
            let works = works(asked);
            let number = works.iter().position(|work| work.header == header);
            with_place(right, at(&works, number.expect("a header")) as u64)
        }
        _ => right,
    }
}

/// Before this refusal: where there is one, 14 if that would come without it.
fn fourteen_before(asked: &Asked, refusal: u64) -> Reply {
    let right = asked.right();
    if right.refusal() != refusal {
        return right;
    }
    let entries = asked.buffers[2].len() / ENTRY;
    let works = works(asked);
    match works.iter().find(|work| work.claims.len() > entries) {
        Some(work) => asked.refused(14, work.header as u64),
        None => right,
    }
}

/// A transaction and a territory that are over.
type Over = (u64, u64);

/// Where it passes, other bytes of `over`, by all that is over.
fn over_by(asked: &Asked, first: fn(&Asked, &[Over]) -> Option<Over>) -> Reply {
    let mut right = asked.right();
    if right.refusal() == 0 {
        write_over(&mut right, first(asked, &judged(asked).over));
    }
    right
}

/// Where it passes, the eight bytes of `over` changed, by those before.
fn over_bytes(asked: &Asked, change: fn(&[u8], &mut [u8])) -> Reply {
    let mut right = asked.right();
    if right.refusal() == 0 {
        change(&asked.buffers[3][..8], &mut right.buffers[3][..8]);
    }
    right
}

/// Where there is nothing over.
fn is_none(over: &[u8]) -> bool {
    over.iter().all(|&byte| byte == 255)
}

/// Where it passes, other bytes of the list, by those before and how many entries
/// the claims of a transaction take at most.
fn list_left(asked: &Asked, change: fn(&[u8], usize, &mut [u8])) -> Reply {
    let mut right = asked.right();
    if right.refusal() == 0 {
        let most = works(asked).iter().map(|work| work.claims.len()).max();
        let most = ENTRY * most.unwrap_or(0);
        change(&asked.buffers[2], most, &mut right.buffers[2]);
    }
    right
}

/// Where it is refused by this number, a buffer is changed.
fn on_refusal(asked: &Asked, refusal: u64, buffer: usize, change: fn(&mut [u8])) -> Reply {
    let mut right = asked.right();
    if right.refusal() == refusal {
        change(&mut right.buffers[buffer]);
    }
    right
}

pub const FAULTS: &[Fault] = &[
    // 13, what it says.
    ("claims-513-entries", |asked| {
        table_taken(asked, |table| {
            if table.len() == 6 * 513 {
                table.truncate(6 * 512);
            }
        })
    }),
    ("claims-1024-entries", |asked| {
        // As many as the other tables have.
        table_taken(asked, |table| {
            if table.len() <= 6 * 1024 && table.len() % 6 == 0 {
                table.truncate(6 * 512);
            }
        })
    }),
    ("claims-512-entries-refused", |asked| {
        table_refused(asked, |entries| entries.len() == 512)
    }),
    ("claims-empty-table-refused", |asked| {
        table_refused(asked, |entries| entries.is_empty())
    }),
    ("claims-part-of-an-entry", |asked| {
        table_taken(asked, |table| table.truncate(table.len() - table.len() % 6))
    }),
    ("claims-entry-of-3-bytes", |asked| {
        table_taken(asked, |table| {
            if table.len() % 3 == 0 {
                table.truncate(table.len() - table.len() % 6);
            }
        })
    }),
    ("claims-code-twice", |asked| entries_taken(asked, renamed)),
    ("claims-code-twice-in-two-groups", |asked| {
        let right = asked.right();
        let entries = entries(&asked.territories);
        let in_one = (0..entries.len()).any(|at| entries[..at].contains(&entries[at]));
        match right.refusal() {
            13 if !in_one => entries_taken(asked, renamed),
            _ => right,
        }
    }),
    ("claims-code-twice-apart", |asked| {
        // Only neighbours are compared.
        let right = asked.right();
        let entries = entries(&asked.territories);
        let beside = entries.windows(2).any(|two| two[0].0 == two[1].0);
        match right.refusal() {
            13 if !beside => entries_taken(asked, renamed),
            _ => right,
        }
    }),
    ("claims-codes-of-three-bytes", |asked| {
        table_refused(asked, |entries| {
            let alike = |at: usize| {
                let code = &entries[at].0[..3];
                entries[..at].iter().any(|other| other.0[..3] == *code)
            };
            (0..entries.len()).any(alike)
        })
    }),
    ("claims-own-position", |asked| {
        entries_taken(asked, |at, (_, group)| {
            if usize::from(*group) == at {
                *group = NO_GROUP;
            }
        })
    }),
    ("claims-next-position", |asked| {
        entries_taken(asked, |at, (_, group)| {
            if usize::from(*group) == at + 1 {
                *group = NO_GROUP;
            }
        })
    }),
    ("claims-later-position", |asked| {
        let entries = entries(&asked.territories);
        let inside = |&(_, group): &Entry| group == NO_GROUP || usize::from(group) < entries.len();
        match entries.iter().all(inside) {
            true => entries_taken(asked, |at, (_, group)| {
                if usize::from(*group) > at {
                    *group = NO_GROUP;
                }
            }),
            false => asked.right(),
        }
    }),
    ("claims-position-beyond", |asked| {
        // Beyond the table it is none.
        let length = entries(&asked.territories).len();
        let right = asked.right();
        match right.refusal() {
            13 => asked.with(|request| {
                if request.territories.len() % 6 == 0 {
                    let mut changed = entries(&request.territories);
                    for (_, group) in &mut changed {
                        if usize::from(*group) >= length {
                            *group = NO_GROUP;
                        }
                    }
                    request.territories = of(&changed);
                }
            }),
            _ => right,
        }
    }),
    ("claims-position-65534", |asked| {
        entries_taken(asked, |_, (_, group)| {
            if *group == NO_GROUP - 1 {
                *group = NO_GROUP;
            }
        })
    }),
    ("claims-position-signed", |asked| {
        // Every negative one is none.
        entries_taken(asked, |_, (_, group)| {
            if *group >= 1 << 15 {
                *group = NO_GROUP;
            }
        })
    }),
    ("claims-position-8-bits", |asked| {
        let right = asked.right();
        match right.refusal() {
            0 | 13 => asked.with(|request| {
                entries_changed(&mut request.territories, |_, (_, group)| {
                    if *group != NO_GROUP {
                        *group &= 0xff;
                    }
                })
            }),
            _ => right,
        }
    }),
    ("claims-position-other-end", |asked| {
        asked.with(|request| {
            entries_changed(&mut request.territories, |_, (_, group)| {
                *group = group.swap_bytes();
            })
        })
    }),
    ("claims-position-0-none", |asked| {
        asked.with(|request| {
            entries_changed(&mut request.territories, |_, (_, group)| {
                if *group == 0 {
                    *group = NO_GROUP;
                }
            })
        })
    }),
    ("claims-position-from-1", |asked| {
        asked.with(|request| {
            entries_changed(&mut request.territories, |_, (_, group)| match *group {
                NO_GROUP => {}
                0 => *group = NO_GROUP,
                _ => *group -= 1,
            })
        })
    }),
    ("claims-13-never", |asked| {
        // An empty table in its place.
        table_taken(asked, |table| table.clear())
    }),
    // 13, when and where.
    ("claims-13-after-3", |asked| {
        later_than(asked, |refusal| (3..=10).contains(&refusal))
    }),
    ("claims-13-after-4", |asked| {
        later_than(asked, |refusal| refusal == 4)
    }),
    ("claims-13-after-6", |asked| {
        later_than(asked, |refusal| matches!(refusal, 4 | 6))
    }),
    ("claims-13-after-11", |asked| {
        later_than(asked, |refusal| (3..=11).contains(&refusal))
    }),
    ("claims-13-after-14", |asked| {
        later_than(asked, |refusal| refusal == 14)
    }),
    ("claims-13-before-11-alone", |asked| {
        later_than(asked, |refusal| refusal == 11)
    }),
    ("claims-13-before-2", |asked| {
        let right = asked.right();
        match right.refusal() {
            2 => {
                let other = asked.with(|request| request.tables = Default::default());
                match other.refusal() {
                    13 => asked.refused(13, 0),
                    _ => right,
                }
            }
            _ => right,
        }
    }),
    ("claims-13-before-1", |asked| {
        let right = asked.right();
        match right.refusal() {
            1 => {
                let other = asked.with(|request| request.number = 0);
                match other.refusal() {
                    13 => asked.refused(13, 0),
                    _ => right,
                }
            }
            _ => right,
        }
    }),
    ("claims-13-place-3", |asked| {
        // Which table it is.
        match asked.right() {
            right if right.refusal() == 13 => with_place(right, 3),
            right => right,
        }
    }),
    ("claims-13-place-of-the-entry", |asked| {
        let entries = entries(&asked.territories);
        let wrong = |&at: &usize| {
            let (code, group) = entries[at];
            let twice = entries[..at].iter().any(|other| other.0 == code);
            twice || group != NO_GROUP && usize::from(group) >= at
        };
        let place = (0..entries.len()).find(wrong).unwrap_or(0);
        match asked.right() {
            right if right.refusal() == 13 => with_place(right, place as u64),
            right => right,
        }
    }),
    ("claims-13-as-2", |asked| match asked.right() {
        right if right.refusal() == 13 => asked.refused(2, 3),
        right => right,
    }),
    // 14, what it counts.
    ("claims-14-never", |asked| fourteen(asked, |_, _, _| None)),
    ("claims-14-one-entry-more", |asked| {
        fourteen(asked, |works, at, entries| {
            (works[at].claims.len() > entries + 1).then_some(works[at].header)
        })
    }),
    ("claims-14-one-entry-less", |asked| {
        fourteen(asked, |works, at, entries| {
            (works[at].claims.len() >= entries.max(1)).then_some(works[at].header)
        })
    }),
    ("claims-14-empty-list", |asked| {
        // Refused even without claims.
        fourteen(asked, |works, at, entries| {
            let claims = works[at].claims.len();
            (claims > entries || entries == 0).then_some(works[at].header)
        })
    }),
    ("claims-14-of-the-file", |asked| {
        // All claims up to there.
        fourteen(asked, |works, at, entries| {
            let claims: usize = works[..=at].iter().map(|work| work.claims.len()).sum();
            (claims > entries).then_some(works[at].header)
        })
    }),
    ("claims-14-of-the-group", |asked| {
        fourteen(asked, |works, at, entries| {
            let group = works[..=at]
                .iter()
                .filter(|work| work.group == works[at].group);
            let claims: usize = group.map(|work| work.claims.len()).sum();
            (claims > entries).then_some(works[at].header)
        })
    }),
    ("claims-14-with-parties", |asked| {
        fourteen(asked, |works, at, entries| {
            let work = &works[at];
            (work.claims.len() + work.parties.len() > entries).then_some(work.header)
        })
    }),
    ("claims-14-without-those-before-a-party", |asked| {
        fourteen(asked, |works, at, entries| {
            let work = &works[at];
            let first = work.parties.first().copied().unwrap_or(usize::MAX);
            let claims = work.claims.iter().filter(|&&claim| claim > first);
            (claims.count() > entries).then_some(work.header)
        })
    }),
    ("claims-14-without-ignored", |asked| {
        let right = asked.right();
        if !matches!(right.refusal(), 0 | 14) {
            return right;
        }
        let sets = judged(asked).sets;
        let counts = |&&record: &&usize| sets[record] >> 48 & 1 == 0;
        let entries = asked.buffers[2].len() / ENTRY;
        let works = works(asked);
        let full = |work: &&Work| work.claims.iter().filter(counts).count() > entries;
        match works.iter().find(full) {
            Some(work) => asked.refused(14, work.header as u64),
            None => with_room(asked),
        }
    }),
    ("claims-14-of-the-first-alone", |asked| {
        fourteen(asked, |works, at, entries| {
            (at == 0 && works[at].claims.len() > entries).then_some(works[at].header)
        })
    }),
    ("claims-14-8-bits", |asked| {
        fourteen(asked, |works, at, entries| {
            (works[at].claims.len() & 0xff > entries).then_some(works[at].header)
        })
    }),
    ("claims-14-16-bits, large", |asked| {
        fourteen(asked, |works, at, entries| {
            (works[at].claims.len() & 0xffff > entries).then_some(works[at].header)
        })
    }),
    ("claims-14-list-in-bytes", |asked| {
        // As many claims as the list has bytes.
        fourteen(asked, |works, at, entries| {
            (works[at].claims.len() > ENTRY * entries).then_some(works[at].header)
        })
    }),
    ("claims-14-at-most-512", |asked| {
        fourteen(asked, |works, at, entries| {
            (works[at].claims.len() > entries.min(512)).then_some(works[at].header)
        })
    }),
    // 14, when and where.
    ("claims-14-at-the-claim", |asked| {
        let entries = asked.buffers[2].len() / ENTRY;
        let right = asked.right();
        match right.refusal() {
            14 => {
                let works = works(asked);
                let full = works.iter().find(|work| work.claims.len() > entries);
                with_place(right, full.expect("one").claims[entries] as u64)
            }
            _ => right,
        }
    }),
    ("claims-14-at-the-last-claim", |asked| {
        placed(asked, |works, at| {
            works[at].claims[works[at].claims.len() - 1]
        })
    }),
    ("claims-14-place-0", |asked| placed(asked, |_, _| 0)),
    ("claims-14-transaction", |asked| placed(asked, |_, at| at)),
    ("claims-14-place-from-1", |asked| {
        placed(asked, |works, at| works[at].header + 1)
    }),
    ("claims-14-most", |asked| {
        // The one with the most claims.
        placed(asked, |works, _| {
            let most = works.iter().max_by_key(|work| work.claims.len());
            most.expect("a transaction").header
        })
    }),
    ("claims-14-last", |asked| {
        let entries = asked.buffers[2].len() / ENTRY;
        let right = asked.right();
        match right.refusal() {
            14 => {
                let works = works(asked);
                let full = works.iter().rfind(|work| work.claims.len() > entries);
                with_place(right, full.expect("one").header as u64)
            }
            _ => right,
        }
    }),
    ("claims-14-before-11", |asked| fourteen_before(asked, 11)),
    ("claims-14-before-10", |asked| fourteen_before(asked, 10)),
    ("claims-14-before-9", |asked| fourteen_before(asked, 9)),
    ("claims-14-before-short-over", |asked| {
        match asked.buffers[3].len() {
            0..8 => fourteen_before(asked, 11),
            _ => asked.right(),
        }
    }),
    // Where a total is over.
    ("claims-over-last-territory", |asked| {
        over_by(asked, |_, over| {
            let (first, _) = over.first()?;
            over.iter()
                .rfind(|(transaction, _)| transaction == first)
                .copied()
        })
    }),
    ("claims-over-last-transaction", |asked| {
        over_by(asked, |_, over| {
            let (last, _) = over.last()?;
            over.iter()
                .find(|(transaction, _)| transaction == last)
                .copied()
        })
    }),
    ("claims-over-territory-of-the-last", |asked| {
        over_by(asked, |_, over| {
            let (last, _) = over.last()?;
            let (_, territory) = over.iter().find(|(transaction, _)| transaction == last)?;
            Some((over[0].0, *territory))
        })
    }),
    ("claims-over-least-territory", |asked| {
        // Of all transactions.
        over_by(asked, |_, over| {
            over.iter().min_by_key(|(_, territory)| territory).copied()
        })
    }),
    ("claims-over-within-its-group", |asked| {
        over_by(asked, |asked, over| {
            let (transaction, territory) = over.first()?;
            let works = works(asked);
            let group = works[*transaction as usize].group;
            let before = works.iter().filter(|work| work.group < group).count() as u64;
            Some((transaction - before, *territory))
        })
    }),
    ("claims-over-record", |asked| {
        over_by(asked, |asked, over| {
            let (transaction, territory) = over.first()?;
            Some((
                works(asked)[*transaction as usize].header as u64,
                *territory,
            ))
        })
    }),
    ("claims-over-from-1", |asked| {
        over_by(asked, |_, over| {
            over.first().map(|(one, other)| (one + 1, other + 1))
        })
    }),
    ("claims-over-8-bits", |asked| {
        over_by(asked, |_, over| {
            over.first().map(|(one, other)| (one & 0xff, *other))
        })
    }),
    ("claims-over-position-8-bits", |asked| {
        over_by(asked, |_, over| {
            over.first().map(|(one, other)| (*one, other & 0xff))
        })
    }),
    ("claims-over-15-bits, large", |asked| {
        over_by(asked, |_, over| {
            over.first().map(|(one, other)| (one & 0x7fff, *other))
        })
    }),
    ("claims-over-among-memberless", |asked| {
        // Its number among those that are judged.
        over_by(asked, |asked, over| {
            let (transaction, territory) = over.first()?;
            let entries = entries(&asked.territories);
            let groups: Vec<u16> = entries.iter().map(|entry| entry.1).collect();
            let before = (0..*territory).filter(|at| !groups.contains(&(*at as u16)));
            Some((*transaction, before.count() as u64))
        })
    }),
    ("claims-over-outermost-group", |asked| {
        over_by(asked, |asked, over| {
            let (transaction, territory) = over.first()?;
            let (entries, mut at) = (entries(&asked.territories), *territory as usize);
            while entries[at].1 != NO_GROUP {
                at = usize::from(entries[at].1);
            }
            Some((*transaction, at as u64))
        })
    }),
    ("claims-over-code", |asked| {
        over_by(asked, |asked, over| {
            let (transaction, territory) = over.first()?;
            let code = entries(&asked.territories)[*territory as usize].0;
            Some((*transaction, u64::from(u32::from_le_bytes(code))))
        })
    }),
    ("claims-over-not-in-a-fallen-group", |asked| {
        over_by(asked, |asked, over| {
            let (works, right) = (works(asked), asked.right());
            let stands = |(transaction, _): &&Over| {
                right.buffers[0][works[*transaction as usize].header] < 4
            };
            over.iter().find(stands).copied()
        })
    }),
    ("claims-over-exchanged", |asked| {
        over_bytes(asked, |_, over| over.rotate_left(4))
    }),
    ("claims-over-other-end", |asked| {
        over_bytes(asked, |_, over| {
            over.chunks_mut(4).for_each(<[u8]>::reverse)
        })
    }),
    ("claims-over-none-0", |asked| {
        over_bytes(asked, |_, over| {
            if is_none(over) {
                over.fill(0);
            }
        })
    }),
    ("claims-over-none-as-it-was", |asked| {
        over_bytes(asked, |before, over| {
            if is_none(over) {
                over.copy_from_slice(before);
            }
        })
    }),
    ("claims-over-none-territory-0", |asked| {
        over_bytes(asked, |_, over| {
            if is_none(over) {
                over[4..].fill(0);
            }
        })
    }),
    ("claims-over-none-65535", |asked| {
        over_bytes(asked, |_, over| {
            if is_none(over) {
                over[6..].fill(0);
            }
        })
    }),
    ("claims-over-as-it-was", |asked| {
        over_bytes(asked, |before, over| over.copy_from_slice(before))
    }),
    ("claims-over-four-bytes", |asked| {
        over_bytes(asked, |before, over| {
            over[4..].copy_from_slice(&before[4..])
        })
    }),
    ("claims-over-beyond", |asked| {
        let mut right = asked.right();
        if right.refusal() == 0 {
            right.buffers[3][8..].fill(0);
        }
        right
    }),
    ("claims-over-of-7-bytes", |asked| {
        let right = asked.right();
        match (right.refusal(), asked.buffers[3].len()) {
            (11, 7) => asked.with(|request| request.buffers[3].push(0)),
            _ => right,
        }
    }),
    ("claims-over-of-no-bytes", |asked| {
        // Not asked for.
        let right = asked.right();
        match (right.refusal(), asked.buffers[3].len()) {
            (11, 0) => asked.with(|request| request.buffers[3] = vec![0; 8]),
            _ => right,
        }
    }),
    ("claims-over-short-as-14", |asked| {
        let right = asked.right();
        match (right.refusal(), asked.buffers[3].len()) {
            (11, 0..8) => asked.refused(14, 0),
            _ => right,
        }
    }),
    ("claims-over-on-14", |asked| {
        on_refusal(asked, 14, 3, |over| over.fill(255))
    }),
    ("claims-over-on-11", |asked| {
        on_refusal(asked, 11, 3, |over| over.fill(255))
    }),
    ("claims-over-on-13", |asked| {
        on_refusal(asked, 13, 3, |over| over.fill(255))
    }),
    ("claims-over-on-7", |asked| {
        on_refusal(asked, 7, 3, |over| over.fill(255))
    }),
    // The list.
    ("claims-list-as-it-was", |asked| {
        list_left(asked, |before, _, list| list.copy_from_slice(before))
    }),
    ("claims-list-used-entries-alone", |asked| {
        list_left(asked, |before, most, list| {
            list[most..].copy_from_slice(&before[most..])
        })
    }),
    ("claims-list-used-entries-left", |asked| {
        list_left(asked, |before, most, list| {
            list[..most].copy_from_slice(&before[..most])
        })
    }),
    ("claims-list-last-entry-left", |asked| {
        list_left(asked, |before, most, list| {
            if most > 0 && most == list.len() {
                list[most - ENTRY..].copy_from_slice(&before[most - ENTRY..]);
            }
        })
    }),
    ("claims-list-entry-of-a-claim", |asked| {
        // A mark that was left.
        list_left(asked, |_, most, list| {
            if most > 0 {
                list[8] = b'I';
            }
        })
    }),
    ("claims-list-shares-left", |asked| {
        list_left(asked, |before, _, list| {
            let entries = list.chunks_mut(ENTRY).zip(before.chunks(ENTRY));
            entries.for_each(|(entry, before)| entry[12..].copy_from_slice(&before[12..]));
        })
    }),
    ("claims-list-party-left", |asked| {
        list_left(asked, |before, _, list| {
            let entries = list.chunks_mut(ENTRY).zip(before.chunks(ENTRY));
            entries.for_each(|(entry, before)| entry[..4].copy_from_slice(&before[..4]));
        })
    }),
    ("claims-list-mark-in-a-byte", |asked| {
        // Three bytes of each mark are not its own.
        list_left(asked, |before, _, list| {
            let entries = list.chunks_mut(ENTRY).zip(before.chunks(ENTRY));
            entries.for_each(|(entry, before)| entry[9..12].copy_from_slice(&before[9..12]));
        })
    }),
    ("claims-list-of-255", |asked| {
        list_left(asked, |_, _, list| list.fill(255))
    }),
    ("claims-list-cleared-on-14", |asked| {
        on_refusal(asked, 14, 2, |list| list.fill(0))
    }),
    ("claims-list-cleared-on-11", |asked| {
        on_refusal(asked, 11, 2, |list| list.fill(0))
    }),
    ("claims-list-cleared-on-13", |asked| {
        on_refusal(asked, 13, 2, |list| list.fill(0))
    }),
    ("claims-list-cleared-on-2", |asked| {
        on_refusal(asked, 2, 2, |list| list.fill(0))
    }),
    ("claims-list-cleared-on-8", |asked| {
        on_refusal(asked, 8, 2, |list| list.fill(0))
    }),
    ("claims-list-filled-on-14", |asked| {
        // Up to the claim that has no entry.
        on_refusal(asked, 14, 2, |list| {
            if let Some(first) = list.first_mut() {
                *first = !*first;
            }
        })
    }),
    ("claims-verdicts-on-14", |asked| {
        on_refusal(asked, 14, 0, |verdicts| verdicts.fill(0))
    }),
    ("claims-findings-on-14", |asked| {
        on_refusal(asked, 14, 1, |findings| findings.fill(0))
    }),
    ("claims-list-is-read", |asked| {
        // What stood in it counts: here, a first byte that is 1.
        let mut right = asked.right();
        if right.refusal() == 0 && asked.buffers[2].first() == Some(&1) {
            right.buffers[3][..8].fill(0);
        }
        right
    }),
    // What is answered and changed.
    ("claims-answers-transactions", |asked| match asked.right() {
        right if right.refusal() == 0 => Reply {
            packed: works(asked).len() as u64,
            ..right
        },
        right => right,
    }),
    ("claims-answers-what-is-over", |asked| match asked.right() {
        right if right.refusal() == 0 => Reply {
            packed: right.over()[0],
            ..right
        },
        right => right,
    }),
    ("claims-changes-the-table", |asked| {
        let mut right = asked.right();
        right.changed = right.refusal() == 13;
        right
    }),
    ("claims-outside, guarded", |asked| {
        if asked.guard == Guard::After && asked.buffers[2].is_empty() {
            exit(139);
        }
        asked.right()
    }),
    ("claims-outside-before, guarded", |asked| {
        if asked.guard == Guard::Before && asked.buffers[3].is_empty() {
            exit(139);
        }
        asked.right()
    }),
];
