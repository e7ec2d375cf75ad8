//! Faults of the first work to look at.

use std::ops::Range;
use std::process::exit;

use tests::calls::{Guard, Reply};
use tests::reference::first::NO_TRANSACTION;
use tests::reference::lines::{lines, Line};
use tests::reference::types::{find, Class};
use tests::reference::verdicts::{level, own, verdicts};
use tests::reference::{field, findings};

use crate::asked::{place, with_place, Asked};
use crate::claims::of_a_table;
use crate::Fault;

/// Faults of the check that this one, which has a tolerance, could have besides
/// those that every call could have.
pub const SHARED: &[&str] = &["tolerance-7", "two-before-one"];

/// A transaction: its group, its number there, its records and their findings.
struct Work {
    group: u64,
    within: u64,
    records: Range<usize>,
    sets: Vec<u64>,
    verdict: u8,
}

impl Work {
    /// Whether it is to be looked at.
    fn rejected(&self) -> bool {
        self.sets.iter().any(|&set| own(set) >= 3)
    }

    /// Whether one of its records has a finding for which this holds.
    fn has(&self, holds: fn(u32) -> bool) -> bool {
        let held = |set: &u64| (0..64).any(|finding| set >> finding & 1 == 1 && holds(finding));
        self.sets.iter().any(held)
    }
}

/// The transactions of records that are right by 6 and, as far as they go, by 7.
fn works(asked: &Asked, lines: &[Line]) -> Vec<Work> {
    let class = |line: &Line| find(line.text).expect("right by 6").class;
    let classes: Vec<_> = lines.iter().map(class).collect();
    let sets = findings::sets(lines, &classes, asked.tables(), asked.number);
    let (mut works, mut group, mut within) = (Vec::new(), 0, 0);
    // The verdicts need the ends of groups.
    let whole = classes.last() == Some(&Class::Trl);
    let verdicts = match whole {
        true => verdicts(&classes, &sets),
        false => vec![0; classes.len()],
    };
    for at in 0..classes.len() {
        match classes[at] {
            Class::Grh => {
                group += 1;
                within = 0;
            }
            Class::Header => {
                let details = classes[at + 1..].iter();
                let details = details.take_while(|&&class| class == Class::Detail);
                let records = at..at + 1 + details.count();
                works.push(Work {
                    group: group - 1,
                    within,
                    sets: sets[records.clone()].to_vec(),
                    verdict: verdicts[at],
                    records,
                });
                within += 1;
            }
            _ => {}
        }
    }
    works
}

/// The right answer where it is refused; else what this says of the works.
fn answered(asked: &Asked, answer: fn(&[Work]) -> Option<u64>) -> Reply {
    let mut right = asked.right();
    if right.refusal() == 0 {
        let works = works(asked, &lines(&asked.file));
        right.packed = answer(&works).unwrap_or(NO_TRANSACTION);
    }
    right
}

/// The first of the works for which this holds.
fn first(asked: &Asked, holds: fn(&[Work], usize) -> bool) -> Reply {
    let mut right = asked.right();
    if right.refusal() == 0 {
        let works = works(asked, &lines(&asked.file));
        let first = (0..works.len()).find(|&at| holds(&works, at));
        right.packed = first.map_or(NO_TRANSACTION, |first| first as u64);
    }
    right
}

/// The first of the works that is rejected or has this finding, by territories
/// that nobody has lent.
fn first_with(asked: &Asked, finding: u32) -> Reply {
    let mut right = asked.right();
    if right.refusal() == 0 {
        let sets = of_a_table(&asked.file, asked.number);
        let works = works(asked, &lines(&asked.file));
        let found = |work: &Work| {
            let sets = &sets[work.records.clone()];
            work.rejected() || sets.iter().any(|set| set >> finding & 1 == 1)
        };
        let first = works.iter().position(found);
        right.packed = first.map_or(NO_TRANSACTION, |first| first as u64);
    }
    right
}

/// The right number, changed; none stays none.
fn renumbered(asked: &Asked, change: fn(u64) -> u64) -> Reply {
    let mut right = asked.right();
    if right.refusal() == 0 && right.packed != NO_TRANSACTION {
        right.packed = change(right.packed);
    }
    right
}

/// None is answered so.
fn none_is(asked: &Asked, none: fn(&Asked) -> u64) -> Reply {
    let mut right = asked.right();
    if right.packed == NO_TRANSACTION {
        right.packed = none(asked);
    }
    right
}

/// Judges before this refusal is looked for: whatever is to be looked at before
/// its place is answered.
fn stops_before(asked: &Asked, refusal: u64) -> Reply {
    let mut right = asked.right();
    if right.refusal() != refusal {
        return right;
    }
    let texts = asked.file.split(|&byte| byte == b'\n');
    let texts: Vec<_> = texts
        .map(|line| line.strip_suffix(b"\r").unwrap_or(line))
        .collect();
    let before = match refusal {
        10 => texts.len() - 1,
        _ => place(&right) as usize,
    };
    let known = |text: &&&[u8]| find(text).is_some_and(|row| row.length() == text.len());
    let before = texts[..before].iter().take_while(known);
    let lines: Vec<_> = before.map(|text| Line { at: 0, text }).collect();
    let classes = |line: &Line| find(line.text).map(|row| row.class);
    if lines.get(1).and_then(classes) != Some(Class::Grh) {
        return right;
    }
    if let Some(first) = works(asked, &lines).iter().position(Work::rejected) {
        right.packed = first as u64;
    }
    right
}

/// The right answer, but as if the records were these.
fn of_records(asked: &Asked, change: impl Fn(&mut Vec<Vec<u8>>)) -> Reply {
    let mut right = asked.right();
    if right.refusal() == 0 {
        let mut texts: Vec<_> = lines(&asked.file)
            .iter()
            .map(|line| line.text.to_vec())
            .collect();
        change(&mut texts);
        let lines: Vec<_> = texts.iter().map(|text| Line { at: 0, text }).collect();
        let first = works(asked, &lines).iter().position(Work::rejected);
        right.packed = first.map_or(NO_TRANSACTION, |first| first as u64);
    }
    right
}

pub const FAULTS: &[Fault] = &[
    ("first-last", |asked| {
        answered(asked, |works| {
            works.iter().rposition(Work::rejected).map(|at| at as u64)
        })
    }),
    ("first-within-its-group", |asked| {
        answered(asked, |works| {
            let first = works.iter().find(|work| work.rejected());
            first.map(|work| work.within)
        })
    }),
    ("first-group", |asked| {
        answered(asked, |works| {
            let first = works.iter().find(|work| work.rejected());
            first.map(|work| work.group)
        })
    }),
    ("first-record-of-its-header", |asked| {
        answered(asked, |works| {
            let first = works.iter().find(|work| work.rejected());
            first.map(|work| work.records.start as u64)
        })
    }),
    ("first-from-1", |asked| renumbered(asked, |first| first + 1)),
    ("first-7-bits", |asked| {
        renumbered(asked, |first| first & 0x7f)
    }),
    ("first-8-bits", |asked| {
        renumbered(asked, |first| first & 0xff)
    }),
    ("first-15-bits, large", |asked| {
        renumbered(asked, |first| first & 0x7fff)
    }),
    ("first-number-of-all", |asked| {
        answered(asked, |works| {
            let rejected = works.iter().filter(|work| work.rejected()).count();
            (rejected > 0).then_some(rejected as u64)
        })
    }),
    ("first-none-0", |asked| none_is(asked, |_| 0)),
    ("first-none-64-bits", |asked| none_is(asked, |_| u64::MAX)),
    ("first-none-2^32", |asked| none_is(asked, |_| 1 << 32)),
    ("first-none-past-the-last", |asked| {
        none_is(asked, |asked| {
            let lines = asked.file.split(|&byte| byte == b'\n');
            let header = |line: &&[u8]| line.starts_with(b"NWR") || line.starts_with(b"REV");
            lines.filter(header).count() as u64
        })
    }),
    ("first-none-as-the-check", |asked| {
        none_is(asked, |asked| asked.pairs() as u64)
    }),
    ("first-header-only", |asked| {
        first(asked, |works, at| own(works[at].sets[0]) >= 3)
    }),
    ("first-details-only", |asked| {
        first(asked, |works, at| {
            works[at].sets[1..].iter().any(|&set| own(set) >= 3)
        })
    }),
    ("first-one-detail-only", |asked| {
        first(asked, |works, at| {
            works[at].sets.iter().take(2).any(|&set| own(set) >= 3)
        })
    }),
    ("first-without-last-detail", |asked| {
        first(asked, |works, at| {
            let sets = &works[at].sets;
            let end = (sets.len() - 1).max(1);
            sets[..end].iter().any(|&set| own(set) >= 3)
        })
    }),
    ("first-without-gr", |asked| {
        first(asked, |works, at| works[at].has(|n| level(n) == 3))
    }),
    ("first-gr-only", |asked| {
        first(asked, |works, at| works[at].has(|n| level(n) == 4))
    }),
    ("first-by-verdict", |asked| {
        // What falls with its group, too.
        first(asked, |works, at| works[at].verdict >= 3)
    }),
    ("first-by-verdict-3", |asked| {
        first(asked, |works, at| works[at].verdict == 3)
    }),
    ("first-falls-with-group", |asked| {
        // All of its group, where one has finding 0.
        first(asked, |works, at| {
            let group = works[at].group;
            let mut group = works.iter().filter(|work| work.group == group);
            works[at].rejected() || group.any(|work| work.sets[0] & 1 == 1)
        })
    }),
    ("first-with-rr", |asked| {
        first(asked, |works, at| works[at].has(|n| level(n) >= 2))
    }),
    ("first-with-fr", |asked| {
        first(asked, |works, at| {
            works[at].rejected() || works[at].has(|n| level(n) == 1)
        })
    }),
    ("first-with-47", |asked| first_with(asked, 47)),
    ("first-with-48", |asked| first_with(asked, 48)),
    ("first-of-the-lowest", |asked| {
        // The level of each set's lowest finding.
        first(asked, |works, at| {
            let lowest = |set: &u64| own(set & set.wrapping_neg());
            works[at].sets.iter().any(|set| lowest(set) >= 3)
        })
    }),
    ("first-of-the-highest", |asked| {
        first(asked, |works, at| {
            let highest = |set: u64| set.checked_ilog2().map_or(0, level);
            works[at].sets.iter().any(|&set| highest(set) >= 3)
        })
    }),
    ("first-of-32-bits", |asked| {
        first(asked, |works, at| {
            let sets = &works[at].sets;
            sets.iter().any(|set| own(set & 0xffff_ffff) >= 3)
        })
    }),
    ("first-more-than-one", |asked| {
        // Two findings are needed.
        first(asked, |works, at| {
            let sets = works[at].sets.iter();
            works[at].rejected() && sets.map(|set| set.count_ones()).sum::<u32>() > 1
        })
    }),
    ("first-in-first-group", |asked| {
        first(asked, |works, at| {
            works[at].group == 0 && works[at].rejected()
        })
    }),
    ("first-in-last-group", |asked| {
        first(asked, |works, at| {
            works[at].group == works[works.len() - 1].group && works[at].rejected()
        })
    }),
    ("first-of-each-group", |asked| {
        first(asked, |works, at| {
            works[at].within == 0 && works[at].rejected()
        })
    }),
    ("first-without-first", |asked| {
        first(asked, |works, at| at > 0 && works[at].rejected())
    }),
    ("first-without-last", |asked| {
        first(asked, |works, at| {
            at + 1 < works.len() && works[at].rejected()
        })
    }),
    ("first-without-last-of-group", |asked| {
        first(asked, |works, at| {
            let last = works.get(at + 1).is_none_or(|next| next.within == 0);
            !last && works[at].rejected()
        })
    }),
    ("first-group-type-kept", |asked| {
        of_records(asked, |texts| {
            let kind = field(&texts[1], 4, 3).to_vec();
            for text in texts.iter_mut().filter(|text| text.starts_with(b"GRH")) {
                text[3..6].copy_from_slice(&kind);
            }
        })
    }),
    ("first-details-kept", |asked| {
        // Those of a transaction are judged with the next one, too.
        of_records(asked, |texts| {
            let mut kept: Vec<Vec<u8>> = Vec::new();
            let mut before: Vec<Vec<u8>> = Vec::new();
            let mut own: Vec<Vec<u8>> = Vec::new();
            for text in texts.drain(..) {
                match find(&text).expect("right by 6").class {
                    Class::Detail => {
                        own.push(text);
                        continue;
                    }
                    class => {
                        kept.append(&mut before);
                        kept.extend_from_slice(&own);
                        if class == Class::Header {
                            before = std::mem::take(&mut own);
                        }
                        own.clear();
                        kept.push(text);
                    }
                }
            }
            *texts = kept;
        })
    }),
    ("first-tolerance-always-6", |asked| match asked.number {
        0..=5 => asked.with(|request| request.number = 6),
        _ => asked.right(),
    }),
    ("first-tolerance-always-0", |asked| match asked.number {
        1..=6 => asked.with(|request| request.number = 0),
        _ => asked.right(),
    }),
    ("first-tolerance-32-bits", |asked| {
        asked.with(|request| request.number &= 0xffff_ffff)
    }),
    ("first-tolerance-8-bits", |asked| {
        asked.with(|request| request.number &= 0xff)
    }),
    ("first-refused-1-never", |asked| {
        asked.with(|request| request.number = request.number.min(6))
    }),
    ("first-stops-before-4", |asked| stops_before(asked, 4)),
    ("first-stops-before-6", |asked| stops_before(asked, 6)),
    ("first-stops-before-7", |asked| stops_before(asked, 7)),
    ("first-stops-before-8", |asked| stops_before(asked, 8)),
    ("first-stops-before-9", |asked| stops_before(asked, 9)),
    ("first-stops-before-10", |asked| stops_before(asked, 10)),
    ("first-own-room", |asked| {
        // Refused by 11 for want of room that nobody lends.
        match asked.right() {
            right if right.refusal() == 0 && asked.pairs() > 256 => asked.refused(11, 0),
            right => right,
        }
    }),
    ("first-place-0", |asked| with_place(asked.right(), 0)),
    ("first-changes-what-is-lent", |asked| {
        let mut right = asked.right();
        right.changed = right.refusal() == 0 && right.packed > 5;
        right
    }),
    ("first-ends", |asked| {
        let right = asked.right();
        if right.packed == 6 {
            exit(3);
        }
        right
    }),
    ("first-outside, guarded", |asked| {
        if asked.guard == Guard::After && asked.file.is_empty() {
            exit(139);
        }
        asked.right()
    }),
    ("first-outside-before, guarded", |asked| {
        if asked.guard == Guard::Before {
            exit(139);
        }
        asked.right()
    }),
];
