//! Faults of the client's catalogue sheet.

use std::array::from_fn;
use std::ops::Range;
use std::process::exit;
use std::sync::atomic::{AtomicU64, Ordering};

use tests::calls::{expected, two_buffers, Call, Guard, Reply, Request};
use tests::generate::works::share_start;
use tests::reference::lent::USUAL_TOLERANCE;
use tests::reference::lines::lines;
use tests::reference::sheet::{judge, Judged, Right, Sheet, BYTES, MOST_FILES, NUMBERS};
use tests::reference::types::Class;
use tests::reference::values::digits;
use tests::reference::verdicts::own;

use crate::asked::{classes, with_place, Asked};
use crate::claims::of_a_table;
use crate::Fault;

const FULL: u64 = 10_000;

/// A reply with another sheet; bytes beyond it stay.
fn with_sheet(mut reply: Reply, sheet: &Sheet) -> Reply {
    reply.buffers[0][..BYTES].copy_from_slice(&sheet.bytes());
    reply
}

fn judged(asked: &Asked) -> Judged {
    judge(&asked.file, &asked.tables()).expect("passed")
}

/// Where the file passes, another sheet by the one before, the file, and the
/// right one.
fn passed(asked: &Asked, change: impl Fn(&Sheet, &Judged, &mut Sheet)) -> Reply {
    let right = asked.right();
    if right.refusal() != 0 {
        return right;
    }
    let [before, mut after] = [&asked.buffers[0], &right.buffers[0]].map(|b| Sheet::of_bytes(b));
    change(&before, &judged(asked), &mut after);
    with_sheet(right, &after)
}

/// Where it passes, the sheet as if the file brought something else.
fn as_if(asked: &Asked, change: impl Fn(&Asked, &mut Judged)) -> Reply {
    let right = asked.right();
    if right.refusal() != 0 {
        return right;
    }
    let mut judged = judged(asked);
    change(asked, &mut judged);
    let sheet = Sheet::of_bytes(&asked.buffers[0]).with(&Ok(judged));
    with_sheet(right, &sheet)
}

/// Where the check refuses it, another sheet by the right one.
fn refused(asked: &Asked, change: fn(&Asked, &mut Sheet)) -> Reply {
    let right = asked.right();
    if !(2..=10).contains(&right.refusal()) {
        return right;
    }
    let mut after = Sheet::of_bytes(&right.buffers[0]);
    change(asked, &mut after);
    with_sheet(right, &after)
}

/// Where it passes, other figures of each right, by those before, the file's
/// differences from the full share, and the right ones.
fn rights(asked: &Asked, change: fn(&Right, &[i64], &mut Right)) -> Reply {
    passed(asked, |before, judged, after| {
        for at in 0..3 {
            let missing = judged.totals.iter().map(|totals| totals[at]);
            let missing = missing.filter(|&total| total != 0 && total != FULL);
            let differences: Vec<i64> = missing.map(|total| total as i64 - FULL as i64).collect();
            change(&before.rights[at], &differences, &mut after.rights[at]);
        }
    })
}

/// The sheet's bytes, where a file was taken: those before and the right ones.
fn written(asked: &Asked, change: fn(&[u8], &mut [u8])) -> Reply {
    let mut right = asked.right();
    if !matches!(right.refusal(), 11 | 12) {
        change(&asked.buffers[0], &mut right.buffers[0]);
    }
    right
}

/// The answer with the sheet as if so many files were on it; the number that
/// is then written is that of one file more.
fn as_if_taken(asked: &Asked, files: u64) -> Reply {
    let taken = Sheet::of_bytes(&asked.buffers[0]).files;
    let mut reply =
        asked.with(|request| request.buffers[0][..8].copy_from_slice(&files.to_le_bytes()));
    let after = taken.wrapping_add(u64::from(reply.refusal() != 12));
    reply.buffers[0][..8].copy_from_slice(&after.to_le_bytes());
    reply
}

/// Judges the fullness of a sheet that is long enough otherwise.
fn full_if(asked: &Asked, full: fn(u64) -> bool) -> Reply {
    if asked.buffers[0].len() < BYTES {
        return asked.right();
    }
    match full(Sheet::of_bytes(&asked.buffers[0]).files) {
        true => asked.refused(12, 0),
        false => as_if_taken(asked, 0),
    }
}

/// The answer to the file on a sheet that takes it, where this one is refused
/// by such a number.
fn instead_of(asked: &Asked, refusal: u64, answered: fn(&Reply) -> bool) -> Reply {
    let right = asked.right();
    if right.refusal() != refusal {
        return right;
    }
    let file = asked.with(|request| request.buffers[0] = vec![0; BYTES]);
    match answered(&file) {
        true => Reply {
            packed: file.packed,
            ..right
        },
        false => right,
    }
}

/// The totals as if the share fields stood so; all else as it is.
fn shares_read(asked: &Asked, change: fn(&[u8]) -> Option<u64>) -> Reply {
    as_if(asked, |asked, judged| {
        let mut file = asked.file.clone();
        for line in lines(&asked.file) {
            for right in 0..3 {
                if let Some(start) = share_start(line.text, right) {
                    let at = line.at + start - 1;
                    if let Some(share) = change(&asked.file[at..at + 5]) {
                        file[at..at + 5].copy_from_slice(format!("{share:05}").as_bytes());
                    }
                }
            }
        }
        judged.totals = judge(&file, &asked.tables()).expect("passed").totals;
    })
}

/// The totals without the shares of these types.
fn totals_without(asked: &Asked, types: &[&[u8; 3]]) -> Reply {
    as_if(asked, |asked, judged| {
        let mut file = asked.file.clone();
        for line in lines(&asked.file) {
            if types.iter().any(|name| line.text.starts_with(*name)) {
                for start in (0..3).filter_map(|right| share_start(line.text, right)) {
                    let at = line.at + start - 1;
                    file[at..at + 5].fill(b'0');
                }
            }
        }
        judged.totals = judge(&file, &asked.tables()).expect("passed").totals;
    })
}

/// Counts this finding too, by territories that nobody has lent.
fn with_finding(asked: &Asked, finding: u32) -> Reply {
    as_if(asked, |asked, judged| {
        let more = of_a_table(&asked.file, USUAL_TOLERANCE);
        for (set, more) in judged.sets.iter_mut().zip(more) {
            *set |= more & 1 << finding;
        }
    })
}

/// Its check has this tolerance.
fn checked_within(asked: &Asked, tolerance: u64) -> Reply {
    as_if(asked, |asked, judged| {
        let records = judged.sets.len();
        let checked = expected(&Request {
            call: Call::Within,
            number: tolerance,
            buffers: two_buffers(vec![0; records], vec![0; 8 * records]),
            ..asked.0.clone()
        });
        judged.sets = (0..records).map(|record| checked.set(record)).collect();
        judged.verdicts.clone_from(&checked.buffers[0]);
    })
}

/// Only the figures of those transactions for which this holds, by the verdict
/// of the header.
fn figures_of(asked: &Asked, holds: fn(u8) -> bool) -> Reply {
    as_if(asked, |asked, judged| {
        let verdicts = of_class(asked, &judged.verdicts, Class::Header);
        let mut verdicts = verdicts.into_iter();
        judged.totals.retain(|_| verdicts.next().is_some_and(holds));
    })
}

/// What the records of a class have.
fn of_class<T: Copy>(asked: &Asked, of_records: &[T], wanted: Class) -> Vec<T> {
    let classes = classes(&lines(&asked.file));
    let records = of_records.iter().zip(classes);
    let wanted = records.filter(|(_, class)| *class == wanted);
    wanted.map(|(one, _)| *one).collect()
}

/// Where each transaction's records stand.
fn transactions(asked: &Asked) -> Vec<Range<usize>> {
    let classes = classes(&lines(&asked.file));
    let headers = (0..classes.len()).filter(|&at| classes[at] == Class::Header);
    let details = |at: usize| {
        classes[at + 1..]
            .iter()
            .take_while(|&&c| c == Class::Detail)
    };
    headers.map(|at| at..at + 1 + details(at).count()).collect()
}

/// The findings of all records of a part on its first record alone.
fn once_in(judged: &mut Judged, parts: Vec<Range<usize>>) {
    for part in parts {
        let begin = part.start;
        let all = judged.sets[part.clone()]
            .iter()
            .fold(0, |all, set| all | set);
        judged.sets[part].fill(0);
        judged.sets[begin] = all;
    }
}

pub const FAULTS: &[Fault] = &[
    // Refused files.
    ("sheet-refused-records", |asked| {
        refused(asked, |asked, sheet| {
            sheet.verdicts[0] = sheet.verdicts[0].saturating_add(asked.pairs() as u64);
        })
    }),
    ("sheet-refused-not-taken", |asked| {
        refused(asked, |_, sheet| sheet.files -= 1)
    }),
    ("sheet-refused-not-counted", |asked| {
        refused(asked, |asked, sheet| {
            sheet.refused = Sheet::of_bytes(&asked.buffers[0]).refused;
        })
    }),
    ("sheet-refused-changes-nothing", |asked| {
        refused(asked, |asked, sheet| {
            *sheet = Sheet::of_bytes(&asked.buffers[0])
        })
    }),
    ("sheet-refused-clears", |asked| {
        refused(asked, |_, sheet| sheet.findings = [0; 64])
    }),
    ("sheet-refused-by-2-not-taken", |asked| {
        match asked.right() {
            right if right.refusal() == 2 => Reply {
                buffers: asked.buffers.clone(),
                ..right
            },
            right => right,
        }
    }),
    ("sheet-passed-as-refused", |asked| {
        passed(asked, |before, _, sheet| {
            sheet.refused = before.refused.saturating_add(1);
        })
    }),
    ("sheet-passed-not-taken", |asked| {
        passed(asked, |before, _, sheet| sheet.files = before.files)
    }),
    ("sheet-refused-answers-0", |asked| match asked.right() {
        right if (2..=10).contains(&right.refusal()) => Reply { packed: 0, ..right },
        right => right,
    }),
    ("sheet-answers-files", |asked| match asked.right() {
        right if right.refusal() == 0 => {
            let packed = Sheet::of_bytes(&right.buffers[0]).files;
            Reply { packed, ..right }
        }
        right => right,
    }),
    ("sheet-answers-records-of-all", |asked| {
        // All that the sheet counts.
        match asked.right() {
            right if right.refusal() == 0 => {
                let verdicts = Sheet::of_bytes(&right.buffers[0]).verdicts;
                let packed = verdicts.iter().fold(0, |sum: u64, &n| sum.wrapping_add(n));
                Reply { packed, ..right }
            }
            right => right,
        }
    }),
    // The figures of the rights.
    ("sheet-shortfall-sum", |asked| {
        rights(asked, |before, differences, right| {
            let short = differences
                .iter()
                .filter(|&&d| d < 0)
                .map(|d| d.unsigned_abs());
            right.shortfall = before.shortfall.saturating_add(short.sum());
        })
    }),
    ("sheet-shortfall-last", |asked| {
        rights(asked, |_, differences, right| {
            let last = differences.iter().rfind(|&&d| d < 0);
            right.shortfall = last.map_or(right.shortfall, |d| d.unsigned_abs());
        })
    }),
    ("sheet-shortfall-smallest", |asked| {
        rights(asked, |before, differences, right| {
            let short = differences
                .iter()
                .filter(|&&d| d < 0)
                .map(|d| d.unsigned_abs());
            right.shortfall = before.shortfall.max(short.min().unwrap_or(0));
        })
    }),
    ("sheet-shortfall-of-this-file", |asked| {
        rights(asked, |_, differences, right| {
            let short = differences
                .iter()
                .filter(|&&d| d < 0)
                .map(|d| d.unsigned_abs());
            right.shortfall = short.max().unwrap_or(0);
        })
    }),
    ("sheet-excess-forgotten", |asked| {
        rights(asked, |before, _, right| right.excess = before.excess)
    }),
    ("sheet-excess-sum", |asked| {
        rights(asked, |before, differences, right| {
            let over = differences
                .iter()
                .filter(|&&d| d > 0)
                .map(|d| d.unsigned_abs());
            right.excess = before.excess.saturating_add(over.sum());
        })
    }),
    ("sheet-excess-of-this-file", |asked| {
        rights(asked, |_, differences, right| {
            right.excess = differences.iter().max().map_or(0, |&d| d.max(0) as u64);
        })
    }),
    ("sheet-excess-as-total", |asked| {
        // The largest total, not what it is over the full share.
        rights(asked, |before, differences, right| {
            let over = differences.iter().max().filter(|&&d| d > 0);
            right.excess = before
                .excess
                .max(over.map_or(0, |d| d.unsigned_abs() + FULL));
        })
    }),
    ("sheet-largest-either-way", |asked| {
        rights(asked, |before, differences, right| {
            let largest = differences.iter().map(|d| d.unsigned_abs()).max();
            right.shortfall = before.shortfall.max(largest.unwrap_or(0));
        })
    }),
    ("sheet-largest-signed", |asked| {
        // Larger as a signed number.
        rights(asked, |before, differences, right| {
            let short = differences.iter().map(|d| -d).max().unwrap_or(0).max(0);
            right.shortfall = (before.shortfall as i64).max(short) as u64;
        })
    }),
    ("sheet-shortfall-and-excess-exchanged", |asked| {
        rights(asked, |_, _, right| {
            std::mem::swap(&mut right.shortfall, &mut right.excess);
        })
    }),
    ("sheet-without-sign", |asked| {
        rights(asked, |before, differences, right| {
            let sum = differences.iter().map(|d| d.abs()).sum();
            right.differences = before.differences.saturating_add(sum);
        })
    }),
    ("sheet-other-sign", |asked| {
        rights(asked, |before, differences, right| {
            let sum: i64 = differences.iter().sum();
            right.differences = before.differences.saturating_sub(sum);
        })
    }),
    ("sheet-sum-of-totals", |asked| {
        rights(asked, |before, differences, right| {
            let sum = differences.iter().map(|d| d + FULL as i64).sum();
            right.differences = before.differences.saturating_add(sum);
        })
    }),
    ("sheet-short-alone-in-sum", |asked| {
        rights(asked, |before, differences, right| {
            let sum = differences.iter().filter(|&&d| d < 0).sum();
            right.differences = before.differences.saturating_add(sum);
        })
    }),
    ("sheet-misses-once-a-file", |asked| {
        rights(asked, |before, differences, right| {
            let missed = u64::from(!differences.is_empty());
            right.misses = before.misses.saturating_add(missed);
        })
    }),
    ("sheet-misses-short-alone", |asked| {
        rights(asked, |before, differences, right| {
            let short = differences.iter().filter(|&&d| d < 0).count();
            right.misses = before.misses.saturating_add(short as u64);
        })
    }),
    ("sheet-misses-in-any-right", |asked| {
        // Once for each right that is missed in its transaction.
        passed(asked, |before, judged, sheet| {
            let missed = |total: &u64| *total != 0 && *total != FULL;
            let works = judged.totals.iter();
            let works = works.filter(|totals| totals.iter().any(missed)).count() as u64;
            for (right, before) in sheet.rights.iter_mut().zip(before.rights) {
                right.misses = before.misses.saturating_add(works);
            }
        })
    }),
    ("sheet-zero-misses", |asked| {
        // A right at 0 as a difference like any other.
        passed(asked, |before, judged, sheet| {
            for (at, right) in sheet.rights.iter_mut().enumerate() {
                let zeros = judged
                    .totals
                    .iter()
                    .filter(|totals| totals[at] == 0)
                    .count();
                if zeros > 0 {
                    right.misses = right.misses.saturating_add(zeros as u64);
                    right.shortfall = before.rights[at].shortfall.max(FULL);
                    let short = FULL as i64 * zeros as i64;
                    right.differences = right.differences.saturating_sub(short);
                }
            }
        })
    }),
    ("sheet-zero-counted-alone", |asked| {
        // Without a difference, but among those that miss.
        passed(asked, |_, judged, sheet| {
            for (at, right) in sheet.rights.iter_mut().enumerate() {
                let zeros = judged
                    .totals
                    .iter()
                    .filter(|totals| totals[at] == 0)
                    .count();
                right.misses = right.misses.saturating_add(zeros as u64);
            }
        })
    }),
    ("sheet-full-misses", |asked| {
        passed(asked, |_, judged, sheet| {
            for (at, right) in sheet.rights.iter_mut().enumerate() {
                let full = judged
                    .totals
                    .iter()
                    .filter(|totals| totals[at] == FULL)
                    .count();
                right.misses = right.misses.saturating_add(full as u64);
            }
        })
    }),
    ("sheet-tolerance-in-misses", |asked| {
        rights(asked, |before, differences, right| {
            let missed = differences.iter().filter(|d| d.abs() > 6).count();
            right.misses = before.misses.saturating_add(missed as u64);
        })
    }),
    ("sheet-tolerance-in-all", |asked| {
        as_if(asked, |_, judged| {
            for total in judged.totals.iter_mut().flatten() {
                if total.abs_diff(FULL) <= 6 {
                    *total = FULL;
                }
            }
        })
    }),
    ("sheet-near-zero-is-none", |asked| {
        as_if(asked, |_, judged| {
            let small = judged.totals.iter_mut().flatten();
            small
                .filter(|total| **total <= 6)
                .for_each(|total| *total = 0);
        })
    }),
    ("sheet-mr-and-sr-exchanged", |asked| {
        as_if(asked, |_, judged| {
            judged
                .totals
                .iter_mut()
                .for_each(|totals| totals.swap(1, 2));
        })
    }),
    ("sheet-pr-for-all", |asked| {
        as_if(asked, |_, judged| {
            judged
                .totals
                .iter_mut()
                .for_each(|totals| *totals = [totals[0]; 3]);
        })
    }),
    ("sheet-rejected-left-out", |asked| {
        figures_of(asked, |verdict| verdict < 3)
    }),
    ("sheet-rejected-group-left-out", |asked| {
        figures_of(asked, |verdict| verdict < 4)
    }),
    ("sheet-rejected-alone", |asked| {
        figures_of(asked, |verdict| verdict >= 3)
    }),
    ("sheet-first-transaction-only", |asked| {
        as_if(asked, |_, judged| judged.totals.truncate(1))
    }),
    ("sheet-without-last-transaction", |asked| {
        as_if(asked, |_, judged| {
            judged.totals.pop();
        })
    }),
    ("sheet-totals-of-the-file", |asked| {
        // Of all transactions together.
        as_if(asked, |_, judged| {
            let sum = |right: usize| judged.totals.iter().map(|totals| totals[right]).sum();
            judged.totals = vec![from_fn(sum)];
        })
    }),
    ("sheet-totals-without-opu", |asked| {
        totals_without(asked, &[b"OPU"])
    }),
    ("sheet-totals-without-spu", |asked| {
        totals_without(asked, &[b"SPU"])
    }),
    ("sheet-totals-without-owr", |asked| {
        totals_without(asked, &[b"OWR"])
    }),
    ("sheet-totals-without-swr", |asked| {
        totals_without(asked, &[b"SWR"])
    }),
    ("sheet-totals-16-bits", |asked| {
        as_if(asked, |_, judged| {
            let totals = judged.totals.iter_mut().flatten();
            totals.for_each(|total| *total &= 0xffff);
        })
    }),
    ("sheet-totals-32-bits, large", |asked| {
        as_if(asked, |_, judged| {
            let totals = judged.totals.iter_mut().flatten();
            totals.for_each(|total| *total &= 0xffff_ffff);
        })
    }),
    ("sheet-share-trimmed", |asked| {
        // What is no number but for its blanks.
        shares_read(asked, |share| digits(share.trim_ascii()))
    }),
    ("sheet-share-up-to-no-digit", |asked| {
        shares_read(asked, |share| {
            let end = share.iter().position(|byte| !byte.is_ascii_digit());
            digits(&share[..end.unwrap_or(5)])
        })
    }),
    ("sheet-share-of-low-bits", |asked| {
        shares_read(asked, |share| {
            let digit = |value: u64, byte: &u8| value * 10 + u64::from(byte & 15) % 10;
            Some(share.iter().fold(0, digit))
        })
    }),
    ("sheet-share-over-is-0", |asked| {
        // More than a share can be.
        shares_read(asked, |share| {
            digits(share).filter(|&share| share > FULL).map(|_| 0)
        })
    }),
    // Records by finding and by verdict.
    ("sheet-verdicts-own-only", |asked| {
        as_if(asked, |_, judged| {
            judged.verdicts = judged.sets.iter().map(|&set| own(set)).collect();
        })
    }),
    ("sheet-verdict-3-not-raised", |asked| {
        // The finding's record alone has it.
        as_if(asked, |_, judged| {
            for (verdict, &set) in judged.verdicts.iter_mut().zip(&judged.sets) {
                if *verdict == 3 {
                    *verdict = own(set);
                }
            }
        })
    }),
    ("sheet-verdict-4-not-raised", |asked| {
        as_if(asked, |_, judged| {
            for (verdict, &set) in judged.verdicts.iter_mut().zip(&judged.sets) {
                if *verdict == 4 {
                    *verdict = own(set);
                }
            }
        })
    }),
    ("sheet-verdict-4-left-out", |asked| {
        as_if(asked, |_, judged| {
            judged.verdicts.retain(|&verdict| verdict < 4)
        })
    }),
    ("sheet-control-records-not-counted", |asked| {
        as_if(asked, |asked, judged| {
            let mut verdicts = of_class(asked, &judged.verdicts, Class::Header);
            verdicts.extend(of_class(asked, &judged.verdicts, Class::Detail));
            judged.verdicts = verdicts;
        })
    }),
    ("sheet-hdr-and-trl-not-counted", |asked| {
        as_if(asked, |_, judged| {
            judged.verdicts.remove(0);
            judged.verdicts.pop();
        })
    }),
    ("sheet-verdicts-of-transactions", |asked| {
        as_if(asked, |asked, judged| {
            judged.verdicts = of_class(asked, &judged.verdicts, Class::Header);
        })
    }),
    ("sheet-findings-on-headers", |asked| {
        as_if(asked, |asked, judged| {
            judged.sets = of_class(asked, &judged.sets, Class::Header);
        })
    }),
    ("sheet-findings-on-details", |asked| {
        as_if(asked, |asked, judged| {
            judged.sets = of_class(asked, &judged.sets, Class::Detail);
        })
    }),
    ("sheet-findings-once-a-transaction", |asked| {
        as_if(asked, |asked, judged| once_in(judged, transactions(asked)))
    }),
    ("sheet-findings-once-a-file", |asked| {
        as_if(asked, |_, judged| {
            let whole = 0..judged.sets.len();
            once_in(judged, vec![whole]);
        })
    }),
    ("sheet-findings-lowest", |asked| {
        as_if(asked, |_, judged| {
            let sets = judged.sets.iter_mut();
            sets.for_each(|set| *set &= set.wrapping_neg());
        })
    }),
    ("sheet-findings-32-bits", |asked| {
        as_if(asked, |_, judged| {
            judged.sets.iter_mut().for_each(|set| *set &= 0xffff_ffff);
        })
    }),
    ("sheet-findings-without-46", |asked| {
        as_if(asked, |_, judged| {
            judged.sets.iter_mut().for_each(|set| *set &= !(1 << 46));
        })
    }),
    ("sheet-findings-47", |asked| with_finding(asked, 47)),
    ("sheet-findings-48", |asked| with_finding(asked, 48)),
    ("sheet-findings-of-rejected-groups", |asked| {
        // Those of a group that falls are not counted.
        as_if(asked, |_, judged| {
            for (set, &verdict) in judged.sets.iter_mut().zip(&judged.verdicts) {
                if verdict == 4 {
                    *set = 0;
                }
            }
        })
    }),
    // As the short form of the check, and one less than it has itself.
    ("sheet-tolerance-0", |asked| checked_within(asked, 0)),
    ("sheet-tolerance-5", |asked| checked_within(asked, 5)),
    // How many files there can be, and how long it is.
    ("sheet-4097-files", |asked| {
        full_if(asked, |files| files > MOST_FILES)
    }),
    ("sheet-4095-files", |asked| {
        full_if(asked, |files| files >= MOST_FILES - 1)
    }),
    ("sheet-full-once", |asked| {
        full_if(asked, |files| files == MOST_FILES)
    }),
    ("sheet-never-full", |asked| full_if(asked, |_| false)),
    ("sheet-full-32-bits", |asked| {
        full_if(asked, |files| files as u32 >= MOST_FILES as u32)
    }),
    ("sheet-full-signed", |asked| {
        full_if(asked, |files| files as i64 >= MOST_FILES as i64)
    }),
    ("sheet-full-without-refused", |asked| {
        // Those passed are counted alone.
        let sheet = &asked.buffers[0];
        match asked.right() {
            right if right.refusal() == 12 => {
                let before = Sheet::of_bytes(sheet);
                let passed = before.files.saturating_sub(before.refused);
                match passed < MOST_FILES {
                    true => as_if_taken(asked, passed),
                    false => right,
                }
            }
            right => right,
        }
    }),
    ("sheet-12-after-refusal", |asked| {
        instead_of(asked, 12, |file| file.refusal() != 0)
    }),
    ("sheet-12-after-2", |asked| {
        instead_of(asked, 12, |file| file.refusal() == 2)
    }),
    ("sheet-12-changes", |asked| {
        let mut right = asked.right();
        if right.refusal() == 12 {
            let files = Sheet::of_bytes(&right.buffers[0]).files.wrapping_add(1);
            right.buffers[0][..8].copy_from_slice(&files.to_le_bytes());
        }
        right
    }),
    ("sheet-12-counts-refused", |asked| {
        let right = asked.right();
        if right.refusal() != 12 {
            return right;
        }
        let mut sheet = Sheet::of_bytes(&right.buffers[0]);
        sheet.refused = sheet.refused.saturating_add(1);
        with_sheet(right, &sheet)
    }),
    ("sheet-12-place", |asked| match asked.right() {
        right if right.refusal() == 12 => with_place(right, MOST_FILES),
        right => right,
    }),
    ("sheet-11-after-12", |asked| {
        let right = asked.right();
        let first = asked.buffers[0]
            .first_chunk()
            .map(|bytes| u64::from_le_bytes(*bytes));
        match right.refusal() {
            11 if first.is_some_and(|files| files >= MOST_FILES) => asked.refused(12, 0),
            _ => right,
        }
    }),
    ("sheet-11-after-refusal", |asked| {
        instead_of(asked, 11, |file| file.refusal() != 0)
    }),
    ("sheet-11-by-12", |asked| match asked.right() {
        right if right.refusal() == 11 => asked.refused(12, 0),
        right => right,
    }),
    ("sheet-663-bytes", |asked| {
        let right = asked.right();
        match asked.buffers[0].len() {
            663 => asked.with(|request| request.buffers[0].push(0)),
            _ => right,
        }
    }),
    ("sheet-11-changes", |asked| {
        let mut right = asked.right();
        if right.refusal() == 11 && right.buffers[0].len() >= 8 {
            right.buffers[0][0] ^= 1;
        }
        right
    }),
    ("sheet-664-bytes-alone", |asked| {
        match asked.buffers[0].len() > BYTES {
            true => asked.refused(11, 0),
            false => asked.right(),
        }
    }),
    ("sheet-760-bytes", |asked| {
        // What a later request asks for.
        match asked.buffers[0].len() < 760 {
            true => asked.refused(11, 0),
            false => asked.right(),
        }
    }),
    ("sheet-beyond-changed", |asked| {
        written(asked, |_, sheet| {
            if let Some(byte) = sheet.get_mut(BYTES) {
                *byte = !*byte;
            }
        })
    }),
    ("sheet-beyond-cleared", |asked| {
        written(asked, |_, sheet| sheet[BYTES..].fill(0))
    }),
    // Sums at their limits.
    ("sheet-sums-wrap", |asked| {
        written(asked, |before, sheet| {
            // Where it stopped, one more than the last number is 0.
            let unsigned = (1..NUMBERS).filter(|at| ![3, 4, 5, 7, 8, 9, 11, 12, 13].contains(at));
            for at in unsigned {
                let bytes = 8 * at..8 * at + 8;
                if before[bytes.clone()] != sheet[bytes.clone()] && sheet[bytes.clone()] == [255; 8]
                {
                    sheet[bytes].fill(0);
                }
            }
        })
    }),
    ("sheet-sums-stay", |asked| {
        // What would be too large is not added at all.
        written(asked, |before, sheet| {
            let bytes = 14 * 8..BYTES;
            let numbers = before[bytes.clone()]
                .chunks(8)
                .zip(sheet[bytes].chunks_mut(8));
            for (before, after) in numbers {
                if *after == [255; 8] {
                    after.copy_from_slice(before);
                }
            }
        })
    }),
    ("sheet-differences-wrap", |asked| {
        rights(asked, |before, differences, right| {
            let sum: i64 = differences.iter().sum();
            right.differences = before.differences.wrapping_add(sum);
        })
    }),
    ("sheet-differences-stop-above-alone", |asked| {
        rights(asked, |before, differences, right| {
            let sum: i64 = differences.iter().sum();
            if sum < 0 {
                right.differences = before.differences.wrapping_add(sum);
            }
        })
    }),
    ("sheet-differences-unsigned", |asked| {
        // Stops at 0 and at 2^64 - 1.
        rights(asked, |before, differences, right| {
            let sum: i64 = differences.iter().sum();
            let unsigned = (before.differences as u64).saturating_add_signed(sum);
            right.differences = unsigned as i64;
        })
    }),
    ("sheet-differences-stop-one-by-one", |asked| {
        // With each transaction, not with the file's figure.
        rights(asked, |before, differences, right| {
            let add = |sum: i64, difference: &i64| sum.saturating_add(*difference);
            right.differences = differences.iter().fold(before.differences, add);
        })
    }),
    ("sheet-refused-wraps", |asked| {
        refused(asked, |asked, sheet| {
            let before = Sheet::of_bytes(&asked.buffers[0]);
            sheet.refused = before.refused.wrapping_add(1);
        })
    }),
    ("sheet-32-bits", |asked| {
        written(asked, |_, sheet| {
            for number in sheet[..BYTES].chunks_mut(8) {
                number[4..].fill(0);
            }
        })
    }),
    // Where each number stands.
    ("sheet-backwards", |asked| {
        written(asked, |_, sheet| {
            sheet[..BYTES].chunks_mut(8).for_each(<[u8]>::reverse);
        })
    }),
    ("sheet-files-and-refused-exchanged", |asked| {
        written(asked, |_, sheet| sheet[..16].rotate_left(8))
    }),
    ("sheet-by-figure", |asked| {
        // Each figure of the three rights together.
        written(asked, |_, sheet| {
            let right = sheet[16..112].to_vec();
            for at in 0..12 {
                let from = 8 * (4 * (at % 3) + at / 3);
                sheet[16 + 8 * at..24 + 8 * at].copy_from_slice(&right[from..from + 8]);
            }
        })
    }),
    ("sheet-verdicts-before-findings", |asked| {
        written(asked, |_, sheet| sheet[112..BYTES].rotate_right(40))
    }),
    ("sheet-47-findings", |asked| {
        // The verdicts directly after the last there is.
        written(asked, |_, sheet| {
            sheet[14 * 8 + 47 * 8..BYTES].rotate_right(40)
        })
    }),
    ("sheet-afresh", |asked| {
        // Nothing of the sheet before but its files.
        let right = asked.right();
        match right.refusal() {
            0 => {
                let mut sheet = Sheet::of_list(&[Ok(judged(asked))]);
                sheet.files = Sheet::of_bytes(&right.buffers[0]).files;
                with_sheet(right, &sheet)
            }
            _ => right,
        }
    }),
    ("sheet-second-sheet", |asked| {
        // Something of the sheet that was begun before: whoever asks of one
        // sheet alone does not see it.
        static BEGUN: AtomicU64 = AtomicU64::new(0);
        let mut right = asked.right();
        let fresh = asked.buffers[0].iter().all(|&byte| byte == 0);
        if fresh && right.refusal() < 11 && BEGUN.fetch_add(1, Ordering::SeqCst) > 0 {
            right.buffers[0][BYTES - 1] = 1;
        }
        right
    }),
    ("sheet-changes-what-is-lent", |asked| {
        let mut right = asked.right();
        right.changed = right.refusal() == 12;
        right
    }),
    ("sheet-ends", |asked| {
        let right = asked.right();
        if right.refusal() == 11 {
            exit(3);
        }
        right
    }),
    ("sheet-outside, guarded", |asked| {
        if asked.guard == Guard::After && asked.buffers[0].len() < BYTES {
            exit(139);
        }
        asked.right()
    }),
    ("sheet-outside-before, guarded", |asked| {
        if asked.guard == Guard::Before {
            exit(139);
        }
        asked.right()
    }),
];
