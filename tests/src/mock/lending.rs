//! Faults about what is lent: tolerance, tables, buffers and their bytes; of
//! the sets' numbers; and of where something is read or written.

use std::process::exit;

use tests::calls::{Call, Guard, Reply};
use tests::reference::lines::lines;
use tests::reference::types::Class;
use tests::reference::values::in_table;
use tests::reference::verdicts::own;

use crate::asked::{classes, with_place, write_sets, Asked};
use crate::Fault;

/// The number of records, where a check has passed.
fn judged_records(asked: &Asked, reply: &Reply) -> Option<usize> {
    (asked.call.judges() && reply.refusal() == 0).then_some(reply.packed as usize)
}

/// The right answer, but that the short form judges these findings with this
/// tolerance.
fn short_form(asked: &Asked, tolerance: u64, findings: &[u32]) -> Reply {
    let mut right = asked.right();
    if asked.call != Call::Check || right.refusal() != 0 {
        return right;
    }
    let other = asked.with(|request| {
        request.call = Call::Within;
        request.number = tolerance;
    });
    let taken: u64 = findings.iter().map(|finding| 1 << finding).sum();
    let classes = classes(&lines(&asked.file));
    let set = |record| right.set(record) & !taken | other.set(record) & taken;
    let sets: Vec<u64> = (0..classes.len()).map(set).collect();
    write_sets(&mut right, &classes, &sets);
    right
}

/// The right answer, but that a code is looked up otherwise: the findings 17,
/// 21 and 36 are set by this.
fn looked_up(asked: &Asked, found: fn(&[u8], &[u8]) -> bool) -> Reply {
    asked.judged(|asked, work, sets| {
        let tables = asked.tables();
        let mut judge = |set: usize, finding: u32, code: &[u8], table: &[u8], blank: bool| {
            let entered = code.iter().any(|&byte| byte != b' ');
            if entered && !found(code, table) || blank && !entered {
                sets[set] |= 1 << finding;
            }
        };
        for (record, text) in work.iter().enumerate() {
            match &text[..3] {
                b"NWR" | b"REV" => {
                    judge(record, 17, &text[79..81], tables.languages, false);
                    judge(record, 21, &text[126..129], tables.categories, true);
                }
                b"SPU" | b"OPU" => {
                    for start in [112, 120, 128] {
                        judge(record, 36, &text[start..start + 3], tables.societies, false);
                    }
                }
                _ => {}
            }
        }
        // Where it is found, though it shouldn't be.
        let header = work[0];
        if found(&header[79..81], tables.languages) {
            sets[0] &= !(1 << 17);
        }
        if header[126..129] != *b"   " && found(&header[126..129], tables.categories) {
            sets[0] &= !(1 << 21);
        }
    })
}

pub const FAULTS: &[Fault] = &[
    ("tolerance-7", |asked| match asked.number {
        7 => asked.with(|request| request.number = 6),
        _ => asked.right(),
    }),
    ("tolerance-32-bits", |asked| match asked.call {
        Call::Within | Call::Claims => asked.with(|request| request.number &= 0xffff_ffff),
        _ => asked.right(),
    }),
    ("tolerance-8-bits", |asked| match asked.call {
        Call::Within | Call::Claims => asked.with(|request| request.number &= 0xff),
        _ => asked.right(),
    }),
    // As before M-104, with the least there is, and as before in one finding
    // alone.
    ("short-form-6", |asked| short_form(asked, 6, &[1, 2, 3])),
    ("short-form-1", |asked| short_form(asked, 1, &[1, 2, 3])),
    ("short-form-6-in-1", |asked| short_form(asked, 6, &[1])),
    ("short-form-6-in-2", |asked| short_form(asked, 6, &[2])),
    ("short-form-6-in-3", |asked| short_form(asked, 6, &[3])),
    ("short-form-refuses-1", |asked| {
        // What some tolerance would let through, as if one were asked for.
        let right = asked.right();
        match right == short_form(asked, 6, &[1, 2, 3]) {
            true => right,
            false => asked.refused(1, 0),
        }
    }),
    ("short-form-refuses-1-for-2", |asked| {
        // The first thing that is looked at has the first number.
        let right = asked.right();
        match (asked.call, right.refusal()) {
            (Call::Check, 2) => asked.refused(1, 0),
            _ => right,
        }
    }),
    ("tolerance-always-6", |asked| {
        match (asked.call, asked.number) {
            (Call::Within | Call::Claims, 0..=5) => asked.with(|request| request.number = 6),
            _ => asked.right(),
        }
    }),
    ("tolerance-always-0", |asked| {
        // As the short form.
        match (asked.call, asked.number) {
            (Call::Within | Call::Claims, 1..=6) => asked.with(|request| request.number = 0),
            _ => asked.right(),
        }
    }),
    ("two-before-one", |asked| {
        let right = asked.right();
        match right.refusal() {
            1 => {
                let other = asked.with(|request| request.number = 6);
                if other.refusal() == 2 {
                    other
                } else {
                    right
                }
            }
            _ => right,
        }
    }),
    ("two-after-three", |asked| {
        let right = asked.right();
        match right.refusal() {
            2 => {
                let other = asked.with(|request| request.tables = Default::default());
                if (3..=9).contains(&other.refusal()) {
                    other
                } else {
                    right
                }
            }
            _ => right,
        }
    }),
    ("table-place-0", |asked| {
        let right = asked.right();
        match right.refusal() {
            2 => with_place(right, 0),
            _ => right,
        }
    }),
    ("last-wrong-table", |asked| {
        let right = asked.right();
        let wrong = |which: &usize| asked.tables[*which].len() % [2, 3, 3][*which] != 0;
        match (right.refusal(), (0..3).rev().find(wrong)) {
            (2, Some(which)) => with_place(right, which as u64),
            _ => right,
        }
    }),
    ("entries-1025", |asked| {
        let right = asked.right();
        let sizes = [2, 3, 3];
        match right.refusal() {
            2 if (0..3).any(|which| asked.tables[which].len() == 1025 * sizes[which]) => asked
                .with(|request| {
                    for (table, size) in request.tables.iter_mut().zip(sizes) {
                        if table.len() == 1025 * size {
                            table.truncate(1024 * size);
                        }
                    }
                }),
            _ => right,
        }
    }),
    ("entries-1024", |asked| {
        let full = asked.tables[0].len() == 2048;
        let right = asked.right();
        match right.refusal() {
            0 if full && asked.call.judges() => asked.refused(2, 0),
            _ => right,
        }
    }),
    ("part-of-an-entry", |asked| {
        asked.with(|request| {
            let length = request.tables[0].len();
            request.tables[0].truncate(length - length % 2);
        })
    }),
    ("lookup-unaligned", |asked| {
        looked_up(asked, |code, table| {
            table.windows(code.len()).any(|part| part == code)
        })
    }),
    ("lookup-first-entry", |asked| {
        looked_up(asked, |code, table| table.starts_with(code))
    }),
    ("lookup-without-last-entry", |asked| {
        looked_up(asked, |code, table| {
            in_table(code, &table[..table.len().saturating_sub(code.len())])
        })
    }),
    ("lookup-any-case", |asked| {
        looked_up(asked, |code, table| {
            table
                .chunks_exact(code.len())
                .any(|entry| entry.eq_ignore_ascii_case(code))
        })
    }),
    ("lookup-sorted", |asked| {
        // Halves a table that is in any order.
        looked_up(asked, |code, table| {
            let entries: Vec<_> = table.chunks_exact(code.len()).collect();
            entries.binary_search(&code).is_ok()
        })
    }),
    ("tables-exchanged", |asked| {
        asked.with(|request| request.tables.swap(1, 2))
    }),
    ("short-verdicts", |asked| {
        let right = asked.right();
        match right.refusal() {
            11 if asked.call.judges() => asked.with(|request| request.buffers[0].push(0)),
            _ => right,
        }
    }),
    ("short-findings", |asked| {
        let right = asked.right();
        match right.refusal() {
            11 if asked.call.judges() => asked.with(|request| {
                let length = request.buffers[1].len();
                request.buffers[1].resize(length + 7, 0);
            }),
            _ => right,
        }
    }),
    ("findings-one-byte-each", |asked| {
        let right = asked.right();
        match right.refusal() {
            11 if asked.buffers[1].len() >= asked.pairs() && asked.call.judges() => {
                asked.with(|request| request.buffers[1].resize(8 * asked.pairs(), 0))
            }
            _ => right,
        }
    }),
    ("eleven-first", |asked| {
        let right = asked.right();
        let short = asked.call.judges() && asked.buffers[0].is_empty();
        match right.refusal() {
            8..=10 if short => asked.refused(11, 0),
            _ => right,
        }
    }),
    ("writes-beyond-verdicts", |asked| {
        let mut right = asked.right();
        if let Some(records) = judged_records(asked, &right) {
            if let Some(byte) = right.buffers[0].get_mut(records) {
                *byte = !*byte;
            }
        }
        right
    }),
    ("writes-beyond-findings", |asked| {
        let mut right = asked.right();
        if let Some(records) = judged_records(asked, &right) {
            if let Some(last) = right.buffers[1][8 * records..].last_mut() {
                *last = !*last;
            }
        }
        right
    }),
    ("clears-buffers", |asked| {
        let mut right = asked.right();
        if let Some(records) = judged_records(asked, &right) {
            right.buffers[0][records..].fill(0);
        }
        right
    }),
    ("writes-on-refusal", |asked| {
        let mut right = asked.right();
        if asked.call.judges() && right.refusal() == 11 {
            right.buffers[1].fill(0);
        }
        right
    }),
    ("writes-nothing", |asked| {
        let mut right = asked.right();
        if asked.call.judges() {
            right.buffers = asked.buffers.clone();
        }
        right
    }),
    ("refuses-everything", |asked| match asked.call {
        Call::Bits => asked.right(),
        _ => asked.refused(7, 0),
    }),
    ("sets-backwards", |asked| {
        let mut right = asked.right();
        if let Some(records) = judged_records(asked, &right) {
            right.buffers[1][..8 * records]
                .chunks_mut(8)
                .for_each(<[u8]>::reverse);
        }
        right
    }),
    ("sets-32-bits", |asked| {
        let mut right = asked.right();
        if let Some(records) = judged_records(asked, &right) {
            let sets = right.buffers[1][..8 * records].chunks_mut(8);
            sets.for_each(|set| set[4..].fill(0));
        }
        right
    }),
    ("verdicts-own-only", |asked| {
        let mut right = asked.right();
        if let Some(records) = judged_records(asked, &right) {
            for record in 0..records {
                right.buffers[0][record] = own(right.set(record));
            }
        }
        right
    }),
    ("verdict-of-the-lowest", |asked| {
        // The level of the lowest finding, not the largest level.
        let mut right = asked.right();
        if let Some(records) = judged_records(asked, &right) {
            for record in 0..records {
                let set = right.set(record);
                if right.buffers[0][record] == own(set) && set != 0 {
                    right.buffers[0][record] = own(set & set.wrapping_neg());
                }
            }
        }
        right
    }),
    ("group-without-its-ends", |asked| {
        let mut right = asked.right();
        if let Some(records) = judged_records(asked, &right) {
            let classes = classes(&lines(&asked.file));
            for (verdict, class) in right.buffers[0][..records].iter_mut().zip(classes) {
                if matches!(class, Class::Grh | Class::Grt) {
                    *verdict = 0;
                }
            }
        }
        right
    }),
    ("group-over-hdr-and-trl", |asked| {
        let mut right = asked.right();
        if let Some(records) = judged_records(asked, &right) {
            let verdicts = &mut right.buffers[0][..records];
            if verdicts.contains(&4) {
                verdicts[0] = 4;
                verdicts[records - 1] = 4;
            }
        }
        right
    }),
    ("groups-run-together", |asked| {
        let mut right = asked.right();
        if let Some(records) = judged_records(asked, &right) {
            let verdicts = &mut right.buffers[0][1..records - 1];
            if let Some(first) = verdicts.iter().position(|&verdict| verdict == 4) {
                verdicts[first..].fill(4);
            }
        }
        right
    }),
    ("first-transaction-only", |asked| {
        asked.judged(|_, work, sets| {
            if work[0][3..11] != *b"00000000" {
                sets.fill(0);
            }
        })
    }),
    ("all-alike", |asked| {
        let mut right = asked.right();
        if let Some(records) = judged_records(asked, &right) {
            right.buffers[0][..records].fill(3);
        }
        right
    }),
    ("bits-count-32", |asked| match asked.call {
        Call::Bits => asked.with(|request| request.number &= 0xffff_ffff),
        _ => asked.right(),
    }),
    ("bits-none-0", |asked| {
        let mut right = asked.right();
        if asked.call == Call::Bits && asked.number == 0 {
            right.others[0] = 0;
        }
        right
    }),
    ("bits-highest", |asked| {
        let mut right = asked.right();
        if asked.call == Call::Bits && asked.number != 0 {
            right.others[0] = u64::from(63 - asked.number.leading_zeros());
        }
        right
    }),
    ("bits-top-lost", |asked| match (asked.call, asked.number) {
        (Call::Bits, number) if number >> 63 == 1 => {
            let mut right = asked.right();
            right.packed -= 1;
            right
        }
        _ => asked.right(),
    }),
    ("changes-what-is-lent", |asked| {
        let mut right = asked.right();
        right.changed = asked.call.judges() && right.refusal() == 9;
        right
    }),
    ("outside, guarded", |asked| {
        // As the processor ends a driver that reads where nothing is.
        if asked.guard == Guard::After && asked.call == Call::Check {
            exit(139);
        }
        asked.right()
    }),
    ("outside-before, guarded", |asked| {
        if asked.guard == Guard::Before && asked.numbers() {
            exit(139);
        }
        asked.right()
    }),
];
