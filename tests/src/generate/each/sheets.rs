//! Files added to sheets of every kind, and lists of files for one sheet.

use super::{add_with, FIRST};
use crate::calls::Call;
use crate::generate::right::{number, put};
use crate::generate::sheets::{of, FILES, LIMITS};
use crate::generate::works::{file, of as record, plain_work, publisher, set_shares, Records};
use crate::generate::{join, Case, Random};
use crate::reference::listing::TABLES;
use crate::reference::sheet::{judge, Sheet, BYTES, MOST_FILES, NUMBERS};
use crate::reference::Tables;

pub fn all(all: &mut Vec<Case>) {
    fresh(all);
    numbers(all);
    stops(all);
    full(all);
    lengths(all);
    lists(all);
}

fn add(all: &mut Vec<Case>, kind: String, file: Vec<u8>, sheet: Vec<u8>) -> &mut Case {
    let kind = format!("each sheet: {kind}");
    let case = add_with(all, kind, file, &[Call::Sheet]);
    case.sheet = sheet;
    case
}

/// A work whose writer has these shares.
fn owned(shares: [usize; 3]) -> Records {
    let mut work = plain_work();
    set_shares(&mut work[1], shares);
    work
}

fn of_works(works: Vec<Records>) -> Vec<u8> {
    join(&file("NWR", works))
}

/// Works short of the full share: by one, within the tolerance, by much.
fn short() -> Vec<u8> {
    of_works(vec![
        owned([9_000, 9_999, 0]),
        owned([9_994, 10_000, 1]),
        owned([9_993, 0, 9_000]),
    ])
}

fn over() -> Vec<u8> {
    of_works(vec![
        owned([10_001, 10_000, 99_999]),
        owned([10_006, 12_000, 0]),
        owned([10_007, 10_001, 10_000]),
    ])
}

/// Every verdict, several findings on several records, and works that miss the
/// full share in both ways, accepted and rejected.
fn mixed() -> Vec<u8> {
    let mut default = owned([9_995, 10_003, 10_000]);
    put(&mut default[0], 96, "X");
    let mut record_rejected = plain_work();
    record_rejected.extend([record("TER", &[]), record("PER", &[])]);
    let mut untitled = owned([12_000, 10_000, 8_000]);
    put(&mut untitled[0], 20, " ");
    let mut published = owned([5_000, 0, 7_000]);
    published.insert(1, publisher("SPU", "E ", [5_000, 0, 3_001]));
    published.insert(2, publisher("OPU", "  ", [0, 4, 0]));
    // No number, though it looks like one.
    let mut blanks = owned([0; 3]);
    put(&mut blanks[1], 130, " 5000");
    put(&mut blanks[1], 138, "1000 ");
    put(&mut blanks[1], 146, "-5000");
    let mut records = file(
        "NWR",
        vec![
            plain_work(),
            default,
            record_rejected,
            untitled,
            published,
            blanks,
        ],
    );
    // A group that falls, with one that would not by itself.
    let mut revised = owned([10_000, 3, 20_000]);
    put(&mut revised[0], 1, "REV");
    let group = file("NWR", vec![owned([1, 10_000, 9_000]), revised]);
    let end = records.len() - 1;
    records.splice(end..end, group[1..group.len() - 1].iter().cloned());
    number(&mut records);
    join(&records)
}

fn files() -> [(&'static str, Vec<u8>); 4] {
    [
        ("short", short()),
        ("over", over()),
        ("mixed", mixed()),
        ("refused", Vec::new()),
    ]
}

/// Each total near the full share and nothing, of each right alone.
fn fresh(all: &mut Vec<Case>) {
    for (name, file) in files() {
        add(all, format!("fresh, {name}"), file, vec![0; BYTES]);
    }
    let near = (0..=8).chain(9_990..=10_010);
    for total in near.chain([255, 256, 20_000, 65_536, 75_536, 99_999]) {
        for right in 0..3 {
            let mut shares = [0; 3];
            shares[right] = total;
            let kind = format!("fresh, {total} of right {right}");
            add(all, kind, of_works(vec![owned(shares)]), vec![0; BYTES]);
        }
    }
}

/// Every number at a limit, and each of them alone.
fn numbers(all: &mut Vec<Case>) {
    for limit in LIMITS {
        for (name, file) in files() {
            let numbers = [7].into_iter().chain(vec![limit; NUMBERS - 1]);
            add(all, format!("all at {limit:#x}, {name}"), file, of(numbers));
        }
    }
    for at in 1..NUMBERS {
        let mut numbers = vec![0; NUMBERS];
        numbers[at] = u64::MAX;
        add(all, format!("number {at} alone"), mixed(), of(numbers));
    }
}

/// Every sum such that with the file it comes to its limit, and one off it.
fn stops(all: &mut Vec<Case>) {
    for (name, file) in files() {
        let mut sheet = Sheet::of_list(&[judge(&file, &TABLES)]);
        let of_rights = sheet.rights.map(|right| right.differences);
        for off in -1..=1 {
            let before = |more: u64| (u64::MAX - more).saturating_add_signed(off);
            let mut numbers: Vec<u64> = sheet.bytes().chunks(8).map(u64_of).map(before).collect();
            numbers[0] = MOST_FILES - 1;
            for (right, more) in of_rights.into_iter().enumerate() {
                let before = match more < 0 {
                    true => (i64::MIN - more).saturating_sub(off),
                    false => (i64::MAX - more).saturating_add(off),
                };
                numbers[5 + 4 * right] = before as u64;
            }
            let kind = format!("{off:+} off the last number, {name}");
            add(all, kind, file.clone(), of(numbers));
        }
        // A largest that is as large as the file's, and one off it.
        sheet.files = 0;
        for off in -1..=1 {
            let mut sheet = sheet.clone();
            for right in &mut sheet.rights {
                right.shortfall = right.shortfall.saturating_add_signed(off);
                right.excess = right.excess.saturating_add_signed(off);
            }
            let kind = format!("{off:+} off the file's largest, {name}");
            add(all, kind, file.clone(), sheet.bytes());
        }
    }
}

fn u64_of(bytes: &[u8]) -> u64 {
    u64::from_le_bytes(bytes.try_into().expect("eight bytes"))
}

/// Full and not, with a file that passes, one that is refused, and tables that
/// are: which refusal is first.
fn full(all: &mut Vec<Case>) {
    let mut random = Random::new(FIRST);
    for files in FILES {
        for (name, file) in [("passed", mixed()), ("refused", Vec::new())] {
            for wrong in [false, true] {
                let mut sheet = random.pattern(BYTES);
                sheet[..8].copy_from_slice(&files.to_le_bytes());
                let tables = if wrong { ", table wrong" } else { "" };
                let kind = format!("{files:#x} files, {name}{tables}");
                let case = add(all, kind, file.clone(), sheet);
                if wrong {
                    case.tables[1].push(b'0');
                }
            }
        }
    }
}

/// Of so many bytes, full and not.
fn lengths(all: &mut Vec<Case>) {
    let mut random = Random::new(FIRST);
    let short = [0, 1, 7, 8, 9, 15, 16, 333, 656, 662, 663];
    for length in short
        .into_iter()
        .chain([664, 665, 671, 672, 760, 1328, 70_000])
    {
        for files in [0, MOST_FILES - 1, MOST_FILES] {
            for (name, file) in [("passed", mixed()), ("refused", Vec::new())] {
                let mut sheet = random.pattern(length.max(8));
                sheet[..8].copy_from_slice(&files.to_le_bytes());
                sheet.truncate(length);
                add(
                    all,
                    format!("{length} bytes, {files} files, {name}"),
                    file,
                    sheet,
                );
            }
        }
    }
}

/// Lists of the files that stand here before: of all kinds, and of so many that
/// the sheet is full; short ones then, passed and refused.
fn lists(all: &mut Vec<Case>) {
    let small = |case: &&Case| case.lends_a_file() && case.file.len() < 20_000;
    let seeds: Vec<u64> = all.iter().filter(small).map(|case| case.seed).collect();
    for start in 0..8 {
        let every = seeds.iter().skip(11 * start).step_by(88).copied();
        add_list(
            all,
            format!("every 88th file from {}", 11 * start),
            every.collect(),
        );
    }
    let tiny = |case: &&Case| case.lends_a_file() && (1..1000).contains(&case.file.len());
    let passes = |case: &&Case| judge(&case.file, &Tables::of(&case.tables)).is_ok();
    let (passed, refused): (Vec<_>, Vec<_>) = all.iter().filter(tiny).partition(passes);
    // One refused in three, so that those beyond are of both kinds.
    let [mut passed, mut refused] =
        [passed, refused].map(|cases| cases.into_iter().map(|case| case.seed).cycle());
    let one = |place| match place % 3 {
        0 => refused.next(),
        _ => passed.next(),
    };
    let many: Vec<u64> = (0..MOST_FILES + 5).filter_map(one).collect();
    add_list(all, "4,096 files and 5 more".to_string(), many);
}

fn add_list(all: &mut Vec<Case>, kind: String, list: Vec<u64>) {
    let case = add(all, format!("list of {kind}"), Vec::new(), Vec::new());
    // No file of its own.
    case.calls = vec![Call::Sheet];
    case.list = list;
}
