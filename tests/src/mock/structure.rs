//! Faults of refusals 3 to 11 and of numbering.

use std::process::exit;

use tests::calls::Reply;
use tests::reference::numbers::right_numbers;
use tests::reference::types::{find, Class};

use crate::asked::{place, with_place, Asked};
use crate::Fault;

pub const FAULTS: &[Fault] = &[
    ("place-from-1", |asked| {
        let right = asked.right();
        match right.refusal() {
            6..=9 => with_place(right.clone(), place(&right) + 1),
            _ => right,
        }
    }),
    ("second-hdr", |asked| {
        // Blames the first of two.
        let right = asked.right();
        match right.refusal() {
            7 if asked.line(place(&right)).starts_with(b"HDR") => with_place(right, 0),
            _ => right,
        }
    }),
    ("after-trl", |asked| {
        // Blames the TRL for what follows it.
        let right = asked.right();
        let at = place(&right);
        match right.refusal() {
            7 if at > 0 && asked.line(at - 1).starts_with(b"TRL") => with_place(right, at - 1),
            _ => right,
        }
    }),
    ("no-trl", |asked| {
        // A file that stops, refused at its last record.
        let right = asked.right();
        match right.refusal() {
            7 if place(&right) == asked.pairs() as u64 && place(&right) > 0 => {
                with_place(right.clone(), place(&right) - 1)
            }
            _ => right,
        }
    }),
    ("empty-file", |asked| match asked.file[..] {
        [] => asked.refused(4, 0),
        _ => asked.right(),
    }),
    ("empty-lines", |asked| {
        // Passes over an empty line.
        let lines = asked.file.split_inclusive(|&byte| byte == b'\n');
        let filled = lines.filter(|line| line != b"\r\n");
        asked.of_structure(filled.flatten().copied().collect())
    }),
    ("cr-cr-lf", |asked| {
        // Takes CR CR LF for the end of a line.
        let kept = (0..asked.file.len()).filter(|&at| !asked.file[at..].starts_with(b"\r\r\n"));
        asked.of_structure(kept.map(|at| asked.file[at]).collect())
    }),
    ("text-at-end", |asked| {
        // Text after the last pair, refused at the line before.
        let right = asked.right();
        match right.refusal() {
            4 if place(&right) == asked.pairs() as u64 && place(&right) > 0 => {
                with_place(right.clone(), place(&right) - 1)
            }
            _ => right,
        }
    }),
    ("byte-31", |asked| {
        // Takes 31 for text.
        let text = |&byte: &u8| if byte == 31 { b'A' } else { byte };
        asked.of_structure(asked.file.iter().map(text).collect())
    }),
    ("ascii-only", |asked| {
        let right = asked.right();
        match asked.file.iter().position(|&byte| byte > 126) {
            Some(_) if right.refusal() == 0 => asked.refused(4, 0),
            _ => right,
        }
    }),
    ("lower-case", |asked| {
        let mut file = asked.file.to_vec();
        for line in file.split_mut(|&byte| byte == b'\n') {
            let end = line.len().min(3);
            line[..end].make_ascii_uppercase();
        }
        asked.of_structure(file)
    }),
    ("isw-known", |asked| {
        let right = asked.right();
        match right.refusal() {
            6 if asked.line(place(&right)).starts_with(b"ISW") => asked.refused(7, place(&right)),
            _ => right,
        }
    }),
    ("shorter-lines", |asked| {
        // Passes over a last byte that is missing.
        let right = asked.right();
        let line = asked.line(place(&right));
        match right.refusal() {
            6 if find(line).is_some_and(|row| row.length() == line.len()) => {
                // With its CR the line is as long as its type asks for.
                asked.refused(7, place(&right))
            }
            _ => right,
        }
    }),
    ("grt-group-8", |asked| {
        let right = asked.right();
        let at = place(&right);
        let line = asked.line(at);
        match right.refusal() {
            9 if line.starts_with(b"GRT") && line[7] != b'1' => asked.refused(8, at),
            _ => right,
        }
    }),
    ("nine-first", |asked| {
        // 8 and 9 in one pass: whichever record comes first.
        let right = asked.right();
        let at = place(&right) as usize;
        let lines = asked.file.split(|&byte| byte == b'\n').take(at);
        let bad = lines.enumerate().find(|(_, line)| {
            line.starts_with(b"GRT") && !line[3..24].iter().all(u8::is_ascii_digit)
        });
        match (right.refusal(), bad) {
            (8, Some((bad, _))) => asked.refused(9, bad as u64),
            _ => right,
        }
    }),
    ("ten-first", |asked| {
        let right = asked.right();
        match right.refusal() {
            8 | 9 if !asked.version().starts_with(b"2.2") => asked.refused(10, 0),
            _ => right,
        }
    }),
    ("blank-version", |asked| {
        let right = asked.right();
        match right.refusal() {
            10 if asked.version().starts_with(b"   ") => {
                let mut file = asked.file.to_vec();
                file[101..104].copy_from_slice(b"2.2");
                asked.with(|request| request.file = file.clone())
            }
            _ => right,
        }
    }),
    ("revision-3", |asked| {
        let right = asked.right();
        match right.refusal() {
            10 if asked.version().ends_with(b"003") => {
                let mut file = asked.file.to_vec();
                file[104..107].copy_from_slice(b"002");
                asked.with(|request| request.file = file.clone())
            }
            _ => right,
        }
    }),
    ("limit-3, large", |asked| {
        let right = asked.right();
        match right.refusal() {
            3 if asked.file.len() == 16_777_217 => asked.refused(4, 0),
            _ => right,
        }
    }),
    ("limit-5, large", |asked| {
        let right = asked.right();
        match right.refusal() {
            5 if asked.pairs() == 131_073 => asked.refused(6, 0),
            _ => right,
        }
    }),
    ("five-before-four, large", |asked| {
        let right = asked.right();
        match right.refusal() {
            4 if asked.pairs() > 131_072 => asked.refused(5, 131_072),
            _ => right,
        }
    }),
    ("counts", |asked| {
        // Counts the transactions of the last group only.
        let mut right = asked.right();
        if right.others[0] > 1 {
            right.others[1] -= 1;
        }
        right
    }),
    ("transactions-run-on", |asked| {
        faulty_numbers(asked, |numbers| {
            if numbers.header {
                numbers.value += numbers.before_group;
            }
        })
    }),
    ("sixteen-bits, large", |asked| {
        faulty_numbers(asked, |numbers| numbers.value %= 65_536)
    }),
    ("copies", |asked| {
        let mut right = asked.right();
        if asked.numbers() && right.refusal() == 0 {
            right.buffers[0][..asked.file.len()].copy_from_slice(&asked.file);
        }
        right
    }),
    ("eleven-before-ten", |asked| {
        let right = asked.right();
        let short = asked.numbers() && asked.buffers[0].len() < asked.file.len();
        match right.refusal() {
            10 if short => asked.refused(11, 0),
            _ => right,
        }
    }),
    ("number-short", |asked| {
        // Takes a buffer that is one byte short.
        let right = asked.right();
        match right.refusal() {
            11 if asked.numbers() && asked.buffers[0].len() + 1 == asked.file.len() => {
                asked.with(|request| request.buffers[0].push(0))
            }
            _ => right,
        }
    }),
    ("number-writes-beyond", |asked| {
        let mut right = asked.right();
        if asked.numbers() && right.refusal() == 0 && right.buffers[0].len() > asked.file.len() {
            right.buffers[0][asked.file.len()] = 0;
        }
        right
    }),
    ("number-writes-on-refusal", |asked| {
        let mut right = asked.right();
        if asked.numbers() && right.refusal() == 11 && !right.buffers[0].is_empty() {
            right.buffers[0][0] = b'H';
        }
        right
    }),
    ("ends", |asked| {
        let right = asked.right();
        if right.refusal() == 9 {
            exit(3);
        }
        right
    }),
    ("hangs", |asked| {
        let right = asked.right();
        while right.refusal() == 9 {
            std::thread::park();
        }
        right
    }),
];

/// A number about to be written.
struct Written {
    value: u64,
    /// Whether it is a header's transaction number.
    header: bool,
    /// Transactions in the groups before.
    before_group: u64,
}

/// The right answer, but for the numbers in the buffer.
fn faulty_numbers(asked: &Asked, fault: fn(&mut Written)) -> Reply {
    let mut right = asked.right();
    if !asked.numbers() || right.refusal() != 0 {
        return right;
    }
    let (mut starts, mut at) = (Vec::new(), 0);
    for line in asked.file.split_inclusive(|&byte| byte == b'\n') {
        starts.push(at);
        at += line.len();
    }
    let classes: Vec<Class> = starts
        .iter()
        .map(|&at| find(&asked.file[at..]).expect("right by 6").class)
        .collect();
    let (mut headers, mut before_group) = (0, 0);
    for (at, numbers) in right_numbers(&classes).into_iter().enumerate() {
        match classes[at] {
            Class::Grh => before_group = headers,
            Class::Header => headers += 1,
            _ => {}
        }
        for number in numbers {
            let mut written = Written {
                value: number.digits.parse().expect("digits"),
                header: classes[at] == Class::Header && number.start == 4,
                before_group,
            };
            fault(&mut written);
            let size = number.digits.len();
            let digits = format!("{:0size$}", written.value);
            let from = starts[at] + number.start - 1;
            right.buffers[0][from..from + size].copy_from_slice(digits.as_bytes());
        }
    }
    right
}
