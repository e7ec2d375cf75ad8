//! The file as lines: refusals 3, 4 and 5.

use super::{refused, Refusal};

pub const LARGEST_FILE: usize = 16_777_216;
pub const MOST_RECORDS: usize = 131_072;

const CR: u8 = 13;
const LF: u8 = 10;

/// The file's size, before anything in it is looked at.
pub fn refusal_3(file: &[u8]) -> Result<(), Refusal> {
    if file.len() > LARGEST_FILE {
        return Err(refused(3, 0));
    }
    Ok(())
}

/// Control bytes only as pairs of CR and LF, and a pair at the end of every
/// line. The place is the number of pairs before the fault.
pub fn refusal_4(file: &[u8]) -> Result<(), Refusal> {
    let mut pairs = 0;
    let mut at = 0;
    let mut line_start = 0;
    while at < file.len() {
        if is_pair(file, at) {
            pairs += 1;
            at += 2;
            line_start = at;
        } else if file[at] < 32 {
            return Err(refused(4, pairs));
        } else {
            at += 1;
        }
    }
    if line_start < file.len() {
        return Err(refused(4, pairs));
    }
    Ok(())
}

/// The number of records; an empty line is one too. After 4, so that
/// each pair ends a record and nothing stands after the last.
pub fn refusal_5(file: &[u8]) -> Result<(), Refusal> {
    let pairs = (0..file.len()).filter(|&at| is_pair(file, at)).count();
    if pairs > MOST_RECORDS {
        return Err(refused(5, MOST_RECORDS));
    }
    Ok(())
}

/// A record's text and where it starts in the file.
#[derive(Clone, Copy, Debug)]
pub struct Line<'a> {
    pub at: usize,
    pub text: &'a [u8],
}

/// The lines without their pairs. After 4.
pub fn lines(file: &[u8]) -> Vec<Line<'_>> {
    let mut lines = Vec::new();
    let mut start = 0;
    for at in 0..file.len() {
        if is_pair(file, at) {
            lines.push(Line {
                at: start,
                text: &file[start..at],
            });
            start = at + 2;
        }
    }
    lines
}

/// A CR directly followed by an LF. Pairs cannot overlap.
fn is_pair(file: &[u8], at: usize) -> bool {
    file[at] == CR && file.get(at + 1) == Some(&LF)
}
