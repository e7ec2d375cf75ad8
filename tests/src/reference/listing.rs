//! The listing program: what it prints for an input.

use super::check::check;
use super::findings::{count, lowest};
use super::lent::{Tables, USUAL_TOLERANCE};
use super::lines::lines;
use super::Answer;

pub const LONGEST_INPUT: usize = 65_536;

/// The tables it has built in.
pub const TABLES: Tables = Tables {
    languages: b"ENFRDE",
    societies: b"035044058",
    categories: b"POPJAZSER",
};

pub fn listing(input: &[u8]) -> Vec<u8> {
    listing_within(USUAL_TOLERANCE, input)
}

/// The same with another tolerance, to have a listing program that is wrong.
pub fn listing_within(tolerance: u64, input: &[u8]) -> Vec<u8> {
    if input.len() > LONGEST_INPUT {
        return b"INPUT TOO LONG\n".to_vec();
    }
    // A record ends with two bytes, so there are fewer records than bytes.
    let mut verdicts = vec![0; input.len()];
    let mut findings = vec![0; 8 * input.len()];
    match check(tolerance, input, &TABLES, &mut verdicts, &mut findings) {
        Answer::Refused { number, place } => format!("REFUSED {number} {place}\n").into_bytes(),
        Answer::Passed {
            groups,
            transactions,
            records,
        } => {
            let mut text =
                format!("GROUPS {groups} TRANSACTIONS {transactions} RECORDS {records}\n");
            for (record, line) in lines(input).iter().enumerate() {
                let kind = String::from_utf8_lossy(&line.text[..3]);
                let set = &findings[8 * record..8 * record + 8];
                let set = u64::from_le_bytes(set.try_into().expect("eight bytes"));
                let lowest = match lowest(set) {
                    64 => "-".to_string(),
                    finding => finding.to_string(),
                };
                let (verdict, count) = (verdicts[record], count(set));
                text += &format!("{record} {kind} {verdict} {count} {lowest}\n");
            }
            text.into_bytes()
        }
    }
}
