//! Findings 24 and 43 to 46: on the other details.

use super::bit;
use super::order::SKIPPED;
use crate::reference::field;
use crate::reference::values::{all_zeros, blank, valid_date, valid_duration};

pub fn set(text: &[u8]) -> u64 {
    bit(24, finding_24(text))
        | bit(43, finding_43(text))
        | bit(44, finding_44(text))
        | bit(45, finding_45(text))
        | bit(46, finding_46(text))
}

/// T8, RR: types that belong to other transactions.
fn finding_24(text: &[u8]) -> bool {
    SKIPPED.contains(&&text[..3])
}

/// RR: another work without a title, or an artist without a name.
fn finding_43(text: &[u8]) -> bool {
    match &text[..3] {
        b"EWT" | b"VER" => blank(field(text, 20, 60)),
        b"PER" => blank(field(text, 20, 45)),
        _ => false,
    }
}

fn is_rec(text: &[u8]) -> bool {
    text.starts_with(b"REC")
}

/// RR: a recording of which nothing is said, once the defaults of 45 and 46
/// are in force.
fn finding_44(text: &[u8]) -> bool {
    is_rec(text)
        && (finding_45(text) || all_zeros(field(text, 20, 8)))
        && (finding_46(text) || all_zeros(field(text, 88, 6)))
        && blank(field(text, 99, 442))
}

/// FR to zeros: a release date that is none; zeros say there is none.
fn finding_45(text: &[u8]) -> bool {
    if !is_rec(text) {
        return false;
    }
    let date = field(text, 20, 8);
    !all_zeros(date) && !valid_date(date)
}

/// FR to zeros: a duration that is none; it may be zero.
fn finding_46(text: &[u8]) -> bool {
    is_rec(text) && !valid_duration(field(text, 88, 6))
}
