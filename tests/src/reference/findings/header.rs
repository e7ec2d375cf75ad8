//! Findings 16 to 23: on the header's fields.

use super::{bit, Transaction};
use crate::reference::field;
use crate::reference::values::{
    all_zeros, blank, entered, in_table, valid_date, valid_duration, valid_iswc,
};

const ALL: [fn(&Transaction) -> bool; 8] = [
    finding_16, finding_17, finding_18, finding_19, finding_20, finding_21, finding_22, finding_23,
];

pub fn set(transaction: &Transaction) -> u64 {
    let bits = ALL.iter().zip(16..);
    bits.map(|(holds, finding)| bit(finding, holds(transaction)))
        .sum()
}

/// N1, TR: no title.
fn finding_16(transaction: &Transaction) -> bool {
    blank(field(transaction.header, 20, 60))
}

/// N2, TR: a language that the table hasn't.
fn finding_17(transaction: &Transaction) -> bool {
    let language = field(transaction.header, 80, 2);
    entered(language) && !in_table(language, transaction.tables.languages)
}

/// N3, TR: no work number.
fn finding_18(transaction: &Transaction) -> bool {
    blank(field(transaction.header, 82, 14))
}

/// N4, FR to spaces: something that is no ISWC.
fn finding_19(transaction: &Transaction) -> bool {
    let iswc = field(transaction.header, 96, 11);
    entered(iswc) && !valid_iswc(iswc)
}

/// N5, FR to zeros: a copyright date that is none; zeros say there is none.
fn finding_20(transaction: &Transaction) -> bool {
    let date = field(transaction.header, 107, 8);
    !all_zeros(date) && !valid_date(date)
}

fn category<'a>(transaction: &Transaction<'a>) -> &'a [u8] {
    field(transaction.header, 127, 3)
}

/// N6, TR: a category that the table hasn't, or none, though the table may
/// have a blank entry.
fn finding_21(transaction: &Transaction) -> bool {
    let category = category(transaction);
    blank(category) || !in_table(category, transaction.tables.categories)
}

/// N7, TR: a serious work without a duration.
fn finding_22(transaction: &Transaction) -> bool {
    let duration = field(transaction.header, 130, 6);
    category(transaction) == b"SER" && (all_zeros(duration) || !valid_duration(duration))
}

/// FR to zeros: any other work's duration is none; it may be zero.
fn finding_23(transaction: &Transaction) -> bool {
    let duration = field(transaction.header, 130, 6);
    category(transaction) != b"SER" && !valid_duration(duration)
}
