//! Findings 0 to 15: on the header, over the transaction.

use super::chains::{finding_11, finding_12, finding_13, finding_14};
use super::order::finding_8;
use super::{bit, Transaction};
use crate::reference::field;

/// The full share, and the publishers' half of it.
pub const FULL: u64 = 10_000;
pub const HALF: u64 = 5_000;

const ALL: [fn(&Transaction) -> bool; 16] = [
    finding_0, finding_1, finding_2, finding_3, finding_4, finding_5, finding_6, finding_7,
    finding_8, finding_9, finding_10, finding_11, finding_12, finding_13, finding_14, finding_15,
];

pub fn set(transaction: &Transaction) -> u64 {
    let bits = ALL.iter().enumerate();
    bits.map(|(finding, holds)| bit(finding as u32, holds(transaction)))
        .sum()
}

/// PR, MR and SR together of all these shares.
pub fn total(shares: impl Iterator<Item = [u64; 3]>) -> [u64; 3] {
    shares.fold([0; 3], |sum, shares| {
        [sum[0] + shares[0], sum[1] + shares[1], sum[2] + shares[2]]
    })
}

fn of_publishers(transaction: &Transaction) -> [u64; 3] {
    total(
        transaction
            .publishers
            .iter()
            .map(|publisher| publisher.shares),
    )
}

fn of_writers(transaction: &Transaction) -> [u64; 3] {
    total(transaction.writers.iter().map(|writer| writer.shares))
}

/// All four kinds of record together.
pub fn of_all(transaction: &Transaction) -> [u64; 3] {
    total([of_publishers(transaction), of_writers(transaction)].into_iter())
}

/// T22, GR: the group is not for headers of this type.
fn finding_0(transaction: &Transaction) -> bool {
    transaction.header[..3] != *transaction.group_type
}

/// T4: publishers own more than half of PR, or more than all of another right.
fn finding_1(transaction: &Transaction) -> bool {
    let [pr, mr, sr] = of_publishers(transaction);
    let t = transaction.tolerance;
    pr > HALF + t || mr > FULL + t || sr > FULL + t
}

/// T9: writers own less than half of PR, but not nothing, or more than all of
/// some right.
fn finding_2(transaction: &Transaction) -> bool {
    finding_2_of(of_writers(transaction), transaction.tolerance)
}

/// The same by their totals. Up to t of PR is as good as nothing, since T9's
/// note on tolerance covers its 0 too (M-102).
pub fn finding_2_of([pr, mr, sr]: [u64; 3], t: u64) -> bool {
    let enough = pr <= t || pr >= HALF - t;
    !enough || [pr, mr, sr].iter().any(|&right| right > FULL + t)
}

/// T11: together they own neither nothing, here exactly 0, nor all of some
/// right.
fn finding_3(transaction: &Transaction) -> bool {
    let t = transaction.tolerance;
    let right = |sum: &u64| *sum == 0 || (FULL - t..=FULL + t).contains(sum);
    !of_all(transaction).iter().all(right)
}

/// T12: nobody wrote it.
fn finding_4(transaction: &Transaction) -> bool {
    transaction.writers.is_empty()
}

/// Whether a writer has one of these designations.
fn has_writer(transaction: &Transaction, designations: &[&[u8; 2]]) -> bool {
    let wanted = |of: &[u8]| designations.iter().any(|one| *one == of);
    transaction
        .writers
        .iter()
        .any(|writer| wanted(writer.designation()))
}

/// Those of 6 and 7.
const ADAPTERS: [&[u8; 2]; 5] = [b"AR", b"AD", b"SR", b"SA", b"TR"];

/// T15: nobody wrote its words or its music first.
fn finding_5(transaction: &Transaction) -> bool {
    !has_writer(transaction, &[b"CA", b"A ", b"C "])
}

fn version(header: &[u8]) -> &[u8] {
    field(header, 143, 3)
}

/// T10: a version, but nobody adapted it.
fn finding_6(transaction: &Transaction) -> bool {
    version(transaction.header) == b"MOD" && !has_writer(transaction, &ADAPTERS)
}

/// T23: an original, but somebody adapted it.
fn finding_7(transaction: &Transaction) -> bool {
    version(transaction.header) == b"ORI" && has_writer(transaction, &ADAPTERS)
}

/// T53: a serious work without its instruments.
fn finding_9(transaction: &Transaction) -> bool {
    field(transaction.header, 127, 3) == b"SER" && !transaction.has(&[b"INS", b"IND"])
}

/// T45: music alone, but somebody wrote words.
fn finding_10(transaction: &Transaction) -> bool {
    let relationship = field(transaction.header, 137, 3);
    relationship == b"MUS" && has_writer(transaction, &[b"CA", b"A ", b"SA", b"TR"])
}

/// The entire work or the original is named twice.
fn finding_15(transaction: &Transaction) -> bool {
    transaction.number_of(&[b"EWT"]) > 1 || transaction.number_of(&[b"VER"]) > 1
}
