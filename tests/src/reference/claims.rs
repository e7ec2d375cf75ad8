//! The check with a territory table and a list of claims: refusals 1 to 11 with
//! 13 after 2, then 14; findings 0 to 48, and where a total is over first.

use super::findings::claims::{finding_47, is_claim, parties, Claim};
use super::findings::{bit, of_records, transactions, Transaction};
use super::lent::{refusal_1, refusal_11, refusal_2, Tables};
use super::numbers::counts;
use super::structure::{self, Structure};
use super::territories::{memberless, refusal_13, territories};
use super::verdicts::verdicts;
use super::{answer, refused, Answer, Refusal};

/// The bytes of an entry of the list of claims, six numbers of four.
pub const ENTRY: usize = 24;

/// The bytes that `over` must have, two numbers of four.
pub const OVER: usize = 8;

/// What may be written to. The list is its entries' bytes, which can be any.
pub struct Room<'a> {
    pub list: &'a mut [u8],
    pub verdicts: &'a mut [u8],
    pub findings: &'a mut [u8],
    pub over: &'a mut [u8],
}

/// A transaction, counted from 0 over the whole file, and a territory's position.
pub type Over = (u32, u32);

/// Writes as the check does, and besides where a total is over first, all bytes
/// 255 for nowhere; the list is left all zeros. Nothing where it refuses.
pub fn check_claims(
    tolerance: u64,
    file: &[u8],
    tables: &Tables,
    table: &[u8],
    room: Room,
) -> Answer {
    let Structure { lines, classes } = match passes(tolerance, file, tables, table, &room) {
        Err(refusal) => return answer(Err(refusal)),
        Ok(structure) => structure,
    };
    let transactions = transactions(&lines, &classes, *tables, tolerance);
    if let Err(refusal) = refusal_14(&transactions, room.list.len() / ENTRY) {
        return answer(Err(refusal));
    }
    let mut sets = of_records(lines.len(), &transactions);
    let over = judge(&transactions, table, tolerance, &mut sets);
    let verdicts = verdicts(&classes, &sets);
    for (record, (set, verdict)) in sets.into_iter().zip(verdicts).enumerate() {
        room.verdicts[record] = verdict;
        room.findings[8 * record..8 * record + 8].copy_from_slice(&set.to_le_bytes());
    }
    room.list.fill(0);
    let (transaction, territory) = over.unwrap_or((u32::MAX, u32::MAX));
    room.over[..4].copy_from_slice(&transaction.to_le_bytes());
    room.over[4..OVER].copy_from_slice(&territory.to_le_bytes());
    answer(Ok(counts(&classes)))
}

/// The tables need no file and come first, room for the answer last; that for
/// claims follows.
fn passes<'a>(
    tolerance: u64,
    file: &'a [u8],
    tables: &Tables,
    table: &[u8],
    room: &Room,
) -> Result<Structure<'a>, Refusal> {
    refusal_1(tolerance)?;
    refusal_2(tables)?;
    refusal_13(table)?;
    let structure = structure::refusals_3_to_10(file)?;
    refusal_11(structure.lines.len(), room.verdicts, room.findings)?;
    if room.over.len() < OVER {
        return Err(refused(11, 0));
    }
    Ok(structure)
}

/// An entry for each claim of a transaction, ignored ones too; the place is that
/// of its header.
fn refusal_14(transactions: &[(usize, Transaction)], entries: usize) -> Result<(), Refusal> {
    for (header, transaction) in transactions {
        let claims = transaction.details.iter().filter(|text| is_claim(text));
        if claims.count() > entries {
            return Err(refused(14, *header));
        }
    }
    Ok(())
}

/// Adds findings 47 and 48 to the sets of all records; where 47 is set first.
fn judge(
    transactions: &[(usize, Transaction)],
    table: &[u8],
    tolerance: u64,
    sets: &mut [u64],
) -> Option<Over> {
    let territories = territories(table);
    let memberless = memberless(&territories);
    let mut first = None;
    for (number, (header, transaction)) in transactions.iter().enumerate() {
        let details = &transaction.details;
        for (record, text) in details.iter().enumerate() {
            let claim = Claim::of(text, &territories);
            let holds = claim.is_some_and(|claim| claim.finding_48());
            sets[header + 1 + record] |= bit(48, holds);
        }
        let over = finding_47(&parties(details, &territories), &memberless, tolerance);
        sets[*header] |= bit(47, over.is_some());
        if let (None, Some(territory)) = (first, over) {
            first = Some((number as u32, territory as u32));
        }
    }
    first
}
