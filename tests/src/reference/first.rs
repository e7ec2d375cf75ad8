//! The first work to look at: refusals 1 to 10, then the first transaction
//! with a TR or GR finding of its own.

use super::findings::sets;
use super::lent::{refusal_1, refusal_2, Tables};
use super::structure::{self, Structure};
use super::types::Class;
use super::verdicts::own;
use super::Refusal;

/// The least level of a finding that rejects more than its record: TR, and
/// above it GR.
const TR: u8 = 3;

/// The number that stands for none.
pub const NO_TRANSACTION: u64 = 0xffff_ffff;

#[derive(Clone, Copy, Debug, PartialEq, Eq)]
pub enum First {
    Refused {
        number: u32,
        place: u32,
    },
    /// No transaction has such a finding.
    None,
    /// Counted from 0 over the whole file.
    At(u64),
}

impl First {
    /// The one 64-bit number: refusal number times 2^32 plus place, or the
    /// transaction's number.
    pub fn packed(&self) -> u64 {
        match *self {
            First::Refused { number, place } => (u64::from(number) << 32) + u64::from(place),
            First::None => NO_TRANSACTION,
            First::At(transaction) => transaction,
        }
    }
}

/// Nothing is written, so there is no room that could be missing: no 11.
pub fn first_rejected(tolerance: u64, file: &[u8], tables: &Tables) -> First {
    match passes(tolerance, file, tables) {
        Err(Refusal { number, place }) => First::Refused { number, place },
        Ok(structure) => look(&structure, tolerance, tables),
    }
}

fn passes<'a>(tolerance: u64, file: &'a [u8], tables: &Tables) -> Result<Structure<'a>, Refusal> {
    refusal_1(tolerance)?;
    refusal_2(tables)?;
    structure::refusals_3_to_10(file)
}

/// A record's own findings decide, not its verdict: that may be its
/// transaction's or its group's. Only headers and details have findings, so
/// the first record with such a one is of the transaction whose header stands
/// there or last before, and as many stand before that as there are headers.
fn look(structure: &Structure, tolerance: u64, tables: &Tables) -> First {
    let Structure { lines, classes } = structure;
    let sets = sets(lines, classes, *tables, tolerance);
    let Some(record) = sets.iter().position(|&set| own(set) >= TR) else {
        return First::None;
    };
    let headers = classes[..=record].iter().filter(|&&c| c == Class::Header);
    First::At(headers.count() as u64 - 1)
}
