//! The reference: the scope read plainly, with its numbers and in its order.
//! Where two readers could differ, the agreed readings decide.

pub mod check;
pub mod claims;
pub mod findings;
pub mod first;
pub mod lent;
pub mod lines;
pub mod listing;
pub mod numbering;
pub mod numbers;
pub mod sheet;
pub mod structure;
pub mod territories;
pub mod types;
pub mod values;
pub mod verdicts;

pub use check::{check, check_short};
pub use claims::check_claims;
pub use first::{first_rejected, First};
pub use lent::Tables;
pub use listing::listing;
pub use numbering::numbering;
pub use sheet::sheet_add;
pub use structure::structure;
pub use types::record_length;

/// What a call answers.
#[derive(Clone, Copy, Debug, PartialEq, Eq)]
pub enum Answer {
    Refused {
        number: u32,
        place: u32,
    },
    Passed {
        groups: u64,
        transactions: u64,
        records: u64,
    },
}

impl Answer {
    /// The one 64-bit number of the scope: refusal number times 2^32 plus
    /// place, or the number of records.
    pub fn packed(&self) -> u64 {
        match *self {
            Answer::Refused { number, place } => (u64::from(number) << 32) + u64::from(place),
            Answer::Passed { records, .. } => records,
        }
    }
}

/// A refusal on its way to the answer.
#[derive(Clone, Copy, Debug, PartialEq, Eq)]
pub struct Refusal {
    pub number: u32,
    pub place: u32,
}

/// The refusal of this number at this place.
pub fn refused(number: u32, place: usize) -> Refusal {
    // A file that passes 3 has far fewer lines than 2^32.
    let place = u32::try_from(place).expect("place beyond 32 bits");
    Refusal { number, place }
}

/// The three numbers of a file that passed.
#[derive(Clone, Copy, Debug, PartialEq, Eq)]
pub struct Counts {
    pub groups: u64,
    pub transactions: u64,
    pub records: u64,
}

/// The answer to a check that ended so.
pub fn answer(outcome: Result<Counts, Refusal>) -> Answer {
    match outcome {
        Err(Refusal { number, place }) => Answer::Refused { number, place },
        Ok(Counts {
            groups,
            transactions,
            records,
        }) => Answer::Passed {
            groups,
            transactions,
            records,
        },
    }
}

/// The part of a record that starts at this position, counted from 1 as in
/// 001, and has this size.
pub fn field(record: &[u8], start: usize, size: usize) -> &[u8] {
    &record[start - 1..start - 1 + size]
}

#[cfg(test)]
mod tests;
