//! What the caller lends besides the file: refusals 1, 2 and 11.

use super::{refused, Refusal};

pub const LARGEST_TOLERANCE: u64 = 6;

/// That of the short form of the check: what goes out has none (M-104).
pub const SHORT_TOLERANCE: u64 = 0;

/// That of the calls which nobody lends one to and which M-104 leaves as they
/// were, the listing program and the sheet.
pub const USUAL_TOLERANCE: u64 = LARGEST_TOLERANCE;

pub const MOST_ENTRIES: usize = 1024;

/// The three lookup tables, entry after entry.
#[derive(Clone, Copy, Debug)]
pub struct Tables<'a> {
    pub languages: &'a [u8],
    pub societies: &'a [u8],
    pub categories: &'a [u8],
}

impl<'a> Tables<'a> {
    pub fn of([languages, societies, categories]: &'a [Vec<u8>; 3]) -> Tables<'a> {
        Tables {
            languages,
            societies,
            categories,
        }
    }
}

/// The tolerance.
pub fn refusal_1(tolerance: u64) -> Result<(), Refusal> {
    if tolerance > LARGEST_TOLERANCE {
        return Err(refused(1, 0));
    }
    Ok(())
}

/// Whole entries, and not too many: the place is the first table that fails.
pub fn refusal_2(tables: &Tables) -> Result<(), Refusal> {
    let sized = [
        (tables.languages, 2),
        (tables.societies, 3),
        (tables.categories, 3),
    ];
    for (place, (table, size)) in sized.into_iter().enumerate() {
        if table.len() % size != 0 || table.len() / size > MOST_ENTRIES {
            return Err(refused(2, place));
        }
    }
    Ok(())
}

/// Room for a byte a record, and for eight.
pub fn refusal_11(records: usize, verdicts: &[u8], findings: &[u8]) -> Result<(), Refusal> {
    if verdicts.len() < records || findings.len() < 8 * records {
        return Err(refused(11, 0));
    }
    Ok(())
}
