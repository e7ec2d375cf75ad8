//! The check: refusals 1 to 11, then verdicts and findings.

use super::findings::sets;
use super::lent::{refusal_1, refusal_11, refusal_2, Tables, SHORT_TOLERANCE};
use super::numbers::counts;
use super::structure::{self, Structure};
use super::verdicts;
use super::{answer, Answer, Refusal};

/// Checks a file: writes one byte a record to `out_verdicts` and eight to
/// `out_findings`, least significant first; nothing where it refuses.
pub fn check(
    tolerance: u64,
    file: &[u8],
    tables: &Tables,
    out_verdicts: &mut [u8],
    out_findings: &mut [u8],
) -> Answer {
    let Structure { lines, classes } =
        match passes(tolerance, file, tables, out_verdicts, out_findings) {
            Err(refusal) => return answer(Err(refusal)),
            Ok(structure) => structure,
        };
    let sets = sets(&lines, &classes, *tables, tolerance);
    let verdicts = verdicts::verdicts(&classes, &sets);
    for (record, (set, verdict)) in sets.into_iter().zip(verdicts).enumerate() {
        out_verdicts[record] = verdict;
        out_findings[8 * record..8 * record + 8].copy_from_slice(&set.to_le_bytes());
    }
    answer(Ok(counts(&classes)))
}

/// The check without tolerance. That is always allowed, so there is no 1.
pub fn check_short(
    file: &[u8],
    tables: &Tables,
    out_verdicts: &mut [u8],
    out_findings: &mut [u8],
) -> Answer {
    check(SHORT_TOLERANCE, file, tables, out_verdicts, out_findings)
}

/// What is lent and needs no file comes first, room for the answer last.
fn passes<'a>(
    tolerance: u64,
    file: &'a [u8],
    tables: &Tables,
    out_verdicts: &[u8],
    out_findings: &[u8],
) -> Result<Structure<'a>, Refusal> {
    refusal_1(tolerance)?;
    refusal_2(tables)?;
    let structure = structure::refusals_3_to_10(file)?;
    refusal_11(structure.lines.len(), out_verdicts, out_findings)?;
    Ok(structure)
}
