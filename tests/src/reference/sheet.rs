//! The client's catalogue sheet: its figures over a list of files, and one
//! file more added to any sheet.

use std::array::from_fn;
use std::slice::from_ref;

use super::findings::transaction::FULL;
use super::findings::{of_records, transactions, Transaction};
use super::lent::{refusal_2, Tables, USUAL_TOLERANCE};
use super::numbers::counts;
use super::structure::{self, Structure};
use super::verdicts::verdicts;
use super::{answer, refused, Answer, Counts, Refusal};

/// The files that it takes, refused ones counted.
pub const MOST_FILES: u64 = 4096;

pub const FINDINGS: usize = 64;
pub const VERDICTS: usize = 5;

/// Its numbers, the last of them those by verdict; and its bytes.
pub const NUMBERS: usize = 2 + 3 * 4 + FINDINGS + VERDICTS;
pub const BYTES: usize = 8 * NUMBERS;

/// What a file that passed brings to a sheet.
pub struct Judged {
    counts: Counts,
    /// Of all records, control records too.
    pub sets: Vec<u64>,
    pub verdicts: Vec<u8>,
    /// PR, MR and SR of each transaction, rejected or not.
    pub totals: Vec<[u64; 3]>,
}

/// A file of the list.
pub type Taken = Result<Judged, Refusal>;

/// Checks with a tolerance of its own, which is always allowed: no 1. Nothing
/// is written for each record, so no room for it can be missing: no 11.
pub fn judge(file: &[u8], tables: &Tables) -> Taken {
    refusal_2(tables)?;
    let Structure { lines, classes } = structure::refusals_3_to_10(file)?;
    let transactions = transactions(&lines, &classes, *tables, USUAL_TOLERANCE);
    let sets = of_records(lines.len(), &transactions);
    let total = |(_, transaction): &(usize, Transaction)| transaction.totals();
    Ok(Judged {
        counts: counts(&classes),
        verdicts: verdicts(&classes, &sets),
        totals: transactions.iter().map(total).collect(),
        sets,
    })
}

/// The figures of one right.
#[derive(Clone, Copy, Debug, Default, PartialEq, Eq)]
pub struct Right {
    /// Transactions that miss the full share.
    pub misses: u64,
    /// The largest of each, 0 where there is none.
    pub shortfall: u64,
    pub excess: u64,
    /// The differences from the full share together; short is negative.
    pub differences: i64,
}

impl Right {
    /// Over the transactions' totals of this right. One of 0 has no
    /// difference; the tolerance has no part in this.
    fn of(totals: impl Iterator<Item = u64>) -> Right {
        let missing = totals.filter(|&total| total != FULL && total != 0);
        let differences: Vec<i64> = missing.map(|total| total as i64 - FULL as i64).collect();
        let largest = |of: Option<i64>| of.map_or(0, |of| of.max(0) as u64);
        Right {
            misses: differences.len() as u64,
            shortfall: largest(differences.iter().map(|difference| -difference).max()),
            excess: largest(differences.iter().copied().max()),
            differences: differences.iter().sum(),
        }
    }

    fn with(&self, more: &Right) -> Right {
        Right {
            misses: self.misses.saturating_add(more.misses),
            shortfall: self.shortfall.max(more.shortfall),
            excess: self.excess.max(more.excess),
            differences: self.differences.saturating_add(more.differences),
        }
    }
}

#[derive(Clone, Debug, PartialEq, Eq)]
pub struct Sheet {
    /// Taken, the refused ones among them.
    pub files: u64,
    pub refused: u64,
    /// PR, MR, SR.
    pub rights: [Right; 3],
    /// Records that carry each finding, and that have each verdict.
    pub findings: [u64; FINDINGS],
    pub verdicts: [u64; VERDICTS],
}

impl Sheet {
    /// The figures over all files of a list, which is no longer than a sheet.
    pub fn of_list(files: &[Taken]) -> Sheet {
        let passed = || files.iter().flatten();
        let with = |finding: usize| {
            let sets = passed().flat_map(|file| &file.sets);
            sets.filter(|&set| set >> finding & 1 == 1).count() as u64
        };
        let at = |verdict: usize| {
            let verdicts = passed().flat_map(|file| &file.verdicts);
            verdicts.filter(|&&one| usize::from(one) == verdict).count() as u64
        };
        Sheet {
            files: files.len() as u64,
            refused: files.iter().filter(|file| file.is_err()).count() as u64,
            rights: from_fn(|right| {
                let totals = passed().flat_map(|file| &file.totals);
                Right::of(totals.map(|totals| totals[right]))
            }),
            findings: from_fn(with),
            verdicts: from_fn(at),
        }
    }

    /// The sheet with one file more, figure by figure: its own and the file's.
    /// Where no calls have made it, a sum stops at its largest number, and the
    /// signed one at its least too.
    pub fn with(&self, file: &Taken) -> Sheet {
        let more = Sheet::of_list(from_ref(file));
        Sheet {
            files: self.files.saturating_add(more.files),
            refused: self.refused.saturating_add(more.refused),
            rights: from_fn(|right| self.rights[right].with(&more.rights[right])),
            findings: from_fn(|n| self.findings[n].saturating_add(more.findings[n])),
            verdicts: from_fn(|n| self.verdicts[n].saturating_add(more.verdicts[n])),
        }
    }

    pub fn full(&self) -> bool {
        self.files >= MOST_FILES
    }

    /// The sheet that the first bytes are.
    pub fn of_bytes(bytes: &[u8]) -> Sheet {
        let number = |at: usize| {
            let bytes = &bytes[8 * at..8 * at + 8];
            u64::from_le_bytes(bytes.try_into().expect("eight bytes"))
        };
        Sheet {
            files: number(0),
            refused: number(1),
            rights: from_fn(|right| Right {
                misses: number(2 + 4 * right),
                shortfall: number(3 + 4 * right),
                excess: number(4 + 4 * right),
                differences: number(5 + 4 * right) as i64,
            }),
            findings: from_fn(|finding| number(14 + finding)),
            verdicts: from_fn(|verdict| number(14 + FINDINGS + verdict)),
        }
    }

    /// Its numbers in their order, eight bytes each, least significant first.
    pub fn bytes(&self) -> Vec<u8> {
        let mut numbers = vec![self.files, self.refused];
        for right in self.rights {
            let differences = right.differences as u64;
            numbers.extend([right.misses, right.shortfall, right.excess, differences]);
        }
        numbers.extend(self.findings);
        numbers.extend(self.verdicts);
        numbers.into_iter().flat_map(u64::to_le_bytes).collect()
    }
}

/// Adds a file to a sheet of lent bytes; those beyond it stay. Room for it
/// first, then whether it is full, then the file.
pub fn sheet_add(sheet: &mut [u8], file: &[u8], tables: &Tables) -> Answer {
    let Some(bytes) = sheet.get_mut(..BYTES) else {
        return answer(Err(refused(11, 0)));
    };
    let before = Sheet::of_bytes(bytes);
    if before.full() {
        return answer(Err(refused(12, 0)));
    }
    let file = judge(file, tables);
    bytes.copy_from_slice(&before.with(&file).bytes());
    answer(file.map(|judged| judged.counts))
}
