//! Findings 38 to 42: on SWR and OWR.

use super::bit;
use super::publishers::shares;
use super::transaction::FULL;
use crate::reference::field;
use crate::reference::values::{blank, entered};

/// What a writer can be.
pub const DESIGNATIONS: [&[u8; 2]; 9] = [
    b"CA", b"A ", b"C ", b"AR", b"AD", b"SR", b"SA", b"TR", b"PA",
];

pub struct Writer<'a> {
    text: &'a [u8],
    /// PR, MR and SR, 0 for what is no share.
    pub shares: [u64; 3],
}

/// The writer records among a transaction's details.
pub fn of<'a>(details: &[&'a [u8]]) -> Vec<Writer<'a>> {
    let writers = details
        .iter()
        .filter(|text| matches!(&text[..3], b"SWR" | b"OWR"));
    let writer = |text: &&'a [u8]| Writer {
        text,
        shares: shares(text, SHARES).map(|share| share.unwrap_or(0)),
    };
    writers.map(writer).collect()
}

/// Where PR, MR and SR start.
const SHARES: [usize; 3] = [130, 138, 146];

impl<'a> Writer<'a> {
    fn is_swr(&self) -> bool {
        self.text.starts_with(b"SWR")
    }

    pub fn designation(&self) -> &'a [u8] {
        field(self.text, 105, 2)
    }

    fn known_designation(&self) -> bool {
        DESIGNATIONS
            .iter()
            .any(|known| *known == self.designation())
    }

    pub fn set(&self) -> u64 {
        bit(38, self.finding_38())
            | bit(39, self.finding_39())
            | bit(40, self.finding_40())
            | bit(41, self.finding_41())
            | bit(42, self.finding_42())
    }

    /// TR: the submitter's writer without a last name.
    fn finding_38(&self) -> bool {
        self.is_swr() && blank(field(self.text, 29, 45))
    }

    /// TR: the submitter's writer is nothing that a writer can be.
    fn finding_39(&self) -> bool {
        self.is_swr() && !self.known_designation()
    }

    /// FR to spaces: another writer is something else.
    fn finding_40(&self) -> bool {
        !self.is_swr() && entered(self.designation()) && !self.known_designation()
    }

    /// TR: no share, or more than all.
    fn finding_41(&self) -> bool {
        let shares = shares(self.text, SHARES);
        shares
            .iter()
            .any(|share| share.is_none_or(|share| share > FULL))
    }

    /// TR: the submitter's writer without a number.
    fn finding_42(&self) -> bool {
        self.is_swr() && blank(field(self.text, 20, 9))
    }
}
