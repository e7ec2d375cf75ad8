//! Findings 25 to 37: on SPU and OPU.

use super::bit;
use super::transaction::{FULL, HALF};
use crate::reference::field;
use crate::reference::lent::Tables;
use crate::reference::values::{blank, digits, entered, in_table};

/// What a publisher can be.
pub const KINDS: [&[u8; 2]; 6] = [b"E ", b"AQ", b"AM", b"PA", b"SE", b"ES"];

pub fn known_kind(kind: &[u8]) -> bool {
    KINDS.iter().any(|known| *known == kind)
}

/// A publisher record with what its findings ask of the records before it.
pub struct Publisher<'a> {
    pub text: &'a [u8],
    /// PR, MR and SR, 0 for what is no share.
    pub shares: [u64; 3],
    before: Before,
    /// Whether an E SPU stands before it in its chain.
    e_spu_before: bool,
}

/// The publisher record directly before.
#[derive(Clone, Copy)]
enum Before {
    /// There is none.
    First,
    Numbered(u64),
    WithoutTwoDigits,
}

/// The publisher records among a transaction's details.
pub fn of<'a>(details: &[&'a [u8]]) -> Vec<Publisher<'a>> {
    let mut publishers = Vec::new();
    let mut before = Before::First;
    let mut e_spus = [false; 100];
    for &text in details {
        if !matches!(&text[..3], b"SPU" | b"OPU") {
            continue;
        }
        let shares = shares(text, [116, 124, 132]).map(|share| share.unwrap_or(0));
        let mut publisher = Publisher {
            text,
            shares,
            before,
            e_spu_before: false,
        };
        before = Before::WithoutTwoDigits;
        if let Some(number) = publisher.sequence() {
            before = Before::Numbered(number);
            let e_spu = &mut e_spus[number as usize];
            publisher.e_spu_before = *e_spu;
            *e_spu |= publisher.is_spu() && publisher.kind() == b"E ";
        }
        publishers.push(publisher);
    }
    publishers
}

/// Three share fields' values; none for one that isn't five digits.
pub fn shares(text: &[u8], starts: [usize; 3]) -> [Option<u64>; 3] {
    starts.map(|start| digits(field(text, start, 5)))
}

impl<'a> Publisher<'a> {
    pub fn is_spu(&self) -> bool {
        self.text.starts_with(b"SPU")
    }

    fn is_opu(&self) -> bool {
        self.text.starts_with(b"OPU")
    }

    /// The number of its chain; none without two digits.
    pub fn sequence(&self) -> Option<u64> {
        digits(field(self.text, 20, 2))
    }

    /// The type as it stands.
    fn written_kind(&self) -> &'a [u8] {
        field(self.text, 77, 2)
    }

    /// The type, with the default of 35 in force.
    pub fn kind(&self) -> &'a [u8] {
        match self.written_kind() {
            unknown if self.is_opu() && !known_kind(unknown) => b"E ",
            kind => kind,
        }
    }

    /// Type E or AQ.
    pub fn may_own(&self) -> bool {
        self.kind() == b"E " || self.kind() == b"AQ"
    }

    fn indicator(&self) -> u8 {
        field(self.text, 76, 1)[0]
    }

    fn name(&self) -> &'a [u8] {
        field(self.text, 31, 45)
    }

    pub fn set(&self, tables: &Tables) -> u64 {
        bit(25, self.finding_25())
            | bit(26, self.finding_26())
            | bit(27, self.finding_27())
            | bit(28, self.finding_28())
            | bit(29, self.finding_29())
            | bit(30, self.finding_30())
            | bit(31, self.finding_31())
            | bit(32, self.finding_32())
            | bit(33, self.finding_33())
            | bit(34, self.finding_34())
            | bit(35, self.finding_35())
            | bit(36, self.finding_36(tables))
            | bit(37, self.finding_37())
    }

    /// P1: the sequence numbers begin at 01 and go on by none or one; behind a
    /// record without a number nothing goes on, and 99 is the last.
    fn finding_25(&self) -> bool {
        let Some(number) = self.sequence() else {
            return true;
        };
        match self.before {
            Before::First => number != 1,
            Before::Numbered(before) => number != before && number != before + 1,
            Before::WithoutTwoDigits => true,
        }
    }

    /// P2: the submitter's publisher without a number.
    fn finding_26(&self) -> bool {
        self.is_spu() && blank(field(self.text, 22, 9))
    }

    /// P4: no name, though it is not said to be unknown; of an SPU it cannot
    /// be.
    fn finding_27(&self) -> bool {
        blank(self.name()) && (self.is_spu() || self.indicator() != b'Y')
    }

    /// P5, P6: the submitter's publisher is nothing that a publisher can be.
    fn finding_28(&self) -> bool {
        self.is_spu() && !known_kind(self.written_kind())
    }

    /// P7: the submitter's publisher is said to be unknown, or not.
    fn finding_29(&self) -> bool {
        self.is_spu() && self.indicator() != b' '
    }

    /// No share, or more than a publisher can have of the right.
    fn finding_30(&self) -> bool {
        let wrong = |share: Option<u64>, most: u64| share.is_none_or(|share| share > most);
        let [pr, mr, sr] = shares(self.text, [116, 124, 132]);
        wrong(pr, HALF) || wrong(mr, FULL) || wrong(sr, FULL)
    }

    /// P19: owns, but may not.
    fn finding_31(&self) -> bool {
        self.shares != [0; 3] && !self.may_own()
    }

    /// P32: an acquirer among the SPUs with nobody before it to acquire from.
    fn finding_32(&self) -> bool {
        self.is_spu() && self.kind() == b"AQ" && !self.e_spu_before
    }

    /// P8, FR to N: another publisher's indicator says neither.
    fn finding_33(&self) -> bool {
        self.is_opu() && !b" YN".contains(&self.indicator())
    }

    /// P9, FR to N: said to be unknown, but named.
    fn finding_34(&self) -> bool {
        self.is_opu() && self.indicator() == b'Y' && entered(self.name())
    }

    /// P28, FR to E: another publisher is nothing that a publisher can be.
    fn finding_35(&self) -> bool {
        self.is_opu() && !known_kind(self.written_kind())
    }

    /// FR to spaces: a society that the table hasn't, for any right.
    fn finding_36(&self, tables: &Tables) -> bool {
        [113, 121, 129].into_iter().any(|start| {
            let society = field(self.text, start, 3);
            entered(society) && !in_table(society, tables.societies)
        })
    }

    /// P23, FR to zeros: a tax number with something else than digits.
    fn finding_37(&self) -> bool {
        let tax = field(self.text, 79, 9);
        entered(tax) && digits(tax).is_none()
    }
}
