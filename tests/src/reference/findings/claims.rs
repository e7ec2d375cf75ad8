//! Findings 47 and 48: shares claimed by territory. Only the call that is lent a
//! territory table sets them.

use super::publishers::shares;
use super::transaction::{total, FULL};
use crate::reference::field;
use crate::reference::territories::{Memberless, Territory};

/// Whether a record is a claim.
pub fn is_claim(text: &[u8]) -> bool {
    starts(text).is_some()
}

/// Whether a record begins a party: the claims up to the next such record are
/// its own, of whatever kinds they are.
fn begins_party(text: &[u8]) -> bool {
    matches!(&text[..3], b"SPU" | b"OPU" | b"SWR" | b"OWR")
}

/// Where 001 puts the fields of a claim.
struct Starts {
    shares: [usize; 3],
    mark: usize,
    code: usize,
}

/// None where a record is no claim.
fn starts(text: &[u8]) -> Option<Starts> {
    match &text[..3] {
        // 001, 5.7 and 5.8.
        b"SPT" | b"OPT" => Some(Starts {
            shares: [35, 40, 45],
            mark: 50,
            code: 51,
        }),
        // 001, 5.12 and 5.13.
        b"SWT" | b"OWT" => Some(Starts {
            shares: [29, 34, 39],
            mark: 44,
            code: 45,
        }),
        _ => None,
    }
}

pub struct Claim {
    /// The territory's position in the table, where its code is there.
    territory: Option<usize>,
    /// I for include, E for exclude.
    mark: u8,
    /// PR, MR and SR; none for what isn't five digits.
    shares: [Option<u64>; 3],
}

impl Claim {
    /// The claim that a record is, if it is one.
    pub fn of(text: &[u8], territories: &[Territory]) -> Option<Claim> {
        let starts = starts(text)?;
        let code = field(text, starts.code, 4);
        Some(Claim {
            territory: territories.iter().position(|entry| entry.code == code),
            mark: field(text, starts.mark, 1)[0],
            shares: shares(text, starts.shares),
        })
    }

    /// TR: a territory that the table hasn't, neither include nor exclude, or
    /// something that is no share, even where it would give none.
    pub fn finding_48(&self) -> bool {
        self.territory.is_none()
            || !matches!(self.mark, b'I' | b'E')
            || self.shares.iter().any(Option::is_none)
    }

    /// Whether it counts for a territory: it names it or a group that holds it.
    fn counts(&self, territory: &Memberless) -> bool {
        let names = |named| territory.named.contains(&named);
        !self.finding_48() && self.territory.is_some_and(names)
    }

    /// What it gives of each right; an exclude nothing, whatever its shares.
    fn gives(&self) -> [u64; 3] {
        match self.mark {
            b'I' => self.shares.map(|share| share.unwrap_or(0)),
            _ => [0; 3],
        }
    }
}

/// The claims of each party among a transaction's details; those before any
/// party are nobody's.
pub fn parties(details: &[&[u8]], territories: &[Territory]) -> Vec<Vec<Claim>> {
    let mut parties: Vec<Vec<Claim>> = Vec::new();
    for text in details {
        if begins_party(text) {
            parties.push(Vec::new());
        } else if let (Some(party), Some(claim)) =
            (parties.last_mut(), Claim::of(text, territories))
        {
            party.push(claim);
        }
    }
    parties
}

/// A party's share of each right in a territory: that of its last claim there,
/// nothing without one.
fn share(party: &[Claim], territory: &Memberless) -> [u64; 3] {
    let last = party.iter().rfind(|claim| claim.counts(territory));
    last.map_or([0; 3], Claim::gives)
}

/// T14 and T44, TR on the header where there is one: the first territory in
/// which all parties together collect more than all of some right.
pub fn finding_47(
    parties: &[Vec<Claim>],
    memberless: &[Memberless],
    tolerance: u64,
) -> Option<usize> {
    let over = |territory: &&Memberless| {
        let totals = total(parties.iter().map(|party| share(party, territory)));
        totals.iter().any(|&right| right > FULL + tolerance)
    };
    memberless
        .iter()
        .find(over)
        .map(|territory| territory.position)
}
