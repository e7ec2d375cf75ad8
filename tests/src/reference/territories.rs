//! The lent territory table: refusal 13, and which territory holds which.

use super::{refused, Refusal};

pub const MOST_TERRITORIES: usize = 512;

/// The bytes of an entry: four of its code, then two of the position of the
/// group that holds it, least significant first.
pub const ENTRY: usize = 6;
pub const CODE: usize = 4;

/// The position that stands for no group.
pub const NO_GROUP: u16 = 65_535;

pub struct Territory<'a> {
    pub code: &'a [u8],
    /// The position of the group that holds it, where one does.
    pub group: Option<usize>,
}

/// The entries of a table.
pub fn territories(table: &[u8]) -> Vec<Territory<'_>> {
    let entries = table.chunks_exact(ENTRY);
    entries.map(territory).collect()
}

fn territory(entry: &[u8]) -> Territory<'_> {
    let (code, position) = entry.split_at(CODE);
    let group = match u16::from_le_bytes([position[0], position[1]]) {
        NO_GROUP => None,
        position => Some(usize::from(position)),
    };
    Territory { code, group }
}

/// Whole entries and not too many, no code twice, and each group before what it
/// holds.
pub fn refusal_13(table: &[u8]) -> Result<(), Refusal> {
    if !table.len().is_multiple_of(ENTRY) || table.len() / ENTRY > MOST_TERRITORIES {
        return Err(refused(13, 0));
    }
    let territories = territories(table);
    for (at, territory) in territories.iter().enumerate() {
        let earlier = &territories[..at];
        let twice = earlier.iter().any(|other| other.code == territory.code);
        let not_earlier = territory.group.is_some_and(|group| group >= at);
        if twice || not_earlier {
            return Err(refused(13, 0));
        }
    }
    Ok(())
}

/// A territory without members, in which shares are added up.
pub struct Memberless {
    pub position: usize,
    /// The positions under which a claim names it: its own, and those of the
    /// groups that hold it, directly or through others.
    pub named: Vec<usize>,
}

/// The territories that no entry names as its group, in the table's order.
pub fn memberless(territories: &[Territory]) -> Vec<Memberless> {
    let has_members = |at: usize| territories.iter().any(|other| other.group == Some(at));
    let positions = (0..territories.len()).filter(|&at| !has_members(at));
    let memberless = |position| Memberless {
        position,
        named: with_groups(territories, position),
    };
    positions.map(memberless).collect()
}

/// A territory and the groups around it; each stands earlier than what it holds,
/// so that there is an outermost one.
fn with_groups(territories: &[Territory], position: usize) -> Vec<usize> {
    let mut positions = vec![position];
    let mut inner = position;
    while let Some(group) = territories[inner].group {
        positions.push(group);
        inner = group;
    }
    positions
}
