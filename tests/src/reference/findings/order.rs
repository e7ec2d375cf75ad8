//! Finding 8: the order of the details.

use super::Transaction;

/// A stage: its leader, then the bracketed types in their order; those of one
/// part stand mixed.
struct Stage {
    leader: &'static [u8; 3],
    parts: &'static [&'static [&'static [u8; 3]]],
}

const fn stage(leader: &'static [u8; 3], parts: &'static [&'static [&'static [u8; 3]]]) -> Stage {
    Stage { leader, parts }
}

const STAGES: [Stage; 15] = [
    stage(b"SPU", &[&[b"NPN"], &[b"SPT", b"OPT"]]),
    stage(b"OPU", &[&[b"NPN"], &[b"OPT"]]),
    stage(b"SWR", &[&[b"NWN"], &[b"SWT"], &[b"PWR"]]),
    stage(b"OWR", &[&[b"NWN"], &[b"OWT"], &[b"PWR"]]),
    stage(b"ALT", &[]),
    stage(b"NAT", &[]),
    stage(b"EWT", &[&[b"NET"], &[b"NOW"]]),
    stage(b"VER", &[&[b"NVT"], &[b"NOW"]]),
    stage(b"PER", &[&[b"NPR"]]),
    stage(b"REC", &[]),
    stage(b"ORN", &[]),
    stage(b"INS", &[&[b"IND"]]),
    stage(b"COM", &[&[b"NCT"], &[b"NOW"]]),
    stage(b"ARI", &[]),
    stage(b"XRF", &[]),
];

/// These need no leader before them.
const BEGINNERS: [&[u8]; 2] = [b"NPR", b"IND"];

/// Those of finding 24 are as if not there.
pub const SKIPPED: [&[u8]; 4] = [b"TER", b"IPA", b"NPA", b"MSG"];

/// How far the order has come: a stage, and within it 0 for the leader, 1 for
/// the first part, and so on.
type Place = (usize, usize);

/// The place of a part's type in a stage.
fn part(stage: usize, name: &[u8]) -> Option<usize> {
    let parts = STAGES[stage].parts;
    let found = parts
        .iter()
        .position(|part| part.iter().any(|one| *one == name));
    found.map(|part| part + 1)
}

/// Where a record of this type takes the order; none where it goes back or
/// lacks its leader.
fn step(from: Option<Place>, name: &[u8]) -> Option<Place> {
    if let Some(stage) = STAGES.iter().position(|stage| stage.leader == name) {
        // Behind it the bracketed types begin anew.
        let forward = from.is_none_or(|(before, _)| stage >= before);
        return forward.then_some((stage, 0));
    }
    if let Some((stage, before)) = from {
        if let Some(part) = part(stage, name) {
            return (part >= before).then_some((stage, part));
        }
    }
    if BEGINNERS.contains(&name) {
        let stage = (0..STAGES.len()).find(|&stage| part(stage, name).is_some())?;
        let forward = from.is_none_or(|(before, _)| stage > before);
        return forward.then_some((stage, 1));
    }
    None
}

/// T43: a record out of this order.
pub fn finding_8(transaction: &Transaction) -> bool {
    let mut place = None;
    for detail in &transaction.details {
        let name = &detail[..3];
        if SKIPPED.contains(&name) {
            continue;
        }
        match step(place, name) {
            Some(next) => place = Some(next),
            None => return true,
        }
    }
    false
}
