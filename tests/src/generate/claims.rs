//! Claims, which are shares by territory, and works that have them: totals near
//! the limit in some territory, and around them what must not matter.

use super::right::{named, number, plain, put, put_bytes};
use super::territories::{entries, Entry};
use super::values::writable;
use super::works::{self, of, Lent, Records};
use super::Random;
use crate::reference::territories::NO_GROUP;

/// The records that are claims, and those that begin a party.
pub const CLAIMS: [&str; 4] = ["SPT", "OPT", "SWT", "OWT"];
pub const PARTIES: [&str; 4] = ["SPU", "OPU", "SWR", "OWR"];

pub fn is_claim(record: &[u8]) -> bool {
    CLAIMS
        .iter()
        .any(|name| record.starts_with(name.as_bytes()))
}

pub fn is_party(record: &[u8]) -> bool {
    PARTIES
        .iter()
        .any(|name| record.starts_with(name.as_bytes()))
}

/// Where PR, MR, SR, mark and code of a claim start.
pub fn starts(claim: &[u8]) -> [usize; 5] {
    match &claim[..3] {
        b"SPT" | b"OPT" => [35, 40, 45, 50, 51],
        _ => [29, 34, 39, 44, 45],
    }
}

/// A claim of this kind.
pub fn claim(name: &str, mark: &str, code: &[u8], shares: [usize; 3]) -> Vec<u8> {
    let mut claim = of(name, &[]);
    let [pr, mr, sr, at_mark, at_code] = starts(&claim);
    for (start, share) in [pr, mr, sr].into_iter().zip(shares) {
        put(&mut claim, start, &format!("{share:05}"));
    }
    put(&mut claim, at_mark, mark);
    put_bytes(&mut claim, at_code, &writable(code.to_vec()));
    claim
}

/// The most claims of a transaction, for the list; where the file is no right
/// one, at least as many.
pub fn most_in(file: &[u8]) -> usize {
    let (mut most, mut claims) = (0, 0);
    for line in file.split(|&byte| byte == b'\n') {
        match line.get(..3) {
            Some(b"NWR" | b"REV") => claims = 0,
            Some(name) if is_claim(name) => claims += 1,
            _ => {}
        }
        most = most.max(claims);
    }
    most
}

/// Shares that are claimed where nothing is aimed at.
const SHARES: [usize; 12] = [
    0, 0, 0, 1, 2_500, 5_000, 5_000, 9_999, 10_000, 10_007, 65_536, 99_999,
];

fn shares(random: &mut Random) -> [usize; 3] {
    // Mostly of one right alone.
    let right = random.below(3);
    let one = random.of(&SHARES);
    [0, 1, 2].map(|at| match at == right || random.one_in(4) {
        true => one,
        false => 0,
    })
}

/// Any code of the table; blank where there is none.
fn code(table: &[Entry], random: &mut Random) -> [u8; 4] {
    match table {
        [] => *b"    ",
        table => random.of(table).0,
    }
}

/// Any claim, mostly a right one.
pub fn any(name: &str, territories: &[u8], random: &mut Random) -> Vec<u8> {
    let code = code(&entries(territories), random);
    let mark = random.of(&["I", "I", "I", "I", "E"]);
    let mut claim = claim(name, mark, &code, shares(random));
    if random.one_in(8) {
        spoil(&mut claim, random);
    }
    claim
}

/// Makes a claim such that it is ignored; seldom it is as right as before.
pub fn spoil(claim: &mut [u8], random: &mut Random) {
    let [pr, mr, sr, mark, code] = starts(claim);
    match random.below(4) {
        0 => put(claim, mark, random.of(&[" ", "i", "e", "X", "J", "0"])),
        1 => {
            let byte = random.text();
            claim[code - 1 + random.below(4)] = byte;
        }
        2 => put(claim, code, random.of(&["    ", "9999", "2136", "0276"])),
        _ => {
            let start = random.of(&[pr, mr, sr]);
            match random.one_in(2) {
                true => put(
                    claim,
                    start,
                    random.of(&["     ", "0000 ", " 5000", "-0001"]),
                ),
                false => claim[start - 1 + random.below(5)] = random.of(b" /:A\xff"),
            }
        }
    }
}

/// The records of a file of such works.
pub fn records(lent: &Lent, random: &mut Random) -> Records {
    let (groups, transactions) = random.of(&[(1, 1), (1, 1), (1, 3), (2, 2), (3, 3)]);
    let mut records = vec![of("HDR", &[(102, "2.2002")])];
    for _ in 0..random.between(1, groups) {
        let kind = random.of(&["NWR", "REV"]);
        records.push(of("GRH", &[(4, kind)]));
        for _ in 0..random.between(1, transactions) {
            let header = match random.one_in(24) {
                true => "REV",
                false => kind,
            };
            let mut work = works::right(header, lent, random);
            add(&mut work, lent, random);
            records.extend(work);
        }
        records.push(of("GRT", &[]));
    }
    records.push(of("TRL", &[]));
    number(&mut records);
    records
}

/// Gives the parties of a work claims in the place of those that it has: such
/// that those of the first so many come to a total near the limit, or any.
fn add(work: &mut Records, lent: &Lent, random: &mut Random) {
    work.retain(|record| !is_claim(record));
    let table = entries(lent.territories);
    let aim = match random.below(8) {
        0 => None,
        _ => Aim::any(&table, random),
    };
    let parties: Vec<usize> = (0..work.len()).filter(|&at| is_party(&work[at])).collect();
    let claiming = random.between(1, parties.len().max(1));
    let mut left = 9_999 + lent.tolerance as usize + random.below(4);
    // From the end, so that the places stay.
    for (place, &at) in parties.iter().enumerate().take(claiming).rev() {
        let share = match place {
            0 => left,
            _ => random.between(0, left),
        };
        left -= share;
        let name = kind(&work[at], random);
        let claims = match &aim {
            Some(aim) => aim.claims(name, share, &table, random),
            None => some(name, lent.territories, random),
        };
        let is_name = |record: &&Vec<u8>| matches!(&record[..3], b"NPN" | b"NWN");
        let names = work[at + 1..].iter().take_while(is_name).count();
        let at = at + 1 + names;
        work.splice(at..at, claims);
    }
    change(work, lent, random);
}

/// Any claims of a party, or none.
fn some(name: &str, territories: &[u8], random: &mut Random) -> Records {
    let number = random.of(&[0, 0, 1, 2, 4]);
    let claim = |_| any(name, territories, random);
    (0..number).map(claim).collect()
}

/// The kind of claim that a party has; sometimes any.
fn kind(party: &[u8], random: &mut Random) -> &'static str {
    if random.one_in(12) {
        return random.of(&CLAIMS);
    }
    match &party[..3] {
        b"SPU" => random.of(&["SPT", "OPT"]),
        b"OPU" => "OPT",
        b"SWR" => "SWT",
        _ => "OWT",
    }
}

/// A territory in which a total is to be near the limit, in one right or more.
struct Aim {
    /// The positions under which it is named: its own first, then its groups'.
    named: Vec<usize>,
    rights: [bool; 3],
}

impl Aim {
    fn any(table: &[Entry], random: &mut Random) -> Option<Aim> {
        let holds = |at: usize| table.iter().any(|&(_, group)| usize::from(group) == at);
        let memberless: Vec<usize> = (0..table.len()).filter(|&at| !holds(at)).collect();
        if memberless.is_empty() {
            return None;
        }
        let mut named = vec![random.of(&memberless)];
        while table[named[named.len() - 1]].1 != NO_GROUP {
            named.push(usize::from(table[named[named.len() - 1]].1));
        }
        let right = random.below(3);
        let rights = [0, 1, 2].map(|at| at == right || random.one_in(8));
        Some(Aim { named, rights })
    }

    /// Claims of a party that come to this share, where nothing is slipped.
    fn claims(&self, name: &str, share: usize, table: &[Entry], random: &mut Random) -> Records {
        let mut claims = Vec::new();
        let inside = |random: &mut Random| &table[random.of(&self.named)].0;
        // Overtaken by the one below.
        for _ in 0..random.of(&[0, 0, 0, 1, 1, 2]) {
            let mark = random.of(&["I", "I", "E"]);
            claims.push(claim(name, mark, inside(random), shares(random)));
        }
        let shares_of = self.rights.map(|aimed| if aimed { share } else { 0 });
        if share > 0 || random.one_in(2) {
            claims.push(claim(name, "I", inside(random), shares_of));
        }
        for _ in 0..random.of(&[0, 0, 0, 1, 1, 2]) {
            let outside: Vec<usize> = (0..table.len())
                .filter(|at| !self.named.contains(at))
                .collect();
            match random.below(12) {
                // Ignored, though it names it.
                0..=4 => {
                    let mut ignored = claim(name, "I", inside(random), shares(random));
                    spoil(&mut ignored, random);
                    claims.push(ignored);
                }
                5 => claims.push(claim(name, "E", inside(random), shares(random))),
                _ if outside.is_empty() => {}
                _ => {
                    let mark = random.of(&["I", "E"]);
                    let share = random.of(&[0, 1, 5_000]);
                    let code = &table[random.of(&outside)].0;
                    claims.push(claim(name, mark, code, [share; 3]));
                }
            }
        }
        claims
    }
}

/// Seldom changes where the claims stand.
fn change(work: &mut Records, lent: &Lent, random: &mut Random) {
    match random.below(12) {
        0 => {
            // Before any party.
            let name = random.of(&CLAIMS);
            work.insert(1, any(name, lent.territories, random));
        }
        1 => {
            let claims: Vec<usize> = (0..work.len()).filter(|&at| is_claim(&work[at])).collect();
            if !claims.is_empty() {
                let claim = work.remove(random.of(&claims));
                let at = random.between(1, work.len());
                work.insert(at, claim);
            }
        }
        2 => {
            // A party more or another record, somewhere.
            let name = random.of(&["SPU", "OPU", "SWR", "OWR", "NPN", "PWR", "ALT", "TER"]);
            let at = random.between(1, work.len());
            work.insert(at, plain(named(name)));
        }
        3 => {
            let at = random.between(1, work.len());
            work.insert(at, any(random.of(&CLAIMS), lent.territories, random));
        }
        _ => {}
    }
}

/// So many entries, of any bytes; most often enough for so many claims.
pub fn list(most: usize, random: &mut Random) -> usize {
    match random.below(16) {
        0 => most.saturating_sub(1),
        1 => random.below(most + 1),
        2 => 0,
        3..=5 => most + random.between(1, 6),
        6 => most + 100,
        _ => most,
    }
}
