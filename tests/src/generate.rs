//! Made files. A file is a pure function of its seed: the seed chooses the
//! kind, and seed and kind the bytes.

pub mod boundary;
pub mod changes;
pub mod claims;
pub mod damage;
pub mod each;
pub mod lent;
pub mod right;
pub mod sheets;
pub mod territories;
pub mod values;
pub mod works;

use crate::calls::{two_buffers, Call, Guard, Request};
use crate::reference::claims::{ENTRY, OVER};
use crate::reference::lent::{LARGEST_TOLERANCE, SHORT_TOLERANCE, USUAL_TOLERANCE};
use crate::reference::sheet::BYTES;
use damage::{Damage, Hand};
use works::Lent;

/// A small generator of random numbers (splitmix64).
pub struct Random(u64);

impl Random {
    pub fn new(seed: u64) -> Random {
        Random(seed)
    }

    pub fn draw(&mut self) -> u64 {
        self.0 = self.0.wrapping_add(0x9E37_79B9_7F4A_7C15);
        let mut z = self.0;
        z = (z ^ (z >> 30)).wrapping_mul(0xBF58_476D_1CE4_E5B9);
        z = (z ^ (z >> 27)).wrapping_mul(0x94D0_49BB_1331_11EB);
        z ^ (z >> 31)
    }

    /// A number from 0 to `limit` minus 1.
    pub fn below(&mut self, limit: usize) -> usize {
        ((u128::from(self.draw()) * limit as u128) >> 64) as usize
    }

    /// A number from `low` to `high`, both possible.
    pub fn between(&mut self, low: usize, high: usize) -> usize {
        low + self.below(high - low + 1)
    }

    pub fn one_in(&mut self, times: usize) -> bool {
        self.below(times) == 0
    }

    pub fn of<T: Copy>(&mut self, list: &[T]) -> T {
        list[self.below(list.len())]
    }

    pub fn byte(&mut self) -> u8 {
        self.below(256) as u8
    }

    /// A byte that may stand in a record.
    pub fn text(&mut self) -> u8 {
        self.between(32, 255) as u8
    }

    /// A byte that may not; CR and LF more often than the others.
    pub fn control(&mut self) -> u8 {
        match self.below(6) {
            0 => b'\r',
            1 => b'\n',
            2 => self.of(&[0, 9, 26, 27, 31]),
            _ => self.below(32) as u8,
        }
    }

    /// A buffer's bytes before a call.
    pub fn pattern(&mut self, length: usize) -> Vec<u8> {
        let mut bytes = Vec::with_capacity(length + 8);
        while bytes.len() < length {
            bytes.extend_from_slice(&self.draw().to_le_bytes());
        }
        bytes.truncate(length);
        bytes
    }
}

/// A made file with all that is lent with it.
#[derive(Clone)]
pub struct Case {
    pub seed: u64,
    pub kind: String,
    pub file: Vec<u8>,
    pub tables: [Vec<u8>; 3],
    pub territories: Vec<u8>,
    pub tolerance: u64,
    /// The buffers as they are before the call: those of the check, those that
    /// it has besides where territories are lent, and the one of numbering. The
    /// list of claims is its entries' bytes.
    pub verdicts: Vec<u8>,
    pub findings: Vec<u8>,
    pub claims: Vec<u8>,
    pub over: Vec<u8>,
    pub out: Vec<u8>,
    /// The set whose number and lowest are asked.
    pub set: u64,
    /// The records whose types' lengths are asked, where they are not the
    /// file's.
    pub records: Vec<Vec<u8>>,
    /// A sheet of its own, as it is before the call.
    pub sheet: Vec<u8>,
    /// The seeds of the files that one sheet is carried over, in this order;
    /// such a case has no file of its own.
    pub list: Vec<u64>,
    /// What is to be compared.
    pub calls: Vec<Call>,
}

impl Case {
    /// A case with the usual tables, the largest tolerance, buffers and a list
    /// that are just long enough and a fresh sheet.
    pub fn new(seed: u64, kind: String, file: Vec<u8>, calls: &[Call]) -> Case {
        let mut random = Random::new(seed);
        let mut calls = calls.to_vec();
        // Of every file, one without a byte among them.
        if calls.iter().any(|call| call.takes_a_file()) {
            calls.push(Call::First);
        }
        if !file.is_empty() {
            calls.push(Call::Record);
        }
        // Nothing for what is not asked.
        let asked = |some: &[Call]| calls.iter().any(|call| some.contains(call));
        let records = match asked(&[Call::Check, Call::Within, Call::Claims]) {
            true => records_in(&file),
            false => 0,
        };
        let (entries, over) = match asked(&[Call::Claims]) {
            true => (claims::most_in(&file), OVER),
            false => (0, 0),
        };
        let numbered = match asked(&[Call::Number, Call::Counted]) {
            true => file.len(),
            false => 0,
        };
        Case {
            seed,
            kind,
            tables: lent::usual(),
            territories: territories::usual(),
            tolerance: LARGEST_TOLERANCE,
            verdicts: random.pattern(records),
            findings: random.pattern(8 * records),
            claims: random.pattern(ENTRY * entries),
            over: random.pattern(over),
            out: random.pattern(numbered),
            set: random.draw(),
            records: Vec::new(),
            sheet: vec![0; BYTES],
            list: Vec::new(),
            file,
            calls,
        }
    }

    /// Whether it is one of a file; such a file goes into sheets.
    pub fn lends_a_file(&self) -> bool {
        self.list.is_empty() && self.calls.iter().any(|call| call.takes_a_file())
    }

    /// The tolerance that a call has: some their own, the check in its longer
    /// form the one that is lent, and `first` that of the check beside it.
    pub fn tolerance_of(&self, call: Call) -> Option<u64> {
        match call {
            Call::Check => Some(SHORT_TOLERANCE),
            Call::Within | Call::Claims => Some(self.tolerance),
            Call::First => Some(of_checks(&self.calls, self.tolerance)),
            Call::Sheet | Call::Listing => Some(USUAL_TOLERANCE),
            _ => None,
        }
    }

    /// What a call is asked.
    pub fn request(&self, call: Call, guard: Guard) -> Request {
        if call == Call::Record {
            let made: Vec<_> = self.records.iter().map(Vec::as_slice).collect();
            return match self.records.is_empty() {
                true => Request::of_records(&texts(&self.file), guard),
                false => Request::of_records(&made, guard),
            };
        }
        let mut request = Request {
            call,
            guard,
            number: 0,
            file: Vec::new(),
            tables: Default::default(),
            territories: Vec::new(),
            buffers: Default::default(),
        };
        if call == Call::Bits {
            request.number = self.set;
            return request;
        }
        request.file = self.file.clone();
        // The other calls have theirs themselves, or none.
        let lent = matches!(call, Call::Within | Call::Claims | Call::First);
        if let (true, Some(tolerance)) = (lent, self.tolerance_of(call)) {
            request.number = tolerance;
        }
        match call {
            Call::Check | Call::Within => {
                request.tables = self.tables.clone();
                request.buffers = two_buffers(self.verdicts.clone(), self.findings.clone());
            }
            Call::Claims => {
                request.tables = self.tables.clone();
                request.territories = self.territories.clone();
                let buffers = [&self.verdicts, &self.findings, &self.claims, &self.over];
                request.buffers = buffers.map(Vec::clone);
            }
            Call::First => request.tables = self.tables.clone(),
            Call::Sheet => {
                request.tables = self.tables.clone();
                request.buffers[0] = self.sheet.clone();
            }
            Call::Number | Call::Counted => request.buffers[0] = self.out.clone(),
            _ => {}
        }
        request
    }

    /// What asks for the file to be added to this sheet.
    pub fn added_to(&self, sheet: Vec<u8>, guard: Guard) -> Request {
        let mut request = self.request(Call::Sheet, guard);
        request.buffers[0] = sheet;
        request
    }
}

/// The tolerance of the check among these calls; where both forms are, the one
/// that is lent, since it may be any.
fn of_checks(calls: &[Call], lent: u64) -> u64 {
    match calls.contains(&Call::Check) && !calls.contains(&Call::Within) {
        true => SHORT_TOLERANCE,
        false => lent,
    }
}

/// How many lines a file has.
fn records_in(file: &[u8]) -> usize {
    file.windows(2).filter(|pair| pair == b"\r\n").count()
}

/// A file's records, and what stands after the last pair.
fn texts(file: &[u8]) -> Vec<&[u8]> {
    let (mut texts, mut left) = (Vec::new(), file);
    while let Some(end) = left.windows(2).position(|pair| pair == b"\r\n") {
        texts.push(&left[..end]);
        left = &left[end + 2..];
    }
    if !left.is_empty() {
        texts.push(left);
    }
    texts
}

/// Smaller seeds are numbers of files that are made once each.
const FIRST_SEED: u64 = 1 << 24;

/// The seeds of a run of so many files; runs are numbered below 2^32. From
/// `FILES_WITH_ONCE` on, the files that are made once are among them: the
/// small ones first, since a difference is easiest to see in them, the large
/// ones last.
pub fn seeds(run: u64, files: u64) -> Vec<u64> {
    let first = FIRST_SEED * (run + 1);
    let at_random = |number: u64| first..first + number;
    if files < FILES_WITH_ONCE {
        return at_random(files).collect();
    }
    let (small, large) = (each::number(), limits());
    (each::FIRST..each::FIRST + small)
        .chain(at_random(files - small - large.len() as u64))
        .chain(large)
        .collect()
}

/// The seeds of a run of so few files that it cannot have all those that are
/// made once: half of them such ones, from all over, but no large ones.
pub fn spread(run: u64, files: u64) -> Vec<u64> {
    let each = files / 2;
    let place = |number: u64| each::FIRST + number * each::number() / each.max(1);
    let mut seeds: Vec<u64> = (0..each).map(place).collect();
    seeds.extend(self::seeds(run, (files - each).min(FILES_WITH_ONCE - 1)));
    seeds
}

/// The seeds of the files at the limits.
pub fn limits() -> Vec<u64> {
    (0..boundary::number()).collect()
}

/// Shorter runs have no files that are made once.
pub const FILES_WITH_ONCE: u64 = 10_000;

/// The file of this seed; none where it is a number that no file has.
pub fn case(seed: u64) -> Option<Case> {
    match seed {
        0..each::FIRST => return boundary::case(seed),
        each::FIRST..FIRST_SEED => return each::case(seed),
        _ => {}
    }
    let kind = kind(seed);
    let mut random = Random::new(seed);
    let tables = lent::tables(&mut random);
    let territories = territories::any(&mut random);
    let tolerance = lent::tolerance(&mut random);
    // Before the file, which is made for the tolerance of its check.
    let checks = checks(&kind, &mut random);
    let lent = Lent {
        tables: &tables,
        territories: &territories,
        tolerance: of_checks(checks, tolerance),
    };
    let file = file(&kind, &lent, &mut random);
    let calls = calls(checks, &kind, &file, &mut random);
    let mut case = Case::new(seed, kind.name(), file, &calls);
    case.tables = tables;
    case.territories = territories;
    case.tolerance = tolerance;
    if random.one_in(32) {
        case.tolerance = lent::too_large(&mut random);
    }
    if random.one_in(20) {
        lent::spoil(&mut case.tables, &mut random);
    }
    if random.one_in(20) {
        territories::spoil(&mut case.territories, &mut random);
    }
    let entries = claims::list(claims::most_in(&case.file), &mut random);
    case.claims = random.pattern(ENTRY * entries);
    let records = records_in(&case.file);
    for (buffer, enough, too_short) in [
        (&mut case.verdicts, records, 4),
        (&mut case.findings, 8 * records, 4),
        (&mut case.over, OVER, 3),
        (&mut case.out, case.file.len(), 8),
    ] {
        let length = lent::length(enough, too_short, &mut random);
        *buffer = random.pattern(length);
    }
    // Into a sheet that is carried over, each file goes besides.
    if random.one_in(8) {
        case.sheet = sheets::any(&mut random);
        case.calls.push(Call::Sheet);
    }
    Some(case)
}

/// The forms of the check that are compared for a file: mostly one of them. Of
/// both, the answers are the same where no tolerance is lent, and may be others
/// where one is. Claims are made for the one that is lent.
fn checks(kind: &Kind, random: &mut Random) -> &'static [Call] {
    if matches!(kind, Kind::Claims) {
        return &[Call::Within];
    }
    match random.below(16) {
        0..=6 => &[Call::Check],
        7..=13 => &[Call::Within],
        _ => &[Call::Check, Call::Within],
    }
}

/// The calls that are compared for a file; not all of them for each.
fn calls(checks: &[Call], kind: &Kind, file: &[u8], random: &mut Random) -> Vec<Call> {
    let claims = matches!(kind, Kind::Claims);
    let judged = claims || matches!(kind, Kind::Works | Kind::Late | Kind::Right);
    let mut calls = checks.to_vec();
    for (call, times) in [
        (Call::Claims, if claims { 1 } else { 2 }),
        (Call::Number, if judged { 6 } else { 2 }),
        (Call::Bits, 12),
        (Call::Structure, if judged { 8 } else { 2 }),
        (Call::Counted, if judged { 12 } else { 4 }),
    ] {
        if random.one_in(times) {
            calls.push(call);
        }
    }
    // A program is started for it, which takes long.
    if file.len() < 70_000 && random.one_in(100) {
        calls.push(Call::Listing);
    }
    calls
}

/// How a file is made.
pub enum Kind {
    /// Works with few findings.
    Works,
    /// Works of several groups, of which only late ones are rejected.
    Late,
    /// Works with shares by territory.
    Claims,
    /// Any types and any text.
    Right,
    /// Right but for its number positions.
    Unnumbered,
    Damaged(Vec<&'static Damage>),
}

impl Kind {
    pub fn name(&self) -> String {
        match self {
            Kind::Works => "works".to_string(),
            Kind::Late => "late".to_string(),
            Kind::Claims => "claims".to_string(),
            Kind::Right => "right".to_string(),
            Kind::Unnumbered => "right but for its numbers".to_string(),
            Kind::Damaged(damages) => {
                let names: Vec<_> = damages.iter().map(|d| d.name.as_str()).collect();
                names.join(" + ")
            }
        }
    }
}

/// The kind that a seed chooses.
pub fn kind(seed: u64) -> Kind {
    // Not the same numbers as the file's own.
    let mut random = Random::new(seed ^ 0x6B69_6E64_6B69_6E64);
    let damages = match random.below(100) {
        0..=46 => return Kind::Works,
        47..=52 => return Kind::Claims,
        53..=59 => return Kind::Late,
        60..=64 => return Kind::Right,
        65..=68 => return Kind::Unnumbered,
        69..=83 => 1,
        // Several, since the order of the refusals matters.
        _ => random.between(2, 4),
    };
    Kind::Damaged((0..damages).map(|_| damage::choose(&mut random)).collect())
}

/// The file of a kind.
pub fn file(kind: &Kind, lent: &Lent, random: &mut Random) -> Vec<u8> {
    let works = match kind {
        Kind::Works | Kind::Late | Kind::Claims => true,
        Kind::Right => false,
        Kind::Unnumbered | Kind::Damaged(_) => random.one_in(2),
    };
    let mut records = match (kind, works) {
        (Kind::Late, _) => works::late(lent, random),
        (Kind::Claims, _) => claims::records(lent, random),
        (_, true) => works::records(lent, random),
        (_, false) => right::records(random),
    };
    match kind {
        Kind::Works | Kind::Late | Kind::Claims | Kind::Right => join(&records),
        Kind::Unnumbered => {
            damage::unnumber(&mut records, random);
            join(&records)
        }
        Kind::Damaged(damages) => {
            // Numbers while the records stand in their places, then the
            // places, then the records' form, the lines last.
            let mut damages = damages.clone();
            damages.sort_by_key(|damage| std::cmp::Reverse(damage.family));
            for damage in &damages {
                damage.to_records(&mut records, random);
            }
            let mut file = join(&records);
            for damage in &damages {
                if let Hand::Bytes(hand) = &damage.hand {
                    hand(&mut file, random);
                }
            }
            file
        }
    }
}

/// The records with a CR LF after each.
pub fn join(records: &[Vec<u8>]) -> Vec<u8> {
    let mut file = Vec::with_capacity(records.iter().map(|r| r.len() + 2).sum());
    for record in records {
        file.extend_from_slice(record);
        file.extend_from_slice(b"\r\n");
    }
    file
}

#[cfg(test)]
mod tests;
