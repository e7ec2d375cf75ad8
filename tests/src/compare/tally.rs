//! How often each answer, finding and verdict came up.

use std::collections::BTreeMap;

use tests::calls::{Call, Reply, Request};
use tests::reference::first::NO_TRANSACTION;
use tests::reference::sheet::Sheet;

use crate::options::Options;

/// An answer of a call: a refusal, 0 for passed, or too long for the listing.
pub const TOO_LONG: u64 = 99;

/// That of `record` for an unknown type; 0 for a known one.
const NO_LENGTH: u64 = 98;

/// Those of `first`, and of `claims` for what is over, besides 0, transaction 0:
/// none, a later one of the first group, and one of a later group.
const NONE: u64 = 97;
const LATER: u64 = 96;
const LATER_GROUP: u64 = 95;

const FINDINGS: usize = 49;

/// Those that only a call with a territory table sets.
const OF_CLAIMS: std::ops::Range<usize> = 47..49;

#[derive(Default)]
pub struct Tally {
    answers: BTreeMap<(Call, u64), u64>,
    /// For each finding: records that have it, files in which one has it, and
    /// files in which it is the only one.
    findings: Vec<[u64; 3]>,
    /// Records with each verdict.
    verdicts: [u64; 5],
    /// Files that were compared.
    pub files: u64,
    /// Answers of `first` that were compared with the library's own findings.
    pub read_off: u64,
    /// For each right, files that have added to the transactions that miss the
    /// full share, to the largest shortfall, and to the largest excess.
    rights: [[u64; 3]; 3],
    /// Files added to a carried sheet, and lists in another order.
    pub carried: u64,
    pub orders: u64,
}

impl Tally {
    pub fn new() -> Tally {
        Tally {
            findings: vec![[0; 3]; FINDINGS],
            ..Tally::default()
        }
    }

    pub fn answer(&mut self, call: Call, answer: u64) {
        *self.answers.entry((call, answer)).or_default() += 1;
    }

    /// Counts what the reference answers.
    pub fn reply(&mut self, request: &Request, reply: &Reply) {
        let call = request.call;
        if call == Call::Bits {
            return self.answer(call, 0);
        }
        if call == Call::Record {
            // Files that have such a record.
            for (answer, known) in [(0, true), (NO_LENGTH, false)] {
                if reply.lengths().any(|length| (length > 0) == known) {
                    self.answer(call, answer);
                }
            }
            return;
        }
        if call == Call::First && reply.refusal() == 0 {
            return self.answer(call, answer_of_first(&request.file, reply.packed));
        }
        match (call, reply.refusal()) {
            (Call::Claims, 0) => {
                self.answer(call, answer_of_first(&request.file, reply.over()[0]));
            }
            (_, refusal) => self.answer(call, refusal),
        }
        if call == Call::Sheet && reply.refusal() == 0 {
            return self.sheet(&request.buffers[0], &reply.buffers[0]);
        }
        if !call.judges() || reply.refusal() != 0 {
            return;
        }
        let mut in_file = 0;
        for record in 0..reply.packed as usize {
            let set = reply.set(record);
            in_file |= set;
            self.verdicts[usize::from(reply.buffers[0][record])] += 1;
            for (finding, counts) in self.findings.iter_mut().enumerate() {
                counts[0] += set >> finding & 1;
            }
        }
        for (finding, counts) in self.findings.iter_mut().enumerate() {
            counts[1] += in_file >> finding & 1;
            counts[2] += u64::from(in_file == 1 << finding);
        }
    }

    /// Counts which figures of the rights a file has raised.
    fn sheet(&mut self, before: &[u8], after: &[u8]) {
        let [before, after] = [before, after].map(|sheet| Sheet::of_bytes(sheet).rights);
        for (right, counts) in self.rights.iter_mut().enumerate() {
            let (before, after) = (before[right], after[right]);
            counts[0] += u64::from(after.misses > before.misses);
            counts[1] += u64::from(after.shortfall > before.shortfall);
            counts[2] += u64::from(after.excess > before.excess);
        }
    }

    pub fn add(&mut self, other: &Tally) {
        for (&key, number) in &other.answers {
            *self.answers.entry(key).or_default() += number;
        }
        for (mine, others) in self.findings.iter_mut().zip(&other.findings) {
            for (count, more) in mine.iter_mut().zip(others) {
                *count += more;
            }
        }
        for (count, more) in self.verdicts.iter_mut().zip(other.verdicts) {
            *count += more;
        }
        for (mine, others) in self.rights.iter_mut().zip(&other.rights) {
            for (count, more) in mine.iter_mut().zip(others) {
                *count += more;
            }
        }
        self.files += other.files;
        self.read_off += other.read_off;
        self.carried += other.carried;
        self.orders += other.orders;
    }

    /// Prints the numbers; false where one is less than it should be.
    pub fn show(&self, options: &Options) -> bool {
        let mut enough = true;
        let mut line = |words: &str, numbers: &[u64], least: u64| {
            let least = if options.with_least() { least } else { 0 };
            let numbers_text: String = numbers.iter().map(|n| format!(" {n:8}")).collect();
            let seldom = numbers[0] < least;
            if numbers[0] > 0 || seldom {
                let note = if seldom { "  too seldom" } else { "" };
                println!("{words:21}{numbers_text} {least:9}{note}");
            }
            enough &= !seldom;
        };
        println!("call      answer          files  at least");
        for call in Call::ALL {
            if !options.asked(call) {
                continue;
            }
            // Refusals in their order, then passed.
            let others = [TOO_LONG, NO_LENGTH, NONE, 0, LATER, LATER_GROUP];
            for answer in (1..=14).chain(others) {
                let number = self.answers.get(&(call, answer)).copied().unwrap_or(0);
                let words = match answer {
                    0 if call == Call::Record => "length".to_string(),
                    0 if matches!(call, Call::First | Call::Claims) => "at 0".to_string(),
                    NONE => "none".to_string(),
                    LATER => "later".to_string(),
                    LATER_GROUP => "later group".to_string(),
                    0 => "passed".to_string(),
                    NO_LENGTH => "no length".to_string(),
                    TOO_LONG => "too long".to_string(),
                    refusal => format!("refused {refusal}"),
                };
                let words = format!("{:9} {words}", call.name());
                line(&words, &[number], least_answer(call, answer));
            }
        }
        if options.asked(Call::First) {
            let both = options.asked(Call::Check) && options.asked(Call::Within);
            let least = if both { 8000 } else { 0 };
            line("first     as findings", &[self.read_off], least);
        }
        if options.asked(Call::Sheet) {
            for (right, counts) in ["PR", "MR", "SR"].iter().zip(self.rights) {
                for (figure, &files) in ["misses", "short", "excess"].iter().zip(&counts) {
                    line(&format!("sheet     {right} {figure}"), &[files], 500);
                }
            }
            line("sheet     as verdicts", &[self.carried], 15_000);
            line("sheet     other order", &[self.orders], 8);
        }
        if !Call::ALL
            .iter()
            .any(|call| call.judges() && options.asked(*call))
        {
            return enough;
        }
        let both = options.asked(Call::Check) && options.asked(Call::Within);
        let least = |number: u64| if both { number } else { 0 };
        println!("\nfinding                files    alone  records  at least");
        for (finding, &[records, files, alone]) in self.findings.iter().enumerate() {
            let least = match OF_CLAIMS.contains(&finding) {
                true if options.asked(Call::Claims) => 500,
                true => 0,
                false => least(200),
            };
            line(&finding.to_string(), &[files, alone, records], least);
        }
        println!("\nverdict              records  at least");
        for (verdict, &records) in self.verdicts.iter().enumerate() {
            line(&verdict.to_string(), &[records], least(500));
        }
        println!();
        enough
    }
}

/// Which of its answers `first` gave for a file that passed, or `claims` for the
/// transaction that is over.
fn answer_of_first(file: &[u8], transaction: u64) -> u64 {
    let names = file.split(|&byte| byte == b'\n').map(|line| &line[..3]);
    let first_group = names.take_while(|name| name != b"GRT");
    let headers = first_group.filter(|name| matches!(*name, b"NWR" | b"REV"));
    match transaction {
        NO_TRANSACTION => NONE,
        0 => 0,
        _ if transaction < headers.count() as u64 => LATER,
        _ => LATER_GROUP,
    }
}

/// How many files must have had an answer in a default run.
fn least_answer(call: Call, answer: u64) -> u64 {
    match (call, answer) {
        (Call::Listing, 0) => 50,
        (Call::Listing, 4 | 6 | 7) => 3,
        (Call::Listing, TOO_LONG) => 3,
        (Call::Listing, _) => 0,
        (Call::Bits, 0) => 500,
        (Call::Bits, _) | (_, TOO_LONG) => 0,
        (Call::Record, 0) => 15_000,
        (Call::Record, NO_LENGTH) => 1000,
        (Call::Record, _) | (_, NO_LENGTH) => 0,
        (Call::First | Call::Claims, 0 | NONE) => 500,
        (Call::First, LATER | LATER_GROUP) => 500,
        (Call::Claims, LATER | LATER_GROUP) => 100,
        (_, NONE | LATER | LATER_GROUP) => 0,
        (Call::Within | Call::First | Call::Claims, 1) => 200,
        (_, 1) => 0,
        (Call::Check | Call::Within | Call::First | Call::Sheet | Call::Claims, 2) => 200,
        (_, 2) => 0,
        (Call::Within | Call::First | Call::Sheet | Call::Number | Call::Claims, 3 | 5) => 1,
        (_, 3 | 5) => 0,
        (Call::Counted, 0 | 4 | 6 | 7 | 10 | 11) => 50,
        (_, 0 | 4 | 6) => 300,
        (_, 7) => 200,
        (Call::Number | Call::Counted, 8 | 9) => 0,
        (Call::Number, 10 | 11) => 200,
        (_, 8..=10) => 200,
        (Call::Check | Call::Within | Call::Sheet | Call::Claims, 11) => 200,
        (Call::Sheet, 12) => 200,
        (Call::Claims, 13 | 14) => 300,
        _ => 0,
    }
}
