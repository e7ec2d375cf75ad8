//! The calls that are compared, as requests to a driver and its replies.
//!
//! All numbers little-endian. Every request has the same form: letter of the
//! call, guard (a byte), a u64 (the tolerance, or a set of findings), the u32
//! lengths of five lent parts (file, languages, societies, categories,
//! territories) and of four buffers (verdicts, findings, the list of claims,
//! `over`), then the parts and the buffers as they are before the call. A sheet
//! or a numbered file is the first buffer. What a call doesn't take has length 0.
//! Reply: three u64, a byte that is 1 where a lent part was changed, and the
//! buffers as they are after the call.
//!
//! `record` is asked of many records at once, which the driver lends one by one:
//! they stand in the file's place, one directly after the other, their u32
//! lengths in that of the languages, and a u32 for each is put into the first
//! buffer.

use std::io::{self, Read, Write};

use crate::reference::claims::{Room, OVER};
use crate::reference::first::NO_TRANSACTION;
use crate::reference::{self, findings, Answer, Tables};

#[derive(Clone, Copy, Debug, PartialEq, Eq, PartialOrd, Ord)]
pub enum Call {
    /// The check in its short form, without tolerance.
    Check,
    /// The check with a tolerance that is lent.
    Within,
    /// The check with a tolerance, a territory table and a list of claims.
    Claims,
    /// Numbering.
    Number,
    /// Number and lowest of a set of findings.
    Bits,
    /// The length that a record's type has.
    Record,
    /// The first transaction with a TR or GR finding of its own.
    First,
    /// A file added to a sheet.
    Sheet,
    /// Refusals 3 to 10 alone, with the numbers of groups and transactions.
    Structure,
    /// Numbering, with the numbers of groups and transactions.
    Counted,
    /// The listing program.
    Listing,
}

/// Who answers a call.
#[derive(Clone, Copy, Debug, PartialEq, Eq)]
pub enum Program {
    Driver,
    Probe,
    Listing,
}

impl Call {
    pub const ALL: [Call; 11] = [
        Call::Check,
        Call::Within,
        Call::Claims,
        Call::Number,
        Call::Bits,
        Call::Record,
        Call::First,
        Call::Sheet,
        Call::Structure,
        Call::Counted,
        Call::Listing,
    ];

    pub fn name(self) -> &'static str {
        match self {
            Call::Check => "check",
            Call::Within => "within",
            Call::Claims => "claims",
            Call::Number => "number",
            Call::Bits => "bits",
            Call::Record => "record",
            Call::First => "first",
            Call::Sheet => "sheet",
            Call::Structure => "structure",
            Call::Counted => "counted",
            Call::Listing => "listing",
        }
    }

    pub fn program(self) -> Program {
        match self {
            Call::Structure | Call::Counted => Program::Probe,
            Call::Listing => Program::Listing,
            _ => Program::Driver,
        }
    }

    /// Each its first letter or one that is heard in its name; the listing is no
    /// request.
    fn letter(self) -> u8 {
        match self {
            Call::Check => b'c',
            Call::Within => b'w',
            Call::Claims => b'm',
            Call::Number => b'n',
            Call::Bits => b'b',
            Call::Record => b'r',
            Call::First => b'f',
            Call::Sheet => b'h',
            Call::Structure => b's',
            Call::Counted => b'k',
            Call::Listing => b'l',
        }
    }

    fn of_letter(letter: u8) -> Option<Call> {
        Call::ALL.into_iter().find(|call| call.letter() == letter)
    }

    /// Whether a file is lent to it, or its input is one.
    pub fn takes_a_file(self) -> bool {
        !matches!(self, Call::Bits | Call::Record)
    }

    /// Whether it is the check in one of the forms without a territory table.
    pub fn is_check(self) -> bool {
        matches!(self, Call::Check | Call::Within)
    }

    /// Whether it judges records: the check in any form.
    pub fn judges(self) -> bool {
        self.is_check() || self == Call::Claims
    }
}

/// Where a driver puts what it lends.
#[derive(Clone, Copy, Debug, Default, PartialEq, Eq)]
pub enum Guard {
    /// Anywhere.
    #[default]
    None,
    /// The end of each part and buffer lies directly before a page that can
    /// neither be read nor written.
    After,
    /// The begin lies directly after such a page.
    Before,
}

impl Guard {
    const ALL: [Guard; 3] = [Guard::None, Guard::After, Guard::Before];
}

/// Verdicts and findings, then the list of claims and `over`; or the output of
/// numbering or the sheet, and nothing.
pub type Buffers = [Vec<u8>; 4];

/// Those of the calls that have no more than two.
pub fn two_buffers(first: Vec<u8>, second: Vec<u8>) -> Buffers {
    [first, second, Vec::new(), Vec::new()]
}

/// What is asked.
#[derive(Clone, Debug)]
pub struct Request {
    pub call: Call,
    pub guard: Guard,
    /// The tolerance, or the set.
    pub number: u64,
    pub file: Vec<u8>,
    /// Languages, societies, categories.
    pub tables: [Vec<u8>; 3],
    pub territories: Vec<u8>,
    pub buffers: Buffers,
}

impl Request {
    /// What asks for the lengths of these records' types.
    pub fn of_records(records: &[&[u8]], guard: Guard) -> Request {
        let length = |record: &&[u8]| (record.len() as u32).to_le_bytes();
        Request {
            call: Call::Record,
            guard,
            number: 0,
            file: records.concat(),
            tables: [
                records.iter().flat_map(length).collect(),
                Vec::new(),
                Vec::new(),
            ],
            territories: Vec::new(),
            // No type has such a length.
            buffers: two_buffers(vec![255; 4 * records.len()], Vec::new()),
        }
    }

    /// The records that such a request asks about.
    pub fn records(&self) -> Vec<&[u8]> {
        let mut left = &self.file[..];
        let lengths = self.tables[0].chunks_exact(4).map(u32_of);
        let record = |length: u32| {
            let record;
            (record, left) = left.split_at(length as usize);
            record
        };
        lengths.map(record).collect()
    }

    pub fn tables(&self) -> Tables<'_> {
        Tables::of(&self.tables)
    }

    /// The bytes that are sent.
    pub fn bytes(&self) -> Vec<u8> {
        let read = [&self.file].into_iter().chain(&self.tables);
        let read = read.chain([&self.territories]);
        let parts: Vec<_> = read.chain(&self.buffers).collect();
        let mut bytes = vec![self.call.letter(), self.guard as u8];
        bytes.extend_from_slice(&self.number.to_le_bytes());
        for part in &parts {
            bytes.extend_from_slice(&(part.len() as u32).to_le_bytes());
        }
        for part in parts {
            bytes.extend_from_slice(part);
        }
        bytes
    }

    /// How long the reply is.
    pub fn reply_length(&self) -> usize {
        25 + self.buffers.iter().map(Vec::len).sum::<usize>()
    }
}

/// Reads a request; none at the end of the input.
pub fn read_request(input: &mut impl Read) -> io::Result<Option<Request>> {
    let wrong = || io::Error::new(io::ErrorKind::InvalidData, "unknown request");
    let mut letter = [0];
    if input.read(&mut letter)? == 0 {
        return Ok(None);
    }
    let mut head = [0; 45];
    input.read_exact(&mut head)?;
    let mut part = |which: usize| {
        let length = &head[9 + 4 * which..13 + 4 * which];
        let mut bytes = vec![0; u32_of(length) as usize];
        input.read_exact(&mut bytes).map(|()| bytes)
    };
    Ok(Some(Request {
        call: Call::of_letter(letter[0]).ok_or_else(wrong)?,
        guard: *Guard::ALL.get(usize::from(head[0])).ok_or_else(wrong)?,
        number: u64::from_le_bytes(head[1..9].try_into().expect("eight bytes")),
        file: part(0)?,
        tables: [part(1)?, part(2)?, part(3)?],
        territories: part(4)?,
        buffers: [part(5)?, part(6)?, part(7)?, part(8)?],
    }))
}

fn u32_of(bytes: &[u8]) -> u32 {
    u32::from_le_bytes(bytes.try_into().expect("four bytes"))
}

/// What is answered to a request.
#[derive(Clone, Debug, PartialEq, Eq)]
pub struct Reply {
    /// The packed answer, for `first` with the transaction where it passed; for
    /// `bits` the number of findings, for `record` that of the records.
    pub packed: u64,
    /// Groups and transactions, 0 where refused or not asked for; for `bits`
    /// the lowest finding and 0.
    pub others: [u64; 2],
    /// Whether a part that was lent for reading is another than before.
    pub changed: bool,
    /// The buffers after the call.
    pub buffers: Buffers,
}

impl Reply {
    pub fn new(answer: Answer, counted: bool, buffers: Buffers) -> Reply {
        let others = match answer {
            Answer::Passed {
                groups,
                transactions,
                ..
            } if counted => [groups, transactions],
            _ => [0; 2],
        };
        Reply {
            packed: answer.packed(),
            others,
            changed: false,
            buffers,
        }
    }

    /// Number of the refusal; 0 where passed.
    pub fn refusal(&self) -> u64 {
        self.packed >> 32
    }

    /// A record's findings, in the answer to a check.
    pub fn set(&self, record: usize) -> u64 {
        let bytes = &self.buffers[1][8 * record..8 * record + 8];
        u64::from_le_bytes(bytes.try_into().expect("eight bytes"))
    }

    /// The transaction and the territory of `over`, in the answer to `claims`;
    /// both 255 in each byte for none.
    pub fn over(&self) -> [u64; 2] {
        let over = &self.buffers[3];
        [&over[..4], &over[4..OVER]].map(|bytes| u64::from(u32_of(bytes)))
    }

    /// The lengths that `record` gives, one a record.
    pub fn lengths(&self) -> impl Iterator<Item = u32> + '_ {
        self.buffers[0].chunks_exact(4).map(u32_of)
    }

    pub fn bytes(&self) -> Vec<u8> {
        let mut bytes = Vec::new();
        for number in [self.packed, self.others[0], self.others[1]] {
            bytes.extend_from_slice(&number.to_le_bytes());
        }
        bytes.push(u8::from(self.changed));
        for buffer in &self.buffers {
            bytes.extend_from_slice(buffer);
        }
        bytes
    }

    /// The reply of these bytes to a request.
    pub fn of_bytes(bytes: &[u8], request: &Request) -> Reply {
        let number = |at: usize| u64::from_le_bytes(bytes[at..at + 8].try_into().unwrap());
        let mut left = &bytes[25..];
        Reply {
            packed: number(0),
            others: [number(8), number(16)],
            changed: bytes[24] != 0,
            buffers: request.buffers.each_ref().map(|buffer| {
                let after;
                (after, left) = left.split_at(buffer.len());
                after.to_vec()
            }),
        }
    }

    pub fn describe(&self, call: Call) -> String {
        let [first, second] = self.others;
        let mut text = match (call, self.refusal()) {
            (Call::Bits, _) => format!("{} findings, lowest {first}", self.packed),
            (Call::Record, _) => format!("{} records", self.packed),
            (Call::First, 0) => describe_first(self.packed),
            (Call::Structure | Call::Counted, 0) => format!(
                "passed: {first} groups, {second} transactions, {} records",
                self.packed
            ),
            (Call::Claims, 0) => {
                format!(
                    "passed: {} records, {}",
                    self.packed,
                    describe_over(self.over())
                )
            }
            (_, 0) => format!("passed: {} records", self.packed),
            (_, number) => {
                let place = self.packed & 0xffff_ffff;
                let mut text = format!("refused {number} at {place}");
                if self.others != [0; 2] {
                    text += &format!(", yet {first} groups, {second} transactions");
                }
                text
            }
        };
        if self.changed {
            text += ", and what was lent for reading is changed";
        }
        text
    }
}

/// The transaction that is answered by `first`, in words.
pub fn describe_first(packed: u64) -> String {
    match packed {
        NO_TRANSACTION => "passed: no transaction".to_string(),
        transaction => format!("passed: transaction {transaction}"),
    }
}

/// What `over` says, in words.
pub fn describe_over([transaction, territory]: [u64; 2]) -> String {
    match (transaction, territory) {
        (NO_TRANSACTION, NO_TRANSACTION) => "nothing over".to_string(),
        _ => format!("over in transaction {transaction}, territory {territory}"),
    }
}

pub fn write_reply(output: &mut impl Write, reply: &Reply) -> io::Result<()> {
    output.write_all(&reply.bytes())?;
    output.flush()
}

/// What the reference answers to a request.
pub fn expected(request: &Request) -> Reply {
    let mut buffers = request.buffers.clone();
    let [first, second, list, over] = &mut buffers;
    let (file, tables) = (&request.file, request.tables());
    let answer = match request.call {
        Call::Check => reference::check_short(file, &tables, first, second),
        Call::Within => reference::check(request.number, file, &tables, first, second),
        Call::Claims => {
            let room = Room {
                list,
                verdicts: first,
                findings: second,
                over,
            };
            reference::check_claims(request.number, file, &tables, &request.territories, room)
        }
        Call::Number | Call::Counted => reference::numbering(file, first),
        Call::Sheet => reference::sheet_add(first, file, &tables),
        Call::Structure => reference::structure(file),
        Call::Bits => {
            return Reply {
                packed: u64::from(findings::count(request.number)),
                others: [u64::from(findings::lowest(request.number)), 0],
                changed: false,
                buffers,
            }
        }
        Call::Record => {
            let records = request.records();
            let length = |record: &&[u8]| reference::record_length(record).to_le_bytes();
            *first = records.iter().flat_map(length).collect();
            return Reply {
                packed: records.len() as u64,
                others: [0; 2],
                changed: false,
                buffers,
            };
        }
        Call::First => {
            return Reply {
                packed: reference::first_rejected(request.number, file, &tables).packed(),
                others: [0; 2],
                changed: false,
                buffers,
            }
        }
        Call::Listing => unreachable!("the listing is no request"),
    };
    let counted = request.call.program() == Program::Probe;
    Reply::new(answer, counted, buffers)
}
