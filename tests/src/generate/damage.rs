//! Damages, each with a name. A damage aims at one refusal, but what it really
//! brings about is for the reference to say.

use std::sync::OnceLock;

use super::right::{blank, detail, header, named, of_class, put, put_bytes, write};
use super::Random;
use crate::reference::types::{find, Class, TYPES};

type Records = Vec<Vec<u8>>;

pub struct Damage {
    pub name: String,
    /// The refusal it aims at; 0 where that is left to chance.
    pub family: u32,
    pub hand: Hand,
}

pub enum Hand {
    Records(fn(&mut Records, &mut Random)),
    Bytes(fn(&mut Vec<u8>, &mut Random)),
    Number(Position, Form),
    /// The HDR's text at 102: version and revision, or a part of them.
    Version(usize, &'static str),
}

impl Damage {
    /// Does what this damage does to records.
    pub fn to_records(&self, records: &mut Records, random: &mut Random) {
        match self.hand {
            Hand::Records(hand) => hand(records, random),
            Hand::Bytes(_) => {}
            Hand::Number(position, form) => {
                if let Some(at) = any(records, random, |class| class == position.class) {
                    let end = position.start - 1 + position.size;
                    if let Some(number) = records[at].get_mut(position.start - 1..end) {
                        form.spoil(number, random);
                    }
                }
            }
            Hand::Version(start, text) => {
                if let Some(at) = any(records, random, |class| class == Class::Hdr) {
                    put(&mut records[at], start, text);
                }
            }
        }
    }
}

/// Those that others hide stand here twice.
pub const FAMILIES: [u32; 10] = [4, 6, 7, 7, 8, 9, 9, 10, 10, 0];

/// A damage of any family, as often as it stands there.
pub fn choose(random: &mut Random) -> &'static Damage {
    let family = random.of(&FAMILIES);
    let of_family: Vec<_> = all().iter().filter(|d| d.family == family).collect();
    random.of(&of_family)
}

/// Every damage there is.
pub fn all() -> &'static [Damage] {
    static ALL: OnceLock<Vec<Damage>> = OnceLock::new();
    ALL.get_or_init(|| {
        let mut all = Vec::new();
        for &(name, hand) in LINES {
            all.push(damage(name, 4, Hand::Bytes(hand)));
        }
        for &(name, hand) in FORMS {
            all.push(damage(name, 6, Hand::Records(hand)));
        }
        for &(name, hand) in PLACES {
            all.push(damage(name, 7, Hand::Records(hand)));
        }
        for &(name, hand) in PREFIXES {
            all.push(damage(name, 8, Hand::Records(hand)));
        }
        for &(name, hand) in TRAILERS {
            all.push(damage(name, 9, Hand::Records(hand)));
        }
        for position in POSITIONS {
            let trailer = matches!(position.class, Class::Grt | Class::Trl);
            let family = if trailer { 9 } else { 8 };
            for form in Form::ALL {
                // A header's record number is 0, and stays it by these.
                let zero = position.class == Class::Header && position.start == 12;
                if zero && matches!(form, Form::Zeros | Form::Double) {
                    continue;
                }
                let name = format!("{} {form:?}", position.name);
                all.push(damage(&name, family, Hand::Number(position, form)));
            }
        }
        for text in VERSIONS {
            let name = format!("version \"{text}\"");
            all.push(damage(&name, 10, Hand::Version(102, text)));
        }
        for text in REVISIONS {
            let name = format!("revision \"{text}\"");
            all.push(damage(&name, 10, Hand::Version(105, text)));
        }
        for &(name, hand) in CHANCES {
            all.push(damage(name, 0, Hand::Bytes(hand)));
        }
        all
    })
}

fn damage(name: &str, family: u32, hand: Hand) -> Damage {
    Damage {
        name: name.to_string(),
        family,
        hand,
    }
}

/// Where a record of a wanted class stands, if there is one.
fn any(records: &Records, random: &mut Random, wanted: impl Fn(Class) -> bool) -> Option<usize> {
    let places: Vec<_> = (0..records.len())
        .filter(|&at| class(&records[at]).is_some_and(&wanted))
        .collect();
    (!places.is_empty()).then(|| random.of(&places))
}

fn class(record: &[u8]) -> Option<Class> {
    find(record).map(|row| row.class)
}

/// Where any record stands, if there is one.
fn anywhere(records: &Records, random: &mut Random) -> Option<usize> {
    (!records.is_empty()).then(|| random.below(records.len()))
}

fn is_header(class: Class) -> bool {
    class == Class::Header
}

fn is_prefixed(class: Class) -> bool {
    matches!(class, Class::Header | Class::Detail)
}

// ---- Refusal 4: lines ----

type Bytes = (&'static str, fn(&mut Vec<u8>, &mut Random));

const LINES: &[Bytes] = &[
    ("control in a type", |file, random| {
        let at = line(file, random) + random.below(3);
        replace(file, at, random.control());
    }),
    ("control in a number", |file, random| {
        let at = line(file, random) + random.between(3, 18);
        replace(file, at, random.control());
    }),
    ("control in a text", |file, random| {
        let at = random.below(file.len().max(1));
        replace(file, at, random.control());
    }),
    ("control as the last byte of a record", |file, random| {
        let at = pair(file, random).saturating_sub(1);
        replace(file, at, random.control());
    }),
    ("control before a record", |file, random| {
        let at = line(file, random);
        insert(file, at, &[random.control()]);
    }),
    ("control after a record", |file, random| {
        let at = pair(file, random);
        insert(file, at, &[random.control()]);
    }),
    ("control between CR and LF", |file, random| {
        let at = pair(file, random) + 1;
        insert(file, at, &[random.control()]);
    }),
    ("control for a CR", |file, random| {
        let at = pair(file, random);
        replace(file, at, random.control());
    }),
    ("control for an LF", |file, random| {
        let at = pair(file, random) + 1;
        replace(file, at, random.control());
    }),
    ("control first in the file", |file, random| {
        insert(file, 0, &[random.control()]);
    }),
    ("control last in the file", |file, random| {
        file.push(random.control());
    }),
    ("lone CR for a pair", |file, random| {
        let at = pair(file, random);
        splice(file, at, 2, b"\r");
    }),
    ("lone LF for a pair", |file, random| {
        let at = pair(file, random);
        splice(file, at, 2, b"\n");
    }),
    ("lone CR in a text", |file, random| {
        let at = random.between(0, file.len());
        insert(file, at, b"\r");
    }),
    ("lone LF in a text", |file, random| {
        let at = random.between(0, file.len());
        insert(file, at, b"\n");
    }),
    ("CR CR LF", |file, random| {
        let at = pair(file, random);
        splice(file, at, 2, b"\r\r\n");
    }),
    ("CR LF LF", |file, random| {
        let at = pair(file, random);
        splice(file, at, 2, b"\r\n\n");
    }),
    ("CR LF CR", |file, random| {
        let at = pair(file, random);
        splice(file, at, 2, b"\r\n\r");
    }),
    ("LF CR LF", |file, random| {
        let at = pair(file, random);
        splice(file, at, 2, b"\n\r\n");
    }),
    ("LF CR", |file, random| {
        let at = pair(file, random);
        splice(file, at, 2, b"\n\r");
    }),
    ("LF LF", |file, random| {
        let at = pair(file, random);
        splice(file, at, 2, b"\n\n");
    }),
    ("CR CR", |file, random| {
        let at = pair(file, random);
        splice(file, at, 2, b"\r\r");
    }),
    ("all lines with CR only", |file, _| end_lines(file, b"\r")),
    ("all lines with LF only", |file, _| end_lines(file, b"\n")),
    ("all lines with LF CR", |file, _| end_lines(file, b"\n\r")),
    ("all lines with CR CR LF", |file, _| {
        end_lines(file, b"\r\r\n")
    }),
    ("last pair missing", |file, _| {
        file.truncate(file.len().saturating_sub(2));
    }),
    ("last LF missing", |file, _| {
        file.truncate(file.len().saturating_sub(1));
    }),
    ("last CR missing", |file, _| {
        if file.ends_with(b"\r\n") {
            file.truncate(file.len() - 2);
            file.push(b'\n');
        }
    }),
    ("text after the last pair", |file, random| {
        for _ in 0..random.between(1, 30) {
            file.push(random.text());
        }
    }),
    ("one space after the last pair", |file, _| file.push(b' ')),
    ("record without a pair at the end", |file, random| {
        let row = &TYPES[random.below(TYPES.len())];
        file.extend(blank(row, random));
    }),
    ("cut at any byte", |file, random| {
        let length = random.between(0, file.len());
        file.truncate(length);
    }),
    ("cut inside a line", |file, random| {
        let length = line(file, random) + random.between(1, 24);
        file.truncate(length);
    }),
    ("cut between CR and LF", |file, random| {
        let length = pair(file, random) + 1;
        file.truncate(length);
    }),
];

fn replace(file: &mut [u8], at: usize, byte: u8) {
    if let Some(place) = file.get_mut(at) {
        *place = byte;
    }
}

fn insert(file: &mut Vec<u8>, at: usize, bytes: &[u8]) {
    splice(file, at, 0, bytes);
}

fn splice(file: &mut Vec<u8>, at: usize, length: usize, bytes: &[u8]) {
    let at = at.min(file.len());
    let end = (at + length).min(file.len());
    file.splice(at..end, bytes.iter().copied());
}

fn pairs(file: &[u8]) -> Vec<usize> {
    (1..file.len())
        .filter(|&at| file[at - 1] == b'\r' && file[at] == b'\n')
        .map(|at| at - 1)
        .collect()
}

/// Where any CR LF stands; the file's end if there is none.
fn pair(file: &[u8], random: &mut Random) -> usize {
    let pairs = pairs(file);
    match pairs.len() {
        0 => file.len(),
        number => pairs[random.below(number)],
    }
}

/// Where any line begins.
fn line(file: &[u8], random: &mut Random) -> usize {
    let mut starts = vec![0];
    starts.extend(pairs(file).iter().map(|at| at + 2));
    // After the last pair there is no line.
    if starts.len() > 1 && starts.last() == Some(&file.len()) {
        starts.pop();
    }
    random.of(&starts)
}

fn end_lines(file: &mut Vec<u8>, end: &[u8]) {
    let mut lines = Vec::new();
    let mut start = 0;
    for at in pairs(file) {
        lines.extend_from_slice(&file[start..at]);
        lines.extend_from_slice(end);
        start = at + 2;
    }
    lines.extend_from_slice(&file[start..]);
    *file = lines;
}

// ---- Refusal 6: type and length ----

type OfRecords = (&'static str, fn(&mut Records, &mut Random));

const FORMS: &[OfRecords] = &[
    ("empty line", |records, random| {
        let at = random.between(0, records.len());
        records.insert(at, Vec::new());
    }),
    ("empty line first", |records, _| {
        records.insert(0, Vec::new())
    }),
    ("empty line last", |records, _| records.push(Vec::new())),
    ("several empty lines", |records, random| {
        for _ in 0..random.between(2, 6) {
            let at = random.between(0, records.len());
            records.insert(at, Vec::new());
        }
    }),
    ("record of one or two bytes", |records, random| {
        if let Some(at) = anywhere(records, random) {
            records[at].truncate(random.between(1, 2));
        }
    }),
    ("short line put in", |records, random| {
        let at = random.between(0, records.len());
        let line = (0..random.between(1, 4)).map(|_| random.text()).collect();
        records.insert(at, line);
    }),
    ("record cut after its type", |records, random| {
        if let Some(at) = anywhere(records, random) {
            records[at].truncate(3);
        }
    }),
    ("record cut anywhere", |records, random| {
        if let Some(at) = anywhere(records, random) {
            let length = random.below(records[at].len().max(1));
            records[at].truncate(length);
        }
    }),
    ("record one byte too short", |records, random| {
        if let Some(at) = anywhere(records, random) {
            records[at].pop();
        }
    }),
    ("record one byte too long", |records, random| {
        if let Some(at) = anywhere(records, random) {
            let byte = random.text();
            records[at].push(byte);
        }
    }),
    (
        "record one byte too short, blank at its end",
        |records, random| {
            if let Some(at) = anywhere(records, random) {
                records[at].pop();
                if let Some(last) = records[at].last_mut() {
                    *last = b' ';
                }
            }
        },
    ),
    ("records one byte too long", |records, random| {
        let from = random.below(records.len().max(1));
        for record in records.iter_mut().skip(from) {
            record.push(b' ');
        }
    }),
    ("blanks at the ends cut", |records, random| {
        let from = random.below(records.len().max(1));
        for record in records.iter_mut().skip(from) {
            while record.last() == Some(&b' ') {
                record.pop();
            }
        }
    }),
    ("record twice in its line", |records, random| {
        if let Some(at) = anywhere(records, random) {
            let again = records[at].clone();
            records[at].extend(again);
        }
    }),
    ("two records in one line", |records, random| {
        if records.len() > 1 {
            let at = random.below(records.len() - 1);
            let next = records.remove(at + 1);
            records[at].extend(next);
        }
    }),
    ("record in two lines", |records, random| {
        if let Some(at) = anywhere(records, random) {
            let middle = random.between(0, records[at].len());
            let rest = records[at].split_off(middle);
            records.insert(at + 1, rest);
        }
    }),
    (
        "AGR, ISW, EXC or ACK of its own length",
        |records, random| {
            let (name, length) =
                random.of(&[("AGR", 121), ("ISW", 260), ("EXC", 260), ("ACK", 159)]);
            let at = any(records, random, is_header).unwrap_or(0);
            if at < records.len() {
                let prefix = records[at].clone();
                records[at].resize(length, b' ');
                put_bytes(&mut records[at], 1, &prefix[..prefix.len().min(19)]);
                put(&mut records[at], 1, name);
            }
        },
    ),
    ("AGR, ISW, EXC or ACK for any type", |records, random| {
        let name = random.of(&["AGR", "ISW", "EXC", "ACK"]);
        retype(records, random, name.as_bytes());
    }),
    ("type of random letters", |records, random| {
        let name: Vec<u8> = (0..3).map(|_| random.between(65, 90) as u8).collect();
        retype(records, random, &name);
    }),
    ("type of random text", |records, random| {
        let name: Vec<u8> = (0..3).map(|_| random.text()).collect();
        retype(records, random, &name);
    }),
    ("type in lower case", |records, random| {
        if let Some(at) = anywhere(records, random) {
            let end = records[at].len().min(3);
            records[at][..end].make_ascii_lowercase();
        }
    }),
    ("one letter of a type in lower case", |records, random| {
        if let Some(at) = anywhere(records, random) {
            if let Some(letter) = records[at].get_mut(random.below(3)) {
                letter.make_ascii_lowercase();
            }
        }
    }),
    ("one byte of a type changed", |records, random| {
        if let Some(at) = anywhere(records, random) {
            let byte = random.of(b" 0AEHNORTW\x80\xff");
            if let Some(letter) = records[at].get_mut(random.below(3)) {
                *letter = byte;
            }
        }
    }),
    ("type one byte later", |records, random| {
        if let Some(at) = anywhere(records, random) {
            records[at].insert(0, b' ');
            records[at].pop();
        }
    }),
    ("type of another record", |records, random| {
        let row = &TYPES[random.below(TYPES.len())];
        retype(records, random, row.name.as_bytes());
    }),
    ("length of another record", |records, random| {
        if let Some(at) = anywhere(records, random) {
            let row = &TYPES[random.below(TYPES.len())];
            records[at].resize(row.length(), b' ');
        }
    }),
    ("lengths of edition 2.1", |records, random| {
        // One of its types, put in where the file has none.
        let (name, length) = random.of(&[("HDR", 101), ("PWR", 110), ("REC", 266), ("ORN", 301)]);
        let mut found = false;
        for record in records.iter_mut() {
            if record.starts_with(name.as_bytes()) {
                record.resize(length, b' ');
                found = true;
            }
        }
        if !found {
            retype(records, random, name.as_bytes());
        }
    }),
    ("byte order mark first", |records, _| {
        if let Some(record) = records.first_mut() {
            record.splice(0..0, [0xef, 0xbb, 0xbf]);
        }
    }),
];

fn retype(records: &mut Records, random: &mut Random, name: &[u8]) {
    if let Some(at) = anywhere(records, random) {
        put_bytes(&mut records[at], 1, name);
    }
}

// ---- Refusal 7: places ----

const PLACES: &[OfRecords] = &[
    ("two neighbours exchanged", |records, random| {
        if records.len() > 1 {
            let at = random.below(records.len() - 1);
            records.swap(at, at + 1);
        }
    }),
    ("two records exchanged", |records, random| {
        if let Some(at) = anywhere(records, random) {
            let other = random.below(records.len());
            records.swap(at, other);
        }
    }),
    ("record dropped", |records, random| {
        if let Some(at) = anywhere(records, random) {
            records.remove(at);
        }
    }),
    ("control record dropped", |records, random| {
        if let Some(at) = any(records, random, |class| !is_prefixed(class)) {
            records.remove(at);
        }
    }),
    ("header dropped", |records, random| {
        if let Some(at) = any(records, random, is_header) {
            records.remove(at);
        }
    }),
    ("record repeated", |records, random| {
        if let Some(at) = anywhere(records, random) {
            let again = records[at].clone();
            records.insert(at, again);
        }
    }),
    ("control record repeated", |records, random| {
        if let Some(at) = any(records, random, |class| !is_prefixed(class)) {
            let again = records[at].clone();
            records.insert(at, again);
        }
    }),
    ("record repeated elsewhere", |records, random| {
        if let Some(at) = anywhere(records, random) {
            let again = records[at].clone();
            let to = random.between(0, records.len());
            records.insert(to, again);
        }
    }),
    ("record moved", |records, random| {
        if let Some(at) = anywhere(records, random) {
            let record = records.remove(at);
            let to = random.between(0, records.len());
            records.insert(to, record);
        }
    }),
    ("second HDR", |records, random| {
        let at = random.between(0, records.len());
        put_in(records, at, "HDR", random);
    }),
    ("HDR missing", |records, _| {
        if !records.is_empty() {
            records.remove(0);
        }
    }),
    ("HDR last", |records, _| {
        if !records.is_empty() {
            records.rotate_left(1);
        }
    }),
    ("TRL missing", |records, _| {
        records.pop();
    }),
    ("TRL early", |records, random| {
        if let Some(trl) = records.pop() {
            let at = random.between(0, records.len());
            records.insert(at, trl);
        }
    }),
    ("second TRL", |records, random| {
        let at = random.between(0, records.len());
        put_in(records, at, "TRL", random);
    }),
    ("TRL after HDR", |records, random| {
        records.truncate(1);
        put_in(records, 1, "TRL", random);
    }),
    ("record after TRL", |records, random| {
        let row = &TYPES[random.below(TYPES.len())];
        records.push(blank(row, random));
    }),
    ("group after TRL", |records, random| {
        let group = [named("GRH"), header(random), named("GRT")];
        records.extend(write(&group, random));
    }),
    ("file twice", |records, _| {
        let again = records.clone();
        records.extend(again);
    }),
    ("GRH after GRH", |records, random| {
        if let Some(at) = any(records, random, |class| class == Class::Grh) {
            put_in(records, at + 1, "GRH", random);
        }
    }),
    ("GRH in a group", |records, random| {
        if let Some(at) = any(records, random, is_prefixed) {
            put_in(records, at + 1, "GRH", random);
        }
    }),
    ("GRT without transactions", |records, random| {
        if let Some(at) = any(records, random, |class| class == Class::Grh) {
            let rest = &records[at + 1..];
            let length = rest.iter().position(|r| r.starts_with(b"GRT"));
            records.drain(at + 1..at + 1 + length.unwrap_or(0));
        }
    }),
    ("empty group", |records, random| {
        if let Some(at) = any(records, random, |class| class == Class::Grt) {
            put_in(records, at + 1, "GRH", random);
            put_in(records, at + 2, "GRT", random);
        }
    }),
    ("GRT after GRT", |records, random| {
        if let Some(at) = any(records, random, |class| class == Class::Grt) {
            put_in(records, at + 1, "GRT", random);
        }
    }),
    ("GRT in a group", |records, random| {
        if let Some(at) = any(records, random, is_prefixed) {
            put_in(records, at + 1, "GRT", random);
        }
    }),
    ("detail before any header", |records, random| {
        if let Some(at) = any(records, random, |class| class == Class::Grh) {
            records.insert(at + 1, blank(detail(random), random));
        }
    }),
    ("transaction after GRT", |records, random| {
        if let Some(at) = any(records, random, |class| class == Class::Grt) {
            records.insert(at + 1, blank(header(random), random));
        }
    }),
    ("detail after GRT", |records, random| {
        if let Some(at) = any(records, random, |class| class == Class::Grt) {
            records.insert(at + 1, blank(detail(random), random));
        }
    }),
    ("transaction or detail after HDR", |records, random| {
        let row = if random.one_in(2) {
            header(random)
        } else {
            detail(random)
        };
        let at = records.len().min(1);
        records.insert(at, blank(row, random));
    }),
    ("one record of another class", |records, random| {
        if let Some(at) = anywhere(records, random) {
            records[at] = blank(of_any_class(random), random);
        }
    }),
    ("one record of any class put in", |records, random| {
        let at = random.between(0, records.len());
        records.insert(at, blank(of_any_class(random), random));
    }),
    ("cut after a record", |records, random| {
        let length = random.between(0, records.len());
        records.truncate(length);
    }),
    ("no record at all", |records, _| records.clear()),
    ("records backwards", |records, _| records.reverse()),
    ("records in any order", |records, random| {
        for at in (1..records.len()).rev() {
            let other = random.between(0, at);
            records.swap(at, other);
        }
    }),
    ("records of any class", |records, random| {
        let mut types = Vec::new();
        for _ in 0..random.between(0, 10) {
            types.push(of_any_class(random));
        }
        *records = write(&types, random);
    }),
    ("HDR, GRH, then records of any class", |records, random| {
        let mut types = vec![named("HDR"), named("GRH"), header(random)];
        for _ in 0..random.between(0, 5) {
            types.push(of_any_class(random));
        }
        *records = write(&types, random);
    }),
];

fn of_any_class(random: &mut Random) -> &'static crate::reference::types::Type {
    let class = random.of(&[
        Class::Hdr,
        Class::Grh,
        Class::Header,
        Class::Detail,
        Class::Grt,
        Class::Trl,
    ]);
    of_class(class, random)
}

fn put_in(records: &mut Records, at: usize, name: &str, random: &mut Random) {
    // Another damage may have left fewer records.
    let at = at.min(records.len());
    records.insert(at, blank(named(name), random));
}

// ---- Refusals 8 and 9: numbers ----

#[derive(Clone, Copy)]
pub struct Position {
    name: &'static str,
    class: Class,
    start: usize,
    size: usize,
}

const fn position(name: &'static str, class: Class, start: usize, size: usize) -> Position {
    Position {
        name,
        class,
        start,
        size,
    }
}

const POSITIONS: [Position; 11] = [
    position("GRH group", Class::Grh, 7, 5),
    position("header's transaction", Class::Header, 4, 8),
    position("header's record", Class::Header, 12, 8),
    position("detail's transaction", Class::Detail, 4, 8),
    position("detail's record", Class::Detail, 12, 8),
    position("GRT group", Class::Grt, 4, 5),
    position("GRT transactions", Class::Grt, 9, 8),
    position("GRT records", Class::Grt, 17, 8),
    position("TRL groups", Class::Trl, 4, 5),
    position("TRL transactions", Class::Trl, 9, 8),
    position("TRL records", Class::Trl, 17, 8),
];

/// How a number is spoiled.
#[derive(Clone, Copy, Debug)]
pub enum Form {
    OneMore,
    OneLess,
    OneDigit,
    LastDigit,
    FirstDigit,
    Blank,
    LeadingSpaces,
    LeftJustified,
    PlusSign,
    MinusSign,
    Letter,
    NeighbourOfDigits,
    HighBit,
    AnyByte,
    Zeros,
    Nines,
    Double,
}

impl Form {
    const ALL: [Form; 17] = [
        Form::OneMore,
        Form::OneLess,
        Form::OneDigit,
        Form::LastDigit,
        Form::FirstDigit,
        Form::Blank,
        Form::LeadingSpaces,
        Form::LeftJustified,
        Form::PlusSign,
        Form::MinusSign,
        Form::Letter,
        Form::NeighbourOfDigits,
        Form::HighBit,
        Form::AnyByte,
        Form::Zeros,
        Form::Nines,
        Form::Double,
    ];

    fn spoil(self, number: &mut [u8], random: &mut Random) {
        let size = number.len();
        let any = random.below(size);
        let zeros = number.iter().take_while(|&&b| b == b'0').count();
        let zeros = zeros.min(size - 1);
        match self {
            Form::OneMore => set(number, value(number) + 1),
            Form::OneLess => set(number, value(number) + 10u64.pow(size as u32) - 1),
            Form::Double => set(number, value(number) * 2),
            Form::OneDigit => other_digit(&mut number[any], random),
            Form::LastDigit => other_digit(&mut number[size - 1], random),
            Form::FirstDigit => other_digit(&mut number[0], random),
            Form::Blank => number.fill(b' '),
            Form::LeadingSpaces => number[..zeros].fill(b' '),
            Form::LeftJustified => {
                number.rotate_left(zeros);
                number[size - zeros..].fill(b' ');
            }
            Form::PlusSign => number[0] = b'+',
            Form::MinusSign => number[0] = b'-',
            Form::Letter => number[any] = random.of(b"AOIlZx"),
            Form::NeighbourOfDigits => number[any] = random.of(b"/:"),
            Form::HighBit => number[any] |= 128,
            Form::AnyByte => number[any] = random.text(),
            Form::Zeros => number.fill(b'0'),
            Form::Nines => number.fill(b'9'),
        }
    }
}

fn other_digit(byte: &mut u8, random: &mut Random) {
    let digit = u64::from(byte.wrapping_sub(b'0')) + random.between(1, 9) as u64;
    *byte = b'0' + (digit % 10) as u8;
}

/// The value of digits; 0 where they aren't.
fn value(number: &[u8]) -> u64 {
    let text = std::str::from_utf8(number).unwrap_or("");
    text.parse().unwrap_or(0)
}

/// Writes a value as digits, without what doesn't fit.
fn set(number: &mut [u8], value: u64) {
    let mut rest = value;
    for byte in number.iter_mut().rev() {
        *byte = b'0' + (rest % 10) as u8;
        rest /= 10;
    }
}

/// Where a header or detail stands, all counted from 0.
struct Stand {
    /// Transaction in its group and in the file.
    transaction: u64,
    in_file: u64,
    /// Record in its transaction, in its group and in the file.
    record: u64,
    in_group: u64,
    at: u64,
}

/// Gives each header and detail other numbers.
fn renumber(records: &mut Records, numbers: impl Fn(&Stand) -> (u64, u64)) {
    let (mut group_at, mut header_at) = (0, 0);
    let (mut headers, mut before_group) = (0u64, 0);
    for (at, record) in records.iter_mut().enumerate() {
        match class(record) {
            Some(Class::Grh) => {
                group_at = at;
                before_group = headers;
            }
            Some(class @ (Class::Header | Class::Detail)) => {
                if class == Class::Header {
                    headers += 1;
                    header_at = at;
                }
                let stand = Stand {
                    transaction: headers.saturating_sub(before_group + 1),
                    in_file: headers.saturating_sub(1),
                    record: (at - header_at) as u64,
                    in_group: (at - group_at) as u64,
                    at: at as u64,
                };
                let (transaction, number) = numbers(&stand);
                put(record, 4, &format!("{transaction:08}"));
                put(record, 12, &format!("{number:08}"));
            }
            _ => {}
        }
    }
}

/// Gives the groups other numbers, GRT the same as GRH.
fn regroup(records: &mut Records, number: impl Fn(u64) -> u64) {
    let mut group = 0;
    for record in records.iter_mut() {
        match class(record) {
            Some(Class::Grh) => {
                group += 1;
                put(record, 7, &format!("{:05}", number(group)));
            }
            Some(Class::Grt) => put(record, 4, &format!("{:05}", number(group))),
            _ => {}
        }
    }
}

const PREFIXES: &[OfRecords] = &[
    ("transactions run on over groups", |records, _| {
        renumber(records, |stand| (stand.in_file, stand.record));
    }),
    ("transactions from 1", |records, _| {
        renumber(records, |stand| (stand.transaction + 1, stand.record));
    }),
    ("all transactions 0", |records, _| {
        renumber(records, |stand| (0, stand.record));
    }),
    ("details from 0", |records, _| {
        renumber(records, |stand| {
            (stand.transaction, stand.record.saturating_sub(1))
        });
    }),
    ("details from 2", |records, _| {
        renumber(records, |stand| {
            (
                stand.transaction,
                stand.record + u64::from(stand.record > 0),
            )
        });
    }),
    ("headers 1, details from 2", |records, _| {
        renumber(records, |stand| (stand.transaction, stand.record + 1));
    }),
    ("records run on over transactions", |records, _| {
        renumber(records, |stand| {
            (stand.transaction, stand.in_group.saturating_sub(1))
        });
    }),
    ("records run on over the file", |records, _| {
        renumber(records, |stand| (stand.transaction, stand.at));
    }),
    ("transaction and record exchanged", |records, _| {
        renumber(records, |stand| (stand.record, stand.transaction));
    }),
    ("groups from 0", |records, _| {
        regroup(records, |group| group - 1)
    }),
    ("groups from 2", |records, _| {
        regroup(records, |group| group + 1)
    }),
    ("all groups 1", |records, _| regroup(records, |_| 1)),
    ("previous transaction on a header", |records, random| {
        previous_transaction(records, random, Class::Header);
    }),
    ("previous transaction on a detail", |records, random| {
        previous_transaction(records, random, Class::Detail);
    }),
    ("numbers of another record", |records, random| {
        let from = any(records, random, is_prefixed);
        let to = any(records, random, is_prefixed);
        if let (Some(from), Some(to)) = (from, to) {
            let numbers = records[from][3..19.min(records[from].len())].to_vec();
            put_bytes(&mut records[to], 4, &numbers);
        }
    }),
    ("numbers gone", unnumber),
];

fn previous_transaction(records: &mut Records, random: &mut Random, wanted: Class) {
    // In the first transaction there is none before.
    let places: Vec<_> = (0..records.len())
        .filter(|&at| class(&records[at]) == Some(wanted) && records[at].len() > 19)
        .filter(|&at| value(&records[at][3..11]) > 0)
        .collect();
    if !places.is_empty() {
        let number = &mut records[random.of(&places)][3..11];
        set(number, value(number) - 1);
    }
}

const TRAILERS: &[OfRecords] = &[
    ("GRT numbers of two groups exchanged", |records, random| {
        let one = any(records, random, |class| class == Class::Grt);
        let other = any(records, random, |class| class == Class::Grt);
        if let (Some(one), Some(other)) = (one, other) {
            records.swap(one, other);
        }
    }),
    ("GRT counts since the file's start", |records, _| {
        let mut headers = 0;
        for (at, record) in records.iter_mut().enumerate() {
            match class(record) {
                Some(Class::Header) => headers += 1,
                Some(Class::Grt) => {
                    put(record, 9, &format!("{headers:08}"));
                    put(record, 17, &format!("{:08}", at + 1));
                }
                _ => {}
            }
        }
    }),
    ("GRT records without GRH and GRT", |records, _| {
        less_records(records, Class::Grt);
    }),
    ("TRL records without HDR and TRL", |records, _| {
        less_records(records, Class::Trl);
    }),
    ("TRL with a group's counts", |records, random| {
        let grt = any(records, random, |class| class == Class::Grt);
        let trl = any(records, random, |class| class == Class::Trl);
        if let (Some(grt), Some(trl)) = (grt, trl) {
            let numbers = records[grt][8..24.min(records[grt].len())].to_vec();
            put_bytes(&mut records[trl], 9, &numbers);
        }
    }),
    ("trailer's counts exchanged", |records, random| {
        let trailer = any(records, random, |c| matches!(c, Class::Grt | Class::Trl));
        if let Some(at) = trailer {
            if let Some(numbers) = records[at].get_mut(8..24) {
                numbers.rotate_left(8);
            }
        }
    }),
    ("trailers' numbers blank", |records, _| {
        for record in records.iter_mut() {
            if matches!(class(record), Some(Class::Grt | Class::Trl)) {
                put_bytes(record, 4, &[b' '; 21]);
            }
        }
    }),
];

fn less_records(records: &mut Records, wanted: Class) {
    for record in records.iter_mut() {
        if class(record) == Some(wanted) {
            if let Some(number) = record.get_mut(16..24) {
                set(number, value(number).saturating_sub(2));
            }
        }
    }
}

/// Puts something else into the number positions, all of them or many.
pub fn unnumber(records: &mut Records, random: &mut Random) {
    let filler = random.below(5);
    let all = random.one_in(2);
    for record in records.iter_mut() {
        let Some(class) = class(record) else { continue };
        for position in POSITIONS.iter().filter(|p| p.class == class) {
            let end = position.start - 1 + position.size;
            let Some(number) = record.get_mut(position.start - 1..end) else {
                continue;
            };
            if !all && random.one_in(2) {
                continue;
            }
            for byte in number {
                *byte = match filler {
                    0 => b' ',
                    1 => b'0',
                    2 => b'9',
                    3 => random.of(b"0123456789"),
                    _ => random.text(),
                };
            }
        }
    }
}

// ---- Refusal 10: version and revision ----

const VERSIONS: [&str; 17] = [
    "   ", "2.1", "2.0", "2.3", "3.0", "1.2", "22 ", "2,2", "2 2", "2. ", ".22", "02.", "2.2003",
    "      ", "2.2 ", "02.2", "2.\u{b2}",
];

const REVISIONS: [&str; 19] = [
    "   ", "003", "004", "009", "010", "012", "100", "102", "200", "999", "02 ", " 02", "2  ",
    "  2", "00A", "+01", "-01", "00/", "00:",
];

// ---- Left to chance ----

const CHANCES: &[Bytes] = &[
    ("one bit flipped", |file, random| {
        let bit = random.below(8);
        if let Some(byte) = some_byte(file, random) {
            *byte ^= 1 << bit;
        }
    }),
    ("one byte replaced", |file, random| {
        let other = random.byte();
        if let Some(byte) = some_byte(file, random) {
            *byte = other;
        }
    }),
    ("one byte near a line's start replaced", |file, random| {
        let at = line(file, random) + random.below(24);
        replace(file, at, random.byte());
    }),
    ("one digit replaced", |file, random| {
        let places: Vec<_> = (0..file.len())
            .filter(|&at| file[at].is_ascii_digit())
            .collect();
        if !places.is_empty() {
            other_digit(&mut file[random.of(&places)], random);
        }
    }),
    ("one byte removed", |file, random| {
        let at = random.below(file.len().max(1));
        splice(file, at, 1, b"");
    }),
    ("one byte put in", |file, random| {
        let at = random.between(0, file.len());
        insert(file, at, &[random.byte()]);
    }),
    ("two neighbouring bytes exchanged", |file, random| {
        if file.len() > 1 {
            let at = random.below(file.len() - 1);
            file.swap(at, at + 1);
        }
    }),
    ("stretch removed", |file, random| {
        let at = random.below(file.len().max(1));
        splice(file, at, random.between(1, 600), b"");
    }),
    ("stretch repeated", |file, random| {
        let at = random.below(file.len().max(1));
        let end = (at + random.between(1, 600)).min(file.len());
        let stretch = file[at.min(end)..end].to_vec();
        insert(file, end, &stretch);
    }),
    ("beginning removed", |file, random| {
        let length = random.between(0, file.len());
        splice(file, 0, length, b"");
    }),
    ("file of random bytes", |file, random| {
        *file = (0..random.between(0, 400)).map(|_| random.byte()).collect();
    }),
    ("file of random lines", |file, random| {
        file.clear();
        for _ in 0..random.between(0, 12) {
            for _ in 0..random.below(40) {
                file.push(random.text());
            }
            file.extend_from_slice(b"\r\n");
        }
    }),
    ("file of pieces", |file, random| {
        file.clear();
        for _ in 0..random.between(0, 8) {
            match random.below(8) {
                0 => file.push(b'\r'),
                1 => file.push(b'\n'),
                2 => file.push(random.byte()),
                3 => file.extend_from_slice(b"HDR"),
                4 | 5 => file.extend_from_slice(b"\r\n"),
                _ => {
                    let row = of_any_class(random);
                    file.extend(blank(row, random));
                    file.extend_from_slice(b"\r\n");
                }
            }
        }
    }),
];

fn some_byte<'a>(file: &'a mut [u8], random: &mut Random) -> Option<&'a mut u8> {
    let at = random.below(file.len().max(1));
    file.get_mut(at)
}
