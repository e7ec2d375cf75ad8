//! A difference, told such that it can be looked into.

use std::fmt::Write;

use tests::calls::{Call, Guard, Reply, Request};
use tests::generate::Case;
use tests::reference::claims::ENTRY;
use tests::reference::sheet::{FINDINGS, NUMBERS};
use tests::reference::territories::territories;

/// What all differences tell: the call, the file and how to have it again.
pub fn head(case: &Case, call: Call, guard: Guard) -> String {
    let mut text = String::from("difference\n");
    let mut add = |name: &str, value: &str| {
        let _ = writeln!(text, "  {name:10} {value}");
    };
    add("call", call.name());
    add("kind", &case.kind);
    add("seed", &case.seed.to_string());
    if guard != Guard::None {
        add("guard", &format!("{guard:?}").to_lowercase());
    }
    add("file", &write(case, "cwr", &case.file));
    add("bytes", &case.file.len().to_string());
    if let Some(tolerance) = case.tolerance_of(call) {
        add("tolerance", &tolerance.to_string());
    }
    text
}

/// Writes what belongs to a difference; says where it is.
fn write(case: &Case, kind: &str, bytes: &[u8]) -> String {
    let path = std::env::temp_dir().join(format!("difference-{}.{kind}", case.seed));
    match std::fs::write(&path, bytes) {
        Ok(()) => path.display().to_string(),
        Err(error) => format!("not written: {error}"),
    }
}

/// Of two replies, or of a reply and no reply; or of a reply and what is read
/// off the library's other answers.
pub fn of_replies(
    case: &Case,
    request: &Request,
    reference: &Reply,
    library: &Result<Reply, String>,
    read_off: Option<String>,
) -> String {
    let call = request.call;
    let mut text = head(case, call, request.guard);
    let mut add = |name: &str, value: &str| {
        let _ = writeln!(text, "  {name:10} {value}");
    };
    match call {
        Call::Bits => add("set", &format!("{:#x}", request.number)),
        Call::Check | Call::Within | Call::Claims | Call::First | Call::Sheet => {
            if call == Call::Sheet {
                add("sheet", &write(case, "sheet", &request.buffers[0]));
            }
            for (name, table) in ["languages", "societies", "categories"]
                .iter()
                .zip(&request.tables)
            {
                let mut words = format!("{} bytes", table.len());
                if table.len() <= 60 {
                    let _ = write!(words, ": \"{}\"", table.escape_ascii());
                }
                add(name, &words);
            }
            if call == Call::Claims {
                add("territories", &of_territories(&request.territories));
                let entries = request.buffers[2].len() / ENTRY;
                add("claims", &format!("a list of {entries} entries"));
            }
        }
        _ => {}
    }
    for (name, buffer) in BUFFERS.iter().zip(&request.buffers) {
        if !buffer.is_empty() {
            add(name, &format!("{} bytes", buffer.len()));
        }
    }
    add("reference", &reference.describe(call));
    if let Some(words) = read_off {
        add("read off", &words);
    }
    let library = match library {
        Err(how) => {
            add("library", how);
            return text;
        }
        Ok(library) => library,
    };
    add("library", &library.describe(call));
    if call.judges() && reference.packed == library.packed && reference.refusal() == 0 {
        if let Some((name, words)) = of_records(request, reference, library) {
            add(&name, &words);
        }
    }
    if call == Call::Record {
        if let Some((name, words)) = of_lengths(request, reference, library) {
            add(&name, &words);
        }
    }
    if call == Call::Sheet {
        if let Some(words) = of_numbers(&reference.buffers[0], &library.buffers[0]) {
            add("number", &words);
        }
    }
    for (which, name) in BUFFERS.iter().enumerate() {
        let (one, other) = (&reference.buffers[which], &library.buffers[which]);
        let differing: Vec<usize> = (0..one.len()).filter(|&at| one[at] != other[at]).collect();
        if let Some(&first) = differing.first() {
            let words = format!(
                "{} bytes differ, the first at {first}: {} before, reference {}, library {}",
                differing.len(),
                request.buffers[which][first],
                one[first],
                other[first],
            );
            add(name, &words);
        }
    }
    text
}

/// What the buffers are called.
const BUFFERS: [&str; 4] = ["buffer", "second", "list", "over"];

/// A territory table in words: its first entries, each with its group.
fn of_territories(table: &[u8]) -> String {
    let mut words = format!("{} bytes:", table.len());
    for territory in territories(table).iter().take(12) {
        let _ = write!(words, " \"{}\"", territory.code.escape_ascii());
        if let Some(group) = territory.group {
            let _ = write!(words, " in {group}");
        }
    }
    words
}

/// The first record that is judged otherwise.
fn of_records(request: &Request, reference: &Reply, library: &Reply) -> Option<(String, String)> {
    let records = reference.packed as usize;
    let judged = |reply: &Reply, record: usize| (reply.buffers[0][record], reply.set(record));
    let record =
        (0..records).find(|&record| judged(reference, record) != judged(library, record))?;
    let line = request
        .file
        .split(|&byte| byte == b'\n')
        .nth(record)
        .unwrap_or(&[]);
    let kind = String::from_utf8_lossy(&line[..line.len().min(3)]).into_owned();
    let words = |reply: &Reply| {
        let (verdict, set) = judged(reply, record);
        let findings: Vec<_> = (0..64).filter(|n| set >> n & 1 == 1).collect();
        format!("verdict {verdict}, findings {findings:?}")
    };
    let words = format!(
        "{kind}: reference {}; library {}",
        words(reference),
        words(library)
    );
    Some((format!("record {record}"), words))
}

/// The first record whose type has another length.
fn of_lengths(request: &Request, reference: &Reply, library: &Reply) -> Option<(String, String)> {
    let mut answers = reference.lengths().zip(library.lengths());
    let record = answers.position(|(one, other)| one != other)?;
    let length = |reply: &Reply| reply.lengths().nth(record).unwrap_or(0);
    let text = request.records()[record];
    let words = format!(
        "\"{}\" of {} bytes: reference {}, library {}",
        text[..text.len().min(3)].escape_ascii(),
        text.len(),
        length(reference),
        length(library)
    );
    Some((format!("record {record}"), words))
}

/// The first number of two sheets that is not the same.
fn of_numbers(reference: &[u8], library: &[u8]) -> Option<String> {
    let mut numbers = reference.chunks_exact(8).zip(library.chunks_exact(8));
    let at = numbers.position(|(one, other)| one != other)?;
    let name = match at {
        0 => "files".to_string(),
        1 => "files refused".to_string(),
        2..14 => {
            let right = ["PR", "MR", "SR"][(at - 2) / 4];
            let figure = ["misses", "shortfall", "excess", "differences"][(at - 2) % 4];
            format!("{right} {figure}")
        }
        _ if at < 14 + FINDINGS => format!("records with finding {}", at - 14),
        _ if at < NUMBERS => format!("records with verdict {}", at - 14 - FINDINGS),
        _ => "beyond the sheet".to_string(),
    };
    let number = |sheet: &[u8]| {
        let bytes = &sheet[8 * at..8 * at + 8];
        let number = u64::from_le_bytes(bytes.try_into().expect("eight bytes"));
        match name.ends_with("differences") {
            true => (number as i64).to_string(),
            false => number.to_string(),
        }
    };
    Some(format!(
        "{at}, {name}: reference {}, library {}",
        number(reference),
        number(library)
    ))
}

/// Of two sheets of a list, each made of all its files.
pub fn of_sheets(list: &Case, words: &str, one: &[u8], other: &[u8]) -> String {
    let mut text = head(list, Call::Sheet, Guard::None);
    let _ = writeln!(text, "  library    {words}");
    if let Some(words) = of_numbers(one, other) {
        let _ = writeln!(text, "  number     {words}");
    }
    text
}

/// Of two listings.
pub fn of_listings(case: &Case, reference: &[u8], library: &Result<Vec<u8>, String>) -> String {
    let mut text = head(case, Call::Listing, Guard::None);
    let library = match library {
        Err(how) => {
            let _ = writeln!(text, "  library    {how}");
            return text;
        }
        Ok(library) => library,
    };
    let mut lines =
        [reference, library].map(|listing| listing.split_inclusive(|&byte| byte == b'\n'));
    for number in 0.. {
        let [one, other] = lines.each_mut().map(|lines| lines.next());
        if one != other || one.is_none() {
            let show = |line: Option<&[u8]>| match line {
                Some(line) => format!("{:?}", String::from_utf8_lossy(line)),
                None => "nothing".to_string(),
            };
            let _ = writeln!(text, "  reference  line {number}: {}", show(one));
            let _ = writeln!(text, "  library    line {number}: {}", show(other));
            break;
        }
    }
    text
}
