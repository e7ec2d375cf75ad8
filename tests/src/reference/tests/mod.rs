//! Expectations made by hand from the scope and its readings.

mod claims;
mod findings;
mod first;
mod lent;
mod listing;
mod order;
mod sheet;
mod short;
mod sides;
mod structure;
mod verdicts;

use super::listing::TABLES;
use super::{check_short, numbering, Answer, First, Tables};

/// The short form of the check is the one with 0, of whatever is lent: the same
/// answer and the same bytes, and never refusal 1. All calls below see to it for
/// their file, so that it holds for every example.
fn short_form(file: &[u8], tables: &Tables, verdicts: &[u8], findings: &[u8]) {
    let asked = |call: &dyn Fn(&mut [u8], &mut [u8]) -> Answer| {
        let (mut verdicts, mut findings) = (verdicts.to_vec(), findings.to_vec());
        let answer = call(&mut verdicts, &mut findings);
        (answer, verdicts, findings)
    };
    let short = asked(&|verdicts, findings| check_short(file, tables, verdicts, findings));
    let with_0 = asked(&|verdicts, findings| super::check(0, file, tables, verdicts, findings));
    assert!(short == with_0, "{:?}, {:?}", short.0, with_0.0);
    assert!(!matches!(short.0, Answer::Refused { number: 1, .. }));
}

/// The same, with just enough room for the lines.
fn short_form_of(file: &[u8], tables: &Tables) {
    let lines = file.windows(2).filter(|pair| pair == b"\r\n").count();
    short_form(file, tables, &vec![9; lines], &vec![9; 8 * lines]);
}

fn check(
    tolerance: u64,
    file: &[u8],
    tables: &Tables,
    verdicts: &mut [u8],
    findings: &mut [u8],
) -> Answer {
    short_form(file, tables, verdicts, findings);
    super::check(tolerance, file, tables, verdicts, findings)
}

fn structure(file: &[u8]) -> Answer {
    short_form_of(file, &TABLES);
    super::structure(file)
}

fn first_rejected(tolerance: u64, file: &[u8], tables: &Tables) -> First {
    short_form_of(file, tables);
    super::first_rejected(tolerance, file, tables)
}

fn listing(input: &[u8]) -> Vec<u8> {
    short_form_of(input, &TABLES);
    super::listing(input)
}

fn sheet_add(sheet: &mut [u8], file: &[u8], tables: &Tables) -> Answer {
    short_form_of(file, tables);
    super::sheet_add(sheet, file, tables)
}

/// A record: text put at positions counted from 1, blanks elsewhere.
fn record(length: usize, parts: &[(usize, &str)]) -> Vec<u8> {
    let mut record = vec![b' '; length];
    for &(start, text) in parts {
        record[start - 1..start - 1 + text.len()].copy_from_slice(text.as_bytes());
    }
    record
}

fn join(records: &[Vec<u8>]) -> Vec<u8> {
    let mut file = Vec::new();
    for record in records {
        file.extend_from_slice(record);
        file.extend_from_slice(b"\r\n");
    }
    file
}

fn hdr() -> Vec<u8> {
    record(167, &[(1, "HDR"), (102, "2.2002")])
}

fn grh(group: &str) -> Vec<u8> {
    record(28, &[(1, "GRHNWR"), (7, group)])
}

fn nwr(prefix: &str) -> Vec<u8> {
    record(
        260,
        &[
            (1, "NWR"),
            (4, prefix),
            (20, "A"),
            (82, "1"),
            (107, "00000000"),
            (127, "POP000000"),
        ],
    )
}

fn swr(prefix: &str) -> Vec<u8> {
    record(
        180,
        &[
            (1, "SWR"),
            (4, prefix),
            (20, "1"),
            (29, "B"),
            (105, "C"),
            (130, "10000"),
            (138, "10000"),
            (146, "10000"),
        ],
    )
}

fn grt(numbers: &str) -> Vec<u8> {
    record(37, &[(1, "GRT"), (4, numbers)])
}

fn trl(numbers: &str) -> Vec<u8> {
    record(24, &[(1, "TRL"), (4, numbers)])
}

fn records_a() -> Vec<Vec<u8>> {
    vec![
        hdr(),
        grh("00001"),
        nwr("0000000000000000"),
        swr("0000000000000001"),
        grt("000010000000100000004"),
        trl("000010000000100000006"),
    ]
}

fn file_a() -> Vec<u8> {
    join(&records_a())
}

fn refusal(number: u32, place: u32) -> Answer {
    Answer::Refused { number, place }
}

fn passes(groups: u64, transactions: u64, records: u64) -> Answer {
    Answer::Passed {
        groups,
        transactions,
        records,
    }
}

/// The answer of a check with its verdicts and findings.
struct Judged {
    answer: Answer,
    verdicts: Vec<u8>,
    findings: Vec<Vec<u32>>,
}

/// Checks records that need not be numbered yet.
fn judge_all(records: &[Vec<u8>], tables: &Tables, tolerance: u64) -> Judged {
    let unnumbered = join(records);
    let mut file = vec![0; unnumbered.len()];
    numbering(&unnumbered, &mut file);
    let mut verdicts = vec![9; records.len()];
    let mut findings = vec![9; 8 * records.len()];
    let answer = check(tolerance, &file, tables, &mut verdicts, &mut findings);
    let set = |set: &[u8]| {
        let bit = |n: &u32| set[*n as usize / 8] >> (n % 8) & 1 == 1;
        (0..64).filter(bit).collect()
    };
    Judged {
        answer,
        verdicts,
        findings: findings.chunks(8).map(set).collect(),
    }
}

/// The records of a file whose only transaction this is.
fn file_of(work: &[Vec<u8>]) -> Vec<Vec<u8>> {
    let mut records = vec![hdr(), grh("00001")];
    records.extend_from_slice(work);
    records.extend([grt(""), trl("")]);
    records
}

/// The findings of a transaction's records, with the listing's tables.
fn judge_within(tolerance: u64, work: &[Vec<u8>]) -> Vec<Vec<u32>> {
    let judged = judge_all(&file_of(work), &TABLES, tolerance);
    assert_eq!(judged.answer, passes(1, 1, work.len() as u64 + 4));
    judged.findings[2..judged.findings.len() - 2].to_vec()
}

fn judge(work: &[Vec<u8>]) -> Vec<Vec<u32>> {
    judge_within(6, work)
}

/// A header, a writer or a publisher without findings, and the text that is
/// put over it.
fn header(parts: &[(usize, &str)]) -> Vec<u8> {
    over(nwr(""), parts)
}

fn writer(name: &str, shares: [u32; 3], parts: &[(usize, &str)]) -> Vec<u8> {
    let shares = shares.map(|share| format!("{share:05}"));
    let [pr, mr, sr] = &shares;
    let writer = over(swr(""), &[(1, name), (130, pr), (138, mr), (146, sr)]);
    over(writer, parts)
}

fn publisher(name: &str, shares: [u32; 3], parts: &[(usize, &str)]) -> Vec<u8> {
    let shares = shares.map(|share| format!("{share:05}"));
    let [pr, mr, sr] = &shares;
    let publisher = record(
        183,
        &[
            (1, name),
            (20, "01"),
            (22, "1"),
            (31, "B"),
            (77, "E"),
            (116, pr),
            (124, mr),
            (132, sr),
        ],
    );
    over(publisher, parts)
}

/// A detail of a type without fields that matter here.
fn detail(name: &str) -> Vec<u8> {
    let row = super::types::find(name.as_bytes()).expect("a known type");
    record(row.length(), &[(1, name)])
}

fn over(mut record: Vec<u8>, parts: &[(usize, &str)]) -> Vec<u8> {
    for &(start, text) in parts {
        record[start - 1..start - 1 + text.len()].copy_from_slice(text.as_bytes());
    }
    record
}
