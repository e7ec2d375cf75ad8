//! Sheets that are carried over lists of files: the library's own bytes go back
//! to it with the next file, and are compared after each.

use tests::calls::{Call, Guard, Reply};
use tests::driver::Driver;
use tests::generate::{case, Case};
use tests::read_off::records_on_sheet;
use tests::reference::sheet::{judge, Sheet, BYTES, MOST_FILES};
use tests::reference::Tables;

use crate::options::Options;
use crate::tally::Tally;
use crate::{compare_request, difference, Stop};

/// A sheet and what the library has answered for it.
pub struct Carried {
    sheet: Vec<u8>,
    /// Those of the files that passed.
    records: u64,
}

impl Carried {
    pub fn fresh() -> Carried {
        Carried {
            sheet: vec![0; BYTES],
            records: 0,
        }
    }

    /// Adds a file. The five verdicts on the library's sheet must come to the
    /// records of the files that it passed, whatever the reference says.
    pub fn add(
        &mut self,
        options: &Options,
        case: &Case,
        driver: &mut Driver,
        tally: &mut Tally,
    ) -> Result<Reply, Stop> {
        let before = self.records;
        let records = |reply: &Reply| before + passed(reply);
        let otherwise = |reply: &Reply| {
            let (counted, records) = (records_on_sheet(&reply.buffers[0]), records(reply));
            let words = format!("verdicts of {counted} records, {records} passed");
            (counted != u128::from(records)).then_some(words)
        };
        let request = case.added_to(self.sheet.clone(), Guard::None);
        let reply = compare_request(options, case, request, driver, &otherwise, tally)?;
        self.records = records(&reply);
        self.sheet.clone_from(&reply.buffers[0]);
        tally.carried += 1;
        Ok(reply)
    }
}

/// The records of a file that passed.
fn passed(reply: &Reply) -> u64 {
    match reply.refusal() {
        0 => reply.packed,
        _ => 0,
    }
}

/// Carries a sheet over all files of a list. In the end it is that of the list,
/// and the same in another order.
pub fn compare_list(
    options: &Options,
    list: &Case,
    driver: &mut Driver,
    tally: &mut Tally,
) -> Result<(), Stop> {
    let files = || list.list.iter().map(|&seed| case(seed).expect("a file"));
    let mut carried = Carried::fresh();
    let mut answers = Vec::new();
    for file in files() {
        answers.push(carried.add(options, &file, driver, tally)?.packed);
    }
    let taken: Vec<_> = files()
        .take(MOST_FILES as usize)
        .map(|file| judge(&file.file, &Tables::of(&file.tables)))
        .collect();
    let whole = Sheet::of_list(&taken).bytes();
    if carried.sheet != whole {
        let words = "in the end, the sheet is not that of the whole list";
        let text = difference::of_sheets(list, words, &whole, &carried.sheet);
        return Err(Stop::Difference(text));
    }
    // Where it is full, the order decides which files it has.
    if answers.len() as u64 <= MOST_FILES {
        compare_order(list, driver, &carried.sheet, &answers)?;
        tally.orders += 1;
    }
    Ok(())
}

/// The library alone: the list from its end gives the same answers and the same
/// sheet.
fn compare_order(
    list: &Case,
    driver: &mut Driver,
    forwards: &[u8],
    answers: &[u64],
) -> Result<(), Stop> {
    let differs = |words: &str, one: &[u8], other: &[u8]| {
        let words = format!("from the list's end, {words}");
        Stop::Difference(difference::of_sheets(list, &words, one, other))
    };
    let mut sheet = vec![0; BYTES];
    for (&seed, &answer) in list.list.iter().zip(answers).rev() {
        let file = case(seed).expect("a file");
        let request = file.added_to(sheet, Guard::None);
        let reply = driver
            .ask(&request)
            .map_err(|how| differs(&how, &[], &[]))?;
        if reply.packed != answer {
            let words = format!("file {seed} is {}", reply.describe(Call::Sheet));
            return Err(differs(&words, &[], &[]));
        }
        [sheet, ..] = reply.buffers;
    }
    if sheet != forwards {
        return Err(differs("the sheet is another", forwards, &sheet));
    }
    Ok(())
}
