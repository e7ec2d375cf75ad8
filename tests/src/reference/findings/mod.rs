//! The findings, each a function with its number.

pub mod chains;
pub mod claims;
pub mod details;
pub mod header;
pub mod order;
pub mod publishers;
pub mod transaction;
pub mod writers;

use super::field;
use super::lent::Tables;
use super::lines::Line;
use super::types::Class;
use publishers::Publisher;
use writers::Writer;

/// What the findings of a transaction are judged by.
pub struct Transaction<'a> {
    pub tables: Tables<'a>,
    pub tolerance: u64,
    /// The GRH's transaction type.
    pub group_type: &'a [u8],
    pub header: &'a [u8],
    /// In their order, as are the next two, which are part of them.
    pub details: Vec<&'a [u8]>,
    pub publishers: Vec<Publisher<'a>>,
    pub writers: Vec<Writer<'a>>,
}

impl<'a> Transaction<'a> {
    fn new(
        tables: Tables<'a>,
        tolerance: u64,
        group_type: &'a [u8],
        header: &'a [u8],
        details: Vec<&'a [u8]>,
    ) -> Transaction<'a> {
        let publishers = publishers::of(&details);
        let writers = writers::of(&details);
        Transaction {
            tables,
            tolerance,
            group_type,
            header,
            details,
            publishers,
            writers,
        }
    }

    /// Whether a detail of one of these types is there.
    pub fn has(&self, types: &[&[u8]]) -> bool {
        self.number_of(types) > 0
    }

    pub fn number_of(&self, types: &[&[u8]]) -> usize {
        let wanted = |detail: &&&[u8]| types.contains(&&detail[..3]);
        self.details.iter().filter(wanted).count()
    }

    /// PR, MR and SR of all its publishers and writers together.
    pub fn totals(&self) -> [u64; 3] {
        transaction::of_all(self)
    }

    /// The sets of its records, the header first.
    fn sets(&self) -> Vec<u64> {
        let mut sets = vec![transaction::set(self) | header::set(self)];
        let (mut publishers, mut writers) = (self.publishers.iter(), self.writers.iter());
        for detail in &self.details {
            sets.push(match &detail[..3] {
                b"SPU" | b"OPU" => publishers.next().expect("one each").set(&self.tables),
                b"SWR" | b"OWR" => writers.next().expect("one each").set(),
                _ => details::set(detail),
            });
        }
        sets
    }
}

/// The set that has a finding's bit where the finding holds.
pub fn bit(finding: u32, holds: bool) -> u64 {
    u64::from(holds) << finding
}

/// The findings of every record of a file that is structurally right: bit n
/// for finding n.
pub fn sets(lines: &[Line], classes: &[Class], tables: Tables, tolerance: u64) -> Vec<u64> {
    of_records(
        lines.len(),
        &transactions(lines, classes, tables, tolerance),
    )
}

/// Its transactions, each with the record that is its header.
pub fn transactions<'a>(
    lines: &[Line<'a>],
    classes: &[Class],
    tables: Tables<'a>,
    tolerance: u64,
) -> Vec<(usize, Transaction<'a>)> {
    let mut transactions = Vec::new();
    let mut group_type: &[u8] = b"";
    for (at, class) in classes.iter().enumerate() {
        match class {
            Class::Grh => group_type = field(lines[at].text, 4, 3),
            Class::Header => {
                let details = lines[at + 1..].iter().zip(&classes[at + 1..]);
                let details = details.take_while(|(_, &class)| class == Class::Detail);
                let details = details.map(|(line, _)| line.text).collect();
                let header = lines[at].text;
                let transaction = Transaction::new(tables, tolerance, group_type, header, details);
                transactions.push((at, transaction));
            }
            _ => {}
        }
    }
    transactions
}

/// The findings of so many records by their transactions; the control records
/// have none of their own.
pub fn of_records(records: usize, transactions: &[(usize, Transaction)]) -> Vec<u64> {
    let mut sets = vec![0; records];
    for (at, transaction) in transactions {
        for (set, own) in sets[*at..].iter_mut().zip(transaction.sets()) {
            *set = own;
        }
    }
    sets
}

/// The number of findings in a set.
pub fn count(set: u64) -> u32 {
    (0..64).map(|finding| (set >> finding & 1) as u32).sum()
}

/// The lowest finding in a set; 64 for none.
pub fn lowest(set: u64) -> u32 {
    (0..64)
        .find(|finding| set >> finding & 1 == 1)
        .unwrap_or(64)
}
