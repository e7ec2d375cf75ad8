//! The number positions and the right digits in each, from the records'
//! places alone.

use super::types::Class;
use super::{field, Counts};

/// A number as it should stand in a record.
#[derive(Clone, Debug, PartialEq, Eq)]
pub struct Number {
    /// Position of its first digit, counted from 1.
    pub start: usize,
    pub digits: String,
}

impl Number {
    fn new(start: usize, size: usize, value: u64) -> Number {
        let digits = format!("{value:0size$}");
        // There are too few records for a number with more digits.
        assert_eq!(digits.len(), size);
        Number { start, digits }
    }

    /// Each byte must be the right digit; a space for a leading zero is not.
    pub fn stands_in(&self, record: &[u8]) -> bool {
        field(record, self.start, self.digits.len()) == self.digits.as_bytes()
    }
}

/// The right numbers of each record of a file that is right by 7.
pub fn right_numbers(classes: &[Class]) -> Vec<Vec<Number>> {
    let mut all = Vec::with_capacity(classes.len());
    let mut groups = 0;
    let mut transactions = 0;
    let mut group_transactions = 0;
    let mut group_records = 0;
    let mut details = 0;
    for class in classes {
        group_records += 1;
        all.push(match class {
            Class::Hdr => vec![],
            Class::Grh => {
                // Groups count from 1.
                groups += 1;
                group_transactions = 0;
                group_records = 1;
                vec![Number::new(7, 5, groups)]
            }
            Class::Header => {
                // Each group begins anew, with transaction 0; the header is
                // record 0 of its transaction.
                let transaction = group_transactions;
                group_transactions += 1;
                transactions += 1;
                details = 0;
                vec![Number::new(4, 8, transaction), Number::new(12, 8, 0)]
            }
            Class::Detail => {
                // After the header, which was 0.
                details += 1;
                vec![
                    Number::new(4, 8, group_transactions - 1),
                    Number::new(12, 8, details),
                ]
            }
            Class::Grt => vec![
                Number::new(4, 5, groups),
                Number::new(9, 8, group_transactions),
                // Both ends of the group count.
                Number::new(17, 8, group_records),
            ],
            Class::Trl => vec![
                Number::new(4, 5, groups),
                Number::new(9, 8, transactions),
                // All there are.
                Number::new(17, 8, classes.len() as u64),
            ],
        });
    }
    all
}

/// The numbers of groups, transactions and records.
pub fn counts(classes: &[Class]) -> Counts {
    let number_of = |class| classes.iter().filter(|&&c| c == class).count() as u64;
    Counts {
        groups: number_of(Class::Grh),
        transactions: number_of(Class::Header),
        records: classes.len() as u64,
    }
}
