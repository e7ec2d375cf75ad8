//! What one answer says of another, as a caller would read it off, whoever gave
//! them. The first work to look at, of the findings that a check has written;
//! not the reference's way: the transactions are taken one by one, with all
//! findings of each together. The first work whose shares are over somewhere, of
//! the same. And the records of all files passed, of a sheet.

use crate::calls::Reply;
use crate::reference::claims::OVER;
use crate::reference::first::NO_TRANSACTION;

/// The findings that the scope marks TR or GR, in its order; 47 and 48, which no
/// call without a territory table sets, are not among them.
pub const REJECTING: [u32; 33] = [
    0, // GR; the others TR
    1, 2, 3, 4, 5, 6, 7, 8, 9, 10, 11, 12, 13, 14, 15, // over the transaction
    16, 17, 18, 21, 22, // on the header's fields
    25, 26, 27, 28, 29, 30, 31, 32, // publishers
    38, 39, 41, 42, // writers
];

/// What all records of each transaction have together.
pub fn transactions(file: &[u8], checked: &Reply) -> Vec<u64> {
    let mut transactions: Vec<u64> = Vec::new();
    for (record, line) in file.split_inclusive(|&byte| byte == b'\n').enumerate() {
        let set = checked.set(record);
        match &line[..3] {
            b"NWR" | b"REV" => transactions.push(set),
            b"HDR" | b"GRH" | b"GRT" | b"TRL" => {}
            _ => *transactions.last_mut().expect("a header before") |= set,
        }
    }
    transactions
}

/// The answer that goes with the reply to a check; none where it refused.
pub fn first_rejected(file: &[u8], checked: &Reply) -> Option<u64> {
    if checked.refusal() != 0 {
        return None;
    }
    let rejecting: u64 = REJECTING.iter().map(|finding| 1 << finding).sum();
    let transactions = transactions(file, checked);
    let first = transactions.iter().position(|set| set & rejecting != 0);
    Some(first.map_or(NO_TRANSACTION, |first| first as u64))
}

/// The transaction that `over` must name, by the findings beside it; none where
/// it refused. Whatever has answered, there may be less than it says.
pub fn first_over(file: &[u8], checked: &Reply) -> Option<u64> {
    let lines: Vec<&[u8]> = file.split_inclusive(|&byte| byte == b'\n').collect();
    let [_, findings, _, over] = &checked.buffers;
    if checked.refusal() != 0 || findings.len() < 8 * lines.len() || over.len() < OVER {
        return None;
    }
    let header = |&record: &usize| matches!(lines[record].get(..3), Some(b"NWR" | b"REV"));
    let mut headers = (0..lines.len()).filter(header);
    let first = headers.position(|record| checked.set(record) >> 47 & 1 == 1);
    Some(first.map_or(NO_TRANSACTION, |first| first as u64))
}

/// The records that the five verdicts of a sheet come to; they are its last
/// numbers. A sheet of any bytes may have more than 64 bits count.
pub fn records_on_sheet(sheet: &[u8]) -> u128 {
    let verdicts = sheet[624..664].chunks_exact(8);
    let records = |bytes: &[u8]| u64::from_le_bytes(bytes.try_into().expect("eight bytes"));
    verdicts.map(|bytes| u128::from(records(bytes))).sum()
}

#[cfg(test)]
mod tests {
    use super::*;
    use crate::calls::{expected, Call, Guard};
    use crate::generate::works::{file, plain_work};
    use crate::generate::{case, join, seeds, spread, Case};
    use crate::reference::verdicts::level;

    #[test]
    fn rejecting_findings() {
        let by_level: Vec<u32> = (0..=46).filter(|&n| level(n) >= 3).collect();
        assert_eq!(REJECTING[..], by_level);
    }

    /// A buffer that was written by whom ever: each finding on each record.
    #[test]
    fn read_off_any_findings() {
        let records = file("NWR", vec![plain_work(); 3]);
        let case = Case::new(0, String::new(), join(&records), &[Call::Check]);
        let right = expected(&case.request(Call::Check, Guard::None));
        assert_eq!(first_rejected(&case.file, &right), Some(NO_TRANSACTION));
        for finding in 0..=46u32 {
            for record in 2..8 {
                let mut reply = right.clone();
                // Not on the last record alone, whose transaction is the last.
                for at in [record, 7] {
                    reply.buffers[1][8 * at + finding as usize / 8] = 1 << (finding % 8);
                }
                let answer = match level(finding) {
                    3.. => (record as u64 - 2) / 2,
                    _ => NO_TRANSACTION,
                };
                assert_eq!(first_rejected(&case.file, &reply), Some(answer));
            }
        }
        let mut refused = right;
        refused.packed = 11 << 32;
        assert_eq!(first_rejected(&case.file, &refused), None);
    }

    /// 47 on each header, and on what is none; and answers that say more than
    /// they hold.
    #[test]
    fn read_off_what_is_over() {
        let records = file("NWR", vec![plain_work(); 3]);
        let case = Case::new(0, String::new(), join(&records), &[Call::Claims]);
        let right = expected(&case.request(Call::Claims, Guard::None));
        assert_eq!(first_over(&case.file, &right), Some(NO_TRANSACTION));
        for record in 0..10 {
            let mut reply = right.clone();
            for at in [record, 6] {
                reply.buffers[1][8 * at + 5] = 1 << 7;
            }
            let answer = match record {
                2 => 0,
                4 => 1,
                _ => 2,
            };
            assert_eq!(first_over(&case.file, &reply), Some(answer), "{record}");
            reply.buffers[1].pop();
            assert_eq!(first_over(&case.file, &reply), None);
        }
        let mut short = right.clone();
        short.buffers[3].pop();
        assert_eq!(first_over(&case.file, &short), None);
        assert_eq!(first_over(b"\n\nX\n", &right), Some(NO_TRANSACTION));
        let mut refused = right;
        refused.packed = 14 << 32;
        assert_eq!(first_over(&case.file, &refused), None);
    }

    /// The reference answers what is read off its own findings.
    #[test]
    fn the_reference_agrees() {
        let mut read = 0;
        for seed in spread(2, 3000).into_iter().chain(seeds(3, 4000)) {
            let case = case(seed).expect("a case");
            // Two forms of the check may have two tolerances.
            let tolerance = case.tolerance_of(Call::First);
            let beside = |call: &&Call| call.is_check() && case.tolerance_of(**call) == tolerance;
            let Some(check) = case.calls.iter().find(beside) else {
                continue;
            };
            let checked = expected(&case.request(*check, Guard::None));
            let first = expected(&case.request(Call::First, Guard::None));
            match first_rejected(&case.file, &checked) {
                Some(answer) => {
                    assert_eq!(first.packed, answer, "{}", case.kind);
                    read += 1;
                }
                None if checked.refusal() == 11 => assert_eq!(first.refusal(), 0),
                None => assert_eq!(first.packed, checked.packed, "{}", case.kind),
            }
        }
        assert!(read > 2000, "{read}");
    }

    /// Each of the five numbers counts, and no other.
    #[test]
    fn read_off_any_sheet() {
        assert_eq!(records_on_sheet(&[0; 664]), 0);
        for number in 0..83 {
            let mut sheet = [0; 700];
            sheet[8 * number..8 * number + 8].fill(255);
            let records = if number >= 78 { u64::MAX } else { 0 };
            assert_eq!(records_on_sheet(&sheet), u128::from(records), "{number}");
        }
        assert_eq!(records_on_sheet(&[255; 664]), 5 * u128::from(u64::MAX));
    }
}
