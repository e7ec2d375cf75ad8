//! What a field holds: blanks, digits, codes, dates, durations, ISWCs.

/// All spaces; only byte 32 is blank.
pub fn blank(field: &[u8]) -> bool {
    field.iter().all(|&byte| byte == b' ')
}

/// Something stands in the field.
pub fn entered(field: &[u8]) -> bool {
    !blank(field)
}

pub fn all_zeros(field: &[u8]) -> bool {
    field.iter().all(|&byte| byte == b'0')
}

/// The value of a field of digits alone, bytes 48 to 57; else none.
pub fn digits(field: &[u8]) -> Option<u64> {
    let mut value = 0;
    for &byte in field {
        if !(48..=57).contains(&byte) {
            return None;
        }
        value = value * 10 + u64::from(byte - 48);
    }
    Some(value)
}

/// Whether a code is an entry of a lent table, whose entries are as long.
pub fn in_table(code: &[u8], table: &[u8]) -> bool {
    table.chunks_exact(code.len()).any(|entry| entry == code)
}

/// A day of the Gregorian calendar, carried back to the year 1.
pub fn valid_date(field: &[u8]) -> bool {
    let (Some(year), Some(month), Some(day)) = (
        digits(&field[..4]),
        digits(&field[4..6]),
        digits(&field[6..8]),
    ) else {
        return false;
    };
    let leap = year % 4 == 0 && (year % 100 != 0 || year % 400 == 0);
    let days = match month {
        1 | 3 | 5 | 7 | 8 | 10 | 12 => 31,
        4 | 6 | 9 | 11 => 30,
        2 if leap => 29,
        2 => 28,
        _ => return false,
    };
    year >= 1 && (1..=days).contains(&day)
}

/// Hours are not limited; minutes and seconds are.
pub fn valid_duration(field: &[u8]) -> bool {
    let (Some(_hours), Some(minutes), Some(seconds)) = (
        digits(&field[..2]),
        digits(&field[2..4]),
        digits(&field[4..6]),
    ) else {
        return false;
    };
    minutes <= 59 && seconds <= 59
}

/// The T counts as 1, each of nine digits as often as its place says, and the
/// last digit fills the sum up to tens.
pub fn valid_iswc(field: &[u8]) -> bool {
    if field[0] != b'T' || digits(&field[1..]).is_none() {
        return false;
    }
    let digit = |place: usize| u64::from(field[place] - 48);
    let weighted: u64 = (1..=9).map(|place| place as u64 * digit(place)).sum();
    (1 + weighted + digit(10)).is_multiple_of(10)
}
