//! Faults of the listing program.

use tests::reference::lent::USUAL_TOLERANCE;
use tests::reference::listing;
use tests::reference::listing::listing_within;

use crate::claims::of_a_table;
use crate::ListingFault;

/// The right listing, in which a text takes another's place.
fn with(input: &[u8], from: &str, to: &str) -> Vec<u8> {
    let right = String::from_utf8(listing(input)).expect("a listing is text");
    right.replace(from, to).into_bytes()
}

/// The right listing with the words of each line changed.
fn lines(input: &[u8], change: fn(&mut Vec<&str>)) -> Vec<u8> {
    let right = String::from_utf8(listing(input)).expect("a listing is text");
    let mut changed = String::new();
    for line in right.lines() {
        let mut words: Vec<_> = line.split(' ').collect();
        change(&mut words);
        changed += &words.join(" ");
        changed += "\n";
    }
    changed.into_bytes()
}

/// The number of findings with this one too, by territories that nobody has lent.
fn with_finding(input: &[u8], finding: u32) -> Vec<u8> {
    let right = listing(input);
    if !right.starts_with(b"GROUPS") {
        return right;
    }
    let sets = of_a_table(input, USUAL_TOLERANCE);
    let mut changed = String::new();
    for (line, text) in String::from_utf8_lossy(&right).lines().enumerate() {
        let mut words: Vec<String> = text.split(' ').map(String::from).collect();
        // The first line is no record's.
        if line > 0 && sets[line - 1] >> finding & 1 == 1 {
            let number: u64 = words[3].parse().expect("a number");
            words[3] = (number + 1).to_string();
        }
        changed += &words.join(" ");
        changed += "\n";
    }
    changed.into_bytes()
}

pub const FAULTS: &[ListingFault] = &[
    ("listing-crlf", |input| with(input, "\n", "\r\n")),
    ("listing-no-last-lf", |input| {
        let mut right = listing(input);
        right.pop();
        right
    }),
    ("listing-64", |input| with(input, " -\n", " 64\n")),
    ("listing-two-spaces", |input| with(input, " 0 -", " 0  -")),
    ("listing-from-1", |input| {
        lines(input, |words| {
            let number = words[0]
                .parse::<u64>()
                .map(|number| (number + 1).to_string());
            if let Ok(number) = number {
                words[0] = number.leak();
            }
        })
    }),
    ("listing-groups-and-transactions", |input| {
        lines(input, |words| {
            if words[0] == "GROUPS" {
                words.swap(1, 3);
            }
        })
    }),
    ("listing-verdict-and-number", |input| {
        lines(input, |words| {
            if words.len() == 5 {
                words.swap(2, 3);
            }
        })
    }),
    ("listing-without-place", |input| {
        lines(input, |words| {
            if words[0] == "REFUSED" {
                words.pop();
            }
        })
    }),
    ("listing-65536", |input| match input.len() {
        65_536 => b"INPUT TOO LONG\n".to_vec(),
        _ => listing(input),
    }),
    ("listing-65537", |input| {
        listing(&input[..input.len().min(65_536)])
    }),
    ("listing-tolerance-0", |input| listing_within(0, input)),
    ("listing-tolerance-5", |input| listing_within(5, input)),
    ("listing-47", |input| with_finding(input, 47)),
    ("listing-48", |input| with_finding(input, 48)),
    ("listing-empty", |input| match input {
        [] => b"REFUSED 4 0\n".to_vec(),
        _ => listing(input),
    }),
    ("listing-killed", |input| {
        if input.is_empty() {
            std::process::abort();
        }
        listing(input)
    }),
];
