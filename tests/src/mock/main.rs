//! A driver without the library: answers with the reference itself, or with
//! one fault on purpose, to show that `compare` finds it. With `--listing` it
//! stands for the listing program.
//!
//!     mock [--listing] [--fault NAME]      mock --faults

mod asked;
mod claims;
mod findings;
mod first;
mod lending;
mod listing;
mod lists;
mod record;
mod sheet;
mod structure;

use std::io::{self, stdin, stdout, BufReader, BufWriter, Read, Write};
use std::process::exit;

use asked::Asked;
use tests::calls::{read_request, write_reply, Call, Reply};
use tests::reference;

/// A name and what is answered. A name that ends with ", large" is of a fault
/// that only the files at the limits show.
type Fault = (&'static str, fn(&Asked) -> Reply);

/// The same of the listing program; its names begin with "listing".
type ListingFault = (&'static str, fn(&[u8]) -> Vec<u8>);

fn faults() -> impl Iterator<Item = &'static Fault> {
    structure::FAULTS
        .iter()
        .chain(lending::FAULTS)
        .chain(findings::FAULTS)
        .chain(record::FAULTS)
        .chain(first::FAULTS)
        .chain(sheet::FAULTS)
        .chain(claims::WITHOUT_A_TABLE)
        .chain(claims::FAULTS)
        .chain(lists::FAULTS)
}

/// Faults of the check that each call could have that checks in its own way.
const SHARED: &[&str] = &[
    "place-from-1",
    "second-hdr",
    "after-trl",
    "no-trl",
    "empty-file",
    "empty-lines",
    "cr-cr-lf",
    "text-at-end",
    "byte-31",
    "ascii-only",
    "lower-case",
    "isw-known",
    "shorter-lines",
    "grt-group-8",
    "nine-first",
    "ten-first",
    "blank-version",
    "revision-3",
    "limit-3, large",
    "limit-5, large",
    "five-before-four, large",
    "two-after-three",
    "table-place-0",
    "last-wrong-table",
    "entries-1025",
    "part-of-an-entry",
    "tables-exchanged",
    "refuses-everything",
];

/// Such a call has them under names that begin so; and those of its own.
const SHARING: [(&str, Call, &[&str]); 3] = [
    ("first: ", Call::First, first::SHARED),
    ("sheet: ", Call::Sheet, &[]),
    ("claims: ", Call::Claims, lists::SHARED),
];

fn main() -> io::Result<()> {
    let arguments: Vec<String> = std::env::args().skip(1).collect();
    let arguments: Vec<&str> = arguments.iter().map(String::as_str).collect();
    let (listing, rest) = match arguments[..] {
        ["--listing", ref rest @ ..] => (true, rest),
        ref rest => (false, rest),
    };
    let wanted = match rest {
        [] => "",
        ["--faults"] => {
            for (name, _) in faults() {
                println!("{name}");
            }
            for (prefix, _, besides) in SHARING {
                for name in SHARED.iter().chain(besides) {
                    println!("{prefix}{name}");
                }
            }
            for (name, _) in listing::FAULTS {
                println!("{name}");
            }
            return Ok(());
        }
        ["--fault", name] => name,
        _ => usage(),
    };
    let of_call = |(prefix, call, _): &(&str, Call, _)| {
        let shared = wanted.strip_prefix(prefix)?;
        Some((Some(*call), shared))
    };
    let (sharing, wanted) = SHARING.iter().find_map(of_call).unwrap_or((None, wanted));
    let fault = faults().find(|(name, _)| *name == wanted);
    let listing_fault = listing::FAULTS.iter().find(|(name, _)| *name == wanted);
    if !wanted.is_empty() && fault.is_none() && listing_fault.is_none() {
        usage();
    }
    if listing {
        let mut input = Vec::new();
        stdin().read_to_end(&mut input)?;
        let printed = match listing_fault {
            Some((_, fault)) => fault(&input),
            None => reference::listing(&input),
        };
        return stdout().write_all(&printed);
    }
    let mut input = BufReader::new(stdin().lock());
    let mut output = BufWriter::new(stdout().lock());
    while let Some(request) = read_request(&mut input)? {
        let asked = Asked(request);
        let reply = match fault {
            Some((name, fault)) if concerns(name, sharing, asked.call) => fault(&asked),
            _ => asked.right(),
        };
        write_reply(&mut output, &reply)?;
    }
    Ok(())
}

/// Whether a fault is one of this call: those of `record`, `first`, `sheet` and
/// `claims` are of no other, nor others of them but where they share one.
fn concerns(name: &str, sharing: Option<Call>, call: Call) -> bool {
    if sharing.is_some() {
        return sharing == Some(call);
    }
    let apart = [
        (Call::Record, record::FAULTS),
        (Call::First, first::FAULTS),
        (Call::Sheet, sheet::FAULTS),
        (Call::Claims, claims::FAULTS),
        (Call::Claims, lists::FAULTS),
    ];
    let among = |faults: &[Fault]| faults.iter().any(|(fault, _)| *fault == name);
    match apart.iter().find(|(_, faults)| among(faults)) {
        Some((of, _)) => *of == call,
        None => !apart.iter().any(|(of, _)| *of == call),
    }
}

fn usage() -> ! {
    eprintln!("mock [--listing] [--fault NAME]\nmock --faults");
    exit(2);
}
