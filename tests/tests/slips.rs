//! The slips that the scope names: the reading gives the right answer, and the
//! comparison finds a program with that very slip.

use std::process::Command;

use tests::generate::join;
use tests::generate::works::{file, plain_work, publisher, set_shares, writer, Records};
use tests::reference::listing::TABLES;
use tests::reference::{check_short, Answer};

/// The findings of a work's records, the header first.
fn findings(work: Records) -> Vec<Vec<u32>> {
    let records = file("NWR", vec![work]);
    let (mut verdicts, mut sets) = (vec![0; records.len()], vec![0; 8 * records.len()]);
    let answer = check_short(&join(&records), &TABLES, &mut verdicts, &mut sets);
    assert!(matches!(answer, Answer::Passed { .. }));
    let sets = sets
        .chunks(8)
        .map(|set| u64::from_le_bytes(set.try_into().unwrap()));
    let findings = sets.map(|set| (0..64).filter(|n| set >> n & 1 == 1).collect());
    let findings: Vec<_> = findings.collect();
    findings[2..findings.len() - 2].to_vec()
}

/// A run against the mock with this fault finds a difference in a check.
fn found(fault: &str, options: &[&str]) {
    let output = Command::new(env!("CARGO_BIN_EXE_compare"))
        .env("TMPDIR", env!("CARGO_TARGET_TMPDIR"))
        .args(options)
        .args(["--", env!("CARGO_BIN_EXE_mock"), "--fault", fault])
        .output()
        .expect("compare runs");
    let text = String::from_utf8(output.stdout).expect("text");
    assert_eq!(output.status.code(), Some(1), "{text}");
    assert!(text.starts_with("difference\n"), "{text}");
    assert!(text.contains("  call       check\n") || text.contains("  call       within\n"));
}

/// Seven writers' MR at 10000 and one at 5536 come to 75536.
#[test]
fn totals_in_sixteen_bits() {
    let mut work = plain_work();
    work.truncate(1);
    for share in [10_000; 7].into_iter().chain([5536]) {
        work.push(writer("SWR", "C ", [0, share, 0]));
    }
    assert_eq!(75_536 % 65_536, 10_000);
    assert_eq!(findings(work)[0], [2, 3]);
    found("totals-16-bits", &[]);
}

/// As many writers as it takes to come to 10000 once more.
#[test]
fn totals_in_thirty_two_bits() {
    assert_eq!((42_950u64 * 99_999 + 20_246) % (1 << 32), 10_000);
    found("totals-32-bits, large", &["--limits", "--only", "within"]);
}

#[test]
fn iswc_sum_without_its_leading_1() {
    let with = |iswc: &str| {
        let mut work = plain_work();
        work[0][95..106].copy_from_slice(iswc.as_bytes());
        findings(work).remove(0)
    };
    // Right with the 1, and right without.
    assert_eq!(with("T0345246801"), []);
    assert_eq!(with("T0345246802"), [19]);
    found("iswc-without-1", &[]);
}

#[test]
fn blank_type_of_an_opu_as_no_type() {
    let mut work = plain_work();
    set_shares(&mut work[1], [10_000, 9_998, 10_000]);
    work.insert(1, publisher("OPU", "  ", [0, 1, 0]));
    work.insert(2, publisher("OPU", "E ", [0, 1, 0]));
    // Two Es in one chain; the first is one by default.
    assert_eq!(findings(work.clone())[..2], [vec![11], vec![35]]);
    // And it is the E before an AQ.
    work[2] = publisher("SPU", "AQ", [0, 1, 0]);
    assert_eq!(findings(work)[0], [8, 14]);
    found("opu-blank-type-none", &[]);
}
