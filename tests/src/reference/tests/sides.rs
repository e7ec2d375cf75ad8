//! The scope's values on each side.

use super::*;
use crate::reference::values::{valid_date, valid_duration, valid_iswc};

#[test]
fn side_1_iswc_valid() {
    assert!(valid_iswc(b"T0345246801"));
    assert_eq!(judge(&[header(&[(96, "T0345246801")]), swr("")])[0], []);
}

#[test]
fn side_2_iswc_not_valid() {
    assert!(!valid_iswc(b"T0345246802"));
    assert_eq!(judge(&[header(&[(96, "T0345246802")]), swr("")])[0], [19]);
}

#[test]
fn side_3_iswc_of_002_valid() {
    assert!(valid_iswc(b"T0030749586"));
}

#[test]
fn side_4_leap_day_valid() {
    assert!(valid_date(b"20240229"));
    assert_eq!(judge(&[header(&[(107, "20240229")]), swr("")])[0], []);
}

#[test]
fn side_5_no_leap_day_in_1900() {
    assert!(!valid_date(b"19000229"));
    assert_eq!(judge(&[header(&[(107, "19000229")]), swr("")])[0], [20]);
}

#[test]
fn side_6_no_month_13() {
    assert!(!valid_date(b"20231301"));
}

#[test]
fn side_7_longest_duration_valid() {
    assert!(valid_duration(b"995959"));
}

#[test]
fn side_8_no_60_seconds() {
    assert!(!valid_duration(b"000060"));
    assert_eq!(judge(&[header(&[(130, "000060")]), swr("")])[0], [23]);
}

/// Publishers' and writers' PR, other rights 0: the header's findings.
fn pr(publishers: u32, writers: u32) -> Vec<u32> {
    let publisher = publisher("SPU", [publishers, 0, 0], &[]);
    let writer = writer("SWR", [writers, 0, 0], &[]);
    judge(&[nwr(""), publisher, writer])[0].clone()
}

#[test]
fn side_9_within_tolerance() {
    assert_eq!(pr(5006, 4994), []);
}

#[test]
fn side_10_beyond_tolerance() {
    assert_eq!(pr(5007, 4993), [1, 2]);
}

/// All rights to one writer: the header's findings.
fn all_rights(share: u32) -> Vec<u32> {
    judge(&[nwr(""), writer("SWR", [share; 3], &[])])[0].clone()
}

#[test]
fn side_11_one_writer_within_tolerance() {
    assert_eq!(all_rights(9994), []);
}

#[test]
fn side_12_one_writer_beyond_tolerance() {
    assert_eq!(all_rights(9993), [3]);
}

/// As M-102 has it: 3 and not 2.
#[test]
fn side_13_writers_total_3() {
    let work = [nwr(""), writer("SWR", [3, 0, 0], &[])];
    assert_eq!(judge(&work)[0], [3]);
    // A smaller tolerance does not cover it.
    assert_eq!(judge_within(2, &work)[0], [2, 3]);
}

#[test]
fn bad_length_in_record_9_and_a_second_hdr_at_3() {
    let mut records = file_of(&[
        nwr(""),
        swr(""),
        swr(""),
        swr(""),
        swr(""),
        swr(""),
        swr(""),
        swr(""),
    ]);
    records[3] = hdr();
    records[9].pop();
    let file = join(&records);
    assert_eq!(structure(&file), refusal(6, 9));
    let (mut verdicts, mut findings) = ([9; 12], [9; 96]);
    let answer = check(6, &file, &TABLES, &mut verdicts, &mut findings);
    assert_eq!(answer, refusal(6, 9));
    assert_eq!(answer.packed(), 0x6_0000_0009);
    assert_eq!((verdicts, findings), ([9; 12], [9; 96]));
}
