//! The listing.

use super::*;

#[test]
fn file_a_to_the_byte() {
    let expected = "\
GROUPS 1 TRANSACTIONS 1 RECORDS 6
0 HDR 0 0 -
1 GRH 0 0 -
2 NWR 0 0 -
3 SWR 0 0 -
4 GRT 0 0 -
5 TRL 0 0 -
";
    assert_eq!(listing(&file_a()), expected.as_bytes());
}

#[test]
fn empty_input() {
    assert_eq!(listing(b""), b"REFUSED 7 0\n");
}

#[test]
fn refusals() {
    assert_eq!(listing(b"A\r\nB"), b"REFUSED 4 1\n");
    assert_eq!(listing(b"\r\n"), b"REFUSED 6 0\n");
    let mut records = records_a();
    records[5] = trl("000010000000100000007");
    assert_eq!(listing(&join(&records)), b"REFUSED 9 5\n");
}

#[test]
fn longest_input() {
    // 65,536 bytes are still read; the limit is tested first.
    assert_eq!(listing(&vec![b' '; 65_536]), b"REFUSED 4 0\n");
    assert_eq!(listing(&vec![b' '; 65_537]), b"INPUT TOO LONG\n");
    assert_eq!(listing(&b"\r\n".repeat(32_769)), b"INPUT TOO LONG\n");
}

#[test]
fn findings_in_it() {
    let records = [
        hdr(),
        over(grh("00001"), &[(4, "REV")]),
        header(&[(4, "0000000000000000"), (20, " "), (130, "      ")]),
        grt("000010000000100000003"),
        over(grh("00002"), &[(4, "NWR")]),
        nwr("0000000000000000"),
        over(
            writer("OWR", [10_000; 3], &[(105, "XX")]),
            &[(4, "0000000000000001")],
        ),
        over(writer("SWR", [0; 3], &[]), &[(4, "0000000000000002")]),
        grt("000020000000100000005"),
        trl("000020000000200000010"),
    ];
    // OWR before SWR is out of order.
    let expected = "\
GROUPS 2 TRANSACTIONS 2 RECORDS 10
0 HDR 0 0 -
1 GRH 4 0 -
2 NWR 4 5 0
3 GRT 4 0 -
4 GRH 0 0 -
5 NWR 3 1 8
6 OWR 3 1 40
7 SWR 3 0 -
8 GRT 0 0 -
9 TRL 0 0 -
";
    assert_eq!(
        String::from_utf8(listing(&join(&records))).unwrap(),
        expected
    );
}

#[test]
fn number_and_lowest_of_a_set() {
    use crate::reference::findings::{count, lowest};
    let cases = [
        (0, 0, 64),
        (1, 1, 0),
        (0b1010, 2, 1),
        (1 << 46, 1, 46),
        (1 << 63, 1, 63),
        (u64::MAX, 64, 0),
        ((1 << 46) + (1 << 31), 2, 31),
    ];
    for (set, number, first) in cases {
        assert_eq!((count(set), lowest(set)), (number, first), "{set:#x}");
    }
}
