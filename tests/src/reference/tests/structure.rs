//! Refusals 3 to 11 and numbering.

use super::*;
use crate::reference::record_length;
use crate::reference::types::{self, Class, TYPES};

fn ter(prefix: &str) -> Vec<u8> {
    record(24, &[(1, "TER"), (4, prefix)])
}

/// Two groups; three transactions, one of them with two details.
fn records_b() -> Vec<Vec<u8>> {
    vec![
        hdr(),
        grh("00001"),
        nwr("0000000000000000"),
        ter("0000000000000001"),
        ter("0000000000000002"),
        nwr("0000000100000000"),
        ter("0000000100000001"),
        grt("000010000000200000007"),
        grh("00002"),
        nwr("0000000000000000"),
        grt("000020000000100000003"),
        trl("000020000000300000012"),
    ]
}

/// Both calls' answers; numbering has a buffer of the file's length.
fn both(file: &[u8]) -> (Answer, Answer) {
    let mut out = vec![0; file.len()];
    (structure(file), numbering(file, &mut out))
}

#[test]
fn file_a_passes() {
    assert_eq!(both(&file_a()), (passes(1, 1, 6), passes(1, 1, 6)));
    assert_eq!(structure(&file_a()).packed(), 6);
    assert_eq!(
        both(&join(&records_b())),
        (passes(2, 3, 12), passes(2, 3, 12))
    );
}

#[test]
fn packed_answers() {
    assert_eq!(refusal(7, 0).packed(), 0x7_0000_0000);
    assert_eq!(refusal(6, 9).packed(), 0x6_0000_0009);
    assert_eq!(refusal(5, 131_072).packed(), 0x5_0002_0000);
}

#[test]
fn lengths_of_the_readings() {
    let groups: [(usize, &str); 30] = [
        (167, "HDR"),
        (28, "GRH"),
        (37, "GRT"),
        (24, "TRL"),
        (260, "NWR REV"),
        (24, "TER"),
        (153, "IPA"),
        (350, "NPA"),
        (183, "SPU OPU"),
        (512, "NPN"),
        (58, "SPT OPT"),
        (180, "SWR OWR"),
        (350, "NWN"),
        (52, "SWT OWT"),
        (112, "PWR"),
        (83, "ALT"),
        (663, "NAT"),
        (364, "EWT VER"),
        (118, "PER"),
        (370, "NPR"),
        (540, "REC"),
        (348, "ORN"),
        (75, "INS"),
        (25, "IND"),
        (308, "COM"),
        (185, "MSG"),
        (661, "NET NCT NVT"),
        (342, "NOW"),
        (201, "ARI"),
        (38, "XRF"),
    ];
    let mut seen = 0;
    for (length, names) in groups {
        for name in names.split_whitespace() {
            let row = types::find(name.as_bytes()).expect(name);
            assert_eq!(row.length(), length, "{name}");
            seen += 1;
        }
    }
    assert_eq!((seen, TYPES.len()), (38, 38));
    for unknown in ["AGR", "ISW", "EXC", "ACK", "nwr", "NW", "", "   "] {
        assert_eq!(types::find(unknown.as_bytes()), None);
    }
}

#[test]
fn lengths_of_records() {
    for (record, length) in [
        (&b"HDR"[..], 167),
        (b"NWR", 260),
        (b"REC", 540),
        (b"TRL", 24),
        // Whatever comes after the three bytes.
        (b"GRT0", 37),
        (b"NAT\0\r\n\xff", 663),
        (b"XRFNWR", 38),
        (b"AGR", 0),
        (b"ISW", 0),
        (b"EXC", 0),
        (b"ACK", 0),
        (b"NWr", 0),
        (b"NWT", 0),
        (b" NWR", 0),
        (b"RWN", 0),
        (b"\xceWR", 0),
        (b"\xff\xff\xff", 0),
        (b"NW", 0),
        (b"N", 0),
        (b"", 0),
    ] {
        assert_eq!(record_length(record), length, "{record:?}");
    }
    // A record of its type's length, and those that 6 refuses.
    for record in records_a() {
        assert_eq!(record_length(&record) as usize, record.len());
        assert_eq!(
            record_length(&record[..record.len() - 1]),
            record_length(&record)
        );
        assert_eq!(
            record_length(&[&record[..], b" "].concat()),
            record_length(&record)
        );
        assert_eq!(record_length(&record[..2]), 0);
    }
}

#[test]
fn empty_file() {
    assert_eq!(both(b""), (refusal(7, 0), refusal(7, 0)));
}

#[test]
fn places_of_refusal_4() {
    let cases: &[(&[u8], u32)] = &[
        // No pair at all.
        (b"A", 0),
        (b"\r", 0),
        (b"\n", 0),
        (b"\0", 0),
        (b"\n\r", 0),
        // Text after the last pair: the number of all pairs.
        (b"A\r\nB", 1),
        (b"\r\n\r\n ", 2),
        (b"A\r\nB\r\nC\r", 2),
        // The first CR of CR CR LF is the fault, on the line it stands in.
        (b"\r\r\n", 0),
        (b"A\r\nB\r\r\nC\r\n", 1),
        (b"A\r\n\r\r\n", 1),
        // A byte below 32 counts to the line it stands in.
        (b"A\r\nB\nC\r\n", 1),
        (b"A\r\n\n\r\n", 1),
        (b"A\r\nB\r\nC\tD\r\nE", 2),
        (b"A\nB\r\nC", 0),
        (b"A\r\n\x1f\r\n", 1),
        (b"A\r\n\x1a", 1),
        (b"A\r\nB\n\rC\r\n", 1),
    ];
    for &(file, place) in cases {
        assert_eq!(
            both(file),
            (refusal(4, place), refusal(4, place)),
            "{file:?}"
        );
    }
    // 32, 127, 128 and 255 are text; what follows is 6.
    assert_eq!(structure(b" \x7f\x80\xff\r\n"), refusal(6, 0));
    // An empty line is a record, refused by 6.
    assert_eq!(structure(b"\r\n"), refusal(6, 0));
    let mut file = file_a();
    file.extend_from_slice(b"\r\n");
    assert_eq!(structure(&file), refusal(6, 6));
    // The last CR LF is missing, or half of it.
    let file = file_a();
    assert_eq!(structure(&file[..file.len() - 1]), refusal(4, 5));
    assert_eq!(structure(&file[..file.len() - 2]), refusal(4, 5));
}

#[test]
fn limits() {
    assert_eq!(structure(&vec![b' '; 16_777_216]), refusal(4, 0));
    assert_eq!(structure(&vec![b' '; 16_777_217]), refusal(3, 0));
    assert_eq!(both(&vec![0; 16_777_217]), (refusal(3, 0), refusal(3, 0)));
    assert_eq!(structure(&b"\r\n".repeat(131_072)), refusal(6, 0));
    assert_eq!(structure(&b"\r\n".repeat(131_073)), refusal(5, 131_072));
    let mut file = b"\r\n".repeat(131_073);
    file.push(b'A');
    assert_eq!(structure(&file), refusal(4, 131_073));
}

#[test]
fn refusal_6_stands_before_7() {
    // Bad length in record 9 and a second HDR at 3.
    let mut records = records_b();
    records[3] = hdr();
    records[9].pop();
    assert_eq!(both(&join(&records)), (refusal(6, 9), refusal(6, 9)));
    records[9].push(b' ');
    assert_eq!(both(&join(&records)), (refusal(7, 3), refusal(7, 3)));
}

#[test]
fn refusal_6() {
    for (place, change) in [
        (2, record(260, &[(1, "AGR")])),
        (2, record(260, &[(1, "ISW")])),
        (2, record(260, &[(1, "nwr")])),
        (2, record(259, &[(1, "NWR")])),
        (2, record(261, &[(1, "NWR")])),
        (3, b"SW".to_vec()),
        (3, b"SWR".to_vec()),
        (3, vec![]),
        (0, record(101, &[(1, "HDR")])),
    ] {
        let mut records = records_a();
        records[place] = change;
        let expected = refusal(6, place as u32);
        assert_eq!(both(&join(&records)), (expected, expected));
    }
}

#[test]
fn refusal_7_for_every_pair() {
    use Class::*;
    let sample = |class| match class {
        Hdr => hdr(),
        Grh => grh("00001"),
        Header => nwr("0000000000000000"),
        Detail => ter("0000000000000001"),
        Grt => grt(""),
        Trl => trl(""),
    };
    let all = [Hdr, Grh, Header, Detail, Grt, Trl];
    // The shortest right way to each class, and what may come after it.
    let ways: [(&[Class], &[Class]); 7] = [
        (&[], &[Hdr]),
        (&[Hdr], &[Grh]),
        (&[Hdr, Grh], &[Header]),
        (&[Hdr, Grh, Header], &[Header, Detail, Grt]),
        (&[Hdr, Grh, Header, Detail], &[Header, Detail, Grt]),
        (&[Hdr, Grh, Header, Grt], &[Grh, Trl]),
        (&[Hdr, Grh, Header, Grt, Trl], &[]),
    ];
    for (way, after) in ways {
        let mut records: Vec<_> = way.iter().map(|&c| sample(c)).collect();
        if way.last() != Some(&Trl) {
            // Stops without TRL: refused at the record count.
            let expected = refusal(7, way.len() as u32);
            assert_eq!(structure(&join(&records)), expected);
        }
        for next in all {
            records.push(sample(next));
            let place = if after.contains(&next) {
                way.len() + 1
            } else {
                way.len()
            };
            let answer = structure(&join(&records));
            if way.last() == Some(&Grt) && next == Trl {
                // The only whole file among them.
                assert_eq!(answer, refusal(9, 3));
            } else {
                assert_eq!(answer, refusal(7, place as u32), "{way:?} {next:?}");
            }
            records.pop();
        }
    }
}

#[test]
fn refusals_8_and_9() {
    // Record, position, bytes that are wrong there, refusal.
    let cases: &[(usize, usize, &str, u32)] = &[
        (1, 7, "00000", 8),
        (1, 7, "    1", 8),
        (8, 7, "00001", 8),
        (2, 4, "00000001", 8),
        (2, 12, "00000001", 8),
        (3, 4, "00000001", 8),
        (3, 12, "00000000", 8),
        (3, 12, "00000002", 8),
        (3, 12, "       1", 8),
        (3, 12, "+0000001", 8),
        (4, 12, "00000001", 8),
        (5, 4, "00000000", 8),
        (6, 4, "00000000", 8),
        (6, 12, "00000003", 8),
        // Transactions count anew in each group.
        (9, 4, "00000002", 8),
        (7, 4, "00002", 9),
        (7, 9, "00000001", 9),
        (7, 9, "00000003", 9),
        (7, 17, "00000005", 9),
        (7, 17, "00000006", 9),
        (10, 4, "00001", 9),
        (10, 9, "00000003", 9),
        (10, 17, "00000010", 9),
        (11, 4, "00001", 9),
        (11, 9, "00000001", 9),
        (11, 17, "00000010", 9),
        (11, 17, "0000000A", 9),
    ];
    let right = join(&records_b());
    for &(place, start, bytes, number) in cases {
        let mut records = records_b();
        records[place][start - 1..start - 1 + bytes.len()].copy_from_slice(bytes.as_bytes());
        let file = join(&records);
        assert_eq!(structure(&file), refusal(number, place as u32));
        let mut out = vec![0; file.len()];
        assert_eq!(numbering(&file, &mut out), passes(2, 3, 12));
        assert_eq!(out, right);
    }
    // 8 stands before 9, wherever they are.
    let mut records = records_b();
    records[7][7] = b'9';
    records[9][10] = b'9';
    assert_eq!(structure(&join(&records)), refusal(8, 9));
    // The first of two.
    records[4][18] = b'9';
    assert_eq!(structure(&join(&records)), refusal(8, 4));
}

#[test]
fn refusal_10() {
    for revision in ["000", "001", "002"] {
        let mut records = records_a();
        records[0] = record(167, &[(1, "HDR"), (102, "2.2"), (105, revision)]);
        assert_eq!(structure(&join(&records)), passes(1, 1, 6));
    }
    for wrong in [
        "      ", "2.2   ", "   002", "2.1002", "2.2003", "2.202 ", "2.2 02", "2.2999", "2.202A",
        "2,2002", "2.2010", "2.2100", "02.202", "2.2-01",
    ] {
        let mut records = records_a();
        records[0] = record(167, &[(1, "HDR"), (102, wrong)]);
        assert_eq!(both(&join(&records)), (refusal(10, 0), refusal(10, 0)));
        // 9 stands before 10; numbering does not know 9.
        records[5][23] = b'7';
        assert_eq!(both(&join(&records)), (refusal(9, 5), refusal(10, 0)));
        // 10 stands before 11.
        assert_eq!(numbering(&join(&records), &mut []), refusal(10, 0));
    }
}

#[test]
fn refusal_11() {
    let file = file_a();
    let mut out = vec![b'x'; file.len() - 1];
    assert_eq!(numbering(&file, &mut out), refusal(11, 0));
    assert!(out.iter().all(|&b| b == b'x'));
    let mut out = vec![b'x'; file.len() + 3];
    assert_eq!(numbering(&file, &mut out), passes(1, 1, 6));
    assert_eq!(out[..file.len()], file);
    assert_eq!(&out[file.len()..], b"xxx");
    // Nothing is written.
    let mut out = vec![b'x'; file.len()];
    assert_eq!(numbering(&file[..file.len() - 1], &mut out), refusal(4, 5));
    assert!(out.iter().all(|&b| b == b'x'));
}

#[test]
fn numbering_blanks() {
    for records in [records_a(), records_b()] {
        let right = join(&records);
        for filler in [b' ', b'0', b'9', b'A', 255] {
            let mut blank = records.clone();
            for record in &mut blank {
                let numbers = match &record[..3] {
                    b"HDR" => 0..0,
                    b"GRH" => 6..11,
                    b"GRT" | b"TRL" => 3..24,
                    _ => 3..19,
                };
                record[numbers].fill(filler);
            }
            let file = join(&blank);
            assert_eq!(structure(&file), refusal(8, 1));
            let mut out = vec![0; file.len()];
            numbering(&file, &mut out);
            assert_eq!(out, right);
        }
    }
}

#[test]
fn numbering_keeps_other_fields() {
    let mut records = records_a();
    records[1] = record(28, &[(1, "GRHXYZ?????02.20ABCDEFGHIJKL")]);
    records[4] = record(37, &[(1, "GRT?????????????????????USD1234567890")]);
    let file = join(&records);
    let mut out = vec![0; file.len()];
    assert_eq!(numbering(&file, &mut out), passes(1, 1, 6));
    records[1] = record(28, &[(1, "GRHXYZ0000102.20ABCDEFGHIJKL")]);
    records[4] = record(37, &[(1, "GRT000010000000100000004USD1234567890")]);
    assert_eq!(out, join(&records));
    assert_eq!(structure(&out), passes(1, 1, 6));
}
