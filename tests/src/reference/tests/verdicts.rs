//! The verdicts.

use super::*;

fn verdicts(records: &[Vec<u8>]) -> Vec<u8> {
    judge_all(records, &TABLES, 6).verdicts
}

#[test]
fn own_levels() {
    // FR, RR and none in one transaction stay apart.
    let work = [
        header(&[(96, "X")]),
        over(swr(""), &[]),
        over(detail("PER"), &[(20, "A")]),
        detail("PER"),
        detail("MSG"),
        over(
            detail("REC"),
            &[(20, "0000000A"), (88, "000000"), (99, "A")],
        ),
    ];
    assert_eq!(verdicts(&file_of(&work)), [0, 0, 1, 0, 0, 2, 2, 1, 0, 0]);
}

#[test]
fn a_rejected_transaction() {
    // TR on one record is 3 on all of its transaction, and only there.
    let bad = [nwr(""), detail("TER"), over(swr(""), &[(29, " ")])];
    let good = [nwr(""), swr("")];
    let work = [&good[..], &bad[..], &good[..]].concat();
    assert_eq!(verdicts(&file_of(&work)), [0, 0, 0, 0, 3, 3, 3, 0, 0, 0, 0]);
    let work = [header(&[(20, " ")]), swr("")];
    assert_eq!(verdicts(&file_of(&work)), [0, 0, 3, 3, 0, 0]);
}

#[test]
fn a_rejected_group() {
    // Finding 0 is 4 on all of its group, GRH and GRT too, and only there;
    // the other findings are set as usual.
    let good = [nwr(""), swr("")];
    let bad = [
        over(nwr(""), &[(1, "REV"), (20, " ")]),
        detail("TER"),
        swr(""),
    ];
    let mut records = file_of(&good);
    records.splice(
        5..5,
        [&[grh("")][..], &good, &bad, &good, &[grt("")]].concat(),
    );
    let judged = judge_all(&records, &TABLES, 6);
    assert_eq!(judged.answer, passes(2, 4, 15));
    assert_eq!(
        judged.verdicts,
        [0, 0, 0, 0, 0, 4, 4, 4, 4, 4, 4, 4, 4, 4, 0]
    );
    assert_eq!(judged.findings[8..11], [vec![0, 16], vec![24], vec![]]);
    // A type of group that there is none of: every header.
    let mut records = file_of(&[good.clone(), good].concat());
    records[1] = over(grh(""), &[(4, "XXX")]);
    let judged = judge_all(&records, &TABLES, 6);
    assert_eq!(judged.verdicts, [0, 4, 4, 4, 4, 4, 4, 0]);
    assert_eq!(
        (&judged.findings[2][..], &judged.findings[4][..]),
        (&[0][..], &[0][..])
    );
}

#[test]
fn levels_of_the_scope() {
    use crate::reference::verdicts::level;
    let of = |wanted: u8| (0..=48).filter(|&n| level(n) == wanted).collect::<Vec<_>>();
    assert_eq!(of(4), [0]);
    assert_eq!(of(1), [19, 20, 23, 33, 34, 35, 36, 37, 40, 45, 46]);
    assert_eq!(of(2), [24, 43, 44]);
    assert_eq!(of(3).len(), 49 - 1 - 11 - 3);
}
