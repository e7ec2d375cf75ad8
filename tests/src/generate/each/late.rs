//! Files about the first work to look at: in which transaction a finding
//! stands, in what record and of what level, and what stands around it.

use super::add_with;
use crate::calls::Call;
use crate::generate::right::{number, put};
use crate::generate::works::{complete, of, plain_work, publisher, set_shares, writer, Records};
use crate::generate::{join, Case, Random};

pub fn all(all: &mut Vec<Case>) {
    one(all);
    findings(all);
    two(all);
    within(all);
    refused(all);
    many(all);
}

/// How many transactions each group of these files has.
const GROUPS: [usize; 4] = [2, 3, 1, 2];

/// A change of the plain work.
type Form = (&'static str, fn(&mut Records));

/// Those that are to be looked at.
const REJECTED: [Form; 7] = [
    ("GR", |work| put(&mut work[0], 1, "REV")),
    ("TR on the header", |work| put(&mut work[0], 20, " ")),
    ("TR over the transaction", |work| {
        set_shares(&mut work[1], [9_000; 3]);
    }),
    ("TR on the only detail", |work| put(&mut work[1], 29, " ")),
    ("TR on a publisher", |work| {
        let mut publisher = publisher("SPU", "E ", [0; 3]);
        put(&mut publisher, 22, " ");
        put(&mut publisher, 124, "00001");
        work.insert(1, publisher);
        complete(work);
    }),
    ("FR and TR on the header", |work| {
        put(&mut work[0], 96, "X");
        put(&mut work[0], 127, "XXX");
    }),
    ("RR before TR and FR after it", |work| {
        put(&mut work[1], 20, " ");
        work.insert(1, of("TER", &[]));
        work.push(of("REC", &[(20, "X"), (88, "000000"), (99, "X")]));
    }),
];

/// And those that are not.
const ACCEPTED: [Form; 4] = [
    ("FR on the header", |work| put(&mut work[0], 96, "X")),
    ("FR on a detail", |work| {
        work.insert(1, publisher("OPU", "  ", [0; 3]));
    }),
    ("RR", |work| {
        work.insert(1, of("MSG", &[]));
        work.push(of("PER", &[]));
    }),
    ("RR and FR", |work| {
        work.push(of("REC", &[(20, "X"), (88, "X")]));
    }),
];

/// The records of these works, so many in each group.
fn grouped(groups: &[usize], works: Vec<Records>) -> Records {
    let mut works = works.into_iter();
    let mut records = vec![of("HDR", &[(102, "2.2000")])];
    for &transactions in groups {
        records.push(of("GRH", &[(4, "NWR")]));
        records.extend(works.by_ref().take(transactions).flatten());
        records.push(of("GRT", &[]));
    }
    records.push(of("TRL", &[]));
    number(&mut records);
    records
}

/// Plain works, of which some are changed.
fn works(number: usize, changed: &[(usize, Form)]) -> Vec<Records> {
    let mut works = vec![plain_work(); number];
    for (at, (_, change)) in changed {
        change(&mut works[*at]);
    }
    works
}

fn add(all: &mut Vec<Case>, kind: String, records: &Records) {
    // The two forms of the check in turn.
    let calls: &[Call] = match all.len() % 2 {
        0 => &[Call::Check],
        _ => &[Call::Within],
    };
    add_with(all, format!("each late: {kind}"), join(records), calls);
}

/// Each form in each transaction, and in none.
fn one(all: &mut Vec<Case>) {
    let number = GROUPS.iter().sum();
    add(
        all,
        "none".to_string(),
        &grouped(&GROUPS, works(number, &[])),
    );
    for form in REJECTED.into_iter().chain(ACCEPTED) {
        for at in 0..number {
            let kind = format!("{}, {at}", form.0);
            add(all, kind, &grouped(&GROUPS, works(number, &[(at, form)])));
        }
    }
}

/// A finding, and the change of the plain work that brings it alone.
type Alone = (u32, fn(&mut Records));

/// Each finding alone in a work, whatever the tolerance; but 4 never comes
/// without 5, nor 2 without 1 or 3 where there is none.
const FINDINGS: [Alone; 45] = [
    (0, |work| put(&mut work[0], 1, "REV")),
    (1, |work| owned(work, [5000, 5000], 0)),
    (3, |work| set_shares(&mut work[1], [10_000, 9_000, 10_000])),
    (5, |work| put(&mut work[1], 105, "AR")),
    (6, |work| put(&mut work[0], 143, "MOD")),
    (7, |work| {
        put(&mut work[0], 143, "ORI");
        work.push(writer("SWR", "AR", [0; 3]));
    }),
    (8, |work| work.insert(1, of("ALT", &[]))),
    (9, |work| put(&mut work[0], 127, "SER000330")),
    (10, |work| {
        put(&mut work[0], 137, "MUS");
        put(&mut work[1], 105, "CA");
    }),
    (11, |work| {
        let publisher = publisher("OPU", "E ", [0; 3]);
        work.splice(1..1, [publisher.clone(), publisher]);
    }),
    (12, |work| work.insert(1, publisher("SPU", "E ", [0; 3]))),
    (13, |work| chain(work, publisher("OPU", "AM", [0; 3]))),
    (14, |work| chain(work, publisher("SPU", "AQ", [0; 3]))),
    (15, |work| {
        let titled = of("VER", &[(20, "A")]);
        work.extend([titled.clone(), titled]);
    }),
    (16, |work| put(&mut work[0], 20, " ")),
    (17, |work| put(&mut work[0], 80, "XX")),
    (18, |work| put(&mut work[0], 82, " ")),
    (19, |work| put(&mut work[0], 96, "T0345246802")),
    (20, |work| put(&mut work[0], 107, "20231301")),
    (21, |work| put(&mut work[0], 127, "   ")),
    (22, |work| {
        put(&mut work[0], 127, "SER000000");
        work.push(of("IND", &[]));
    }),
    (23, |work| put(&mut work[0], 130, "000060")),
    (24, |work| work.push(of("IPA", &[]))),
    (25, |work| published(work, "OPU", 20, "02")),
    (26, |work| published(work, "SPU", 22, " ")),
    (27, |work| published(work, "SPU", 31, " ")),
    (28, |work| chain(work, publisher("SPU", "XX", [0; 3]))),
    (29, |work| published(work, "SPU", 76, "N")),
    (30, |work| published(work, "OPU", 116, "0000A")),
    (31, |work| published(work, "OPU", 77, "AM")),
    (32, |work| published(work, "SPU", 77, "AQ")),
    (33, |work| published(work, "OPU", 76, "X")),
    (34, |work| published(work, "OPU", 76, "Y")),
    (35, |work| published(work, "OPU", 77, "  ")),
    (36, |work| published(work, "SPU", 121, "999")),
    (37, |work| published(work, "SPU", 79, "X")),
    (38, |work| put(&mut work[1], 29, " ")),
    (39, |work| work.push(writer("SWR", "XX", [0; 3]))),
    (40, |work| work.push(writer("OWR", "XX", [0; 3]))),
    (41, |work| {
        work.push(writer("OWR", "C ", [0; 3]));
        put(&mut work[2], 138, "    0");
    }),
    (42, |work| put(&mut work[1], 20, " ")),
    (43, |work| work.push(of("EWT", &[]))),
    (44, |work| {
        work.push(of("REC", &[(20, "00000000"), (88, "000000")]));
    }),
    (45, |work| {
        work.push(of("REC", &[(20, "19000229"), (88, "000330")]));
    }),
    (46, |work| {
        work.push(of("REC", &[(20, "20240229"), (88, "000060")]));
    }),
];

/// Alone only with the largest tolerance, and just beyond it.
const BEYOND: [Alone; 2] = [
    (1, |work| owned(work, [3000, 2007], 4994)),
    (2, |work| owned(work, [3000, 2006], 4993)),
];

/// Two publishers' PR, and the writer's.
fn owned(work: &mut Records, publishers: [usize; 2], of_writer: usize) {
    let [one, mut other] = publishers.map(|share| publisher("OPU", "E ", [share, 0, 0]));
    put(&mut other, 20, "02");
    work.splice(1..1, [one, other]);
    set_shares(&mut work[3], [of_writer, 10_000, 10_000]);
}

/// A publisher with a text put over it.
fn published(work: &mut Records, name: &str, start: usize, text: &str) {
    let mut publisher = publisher(name, "E ", [0, 1, 0]);
    put(&mut publisher, start, text);
    work.insert(1, publisher);
    complete(work);
}

/// A publisher in a chain that an SPU of type E has begun.
fn chain(work: &mut Records, publisher: Vec<u8>) {
    published(work, "SPU", 20, "01");
    work.insert(2, publisher);
}

/// Each of them in each transaction.
fn findings(all: &mut Vec<Case>) {
    let number = GROUPS.iter().sum();
    for (finding, change) in FINDINGS {
        for at in 0..number {
            let mut works = works(number, &[]);
            change(&mut works[at]);
            add(
                all,
                format!("finding {finding}, {at}"),
                &grouped(&GROUPS, works),
            );
        }
    }
    for (finding, change) in BEYOND {
        for at in 0..number {
            let mut works = works(number, &[]);
            change(&mut works[at]);
            let kind = format!("each late: finding {finding}, {at}");
            let file = join(&grouped(&GROUPS, works));
            add_with(all, kind, file, &[Call::Within]);
        }
    }
}

/// Each two transactions, with one form after the other; in the last one that
/// is changed, something is to be looked at.
fn two(all: &mut Vec<Case>) {
    let number: usize = GROUPS.iter().sum();
    let forms: Vec<Form> = ACCEPTED.into_iter().chain(REJECTED).collect();
    let mut next = 0;
    for later in 1..number {
        for earlier in 0..later {
            for _ in 0..3 {
                next += 1;
                let first = forms[next % forms.len()];
                let second = REJECTED[next % REJECTED.len()];
                let kind = format!("{}, {earlier}, then {}, {later}", first.0, second.0);
                let changed = [(earlier, first), (later, second)];
                add(all, kind, &grouped(&GROUPS, works(number, &changed)));
            }
        }
    }
}

/// Each tolerance with each sum near the full share, in a later group; and the
/// short form.
fn within(all: &mut Vec<Case>) {
    for off in 0..=7 {
        let mut works = works(3, &[]);
        set_shares(&mut works[2][1], [10_000 - off; 3]);
        let file = join(&grouped(&[1, 2], works));
        for tolerance in 0..=7 {
            let kind = format!("each late: tolerance {tolerance}, {off} short");
            add_with(all, kind, file.clone(), &[Call::Within]).tolerance = tolerance;
        }
        let kind = format!("each late: short form, {off} short");
        add_with(all, kind, file, &[Call::Check]);
    }
}

/// What is refused, though something that is to be looked at stands before.
fn refused(all: &mut Vec<Case>) {
    let changes: [Form; 9] = [
        ("4, text at the end", |records| {
            let last = records.len() - 1;
            records[last].extend(b"\r\nX\nY");
        }),
        ("4, a byte", |records| {
            let last = records.len() - 3;
            records[last][30] = 0;
        }),
        ("6, a type", |records| {
            let last = records.len() - 3;
            put(&mut records[last], 1, "ISW");
        }),
        ("6, a length", |records| {
            let last = records.len() - 1;
            records[last].push(b' ');
        }),
        ("7, no TRL", |records| {
            records.pop();
        }),
        ("7, two TRLs", |records| {
            let trl = records[records.len() - 1].clone();
            records.push(trl);
        }),
        ("8", |records| {
            let last = records.len() - 3;
            put(&mut records[last], 12, "00000009");
        }),
        ("9", |records| {
            let last = records.len() - 1;
            put(&mut records[last], 9, "00000009");
        }),
        ("10", |records| put(&mut records[0], 105, "003")),
    ];
    for (words, change) in changes {
        for at in [0, 2, 7] {
            let mut records = grouped(&GROUPS, works(8, &[(at, REJECTED[at % 4])]));
            change(&mut records);
            add(all, format!("{at}, refused {words}"), &records);
        }
    }
    // No room for the check: not this call's concern.
    for (verdicts, findings) in [(0, 0), (22, 8 * 23), (23, 8 * 23 - 1)] {
        let records = grouped(&GROUPS, works(8, &[(4, REJECTED[1])]));
        let kind = format!("buffers of {verdicts} and {findings} bytes");
        add(all, kind, &records);
        let case = all.last_mut().expect("just added");
        let mut random = Random::new(case.seed);
        case.verdicts = random.pattern(verdicts);
        case.findings = random.pattern(findings);
    }
}

/// More transactions than a byte counts, in one group and in as many.
fn many(all: &mut Vec<Case>) {
    for groups in [vec![300], vec![1; 300], vec![30; 10]] {
        for at in [1, 127, 128, 254, 255, 256, 257, 299] {
            for form in [REJECTED[0], REJECTED[1], REJECTED[3]] {
                let kind = format!("{} groups, {}, {at}", groups.len(), form.0);
                add(all, kind, &grouped(&groups, works(300, &[(at, form)])));
            }
        }
    }
}
