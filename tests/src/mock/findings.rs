//! Faults of the findings: each finding wrong in some way, and the slips that
//! the scope names.

use std::collections::HashMap;

use tests::calls::Reply;
use tests::reference::findings::transaction::finding_2_of;
use tests::reference::values::in_table;

use crate::asked::{Asked, Work};
use crate::Fault;

/// Puts another text where a certain one stands, in records of these types.
fn replace(record: &mut [u8], types: &[&str], start: usize, from: &str, to: &str) {
    let place = start - 1..start - 1 + from.len();
    if is(record, types) && record[place.clone()] == *from.as_bytes() {
        record[place].copy_from_slice(to.as_bytes());
    }
}

fn is(record: &[u8], types: &[&str]) -> bool {
    types.iter().any(|name| record.starts_with(name.as_bytes()))
}

const HEADERS: [&str; 2] = ["NWR", "REV"];
const PUBLISHERS: [&str; 2] = ["SPU", "OPU"];
const WRITERS: [&str; 2] = ["SWR", "OWR"];

fn part(record: &[u8], start: usize, size: usize) -> &[u8] {
    &record[start - 1..start - 1 + size]
}

fn blank(record: &[u8], start: usize, size: usize) -> bool {
    part(record, start, size).iter().all(|&byte| byte == b' ')
}

/// Month and day, of whatever year, judged as if another day stood there.
fn day_as_if(asked: &Asked, days: &[&str], other: &str) -> Reply {
    asked.as_if(&[20, 45], |record| {
        for day in days {
            replace(record, &HEADERS, 111, day, other);
            replace(record, &["REC"], 24, day, other);
        }
    })
}

/// Sets or clears a finding of those records for which this holds.
fn flip(asked: &Asked, finding: u32, holds: bool, concerns: fn(&[u8]) -> bool) -> Reply {
    asked.judged(|_, work, sets| {
        for (record, set) in work.iter().zip(sets) {
            if concerns(record) {
                match holds {
                    true => *set |= 1 << finding,
                    false => *set &= !(1 << finding),
                }
            }
        }
    })
}

/// Sets a finding of the header where this holds, and only there.
fn on_header(asked: &Asked, finding: u32, holds: fn(&Work) -> bool) -> Reply {
    asked.judged(|_, work, sets| {
        sets[0] &= !(1 << finding);
        sets[0] |= u64::from(holds(work)) << finding;
    })
}

fn share(record: &[u8], start: usize) -> u64 {
    let digits = std::str::from_utf8(part(record, start, 5)).unwrap_or("");
    if digits.bytes().all(|byte| byte.is_ascii_digit()) {
        return digits.parse().unwrap_or(0);
    }
    0
}

/// Where PR, MR and SR of a record start.
fn starts(record: &[u8]) -> [usize; 3] {
    match is(record, &PUBLISHERS) {
        true => [116, 124, 132],
        false => [130, 138, 146],
    }
}

/// Totals of publishers and of writers in so many bits, and the findings 1 to
/// 3 by them.
fn totals_in(asked: &Asked, bits: u32) -> Reply {
    asked.judged(|asked, work, sets| {
        let lost = |value: u64| value & ((1 << bits) - 1);
        let mut totals = [[0; 3]; 2];
        for record in work
            .iter()
            .filter(|r| is(r, &PUBLISHERS) || is(r, &WRITERS))
        {
            let total = &mut totals[usize::from(is(record, &WRITERS))];
            for (sum, start) in total.iter_mut().zip(starts(record)) {
                *sum = lost(*sum + share(record, start));
            }
        }
        let [publishers, writers] = totals;
        let t = asked.tolerance();
        let over = publishers.iter().any(|&sum| sum > 10_000 + t);
        let uneven = (0..3).any(|right| {
            let sum = lost(publishers[right] + writers[right]);
            sum > 0 && !(10_000 - t..=10_000 + t).contains(&sum)
        });
        let held = [
            publishers[0] > 5000 + t || over,
            finding_2_of(writers, t),
            uneven,
        ];
        for (finding, held) in held.into_iter().enumerate() {
            sets[0] &= !(2 << finding);
            sets[0] |= u64::from(held) << (finding + 1);
        }
    })
}

/// The total of a right over the records of these types.
fn total(work: &Work, types: &[&str], right: usize) -> u64 {
    let owners = work.iter().filter(|record| is(record, types));
    owners
        .map(|record| share(record, starts(record)[right]))
        .sum()
}

/// Finding 2 with another rule, by PR and t, of what is as good as nothing.
fn nothing_if(asked: &Asked, nothing: fn(u64, u64) -> bool) -> Reply {
    asked.judged(|asked, work, sets| {
        let [pr, mr, sr] = [0, 1, 2].map(|right| total(work, &WRITERS, right));
        let t = asked.tolerance();
        let pr = match nothing(pr, t) {
            true => 0,
            false => pr.max(t + 1),
        };
        sets[0] &= !(1 << 2);
        sets[0] |= u64::from(finding_2_of([pr, mr, sr], t)) << 2;
    })
}

/// Finding 2 with the least total of PR asked of another right as well.
fn least_of(asked: &Asked, right: usize) -> Reply {
    asked.judged(|asked, work, sets| {
        let shares = [total(work, &WRITERS, right), 0, 0];
        sets[0] |= u64::from(finding_2_of(shares, asked.tolerance())) << 2;
    })
}

/// The publishers of each chain: their places.
fn chains(work: &Work) -> Vec<Vec<usize>> {
    let mut chains: HashMap<&[u8], Vec<usize>> = HashMap::new();
    for (at, record) in work.iter().enumerate() {
        let number = || part(record, 20, 2);
        if is(record, &PUBLISHERS) && number().iter().all(u8::is_ascii_digit) {
            chains.entry(number()).or_default().push(at);
        }
    }
    chains.into_values().collect()
}

fn is_e(record: &[u8]) -> bool {
    part(record, 77, 2) == b"E "
}

fn is_aq_spu(record: &[u8]) -> bool {
    is(record, &["SPU"]) && part(record, 77, 2) == b"AQ"
}

fn owns(record: &[u8]) -> bool {
    starts(record).iter().any(|&start| share(record, start) > 0)
}

/// Totals of the submitter's chains in so many bits, and finding 12 where all
/// of a chain's come to 0 only by that.
fn totals_of_chains_in(asked: &Asked, bits: u32) -> Reply {
    asked.judged(|_, work, sets| {
        let owner = |at: &&usize| {
            let record = work[**at];
            is(record, &["SPU"]) && (is_e(record) || is_aq_spu(record))
        };
        let lost = |chain: &Vec<usize>| {
            let total = |right: usize| {
                let owners = chain.iter().filter(owner);
                owners
                    .map(|&at| share(work[at], starts(work[at])[right]))
                    .sum::<u64>()
            };
            is(work[chain[0]], &["SPU"])
                && (0..3).all(|right| total(right) & ((1 << bits) - 1) == 0)
        };
        sets[0] |= u64::from(chains(work).iter().any(lost)) << 12;
    })
}

fn iswc_without_1(record: &[u8]) -> bool {
    let iswc = part(record, 96, 11);
    let digits = &iswc[1..];
    let right = iswc[0] == b'T' && digits.iter().all(u8::is_ascii_digit) && {
        let digit = |at: usize| usize::from(digits[at] - b'0');
        ((0..9).map(|at| (at + 1) * digit(at)).sum::<usize>() + digit(9)) % 10 == 0
    };
    !right && !blank(record, 96, 11)
}

pub const FAULTS: &[Fault] = &[
    // The slips that the scope names.
    ("totals-16-bits", |asked| totals_in(asked, 16)),
    ("totals-32-bits, large", |asked| totals_in(asked, 32)),
    ("iswc-without-1", |asked| {
        on_header(asked, 19, |work| iswc_without_1(work[0]))
    }),
    ("opu-blank-type-none", |asked| {
        asked.as_if(&[11, 14], |record| {
            replace(record, &["OPU"], 77, "  ", "PA")
        })
    }),
    // Each finding once.
    ("0-second-header", |asked| {
        asked.judged(|_, work, sets| {
            if work[0][3..11] != *b"00000000" {
                sets[0] &= !1;
            }
        })
    }),
    ("1-without-tolerance", |asked| {
        asked.judged(|_, work, sets| {
            let publishers = work.iter().filter(|record| is(record, &PUBLISHERS));
            let pr: u64 = publishers.map(|record| share(record, 116)).sum();
            sets[0] |= u64::from(pr > 5000) << 1;
        })
    }),
    ("1-writers-too", |asked| {
        asked.judged(|asked, work, sets| {
            let owners = work
                .iter()
                .filter(|r| is(r, &PUBLISHERS) || is(r, &WRITERS));
            let mr: u64 = owners.map(|record| share(record, starts(record)[1])).sum();
            sets[0] |= u64::from(mr > 10_000 + asked.tolerance()) << 1;
        })
    }),
    ("2-zero", |asked| {
        asked.judged(|_, work, sets| {
            let mut writers = work.iter().filter(|record| is(record, &WRITERS));
            let none = writers.all(|record| share(record, 130) == 0);
            sets[0] |= u64::from(none) << 2;
        })
    }),
    ("2-exact-zero", |asked| nothing_if(asked, |pr, _| pr == 0)),
    ("2-at-the-limit", |asked| {
        nothing_if(asked, |pr, t| pr == 0 || pr < t)
    }),
    ("2-past-the-limit", |asked| {
        nothing_if(asked, |pr, t| pr <= t + 1)
    }),
    ("2-always-6", |asked| nothing_if(asked, |pr, _| pr <= 6)),
    ("2-each-writer", |asked| {
        // Up to t is as good as nothing for each of them.
        asked.as_if(&[2], |record| {
            if is(record, &WRITERS) && share(record, 130) <= asked.tolerance() {
                record[129..134].fill(b'0');
            }
        })
    }),
    ("2-mr-too", |asked| least_of(asked, 1)),
    ("2-sr-too", |asked| least_of(asked, 2)),
    ("3-near-zero", |asked| {
        // Up to t is as good as nothing, as for 2.
        asked.judged(|asked, work, sets| {
            let t = asked.tolerance();
            let passes = |right| {
                let sum = total(work, &PUBLISHERS, right) + total(work, &WRITERS, right);
                sum <= t || (10_000 - t..=10_000 + t).contains(&sum)
            };
            if (0..3).all(passes) {
                sets[0] &= !(1 << 3);
            }
        })
    }),
    ("3-without-sr", |asked| {
        asked.as_if(&[3], |record| {
            if is(record, &PUBLISHERS) || is(record, &WRITERS) {
                let start = starts(record)[2];
                record[start - 1..start + 4].fill(b'0');
            }
        })
    }),
    ("3-at-the-limit", |asked| {
        asked.judged(|asked, work, sets| {
            let owners = work
                .iter()
                .filter(|r| is(r, &PUBLISHERS) || is(r, &WRITERS));
            let pr: u64 = owners.map(|record| share(record, starts(record)[0])).sum();
            sets[0] |= u64::from(pr == 10_000 - asked.tolerance()) << 3;
        })
    }),
    ("4-without-owr", |asked| {
        on_header(asked, 4, |work| {
            !work.iter().any(|record| is(record, &["SWR"]))
        })
    }),
    ("5-pa", |asked| {
        asked.as_if(&[5], |record| replace(record, &WRITERS, 105, "PA", "C "))
    }),
    ("6-without-owr", |asked| {
        asked.as_if(&[6], |record| {
            if is(record, &["OWR"]) {
                record[104..106].fill(b' ');
            }
        })
    }),
    ("7-without-tr", |asked| {
        asked.as_if(&[7], |record| replace(record, &WRITERS, 105, "TR", "PA"))
    }),
    ("8-skipped-count", |asked| {
        asked.judged(|_, work, sets| {
            let skipped = |record: &&&[u8]| is(record, &["TER", "IPA", "NPA", "MSG"]);
            sets[0] |= u64::from(work.iter().any(|record| skipped(&record))) << 8;
        })
    }),
    ("8-spt-after-opt", |asked| {
        asked.judged(|_, work, sets| {
            let pair = |pair: &[&[u8]]| is(pair[0], &["OPT"]) && is(pair[1], &["SPT"]);
            sets[0] |= u64::from(work.windows(2).any(pair)) << 8;
        })
    }),
    ("8-opt-after-spu", |asked| {
        asked.judged(|_, work, sets| {
            let pair = |pair: &[&[u8]]| is(pair[0], &["SPU"]) && is(pair[1], &["OPT"]);
            sets[0] |= u64::from(work.windows(2).any(pair)) << 8;
        })
    }),
    ("8-npr-needs-per", |asked| {
        asked.judged(|_, work, sets| {
            let pair = |pair: &[&[u8]]| !is(pair[0], &["PER", "NPR"]) && is(pair[1], &["NPR"]);
            sets[0] |= u64::from(work.windows(2).any(pair)) << 8;
        })
    }),
    ("8-ins-after-ind", |asked| {
        asked.judged(|_, work, sets| {
            let pair = |pair: &[&[u8]]| is(pair[0], &["IND"]) && is(pair[1], &["INS"]);
            sets[0] |= u64::from(work.windows(2).any(pair)) << 8;
        })
    }),
    ("8-not-afresh", |asked| {
        // What the first leader of a stage has passed stays passed.
        asked.judged(|_, work, sets| {
            let four = |four: &[&[u8]]| {
                is(four[1], &["PWR"]) && is(four[2], &["SWR"]) && is(four[3], &["NWN"])
            };
            sets[0] |= u64::from(work.windows(4).any(four)) << 8;
        })
    }),
    ("8-now-anywhere", |asked| {
        // Takes NOW for one that any leader has.
        asked.judged(|_, work, sets| {
            if let [_, .., last] = work {
                if work.len() == 3 && is(last, &["NOW"]) {
                    sets[0] &= !(1 << 8);
                }
            }
        })
    }),
    ("9-without-ind", |asked| {
        asked.as_if(&[9], |record| replace(record, &["IND"], 1, "IND", "ALT"))
    }),
    ("10-without-sa", |asked| {
        asked.as_if(&[10], |record| replace(record, &WRITERS, 105, "SA", "PA"))
    }),
    ("11-without-opu", |asked| {
        asked.as_if(&[11], |record| replace(record, &["OPU"], 77, "E ", "AM"))
    }),
    ("11-without-00", |asked| {
        asked.as_if(&[11], |record| replace(record, &PUBLISHERS, 20, "00", "  "))
    }),
    ("11-count-8-bits", |asked| {
        asked.judged(|_, work, sets| {
            let es = |chain: &Vec<usize>| chain.iter().filter(|&&at| is_e(work[at])).count();
            let chains = chains(work);
            if chains.iter().all(|chain| matches!(es(chain) % 256, 0 | 1)) {
                let any = chains.iter().any(|chain| es(chain) > 255);
                sets[0] &= !(u64::from(any) << 11);
            }
        })
    }),
    ("11-count-16-bits, large", |asked| {
        asked.judged(|_, work, sets| {
            if work.iter().filter(|r| is(r, &PUBLISHERS)).count() == 65_537 {
                sets[0] &= !(1 << 11);
            }
        })
    }),
    ("12-total-16-bits", |asked| totals_of_chains_in(asked, 16)),
    ("12-total-32-bits, large", |asked| {
        totals_of_chains_in(asked, 32)
    }),
    ("11-over-chains", |asked| {
        asked.judged(|_, work, sets| {
            let e = work.iter().filter(|r| is(r, &PUBLISHERS) && is_e(r));
            sets[0] |= u64::from(e.count() > 1) << 11;
        })
    }),
    ("12-pr-only", |asked| {
        asked.as_if(&[12], |record| {
            if is(record, &PUBLISHERS) {
                record[123..128].fill(b'0');
                record[131..136].fill(b'0');
            }
        })
    }),
    ("12-all-types", |asked| {
        asked.as_if(&[12], |record| {
            if is(record, &["SPU"]) {
                record[76..78].copy_from_slice(b"E ");
            }
        })
    }),
    ("13-whoever-begins", |asked| {
        on_header(asked, 13, |work| {
            let mixed = |chain: &Vec<usize>| {
                let spus = chain.iter().filter(|&&at| is(work[at], &["SPU"])).count();
                spus > 0 && spus < chain.len()
            };
            chains(work).iter().any(mixed)
        })
    }),
    ("14-later-too", |asked| {
        on_header(asked, 14, |work| {
            let both = |chain: &Vec<usize>| {
                let mut e = chain.iter().filter(|&&at| is_e(work[at]));
                let mut aq = chain.iter().filter(|&&at| is_aq_spu(work[at]));
                e.any(|&at| owns(work[at])) && aq.next().is_some()
            };
            chains(work).iter().any(both)
        })
    }),
    ("14-spu-only", |asked| {
        asked.as_if(&[14], |record| {
            if is(record, &["OPU"]) {
                record[76..78].copy_from_slice(b"PA");
            }
        })
    }),
    ("15-together", |asked| {
        on_header(asked, 15, |work| {
            work.iter()
                .filter(|record| is(record, &["EWT", "VER"]))
                .count()
                > 1
        })
    }),
    ("15-count-8-bits", |asked| {
        asked.judged(|_, work, sets| {
            let number = |name| work.iter().filter(|record| is(record, &[name])).count();
            if [number("EWT"), number("VER")]
                .iter()
                .all(|number| number % 256 < 2)
            {
                sets[0] &= !(1 << 15);
            }
        })
    }),
    ("16-first-half", |asked| {
        asked.as_if(&[16], |record| {
            if is(record, &HEADERS) {
                record[49..79].fill(b' ');
            }
        })
    }),
    ("17-blank", |asked| {
        asked.judged(|asked, work, sets| {
            let language = part(work[0], 80, 2);
            sets[0] |= u64::from(!in_table(language, asked.tables().languages)) << 17;
        })
    }),
    ("18-short", |asked| {
        asked.as_if(&[18], |record| {
            if is(record, &HEADERS) {
                record[94] = b' ';
            }
        })
    }),
    ("19-lower-case", |asked| {
        asked.as_if(&[19], |record| replace(record, &HEADERS, 96, "t", "T"))
    }),
    ("20-blank", |asked| {
        asked.as_if(&[20], |record| {
            replace(record, &HEADERS, 107, "        ", "00000000")
        })
    }),
    ("20-leap-years", |asked| {
        asked.as_if(&[20, 45], |record| {
            replace(record, &HEADERS, 107, "19000229", "19040229");
            replace(record, &["REC"], 20, "19000229", "19040229");
        })
    }),
    ("20-seventh-part", |asked| {
        // A month's length by its seventh part instead of its eighth: July
        // alone then has another, 30.
        day_as_if(asked, &["0731"], "0732")
    }),
    ("20-february-by-rule", |asked| {
        // The rule for the other months would give it 30 days, in leap years
        // and others.
        day_as_if(asked, &["0229", "0230"], "0228")
    }),
    ("20-year-0", |asked| {
        asked.as_if(&[20], |record| {
            replace(record, &HEADERS, 107, "00000101", "00010101")
        })
    }),
    ("21-blank-entry", |asked| {
        asked.judged(|asked, work, sets| {
            if in_table(part(work[0], 127, 3), asked.tables().categories) {
                sets[0] &= !(1 << 21);
            }
        })
    }),
    ("22-zero", |asked| {
        asked.as_if(&[22], |record| {
            replace(record, &HEADERS, 130, "000000", "000001")
        })
    }),
    ("22-table", |asked| {
        // SER only where the lent table has it.
        asked.judged(|asked, _, sets| {
            if !in_table(b"SER", asked.tables().categories) {
                sets[0] &= !(1 << 22);
            }
        })
    }),
    ("23-ser-too", |asked| {
        asked.as_if(&[23], |record| replace(record, &HEADERS, 127, "SER", "POP"))
    }),
    ("23-hours", |asked| {
        asked.as_if(&[23], |record| {
            replace(record, &HEADERS, 130, "995959", "      ")
        })
    }),
    ("24-without-msg", |asked| {
        flip(asked, 24, false, |record| is(record, &["MSG"]))
    }),
    ("25-again-from-01", |asked| {
        asked.judged(|_, work, sets| {
            let publishers: Vec<_> = (0..work.len())
                .filter(|&at| is(work[at], &PUBLISHERS))
                .collect();
            for pair in publishers.windows(2) {
                let digits = part(work[pair[0]], 20, 2).iter().all(u8::is_ascii_digit);
                if !digits && part(work[pair[1]], 20, 2) == b"01" {
                    sets[pair[1]] &= !(1 << 25);
                }
            }
        })
    }),
    ("25-round", |asked| {
        // 00 after 99.
        asked.judged(|_, work, sets| {
            let publishers: Vec<_> = (0..work.len())
                .filter(|&at| is(work[at], &PUBLISHERS))
                .collect();
            for pair in publishers.windows(2) {
                if part(work[pair[0]], 20, 2) == b"99" && part(work[pair[1]], 20, 2) == b"00" {
                    sets[pair[1]] &= !(1 << 25);
                }
            }
        })
    }),
    ("26-opu-too", |asked| {
        flip(asked, 26, true, |record| {
            is(record, &["OPU"]) && blank(record, 22, 9)
        })
    }),
    ("27-without-opu", |asked| {
        flip(asked, 27, false, |record| is(record, &["OPU"]))
    }),
    ("27-spu-indicator", |asked| {
        flip(asked, 27, false, |record| {
            is(record, &["SPU"]) && record[75] == b'Y'
        })
    }),
    ("28-pa", |asked| {
        flip(asked, 28, true, |record| {
            is(record, &["SPU"]) && part(record, 77, 2) == b"PA"
        })
    }),
    ("28-one-letter", |asked| {
        // The letter E, whatever follows.
        flip(asked, 28, false, |record| {
            is(record, &["SPU"]) && record[76] == b'E'
        })
    }),
    ("29-n", |asked| {
        flip(asked, 29, false, |record| {
            is(record, &["SPU"]) && record[75] == b'N'
        })
    }),
    ("30-pr-10000", |asked| {
        asked.as_if(&[30], |record| {
            if is(record, &PUBLISHERS) && (5001..=10_000).contains(&share(record, 116)) {
                record[115..120].copy_from_slice(b"05000");
            }
        })
    }),
    ("30-blank", |asked| {
        asked.as_if(&[30], |record| {
            replace(record, &PUBLISHERS, 124, "     ", "00000")
        })
    }),
    ("31-before-defaults", |asked| {
        asked.judged(|_, work, sets| {
            for (record, set) in work.iter().zip(sets) {
                let owner = || matches!(part(record, 77, 2), b"E " | b"AQ");
                if is(record, &["OPU"]) && owns(record) && !owner() {
                    *set |= 1 << 31;
                }
            }
        })
    }),
    ("32-after-opu", |asked| {
        asked.judged(|_, work, sets| {
            for chain in chains(work) {
                let opu = chain
                    .iter()
                    .position(|&at| is(work[at], &["OPU"]) && is_e(work[at]));
                if let Some(opu) = opu {
                    for &at in &chain[opu..] {
                        sets[at] &= !(1 << 32);
                    }
                }
            }
        })
    }),
    ("32-no-chain", |asked| {
        flip(asked, 32, false, |record| {
            is(record, &["SPU"]) && !part(record, 20, 2).iter().all(u8::is_ascii_digit)
        })
    }),
    ("33-u", |asked| {
        flip(asked, 33, false, |record| {
            is(record, &["OPU"]) && record[75] == b'U'
        })
    }),
    ("34-without-name", |asked| {
        flip(asked, 34, true, |record| {
            is(record, &["OPU"]) && record[75] == b'Y'
        })
    }),
    ("35-blank", |asked| {
        flip(asked, 35, false, |record| {
            is(record, &["OPU"]) && blank(record, 77, 2)
        })
    }),
    ("36-pr-only", |asked| {
        asked.as_if(&[36], |record| {
            if is(record, &PUBLISHERS) {
                record[120..123].fill(b' ');
                record[128..131].fill(b' ');
            }
        })
    }),
    ("37-high-digits", |asked| {
        // Takes a digit with its highest bit set for the digit.
        asked.as_if(&[37], |record| {
            if is(record, &PUBLISHERS) {
                let tax = record[78..87].iter_mut();
                tax.filter(|byte| (176..186).contains(*byte))
                    .for_each(|byte| *byte -= 128);
            }
        })
    }),
    ("37-spaces", |asked| {
        asked.as_if(&[37], |record| {
            if is(record, &PUBLISHERS) {
                let tax = record[78..87].iter_mut();
                tax.filter(|byte| **byte == b' ')
                    .for_each(|byte| *byte = b'0');
            }
        })
    }),
    ("38-owr-too", |asked| {
        flip(asked, 38, true, |record| {
            is(record, &["OWR"]) && blank(record, 29, 45)
        })
    }),
    ("39-blank", |asked| {
        flip(asked, 39, false, |record| {
            is(record, &["SWR"]) && blank(record, 105, 2)
        })
    }),
    ("40-blank", |asked| {
        flip(asked, 40, true, |record| {
            is(record, &["OWR"]) && blank(record, 105, 2)
        })
    }),
    ("41-within-tolerance", |asked| {
        asked.as_if(&[41], |record| {
            for start in [130, 138, 146] {
                if is(record, &WRITERS) && (10_001..=10_006).contains(&share(record, start)) {
                    record[start - 1..start + 4].copy_from_slice(b"10000");
                }
            }
        })
    }),
    ("42-owr-too", |asked| {
        flip(asked, 42, true, |record| {
            is(record, &["OWR"]) && blank(record, 20, 9)
        })
    }),
    ("43-without-per", |asked| {
        flip(asked, 43, false, |record| is(record, &["PER"]))
    }),
    ("43-per-60", |asked| {
        // As many bytes as for a title.
        flip(asked, 43, false, |record| {
            is(record, &["PER"]) && !blank(record, 20, 60)
        })
    }),
    ("44-looks-at-94", |asked| {
        flip(asked, 44, false, |record| {
            is(record, &["REC"]) && !blank(record, 94, 5)
        })
    }),
    ("44-before-defaults", |asked| {
        flip(asked, 44, false, |record| {
            is(record, &["REC"]) && part(record, 20, 8) != b"00000000"
        })
    }),
    ("44-to-539", |asked| {
        asked.as_if(&[44], |record| {
            if is(record, &["REC"]) {
                record[539] = b' ';
            }
        })
    }),
    ("45-blank", |asked| {
        asked.as_if(&[45], |record| {
            replace(record, &["REC"], 20, "        ", "00000000")
        })
    }),
    ("46-60-seconds", |asked| {
        asked.as_if(&[46], |record| {
            replace(record, &["REC"], 88, "000060", "000059")
        })
    }),
    ("46-blank", |asked| {
        asked.as_if(&[46], |record| {
            replace(record, &["REC"], 88, "      ", "000000")
        })
    }),
];
