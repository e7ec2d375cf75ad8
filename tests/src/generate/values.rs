//! Values of fields: right ones, wrong ones and those at the limits.

use super::Random;

/// What a field holds.
#[derive(Clone, Copy, Debug, PartialEq, Eq)]
pub enum Pool {
    Text,
    Language,
    Society,
    Category,
    Iswc,
    Date,
    Duration,
    Relationship,
    Version,
    Sequence,
    Indicator,
    PublisherType,
    Tax,
    Share,
    Designation,
}

/// A field: start, size and what it holds.
pub type Field = (usize, usize, Pool);

/// The fields that are judged, and some like them that are not.
pub fn fields(name: &[u8]) -> &'static [Field] {
    match name {
        b"NWR" | b"REV" => &[
            (20, 60, Pool::Text),
            (80, 2, Pool::Language),
            (82, 14, Pool::Text),
            (96, 11, Pool::Iswc),
            (107, 8, Pool::Date),
            (127, 3, Pool::Category),
            (130, 6, Pool::Duration),
            (137, 3, Pool::Relationship),
            (143, 3, Pool::Version),
        ],
        b"SPU" | b"OPU" => &[
            (20, 2, Pool::Sequence),
            (22, 9, Pool::Text),
            (31, 45, Pool::Text),
            (76, 1, Pool::Indicator),
            (77, 2, Pool::PublisherType),
            (79, 9, Pool::Tax),
            (113, 3, Pool::Society),
            (116, 5, Pool::Share),
            (121, 3, Pool::Society),
            (124, 5, Pool::Share),
            (129, 3, Pool::Society),
            (132, 5, Pool::Share),
        ],
        b"SWR" | b"OWR" => &[
            (20, 9, Pool::Text),
            (29, 45, Pool::Text),
            (104, 1, Pool::Indicator),
            (105, 2, Pool::Designation),
            (107, 9, Pool::Tax),
            (127, 3, Pool::Society),
            (130, 5, Pool::Share),
            (138, 5, Pool::Share),
            (146, 5, Pool::Share),
        ],
        b"EWT" | b"VER" => &[
            (20, 60, Pool::Text),
            (80, 11, Pool::Iswc),
            (91, 2, Pool::Language),
        ],
        b"PER" => &[(20, 45, Pool::Text), (65, 30, Pool::Text)],
        b"REC" => &[
            (20, 8, Pool::Date),
            (28, 60, Pool::Text),
            (88, 6, Pool::Duration),
            (94, 5, Pool::Text),
            (99, 442, Pool::Text),
        ],
        _ => &[],
    }
}

pub const SHARES: [&str; 30] = [
    "00000", "00001", "00003", "00006", "00007", "04993", "04994", "04999", "05000", "05001",
    "05006", "05007", "09993", "09994", "09999", "10000", "10001", "10006", "10007", "32768",
    "65535", "65536", "75536", "99999", "     ", "0000 ", " 5000", "1000A", "5000/", "0:000",
];

pub const DATES: [&str; 38] = [
    "00000000", "        ", "20240229", "20230229", "19000229", "20000229", "21000229", "24000229",
    "00040229", "01000229", "04000229", "00000229", "20231301", "20230001", "20230101", "20231231",
    "20231232", "20230100", "20230131", "20230132", "20230228", "20230430", "20230431", "20230630",
    "20230631", "20230930", "20230931", "20231130", "20231131", "00010101", "00000101", "99991231",
    "2023 101", "2023010A", "A0230101", "20239999", "0000000 ", " 0000000",
];

pub const DURATIONS: [&str; 18] = [
    "000000", "      ", "995959", "000060", "006000", "000059", "005900", "240000", "000001",
    "990000", "00005A", "0 0000", "A00000", "000099", "009900", "99999 ", "00 000", "00000/",
];

pub const RELATIONSHIPS: [&str; 7] = ["MUS", "MTX", "TXT", "MTN", "   ", "mus", "MU "];

pub const VERSIONS: [&str; 7] = ["MOD", "ORI", "   ", "mod", "ORI", "OR ", "MO1"];

pub const SEQUENCES: [&str; 18] = [
    "00", "01", "02", "03", "04", "09", "10", "50", "98", "99", " 1", "1 ", "  ", "AA", "0A", "/1",
    "1:", "O1",
];

pub const INDICATORS: [&str; 7] = [" ", "Y", "N", "U", "y", "n", "0"];

pub const PUBLISHER_TYPES: [&str; 6] = ["E ", "AQ", "AM", "PA", "SE", "ES"];
pub const NO_PUBLISHER_TYPES: [&str; 11] = [
    "  ", "e ", " E", "EE", "E0", "A ", "aq", "QA", "SX", "S ", "XX",
];

pub const TAXES: [&str; 9] = [
    "         ",
    "123456789",
    "000000000",
    "12345678 ",
    " 12345678",
    "ABCDEFGHI",
    "12345678A",
    "1        ",
    "1234/6789",
];

pub const DESIGNATIONS: [&str; 9] = ["CA", "A ", "C ", "AR", "AD", "SR", "SA", "TR", "PA"];
pub const NO_DESIGNATIONS: [&str; 9] = ["  ", "c ", " C", "CC", "AC", "a ", "A0", "ca", "XX"];

/// A value of a pool, of that size; any of its values, right or wrong.
pub fn wild(pool: Pool, size: usize, tables: &[Vec<u8>; 3], random: &mut Random) -> Vec<u8> {
    // Seldom anything at all.
    if random.one_in(24) {
        return (0..size).map(|_| random.text()).collect();
    }
    let listed = |list: &[&str], random: &mut Random| random.of(list).as_bytes().to_vec();
    match pool {
        Pool::Text => text(size, random),
        Pool::Language => code(&tables[0], size, random),
        Pool::Society => code(&tables[1], size, random),
        Pool::Category if random.one_in(4) => b"SER".to_vec(),
        Pool::Category => code(&tables[2], size, random),
        Pool::Iswc => iswc(random),
        Pool::Date => listed(&DATES, random),
        Pool::Duration => listed(&DURATIONS, random),
        Pool::Relationship => listed(&RELATIONSHIPS, random),
        Pool::Version => listed(&VERSIONS, random),
        Pool::Sequence if random.one_in(5) => format!("{:02}", random.below(100)).into_bytes(),
        Pool::Sequence => listed(&SEQUENCES, random),
        Pool::Indicator => listed(&INDICATORS, random),
        Pool::PublisherType if random.one_in(2) => listed(&NO_PUBLISHER_TYPES, random),
        Pool::PublisherType => listed(&PUBLISHER_TYPES, random),
        Pool::Tax => listed(&TAXES, random),
        Pool::Share => listed(&SHARES, random),
        Pool::Designation if random.one_in(2) => listed(&NO_DESIGNATIONS, random),
        Pool::Designation => listed(&DESIGNATIONS, random),
    }
}

/// Blank, or nearly.
fn text(size: usize, random: &mut Random) -> Vec<u8> {
    let mut text = vec![b' '; size];
    match random.below(8) {
        0..=3 => {}
        4 => text[0] = random.of(b"A0."),
        5 => text[size - 1] = random.of(b"Z1\xff"),
        // Bytes that are blank to some, but not here.
        6 => text.fill(random.of(&[160, 127, b'0', b'_'])),
        _ => text[random.below(size)] = random.between(33, 255) as u8,
    }
    text
}

/// A table's entry, or something near one.
fn code(table: &[u8], size: usize, random: &mut Random) -> Vec<u8> {
    let mut code = match table.len() / size {
        0 => vec![b'X'; size],
        entries => {
            let entry = match random.below(4) {
                0 => 0,
                1 => entries - 1,
                _ => random.below(entries),
            };
            table[entry * size..][..size].to_vec()
        }
    };
    match random.below(12) {
        0..=3 => {}
        4 | 5 => code.fill(b' '),
        6 => {
            code = (0..size)
                .map(|_| random.of(b"ABCDEFGHIJ0123456789"))
                .collect()
        }
        7 => code[random.below(size)] = random.text(),
        8 => code.make_ascii_lowercase(),
        9 => code[size - 1] = b' ',
        10 => code.rotate_left(1),
        // Across two entries.
        _ if table.len() > size => {
            let at = random.below(table.len() - size);
            code.copy_from_slice(&table[at..at + size]);
        }
        _ => {}
    }
    writable(code)
}

/// A table's entry such that it can stand in a file; entries can be any bytes.
pub fn writable(mut code: Vec<u8>) -> Vec<u8> {
    let controls = code.iter_mut().filter(|byte| **byte < 32);
    controls.for_each(|byte| *byte = b'?');
    code
}

/// A right ISWC of any nine digits.
pub fn right_iswc(random: &mut Random) -> Vec<u8> {
    let mut iswc = vec![b'T'];
    let mut sum = 1;
    for weight in 1..=9 {
        let digit = random.below(10);
        sum += weight * digit;
        iswc.push(b'0' + digit as u8);
    }
    iswc.push(b'0' + ((10 - sum % 10) % 10) as u8);
    iswc
}

fn iswc(random: &mut Random) -> Vec<u8> {
    let mut iswc = right_iswc(random);
    match random.below(14) {
        0..=2 => {}
        3 | 4 => {
            // The sum is off by so much.
            let more = random.between(1, 9) as u8;
            iswc[10] = b'0' + (iswc[10] - b'0' + more) % 10;
        }
        // The digit that is right without the leading 1.
        5 => iswc[10] = b'0' + (iswc[10] - b'0' + 1) % 10,
        6 => iswc[0] = random.of(b"t UA0"),
        7 => iswc[random.between(1, 10)] = random.of(b" A/:-"),
        8 => {
            let at = random.between(1, 9);
            iswc.swap(at, at + 1);
        }
        9 => iswc.fill(b' '),
        10 => iswc = b"T          ".to_vec(),
        11 => iswc = b"00000000000".to_vec(),
        12 => iswc.rotate_left(1),
        _ => {
            iswc = random
                .of(&[
                    b"T0345246801",
                    b"T0345246802",
                    b"T0030749586",
                    b"T0000000000",
                ])
                .to_vec()
        }
    }
    iswc
}
