//! The structure of a file: refusals 3 to 10.

use super::lines::{lines, refusal_3, refusal_4, refusal_5, Line};
use super::numbers::{counts, right_numbers, Number};
use super::types::{find, Class};
use super::{answer, field, refused, Answer, Refusal};

/// Whether the file is refused by 3 to 10, and its three numbers if not.
pub fn structure(file: &[u8]) -> Answer {
    answer(refusals_3_to_10(file).map(|structure| counts(&structure.classes)))
}

/// The records of a file that is structurally right, and what they are.
pub struct Structure<'a> {
    pub lines: Vec<Line<'a>>,
    pub classes: Vec<Class>,
}

/// Each goes over all of the file before the next has its turn.
pub fn refusals_3_to_10(file: &[u8]) -> Result<Structure<'_>, Refusal> {
    refusal_3(file)?;
    refusal_4(file)?;
    refusal_5(file)?;
    let lines = lines(file);
    let classes = refusal_6(&lines)?;
    refusal_7(&classes)?;
    let right = right_numbers(&classes);
    refusal_8(&lines, &classes, &right)?;
    refusal_9(&lines, &classes, &right)?;
    refusal_10(&lines)?;
    Ok(Structure { lines, classes })
}

/// Each record has a type of the table, and that type's length. Gives their
/// classes.
pub fn refusal_6(lines: &[Line]) -> Result<Vec<Class>, Refusal> {
    let mut classes = Vec::with_capacity(lines.len());
    for (place, line) in lines.iter().enumerate() {
        match find(line.text) {
            Some(row) if row.length() == line.text.len() => classes.push(row.class),
            _ => return Err(refused(6, place)),
        }
    }
    Ok(classes)
}

/// Each record may stand after the one before it, and the last is the TRL;
/// where that is missing, the place is the one after the last record.
pub fn refusal_7(classes: &[Class]) -> Result<(), Refusal> {
    let mut before = None;
    for (place, &class) in classes.iter().enumerate() {
        if !may_follow(before, class) {
            return Err(refused(7, place));
        }
        before = Some(class);
    }
    if before != Some(Class::Trl) {
        return Err(refused(7, classes.len()));
    }
    Ok(())
}

fn may_follow(before: Option<Class>, class: Class) -> bool {
    match before {
        // Only the HDR begins a file, and nothing below leads to another.
        None => class == Class::Hdr,
        Some(Class::Hdr) => class == Class::Grh,
        Some(Class::Grh) => class == Class::Header,
        Some(Class::Header | Class::Detail) => {
            matches!(class, Class::Header | Class::Detail | Class::Grt)
        }
        Some(Class::Grt) => matches!(class, Class::Grh | Class::Trl),
        // What comes later is out of place, not the TRL.
        Some(Class::Trl) => false,
    }
}

/// The numbers of headers, details and GRHs.
fn refusal_8(lines: &[Line], classes: &[Class], right: &[Vec<Number>]) -> Result<(), Refusal> {
    first_wrong(lines, classes, right, 8, |class| {
        matches!(class, Class::Grh | Class::Header | Class::Detail)
    })
}

/// The numbers of GRTs, the group's among them, and of the TRL.
fn refusal_9(lines: &[Line], classes: &[Class], right: &[Vec<Number>]) -> Result<(), Refusal> {
    first_wrong(lines, classes, right, 9, |class| {
        matches!(class, Class::Grt | Class::Trl)
    })
}

fn first_wrong(
    lines: &[Line],
    classes: &[Class],
    right: &[Vec<Number>],
    refusal: u32,
    concerns: fn(Class) -> bool,
) -> Result<(), Refusal> {
    for (place, line) in lines.iter().enumerate() {
        let stand = right[place].iter().all(|n| n.stands_in(line.text));
        if concerns(classes[place]) && !stand {
            return Err(refused(refusal, place));
        }
    }
    Ok(())
}

/// The HDR names edition 2.2 and one of its three revisions. After 7, so that
/// the first record is the HDR.
pub fn refusal_10(lines: &[Line]) -> Result<(), Refusal> {
    let version = field(lines[0].text, 102, 3);
    let revision = field(lines[0].text, 105, 3);
    let known: [&[u8]; 3] = [b"000", b"001", b"002"];
    if version != b"2.2" || !known.contains(&revision) {
        return Err(refused(10, 0));
    }
    Ok(())
}
