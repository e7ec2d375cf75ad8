//! Numbering: refusals 3, 4, 5, 6, 7, 10 and 11, and the numbered bytes.

use super::lines::{lines, refusal_3, refusal_4, refusal_5, Line};
use super::numbers::{counts, right_numbers};
use super::structure::{refusal_10, refusal_6, refusal_7};
use super::types::Class;
use super::{answer, refused, Answer, Refusal};

/// Writes the file, rightly numbered, to the first bytes of `out`; nothing
/// where it refuses.
pub fn numbering(file: &[u8], out: &mut [u8]) -> Answer {
    match check(file, out) {
        Err(refusal) => answer(Err(refusal)),
        Ok((lines, classes)) => {
            // Everything but the numbers stays as it was.
            out[..file.len()].copy_from_slice(file);
            for (line, numbers) in lines.iter().zip(right_numbers(&classes)) {
                for number in numbers {
                    let at = line.at + number.start - 1;
                    out[at..at + number.digits.len()].copy_from_slice(number.digits.as_bytes());
                }
            }
            answer(Ok(counts(&classes)))
        }
    }
}

fn check<'a>(file: &'a [u8], out: &[u8]) -> Result<(Vec<Line<'a>>, Vec<Class>), Refusal> {
    refusal_3(file)?;
    refusal_4(file)?;
    refusal_5(file)?;
    let lines = lines(file);
    let classes = refusal_6(&lines)?;
    refusal_7(&classes)?;
    refusal_10(&lines)?;
    // Room for as many bytes as the file has.
    if out.len() < file.len() {
        return Err(refused(11, 0));
    }
    Ok((lines, classes))
}
