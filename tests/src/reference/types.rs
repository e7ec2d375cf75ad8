//! The record types: 001 chapters 3 to 5 without AGR, ISW, EXC and ACK.

/// What a type is for refusal 7 and the numbers.
#[derive(Clone, Copy, Debug, PartialEq, Eq)]
pub enum Class {
    Hdr,
    Grh,
    Header,
    Detail,
    Grt,
    Trl,
}

#[derive(Debug, PartialEq, Eq)]
pub struct Type {
    pub name: &'static str,
    pub class: Class,
    /// Start of the last row of its table in 001.
    last_start: usize,
    /// Size of that row.
    last_size: usize,
}

impl Type {
    /// The position of its last field's last byte.
    pub const fn length(&self) -> usize {
        self.last_start + self.last_size - 1
    }
}

const fn row(name: &'static str, class: Class, last_start: usize, last_size: usize) -> Type {
    Type {
        name,
        class,
        last_start,
        last_size,
    }
}

pub const TYPES: [Type; 38] = [
    row("HDR", Class::Hdr, 138, 30),
    row("GRH", Class::Grh, 27, 2),
    // The total monetary value; its columns are lost in the text of 001.
    row("GRT", Class::Grt, 28, 10),
    row("TRL", Class::Trl, 17, 8),
    row("NWR", Class::Header, 260, 1),
    row("REV", Class::Header, 260, 1),
    row("TER", Class::Detail, 21, 4),
    row("IPA", Class::Detail, 149, 5),
    row("NPA", Class::Detail, 349, 2),
    row("SPU", Class::Detail, 183, 1),
    row("OPU", Class::Detail, 183, 1),
    row("NPN", Class::Detail, 511, 2),
    row("SPT", Class::Detail, 56, 3),
    row("OPT", Class::Detail, 56, 3),
    row("SWR", Class::Detail, 180, 1),
    row("OWR", Class::Detail, 180, 1),
    row("NWN", Class::Detail, 349, 2),
    row("SWT", Class::Detail, 50, 3),
    row("OWT", Class::Detail, 50, 3),
    row("PWR", Class::Detail, 111, 2),
    row("ALT", Class::Detail, 82, 2),
    row("NAT", Class::Detail, 662, 2),
    row("EWT", Class::Detail, 351, 14),
    row("VER", Class::Detail, 351, 14),
    row("PER", Class::Detail, 106, 13),
    row("NPR", Class::Detail, 368, 3),
    row("REC", Class::Detail, 527, 14),
    row("ORN", Class::Detail, 348, 1),
    row("INS", Class::Detail, 26, 50),
    row("IND", Class::Detail, 23, 3),
    row("COM", Class::Detail, 296, 13),
    row("MSG", Class::Detail, 36, 150),
    row("NET", Class::Detail, 660, 2),
    row("NCT", Class::Detail, 660, 2),
    row("NVT", Class::Detail, 660, 2),
    row("NOW", Class::Detail, 342, 1),
    row("ARI", Class::Detail, 42, 160),
    row("XRF", Class::Detail, 38, 1),
];

/// The type that a line's first three bytes name; none for an unknown one and
/// for a line of fewer than three bytes.
pub fn find(line: &[u8]) -> Option<&'static Type> {
    let name = line.get(..3)?;
    TYPES.iter().find(|row| row.name.as_bytes() == name)
}

/// The length that a record of this one's type has; 0 where it has no type.
pub fn record_length(record: &[u8]) -> u32 {
    find(record).map_or(0, |row| row.length() as u32)
}
