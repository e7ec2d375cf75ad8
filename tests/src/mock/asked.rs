//! A request, with what the faults ask of it.

use std::ops::Deref;

use tests::calls::{expected, Call, Reply, Request};
use tests::reference::lent::SHORT_TOLERANCE;
use tests::reference::lines::{lines, Line};
use tests::reference::types::{find, Class};
use tests::reference::verdicts::verdicts;
use tests::reference::{findings, Answer};

pub struct Asked(pub Request);

impl Deref for Asked {
    type Target = Request;

    fn deref(&self) -> &Request {
        &self.0
    }
}

/// The records of a transaction, the header first.
pub type Work<'a> = [&'a [u8]];

impl Asked {
    /// The right answer.
    pub fn right(&self) -> Reply {
        expected(&self.0)
    }

    /// The right answer to another request.
    pub fn with(&self, change: impl Fn(&mut Request)) -> Reply {
        let mut request = self.0.clone();
        change(&mut request);
        let reply = expected(&request);
        // As long as they were lent.
        let mut buffers = self.buffers.clone();
        for (buffer, written) in buffers.iter_mut().zip(&reply.buffers) {
            let length = buffer.len().min(written.len());
            buffer[..length].copy_from_slice(&written[..length]);
        }
        Reply { buffers, ..reply }
    }

    /// The right answer, but that the structure is another file's.
    pub fn of_structure(&self, file: Vec<u8>) -> Reply {
        match self.call {
            Call::Number | Call::Counted => self.right(),
            _ => self.with(|request| request.file = file.clone()),
        }
    }

    pub fn refused(&self, number: u32, place: u64) -> Reply {
        let place = place as u32;
        Reply::new(
            Answer::Refused { number, place },
            false,
            self.buffers.clone(),
        )
    }

    /// Whether the call is one of numbering.
    pub fn numbers(&self) -> bool {
        matches!(self.call, Call::Number | Call::Counted)
    }

    /// The line of this number.
    pub fn line(&self, number: u64) -> &[u8] {
        let mut lines = self.file.split(|&byte| byte == b'\n');
        lines.nth(number as usize).unwrap_or(&[])
    }

    pub fn pairs(&self) -> usize {
        self.file.windows(2).filter(|w| w == b"\r\n").count()
    }

    /// HDR's version and revision.
    pub fn version(&self) -> &[u8] {
        self.file.get(101..107).unwrap_or(&[])
    }

    /// The tolerance of a check.
    pub fn tolerance(&self) -> u64 {
        match self.call {
            Call::Within | Call::Claims => self.number,
            _ => SHORT_TOLERANCE,
        }
    }

    /// The right answer, but that each transaction's sets are changed; the
    /// verdicts go by the changed sets.
    pub fn judged(&self, change: impl Fn(&Asked, &Work, &mut [u64])) -> Reply {
        let mut right = self.right();
        if !self.call.judges() || right.refusal() != 0 {
            return right;
        }
        let lines = lines(&self.file);
        let classes = classes(&lines);
        let records: Vec<&[u8]> = lines.iter().map(|line| line.text).collect();
        let mut sets: Vec<u64> = (0..lines.len()).map(|record| right.set(record)).collect();
        for at in 0..lines.len() {
            if classes[at] == Class::Header {
                let details = classes[at + 1..]
                    .iter()
                    .take_while(|&&c| c == Class::Detail);
                let end = at + 1 + details.count();
                change(self, &records[at..end], &mut sets[at..end]);
            }
        }
        write_sets(&mut right, &classes, &sets);
        right
    }

    /// The right answer, but that some findings are as if the records were
    /// others. Only their fields, or their types, may be changed.
    pub fn as_if(&self, taken: &[u32], change: impl Fn(&mut Vec<u8>)) -> Reply {
        let mut right = self.right();
        if !self.call.judges() || right.refusal() != 0 {
            return right;
        }
        let lines = lines(&self.file);
        let classes = classes(&lines);
        let mut texts: Vec<_> = lines.iter().map(|line| line.text.to_vec()).collect();
        texts.iter_mut().for_each(change);
        let line = |text| Line { at: 0, text };
        let changed: Vec<_> = texts.iter().map(|text| line(text.as_slice())).collect();
        let others = findings::sets(&changed, &classes, self.tables(), self.tolerance());
        let taken: u64 = taken.iter().map(|finding| 1 << finding).sum();
        let set = |record| right.set(record) & !taken | others[record] & taken;
        let sets: Vec<u64> = (0..lines.len()).map(set).collect();
        write_sets(&mut right, &classes, &sets);
        right
    }
}

/// Other findings in an answer, with the verdicts that go with them.
pub fn write_sets(reply: &mut Reply, classes: &[Class], sets: &[u64]) {
    let verdicts = verdicts(classes, sets);
    reply.buffers[0][..verdicts.len()].copy_from_slice(&verdicts);
    for (record, set) in sets.iter().enumerate() {
        reply.buffers[1][8 * record..8 * record + 8].copy_from_slice(&set.to_le_bytes());
    }
}

pub fn classes(lines: &[Line]) -> Vec<Class> {
    let class = |line: &Line| find(line.text).expect("right by 6").class;
    lines.iter().map(class).collect()
}

pub fn place(reply: &Reply) -> u64 {
    reply.packed & 0xffff_ffff
}

/// The same answer with another packed number.
pub fn with_place(mut reply: Reply, place: u64) -> Reply {
    reply.packed = (reply.refusal() << 32) + place;
    reply
}
