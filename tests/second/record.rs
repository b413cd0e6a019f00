//! One record of a file: a two-byte body length, a two-byte kind, the body.

use crate::verdict::Refusal;

pub const LONGEST_FILE: usize = 65_536;

pub struct Record<'a> {
    pub offset: usize,
    pub kind: u16,
    pub body: &'a [u8],
}

pub fn number_at(bytes: &[u8], at: usize) -> u16 {
    u16::from_le_bytes([bytes[at], bytes[at + 1]])
}

impl<'a> Record<'a> {
    /// The record at an offset below the file's length; 2 if the file ends within it.
    pub fn at(file: &'a [u8], offset: usize) -> Result<Record<'a>, Refusal> {
        let cut_short = Refusal(2, offset, 0);
        let rest = &file[offset..];
        if rest.len() < 4 {
            return Err(cut_short);
        }
        let length = number_at(rest, 0) as usize;
        let body = rest.get(4..4 + length).ok_or(cut_short)?;
        let kind = number_at(rest, 2);
        Ok(Record { offset, kind, body })
    }

    pub fn end(&self) -> usize {
        self.offset + 4 + self.body.len()
    }

    /// The refusal with this number if the record is not as demanded.
    pub fn demand(&self, holds: bool, number: u32) -> Result<(), Refusal> {
        if holds {
            Ok(())
        } else {
            Err(Refusal(number, self.offset, 0))
        }
    }
}
