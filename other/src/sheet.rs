//! Reading and writing the fields of a sheet.

use crate::Numbers;
use crate::fault::{Reason, Sheet, SheetFault};

pub const MOST_FACTS: usize = 1024;
pub const MOST_STEPS: usize = 512;

/// An offset field: where it stands and what it says.
#[derive(Clone, Copy)]
pub struct Offset {
    field: usize,
    value: usize,
}

/// Goes through a sheet from front to back.
pub struct Reader<'a> {
    sheet: Sheet,
    bytes: &'a [u8],
    at: usize,
}

impl<'a> Reader<'a> {
    pub fn new(sheet: Sheet, bytes: &'a [u8]) -> Reader<'a> {
        Reader {
            sheet,
            bytes,
            at: 0,
        }
    }

    /// The byte reached.
    pub fn at(&self) -> usize {
        self.at
    }

    pub fn refuse<T>(&self, reason: Reason, place: usize) -> Result<T, SheetFault> {
        Err(SheetFault {
            sheet: self.sheet,
            reason,
            place,
        })
    }

    /// A field of `width` bytes, highest byte first.
    pub fn field(&mut self, width: usize) -> Result<usize, SheetFault> {
        match self.bytes.get(self.at..self.at + width) {
            None => self.refuse(Reason::Cut, self.bytes.len()),
            Some(bytes) => {
                self.at += width;
                Ok(bytes.iter().fold(0, |sum, byte| sum * 256 + *byte as usize))
            }
        }
    }

    /// A field that is at most `limit`.
    pub fn limited(&mut self, width: usize, limit: usize) -> Result<usize, SheetFault> {
        let place = self.at;
        let value = self.field(width)?;
        if value > limit {
            return self.refuse(Reason::AboveLimit, place);
        }
        Ok(value)
    }

    /// An offset field, to be tested on reaching its part.
    pub fn offset(&mut self) -> Result<Offset, SheetFault> {
        let field = self.at;
        let value = self.field(4)?;
        Ok(Offset { field, value })
    }

    /// The part that `offset` points to begins here.
    pub fn part(&self, offset: Offset) -> Result<(), SheetFault> {
        if offset.value != self.at {
            return self.refuse(Reason::WrongOffset, offset.field);
        }
        Ok(())
    }

    /// `count` ascending entries below `bound`, none of them `barred`.
    pub fn entries(
        &mut self,
        count: usize,
        bound: usize,
        barred: &Numbers,
    ) -> Result<Numbers, SheetFault> {
        let mut entries = Numbers::new();
        for _ in 0..count {
            let place = self.at;
            let entry = self.field(2)?;
            if entry >= bound {
                return self.refuse(Reason::OutOfRange, place);
            }
            if entries.last().is_some_and(|last| entry <= *last) {
                return self.refuse(Reason::NotAscending, place);
            }
            if barred.contains(&entry) {
                return self.refuse(Reason::DeletesAnAdd, place);
            }
            entries.insert(entry);
        }
        Ok(entries)
    }

    /// No byte follows.
    pub fn end(&self) -> Result<(), SheetFault> {
        if self.at < self.bytes.len() {
            return self.refuse(Reason::BytesFollow, self.at);
        }
        Ok(())
    }
}

/// Appends `value` in `width` bytes, highest byte first.
pub fn push(bytes: &mut Vec<u8>, width: usize, value: usize) {
    bytes.extend_from_slice(&value.to_be_bytes()[8 - width..]);
}

/// Appends every entry in two bytes.
pub fn push_entries(bytes: &mut Vec<u8>, entries: &Numbers) {
    for entry in entries {
        push(bytes, 2, *entry);
    }
}

/// Appends a count and then the entries.
pub fn push_counted(bytes: &mut Vec<u8>, entries: &Numbers) {
    push(bytes, 2, entries.len());
    push_entries(bytes, entries);
}
