//! Step books and their sheets.

use crate::Numbers;
use crate::fault::{Sheet, SheetFault, TooShort, write_into};
use crate::sheet::{MOST_FACTS, MOST_STEPS, Offset, Reader, push, push_entries};

const HEADER: usize = 12;
const ROW: usize = 11;
const MOST_SECONDS: usize = 1_000_000;
const MOST_LISTED: usize = 250;

/// What a step needs, adds and deletes, and its time.
#[derive(Debug, Clone, Default, PartialEq, Eq)]
pub struct Step {
    pub needs: Numbers,
    pub adds: Numbers,
    pub deletes: Numbers,
    pub seconds: usize,
}

impl Step {
    /// Done singly: removes the deletes, then puts the adds.
    pub fn perform(&self, facts: &mut Numbers) {
        facts.retain(|fact| !self.deletes.contains(fact));
        facts.extend(&self.adds);
    }

    fn lists_length(&self) -> usize {
        2 * (self.needs.len() + self.adds.len() + self.deletes.len())
    }
}

/// The number of facts, and every step.
#[derive(Debug, Clone, Default, PartialEq, Eq)]
pub struct Book {
    pub facts: usize,
    pub steps: Vec<Step>,
}

/// A row of the sheet, before its lists are read.
struct Row {
    lists: Offset,
    seconds: usize,
    needs: usize,
    adds: usize,
    deletes: usize,
}

impl Row {
    fn read(reader: &mut Reader) -> Result<Row, SheetFault> {
        Ok(Row {
            lists: reader.offset()?,
            seconds: reader.limited(4, MOST_SECONDS)?,
            needs: reader.limited(1, MOST_LISTED)?,
            adds: reader.limited(1, MOST_LISTED)?,
            deletes: reader.limited(1, MOST_LISTED)?,
        })
    }

    fn read_step(&self, reader: &mut Reader, facts: usize) -> Result<Step, SheetFault> {
        let none = Numbers::new();
        reader.part(self.lists)?;
        let needs = reader.entries(self.needs, facts, &none)?;
        let adds = reader.entries(self.adds, facts, &none)?;
        let deletes = reader.entries(self.deletes, facts, &adds)?;
        Ok(Step {
            needs,
            adds,
            deletes,
            seconds: self.seconds,
        })
    }
}

impl Book {
    /// Opens a book sheet.
    pub fn open(bytes: &[u8]) -> Result<Book, SheetFault> {
        let mut reader = Reader::new(Sheet::Book, bytes);
        let facts = reader.limited(2, MOST_FACTS)?;
        let count = reader.limited(2, MOST_STEPS)?;
        let rows_at = reader.offset()?;
        let lists_at = reader.offset()?;

        reader.part(rows_at)?;
        let mut rows = Vec::new();
        for _ in 0..count {
            rows.push(Row::read(&mut reader)?);
        }

        reader.part(lists_at)?;
        let mut steps = Vec::new();
        for row in &rows {
            steps.push(row.read_step(&mut reader, facts)?);
        }
        reader.end()?;
        Ok(Book { facts, steps })
    }

    /// The book's sheet.
    pub fn sheet(&self) -> Vec<u8> {
        let lists_at = HEADER + ROW * self.steps.len();
        let mut bytes = Vec::new();
        push(&mut bytes, 2, self.facts);
        push(&mut bytes, 2, self.steps.len());
        push(&mut bytes, 4, HEADER);
        push(&mut bytes, 4, lists_at);
        let mut at = lists_at;
        for step in &self.steps {
            push(&mut bytes, 4, at);
            push(&mut bytes, 4, step.seconds);
            push(&mut bytes, 1, step.needs.len());
            push(&mut bytes, 1, step.adds.len());
            push(&mut bytes, 1, step.deletes.len());
            at += step.lists_length();
        }
        for step in &self.steps {
            push_entries(&mut bytes, &step.needs);
            push_entries(&mut bytes, &step.adds);
            push_entries(&mut bytes, &step.deletes);
        }
        bytes
    }

    /// Writes the sheet into a lent buffer.
    pub fn write(&self, out: &mut [u8]) -> Result<usize, TooShort> {
        write_into(out, &self.sheet())
    }

    pub fn needs(&self, step: usize, fact: usize) -> bool {
        self.steps
            .get(step)
            .is_some_and(|s| s.needs.contains(&fact))
    }

    pub fn adds(&self, step: usize, fact: usize) -> bool {
        self.steps.get(step).is_some_and(|s| s.adds.contains(&fact))
    }

    pub fn deletes(&self, step: usize, fact: usize) -> bool {
        self.steps
            .get(step)
            .is_some_and(|s| s.deletes.contains(&fact))
    }

    pub fn seconds(&self, step: usize) -> usize {
        self.steps.get(step).map_or(0, |s| s.seconds)
    }
}
