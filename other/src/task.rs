//! Tasks and their sheets.

use crate::Numbers;
use crate::fault::{Reason, Sheet, SheetFault};
use crate::sheet::{MOST_FACTS, MOST_STEPS, Reader, push, push_counted};

const HEADER: usize = 20;
const TOTAL_FIELD: usize = 6;
const MOST_LEVELS: usize = 256;
const MOST_PLACES: usize = 256;

/// Start facts, goal facts and the levels of a plan.
#[derive(Debug, Clone, Default, PartialEq, Eq)]
pub struct Task {
    pub facts: usize,
    pub steps: usize,
    pub start: Numbers,
    pub goal: Numbers,
    pub levels: Vec<Numbers>,
}

impl Task {
    /// Opens a task sheet.
    pub fn open(bytes: &[u8]) -> Result<Task, SheetFault> {
        let mut reader = Reader::new(Sheet::Task, bytes);
        let facts = reader.limited(2, MOST_FACTS)?;
        let steps = reader.limited(2, MOST_STEPS)?;
        let level_count = reader.limited(2, MOST_LEVELS)?;
        let total = reader.limited(2, MOST_PLACES)?;
        let start_at = reader.offset()?;
        let goal_at = reader.offset()?;
        let plan_at = reader.offset()?;

        reader.part(start_at)?;
        let start = read_counted(&mut reader, facts)?;
        reader.part(goal_at)?;
        let goal = read_counted(&mut reader, facts)?;
        reader.part(plan_at)?;
        let levels = read_levels(&mut reader, level_count, total, steps)?;
        reader.end()?;
        Ok(Task {
            facts,
            steps,
            start,
            goal,
            levels,
        })
    }

    /// The number of steps in all levels.
    pub fn total(&self) -> usize {
        self.levels.iter().map(|level| level.len()).sum()
    }

    /// The task's sheet.
    pub fn sheet(&self) -> Vec<u8> {
        let goal_at = HEADER + 2 + 2 * self.start.len();
        let plan_at = goal_at + 2 + 2 * self.goal.len();
        let mut bytes = Vec::new();
        push(&mut bytes, 2, self.facts);
        push(&mut bytes, 2, self.steps);
        push(&mut bytes, 2, self.levels.len());
        push(&mut bytes, 2, self.total());
        push(&mut bytes, 4, HEADER);
        push(&mut bytes, 4, goal_at);
        push(&mut bytes, 4, plan_at);
        push_counted(&mut bytes, &self.start);
        push_counted(&mut bytes, &self.goal);
        for level in &self.levels {
            push_counted(&mut bytes, level);
        }
        bytes
    }
}

/// A count and so many facts.
fn read_counted(reader: &mut Reader, bound: usize) -> Result<Numbers, SheetFault> {
    let count = reader.field(2)?;
    reader.entries(count, bound, &Numbers::new())
}

/// `count` levels with `total` steps below `bound` in all.
fn read_levels(
    reader: &mut Reader,
    count: usize,
    total: usize,
    bound: usize,
) -> Result<Vec<Numbers>, SheetFault> {
    let mut levels = Vec::new();
    let mut left = total;
    for _ in 0..count {
        let place = reader.at();
        let size = reader.field(2)?;
        if size == 0 {
            return reader.refuse(Reason::EmptyLevel, place);
        }
        if size > left {
            return reader.refuse(Reason::WrongTotal, place);
        }
        left -= size;
        levels.push(reader.entries(size, bound, &Numbers::new())?);
    }
    if left > 0 {
        return reader.refuse(Reason::WrongTotal, TOTAL_FIELD);
    }
    Ok(levels)
}
