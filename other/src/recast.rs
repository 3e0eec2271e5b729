//! Recasting: the same task with its strata as levels.

use crate::Numbers;
use crate::book::Book;
use crate::fault::{PlanFault, TooShort, write_into};
use crate::plan::{check, precedence};
use crate::task::Task;
use crate::timetable::strata;

/// Why a plan is not recast.
#[derive(Debug, Clone, Copy, PartialEq, Eq)]
pub enum RecastFault {
    Plan(PlanFault),
    TooShort(TooShort),
}

/// The recast of an accepted plan.
pub fn recast(book: &Book, task: &Task) -> Result<Task, PlanFault> {
    let places = check(book, task)?.places;
    let strata = strata(&precedence(book, &places));
    let mut levels = vec![Numbers::new(); strata.end as usize];
    for (place, stratum) in places.iter().zip(&strata.begins) {
        levels[*stratum as usize].insert(place.step);
    }
    Ok(Task {
        levels,
        ..task.clone()
    })
}

/// Writes the sheet of the recast plan into a lent buffer.
pub fn write(book: &Book, task: &Task, out: &mut [u8]) -> Result<usize, RecastFault> {
    let recast = recast(book, task).map_err(RecastFault::Plan)?;
    write_into(out, &recast.sheet()).map_err(RecastFault::TooShort)
}
