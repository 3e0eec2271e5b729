//! The listing of a book sheet and a task sheet.

use std::fmt::Write;

use crate::book::Book;
use crate::fault::{PlanFault, TooShort, write_into};
use crate::plan::{check, open, precedence};
use crate::task::Task;
use crate::timetable::{seconds, strata};

/// The longest sheet that is listed.
pub const LONGEST_SHEET: usize = 65_536;

/// The listing as text.
pub fn text(book: &[u8], task: &[u8]) -> String {
    if book.len() > LONGEST_SHEET || task.len() > LONGEST_SHEET {
        return refused(TooShort::NUMBER);
    }
    let listed = open(book, task).and_then(|(book, task)| listed(&book, &task));
    listed.unwrap_or_else(|fault| refused(fault.number()))
}

/// Writes the listing into a lent buffer.
pub fn write(book: &[u8], task: &[u8], out: &mut [u8]) -> Result<usize, TooShort> {
    write_into(out, text(book, task).as_bytes())
}

fn refused(number: u8) -> String {
    format!("refused {number}\n")
}

fn listed(book: &Book, task: &Task) -> Result<String, PlanFault> {
    let places = check(book, task)?.places;
    let precedence = precedence(book, &places);
    let strata = strata(&precedence);
    let seconds = seconds(book, &places, &precedence);

    let mut text = String::new();
    let _ = writeln!(
        text,
        "places {} levels {} strata {} seconds {}",
        places.len(),
        task.levels.len(),
        strata.end,
        seconds.end
    );
    for (v, place) in places.iter().enumerate() {
        let (step, level) = (place.step, place.level);
        let (stratum, begin) = (strata.begins[v], seconds.begins[v]);
        let _ = writeln!(
            text,
            "{v} step {step} level {level} stratum {stratum} at {begin}"
        );
    }
    Ok(text)
}
