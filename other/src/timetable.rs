//! Timetables in step counts and in seconds.

use crate::book::Book;
use crate::fault::TooShort;
use crate::plan::{Place, Precedence};

/// A kind of value whose sums stop at a cap.
#[derive(Debug, Clone, Copy, PartialEq, Eq)]
pub enum Measure {
    StepCount,
    Seconds,
}

impl Measure {
    pub fn cap(self) -> u64 {
        match self {
            Measure::StepCount => 65_535,
            Measure::Seconds => 4_294_967_295,
        }
    }

    pub fn add(self, value: u64, weight: u64) -> u64 {
        value.saturating_add(weight).min(self.cap())
    }
}

/// Writes the begin of each place, and answers the end.
pub fn timetable(
    measure: Measure,
    precedence: &Precedence,
    weights: &[u64],
    begins: &mut [u64],
) -> Result<u64, TooShort> {
    let needed = precedence.len();
    if weights.len() < needed || begins.len() < needed {
        return Err(TooShort { needed });
    }
    for (place, before) in precedence.iter().enumerate() {
        let ends = before.iter().map(|u| measure.add(begins[*u], weights[*u]));
        begins[place] = ends.max().unwrap_or(0);
    }
    let ends = (0..needed).map(|place| measure.add(begins[place], weights[place]));
    Ok(ends.max().unwrap_or(0))
}

/// A timetable with its end.
#[derive(Debug, Clone, PartialEq, Eq)]
pub struct Times {
    pub begins: Vec<u64>,
    pub end: u64,
}

fn times(measure: Measure, precedence: &Precedence, weights: &[u64]) -> Times {
    let mut begins = vec![0; precedence.len()];
    let end = timetable(measure, precedence, weights, &mut begins)
        .expect("both lists have an entry for each place");
    Times { begins, end }
}

/// The stratum of each place, and the number of strata.
pub fn strata(precedence: &Precedence) -> Times {
    let weights = vec![1; precedence.len()];
    times(Measure::StepCount, precedence, &weights)
}

/// When each place begins by the book's seconds, and the end.
pub fn seconds(book: &Book, places: &[Place], precedence: &Precedence) -> Times {
    let weights: Vec<u64> = places
        .iter()
        .map(|place| book.seconds(place.step) as u64)
        .collect();
    times(Measure::Seconds, precedence, &weights)
}
