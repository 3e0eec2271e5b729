//! A second bench plan checker, written from the documents alone.
//!
//! It does everything the plain way: sets are `BTreeSet`s, boards are arrays,
//! and a level is ordered by taking steps one after the other.

pub mod board;
pub mod book;
pub mod card;
pub mod fault;
pub mod generate;
pub mod hex;
pub mod listing;
pub mod plan;
pub mod rack;
pub mod random;
pub mod recast;
pub mod script;
pub mod sheet;
pub mod task;
pub mod timetable;
pub mod wire;

use std::collections::BTreeSet;

/// A set of facts, or the steps of a level.
pub type Numbers = BTreeSet<usize>;

#[cfg(test)]
mod examples;
#[cfg(test)]
mod properties;
