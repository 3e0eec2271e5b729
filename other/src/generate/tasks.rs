//! Tasks whose plans are found by a walk, most of them accepted.

use crate::Numbers;
use crate::book::Book;
use crate::plan::{authorizes, pass};
use crate::random::Random;
use crate::task::Task;

const MOST_PLACES: usize = 256;

pub fn task(random: &mut Random, book: &Book) -> Task {
    let start = start(random, book);
    let mut facts = start.clone();
    let levels = walk(random, book, &mut facts);
    let count = random.between(0, facts.len()) / random.between(1, 4);
    let mut task = Task {
        facts: book.facts,
        steps: book.steps.len(),
        start,
        goal: random.some_of(&facts, count),
        levels,
    };
    if random.one_in(4) {
        spoil(random, &mut task);
    }
    task
}

/// Some facts, a few or nearly all.
fn start(random: &mut Random, book: &Book) -> Numbers {
    let all: Numbers = (0..book.facts).collect();
    let (part, whole) = random.pick(&[(0, 1), (1, 3), (1, 2), (3, 4), (9, 10), (1, 1), (1, 1)]);
    random.some_of(&all, book.facts * part / whole)
}

/// How many levels, and how many steps in each.
struct Shape {
    levels: usize,
    fewest: usize,
    most: usize,
}

fn shape(random: &mut Random, book: &Book) -> Shape {
    let (levels, fewest, most) = match random.below(200) {
        0..=15 => (0, 0, 0),
        _ if book.steps.len() >= MOST_PLACES && random.one_in(4) => (1, MOST_PLACES, MOST_PLACES),
        16..=139 => (random.between(1, 4), 1, random.between(1, 4)),
        140..=185 => (random.between(1, 10), 1, random.between(1, 6)),
        186..=193 => (random.between(16, 40), 1, 8),
        194..=196 => (MOST_PLACES, 1, 1),
        _ => (random.between(2, 5), 10, random.between(20, 60)),
    };
    Shape {
        levels,
        fewest,
        most,
    }
}

/// Levels that pass, one after the other; now and then one that may not.
fn walk(random: &mut Random, book: &Book, facts: &mut Numbers) -> Vec<Numbers> {
    let shape = shape(random, book);
    let reckless_level = random.below(4 * shape.levels + 1);
    let mut left = MOST_PLACES;
    let mut levels = Vec::new();
    for number in 0..shape.levels {
        let size = random.between(shape.fewest, shape.most);
        let level: Numbers = if number == reckless_level {
            let size = left.min(size + 3);
            applicable(random, book, facts)
                .into_iter()
                .take(size)
                .collect()
        } else {
            ordered_level(random, book, facts, left.min(size))
        };
        if level.is_empty() {
            break;
        }
        left -= level.len();
        pass(book, &level, facts);
        levels.push(level);
    }
    levels
}

/// The steps whose needs are there, in any order.
fn applicable(random: &mut Random, book: &Book, facts: &Numbers) -> Vec<usize> {
    let applicable = |step: &usize| book.steps[*step].needs.is_subset(facts);
    let mut steps: Vec<usize> = (0..book.steps.len()).filter(applicable).collect();
    let count = steps.len();
    random.shuffle(&mut steps, count);
    steps
}

/// At most `size` applicable steps that have an order.
fn ordered_level(random: &mut Random, book: &Book, facts: &Numbers, size: usize) -> Numbers {
    let mut order = Vec::new();
    for step in applicable(random, book, facts) {
        if order.len() < size {
            fit_in(book, &mut order, step);
        }
    }
    order.into_iter().collect()
}

/// Puts the step where all before it authorize it and it authorizes all behind
/// it, if there is such a spot.
fn fit_in(book: &Book, order: &mut Vec<usize>, step: usize) {
    let before = order.iter().take_while(|u| authorizes(book, **u, step));
    let behind = order
        .iter()
        .rev()
        .take_while(|v| authorizes(book, step, **v));
    let (latest, earliest) = (before.count(), order.len() - behind.count());
    if earliest <= latest {
        order.insert(earliest, step);
    }
}

/// Changes the task so that it may no longer be accepted.
fn spoil(random: &mut Random, task: &mut Task) {
    match random.below(12) {
        0 => task.facts = (task.facts + random.between(1, 3)).min(1024),
        1 => task.steps = (task.steps + random.between(1, 3)).min(512),
        2 => task.steps = task.steps.saturating_sub(1),
        3..=5 => one_step_more(random, task),
        6..=7 => {
            let count = random.below(task.start.len());
            task.start = random.some_of(&task.start, count);
        }
        8 => {
            let count = task.levels.len();
            random.shuffle(&mut task.levels, count);
        }
        _ => {
            let all: Numbers = (0..task.facts).collect();
            let more = random.between(1, 4);
            task.goal.extend(random.some_of(&all, more));
        }
    }
}

/// Puts any step into some level.
fn one_step_more(random: &mut Random, task: &mut Task) {
    let (step, number) = (random.below(task.steps), random.below(task.levels.len()));
    if let Some(level) = task.levels.get_mut(number) {
        level.insert(step);
    }
}
