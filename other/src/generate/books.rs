//! Racks and random lawful books.

use crate::book::{Book, Step};
use crate::rack::rack;
use crate::random::Random;

pub fn book(random: &mut Random) -> Book {
    match random.below(1000) {
        0..=249 => small_rack(random),
        250..=269 => any_rack(random),
        270..=649 => loose(random, (1, 10), (1, 10), 3),
        650..=769 => ring(random),
        770..=899 => loose(random, (5, 80), (5, 50), 5),
        900..=924 => wide(random),
        925..=939 => many_steps(random),
        940..=942 => at_the_limits(random),
        943..=945 => of_length(random, 65_536),
        946..=948 => of_length(random, 65_537),
        949..=979 => loose(random, (0, 2), (0, 2), 2),
        _ => loose(random, (505, 520), (2, 12), 6),
    }
}

fn small_rack(random: &mut Random) -> Book {
    let (loggers, baths) = (random.between(1, 4), random.between(1, 3));
    rack(loggers as u64, baths as u64).expect("a small rack")
}

/// A rack of any shape.
fn any_rack(random: &mut Random) -> Book {
    let one = random.between(1, 128);
    let other = random.between(1, 128 / one);
    let (loggers, baths) = random.pick(&[(one, other), (other, one)]);
    rack(loggers as u64, baths as u64).expect("at most 128 pairs")
}

/// So many facts and steps, with lists of up to `longest` facts.
fn loose(
    random: &mut Random,
    facts: (usize, usize),
    steps: (usize, usize),
    longest: usize,
) -> Book {
    let facts = random.between(facts.0, facts.1);
    let count = random.between(steps.0, steps.1);
    let steps = (0..count).map(|_| {
        let needs = random.between(0, longest) / 2;
        let (adds, deletes) = (random.between(0, longest), random.between(0, longest));
        step(random, facts, [needs, adds, deletes])
    });
    Book {
        steps: steps.collect(),
        facts,
    }
}

/// A step with lists of the given lengths, as far as there are facts.
fn step(random: &mut Random, facts: usize, [needs, adds, deletes]: [usize; 3]) -> Step {
    let mut all: Vec<usize> = (0..facts).collect();
    random.shuffle(&mut all, needs);
    let needs = all.iter().copied().take(needs).collect();
    random.shuffle(&mut all, adds + deletes);
    let mut changed = all.into_iter();
    Step {
        needs,
        adds: changed.by_ref().take(adds).collect(),
        deletes: changed.take(deletes).collect(),
        seconds: seconds(random),
    }
}

fn seconds(random: &mut Random) -> usize {
    let any = random.between(0, 1_000_000);
    random.pick(&[0, 1, 60, 1800, 9, any, any, 1_000_000])
}

/// Steps of which each deletes what the next one needs, so that all together
/// have no order and all but one have just one.
fn ring(random: &mut Random) -> Book {
    let mut book = loose(random, (5, 12), (5, 9), 2);
    let length = random.between(2, 5);
    let first = random.below(book.steps.len());
    for link in 0..length {
        let place = (first + link) % book.steps.len();
        let next = (link + 1) % length;
        let step = &mut book.steps[place];
        step.needs.insert(link);
        step.adds.remove(&next);
        step.deletes.insert(next);
    }
    book
}

/// Few steps with long lists, often of 250 facts.
fn wide(random: &mut Random) -> Book {
    let facts = random.between(500, 1024);
    let count = random.between(1, 5);
    let steps = (0..count).map(|_| {
        let lengths = [(); 3].map(|_| {
            let any = random.between(0, 250);
            random.pick(&[250, 250, 249, any, 0])
        });
        step(random, facts, lengths)
    });
    Book {
        steps: steps.collect(),
        facts,
    }
}

/// Enough steps for the largest level.
fn many_steps(random: &mut Random) -> Book {
    let longest = random.pick(&[1, 1, 2, 4]);
    loose(random, (400, 1024), (256, 512), longest)
}

/// 1,024 facts and 512 steps.
fn at_the_limits(random: &mut Random) -> Book {
    let longest = random.pick(&[0, 1, 2, 20, 250]);
    loose(random, (1024, 1024), (512, 512), longest)
}

/// A book whose sheet has exactly so many bytes, about 65,000.
fn of_length(random: &mut Random, length: usize) -> Book {
    let count = 2 * random.between(25, 100) + length % 2;
    let entries = (length - 12 - 11 * count) / 2;
    let steps = (0..count).map(|number| {
        let share = entries / count + usize::from(number < entries % count);
        let (needs, adds) = (share / 3, share / 3);
        step(random, 1024, [needs, adds, share - needs - adds])
    });
    Book {
        steps: steps.collect(),
        facts: 1024,
    }
}

#[cfg(test)]
mod tests {
    use super::*;

    #[test]
    fn books_are_lawful() {
        let mut random = Random::new(1);
        for _ in 0..2000 {
            let book = book(&mut random);
            assert_eq!(Book::open(&book.sheet()), Ok(book));
        }
    }

    #[test]
    fn sheets_of_a_given_length() {
        let mut random = Random::new(2);
        for length in [65_536, 65_537] {
            assert_eq!(of_length(&mut random, length).sheet().len(), length);
        }
    }
}
