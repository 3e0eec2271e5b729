//! Cases for a comparison, from a seed.

pub mod books;
pub mod damage;
pub mod scripts;
pub mod tasks;

use crate::random::Random;

/// The bytes of a book sheet and of a task sheet, lawful or not.
#[derive(Debug, Clone, PartialEq, Eq)]
pub struct Case {
    pub book: Vec<u8>,
    pub task: Vec<u8>,
}

/// A case; about two in three have lawful sheets.
pub fn case(random: &mut Random) -> Case {
    let mut book = books::book(random);
    let mut task = tasks::task(random, &book);
    match random.below(40) {
        0..=1 => damage::unlawful_book(random, &mut book),
        2..=4 => damage::unlawful_task(random, &mut task),
        _ => {}
    }
    let mut case = Case {
        book: book.sheet(),
        task: task.sheet(),
    };
    match random.below(40) {
        0..=4 => damage::book_sheet(random, &mut case.book),
        5..=9 => damage::task_sheet(random, &mut case.task),
        10 => {
            damage::book_sheet(random, &mut case.book);
            damage::task_sheet(random, &mut case.task);
        }
        _ => {}
    }
    if random.one_in(400) {
        damage::pad(random, &mut case);
    }
    case
}

#[cfg(test)]
mod tests {
    use super::*;
    use crate::listing;

    #[test]
    fn the_same_seed_gives_the_same_case() {
        for number in 0..50 {
            let again = || case(&mut Random::of_case(3, number));
            assert_eq!(again(), again());
        }
    }

    #[test]
    fn every_refusal_is_among_the_cases() {
        let listings: Vec<String> = (0..4000)
            .map(|number| case(&mut Random::of_case(4, number)))
            .map(|case| listing::text(&case.book, &case.task))
            .collect();
        for number in (1..=13).chain([19]) {
            let refused = format!("refused {number}\n");
            let count = listings.iter().filter(|text| **text == refused).count();
            assert!(count > 10, "{number}: {count}");
        }
        let listed = listings.iter().filter(|text| text.starts_with("places"));
        assert!(listed.count() > 1600);
    }

    #[test]
    fn plans_reach_their_limits() {
        let firsts: Vec<String> = (0..4000)
            .map(|number| case(&mut Random::of_case(5, number)))
            .map(|case| listing::text(&case.book, &case.task))
            .collect();
        for front in [
            "places 256 levels 256 ",
            "places 256 levels 1 ",
            "places 0 levels 0 ",
        ] {
            assert!(firsts.iter().any(|text| text.starts_with(front)), "{front}");
        }
    }
}
