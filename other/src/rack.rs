//! The rack: a step book by formula.

use crate::Numbers;
use crate::book::{Book, Step};
use crate::fault::NoSuchRack;

const MOST_PAIRS: u64 = 128;
const HANDLING: usize = 60;
const SETTLING: usize = 1800;

/// The numbers of the rack's facts.
struct Facts {
    loggers: usize,
    baths: usize,
}

impl Facts {
    fn pairs(&self) -> usize {
        self.loggers * self.baths
    }

    fn inside(&self, logger: usize, bath: usize) -> usize {
        logger * self.baths + bath
    }

    fn on_shelf(&self, logger: usize) -> usize {
        self.pairs() + logger
    }

    fn settled(&self, bath: usize) -> usize {
        self.pairs() + self.loggers + bath
    }

    fn read(&self, logger: usize, bath: usize) -> usize {
        self.pairs() + self.loggers + self.baths + logger * self.baths + bath
    }

    fn count(&self) -> usize {
        2 * self.pairs() + self.loggers + self.baths
    }

    fn put(&self, logger: usize, bath: usize) -> Step {
        Step {
            needs: Numbers::from([self.on_shelf(logger)]),
            adds: Numbers::from([self.inside(logger, bath)]),
            deletes: Numbers::from([self.on_shelf(logger), self.settled(bath)]),
            seconds: HANDLING,
        }
    }

    fn take_out(&self, logger: usize, bath: usize) -> Step {
        Step {
            needs: Numbers::from([self.inside(logger, bath)]),
            adds: Numbers::from([self.on_shelf(logger)]),
            deletes: Numbers::from([self.inside(logger, bath)]),
            seconds: HANDLING,
        }
    }

    fn take_reading(&self, logger: usize, bath: usize) -> Step {
        Step {
            needs: Numbers::from([self.inside(logger, bath), self.settled(bath)]),
            adds: Numbers::from([self.read(logger, bath)]),
            deletes: Numbers::new(),
            seconds: HANDLING,
        }
    }

    fn settle(&self, bath: usize) -> Step {
        Step {
            needs: Numbers::new(),
            adds: Numbers::from([self.settled(bath)]),
            deletes: Numbers::new(),
            seconds: SETTLING,
        }
    }

    /// One step for each logger and bath, in ascending order.
    fn each_pair(&self, step: impl Fn(usize, usize) -> Step) -> Vec<Step> {
        let mut steps = Vec::new();
        for logger in 0..self.loggers {
            for bath in 0..self.baths {
                steps.push(step(logger, bath));
            }
        }
        steps
    }
}

fn exists(loggers: u64, baths: u64) -> bool {
    let pairs = loggers.checked_mul(baths);
    pairs.is_some_and(|pairs| (1..=MOST_PAIRS).contains(&pairs))
}

/// The rack of so many loggers and baths.
pub fn rack(loggers: u64, baths: u64) -> Result<Book, NoSuchRack> {
    if !exists(loggers, baths) {
        return Err(NoSuchRack);
    }
    let facts = Facts {
        loggers: loggers as usize,
        baths: baths as usize,
    };
    let mut steps = facts.each_pair(|l, b| facts.put(l, b));
    steps.extend(facts.each_pair(|l, b| facts.take_out(l, b)));
    steps.extend(facts.each_pair(|l, b| facts.take_reading(l, b)));
    steps.extend((0..facts.baths).map(|b| facts.settle(b)));
    Ok(Book {
        facts: facts.count(),
        steps,
    })
}
