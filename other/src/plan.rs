//! Recognition of plans, their order and precedence.

use crate::Numbers;
use crate::book::Book;
use crate::fault::PlanFault;
use crate::task::Task;

/// A place of the order: its step and its level, counted from 1.
#[derive(Debug, Clone, Copy, PartialEq, Eq)]
pub struct Place {
    pub step: usize,
    pub level: usize,
}

/// An accepted plan: its final facts and its places in order.
#[derive(Debug, Clone, PartialEq, Eq)]
pub struct Accepted {
    pub final_facts: Numbers,
    pub places: Vec<Place>,
}

/// For each place the lower places that precede it, ascending.
pub type Precedence = Vec<Vec<usize>>;

/// Step `u` authorizes step `v`. Both are steps of the book.
pub fn authorizes(book: &Book, u: usize, v: usize) -> bool {
    let (first, then) = (&book.steps[u], &book.steps[v]);
    u != v && first.adds.is_disjoint(&then.deletes) && first.deletes.is_disjoint(&then.needs)
}

/// Steps `u` and `v` disturb each other.
pub fn disturb(book: &Book, u: usize, v: usize) -> bool {
    let harms = |x: usize, y: usize| {
        let (x, y) = (&book.steps[x], &book.steps[y]);
        !x.deletes.is_disjoint(&y.needs) || !x.deletes.is_disjoint(&y.adds)
    };
    u == v || harms(u, v) || harms(v, u)
}

/// The order of a level, or none where it has no authorized order.
pub fn level_order(book: &Book, level: &Numbers) -> Option<Vec<usize>> {
    let steps: Vec<usize> = level.iter().copied().collect();
    let must_follow = |later: usize, earlier: usize| {
        later != earlier && !authorizes(book, steps[later], steps[earlier])
    };
    let mut waits_for: Vec<usize> = (0..steps.len())
        .map(|v| (0..steps.len()).filter(|u| must_follow(v, *u)).count())
        .collect();
    let mut ready: Numbers = (0..steps.len()).filter(|v| waits_for[*v] == 0).collect();

    let mut order = Vec::new();
    while let Some(u) = ready.pop_first() {
        order.push(steps[u]);
        for v in (0..steps.len()).filter(|v| must_follow(*v, u)) {
            waits_for[v] -= 1;
            if waits_for[v] == 0 {
                ready.insert(v);
            }
        }
    }
    (order.len() == steps.len()).then_some(order)
}

/// The smallest step of the level that lacks a need, and the smallest fact it lacks.
fn lacking(book: &Book, level: &Numbers, facts: &Numbers) -> Option<(usize, usize)> {
    level.iter().find_map(|step| {
        let missing = book.steps[*step].needs.difference(facts).next();
        missing.map(|fact| (*step, *fact))
    })
}

/// Passing a level: all deletes go, then all adds come.
pub fn pass(book: &Book, level: &Numbers, facts: &mut Numbers) {
    for step in level {
        facts.retain(|fact| !book.steps[*step].deletes.contains(fact));
    }
    for step in level {
        facts.extend(&book.steps[*step].adds);
    }
}

/// Checks a plan: its final facts and order, or the first refusal.
pub fn check(book: &Book, task: &Task) -> Result<Accepted, PlanFault> {
    if task.facts != book.facts || task.steps != book.steps.len() {
        return Err(PlanFault::Mismatch);
    }
    let mut facts = task.start.clone();
    let mut places = Vec::new();
    for (steps, level) in task.levels.iter().zip(1..) {
        if let Some((step, fact)) = lacking(book, steps, &facts) {
            return Err(PlanFault::LacksNeed { level, step, fact });
        }
        let order = level_order(book, steps).ok_or(PlanFault::NoOrder { level })?;
        places.extend(order.into_iter().map(|step| Place { step, level }));
        pass(book, steps, &mut facts);
    }
    if let Some(fact) = task.goal.difference(&facts).next() {
        return Err(PlanFault::MissesGoal { fact: *fact });
    }
    Ok(Accepted {
        final_facts: facts,
        places,
    })
}

/// Opens both sheets, the book's first.
pub fn open(book: &[u8], task: &[u8]) -> Result<(Book, Task), PlanFault> {
    Ok((Book::open(book)?, Task::open(task)?))
}

/// Checks a plan from the bytes of both sheets.
pub fn check_sheets(book: &[u8], task: &[u8]) -> Result<Accepted, PlanFault> {
    let (book, task) = open(book, task)?;
    check(&book, &task)
}

/// Place `u` precedes place `v`.
pub fn precedes(book: &Book, u: Place, v: Place) -> bool {
    if u.level == v.level {
        return u.step != v.step && !authorizes(book, v.step, u.step);
    }
    let feeds = || {
        !book.steps[u.step]
            .adds
            .is_disjoint(&book.steps[v.step].needs)
    };
    u.level < v.level
        && (!authorizes(book, u.step, v.step) || !authorizes(book, v.step, u.step) || feeds())
}

/// Which place precedes which.
pub fn precedence(book: &Book, places: &[Place]) -> Precedence {
    let before = |v: usize| {
        let earlier = (0..places.len()).filter(|u| precedes(book, places[*u], places[v]));
        earlier.collect()
    };
    (0..places.len()).map(before).collect()
}
