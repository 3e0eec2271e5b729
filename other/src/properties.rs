//! What the rules promise, tried on generated cases.

use crate::Numbers;
use crate::board::{BitBoard, Board, TallyBoard};
use crate::book::Book;
use crate::card::{Request, Run, State};
use crate::generate::{Case, case, scripts};
use crate::plan::{Accepted, authorizes, check, disturb, level_order, open, pass, precedence};
use crate::random::Random;
use crate::recast::recast;
use crate::task::Task;
use crate::timetable::{seconds, strata};

const CASES: u64 = 1500;
const MOST_PLACES: usize = 40;

/// Calls `test` with every case whose sheets open and whose plan is not large.
fn opened(seed: u64, mut test: impl FnMut(&mut Random, &Case, &Book, &Task)) {
    for number in 0..CASES {
        let mut random = Random::of_case(seed, number);
        let case = case(&mut random);
        if let Ok((book, task)) = open(&case.book, &case.task)
            && task.total() <= MOST_PLACES
        {
            test(&mut random, &case, &book, &task);
        }
    }
}

/// Calls `test` with every accepted plan that is not large.
fn accepted(seed: u64, mut test: impl FnMut(&mut Random, &Case, &Book, &Task, &Accepted)) {
    let mut count = 0;
    opened(seed, |random, case, book, task| {
        if let Ok(accepted) = check(book, task) {
            test(random, case, book, task, &accepted);
            count += 1;
        }
    });
    assert!(count > CASES as usize / 4);
}

/// Some order of the steps left behind `order` authorizes all the way.
fn some_order(book: &Book, order: &mut Vec<usize>, left: &Numbers) -> bool {
    left.is_empty()
        || left.iter().any(|step| {
            let fits = order
                .iter()
                .all(|earlier| authorizes(book, *earlier, *step));
            let mut rest = left.clone();
            rest.remove(step);
            order.push(*step);
            let found = fits && some_order(book, order, &rest);
            order.pop();
            found
        })
}

#[test]
fn levels_have_an_order_where_trying_all_finds_one() {
    let mut counts = [0, 0];
    opened(1, |_, _, book, task| {
        let fits = task.steps <= book.steps.len();
        for level in task.levels.iter().filter(|level| fits && level.len() <= 6) {
            let order = level_order(book, level);
            assert_eq!(order.is_some(), some_order(book, &mut Vec::new(), level));
            counts[order.is_some() as usize] += 1;
        }
    });
    assert!(counts[0] > 20 && counts[1] > 500, "{counts:?}");
}

#[test]
fn every_order_done_singly_leaves_what_passing_leaves() {
    accepted(2, |_, _, book, task, accepted| {
        let mut level_by_level = task.start.clone();
        for level in &task.levels {
            pass(book, level, &mut level_by_level);
        }
        let mut singly = task.start.clone();
        for place in &accepted.places {
            let step = &book.steps[place.step];
            assert!(step.needs.is_subset(&singly));
            step.perform(&mut singly);
        }
        assert_eq!(singly, accepted.final_facts);
        assert_eq!(level_by_level, accepted.final_facts);
    });
}

#[test]
fn precedence_runs_upwards_and_parts_disturbing_steps() {
    accepted(3, |_, _, book, _, accepted| {
        let before = precedence(book, &accepted.places);
        for (v, places) in before.iter().enumerate() {
            assert!(places.iter().all(|u| *u < v));
            for u in (0..v).filter(|u| !places.contains(u)) {
                assert!(!disturb(
                    book,
                    accepted.places[u].step,
                    accepted.places[v].step
                ));
            }
        }
    });
}

#[test]
fn timetables_keep_the_precedences() {
    accepted(4, |_, _, book, _, accepted| {
        let before = precedence(book, &accepted.places);
        let strata = strata(&before);
        let seconds = seconds(book, &accepted.places, &before);
        for (v, places) in before.iter().enumerate() {
            for u in places {
                assert!(strata.begins[*u] < strata.begins[v]);
                let weight = book.seconds(accepted.places[*u].step) as u64;
                assert!(seconds.begins[*u] + weight <= seconds.begins[v]);
            }
        }
        let used: Numbers = strata
            .begins
            .iter()
            .map(|stratum| *stratum as usize)
            .collect();
        assert_eq!(used, (0..strata.end as usize).collect());
    });
}

#[test]
fn recast_plans() {
    accepted(5, |_, _, book, task, accepted| {
        let new = recast(book, task).unwrap();
        assert_eq!(Task::open(&new.sheet()), Ok(new.clone()));
        assert_eq!(new.total(), task.total());
        let final_facts = check(book, &new).unwrap().final_facts;
        assert_eq!(final_facts, accepted.final_facts);
        for level in &new.levels {
            for u in level {
                let others = level.iter().filter(|v| *v != u);
                assert!(others.into_iter().all(|v| !disturb(book, *u, *v)));
            }
        }
        assert_eq!(recast(book, &new), Ok(new));
    });
}

fn places_in(run: &Run<impl Board>, state: State) -> Vec<usize> {
    let places = 0..run.card.places().len();
    places
        .filter(|place| run.card.state(*place) == Ok(state))
        .collect()
}

/// What is promised at every moment of a run.
fn promised(run: &Run<impl Board>, task: &Task) {
    let facts = run.board.facts();
    let step = |place: &usize| run.card.places()[*place].step;
    let in_hand = places_in(run, State::InHand);
    for u in &in_hand {
        assert!(run.book.steps[step(u)].needs.is_subset(&facts));
        let mut others = in_hand.iter().filter(|v| *v != u);
        assert!(others.all(|v| !disturb(&run.book, step(u), step(v))));
    }
    let mut left = task.start.clone();
    for place in places_in(run, State::Finished) {
        run.book.steps[step(&place)].perform(&mut left);
    }
    assert_eq!(left, facts);
}

/// Finishes every place, the highest that may begin first.
fn finish_all(run: &mut Run<impl Board>) {
    for place in places_in(run, State::InHand) {
        run.finish(place).unwrap();
    }
    while let Some(place) = (0..run.card.places().len()).rfind(|place| run.card.may_begin(*place)) {
        run.begin(place).unwrap();
        run.finish(place).unwrap();
    }
    assert!(places_in(run, State::Waiting).is_empty());
}

fn whole_run(board: impl Board, book: &Book, task: &Task, script: &[Request], end: &Numbers) {
    let mut run = Run::new(book.clone(), board);
    run.issue(task).unwrap();
    for request in script {
        run.answer(*request);
        promised(&run, task);
    }
    finish_all(&mut run);
    assert_eq!(run.board.facts(), *end);
}

#[test]
fn runs() {
    accepted(6, |random, case, book, task, accepted| {
        let script = scripts::script(random, case);
        let end = &accepted.final_facts;
        whole_run(BitBoard::new(), book, task, &script, end);
        if book.facts <= 512 {
            whole_run(TallyBoard::new(), book, task, &script, end);
        }
    });
}
