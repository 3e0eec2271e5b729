//! Requests of a crew, many of them granted.

use crate::board::BitBoard;
use crate::card::{Request, Run, State};
use crate::plan::open;
use crate::random::Random;

use super::Case;

const LONGEST: usize = 120;

/// A script for the case's plan; of any requests where it has none.
pub fn script(random: &mut Random, case: &Case) -> Vec<Request> {
    let issued = open(&case.book, &case.task).ok().and_then(|(book, task)| {
        let mut run = Run::new(book, BitBoard::new());
        run.issue(&task).ok().map(|()| run)
    });
    match issued {
        None => (0..3).map(|_| any_request(random, 3)).collect(),
        Some(run) => crew(random, run),
    }
}

/// A crew at work, wise two times in three.
fn crew(random: &mut Random, mut run: Run<BitBoard>) -> Vec<Request> {
    let places = run.card.places().len();
    let enough = 6 * places + 4;
    let length = match random.below(40) {
        0 => enough,
        1..=19 => enough.min(LONGEST),
        _ => random.between(0, enough.min(LONGEST)),
    };
    let mut script = Vec::new();
    for _ in 0..length {
        let request = match random.below(3) {
            0 => any_request(random, places),
            _ => wise_request(random, &run),
        };
        run.answer(request);
        script.push(request);
    }
    script
}

fn any_request(random: &mut Random, places: usize) -> Request {
    let place = match random.below(12) {
        0 => random.pick(&[places, places + 1, 255, 256, 511, 0xFFFF]),
        _ => random.below(places),
    };
    let kind = random.pick(&[
        Request::Begin,
        Request::Finish,
        Request::PutBack,
        Request::Look,
    ]);
    kind(place)
}

/// A request that is granted, for the first such place from a random one on.
fn wise_request(random: &mut Random, run: &Run<BitBoard>) -> Request {
    let places = run.card.places().len();
    let first = random.below(places);
    let from_first = || (0..places).map(|more| (first + more) % places);
    let in_hand = from_first().find(|place| run.card.state(*place) == Ok(State::InHand));
    let startable = from_first().find(|place| run.card.may_begin(*place));
    match (in_hand, startable) {
        (Some(place), _) if random.one_in(8) => Request::PutBack(place),
        (Some(place), None) => Request::Finish(place),
        (Some(place), Some(_)) if random.one_in(2) => Request::Finish(place),
        (_, Some(place)) => Request::Begin(place),
        (None, None) => Request::Look(first),
    }
}
