//! Run cards: what the crew may begin, finish and put back.

use crate::board::Board;
use crate::book::Book;
use crate::fault::RunFault;
use crate::plan::{Place, Precedence, check, precedence};
use crate::task::Task;

#[derive(Debug, Clone, Copy, PartialEq, Eq)]
pub enum State {
    Waiting,
    InHand,
    Finished,
}

/// The places of a plan with their states and precedence.
#[derive(Debug, Clone, Default, PartialEq, Eq)]
pub struct Card {
    places: Vec<Place>,
    states: Vec<State>,
    precedence: Precedence,
}

/// What a crew asks of a place.
#[derive(Debug, Clone, Copy, PartialEq, Eq)]
pub enum Request {
    Begin(usize),
    Finish(usize),
    PutBack(usize),
    Look(usize),
}

/// What a request is answered.
#[derive(Debug, Clone, Copy, PartialEq, Eq)]
pub enum Answer {
    Granted,
    Seen(Place, State),
    Refused(RunFault),
}

impl Card {
    /// A card without places.
    pub fn new() -> Card {
        Card::default()
    }

    pub fn places(&self) -> &[Place] {
        &self.places
    }

    pub fn precedence(&self) -> &Precedence {
        &self.precedence
    }

    fn new_for(book: &Book, places: Vec<Place>) -> Card {
        Card {
            precedence: precedence(book, &places),
            states: vec![State::Waiting; places.len()],
            places,
        }
    }

    fn any_in_hand(&self) -> bool {
        self.states.contains(&State::InHand)
    }

    pub fn state(&self, place: usize) -> Result<State, RunFault> {
        self.states.get(place).copied().ok_or(RunFault::NoSuchPlace)
    }

    fn expect(&self, place: usize, state: State) -> Result<(), RunFault> {
        if self.state(place)? != state {
            return Err(RunFault::WrongState);
        }
        Ok(())
    }

    /// The place waits and every preceding place is finished.
    pub fn may_begin(&self, place: usize) -> bool {
        self.state(place) == Ok(State::Waiting) && self.unfinished_before(place).is_none()
    }

    /// The lowest preceding place that is unfinished.
    fn unfinished_before(&self, place: usize) -> Option<usize> {
        let mut before = self.precedence[place].iter().copied();
        before.find(|u| self.states[*u] != State::Finished)
    }
}

/// A book, a board and a card.
pub struct Run<B: Board> {
    pub book: Book,
    pub board: B,
    pub card: Card,
}

impl<B: Board> Run<B> {
    /// A run with a new card.
    pub fn new(book: Book, board: B) -> Run<B> {
        Run {
            book,
            board,
            card: Card::new(),
        }
    }

    /// Puts an accepted plan on the card and its start facts on the board.
    pub fn issue(&mut self, task: &Task) -> Result<(), RunFault> {
        let accepted = check(&self.book, task)?;
        if self.card.any_in_hand() {
            return Err(RunFault::StepInHand);
        }
        if self.board.span() < task.facts {
            return Err(RunFault::SpanTooSmall);
        }
        self.card = Card::new_for(&self.book, accepted.places);
        self.board.set(&task.start);
        Ok(())
    }

    pub fn look(&self, place: usize) -> Result<(Place, State), RunFault> {
        let state = self.card.state(place)?;
        Ok((self.card.places[place], state))
    }

    pub fn begin(&mut self, place: usize) -> Result<(), RunFault> {
        self.card.expect(place, State::Waiting)?;
        if let Some(place) = self.card.unfinished_before(place) {
            return Err(RunFault::Unfinished { place });
        }
        self.card.states[place] = State::InHand;
        Ok(())
    }

    pub fn finish(&mut self, place: usize) -> Result<(), RunFault> {
        self.card.expect(place, State::InHand)?;
        self.card.states[place] = State::Finished;
        let step = self.card.places[place].step;
        // The card may be of another book.
        if let Some(step) = self.book.steps.get(step) {
            self.board.perform(step);
        }
        Ok(())
    }

    pub fn put_back(&mut self, place: usize) -> Result<(), RunFault> {
        self.card.expect(place, State::InHand)?;
        self.card.states[place] = State::Waiting;
        Ok(())
    }

    /// Carries out one request.
    pub fn answer(&mut self, request: Request) -> Answer {
        let granted = match request {
            Request::Begin(place) => self.begin(place),
            Request::Finish(place) => self.finish(place),
            Request::PutBack(place) => self.put_back(place),
            Request::Look(place) => {
                return match self.look(place) {
                    Ok((place, state)) => Answer::Seen(place, state),
                    Err(fault) => Answer::Refused(fault),
                };
            }
        };
        match granted {
            Ok(()) => Answer::Granted,
            Err(fault) => Answer::Refused(fault),
        }
    }
}
