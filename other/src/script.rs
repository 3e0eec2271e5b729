//! A crew's script: as text, and in three bytes a request.

use std::fmt;

use crate::card::{Answer, Request, State};
use crate::fault::RunFault;

impl Request {
    /// The kind, then the place in two bytes.
    pub fn to_bytes(self) -> [u8; 3] {
        let (kind, place) = match self {
            Request::Begin(place) => (0, place),
            Request::Finish(place) => (1, place),
            Request::PutBack(place) => (2, place),
            Request::Look(place) => (3, place),
        };
        [kind, (place / 256) as u8, (place % 256) as u8]
    }

    /// The request that three bytes mean; a kind above 3 is a look too.
    pub fn from_bytes([kind, high, low]: [u8; 3]) -> Request {
        let place = 256 * high as usize + low as usize;
        match kind {
            0 => Request::Begin(place),
            1 => Request::Finish(place),
            2 => Request::PutBack(place),
            _ => Request::Look(place),
        }
    }

    /// The request of one line.
    pub fn from_line(line: &str) -> Option<Request> {
        let (words, place) = line.rsplit_once(' ')?;
        let place = decimal(place)?;
        match words {
            "begin" => Some(Request::Begin(place)),
            "finish" => Some(Request::Finish(place)),
            "put back" => Some(Request::PutBack(place)),
            "look" => Some(Request::Look(place)),
            _ => None,
        }
    }
}

/// Digits only, and a number that fits 64 bits.
fn decimal(digits: &str) -> Option<usize> {
    let lawful = !digits.is_empty() && digits.bytes().all(|digit| digit.is_ascii_digit());
    if lawful { digits.parse().ok() } else { None }
}

/// Every request of a text, or the number of the first line that is none.
pub fn parse(text: &str) -> Result<Vec<Request>, usize> {
    if text.is_empty() {
        return Ok(Vec::new());
    }
    let text = text.strip_suffix('\n').unwrap_or(text);
    let lines = text.split('\n').zip(1..);
    lines
        .map(|(line, number)| Request::from_line(line).ok_or(number))
        .collect()
}

impl fmt::Display for Answer {
    fn fmt(&self, to: &mut fmt::Formatter) -> fmt::Result {
        match self {
            Answer::Granted => write!(to, "granted"),
            Answer::Seen(place, state) => {
                let state = match state {
                    State::Waiting => "waiting",
                    State::InHand => "in hand",
                    State::Finished => "finished",
                };
                write!(to, "step {} level {} {state}", place.step, place.level)
            }
            Answer::Refused(RunFault::Unfinished { place }) => write!(to, "refused 18 {place}"),
            Answer::Refused(fault) => write!(to, "refused {}", fault.number()),
        }
    }
}

#[cfg(test)]
mod tests {
    use super::*;
    use crate::board::BitBoard;
    use crate::card::Run;
    use crate::rack::rack;
    use crate::task::Task;

    #[test]
    fn lines() {
        let text = "begin 0\nput back 0012\nlook 3\nfinish 18446744073709551615";
        let requests = [
            Request::Begin(0),
            Request::PutBack(12),
            Request::Look(3),
            Request::Finish(usize::MAX),
        ];
        assert_eq!(parse(text), Ok(requests.to_vec()));
        assert_eq!(parse(&format!("{text}\n")), Ok(requests.to_vec()));
        assert_eq!(parse(""), Ok(vec![]));
        assert_eq!(parse("\n"), Err(1));
        for line in [
            "begin",
            "begin ",
            "begin  1",
            "begin +1",
            "put 1",
            " look 1",
            "look 1 ",
            "look 1\r",
            "look 18446744073709551616",
            "",
        ] {
            assert_eq!(parse(&format!("look 1\n{line}\nlook x\n")), Err(2));
        }
    }

    #[test]
    fn bytes() {
        for request in [
            Request::Begin(0),
            Request::Finish(258),
            Request::PutBack(65_535),
        ] {
            assert_eq!(Request::from_bytes(request.to_bytes()), request);
        }
        assert_eq!(Request::Look(258).to_bytes(), [3, 1, 2]);
        assert_eq!(Request::from_bytes([4, 1, 2]), Request::Look(258));
    }

    #[test]
    fn answers() {
        let book = rack(2, 1).unwrap();
        let task = Task {
            facts: 7,
            steps: 7,
            start: [2, 3].into(),
            goal: [5].into(),
            levels: vec![[0, 6].into(), [1, 4].into()],
        };
        let mut run = Run::new(book, BitBoard::new());
        run.issue(&task).unwrap();
        let script = [
            ("begin 1", "refused 18 0"),
            ("begin 3", "refused 18 1"),
            ("begin 4", "refused 16"),
            ("look 2", "step 4 level 2 waiting"),
            ("begin 0", "granted"),
            ("look 0", "step 0 level 1 in hand"),
            ("put back 0", "granted"),
            ("finish 0", "refused 17"),
            ("begin 0", "granted"),
            ("finish 0", "granted"),
            ("begin 0", "refused 17"),
            ("look 0", "step 0 level 1 finished"),
        ];
        for (line, answer) in script {
            let request = Request::from_line(line).unwrap();
            assert_eq!(run.answer(request).to_string(), answer);
        }
    }
}
