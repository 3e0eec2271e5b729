//! The four linked functions, as this library answers them.

use crate::Numbers;
use crate::board::{BitBoard, Board, TallyBoard};
use crate::card::{Answer, Request, Run, State};
use crate::fault::{PlanFault, RunFault, Sheet};
use crate::plan::{check_sheets, open};
use crate::{listing, recast};

/// Added to the length needed where a buffer is too short.
pub const TOO_SHORT: u64 = 1 << 32;
/// Added to the number of a refusal.
pub const REFUSED: u64 = 1 << 33;
/// The shortest buffer for a report.
pub const REPORT: usize = 160;

const ANSWER: usize = 16;
const FACTS: usize = 128;

/// What a function does with any buffer it is lent.
pub struct Outcome {
    /// The bytes that it writes.
    text: Vec<u8>,
    /// The shortest buffer that it does not find too short.
    pub room: usize,
    /// What it answers having written.
    answer: u64,
    /// What it answers to a shorter buffer.
    too_short: u64,
}

impl Outcome {
    fn refused(number: u8) -> Outcome {
        Outcome {
            text: Vec::new(),
            room: 0,
            answer: REFUSED + number as u64,
            too_short: 0,
        }
    }

    fn written(text: Vec<u8>, room: usize, too_short: u64) -> Outcome {
        Outcome {
            room,
            answer: text.len() as u64,
            text,
            too_short,
        }
    }

    pub fn is_refused(&self) -> bool {
        self.answer >= REFUSED
    }

    /// Writes into a lent buffer and answers.
    pub fn write(&self, out: &mut [u8]) -> u64 {
        if out.len() < self.room {
            return self.too_short;
        }
        out[..self.text.len()].copy_from_slice(&self.text);
        self.answer
    }
}

/// The listing; to a short buffer the length it needs.
pub fn list(book: &[u8], task: &[u8]) -> Outcome {
    let text = listing::text(book, task).into_bytes();
    let needed = text.len();
    Outcome::written(text, needed, TOO_SHORT + needed as u64)
}

/// The report of a check; to a short buffer 0.
pub fn check(book: &[u8], task: &[u8]) -> Outcome {
    Outcome::written(report(book, task), REPORT, 0)
}

fn report(book: &[u8], task: &[u8]) -> Vec<u8> {
    match check_sheets(book, task) {
        Ok(accepted) => [&[0], &fact_bits(&accepted.final_facts)[..]].concat(),
        Err(fault) => [&[fault.number()], &named(fault)[..]].concat(),
    }
}

/// What a refusal of a sheet or a plan names.
fn named(fault: PlanFault) -> Vec<u8> {
    match fault {
        PlanFault::Sheet(fault) => {
            let sheet = match fault.sheet {
                Sheet::Book => 0,
                Sheet::Task => 1,
            };
            [&[sheet], &values(&[fault.place])[..]].concat()
        }
        PlanFault::Mismatch => Vec::new(),
        PlanFault::LacksNeed { level, step, fact } => values(&[level, step, fact]),
        PlanFault::NoOrder { level } => values(&[level]),
        PlanFault::MissesGoal { fact } => values(&[fact]),
    }
}

/// Each value in eight bytes, highest byte first.
fn values(values: &[usize]) -> Vec<u8> {
    values
        .iter()
        .flat_map(|value| (*value as u64).to_be_bytes())
        .collect()
}

/// Fact p is bit p mod 8 of byte p / 8.
fn fact_bits(facts: &Numbers) -> [u8; FACTS] {
    let mut bits = [0; FACTS];
    for fact in facts {
        bits[fact / 8] |= 1 << (fact % 8);
    }
    bits
}

/// The recast sheet; to a short buffer the length it needs.
pub fn recast(book: &[u8], task: &[u8]) -> Outcome {
    let recast = open(book, task).and_then(|(book, task)| recast::recast(&book, &task));
    match recast {
        Err(fault) => Outcome::refused(fault.number()),
        Ok(task) => {
            let sheet = task.sheet();
            let needed = sheet.len();
            Outcome::written(sheet, needed, TOO_SHORT + needed as u64)
        }
    }
}

/// The answers to a script's requests, each with the facts behind it.
pub fn run(book: &[u8], task: &[u8], script: &[u8], tally: bool) -> Outcome {
    let records = match tally {
        false => records(book, task, script, BitBoard::new()),
        true => records(book, task, script, TallyBoard::new()),
    };
    match records {
        Err(fault) => Outcome::refused(fault.number()),
        Ok(records) => {
            let needed = records.len();
            Outcome::written(records, needed, TOO_SHORT)
        }
    }
}

fn records(
    book: &[u8],
    task: &[u8],
    script: &[u8],
    board: impl Board,
) -> Result<Vec<u8>, RunFault> {
    let (book, task) = open(book, task)?;
    let mut run = Run::new(book, board);
    run.issue(&task)?;
    let (requests, _) = script.as_chunks::<3>();
    let mut records = Vec::new();
    for bytes in requests {
        let answer = run.answer(Request::from_bytes(*bytes));
        records.extend(answer_bytes(answer));
        records.extend(fact_bits(&run.board.facts()));
    }
    Ok(records)
}

fn answer_bytes(answer: Answer) -> [u8; ANSWER] {
    let front = match answer {
        Answer::Granted => vec![0],
        Answer::Seen(place, state) => {
            let state = match state {
                State::Waiting => 0,
                State::InHand => 1,
                State::Finished => 2,
            };
            let [step, level] = [place.step, place.level].map(|n| (n as u16).to_be_bytes());
            vec![1, step[0], step[1], level[0], level[1], state]
        }
        Answer::Refused(fault) => {
            let value = match fault {
                RunFault::Unfinished { place } => place,
                _ => 0,
            };
            [&[2, fault.number()], &values(&[value])[..]].concat()
        }
    };
    let mut bytes = [0; ANSWER];
    bytes[..front.len()].copy_from_slice(&front);
    bytes
}

#[cfg(test)]
mod tests {
    use super::*;
    use crate::book::Book;
    use crate::rack::rack;
    use crate::task::Task;

    fn small_rack() -> Book {
        rack(2, 1).unwrap()
    }

    fn task(start: &[usize], goal: &[usize], levels: &[&[usize]]) -> Vec<u8> {
        let set = |list: &[usize]| list.iter().copied().collect();
        let task = Task {
            facts: 7,
            steps: 7,
            start: set(start),
            goal: set(goal),
            levels: levels.iter().map(|level| set(level)).collect(),
        };
        task.sheet()
    }

    fn written(outcome: Outcome) -> Vec<u8> {
        let mut out = vec![0xAA; outcome.room + 3];
        let length = outcome.write(&mut out) as usize;
        assert!(out[length..].iter().all(|byte| *byte == 0xAA));
        out.truncate(length);
        out
    }

    #[test]
    fn reports() {
        let book = small_rack().sheet();
        let accepted = written(check(&book, &task(&[2, 3], &[5], &[&[0, 6], &[1, 4]])));
        assert_eq!(accepted.len(), 129);
        assert_eq!(accepted[..3], [0, 0b100011, 0]);

        let lacking = written(check(&book, &task(&[0], &[], &[&[4, 6]])));
        let values = [
            [0, 0, 0, 0, 0, 0, 0, 1],
            [0, 0, 0, 0, 0, 0, 0, 4],
            [0, 0, 0, 0, 0, 0, 0, 4],
        ];
        assert_eq!(lacking[0], 11);
        assert_eq!(lacking[1..], values.concat());

        let cut = written(check(&book, &[0; 3]));
        assert_eq!(cut, [1, 1, 0, 0, 0, 0, 0, 0, 0, 3]);
        let cut = written(check(&book[..89], &[0; 3]));
        assert_eq!(cut, [1, 0, 0, 0, 0, 0, 0, 0, 0, 89]);
        let missed = written(check(&book, &task(&[2], &[0], &[])));
        assert_eq!(missed, [13, 0, 0, 0, 0, 0, 0, 0, 0]);
        assert_eq!(check(&book, &[]).write(&mut [0; 159]), 0);
    }

    #[test]
    fn recasts() {
        let book = small_rack().sheet();
        let levels: &[&[usize]] = &[&[0, 6], &[1, 4]];
        let outcome = recast(&book, &task(&[2, 3], &[5], levels));
        assert_eq!(outcome.write(&mut [0; 45]), TOO_SHORT + 46);
        assert_eq!(written(outcome).len(), 46);
        let refused = recast(&book, &task(&[2, 3], &[6], levels));
        assert_eq!(refused.write(&mut []), REFUSED + 13);
    }

    #[test]
    fn records_of_a_run() {
        let book = small_rack().sheet();
        let task = task(&[2, 3], &[5], &[&[0, 6], &[1, 4]]);
        let script = [0, 0, 3, 0, 0, 0, 1, 0, 0, 3, 0, 2, 0, 1, 0];
        let expected: [(&[u8], u8); 5] = [
            (&[2, 18, 0, 0, 0, 0, 0, 0, 0, 1], 0b1100),
            (&[0], 0b1100),
            (&[0], 0b1001),
            (&[1, 0, 4, 0, 2, 0], 0b1001),
            (&[2, 16], 0b1001),
        ];
        for tally in [false, true] {
            let outcome = run(&book, &task, &script, tally);
            assert_eq!(outcome.write(&mut [0; 719]), TOO_SHORT);
            let records = written(outcome);
            assert_eq!(records.len(), 5 * 144);
            for (record, (front, facts)) in records.chunks(144).zip(expected) {
                assert_eq!(record[..front.len()], *front);
                assert!(record[front.len()..16].iter().all(|byte| *byte == 0));
                assert_eq!(record[16], facts);
                assert!(record[17..].iter().all(|byte| *byte == 0));
            }
        }
        let refused = run(&book, &task[..41], &script, false);
        assert_eq!(refused.write(&mut []), REFUSED + 1);
    }
}
