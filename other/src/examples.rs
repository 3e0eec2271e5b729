//! The worked examples of the documents.

use crate::Numbers;
use crate::board::{BitBoard, Board, TallyBoard};
use crate::book::{Book, Step};
use crate::card::{Answer, Request, Run, State};
use crate::fault::*;
use crate::listing;
use crate::plan::{self, Place, authorizes, check, disturb, level_order, precedence};
use crate::rack::rack;
use crate::recast::{self, RecastFault, recast};
use crate::task::Task;
use crate::timetable::{Measure, seconds, strata, timetable};

fn bytes(hex: &str) -> Vec<u8> {
    let digits: Vec<u8> = hex
        .chars()
        .filter_map(|c| c.to_digit(16))
        .map(|d| d as u8)
        .collect();
    digits
        .chunks(2)
        .map(|pair| 16 * pair[0] + pair[1])
        .collect()
}

fn rack_sheet() -> Vec<u8> {
    bytes(
        "0007 0007 0000000C 00000059
         00000059 0000003C 01 01 02
         00000061 0000003C 01 01 02
         00000069 0000003C 01 01 01
         0000006F 0000003C 01 01 01
         00000075 0000003C 02 01 00
         0000007B 0000003C 02 01 00
         00000081 00000708 00 01 00
         0002 0000 0002 0004
         0003 0001 0003 0004
         0000 0002 0000
         0001 0003 0001
         0000 0004 0005
         0001 0004 0006
         0004",
    )
}

fn task_sheet() -> Vec<u8> {
    bytes(
        "0007 0007 0002 0004
         00000014 0000001A 0000001E
         0002 0002 0003
         0001 0005
         0002 0000 0006
         0002 0001 0004",
    )
}

fn small_rack() -> Book {
    rack(2, 1).unwrap()
}

fn numbers(list: &[usize]) -> Numbers {
    list.iter().copied().collect()
}

fn task(book: &Book, start: &[usize], goal: &[usize], levels: &[&[usize]]) -> Task {
    Task {
        facts: book.facts,
        steps: book.steps.len(),
        start: numbers(start),
        goal: numbers(goal),
        levels: levels.iter().map(|level| numbers(level)).collect(),
    }
}

fn two_levels() -> Task {
    task(&small_rack(), &[2, 3], &[5], &[&[0, 6], &[1, 4]])
}

fn step(needs: &[usize], adds: &[usize], deletes: &[usize]) -> Step {
    Step {
        needs: numbers(needs),
        adds: numbers(adds),
        deletes: numbers(deletes),
        seconds: 1,
    }
}

fn ring() -> Book {
    Book {
        facts: 3,
        steps: vec![
            step(&[0], &[], &[1]),
            step(&[1], &[], &[2]),
            step(&[2], &[], &[0]),
        ],
    }
}

fn run_of(book: &Book, task: &Task) -> Run<BitBoard> {
    let mut run = Run::new(book.clone(), BitBoard::new());
    run.issue(task).unwrap();
    run
}

#[test]
fn one_calibration_by_hand() {
    let book = small_rack();
    let mut facts = numbers(&[2, 3]);
    let mut board = BitBoard::new();
    board.set(&facts);
    let after: [(usize, &[usize]); 4] = [
        (0, &[0, 3]),
        (6, &[0, 3, 4]),
        (4, &[0, 3, 4, 5]),
        (2, &[2, 3, 4, 5]),
    ];
    for (step, expected) in after {
        book.steps[step].perform(&mut facts);
        board.perform(&book.steps[step]);
        assert_eq!(facts, numbers(expected));
        assert_eq!(board.facts(), facts);
    }
}

#[test]
fn racks() {
    let book = small_rack();
    assert_eq!((book.facts, book.steps.len()), (7, 7));
    for (loggers, baths) in [(1, 1), (128, 1), (1, 128), (16, 8), (11, 11)] {
        let book = rack(loggers, baths).unwrap();
        let (r, b) = (loggers as usize, baths as usize);
        assert_eq!(book.facts, 2 * r * b + r + b);
        assert_eq!(book.steps.len(), 3 * r * b + b);
        assert_eq!(Book::open(&book.sheet()), Ok(book));
    }
    for (loggers, baths) in [
        (0, 0),
        (0, 1),
        (1, 0),
        (129, 1),
        (43, 3),
        (u64::MAX, 2),
        (1 << 63, 2),
    ] {
        assert_eq!(rack(loggers, baths), Err(NoSuchRack));
    }
    assert_eq!(NoSuchRack::NUMBER, 20);
}

#[test]
fn questions_outside_the_ranges() {
    let book = small_rack();
    assert!(book.needs(4, 4) && book.adds(6, 4) && book.deletes(0, 4));
    assert!(!book.needs(7, 0) && !book.adds(0, 7) && !book.deletes(usize::MAX, 9));
    assert_eq!((book.seconds(6), book.seconds(7)), (1800, 0));
}

#[test]
fn the_rack_sheet() {
    let sheet = rack_sheet();
    let book = small_rack();
    assert_eq!(sheet.len(), 131);
    assert_eq!(Book::open(&sheet), Ok(book.clone()));
    assert_eq!(book.sheet(), sheet);

    let mut out = [0xAA; 140];
    assert_eq!(book.write(&mut out[..130]), Err(TooShort { needed: 131 }));
    assert_eq!(out, [0xAA; 140]);
    assert_eq!(book.write(&mut out), Ok(131));
    assert_eq!(out[..131], sheet[..]);
    assert_eq!(out[131..], [0xAA; 9]);
}

#[test]
fn the_largest_book_sheet() {
    let needs: Vec<usize> = (0..250).collect();
    let adds: Vec<usize> = (250..500).collect();
    let deletes: Vec<usize> = (774..1024).collect();
    let book = Book {
        facts: 1024,
        steps: vec![step(&needs, &adds, &deletes); 512],
    };
    assert_eq!(book.sheet().len(), 773_644);
    assert_eq!(Book::open(&book.sheet()), Ok(book));
}

#[test]
fn the_task_sheet() {
    let sheet = task_sheet();
    assert_eq!(sheet.len(), 42);
    assert_eq!(Task::open(&sheet), Ok(two_levels()));
    assert_eq!(two_levels().sheet(), sheet);
}

fn book_fault(sheet: &[u8]) -> (u8, usize) {
    let fault = Book::open(sheet).unwrap_err();
    assert_eq!(fault.sheet, Sheet::Book);
    (fault.reason.number(), fault.place)
}

fn task_fault(sheet: &[u8]) -> (u8, usize) {
    let fault = Task::open(sheet).unwrap_err();
    assert_eq!(fault.sheet, Sheet::Task);
    (fault.reason.number(), fault.place)
}

/// The sheet with the bytes from `place` on written over.
fn changed(sheet: &[u8], place: usize, hex: &str) -> Vec<u8> {
    let mut sheet = sheet.to_vec();
    let new = bytes(hex);
    sheet[place..place + new.len()].copy_from_slice(&new);
    sheet
}

#[test]
fn book_sheets_refused() {
    let sheet = rack_sheet();
    for length in 0..sheet.len() {
        assert_eq!(book_fault(&sheet[..length]), (1, length));
    }
    assert_eq!(book_fault(&bytes("0401")), (2, 0));
    assert_eq!(book_fault(&bytes("0400 0201")), (2, 2));
    assert_eq!(book_fault(&changed(&sheet, 4, "0000000D")), (3, 4));
    assert_eq!(book_fault(&changed(&sheet, 8, "00000058")), (3, 8));
    assert_eq!(book_fault(&changed(&sheet, 12, "00000058")), (3, 12));
    assert_eq!(book_fault(&changed(&sheet, 78, "00000058")), (3, 78));
    assert_eq!(book_fault(&changed(&sheet, 16, "000F4241")), (2, 16));
    assert_eq!(book_fault(&changed(&sheet, 20, "FB")), (2, 20));
    assert_eq!(book_fault(&changed(&sheet, 21, "FB")), (2, 21));
    assert_eq!(book_fault(&changed(&sheet, 22, "FB")), (2, 22));
    assert_eq!(book_fault(&changed(&sheet, 89, "0007")), (4, 89));
    assert_eq!(book_fault(&changed(&sheet, 95, "0002")), (5, 95));
    assert_eq!(book_fault(&changed(&sheet, 93, "0000")), (6, 93));
    let longer = [&sheet[..], &[0]].concat();
    assert_eq!(book_fault(&longer), (9, 131));
}

#[test]
fn offsets_of_empty_parts() {
    assert!(Book::open(&bytes("0000 0000 0000000C 0000000C")).is_ok());
    assert_eq!(book_fault(&bytes("0000 0000 0000000B 0000000B")), (3, 4));
    assert_eq!(book_fault(&bytes("0000 0000 0000000C 0000000B")), (3, 8));
    assert_eq!(book_fault(&bytes("0000 0005 0000000B 0000000B")), (3, 4));
    // Both the header's and the row's offset are wrong: the header's is first.
    let both = bytes("0000 0001 0000000C 00000000 00000000 00000000 000000");
    assert_eq!(book_fault(&both), (3, 8));
    let header = "0000 0000 0000 0000";
    let start = task_fault(&bytes(&format!("{header} 00000000 00000000 00000000")));
    assert_eq!(start, (3, 8));
    let plan = format!("{header} 00000014 00000016 00000017 0000 0000");
    assert_eq!(task_fault(&bytes(&plan)), (3, 16));
}

#[test]
fn task_sheets_refused() {
    let sheet = task_sheet();
    for length in 0..sheet.len() {
        assert_eq!(task_fault(&sheet[..length]), (1, length));
    }
    assert_eq!(task_fault(&bytes("0401")), (2, 0));
    assert_eq!(task_fault(&changed(&sheet, 2, "0201")), (2, 2));
    assert_eq!(task_fault(&changed(&sheet, 4, "0101")), (2, 4));
    assert_eq!(task_fault(&changed(&sheet, 6, "0101")), (2, 6));
    assert_eq!(task_fault(&changed(&sheet, 8, "00000015")), (3, 8));
    assert_eq!(task_fault(&changed(&sheet, 12, "00000015")), (3, 12));
    assert_eq!(task_fault(&changed(&sheet, 16, "00000015")), (3, 16));
    assert_eq!(task_fault(&changed(&sheet, 24, "0007")), (4, 24));
    assert_eq!(task_fault(&changed(&sheet, 24, "0002")), (5, 24));
    assert_eq!(task_fault(&changed(&sheet, 34, "0007")), (4, 34));
    assert_eq!(task_fault(&changed(&sheet, 40, "0001")), (5, 40));
    assert_eq!(task_fault(&changed(&sheet, 30, "0000")), (7, 30));
    assert_eq!(task_fault(&changed(&sheet, 36, "0003")), (8, 36));
    assert_eq!(task_fault(&changed(&sheet, 6, "0005")), (8, 6));
    assert_eq!(task_fault(&changed(&sheet, 6, "0003")), (8, 36));
    assert_eq!(task_fault(&changed(&sheet, 4, "0001")), (8, 6));
    let longer = [&sheet[..], &[0]].concat();
    assert_eq!(task_fault(&longer), (9, 42));
}

#[test]
fn a_list_longer_than_f() {
    let long = |entries: &str| {
        let head = "0002 0000 0000 0000 00000014 0000001C 0000001E 0003";
        task_fault(&bytes(&format!("{head} {entries}")))
    };
    assert_eq!(long("0000 0001 0002 0000"), (4, 26));
    assert_eq!(long("0000 0001 0001 0000"), (5, 26));
    assert_eq!(long("0000 0001"), (1, 26));
}

#[test]
fn the_two_level_plan() {
    let (book, task) = (small_rack(), two_levels());
    assert!(authorizes(&book, 0, 6) && !authorizes(&book, 6, 0));
    assert!(authorizes(&book, 4, 1) && !authorizes(&book, 1, 4));
    let accepted = check(&book, &task).unwrap();
    assert_eq!(accepted.final_facts, numbers(&[0, 1, 5]));
    let steps: Vec<usize> = accepted.places.iter().map(|place| place.step).collect();
    assert_eq!(steps, [0, 6, 4, 1]);
    let before = precedence(&book, &accepted.places);
    assert!(
        before
            .iter()
            .zip(0..)
            .skip(1)
            .all(|(places, v)| places.contains(&(v - 1)))
    );
    assert_eq!(strata(&before).begins, [0, 1, 2, 3]);
    assert_eq!(strata(&before).end, 4);
    let seconds = seconds(&book, &accepted.places, &before);
    assert_eq!(seconds.begins, [0, 60, 1860, 1920]);
    assert_eq!(seconds.end, 1980);
}

#[test]
fn the_card_of_the_two_level_plan() {
    let mut run = run_of(&small_rack(), &two_levels());
    assert_eq!(run.begin(1), Err(RunFault::Unfinished { place: 0 }));
    assert_eq!(run.begin(3), Err(RunFault::Unfinished { place: 1 }));
    assert_eq!(run.begin(4), Err(RunFault::NoSuchPlace));
    assert_eq!(run.begin(0), Ok(()));
    assert_eq!(run.issue(&two_levels()), Err(RunFault::StepInHand));
    assert_eq!(
        run.look(0),
        Ok((Place { step: 0, level: 1 }, State::InHand))
    );
    assert_eq!(run.finish(0), Ok(()));
    assert_eq!(run.board.facts(), numbers(&[0, 3]));
    assert_eq!(run.begin(0), Err(RunFault::WrongState));
    assert_eq!(run.finish(1), Err(RunFault::WrongState));
    assert_eq!(run.put_back(1), Err(RunFault::WrongState));
    assert_eq!(run.finish(4), Err(RunFault::NoSuchPlace));
    assert_eq!(run.put_back(4), Err(RunFault::NoSuchPlace));
    assert_eq!(
        run.answer(Request::Look(4)),
        Answer::Refused(RunFault::NoSuchPlace)
    );
    for place in 1..4 {
        assert_eq!(run.begin(place), Ok(()));
        assert_eq!(run.put_back(place), Ok(()));
        assert_eq!(run.begin(place), Ok(()));
        assert_eq!(run.finish(place), Ok(()));
    }
    assert_eq!(run.board.facts(), numbers(&[0, 1, 5]));
}

#[test]
fn adds_do_not_help_the_needs_of_their_level() {
    let book = small_rack();
    let fault = check(&book, &task(&book, &[0], &[], &[&[4, 6]])).unwrap_err();
    let expected = PlanFault::LacksNeed {
        level: 1,
        step: 4,
        fact: 4,
    };
    assert_eq!((fault, fault.number()), (expected, 11));
}

#[test]
fn plans_without_levels() {
    let book = small_rack();
    let accepted = check(&book, &task(&book, &[2], &[2], &[])).unwrap();
    assert_eq!(accepted.final_facts, numbers(&[2]));
    let fault = check(&book, &task(&book, &[2], &[0], &[])).unwrap_err();
    assert_eq!(
        (fault, fault.number()),
        (PlanFault::MissesGoal { fact: 0 }, 13)
    );
}

#[test]
fn a_step_that_deletes_what_another_needs() {
    let book = Book {
        facts: 4,
        steps: vec![
            step(&[0], &[1], &[]),
            step(&[0], &[2], &[0]),
            step(&[1, 2], &[3], &[]),
        ],
    };
    let accepted = check(&book, &task(&book, &[0], &[3], &[&[0, 1], &[2]])).unwrap();
    assert_eq!(accepted.final_facts, numbers(&[1, 2, 3]));
    assert_eq!(accepted.places[0].step, 0);
}

#[test]
fn three_steps_without_an_order() {
    let book = ring();
    for pair in [[0, 1], [1, 2], [0, 2]] {
        assert!(level_order(&book, &numbers(&pair)).is_some());
    }
    let fault = check(&book, &task(&book, &[0, 1, 2], &[], &[&[0, 1, 2]])).unwrap_err();
    assert_eq!(
        (fault, fault.number()),
        (PlanFault::NoOrder { level: 1 }, 12)
    );
}

#[test]
fn other_numbers_of_facts_or_steps() {
    let book = small_rack();
    for (facts, steps) in [(8, 7), (7, 8), (0, 0)] {
        let task = Task {
            facts,
            steps,
            ..Task::default()
        };
        let fault = check(&book, &task).unwrap_err();
        assert_eq!((fault, fault.number()), (PlanFault::Mismatch, 10));
    }
}

#[test]
fn two_loggers_at_once() {
    let book = small_rack();
    let task = task(&book, &[2, 3], &[], &[&[0], &[1]]);
    let places = check(&book, &task).unwrap().places;
    let before = precedence(&book, &places);
    assert_eq!(strata(&before).begins, [0, 0]);
    assert!(!disturb(&book, 0, 1) && disturb(&book, 0, 0) && disturb(&book, 0, 6));
    let mut run = run_of(&book, &task);
    assert_eq!(run.begin(0), Ok(()));
    assert_eq!(run.begin(1), Ok(()));
    assert_eq!(run.finish(1), Ok(()));
    assert_eq!(run.board.facts(), numbers(&[1, 2]));

    let recast = recast(&book, &task).unwrap();
    assert_eq!(recast.levels, [numbers(&[0, 1])]);
    assert_eq!(recast.sheet().len(), 34);
}

#[test]
fn recasting_the_two_level_plan() {
    let (book, task) = (small_rack(), two_levels());
    let recast = recast(&book, &task).unwrap();
    let levels = [[0], [6], [4], [1]].map(|level| numbers(&level));
    assert_eq!(recast.levels, levels);
    let mut out = [0xAA; 50];
    let short = recast::write(&book, &task, &mut out[..45]);
    assert_eq!(short, Err(RecastFault::TooShort(TooShort { needed: 46 })));
    assert_eq!(out, [0xAA; 50]);
    assert_eq!(recast::write(&book, &task, &mut out), Ok(46));
    assert_eq!(Task::open(&out[..46]), Ok(recast));
    assert_eq!(out[46..], [0xAA; 4]);
}

#[test]
fn recasting_no_levels() {
    let book = small_rack();
    let task = task(&book, &[2], &[2], &[]);
    assert_eq!(recast(&book, &task), Ok(task));
}

#[test]
fn boards_that_are_too_small() {
    let book = rack(16, 8).unwrap();
    assert_eq!(book.facts, 280);
    let wide = Book {
        facts: 513,
        ..Book::default()
    };
    let just = Book {
        facts: 512,
        ..Book::default()
    };
    let issue = |book: &Book| {
        let task = task(book, &[511], &[], &[]);
        Run::new(book.clone(), TallyBoard::new()).issue(&task)
    };
    assert_eq!(issue(&just), Ok(()));
    assert_eq!(issue(&wide), Err(RunFault::SpanTooSmall));
}

#[test]
fn capped_sums() {
    let before = vec![vec![], vec![0], vec![1]];
    let mut begins = [7; 4];
    let cap = Measure::StepCount.cap();
    let end = timetable(
        Measure::StepCount,
        &before,
        &[40_000, 40_000, 1],
        &mut begins,
    );
    assert_eq!(end, Ok(cap));
    assert_eq!(begins, [0, 40_000, cap, 7]);
    let cap = Measure::Seconds.cap();
    let end = timetable(Measure::Seconds, &before, &[cap, cap, 0, 9], &mut begins);
    assert_eq!(end, Ok(cap));
    assert_eq!(begins, [0, cap, cap, 7]);
    let short = timetable(Measure::Seconds, &before, &[0; 3], &mut begins[..2]);
    assert_eq!(short, Err(TooShort { needed: 3 }));
    let short = timetable(Measure::Seconds, &before, &[0; 2], &mut begins);
    assert_eq!(short, Err(TooShort { needed: 3 }));
    assert_eq!(begins, [0, cap, cap, 7]);
    assert_eq!(timetable(Measure::Seconds, &vec![], &[], &mut []), Ok(0));
}

const LISTING: &str = "\
places 4 levels 2 strata 4 seconds 1980
0 step 0 level 1 stratum 0 at 0
1 step 6 level 1 stratum 1 at 60
2 step 4 level 2 stratum 2 at 1860
3 step 1 level 2 stratum 3 at 1920
";

#[test]
fn the_listing() {
    let (book, task) = (rack_sheet(), task_sheet());
    assert_eq!(listing::text(&book, &task), LISTING);
    let length = LISTING.len();
    let mut out = vec![0xAA; length + 5];
    let short = listing::write(&book, &task, &mut out[..length - 1]);
    assert_eq!(short, Err(TooShort { needed: length }));
    assert!(out.iter().all(|byte| *byte == 0xAA));
    assert_eq!(listing::write(&book, &task, &mut out), Ok(length));
    assert_eq!(&out[..length], LISTING.as_bytes());
    assert_eq!(out[length..], [0xAA; 5]);
}

#[test]
fn listings_of_refusals() {
    let (book, task) = (rack_sheet(), task_sheet());
    assert_eq!(listing::text(&[], &[]), "refused 1\n");
    assert_eq!(
        listing::text(&book, &changed(&task, 0, "0401")),
        "refused 2\n"
    );
    assert_eq!(
        listing::text(&book, &changed(&task, 0, "0008")),
        "refused 10\n"
    );
    let mut long = book.clone();
    long.resize(65_536, 0);
    assert_eq!(listing::text(&long, &task), "refused 9\n");
    long.push(0);
    assert_eq!(listing::text(&long, &task), "refused 19\n");
    assert_eq!(listing::text(&[], &long), "refused 19\n");
    assert_eq!(
        listing::write(&[], &long, &mut []),
        Err(TooShort { needed: 11 })
    );
}

#[test]
fn the_book_is_opened_first() {
    let both = plan::check_sheets(&rack_sheet()[..20], &[]).unwrap_err();
    let fault = SheetFault {
        sheet: Sheet::Book,
        reason: Reason::Cut,
        place: 20,
    };
    assert_eq!(both, PlanFault::Sheet(fault));
}
