//! Fixed cases with the listings they have to give.
//!
//! `cases COUNT SEED CASES LISTINGS` writes to the file CASES a line
//! `BOOKHEX TASKHEX` for each case (`-` for an empty sheet), and to the file
//! LISTINGS the listings one after the other, each followed by a line `--`.

use std::collections::BTreeMap;
use std::env;
use std::fs;
use std::process::ExitCode;

use other::fault::{PlanFault, Sheet, SheetFault};
use other::generate::{Case, case};
use other::hex::hex;
use other::listing;
use other::plan::check_sheets;
use other::random::Random;

const USAGE: &str = "usage: cases COUNT SEED CASES LISTINGS";

/// The characters of a usual case in both files, at most.
const SMALL: usize = 800;
/// The characters of a larger case, at most, and how many there are.
const LARGER: usize = 6000;
const MOST_LARGER: usize = 6;
/// The characters of the one case with a sheet above 65,536 bytes, at most.
const LONG: usize = 135_000;
/// The characters of both files.
const WHOLE: usize = 300_000;
/// How often each other kind of case is wanted at least.
const OF_EACH_KIND: usize = 4;
/// The cases that are looked at, at most.
const MOST_TRIES: u64 = 200_000;

/// What becomes of a case.
#[derive(Debug, Clone, Copy, PartialEq, Eq, PartialOrd, Ord)]
enum Kind {
    Listed,
    BookRefused(u8),
    TaskRefused(u8),
    PlanRefused(u8),
    TooLong,
}

impl Kind {
    fn of(case: &Case) -> Kind {
        if case.book.len().max(case.task.len()) > listing::LONGEST_SHEET {
            return Kind::TooLong;
        }
        match check_sheets(&case.book, &case.task) {
            Ok(_) => Kind::Listed,
            Err(PlanFault::Sheet(SheetFault { sheet, reason, .. })) => match sheet {
                Sheet::Book => Kind::BookRefused(reason.number()),
                Sheet::Task => Kind::TaskRefused(reason.number()),
            },
            Err(fault) => Kind::PlanRefused(fault.number()),
        }
    }

    fn all() -> Vec<Kind> {
        let mut kinds = vec![Kind::Listed, Kind::TooLong];
        kinds.extend([1, 2, 3, 4, 5, 6, 9].map(Kind::BookRefused));
        kinds.extend([1, 2, 3, 4, 5, 7, 8, 9].map(Kind::TaskRefused));
        kinds.extend([10, 11, 12, 13].map(Kind::PlanRefused));
        kinds
    }

    /// How often the kind is wanted at least.
    fn wanted(self) -> usize {
        match self {
            Kind::TooLong => 1,
            _ => OF_EACH_KIND,
        }
    }
}

/// The cases chosen so far.
struct Chosen {
    cases: Vec<Case>,
    kinds: BTreeMap<Kind, usize>,
    larger: usize,
    /// Characters left for cases whose sheets are not too long.
    left: usize,
    /// How many cases are still wanted for their kind.
    wanted: usize,
}

impl Chosen {
    fn new() -> Chosen {
        Chosen {
            cases: Vec::new(),
            kinds: BTreeMap::new(),
            larger: 0,
            left: WHOLE - LONG,
            wanted: Kind::all().iter().map(|kind| kind.wanted()).sum(),
        }
    }

    fn count(&self, kind: Kind) -> usize {
        self.kinds.get(&kind).copied().unwrap_or(0)
    }

    fn is_wanted(&self, kind: Kind) -> bool {
        self.count(kind) < kind.wanted()
    }

    fn fits(&self, kind: Kind, size: usize) -> bool {
        match kind {
            Kind::TooLong => size <= LONG && self.count(kind) == 0,
            _ if size <= SMALL => size <= self.left,
            _ => size <= LARGER.min(self.left) && self.larger < MOST_LARGER,
        }
    }

    fn add(&mut self, kind: Kind, size: usize, case: Case) {
        self.wanted -= usize::from(self.is_wanted(kind));
        if kind != Kind::TooLong {
            self.left -= size;
            self.larger += usize::from(size > SMALL);
        }
        *self.kinds.entry(kind).or_default() += 1;
        self.cases.push(case);
    }

    /// Takes the cases that come, keeping room for those wanted for their kind.
    fn choose(count: usize, seed: u64) -> Chosen {
        let mut chosen = Chosen::new();
        for number in 0..MOST_TRIES {
            if chosen.cases.len() >= count || chosen.left < SMALL {
                break;
            }
            let case = case(&mut Random::of_case(seed, number));
            let (kind, size) = (Kind::of(&case), characters(&case));
            let room = chosen.cases.len() + chosen.wanted < count;
            if (room || chosen.is_wanted(kind)) && chosen.fits(kind, size) {
                chosen.add(kind, size, case);
            }
        }
        chosen
    }

    fn missing(&self) -> Vec<Kind> {
        let all = Kind::all().into_iter();
        all.filter(|kind| self.count(*kind) == 0).collect()
    }
}

fn case_line(case: &Case) -> String {
    format!("{} {}\n", hex(&case.book), hex(&case.task))
}

fn expected(case: &Case) -> String {
    format!("{}--\n", listing::text(&case.book, &case.task))
}

fn characters(case: &Case) -> usize {
    case_line(case).len() + expected(case).len()
}

fn write(count: &str, seed: &str, cases: &str, listings: &str) -> Result<(), String> {
    let count = count.parse().map_err(|_| USAGE)?;
    let seed = seed.parse().map_err(|_| USAGE)?;
    let chosen = Chosen::choose(count, seed);
    let missing = chosen.missing();
    if !missing.is_empty() {
        return Err(format!("too few cases: there is none of {missing:?}"));
    }
    let lines: String = chosen.cases.iter().map(case_line).collect();
    let texts: String = chosen.cases.iter().map(expected).collect();
    fs::write(cases, &lines).map_err(|error| format!("{cases}: {error}"))?;
    fs::write(listings, &texts).map_err(|error| format!("{listings}: {error}"))?;
    let (number, bytes) = (chosen.cases.len(), lines.len() + texts.len());
    println!("{number} cases, {bytes} bytes in both files");
    for (kind, count) in &chosen.kinds {
        println!("{kind:?}: {count}");
    }
    Ok(())
}

fn main() -> ExitCode {
    let arguments: Vec<String> = env::args().skip(1).collect();
    let words: Vec<&str> = arguments.iter().map(String::as_str).collect();
    let written = match words[..] {
        [count, seed, cases, listings] => write(count, seed, cases, listings),
        _ => Err(USAGE.to_string()),
    };
    match written {
        Ok(()) => ExitCode::SUCCESS,
        Err(message) => {
            eprintln!("{message}");
            ExitCode::FAILURE
        }
    }
}
