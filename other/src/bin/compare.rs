//! Sets another bench plan checker beside this one.
//!
//! `compare CASES SEED [SCRIPTS]` calls the linked library, with so many
//! scripts for each case (1 where not given).
//! `compare --program PATH CASES SEED` runs a program on book.bin and task.bin.
//! With COMPARE_LOUD set every case is told before it is tried.

use std::env;
use std::fs;
use std::path::{Path, PathBuf};
use std::process::{Command, ExitCode, Stdio, id};

use other::generate::{Case, case};
use other::hex::hex;
use other::listing;
use other::random::Random;

const USAGE: &str = "usage: compare CASES SEED [SCRIPTS]
       compare --program PATH CASES SEED";

fn main() -> ExitCode {
    let arguments: Vec<String> = env::args().skip(1).collect();
    let words: Vec<&str> = arguments.iter().map(String::as_str).collect();
    let result = match words[..] {
        ["--program", path, cases, seed] => with_program(path, cases, seed),
        [cases, seed] => with_library(cases, seed, "1"),
        [cases, seed, scripts] => with_library(cases, seed, scripts),
        _ => Err(USAGE.to_string()),
    };
    match result {
        Ok(true) => ExitCode::SUCCESS,
        Ok(false) => ExitCode::FAILURE,
        Err(message) => {
            eprintln!("{message}");
            ExitCode::from(2)
        }
    }
}

fn number(word: &str) -> Result<u64, String> {
    word.parse()
        .map_err(|_| format!("not a number: {word}\n{USAGE}"))
}

/// Compares every case; answers whether all agreed.
fn compare_all(
    cases: u64,
    seed: u64,
    mut compare: impl FnMut(&Case, &mut Random) -> Result<(), String>,
) -> bool {
    let mut tally = Tally::default();
    let mut first = None;
    let loud = env::var_os("COMPARE_LOUD").is_some();
    for number in 0..cases {
        let mut random = Random::of_case(seed, number);
        let case = case(&mut random);
        if loud {
            eprintln!("{}", describe("case", number, &case));
        }
        let compared = compare(&case, &mut random);
        tally.count(&case, compared.is_ok());
        if let Err(difference) = compared
            && first.is_none()
        {
            let described = describe("first difference at case", number, &case);
            first = Some(format!("{described}\n{difference}"));
        }
    }
    println!("agreed {} of {cases} cases, seed {seed}", tally.agreed);
    println!("{}", tally.kinds());
    if let Some(text) = &first {
        println!("{text}");
    }
    first.is_none()
}

fn describe(what: &str, number: u64, case: &Case) -> String {
    let (book, task) = (hex(&case.book), hex(&case.task));
    format!("{what} {number}\nbook {book}\ntask {task}")
}

/// How many cases agreed, and what kinds of case there were.
#[derive(Default)]
struct Tally {
    agreed: u64,
    listed: u64,
    refused: [u64; 20],
}

impl Tally {
    fn count(&mut self, case: &Case, agreed: bool) {
        self.agreed += u64::from(agreed);
        let text = listing::text(&case.book, &case.task);
        let refusal = text.trim_end().strip_prefix("refused ");
        match refusal.and_then(|number| number.parse::<usize>().ok()) {
            None => self.listed += 1,
            Some(number) => self.refused[number] += 1,
        }
    }

    fn kinds(&self) -> String {
        let numbered = self
            .refused
            .iter()
            .enumerate()
            .filter(|(_, count)| **count > 0);
        let refused: String = numbered
            .map(|(number, count)| format!(" {number}: {count}"))
            .collect();
        format!("listed {}; refused{refused}", self.listed)
    }
}

/// A folder of its own, removed at the end.
struct Folder {
    path: PathBuf,
}

impl Folder {
    fn new() -> Result<Folder, String> {
        let path = env::temp_dir().join(format!("compare-{}", id()));
        fs::create_dir(&path).map_err(|error| format!("{}: {error}", path.display()))?;
        Ok(Folder { path })
    }
}

impl Drop for Folder {
    fn drop(&mut self) {
        let _ = fs::remove_dir_all(&self.path);
    }
}

fn with_program(path: &str, cases: &str, seed: &str) -> Result<bool, String> {
    let (cases, seed) = (number(cases)?, number(seed)?);
    let program = fs::canonicalize(path).map_err(|error| format!("{path}: {error}"))?;
    let folder = Folder::new()?;
    Ok(compare_all(cases, seed, |case, _| {
        let expected = listing::text(&case.book, &case.task);
        let printed = printed(&program, &folder.path, case).map_err(|error| error.to_string())?;
        if printed != expected.as_bytes() {
            let printed = String::from_utf8_lossy(&printed);
            return Err(format!("expected\n{expected}printed\n{printed}"));
        }
        Ok(())
    }))
}

/// What the program prints with the case's sheets in its folder.
fn printed(program: &Path, folder: &Path, case: &Case) -> std::io::Result<Vec<u8>> {
    fs::write(folder.join("book.bin"), &case.book)?;
    fs::write(folder.join("task.bin"), &case.task)?;
    let output = Command::new(program)
        .current_dir(folder)
        .stdin(Stdio::null())
        .stderr(Stdio::inherit())
        .output()?;
    Ok(output.stdout)
}

#[cfg(not(feature = "linked"))]
fn with_library(_: &str, _: &str, _: &str) -> Result<bool, String> {
    Err("built without the feature linked: only --program is there".to_string())
}

#[cfg(feature = "linked")]
fn with_library(cases: &str, seed: &str, scripts: &str) -> Result<bool, String> {
    let (cases, seed, scripts) = (number(cases)?, number(seed)?, number(scripts)?);
    Ok(compare_all(cases, seed, |case, random| {
        linked::compare(case, random, scripts)
    }))
}

#[cfg(feature = "linked")]
mod linked {
    use other::generate::{Case, scripts};
    use other::hex::hex;
    use other::random::Random;
    use other::wire::{self, Outcome};

    unsafe extern "C" {
        fn bench_list(
            book: *const u8,
            book_len: usize,
            task: *const u8,
            task_len: usize,
            out: *mut u8,
            out_len: usize,
        ) -> u64;
        fn bench_check(
            book: *const u8,
            book_len: usize,
            task: *const u8,
            task_len: usize,
            out: *mut u8,
            out_len: usize,
        ) -> u64;
        fn bench_recast(
            book: *const u8,
            book_len: usize,
            task: *const u8,
            task_len: usize,
            out: *mut u8,
            out_len: usize,
        ) -> u64;
        fn bench_run(
            book: *const u8,
            book_len: usize,
            task: *const u8,
            task_len: usize,
            script: *const u8,
            script_len: usize,
            tally: u8,
            out: *mut u8,
            out_len: usize,
        ) -> u64;
    }

    /// A function on two sheets.
    type OnSheets = unsafe extern "C" fn(*const u8, usize, *const u8, usize, *mut u8, usize) -> u64;

    fn on_sheets(function: OnSheets, case: &Case, out: &mut [u8]) -> u64 {
        let (book, task) = (&case.book, &case.task);
        // Each pointer is that of a slice with the length behind it.
        unsafe {
            function(
                book.as_ptr(),
                book.len(),
                task.as_ptr(),
                task.len(),
                out.as_mut_ptr(),
                out.len(),
            )
        }
    }

    fn on_script(case: &Case, script: &[u8], tally: bool, out: &mut [u8]) -> u64 {
        let (book, task) = (&case.book, &case.task);
        // Each pointer is that of a slice with the length behind it.
        unsafe {
            bench_run(
                book.as_ptr(),
                book.len(),
                task.as_ptr(),
                task.len(),
                script.as_ptr(),
                script.len(),
                u8::from(tally),
                out.as_mut_ptr(),
                out.len(),
            )
        }
    }

    pub fn compare(case: &Case, random: &mut Random, scripts: u64) -> Result<(), String> {
        let lent = case.clone();
        compare_list(&lent, random)?;
        compare_check(&lent, random)?;
        compare_recast(&lent, random)?;
        for _ in 0..scripts {
            compare_run(&lent, random)?;
        }
        if lent != *case {
            return Err("a sheet was written to".to_string());
        }
        Ok(())
    }

    /// Bytes before and behind a lent buffer that must stay as they are.
    const GUARD: usize = 256;

    /// Lends a buffer of `length` bytes; the answer and all bytes, those around
    /// the buffer included, have to be as expected.
    fn agree(
        name: &str,
        length: usize,
        expected: &Outcome,
        theirs: impl Fn(&mut [u8]) -> u64,
    ) -> Result<(), String> {
        let pattern = |place: usize| (37 * place + 11) as u8 ^ (place / 256) as u8;
        let mut ours: Vec<u8> = (0..GUARD + length + GUARD).map(pattern).collect();
        let mut got = ours.clone();
        let lent = GUARD..GUARD + length;
        let our_answer = expected.write(&mut ours[lent.clone()]);
        let their_answer = theirs(&mut got[lent]);
        let differs = format!("{name} with {length} bytes lent");
        if our_answer != their_answer {
            return Err(format!(
                "{differs}: expected {our_answer:#x}, got {their_answer:#x}"
            ));
        }
        match (0..got.len()).find(|place| got[*place] != ours[*place]) {
            None => Ok(()),
            Some(place) => Err(format!(
                "{differs}: byte {}: expected {:#04x}, got {:#04x}",
                place as i64 - GUARD as i64,
                ours[place],
                got[place]
            )),
        }
    }

    /// Agreement with buffers that are too short, just enough and longer.
    fn agree_at_lengths(
        name: &str,
        random: &mut Random,
        expected: &Outcome,
        theirs: impl Fn(&mut [u8]) -> u64,
    ) -> Result<(), String> {
        let needed = expected.room;
        let shorter = random.below(needed);
        let longer = needed + random.between(1, 200);
        for length in [0, shorter, needed.saturating_sub(1), needed, longer] {
            agree(name, length, expected, &theirs)?;
        }
        Ok(())
    }

    fn compare_list(case: &Case, random: &mut Random) -> Result<(), String> {
        let expected = wire::list(&case.book, &case.task);
        let theirs = |out: &mut [u8]| on_sheets(bench_list, case, out);
        agree_at_lengths("bench_list", random, &expected, theirs)
    }

    fn compare_check(case: &Case, random: &mut Random) -> Result<(), String> {
        let expected = wire::check(&case.book, &case.task);
        let theirs = |out: &mut [u8]| on_sheets(bench_check, case, out);
        agree_at_lengths("bench_check", random, &expected, theirs)
    }

    fn compare_recast(case: &Case, random: &mut Random) -> Result<(), String> {
        let expected = wire::recast(&case.book, &case.task);
        let theirs = |out: &mut [u8]| on_sheets(bench_recast, case, out);
        agree_at_lengths("bench_recast", random, &expected, theirs)
    }

    fn compare_run(case: &Case, random: &mut Random) -> Result<(), String> {
        let requests = scripts::script(random, case);
        let script: Vec<u8> = requests.iter().flat_map(|r| r.to_bytes()).collect();
        for tally in [false, true] {
            let name = format!("bench_run with script {}, tally {tally},", hex(&script));
            let expected = wire::run(&case.book, &case.task, &script, tally);
            let theirs = |out: &mut [u8]| on_script(case, &script, tally, out);
            if expected.is_refused() {
                // Which comes first, the refusal or the short buffer, is left open.
                agree(&name, 1000, &expected, theirs)?;
            } else {
                agree_at_lengths(&name, random, &expected, theirs)?;
            }
        }
        Ok(())
    }
}
