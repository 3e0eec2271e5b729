//! Sheets that do not open.

use super::Case;
use crate::book::Book;
use crate::random::Random;
use crate::task::Task;

/// Breaks one law of a book.
pub fn unlawful_book(random: &mut Random, book: &mut Book) {
    let facts = book.facts;
    let number = random.below(book.steps.len());
    let Some(step) = book.steps.get_mut(number) else {
        return;
    };
    match random.below(7) {
        0 => step.seconds = random.pick(&[1_000_001, 0xFFFF_FFFF]),
        1 => {
            step.needs.insert(facts + random.below(2));
        }
        2 => {
            step.adds.insert(facts);
        }
        3 => {
            step.deletes.insert(facts);
        }
        4 => {
            let list = match random.below(3) {
                0 => &mut step.needs,
                1 => &mut step.adds,
                _ => &mut step.deletes,
            };
            list.extend(0..random.between(251, 255));
        }
        _ => {
            let add = step.adds.pop_first().unwrap_or(facts / 2);
            step.adds.insert(add);
            step.deletes.insert(add);
        }
    }
}

/// Breaks one rule of a task.
pub fn unlawful_task(random: &mut Random, task: &mut Task) {
    let number = random.below(task.levels.len());
    match random.below(8) {
        0 => {
            task.start.insert(task.facts);
        }
        1 => {
            task.goal.insert(task.facts);
        }
        2 => task.levels.insert(number, Default::default()),
        3 => task.levels.push(Default::default()),
        4 => task.levels.push([task.steps].into()),
        5 => {
            let many = random.between(255, 257);
            task.levels = vec![[0].into(); many];
        }
        6 => {
            let many = random.between(255, 257);
            task.levels = vec![(0..many).collect()];
        }
        _ => {
            if let Some(level) = task.levels.get_mut(number) {
                level.insert(task.steps + random.below(100));
            }
        }
    }
}

/// Where the numbers of a sheet stand.
struct Layout {
    /// Fields of two bytes in the header, with their limits.
    counts: Vec<(usize, usize)>,
    /// Offset fields.
    offsets: Vec<usize>,
    /// Where entries of two bytes begin.
    entries: usize,
}

/// Damages a book sheet.
pub fn book_sheet(random: &mut Random, sheet: &mut Vec<u8>) {
    let rows = sheet
        .get(2..4)
        .map_or(0, |n| u16::from_be_bytes([n[0], n[1]]) as usize);
    let layout = Layout {
        counts: vec![(0, 1024), (2, 512)],
        offsets: [4, 8]
            .into_iter()
            .chain((0..rows).map(|row| 12 + 11 * row))
            .collect(),
        entries: 12 + 11 * rows,
    };
    if rows > 0 && random.one_in(6) {
        row_field(random, sheet, rows);
    } else {
        damage(random, sheet, &layout);
    }
}

/// Damages a task sheet.
pub fn task_sheet(random: &mut Random, sheet: &mut Vec<u8>) {
    let layout = Layout {
        counts: vec![(0, 1024), (2, 512), (4, 256), (6, 256)],
        offsets: vec![8, 12, 16],
        entries: 20,
    };
    if random.one_in(6) {
        level_count(random, sheet);
    } else {
        damage(random, sheet, &layout);
    }
}

/// Makes the number of levels, or of steps in them, a little wrong.
fn level_count(random: &mut Random, sheet: &mut [u8]) {
    let field = random.pick(&[4, 6, 6]);
    let old = read(sheet, field, 2);
    write(
        sheet,
        field,
        2,
        random.pick(&[old + 1, old.saturating_sub(1)]),
    );
}

/// Writes a time or a list's count at or past its limit into a row.
fn row_field(random: &mut Random, sheet: &mut [u8], rows: usize) {
    let row = 12 + 11 * random.below(rows);
    match random.below(4) {
        0 => write(
            sheet,
            row + 4,
            4,
            random.pick(&[1_000_000, 1_000_001, 0x0100_0000]),
        ),
        column => write(
            sheet,
            row + 7 + column,
            1,
            random.pick(&[0, 1, 250, 251, 255]),
        ),
    }
}

fn damage(random: &mut Random, sheet: &mut Vec<u8>, layout: &Layout) {
    let length = sheet.len();
    match random.below(22) {
        0 => sheet.truncate(random.below(length + 1)),
        1 => sheet.truncate(random.below(length.min(30) + 1)),
        2 => sheet.truncate(length - random.between(1, 4).min(length)),
        3 => sheet.clear(),
        4..=6 => flip(random, sheet),
        7 => overwrite(random, sheet),
        8 => sheet.insert(random.below(length + 1), random.pick(&[0, 1, 2, 255])),
        9 => {
            if length > 0 {
                sheet.remove(random.below(length));
            }
        }
        10..=11 => sheet.resize(length + random.between(1, 3), random.pick(&[0, 255])),
        12..=16 => wrong_offset(random, sheet, layout),
        17..=19 => header_count(random, sheet, layout),
        _ => disorder(random, sheet, layout),
    }
}

fn flip(random: &mut Random, sheet: &mut [u8]) {
    let place = random.below(sheet.len());
    if let Some(byte) = sheet.get_mut(place) {
        *byte ^= 1 << random.below(8);
    }
}

fn overwrite(random: &mut Random, sheet: &mut [u8]) {
    let place = random.below(sheet.len());
    let any = random.below(256) as u8;
    if let Some(byte) = sheet.get_mut(place) {
        *byte = random.pick(&[0, 1, 255, any]);
    }
}

fn wrong_offset(random: &mut Random, sheet: &mut [u8], layout: &Layout) {
    let field = random.pick(&layout.offsets);
    let old = read(sheet, field, 4);
    let length = sheet.len();
    let choices = [
        0,
        old + 1,
        old + 2,
        old.saturating_sub(1),
        length,
        0xFFFF_FFFF,
        old + 65_536,
    ];
    write(sheet, field, 4, random.pick(&choices));
}

fn header_count(random: &mut Random, sheet: &mut [u8], layout: &Layout) {
    let (field, limit) = random.pick(&layout.counts);
    let old = read(sheet, field, 2);
    let choices = [0, limit, limit + 1, old + 1, old.saturating_sub(1), 0xFFFF];
    write(sheet, field, 2, random.pick(&choices));
}

/// Writes an entry over the one before it or behind it, or swaps the two.
fn disorder(random: &mut Random, sheet: &mut [u8], layout: &Layout) {
    let pairs = sheet.len().saturating_sub(layout.entries) / 2;
    if pairs < 2 {
        return;
    }
    let place = layout.entries + 2 * random.below(pairs - 1);
    let (one, other) = (read(sheet, place, 2), read(sheet, place + 2, 2));
    let (one, other) = random.pick(&[(other, one), (one, one), (other, other)]);
    write(sheet, place, 2, one);
    write(sheet, place + 2, 2, other);
}

/// Makes one sheet about 65,536 bytes long.
pub fn pad(random: &mut Random, case: &mut Case) {
    let length = random.pick(&[65_535, 65_536, 65_537, 65_538, 70_000]);
    let sheet = if random.one_in(2) {
        &mut case.book
    } else {
        &mut case.task
    };
    if sheet.len() < length {
        sheet.resize(length, 0);
    }
}

/// The number at `place`; 0 where the sheet is too short.
fn read(sheet: &[u8], place: usize, width: usize) -> usize {
    let field = sheet.get(place..place + width).unwrap_or(&[]);
    field.iter().fold(0, |sum, byte| sum * 256 + *byte as usize)
}

/// Writes a number where the sheet is long enough.
fn write(sheet: &mut [u8], place: usize, width: usize, value: usize) {
    if let Some(field) = sheet.get_mut(place..place + width) {
        field.copy_from_slice(&value.to_be_bytes()[8 - width..]);
    }
}
