//! This library under the names of the linked functions, to try the harness
//! itself. MIRROR_FAULT=1 to 9 plants a fault that the harness has to find.

use std::env;
use std::slice;

use other::wire;

/// # Safety
/// The pointer and the length are those of a slice that is not written to meanwhile.
unsafe fn lent<'a>(pointer: *const u8, length: usize) -> &'a [u8] {
    unsafe { slice::from_raw_parts(pointer, length) }
}

/// # Safety
/// The pointer and the length are those of a slice that nobody else uses meanwhile.
unsafe fn lent_out<'a>(pointer: *mut u8, length: usize) -> &'a mut [u8] {
    unsafe { slice::from_raw_parts_mut(pointer, length) }
}

fn fault(number: u8) -> bool {
    env::var("MIRROR_FAULT").is_ok_and(|planted| planted == number.to_string())
}

/// # Safety
/// Each pointer and the length behind it are those of a slice.
#[unsafe(no_mangle)]
pub unsafe extern "C" fn bench_list(
    book: *const u8,
    book_len: usize,
    task: *const u8,
    task_len: usize,
    out: *mut u8,
    out_len: usize,
) -> u64 {
    let (book, task) = unsafe { (lent(book, book_len), lent(task, task_len)) };
    let answer = wire::list(book, task).write(unsafe { lent_out(out, out_len) });
    if fault(1) && answer < wire::TOO_SHORT && answer > 100 {
        // One byte behind the buffer.
        unsafe { *out.add(out_len) ^= 1 };
    }
    if fault(2) && answer < wire::TOO_SHORT && out_len as u64 > answer {
        // One byte behind the text.
        unsafe { *out.add(answer as usize) ^= 1 };
    }
    if fault(3) && book_len == 65_537 {
        return answer + 1;
    }
    answer
}

/// # Safety
/// Each pointer and the length behind it are those of a slice.
#[unsafe(no_mangle)]
pub unsafe extern "C" fn bench_check(
    book: *const u8,
    book_len: usize,
    task: *const u8,
    task_len: usize,
    out: *mut u8,
    out_len: usize,
) -> u64 {
    let (book, task) = unsafe { (lent(book, book_len), lent(task, task_len)) };
    let out = unsafe { lent_out(out, out_len) };
    let answer = wire::check(book, task).write(out);
    if fault(4) && answer == 25 {
        out[24] ^= 1;
    }
    if fault(5) && answer == 0 && out_len > 0 {
        out[0] ^= 1;
    }
    answer
}

/// # Safety
/// Each pointer and the length behind it are those of a slice.
#[unsafe(no_mangle)]
pub unsafe extern "C" fn bench_recast(
    book: *const u8,
    book_len: usize,
    task: *const u8,
    task_len: usize,
    out: *mut u8,
    out_len: usize,
) -> u64 {
    let (book, task) = unsafe { (lent(book, book_len), lent(task, task_len)) };
    let out = unsafe { lent_out(out, out_len) };
    let answer = wire::recast(book, task).write(out);
    if fault(6) && (wire::TOO_SHORT..wire::REFUSED).contains(&answer) && out_len > 0 {
        out[0] ^= 1;
    }
    if fault(7) && answer == wire::REFUSED + 12 {
        return answer - 1;
    }
    answer
}

/// # Safety
/// Each pointer and the length behind it are those of a slice.
#[unsafe(no_mangle)]
pub unsafe extern "C" fn bench_run(
    book: *const u8,
    book_len: usize,
    task: *const u8,
    task_len: usize,
    script: *const u8,
    script_len: usize,
    tally: u8,
    out: *mut u8,
    out_len: usize,
) -> u64 {
    let (book, task) = unsafe { (lent(book, book_len), lent(task, task_len)) };
    let script = unsafe { lent(script, script_len) };
    let out = unsafe { lent_out(out, out_len) };
    let answer = wire::run(book, task, script, tally != 0).write(out);
    if fault(8) && tally != 0 && answer > 1000 && answer < wire::TOO_SHORT {
        out[answer as usize - 1] ^= 1;
    }
    if fault(9) && answer == wire::REFUSED + 15 {
        return answer - 1;
    }
    answer
}
