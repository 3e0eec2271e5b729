//! Prints the listing of book.bin and task.bin, to try `compare --program` itself.

use std::fs;

fn main() -> std::io::Result<()> {
    let (book, task) = (fs::read("book.bin")?, fs::read("task.bin")?);
    print!("{}", other::listing::text(&book, &task));
    Ok(())
}
