//! Asks of the book in the file that is named whether it is a settings sheet. Prints the size of its type and the steps that it takes to its
//! value, or why it is refused. The book is not run.

use cerealbank::{sheet, SheetAnswer, WORK};
use std::{env, fs, io};

fn main() -> io::Result<()> {
    let file = env::args_os().nth(1).ok_or_else(|| io::Error::other("usage: sheet FILE"))?;
    match sheet(&fs::read(file)?, &mut vec![0; WORK]) {
        SheetAnswer::Accepted { size, steps } => println!("accepted {size}\nsteps {steps}"),
        SheetAnswer::Refused { number, cell } => println!("refused {number} {cell}"),
        SheetAnswer::Unknown { packed } => unreachable!("{packed:#x} is no answer"),
    }
    Ok(())
}
