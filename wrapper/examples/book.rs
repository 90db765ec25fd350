//! Checks the book in the file that is named, runs it for at most 10,000 steps, and prints both answers and the cells of the term
//! reached: the desk program's lines, and one more with the run's mark, the greatest size of any term on the way.

use cerealbank::{check, run, Answer, RunAnswer, WORK};
use std::{env, fs, io};

fn print_answer(answer: Answer) {
    match answer {
        Answer::Refused { number, cell } => println!("refused {number} {cell}"),
        Answer::Accepted { size } => println!("accepted {size}"),
        Answer::Unknown { packed } => unreachable!("{packed:#x} is no answer"),
    }
}

fn print_run_answer(answer: RunAnswer) {
    match answer {
        RunAnswer::Refused { number, cell } => println!("refused {number} {cell}"),
        RunAnswer::Value { steps, mark } => println!("value {steps}\nmark {mark}"),
        RunAnswer::Spent { steps, mark } => println!("spent {steps}\nmark {mark}"),
        RunAnswer::Room { steps, mark } => println!("room {steps}\nmark {mark}"),
        RunAnswer::Unknown { packed } => unreachable!("{packed:#x} is no answer"),
    }
}

/// A line a cell, up to the trailer: its number, kind, label and the fields a, b and c, which are little-endian.
fn print_cells(work: &[u8]) {
    for (number, cell) in work.chunks(8).take_while(|cell| cell[0] != 0xF0).enumerate() {
        let [a, b, c] = [2, 4, 6].map(|at| u16::from_le_bytes([cell[at], cell[at + 1]]));
        println!("{number} {} {} {a} {b} {c}", cell[0], cell[1]);
    }
}

fn main() -> io::Result<()> {
    let file = env::args_os().nth(1).ok_or_else(|| io::Error::other("usage: book FILE"))?;
    let book = fs::read(file)?;
    let mut work = vec![0; WORK];

    let answer = check(&book, &mut work);
    print_answer(answer);
    if let Answer::Accepted { .. } = answer {
        print_run_answer(run(&book, &mut work, 10_000));
        print_cells(&work);
    }
    Ok(())
}
