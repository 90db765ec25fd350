//! Previews the join of the part in the second file to the project in the first, and joins them. Prints of both calls which book the answer
//! means, the answer, and the bytes of an accepted joint, and then its cells. Both files stay as they are.

use cerealbank::{join, preview, Answer, Joined, Which, PROJECT, WORK};
use std::{env, fs, io};

fn name(which: Which) -> &'static str {
    match which {
        Which::Project => "project",
        Which::Part => "part",
        Which::Joint => "joint",
    }
}

fn print_answer(call: &str, joined: Joined) {
    let which = name(joined.which);
    match joined.answer {
        Answer::Accepted { size } => println!("{call}: {which} accepted {size}, {} bytes", joined.bytes),
        Answer::Refused { number, cell } => println!("{call}: {which} refused {number} {cell}"),
        other => unreachable!("{other:?} is no answer"),
    }
}

/// A line a cell, up to the trailer: its number, kind, label and the fields a, b and c, which are little-endian.
fn print_cells(joint: &[u8]) {
    for (number, cell) in joint.chunks(8).take_while(|cell| cell[0] != 0xF0).enumerate() {
        let [a, b, c] = [2, 4, 6].map(|at| u16::from_le_bytes([cell[at], cell[at + 1]]));
        println!("{number} {} {} {a} {b} {c}", cell[0], cell[1]);
    }
}

fn main() -> io::Result<()> {
    let mut files = env::args_os().skip(1);
    let (Some(project), Some(part)) = (files.next(), files.next()) else {
        return Err(io::Error::other("usage: join PROJECT PART"));
    };
    let (mut project, part) = (fs::read(project)?, fs::read(part)?);
    // What is longer than the bytes lent is refused by the length told.
    let length = project.len();
    project.resize(PROJECT, 0);

    let mut work = vec![0; WORK];
    // The project is as it was after a preview. A join writes the joint over it, or leaves it as it was.
    print_answer("preview", preview(&project, length, &part, &mut work));
    let joined = join(&mut project, length, &part, &mut work);
    print_answer("join", joined);
    print_cells(&project[..joined.bytes]);
    Ok(())
}
