//! The command-line program: `cerealbank help`.

use std::io::{self, Write};
use std::process::exit;
use tool::commands::{main as asked, Status};
use tool::deep;
use tool::terminal::Terminal;

fn main() {
    let arguments: Vec<_> = std::env::args_os().skip(1).collect();
    let status = deep(move || {
        let (mut out, mut err) = (io::stdout(), io::stderr());
        asked(&arguments, &mut Terminal::standard(&mut out, &mut err))
    });
    let status = status.unwrap_or_else(|| {
        writeln!(
            io::stderr(),
            "this could not be done: there is no thread with as much stack as it takes, or the program has a fault"
        )
        .ok();
        Status::Failed
    });
    exit(status as i32);
}
