//! Folder books written, shown, checked, run, joined and explained: what the program `cerealbank` is made of.
//!
//! Every answer is the proved library's, through its wrapper. What is here reads and writes: bytes and the notation of docs/NOTATION.md, a
//! refusal in words. Where words need to know more of a book than the answer says - the type of a part, which parts of two types overlap -
//! the library is asked again, about a book made for the question ([`ask`]).

pub mod ask;
pub mod assemble;
pub mod book;
pub mod cells;
pub mod commands;
pub mod explanation;
pub mod format;
pub mod input;
pub mod joining;
pub mod kinds;
pub mod labels;
pub mod layout;
pub mod lex;
pub mod names;
pub mod options;
pub mod parse;
pub mod print;
pub mod refusals;
pub mod running;
pub mod sheets;
pub mod show;
pub mod source;
pub mod terminal;
pub mod typing;

use std::thread::Builder;

/// What the deepest text and the deepest book take of the stack here, with room to spare.
const OWN_STACK: usize = 64 << 20;

/// Does something in a thread with the stack that the library asks for, and what this program needs for the deepest text and book; None if
/// there is no such thread, or if it panics.
pub fn deep<T: Send + 'static>(does: impl FnOnce() -> T + Send + 'static) -> Option<T> {
    Builder::new().stack_size(cerealbank::STACK + OWN_STACK).spawn(does).ok()?.join().ok()
}
