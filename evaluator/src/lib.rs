//! An evaluator of folder books.
//!
//! It implements document 01, with field reads as document 02 (i) widens them, the sums and choices that its (ii) adds, the numbers of
//! 48 bits of its (iv), the orders of its (v), the joins of its (vi), the previews of its (vii), the marks of its (viii) and the sheets of
//! its (ix), and the first calculus of source 001 that document 01 cites, sentence by sentence and on trees. It shares nothing with the
//! engine, so that the two can be compared. Quoted words in the comments are document 01's, of field reads, sums, choices, versions,
//! orders, joins, previews, marks and sheets also document 02's.
//!
//! So that many books can be compared, parts of trees are shared and not copied; each node keeps its size, whether it is a value and how
//! many binders its variables need; and a run keeps its place in the term from step to step (`Machine`; `successors` takes a step on the
//! whole tree instead). Tests on types, and casts, walk their trees each time.

mod answers;
mod book;
mod faults;
mod fields;
mod joining;
mod kinds;
mod marks;
mod miscounting;
mod misjoining;
mod mismarking;
mod numbers;
mod ordering;
mod running;
mod sameness;
mod sheets;
mod stack;
mod terms;
mod typing;
mod versions;

pub use answers::{check, desk, run, Answer, DESK_LIMIT, WORK};
pub use book::{decode, encode_term, encode_type, restamped, Cell, Refusal, CELL, SIZE_LIMIT, TRAILER};
pub use faults::{with_fault, Fault};
pub use fields::value_parts;
pub use joining::{join, joint, preview, Joined, Which, CELLS, PROJECT};
pub use kinds::{kind, row, Field, Row, Sort, TABLE};
pub use misjoining::preview as faulty_preview;
pub use ordering::{regrouped, reorderings, swapped};
pub use running::{casts, substitute, successors};
pub use sheets::{sheet, COUNTED, FORBIDDEN};
pub use stack::on_large_stack;
pub use terms::{Node, Part, Term, TermShape, Type, TypeShape};
pub use typing::{consistent, disjoint, infer, subtype, top_like, type_of_value};
pub use versions::Version;
