//! Settings sheets. Document 02, (ix): "A sheet is a book whose opened root has no variable, function, fixpoint or choice. Without running it, say
//! how many steps it takes: its count of annotations, applications, field reads and sums, with sharing opened."

use crate::answers::{answer, type_of_root, Answer};
use crate::book::{decode, encode_type, Refusal};
use crate::faults::current;
use crate::kinds::kind;
use crate::miscounting;
use crate::terms::Term;

/// "No variable, function, fixpoint or choice."
pub const FORBIDDEN: [u8; 4] = [kind::VARIABLE, kind::FUNCTION, kind::FIXPOINT, kind::CHOICE];
/// "Its count of annotations, applications, field reads and sums."
pub const COUNTED: [u8; 4] = [kind::ANNOTATION, kind::APPLICATION, kind::PROJECTION, kind::SUM];

/// "Turned away: 17 when the book is no sheet"; "it names the root".
pub(crate) fn no_sheet(cell: usize) -> Refusal {
    Refusal { number: 17, cell }
}

/// How many terms of these kinds stand in a term, itself included, "with sharing opened". Types are no terms.
fn count(kinds: &[u8], e: &Term) -> u32 {
    let node = e.node();
    let parts: u32 = node.terms().map(|(.., part)| count(kinds, part)).sum();
    parts + u32::from(kinds.contains(&node.row.kind))
}

/// 17 is "tested after 10 and before typing". "Otherwise the call answers and leaves the work buffer as a check does, with the count beside an
/// acceptance."
pub(crate) fn judged(book: &[u8]) -> Result<(Answer, Vec<u8>), Refusal> {
    let (root, version) = decode(book)?;
    if count(&FORBIDDEN, &root) > 0 {
        return Err(no_sheet(root.cell()));
    }
    let inferred = type_of_root(&root, version)?;
    let answer = Answer::Sheet { size: inferred.size() as usize, steps: count(&COUNTED, &root) };
    Ok((answer, encode_type(&inferred, version)))
}

/// "Without running it, say how many steps it takes": its type encoded, with the type's size and the count.
pub fn sheet(book: &[u8], work: &mut [u8]) -> Answer {
    match current().filter(|fault| fault.is_of_sheets()) {
        Some(fault) => miscounting::sheet(fault, book, work),
        None => answer(work, || judged(book)),
    }
}
