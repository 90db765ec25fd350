//! A settings sheet in words: its type and the steps that it takes, or what makes a book none.

use crate::ask::{check, Refusal, Sheet};
use crate::book::Book;
use crate::explanation::Explanation;
use crate::input::Input;
use crate::kinds::Kind;
use crate::labels::Labels;
use crate::print::typed;
use crate::running::steps;
use crate::typing::{as_written, marked_part};

/// What no sheet has, and what helps where one stands.
const OF_NO_SHEET: [(Kind, &str); 4] = [
    (Kind::Function, "Write what it gives in place of its use."),
    (Kind::Fixpoint, "Write what it comes to in its place."),
    (Kind::Choice, "Write the branch that is meant in its place."),
    (Kind::Variable, "Nothing binds it: write what it stands for in its place."),
];

/// The sheet's type, as a check shows it, and its count of steps.
pub fn counted(sheet: &Sheet, labels: &Labels) -> String {
    let takes = match sheet.steps {
        0 => "takes 0 steps: it is a value already".into(),
        count => format!("takes {} to its value", steps(count)),
    };
    typed("accepted: ", &sheet.found, labels) + &format!("settings sheet, {takes}\n")
}

/// The first part from the root on, left before right, that no sheet has. What is in another such part comes behind that one.
fn first(term: &Book) -> Option<(usize, &'static str)> {
    let mut ahead = vec![term.root];
    while let Some(at) = ahead.pop() {
        let part = term.parts[at];
        if let Some(&(_, help)) = OF_NO_SHEET.iter().find(|(kind, _)| *kind == part.kind) {
            return Some((at, help));
        }
        ahead.extend(part.children().iter().rev());
    }
    None
}

/// How many of each kind that no sheet has are in a term.
fn in_it(term: &Book) -> String {
    let counts = OF_NO_SHEET.map(|(kind, _)| (kind.row().name, term.parts.iter().filter(|part| part.kind == kind).count()));
    let counts = counts.iter().filter(|(_, count)| *count > 0);
    let counts = counts.map(|(name, count)| format!("{count} {name}{}", if *count == 1 { "" } else { "s" }));
    counts.collect::<Vec<_>>().join(", ")
}

/// Why a book is no sheet: with nothing shared, as it is counted.
pub fn no_sheet(input: &Input) -> Explanation {
    let term = Book::read(&input.bytes).and_then(|book| book.opened());
    let Some((term, (at, help))) = term.as_ref().and_then(|term| Some((term, first(term)?))) else {
        return Explanation::says("this is no settings sheet");
    };
    let what = term.parts[at].kind.row().name;
    let explanation = Explanation::says(format!("this is no settings sheet, for it has a {what} in it"))
        .fact("no sheet has", "variables, functions, fixpoints or choices")
        .fact("this book has", in_it(term))
        .helps(help)
        .helps(match check(&input.bytes) {
            Ok(_) => "As a book it is accepted, and a run says its steps by taking them: cerealbank run BOOK".into(),
            Err(Refusal { number, .. }) => format!("A check refuses it too, with {number}: cerealbank check BOOK"),
        });
    Explanation { place: marked_part(input, term, as_written(input, term).as_ref(), at), ..explanation }
}
