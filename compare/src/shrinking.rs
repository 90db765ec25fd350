//! Smaller books on which the two sides still differ.

use crate::cells::{is_labelled, sort_of, zeroed, Cells};
use crate::comparing::{Comparison, Question};
use crate::engines::Call;
use crate::joining::Asked;
use crate::pairs::Pair;
use evaluator::{kind, Cell, Sort, Version, PROJECT, TABLE, WORK};

/// How many smaller books are tried at most.
const TRIES: usize = 20_000;

/// The smallest book and question found that still show a difference.
pub fn shrink(comparison: &Comparison, book: Vec<u8>, question: Question) -> (Vec<u8>, Question) {
    let (mut book, mut question) = (book, question);
    let mut tries = TRIES;
    let mut fails = |book: &[u8], question: Question| {
        tries = tries.saturating_sub(1);
        tries > 0 && comparison.ask(book, question).is_some()
    };
    loop {
        if let Some(smaller) = questions(question).into_iter().find(|&smaller| fails(&book, smaller)) {
            question = smaller;
            continue;
        }
        match smaller(&book).into_iter().find(|smaller| fails(smaller, question)) {
            Some(smaller) => book = smaller,
            None => return (book, question),
        }
    }
}

/// Books of a pair are made smaller below so many bytes.
const LARGE: usize = 8_192;

/// The smallest pair found that still shows a difference in what was asked: in the preview, if that differed.
pub fn shrink_pair(comparison: &Comparison, pair: Pair, asked: Asked) -> Pair {
    let mut pair = pair;
    let mut tries = TRIES;
    let mut fails = |pair: &Pair| {
        tries = tries.saturating_sub(1);
        tries > 0 && comparison.pair(pair).is_err_and(|(other, _)| other == asked)
    };
    while let Some(smaller) = smaller_pairs(&pair).into_iter().find(&mut fails) {
        pair = smaller;
    }
    pair
}

/// Pairs that are lent and told as they should be, or with one smaller book. A told length that is the project's stays so.
fn smaller_pairs(pair: &Pair) -> Vec<Pair> {
    let Pair { project, part, told, .. } = pair;
    let mut pairs = vec![
        Pair { lent: PROJECT, ..pair.clone() },
        Pair { told: project.len(), ..pair.clone() },
        Pair { work: WORK, ..pair.clone() },
        Pair { after: false, ..pair.clone() },
    ];
    pairs.retain(|right| right != pair);
    if project.len() + part.len() < LARGE {
        pairs.extend(smaller(part).into_iter().map(|part| Pair { part, ..pair.clone() }));
        pairs.extend(smaller(project).into_iter().map(|less| {
            let told = if *told == project.len() { less.len() } else { *told };
            Pair { project: less, told, ..pair.clone() }
        }));
    }
    pairs
}

/// Questions that are simpler to look at.
fn questions(question: Question) -> Vec<Question> {
    match question {
        Question::Call(Call::Run { limit }, length) => {
            let check = Question::Call(Call::Check, length);
            let limits = (0..limit.min(20)).chain([limit / 2, limit.saturating_sub(1)]).filter(|&lower| lower < limit);
            [check].into_iter().chain(limits.map(|limit| Question::Call(Call::Run { limit }, length))).collect()
        }
        _ => vec![],
    }
}

/// Books that are smaller by one change each: fewer cells, or as many with less in them.
fn smaller(book: &[u8]) -> Vec<Vec<u8>> {
    let Some(cells) = Cells::of(book) else { return shorter_bytes(book) };
    let count = cells.cells.len();
    let mut books: Vec<Cells> = Vec::new();
    // A lower root, and nothing past it.
    let root = usize::from(cells.root).min(count - 1);
    for lower in (0..root).filter(|&n| sort_of(cells.cells[n].kind) == Sort::Term) {
        books.push(Cells { cells: cells.cells[..=lower].to_vec(), root: lower as u16, ..cells });
    }
    for at in (0..count).rev() {
        // Without a cell: each of its parts, or any lower one of its sort, takes its place.
        let cell = cells.cells[at];
        let sort = sort_of(cell.kind);
        let parts = cell.fields.into_iter().zip(cell.references());
        let parts = parts.filter_map(|(field, to)| (to == Some(sort)).then_some(field));
        let lower = cells.of_sort(sort, at);
        let any = lower.first().copied().into_iter().chain(lower.last().copied());
        for instead in parts.chain(any).chain([0]) {
            if count > 1 && usize::from(instead) < at || at == 0 && usize::from(cells.root) != at {
                let mut less = cells.clone();
                less.remove(at, instead);
                books.push(less);
            }
        }
        for simpler in simpler_cells(cell, cells.version) {
            let mut less = cells.clone();
            less.cells[at] = simpler;
            books.push(less);
        }
    }
    books.into_iter().map(|less| less.bytes()).filter(|less| weight(less) < weight(book)).collect()
}

/// Cells to take its place in a book of this version: those of its sort that refer to nothing, and simpler ones of its own kind.
fn simpler_cells(cell: Cell, version: Version) -> Vec<Cell> {
    let sort = sort_of(cell.kind);
    let leaves = TABLE.iter().filter(|row| row.sort == sort && row.is_leaf());
    let mut simpler: Vec<Cell> = leaves.map(|row| zeroed(row.kind)).collect();
    if sort == Sort::Term {
        simpler.push(Cell::number(1, version));
    }
    if is_labelled(cell.kind) {
        simpler.extend([0, 1].map(|label| Cell { label, ..cell }));
    }
    if cell.kind == kind::NUMBER {
        simpler.extend([0, 1, 2].map(|n| Cell::number(n, version)));
    }
    simpler
}

/// For bytes that are no book: shorter ones, and ones with a zero more.
fn shorter_bytes(book: &[u8]) -> Vec<Vec<u8>> {
    let shorter = (0..book.len()).map(|length| book[..length].to_vec());
    let zeroed = (0..book.len()).filter(|&at| book[at] != 0).map(|at| {
        let mut zeroed = book.to_vec();
        zeroed[at] = 0;
        zeroed
    });
    shorter.chain(zeroed).collect()
}

/// What shrinking makes less of: bytes, then references and numbers, then the rest.
fn weight(book: &[u8]) -> (usize, usize, u64) {
    let cells = Cells::of(book).map_or(Vec::new(), |cells| cells.cells);
    let references = cells.iter().flat_map(|cell| cell.references()).filter(|sort| sort.is_some()).count();
    (book.len(), references, book.iter().map(|&byte| u64::from(byte)).sum())
}
