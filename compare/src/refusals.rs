//! Books that meet one row of document 01's table of refusals, and books that meet two: the first finding decides the number and the cell.

use crate::cells::{encode, number_cell, unknown_kinds, zeroed, Cells, Sharing};
use crate::random::Random;
use crate::samples::{identity, refused_books};
use evaluator::{kind, Cell, Field, Row, Sort, Term, Type, CELL, TABLE};

pub fn refusals() -> Vec<Vec<u8>> {
    let kept = refused_books().into_values().collect();
    by_turns(&[kept, one_cell(), damaged(), two_cells(), trailers(), lengths(), two_parts(), nested()])
}

/// The lists by turns, so that the first items are some of each.
pub fn by_turns<T: Clone>(lists: &[Vec<T>]) -> Vec<T> {
    let longest = lists.iter().map(Vec::len).max().unwrap_or(0);
    (0..longest).flat_map(|n| lists.iter().filter_map(move |list| list.get(n).cloned())).collect()
}

/// The first cells of most books here: a type and a term.
const FIRST: [Cell; 2] = [INT, ONE];
const INT: Cell = zeroed(kind::INT);
const ONE: Cell = Cell::new(kind::NUMBER, 0, [0, 1, 0]);
const A_TYPE: u16 = 0;
const A_TERM: u16 = 1;

const TOP: Cell = zeroed(kind::TOP);
const TOP_VALUE: Cell = zeroed(kind::TOP_VALUE);

/// What a field holds by turns, the right thing first: a reference also its own cell and one of the other sort, an unnamed field also 1.
fn contents(field: Field, at: u16) -> Vec<u16> {
    match field {
        Field::Reference(Sort::Type) => vec![A_TYPE, at, A_TERM],
        Field::Reference(Sort::Term) => vec![A_TERM, at, A_TYPE],
        Field::Plain => vec![0],
        Field::Unnamed => vec![0, 1],
    }
}

/// A cell of every kind with all contents of its fields: the rows 6 to 8 of one cell, alone and together. And unknown kinds.
fn one_cell() -> Vec<Vec<u8>> {
    let at = FIRST.len() as u16;
    let mut cells = Vec::new();
    for Row { kind, fields, .. } in TABLE {
        let [a, b, c] = fields.map(|field| contents(field, at));
        for (&a, &b) in a.iter().flat_map(|a| b.iter().map(move |b| (a, b))) {
            for &c in &c {
                cells.extend([0, 1].map(|label| Cell::new(*kind, label, [a, b, c])));
            }
        }
    }
    for kind in unknown_kinds().into_iter().chain([u8::MAX]) {
        cells.extend([0, 1, u16::MAX].map(|field| Cell::new(kind, field as u8, [field; 3])));
    }
    let book = |cell| Cells::new([&FIRST[..], &[cell, TOP_VALUE]].concat(), at);
    cells.into_iter().map(|cell| book(cell).bytes()).collect()
}

/// A cell of every kind with one thing wrong at most: the label or a field. The root is that cell, or does not reach it.
pub fn damaged() -> Vec<Vec<u8>> {
    let at = FIRST.len() as u16;
    let mut cells = Vec::new();
    for Row { kind, fields, .. } in TABLE {
        let right = Cell::new(*kind, 0, fields.map(|field| contents(field, at)[0]));
        cells.extend([0, 1, 128, 255].map(|label| Cell { label, ..right }));
        for (place, field) in fields.iter().enumerate() {
            let wrong = match field {
                Field::Reference(_) => vec![A_TYPE, A_TERM, at, at + 1, at + 256, u16::MAX],
                Field::Plain | Field::Unnamed => vec![1, 255, 256, 1 << 15, u16::MAX],
            };
            for value in wrong {
                let mut cell = right;
                cell.fields[place] = value;
                cells.push(cell);
            }
        }
    }
    let book = |cell, root| Cells::new([&FIRST[..], &[cell, TOP_VALUE]].concat(), root).bytes();
    cells.into_iter().flat_map(|cell| [at, A_TERM].map(|root| book(cell, root))).collect()
}

/// Three cells for each of the rows 5 to 8 that meet it at this place.
fn ill_formed(at: u16) -> [Cell; 12] {
    [
        zeroed(TABLE[0].kind - 1),
        Cell::new(TABLE[TABLE.len() - 1].kind + 1, 0, [A_TERM; 3]),
        Cell::new(TABLE[TABLE.len() - 1].kind + 1, 1, [at; 3]),
        Cell::new(kind::NUMBER, 1, [0; 3]),
        Cell::new(kind::RECORD, 1, [A_TERM, 0, 1]),
        Cell::new(kind::SUM, 0, [A_TERM, A_TERM, 1]),
        Cell::new(kind::MERGE, 0, [A_TERM, at, 0]),
        Cell::new(kind::FUNCTION_TYPE, 0, [at + 1, A_TYPE, 0]),
        Cell::new(kind::CHOICE, 0, [A_TERM, A_TERM, at]),
        Cell::new(kind::ANNOTATION, 0, [A_TYPE, A_TYPE, 0]),
        Cell::new(kind::INTERSECTION, 0, [A_TYPE, A_TERM, 0]),
        Cell::new(kind::CHOICE, 0, [A_TERM, A_TERM, A_TYPE]),
    ]
}

/// Cells from this place on, of which the last is too large: merges or intersections, and what is doubled by them.
fn too_large(at: u16, kind: u8, leaf: Cell) -> Vec<Cell> {
    let doubled = (at..at + 12).map(|n| Cell::new(kind, 0, [n, n, 0]));
    [leaf].into_iter().chain(doubled).collect()
}

/// Cells from this place on, of which the last is a root that passes, or meets 9, 10, both, one of 11 to 15, or 10 and one of these.
fn roots(at: u16) -> Vec<Vec<Cell>> {
    let mut roots = vec![vec![ONE], vec![TOP], too_large(at, kind::MERGE, TOP_VALUE), too_large(at, kind::INTERSECTION, TOP)];
    let ill_typed = [
        (TOP_VALUE, Cell::new(kind::VARIABLE, 0, [1, 0, 0])),
        (TOP_VALUE, Cell::new(kind::APPLICATION, 0, [A_TERM, at, 0])),
        (ONE, Cell::new(kind::PROJECTION, 1, [at, 0, 0])),
        (number_cell(2), Cell::new(kind::MERGE, 0, [A_TERM, at, 0])),
        (TOP_VALUE, Cell::new(kind::FIXPOINT, 0, [at, A_TYPE, 0])),
    ];
    for (part, whole) in ill_typed {
        roots.push(vec![part, whole]);
        let mut large = too_large(at, kind::MERGE, part);
        let place = at + large.len() as u16;
        large.extend([whole, Cell::new(kind::MERGE, 0, [place - 1, place, 0])]);
        roots.push(large);
    }
    roots
}

/// The first cells, those in between, and those of a root; the last is the root.
fn rooted(between: &[Cell], root: &[Cell]) -> Cells {
    let cells = [&FIRST, between, root].concat();
    Cells::to_last(cells)
}

/// Each root alone, and each ill-formed cell with a root that passes, behind so many more cells.
fn single(more: usize) -> Vec<Cells> {
    let before = vec![TOP_VALUE; more];
    let at = (FIRST.len() + more) as u16;
    let roots = roots(at).into_iter().map(|root| rooted(&before, &root));
    let ill_formed = ill_formed(at).map(|cell| rooted(&[&before[..], &[cell]].concat(), &[ONE]));
    roots.chain(ill_formed).collect()
}

/// Each root and each ill-formed cell alone, also with one more cell behind it and many before; each ill-formed cell before and behind each
/// other and each root.
fn two_cells() -> Vec<Vec<u8>> {
    let at = FIRST.len() as u16;
    let mut books = single(0);
    for one in ill_formed(at) {
        books.extend(ill_formed(at + 1).map(|other| rooted(&[one, other], &[ONE])));
    }
    for cell in ill_formed(at) {
        books.extend(roots(at + 1).iter().map(|root| rooted(&[cell], root)));
    }
    for root in roots(at) {
        let book = rooted(&[], &root);
        for cell in ill_formed(book.root + 1) {
            books.push(Cells { cells: [&book.cells[..], &[cell]].concat(), ..book });
        }
    }
    for book in [single(0), single(300)].concat() {
        books.push(Cells { cells: [&book.cells[..], &[TOP_VALUE]].concat(), ..book });
    }
    books.iter().map(Cells::bytes).collect()
}

/// Each wrong byte of the trailer, then each wrong count and root, in a book with so many cells: the byte's place, and what stands there.
fn wrong_trailers(count: u16) -> Vec<Vec<(usize, u8)>> {
    let field = |place: usize, value: u16| value.to_le_bytes().into_iter().enumerate().map(|(n, byte)| (place + n, byte)).collect();
    let bytes = [(0, 0), (0, 0xF1), (1, 0), (1, 2), (6, 1), (7, 1)].map(|wrong| vec![wrong]);
    let counts = [0, count - 1, count + 1, count + 256].map(|count| field(2, count));
    let roots = [count, count + 1, u16::MAX].map(|root| field(4, root));
    bytes.into_iter().chain(counts).chain(roots).collect()
}

/// The book with these bytes in its trailer.
fn with_trailer(book: &Cells, wrong: &[(usize, u8)]) -> Vec<u8> {
    let mut bytes = book.bytes();
    let trailer = bytes.len() - CELL;
    wrong.iter().for_each(|&(place, byte)| bytes[trailer + place] = byte);
    bytes
}

/// Every wrong trailer, and every two at once, on a book that passes; every wrong trailer on all others.
fn trailers() -> Vec<Vec<u8>> {
    let mut books = Vec::new();
    let all = single(0);
    let wrong = wrong_trailers(all[0].cells.len() as u16);
    for one in &wrong {
        books.extend(wrong.iter().map(|other| with_trailer(&all[0], &[&one[..], other].concat())));
    }
    for book in &all[1..] {
        books.extend(wrong_trailers(book.cells.len() as u16).iter().map(|wrong| with_trailer(book, wrong)));
    }
    books
}

/// Every way for a length to be wrong, on books with a trailer that is right or wrong.
fn lengths() -> Vec<Vec<u8>> {
    let mut books = Vec::new();
    for book in single(0) {
        let mut long = book.clone();
        long.cells.resize(4_096, TOP_VALUE);
        for wrong in [vec![], vec![(0, 0)], vec![(3, 255)]] {
            let bytes = with_trailer(&book, &wrong);
            let end = bytes.len();
            books.extend([&bytes[..0], &bytes[end - CELL..], &bytes[1..], &bytes[..end - 1]].map(<[u8]>::to_vec));
            books.push([&bytes[..], &[0]].concat());
            books.push(with_trailer(&long, &wrong));
        }
    }
    books
}

fn int() -> Type {
    Type::int()
}

fn number(n: i32) -> Term {
    Term::number(n)
}

/// Terms with a type.
fn typed() -> Vec<Term> {
    let beside = Term::merge(number(1), Term::record(1, number(2)));
    let numbers = [Term::sum(number(1), number(2)), Term::choice(number(0), number(1), number(2))];
    let others = [number(1), Term::top(), identity(), Term::record(1, number(3)), beside, Term::merge(Term::top(), Term::top())];
    others.into_iter().chain(numbers).collect()
}

/// Terms that meet one of 11 to 15, the last in each of its nine places.
fn ill_typed() -> Vec<Term> {
    vec![
        Term::variable(1),
        Term::application(number(4), number(5)),
        Term::projection(1, Term::record(2, number(6))),
        Term::merge(number(7), number(8)),
        Term::annotation(Term::top(), int()),
        Term::application(identity(), Term::top()),
        Term::function(Term::top(), int(), int()),
        Term::fixpoint(Term::top(), int()),
        Term::sum(Term::top(), number(9)),
        Term::sum(number(9), Term::top()),
        Term::choice(Term::top(), number(9), number(10)),
        Term::choice(number(9), Term::top(), number(10)),
        Term::choice(number(9), number(10), Term::top()),
    ]
}

/// Where a part can stand: with nothing wrong around it, and then with something.
const PLACES: [fn(Term) -> Term; 28] = [
    |e| Term::application(e, number(1)),
    |e| Term::application(Term::top(), e),
    |e| Term::application(identity(), e),
    |e| Term::merge(e, Term::top()),
    |e| Term::merge(Term::record(1, number(1)), e),
    |e| Term::function(e, int(), int()),
    |e| Term::function(e, int(), Type::top()),
    |e| Term::fixpoint(e, int()),
    |e| Term::annotation(e, int()),
    |e| Term::annotation(e, Type::top()),
    |e| Term::record(1, e),
    |e| Term::projection(1, e),
    |e| Term::sum(e, number(1)),
    |e| Term::sum(number(1), e),
    |e| Term::choice(e, number(1), number(2)),
    |e| Term::choice(number(0), e, number(2)),
    |e| Term::choice(number(0), number(1), e),
    |e| Term::application(number(1), e),
    |e| Term::application(e, Term::variable(7)),
    |e| Term::application(Term::variable(7), e),
    |e| Term::merge(e, Term::variable(7)),
    |e| Term::merge(Term::variable(7), e),
    |e| Term::sum(e, Term::variable(7)),
    |e| Term::sum(Term::top(), e),
    |e| Term::choice(e, Term::top(), number(1)),
    |e| Term::choice(Term::variable(7), e, number(1)),
    |e| Term::choice(number(0), e, Term::variable(7)),
    |e| Term::choice(number(0), Term::top(), e),
];

/// Where two parts can stand.
const PAIRS: [fn(Term, Term) -> Term; 6] = [
    Term::application,
    Term::merge,
    Term::sum,
    |a, b| Term::choice(a, b, number(1)),
    |a, c| Term::choice(a, number(1), c),
    |b, c| Term::choice(number(0), b, c),
];

/// The same term with the parts of each cell encoded last first, so that the walk meets higher cells before lower ones.
pub fn reversed(book: &Cells) -> Cells {
    fn part(book: &Cells, n: u16, cells: &mut Vec<Cell>) -> u16 {
        let mut cell = book.cells[usize::from(n)];
        let references = cell.references();
        for (field, _) in cell.fields.iter_mut().zip(references).rev().filter(|(_, sort)| sort.is_some()) {
            *field = part(book, *field, cells);
        }
        cells.push(cell);
        cells.len() as u16 - 1
    }
    let mut cells = Vec::new();
    let root = part(book, book.root, &mut cells);
    Cells { cells, root, version: book.version }
}

/// Any two terms in each pair of places, and each in every place: in order, reversed, and shared.
fn two_parts() -> Vec<Vec<u8>> {
    let parts = [ill_typed(), typed()].concat();
    let mut terms = Vec::new();
    for one in &parts {
        for other in &parts {
            terms.extend(PAIRS.map(|both| both(one.clone(), other.clone())));
        }
    }
    terms.extend(PLACES.iter().flat_map(|place| parts.iter().map(|part| place(part.clone()))));
    let mut random = Random::of(0, "", 0);
    let mut books = Vec::new();
    for term in &terms {
        let unshared = encode(term, Sharing::Never, &mut random);
        books.extend([reversed(&unshared), unshared, encode(term, Sharing::Always, &mut random)]);
    }
    books.iter().map(Cells::bytes).collect()
}

/// Places within places, round a term for each of 11 to 15: reversed and shared by turns.
fn nested() -> Vec<Vec<u8>> {
    let mut random = Random::of(0, "", 1);
    let mut books = Vec::new();
    for part in ill_typed().iter().take(5) {
        for outer in PLACES {
            for (n, inner) in PLACES.iter().enumerate() {
                let book = encode(&outer(inner(part.clone())), Sharing::Sometimes, &mut random);
                books.push(if n % 2 == 0 { reversed(&book) } else { book }.bytes());
            }
        }
    }
    books
}
