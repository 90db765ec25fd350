//! Functions that are merged, with bodies that are the same tree or differ in one cell. Their types are not disjoint, so that nothing but
//! body and input type decides whether they are consistent, however their cells are laid down.

use crate::cells::{encode, number_cell, zeroed, Cells, Sharing};
use crate::contexts::within_many;
use crate::engines::Call;
use crate::extremes::{int, number, top};
use crate::families::{merged, one_book};
use crate::maker::{Maker, Weights, EVEN};
use crate::random::Random;
use crate::refusals::by_turns;
use crate::samples::{identity, two_chains, Sample};
use evaluator::{decode, encode_term, infer, kind, row, top_like, Answer, Cell, Field, Term, TermShape, Type, Version, TABLE};
use std::collections::BTreeMap;

fn variable() -> Term {
    Term::variable(0)
}

/// A function from Top to Int that does not use its argument.
fn constant(n: i32) -> Term {
    Term::function(number(n), top(), int())
}

/// What differs in a cell.
#[derive(Clone, Copy, PartialEq, Eq, PartialOrd, Ord, Debug)]
pub enum Item {
    Kind,
    Label,
    Field(usize),
}

impl Item {
    /// The items of a kind: itself where another kind has the same fields, and all that its row names.
    pub fn all(kind: u8) -> Vec<Item> {
        let row = row(kind).expect("a kind");
        let named = |&field: &usize| row.fields[field] != Field::Unnamed;
        let first = [(!others_alike(kind).is_empty(), Item::Kind), (row.labelled, Item::Label)];
        let first = first.into_iter().filter_map(|(there, item)| there.then_some(item));
        first.chain((0..3).filter(named).map(Item::Field)).collect()
    }
}

/// The other kinds with the same fields.
fn others_alike(kind: u8) -> Vec<u8> {
    let own = row(kind).expect("a kind");
    TABLE.iter().filter(|other| other.kind != kind && other.same_fields(own)).map(|other| other.kind).collect()
}

/// Where two bodies, or two input types, differ: in a cell of this kind, so far below the first.
#[derive(Clone, Copy, PartialEq, Eq, PartialOrd, Ord, Debug)]
pub struct Difference {
    pub kind: u8,
    pub item: Item,
    pub depth: usize,
}

/// What a check says of a merge of two functions.
#[derive(Clone, Copy, PartialEq, Eq, Debug)]
pub enum Expected {
    Accepted,
    /// 14, and it names the merge.
    Inconsistent,
    /// One of the functions is refused before they are compared.
    Refused,
}

/// Two functions merged, laid down in one way.
#[derive(Clone)]
pub struct Pair {
    /// None where body and input type are the same, or where the root does not reach them.
    pub difference: Option<Difference>,
    pub expected: Expected,
    pub book: Cells,
}

/// The parts of a function that have to be the same: the fields of its cell.
const BODY: usize = 0;
const INPUT: usize = 1;

/// A function of which one part is changed: every cell of it, or only those of one kind so far below its first.
#[derive(Clone)]
struct Subject {
    function: Term,
    part: usize,
    only: Option<(u8, usize)>,
}

impl Subject {
    fn all_of(part: usize, functions: Vec<Term>) -> Vec<Subject> {
        functions.into_iter().map(|function| Subject { function, part, only: None }).collect()
    }
}

/// Cells in front, for references to go to instead.
const STOCK: [Cell; 5] =
    [zeroed(kind::INT), zeroed(kind::TOP), zeroed(kind::NUMBER), zeroed(kind::VARIABLE), zeroed(kind::TOP_VALUE)];

/// The function as cells with nothing shared, the stock in front.
fn with_stock(function: &Term) -> Cells {
    let mut tree = encode(function, Sharing::Never, &mut Random::of(0, "", 0));
    STOCK.into_iter().rev().for_each(|cell| tree.insert(0, cell));
    tree
}

/// How far each cell that the root reaches is below it.
fn depths(tree: &Cells) -> Vec<usize> {
    let mut depths = vec![0; tree.cells.len()];
    for (at, cell) in tree.cells.iter().enumerate().skip(STOCK.len()).rev() {
        for (to, _) in cell.fields.iter().zip(cell.references()).filter(|(_, sort)| sort.is_some()) {
            depths[usize::from(*to)] = depths[at] + 1;
        }
    }
    depths
}

/// The cell at this place with something else there: another kind, one bit of each byte of a label, number or variable, any lower cell of the sort.
fn others(tree: &Cells, at: usize, item: Item) -> Vec<Cell> {
    let cell = tree.cells[at];
    let with_field = |field: usize, value: u16| {
        let mut other = cell;
        other.fields[field] = value;
        other
    };
    match item {
        Item::Kind => others_alike(cell.kind).into_iter().map(|kind| Cell { kind, ..cell }).collect(),
        Item::Label => [1, 128].map(|bit| Cell { label: cell.label ^ bit, ..cell }).to_vec(),
        Item::Field(field) => match cell.references()[field] {
            None => [1, 1 << 15].map(|bit| with_field(field, cell.fields[field] ^ bit)).to_vec(),
            Some(sort) => tree.of_sort(sort, at).into_iter().map(|to| with_field(field, to)).collect(),
        },
    }
}

/// The function with another cell at this place.
fn with_cell(tree: &Cells, at: usize, other: Cell) -> Term {
    let mut tree = tree.clone();
    tree.cells[at] = other;
    decode(&tree.bytes()).expect("a term").0
}

/// The functions that differ from this one in one item of one cell of its body or input type, where that cell is asked for. Of those that differ
/// in the same item one is typed, or two if it is no reference, and one is not, as far as there are such.
fn differing(Subject { function, part, only }: &Subject) -> Vec<(Difference, Expected, Term)> {
    let (tree, mut all) = (with_stock(function), Vec::new());
    let TermShape::Function(body, input, _) = function.shape() else { unreachable!("a function") };
    let sizes = [body.size(), input.size()].map(|size| size as usize);
    let start = STOCK.len() + sizes[..*part].iter().sum::<usize>();
    for (at, depth) in depths(&tree).into_iter().enumerate().skip(start).take(sizes[*part]) {
        let (cell, depth) = (tree.cells[at], depth - 1);
        if only.is_some_and(|only| only != (cell.kind, depth)) {
            continue;
        }
        for item in Item::all(cell.kind) {
            let all_others = others(&tree, at, item).into_iter().map(|other| with_cell(&tree, at, other));
            let different = all_others.filter(|other| other != function);
            let (typed, untyped): (Vec<Term>, Vec<Term>) = different.partition(is_typed);
            let reference = matches!(item, Item::Field(field) if cell.references()[field].is_some());
            let typed = typed.into_iter().take(if reference { 1 } else { 2 }).map(|other| (Expected::Inconsistent, other));
            let untyped = untyped.into_iter().take(1).map(|other| (Expected::Refused, other));
            let difference = Difference { kind: cell.kind, item, depth };
            all.extend(typed.chain(untyped).map(|(expected, other)| (difference, expected, other)));
        }
    }
    all
}

fn is_typed(term: &Term) -> bool {
    infer(&mut Vec::new(), term).is_ok()
}

/// Two functions merged: equal cells once, so that both refer to the same ones wherever they are equal; nothing shared; and the second function's
/// cells first, nothing shared between the two, and in one of them, by turns the second or the first, equal cells once.
fn laid_down(left: &Term, right: &Term, turn: usize) -> [Cells; 3] {
    let mut random = Random::of(0, "", 0);
    let [shared, opened] = [Sharing::Always, Sharing::Never].map(|sharing| {
        let merge = Term::merge(left.clone(), right.clone());
        encode(&merge, sharing, &mut random)
    });
    let mut sharings = [Sharing::Always, Sharing::Never];
    sharings.rotate_left(turn % 2);
    let [first, second] = [0, 1].map(|n| encode([right, left][n], sharings[n], &mut random));
    let raised = |n: u16| n + first.root + 1;
    let second_cells = second.cells.iter().map(|cell| cell.redirected(raised));
    let merge = Cell::new(kind::MERGE, 0, [raised(second.root), first.root, 0]);
    let cells: Vec<Cell> = first.cells.iter().copied().chain(second_cells).chain([merge]).collect();
    [shared, opened, Cells::to_last(cells)]
}

fn accepted(book: Cells) -> Pair {
    Pair { difference: None, expected: Expected::Accepted, book }
}

/// Each function merged with all that differ from it, on either side by turns: grouped by what differs, and the groups by turns. Where the
/// functions are not compared, one way to lay them down is enough.
fn apart(subjects: &[Subject]) -> Vec<Pair> {
    let mut groups: BTreeMap<(u8, Item), Vec<Pair>> = BTreeMap::new();
    for subject in subjects {
        for (turn, (difference, expected, other)) in differing(subject).into_iter().enumerate() {
            let function = subject.function.clone();
            let [left, right] = if turn % 2 == 0 { [function, other] } else { [other, function] };
            let mut books = laid_down(&left, &right, turn / 2).to_vec();
            if expected == Expected::Refused {
                books = vec![books.swap_remove(turn % books.len())];
            }
            let group = groups.entry((difference.kind, difference.item)).or_default();
            group.extend(books.into_iter().map(|book| Pair { difference: Some(difference), expected, book }));
        }
    }
    by_turns(&groups.into_values().collect::<Vec<_>>())
}

/// Each function merged with itself.
fn equal(subjects: &[Subject]) -> Vec<Pair> {
    let twice = |(turn, Subject { function, .. }): (usize, &Subject)| laid_down(function, function, turn);
    subjects.iter().enumerate().flat_map(twice).map(accepted).collect()
}

/// A number beside a field with the term in it: below Int.
fn number_with(term: Term) -> Term {
    Term::merge(number(0), Term::record(9, term))
}

/// Every place where a term can stand, round a term of any type.
const AROUND: [fn(Term) -> Term; 14] = [
    |e| Term::annotation(e, top()),
    |e| Term::choice(number_with(e), number(1), number(65_537)),
    |e| Term::application(Term::annotation(e, top()), Term::top()),
    |e| Term::sum(number(-1), number_with(e)),
    |e| Term::fixpoint(e, top()),
    |e| Term::merge(e, Term::top()),
    |e| Term::choice(number(1), number_with(e), number(2)),
    |e| Term::record(7, e),
    |e| Term::projection(7, Term::annotation(e, top())),
    |e| Term::function(e, int(), top()),
    |e| Term::application(Term::top(), e),
    |e| Term::sum(number_with(e), number(1)),
    |e| Term::merge(Term::top(), e),
    |e| Term::choice(number(1), number(2), number_with(e)),
];
/// So many are nested.
const NESTED: usize = 4;

/// Every place where a type can stand in another.
const AROUND_TYPES: [fn(Type) -> Type; 5] = [
    |t| Type::function(t, int()),
    |t| Type::intersection(t, top()),
    |t| Type::record(7, t),
    |t| Type::function(top(), t),
    |t| Type::intersection(int(), t),
];

/// Types nested so deep, another place innermost by turns.
fn nested_type(depth: usize, turn: usize) -> Type {
    let leaf = if turn.is_multiple_of(2) { int() } else { top() };
    (0..depth).fold(leaf, |t, n| AROUND_TYPES[(turn + n) % AROUND_TYPES.len()](t))
}

/// A function from Int to Int with this beside its variable.
fn beside_variable(inside: Term) -> Term {
    Term::function(Term::merge(variable(), Term::annotation(inside, top())), int(), int())
}

/// Terms in one another, another place innermost by turns.
fn deep_bodies() -> Vec<Term> {
    let leaves = [number(65_537), variable(), Term::top()];
    let nested = |turn: usize| {
        let leaf = leaves[turn % leaves.len()].clone();
        (0..NESTED).fold(leaf, |e, n| AROUND[(turn + n) % AROUND.len()](e))
    };
    (0..AROUND.len()).map(|turn| beside_variable(nested(turn))).collect()
}

/// Types in one another, in every place of a body by turns where a type can stand, and where any type may.
fn types_in_bodies() -> Vec<Term> {
    let carriers: [fn(Type) -> Term; 4] = [
        |t| Term::annotation(Term::top(), Type::function(t, top())),
        |t| Term::fixpoint(variable(), t),
        |t| Term::function(Term::top(), t, top()),
        |t| Term::function(Term::top(), int(), Type::function(t, top())),
    ];
    let carried = |turn: usize| carriers[turn % carriers.len()](nested_type(NESTED, turn));
    (0..AROUND_TYPES.len()).map(|turn| beside_variable(carried(turn))).collect()
}

/// A body of every kind but the top value, whose type would be disjoint from all, and one with every kind of type just below its first cell:
/// whatever a typed body can differ in there, one of them can.
fn small_bodies() -> Vec<Term> {
    let of_int = |body: Term, output: Type| Term::function(body, int(), output);
    let twice = || Type::intersection(int(), int());
    let two_ways = || Type::intersection(Type::record(1, Type::record(1, int())), int());
    let fields = || Type::intersection(Type::record(2, int()), Type::record(3, int()));
    let mut all = vec![
        of_int(variable(), int()),
        of_int(Term::application(identity(), variable()), int()),
        of_int(Term::application(constant(6), constant(5)), int()),
        of_int(Term::function(Term::variable(1), int(), twice()), Type::function(int(), int())),
        of_int(Term::merge(number(5), Term::record(1, number(6))), int()),
        Term::function(Term::record(1, variable()), two_ways(), Type::record(1, int())),
        Term::function(Term::projection(1, variable()), two_ways(), Type::record(1, int())),
        Term::function(Term::projection(2, variable()), fields(), int()),
        Term::function(Term::projection(2, Term::annotation(variable(), Type::record(2, int()))), fields(), int()),
        of_int(Term::sum(variable(), number(1)), int()),
    ];
    let below_int = [kind::NUMBER, kind::ANNOTATION, kind::MERGE, kind::FIXPOINT, kind::SUM, kind::CHOICE];
    let specimens = specimens().into_iter().filter(|specimen| below_int.contains(&specimen.node().row.kind));
    all.extend(specimens.map(|specimen| of_int(specimen, int())));
    // Below all that the types are changed to.
    let records = [6, 7, 135].map(|label| Type::record(label, int()));
    let below = records.into_iter().fold(Type::intersection(Type::function(top(), int()), int()), Type::intersection);
    let output = Type::function(below, int());
    all.extend(type_specimens().into_iter().map(|t| of_int(Term::function(number(5), t, int()), output.clone())));
    all
}

/// A closed term of every kind that is typed, and still is with any of its items changed in some way.
fn specimens() -> Vec<Term> {
    let twice = || Type::intersection(int(), int());
    vec![
        number(-1),
        Term::annotation(number(5), twice()),
        Term::application(Term::top(), constant(5)),
        Term::function(number(5), int(), twice()),
        Term::merge(number(5), number(5)),
        Term::fixpoint(number(5), twice()),
        Term::record(7, Term::top()),
        Term::projection(7, Term::annotation(number(5), top())),
        Term::sum(number(5), number(5)),
        Term::choice(number(5), number(6), number(7)),
    ]
}

/// A type of every kind.
fn type_specimens() -> Vec<Type> {
    vec![int(), top(), Type::function(top(), int()), Type::intersection(top(), int()), Type::record(7, int())]
}

/// Places of a term of any type, one level each.
const ONE_LEVEL: [fn(Term) -> Term; 7] = [
    |e| Term::annotation(e, top()),
    |e| Term::merge(e, Term::top()),
    |e| Term::application(Term::top(), e),
    |e| Term::function(e, int(), top()),
    |e| Term::record(7, e),
    |e| Term::merge(Term::top(), e),
    |e| Term::fixpoint(e, top()),
];

/// A function from Int to Int with this so far below the first cell of its body: at least one level.
fn at_depth(depth: usize, turn: usize, inside: Term) -> Term {
    let around = (1..depth).fold(inside, |e, n| ONE_LEVEL[(turn + n) % ONE_LEVEL.len()](e));
    Term::function(Term::application(constant(5), around), int(), int())
}

/// The cells of all kinds are changed this deep.
pub const DEPTHS: usize = 10;

/// Each kind at every depth but the first, where only its own cell is changed.
fn at_every_depth() -> Vec<Subject> {
    let subject = |kind: u8, depth: usize, function: Term| Subject { function, part: BODY, only: Some((kind, depth)) };
    let mut all = Vec::new();
    for depth in 1..=DEPTHS {
        for (turn, specimen) in specimens().into_iter().enumerate() {
            all.push(subject(specimen.node().row.kind, depth, at_depth(depth, depth + turn, specimen)));
        }
        // A variable, where there are two; a type in a fixpoint's, behind terms and types by turns.
        let binder: fn(Term) -> Term = if depth % 2 == 0 { ONE_LEVEL[3] } else { ONE_LEVEL[6] };
        if depth > 1 {
            all.push(subject(kind::VARIABLE, depth, at_depth(depth - 1, depth, binder(variable()))));
        }
        for (turn, specimen) in type_specimens().into_iter().enumerate().filter(|_| depth > 1) {
            let (kind, levels) = (specimen.node().row.kind, (depth - 2) * (turn % 3) / 2);
            let t = (0..levels).fold(specimen, |t, n| AROUND_TYPES[(depth + turn + n) % AROUND_TYPES.len()](t));
            all.push(subject(kind, depth, at_depth(depth - 1 - levels, turn, Term::fixpoint(variable(), t))));
        }
    }
    all
}

/// One body with input types in one another.
fn inputs() -> Vec<Term> {
    let nested = (0..AROUND_TYPES.len()).map(|turn| nested_type(NESTED, turn));
    nested.chain(type_specimens()).map(|input| Term::function(number(5), input, int())).collect()
}

/// One body and one input type with any two outputs.
fn outputs() -> Vec<Pair> {
    let (field, own) = (Type::record(1, int()), Type::intersection(int(), Type::record(1, int())));
    let outputs =
        [own.clone(), int(), field.clone(), Type::intersection(int(), int()), Type::intersection(field, own.clone()), top()];
    let function = |output: &Type| Term::function(Term::fixpoint(variable(), own.clone()), int(), output.clone());
    let pairs = outputs.iter().flat_map(|one| outputs.iter().map(move |other| (one, other)));
    pairs.enumerate().flat_map(|(turn, (one, other))| laid_down(&function(one), &function(other), turn)).map(accepted).collect()
}

/// The same cells, and a root that does not reach them.
fn unreached(pairs: &[Pair]) -> Vec<Pair> {
    let rooted = |pair: &Pair| Cells::new([&pair.book.cells[..], &[zeroed(kind::TOP_VALUE)]].concat(), pair.book.root + 1);
    pairs.iter().map(rooted).map(accepted).collect()
}

/// So many are laid down not reached.
const UNREACHED: usize = 100;

/// All of them: every list from the start, by turns.
pub fn one_cell_apart() -> Vec<Pair> {
    let small = Subject::all_of(BODY, small_bodies());
    let nested = Subject::all_of(BODY, [deep_bodies(), types_in_bodies()].concat());
    let inputs = Subject::all_of(INPUT, inputs());
    let mut at_every_depth = at_every_depth();
    at_every_depth.reverse();
    let not_reached = unreached(&by_turns(&[apart(&small), equal(&small)])[..UNREACHED]);
    let same = by_turns(&[equal(&small), equal(&nested), equal(&inputs), equal(&at_every_depth)]);
    by_turns(&[apart(&at_every_depth), apart(&nested), apart(&small), apart(&inputs), same, outputs(), not_reached])
}

/// Two functions from Int to Int merged that differ where a high byte does: in what a variable skips, and in the number of the body's cell.
fn high_bytes() -> [Cells; 2] {
    let within = |body: Term| Term::function((0..256).fold(body, |e, _| Term::fixpoint(e, int())), int(), int());
    let [one, other] = [0, 256].map(|skipped| within(Term::variable(skipped)));
    let skipping = encode(&Term::merge(one, other), Sharing::Always, &mut Random::of(0, "", 0));
    let of_body = |body: u16| Cell::new(kind::FUNCTION, 0, [body, 0, 0]);
    let mut cells = vec![zeroed(kind::INT), number_cell(5), of_body(1)];
    cells.resize(257, zeroed(kind::TOP_VALUE));
    cells.extend([number_cell(6), of_body(257), Cell::new(kind::MERGE, 0, [2, 258, 0])]);
    [skipping, Cells::new(cells, 259)]
}

/// Books of which the documents' words give the answer of a check.
pub fn stated() -> Vec<Sample> {
    let refused = |cell: usize| Answer::Refused { number: 14, cell };
    let mut list = Vec::new();
    let mut add = |name, book: Vec<u8>, answer| list.push(Sample { name, book, call: Call::Check, answer, value: None });
    let outputs = |second: Cell| {
        let [first, both] = [Cell::new(kind::FUNCTION, 0, [1, 0, 0]), Cell::new(kind::INTERSECTION, 0, [0, 4, 0])];
        let last = [Cell::new(kind::FUNCTION, 0, [3, 0, 5]), Cell::new(kind::MERGE, 0, [2, 6, 0])];
        let cells = [zeroed(kind::INT), zeroed(kind::VARIABLE), first, second, zeroed(kind::TOP), both];
        Cells::new([&cells[..], &last].concat(), 7).bytes()
    };
    add("equal bodies, outputs Int and Int with Top", outputs(zeroed(kind::VARIABLE)), Answer::Accepted { size: 9 });
    add("a variable and a number for bodies", outputs(number_cell(1)), refused(7));
    let mut merge = |name, [one, other]: [Term; 2], size: Option<usize>| {
        let merge = Term::merge(one, other);
        let answer = size.map_or(refused(merge.size() as usize - 1), |size| Answer::Accepted { size });
        add(name, encode_term(&merge, Version::One), answer);
    };
    let of_int = |body: Term| Term::function(body, int(), int());
    let twice = || Type::intersection(int(), int());
    let annotated = [int(), twice()].map(|by| of_int(Term::annotation(variable(), by)));
    merge("a variable under Int, and under Int with Int", annotated, None);
    merge("inputs Int, and Int with Int", [int(), twice()].map(|input| Term::function(variable(), input, int())), None);
    merge("bodies that differ in their high half", [-1, 65_535].map(|n| of_int(number(n))), None);
    merge("the same, 1 and 65,537", [1, 65_537].map(|n| of_int(number(n))), None);
    let field = |label| Term::function(Term::record(label, variable()), int(), Type::record(label, int()));
    merge("bodies and outputs of other labels", [1, 2].map(field), Some(9));
    let [skipping, cells] = high_bytes();
    add("variables that skip 0 binders and 256", skipping.bytes(), refused(usize::from(skipping.root)));
    add("bodies in cells 1 and 257", cells.bytes(), refused(usize::from(cells.root)));
    let mut chains = two_chains(18);
    chains.cells.push(zeroed(kind::TOP_VALUE));
    add("two doubling chains not reached", Cells { root: 38, ..chains }.bytes(), Answer::Accepted { size: 1 });
    list
}

/// Functions of more cells than this are not made at random.
const SMALL: u64 = 300;

/// A function that is typed and not top-like, its body of any form.
fn any_function(random: &mut Random) -> Term {
    for _ in 0..4 {
        let fuel = random.between(2, 14);
        let mut maker = Maker::new(random, Weights { merge: 3, fixpoint: 2, ..EVEN }, fuel);
        let of = Type::function(maker.a_type(1), maker.a_type(2));
        let function = maker.closed_value(&of);
        match function.shape() {
            TermShape::Function(_, _, output) if !top_like(output) && function.size() < SMALL && is_typed(&function) => {
                return function;
            }
            _ => {}
        }
    }
    identity()
}

/// A function that differs in one item of one cell, its own included: typed, if one of a few is.
fn one_change(function: &Term, random: &mut Random) -> Term {
    let tree = with_stock(function);
    let mut found = function.clone();
    for _ in 0..12 {
        let at = random.between(STOCK.len(), tree.cells.len() - 1);
        let items = Item::all(tree.cells[at].kind);
        if items.is_empty() {
            continue;
        }
        let others = others(&tree, at, *random.pick(&items));
        let other = with_cell(&tree, at, *random.pick(&others));
        if other != *function && is_typed(&other) {
            return other;
        }
        found = other;
    }
    found
}

/// The function again, changed in one field, or with another output.
fn again(function: &Term, random: &mut Random) -> Term {
    let TermShape::Function(body, input, output) = function.shape() else { return function.clone() };
    match random.lower(8) {
        0..=3 => function.clone(),
        4 => Term::function(body.clone(), input.clone(), Maker::new(random, EVEN, 4).supertype(output)),
        _ => one_change(function, random),
    }
}

/// The functions with something beside each or in a field, with another value among them, or as they are.
fn as_parts(mut functions: Vec<Term>, random: &mut Random) -> Vec<Term> {
    let beside: fn(Term) -> Term = match random.lower(6) {
        0 => |function| Term::merge(Term::record(2, number(4)), function),
        1 => |function| Term::merge(function, Term::merge(number(3), Term::top())),
        2 => |function| Term::merge(Term::record(2, function), number(3)),
        _ => |function| function,
    };
    if random.once_in(3) {
        let mut maker = Maker::new(random, EVEN, 4);
        let of = maker.a_type(2);
        let other = maker.closed_value(&of);
        functions.insert(random.between(0, functions.len()), other);
    }
    functions.into_iter().map(beside).collect()
}

/// Functions merged that are equal or nearly: by themselves, read as one of them, applied, or within others.
fn nearly_equal_term(random: &mut Random) -> Term {
    let first = any_function(random);
    let mut functions = vec![first.clone()];
    for _ in 0..random.between(1, 3) {
        functions.push(again(&first, random));
    }
    let TermShape::Function(_, input, output) = first.shape() else { return first };
    let of = Type::function(input.clone(), output.clone());
    let (merge, as_one) = if random.once_in(4) {
        let merge = merged(functions.into_iter().map(|function| Term::record(1, function)).collect(), random);
        (merge.clone(), Term::projection(1, Term::annotation(merge, Type::record(1, of))))
    } else {
        let merge = merged(as_parts(functions, random), random);
        (merge.clone(), Term::annotation(merge, of))
    };
    match random.lower(6) {
        0 => as_one,
        1 | 2 => Term::application(as_one, Maker::new(random, EVEN, 3).closed_value(input)),
        3 => match infer(&mut Vec::new(), &merge) {
            Ok(of) => within_many((merge, of), 2, random).0,
            Err(_) => merge,
        },
        _ => merge,
    }
}

/// Bodies made at random and compared with bodies that differ in one field or in none.
pub fn nearly_equal_bodies(random: &mut Random) -> Vec<Vec<u8>> {
    let term = nearly_equal_term(random);
    one_book(&term, random)
}
