//! The deepest books of every shape, each as deep as 4,095 cells allow: terms in one another, fixpoints that unfold, values substituted in
//! bodies, types, field reads of merges, functions that are compared, sums and choices.

use crate::cells::{encode, Sharing};
use crate::extremes::times;
use crate::random::Random;
use evaluator::{kind, row, top_like, Node, Part, Row, Sort, Term, Type, SIZE_LIMIT, TABLE};

/// A deep book: its group, what it nests, and its bytes.
pub struct Deep {
    pub group: &'static str,
    pub name: String,
    pub book: Vec<u8>,
}

fn deep(group: &'static str, name: String, term: Term) -> Deep {
    assert!(term.size() <= SIZE_LIMIT, "{group}, {name}: {} cells", term.size());
    Deep { group, name, book: encode(&term, Sharing::Never, &mut Random::of(0, "", 0)).bytes() }
}

/// The most cells that a term may have.
const CELLS: usize = SIZE_LIMIT as usize;

fn int() -> Type {
    Type::int()
}

fn top() -> Type {
    Type::top()
}

/// The label of what is nested.
const LABEL: u8 = 8;

/// A field that refers to its own cell's sort: parts nest there, again and again.
#[derive(Clone, Copy)]
struct Place {
    row: &'static Row,
    field: usize,
}

impl Place {
    fn of(kind: u8, field: usize) -> Place {
        Place { row: row(kind).expect("a kind"), field }
    }

    /// All of a sort: those with a label first, those under a binder last.
    fn all(sort: Sort) -> Vec<Place> {
        let rows = TABLE.iter().filter(|row| row.sort == sort);
        let places = rows.flat_map(|row| [0, 1, 2].map(|field| Place { row, field }));
        let mut own: Vec<Place> = places.filter(|place| place.row.fields[place.field].sort() == Some(sort)).collect();
        own.sort_by_key(|place| (place.row.binders, !place.row.labelled));
        own
    }

    /// What nests there, and on which side if its kind has two, or in which field if it has three.
    fn name(&self) -> String {
        let Row { meaning, sort, fields, .. } = self.row;
        let side = match (fields.iter().filter(|field| field.sort() == Some(*sort)).count(), self.field) {
            (1, _) => "",
            (3, field) => [" in a", " in b", " in c"][field],
            (_, 0) => " to the left",
            _ => " to the right",
        };
        format!("{meaning}s{side}")
    }

    /// A node with this part there, and with this type or term in its other fields.
    fn node<'a>(&self, part: Part<'a>, t: &'a Type, e: &'a Term) -> Node<'a> {
        let mut fields = self.row.fields.map(|field| match field.sort() {
            Some(Sort::Type) => Part::Type(t),
            Some(Sort::Term) => Part::Term(e),
            None => Part::None,
        });
        fields[self.field] = part;
        Node { row: self.row, label: if self.row.labelled { LABEL } else { 0 }, fields }
    }

    /// The type within as many as so many cells allow, itself beside it.
    fn around(&self, cells: usize, leaf: &Type) -> Type {
        let wrap = |t: Type| Type::of(self.node(Part::Type(&t), leaf, &Term::top()));
        let more = wrap(leaf.clone()).size() - leaf.size();
        (0..(cells as u64 - leaf.size()) / more).fold(leaf.clone(), |t, _| wrap(t))
    }
}

/// A way to go round a term of type Top, again and again.
struct Shape {
    name: String,
    binders: u32,
    /// It goes round numbers: the innermost has the term of type Top beside it.
    numbers: bool,
    wrap: Box<dyn Fn(Term) -> Term>,
}

/// Every place of a term, then all by turns.
fn shapes() -> Vec<Shape> {
    let all = Shape { name: "all by turns".to_string(), binders: 0, numbers: false, wrap: Box::new(all_by_turns) };
    Place::all(Sort::Term).into_iter().map(Shape::at).chain([all]).collect()
}

/// Each way once, with an annotation where the next needs Top, and beside a number where it needs Int.
fn all_by_turns(inside: Term) -> Term {
    let left = Term::annotation(Term::merge(Term::application(inside, Term::top()), Term::top()), top());
    let right = Term::merge(Term::top(), Term::application(Term::top(), left));
    let read = Term::projection(LABEL, Term::annotation(Term::record(LABEL, right), top()));
    let [zero, one] = [0, 1].map(Term::number);
    let tested = Term::choice(Term::sum(Term::merge(zero.clone(), read), zero.clone()), zero.clone(), one.clone());
    let chosen = Term::choice(zero.clone(), Term::sum(one.clone(), tested), zero.clone());
    Term::annotation(Term::choice(one, zero, chosen), top())
}

impl Shape {
    /// Top and the top value stand in the other fields; of a sum or choice numbers, so that the part that is nested is the one chosen.
    fn at(place: Place) -> Shape {
        let numbers = [kind::SUM, kind::CHOICE].contains(&place.row.kind);
        let other = if numbers { Term::number(i32::from(place.field == 2)) } else { Term::top() };
        let wrap = move |e: Term| Term::of(place.node(Part::Term(&e), &top(), &other));
        Shape { name: place.name(), binders: place.row.binders_over(place.field), numbers, wrap: Box::new(wrap) }
    }

    /// The term within as many as so many cells allow; it is given how many binders are around it.
    fn around(&self, cells: usize, inside: impl FnOnce(u16) -> Term) -> Term {
        let beside = if self.numbers { 2 } else { 0 };
        let count = (cells - beside) / ((self.wrap)(Term::top()).size() as usize - 1);
        let inside = inside((count * self.binders as usize) as u16);
        times(count, if self.numbers { Term::merge(Term::number(0), inside) } else { inside }, &self.wrap)
    }

    /// A closed term of at most so many cells.
    fn alone(&self, cells: usize) -> Term {
        self.around(cells - 1, |_| Term::top())
    }
}

/// A function from Int to Int with this in its body: a value whose type is small.
fn holding(inside: Term) -> Term {
    Term::function(Term::merge(Term::number(6), inside), int(), int())
}

/// All of them, in their groups.
pub fn deepest() -> Vec<Deep> {
    let terms = [terms(), terms_in_terms(), fixpoints(), fixpoints_within(), substitutions()];
    let types = [types(), two_types(), cast_values(), many_parts(), field_reads(), reads_within()];
    let equal = [equal_values(), equal_types()];
    let numbers = [sums_and_choices(), operands(), numbers_in_bodies()];
    terms.into_iter().chain(types).chain(equal).chain(numbers).flatten().collect()
}

/// Each shape alone.
fn terms() -> Vec<Deep> {
    let contents = times(2_047, Term::top(), |e| Term::record(LABEL, e));
    let reads = times(2_047, contents, |e| Term::projection(LABEL, e));
    let annotations = times(2_047, Term::number(1), |e| Term::annotation(e, int()));
    let others = [("field reads of records", reads), ("annotations by Int", annotations)];
    let others = others.map(|(name, term)| deep("terms", name.to_string(), term));
    shapes().iter().map(|shape| deep("terms", shape.name.clone(), shape.alone(CELLS))).chain(others).collect()
}

/// Each shape within each other.
fn terms_in_terms() -> Vec<Deep> {
    let mut books = Vec::new();
    let shapes = shapes();
    for outer in &shapes {
        for inner in &shapes {
            let inside = Term::annotation(inner.alone(CELLS / 2), top());
            let term = outer.around(CELLS - inside.size() as usize, |_| inside);
            books.push(deep("terms in terms", format!("{} round {}", outer.name, inner.name), term));
        }
    }
    books
}

/// A fixpoint whose body is each shape around the variable: as large as there is room for, and so that it goes round a few times.
fn fixpoints() -> Vec<Deep> {
    let mut books = Vec::new();
    for shape in shapes() {
        for (part, times) in [(1, "once"), (2, "twice"), (3, "three times"), (10, "ten times")] {
            let body = shape.around((CELLS - 3) / part, Term::variable);
            let name = format!("of {}, with room {times}", shape.name);
            books.push(deep("fixpoints", name, Term::fixpoint(body, top())));
        }
    }
    books
}

/// What is substituted in a body: an argument, the function's input type, and what they are.
fn arguments(cells: usize) -> Vec<(&'static str, Term, Type)> {
    let places = [(kind::RECORD_TYPE, 0), (kind::INTERSECTION, 0), (kind::INTERSECTION, 1)];
    let [records, left, right] = places.map(|(kind, field)| Place::of(kind, field).around(cells / 2, &int()));
    let as_function = Type::function(int(), int());
    let several = Place::of(kind::INTERSECTION, 0).around(cells / 3, &as_function);
    let ones = times(500.min(cells / 2 - 1), Term::number(1), |e| Term::merge(e, Term::number(1)));
    let field_reads = |cells: usize| holding(Shape::at(Place::of(kind::PROJECTION, 0)).alone(cells));
    let functions = holding(Shape::at(Place::of(kind::FUNCTION, 0)).alone(cells - 8));
    vec![
        ("records", times(cells / 2 - 1, Term::number(1), |e| Term::record(LABEL, e)), records),
        ("a number as many to the left", Term::number(1), left),
        ("a number as many to the right", Term::number(1), right),
        ("one of many numbers", ones, int()),
        ("a function of field reads", field_reads(cells - 8), as_function.clone()),
        ("a function of functions", functions, as_function),
        ("a function of field reads, many times", field_reads(cells / 3), several),
    ]
}

/// A function with a deep body applied to a deep value, in several proportions.
fn substitutions() -> Vec<Deep> {
    let mut books = Vec::new();
    for shape in shapes() {
        for quarter in [1, 2, 3] {
            for (name, argument, input) in arguments((CELLS - 20) * quarter / 4) {
                let taken = (argument.size() + input.size()) as usize;
                let body = shape.around(CELLS - taken - 6, |variable| Term::annotation(Term::variable(variable), top()));
                let name = format!("{name}, {quarter} quarters, into {}", shape.name);
                books.push(deep(
                    "values substituted into bodies",
                    name,
                    Term::application(Term::function(body, input, top()), argument),
                ));
            }
        }
    }
    books
}

/// A deep fixpoint within deep terms, so that what is substituted goes deeper still.
fn fixpoints_within() -> Vec<Deep> {
    let mut books = Vec::new();
    let shapes = shapes();
    for outer in &shapes {
        for inner in &shapes {
            for quarter in [1, 3] {
                let fixed = Term::fixpoint(inner.around(CELLS * quarter / 4 - 3, Term::variable), top());
                let term = outer.around(CELLS - fixed.size() as usize, |_| fixed);
                let name = format!("of {}, {quarter} quarters, within {}", inner.name, outer.name);
                books.push(deep("fixpoints within", name, term));
            }
        }
    }
    books
}

/// Each type wherever a type can stand.
fn types() -> Vec<Deep> {
    let mut books = Vec::new();
    let fixed = |t: &Type| Term::fixpoint(Term::variable(0), t.clone());
    for shape in Place::all(Sort::Type) {
        for (leaf, of) in [(int(), "Int"), (top(), "Top"), (Type::record(9, int()), "a record type")] {
            let [whole, half] = [1, 2].map(|part| shape.around((CELLS - 8) / part, &leaf));
            let mut add = |at: &str, term: Term| books.push(deep("types", format!("{} of {of}, {at}", shape.name()), term));
            add("a fixpoint's", fixed(&whole));
            add("an input", Term::function(Term::top(), whole.clone(), top()));
            add("a fixpoint's and an annotation's", Term::annotation(fixed(&half), half.clone()));
            add("input and output", Term::function(Term::variable(0), half.clone(), half.clone()));
            add(
                "a function's and its argument's",
                Term::application(Term::function(Term::top(), half.clone(), top()), fixed(&half)),
            );
            add("a function's, with a record type beside it", Term::merge(fixed(&whole), Term::record(7, Term::top())));
            if top_like(&whole) {
                add("an annotation's", Term::annotation(Term::top(), whole.clone()));
                add("an output", Term::function(Term::top(), int(), whole.clone()));
            }
        }
    }
    books
}

/// Each type against each other: below or not, disjoint or not.
fn two_types() -> Vec<Deep> {
    let mut books = Vec::new();
    let fixed = |t: &Type| Term::fixpoint(Term::variable(0), t.clone());
    for one in Place::all(Sort::Type) {
        for other in Place::all(Sort::Type) {
            let name = format!("{} and {}", one.name(), other.name());
            for leaf in [int(), Type::record(9, int())] {
                let [a, b] = [(one, int()), (other, leaf)].map(|(shape, leaf)| shape.around((CELLS - 6) / 2, &leaf));
                books.push(deep("two types", format!("{name}, below"), Term::annotation(fixed(&a), b.clone())));
                books.push(deep("two types", format!("{name}, merged"), Term::merge(fixed(&a), fixed(&b))));
            }
        }
    }
    books
}

/// Deep values cast to deep types.
fn cast_values() -> Vec<Deep> {
    let mut books = Vec::new();
    let mut add = |name: &str, value: Term, t: Type| books.push(deep("values read", name.to_string(), Term::annotation(value, t)));
    let records = |n: usize| times(n, Term::number(1), |e| Term::record(LABEL, e));
    let places = [(kind::FUNCTION_TYPE, 1), (kind::INTERSECTION, 0), (kind::INTERSECTION, 1)];
    let [outputs, left, right] = places.map(|(kind, field)| Place::of(kind, field));
    add("records", records(2_045), Place::of(kind::RECORD_TYPE, 0).around(2_046, &int()));
    for (shape, side) in [(left, "left"), (right, "right")] {
        add(&format!("a number, to the {side}"), Term::number(1), shape.around(4_093, &int()));
        for (part, way) in [(0, "left"), (1, "right")] {
            let wrap = |e: Term| if part == 0 { Term::merge(e, Term::number(1)) } else { Term::merge(Term::number(1), e) };
            add(&format!("numbers to the {way}, to the {side}"), times(600, Term::number(1), wrap), shape.around(1_201, &int()));
        }
        let function = holding(Shape::at(Place::of(kind::PROJECTION, 0)).alone(1_000));
        add(&format!("a function, to the {side}"), function, shape.around(3_000, &Type::function(int(), int())));
    }
    let function =
        Term::function(Term::fixpoint(Term::variable(0), outputs.around(1_300, &int())), int(), outputs.around(1_300, &int()));
    add("a function of many arguments", function, outputs.around(1_302, &int()));
    books
}

/// Deep values merged with themselves; and functions with one that a deep merge ends with.
fn equal_values() -> Vec<Deep> {
    let mut books = Vec::new();
    let mut add = |name: String, one: &Term, other: &Term| {
        books.push(deep("equal values", name, Term::merge(one.clone(), other.clone())));
    };
    let mut twice = |name: String, value: Term| add(name, &value, &value);
    let function = |shape: &Shape, cells: usize| holding(Term::annotation(shape.alone(cells), top()));
    for shape in shapes() {
        twice(format!("functions of {}", shape.name), function(&shape, 2_038));
        let within = times(1_000, function(&shape, 1_038), |e| Term::record(LABEL, e));
        twice(format!("records round functions of {}", shape.name), within);
    }
    twice("records".to_string(), times(2_045, Term::number(1), |e| Term::record(LABEL, e)));
    twice("numbers to the left".to_string(), times(500, Term::number(1), |e| Term::merge(e, Term::number(1))));
    twice("numbers to the right".to_string(), times(500, Term::number(1), |e| Term::merge(Term::number(1), e)));
    for shape in shapes() {
        let one = function(&shape, 1_000);
        for (side, way) in SIDES {
            let name = format!("functions of {}, one in a merge to the {way}", shape.name);
            add(name, &one, &far_merge(side, 3_000, one.clone()));
        }
    }
    books
}

/// Each type wherever it can stand in a function's body, and as its input: merged with itself, and with another at the far end.
fn equal_types() -> Vec<Deep> {
    let beside = |e: Term| holding(Term::annotation(e, top()));
    let mut books = Vec::new();
    for place in Place::all(Sort::Type) {
        let [one, other] = [int(), top()].map(|leaf| place.around(CELLS / 2 - 20, &leaf));
        let mut add = |at: &str, function: &dyn Fn(Type) -> Term| {
            for (second, end) in [(&one, "equal"), (&other, "not equal")] {
                let merge = Term::merge(function(one.clone()), function(second.clone()));
                books.push(deep("equal types in functions", format!("{}, {at}, {end}", place.name()), merge));
            }
        };
        add("a fixpoint's", &|t| beside(Term::fixpoint(Term::variable(0), t)));
        add("an annotation's", &|t| beside(Term::annotation(Term::top(), Type::function(t, top()))));
        add("an input in a body", &|t| beside(Term::function(Term::top(), t, top())));
        add("an output in a body", &|t| beside(Term::function(Term::top(), int(), Type::function(t, top()))));
        add("the input", &|t| Term::function(Term::number(5), t, int()));
    }
    books
}

/// So many terms merged to the left, to the right, or halved again and again.
pub fn merges(parts: &[Term]) -> [(&'static str, Term); 3] {
    fn balanced(parts: &[Term]) -> Term {
        match parts.split_at(parts.len() / 2) {
            ([], one) => one[0].clone(),
            (left, right) => Term::merge(balanced(left), balanced(right)),
        }
    }
    let all = || parts.iter().cloned();
    let left = all().reduce(Term::merge).expect("a part");
    let right = all().rev().reduce(|right, left| Term::merge(left, right)).expect("a part");
    [("to the left", left), ("to the right", right), ("balanced", balanced(parts))]
}

/// Many parts that each take a step, merged.
fn many_parts() -> Vec<Deep> {
    let parts = vec![Term::annotation(Term::number(1), top()); 1_023];
    merges(&parts).map(|(way, term)| deep("many annotated parts", way.to_string(), term)).into()
}

/// Where merges and intersections nest.
const SIDES: [(usize, &str); 2] = [(0, "left"), (1, "right")];

/// A merge of at most so many cells with this part at its far end, the top value in all other places.
fn far_merge(side: usize, cells: usize, part: Term) -> Term {
    Shape::at(Place::of(kind::MERGE, side)).around(cells - part.size() as usize, |_| part)
}

/// An intersection with this type there, and Top in all other places.
fn far_intersection(side: usize, cells: usize, part: Type) -> Type {
    let place = Place::of(kind::INTERSECTION, side);
    let wrap = |t: Type| Type::of(place.node(Part::Type(&t), &top(), &Term::top()));
    (0..(cells - part.size() as usize) / 2).fold(part, |t, _| wrap(t))
}

fn a_field() -> Term {
    Term::record(LABEL, Term::number(1))
}

/// The field that is read at the far end of a merge, of a variable's type and of a fixpoint's; within fields; and a field with a deep content,
/// top-like or not.
fn field_reads() -> Vec<Deep> {
    let mut books = Vec::new();
    let mut add = |name: String, term: Term| books.push(deep("field reads", name, term));
    let read = |e: Term| Term::projection(LABEL, e);
    for (side, way) in SIDES {
        let merge = far_merge(side, CELLS - 1, a_field());
        add(format!("of a merge to the {way}"), read(merge.clone()));
        add(format!("of a merge to the {way}, of another label"), Term::projection(LABEL + 1, merge));
        let half = far_intersection(side, CELLS / 2 - 10, Type::record(LABEL, int()));
        add(format!("of a merge annotated to the {way}"), read(Term::annotation(far_merge(side, CELLS / 2, a_field()), half)));
        let whole = far_intersection(side, CELLS - 10, Type::record(LABEL, int()));
        let reader = Term::function(read(Term::variable(0)), whole.clone(), int());
        add(format!("of a variable to the {way}"), Term::application(reader, a_field()));
        add(format!("of a fixpoint to the {way}"), read(Term::fixpoint(Term::variable(0), whole)));
        let within = times(CELLS / 4, Term::number(1), |e| far_merge(side, e.size() as usize + 3, Term::record(LABEL, e)));
        add(format!("of fields within fields, to the {way}"), times(CELLS / 4, within, read));
    }
    for (leaf, of) in [(Term::number(1), "a number"), (Term::top(), "the top value")] {
        let content = Shape::at(Place::of(kind::RECORD, 0)).around(CELLS - 4, |_| leaf);
        add(format!("of records round {of}"), read(Term::merge(content, Term::number(2))));
    }
    for place in Place::all(Sort::Type) {
        let function = Term::function(Term::top(), int(), place.around(CELLS - 8, &top()));
        let merge = Term::merge(Term::record(LABEL, function), Term::number(2));
        add(format!("of a function to {}", place.name()), read(merge));
    }
    books
}

/// Both within each shape: the typing walks a deep type there, the run a deep merge.
fn reads_within() -> Vec<Deep> {
    let mut books = Vec::new();
    for shape in shapes() {
        for (side, way) in SIDES {
            let of = far_intersection(side, CELLS / 2, Type::record(LABEL, int()));
            let deep_type = Term::fixpoint(Term::variable(0), of);
            let deep_merge = far_merge(side, CELLS / 2, a_field());
            for (name, part) in [("deep type", deep_type), ("deep merge", deep_merge)] {
                let read = Term::annotation(Term::projection(LABEL, part), top());
                let term = shape.around(CELLS - read.size() as usize, |_| read);
                books.push(deep("field reads within", format!("a {name} to the {way}, within {}", shape.name), term));
            }
        }
    }
    books
}

/// The places in a sum and in a choice.
fn number_places() -> Vec<Place> {
    Place::all(Sort::Term).into_iter().filter(|place| [kind::SUM, kind::CHOICE].contains(&place.row.kind)).collect()
}

impl Place {
    /// A sum or choice with this part there, and this number in its other fields.
    fn with_number(&self, part: &Term, other: i32) -> Term {
        Term::of(self.node(Part::Term(part), &int(), &Term::number(other)))
    }

    /// With a number that has the part chosen.
    fn chosen(&self, part: &Term) -> Term {
        self.with_number(part, i32::from(self.field == 2))
    }
}

/// The term within as many more as so many cells allow.
fn within_cells(cells: usize, inside: Term, wrap: impl Fn(Term) -> Term) -> Term {
    let more = (wrap(Term::top()).size() - 1) as usize;
    times((cells - inside.size() as usize) / more, inside, wrap)
}

/// Each place nested, with zero and with other numbers beside it, any two places by turns, sums halved again and again, and a part that is
/// refused at the far end.
fn sums_and_choices() -> Vec<Deep> {
    let mut books = Vec::new();
    let mut add = |name: String, term: Term| books.push(deep("sums and choices", name, term));
    for place in number_places() {
        let name = place.name();
        for other in [0, 1, i32::MAX, i32::MIN] {
            let nested = within_cells(CELLS, Term::number(other), |e| place.with_number(&e, other));
            add(format!("{name}, of {other}"), nested);
        }
        for (far, of) in [(Term::top(), "the top value"), (Term::variable(0), "a variable")] {
            add(format!("{name}, round {of}"), within_cells(CELLS, far, |e| place.chosen(&e)));
        }
        for second in number_places() {
            let turns = within_cells(CELLS, Term::number(1), |e| place.chosen(&second.chosen(&e)));
            add(format!("{name} and {} by turns", second.name()), turns);
        }
    }
    add("sums halved again and again".to_string(), (0..11).fold(Term::number(1), |e, _| Term::sum(e.clone(), e)));
    books
}

/// A deep merge with a number at its far end, or a fixpoint with a deep type, as each part; and deep merges in all parts at once.
fn operands() -> Vec<Deep> {
    let mut books = Vec::new();
    let mut add = |name: String, term: Term| books.push(deep("deep parts of sums and choices", name, term));
    for (side, way) in SIDES {
        let merge = |cells: usize| far_merge(side, cells, Term::number(0));
        let fixpoint = Term::fixpoint(Term::variable(0), far_intersection(side, CELLS - 6, int()));
        for place in number_places() {
            add(format!("a merge to the {way} in {}", place.name()), place.chosen(&merge(CELLS - 3)));
            add(format!("a fixpoint to the {way} in {}", place.name()), place.chosen(&fixpoint));
        }
        add(format!("two merges to the {way} in a sum"), Term::sum(merge(CELLS / 2), merge(CELLS / 2)));
        let third = merge(CELLS / 3 - 1);
        add(format!("three merges to the {way} in a choice"), Term::choice(third.clone(), third.clone(), third));
    }
    books
}

/// Functions whose bodies are deep sums and choices round a variable: applied, and merged with themselves; with a number that differs at the
/// far end; and with a variable of a binder around both there.
fn numbers_in_bodies() -> Vec<Deep> {
    let mut books = Vec::new();
    let mut add = |name: String, term: Term| books.push(deep("deep sums and choices in bodies", name, term));
    for place in number_places() {
        let name = place.name();
        let function = |cells: usize, far: Term| Term::function(within_cells(cells - 3, far, |e| place.chosen(&e)), int(), int());
        add(format!("{name}, applied"), Term::application(function(CELLS - 2, Term::variable(0)), Term::number(0)));
        let half = |far: Term| function(CELLS / 2 - 4, far);
        add(format!("{name}, equal"), Term::merge(half(Term::variable(0)), half(Term::variable(0))));
        add(format!("{name}, not equal"), Term::merge(half(Term::number(3)), half(Term::number(4))));
        let both = Term::merge(half(Term::variable(1)), half(Term::variable(1)));
        add(format!("{name}, not closed"), Term::function(both, int(), top()));
    }
    books
}
