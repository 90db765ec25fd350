//! The pairs that are previewed and joined, in families. Document 02, (vi): "Two books become one."

use crate::cells::{encode_in, zeroed, Cells, Sharing};
use crate::families::{changed, families, loose_cell, merged, typed_any, Family};
use crate::orders::some_parts;
use crate::random::Random;
use crate::reads::shuffled;
use crate::refusals::by_turns;
use crate::samples::doubled;
use crate::versions::{another_number, cut, exchanged, flipped, wide_number, widened};
use evaluator::{check, encode_term, joint, kind, Answer, Cell, Joined, Term, Version, Which, CELL, CELLS, PROJECT, WORK};
use Version::{One, Two};

/// A project and a part, and how a preview and a join are lent and told them.
#[derive(Clone, PartialEq, Eq, Debug)]
pub struct Pair {
    pub project: Vec<u8>,
    pub part: Vec<u8>,
    /// How many bytes are lent: the project's, then others.
    pub lent: usize,
    /// How many of them are told to hold the project.
    pub told: usize,
    /// The length of the work buffer.
    pub work: usize,
    /// The join is given what the preview leaves, and not a copy of what the preview is lent.
    pub after: bool,
}

impl Pair {
    /// Lent and told as a join asks for.
    pub fn of(project: Vec<u8>, part: Vec<u8>) -> Pair {
        Pair { told: project.len(), project, part, lent: PROJECT, work: WORK, after: false }
    }

    /// What is lent: the project, as far as the lent bytes reach, and what is behind it; and the work buffer.
    pub fn buffers(&self, behind: &[u8], worked: &[u8]) -> Buffers {
        let known = self.project.len().min(self.lent);
        Buffers { lent: [&self.project[..known], &behind[known..self.lent]].concat(), work: worked[..self.work].to_vec() }
    }
}

/// What a preview and a join are lent besides the part, and what they leave.
#[derive(Clone, PartialEq, Eq)]
pub struct Buffers {
    pub lent: Vec<u8>,
    pub work: Vec<u8>,
}

/// Books of every family in both versions, to take pairs from.
pub struct Pool(Vec<Vec<Vec<u8>>>);

impl Pool {
    /// So many of each family: of one that is taken whole, from all over it.
    pub fn of(seed: u64, each: usize) -> Pool {
        let some = |family: Family| {
            let books: Vec<Vec<u8>> = family.in_both_versions(seed, each).collect();
            let apart = (books.len() / each).max(1);
            // Two neighbours, then two others.
            books.chunks(2 * apart).flat_map(|books| books.iter().take(2).cloned()).take(each).collect()
        };
        Pool(families().into_iter().map(some).collect())
    }

    /// A book of any family.
    fn any(&self, random: &mut Random) -> Vec<u8> {
        let books = random.pick(&self.0);
        random.pick(books).clone()
    }

    /// Two neighbours of one family.
    fn neighbours(&self, random: &mut Random) -> [Vec<u8>; 2] {
        let books = random.pick(&self.0);
        let at = random.lower(books.len() - 1);
        [books[at].clone(), books[at + 1].clone()]
    }
}

/// A family of pairs: its name, how many of the random pairs fall to it, and its pairs.
pub struct PairFamily {
    pub name: &'static str,
    /// 0 for a family that is always taken whole.
    pub share: u32,
    make: Make,
}

enum Make {
    Whole(fn() -> Vec<Pair>),
    Random(fn(&Pool, &mut Random) -> Pair),
}

impl PairFamily {
    /// The family's pairs; a random family gives as many as asked for. Some of them are joined with what the preview leaves.
    pub fn pairs<'a>(&self, pool: &'a Pool, seed: u64, count: usize) -> impl Iterator<Item = Pair> + 'a {
        let pairs: Box<dyn Iterator<Item = Pair>> = match self.make {
            Make::Whole(make) => Box::new(make().into_iter()),
            Make::Random(make) => {
                let name = self.name;
                Box::new((0..count as u64).map(move |place| make(pool, &mut Random::of(seed, name, place))))
            }
        };
        (0..).zip(pairs).map(move |(place, pair)| Pair { after: Random::of(seed, "after", place).once_in(AFTER), ..pair })
    }
}

/// A join is given what the preview leaves once in so many times. Oftener, it would seldom be seen what a join leaves of a work buffer.
const AFTER: usize = 4;

pub fn pair_families() -> Vec<PairFamily> {
    let whole = |name, make| PairFamily { name, share: 0, make: Make::Whole(make) };
    let random = |name, share, make| PairFamily { name, share, make: Make::Random(make) };
    vec![
        whole("stated joins", || stated().into_iter().map(|stated| stated.pair).collect()),
        whole("lent and told", lent_and_told),
        whole("full projects", full_projects),
        random("pairs of values", 5, |_, r| either_way(values(r), r)),
        random("cells not reached", 5, |_, r| either_way([unreached(r), unreached(r)], r)),
        random("neighbours", 5, |pool, r| either_way(pool.neighbours(r), r)),
        random("two families", 5, |pool, r| either_way([pool.any(r), pool.any(r)], r)),
        random("fields of two", 5, |pool, r| either_way([in_field(pool.any(r), r), in_field(pool.any(r), r)], r)),
        random("broken pairs", 3, broken),
    ]
}

/// Which of the two is the project.
fn either_way([one, other]: [Vec<u8>; 2], random: &mut Random) -> Pair {
    if random.once_in(2) {
        Pair::of(one, other)
    } else {
        Pair::of(other, one)
    }
}

fn field(label: u8, n: i64) -> Term {
    Term::record(label, Term::number(n))
}

fn book(term: &Term, version: Version) -> Vec<u8> {
    encode_term(term, version)
}

/// So many top values, the last for a root.
fn tops(count: usize) -> Vec<u8> {
    Cells::to_last(vec![zeroed(kind::TOP_VALUE); count]).bytes()
}

/// 1 merged with 2: refused.
fn clash() -> Vec<u8> {
    book(&Term::merge(Term::number(1), Term::number(2)), One)
}

/// 1 applied to 1: refused.
fn applied() -> Vec<u8> {
    book(&Term::application(Term::number(1), Term::number(1)), One)
}

/// A pair of which the documents' words give the answer of the join and of its preview, and the joint.
pub struct Stated {
    pub name: &'static str,
    pub pair: Pair,
    pub joined: Joined,
    pub joint: Vec<u8>,
}

impl Stated {
    /// The work buffer after a preview and after a join: "left as a check with the same answer leaves it".
    pub fn work(&self, before: &[u8]) -> Vec<u8> {
        let mut work = before.to_vec();
        match self.joined.answer {
            Answer::Refused { number: 1, .. } => {}
            Answer::Refused { .. } => work.fill(0),
            _ => drop(check(&self.joint, &mut work)),
        }
        work
    }

    /// What a preview leaves: "not a lent byte of the project altered".
    pub fn after_preview(&self, before: &Buffers) -> Buffers {
        Buffers { lent: before.lent.clone(), work: self.work(&before.work) }
    }

    /// What a join leaves: "the rest zero", or all the lent bytes as they were.
    pub fn after_join(&self, before: &Buffers) -> Buffers {
        let mut lent = self.joint.clone();
        lent.resize(before.lent.len(), 0);
        let lent = if self.joint.is_empty() { before.lent.clone() } else { lent };
        Buffers { lent, work: self.work(&before.work) }
    }
}

/// These cells and a trailer with the last of them for a root.
fn rows(version: Version, rows: &[[u16; 5]]) -> Vec<u8> {
    let cell = |&[kind, label, a, b, c]: &[u16; 5]| Cell::new(kind as u8, label as u8, [a, b, c]);
    Cells { version, ..Cells::to_last(rows.iter().map(cell).collect()) }.bytes()
}

pub fn stated() -> Vec<Stated> {
    let turned = |(name, pair, which, number, cell)| {
        let joined = Joined { which, answer: Answer::Refused { number, cell }, bytes: 0 };
        Stated { name, pair, joined, joint: Vec::new() }
    };
    stated_joints().into_iter().chain(stated_refusals().into_iter().map(turned)).collect()
}

/// Those that are accepted.
fn stated_joints() -> Vec<Stated> {
    let accepted = |name, project, part, size, joint: Vec<u8>| {
        let joined = Joined { which: Which::Joint, answer: Answer::Accepted { size }, bytes: joint.len() };
        Stated { name, pair: Pair::of(project, part), joined, joint }
    };
    let seven = || book(&field(1, 7), One);
    let one_field = [[17, 0, 0, 7, 0], [24, 1, 0, 0, 0], [17, 0, 0, 1, 0], [22, 0, 1, 2, 0]];
    let twice = [[17, 0, 0, 7, 0], [24, 1, 0, 0, 0], [17, 0, 0, 7, 0], [24, 1, 2, 0, 0], [22, 0, 1, 3, 0]];
    let (minus_five, wide) = (|| book(&Term::number(-5), One), || book(&field(2, 1 << 40), Two));
    let extended = [17, 0, 65_531, 65_535, 65_535];
    let to_wide = [extended, [17, 0, 0, 0, 256], [24, 2, 1, 0, 0], [22, 0, 0, 2, 0]];
    let from_wide = [[17, 0, 0, 0, 256], [24, 2, 0, 0, 0], extended, [22, 0, 1, 2, 0]];
    let mut full = vec![[18, 0, 0, 0, 0]; CELLS - 1];
    full.push([22, 0, 3_999, 4_093, 0]);
    let project = [[17, 0, 0, 1, 0], [16, 0, 5, 0, 0], [17, 0, 0, 65_535, 65_535], [24, 4, 0, 0, 0]];
    let part = [[17, 0, 9, 0, 0], [16, 0, 3, 0, 0], [24, 5, 0, 0, 0]];
    let first = [[17, 0, 1, 0, 0], [16, 0, 5, 0, 0], [17, 0, 65_535, 65_535, 65_535], [24, 4, 0, 0, 0]];
    let last = [[17, 0, 9, 0, 0], [16, 0, 3, 0, 0], [24, 5, 4, 0, 0], [22, 0, 3, 6, 0]];
    vec![
        accepted("a field and a number", seven(), book(&Term::number(1), One), 4, rows(One, &one_field)),
        accepted("equal fields", seven(), seven(), 5, rows(One, &twice)),
        accepted("a wide part", minus_five(), wide(), 4, rows(Two, &to_wide)),
        accepted("a wide project", wide(), minus_five(), 4, rows(Two, &from_wide)),
        accepted("4,095 cells", tops(4_000), tops(94), 3, rows(One, &full)),
        accepted("cells not reached", rows(One, &project), rows(Two, &part), 5, rows(Two, &[first, last].concat())),
    ]
}

type Refused = (&'static str, Pair, Which, u8, usize);

/// Those that are refused, with the book that is meant, the number and the cell.
fn stated_refusals() -> Vec<Refused> {
    let seven = || book(&field(1, 7), One);
    let small = || Pair::of(seven(), book(&Term::number(1), One));
    let behind = |bytes: &[u8]| Pair { told: PROJECT, ..Pair::of([0xAA; PROJECT].to_vec(), bytes.to_vec()) };
    let int = || Cells::to_last(vec![zeroed(kind::INT)]).bytes();
    use Which::{Joint, Part, Project};
    let mut list = vec![
        ("a short work buffer", Pair { work: 5, ..small() }, Joint, 1, 0),
        ("a short work buffer and lent bytes", Pair { work: 5, lent: 100, ..small() }, Joint, 1, 0),
        ("no book in the lent bytes", behind(&seven()), Project, 3, 0),
        ("a refused project", Pair::of(clash(), applied()), Project, 14, 2),
        ("a refused part", Pair::of(seven(), applied()), Part, 12, 2),
        ("a part that is a type", Pair::of(seven(), int()), Part, 9, 0),
        ("unequal fields", Pair::of(seven(), book(&field(1, 2), One)), Joint, 14, 4),
        ("4,096 cells", Pair::of(tops(4_000), tops(95)), Joint, 16, 0),
        ("a full project and a refused part", Pair::of(tops(CELLS), clash()), Part, 14, 2),
        ("a joint too large", Pair::of(doubled(zeroed(kind::TOP_VALUE), 11), tops(1)), Joint, 10, 13),
    ];
    let lent = [100, PROJECT + 8].map(|lent| ("another lent length", Pair { lent, ..small() }, Project, 2, 0));
    let told = [0, 17, PROJECT + 8].map(|told| ("another told length", Pair { told, ..small() }, Project, 2, 0));
    list.extend(lent.into_iter().chain(told));
    list
}

/// Pairs that are accepted, that clash, of which one book is refused, and a full one.
fn bases() -> Vec<Pair> {
    let [seven, two, one] = [field(1, 7), field(1, 2), Term::number(1)].map(|term| book(&term, One));
    let wide = book(&field(2, -(1 << 40)), Two);
    let pairs = [
        [seven.clone(), one.clone()],
        [seven.clone(), two],
        [wide, seven.clone()],
        [seven, applied()],
        [clash(), one.clone()],
        [clash(), applied()],
    ];
    let full = [tops(CELLS), tops(CELLS + 1)].map(|project| Pair::of(project, one.clone()));
    pairs.into_iter().map(|[project, part]| Pair::of(project, part)).chain(full).collect()
}

/// Every lent length with every told one, and either with work buffers of other lengths; and other bytes behind the project that look like more of
/// it.
fn lent_and_told() -> Vec<Pair> {
    let lents = [PROJECT, 100, PROJECT + 8, 0, 16, 24, PROJECT - 8, 2 * PROJECT];
    let works = [WORK, 5, 0, WORK - 1, WORK + 1, 2 * WORK];
    let of = |base: Pair| {
        let length = base.project.len();
        let tolds = [length, length - CELL, length + CELL, 0, 8, 16, 17, PROJECT, PROJECT + 1, PROJECT + 8, usize::MAX];
        let both = lents.iter().flat_map(|&lent| tolds.map(|told| (lent, told, WORK)));
        let lent = lents.iter().flat_map(|&lent| works.map(|work| (lent, length, work)));
        let told = works.iter().flat_map(|&work| tolds.map(|told| (PROJECT, told, work)));
        let pair = |(lent, told, work)| Pair { lent, told, work, ..base.clone() };
        both.chain(lent).chain(told).map(pair).collect()
    };
    let mut lists: Vec<Vec<Pair>> = bases().into_iter().map(of).collect();
    lists.push(behind());
    by_turns(&lists)
}

/// Behind the project another book, its trailer again, or the joint.
fn behind() -> Vec<Pair> {
    let with = |base: Pair| {
        let Pair { project, part, .. } = &base;
        let trailer = project[project.len() - CELL..].to_vec();
        let behind = [part.clone(), trailer, joint(project, part).unwrap_or_default()];
        let more = |behind: Vec<u8>| {
            let project = [&project[..], &behind].concat();
            [base.told, project.len()].map(|told| Pair { project: project.clone(), told, ..base.clone() })
        };
        behind.into_iter().flat_map(more).collect::<Vec<_>>()
    };
    bases().into_iter().take(6).flat_map(with).collect()
}

/// The book with number cells behind its own, of which it then has so many.
fn filled(book: &[u8], count: usize) -> Vec<u8> {
    let mut cells = Cells::of(book).expect("a book");
    let number = Cell::number(-7, cells.version);
    cells.cells.resize(count.max(cells.cells.len()), number);
    cells.bytes()
}

/// Joints of 4,094 to 4,097 cells, projects of 4,094 and 4,095, and joints that meet another refusal as well.
fn full_projects() -> Vec<Pair> {
    let [seven, two] = [field(1, 7), field(1, 2)].map(|term| book(&term, One));
    let wide = book(&field(2, -3), Two);
    let books = [tops(1), seven.clone(), wide, two, clash(), applied(), Cells::to_last(vec![zeroed(kind::INT)]).bytes()];
    let mut pairs = Vec::new();
    for (project, part) in books.iter().flat_map(|project| books.iter().map(move |part| (project, part))) {
        let small = part.len() / CELL - 1;
        for cells in [CELLS - 1, CELLS, CELLS + 1] {
            pairs.push(Pair::of(filled(project, cells - 1 - small), part.clone()));
        }
    }
    let sizes =
        [(2_047, 2_047), (2_047, 2_048), (1, 4_093), (1, 4_094), (1, CELLS), (4_094, 1), (CELLS, 1), (CELLS, CELLS), (4_000, 94)];
    let sized = sizes.into_iter().map(|(one, other)| Pair::of(filled(&seven, one), filled(&tops(1), other)));
    let top = zeroed(kind::TOP_VALUE);
    let large =
        [(11, 1), (10, 10), (11, 11), (10, 11), (1, 11)].map(|(one, other)| Pair::of(doubled(top, one), doubled(top, other)));
    let both = [CELLS, 4_081].map(|cells| Pair::of(filled(&doubled(top, 11), cells), doubled(top, 11)));
    by_turns(&[pairs, sized.chain(large).chain(both).collect()])
}

/// The parts of a value in two books: consistent, or not, where one part was not. At times both have all of them, or one has
/// another number or another change.
fn values(random: &mut Random) -> [Vec<u8>; 2] {
    let parts = shuffled(some_parts(random), random);
    let at = random.between(1, parts.len().max(2) - 1).min(parts.len() - 1);
    let whole = random.once_in(3) || at == 0;
    let [one, other] = if whole { [parts.clone(), parts] } else { [parts[..at].to_vec(), parts[at..].to_vec()] };
    [one, other].map(|parts| {
        let value = merged(parts, random);
        let version = *random.pick(&Version::ALL);
        let mut cells = encode_in(version, &value, Sharing::any(random), random);
        match random.lower(8) {
            0 => changed(&mut cells, random),
            1 | 2 => renumbered(&mut cells, random),
            _ => {}
        }
        cells.bytes()
    })
}

/// Another number in place of one of its own, if it has one.
fn renumbered(cells: &mut Cells, random: &mut Random) {
    let version = cells.version;
    let mut numbers: Vec<&mut Cell> = cells.cells.iter_mut().filter(|cell| cell.kind == kind::NUMBER).collect();
    if !numbers.is_empty() {
        let at = random.lower(numbers.len());
        *numbers[at] = another_number(*numbers[at], version, random);
    }
}

/// A typed book in either version, its root often in a field, with cells of any kind that the root does not reach, numbers of both signs among
/// them, before the root and behind it.
fn unreached(random: &mut Random) -> Vec<u8> {
    let mut cells = typed_any(random);
    if random.once_in(2) {
        cells = widened(&cells, random);
    }
    in_cell(&mut cells, random);
    for _ in 0..random.between(1, 6) {
        let count = cells.cells.len();
        let at = if random.once_in(3) { count } else { random.between(0, count) };
        let cell = match random.lower(3) {
            0 => Cell::number(cells.version.held(wide_number(random)), cells.version),
            _ => loose_cell(&cells, at, random),
        };
        cells.insert(at, cell);
    }
    cells.bytes()
}

/// The root in a field, three times in four.
fn in_cell(cells: &mut Cells, random: &mut Random) {
    if random.once_in(4) || cells.cells.len() >= CELLS {
        return;
    }
    cells.cells.push(Cell::new(kind::RECORD, random.lower(8) as u8, [cells.root, 0, 0]));
    cells.root = cells.cells.len() as u16 - 1;
}

/// The book, its root in a field if it has one.
fn in_field(book: Vec<u8>, random: &mut Random) -> Vec<u8> {
    let Some(mut cells) = Cells::of(&book) else { return book };
    in_cell(&mut cells, random);
    cells.bytes()
}

/// Bytes with something broken; none of what has no cell.
fn damaged(bytes: &[u8], random: &mut Random) -> Vec<u8> {
    match random.lower(5) {
        _ if bytes.len() < 2 * CELL => bytes.to_vec(),
        0 => exchanged(bytes, random),
        1 => cut(bytes, random),
        2 => bytes[..random.lower(bytes.len())].to_vec(),
        _ => flipped(bytes, random),
    }
}

/// Two books of which one is broken, or both; or lent, told or worked on at any length.
fn broken(pool: &Pool, random: &mut Random) -> Pair {
    let [mut project, mut part] = [pool.any(random), pool.any(random)].map(|book| in_field(book, random));
    let which = random.lower(4);
    if which % 2 == 1 {
        project = damaged(&project, random);
    }
    if which > 1 {
        part = damaged(&part, random);
    }
    let mut pair = Pair::of(project, part);
    match if which == 0 { random.lower(4) } else { 3 } {
        0 => pair.told = random.lower(pair.told + 64),
        1 => pair.lent = random.lower(2 * PROJECT),
        2 => pair.work = random.lower(2 * WORK),
        _ => {}
    }
    pair
}
