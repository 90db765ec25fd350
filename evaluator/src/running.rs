//! Casts and steps, with both halves of every merge open.

use crate::faults::{current, planted, Fault};
use crate::fields::{parts_within, read_value, value_parts, LEVELS};
use crate::numbers::{choices, read_apart, sums};
use crate::terms::{Term, TermShape, Type, TypeShape};
use crate::typing::{subtype, top_like};
use crate::versions::Version;

/// All these terms, each once.
fn each_once(terms: Vec<Term>) -> Vec<Term> {
    let mut kept: Vec<Term> = Vec::with_capacity(1);
    for term in terms {
        if !kept.contains(&term) {
            kept.push(term);
        }
    }
    kept
}

/// All results of "reading a value under a type". One at most if the value is typed; an untyped one may have several, and under
/// nested intersections very many.
pub fn casts(v: &Term, under: &Type) -> Vec<Term> {
    // "Under an intersection, merge both readings."
    if let TypeShape::Intersection(a, b) = under.shape() {
        let [a, b] = if planted(Fault::MergedInValueOrder) && stands_first(v, b, a) { [b, a] } else { [a, b] };
        let rights = casts(v, b);
        let merge = |left: Term| rights.iter().map(move |right| Term::merge(left.clone(), right.clone()));
        return casts(v, a).into_iter().flat_map(merge).collect();
    }
    // "Under any other top-like type: the top value."
    let kept = matches!((v.shape(), under.shape()), (TermShape::Function(..), TypeShape::Function(..)));
    if top_like(under) && !(kept && planted(Fault::TopLikeFunctionKept)) {
        return vec![Term::top()];
    }
    match (v.shape(), under.shape()) {
        // "Otherwise a number under Int is itself"
        (TermShape::Number(_), TypeShape::Int) => vec![v.clone()],
        // "a function under a function type above its own keeps body and input and takes the new output type"
        (TermShape::Function(body, input, output), TypeShape::Function(new_input, new_output)) => {
            if subtype(&Type::function(input.clone(), output.clone()), under) {
                let output = if planted(Fault::OutputKept) { output } else { new_output };
                let input = if planted(Fault::InputTaken) { new_input } else { input };
                vec![Term::function(body.clone(), input.clone(), output.clone())]
            } else {
                vec![]
            }
        }
        // "a record of that label has its content read and stays a record"
        (TermShape::Record(l, content), TypeShape::Record(m, wanted)) if l == m => {
            casts(content, wanted).into_iter().map(|c| Term::record(*l, c)).collect()
        }
        // "a merge is read from either half that can be"
        (TermShape::Merge(a, b), _) => each_once(merge_casts(v, [a, b], under)),
        _ => vec![],
    }
}

/// The readings of a merge under a type that is no intersection: from either half, unless a fault is planted.
fn merge_casts(merge: &Term, [a, b]: [&Term; 2], under: &Type) -> Vec<Term> {
    let either = || {
        let mut all = casts(a, under);
        all.extend(casts(b, under));
        all
    };
    match current() {
        Some(Fault::ReadFromLeftHalf) => casts(a, under),
        Some(Fault::ReadFromRightHalf) => casts(b, under),
        Some(Fault::OneTypeEnough) => either().into_iter().take(1).collect(),
        Some(Fault::FirstPartRead) => {
            value_parts(merge).into_iter().find(|part| alike(part, under)).map_or(vec![], |v| casts(v, under))
        }
        Some(Fault::MergesToEightLevels) => parts_within(merge, LEVELS).into_iter().flat_map(|v| casts(v, under)).collect(),
        _ => either(),
    }
}

/// The merge's left half can be read under this type and not under the other, which its right half can be.
fn stands_first(merge: &Term, one: &Type, other: &Type) -> bool {
    let read = |v: &Term, under: &Type| !casts(v, under).is_empty();
    matches!(merge.shape(), TermShape::Merge(a, b) if read(a, one) && !read(a, other) && read(b, other))
}

/// A number and Int, a function and a function type, a record and a record type of one label.
fn alike(part: &Term, under: &Type) -> bool {
    match (part.shape(), under.shape()) {
        (TermShape::Number(_), TypeShape::Int) | (TermShape::Function(..), TypeShape::Function(..)) => true,
        (TermShape::Record(l, _), TypeShape::Record(m, _)) => l == m,
        _ => false,
    }
}

/// "Its body with the argument's reading put in", and the same for a fixpoint: `what` in place of the variable that skips `depth`
/// binders. Variables beyond it lose the binder that goes. What is substituted has no variable of its own to adjust: steps are
/// never taken under a binder.
pub fn substitute(e: &Term, depth: u32, what: &Term) -> Term {
    if e.open() <= depth {
        return e.clone();
    }
    match e.shape() {
        TermShape::Variable(skipped) if u32::from(*skipped) == depth => what.clone(),
        TermShape::Variable(skipped) => Term::variable(skipped - 1),
        TermShape::Choice(a, b, c) if planted(Fault::SubstitutedInTwoParts) => {
            Term::choice(substitute(a, depth, what), substitute(b, depth, what), c.clone())
        }
        _ => e.map(|part, binders| substitute(part, depth + binders, what)),
    }
}

/// A term with a hole in place of one of its parts, the one that steps next.
#[derive(Clone)]
struct Frame {
    /// With the part as it was.
    around: Term,
    field: usize,
}

impl Frame {
    fn plug(&self, part: &Term) -> Term {
        self.around.with_part(self.field, part)
    }

    /// The size of the terms that it has left of the part, and right of it.
    fn left(&self) -> u64 {
        self.sizes(|field| field < self.field)
    }

    fn right(&self) -> u64 {
        self.sizes(|field| field > self.field)
    }

    fn sizes(&self, of: impl Fn(usize) -> bool) -> u64 {
        self.around.node().terms().filter(|(field, ..)| of(*field)).map(|(.., part)| part.size()).sum()
    }
}

/// "Steps go leftmost first, never under a binder: the left of an application or merge until it is a value, then the right; the
/// inside of an annotation, record or field read." "Sides of a sum run left first; of a choice only a runs, while b and c wait." The
/// field of the part whose step is the term's, and the part; None if the term steps itself.
fn decompose(e: &Term) -> Option<(usize, &Term)> {
    match e.shape() {
        TermShape::Application(a, _) if planted(Fault::TopAppliedEarly) && matches!(a.shape(), TermShape::Top) => return None,
        TermShape::Annotation(_, t) if planted(Fault::TopLikeUncast) && matches!(t.shape(), TypeShape::Top) => return None,
        _ => {}
    }
    let node = e.node();
    let running = match e.shape() {
        TermShape::Choice(..) if planted(Fault::BranchesRun) => 3,
        _ => node.row.running,
    };
    let runs = |&(field, _, part): &(usize, u32, &Term)| field < running && !part.is_value();
    let mut parts = node.terms().filter(runs).map(|(field, _, part)| (field, part));
    match e.shape() {
        _ if planted(Fault::RightPartFirst) => parts.next_back(),
        TermShape::Sum(..) if planted(Fault::RightOfSumFirst) => parts.next_back(),
        _ => parts.next(),
    }
}

/// What a term of a book of this version becomes whose active parts are values already. Each result once.
fn contract(e: &Term, version: Version) -> Vec<Term> {
    if let Some(read) = read_apart(e) {
        return vec![read];
    }
    match e.shape() {
        // "Then: an annotated value becomes its reading."
        TermShape::Annotation(v, t) => casts(v, t),
        TermShape::Application(f, v) => match f.shape() {
            // "A function on a value becomes its body with the argument's reading put in, annotated with the output."
            TermShape::Function(body, input, output) => {
                let arguments = if planted(Fault::ArgumentUncast) { vec![v.clone()] } else { casts(v, input) };
                each_once(arguments.iter().map(|v| Term::annotation(substitute(body, 0, v), output.clone())).collect())
            }
            // "The top value applied to a value, or with a field read, becomes the top value."
            TermShape::Top => vec![Term::top()],
            _ => vec![],
        },
        TermShape::Projection(label, v) => each_once(read_value(v, *label)),
        // "A fixpoint becomes its body with itself put in, annotated with its type."
        TermShape::Fixpoint(body, _) if planted(Fault::FixpointBare) => vec![substitute(body, 0, e)],
        TermShape::Fixpoint(body, t) => vec![Term::annotation(substitute(body, 0, e), t.clone())],
        TermShape::Sum(a, b) => each_once(sums(a, b, version)),
        TermShape::Choice(a, b, c) => each_once(choices(a, b, c, version)),
        TermShape::Variable(_) | TermShape::Number(_) | TermShape::Top | TermShape::Function(..) => vec![],
        TermShape::Merge(..) | TermShape::Record(..) => vec![],
    }
}

/// "A term's successors are all the terms that one such step can give, a merge read from either half that can be." Each once; sums are
/// held to the range of this version.
pub fn successors(e: &Term, version: Version) -> Vec<Term> {
    match decompose(e) {
        Some((field, part)) => successors(part, version).iter().map(|part| e.with_part(field, part)).collect(),
        None => contract(e, version),
    }
}

/// The size of an argument's cast that the body does not use.
fn unused(e: &Term) -> u64 {
    let TermShape::Application(f, v) = e.shape() else { return 0 };
    match f.shape() {
        TermShape::Function(body, input, _) if body.is_closed() => casts(v, input).iter().map(Term::size).sum(),
        _ => 0,
    }
}

/// The size of the left half of an annotated merge.
fn left_half(e: &Term) -> u64 {
    let TermShape::Annotation(v, _) = e.shape() else { return 0 };
    match v.shape() {
        TermShape::Merge(left, _) => left.size(),
        _ => 0,
    }
}

/// A run: the part that steps, in focus, and the frames around it, outermost first. A step then costs nothing for what is around
/// it; the term is the same as after `successors`.
#[derive(Clone)]
pub struct Machine {
    frames: Vec<Frame>,
    focus: Term,
    /// The size of the whole.
    size: u64,
    /// The book's.
    version: Version,
}

impl Machine {
    pub fn from(root: Term, version: Version) -> Machine {
        let mut machine = Machine { frames: Vec::new(), size: root.size(), focus: root, version };
        machine.refocus();
        machine
    }

    /// Goes to the part that steps next, or to the whole if it is a value.
    fn refocus(&mut self) {
        loop {
            if self.focus.is_value() {
                let Some(frame) = self.frames.pop() else { return };
                self.focus = frame.plug(&self.focus);
            } else if let Some((field, part)) = decompose(&self.focus) {
                let part = part.clone();
                self.frames.push(Frame { around: std::mem::replace(&mut self.focus, part), field });
            } else {
                return;
            }
        }
    }

    /// The term is a value.
    pub fn is_value(&self) -> bool {
        self.focus.is_value()
    }

    /// The size of the whole term.
    pub fn size(&self) -> u64 {
        self.size
    }

    pub fn version(&self) -> Version {
        self.version
    }

    /// The part that steps next, or the whole if it is a value.
    pub fn focus(&self) -> &Term {
        &self.focus
    }

    /// The size of the terms that stand left of that part, and right of it.
    pub fn beside(&self) -> [u64; 2] {
        [Frame::left, Frame::right].map(|side| self.frames.iter().map(side).sum())
    }

    /// What the part in focus can become, and the size that the whole would have with each.
    pub fn next(&self) -> Vec<(Term, u64)> {
        let around = self.size - self.focus.size();
        contract(&self.focus, self.version).into_iter().map(|part| (part.clone(), around + part.size())).collect()
    }

    /// The size that is held against the limit with one of those: that of the whole, unless a fault is planted.
    pub fn size_with(&self, (part, size): &(Term, u64)) -> u64 {
        let sizes = |side: fn(&Frame) -> u64| self.frames.iter().rev().map(side).filter(|&size| size > 0);
        match current() {
            None => *size,
            Some(Fault::RoomOfPart) => part.size(),
            Some(Fault::RoomWithoutLeft) => size - sizes(Frame::left).sum::<u64>(),
            Some(Fault::RoomWithNearestLeft) => size - sizes(Frame::left).skip(1).sum::<u64>(),
            Some(Fault::RoomWithoutRight) => size - sizes(Frame::right).sum::<u64>(),
            Some(Fault::RoomOneLateBetween) => size - sizes(Frame::left).zip(sizes(Frame::right)).count().min(1) as u64,
            Some(Fault::RoomWithoutBranches) => size - self.branches(),
            Some(Fault::RoomForUnused) => size + unused(&self.focus),
            Some(Fault::RoomWithLeftHalf) => size + left_half(&self.focus),
            Some(_) => *size,
        }
    }

    /// The size of the branches of choices that wait around the part in focus.
    fn branches(&self) -> u64 {
        let choices = self.frames.iter().filter(|frame| matches!(frame.around.shape(), TermShape::Choice(..)));
        choices.map(Frame::right).sum()
    }

    /// A merge is read next, and its left half cannot be.
    pub fn reads_right_half(&self) -> bool {
        let TermShape::Annotation(v, under) = self.focus.shape() else { return false };
        matches!(v.shape(), TermShape::Merge(left, _) if casts(left, under).is_empty())
    }

    /// How many frames there are.
    pub fn depth(&self) -> usize {
        self.frames.len()
    }

    /// Takes the step to one of those.
    pub fn step(&mut self, (part, size): (Term, u64)) {
        self.focus = part;
        self.size = size;
        match current() {
            Some(Fault::LostToVersion1) => self.version = Version::One,
            Some(Fault::LostToVersion2) => self.version = Version::Two,
            _ => {}
        }
        self.refocus();
    }

    /// The term reached.
    pub fn term(self) -> Term {
        self.frames.iter().rev().fold(self.focus, |part, frame| frame.plug(&part))
    }
}
