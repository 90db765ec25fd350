//! Which parts of a book are shown by name, and where the name is given.

use crate::book::Book;
use crate::kinds::Sort;
use std::collections::HashMap;

/// Where a part is named.
#[derive(Clone, Copy, PartialEq, Eq, Debug)]
enum Place {
    /// Written out where it is used.
    Nowhere,
    /// In front of the whole. Variables that it leaves free are shown by the binders that they skip.
    Front,
    /// At this cell, where all that it leaves free has its name.
    At(usize),
}

/// Where each cell is named.
pub struct Names {
    places: Vec<Place>,
    /// What is named in front of the whole, and at a cell; the lower cells first.
    front: Vec<usize>,
    within: HashMap<usize, Vec<usize>>,
}

impl Names {
    fn new(places: Vec<Place>) -> Names {
        let mut names = Names { places, front: Vec::new(), within: HashMap::new() };
        for (at, place) in names.places.iter().enumerate() {
            match place {
                Place::Nowhere => {}
                Place::Front => names.front.push(at),
                Place::At(cell) => names.within.entry(*cell).or_default().push(at),
            }
        }
        names
    }

    /// No part has a name.
    pub fn none(book: &Book) -> Names {
        Names::new(vec![Place::Nowhere; book.parts.len()])
    }

    /// Every part of more than one cell that stands in more than one place has a name.
    pub fn of_shared(book: &Book) -> Names {
        let uses = uses(book, &book.reached());
        let free = book.free();
        let around = Around::of(book);
        let place = |at: usize| match around.nearest[at] {
            _ if uses[at] < 2 || book.parts[at].children().is_empty() => Place::Nowhere,
            Some(cell) if free[at] > 0 && around.same_binders[at] => Place::At(cell),
            _ => Place::Front,
        };
        Names::new((0..book.parts.len()).map(place).collect())
    }

    /// Names, all in front of the whole, that lay every cell down where it stands. The cells from one name's to the next are the tree of that
    /// name, in the order of the encoding: a cell waits for the one that refers to it, and is laid down within it if those that wait last are
    /// its children, in their order.
    pub fn of_cells(book: &Book) -> Names {
        let uses = uses(book, &vec![true; book.parts.len()]);
        let mut places = vec![Place::Front; book.parts.len()];
        let mut waiting: Vec<usize> = Vec::new();
        for (at, part) in book.parts.iter().enumerate() {
            let children = part.children();
            let mut before = children.len();
            let mut is_next = |cell: &usize| {
                let place = children[..before].iter().rposition(|child| child == cell);
                before = place.unwrap_or(0);
                place.is_some()
            };
            let kept = waiting.iter().rev().take_while(|cell| is_next(cell)).count();
            waiting.drain(waiting.len() - kept..).for_each(|cell| places[cell] = Place::Nowhere);
            let lowest = children.iter().copied().min().unwrap_or(at);
            let named = waiting.iter().rev().take_while(|&&cell| cell >= lowest).position(|cell| children.contains(cell));
            waiting.drain(..named.map_or(0, |place| waiting.len() - place));
            waiting.push(at);
            if uses[at] != 1 || at == book.root {
                waiting.clear();
            }
        }
        if book.root + 1 == book.parts.len() {
            places[book.root] = Place::Nowhere;
        }
        Names::new(places)
    }

    /// What is named in front of the whole.
    pub fn front(&self) -> &[usize] {
        &self.front
    }

    /// What is named at a cell.
    pub fn within(&self, at: usize) -> &[usize] {
        self.within.get(&at).map_or(&[], |cells| cells)
    }

    pub fn is_named(&self, at: usize) -> bool {
        self.places[at] != Place::Nowhere
    }
}

/// The name that a part gets.
pub fn name(book: &Book, at: usize) -> String {
    match book.parts[at].sort() {
        Sort::Type => format!("type{at}"),
        Sort::Term => format!("part{at}"),
    }
}

/// How often each cell is referred to by the cells that count.
fn uses(book: &Book, counts: &[bool]) -> Vec<usize> {
    let mut uses = vec![0; book.parts.len()];
    for (part, _) in book.parts.iter().zip(counts).filter(|(_, counts)| **counts) {
        part.children().iter().for_each(|&child| uses[child] += 1);
    }
    uses
}

/// Of each cell that the root reaches and that has parts, the nearest cell that every way from the root to it passes, and whether no binder lies between.
struct Around {
    nearest: Vec<Option<usize>>,
    same_binders: Vec<bool>,
}

impl Around {
    fn of(book: &Book) -> Around {
        let mut around = Around { nearest: vec![None; book.parts.len()], same_binders: vec![true; book.parts.len()] };
        let reached = book.reached();
        for at in (0..=book.root).rev().filter(|&at| reached[at]) {
            let part = &book.parts[at];
            let larger = part.children().iter().enumerate().filter(|(_, &child)| !book.parts[child].children().is_empty());
            for (place, &child) in larger {
                around.enter(at, child, part.kind.binders_over(place) > 0);
            }
        }
        around
    }

    /// One more way to a child, through a parent of it. A parent has all its own ways entered already, for it is higher.
    fn enter(&mut self, parent: usize, child: usize, binder: bool) {
        let Some(earlier) = self.nearest[child] else {
            self.nearest[child] = Some(parent);
            self.same_binders[child] = !binder;
            return;
        };
        let (mut one, mut other) = (earlier, parent);
        let mut same = self.same_binders[child] && !binder;
        while one != other {
            let lower = if one < other { &mut one } else { &mut other };
            same &= self.same_binders[*lower];
            let Some(above) = self.nearest[*lower] else { break };
            *lower = above;
        }
        self.nearest[child] = Some(one.max(other));
        self.same_binders[child] = same;
    }
}
