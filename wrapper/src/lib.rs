//! Checks, runs and joins folder books, says before a join what it would say, and of a settings sheet how many steps it takes.
//!
//! A book is a small typed program in bytes; docs/FORMAT.md gives its format and what every answer means. There are two versions: the
//! numbers of a version 1 book have 32 bits, those of a version 2 book 48. The calls are lent the books to read and a work buffer of
//! [`WORK`] bytes to write; a join also writes the project's lent bytes, which its preview only reads. They write nothing else but their
//! thread's stack, of which [`STACK`] bytes suffice. Their answer, and every byte that they leave, depend on the bytes lent and the
//! numbers given alone. They never panic.
//!
//! # Example
//!
//! The number 1 merged with itself: cell 0 is the number, cell 1 the merge, then comes the trailer.
//!
#![cfg_attr(not(library_missing), doc = "```")]
#![cfg_attr(library_missing, doc = "```ignore")]
//! use cerealbank::{check, run, Answer, RunAnswer, WORK};
//!
//! let book = [
//!     17, 0, 0, 0, 1, 0, 0, 0, // number 1
//!     22, 0, 0, 0, 0, 0, 0, 0, // merge of cells 0 and 0
//!     0xF0, 1, 2, 0, 1, 0, 0, 0, // version 1, 2 cells, root 1
//! ];
//! let mut work = [0; WORK];
//!
//! // Its type is the intersection of Int and Int, encoded in the work buffer: three cells and a trailer.
//! assert_eq!(check(&book, &mut work), Answer::Accepted { size: 3 });
//! assert_eq!(work[..8], [1, 0, 0, 0, 0, 0, 0, 0]);
//!
//! // It is a value already. The term is encoded with nothing shared: three cells, and no term of the run was larger.
//! assert_eq!(run(&book, &mut work, 100), RunAnswer::Value { steps: 0, mark: 3 });
//! assert_eq!(work[8..16], [17, 0, 0, 0, 1, 0, 0, 0]);
//!
//! // A book cut short is refused, and the work buffer is zero.
//! assert_eq!(check(&book[..16], &mut work), Answer::Refused { number: 3, cell: 0 });
//! assert!(work.iter().all(|&byte| byte == 0));
//! ```
//!
//! # A join, and its preview
//!
//! A part is joined to a project, whose book stands at the start of [`PROJECT`] bytes. A preview is lent the same, and says what the join
//! would say:
//!
#![cfg_attr(not(library_missing), doc = "```")]
#![cfg_attr(library_missing, doc = "```ignore")]
//! use cerealbank::{join, preview, Answer, Joined, Which, PROJECT, WORK};
//!
//! let office = [17, 0, 0, 0, 7, 0, 0, 0, 24, 1, 0, 0, 0, 0, 0, 0, 0xF0, 1, 2, 0, 1, 0, 0, 0]; // a record, label 1, of 7
//! let site = [17, 0, 0, 0, 1, 0, 0, 0, 0xF0, 1, 1, 0, 0, 0, 0, 0]; // the number 1
//! let (mut project, mut work) = ([0; PROJECT], [0; WORK]);
//! project[..office.len()].copy_from_slice(&office);
//!
//! // The joint would be accepted, with a type of size 4, and have 40 bytes. The type is in the work buffer, the project as it was.
//! let previewed = preview(&project, office.len(), &site, &mut work);
//! assert_eq!(previewed, Joined { which: Which::Joint, answer: Answer::Accepted { size: 4 }, bytes: 40 });
//! assert_eq!(work[..8], [1, 0, 0, 0, 0, 0, 0, 0]);
//! assert!(project.starts_with(&office));
//!
//! // The join says the same, and writes the joint.
//! let joined = join(&mut project, office.len(), &site, &mut work);
//! assert_eq!(joined, previewed);
//! let joint = &project[..joined.bytes];
//! assert_eq!(joint[24..], [22, 0, 1, 0, 2, 0, 0, 0, 0xF0, 1, 4, 0, 3, 0, 0, 0]); // merge of cells 1 and 2, 4 cells, root 3
//!
//! // The number 2 beside the number 1: the joint is refused, and the project stays as it is.
//! let (before, other) = (project, [17, 0, 0, 0, 2, 0, 0, 0, 0xF0, 1, 1, 0, 0, 0, 0, 0]);
//! let refused = join(&mut project, joined.bytes, &other, &mut work);
//! assert_eq!(refused, Joined { which: Which::Joint, answer: Answer::Refused { number: 14, cell: 5 }, bytes: 0 });
//! assert_eq!(project, before);
//! ```
//!
//! # A settings sheet
//!
//! A sheet is a book with no variable, function, fixpoint or choice in it. How many steps it takes is said without running it:
//!
#![cfg_attr(not(library_missing), doc = "```")]
#![cfg_attr(library_missing, doc = "```ignore")]
//! use cerealbank::{run, sheet, RunAnswer, SheetAnswer, WORK};
//!
//! let book = [
//!     17, 0, 0, 0, 7, 0, 0, 0, // number 7
//!     24, 1, 0, 0, 0, 0, 0, 0, // a record, label 1, of cell 0
//!     25, 1, 1, 0, 0, 0, 0, 0, // field 1 of cell 1
//!     26, 0, 2, 0, 2, 0, 0, 0, // the sum of cell 2 with itself
//!     0xF0, 1, 4, 0, 3, 0, 0, 0, // version 1, 4 cells, root 3
//! ];
//! let mut work = [0; WORK];
//!
//! // Its type is Int. Field 1 is read on either side of the sum, and then the sum is made: three steps.
//! assert_eq!(sheet(&book, &mut work), SheetAnswer::Accepted { size: 1, steps: 3 });
//! assert_eq!(work[..8], [1, 0, 0, 0, 0, 0, 0, 0]);
//! assert!(matches!(run(&book, &mut work, 3), RunAnswer::Value { steps: 3, .. }));
//! assert!(matches!(run(&book, &mut work, 2), RunAnswer::Spent { steps: 2, .. }));
//!
//! // With a variable in place of the number, it is none.
//! let mut other = book;
//! other[..8].copy_from_slice(&[16, 0, 0, 0, 0, 0, 0, 0]);
//! assert_eq!(sheet(&other, &mut work), SheetAnswer::Refused { number: 17, cell: 3 });
//! ```

#![no_std]
#![deny(missing_docs)]

/// The length that a work buffer must have; any other is refusal 1.
pub const WORK: usize = 65_536;

/// The length that a project's lent bytes must have, that of a book of 4,095 cells; any other is refusal 2 of the project.
pub const PROJECT: usize = 32_768;

/// The bytes of stack that suffice for a call, whatever the book: at least a quarter more than the deepest books of every shape were
/// measured to take.
pub const STACK: usize = 1_150_976;

// The tags of an answer, as crates/answers/specs/Exported.antt defines them: a refusal has its own number.
const LAST_REFUSAL: u8 = 31;
const ACCEPTED: u8 = 32;
const TO_VALUE: u8 = 33;
const SPENT: u8 = 34;
const NO_ROOM: u8 = 35;

// The lowest bit of the tag and of the second figure. The same file has them as powers of 2, `tag_place` and `second_place`.
const TAG_PLACE: u32 = 32;
const SECOND_PLACE: u32 = 40;

// The second figure of a run that is not refused is its mark: no term of a run is larger.
const LARGEST: u32 = 4_095;

// That of an accepted sheet is its count of steps: cells of its term, and never all of them.
const MOST_STEPS: u32 = LARGEST - 1;

// Of a join and of a preview, the second figure is the book that is meant, and above it the byte count.
const WHICH_PLACE: u32 = 40;
const BYTES_PLACE: u32 = 48;
const OF_PROJECT: u8 = 1;
const OF_PART: u8 = 2;
const OF_JOINT: u8 = 3;

/// What a check says of a book, and a join or its preview of the book that it means.
#[derive(Clone, Copy, PartialEq, Eq, Debug)]
pub enum Answer {
    /// The book is refused, with the number and cell that docs/FORMAT.md explains.
    Refused {
        /// 1 to 31, of which 1 to 16 are in use, 16 by a join or its preview.
        number: u8,
        /// The cell that is meant; 0 for the numbers 1 to 4 and 16.
        cell: u32,
    },
    /// A check accepted the book, or a join or its preview the joint, and encoded its type.
    Accepted {
        /// The type's count of cells.
        size: u32,
    },
    /// No answer of this list. An engine that keeps its contract never gives one.
    Unknown {
        /// What the engine returned.
        packed: u64,
    },
}

/// What a run says of a book: refused as a check refuses it, or why it stopped. The mark of a run is the greatest size of any term so far,
/// the first and the one reached included: at most 4,095 cells. A term for which there was no room does not count.
#[derive(Clone, Copy, PartialEq, Eq, Debug)]
pub enum RunAnswer {
    /// The book is refused, with the number and cell that docs/FORMAT.md explains.
    Refused {
        /// 1 to 31, of which 1 to 15 are in use.
        number: u8,
        /// The cell that is meant; 0 for the numbers 1 to 4.
        cell: u32,
    },
    /// The run came to a value and encoded it.
    Value {
        /// The steps taken.
        steps: u32,
        /// The greatest size of any term so far.
        mark: u32,
    },
    /// The run took as many steps as its limit allows and encoded the term reached.
    Spent {
        /// The steps taken.
        steps: u32,
        /// The greatest size of any term so far.
        mark: u32,
    },
    /// The run stopped where the next term has more than 4,095 cells, and encoded the term reached.
    Room {
        /// The steps taken.
        steps: u32,
        /// The greatest size of any term so far, the next not counted.
        mark: u32,
    },
    /// No answer of this list. An engine that keeps its contract never gives one.
    Unknown {
        /// What the engine returned.
        packed: u64,
    },
}

/// What the sheet call says of a book.
#[derive(Clone, Copy, PartialEq, Eq, Debug)]
pub enum SheetAnswer {
    /// The book is refused, with the number and cell that docs/FORMAT.md explains: as a check refuses it, or because it is no sheet.
    Refused {
        /// 1 to 31, of which 1 to 15 and 17 are in use, 17 for a book that is no sheet.
        number: u8,
        /// The cell that is meant; 0 for the numbers 1 to 4, the root for 17.
        cell: u32,
    },
    /// The book is a sheet and has a type, which is encoded.
    Accepted {
        /// The type's count of cells.
        size: u32,
        /// After so many steps, no more and no fewer, a run comes to the sheet's value: at most 4,094.
        steps: u32,
    },
    /// No answer of this list. An engine that keeps its contract never gives one.
    Unknown {
        /// What the engine returned.
        packed: u64,
    },
}

/// The engine returns a value in bits 0 to 31, a tag in bits 32 to 39 and a second figure in the bits above.
fn parts(packed: u64) -> (u8, u32, u32) {
    ((packed >> TAG_PLACE) as u8, packed as u32, (packed >> SECOND_PLACE) as u32)
}

impl Answer {
    /// No second figure stands beside a refusal or an acceptance.
    fn unpacked(packed: u64) -> Answer {
        match parts(packed) {
            (number @ 1..=LAST_REFUSAL, cell, 0) => Answer::Refused { number, cell },
            (ACCEPTED, size, 0) => Answer::Accepted { size },
            _ => Answer::Unknown { packed },
        }
    }
}

impl RunAnswer {
    /// The mark of a run stands beside its steps; a refusal has none.
    fn unpacked(packed: u64) -> RunAnswer {
        match parts(packed) {
            (number @ 1..=LAST_REFUSAL, cell, 0) => RunAnswer::Refused { number, cell },
            (TO_VALUE, steps, mark @ 1..=LARGEST) => RunAnswer::Value { steps, mark },
            (SPENT, steps, mark @ 1..=LARGEST) => RunAnswer::Spent { steps, mark },
            (NO_ROOM, steps, mark @ 1..=LARGEST) => RunAnswer::Room { steps, mark },
            _ => RunAnswer::Unknown { packed },
        }
    }
}

impl SheetAnswer {
    /// The count of steps stands beside the size of the type; a refusal has none.
    fn unpacked(packed: u64) -> SheetAnswer {
        match parts(packed) {
            (number @ 1..=LAST_REFUSAL, cell, 0) => SheetAnswer::Refused { number, cell },
            (ACCEPTED, size, steps @ 0..=MOST_STEPS) => SheetAnswer::Accepted { size, steps },
            _ => SheetAnswer::Unknown { packed },
        }
    }
}

/// Which book the answer of a join or of its preview means.
#[derive(Clone, Copy, PartialEq, Eq, Debug)]
pub enum Which {
    /// The book that the part is joined to.
    Project,
    /// The book that is joined to it.
    Part,
    /// The book that the two become.
    Joint,
}

/// What a join says, and what its preview says.
#[derive(Clone, Copy, PartialEq, Eq, Debug)]
pub struct Joined {
    /// The book that the answer means: the joint, if it is accepted.
    pub which: Which,
    /// [`Answer::Refused`], or [`Answer::Accepted`] with the size of the joint's type; what is neither is [`Answer::Unknown`].
    pub answer: Answer,
    /// How many of the project's lent bytes hold the joint, and of a preview how many would; 0 when refused.
    pub bytes: usize,
}

impl Joined {
    /// A join and a preview return what a check returns in bits 0 to 39, the book that is meant in bits 40 to 47 and the byte count in bits
    /// 48 to 63.
    fn unpacked(packed: u64) -> Joined {
        let which = match (packed >> WHICH_PLACE) as u8 {
            OF_PROJECT => Some(Which::Project),
            OF_PART => Some(Which::Part),
            OF_JOINT => Some(Which::Joint),
            _ => None,
        };
        let bytes = (packed >> BYTES_PLACE) as usize;
        let answer = Answer::unpacked(packed & ((1 << SECOND_PLACE) - 1));
        match (which, answer) {
            (Some(which), Answer::Refused { .. }) if bytes == 0 => Joined { which, answer, bytes },
            (Some(which @ Which::Joint), Answer::Accepted { .. }) if (1..=PROJECT).contains(&bytes) => {
                Joined { which, answer, bytes }
            }
            _ => Joined { which: Which::Joint, answer: Answer::Unknown { packed }, bytes: 0 },
        }
    }
}

extern "C" {
    fn cerealbank_check(book: *const u8, book_len: usize, work: *mut u8, work_len: usize) -> u64;
    fn cerealbank_run(book: *const u8, book_len: usize, work: *mut u8, work_len: usize, limit: u32) -> u64;
    fn cerealbank_join(
        project: *mut u8,
        project_len: usize,
        length: usize,
        part: *const u8,
        part_len: usize,
        work: *mut u8,
        work_len: usize,
    ) -> u64;
    fn cerealbank_preview(
        project: *const u8,
        project_len: usize,
        length: usize,
        part: *const u8,
        part_len: usize,
        work: *mut u8,
        work_len: usize,
    ) -> u64;
    fn cerealbank_sheet(book: *const u8, book_len: usize, work: *mut u8, work_len: usize) -> u64;
}

/// Checks a book: [`Answer::Accepted`] with its type encoded as a book of its own, of the same version, at the start of the work
/// buffer and zeros past it, or [`Answer::Refused`] with a zeroed work buffer. Refusal 1, of a work buffer that is not [`WORK`] bytes
/// long, touches nothing.
pub fn check(book: &[u8], work: &mut [u8]) -> Answer {
    // SAFETY: both slices are valid for their lengths, the second is lent to be written, and the two do not overlap.
    Answer::unpacked(unsafe { cerealbank_check(book.as_ptr(), book.len(), work.as_mut_ptr(), work.len()) })
}

/// Runs a book for at most `limit` steps: [`RunAnswer::Value`], [`RunAnswer::Spent`] or [`RunAnswer::Room`], each with the steps taken
/// and the greatest size of any term so far, and with the term reached encoded as a book of its own, of the same version, at the start of
/// the work buffer and zeros past it; or refused as a check refuses it.
pub fn run(book: &[u8], work: &mut [u8], limit: u32) -> RunAnswer {
    // SAFETY: as in `check`.
    RunAnswer::unpacked(unsafe { cerealbank_run(book.as_ptr(), book.len(), work.as_mut_ptr(), work.len(), limit) })
}

/// Joins a part to a project, whose book is the first `length` bytes of `project`; all that is lent of it must be [`PROJECT`] bytes. The
/// project is checked, then the part, then the joint: the project's cells, the part's with their references raised, and the merge of both
/// roots, in the higher version. Accepted, the joint is written over the project's lent bytes, the rest zero, and its type is left in the
/// work buffer as a check of it leaves it. A refusal names its book, changes no lent byte of the project, and leaves the work buffer as a
/// check with that refusal does.
pub fn join(project: &mut [u8], length: usize, part: &[u8], work: &mut [u8]) -> Joined {
    // SAFETY: the three slices are valid for their lengths, the first and the last are lent to be written, and no two overlap.
    Joined::unpacked(unsafe {
        cerealbank_join(project.as_mut_ptr(), project.len(), length, part.as_ptr(), part.len(), work.as_mut_ptr(), work.len())
    })
}

/// Says what a [`join`] would say, and joins nothing: the book that is meant, the answer and the byte count are those that the join would
/// give on a copy of the project, with the size of the joint's type if accepted, and the work buffer is left as it would leave it. Not a
/// byte of the project is written. As both are only read, `project` and `part` may overlap, or be the same bytes.
pub fn preview(project: &[u8], length: usize, part: &[u8], work: &mut [u8]) -> Joined {
    // SAFETY: the three slices are valid for their lengths, the last alone is lent to be written, and it overlaps neither of the others.
    Joined::unpacked(unsafe {
        cerealbank_preview(project.as_ptr(), project.len(), length, part.as_ptr(), part.len(), work.as_mut_ptr(), work.len())
    })
}

/// Says of a settings sheet how many steps it takes to its value, and runs nothing. A sheet is a book whose root, with nothing shared, has no
/// variable, function, fixpoint or choice in it; its annotations, applications, field reads and sums are counted. [`SheetAnswer::Accepted`]
/// leaves the type as a [`check`] leaves it. A [`run`] of the sheet says [`RunAnswer::Value`] after precisely that many steps,
/// [`RunAnswer::Spent`] with a lower limit, and never [`RunAnswer::Room`]. A book that is no sheet is refusal 17, whether or not it has a
/// type; any other is refused as a check refuses it.
pub fn sheet(book: &[u8], work: &mut [u8]) -> SheetAnswer {
    // SAFETY: as in `check`.
    SheetAnswer::unpacked(unsafe { cerealbank_sheet(book.as_ptr(), book.len(), work.as_mut_ptr(), work.len()) })
}

#[cfg(test)]
mod tests {
    use super::{Answer, Joined, RunAnswer, SheetAnswer, Which};
    use super::{ACCEPTED, LARGEST, LAST_REFUSAL, MOST_STEPS, NO_ROOM, PROJECT, SECOND_PLACE, SPENT, TAG_PLACE, TO_VALUE};

    fn packed(second: u64, tag: u8, value: u32) -> u64 {
        second << SECOND_PLACE | u64::from(tag) << TAG_PLACE | u64::from(value)
    }

    /// What a join packs, and a preview: the bytes stand above the book that is meant.
    fn join(bytes: usize, which: u8, tag: u8, value: u32) -> u64 {
        packed((bytes as u64) << 8 | u64::from(which), tag, value)
    }

    #[test]
    fn every_tag_is_unpacked() {
        let [checked, ran] = [0, 4_095].map(|second| move |tag, value| packed(second, tag, value));
        for tag in 1..=LAST_REFUSAL {
            assert_eq!(Answer::unpacked(checked(tag, 4_094)), Answer::Refused { number: tag, cell: 4_094 });
            assert_eq!(RunAnswer::unpacked(checked(tag, 4_094)), RunAnswer::Refused { number: tag, cell: 4_094 });
            assert_eq!(SheetAnswer::unpacked(checked(tag, 4_094)), SheetAnswer::Refused { number: tag, cell: 4_094 });
        }
        assert_eq!(Answer::unpacked(checked(ACCEPTED, 4_095)), Answer::Accepted { size: 4_095 });
        for steps in [0, 1, 255, 256, MOST_STEPS] {
            let accepted = packed(steps.into(), ACCEPTED, 4_095);
            assert_eq!(SheetAnswer::unpacked(accepted), SheetAnswer::Accepted { size: 4_095, steps });
        }
        assert_eq!(RunAnswer::unpacked(packed(1, TO_VALUE, 0)), RunAnswer::Value { steps: 0, mark: 1 });
        assert_eq!(RunAnswer::unpacked(ran(SPENT, u32::MAX)), RunAnswer::Spent { steps: u32::MAX, mark: 4_095 });
        assert_eq!(RunAnswer::unpacked(ran(NO_ROOM, 2_046)), RunAnswer::Room { steps: 2_046, mark: 4_095 });
    }

    #[test]
    fn the_greatest_mark_is_the_size_that_a_term_may_have() {
        assert_eq!(u64::from(LARGEST), evaluator::SIZE_LIMIT);
    }

    #[test]
    fn what_no_check_says_is_unknown() {
        let tags = [0, NO_ROOM + 1, 255].map(|tag| packed(0, tag, 7));
        let runs = [TO_VALUE, SPENT, NO_ROOM].map(|tag| packed(0, tag, 7));
        let seconds = [1, LAST_REFUSAL, ACCEPTED, TO_VALUE, SPENT, NO_ROOM].map(|tag| packed(1, tag, 7));
        for packed in [&tags[..], &runs, &seconds, &[u64::MAX]].into_iter().flatten().copied() {
            assert_eq!(Answer::unpacked(packed), Answer::Unknown { packed });
        }
    }

    #[test]
    fn what_no_run_says_is_unknown() {
        let others = [0, ACCEPTED, NO_ROOM + 1, 255].map(|tag| [packed(0, tag, 7), packed(7, tag, 7)]);
        let marked = [1, LAST_REFUSAL].map(|tag| [packed(1, tag, 7), packed(4_095, tag, 0)]);
        let marks = [TO_VALUE, SPENT, NO_ROOM].map(|tag| [packed(0, tag, 7), packed(u64::from(LARGEST) + 1, tag, 7)]);
        let all = [&others[..], &marked, &marks, &[[0, u64::MAX]]];
        for packed in all.into_iter().flatten().flatten().copied() {
            assert_eq!(RunAnswer::unpacked(packed), RunAnswer::Unknown { packed }, "{packed:#x}");
        }
    }

    #[test]
    fn what_no_sheet_call_says_is_unknown() {
        let others = [0, TO_VALUE, SPENT, NO_ROOM, NO_ROOM + 1, 255].map(|tag| [packed(0, tag, 7), packed(7, tag, 7)]);
        let counted = [1, 17, LAST_REFUSAL].map(|tag| [packed(1, tag, 7), packed(4_095, tag, 0)]);
        let counts = [[packed(u64::from(MOST_STEPS) + 1, ACCEPTED, 7), packed(1 << 23, ACCEPTED, 7)]];
        let all = [&others[..], &counted, &counts, &[[0, u64::MAX]]];
        for packed in all.into_iter().flatten().flatten().copied() {
            assert_eq!(SheetAnswer::unpacked(packed), SheetAnswer::Unknown { packed }, "{packed:#x}");
        }
    }

    #[test]
    fn every_book_that_a_join_means_is_unpacked() {
        for (code, which) in [(1, Which::Project), (2, Which::Part), (3, Which::Joint)] {
            for tag in 1..=LAST_REFUSAL {
                let answer = Answer::Refused { number: tag, cell: 4_094 };
                assert_eq!(Joined::unpacked(join(0, code, tag, 4_094)), Joined { which, answer, bytes: 0 });
            }
        }
        for bytes in [1, 40, PROJECT] {
            let accepted = Joined { which: Which::Joint, answer: Answer::Accepted { size: 4_095 }, bytes };
            assert_eq!(Joined::unpacked(join(bytes, 3, ACCEPTED, 4_095)), accepted);
        }
    }

    #[test]
    fn what_no_join_says_is_unknown() {
        let others = [0, 4, 255].map(|which| [join(0, which, 14, 7), join(40, which, ACCEPTED, 7)]);
        let counted = [1, 2, 3].map(|which| [join(40, which, 14, 7), join(1, which, LAST_REFUSAL, 0)]);
        let elsewhere = [1, 2].map(|which| [join(40, which, ACCEPTED, 7), join(0, which, ACCEPTED, 7)]);
        let lengths = [[join(0, 3, ACCEPTED, 7), join(PROJECT + 8, 3, ACCEPTED, 7)]];
        let runs = [TO_VALUE, SPENT, NO_ROOM].map(|tag| [join(40, 3, tag, 7), join(0, 3, tag, 7)]);
        let tags = [0, NO_ROOM + 1, 255].map(|tag| [join(40, 3, tag, 7), join(0, 3, tag, 7)]);
        let all = [&others[..], &counted, &elsewhere, &lengths, &runs, &tags, &[[0, u64::MAX]]];
        for packed in all.into_iter().flatten().flatten().copied() {
            let unknown = Joined { which: Which::Joint, answer: Answer::Unknown { packed }, bytes: 0 };
            assert_eq!(Joined::unpacked(packed), unknown, "{packed:#x}");
        }
    }
}
