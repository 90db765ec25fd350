//! Comparing two engines on a preview and on the join that follows, and what is promised of them. Document 02, (vi): "A joint book has all that an
//! accepted book is owed." And (vii): "preview and join on a copy agree for every pair of books."

use crate::comparing::{self, Comparison, Question};
use crate::engines::{Call, Engine, Evaluator, JoinReply};
use crate::pairs::{Buffers, Pair, Stated};
use crate::random::Random;
use crate::theory::call;
use evaluator::{decode, joint, Answer, Joined, Term, Which, PROJECT, WORK};

/// What is asked about a pair, in this order.
#[derive(Clone, Copy, PartialEq, Eq, Debug)]
pub enum Asked {
    /// The preview's answer and all that it leaves.
    Preview,
    /// The same of the join that follows.
    Join,
    /// That the two agree.
    Agreement,
    /// What is promised of the book that the answer means.
    Promise,
}

/// What one side returns of a preview or a join and leaves.
#[derive(PartialEq, Eq)]
pub struct Left {
    pub reply: JoinReply,
    pub buffers: Buffers,
}

/// Why a pair failed.
pub enum Difference {
    Outcomes(Box<[Left; 2]>),
    Broken(String),
}

/// A joint is asked about as a book once in so many times.
const ASKED: usize = 4;

/// The preview as this side answers it, in these buffers.
pub fn previewed(side: &dyn Engine, pair: &Pair, mut buffers: Buffers) -> Left {
    let reply = side.preview(&mut buffers.lent, pair.told, &pair.part, &mut buffers.work);
    Left { reply, buffers }
}

/// The join likewise.
pub fn joined(side: &dyn Engine, pair: &Pair, mut buffers: Buffers) -> Left {
    let reply = side.join(&mut buffers.lent, pair.told, &pair.part, &mut buffers.work);
    Left { reply, buffers }
}

/// What one side says, of a preview or of a join, in these buffers.
type Answering = fn(&dyn Engine, &Pair, Buffers) -> Left;

/// "It gives the answer and byte count that the join would give on a copy, with the type's size if accepted, and leaves the work buffer alike,
/// with not a lent byte of the project altered": of the bytes lent before, what the preview left, and what the join did.
pub fn agree(before: &[u8], preview: &Left, join: &Left) -> Result<(), String> {
    if preview.reply != join.reply {
        return Err(format!("the preview says {:?}, the join {:?}", preview.reply, join.reply));
    }
    if preview.buffers.work != join.buffers.work {
        return Err("the preview and the join leave other work buffers".to_string());
    }
    if preview.buffers.lent != before {
        return Err("the preview alters the lent bytes".to_string());
    }
    Ok(())
}

/// The side previews and joins as stated, on a copy of the buffers and on what the preview leaves. Otherwise, what differs.
pub fn as_stated(side: &dyn Engine, stated: &Stated, filler: &[u8]) -> Result<(), String> {
    let (pair, before) = (&stated.pair, stated.pair.buffers(filler, filler));
    let preview = Left { reply: Ok(stated.joined), buffers: stated.after_preview(&before) };
    let join = Left { reply: Ok(stated.joined), buffers: stated.after_join(&before) };
    let asked: [(&str, Answering, &Buffers, &Left); 3] = [
        ("preview", previewed, &before, &preview),
        ("join", joined, &before, &join),
        ("join after the preview", joined, &preview.buffers, &join),
    ];
    for (name, answer, buffers, expected) in asked {
        let left = answer(side, pair, buffers.clone());
        if left != *expected {
            return Err(format!("of the {name}, {} says {:?}, or leaves other bytes", side.name(), left.reply));
        }
    }
    Ok(())
}

impl Comparison<'_> {
    /// Both sides' answers, every lent byte and every byte of the work buffer; what both say.
    fn same(&self, asked: Asked, pair: &Pair, answering: Answering, buffers: &Buffers) -> Result<Left, (Asked, Difference)> {
        self.calls.set(self.calls.get() + 1);
        let one = answering(&Evaluator(None), pair, buffers.clone());
        let other = answering(self.engine, pair, buffers.clone());
        if one.reply.is_ok() && one == other {
            return Ok(other);
        }
        Err((asked, Difference::Outcomes(Box::new([one, other]))))
    }

    /// Everything that is asked about a pair, the preview first. What both sides say.
    pub fn pair(&self, pair: &Pair) -> Result<Joined, (Asked, Difference)> {
        let start = pair.project.iter().chain(&pair.part).map(|&byte| usize::from(byte)).sum::<usize>() % WORK;
        let before = pair.buffers(&self.noise[WORK - start..], &self.noise[start..]);
        let preview = self.same(Asked::Preview, pair, previewed, &before)?;
        self.previews.set(self.previews.get() + 1);
        let join = self.same(Asked::Join, pair, joined, if pair.after { &preview.buffers } else { &before })?;
        let broken = |asked| move |words| (asked, Difference::Broken(words));
        agree(&before.lent, &preview, &join).map_err(broken(Asked::Agreement))?;
        if self.theory {
            promised(self.engine, pair, &join).map_err(broken(Asked::Promise))?;
        }
        join.reply.map_err(broken(Asked::Join))
    }

    /// Everything that is asked about a book, at times, of the joint of two books that have one. The joint and the first difference, if there is one.
    pub fn joint(&self, pair: &Pair, random: &mut Random) -> Option<(Vec<u8>, Question, comparing::Difference)> {
        let joint = joint(&pair.project, &pair.part).filter(|_| random.once_in(ASKED))?;
        let (question, difference) = self.book(&joint, random).err()?;
        Some((joint, question, difference))
    }
}

/// The book that an answer means, if its check has to say the same: not of refusal 1, which no book gets, of 16, which no check gives, and of
/// lengths that no book has.
fn meant(pair: &Pair, lent: &[u8], joined: Joined) -> Option<Vec<u8>> {
    match (joined.which, joined.answer) {
        (_, Answer::Refused { number: 1 | 16, .. }) => None,
        (Which::Project, _) if lent.len() != PROJECT => None,
        (Which::Project, _) => lent.get(..pair.told).map(<[u8]>::to_vec),
        (Which::Part, _) => Some(pair.part.clone()),
        (Which::Joint, Answer::Refused { .. }) => joint(lent.get(..pair.told)?, &pair.part),
        (Which::Joint, _) => lent.get(..joined.bytes).map(<[u8]>::to_vec),
    }
}

/// What the side itself says of the book that its join means: the same answer, and the same work buffer.
fn promised(side: &dyn Engine, pair: &Pair, left: &Left) -> Result<(), String> {
    let joined = left.reply.clone()?;
    let Some(book) = meant(pair, &left.buffers.lent, joined) else { return Ok(()) };
    let (answer, work) = call(side, Call::Check, &book)?;
    if answer != joined.answer || work != left.buffers.work {
        return Err(format!("a check of the book that is meant says {answer:?}, or leaves something else"));
    }
    match (joined.which, joined.answer) {
        (Which::Joint, Answer::Accepted { .. }) => merges_both(pair, &book),
        (Which::Joint, Answer::Refused { number, .. }) if ![10, 14].contains(&number) => {
            Err(format!("a joint is refused by {number}"))
        }
        _ => Ok(()),
    }
}

/// The joint's root is the merge of both roots, in the higher version.
fn merges_both(pair: &Pair, joint: &[u8]) -> Result<(), String> {
    let project = pair.project.get(..pair.told).ok_or("no project")?;
    let root = |book: &[u8]| decode(book).map_err(|refusal| format!("{refusal:?}"));
    let [(one, first), (two, second), both] = [root(project)?, root(&pair.part)?, root(joint)?];
    if both != (Term::merge(one, two), first.max(second)) {
        return Err("the joint is not the merge of both roots".to_string());
    }
    Ok(())
}
