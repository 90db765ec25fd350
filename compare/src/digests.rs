//! Digests of all that a side says and leaves in checks, runs, joins and previews, so that a library can be compared with one that is not there any
//! more, and had no sheets. A file keeps the digest of each family.

use crate::engines::{Call, Engine, Evaluator, JoinReply, Reply};
use evaluator::{Answer, Which};
use std::cell::Cell;
use std::collections::BTreeMap;
use std::fmt::Write;

/// A digest of words. Each word changes it one to one, so that no other word in its place gives the same.
#[derive(Clone, Copy, PartialEq, Eq, Debug)]
pub struct Digest(u64);

/// Those of the hash FNV-1a.
const START: u64 = 0xCBF2_9CE4_8422_2325;
const PRIME: u64 = 0x0000_0100_0000_01B3;

impl Digest {
    fn word(&mut self, word: u64) {
        self.0 = (self.0 ^ word).wrapping_mul(PRIME).rotate_left(29);
    }

    fn words(&mut self, words: &[u64]) {
        words.iter().for_each(|&word| self.word(word));
    }

    /// How many bytes there are, how many up to the last that is not zero, and these.
    fn bytes(&mut self, bytes: &[u8]) {
        let filled = &bytes[..filled(bytes)];
        self.words(&[bytes.len() as u64, filled.len() as u64]);
        let (words, rest) = filled.as_chunks::<8>();
        words.iter().for_each(|word| self.word(u64::from_le_bytes(*word)));
        rest.iter().for_each(|&byte| self.word(u64::from(byte)));
    }

    fn answer(&mut self, answer: Answer) {
        self.words(&match answer {
            Answer::Refused { number, cell } => [1, u64::from(number), cell as u64],
            Answer::Accepted { size } => [2, size as u64, 0],
            Answer::Value { steps, mark } => [3, u64::from(steps), mark],
            Answer::Spent { steps, mark } => [4, u64::from(steps), mark],
            Answer::Room { steps, mark } => [5, u64::from(steps), mark],
            Answer::Sheet { size, steps } => [6, size as u64, u64::from(steps)],
        });
    }

    fn none(&mut self, words: &str) {
        self.word(0);
        self.bytes(words.as_bytes());
    }

    fn reply(&mut self, reply: &Reply) {
        match reply {
            Ok(answer) => self.answer(*answer),
            Err(words) => self.none(words),
        }
    }

    fn join_reply(&mut self, reply: &JoinReply) {
        match reply {
            Ok(joined) => {
                let which = match joined.which {
                    Which::Project => 1,
                    Which::Part => 2,
                    Which::Joint => 3,
                };
                self.words(&[which, joined.bytes as u64]);
                self.answer(joined.answer);
            }
            Err(words) => self.none(words),
        }
    }
}

/// How many bytes there are up to the last that is not zero.
fn filled(bytes: &[u8]) -> usize {
    const CHUNK: usize = 64;
    let zero = |chunk: &[u8; CHUNK]| chunk.iter().fold(0, |all, &byte| all | byte) == 0;
    let (_, chunks) = bytes.as_rchunks::<CHUNK>();
    let zeros = chunks.iter().rev().take_while(|chunk| zero(chunk)).count() * CHUNK;
    let rest = &bytes[..bytes.len() - zeros];
    rest.iter().rposition(|&byte| byte != 0).map_or(0, |last| last + 1)
}

/// A side with a digest of the calls that it is asked, of what it says, and of every byte that it leaves; sheets do not count.
pub struct Digested<'a> {
    side: &'a dyn Engine,
    digest: Cell<Digest>,
}

impl<'a> Digested<'a> {
    pub fn of(side: &'a dyn Engine) -> Digested<'a> {
        Digested { side, digest: Cell::new(Digest(START)) }
    }

    /// Of all calls so far.
    pub fn digest(&self) -> u64 {
        self.digest.get().0
    }

    fn enter(&self, to: impl FnOnce(&mut Digest)) {
        let mut digest = self.digest.get();
        to(&mut digest);
        self.digest.set(digest);
    }

    /// What a join or a preview was told, says and leaves.
    fn enter_pair(&self, call: u64, (length, part): (usize, &[u8]), reply: &JoinReply, left: [&[u8]; 2]) {
        self.enter(|digest| {
            digest.words(&[call, length as u64]);
            digest.bytes(part);
            digest.join_reply(reply);
            left.iter().for_each(|left| digest.bytes(left));
        });
    }
}

impl Engine for Digested<'_> {
    fn name(&self) -> String {
        self.side.name()
    }

    fn call(&self, call: Call, book: &[u8], work: &mut [u8]) -> Reply {
        let reply = self.side.call(call, book, work);
        let asked = match call {
            Call::Check => [1, 0],
            Call::Sheet => return reply,
            Call::Run { limit } => [2, u64::from(limit)],
        };
        self.enter(|digest| {
            digest.words(&asked);
            digest.bytes(book);
            digest.reply(&reply);
            digest.bytes(work);
        });
        reply
    }

    fn join(&self, lent: &mut [u8], length: usize, part: &[u8], work: &mut [u8]) -> JoinReply {
        let reply = self.side.join(lent, length, part, work);
        self.enter_pair(3, (length, part), &reply, [lent, work]);
        reply
    }

    fn preview(&self, lent: &mut [u8], length: usize, part: &[u8], work: &mut [u8]) -> JoinReply {
        let reply = self.side.preview(lent, length, part, work);
        self.enter_pair(4, (length, part), &reply, [lent, work]);
        reply
    }
}

/// A side with the evaluator's sheets in place of its own: one that has none can then be asked everything.
pub struct WithSheets(pub Box<dyn Engine>);

impl Engine for WithSheets {
    fn name(&self) -> String {
        format!("{} with the evaluator's sheets", self.0.name())
    }

    fn call(&self, call: Call, book: &[u8], work: &mut [u8]) -> Reply {
        match call {
            Call::Sheet => Evaluator(None).call(call, book, work),
            _ => self.0.call(call, book, work),
        }
    }

    fn join(&self, lent: &mut [u8], length: usize, part: &[u8], work: &mut [u8]) -> JoinReply {
        self.0.join(lent, length, part, work)
    }

    fn preview(&self, lent: &mut [u8], length: usize, part: &[u8], work: &mut [u8]) -> JoinReply {
        self.0.preview(lent, length, part, work)
    }
}

/// The digests of families, for this seed and so many random books.
#[derive(Clone, PartialEq, Eq, Debug)]
pub struct Digests {
    pub seed: u64,
    pub count: usize,
    families: BTreeMap<String, u64>,
}

impl Digests {
    pub fn new(seed: u64, count: usize) -> Digests {
        Digests { seed, count, families: BTreeMap::new() }
    }

    pub fn enter(&mut self, family: &str, digest: u64) {
        self.families.insert(family.to_string(), digest);
    }

    /// The lines of a file: the seed and the count, then a family each.
    pub fn text(&self) -> String {
        let mut text = format!("seed {} count {}\n", self.seed, self.count);
        for (family, digest) in &self.families {
            let _ = writeln!(text, "{family} {digest:016x}");
        }
        text
    }

    /// Those of such a file.
    pub fn of(text: &str) -> Result<Digests, String> {
        let mut lines = text.lines();
        let first = lines.next().unwrap_or_default();
        let figures = first.strip_prefix("seed ").and_then(|rest| rest.split_once(" count "));
        let figures = figures.and_then(|(seed, count)| Some((seed.parse().ok()?, count.parse().ok()?)));
        let (seed, count) = figures.ok_or(format!("no seed and count in the first line, '{first}'"))?;
        let mut digests = Digests::new(seed, count);
        for line in lines {
            let parts = line.rsplit_once(' ').filter(|(_, digest)| digest.len() == 16);
            let parts = parts.and_then(|(family, digest)| Some((family, u64::from_str_radix(digest, 16).ok()?)));
            let (family, digest) = parts.ok_or(format!("no family and digest in '{line}'"))?;
            digests.enter(family, digest);
        }
        Ok(digests)
    }

    /// The families whose digest is not the stored one, and those of which none is stored; if all were compared, also those that are stored alone.
    pub fn differences(&self, stored: &Digests, all: bool) -> Vec<String> {
        let compared = self.families.iter().filter_map(|(family, digest)| match stored.families.get(family) {
            Some(other) if other == digest => None,
            Some(_) => Some(format!("{family}: other calls, answers or bytes than are stored")),
            None => Some(format!("{family}: no digest is stored")),
        });
        let only_stored = stored.families.keys().filter(|family| all && !self.families.contains_key(*family));
        compared.chain(only_stored.map(|family| format!("{family}: stored, and not compared"))).collect()
    }
}
