//! Requests to hold a program against the judge.
//!
//! Each op has a sequence of its own: first the examples of document 01 and the
//! malformed requests, then cases enumerated from the tables, then a few large
//! ones, then random ones without end. The ops take turns. The enumerated cases
//! come in an order drawn from the seed, so a short run is a cross-section. For the
//! calls on disks all that is enumerated is large.

mod archives;
mod damage;
mod disk_calls;
pub mod disk_damage;
pub mod disks;
mod escapes;
mod examples;
mod forms;
mod guesses;
mod images;
mod large;
mod lines;
mod malformed;
mod names;
mod profiles;
mod programs;
mod remarks;
mod requests;
mod strings;
mod texts;
mod words;

use crate::calls;
use crate::frames::Request;
use crate::random::Random;

/// One request in so many is malformed, among the random ones.
const MALFORMED_ONE_IN: usize = 400;

/// A number of cases, the ops taking turns.
pub struct Cases {
    sequences: Vec<Sequence>,
    made: usize,
    count: usize,
}

/// The endless cases of one op.
struct Sequence {
    op: u8,
    seed: u64,
    listed: Vec<Request>,
    made: usize,
}

impl Cases {
    pub fn new(count: usize, seed: u64, ops: &[u8]) -> Cases {
        Cases {
            sequences: ops.iter().map(|&op| Sequence::new(op, seed)).collect(),
            made: 0,
            count,
        }
    }

    /// How many cases there are in all.
    pub fn asked(&self) -> usize {
        self.count
    }
}

impl Iterator for Cases {
    type Item = Request;

    fn next(&mut self) -> Option<Request> {
        if self.made == self.count {
            return None;
        }
        let turn = self.made % self.sequences.len();
        self.made += 1;
        Some(self.sequences[turn].next())
    }
}

impl Sequence {
    fn new(op: u8, seed: u64) -> Sequence {
        // The listed cases draw rooms and offsets; no case below has this index.
        let mut random = Random::for_case(seed, op, usize::MAX);
        let mut listed = listed_first(op, &mut random);
        listed.extend(malformed::listed(op));
        let mut enumerated = enumerated(op, &mut random);
        random.shuffle(&mut enumerated);
        listed.extend(enumerated);
        Sequence {
            op,
            seed,
            listed,
            made: 0,
        }
    }

    fn next(&mut self) -> Request {
        let index = self.made;
        self.made += 1;
        if let Some(request) = self.listed.get(index) {
            return request.clone();
        }
        if let Some(request) = large::case(self.op, index - self.listed.len()) {
            return request;
        }
        let mut random = Random::for_case(self.seed, self.op, index);
        if random.one_in(MALFORMED_ONE_IN) {
            return malformed::any(self.op, &mut random);
        }
        any(self.op, &mut random)
    }
}

/// The examples of the documents, and the words that are wanted word for word.
fn listed_first(op: u8, random: &mut Random) -> Vec<Request> {
    match op {
        calls::DIALECT_BY_NAME => requests::of_words(op, &names::first_dialects()),
        calls::TSB_WORD => requests::of_words(op, &names::first_words()),
        calls::LINE_BY_NUMBER => lines::listed(op),
        calls::DEFAULT_LOAD => requests::default_loads(),
        calls::COUNT_IMAGES => archives::listed(),
        calls::ADDRESSED_STEP_BY_TERMINATORS..=calls::MEASURED_LINE => lines::listed(op),
        calls::FORMAT_DISK..=calls::CHECK_DISK => disk_calls::listed(op, random),
        _ if calls::is_of_texts(op) => requests::of_texts(op, &examples::texts(), random),
        _ => requests::of_images(op, &examples::images(), random),
    }
}

fn enumerated(op: u8, random: &mut Random) -> Vec<Request> {
    match op {
        calls::DIALECT_BY_NAME => requests::of_words(op, &names::listed_dialects()),
        calls::TSB_WORD => requests::of_words(op, &names::listed_words(random)),
        calls::COUNT_IMAGES => archives::enumerated(&images::listed()),
        calls::FORMAT_DISK..=calls::CHECK_DISK | calls::DEFAULT_LOAD => Vec::new(),
        _ if calls::is_with_options(op) => {
            let texts = [forms::listed(), profiles::texts(), texts::listed()].concat();
            requests::of_texts(op, &texts, random)
        }
        _ if calls::is_of_texts(op) => requests::of_texts(op, &texts::listed(), random),
        calls::RELINK => {
            let images = [profiles::images(), images::listed()].concat();
            requests::of_images(op, &images, random)
        }
        _ if calls::is_under_options(op) => {
            let images = [remarks::listed(), images::listed()].concat();
            requests::of_images(op, &images, random)
        }
        _ => requests::of_images(op, &images::listed(), random),
    }
}

fn any(op: u8, random: &mut Random) -> Request {
    match op {
        calls::DIALECT_BY_NAME => requests::of_word(op, &names::any_dialect(random)),
        calls::TSB_WORD => requests::of_word(op, &names::any_word(random)),
        calls::COUNT_IMAGES => archives::any(random),
        calls::FORMAT_DISK..=calls::CHECK_DISK => disk_calls::any(op, random),
        calls::DEFAULT_LOAD => requests::any_default_load(random),
        _ if calls::is_of_texts(op) => {
            let case = match random.below(4) {
                0 if calls::is_with_options(op) => forms::any(random),
                1 if calls::is_with_options(op) => profiles::any(random),
                _ => texts::any(random),
            };
            requests::of_text(op, &case, random)
        }
        _ => {
            let image = images::any(random);
            requests::of_image(op, &image, random)
        }
    }
}
