//! Batches: what a command is given in one run.

use std::collections::VecDeque;
use std::iter::{self, Peekable};

use crate::builds::{BuildCase, Item, Machine, answer_stream as answer_builds};
use crate::generate::random::Random;
use crate::generate::{builds, paths, walks};
use crate::paths::{PathCase, answer_stream};
use crate::shrink::{Still, shrink_build, shrink_case, shrink_path, shrink_walk};
use crate::walks::{Machine as Walker, WalkCase, answer_stream as answer_walks};
use crate::words::{Case, answer_batch};

/// A form in which cases are given to a command.
pub trait Form: Clone {
    /// The whole cases of a batch have no more bytes than this.
    const LONGEST_BATCH: usize;

    /// The case in words, as it stands in a batch.
    fn words(&self) -> Vec<u32>;

    /// What is to be printed for a batch, in pieces.
    fn answers(batch: &[u8]) -> Vec<String>;

    /// What is to be printed for a batch, case by case, and for its tail.
    fn answers_to(batch: &Batch<Self>) -> Vec<String> {
        Self::answers(&batch.bytes())
    }

    /// The smallest case found that still shows a difference.
    fn shrink(self, still: Still<'_, Self>) -> Result<Self, String>;

    /// The case for a reader.
    fn told(&self) -> String;

    /// How many bytes the case takes in a batch.
    fn bytes(&self) -> usize {
        4 * self.words().len()
    }
}

impl Form for Case {
    const LONGEST_BATCH: usize = 256 * 1024;

    fn words(&self) -> Vec<u32> {
        let length = u32::try_from(self.body.len()).expect("a body's length fits a word");
        let mut words = vec![self.kind, length];
        words.extend(&self.body);
        words
    }

    fn answers(batch: &[u8]) -> Vec<String> {
        let lines = answer_batch(batch);
        lines.iter().map(|line| format!("{line}\n")).collect()
    }

    fn shrink(self, still: Still<'_, Self>) -> Result<Self, String> {
        shrink_case(self, still)
    }

    fn told(&self) -> String {
        let words = spaced(&self.body);
        format!("kind {}, {} words:{words}", self.kind, self.body.len())
    }
}

impl Form for PathCase {
    const LONGEST_BATCH: usize = 1024 * 1024;

    fn words(&self) -> Vec<u32> {
        PathCase::words(self)
    }

    fn answers(batch: &[u8]) -> Vec<String> {
        answer_stream(batch)
    }

    fn shrink(self, still: Still<'_, Self>) -> Result<Self, String> {
        shrink_path(self, still)
    }

    fn told(&self) -> String {
        let words = self.words();
        format!("case of {} words:{}", words.len(), spaced(&words))
    }
}

impl Form for BuildCase {
    /// The longest fixed case has some 3 MB.
    const LONGEST_BATCH: usize = 4 * 1024 * 1024;

    fn words(&self) -> Vec<u32> {
        BuildCase::words(self)
    }

    fn answers(batch: &[u8]) -> Vec<String> {
        vec![answer_builds(batch)]
    }

    fn answers_to(batch: &Batch<Self>) -> Vec<String> {
        let mut machine = Machine::default();
        let cases = batch.cases.iter();
        let mut answers: Vec<String> = cases
            .map(|case| machine.stream(&bytes_of(&case.words())))
            .collect();
        answers.push(machine.stream(&batch.tail));
        answers
    }

    fn shrink(self, still: Still<'_, Self>) -> Result<Self, String> {
        shrink_build(self, still)
    }

    fn told(&self) -> String {
        told_items(&self.items)
    }

    fn bytes(&self) -> usize {
        bytes_in(&self.items)
    }
}

impl Form for WalkCase {
    const LONGEST_BATCH: usize = 4 * 1024 * 1024;

    fn words(&self) -> Vec<u32> {
        WalkCase::words(self)
    }

    fn answers(batch: &[u8]) -> Vec<String> {
        vec![answer_walks(batch)]
    }

    fn answers_to(batch: &Batch<Self>) -> Vec<String> {
        let mut walker = Walker::default();
        let cases = batch.cases.iter();
        let mut answers: Vec<String> = cases
            .map(|case| walker.stream(&bytes_of(&case.words())))
            .collect();
        answers.push(walker.stream(&batch.tail));
        answers
    }

    fn shrink(self, still: Still<'_, Self>) -> Result<Self, String> {
        shrink_walk(self, still)
    }

    fn told(&self) -> String {
        told_items(&self.items)
    }

    fn bytes(&self) -> usize {
        bytes_in(&self.items)
    }
}

fn told_items(items: &[Item]) -> String {
    let item = |item: &Item| {
        let words = spaced(&item.payload);
        format!("op {}, {} words:{words}", item.op, item.payload.len())
    };
    let told: Vec<String> = items.iter().map(item).collect();
    format!("case of {} items:\n{}", items.len(), told.join("\n"))
}

fn bytes_in(items: &[Item]) -> usize {
    let words = items.iter().map(|item| 2 + item.payload.len());
    4 * words.sum::<usize>()
}

/// The first of some words; a case that stays long fills no screen.
fn spaced(words: &[u32]) -> String {
    const MOST: usize = 400;
    let told: String = words
        .iter()
        .take(MOST)
        .map(|word| format!(" {word}"))
        .collect();
    match words.len().saturating_sub(MOST) {
        0 => told,
        more => told + &format!(" (and {more} more)"),
    }
}

/// Words as bytes.
pub fn bytes_of(words: &[u32]) -> Vec<u8> {
    words.iter().flat_map(|word| word.to_le_bytes()).collect()
}

/// Some whole cases, and after them bytes that may be anything.
#[derive(Clone)]
pub struct Batch<T> {
    pub cases: Vec<T>,
    pub tail: Vec<u8>,
}

impl<T: Form> Batch<T> {
    pub fn new(cases: &[T], tail: &[u8]) -> Self {
        Self {
            cases: cases.to_vec(),
            tail: tail.to_vec(),
        }
    }

    /// At most this many of the cases, and no more than there is room for.
    fn of_next(cases: &mut Peekable<impl Iterator<Item = T>>, most: usize) -> Self {
        let mut batch = Self::new(&[], &[]);
        let mut room = T::LONGEST_BATCH;
        while batch.cases.len() < most
            && let Some(case) = cases.next_if(|case| case.bytes() <= room)
        {
            room -= case.bytes();
            batch.cases.push(case);
        }
        batch
    }

    pub fn bytes(&self) -> Vec<u8> {
        let cases = self.cases.iter().flat_map(|case| bytes_of(&case.words()));
        cases.chain(self.tail.iter().copied()).collect()
    }
}

/// Batches of lists. After every second one come bytes that end inside a
/// case, as far as there is room.
pub fn list_batches(
    cases: impl Iterator<Item = Case>,
    seed: u64,
) -> impl Iterator<Item = Batch<Case>> {
    let mut cases = cases.peekable();
    let mut random = Random::new(!seed);
    let mut number = 0;
    iter::from_fn(move || {
        cases.peek()?;
        let mut batch = Batch::of_next(&mut cases, usize::MAX);
        let room = Case::LONGEST_BATCH - batch.bytes().len();
        if number % 2 == 0
            && room > 0
            && let Some(last) = batch.cases.last()
        {
            let length = random.between(1, room.min(last.bytes() - 1));
            batch.tail = bytes_of(&last.words());
            batch.tail.truncate(length);
        }
        number += 1;
        Some(batch)
    })
}

/// How many cases stand before the fixed ends, in turn. 40 on average, so
/// that 20,000 cases are enough for 500 ends.
const BEFORE_END: [usize; 4] = [0, 1, 3, 156];

/// Batches of paths: an empty one; one for each fixed end, in an order that
/// the seed gives, as long as there are cases to stand before them; then full
/// ones, every second with an end by chance; and an empty one.
pub fn path_batches(
    cases: impl Iterator<Item = PathCase>,
    seed: u64,
) -> impl Iterator<Item = Batch<PathCase>> {
    batches_with_ends(cases, seed, paths::fixed_ends(), paths::random_end)
}

/// Batches of builds: the same, with their own ends.
pub fn build_batches(
    cases: impl Iterator<Item = BuildCase>,
    seed: u64,
) -> impl Iterator<Item = Batch<BuildCase>> {
    batches_with_ends(cases, seed, builds::fixed_ends(), builds::random_end)
}

/// Batches of walks, or of cascades: the same.
pub fn walk_batches(
    cases: impl Iterator<Item = WalkCase>,
    seed: u64,
) -> impl Iterator<Item = Batch<WalkCase>> {
    batches_with_ends(cases, seed, walks::fixed_ends(), walks::random_end)
}

fn batches_with_ends<T: Form>(
    cases: impl Iterator<Item = T>,
    seed: u64,
    mut ends: Vec<Vec<u8>>,
    random_end: fn(&mut Random) -> Vec<u8>,
) -> impl Iterator<Item = Batch<T>> {
    let mut cases = cases.peekable();
    let mut random = Random::new(!seed);
    for place in (1..ends.len()).rev() {
        ends.swap(place, random.below(place + 1));
    }
    let mut ends = VecDeque::from(ends);
    let mut number = 0;
    let between = iter::from_fn(move || {
        cases.peek()?;
        let most = if ends.is_empty() {
            usize::MAX
        } else {
            BEFORE_END[number % BEFORE_END.len()]
        };
        let mut batch = Batch::of_next(&mut cases, most);
        if let Some(end) = ends.pop_front() {
            batch.tail = end;
        } else if number % 2 == 0 {
            batch.tail = random_end(&mut random);
        }
        number += 1;
        Some(batch)
    });
    let empty = || iter::once(Batch::new(&[], &[]));
    empty().chain(between).chain(empty())
}
