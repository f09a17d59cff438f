//! Cases about lists of ids: kinds 1 to 6 with at most 200 ids a list, the
//! steps of kind 7, and at the edges unknown kinds and bodies at and past the
//! longest.

use super::damage::damage_words;
use super::random::Random;
use super::steps::STEP;
use super::{EXTREMES, all_lists, steps};
use crate::words::{Case, LONGEST_BODY};

/// Most ids in a list of a case.
pub const LONGEST_LIST: usize = 200;

const SET: u32 = 1;
const SUBSET: u32 = 2;
const CONTAINS: u32 = 3;
const ASCENDING: u32 = 4;
const COMPARE: u32 = 5;
const PROPERTY: u32 = 6;

/// A case of two lists: the first one's length, then both.
fn two_lists(kind: u32, left: &[u32], right: &[u32]) -> Case {
    let mut body = vec![left.len() as u32];
    body.extend(left);
    body.extend(right);
    Case::new(kind, body)
}

/// A case of an id and a list.
fn id_and_list(id: u32, ids: &[u32]) -> Case {
    let mut body = vec![id];
    body.extend(ids);
    Case::new(CONTAINS, body)
}

pub fn fixed() -> Vec<Case> {
    let mut cases = small();
    cases.extend(edges());
    cases.extend(steps::fixed());
    cases
}

/// Every case over lists of at most 3 of 3 values.
fn small() -> Vec<Case> {
    let values = [0, 1, 2];
    let lists = all_lists(&values, 3);
    let mut cases = Vec::new();
    for left in &lists {
        cases.push(Case::new(SET, left.clone()));
        cases.push(Case::new(ASCENDING, left.clone()));
        for id in [0, 1, 2, 3] {
            cases.push(id_and_list(id, left));
        }
        for right in &lists {
            cases.push(two_lists(SUBSET, left, right));
            cases.push(two_lists(COMPARE, left, right));
        }
    }
    for left in values {
        for right in values {
            cases.push(Case::new(PROPERTY, vec![left, right]));
        }
    }
    cases
}

/// Lists at and around the greatest length, extreme ids, and counts at and
/// past the end of the body.
fn edges() -> Vec<Case> {
    let mut cases = Vec::new();
    let mut shapes: Vec<Vec<u32>> = vec![EXTREMES.to_vec(), EXTREMES.into_iter().rev().collect()];
    for length in [0, 1, LONGEST_LIST - 1, LONGEST_LIST] {
        let up: Vec<u32> = (0..length as u32).collect();
        let top: Vec<u32> = up.iter().map(|id| u32::MAX - id).rev().collect();
        shapes.push(up.iter().copied().rev().collect());
        shapes.push(vec![u32::MAX; length]);
        shapes.push(up);
        shapes.push(top);
    }
    for left in &shapes {
        cases.push(Case::new(SET, left.clone()));
        cases.push(Case::new(ASCENDING, left.clone()));
        for id in EXTREMES {
            cases.push(id_and_list(id, left));
        }
        for right in &shapes {
            cases.push(two_lists(SUBSET, left, right));
            cases.push(two_lists(COMPARE, left, right));
        }
        // The only fault at the very end, and at the very beginning.
        for place in [0, left.len().saturating_sub(1)] {
            if let Some(id) = left.get(place) {
                let mut other = left.clone();
                other[place] = id.wrapping_add(1);
                cases.push(Case::new(ASCENDING, other.clone()));
                cases.push(two_lists(SUBSET, &other, left));
                cases.push(two_lists(COMPARE, &other, left));
                cases.push(two_lists(COMPARE, left, &other));
            }
        }
    }
    for kind in [SUBSET, CONTAINS, COMPARE, PROPERTY] {
        cases.push(Case::new(kind, Vec::new()));
    }
    cases.push(Case::new(PROPERTY, vec![1]));
    for kind in [SUBSET, COMPARE] {
        for rest in 0..3 {
            for count in [rest, rest + 1, 0x4000_0000, u32::MAX - 1, u32::MAX] {
                let mut body = vec![count];
                body.extend(0..rest);
                cases.push(Case::new(kind, body));
            }
        }
    }
    // Every kind, known or not, around the longest body; which line counts
    // where a kind is unknown and its body too long is told by the order.
    for kind in [
        0,
        SET,
        SUBSET,
        CONTAINS,
        ASCENDING,
        COMPARE,
        PROPERTY,
        STEP,
        8,
        u32::MAX,
    ] {
        for length in [LONGEST_BODY - 1, LONGEST_BODY, LONGEST_BODY + 1] {
            cases.push(Case::new(kind, (0..length as u32).rev().collect()));
        }
        cases.push(Case::new(kind, vec![1, 1, 2]));
    }
    for left in EXTREMES.into_iter().chain([65_534]) {
        for right in EXTREMES.into_iter().chain([65_534]) {
            cases.push(Case::new(PROPERTY, vec![left, right]));
        }
    }
    cases
}

pub fn random_case(random: &mut Random) -> Case {
    if !random.once_in(5) {
        return valid(random);
    }
    loop {
        let mut case = valid(random);
        damage_words(&mut case.body, random);
        if within_sizes(&case) {
            return case;
        }
    }
}

/// Damage may have lengthened a list past what a case may hold, and a
/// property case has two numbers at most.
fn within_sizes(case: &Case) -> bool {
    let words = case.body.len();
    match case.kind {
        PROPERTY => words <= 2,
        CONTAINS => words <= 1 + LONGEST_LIST,
        SUBSET | COMPARE => {
            let rest = words.saturating_sub(1);
            let left = case.body.first().map_or(0, |&count| count as usize);
            if left > rest {
                rest <= LONGEST_LIST
            } else {
                left <= LONGEST_LIST && rest - left <= LONGEST_LIST
            }
        }
        _ => words <= LONGEST_LIST,
    }
}

fn valid(random: &mut Random) -> Case {
    match random.between(1, 7) as u32 {
        SET => Case::new(SET, list(random)),
        SUBSET => {
            let haystack = list(random);
            let needles = some_of(&haystack, random);
            two_lists(SUBSET, &needles, &haystack)
        }
        CONTAINS => {
            let ids = list(random);
            let id = match random.below(3) {
                0 => random.pick(&EXTREMES),
                _ if ids.is_empty() => 0,
                1 => random.pick(&ids),
                _ => random.pick(&ids).wrapping_add(1),
            };
            id_and_list(id, &ids)
        }
        ASCENDING => {
            let mut ids = list(random);
            ids.sort();
            if !random.once_in(4) {
                ids.dedup();
            }
            if random.once_in(3) && ids.len() > 1 {
                let place = random.below(ids.len() - 1);
                ids.swap(place, place + 1);
            }
            Case::new(ASCENDING, ids)
        }
        COMPARE => {
            let left = list(random);
            let mut right = left.clone();
            if random.once_in(4) {
                right = list(random);
            } else if random.once_in(2) && !right.is_empty() {
                let place = random.below(right.len());
                right[place] = id(random);
            } else {
                right.truncate(random.below(left.len() + 1));
            }
            if random.once_in(2) {
                two_lists(COMPARE, &left, &right)
            } else {
                two_lists(COMPARE, &right, &left)
            }
        }
        STEP => steps::valid(random),
        _ => {
            let number = |random: &mut Random| match random.below(4) {
                0 => random.pick(&EXTREMES),
                1 => random.between(65_530, 65_540) as u32,
                _ => random.below(65_536) as u32,
            };
            Case::new(PROPERTY, vec![number(random), number(random)])
        }
    }
}

fn id(random: &mut Random) -> u32 {
    match random.below(3) {
        0 => random.pick(&EXTREMES),
        1 => random.below(300) as u32,
        _ => random.word(),
    }
}

/// A list in any order: mostly short, from few values or from many.
fn list(random: &mut Random) -> Vec<u32> {
    let length = match random.below(8) {
        0 => random.between(0, LONGEST_LIST),
        1 | 2 => random.between(0, 30),
        _ => random.between(0, 8),
    };
    let values = random.below(4);
    let mut ids: Vec<u32> = (0..length)
        .map(|_| match values {
            0 => random.below(6) as u32,
            1 => random.below(300) as u32,
            2 => random.pick(&EXTREMES),
            _ => random.word(),
        })
        .collect();
    if random.once_in(4) {
        ids.sort();
    }
    ids
}

/// Some of a list's ids in any order, at times with a foreign one.
fn some_of(ids: &[u32], random: &mut Random) -> Vec<u32> {
    let mut some = Vec::new();
    if !ids.is_empty() {
        for _ in 0..random.below(ids.len().min(12) + 1) {
            some.push(random.pick(ids));
        }
    }
    if random.once_in(3) {
        some.push(id(random));
    }
    some
}
