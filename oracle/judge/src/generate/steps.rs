//! List cases about one step and one subject (kind 7).

use super::paths::{Tags, fitting, rubbish_in_row, step, subject};
use super::random::Random;
use super::{EXTREMES, all_lists};
use crate::paths::{ROW_HEAD, STEP_IDS, STEP_ROW, SUBJECT_IDS, SUBJECT_ROW};
use crate::words::Case;

pub const STEP: u32 = 7;

/// A step row, then a subject row.
fn case(step: &[u32; STEP_ROW], subject: &[u32; SUBJECT_ROW]) -> Case {
    Case::new(STEP, [&step[..], subject].concat())
}

fn plain(step: &Tags, subject: &Tags) -> Case {
    case(&step.row(), &subject.row())
}

pub fn fixed() -> Vec<Case> {
    let mut cases = small();
    cases.extend(extremes());
    cases.extend(flags());
    cases.extend(counts());
    cases.extend(orders());
    cases.extend(lengths());
    cases
}

/// A step that asks for everything, and a subject that has it and more. Their
/// rows are full, also past the counts.
fn full() -> ([u32; STEP_ROW], [u32; SUBJECT_ROW]) {
    let mut step = [0; STEP_ROW];
    let mut subject = [0; SUBJECT_ROW];
    step[..ROW_HEAD].copy_from_slice(&[1, 7, 1, 9, 2, 1]);
    subject[..ROW_HEAD].copy_from_slice(&[1, 7, 1, 9, 10, 12]);
    for place in 0..STEP_IDS {
        step[ROW_HEAD + place] = 10 + place as u32;
        step[ROW_HEAD + STEP_IDS + place] = 40 + place as u32;
    }
    for place in 0..SUBJECT_IDS {
        subject[ROW_HEAD + place] = 10 + place as u32;
        subject[ROW_HEAD + SUBJECT_IDS + place] = 40 + place as u32;
    }
    (step, subject)
}

/// Every two lists of at most 2 of 3 ids, as classes and as pseudos: in any
/// order and repeated, in the step and in the subject.
fn small() -> Vec<Case> {
    let lists = all_lists(&[0, 1, 2], 2);
    let mut cases = Vec::new();
    for asked in &lists {
        for has in &lists {
            cases.push(plain(&Tags::of_ids(asked, &[]), &Tags::of_ids(has, &[])));
            cases.push(plain(&Tags::of_ids(&[], asked), &Tags::of_ids(&[], has)));
        }
    }
    // An id of the other kind does not help.
    cases.push(plain(&Tags::of_ids(&[1], &[]), &Tags::of_ids(&[], &[1])));
    cases.push(plain(&Tags::of_ids(&[], &[1]), &Tags::of_ids(&[1], &[])));
    cases.push(plain(&Tags::of_type(1), &Tags::of_part(1)));
    cases.push(plain(&Tags::of_part(1), &Tags::of_type(1)));
    cases
}

/// Extreme numbers, alike and not, as each kind of id; and all as a list.
fn extremes() -> Vec<Case> {
    let dresses: [fn(u32) -> Tags; 4] = [
        Tags::of_type,
        Tags::of_part,
        |id| Tags::of_ids(&[id], &[]),
        |id| Tags::of_ids(&[], &[id]),
    ];
    let mut cases = Vec::new();
    for asked in EXTREMES {
        for dress in dresses {
            for has in EXTREMES {
                cases.push(plain(&dress(asked), &dress(has)));
            }
            cases.push(plain(&dress(asked), &Tags::of_ids(&EXTREMES, &EXTREMES)));
        }
    }
    let mut back = EXTREMES;
    back.reverse();
    cases.push(plain(
        &Tags::of_ids(&back[..STEP_IDS], &EXTREMES[..STEP_IDS]),
        &Tags::of_ids(&EXTREMES, &EXTREMES),
    ));
    cases.push(plain(&Tags::default(), &Tags::of_ids(&back, &[])));
    cases.push(plain(&Tags::default(), &Tags::of_ids(&[], &back)));
    cases
}

/// Every flag of both rows, on alike and unlike numbers.
fn flags() -> Vec<Case> {
    let values = [0, 1, 2, 0x100, u32::MAX];
    let mut cases = Vec::new();
    for place in [0, 2] {
        for asked in values {
            for has in values {
                for more in [0, 1] {
                    let (mut step, mut subject) = full();
                    step[place] = asked;
                    subject[place] = has;
                    subject[place + 1] += more;
                    cases.push(case(&step, &subject));
                }
            }
        }
    }
    cases
}

/// Counts at and past the room, one and two at a time.
fn counts() -> Vec<Case> {
    let places = |room: usize, at: usize| {
        let room = room as u32;
        let values = [
            0,
            1,
            room - 1,
            room,
            room + 1,
            2 * room,
            0x100,
            0x1_0000,
            0x8000_0000,
            u32::MAX,
        ];
        [at + 4, at + 5].map(|place| values.map(|value| (place, value)))
    };
    let step = places(STEP_IDS, 0);
    let subject = places(SUBJECT_IDS, STEP_ROW);
    let all: Vec<_> = [step.concat(), subject.concat()].concat();
    let (step, subject) = full();
    let full = case(&step, &subject);
    let mut cases = Vec::new();
    for &(place, value) in &all {
        let mut one = full.clone();
        one.body[place] = value;
        cases.push(one.clone());
        // Which refusal comes first where the ids descend as well.
        one.body[STEP_ROW + ROW_HEAD + 1] = 0;
        cases.push(one.clone());
        for place in [4, 5, STEP_ROW + 4, STEP_ROW + 5] {
            for value in [STEP_IDS as u32, STEP_IDS as u32 + 1, SUBJECT_IDS as u32 + 1] {
                let mut two = one.clone();
                two.body[place] = value;
                cases.push(two);
            }
        }
    }
    cases
}

/// A subject's ids descending or repeated at every place, with a step that
/// asks for something, and with one that asks for nothing; the same just past
/// the counts; and a full step, repeated or missing one id.
fn orders() -> Vec<Case> {
    let mut cases = Vec::new();
    for list in [ROW_HEAD, ROW_HEAD + SUBJECT_IDS] {
        for place in list..list + SUBJECT_IDS - 1 {
            let (step, mut subject) = full();
            subject[4] = SUBJECT_IDS as u32;
            subject[5] = SUBJECT_IDS as u32;
            let mut swapped = subject;
            swapped.swap(place, place + 1);
            subject[place + 1] = subject[place];
            for subject in [swapped, subject] {
                cases.push(case(&step, &subject));
                cases.push(case(&[0; STEP_ROW], &subject));
                let mut shorter = subject;
                shorter[4] = 10;
                shorter[5] = 10;
                cases.push(case(&step, &shorter));
            }
        }
    }
    for list in [ROW_HEAD, ROW_HEAD + STEP_IDS] {
        for place in list..list + STEP_IDS {
            for id in [0, 12, 42, u32::MAX] {
                let (mut step, subject) = full();
                step[4] = STEP_IDS as u32;
                step[5] = STEP_IDS as u32;
                step[place] = id;
                cases.push(case(&step, &subject));
            }
        }
    }
    cases
}

/// Too few words, enough and too many.
fn lengths() -> Vec<Case> {
    let words = STEP_ROW + SUBJECT_ROW;
    let (step, subject) = full();
    let lengths = [0, 1, STEP_ROW - 1, STEP_ROW, STEP_ROW + 1];
    let longer = [words - 1, words, words + 1, words + 60];
    let lengths = lengths.into_iter().chain(longer);
    lengths
        .map(|length| {
            let mut body = case(&step, &subject).body;
            body.resize(length, u32::MAX);
            Case::new(STEP, body)
        })
        .collect()
}

pub fn valid(random: &mut Random) -> Case {
    let step = step(random);
    let subject = if random.once_in(3) {
        subject(random)
    } else {
        fitting(&step, random)
    };
    let mut step = step.row();
    let mut subject = subject.row();
    if random.once_in(2) {
        rubbish_in_row(&mut step, random);
        rubbish_in_row(&mut subject, random);
    }
    if random.once_in(4) {
        disorder(&mut subject, random);
    }
    if random.once_in(8) {
        step[random.pick(&[4, 5])] = random.between(STEP_IDS - 1, STEP_IDS + 2) as u32;
    }
    if random.once_in(8) {
        subject[random.pick(&[4, 5])] = random.between(SUBJECT_IDS - 1, SUBJECT_IDS + 2) as u32;
    }
    case(&step, &subject)
}

/// Ids exchanged or repeated, and as often one more that is an early one
/// again.
fn disorder(row: &mut [u32; SUBJECT_ROW], random: &mut Random) {
    let (count, list) = random.pick(&[(4, ROW_HEAD), (5, ROW_HEAD + SUBJECT_IDS)]);
    let ids = row[count] as usize;
    if ids == 0 {
        return;
    }
    let place = list + random.below(ids);
    let other = list + random.below(ids);
    if random.once_in(2) {
        row.swap(place, other);
    } else if ids < SUBJECT_IDS {
        row[list + ids] = row[place];
        row[count] += 1;
    } else {
        row[place] = row[other];
    }
}
