//! Cases about selectors and paths, and ends of a stream.

use super::damage::damage_words;
use super::random::Random;
use super::{EXTREMES, all_lists};
use crate::batches::bytes_of;
use crate::paths::{
    MOST_LENT, PLACES, PathCase, ROW_HEAD, STEP_IDS, STEP_ROW, STEPS, SUBJECT_IDS, SUBJECT_ROW,
};
use crate::shrink::changeable;

/// What a step asks for, or what a subject has.
#[derive(Clone, Debug, Default)]
pub struct Tags {
    pub type_tag: Option<u32>,
    pub part_tag: Option<u32>,
    pub classes: Vec<u32>,
    pub pseudos: Vec<u32>,
}

impl Tags {
    pub fn of_type(tag: u32) -> Self {
        Self {
            type_tag: Some(tag),
            ..Self::default()
        }
    }

    pub fn of_part(tag: u32) -> Self {
        Self {
            part_tag: Some(tag),
            ..Self::default()
        }
    }

    pub fn of_ids(classes: &[u32], pseudos: &[u32]) -> Self {
        Self {
            classes: classes.to_vec(),
            pseudos: pseudos.to_vec(),
            ..Self::default()
        }
    }

    /// A row, half of whose room is for classes and half for pseudos.
    pub fn row<const LENGTH: usize>(&self) -> [u32; LENGTH] {
        let room = (LENGTH - ROW_HEAD) / 2;
        let mut row = [0; LENGTH];
        row[0] = u32::from(self.type_tag.is_some());
        row[1] = self.type_tag.unwrap_or(0);
        row[2] = u32::from(self.part_tag.is_some());
        row[3] = self.part_tag.unwrap_or(0);
        row[4] = self.classes.len() as u32;
        row[5] = self.pseudos.len() as u32;
        row[ROW_HEAD..][..self.classes.len()].copy_from_slice(&self.classes);
        row[ROW_HEAD + room..][..self.pseudos.len()].copy_from_slice(&self.pseudos);
        row
    }

    /// What a row says, or nothing if a count is over the room.
    fn of_row(row: &[u32]) -> Option<Self> {
        let room = (row.len() - ROW_HEAD) / 2;
        let (classes, pseudos) = row[ROW_HEAD..].split_at(room);
        Some(Self {
            type_tag: (row[0] != 0).then_some(row[1]),
            part_tag: (row[2] != 0).then_some(row[3]),
            classes: classes.get(..row[4] as usize)?.to_vec(),
            pseudos: pseudos.get(..row[5] as usize)?.to_vec(),
        })
    }

    /// Does a step with these tags match a subject?
    fn matches(&self, subject: &Self) -> bool {
        let tag = |needed: Option<u32>, given| needed.is_none() || needed == given;
        let ids = |needed: &[u32], given: &[u32]| needed.iter().all(|id| given.contains(id));
        tag(self.type_tag, subject.type_tag)
            && tag(self.part_tag, subject.part_tag)
            && ids(&self.classes, &subject.classes)
            && ids(&self.pseudos, &subject.pseudos)
    }
}

/// A case with counts that say what is lent.
fn case(steps: &[Tags], codes: &[u32], subjects: &[Tags]) -> PathCase {
    PathCase {
        steps: steps.len() as u32,
        step_rows: steps.iter().map(Tags::row).collect(),
        combinators: codes.len() as u32,
        codes: codes.to_vec(),
        places: subjects.len() as u32,
        subject_rows: subjects.iter().map(Tags::row).collect(),
    }
}

/// A selector of alike steps, all child, on a path of alike subjects.
fn plain(steps: usize, places: usize) -> PathCase {
    case(
        &vec![Tags::of_type(1); steps],
        &vec![0; steps.saturating_sub(1)],
        &vec![Tags::of_type(1); places],
    )
}

pub fn fixed() -> Vec<PathCase> {
    let mut cases = small();
    cases.extend(marked());
    cases.extend(size_edges());
    cases.extend(lent_edges());
    cases.extend(code_and_flag_edges());
    cases.extend(id_edges());
    cases.extend(faults_together());
    cases
}

/// Every selector of at most 3 steps over 2 types with both combinators, on
/// every path of at most 4 places over the same types; and all of that again
/// with a part, a class or a pseudo in place of the type.
fn small() -> Vec<PathCase> {
    let dresses: [fn(u32) -> Tags; 4] = [
        Tags::of_type,
        Tags::of_part,
        |id| Tags::of_ids(&[id], &[]),
        |id| Tags::of_ids(&[], &[id]),
    ];
    let mut cases = Vec::new();
    let paths = all_lists(&[0, 1], 4);
    for dress in dresses {
        let tags = |numbers: &[u32]| -> Vec<Tags> { numbers.iter().copied().map(dress).collect() };
        for steps in all_lists(&[0, 1], 3) {
            let combinators = steps.len().saturating_sub(1);
            for codes in all_lists(&[0, 1], combinators) {
                if codes.len() == combinators {
                    let of_path = |path: &Vec<u32>| case(&tags(&steps), &codes, &tags(path));
                    cases.extend(paths.iter().map(of_path));
                }
            }
        }
    }
    cases
}

/// Document 01's own examples P1 to P7.
fn marked() -> Vec<PathCase> {
    let [a, b, c] = [1, 2, 3].map(Tags::of_type);
    let has = |classes: &[u32]| Tags::of_ids(classes, &[]);
    let both = [a.clone(), b.clone()];
    let three = [a.clone(), b.clone(), c.clone()];
    vec![
        case(&[], &[], &[]),
        case(&[], &[], &both[..1]),
        case(&both, &[1], &three),
        case(&both, &[1], &[a.clone(), b.clone(), b.clone()]),
        case(&three, &[1, 0], &[&both[..], &both].concat()),
        case(&three, &[1, 0], &[a.clone(), b, a]),
        case(&[has(&[2, 5])], &[], &[has(&[2, 3, 5])]),
        case(&[has(&[2, 5])], &[], &[has(&[2, 6])]),
    ]
}

/// Steps, combinators and places at, under and over their sizes.
fn size_edges() -> Vec<PathCase> {
    let mut cases = Vec::new();
    let (steps, places) = (STEPS as usize, PLACES as usize);
    for given in [0, 1, steps - 1, steps, steps + 1] {
        for path in [0, 1, given] {
            cases.push(plain(given, path));
        }
    }
    // Every number of combinators for every number of steps.
    for given in 0..=steps + 1 {
        for combinators in 0..=steps + 2 {
            let mut case = plain(given, given);
            case.codes = vec![1; steps + 2];
            case.combinators = combinators as u32;
            cases.push(case);
        }
    }
    for path in [places - 1, places, places + 1] {
        cases.push(plain(0, path));
        let mut descendant = plain(2, path);
        descendant.codes[0] = 1;
        cases.push(descendant.clone());
        descendant.subject_rows[path - 1][1] = 9;
        cases.push(descendant);
        let mut last_differs = plain(3, path);
        last_differs.codes = vec![1, 1];
        last_differs.subject_rows[path - 1][1] = 9;
        cases.push(last_differs);
    }
    cases.push(heavy());
    cases
}

/// The search that judges most steps: every way to place them, and none fits,
/// since the last place has no tag.
fn heavy() -> PathCase {
    let mut case = plain(STEPS as usize, PLACES as usize);
    case.codes.fill(1);
    case.subject_rows[PLACES as usize - 1][0] = 0;
    case
}

/// Counts past what is lent, counts that leave some of it unused, and as much
/// lent as may be.
fn lent_edges() -> Vec<PathCase> {
    let mut cases = Vec::new();
    let most = MOST_LENT;
    let counts = [
        0,
        1,
        2,
        3,
        4,
        7,
        8,
        9,
        31,
        32,
        33,
        255,
        256,
        299,
        300,
        301,
        0x1_0000,
        0x8000_0000,
        u32::MAX - 1,
        u32::MAX,
    ];
    for count in counts {
        let base = plain(2, 2);
        cases.push(PathCase {
            steps: count,
            ..base.clone()
        });
        cases.push(PathCase {
            combinators: count,
            ..base.clone()
        });
        cases.push(PathCase {
            places: count,
            ..base
        });
        // Steps and combinators that agree with each other.
        cases.push(PathCase {
            steps: count,
            combinators: count.saturating_sub(1),
            ..plain(8, 2)
        });
        // Nothing lent at all.
        let (steps, places) = (count, count);
        cases.push(PathCase {
            steps,
            ..PathCase::default()
        });
        cases.push(PathCase {
            combinators: count,
            ..PathCase::default()
        });
        cases.push(PathCase {
            places,
            ..PathCase::default()
        });
    }
    for lent in [most - 1, most].map(|lent| lent as usize) {
        for count in [0, 1, 8, 9, lent as u32, lent as u32 + 1] {
            let mut steps = plain(2, 1);
            steps.step_rows.resize(lent, [u32::MAX; STEP_ROW]);
            steps.step_rows[2..8].fill(Tags::of_type(1).row());
            cases.push(PathCase {
                steps: count,
                combinators: 0,
                ..steps
            });
            let mut codes = plain(2, 2);
            codes.codes.resize(lent, 2);
            cases.push(PathCase {
                combinators: count,
                ..codes
            });
        }
        for count in [0, 2, 31, 32, 33, lent as u32, lent as u32 + 1] {
            let mut subjects = plain(2, 32);
            subjects.codes = vec![1];
            subjects.subject_rows.resize(lent, [u32::MAX; SUBJECT_ROW]);
            cases.push(PathCase {
                places: count,
                ..subjects
            });
        }
    }
    let mut all = plain(2, 2);
    all.step_rows.resize(most as usize, [u32::MAX; STEP_ROW]);
    all.codes.resize(most as usize, u32::MAX);
    all.subject_rows
        .resize(most as usize, [u32::MAX; SUBJECT_ROW]);
    cases.push(all);
    cases
}

/// Combinator codes at every place, and flags.
fn code_and_flag_edges() -> Vec<PathCase> {
    let mut cases = Vec::new();
    for code in [0, 1, 2, 3, 0x100, 0x1_0000, 0x8000_0000, u32::MAX] {
        // The last one stands past the count given, and does not count.
        for place in 0..4 {
            let mut case = plain(4, 4);
            case.codes.push(0);
            case.codes[place] = code;
            cases.push(case);
        }
    }
    // All but 0 mean set; without a flag the tag's number counts not.
    for flag in [0, 1, 2, 0x100, 0x1_0000, 0x8000_0000, u32::MAX] {
        for place in [0, 2] {
            for tag in [0, 7] {
                let mut case = case(&[Tags::default()], &[], &[Tags::default()]);
                case.step_rows[0][place] = flag;
                case.step_rows[0][place + 1] = tag;
                cases.push(case.clone());
                case.subject_rows[0][place] = 1;
                case.subject_rows[0][place + 1] = 7;
                cases.push(case.clone());
                case.subject_rows[0][place] = flag;
                cases.push(case.clone());
                case.step_rows[0][place] = 1;
                cases.push(case);
            }
        }
    }
    cases
}

/// Required ids and subjects' ids: their counts, their order, their extremes,
/// and a class that is not taken for a pseudo.
fn id_edges() -> Vec<PathCase> {
    let mut cases = Vec::new();
    let up = |count: usize| -> Vec<u32> { (1..=count as u32).collect() };
    let one = |step: Tags, subject: Tags| case(&[step], &[], &[subject]);
    for (classes, pseudos) in [(7, 0), (8, 0), (0, 7), (0, 8), (8, 8)] {
        for (has_classes, has_pseudos) in [(7, 7), (8, 8), (15, 16), (16, 15), (16, 16)] {
            cases.push(one(
                Tags::of_ids(&up(classes), &up(pseudos)),
                Tags::of_ids(&up(has_classes), &up(has_pseudos)),
            ));
        }
    }
    let full = one(
        Tags::of_ids(&up(STEP_IDS), &up(STEP_IDS)),
        Tags::of_ids(&up(SUBJECT_IDS), &up(SUBJECT_IDS)),
    );
    let repeated = one(Tags::of_ids(&[3; 8], &[3; 8]), Tags::of_ids(&[3], &[3]));
    for place in [4, 5] {
        for count in [0, 1, 7, 8, 9, 15, 16, 17, 0x100, 0x8000_0000, u32::MAX] {
            for base in [&full, &repeated] {
                let mut case = base.clone();
                case.step_rows[0][place] = count;
                cases.push(case);
            }
            let mut case = full.clone();
            case.subject_rows[0][place] = count;
            cases.push(case);
        }
        // In each row in turn, the last of which stands past the count.
        for row in 0..=STEPS as usize {
            let mut case = plain(STEPS as usize, STEPS as usize);
            case.step_rows.push(case.step_rows[0]);
            case.step_rows[row][place] = STEP_IDS as u32 + 1;
            cases.push(case);
        }
        for row in 0..=PLACES as usize {
            let mut case = plain(2, PLACES as usize);
            case.codes = vec![1];
            case.subject_rows.push(case.subject_rows[0]);
            case.subject_rows[row][place] = SUBJECT_IDS as u32 + 1;
            cases.push(case);
        }
    }
    // A row past the counts given may hold anything.
    let mut past = full.clone();
    past.step_rows.push([u32::MAX; STEP_ROW]);
    past.subject_rows.push([u32::MAX; SUBJECT_ROW]);
    cases.push(past);
    // A required id in any order, repeated, or at any place; one missing.
    for ids in [[8, 7, 6, 5, 4, 3, 2, 1], [3; 8], [2, 5, 2, 5, 2, 5, 2, 5]] {
        for subject in [&[2, 3, 5][..], &[2, 6], &[3], &[1, 2, 3, 4, 5, 6, 7, 8]] {
            cases.push(one(Tags::of_ids(&ids, &[]), Tags::of_ids(subject, &[])));
            cases.push(one(Tags::of_ids(&[], &ids), Tags::of_ids(&[], subject)));
            cases.push(one(Tags::of_ids(&ids, &[]), Tags::of_ids(&[], subject)));
            cases.push(one(Tags::of_ids(&[], &ids), Tags::of_ids(subject, &[])));
        }
    }
    cases.extend(order_edges(&full));
    for id in EXTREMES {
        for other in EXTREMES {
            cases.push(one(
                Tags::of_ids(&[id], &[other]),
                Tags::of_ids(&EXTREMES, &EXTREMES),
            ));
            cases.push(one(
                Tags::of_ids(&[id, other], &[]),
                Tags::of_ids(&[other], &[id]),
            ));
            cases.push(one(Tags::of_type(id), Tags::of_type(other)));
            cases.push(one(Tags::of_part(id), Tags::of_part(other)));
            // Ascending or not, as numbers without a sign.
            cases.push(one(Tags::default(), Tags::of_ids(&[id, other], &[])));
            cases.push(one(Tags::default(), Tags::of_ids(&[], &[id, other])));
        }
    }
    // Type is not part.
    cases.push(one(Tags::of_type(1), Tags::of_part(1)));
    cases.push(one(Tags::of_part(1), Tags::of_type(1)));
    cases
}

/// Subjects not ascending at each place of a row: equal ids, and ids the
/// wrong way round; and in each row of a path.
fn order_edges(full: &PathCase) -> Vec<PathCase> {
    let mut cases = Vec::new();
    for begin in [ROW_HEAD, ROW_HEAD + SUBJECT_IDS] {
        for place in 0..SUBJECT_IDS - 1 {
            let mut equal = full.clone();
            let row = &mut equal.subject_rows[0];
            row[begin + place] = row[begin + place + 1];
            cases.push(equal);
            let mut turned = full.clone();
            turned.subject_rows[0].swap(begin + place, begin + place + 1);
            cases.push(turned);
            // Past the count it does not matter.
            let mut past = full.clone();
            let row = &mut past.subject_rows[0];
            row[4] = place as u32 + 1;
            row[5] = place as u32 + 1;
            row[begin + place + 1] = 0;
            cases.push(past);
        }
    }
    let places = PLACES as usize;
    for ids in [[2, 1], [1, 1]] {
        for wrong in [Tags::of_ids(&ids, &[]), Tags::of_ids(&[], &ids)] {
            for row in 0..=places {
                // The last row stands past the path, and is not looked at.
                let mut case = plain(2, places);
                case.codes = vec![1];
                case.subject_rows.push(Tags::default().row());
                case.subject_rows[row] = wrong.row();
                cases.push(case.clone());
                // The same with the path given just short of it, and with it.
                case.places = row as u32;
                cases.push(case.clone());
                case.places = row as u32 + 1;
                cases.push(case);
            }
        }
    }
    cases
}

/// Faults for 2 (selector), 2 (path), 3, 6 and 1, of several sorts each, in
/// every combination.
fn faults_together() -> Vec<PathCase> {
    let mut cases = Vec::new();
    let sorts = [6, 5, 3, 3, 3];
    for number in 0..sorts.iter().product::<usize>() {
        let mut rest = number;
        let [selector, path, combinators, code, order] = sorts.map(|sort| {
            let chosen = rest % sort;
            rest /= sort;
            chosen
        });
        let mut case = case(
            &[Tags::of_type(1), Tags::of_type(1), Tags::of_type(1)],
            &[0, 1],
            &[
                Tags::of_ids(&[1, 2], &[1, 2]),
                Tags::of_ids(&[1, 2], &[1, 2]),
            ],
        );
        match combinators {
            0 => {}
            1 => case.combinators = 1,
            _ => {
                case.codes.push(0);
                case.combinators = 3;
            }
        }
        match code {
            0 => {}
            1 => case.codes[0] = 2,
            _ => case.codes[0] = u32::MAX,
        }
        match order {
            0 => {}
            1 => case.subject_rows[0][ROW_HEAD] = 2,
            _ => case.subject_rows[1][ROW_HEAD + SUBJECT_IDS] = 3,
        }
        match path {
            0 => {}
            1 => case.places = 3,
            2 => {
                case.subject_rows.resize(33, case.subject_rows[0]);
                case.places = 33;
            }
            3 => case.subject_rows[1][4] = 17,
            _ => case.subject_rows[0][5] = u32::MAX,
        }
        match selector {
            0 => {}
            1 => case.steps = 4,
            2 => {
                case.step_rows.resize(9, case.step_rows[0]);
                case.steps = 9;
            }
            3 => case.combinators = case.codes.len() as u32 + 1,
            4 => case.step_rows[2][4] = 9,
            _ => case.step_rows[0][5] = u32::MAX,
        }
        cases.push(case);
    }
    cases
}

/// Streams that end inside a case, or in a case that lends too much.
pub fn fixed_ends() -> Vec<Vec<u8>> {
    let mut ends = Vec::new();
    // Every cut of three small cases.
    let mut mixed = plain(1, 1);
    mixed.codes.push(1);
    let mut combinators = plain(0, 0);
    combinators.codes = vec![0, 1];
    for case in [plain(0, 0), combinators, mixed.clone()] {
        let bytes = bytes_of(&case.words());
        ends.extend((1..bytes.len()).map(|length| bytes[..length].to_vec()));
    }
    // Each of the three numbers: its place in the words, and the words that
    // one row or word takes.
    let words = mixed.words();
    let third = 5 + STEP_ROW + 1;
    for (place, length) in [(1, STEP_ROW), (3 + STEP_ROW, 1), (third, SUBJECT_ROW)] {
        let with = |number: u32| {
            let mut begin = words[..place].to_vec();
            begin.push(number);
            begin
        };
        for number in [301, 512, 0x100_0000, 0x8000_0000, u32::MAX] {
            // The last word of all; and with more than would be needed.
            ends.push(bytes_of(&with(number)));
            let mut more = with(number);
            more.resize(more.len() + 302 * length, 0);
            more.extend(plain(1, 1).words());
            ends.push(bytes_of(&more));
        }
        // 301 but for its last byte; 300 and no more; 300 but for the last
        // byte of what they need.
        let mut cut = bytes_of(&with(301));
        cut.pop();
        ends.push(cut);
        ends.push(bytes_of(&with(300)));
        let mut cut = with(300);
        cut.resize(cut.len() + 300 * length, 0);
        cut.extend(&words[place + 1 + length..]);
        let mut cut = bytes_of(&cut);
        cut.pop();
        ends.push(cut);
    }
    ends
}

/// An end by chance: a case cut anywhere, one that lends too much, or one
/// with its words damaged, which may be anything.
pub fn random_end(random: &mut Random) -> Vec<u8> {
    let mut words = random_case(random).words();
    match random.below(4) {
        0 => {
            let place = random.below(words.len());
            words[place] = random.pick(&[301, 302, 0x1_0000, u32::MAX]);
        }
        1 => damage_words(&mut words, random),
        _ => {}
    }
    let mut bytes = bytes_of(&words);
    if random.once_in(2) {
        bytes.truncate(random.below(bytes.len() + 1));
    }
    bytes
}

pub fn random_case(random: &mut Random) -> PathCase {
    let damaged = random.below(10);
    loop {
        let mut case = valid(random);
        match damaged {
            0 => fault(&mut case, random),
            1 | 2 => damage(&mut case, random),
            _ => {}
        }
        if work(&case) <= MOST_WORK {
            return case;
        }
    }
}

/// One to three words changed, but not the numbers of what is lent.
fn damage(case: &mut PathCase, random: &mut Random) {
    for _ in 0..random.between(1, 3) {
        let mut words = changeable(case);
        let place = random.below(words.len());
        let other = random.below(words.len());
        // Half of the time a word that mostly counts: a count or a code.
        let early = random.below(words.len().min(8));
        let place = if random.once_in(2) { early } else { place };
        *words[place] = match random.below(5) {
            0 => random.word(),
            1 => random.pick(&EXTREMES),
            2 => random.below(4) as u32,
            3 => *words[place] ^ (1 << random.below(32)),
            _ => *words[other],
        };
    }
}

/// One fault that damage at random seldom makes.
fn fault(case: &mut PathCase, random: &mut Random) {
    let more = if random.once_in(2) { 1 } else { u32::MAX };
    let subjects = case.subject_rows.len();
    match random.below(8) {
        0 => case.steps = case.steps.wrapping_add(more),
        1 => case.combinators = case.combinators.wrapping_add(more),
        2 => case.places = case.places.wrapping_add(more),
        3 => {
            case.combinators = case.combinators.wrapping_add(1);
            case.codes.push(random.below(3) as u32);
        }
        4 => {
            if let Some(code) = case.codes.last_mut() {
                *code = random.pick(&[2, 3, 0x100, u32::MAX]);
            }
        }
        5 if subjects > 0 => {
            let row = &mut case.subject_rows[random.below(subjects)];
            let place = random.pick(&[4, 5]);
            row[place] = row[place].wrapping_add(random.between(1, 3) as u32);
        }
        6 if subjects > 0 => {
            // Two ids exchanged or equal.
            let row = &mut case.subject_rows[random.below(subjects)];
            let place = random.pick(&[ROW_HEAD, ROW_HEAD + SUBJECT_IDS]) + random.below(3);
            if random.once_in(2) {
                row.swap(place, place + 1);
            } else {
                row[place] = row[place + 1];
            }
        }
        _ => {
            if !case.step_rows.is_empty() {
                let row = random.below(case.step_rows.len());
                case.step_rows[row][random.pick(&[4, 5])] = random.between(7, 10) as u32;
            }
        }
    }
}

/// The most single tests that a random case may take. A search grows fast
/// with the steps; the costliest one is among the edges.
const MOST_WORK: u64 = 20_000;

fn valid(random: &mut Random) -> PathCase {
    let steps: Vec<Tags> = (0..step_count(random)).map(|_| step(random)).collect();
    let combinators = steps.len().saturating_sub(1);
    let codes: Vec<u32> = (0..combinators).map(|_| random.below(2) as u32).collect();
    let subjects = if random.once_in(4) {
        let most = random.pick(&[2, 6, 6, PLACES as usize]);
        let places = random.between(0, most);
        (0..places).map(|_| subject(random)).collect()
    } else {
        path_for(&steps, &codes, random)
    };
    let mut case = case(&steps, &codes, &subjects);
    if random.once_in(3) {
        rubbish(&mut case, random);
    }
    case
}

fn step_count(random: &mut Random) -> usize {
    match random.below(8) {
        0 => random.between(5, STEPS as usize),
        _ => random.below(5),
    }
}

/// How many steps are judged at the most: each step's count for each place,
/// from the last step back. None if the case is refused for its counts.
fn work(case: &PathCase) -> u64 {
    let steps = case.step_rows.iter().take(case.steps as usize);
    let steps: Option<Vec<Tags>> = steps.map(|row| Tags::of_row(row)).collect();
    let subjects = case.subject_rows.iter().take(case.places as usize);
    let subjects: Option<Vec<Tags>> = subjects.map(|row| Tags::of_row(row)).collect();
    let (Some(steps), Some(subjects)) = (steps, subjects) else {
        return 0;
    };
    let mut after = vec![0u64; subjects.len() + 1];
    for (number, step) in steps.iter().enumerate().rev() {
        let mut here = vec![1u64; subjects.len() + 1];
        for (place, subject) in subjects.iter().enumerate() {
            if step.matches(subject) && number + 1 < steps.len() {
                here[place] += match case.codes.get(number) {
                    Some(1) => after[place + 1..subjects.len()].iter().sum(),
                    _ => after[place + 1],
                };
            }
        }
        after = here;
    }
    after[0]
}

fn tag(random: &mut Random) -> Option<u32> {
    match random.below(6) {
        0 | 1 => None,
        2 => Some(random.pick(&EXTREMES)),
        _ => Some(random.below(3) as u32),
    }
}

fn ids(random: &mut Random, most: usize) -> Vec<u32> {
    let count = match random.below(10) {
        0 => random.between(0, most),
        1..=3 => random.between(1, 2),
        _ => 0,
    };
    (0..count)
        .map(|_| match random.below(8) {
            0 => random.pick(&EXTREMES),
            1 => random.word(),
            _ => random.below(5) as u32,
        })
        .collect()
}

pub fn step(random: &mut Random) -> Tags {
    let part_tag = if random.once_in(3) { tag(random) } else { None };
    Tags {
        type_tag: tag(random),
        part_tag,
        classes: ids(random, STEP_IDS),
        pseudos: ids(random, STEP_IDS),
    }
}

pub fn subject(random: &mut Random) -> Tags {
    let mut subject = step(random);
    subject.classes = ascending(ids(random, SUBJECT_IDS));
    subject.pseudos = ascending(ids(random, SUBJECT_IDS));
    subject
}

/// A list sorted and made unique, and no longer than a subject may hold.
fn ascending(mut ids: Vec<u32>) -> Vec<u32> {
    ids.sort();
    ids.dedup();
    ids.truncate(SUBJECT_IDS);
    ids
}

/// A path made to fit, with others between at a descendant combinator, and
/// often with a fault.
fn path_for(steps: &[Tags], codes: &[u32], random: &mut Random) -> Vec<Tags> {
    let mut path = Vec::new();
    for (number, step) in steps.iter().enumerate() {
        if number > 0 && codes[number - 1] == 1 {
            let most = random.pick(&[4, 4, 4, 20]);
            for _ in 0..random.below(most) {
                let between = if random.once_in(3) {
                    fitting(&steps[random.below(steps.len())], random)
                } else {
                    subject(random)
                };
                path.push(between);
            }
        }
        path.push(fitting(step, random));
    }
    match random.below(8) {
        0 => path.push(subject(random)),
        1 => {
            path.pop();
        }
        2 if !path.is_empty() => {
            let place = random.below(path.len());
            path[place] = subject(random);
        }
        3 if !path.is_empty() => {
            let place = random.below(path.len());
            path.remove(place);
        }
        _ => {}
    }
    path.truncate(PLACES as usize);
    path
}

/// A subject that a step matches, with more than it asks for.
pub fn fitting(step: &Tags, random: &mut Random) -> Tags {
    let mut subject = subject(random);
    subject.type_tag = step.type_tag.or(subject.type_tag);
    subject.part_tag = step.part_tag.or(subject.part_tag);
    let with = |needed: &[u32], has: Vec<u32>| {
        let room = SUBJECT_IDS - needed.len();
        let more = has.into_iter().take(room);
        ascending(needed.iter().copied().chain(more).collect())
    };
    subject.classes = with(&step.classes, subject.classes);
    subject.pseudos = with(&step.pseudos, subject.pseudos);
    subject
}

/// Fills what does not count: words past the counts, numbers of tags that are
/// not set, other flags than 1, rows and combinators past the counts given.
fn rubbish(case: &mut PathCase, random: &mut Random) {
    for row in &mut case.step_rows {
        rubbish_in_row(row, random);
    }
    for row in &mut case.subject_rows {
        rubbish_in_row(row, random);
    }
    for _ in 0..random.below(3) {
        case.step_rows.push([0; STEP_ROW].map(|_| random.word()));
    }
    for _ in 0..random.below(3) {
        case.codes.push(random.word());
    }
    for _ in 0..random.below(3) {
        let row = [0; SUBJECT_ROW].map(|_| random.word());
        case.subject_rows.push(row);
    }
}

pub fn rubbish_in_row(row: &mut [u32], random: &mut Random) {
    let room = (row.len() - ROW_HEAD) / 2;
    for flag in [0, 2] {
        if row[flag] == 0 {
            row[flag + 1] = random.word();
        } else {
            row[flag] = random.pick(&[1, 2, 0x100, u32::MAX]);
        }
    }
    for (count, begin) in [(row[4], ROW_HEAD), (row[5], ROW_HEAD + room)] {
        for word in &mut row[begin + count as usize..begin + room] {
            *word = random.pick(&EXTREMES);
        }
    }
}
