//! Cases of tables: the items, and cases by chance. The fixed cases are in
//! walk_edges.rs.

use super::EXTREMES;
use super::builds::{ends, item};
use super::cascades::{changed, winner};
use super::damage::damage_words;
use super::paths::{Tags, rubbish_in_row};
use super::random::Random;
use crate::batches::bytes_of;
use crate::builds::image::{
    HEAD as SHEET_HEAD, RULE_COUNT, SHEET_WORDS, entry_word, rule_word, step_word,
    style_entry_word, style_word, write_added,
};
use crate::builds::model::{Body, Entry, Model, Step};
use crate::builds::{Item, LONGEST_PAYLOAD};
use crate::paths::{SUBJECT_IDS, SUBJECT_ROW};
use crate::walks::image::{
    CURSOR_COUNT, CURSORS, HEAD, MATCHED, MATCHED_COUNT, RANKING, SIZES, STAMP, STATE_COUNT,
    STATE_ROW, STATE_ROWS, TRANSITION_COUNT, TRANSITION_ROW, TRANSITION_ROWS,
};
use crate::walks::table::{Row, root as root_of};
use crate::walks::{BUILD, ENTER, Machine, PART, ROOMS, ROOT, SHEET, TELL, WRITE, WalkCase};

/// The least room that a sheet needs.
pub const ROOM: u32 = SHEET_WORDS as u32;
/// All of every piece.
pub const AMPLE: [u32; 5] = [
    ROOM,
    SIZES[STATE_ROWS] as u32,
    SIZES[CURSORS] as u32,
    SIZES[MATCHED] as u32,
    SIZES[TRANSITION_ROWS] as u32,
];

/// An item without the zeros at its end, which are read all the same.
fn short(op: u32, mut payload: Vec<u32>) -> Item {
    while payload.last() == Some(&0) {
        payload.pop();
    }
    Item { op, payload }
}

pub fn stored(address: usize, words: &[u32]) -> Item {
    item(SHEET, &[&[address as u32], words].concat())
}

pub fn rooms(rooms: [u32; 5]) -> Item {
    item(ROOMS, &rooms)
}

pub fn build(stamp: u32, ranking: u32) -> Item {
    item(BUILD, &[stamp, ranking])
}

pub fn enter_row(number: u32, stamp: u32, row: &Row) -> Item {
    short(ENTER, [&[number, stamp], &row[..]].concat())
}

pub fn enter(number: u32, stamp: u32, subject: &Tags) -> Item {
    enter_row(number, stamp, &subject.row())
}

pub fn part(number: u32, stamp: u32) -> Item {
    item(PART, &[number, stamp])
}

pub fn write(piece: usize, address: usize, words: &[u32]) -> Item {
    item(WRITE, &[&[piece as u32, address as u32], words].concat())
}

pub fn tell(counts: [u32; 5]) -> Item {
    item(TELL, &counts)
}

pub fn root(stamp: u32) -> Item {
    item(ROOT, &[stamp])
}

/// A step as a sheet holds it.
fn held(tags: &Tags) -> Step {
    let ids = |ids: &[u32]| {
        let mut ids = ids.to_vec();
        ids.sort();
        ids.dedup();
        ids
    };
    Step {
        type_tag: tags.type_tag,
        part_tag: tags.part_tag,
        classes: ids(&tags.classes),
        pseudos: ids(&tags.pseudos),
    }
}

/// A rule of these steps; 0 child, 1 descendant.
pub fn body(steps: &[Tags], codes: &[u32]) -> Body {
    Body {
        steps: steps.iter().map(held).collect(),
        codes: codes.to_vec(),
        entries: Vec::new(),
    }
}

/// A sheet of one group.
pub fn group(bodies: &[Body]) -> Model {
    let mut model = Model::default();
    model.push_rules(0, bodies.to_vec());
    model
}

/// The words of a sheet that matter, stored.
pub fn sheet(model: &Model) -> Vec<Item> {
    let mut words = vec![0; SHEET_WORDS];
    write_added(&mut words, model, 0, 0);
    let [rules, steps, _, entries, styles, style_entries] =
        [0, 1, 2, 3, 4, 5].map(|place| words[place] as usize);
    let mut parts = vec![(0, SHEET_HEAD)];
    parts.push((rule_word(0, 0), 5 * rules));
    parts.push((step_word(0, 0), 23 * steps));
    parts.extend([0, 1, 2].map(|column| (entry_word(0, column), entries)));
    parts.push((style_word(0, 0), 3 * styles));
    parts.extend([0, 1, 2].map(|column| (style_entry_word(0, column), style_entries)));
    let longest = LONGEST_PAYLOAD as usize - 1;
    let mut items = Vec::new();
    for (begin, length) in parts {
        let places: Vec<usize> = (begin..begin + length).collect();
        for places in places.chunks(longest) {
            items.push(stored(places[0], &words[places[0]..][..places.len()]));
        }
    }
    items
}

/// What steps ask for, and what subjects have, in one case.
pub(super) struct Pool {
    types: Vec<u32>,
    parts: Vec<u32>,
    classes: Vec<u32>,
    pseudos: Vec<u32>,
}

impl Pool {
    pub(super) fn new(random: &mut Random) -> Self {
        let mut ids = |most: usize| -> Vec<u32> {
            let count = random.between(1, most);
            let odd = random.once_in(6);
            let id = |place: usize, random: &mut Random| match odd {
                true => random.pick(&EXTREMES),
                false => place as u32,
            };
            (0..count).map(|place| id(place, random)).collect()
        };
        Self {
            types: ids(3),
            parts: ids(2),
            classes: ids(5),
            pseudos: ids(3),
        }
    }

    /// Up to so many ids, sorted and unique.
    fn ids(random: &mut Random, from: &[u32], most: usize) -> Vec<u32> {
        let count = random.below(most + 1);
        let mut ids: Vec<u32> = (0..count).map(|_| random.pick(from)).collect();
        ids.sort();
        ids.dedup();
        ids
    }

    pub(super) fn step(&self, random: &mut Random) -> Tags {
        Tags {
            type_tag: random.once_in(2).then(|| random.pick(&self.types)),
            part_tag: random.once_in(8).then(|| random.pick(&self.parts)),
            classes: match random.below(3) {
                0 => Self::ids(random, &self.classes, 2),
                _ => Vec::new(),
            },
            pseudos: match random.below(5) {
                0 => Self::ids(random, &self.pseudos, 2),
                _ => Vec::new(),
            },
        }
    }

    fn subject(&self, random: &mut Random) -> Tags {
        Tags {
            type_tag: (!random.once_in(6)).then(|| random.pick(&self.types)),
            part_tag: random.once_in(4).then(|| random.pick(&self.parts)),
            classes: Self::ids(random, &self.classes, 4),
            pseudos: Self::ids(random, &self.pseudos, 3),
        }
    }
}

pub(super) fn random_codes(random: &mut Random, steps: usize) -> Vec<u32> {
    let codes = 1..steps;
    codes.map(|_| u32::from(random.below(5) < 3)).collect()
}

fn random_body(random: &mut Random, pool: &Pool) -> Body {
    let steps = match random.below(20) {
        0 => 0,
        1 => random.between(5, 8),
        2..=8 => 1,
        9..=14 => 2,
        _ => random.between(3, 4),
    };
    let rows: Vec<Tags> = (0..steps).map(|_| pool.step(random)).collect();
    let mut body = body(&rows, &random_codes(random, steps));
    if random.once_in(8) {
        body.entries = random_entries(random);
    }
    body
}

fn random_entries(random: &mut Random) -> Vec<Entry> {
    let entry = |property: usize, random: &mut Random| Entry {
        property: property as u16,
        kind: random.below(4) as u32,
        number: random.word(),
    };
    let count = random.below(4);
    (0..count).map(|at| entry(at, random)).collect()
}

/// Rules in some groups, now and then with styles and empty groups between.
fn random_sheet(random: &mut Random, pool: &Pool) -> Model {
    let mut model = Model::default();
    let mut left = match random.below(60) {
        0 => random.between(60, 256),
        1..=3 => random.between(13, 40),
        4..=6 => 0,
        _ => random.between(1, 12),
    };
    while left > 0 {
        let count = random.between(1, left);
        left -= count;
        let bodies = (0..count).map(|_| random_body(random, pool)).collect();
        model.push_rules(random.below(8) as u32, bodies);
        if random.once_in(5) {
            model.push_rules(0, Vec::new());
        }
        if random.once_in(5) {
            model.push_style(random.below(8) as u32, random_entries(random));
        }
    }
    // Sources that no pushes make: matching does not look at them.
    if random.once_in(15) {
        for rule in &mut model.rules {
            rule.source = random.below(4) as u32;
            rule.order = random.pick(&EXTREMES);
        }
    }
    model
}

/// The largest sheets: 8 steps a rule, and ids up to the sheet's size.
fn large_sheet(random: &mut Random, pool: &Pool) -> Model {
    let full = random.once_in(2);
    let rules = if full { 64 } else { 256 };
    let ids: Vec<u32> = (0..if full { 8 } else { 2 }).collect();
    let row = |random: &mut Random| {
        let mut tags = pool.step(random);
        if random.below(8) < 7 {
            (tags.classes, tags.pseudos) = (ids.clone(), ids.clone());
        }
        tags
    };
    let body = |random: &mut Random| {
        let rows: Vec<Tags> = (0..8).map(|_| row(random)).collect();
        body(&rows, &random_codes(random, 8))
    };
    group(&(0..rules).map(|_| body(random)).collect::<Vec<_>>())
}

/// A subject that some of a sheet's steps match.
pub(super) fn fitting(random: &mut Random, pool: &Pool, model: &Model) -> Tags {
    let mut subject = pool.subject(random);
    for _ in 0..random.between(1, 3) {
        if model.rules.is_empty() {
            break;
        }
        let steps = &model.rules[random.below(model.rules.len())].body.steps;
        if steps.is_empty() {
            continue;
        }
        let step = &steps[random.below(steps.len())];
        subject = fits(step, subject);
    }
    subject
}

/// The subject, with what a step asks for.
fn fits(step: &Step, mut subject: Tags) -> Tags {
    subject.type_tag = step.type_tag.or(subject.type_tag);
    subject.part_tag = step.part_tag.or(subject.part_tag);
    for (ids, more) in [
        (&mut subject.classes, &step.classes),
        (&mut subject.pseudos, &step.pseudos),
    ] {
        ids.extend(more);
        ids.sort();
        ids.dedup();
        ids.truncate(SUBJECT_IDS);
    }
    subject
}

pub(super) fn random_rooms(random: &mut Random, model: &Model) -> [u32; 5] {
    let mut rooms = AMPLE;
    let cursors = root_of(&model.rules).cursors.len();
    let scarce = random.pick(&[0, 0, 3, 6]);
    for (piece, room) in rooms.iter_mut().enumerate() {
        if random.below(8) >= scarce {
            continue;
        }
        *room = match piece {
            0 => ROOM - u32::from(random.once_in(20)),
            1 => (STATE_ROW * random.between(1, 5) + random.below(3)) as u32,
            2 => (cursors + random.below(25)) as u32,
            3 => random.below(10) as u32,
            _ => (TRANSITION_ROW * random.below(6) + random.below(TRANSITION_ROW)) as u32,
        };
    }
    if random.once_in(40) {
        let piece = random.below(5);
        rooms[piece] = random.pick(&[0, 1, 2, ROOM - 1, ROOM + 3, u32::MAX]);
    }
    rooms
}

/// A case in the making. It is answered as it is made, so that what comes
/// next can be about the states and transitions that there are.
pub(super) struct Maker<'a> {
    pub(super) random: &'a mut Random,
    pub(super) machine: Machine,
    pub(super) items: Vec<Item>,
    pool: Pool,
    pub(super) model: Model,
    subjects: Vec<Tags>,
    pub(super) stamp: u32,
    last: u32,
}

impl<'a> Maker<'a> {
    pub(super) fn new(random: &'a mut Random, pool: Pool, model: Model) -> Self {
        let subjects = (0..random.between(2, 9)).map(|_| fitting(random, &pool, &model));
        Self {
            subjects: subjects.collect(),
            random,
            machine: Machine::default(),
            items: Vec::new(),
            pool,
            model,
            stamp: 7,
            last: 0,
        }
    }

    pub(super) fn push(&mut self, item: Item) -> String {
        let lines = self.machine.item(item.op, &item.payload);
        self.items.push(item);
        lines
    }

    pub(super) fn head(&self, place: usize) -> usize {
        self.machine.piece(HEAD)[place] as usize
    }

    pub(super) fn states(&self) -> usize {
        self.head(STATE_COUNT).clamp(1, 515)
    }

    fn transitions(&self) -> usize {
        self.head(TRANSITION_COUNT).min(600)
    }

    fn start(&mut self) {
        for item in sheet(&self.model) {
            self.push(item);
        }
        let lent = random_rooms(self.random, &self.model);
        self.push(rooms(lent));
        self.build();
    }

    fn build(&mut self) {
        let ranking = match self.random.below(30) {
            0 => self.random.pick(&[2, 3, 0x100, u32::MAX]),
            _ => self.random.below(2) as u32,
        };
        if self.random.once_in(2) {
            self.stamp = self.random.pick(&[0, 1, 7, 0x8000_0000, u32::MAX]);
        }
        self.push(build(self.stamp, ranking));
        self.last = 0;
        if ranking > 1 {
            self.push(build(self.stamp, 0));
        }
    }

    /// A state that there is, the last one often.
    fn number(&mut self) -> u32 {
        match self.random.below(10) {
            0..=2 => 0,
            3..=5 => self.last,
            _ => self.random.below(self.states()) as u32,
        }
    }

    /// Mostly a state that there is, with the table's stamp.
    pub(super) fn state(&mut self) -> (u32, u32) {
        let states = self.states() as u32;
        let number = self.number();
        match self.random.below(40) {
            0 => (states, self.stamp),
            1 => (self.random.pick(&[states + 1, u32::MAX]), self.stamp),
            2 => (number, self.stamp ^ self.random.pick(&[1, 0x8000_0000])),
            _ => (number, self.stamp),
        }
    }

    /// A subject of the case, or a new one; now and then a wrong one.
    fn row(&mut self) -> Row {
        let tags = match self.random.below(6) {
            0 => fitting(self.random, &self.pool, &self.model),
            _ => self
                .random
                .pick(&self.subjects.iter().collect::<Vec<_>>())
                .clone(),
        };
        let mut row: Row = tags.row();
        if self.random.once_in(4) {
            rubbish_in_row(&mut row, self.random);
        }
        let list = self.random.below(2);
        let ids = 6 + SUBJECT_IDS * list;
        match self.random.below(50) {
            0 => row[4 + list] = self.random.pick(&[17, 18, 0x100, u32::MAX]),
            1 => {
                row[4 + list] = row[4 + list].max(2);
                row[ids + 1] = row[ids];
            }
            2 => {
                row[4 + list] = row[4 + list].max(2);
                row[ids] = row[ids + 1].saturating_add(1);
            }
            // As many as there may be.
            3 => {
                row[4 + list] = SUBJECT_IDS as u32;
                for place in 0..SUBJECT_IDS {
                    row[ids + place] = place as u32;
                }
            }
            _ => {}
        }
        row
    }

    pub(super) fn enter(&mut self) {
        let (number, stamp) = self.state();
        let row = self.row();
        self.push_enter(number, stamp, &row);
    }

    fn push_enter(&mut self, number: u32, stamp: u32, row: &Row) {
        let given = match self.random.below(4) {
            0 => item(ENTER, &[&[number, stamp], &row[..]].concat()),
            _ => enter_row(number, stamp, row),
        };
        let line = self.push(given);
        let mut words = line.split_whitespace().skip(1);
        if let (Some("0"), Some(child)) = (words.next(), words.next()) {
            self.last = child.parse().expect("a state's number");
        }
    }

    /// Subjects that a rule's steps match, one under another, and the list.
    pub(super) fn follow(&mut self) {
        if self.model.rules.is_empty() {
            return self.ask();
        }
        let rule = self.random.below(self.model.rules.len());
        let body = self.model.rules[rule].body.clone();
        self.last = self.number();
        for (place, step) in body.steps.iter().enumerate() {
            let others = match place {
                0 => 0,
                _ if body.codes[place - 1] == 1 => self.random.below(3) / 2,
                _ => 0,
            };
            for _ in 0..others {
                let row = self.row();
                self.push_enter(self.last, self.stamp, &row);
            }
            let subject = fits(step, self.pool.subject(self.random));
            self.push_enter(self.last, self.stamp, &subject.row());
        }
        self.push(part(self.last, self.stamp));
    }

    fn ask(&mut self) {
        let (number, stamp) = self.state();
        self.push(part(number, stamp));
        if self.random.once_in(3) {
            let property = self.random.below(4) as u32;
            self.push(winner(number, stamp, property));
        }
        if self.random.once_in(3) {
            let (new, new_stamp) = self.state();
            let room = self.random.below(5) as u32;
            self.push(changed([number, stamp, new, new_stamp], room));
        }
    }

    /// What is used, and a little more; transitions mostly not all.
    pub(super) fn tell(&mut self) {
        let more = self.random.below(5);
        let transitions = match self.random.below(4) {
            0 => self.transitions(),
            1 => 0,
            _ => self.transitions().min(4),
        };
        let counts = [
            SIZES[HEAD],
            STATE_ROW * self.states() + more,
            self.head(CURSOR_COUNT).min(700) + more,
            self.head(MATCHED_COUNT).min(700) + more,
            TRANSITION_ROW * transitions + more,
        ];
        self.push(tell(counts.map(|count| count as u32)));
    }

    /// One item, mostly an entering.
    fn step(&mut self) {
        match self.random.below(60) {
            0..=6 => self.ask(),
            7 | 8 => self.tell(),
            9 => self.build(),
            10 => {
                let lent = random_rooms(self.random, &self.model);
                self.push(rooms(lent));
            }
            11 => {
                let stamp = self.random.pick(&EXTREMES);
                self.push(root(stamp));
            }
            12 if self.random.once_in(4) => {
                self.model = random_sheet(self.random, &self.pool);
                self.start();
            }
            13..=16 => self.follow(),
            _ => self.enter(),
        }
    }

    fn steps(&mut self, count: usize) {
        for _ in 0..count {
            self.step();
        }
    }

    fn state_row(&self, number: usize) -> [u32; STATE_ROW] {
        let rows = self.machine.piece(STATE_ROWS).as_chunks().0;
        rows.get(number).copied().unwrap_or_default()
    }

    fn transition_row(&self, number: usize) -> Vec<u32> {
        let rows = self.machine.piece(TRANSITION_ROWS);
        rows[TRANSITION_ROW * number..][..TRANSITION_ROW].to_vec()
    }

    pub(super) fn write(&mut self, piece: usize, address: usize, words: &[u32]) {
        self.push(write(piece, address, words));
    }

    pub(super) fn write_head(&mut self, place: usize, value: usize) {
        self.write(HEAD, place, &[value as u32]);
    }

    fn write_link(&mut self, transition: usize, link: usize) {
        let address = TRANSITION_ROW * transition + 2;
        self.write(TRANSITION_ROWS, address, &[link as u32]);
    }

    fn write_first(&mut self, state: usize, link: usize) {
        self.write(STATE_ROWS, STATE_ROW * state + 2, &[link as u32]);
    }

    /// One more state, equal to one that there is.
    fn equal_state(&mut self) {
        let states = self.states();
        let like = self.random.below(states);
        let row = self.state_row(like);
        let before = match like {
            0 => [0; STATE_ROW],
            _ => self.state_row(like - 1),
        };
        let mut ends = [0; 2];
        for list in [0, 1] {
            let (piece, count) = [(CURSORS, CURSOR_COUNT), (MATCHED, MATCHED_COUNT)][list];
            let range = before[list] as usize..row[list] as usize;
            let words = self.machine.piece(piece).get(range).unwrap_or(&[]).to_vec();
            let used = self.head(count);
            self.write(piece, used, &words);
            self.write_head(count, used + words.len());
            ends[list] = (used + words.len()) as u32;
        }
        let first = self.random.pick(&[0, 0, row[2]]);
        let words = [ends[0], ends[1], first];
        self.write(STATE_ROWS, STATE_ROW * states, &words);
        self.write_head(STATE_COUNT, states + 1);
        if self.transitions() > 0 && self.random.once_in(2) {
            let transition = self.random.below(self.transitions());
            let address = TRANSITION_ROW * transition + 1;
            self.write(TRANSITION_ROWS, address, &[states as u32]);
        }
    }

    /// One more transition with a subject and a parent that there are, before
    /// or after the first, often with another child.
    fn equal_transition(&mut self) {
        let count = self.transitions();
        if count == 0 || count >= 599 {
            return self.any_word();
        }
        let like = self.random.below(count);
        let mut row = self.transition_row(like);
        let parent = row[0] as usize;
        row[1] = self.random.below(self.states()) as u32;
        if self.random.once_in(2) {
            row[2] = self.state_row(parent.min(514))[2];
            self.write(TRANSITION_ROWS, TRANSITION_ROW * count, &row);
            self.write_first(parent, count + 1);
        } else {
            row[2] = 0;
            self.write(TRANSITION_ROWS, TRANSITION_ROW * count, &row);
            let hook = match self.random.below(2) {
                0 => like,
                _ => self.random.below(count),
            };
            self.write_link(hook, count + 1);
        }
        self.write_head(TRANSITION_COUNT, count + 1);
    }

    /// Links: loops, to rows of other parents, to none.
    fn any_link(&mut self) {
        let count = self.transitions();
        let link = match self.random.below(6) {
            0 => 0,
            1 => count + 1,
            2 => count + self.random.between(2, 9),
            3 => u32::MAX as usize,
            _ => self.random.between(0, count),
        };
        if count > 0 && self.random.once_in(2) {
            let transition = self.random.below(count);
            self.write_link(transition, link);
        } else {
            let state = self.random.below(self.states());
            self.write_first(state, link);
        }
    }

    /// A word of a transition: its states, its subject.
    fn transition_word(&mut self) {
        if self.transitions() == 0 {
            return self.any_link();
        }
        let transition = self.random.below(self.transitions());
        let (column, value) = match self.random.below(6) {
            0 => (0, self.random.below(self.states() + 1)),
            1 | 2 => (1, self.random.below(self.states() + 1)),
            3 => (self.random.pick(&[3, 5]), self.random.below(3)),
            4 => (self.random.pick(&[4, 6]), self.random.below(4)),
            _ => (self.random.between(7, 40), self.random.below(4)),
        };
        let address = TRANSITION_ROW * transition + column;
        self.write(TRANSITION_ROWS, address, &[value as u32]);
    }

    /// A cursor or a matched rule, mostly one that there is.
    pub(super) fn list_word(&mut self) {
        let rules = self.model.rules.len();
        let (piece, used, value) = match self.random.below(2) {
            0 => {
                let rule = self.random.below(rules + 1);
                let steps = self
                    .model
                    .rules
                    .get(rule)
                    .map_or(1, |rule| rule.body.steps.len());
                let step = self.random.below(steps + 1);
                (CURSORS, self.head(CURSOR_COUNT), 8 * rule + step)
            }
            _ => (
                MATCHED,
                self.head(MATCHED_COUNT),
                self.random.below(rules + 1),
            ),
        };
        let address = self.random.below(used.min(8000) + 1);
        self.write(piece, address, &[value as u32]);
    }

    /// The sheet after build: a tag, an id, a combinator, the count of rules.
    fn sheet_word(&mut self) {
        let steps: usize = self
            .model
            .rules
            .iter()
            .map(|rule| rule.body.steps.len())
            .sum();
        let row = self.random.below(steps + 1);
        let small = self.random.below(3) as u32;
        let (address, value) = match self.random.below(6) {
            0 | 1 => (step_word(row, self.random.below(4)), small),
            2 => (step_word(row, 6 + self.random.below(16)), small),
            3 => (step_word(row, 22), small),
            4 => {
                let rules = self.model.rules.len() as u32;
                let less = self.random.below(3) as u32;
                (RULE_COUNT, rules.saturating_sub(less))
            }
            _ => (rule_word(self.random.below(3), self.random.below(3)), small),
        };
        self.push(stored(address, &[value]));
    }

    /// Any word that is in use, or one near it.
    pub(super) fn any_word(&mut self) {
        let piece = self.random.below(5);
        let used = match piece {
            HEAD => 8,
            STATE_ROWS => STATE_ROW * self.states(),
            CURSORS => self.head(CURSOR_COUNT),
            MATCHED => self.head(MATCHED_COUNT),
            _ => TRANSITION_ROW * self.transitions(),
        };
        let used = used.min(SIZES[piece] - 1);
        let address = self.random.below(used + 1);
        let own = self.machine.piece(piece)[address];
        let value = match self.random.below(5) {
            0 => own.wrapping_add(1),
            1 => own.wrapping_sub(1),
            2 => self.random.pick(&EXTREMES),
            _ => self.random.below(6) as u32,
        };
        self.write(piece, address, &[value]);
    }

    /// Rooms that just hold what there is, or lack a word of it.
    fn tight_rooms(&mut self) {
        let used = [
            SHEET_WORDS,
            STATE_ROW * self.states(),
            self.head(CURSOR_COUNT),
            self.head(MATCHED_COUNT),
            TRANSITION_ROW * self.transitions(),
        ];
        let mut lent = used.map(|used| used as u32);
        for (piece, room) in lent.iter_mut().enumerate() {
            match self.random.below(4) {
                0 => *room = AMPLE[piece],
                1 => *room = room.saturating_add(self.random.below(50) as u32),
                _ => {}
            }
        }
        let piece = self.random.below(5);
        if self.random.once_in(3) {
            lent[piece] = lent[piece].saturating_sub(1);
        }
        self.push(rooms(lent));
    }

    /// Something that no call does.
    fn meddle(&mut self) {
        match self.random.below(20) {
            0..=3 => self.equal_state(),
            4..=7 => self.equal_transition(),
            8..=11 => self.any_link(),
            12 | 13 => self.transition_word(),
            14 => self.list_word(),
            15 => self.sheet_word(),
            16 => self.tight_rooms(),
            17 => {
                let place = self.random.pick(&[STAMP, RANKING, 6, 7]);
                self.write_head(place, self.stamp as usize ^ 1);
            }
            18 => {
                // The last transition is gone.
                let count = self.transitions().saturating_sub(1);
                self.write_head(TRANSITION_COUNT, count);
            }
            _ => self.any_word(),
        }
    }
}

/// A sheet stored, rooms, a build, and 5 to 60 calls; in every third case
/// words are stored in between. The memory is told at the end.
pub fn random_case(random: &mut Random) -> WalkCase {
    let pool = Pool::new(random);
    let model = match random.below(150) {
        0 => large_sheet(random, &pool),
        _ => random_sheet(random, &pool),
    };
    let mut maker = Maker::new(random, pool, model);
    maker.start();
    let calls = match maker.random.below(8) {
        0 | 1 => maker.random.between(30, 60),
        _ => maker.random.between(5, 25),
    };
    maker.steps(calls);
    if maker.random.once_in(3) {
        for _ in 0..maker.random.between(1, 4) {
            maker.meddle();
            if maker.random.once_in(2) {
                maker.meddle();
            }
            let calls = maker.random.between(1, 6);
            maker.steps(calls);
        }
    }
    maker.tell();
    let mut items = maker.items;
    if random.once_in(25) {
        let place = random.below(items.len());
        damage_words(&mut items[place].payload, random);
        items[place].payload.truncate(LONGEST_PAYLOAD as usize);
    }
    if random.once_in(100) {
        items.push(tell([u32::MAX; 5]));
    }
    WalkCase { items }
}

/// Ends of a stream that are no whole item.
pub fn fixed_ends() -> Vec<Vec<u8>> {
    let subject = Tags::of_ids(&[1], &[2]).row::<SUBJECT_ROW>();
    let items = [root(7), item(9, &[1, 2]), enter_row(0, 7, &subject)];
    ends(&items, ROOT)
}

/// A case cut anywhere, or a length made long.
pub fn random_end(random: &mut Random) -> Vec<u8> {
    let case = random_case(random);
    if random.once_in(3) {
        let items = random.below(case.items.len());
        let mut words: Vec<u32> = case.items[..items].iter().flat_map(Item::words).collect();
        words.extend([
            case.items[items].op,
            LONGEST_PAYLOAD + random.below(3) as u32,
        ]);
        return bytes_of(&words);
    }
    let mut bytes = bytes_of(&case.words());
    bytes.truncate(random.below(bytes.len()));
    bytes
}
