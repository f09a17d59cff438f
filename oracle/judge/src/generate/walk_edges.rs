//! Fixed cases of tables: 01's examples, every size and room at its edge,
//! every refusal at its place and before the others, every clause of row 11
//! broken alone and just kept, and tables that no calls make.

use super::builds::item;
use super::paths::Tags;
use super::walks::{
    AMPLE, ROOM, body, build, enter, enter_row, group, part, rooms, root, sheet, stored, tell,
    write,
};
use crate::builds::image::{RULE_COUNT, STEP_COUNT, rule_word, step_word};
use crate::builds::model::{Body, Model};
use crate::builds::{Item, LONGEST_PAYLOAD};
use crate::paths::SUBJECT_IDS;
use crate::walks::image::{
    CURSOR_COUNT, CURSORS, HEAD, MATCHED, MATCHED_COUNT, RANKING, SIZES, STAMP, STATE_COUNT,
    STATE_ROW, STATE_ROWS, TRANSITION_COUNT, TRANSITION_ROW, TRANSITION_ROWS,
};
use crate::walks::table::{Row, STATES};
use crate::walks::{COMPARE, ENTER, Machine, SHEET, WalkCase};

/// The stamp of most tables here.
pub const S: u32 = 7;

pub fn fixed() -> Vec<WalkCase> {
    let mut cases = vec![unlent()];
    cases.extend(examples());
    cases.extend(small_walks());
    cases.extend(builds());
    cases.extend(enter_faults());
    cases.extend(other_faults());
    cases.extend(room_edges());
    cases.extend(many_states());
    cases.extend(large_sheets());
    cases.extend(subjects());
    cases.extend(stamps());
    cases.extend(clauses());
    cases.extend(links());
    cases.extend(equals());
    cases.extend(sheets_after_build());
    cases.extend(overwritten());
    cases.extend(payloads());
    cases
}

fn case(items: impl IntoIterator<Item = Item>) -> WalkCase {
    WalkCase {
        items: items.into_iter().collect(),
    }
}

/// The first case of a stream, before anything is lent.
fn unlent() -> WalkCase {
    let subject = Tags::of_type(1);
    let mut items = Vec::new();
    for _ in 0..2 {
        items.extend([enter(0, 0, &subject), part(0, 0), build(0, 0), build(S, 2)]);
        items.extend([root(0), root(u32::MAX), tell([8, 9, 5, 5, 45])]);
        // All zeros are the empty sheet.
        items.push(rooms([ROOM, 2, 0, 0, 0]));
    }
    items.push(rooms([ROOM, 3, 0, 0, 0]));
    items.extend([enter(0, 0, &subject), part(0, 0), build(0, 0), part(0, 0)]);
    items.extend([enter(0, 0, &subject), part(0, 0), tell([8, 9, 5, 5, 45])]);
    case(items)
}

fn typed(tag: u32) -> Tags {
    Tags::of_type(tag)
}

/// A rule of steps with these types.
fn types(tags: &[u32], codes: &[u32]) -> Body {
    let steps: Vec<Tags> = tags.iter().map(|&tag| typed(tag)).collect();
    body(&steps, codes)
}

/// A sheet stored, rooms, and a table built.
pub fn start(model: &Model, lent: [u32; 5]) -> Vec<Item> {
    let mut items = sheet(model);
    items.extend([rooms(lent), build(S, 0)]);
    items
}

/// Subjects entered one under another, each with its list.
fn down(path: &[u32]) -> Vec<Item> {
    let mut items = Vec::new();
    for (state, &tag) in (0..).zip(path) {
        items.extend([enter(state, S, &typed(tag)), part(state + 1, S)]);
    }
    items
}

/// 01's `walk`: the sheet, and the four subjects.
pub fn walk_example() -> WalkCase {
    let mut model = Model::default();
    model.push_style(0, Vec::new());
    model.push_rules(0, vec![types(&[5], &[]), types(&[1, 5], &[1])]);
    let mut items = start(&model, AMPLE);
    for (tag, parent) in [(1, 0), (9, 1), (5, 1), (5, 0)] {
        items.push(enter(parent, S, &typed(tag)));
    }
    items.extend((0..4).map(|state| part(state, S)));
    items.push(tell([8, 12, 6, 4, 4 * 41]));
    case(items)
}

/// P8: entering c, a, b lists a>b.
pub fn p8() -> WalkCase {
    let mut items = start(&group(&[types(&[1, 2], &[0])]), AMPLE);
    items.extend(down(&[3, 1, 2]));
    items.push(tell([8, 12, 4, 2, 0]));
    case(items)
}

fn examples() -> Vec<WalkCase> {
    let mut cases = vec![walk_example(), p8()];
    // The same, with the other combinator and other ways.
    for codes in [[0], [1]] {
        for path in [
            &[1, 2][..],
            &[1, 2, 2],
            &[1, 3, 2],
            &[1, 1, 2],
            &[2, 1, 2],
            &[1, 2, 1, 2],
            &[3, 3, 1, 3, 3, 2, 2],
        ] {
            let mut items = start(&group(&[types(&[1, 2], &codes)]), AMPLE);
            items.extend(down(path));
            items.push(tell([8, 24, 12, 8, 0]));
            cases.push(case(items));
        }
    }
    cases
}

/// A case that is answered as it is made.
struct Live {
    machine: Machine,
    items: Vec<Item>,
}

impl Live {
    fn new(items: Vec<Item>) -> Self {
        let mut live = Self {
            machine: Machine::default(),
            items: Vec::new(),
        };
        for item in items {
            live.push(item);
        }
        live
    }

    fn push(&mut self, item: Item) -> String {
        let lines = self.machine.item(item.op, &item.payload);
        self.items.push(item);
        lines
    }

    /// The state that an accepted entering gives.
    fn enter(&mut self, parent: u32, subject: &Tags) -> u32 {
        let line = self.push(enter(parent, S, subject));
        let child = line.split_whitespace().nth(2);
        child
            .expect("an accepted entering")
            .parse()
            .expect("a state")
    }

    fn head(&self, place: usize) -> u32 {
        self.machine.piece(HEAD)[place]
    }

    /// All that is used.
    fn told(&self) -> Item {
        tell([
            8,
            STATE_ROW as u32 * self.head(STATE_COUNT),
            self.head(CURSOR_COUNT),
            self.head(MATCHED_COUNT),
            TRANSITION_ROW as u32 * self.head(TRANSITION_COUNT),
        ])
    }
}

/// Every path of up to four of three types, over every rule of two types with
/// up to three steps.
fn small_walks() -> Vec<WalkCase> {
    let mut bodies = vec![types(&[], &[])];
    for tags in super::all_lists(&[1, 2], 3).into_iter().skip(1) {
        for codes in super::all_lists(&[0, 1], 2) {
            if codes.len() + 1 == tags.len() {
                bodies.push(types(&tags, &codes));
            }
        }
    }
    let whole = bodies.clone();
    let mut sheets: Vec<Vec<Body>> = bodies.into_iter().map(|body| vec![body]).collect();
    sheets.push(whole);
    let mut cases = Vec::new();
    for bodies in sheets {
        let longest = if bodies.len() > 1 { 4 } else { 3 };
        let mut live = Live::new(start(&group(&bodies), AMPLE));
        let mut level = vec![0];
        for _ in 0..longest {
            let mut next = Vec::new();
            for &parent in &level {
                for tag in [1, 2, 3] {
                    next.push(live.enter(parent, &typed(tag)));
                }
            }
            level = next;
        }
        for state in 0..live.head(STATE_COUNT) {
            live.push(part(state, S));
        }
        live.push(live.told());
        cases.push(case(live.items));
    }
    cases
}

/// Build: rooms, rankings, rules without steps, and what it writes.
fn builds() -> Vec<WalkCase> {
    let told = || tell([8, 7, 8, 3, 4]);
    let mut cases = Vec::new();
    let models = [
        Model::default(),
        group(&[types(&[], &[])]),
        group(&[types(&[1], &[])]),
        group(&small_bodies()),
        group(&[types(&[], &[]), types(&[2, 3], &[1]), types(&[], &[])]),
    ];
    for model in &models {
        let cursors = model
            .rules
            .iter()
            .filter(|rule| !rule.body.steps.is_empty());
        let cursors = cursors.count() as u32;
        // Old words everywhere: what build leaves alone shows.
        let mut items: Vec<Item> = (0..5).map(|piece| write(piece, 0, &[9; 8])).collect();
        items.extend(sheet(model));
        for lent in [
            [ROOM, 2, cursors, 0, 0],
            [ROOM, 3, cursors.wrapping_sub(1), 0, 0],
            [ROOM - 1, 3, cursors, 0, 0],
            [ROOM, 3, cursors, 0, 0],
            [ROOM + 4, 5, cursors + 1, 0, 0],
        ] {
            items.extend([rooms(lent), build(S, 0), told(), part(0, S)]);
            items.extend([enter(0, S, &typed(1)), told()]);
        }
        for ranking in [1, 2, 3, 0x100, 0x1_0000, u32::MAX] {
            items.extend([build(S + 1, ranking), told()]);
        }
        cases.push(case(items));
    }
    cases
}

/// Rules whose states hold some cursors and matches.
///
/// Root: cursors 0 8 16 32 40. A entered: 9 17 41, matched 0 4. B entered
/// there: 9 18, matched 1, and again the same.
pub fn small_bodies() -> Vec<Body> {
    let class = |id: u32| Tags::of_ids(&[id], &[]);
    vec![
        types(&[1], &[]),
        types(&[1, 2], &[1]),
        body(&[class(5), Tags::default(), typed(3)], &[0, 1]),
        types(&[], &[]),
        body(&[class(2)], &[]),
        types(&[1, 1], &[0]),
    ]
}

pub fn subject_a() -> Tags {
    Tags {
        type_tag: Some(1),
        part_tag: None,
        classes: vec![2, 5],
        pseudos: vec![3, 4],
    }
}

pub fn subject_b() -> Tags {
    Tags {
        type_tag: Some(2),
        part_tag: Some(9),
        ..Tags::default()
    }
}

/// A subject that makes a new state under state 2: cursors 9 17 18 41,
/// matched 0.
pub fn subject_c() -> Tags {
    Tags {
        type_tag: Some(1),
        classes: vec![5],
        ..Tags::default()
    }
}

/// The small table: three states, three transitions.
pub fn small_table(lent: [u32; 5]) -> Vec<Item> {
    let mut items = start(&group(&small_bodies()), lent);
    items.extend(small_walk());
    items
}

fn small_walk() -> Vec<Item> {
    let (a, b) = (subject_a(), subject_b());
    vec![enter(0, S, &a), enter(1, S, &b), enter(2, S, &b)]
}

/// What the small table uses, and one row or word more of each.
fn small_told() -> Item {
    tell([8, 12, 15, 5, 4 * 41])
}

/// Rooms that the small table just fills.
const FULL: [u32; 5] = [ROOM, 9, 10, 3, 3 * 41];

/// Every set of faults at once: 11, 4, 2, 1, 5.
fn enter_faults() -> Vec<WalkCase> {
    let mut cases = Vec::new();
    for faults in 0..32u32 {
        let has = |fault: u32| faults >> fault & 1 == 1;
        for (number, stamp) in [(3, S), (2, S + 1), (3, S + 1)] {
            if !has(1) && number == 3 {
                continue;
            }
            let (number, stamp) = if has(1) { (number, stamp) } else { (2, S) };
            let mut items = small_table(AMPLE);
            if has(0) {
                items.push(write(HEAD, RANKING, &[2]));
            }
            if has(4) {
                items.push(rooms(FULL));
            }
            let mut row: Row = subject_c().row();
            if has(2) {
                row[5] = 17;
            }
            if has(3) {
                row[4] = 2;
                row[7] = 5;
            }
            let given = enter_row(number, stamp, &row);
            items.extend([given, small_told(), part(0, S)]);
            cases.push(case(items));
        }
    }
    cases
}

/// The faults of matched lists, 11 and 4, and of build, 11, 6 and 5.
fn other_faults() -> Vec<WalkCase> {
    let mut cases = Vec::new();
    for ranking in [0, 1, 2] {
        let mut items = small_table(AMPLE);
        items.push(write(HEAD, RANKING, &[ranking]));
        for number in [0, 1, 2, 3, 512, u32::MAX] {
            for stamp in [S, S + 1, 0, S | 0x8000_0000] {
                items.push(part(number, stamp));
            }
        }
        cases.push(case(items));
    }
    for faults in 0..8u32 {
        let has = |fault: u32| faults >> fault & 1 == 1;
        let lent = [
            ROOM - u32::from(has(0)),
            9,
            if has(2) { 4 } else { 5 },
            3,
            41,
        ];
        let mut items = small_table(AMPLE);
        items.extend([rooms(lent), build(S, if has(1) { 2 } else { 1 })]);
        items.extend([small_told(), rooms(AMPLE), part(1, S)]);
        cases.push(case(items));
    }
    cases
}

/// Each room just enough, and one short.
fn room_edges() -> Vec<WalkCase> {
    // For the state that C makes under state 2.
    let enough = [ROOM, 12, 14, 4, 4 * 41];
    let mut cases = Vec::new();
    let mut lents = vec![enough, FULL, [ROOM + 1, 14, 15, 5, 5 * 41 - 1]];
    for piece in 0..5 {
        for less in [1, 3, 4, 41] {
            let mut lent = enough;
            lent[piece] = lent[piece].saturating_sub(less);
            lents.push(lent);
            let mut lent = AMPLE;
            lent[piece] = enough[piece].saturating_sub(less);
            lents.push(lent);
        }
        let mut lent = AMPLE;
        lent[piece] = enough[piece];
        lents.push(lent);
    }
    // Two at once.
    for (first, second) in [(1, 2), (1, 3), (2, 3), (1, 4), (3, 4)] {
        let mut lent = enough;
        lent[first] -= 1;
        lent[second] -= 1;
        lents.push(lent);
    }
    let (a, c) = (subject_a(), subject_c());
    for lent in lents {
        let mut items = small_table(AMPLE);
        items.extend([rooms(lent), enter(2, S, &c), small_told()]);
        // Once more; then a state that is held, by another subject, twice.
        items.push(enter(2, S, &c));
        let other = Tags {
            part_tag: Some(1),
            ..a.clone()
        };
        items.extend([enter(0, S, &other), enter(0, S, &other), enter(0, S, &a)]);
        items.extend([part(1, S), part(3, S), small_told()]);
        items.extend([rooms(AMPLE), enter(2, S, &c), part(3, S)]);
        items.push(tell([8, 12, 15, 5, 6 * 41]));
        cases.push(case(items));
    }
    // From the first call on in the rooms just filled, and one short.
    for (piece, less) in [(0, 0), (1, 1), (2, 1), (3, 1), (4, 1), (4, 41), (4, 123)] {
        let mut lent = FULL;
        lent[piece] -= less;
        let mut items = small_table(lent);
        items.extend([small_told(), enter(2, S, &subject_b()), part(2, S)]);
        cases.push(case(items));
    }
    // No room for transitions at all: every subject is tested again.
    let mut lent = AMPLE;
    lent[4] = 40;
    let mut items = small_table(lent);
    items.extend(small_walk());
    items.extend([enter(0, S, &c), enter(0, S, &c), small_told()]);
    cases.push(case(items));
    cases
}

/// Nine rules of one class each: every set of classes makes a state.
fn nine_classes() -> Model {
    let rule = |id: u32| body(&[Tags::of_ids(&[id], &[])], &[]);
    group(&(0..9).map(rule).collect::<Vec<_>>())
}

fn class_set(set: u32) -> Tags {
    let classes = (0..9).filter(|id| set >> id & 1 == 1);
    Tags::of_ids(&classes.collect::<Vec<_>>(), &[])
}

/// The 512th state and the one after it, by calls.
fn many_states() -> Vec<WalkCase> {
    let mut cases = Vec::new();
    for states in [1545, 1536, 1535, 1533] {
        let mut lent = AMPLE;
        lent[1] = states;
        let mut items = start(&nine_classes(), lent);
        items.extend((0..512).map(|set| enter(0, S, &class_set(set))));
        // Held ones under others, the last two again.
        items.extend([510, 511, 3].map(|set| enter(100, S, &class_set(set))));
        items.extend([509, 510, 511, 512].map(|state| part(state, S)));
        items.push(enter(511, S, &class_set(7)));
        items.push(tell([8, 1545, 12, 2310, 41]));
        cases.push(case(items));
    }
    // 600 transitions and no more.
    let mut items = start(&nine_classes(), AMPLE);
    items.extend((0..511).map(|set| enter(0, S, &class_set(set))));
    items.extend((0..91).map(|set| enter(2, S, &class_set(set))));
    items.extend([tell([8, 9, 0, 0, 0]), enter(2, S, &class_set(88))]);
    items.extend([enter(2, S, &class_set(90)), enter(3, S, &class_set(90))]);
    items.push(tell([8, 15, 12, 20, 24_600]));
    cases.push(case(items));
    cases
}

/// As many rules, steps, ids and cursors as there may be.
fn large_sheets() -> Vec<WalkCase> {
    let mut cases = Vec::new();
    let one = |number: u32| types(&[number % 3], &[]);
    let all = group(&(0..256).map(one).collect::<Vec<_>>());
    for cursors in [255, 256, 257] {
        let mut lent = AMPLE;
        lent[2] = cursors;
        let mut items = start(&all, lent);
        items.extend([enter(0, S, &typed(0)), enter(1, S, &typed(2))]);
        items.extend([part(1, S), part(2, S), tell([8, 9, 260, 180, 82])]);
        cases.push(case(items));
    }
    // 256 rules of 8 steps, all of which every subject fits: each entering
    // adds a step to every rule, down to cursor 2,047 and all rules.
    for code in [0, 1] {
        let eight = body(&vec![Tags::default(); 8], &[code; 7]);
        let model = group(&vec![eight; 256]);
        for cursors in [AMPLE[2], 256 * 36, 256 * 36 - 1, 256 * 3] {
            let mut lent = AMPLE;
            lent[2] = cursors;
            lent[3] = 256 - u32::from(cursors == AMPLE[2] && code == 1);
            let mut items = start(&model, lent);
            items.extend((0..10).map(|state| enter(state, S, &Tags::default())));
            items.extend([part(7, S), part(8, S), part(9, S)]);
            items.push(tell([8, 30, 300, 3, 41]));
            cases.push(case(items));
        }
    }
    // 64 rules of 8 steps of 16 ids.
    let ids: Vec<u32> = (0..8).collect();
    let step = Tags::of_ids(&ids, &ids);
    let model = group(&vec![body(&vec![step; 8], &[0, 1, 0, 1, 0, 1, 0]); 64]);
    let all: Vec<u32> = (0..16).collect();
    let subject = Tags::of_ids(&all, &all);
    let mut items = start(&model, AMPLE);
    items.extend((0..9).map(|state| enter(state, S, &subject)));
    items.push(enter(3, S, &Tags::of_ids(&all[1..], &all)));
    items.extend([part(8, S), part(9, S), tell([8, 33, 100, 70, 41])]);
    cases.push(case(items));
    cases
}

/// Which subjects are equal, and which are refused.
fn subjects() -> Vec<WalkCase> {
    let mut cases = Vec::new();
    let told = |rows: u32| tell([8, 9, 12, 5, rows * 41]);
    // Words that do not count, and flags that mean set.
    let plain: Row = subject_a().row();
    let mut others = Vec::new();
    for (place, value) in [
        (0, 2),
        (0, u32::MAX),
        (3, 8),
        (8, 9),
        (21, u32::MAX),
        (24, 1),
        (37, 7),
    ] {
        let mut row = plain;
        row[place] = value;
        others.push(row);
    }
    let mut items = start(&group(&small_bodies()), AMPLE);
    items.push(enter_row(0, S, &plain));
    items.extend(others.iter().map(|row| enter_row(0, S, row)));
    items.push(told(2));
    cases.push(case(items));
    // The same with each of them first: its id words are kept as they stood.
    for row in &others {
        let mut items = start(&group(&small_bodies()), AMPLE);
        items.extend([enter_row(0, S, row), enter_row(0, S, &plain), told(2)]);
        cases.push(case(items));
    }
    // A tag that is not set, with a number.
    let unset: Row = Tags::of_ids(&[5], &[]).row();
    for flag in [0, 2] {
        let mut row = unset;
        row[flag + 1] = 1;
        let mut items = start(&group(&small_bodies()), AMPLE);
        items.extend([enter_row(0, S, &row), enter_row(0, S, &unset)]);
        items.extend([enter_row(0, S, &row), part(1, S), told(2)]);
        cases.push(case(items));
    }
    // Subjects that differ in one thing.
    let mut items = start(&group(&small_bodies()), AMPLE);
    let differing = [
        Tags::default(),
        Tags::of_type(0),
        Tags::of_part(0),
        Tags::of_ids(&[0], &[]),
        Tags::of_ids(&[], &[0]),
        Tags::of_ids(&[0, 1], &[]),
        Tags::of_ids(&[0], &[1]),
        Tags::of_ids(&[0, u32::MAX], &[0x7fff_ffff, 0x8000_0000]),
        Tags::of_type(u32::MAX),
    ];
    for _ in 0..2 {
        items.extend(differing.iter().map(|subject| enter(0, S, subject)));
    }
    items.push(told(10));
    cases.push(case(items));
    // Tags and ids of each kind are kept apart.
    let kinds = [
        Tags::of_type(3),
        Tags::of_part(3),
        Tags::of_ids(&[3], &[]),
        Tags::of_ids(&[], &[3]),
    ];
    let rules: Vec<Body> = kinds
        .iter()
        .map(|step| body(std::slice::from_ref(step), &[]))
        .collect();
    let mut items = start(&group(&rules), AMPLE);
    for (state, subject) in (1..).zip(&kinds) {
        items.extend([enter(0, S, subject), part(state, S)]);
    }
    let all = Tags {
        type_tag: Some(3),
        part_tag: Some(3),
        classes: vec![1, 3],
        pseudos: vec![2, 3, 4],
    };
    items.extend([enter(0, S, &all), part(5, S)]);
    cases.push(case(items));
    cases.push(counts_and_orders());
    cases
}

/// Counts up to 16 and over, and ids that do not ascend.
fn counts_and_orders() -> WalkCase {
    let full: Vec<u32> = (0..SUBJECT_IDS as u32).collect();
    let mut items = start(&group(&small_bodies()), AMPLE);
    for list in [0, 1] {
        let ids = 6 + SUBJECT_IDS * list;
        for count in [15, 16, 17, 18, 32, 0x100, 0x8000_0000, u32::MAX] {
            let mut row: Row = Tags::of_ids(&full, &full).row();
            row[4 + list] = count;
            items.push(enter_row(0, S, &row));
        }
        for wrong in [0, 1, 7, 14] {
            for value in [wrong as u32 + 1, wrong as u32 + 2] {
                let mut row: Row = Tags::of_ids(&full, &full).row();
                row[ids + wrong] = value;
                items.push(enter_row(0, S, &row));
                // Past the count it does not matter.
                row[4 + list] = wrong as u32 + 1;
                items.push(enter_row(0, S, &row));
            }
        }
        let mut row: Row = Tags::of_ids(&[], &[]).row();
        row[4 + list] = 2;
        for pair in [
            [0, 0],
            [1, 0],
            [0, 1],
            [u32::MAX, 0],
            [0x7fff_ffff, 0x8000_0000],
        ] {
            row[ids..ids + 2].copy_from_slice(&pair);
            items.push(enter_row(0, S, &row));
        }
    }
    items.push(tell([8, 12, 20, 8, 0]));
    case(items)
}

/// States of this table and of another.
fn stamps() -> Vec<WalkCase> {
    let mut cases = Vec::new();
    for stamp in [0, 1, S, 0x8000_0000, u32::MAX] {
        let mut items = small_table(AMPLE);
        // Old states and transitions stay in the words.
        items.extend([build(stamp, 1), small_told(), root(stamp)]);
        for number in [0, 1, 2] {
            for given in [stamp, S, stamp.wrapping_add(1), !stamp] {
                items.extend([enter(number, given, &subject_a()), part(number, given)]);
            }
        }
        items.extend([enter(1, stamp, &subject_b()), small_told()]);
        cases.push(case(items));
    }
    cases
}

/// What breaks a clause of row 11, and what keeps it.
pub struct Clause {
    pub before: Vec<Item>,
    pub bad: Vec<Item>,
    pub good: Vec<Item>,
}

impl Clause {
    fn case(&self) -> WalkCase {
        let mut items = self.before.clone();
        items.extend(self.bad.clone());
        let mut wrong: Row = subject_a().row();
        wrong[4] = 17;
        items.extend([part(0, S), enter(0, S, &subject_a())]);
        items.extend([enter_row(600, S + 1, &wrong), small_told()]);
        items.extend(self.good.clone());
        items.extend([part(0, S), part(1, S), enter(0, S, &subject_a())]);
        items.extend([enter(1, S, &subject_c()), small_told()]);
        case(items)
    }
}

fn clauses() -> Vec<WalkCase> {
    all_clauses().iter().map(Clause::case).collect()
}

/// One word of the small table: bad values, and a good one.
fn word_clauses(piece: usize, address: usize, bad: &[u32], good: u32) -> Vec<Clause> {
    let clause = |&bad: &u32| Clause {
        before: small_table(AMPLE),
        bad: vec![write(piece, address, &[bad])],
        good: vec![write(piece, address, &[good])],
    };
    bad.iter().map(clause).collect()
}

/// The states' ends, the lists, and the four counts of the head: any table
/// over the small sheet.
fn table_of(ends: &[[u32; 2]], cursors: &[u32], matched: &[u32]) -> Vec<Item> {
    let rows: Vec<u32> = ends
        .iter()
        .flat_map(|&[first, second]| [first, second, 0])
        .collect();
    let counts = [ends.len(), cursors.len(), matched.len(), 0].map(|count| count as u32);
    vec![
        write(STATE_ROWS, 0, &rows),
        write(CURSORS, 0, cursors),
        write(MATCHED, 0, matched),
        write(HEAD, STATE_COUNT, &counts),
    ]
}

/// Every clause that row 11 has for a table.
pub fn all_clauses() -> Vec<Clause> {
    let mut clauses = count_clauses();
    clauses.extend(list_clauses());
    clauses.extend(end_clauses());
    clauses.extend(root_clauses());
    clauses.extend(transition_clauses());
    clauses
}

/// Counts past the room or the sizes, and the ranking.
fn count_clauses() -> Vec<Clause> {
    let mut clauses = word_clauses(HEAD, RANKING, &[2, 3, 0x100, u32::MAX], 1);
    // A table without states, over the empty sheet.
    clauses.push(Clause {
        before: start(&Model::default(), AMPLE),
        bad: vec![write(HEAD, STATE_COUNT, &[0])],
        good: vec![write(HEAD, STATE_COUNT, &[1])],
    });
    // Each room one short of what is used; the sheet's too.
    for piece in 0..5 {
        let mut short = FULL;
        short[piece] -= 1;
        clauses.push(Clause {
            before: small_table(AMPLE),
            bad: vec![rooms(short)],
            good: vec![rooms(FULL)],
        });
        let mut short = AMPLE;
        short[piece] = 0;
        clauses.push(Clause {
            before: small_table(AMPLE),
            bad: vec![rooms(short)],
            good: vec![rooms(FULL)],
        });
    }
    // A count one past the room, in memory that would be in shape.
    let more = [STATE_COUNT, TRANSITION_COUNT];
    for place in more {
        let mut before = small_table(FULL);
        before.push(write(STATE_ROWS, 9, &[10, 3, 0]));
        before.push(write(TRANSITION_ROWS, 123, &[0; 41]));
        clauses.push(Clause {
            before,
            bad: vec![write(HEAD, place, &[4])],
            good: vec![write(HEAD, place, &[3])],
        });
    }
    // 513 states, though there is room for 515.
    let mut before = small_table(AMPLE);
    before.push(write(STATE_ROWS, 9, &[10, 3, 0].repeat(512)));
    for count in [513, 514, 515, 516, 0x8000_0000, u32::MAX] {
        clauses.push(Clause {
            before: before.clone(),
            bad: vec![write(HEAD, STATE_COUNT, &[count])],
            good: vec![write(HEAD, STATE_COUNT, &[STATES as u32])],
        });
    }
    clauses.extend(word_clauses(HEAD, TRANSITION_COUNT, &[601, u32::MAX], 3));
    clauses.extend(word_clauses(HEAD, TRANSITION_COUNT, &[601, u32::MAX], 0));
    clauses
}

/// Lists strictly ascending, of cursors and rules that there are.
fn list_clauses() -> Vec<Clause> {
    let mut clauses = Vec::new();
    // State 1's cursors 9 17 41: equal, falling; others that ascend.
    clauses.extend(word_clauses(CURSORS, 5, &[17, 18, 40], 16));
    clauses.extend(word_clauses(CURSORS, 6, &[9, 8, 41], 40));
    // State 2's cursors 9 18: of steps and rules that there are not.
    clauses.extend(word_clauses(
        CURSORS,
        9,
        &[19, 23, 24, 33, 42, 47, 48, u32::MAX],
        18,
    ));
    clauses.extend(word_clauses(CURSORS, 9, &[10, 11, 25], 41));
    clauses.extend(word_clauses(CURSORS, 8, &[1, 7, 10], 0));
    // State 1's matched 0 4.
    clauses.extend(word_clauses(MATCHED, 0, &[4, 5], 3));
    clauses.extend(word_clauses(MATCHED, 1, &[0, 6, 256, u32::MAX], 5));
    clauses.extend(word_clauses(MATCHED, 2, &[6, 7, 256, u32::MAX], 5));
    clauses
}

/// Lists end to end, and counts equal to the last end.
fn end_clauses() -> Vec<Clause> {
    let mut clauses = Vec::new();
    clauses.extend(word_clauses(HEAD, CURSOR_COUNT, &[9, 11, 0, u32::MAX], 10));
    clauses.extend(word_clauses(HEAD, MATCHED_COUNT, &[2, 4, 0, u32::MAX], 3));
    clauses.extend(word_clauses(STATE_ROWS, 6, &[9, 11, 7, u32::MAX], 10));
    clauses.extend(word_clauses(STATE_ROWS, 7, &[2, 4, 1, u32::MAX], 3));
    clauses.extend(word_clauses(STATE_ROWS, 3, &[4, 11, 0, u32::MAX], 8));
    clauses.extend(word_clauses(STATE_ROWS, 4, &[4, u32::MAX], 2));
    // An end that falls, with lists that ascend all the same.
    let mut before = start(&group(&small_bodies()), AMPLE);
    let root = [0, 8, 16, 32, 40];
    before.extend(table_of(&[[5, 0], [5, 0], [5, 0]], &root, &[]));
    clauses.push(Clause {
        before,
        bad: vec![write(STATE_ROWS, 3, &[4])],
        good: vec![write(STATE_ROWS, 3, &[5])],
    });
    let mut before = start(&group(&small_bodies()), AMPLE);
    before.extend(table_of(&[[5, 0], [5, 1], [5, 1], [5, 1]], &root, &[3]));
    clauses.push(Clause {
        before,
        bad: vec![write(STATE_ROWS, 7, &[0])],
        good: vec![write(STATE_ROWS, 7, &[1])],
    });
    clauses
}

/// A root other than build makes.
fn root_clauses() -> Vec<Clause> {
    let mut clauses = Vec::new();
    // Another cursor of the same rule.
    clauses.extend(word_clauses(CURSORS, 1, &[9], 8));
    clauses.extend(word_clauses(CURSORS, 2, &[17, 18], 16));
    // A matched rule.
    clauses.extend(word_clauses(STATE_ROWS, 1, &[1], 0));
    // A cursor too few, or one too many.
    let root = [0, 8, 16, 32, 40];
    let mut before = start(&group(&small_bodies()), AMPLE);
    before.extend(table_of(&[[5, 0], [5, 0]], &root, &[]));
    clauses.push(Clause {
        before,
        bad: vec![write(STATE_ROWS, 0, &[4])],
        good: vec![write(STATE_ROWS, 0, &[5])],
    });
    let mut before = start(&group(&small_bodies()), AMPLE);
    let more = [0, 8, 16, 32, 40, 41];
    before.extend(table_of(&[[5, 0], [6, 0]], &more, &[]));
    clauses.push(Clause {
        before,
        bad: vec![write(STATE_ROWS, 0, &[6])],
        good: vec![write(STATE_ROWS, 0, &[5])],
    });
    // No cursor at all, where the sheet has rules with steps; and one where
    // it has none.
    let one = start(&group(&[types(&[1], &[])]), AMPLE);
    clauses.push(Clause {
        before: one.clone(),
        bad: table_of(&[[0, 0]], &[], &[]),
        good: table_of(&[[1, 0]], &[0], &[]),
    });
    // The sheet has one more rule with steps, or one fewer; or one more
    // without.
    let two = group(&[types(&[1], &[]), types(&[2], &[])]);
    let three = group(&[types(&[1], &[]), types(&[], &[])]);
    clauses.push(Clause {
        before: one.clone(),
        bad: sheet(&two),
        good: sheet(&three),
    });
    clauses.push(Clause {
        before: one,
        bad: sheet(&Model::default()),
        good: sheet(&group(&[types(&[3, 4], &[0])])),
    });
    clauses
}

/// Transitions: states that there are, flags, counts and ids.
fn transition_clauses() -> Vec<Clause> {
    let piece = TRANSITION_ROWS;
    let mut clauses = Vec::new();
    for row in [0, 2] {
        let at = TRANSITION_ROW * row;
        clauses.extend(word_clauses(piece, at, &[3, 4, 512, u32::MAX], 2));
        clauses.extend(word_clauses(piece, at + 1, &[3, 4, 512, u32::MAX], 0));
        for flag in [3, 5] {
            clauses.extend(word_clauses(piece, at + flag, &[2, 0x100, u32::MAX], 0));
            clauses.extend(word_clauses(piece, at + flag, &[2], 1));
        }
    }
    // Sixteen ids of each kind.
    let full: Vec<u32> = (1..=16).collect();
    for list in [0, 1] {
        let mut before = small_table(AMPLE);
        before.push(write(piece, 9, &[&full[..], &full].concat()));
        for count in [17, 18, 32, u32::MAX] {
            clauses.push(Clause {
                before: before.clone(),
                bad: vec![write(piece, 7 + list, &[count])],
                good: vec![write(piece, 7 + list, &[16])],
            });
        }
        // The last two of them.
        let mut sixteen = before.clone();
        sixteen.push(write(piece, 7 + list, &[16]));
        let last = 9 + SUBJECT_IDS * list + 15;
        for value in [15, 14] {
            clauses.push(Clause {
                before: sixteen.clone(),
                bad: vec![write(piece, last, &[value])],
                good: vec![write(piece, last, &[u32::MAX])],
            });
        }
    }
    // A's classes 2 5 and pseudos 3 4.
    clauses.extend(word_clauses(piece, 9, &[5, 6, u32::MAX], 4));
    clauses.extend(word_clauses(piece, 10, &[2, 1, 0], 3));
    clauses.extend(word_clauses(piece, 25, &[4, 5, u32::MAX], 0));
    clauses.extend(word_clauses(piece, 26, &[3, 2, 0], u32::MAX));
    // Counted, words past the ids are ids: 5, 0.
    clauses.extend(word_clauses(piece, 7, &[3, 16], 1));
    clauses.extend(word_clauses(piece, 8, &[3, 16], 0));
    clauses
}

/// The small sheet with a longer walk: root's transitions 0, 1, 4, state 1's
/// 2 and 3.
fn chained() -> Vec<Item> {
    let (a, b, c) = (subject_a(), subject_b(), subject_c());
    let mut items = start(&group(&small_bodies()), AMPLE);
    items.extend([enter(0, S, &a), enter(0, S, &b), enter(1, S, &b)]);
    items.extend([enter(1, S, &c), enter(0, S, &c)]);
    items
}

/// A link stored: of a state, or of a transition.
#[derive(Copy, Clone)]
enum At {
    State(usize),
    Transition(usize),
}

fn link(at: At, value: u32) -> Item {
    match at {
        At::State(state) => write(STATE_ROWS, STATE_ROW * state + 2, &[value]),
        At::Transition(row) => write(TRANSITION_ROWS, TRANSITION_ROW * row + 2, &[value]),
    }
}

/// Chains that lead nowhere, round and round, or to another parent's rows.
fn links() -> Vec<WalkCase> {
    use At::{State, Transition};
    let mut stores: Vec<Vec<Item>> = Vec::new();
    // One link, everywhere it can lead.
    for at in [
        State(0),
        State(1),
        State(2),
        Transition(0),
        Transition(1),
        Transition(2),
        Transition(4),
    ] {
        for value in [0, 1, 2, 3, 4, 5, 6, 7, 9, 601, 0x8000_0000, u32::MAX] {
            stores.push(vec![link(at, value)]);
        }
    }
    // Loops of two and three rows, with a way in, and over both parents.
    let many = |links: &[(At, u32)]| links.iter().map(|&(at, value)| link(at, value)).collect();
    stores.extend([
        many(&[(Transition(0), 2), (Transition(1), 1)]),
        many(&[(Transition(0), 2), (Transition(1), 5), (Transition(4), 1)]),
        many(&[(Transition(0), 2), (Transition(1), 5), (Transition(4), 2)]),
        many(&[(Transition(0), 1), (State(1), 1)]),
        many(&[(Transition(4), 3), (Transition(3), 1)]),
        many(&[(Transition(3), 1), (Transition(4), 3)]),
        many(&[(State(0), 3), (State(1), 1)]),
        many(&[(State(0), 4), (Transition(3), 5), (Transition(4), 1)]),
        many(&[(State(0), 0), (State(1), 0)]),
        many(&[(State(2), 6), (Transition(4), 6)]),
        many(&[
            (State(0), 5),
            (Transition(4), 2),
            (Transition(1), 1),
            (Transition(0), 0),
        ]),
    ]);
    // Rows of another parent, or to another child.
    for (row, parent, child) in [
        (0, 1, 1),
        (0, 0, 0),
        (1, 2, 2),
        (2, 0, 2),
        (4, 1, 3),
        (2, 0, 0),
    ] {
        stores.push(vec![write(
            TRANSITION_ROWS,
            TRANSITION_ROW * row,
            &[parent, child],
        )]);
    }
    let (a, b, c) = (subject_a(), subject_b(), subject_c());
    let of = |stores: Vec<Item>| {
        let mut items = chained();
        items.extend(stores);
        for parent in [0, 1, 2] {
            for subject in [&a, &b, &c] {
                items.push(enter(parent, S, subject));
            }
        }
        let told = tell([8, 18, 24, 8, 12 * 41]);
        items.push(told.clone());
        // New subjects, twice: kept, and found.
        for _ in 0..2 {
            items.extend([0, 1, 0].map(|parent| enter(parent, S, &typed(20 + parent))));
            items.push(enter(0, S, &typed(30)));
        }
        items.push(told);
        case(items)
    };
    stores.into_iter().map(of).collect()
}

/// Equal states and equal transitions: the first counts.
fn equals() -> Vec<WalkCase> {
    let (a, b, c) = (subject_a(), subject_b(), subject_c());
    let mut cases = Vec::new();
    let told = || tell([8, 24, 30, 10, 8 * 41]);
    // State 3 is state 1 again, state 4 is state 2 again, state 5 the root.
    let mut copies = small_table(AMPLE);
    copies.push(write(CURSORS, 10, &[9, 17, 41, 9, 18, 0, 8, 16, 32, 40]));
    copies.push(write(MATCHED, 3, &[0, 4, 1]));
    copies.push(write(STATE_ROWS, 9, &[13, 5, 0, 15, 6, 0, 20, 6, 0]));
    copies.push(write(HEAD, STATE_COUNT, &[6, 20, 6]));
    let other = Tags {
        part_tag: Some(1),
        ..a.clone()
    };
    // Without a held transition, and with one to the second.
    for child in [None, Some(3), Some(4), Some(5)] {
        let mut items = copies.clone();
        if let Some(child) = child {
            items.push(write(TRANSITION_ROWS, 1, &[child]));
        }
        items.extend([enter(0, S, &a), enter(0, S, &other), enter(0, S, &other)]);
        for parent in [3, 4, 5] {
            items.extend([enter(parent, S, &b), enter(parent, S, &a), part(parent, S)]);
        }
        items.extend([enter(3, S, &c), told()]);
        cases.push(case(items));
    }
    // A second transition with the same parent and subject, after the first
    // in the chain and before it.
    for (child, first) in [(2, false), (2, true), (0, false), (0, true), (1, true)] {
        let mut items = small_table(AMPLE);
        let row: Row = a.row();
        let next = u32::from(first);
        items.push(write(
            TRANSITION_ROWS,
            123,
            &[&[0, child, next], &row[..]].concat(),
        ));
        items.push(match first {
            true => link(At::State(0), 4),
            false => link(At::Transition(0), 4),
        });
        items.push(write(HEAD, TRANSITION_COUNT, &[4]));
        items.extend([enter(0, S, &a), enter(0, S, &c), enter(0, S, &a), told()]);
        cases.push(case(items));
    }
    // A row that is there, in no chain: it is not found, and kept again.
    let mut items = small_table(AMPLE);
    let row: Row = c.row();
    items.push(write(
        TRANSITION_ROWS,
        123,
        &[&[0, 2, 0], &row[..]].concat(),
    ));
    items.push(write(HEAD, TRANSITION_COUNT, &[4]));
    items.extend([enter(0, S, &c), enter(0, S, &c), told()]);
    cases.push(case(items));
    // A child that no entering makes, a list that no entering makes.
    let mut items = small_table(AMPLE);
    items.push(write(MATCHED, 0, &[3, 5, 4]));
    items.extend([part(1, S), part(2, S), enter(0, S, &a), enter(0, S, &other)]);
    items.extend([part(3, S), enter(1, S, &b), enter(1, S, &c), told()]);
    cases.push(case(items));
    // Cursors at step 0, and at later steps, in a state by hand.
    let mut items = small_table(AMPLE);
    items.push(write(CURSORS, 5, &[0, 8, 40, 18, 41]));
    items.extend([
        enter(1, S, &a),
        enter(1, S, &b),
        enter(2, S, &a),
        enter(2, S, &typed(3)),
    ]);
    items.extend([part(3, S), part(4, S), part(5, S), told()]);
    cases.push(case(items));
    cases
}

/// The sheet written after build.
fn sheets_after_build() -> Vec<WalkCase> {
    let probe = || {
        let mut items = Vec::new();
        for state in [0, 1, 2] {
            items.extend([enter(state, S, &subject_a()), enter(state, S, &subject_c())]);
            items.push(part(state, S));
        }
        items.push(tell([8, 18, 24, 10, 0]));
        items
    };
    let mut cases = Vec::new();
    for (address, value) in [
        // The type of rule 0's step, of rule 1's second; a combinator.
        (step_word(0, 1), 2),
        (step_word(2, 1), 1),
        (step_word(2, 22), 0),
        (step_word(4, 22), 1),
        (step_word(5, 0), 0),
        (step_word(3, 6), 2),
        // The shape of the sheet.
        (step_word(0, 0), 2),
        (rule_word(0, 0), 8),
        // Equal keys, an order that no push makes.
        (rule_word(1, 2), 0),
        (rule_word(0, 1), 3),
        // A rule has a step more, and the next one fewer.
        (rule_word(0, 3), 2),
        (rule_word(2, 3), 5),
        (rule_word(3, 3), 7),
        (rule_word(4, 3), 8),
        // A rule fewer.
        (RULE_COUNT, 5),
        (RULE_COUNT, 7),
        (STEP_COUNT, 8),
    ] {
        let mut items = small_table(AMPLE);
        items.push(stored(address, &[value]));
        items.extend(probe());
        // Built anew.
        items.push(build(S, 1));
        items.extend(probe());
        cases.push(case(items));
    }
    // The last rule gone: without steps, listed or not; with steps.
    let long = [types(&[1], &[]), types(&[2, 3], &[1]), types(&[], &[])];
    let model = group(&long);
    let last = |count: usize| {
        let mut items = sheet(&group(&long[..count]));
        items.extend([part(1, S), enter(0, S, &typed(2)), enter(1, S, &typed(3))]);
        items
    };
    for listed in [0, 2] {
        let mut items = start(&model, AMPLE);
        items.extend([
            enter(0, S, &typed(1)),
            write(MATCHED, 0, &[listed]),
            part(1, S),
        ]);
        for count in [2, 3, 1, 3] {
            items.extend(last(count));
        }
        cases.push(case(items));
    }
    // The sheet's room, and a rule without steps put first.
    let mut items = small_table(AMPLE);
    for room in [ROOM - 1, ROOM, 0, ROOM + 4, u32::MAX] {
        items.push(rooms([room, 1545, 16_384, 8192, 24_600]));
        items.extend(probe());
    }
    cases.push(case(items));
    let mut items = start(&model, AMPLE);
    items.push(enter(0, S, &typed(1)));
    let moved = [types(&[], &[]), long[0].clone(), long[1].clone()];
    items.extend(sheet(&group(&moved)));
    items.extend([enter(0, S, &typed(1)), part(0, S), build(S, 0)]);
    items.extend(probe());
    cases.push(case(items));
    cases
}

/// Every word of the small table overwritten with several values.
fn overwritten() -> Vec<WalkCase> {
    let mut machine = Machine::default();
    for item in small_table(AMPLE) {
        machine.item(item.op, &item.payload);
    }
    let used = [8, 12, 12, 5, 3 * 41 + 4];
    let places = used.into_iter().enumerate();
    let places = places.flat_map(|(piece, used)| (0..used).map(move |address| (piece, address)));
    let of = |(piece, address): (usize, usize)| {
        let own = machine.piece(piece)[address];
        let near = [own.wrapping_sub(1), own.wrapping_add(1)];
        let mut items = sheet(&group(&small_bodies()));
        items.push(rooms(AMPLE));
        for value in near.into_iter().chain([0, 1, 2, 4, 9, 16, 17, u32::MAX]) {
            items.push(build(S, 0));
            items.extend(small_walk());
            items.push(write(piece, address, &[value]));
            items.extend([part(1, S), enter(0, S, &subject_a())]);
            items.extend([enter(2, S, &subject_b()), enter(1, S, &subject_c())]);
            items.push(tell([8, 12, 15, 6, 0]));
        }
        items.push(small_told());
        case(items)
    };
    places.map(of).collect()
}

/// Payloads that are short, long, or point past the memory.
fn payloads() -> Vec<WalkCase> {
    let mut cases = Vec::new();
    // Nothing at all, one word, more words than are read.
    for words in [&[][..], &[1], &[1; 50]] {
        let mut items = small_table(AMPLE);
        for op in (SHEET..=COMPARE).chain([0, 18, 19, 0x8000_0000, u32::MAX]) {
            items.push(item(op, words));
        }
        items.extend([small_told(), rooms(AMPLE), part(0, 1), part(0, S)]);
        cases.push(case(items));
    }
    // Where pieces end. Numbers of pieces count modulo 5.
    let mut items = small_table(AMPLE);
    for (piece, size) in SIZES.into_iter().enumerate() {
        for address in [size - 3, size - 1, size, size + 1, u32::MAX as usize] {
            items.push(write(piece, address, &[1, 2, 3, 4, 5]));
        }
    }
    items.extend([tell([u32::MAX; 5]), part(0, S), enter(0, S, &subject_a())]);
    for piece in [5, 9, 6, 0x8000_0000, u32::MAX as usize] {
        items.extend([write(piece, 5, &[2]), small_told()]);
    }
    for (first, size) in SIZES.into_iter().enumerate() {
        let mut counts = [0; 5];
        counts[first] = size as u32 - 1;
        items.push(tell(counts));
    }
    cases.push(case(items));
    let mut items = small_table(AMPLE);
    for address in [67_019, 67_020, 67_021, u32::MAX as usize] {
        items.extend([stored(address, &[1, 2, 3]), part(0, S)]);
    }
    // The last word of the room, and of the memory, hold nothing.
    for room in [ROOM, ROOM + 3, ROOM + 4, ROOM + 5, u32::MAX] {
        items.push(rooms([room, u32::MAX, u32::MAX, u32::MAX, u32::MAX]));
        items.extend([part(0, S), enter(2, S, &subject_c())]);
    }
    // As long as a payload can be, over all of the sheet.
    let longest = LONGEST_PAYLOAD as usize - 1;
    for begin in [0, longest, 2 * longest, 67_000] {
        items.extend([stored(begin, &vec![0; longest]), part(0, S)]);
    }
    items.extend([build(S, 0), part(0, S), enter(0, S, &subject_a())]);
    items.push(small_told());
    cases.push(case(items));
    // Flags of the given subject that mean set, and words past it.
    let mut items = small_table(AMPLE);
    let row: Row = subject_a().row();
    let mut long = [&[0, S], &row[..]].concat();
    long.extend([9; 20]);
    items.extend([item(ENTER, &long), item(ENTER, &[0, S, 5, 1]), small_told()]);
    cases.push(case(items));
    let mut items = small_table(AMPLE);
    items.extend([write(HEAD, STAMP, &[S + 1]), part(0, S), part(0, S + 1)]);
    items.extend([
        write(HEAD, 6, &[5, 6]),
        enter(0, S + 1, &subject_a()),
        small_told(),
    ]);
    items.extend([build(S, 0), small_told()]);
    cases.push(case(items));
    cases
}
