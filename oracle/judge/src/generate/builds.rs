//! Cases of sheets: the items, and cases by chance. The fixed cases are in
//! build_edges.rs.

use super::EXTREMES;
use super::damage::damage_words;
use super::paths::{Tags, rubbish_in_row, step};
use super::random::Random;
use crate::batches::bytes_of;
use crate::builds::given::ROW;
use crate::builds::image::{
    ENTRY_COUNT, HEAD, NEXT, RULE_COUNT, SHEET_WORDS, entry_word, rule_word, step_word,
    style_entry_word, style_word,
};
use crate::builds::{
    BuildCase, CASCADE, GROUP, Item, LONGEST_PAYLOAD, LOOK, LOOK_LENT, NEW, READ, READ_RULE, RULE,
    STORE, STYLE,
};

/// The least room that a sheet needs.
pub const ROOM: u32 = SHEET_WORDS as u32;

pub fn item(op: u32, payload: &[u32]) -> Item {
    Item {
        op,
        payload: payload.to_vec(),
    }
}

pub fn new(which: u32, room: u32) -> Item {
    item(NEW, &[which, room])
}

pub fn cascade(which: u32) -> Item {
    item(CASCADE, &[which])
}

pub fn store(which: u32, address: usize, value: u32) -> Item {
    item(STORE, &[which, address as u32, value])
}

pub fn read(which: u32) -> Item {
    item(READ, &[which])
}

pub fn read_rule(which: u32, number: u32, ranking: u32) -> Item {
    item(READ_RULE, &[which, number, ranking])
}

pub fn look(which: u32, rule: u32, number: u32, property: u32) -> Item {
    item(LOOK, &[which, rule, number, property])
}

/// Entries as given: a count, and the three lists that it counts.
#[derive(Clone, Debug, Default)]
pub struct Entries {
    pub count: u32,
    pub properties: Vec<u32>,
    pub kinds: Vec<u32>,
    pub numbers: Vec<u32>,
}

impl Entries {
    pub fn of(entries: &[[u32; 3]]) -> Self {
        Self {
            count: entries.len() as u32,
            properties: entries.iter().map(|entry| entry[0]).collect(),
            kinds: entries.iter().map(|entry| entry[1]).collect(),
            numbers: entries.iter().map(|entry| entry[2]).collect(),
        }
    }

    /// So many, with kinds and numbers in turn.
    pub fn plain(count: usize) -> Self {
        let entry = |place: usize| [place as u32 * 3, place as u32 % 4, 100 + place as u32];
        Self::of(&(0..count).map(entry).collect::<Vec<_>>())
    }

    fn lengths(&self) -> [u32; 3] {
        [&self.properties, &self.kinds, &self.numbers].map(|list| list.len() as u32)
    }

    fn lists(&self) -> Vec<u32> {
        [&self.properties[..], &self.kinds, &self.numbers].concat()
    }

    pub fn style(&self, which: u32, origin: u32) -> Item {
        let head = [&[which, origin, self.count][..], &self.lengths()].concat();
        item(STYLE, &[head, self.lists()].concat())
    }

    pub fn look(&self, property: u32) -> Item {
        let head = [&[self.count, property][..], &self.lengths()].concat();
        item(LOOK_LENT, &[head, self.lists()].concat())
    }
}

/// One rule as it is meant, with right counts.
#[derive(Clone, Debug, Default)]
pub struct Given {
    pub rows: Vec<[u32; ROW]>,
    pub codes: Vec<u32>,
    pub entries: Vec<[u32; 3]>,
}

impl Given {
    /// Rows, all child, and entries.
    pub fn of(rows: &[[u32; ROW]], entries: usize) -> Self {
        let lists = Entries::plain(entries);
        let entry = |at: usize| [lists.properties[at], lists.kinds[at], lists.numbers[at]];
        Self {
            rows: rows.to_vec(),
            codes: vec![0; rows.len().saturating_sub(1)],
            entries: (0..entries).map(entry).collect(),
        }
    }

    fn counts(&self) -> [u32; 3] {
        [self.rows.len(), self.codes.len(), self.entries.len()].map(|count| count as u32)
    }
}

/// A group as given: the number of rules, their counts, and what is lent.
#[derive(Clone, Debug, Default)]
pub struct Group {
    pub origin: u32,
    pub count: u32,
    pub rules: Vec<u32>,
    pub rows: Vec<u32>,
    pub codes: Vec<u32>,
    pub entries: Entries,
}

impl Group {
    pub fn of(origin: u32, rules: &[Given]) -> Self {
        let entries: Vec<[u32; 3]> = rules.iter().flat_map(|rule| rule.entries.clone()).collect();
        Self {
            origin,
            count: rules.len() as u32,
            rules: rules.iter().flat_map(Given::counts).collect(),
            rows: rules.iter().flat_map(|rule| rule.rows.concat()).collect(),
            codes: rules.iter().flat_map(|rule| rule.codes.clone()).collect(),
            entries: Entries::of(&entries),
        }
    }

    /// The lists that are lent, in their order.
    pub fn lists(&mut self) -> [&mut Vec<u32>; 6] {
        let Entries {
            properties,
            kinds,
            numbers,
            ..
        } = &mut self.entries;
        [
            &mut self.rules,
            &mut self.rows,
            &mut self.codes,
            properties,
            kinds,
            numbers,
        ]
    }

    fn lent(&self) -> Vec<u32> {
        [&self.rows[..], &self.codes, &self.entries.lists()].concat()
    }

    pub fn item(&self, which: u32) -> Item {
        let mut payload = vec![which, self.origin, self.count];
        let lengths = [&self.rules, &self.rows, &self.codes].map(|list| list.len() as u32);
        payload.extend(lengths);
        payload.extend(self.entries.lengths());
        payload.extend(&self.rules);
        payload.extend(self.lent());
        item(GROUP, &payload)
    }

    /// The first rule's counts, and all that is lent, as one rule.
    pub fn rule(&self, which: u32) -> Item {
        let mut payload = vec![which, self.origin];
        payload.extend((0..3).map(|at| self.rules.get(at).copied().unwrap_or(0)));
        payload.extend([&self.rows, &self.codes].map(|list| list.len() as u32));
        payload.extend(self.entries.lengths());
        payload.extend(self.lent());
        item(RULE, &payload)
    }
}

pub fn group(which: u32, origin: u32, rules: &[Given]) -> Item {
    Group::of(origin, rules).item(which)
}

pub fn rule(which: u32, origin: u32, rule: &Given) -> Item {
    Group::of(origin, std::slice::from_ref(rule)).rule(which)
}

pub fn style(which: u32, origin: u32, entries: usize) -> Item {
    Entries::plain(entries).style(which, origin)
}

/// Both sheets lent, then some items.
pub fn case(items: impl IntoIterator<Item = Item>) -> BuildCase {
    let begin = [new(0, ROOM), new(1, ROOM)];
    BuildCase {
        items: begin.into_iter().chain(items).collect(),
    }
}

fn number(random: &mut Random) -> u32 {
    match random.below(4) {
        0 => random.word(),
        1 => random.pick(&EXTREMES),
        _ => random.below(100) as u32,
    }
}

/// Entries, mostly in order, once in a while with a fault.
fn random_entries(random: &mut Random, most: usize) -> Vec<[u32; 3]> {
    let count = match random.below(12) {
        0 => random.between(0, most),
        1..=3 => 0,
        _ => random.between(1, 4),
    };
    let mut properties: Vec<u32> = (0..count)
        .map(|_| match random.below(6) {
            0 => u32::from(random.word() as u16),
            1 => random.pick(&[0, 1, 0x7fff, 0x8000, 0xfffe, 0xffff]),
            _ => random.below(40) as u32,
        })
        .collect();
    properties.sort_unstable();
    properties.dedup();
    if random.once_in(30) && properties.len() > 1 {
        let place = random.below(properties.len() - 1);
        match random.below(2) {
            0 => properties.swap(place, place + 1),
            _ => properties[place + 1] = properties[place],
        }
    }
    let mut entries: Vec<[u32; 3]> = properties
        .into_iter()
        .map(|property| [property, random.below(4) as u32, number(random)])
        .collect();
    if random.once_in(30)
        && let Some(entry) = entries.last_mut()
    {
        entry[1] = random.pick(&[4, 5, 0x100, 0x1_0000, u32::MAX]);
    }
    // Only the low 16 bits of a property count.
    if random.once_in(20) {
        for entry in &mut entries {
            entry[0] |= random.word() << 16;
        }
    }
    entries
}

fn random_row(random: &mut Random) -> [u32; ROW] {
    let mut row = match random.below(12) {
        0 => {
            let ids = |random: &mut Random| -> Vec<u32> {
                let few = random.once_in(2);
                let count = random.between(6, 8);
                let id = |random: &mut Random| match few {
                    true => random.below(5) as u32,
                    false => number(random),
                };
                (0..count).map(|_| id(random)).collect()
            };
            let (classes, pseudos) = (ids(random), ids(random));
            Tags::of_ids(&classes, &pseudos).row()
        }
        _ => step(random).row(),
    };
    if random.once_in(2) {
        rubbish_in_row(&mut row, random);
    }
    if random.once_in(60) {
        row[random.pick(&[4, 5])] = random.pick(&[9, 10, 16, 0x100, u32::MAX]);
    }
    row
}

fn random_given(random: &mut Random) -> Given {
    let steps = match random.below(12) {
        0 => 0,
        1 => random.between(5, 8),
        2 if random.once_in(6) => 9,
        _ => random.between(1, 3),
    };
    let codes = match random.below(40) {
        0 => random.below(steps + 2),
        _ => steps.saturating_sub(1),
    };
    let code = |random: &mut Random| match random.below(60) {
        0 => random.pick(&[2, 3, 0x100, u32::MAX]),
        _ => random.below(2) as u32,
    };
    Given {
        rows: (0..steps).map(|_| random_row(random)).collect(),
        codes: (0..codes).map(|_| code(random)).collect(),
        entries: random_entries(random, 34),
    }
}

fn random_origin(random: &mut Random) -> u32 {
    match random.below(30) {
        0 => random.pick(&[8, 9, 0x100, 0x1_0000, u32::MAX]),
        _ => random.below(8) as u32,
    }
}

fn random_group(random: &mut Random, most: usize) -> Group {
    let count = random.between(0, most);
    let mut rules: Vec<Given> = (0..count).map(|_| random_given(random)).collect();
    // As many as a payload holds, with some room for what else is lent.
    let mut room = LONGEST_PAYLOAD as usize - 400;
    rules.retain(|rule| {
        let words = 3 + 23 * rule.rows.len() + 3 * rule.entries.len();
        let fits = words <= room;
        room -= if fits { words } else { 0 };
        fits
    });
    let mut group = Group::of(random_origin(random), &rules);
    if random.once_in(6) {
        // More lent than counted.
        for list in group.lists() {
            for _ in 0..random.pick(&[0, 0, 1, 2, 25]) {
                list.push(number(random));
            }
        }
    }
    if random.once_in(20) {
        fault_in_counts(&mut group, random);
    }
    group
}

/// One count changed, or one list shortened.
fn fault_in_counts(group: &mut Group, random: &mut Random) {
    match random.below(8) {
        0 => group.count = group.count.wrapping_add(random.pick(&[1, u32::MAX, 256])),
        1 | 2 if !group.rules.is_empty() => {
            let place = random.below(group.rules.len());
            let by = random.pick(&[1, 1, u32::MAX, 8, 33]);
            group.rules[place] = group.rules[place].wrapping_add(by);
        }
        _ => {
            let list = random.below(6);
            group.lists()[list].pop();
        }
    }
}

fn random_style(random: &mut Random) -> Entries {
    let mut entries = Entries::of(&random_entries(random, 34));
    match random.below(30) {
        0 => entries.count += random.pick(&[1, 2, 40]),
        1 => entries.count = entries.count.saturating_sub(1),
        2 => {
            entries.properties.pop();
        }
        3 => {
            entries.kinds.pop();
        }
        4 => {
            entries.numbers.pop();
        }
        _ => {}
    }
    entries
}

/// A store that mostly leaves a sheet in shape: numbers, tags, origins, the
/// indexes and the order; sometimes counts and ends.
fn random_store(random: &mut Random, which: u32) -> Item {
    let small = |random: &mut Random| random.below(4);
    let row = small(random);
    let (address, value) = match random.below(14) {
        0 => (
            NEXT,
            random.pick(&[0, 1, 5, 65_530, 65_534, 65_535, 65_536, 65_537]),
        ),
        1 => (rule_word(row, 0), random.below(9) as u32),
        2 | 3 => (
            rule_word(row, 1),
            random.pick(&[0, 1, 2, 3, 4, 65_534, 65_535, 65_536]),
        ),
        4 | 5 => (
            rule_word(row, 2),
            random.pick(&[0, 1, 2, 3, 255, 256, 65_536, u32::MAX]),
        ),
        6 => (
            style_word(row, 1),
            random.pick(&[0, 1, 2, 3, 4, 65_534, 65_535, 65_536]),
        ),
        7 => (style_word(row, 0), random.below(9) as u32),
        8 => (step_word(row, random.below(4)), random.below(3) as u32),
        9 => (step_word(row, random.between(6, 21)), number(random)),
        10 => (entry_word(row, random.below(3)), random.below(5) as u32),
        11 => (
            style_entry_word(row, random.below(3)),
            random.below(5) as u32,
        ),
        12 => (random.below(HEAD + 1), random.below(6) as u32),
        _ => match random.below(6) {
            0 => (rule_word(row, random.between(3, 4)), random.below(6) as u32),
            1 => (style_word(row, 2), random.below(6) as u32),
            2 => (
                step_word(row, random.between(4, 5)),
                random.below(10) as u32,
            ),
            3 => (step_word(row, 22), random.below(3) as u32),
            4 => (random.below(SHEET_WORDS + 5), number(random)),
            _ => (random.pick(&[RULE_COUNT, ENTRY_COUNT]), number(random)),
        },
    };
    store(which, address, value)
}

/// Both sheets lent, up to 12 pushes of all kinds, reads in between and at
/// the end.
pub fn random_case(random: &mut Random) -> BuildCase {
    let room = |random: &mut Random| match random.below(40) {
        0 => random.pick(&[0, 7, ROOM - 1, u32::MAX]),
        1 => ROOM + random.below(6) as u32,
        _ => ROOM,
    };
    let mut items = vec![new(0, room(random)), new(1, room(random))];
    let stores = random.once_in(3);
    let most_rules = match random.below(60) {
        0 => 256,
        1 | 2 => 40,
        _ => 4,
    };
    if random.once_in(15) {
        let next = 65_536 - random.below(12) as u32;
        items.push(store(random.below(2) as u32, NEXT, next));
    }
    for _ in 0..random.between(1, 12) {
        let which = match random.below(30) {
            0 => random.word(),
            _ => random.below(3) as u32 / 2,
        };
        let kinds = if stores { 25 } else { 20 };
        let next = match random.below(kinds) {
            0..=4 => random_style(random).style(which, random_origin(random)),
            5..=9 => random_group(random, most_rules).item(which),
            10..=13 => {
                let given = random_given(random);
                let mut group = Group::of(random_origin(random), &[given]);
                if random.once_in(20) {
                    fault_in_counts(&mut group, random);
                }
                group.rule(which)
            }
            14 | 15 => cascade(which),
            16 => read(which),
            17 => {
                let ranking = random.pick(&[0, 1, 0, 1, 2, u32::MAX]);
                read_rule(which, random.below(5) as u32, ranking)
            }
            18 => {
                let kind = random.below(2) as u32;
                look(which, kind, random.below(4) as u32, random.below(40) as u32)
            }
            19 => random_style(random).look(random.below(40) as u32),
            _ => random_store(random, which),
        };
        items.push(next);
    }
    if random.once_in(25) {
        let place = random.below(items.len());
        damage_words(&mut items[place].payload, random);
        let payload = &mut items[place].payload;
        payload.truncate(LONGEST_PAYLOAD as usize);
        // What the form leaves open is not asked: another source than direct
        // or rule, and a property asked for of more than 16 bits.
        let masks: &[(usize, u32)] = match items[place].op {
            LOOK => &[(1, 1), (3, 0xffff)],
            LOOK_LENT => &[(1, 0xffff)],
            _ => &[],
        };
        for &(word, mask) in masks {
            if let Some(word) = items[place].payload.get_mut(word) {
                *word &= mask;
            }
        }
    }
    items.extend([read(0), read(1)]);
    BuildCase { items }
}

/// Ends of a stream that are no whole item: every cut of three items, byte by
/// byte up to the first word of payload, then word by word; lengths over the
/// longest payload, with and without the words.
pub fn fixed_ends() -> Vec<Vec<u8>> {
    ends(&[read(0), item(11, &[1, 2]), style(1, 0, 2)], READ)
}

/// The ends of these items, the first of them short, and lengths of this op.
pub fn ends(items: &[Item], op: u32) -> Vec<Vec<u8>> {
    let mut ends = Vec::new();
    for (number, item) in items.iter().enumerate() {
        let bytes = bytes_of(&item.words());
        let cuts = (1..bytes.len()).filter(|cut| match number {
            0 => true,
            _ => cut % 4 == 0 || *cut == 13,
        });
        ends.extend(cuts.map(|cut| bytes[..cut].to_vec()));
    }
    let longest = LONGEST_PAYLOAD;
    for length in [longest + 1, 0x1_0000, 0x8000_0000, 0xffff_fffe, u32::MAX] {
        ends.push(bytes_of(&[op, length]));
        ends.push(bytes_of(&[99, length, 0, 0]));
    }
    for length in [longest, longest - 1] {
        ends.push(bytes_of(&[op, length]));
        ends.push(bytes_of(&[op, length, 1, 2, 3]));
    }
    // All but the last byte, and one word too many that is there.
    let mut almost = bytes_of(&[op, longest]);
    almost.resize(8 + 4 * longest as usize - 1, 0);
    ends.push(almost);
    let mut over = bytes_of(&[op, longest + 1]);
    over.resize(8 + 4 * (longest as usize + 1), 0);
    over.extend(bytes_of(&items[0].words()));
    ends.push(over);
    ends
}

/// A case cut anywhere, or a length made long.
pub fn random_end(random: &mut Random) -> Vec<u8> {
    let mut words = random_case(random).words();
    if random.once_in(3) {
        // The length of the first or the second item, each sheet's room.
        words.truncate(4 * random.below(2) + 1);
        words.push(LONGEST_PAYLOAD + random.below(3) as u32);
        return bytes_of(&words);
    }
    let mut bytes = bytes_of(&words);
    bytes.truncate(random.below(bytes.len()));
    bytes
}
