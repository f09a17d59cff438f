//! House-record files.

use super::EXTREMES;
use super::damage::damage_bytes;
use super::random::Random;
use crate::records::Record::{self, *};
use crate::records::file_of;
use crate::sheet::{
    DIRECT_STYLES, ORIGIN, RULES, SHEET_ENTRIES, SHEET_IDS, STEP_IDS, STEPS, STYLE_ENTRIES,
};
use crate::walk::{Reader, SUBJECT_IDS};

pub const TYPE: u8 = 0;
pub const PART: u8 = 1;
pub const CLASS: u8 = 2;
pub const PSEUDO: u8 = 3;
pub const CHILD: u8 = 0;
pub const DESCENDANT: u8 = 1;

pub fn entry(property: u16) -> Record {
    Entry {
        property,
        kind: 0,
        number: u32::from(property),
    }
}

pub fn needs(which: u8, id: u32) -> Record {
    Requirement { which, id }
}

pub fn has(which: u8, id: u32) -> Record {
    Item { which, id }
}

pub fn step(combinator: u8) -> Record {
    Step { combinator }
}

pub fn sheet() -> Record {
    Sheet {
        ranking: 0,
        stamp: 7,
    }
}

/// Document 01's worked example.
pub fn worked_example() -> Vec<Record> {
    let entry = |property, number| Entry {
        property,
        kind: 0,
        number,
    };
    vec![
        sheet(),
        Direct { origin: 0 },
        entry(1, 10),
        Group { origin: 0 },
        Rule,
        step(CHILD),
        needs(TYPE, 5),
        entry(1, 20),
        Rule,
        step(CHILD),
        needs(TYPE, 1),
        step(DESCENDANT),
        needs(TYPE, 5),
        entry(1, 30),
        entry(2, 40),
        End,
        has(TYPE, 1),
        Enter { parent: 0 },
        has(TYPE, 9),
        Enter { parent: 1 },
        has(TYPE, 5),
        Enter { parent: 1 },
        has(TYPE, 5),
        Enter { parent: 0 },
        Changed { old: 3, new: 2 },
        Changed { old: 0, new: 1 },
        Winner {
            state: 2,
            property: 1,
        },
        Winner {
            state: 2,
            property: 3,
        },
    ]
}

/// One record of each kind, all codes in range.
pub fn one_of_each() -> Vec<Record> {
    vec![
        sheet(),
        Direct { origin: 0 },
        Group { origin: 0 },
        Rule,
        step(CHILD),
        needs(CLASS, 1),
        entry(9),
        End,
        has(CLASS, 1),
        Enter { parent: 0 },
        Changed { old: 0, new: 0 },
        Winner {
            state: 0,
            property: 9,
        },
    ]
}

/// A subject with the classes whose bits are set.
fn classes(bits: usize) -> Vec<Record> {
    let of = (0..SUBJECT_IDS as u32).filter(|id| bits >> id & 1 == 1);
    of.map(|id| has(CLASS, id)).collect()
}

/// Enters a subject with these classes from a parent.
pub fn enter_classes(bits: usize, parent: u32) -> Vec<Record> {
    let mut records = classes(bits);
    records.push(Enter { parent });
    records
}

/// A file as it comes, or with bytes damaged, with records damaged, or cut.
pub fn random_file(random: &mut Random) -> Vec<u8> {
    let mut records = valid(random);
    let how = random.below(20);
    if (10..14).contains(&how) {
        damage_records(&mut records, random);
    }
    let mut file = file_of(&records);
    match how {
        14..18 => damage_bytes(&mut file, random),
        18.. => file.truncate(random.below(file.len())),
        _ => {}
    }
    file
}

/// One or two records left out, doubled, exchanged, put in, or with a code
/// out of range.
fn damage_records(records: &mut Vec<Record>, random: &mut Random) {
    for _ in 0..random.between(1, 2) {
        let place = random.below(records.len());
        match random.below(6) {
            0 if records.len() > 1 => {
                records.remove(place);
            }
            1 => records.insert(place, records[place]),
            2 => {
                let other = random.below(records.len());
                records.swap(place, other);
            }
            3 => records.insert(place, random.pick(&one_of_each())),
            _ => wrong_code(records, random),
        }
    }
}

/// Gives the first record from a place on that has a code one out of range.
fn wrong_code(records: &mut [Record], random: &mut Random) {
    let begin = random.below(records.len());
    let over = random.pick(&[0, 1, 200]);
    for record in &mut records[begin..] {
        match record {
            Sheet { ranking: code, .. } | Step { combinator: code } => *code = 2 + over,
            Direct { origin } | Group { origin } => *origin = ORIGIN + 1 + over,
            Requirement { which: code, .. }
            | Item { which: code, .. }
            | Entry { kind: code, .. } => *code = 4 + over,
            _ => continue,
        }
        return;
    }
}

/// A file in the making. It is read as it is made, so that it is about states
/// that there are.
#[derive(Default)]
struct Making {
    records: Vec<Record>,
    reader: Reader,
    over: bool,
}

impl Making {
    fn of(sheet: Vec<Record>) -> Self {
        let mut making = Self::default();
        for record in sheet {
            making.put(record);
        }
        making.put(End);
        making
    }

    /// Adds a record; the line for it, unless it is refused.
    fn put(&mut self, record: Record) -> Option<String> {
        self.records.push(record);
        if self.over {
            return None;
        }
        let taken = self.reader.take(record);
        self.over = match taken {
            Ok(_) => false,
            Err(fault) => fault.number() == 10 || !self.reader.walks(),
        };
        taken.ok()
    }

    /// Enters a subject of these items; the child, unless it is refused.
    fn enter(&mut self, items: &[Record], parent: u32) -> Option<u32> {
        for &item in items {
            self.put(item);
        }
        let line = self.put(Enter { parent })?;
        line.split(' ').nth(1)?.parse().ok()
    }

    /// The number of a state, mostly of one that there is.
    fn state(&self, random: &mut Random) -> u32 {
        let states = self.reader.states();
        match random.below(60) {
            0 => random.pick(&EXTREMES),
            1 => states as u32,
            _ => random.below(states.max(1)) as u32,
        }
    }

    fn ask(&mut self, state: u32, random: &mut Random) {
        if random.once_in(2) {
            let property = property(random);
            self.put(Winner { state, property });
        } else {
            let other = self.state(random);
            let (old, new) = if random.once_in(2) {
                (state, other)
            } else {
                (other, state)
            };
            self.put(Changed { old, new });
        }
    }
}

fn id(random: &mut Random) -> u32 {
    match random.below(12) {
        0 => random.pick(&EXTREMES),
        _ => random.below(4) as u32,
    }
}

fn property(random: &mut Random) -> u16 {
    match random.below(12) {
        0 => random.pick(&[0x7fff, 0x8000, 0xfffe, 0xffff]),
        _ => random.below(8) as u16,
    }
}

fn which(random: &mut Random) -> u8 {
    random.pick(&[TYPE, TYPE, TYPE, PART, CLASS, CLASS, PSEUDO])
}

/// Mostly one, so that there are many of it.
fn mostly(one: u8, random: &mut Random) -> u8 {
    if random.once_in(6) {
        which(random)
    } else {
        one
    }
}

/// The items of a subject.
fn subject(random: &mut Random) -> Vec<Record> {
    if random.once_in(40) {
        let most = random.pick(&[CLASS, PSEUDO]);
        let which = |random: &mut Random| mostly(most, random);
        return (0..random.below(30))
            .map(|_| has(which(random), id(random)))
            .collect();
    }
    (0..random.below(4))
        .map(|_| has(which(random), id(random)))
        .collect()
}

fn valid(random: &mut Random) -> Vec<Record> {
    let making = match random.below(100) {
        0..4 => crowded(random),
        4..6 => long(random),
        6..11 => brim(random),
        11..20 => tree(Making::of(sources(20, 15, random)), 250, random),
        20..40 => tree(Making::of(sources(6, 5, random)), 40, random),
        _ => wander(Making::of(sources(6, 5, random)), 30, random),
    };
    making.records
}

/// A sheet but for its end: direct styles and groups, in any order.
fn sources(most: usize, most_rules: usize, random: &mut Random) -> Vec<Record> {
    let ranking = random.below(2) as u8;
    let stamp = random.pick(&EXTREMES);
    let mut records = vec![Sheet { ranking, stamp }];
    for _ in 0..random.below(most) {
        // Mostly one origin, so that the rest of the key decides.
        let origin = if random.once_in(3) {
            random.below(8) as u8
        } else {
            0
        };
        if random.once_in(3) {
            records.push(Direct { origin });
            entries(&mut records, random);
        } else {
            records.push(Group { origin });
            for _ in 0..random.below(most_rules) {
                rule(&mut records, random);
            }
        }
    }
    records
}

/// Enters from any state there is, with questions between.
fn wander(mut making: Making, most: usize, random: &mut Random) -> Making {
    for _ in 0..random.between(3, most) {
        // Items last past questions.
        if random.once_in(8) {
            making.put(has(which(random), id(random)));
        }
        let state = making.state(random);
        if random.once_in(3) {
            making.ask(state, random);
        } else {
            making.enter(&subject(random), state);
        }
    }
    making
}

/// A document's walk: elements opened and closed, down and up again, each
/// entered from its parent's state and asked about.
fn tree(mut making: Making, elements: usize, random: &mut Random) -> Making {
    let kinds: Vec<Vec<Record>> = (0..random.between(1, 6)).map(|_| subject(random)).collect();
    // Some go straight down: a walk may be of any depth.
    let closing = random.pick(&[2, 3, 1000]);
    let mut open = vec![0];
    for _ in 0..random.between(2, elements) {
        while open.len() > 1 && random.once_in(closing) {
            open.pop();
        }
        let parent = open[open.len() - 1];
        let items = &kinds[random.below(kinds.len())];
        if let Some(child) = making.enter(items, parent) {
            open.push(child);
            if random.once_in(4) {
                let old = parent;
                making.put(Changed { old, new: child });
            }
        }
        if random.once_in(4) {
            making.ask(open[open.len() - 1], random);
        }
    }
    making
}

/// Many rules over few classes, and subjects with many: the room runs out, at
/// a place that no edge was made for.
fn crowded(random: &mut Random) -> Making {
    let ranking = random.below(2) as u8;
    let mut records = vec![Sheet { ranking, stamp: 1 }, Group { origin: 0 }];
    let longest = random.between(1, 4);
    for _ in 0..random.between(60, RULES) {
        records.push(Rule);
        for number in 0..random.between(1, longest) {
            let combinator = if number > 0 && random.once_in(2) {
                DESCENDANT
            } else {
                CHILD
            };
            records.push(step(combinator));
            if !random.once_in(8) {
                records.push(needs(CLASS, random.below(SUBJECT_IDS) as u32));
            }
        }
        records.push(entry(random.below(6) as u16));
    }
    let mut making = Making::of(records);
    let mut subjects: Vec<usize> = (0..8).map(|_| random.below(1 << SUBJECT_IDS)).collect();
    for _ in 0..random.between(20, 120) {
        if random.once_in(3) {
            subjects.push(random.below(1 << SUBJECT_IDS));
        }
        let parent = making.state(random);
        making.enter(&classes(random.pick(&subjects)), parent);
        if random.once_in(10) {
            making.ask(parent, random);
        }
    }
    making
}

/// Long lists: many rules that one subject fits, with many properties.
fn long(random: &mut Random) -> Making {
    let ranking = random.below(2) as u8;
    let mut records = vec![Sheet { ranking, stamp: 2 }];
    // As long as it goes, or less.
    let most = random.once_in(3);
    let rules = if most {
        RULES
    } else {
        random.between(RULES / 2, RULES)
    };
    // Each rule has properties of its own, or shares them with others.
    let each = if most {
        SHEET_ENTRIES / RULES
    } else {
        random.between(1, SHEET_ENTRIES / RULES)
    };
    let apart = if most { each } else { random.between(1, each) };
    for rule in 0..rules {
        if rule == 0 || random.once_in(20) {
            let origin = random.below(8) as u8;
            records.push(Group { origin });
        }
        records.extend([Rule, step(CHILD)]);
        if random.once_in(3) {
            records.push(needs(CLASS, random.below(3) as u32));
        }
        let first = rule * apart;
        records.extend((first..first + each).map(|property| entry(property as u16)));
    }
    let mut making = Making::of(records);
    // All three classes, and then any of them.
    for bits in [7, random.below(8), random.below(8), random.below(8)] {
        let parent = making.state(random);
        making.enter(&classes(bits), parent);
    }
    making.put(Changed { old: 1, new: 0 });
    for _ in 0..4 {
        let (old, new) = (making.state(random), making.state(random));
        making.put(Changed { old, new });
        let property = random.below(SHEET_ENTRIES) as u16;
        making.put(Winner {
            state: new,
            property,
        });
    }
    making
}

/// One size of a whole file reached, or brought over, anywhere.
fn brim(random: &mut Random) -> Making {
    let more = usize::from(!random.once_in(3));
    let ranking = random.below(2) as u8;
    let mut records = vec![Sheet { ranking, stamp: 3 }];
    match random.below(6) {
        0 => {
            for number in 0..DIRECT_STYLES + more {
                let origin = random.below(3) as u8;
                records.push(Direct { origin });
                some_entries(number % 4, &mut records, random);
                if random.once_in(4) {
                    records.push(Group { origin });
                }
            }
        }
        1 => {
            for number in 0..RULES + more {
                if number == 0 || random.once_in(20) {
                    let origin = random.below(3) as u8;
                    records.push(Group { origin });
                }
                records.extend([Rule, step(CHILD)]);
                some_entries(number % 3, &mut records, random);
            }
        }
        2 => {
            let mut left = SHEET_ENTRIES + more;
            // Rules come last: there are enough of them for the rest.
            for number in 0.. {
                let count = left.min(random.between(14, STYLE_ENTRIES));
                left -= count;
                match number {
                    0..20 => records.push(Direct { origin: 1 }),
                    20 => records.extend([Group { origin: 0 }, Rule]),
                    _ => records.extend([Rule, step(CHILD)]),
                }
                some_entries(count, &mut records, random);
                if left == 0 {
                    break;
                }
            }
        }
        3 => {
            let mut left = SHEET_IDS + more;
            records.push(Group { origin: 0 });
            for number in 0.. {
                if number % STEPS == 0 {
                    records.push(Rule);
                }
                records.push(step(CHILD));
                for which in [CLASS, PSEUDO] {
                    let given = random.between(4, STEP_IDS);
                    let held = left.min(random.between(3, given));
                    left -= held;
                    for place in 0..if held == 0 { 0 } else { given } {
                        records.push(needs(which, (place % held) as u32));
                    }
                }
                if left == 0 {
                    break;
                }
            }
        }
        _ => return many_states(random),
    }
    let mut making = Making::of(records);
    making.enter(&subject(random), 0);
    for _ in 0..20 {
        let state = making.state(random);
        making.ask(state, random);
    }
    making
}

/// Nearly every subject leads to a state of its own.
fn many_states(random: &mut Random) -> Making {
    let ranking = random.below(2) as u8;
    let mut records = vec![Sheet { ranking, stamp: 4 }, Group { origin: 0 }];
    for id in 0..12 {
        records.extend([Rule, step(CHILD), needs(CLASS, id), entry(id as u16 / 2)]);
    }
    let mut making = Making::of(records);
    for _ in 0..random.between(500, 700) {
        let parent = making.state(random);
        // Not many classes each, or the matched numbers run out first.
        let bits = random.below(1 << 12);
        let few = if bits.count_ones() > 6 {
            !bits & 0xfff
        } else {
            bits
        };
        making.enter(&classes(few), parent);
    }
    for _ in 0..10 {
        let state = making.state(random);
        making.ask(state, random);
    }
    making
}

/// So many entries, ascending.
fn some_entries(count: usize, records: &mut Vec<Record>, random: &mut Random) {
    let mut property = 0;
    for _ in 0..count {
        property += random.between(1, 3) as u16;
        records.push(Entry {
            property,
            kind: random.below(4) as u8,
            number: random.word(),
        });
    }
}

fn entries(records: &mut Vec<Record>, random: &mut Random) {
    let count = if random.once_in(20) {
        random.between(30, 34)
    } else {
        random.below(5)
    };
    let mut properties: Vec<u16> = (0..count).map(|_| property(random)).collect();
    if count > 20 {
        properties = (0..count as u16).collect();
    }
    // Left as they come, they are mostly refused.
    if !random.once_in(60) {
        properties.sort();
        properties.dedup();
    }
    for property in properties {
        records.push(Entry {
            property,
            kind: random.below(4) as u8,
            number: random.pick(&EXTREMES),
        });
    }
}

fn rule(records: &mut Vec<Record>, random: &mut Random) {
    records.push(Rule);
    let steps = match random.below(30) {
        0 => 0,
        1 => random.between(5, 9),
        _ => random.between(1, 4),
    };
    // The entries may stand before, between or after the steps.
    let entries_before = if random.once_in(4) {
        random.below(steps + 1)
    } else {
        steps
    };
    for number in 0..steps {
        if number == entries_before {
            entries(records, random);
        }
        let combinator = if number > 0 && random.once_in(2) {
            DESCENDANT
        } else {
            CHILD
        };
        records.push(step(combinator));
        let needed = match random.below(20) {
            0 => {
                let most = random.pick(&[CLASS, PSEUDO]);
                for _ in 0..random.below(12) {
                    records.push(needs(mostly(most, random), id(random)));
                }
                0
            }
            1..=4 => 2,
            5..=8 => 0,
            _ => 1,
        };
        for _ in 0..needed {
            records.push(needs(which(random), id(random)));
        }
    }
    if entries_before == steps {
        entries(records, random);
    }
}
