//! Cases of cascades: the items, and cases by chance. The fixed cases are in
//! cascade_edges.rs; items that need no sheet in cascade_lists.rs.

use super::EXTREMES;
use super::builds::item;
use super::cascade_lists::{random_item, random_masks, random_room};
use super::damage::damage_words;
use super::random::Random;
use super::walks::{AMPLE, Maker, Pool, body, build, random_codes, random_rooms, rooms, sheet};
use super::walks::{stored, write};
use crate::builds::image::{
    ENTRY_COUNT, RULE_COUNT, STYLE_COUNT, STYLE_ENTRY_COUNT, entry_word, rule_word,
    style_entry_word, style_word,
};
use crate::builds::model::{Body, Entry, Model};
use crate::builds::{Item, LONGEST_PAYLOAD};
use crate::walks::image::{
    CURSOR_COUNT, HEAD, MATCHED, MATCHED_COUNT, RANKING, STATE_COUNT, STATE_ROW, STATE_ROWS,
};
use crate::walks::{CHANGED, CHANNELS, RESOURCES, WINNER, WalkCase};

pub fn winner(number: u32, stamp: u32, property: u32) -> Item {
    item(WINNER, &[number, stamp, property])
}

/// Two states, each a number and a stamp.
pub type Pair = [u32; 4];

pub fn changed(pair: Pair, room: u32) -> Item {
    item(CHANGED, &[&pair[..], &[room]].concat())
}

pub fn channels(pair: Pair, masks: &[u32]) -> Item {
    item(CHANNELS, &[&pair[..], masks].concat())
}

pub fn resources(room: u32) -> Item {
    item(RESOURCES, &[room])
}

/// What one case is about: few properties and few selectors, so that many
/// sources hold the same and match together.
struct Theme {
    ids: Vec<u16>,
    bodies: Vec<Body>,
    origins: Vec<u32>,
}

impl Theme {
    fn new(random: &mut Random, pool: &Pool) -> Self {
        let some = [0, 1, 2, 3, 4, 9, 12, 43_981, 0x8000, 0xfffe, 0xffff];
        let most = random.pick(&[2, 5, 8]);
        let mut ids: Vec<u16> = (0..random.between(1, most))
            .map(|_| random.pick(&some))
            .collect();
        ids.sort();
        ids.dedup();
        let bodies = (0..random.between(2, 8)).map(|_| selector(random, pool));
        let bodies = bodies.collect();
        let origins = random.pick(&[1, 1, 2, 3, 8]);
        Self {
            ids,
            bodies,
            origins: (0..origins).map(|_| random.below(8) as u32).collect(),
        }
    }

    fn origin(&self, random: &mut Random) -> u32 {
        random.pick(&self.origins)
    }

    fn entries(&self, random: &mut Random) -> Vec<Entry> {
        let mut entries = Vec::new();
        for &property in &self.ids {
            if random.below(5) < 3 {
                entries.push(Entry {
                    property,
                    kind: random.below(4) as u32,
                    number: match random.below(4) {
                        0 => random.pick(&EXTREMES),
                        _ => random.below(4) as u32,
                    },
                });
            }
        }
        entries
    }

    fn rule(&self, random: &mut Random) -> Body {
        let number = random.below(self.bodies.len());
        Body {
            entries: self.entries(random),
            ..self.bodies[number].clone()
        }
    }

    /// Styles, groups, empty ones too, and cascades of the same kind.
    fn sheet(&self, random: &mut Random, depth: usize, pushes: usize) -> Model {
        let mut model = Model::default();
        for _ in 0..pushes {
            match random.below(10) {
                0..=2 => {
                    let entries = self.entries(random);
                    model.push_style(self.origin(random), entries);
                }
                3 if depth > 0 => {
                    let pushes = random.below(4);
                    let other = self.sheet(random, depth - 1, pushes);
                    if model.test_cascade(&other).is_ok() {
                        model.push_cascade(&other);
                    }
                }
                _ => {
                    let count = random.below(6);
                    let bodies = (0..count).map(|_| self.rule(random)).collect();
                    model.push_rules(self.origin(random), bodies);
                }
            }
        }
        model
    }
}

fn selector(random: &mut Random, pool: &Pool) -> Body {
    let steps = match random.below(12) {
        0 => 0,
        1..=6 => 1,
        7..=10 => 2,
        _ => 3,
    };
    let rows: Vec<_> = (0..steps)
        .map(|_| match random.below(5) {
            // Asks for nothing, and so weighs as much as a direct style.
            0 => Default::default(),
            _ => pool.step(random),
        })
        .collect();
    body(&rows, &random_codes(random, steps))
}

/// Keys that no pushes make: many are equal.
fn equal_keys(random: &mut Random, model: &mut Model) {
    let near = random.between(1, 3);
    let mut few = || random.below(near) as u32;
    for direct in &mut model.directs {
        (direct.origin, direct.source) = (few(), few());
    }
    for rule in &mut model.rules {
        (rule.origin, rule.source, rule.order) = (few(), few(), few());
    }
    if random.once_in(4) {
        for rule in &mut model.rules {
            rule.order = random.pick(&EXTREMES);
        }
    }
    model.next = random.pick(&[0, 1, 65_536]);
}

/// Some numbers below an end, ascending: all, or so many.
fn some_below(random: &mut Random, end: usize, most: usize) -> Vec<usize> {
    if end <= most {
        return (0..end).collect();
    }
    let mut some: Vec<usize> = (0..most).map(|_| random.below(end)).collect();
    some.push(0);
    some.sort();
    some.dedup();
    some
}

fn count_of(line: &str) -> u32 {
    let mut words = line.split_whitespace().skip(1);
    match (words.next(), words.next()) {
        (Some("0"), Some(count)) => count.parse().expect("a count"),
        _ => 0,
    }
}

impl Maker<'_> {
    /// An item that changes nothing, and need not be answered here.
    fn asked(&mut self, item: Item) {
        self.items.push(item);
    }

    /// The properties of the sheet, and some that it does not hold.
    fn properties(&mut self) -> Vec<u32> {
        let directs = self.model.directs.iter().map(|direct| &direct.entries);
        let rules = self.model.rules.iter().map(|rule| &rule.body.entries);
        let held = directs.chain(rules).flatten();
        let mut held: Vec<u32> = held.map(|entry| entry.property.into()).collect();
        held.sort();
        held.dedup();
        let places = some_below(self.random, held.len(), 12);
        let mut asked: Vec<u32> = places.into_iter().map(|place| held[place]).collect();
        asked.push(match self.random.below(2) {
            0 => self.random.pick(&[0, 4, 0x8000, 0xffff]),
            _ => self.random.below(0x1_0000) as u32,
        });
        asked
    }

    /// Every property in every state, or in some of many.
    fn ask_winners(&mut self, most: usize) {
        let properties = self.properties();
        let states = self.states();
        for state in some_below(self.random, states, most) {
            for &property in &properties {
                let high = match self.random.below(30) {
                    0 => self.random.word() << 16,
                    _ => 0,
                };
                let (number, stamp) = match self.random.below(15) {
                    0 => self.state(),
                    _ => (state as u32, self.stamp),
                };
                self.asked(winner(number, stamp, property | high));
            }
        }
    }

    /// Two states, mostly different ones; now and then one that there is not.
    fn pair(&mut self) -> Pair {
        let states = self.states();
        let (old, old_stamp) = match self.random.below(4) {
            0 => self.state(),
            _ => (self.random.below(states) as u32, self.stamp),
        };
        let (new, new_stamp) = match self.random.below(8) {
            0 => (old, old_stamp),
            1 => (0, self.stamp),
            2 => self.state(),
            _ => {
                let further = self.random.below(states.max(2) - 1) + 1;
                (((old as usize + further) % states) as u32, self.stamp)
            }
        };
        [old, old_stamp, new, new_stamp]
    }

    fn ask_changes(&mut self, pairs: usize) {
        for _ in 0..pairs {
            let pair = self.pair();
            let all = changed(pair, u32::MAX);
            let enough = count_of(&self.machine.item(all.op, &all.payload));
            for _ in 0..self.random.between(1, 2) {
                let room = random_room(self.random, enough);
                self.asked(changed(pair, room));
            }
            let masks = random_masks(self.random);
            self.asked(channels(pair, &masks));
        }
        let all = resources(u32::MAX);
        let enough = count_of(&self.machine.item(all.op, &all.payload));
        let room = random_room(self.random, enough);
        self.asked(resources(room));
    }

    /// A state that lists any rules, whatever their steps.
    fn listed_state(&mut self) {
        let states = self.states();
        let rules = self.model.rules.len();
        let share = self.random.between(1, 4);
        let mut list = Vec::new();
        for rule in 0..rules {
            if self.random.below(4) < share {
                list.push(rule as u32);
            }
        }
        let used = self.head(MATCHED_COUNT).min(8000);
        let end = used + list.len();
        self.write(MATCHED, used, &list);
        let row = [self.head(CURSOR_COUNT) as u32, end as u32, 0];
        self.write(STATE_ROWS, STATE_ROW * states, &row);
        self.write_head(MATCHED_COUNT, end);
        self.write_head(STATE_COUNT, states + 1);
    }

    /// A word of the sheet's sources, entries or counts.
    fn source_word(&mut self) {
        let rule = self.random.below(self.model.rules.len() + 1);
        let direct = self.random.below(self.model.directs.len() + 1);
        let entry = self.random.below(self.model.entries() + 1);
        let column = self.random.below(3);
        let address = match self.random.below(9) {
            0..=2 => rule_word(rule, column),
            3 | 4 => style_word(direct, column.min(1)),
            5 | 6 => entry_word(entry, column),
            7 => style_entry_word(entry, column),
            _ => {
                let counts = [RULE_COUNT, ENTRY_COUNT, STYLE_COUNT, STYLE_ENTRY_COUNT];
                self.random.pick(&counts)
            }
        };
        let value = match self.random.below(6) {
            0 => self.random.pick(&EXTREMES),
            1 => self.random.pick(&[4, 8, 65_535, 65_536]),
            _ => self.random.below(4) as u32,
        };
        self.push(stored(address, &[value]));
    }

    /// Something that no call does.
    fn meddle_with_sources(&mut self) {
        match self.random.below(12) {
            0..=3 => self.listed_state(),
            4..=6 => self.source_word(),
            7 | 8 => {
                let ranking = self.random.below(3) as u32;
                self.push(write(HEAD, RANKING, &[ranking]));
            }
            9 => self.list_word(),
            10 => self.any_word(),
            _ => {
                let lent = random_rooms(self.random, &self.model);
                self.push(rooms(lent));
            }
        }
    }

    /// A sheet stored, rooms and a build.
    fn begin(&mut self) {
        for item in sheet(&self.model) {
            self.push(item);
        }
        let lent = match self.random.below(12) {
            0 => random_rooms(self.random, &self.model),
            _ => AMPLE,
        };
        self.push(rooms(lent));
        if self.random.once_in(3) {
            self.stamp = self.random.pick(&[0, 1, 0x8000_0000, u32::MAX]);
        }
        let ranking = self.random.below(2) as u32;
        self.push(build(self.stamp, ranking));
    }
}

/// A sheet, rooms, a build, enterings, and what wins and changes. In about a
/// quarter of the cases keys are equal, or words are stored that no call
/// writes.
pub fn random_case(random: &mut Random) -> WalkCase {
    let pool = Pool::new(random);
    let theme = Theme::new(random, &pool);
    let pushes = match random.below(40) {
        0 => random.between(20, 60),
        _ => random.between(1, 9),
    };
    let mut model = theme.sheet(random, 2, pushes);
    if random.once_in(10) {
        equal_keys(random, &mut model);
    }
    let mut maker = Maker::new(random, pool, model);
    maker.begin();
    for _ in 0..maker.random.between(2, 20) {
        match maker.random.below(4) {
            0 | 1 => maker.follow(),
            _ => maker.enter(),
        }
    }
    maker.ask_winners(10);
    let pairs = maker.random.between(1, 5);
    maker.ask_changes(pairs);
    if maker.random.once_in(6) {
        for _ in 0..maker.random.between(1, 3) {
            for _ in 0..maker.random.between(1, 2) {
                maker.meddle_with_sources();
            }
            maker.ask_winners(4);
            maker.ask_changes(2);
        }
    }
    for _ in 0..maker.random.below(4) {
        let item = random_item(maker.random);
        maker.asked(item);
    }
    if maker.random.once_in(20) {
        maker.tell();
    }
    let mut items = maker.items;
    if random.once_in(40) {
        let place = random.below(items.len());
        damage_words(&mut items[place].payload, random);
        items[place].payload.truncate(LONGEST_PAYLOAD as usize);
    }
    WalkCase { items }
}
