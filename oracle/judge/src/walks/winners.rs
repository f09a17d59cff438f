//! Winners, changes and resources over plain lists: 01's "Weight, winners,
//! changes", worked out without the published code.

use std::collections::{BTreeMap, BTreeSet};

use crate::builds::model::{Entry, Model, Step};

/// A source's key. The order of the fields is the order in which they count.
#[derive(Copy, Clone, Debug, PartialEq, Eq, PartialOrd, Ord)]
pub struct Key {
    pub origin: u32,
    pub weight: [u32; 4],
    pub source: u32,
    pub order: u32,
}

/// Whose entry wins, by its number.
#[derive(Copy, Clone, Debug, PartialEq, Eq)]
pub enum Holder {
    Direct(usize),
    Rule(usize),
}

/// What is answered about a property that somebody holds.
#[derive(Copy, Clone, Debug, PartialEq, Eq)]
pub struct Won {
    pub holder: Holder,
    pub source: u32,
    /// The entry's kind and number.
    pub kind: [u32; 2],
    /// Looked up plainly: 0 and a value, or 1 and a resource.
    pub plain: Option<[u32; 2]>,
    pub resource: Option<u32>,
}

/// A weight, counted from the steps' sets. Ranking 1 has two numbers; places
/// not in use are 0.
pub fn weight(ranking: u32, steps: &[Step]) -> [u32; 4] {
    let mut counts = [0; 4];
    for step in steps {
        counts[0] += step.pseudos.len() as u32;
        counts[1] += step.classes.len() as u32;
        counts[2] += u32::from(step.part_tag.is_some());
        counts[3] += u32::from(step.type_tag.is_some());
    }
    let [pseudos, classes, parts, types] = counts;
    match ranking {
        0 => counts,
        _ => [classes + pseudos, types + parts, 0, 0],
    }
}

/// A state as winners are asked of it.
pub struct View<'a> {
    pub model: &'a Model,
    pub ranking: u32,
    pub matched: &'a [u32],
}

struct Offer<'a> {
    key: Key,
    holder: Holder,
    entries: &'a [Entry],
}

impl<'a> View<'a> {
    /// All that count: direct styles, then listed rules.
    fn offers(&self) -> impl Iterator<Item = Offer<'a>> {
        let model = self.model;
        let directs = model.directs.iter().enumerate().map(|(number, direct)| {
            let key = Key {
                origin: direct.origin,
                weight: [0; 4],
                source: direct.source,
                order: 0,
            };
            Offer {
                key,
                holder: Holder::Direct(number),
                entries: &direct.entries,
            }
        });
        let rules = self.matched.iter().map(move |&number| {
            let rule = &model.rules[number as usize];
            let key = Key {
                origin: rule.origin,
                weight: weight(self.ranking, &rule.body.steps),
                source: rule.source,
                order: rule.order,
            };
            Offer {
                key,
                holder: Holder::Rule(number as usize),
                entries: &rule.body.entries,
            }
        });
        directs.chain(rules)
    }

    /// Who wins a property: the greatest key, and of equal ones the first.
    pub fn won(&self, property: u16) -> Option<Won> {
        let mut best: Option<(Key, Won)> = None;
        for offer in self.offers() {
            let held = offer
                .entries
                .iter()
                .find(|entry| entry.property == property);
            let Some(entry) = held else {
                continue;
            };
            if best.is_none_or(|(key, _)| offer.key > key) {
                best = Some((offer.key, won(&offer, entry)));
            }
        }
        best.map(|(_, won)| won)
    }

    /// The winning key of every property that is held.
    fn keys(&self) -> BTreeMap<u16, Key> {
        let mut keys = BTreeMap::new();
        for offer in self.offers() {
            for entry in offer.entries {
                let key = keys.entry(entry.property).or_insert(offer.key);
                *key = offer.key.max(*key);
            }
        }
        keys
    }

    /// Properties whose winning key differs, presence included, ascending.
    pub fn changed(&self, new: &Self) -> Vec<u16> {
        let (before, after) = (self.keys(), new.keys());
        let held: BTreeSet<u16> = before.keys().chain(after.keys()).copied().collect();
        let differs = |id: &u16| before.get(id) != after.get(id);
        held.into_iter().filter(differs).collect()
    }
}

fn won(offer: &Offer<'_>, entry: &Entry) -> Won {
    Won {
        holder: offer.holder,
        source: offer.key.source,
        kind: [entry.kind, entry.number],
        plain: (entry.kind < 2).then_some([entry.kind, entry.number]),
        resource: (entry.kind == 1).then_some(entry.number),
    }
}

/// Properties with kind 1 or 3 in any source, ascending.
pub fn resource_dependent(model: &Model) -> Vec<u16> {
    let directs = model.directs.iter().map(|direct| &direct.entries);
    let rules = model.rules.iter().map(|rule| &rule.body.entries);
    let entries = directs.chain(rules).flatten();
    let reading = entries.filter(|entry| matches!(entry.kind, 1 | 3));
    let ids: BTreeSet<u16> = reading.map(|entry| entry.property).collect();
    ids.into_iter().collect()
}

/// The union of the masks of these properties; past the masks there is none.
pub fn channels(ids: &[u16], masks: &[u32]) -> u32 {
    let mask = |&id: &u16| masks.get(usize::from(id)).copied().unwrap_or(0);
    ids.iter().map(mask).fold(0, |set, mask| set | mask)
}
