//! What a push is given, and its refusals after 11, in document 01's order.

use understory_style::selector::IdSet;

use super::model::{
    Body, COMBINATOR, Entry, KIND, Model, ORIGIN, RULES, Refusal, SHEET_ENTRIES, SHEET_IDS,
    SOURCE_INDEX, STEP_IDS, STEPS, STYLE_ENTRIES, STYLES, Step, properties_ascend,
};
use super::published::selector_of;
use crate::asking::asked;

/// Words in a step's row, as given.
pub const ROW: usize = 22;

/// The three lists that entries come in.
#[derive(Clone, Debug, Default)]
pub struct Lists {
    pub properties: Vec<u16>,
    pub kinds: Vec<u32>,
    pub numbers: Vec<u32>,
}

impl Lists {
    /// A part of each list, or refusal 2: a count over a style's size or past
    /// one of the lists.
    fn part(&self, begin: usize, count: u32) -> Result<Vec<Entry>, Refusal> {
        let count = count as usize;
        if count > STYLE_ENTRIES {
            return Err(2);
        }
        let end = begin + count;
        let properties = self.properties.get(begin..end).ok_or(2u32)?;
        let kinds = self.kinds.get(begin..end).ok_or(2u32)?;
        let numbers = self.numbers.get(begin..end).ok_or(2u32)?;
        let entries = properties.iter().zip(kinds).zip(numbers);
        let entry = |((&property, &kind), &number)| Entry {
            property,
            kind,
            number,
        };
        Ok(entries.map(entry).collect())
    }
}

fn refuse_if(fault: bool, refusal: Refusal) -> Result<(), Refusal> {
    if fault { Err(refusal) } else { Ok(()) }
}

fn test_kinds(entries: &[Entry]) -> Result<(), Refusal> {
    refuse_if(entries.iter().any(|entry| entry.kind > KIND), 6)
}

fn test_ascending(entries: &[Entry]) -> Result<(), Refusal> {
    refuse_if(!properties_ascend(entries), 1)
}

fn test_next(model: &Model) -> Result<(), Refusal> {
    refuse_if(model.next > SOURCE_INDEX, 7)
}

/// The entries that a look-up is asked on: 2, 6, 1.
pub fn lookup(count: u32, lists: &Lists) -> Result<Vec<Entry>, Refusal> {
    let entries = lists.part(0, count)?;
    test_kinds(&entries)?;
    test_ascending(&entries)?;
    Ok(entries)
}

/// A style's entries: 6 (origin), 2, 6, 1, 7.
pub fn style(model: &Model, origin: u32, count: u32, lists: &Lists) -> Result<Vec<Entry>, Refusal> {
    refuse_if(origin > ORIGIN, 6)?;
    refuse_if(model.directs.len() >= STYLES, 2)?;
    let entries = lists.part(0, count)?;
    refuse_if(model.entries() + entries.len() > SHEET_ENTRIES, 2)?;
    test_kinds(&entries)?;
    test_ascending(&entries)?;
    test_next(model)?;
    Ok(entries)
}

/// What a group is given: three counts a rule, and what they count.
#[derive(Clone, Debug, Default)]
pub struct Group {
    pub rules: Vec<u32>,
    pub rows: Vec<u32>,
    pub codes: Vec<u32>,
    pub lists: Lists,
}

/// A group's rules: 6 (origin), 2 (their number), then each rule in turn 2,
/// 3, 6, 1, then 7.
pub fn group(model: &Model, origin: u32, count: u32, given: &Group) -> Result<Vec<Body>, Refusal> {
    refuse_if(origin > ORIGIN, 6)?;
    let count = count as usize;
    refuse_if(model.rules.len() + count > RULES, 2)?;
    let (rules, _) = given.rules.as_chunks::<3>();
    let rules = rules.get(..count).ok_or(2u32)?;
    let mut taker = Taker {
        given,
        row: 0,
        code: 0,
        entry: 0,
        ids_held: model.ids(),
        entries_held: model.entries(),
    };
    let bodies: Result<Vec<Body>, Refusal> = rules.iter().map(|&rule| taker.rule(rule)).collect();
    let bodies = bodies?;
    test_next(model)?;
    Ok(bodies)
}

/// Rule by rule: a rule's items begin where those of the one before end.
struct Taker<'a> {
    given: &'a Group,
    row: usize,
    code: usize,
    entry: usize,
    ids_held: usize,
    entries_held: usize,
}

impl Taker<'_> {
    fn rule(&mut self, [steps, codes, entries]: [u32; 3]) -> Result<Body, Refusal> {
        let steps = self.steps(steps)?;
        // Combinators have no size of their own.
        let end = self.code + codes as usize;
        let codes = self.given.codes.get(self.code..end).ok_or(2u32)?;
        self.code = end;
        let entries = self.given.lists.part(self.entry, entries)?;
        self.entry += entries.len();
        self.ids_held += steps.iter().map(Step::ids).sum::<usize>();
        refuse_if(self.ids_held > SHEET_IDS, 2)?;
        self.entries_held += entries.len();
        refuse_if(self.entries_held > SHEET_ENTRIES, 2)?;
        let body = Body {
            steps,
            codes: codes.to_vec(),
            entries,
        };
        // The published code panics on a wrong number of combinators.
        asked(|| selector_of(&body)).ok_or(3u32)?;
        refuse_if(body.codes.iter().any(|&code| code > COMBINATOR), 6)?;
        test_kinds(&body.entries)?;
        test_ascending(&body.entries)?;
        Ok(body)
    }

    fn steps(&mut self, count: u32) -> Result<Vec<Step>, Refusal> {
        let count = count as usize;
        refuse_if(count > STEPS, 2)?;
        // Words that make no whole row do not count.
        let (rows, _) = self.given.rows.as_chunks::<ROW>();
        let rows = rows.get(self.row..self.row + count).ok_or(2u32)?;
        self.row += count;
        rows.iter().map(step_of).collect()
    }
}

/// A step of a row, or refusal 2 if a count is over its size as given.
fn step_of(row: &[u32; ROW]) -> Result<Step, Refusal> {
    let (classes, pseudos) = row[6..].split_at(STEP_IDS);
    let classes = classes.get(..row[4] as usize).ok_or(2u32)?;
    let pseudos = pseudos.get(..row[5] as usize).ok_or(2u32)?;
    Ok(Step {
        type_tag: (row[0] != 0).then_some(row[1]),
        part_tag: (row[2] != 0).then_some(row[3]),
        classes: sorted(classes),
        pseudos: sorted(pseudos),
    })
}

/// Sorted and made unique, by the published code.
fn sorted(ids: &[u32]) -> Vec<u32> {
    IdSet::from_ids(ids.iter().copied()).as_slice().to_vec()
}
