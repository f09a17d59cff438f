//! Cases of sheets: pushes into two sheets, and everything read out of them.
//!
//! The form is in the README, under "Builds". An accepted push goes into a
//! plain model (model.rs), its words (image.rs) and the published builder
//! (published.rs). What the published types show is what is printed, and has
//! to agree with the model. Refusals (given.rs) and what stands in words after
//! a store are readings of document 01.

pub mod given;
pub mod image;
pub mod model;
pub mod published;

use std::fmt::Write;
use std::rc::Rc;

use given::{Group, Lists};
use image::{HEAD, SHEET_WORDS};
use model::{Entry, Model, Refusal};
use published::{Published, Shown, ShownRule, kind_of, property, style_of};
use understory_style::ResourceKey;
use understory_style::selector::{Selector, SelectorCombinator, SelectorStep};
use understory_style::style::StyleValueRef;

use crate::paths::level3_weight;

/// Most words that a sheet can be lent.
pub const MOST_ROOM: usize = 67_020;
/// Most words of payload that an item may have.
pub const LONGEST_PAYLOAD: u32 = 32_768;
/// Most entries that are read out of one source.
const MOST_READ: usize = 32;

pub const NEW: u32 = 1;
pub const STYLE: u32 = 2;
pub const GROUP: u32 = 3;
pub const RULE: u32 = 4;
pub const CASCADE: u32 = 5;
pub const STORE: u32 = 6;
pub const READ: u32 = 7;
pub const READ_RULE: u32 = 8;
pub const LOOK: u32 = 9;
pub const LOOK_LENT: u32 = 10;

/// One item of a stream.
#[derive(Clone, Debug, PartialEq, Eq)]
pub struct Item {
    pub op: u32,
    pub payload: Vec<u32>,
}

impl Item {
    pub fn words(&self) -> Vec<u32> {
        let length = u32::try_from(self.payload.len()).expect("a payload's length fits a word");
        let mut words = vec![self.op, length];
        words.extend(&self.payload);
        words
    }
}

/// One case: items one after another. What an earlier case of the same stream
/// has left in the words of a sheet may show.
#[derive(Clone, Debug, Default, PartialEq, Eq)]
pub struct BuildCase {
    pub items: Vec<Item>,
}

/// A payload from left to right: zeros after its end, lists cut there.
pub struct Payload<'a>(pub &'a [u32]);

impl Payload<'_> {
    pub fn word(&mut self) -> u32 {
        match self.0.split_first() {
            Some((&word, rest)) => {
                self.0 = rest;
                word
            }
            None => 0,
        }
    }

    pub fn words<const COUNT: usize>(&mut self) -> [u32; COUNT] {
        [0; COUNT].map(|_| self.word())
    }

    fn list(&mut self, length: u32) -> Vec<u32> {
        let (list, rest) = self.0.split_at(self.0.len().min(length as usize));
        self.0 = rest;
        list.to_vec()
    }

    fn lists(&mut self, [properties, kinds, numbers]: [u32; 3]) -> Lists {
        let properties = self.list(properties);
        Lists {
            // The low 16 bits.
            properties: properties.iter().map(|&id| id as u16).collect(),
            kinds: self.list(kinds),
            numbers: self.list(numbers),
        }
    }
}

/// One sheet, and what it is taken for.
struct Sheet {
    words: Vec<u32>,
    room: usize,
    /// Nothing if the words break the shape.
    model: Option<Model>,
    /// Nothing if no pushes make the sheet.
    published: Option<Published>,
    /// A word was stored that has not been looked at.
    stored: bool,
    shown: Option<Rc<Shown>>,
}

impl Sheet {
    fn new() -> Self {
        Self {
            words: vec![0; MOST_ROOM],
            room: 0,
            model: None,
            published: None,
            stored: false,
            shown: None,
        }
    }

    /// The empty sheet: only the counts are written.
    fn lend(&mut self, room: u32) -> Result<(), Refusal> {
        self.room = (room as usize).min(MOST_ROOM);
        self.stored = false;
        self.shown = None;
        if self.room < SHEET_WORDS {
            self.model = None;
            self.published = None;
            return Err(11);
        }
        self.words[..HEAD].fill(0);
        self.model = Some(Model::default());
        self.published = Some(Published::default());
        Ok(())
    }

    fn store(&mut self, address: u32, value: u32) {
        let address = address as usize;
        if address < self.room && self.words[address] != value {
            self.words[address] = value;
            self.stored = true;
        }
    }

    /// Looks at the words again if one was stored.
    fn look(&mut self) -> Result<&Model, Refusal> {
        if self.stored {
            self.stored = false;
            let model = image::read(&self.words[..self.room]);
            if model != self.model {
                self.model = model;
                self.published = self.model.as_ref().and_then(Published::replay);
                self.shown = None;
            }
        }
        self.model.as_ref().ok_or(11)
    }

    /// Makes an accepted push, in all three forms.
    fn push(
        &mut self,
        on_model: impl FnOnce(&mut Model),
        on_published: impl FnOnce(&mut Published),
    ) {
        let model = self.model.as_mut().expect("an accepted push had a sheet");
        let (directs, rules) = (model.directs.len(), model.rules.len());
        on_model(model);
        self.published = match self.published.take() {
            Some(mut published) => {
                on_published(&mut published);
                Some(published)
            }
            None => Published::replay(model),
        };
        image::write_added(&mut self.words, model, directs, rules);
        self.shown = None;
        let read = image::read(&self.words[..self.room]);
        assert_eq!(
            read.as_ref(),
            Some(&*model),
            "the words of an accepted push"
        );
    }

    fn push_style(&mut self, origin: u32, count: u32, lists: &Lists) -> Result<(), Refusal> {
        let entries = given::style(self.look()?, origin, count, lists)?;
        self.push(
            |model| model.push_style(origin, entries.clone()),
            |published| published.push_style(origin, &entries),
        );
        Ok(())
    }

    fn push_rules(&mut self, origin: u32, count: u32, given: &Group) -> Result<(), Refusal> {
        let bodies = given::group(self.look()?, origin, count, given)?;
        self.push(
            |model| model.push_rules(origin, bodies.clone()),
            |published| published.push_rules(origin, &bodies),
        );
        Ok(())
    }

    /// A group of one rule.
    fn push_rule(&mut self, origin: u32, given: &Group) -> Result<(), Refusal> {
        let bodies = given::group(self.look()?, origin, 1, given)?;
        self.push(
            |model| model.push_rules(origin, bodies.clone()),
            |published| published.push_rule(origin, &bodies[0]),
        );
        Ok(())
    }

    fn push_cascade(&mut self, other: &mut Self) -> Result<(), Refusal> {
        let model = self.look()?;
        let added = other.look()?.clone();
        model.test_cascade(&added)?;
        match &mut other.published {
            Some(published) => {
                let built = published.built(&added);
                self.push(
                    |model| model.push_cascade(&added),
                    |published| published.push_cascade(&built),
                );
            }
            // Nothing to push: the sheets' union may still be one that
            // pushes make.
            None => {
                self.published = None;
                self.push(|model| model.push_cascade(&added), |_| {});
            }
        }
        Ok(())
    }

    fn shown(&mut self) -> Result<Rc<Shown>, Refusal> {
        self.look()?;
        if let Some(shown) = &self.shown {
            return Ok(Rc::clone(shown));
        }
        let model = self.model.as_ref().ok_or(11u32)?;
        let shown = match &mut self.published {
            Some(published) => published.shown(model),
            None => Shown::of_model(model),
        };
        let shown = Rc::new(shown);
        self.shown = Some(Rc::clone(&shown));
        Ok(shown)
    }
}

/// Both sheets.
pub struct Machine([Sheet; 2]);

impl Default for Machine {
    fn default() -> Self {
        Self([Sheet::new(), Sheet::new()])
    }
}

impl Machine {
    fn sheet(&mut self, which: u32) -> &mut Sheet {
        &mut self.0[(which % 2) as usize]
    }

    /// All words of a sheet, lent or not.
    pub fn words(&self, which: usize) -> &[u32] {
        &self.0[which].words
    }

    /// The lines of one item.
    pub fn item(&mut self, op: u32, payload: &[u32]) -> String {
        let mut payload = Payload(payload);
        match op {
            NEW => {
                let [which, room] = payload.words();
                verdict("new", self.sheet(which).lend(room))
            }
            STYLE => {
                let [which, origin, count] = payload.words();
                let lengths = payload.words();
                let lists = payload.lists(lengths);
                verdict("style", self.sheet(which).push_style(origin, count, &lists))
            }
            GROUP => {
                let [which, origin, count, rules, rows, codes] = payload.words();
                let lengths = payload.words();
                let given = Group {
                    rules: payload.list(rules),
                    rows: payload.list(rows),
                    codes: payload.list(codes),
                    lists: payload.lists(lengths),
                };
                verdict("group", self.sheet(which).push_rules(origin, count, &given))
            }
            RULE => {
                let [which, origin] = payload.words();
                let counts: [u32; 3] = payload.words();
                let [rows, codes] = payload.words();
                let lengths = payload.words();
                let given = Group {
                    rules: counts.to_vec(),
                    rows: payload.list(rows),
                    codes: payload.list(codes),
                    lists: payload.lists(lengths),
                };
                verdict("rule", self.sheet(which).push_rule(origin, &given))
            }
            CASCADE => {
                let [first, second] = &mut self.0;
                let done = match payload.word() % 2 {
                    0 => first.push_cascade(second),
                    _ => second.push_cascade(first),
                };
                verdict("cascade", done)
            }
            STORE => {
                let [which, address, value] = payload.words();
                self.sheet(which).store(address, value);
                String::new()
            }
            READ => match self.sheet(payload.word()).shown() {
                Ok(shown) => sheet_lines(&shown),
                Err(refusal) => format!("s {refusal}\n"),
            },
            READ_RULE => {
                let [which, number, ranking] = payload.words();
                let shown = self.sheet(which).shown();
                let rule = shown.as_ref().map_err(|&refusal| refusal);
                let rule = rule.and_then(|shown| shown.rules.get(number as usize).ok_or(9));
                let weight = rule.and_then(|rule| weight(&rule.selector, ranking));
                let rule = match rule {
                    Ok(rule) => rule_line(rule),
                    Err(refusal) => format!("r {refusal}\n"),
                };
                rule + &weight.unwrap_or_else(|refusal| format!("w {refusal}\n"))
            }
            LOOK => {
                let [which, rule, number, asked] = payload.words();
                let entries = self.entries(which, rule != 0, number as usize);
                let entries: Vec<Entry> = entries.into_iter().take(MOST_READ).collect();
                look_lines(Ok(entries), asked as u16)
            }
            LOOK_LENT => {
                let [count, asked] = payload.words();
                let lengths = payload.words();
                let lists = payload.lists(lengths);
                look_lines(given::lookup(count, &lists), asked as u16)
            }
            _ => format!("op {op}\n"),
        }
    }

    /// The entries of a source; none if it is not there or the sheet refused.
    fn entries(&mut self, which: u32, rule: bool, number: usize) -> Vec<Entry> {
        let Ok(shown) = self.sheet(which).shown() else {
            return Vec::new();
        };
        let entries = if rule {
            shown.rules.get(number).map(|rule| rule.entries.clone())
        } else {
            let direct = shown.directs.get(number);
            direct.map(|direct| direct.entries.clone())
        };
        entries.unwrap_or_default()
    }

    /// The lines of a stream, and of where it ends if not between two items.
    pub fn stream(&mut self, stream: &[u8]) -> String {
        let mut lines = String::new();
        let mut rest = stream;
        while !rest.is_empty() {
            match read_item(rest) {
                Ok((item, after)) => {
                    lines += &self.item(item.op, &item.payload);
                    rest = after;
                }
                Err(end) => {
                    lines += end;
                    break;
                }
            }
        }
        lines
    }
}

/// The first item and what comes after it, or the line on which the program
/// ends. A length is judged as soon as it is read.
pub fn read_item(bytes: &[u8]) -> Result<(Item, &[u8]), &'static str> {
    const CUT_SHORT: &str = "cut short\n";
    let (op, rest) = bytes.split_first_chunk().ok_or(CUT_SHORT)?;
    let (length, rest) = rest.split_first_chunk().ok_or(CUT_SHORT)?;
    let length = u32::from_le_bytes(*length);
    if length > LONGEST_PAYLOAD {
        return Err("too long\n");
    }
    let (payload, rest) = rest
        .split_at_checked(4 * length as usize)
        .ok_or(CUT_SHORT)?;
    let (payload, _) = payload.as_chunks();
    let item = Item {
        op: u32::from_le_bytes(*op),
        payload: payload
            .iter()
            .map(|word| u32::from_le_bytes(*word))
            .collect(),
    };
    Ok((item, rest))
}

/// What is to be printed for a stream.
pub fn answer_stream(stream: &[u8]) -> String {
    Machine::default().stream(stream)
}

impl BuildCase {
    pub fn words(&self) -> Vec<u32> {
        self.items.iter().flat_map(Item::words).collect()
    }
}

fn verdict(tag: &str, done: Result<(), Refusal>) -> String {
    format!("{tag} {}\n", done.err().unwrap_or(0))
}

pub fn numbered<T>(tag: &str, numbers: impl IntoIterator<Item = T>) -> String
where
    T: std::fmt::Display,
{
    let mut line = tag.to_string();
    for number in numbers {
        write!(line, " {number}").expect("a string takes everything");
    }
    line + "\n"
}

fn rule_line(rule: &ShownRule) -> String {
    let sizes = [rule.selector.len() as u32, rule.entries.len() as u32];
    let place = [rule.origin, rule.source, rule.order];
    numbered("r", place.into_iter().chain(sizes))
}

fn entry_lines(entries: &[Entry]) -> String {
    let line = |entry: &Entry| numbered("e", [entry.property.into(), entry.kind, entry.number]);
    entries.iter().map(line).collect()
}

fn step_line(step: &SelectorStep) -> String {
    let tag = |tag: Option<u32>| [u32::from(tag.is_some()), tag.unwrap_or(0)];
    let classes = step.required_classes.as_slice();
    let pseudos = step.required_pseudos.as_slice();
    let mut numbers = Vec::new();
    numbers.extend(tag(step.type_tag.map(|tag| tag.0)));
    numbers.extend(tag(step.part_tag.map(|tag| tag.0)));
    numbers.extend([classes.len() as u32, pseudos.len() as u32]);
    numbers.extend(classes.iter().map(|id| id.0));
    numbers.extend(pseudos.iter().map(|id| id.0));
    numbered("t", numbers)
}

/// Ranking 0 is the published one. Ranking 1 has two numbers, and zeros.
fn weight(selector: &Selector, ranking: u32) -> Result<String, Refusal> {
    let weight = match ranking {
        0 => {
            let published = selector.specificity();
            [published.0, published.1, published.2, published.3]
        }
        1 => {
            let (b, c) = level3_weight(selector);
            [b as u32, c as u32, 0, 0]
        }
        _ => return Err(6),
    };
    Ok(numbered("w", weight))
}

fn sheet_lines(shown: &Shown) -> String {
    let sizes = [shown.rules.len(), shown.directs.len()];
    let mut lines = numbered("s 0", sizes.into_iter().chain([usize::from(shown.empty)]));
    for direct in &shown.directs {
        let entries = direct.entries.len() as u32;
        lines += &numbered("d", [direct.origin, direct.source, entries]);
        lines += &entry_lines(&direct.entries);
    }
    for rule in &shown.rules {
        lines += &rule_line(rule);
        for step in rule.selector.steps() {
            lines += &step_line(step);
        }
        for combinator in rule.selector.combinators() {
            lines += match combinator {
                SelectorCombinator::Child => "c 0\n",
                SelectorCombinator::Descendant => "c 1\n",
            };
        }
        lines += &entry_lines(&rule.entries);
        for ranking in [0, 1] {
            lines += &weight(&rule.selector, ranking).expect("a ranking that there is");
        }
    }
    lines
}

/// The look-ups on a style: its entries, or why they are refused.
fn look_lines(entries: Result<Vec<Entry>, Refusal>, asked: u16) -> String {
    let entries = match entries {
        Ok(entries) => entries,
        Err(refusal) => {
            let line = |tag| format!("{tag} {refusal}\n");
            return ["la", "lb", "lc", "ld", "le", "lf"].map(line).concat() + "lg\n";
        }
    };
    let style = style_of(&entries);
    let asked_property = property(asked);
    let contains = style.contains(asked_property);
    let place = style.property_ids().position(|id| id.index() == asked);
    let kind = kind_of(&style, asked).map(|(kind, number)| {
        // The published style keeps no number of an expression of kind 2.
        let given = || entries.iter().find(|entry| entry.property == asked);
        let number = number.or_else(|| given().map(|entry| entry.number));
        [kind, number.expect("an entry that is there")]
    });
    let value = style.value_ref(asked_property).map(|value| match value {
        StyleValueRef::Value(&number) => [0, number],
        StyleValueRef::Resource(ResourceKey(number)) => [1, number],
    });
    let resource = style.resource_key(asked_property).map(|key| key.0);
    [
        numbered("la 0", [u32::from(contains)]),
        numbered("lb 0", place),
        numbered("lc 0", kind.into_iter().flatten()),
        numbered("ld 0", value.into_iter().flatten()),
        numbered("le 0", resource),
        numbered("lf 0", [style.len()]),
        numbered("lg", style.property_ids().map(|id| id.index())),
    ]
    .concat()
}
