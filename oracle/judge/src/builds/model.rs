//! A sheet as plain lists: what is held, without words and without the
//! published builder.

/// Document 01's sizes, all inclusive.
pub const RULES: usize = 256;
pub const STYLES: usize = 64;
pub const STEPS: usize = 8;
pub const STEP_IDS: usize = 8;
pub const STYLE_ENTRIES: usize = 32;
pub const SHEET_IDS: usize = 8192;
pub const SHEET_ENTRIES: usize = 4096;
pub const SOURCE_INDEX: u32 = 65_535;
pub const ORIGIN: u32 = 7;
pub const COMBINATOR: u32 = 1;
pub const KIND: u32 = 3;

/// The number of a refusal in document 01's table.
pub type Refusal = u32;

#[derive(Copy, Clone, Debug, PartialEq, Eq)]
pub struct Entry {
    pub property: u16,
    pub kind: u32,
    pub number: u32,
}

/// A step as held: its ids are sorted and unique.
#[derive(Clone, Debug, Default, PartialEq, Eq)]
pub struct Step {
    pub type_tag: Option<u32>,
    pub part_tag: Option<u32>,
    pub classes: Vec<u32>,
    pub pseudos: Vec<u32>,
}

impl Step {
    pub fn ids(&self) -> usize {
        self.classes.len() + self.pseudos.len()
    }
}

/// A rule without its place: what a group gives.
#[derive(Clone, Debug, Default, PartialEq, Eq)]
pub struct Body {
    pub steps: Vec<Step>,
    /// One fewer than the steps; 0 child, 1 descendant.
    pub codes: Vec<u32>,
    pub entries: Vec<Entry>,
}

impl Body {
    pub fn ids(&self) -> usize {
        self.steps.iter().map(Step::ids).sum()
    }
}

#[derive(Clone, Debug, PartialEq, Eq)]
pub struct Rule {
    pub origin: u32,
    pub source: u32,
    pub order: u32,
    pub body: Body,
}

#[derive(Clone, Debug, PartialEq, Eq)]
pub struct Direct {
    pub origin: u32,
    pub source: u32,
    pub entries: Vec<Entry>,
}

#[derive(Clone, Debug, Default, PartialEq, Eq)]
pub struct Model {
    pub directs: Vec<Direct>,
    pub rules: Vec<Rule>,
    /// The next source index.
    pub next: u32,
}

impl Model {
    pub fn ids(&self) -> usize {
        self.rules.iter().map(|rule| rule.body.ids()).sum()
    }

    pub fn entries(&self) -> usize {
        let of_rules = self.rules.iter().map(|rule| rule.body.entries.len());
        let of_directs = self.directs.iter().map(|direct| direct.entries.len());
        of_rules.chain(of_directs).sum()
    }

    /// All source indexes, direct styles first.
    pub fn sources(&self) -> impl Iterator<Item = u32> {
        let of_directs = self.directs.iter().map(|direct| direct.source);
        of_directs.chain(self.rules.iter().map(|rule| rule.source))
    }

    /// An accepted style. It takes one source index.
    pub fn push_style(&mut self, origin: u32, entries: Vec<Entry>) {
        self.directs.push(Direct {
            origin,
            source: self.next,
            entries,
        });
        self.next += 1;
    }

    /// An accepted group. It takes one source index, without rules too.
    pub fn push_rules(&mut self, origin: u32, bodies: Vec<Body>) {
        let source = self.next;
        for (order, body) in (0..).zip(bodies) {
            self.rules.push(Rule {
                origin,
                source,
                order,
                body,
            });
        }
        self.next += 1;
    }

    /// The refusals of a cascade after 11: the four sums, then the largest
    /// shifted index.
    pub fn test_cascade(&self, other: &Self) -> Result<(), Refusal> {
        let Some(largest) = other.sources().max() else {
            return Ok(());
        };
        let over = self.rules.len() + other.rules.len() > RULES
            || self.directs.len() + other.directs.len() > STYLES
            || self.ids() + other.ids() > SHEET_IDS
            || self.entries() + other.entries() > SHEET_ENTRIES;
        if over {
            return Err(2);
        }
        if self.next + largest > SOURCE_INDEX {
            return Err(7);
        }
        Ok(())
    }

    /// An accepted cascade. One without sources alters nothing.
    pub fn push_cascade(&mut self, other: &Self) {
        let Some(largest) = other.sources().max() else {
            return;
        };
        let shift = self.next;
        for direct in &other.directs {
            let mut direct = direct.clone();
            direct.source += shift;
            self.directs.push(direct);
        }
        for rule in &other.rules {
            let mut rule = rule.clone();
            rule.source += shift;
            self.rules.push(rule);
        }
        self.next = shift + largest + 1;
    }
}

pub fn strictly_ascending<T: PartialOrd>(list: &[T]) -> bool {
    list.is_sorted_by(|left, right| left < right)
}

pub fn properties_ascend(entries: &[Entry]) -> bool {
    entries.is_sorted_by(|left, right| left.property < right.property)
}
