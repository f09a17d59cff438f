//! The first half of a house-record file: records 1 to 8 make a sheet.
//!
//! The published builder makes the cascade. Sizes and refusals, which it does
//! not know, are kept here as document 01 reads.

use std::mem::take;

use understory_property::{Property, PropertyId};
use understory_property_expression::Expr;
use understory_style::ResourceKey;
use understory_style::matcher::{StyleCascade, StyleCascadeBuilder};
use understory_style::selector::{
    ClassId, PartTag, PseudoClassId, Selector, SelectorCombinator, SelectorStep, TypeTag,
};
use understory_style::style::{Style, StyleBuilder};
use understory_style::stylesheet::StyleOrigin;

use crate::faults::Fault;
use crate::records::Record;

/// Document 01's sizes, all inclusive.
pub const RULES: usize = 256;
pub const DIRECT_STYLES: usize = 64;
pub const STEPS: usize = 8;
pub const STEP_IDS: usize = 8;
pub const STYLE_ENTRIES: usize = 32;
pub const SHEET_IDS: usize = 8192;
pub const SHEET_ENTRIES: usize = 4096;
pub const SOURCE_INDEX: usize = 65_535;
pub const ORIGIN: u8 = 7;

/// An entry as given: property, kind, number.
#[derive(Copy, Clone)]
struct Entry {
    property: u16,
    kind: u8,
    number: u32,
}

/// A step as given. The ids stay as given too: a repeated one counts.
#[derive(Default)]
struct Step {
    descendant: bool,
    type_tag: Option<u32>,
    part_tag: Option<u32>,
    classes: Vec<u32>,
    pseudos: Vec<u32>,
}

#[derive(Default)]
struct Rule {
    steps: Vec<Step>,
    entries: Vec<Entry>,
}

/// What the records since the last 2 or 3 have opened.
#[derive(Default)]
enum Open {
    #[default]
    Nothing,
    Direct(u8, Vec<Entry>),
    Group(u8, Vec<Rule>),
}

/// A direct style of the finished sheet, as far as winners need it.
pub struct DirectFacts {
    pub origin: u8,
    pub source: usize,
    pub properties: Vec<u16>,
}

/// A rule of the finished sheet, as far as states and winners need it.
pub struct RuleFacts {
    pub origin: u8,
    pub source: usize,
    pub order: usize,
    pub selector: Selector,
    pub properties: Vec<u16>,
}

/// A finished sheet: the published cascade, and the same facts once more for
/// what the published code does not answer.
pub struct Sheet {
    pub ranking: u8,
    pub cascade: StyleCascade,
    pub directs: Vec<DirectFacts>,
    pub rules: Vec<RuleFacts>,
}

/// A sheet in the making.
pub struct SheetMaker {
    ranking: u8,
    builder: StyleCascadeBuilder,
    open: Open,
    directs: Vec<DirectFacts>,
    rules: Vec<RuleFacts>,
    next_source: usize,
    directs_given: usize,
    rules_given: usize,
    ids_held: usize,
    entries_held: usize,
}

/// What a record led to.
pub enum Taken {
    More(Box<SheetMaker>),
    Whole(Box<Sheet>),
}

/// Counts one more, or the fault if that brings the count over its size.
fn count(held: usize, size: usize, over: Fault) -> Result<usize, Fault> {
    if held < size { Ok(held + 1) } else { Err(over) }
}

impl SheetMaker {
    /// Starts with the first record of a file, which has to be kind 1.
    pub fn start(first: Record) -> Result<Self, Fault> {
        let Record::Sheet { ranking, .. } = first else {
            return Err(Fault::OtherFirst);
        };
        if ranking > 1 {
            return Err(Fault::Ranking);
        }
        Ok(Self {
            ranking,
            builder: StyleCascadeBuilder::new(),
            open: Open::Nothing,
            directs: Vec::new(),
            rules: Vec::new(),
            next_source: 0,
            directs_given: 0,
            rules_given: 0,
            ids_held: 0,
            entries_held: 0,
        })
    }

    /// Takes one more record. Its own faults come first, in the order 10, 6,
    /// 2; then what it closes is pushed, or refused.
    pub fn take(mut self: Box<Self>, record: Record) -> Result<Taken, Fault> {
        match record {
            Record::Direct { origin } => {
                self.test_origin(origin)?;
                self.directs_given = count(self.directs_given, DIRECT_STYLES, Fault::Styles)?;
                self.close()?;
                self.open = Open::Direct(origin, Vec::new());
            }
            Record::Group { origin } => {
                self.test_origin(origin)?;
                self.close()?;
                self.open = Open::Group(origin, Vec::new());
            }
            Record::Rule => {
                let Open::Group(_, rules) = &mut self.open else {
                    return Err(Fault::RuleOutsideGroup);
                };
                self.rules_given = count(self.rules_given, RULES, Fault::Rules)?;
                rules.push(Rule::default());
            }
            Record::Step { combinator } => {
                let rule = self.last_rule().ok_or(Fault::StepOutsideRule)?;
                if combinator > 1 {
                    return Err(Fault::Combinator);
                }
                if rule.steps.is_empty() && combinator != 0 {
                    return Err(Fault::FirstCombinator);
                }
                count(rule.steps.len(), STEPS, Fault::Steps)?;
                rule.steps.push(Step {
                    descendant: combinator == 1,
                    ..Step::default()
                });
            }
            Record::Requirement { which, id } => self.require(which, id)?,
            Record::Entry {
                property,
                kind,
                number,
            } => {
                let entries_held = self.entries_held;
                let entries = self.last_entries().ok_or(Fault::EntryOutsideStyle)?;
                if kind > 3 {
                    return Err(Fault::EntryKind);
                }
                count(entries.len(), STYLE_ENTRIES, Fault::Entries)?;
                let entries_held = count(entries_held, SHEET_ENTRIES, Fault::SheetEntries)?;
                entries.push(Entry {
                    property,
                    kind,
                    number,
                });
                self.entries_held = entries_held;
            }
            Record::End => {
                self.close()?;
                return Ok(Taken::Whole(Box::new(self.finish())));
            }
            Record::Sheet { .. } => return Err(Fault::SheetAgain),
            // Kinds 9 to 12.
            _ => return Err(Fault::BeforeEnd),
        }
        Ok(Taken::More(self))
    }

    fn test_origin(&self, origin: u8) -> Result<(), Fault> {
        if origin > ORIGIN {
            Err(Fault::Origin)
        } else {
            Ok(())
        }
    }

    fn last_rule(&mut self) -> Option<&mut Rule> {
        match &mut self.open {
            Open::Group(_, rules) => rules.last_mut(),
            _ => None,
        }
    }

    fn last_entries(&mut self) -> Option<&mut Vec<Entry>> {
        match &mut self.open {
            Open::Direct(_, entries) => Some(entries),
            Open::Group(_, rules) => rules.last_mut().map(|rule| &mut rule.entries),
            Open::Nothing => None,
        }
    }

    fn require(&mut self, which: u8, id: u32) -> Result<(), Fault> {
        let ids_held = self.ids_held;
        let step = self.last_rule().and_then(|rule| rule.steps.last_mut());
        let step = step.ok_or(Fault::RequirementWithoutStep)?;
        let (ids, over) = match which {
            0 => {
                step.type_tag = Some(id);
                return Ok(());
            }
            1 => {
                step.part_tag = Some(id);
                return Ok(());
            }
            2 => (&mut step.classes, Fault::Classes),
            3 => (&mut step.pseudos, Fault::Pseudos),
            _ => return Err(Fault::Which),
        };
        count(ids.len(), STEP_IDS, over)?;
        // The sheet's sum is of ids as held: a repeated one adds nothing.
        let ids_held = if ids.contains(&id) {
            ids_held
        } else {
            count(ids_held, SHEET_IDS, Fault::SheetIds)?
        };
        ids.push(id);
        self.ids_held = ids_held;
        Ok(())
    }

    /// Pushes the style or group that is open, or refuses it: 1, then 7.
    fn close(&mut self) -> Result<(), Fault> {
        match take(&mut self.open) {
            Open::Nothing => {}
            Open::Direct(origin, entries) => {
                test_ascending(&entries)?;
                let source = self.take_source()?;
                let builder = take(&mut self.builder);
                self.builder = builder.push_style(StyleOrigin(origin), style_of(&entries));
                self.directs.push(DirectFacts {
                    origin,
                    source,
                    properties: properties_of(&entries),
                });
            }
            Open::Group(origin, rules) => {
                for rule in &rules {
                    test_ascending(&rule.entries)?;
                }
                let source = self.take_source()?;
                let pushed: Vec<_> = rules
                    .iter()
                    .map(|rule| (selector_of(rule), style_of(&rule.entries)))
                    .collect();
                for (order, rule) in rules.iter().enumerate() {
                    self.rules.push(RuleFacts {
                        origin,
                        source,
                        order,
                        selector: selector_of(rule),
                        properties: properties_of(&rule.entries),
                    });
                }
                let builder = take(&mut self.builder);
                self.builder = builder.push_rules(StyleOrigin(origin), pushed);
            }
        }
        Ok(())
    }

    fn take_source(&mut self) -> Result<usize, Fault> {
        let source = self.next_source;
        if source > SOURCE_INDEX {
            return Err(Fault::SourceIndex);
        }
        self.next_source = source + 1;
        Ok(source)
    }

    fn finish(self) -> Sheet {
        Sheet {
            ranking: self.ranking,
            cascade: self.builder.build(),
            directs: self.directs,
            rules: self.rules,
        }
    }
}

fn properties_of(entries: &[Entry]) -> Vec<u16> {
    entries.iter().map(|entry| entry.property).collect()
}

/// Refusal 1 if a style's property ids are not strictly ascending.
fn test_ascending(entries: &[Entry]) -> Result<(), Fault> {
    if entries.is_sorted_by(|left, right| left.property < right.property) {
        Ok(())
    } else {
        Err(Fault::Ascending)
    }
}

fn style_of(entries: &[Entry]) -> Style {
    let mut style = StyleBuilder::new();
    for entry in entries {
        let property = Property::<u32>::from_id(PropertyId::new(entry.property));
        style = match entry.kind {
            0 => style.set(property, entry.number),
            1 => style.set_resource(property, ResourceKey(entry.number)),
            2 => style.set_expr(property, Expr::reading(Vec::new())),
            _ => style.set_expr(property, Expr::reading(vec![entry.number])),
        };
    }
    style.build()
}

fn selector_of(rule: &Rule) -> Selector {
    let steps = rule.steps.iter().map(|given| {
        let mut step = SelectorStep::default()
            .with_classes(given.classes.iter().copied().map(ClassId))
            .with_pseudos(given.pseudos.iter().copied().map(PseudoClassId));
        step.type_tag = given.type_tag.map(TypeTag);
        step.part_tag = given.part_tag.map(PartTag);
        step
    });
    let combinators = rule.steps.iter().skip(1).map(|step| {
        if step.descendant {
            SelectorCombinator::Descendant
        } else {
            SelectorCombinator::Child
        }
    });
    Selector::from_steps_with_combinators(steps, combinators)
}
