//! A sheet in the published builder, and what the published types show of it.

use std::mem::take;

use understory_property::{Property, PropertyId};
use understory_property_expression::Expr;
use understory_style::ResourceKey;
use understory_style::matcher::{StyleCascade, StyleCascadeBuilder};
use understory_style::selector::{
    ClassId, PartTag, PseudoClassId, Selector, SelectorCombinator, SelectorInputs, SelectorStep,
    TypeTag,
};
use understory_style::style::{Style, StyleBuilder, StyleValueKind};
use understory_style::stylesheet::StyleOrigin;

use super::model::{Body, Direct, Entry, Model, Rule};

pub fn property(id: u16) -> Property<u32> {
    Property::from_id(PropertyId::new(id))
}

pub fn origin_of(origin: u32) -> StyleOrigin {
    StyleOrigin(u8::try_from(origin).expect("an accepted origin is small"))
}

/// The published style. Of the numbers of expressions it keeps only those of
/// kind 3, as the resource that is read.
pub fn style_of(entries: &[Entry]) -> Style {
    builder_of(entries).build()
}

fn builder_of(entries: &[Entry]) -> StyleBuilder {
    entries.iter().fold(StyleBuilder::new(), |style, entry| {
        let property = property(entry.property);
        match entry.kind {
            0 => style.set(property, entry.number),
            1 => style.set_resource(property, ResourceKey(entry.number)),
            2 => style.set_expr(property, Expr::reading(Vec::new())),
            _ => style.set_expr(property, Expr::reading(vec![entry.number])),
        }
    })
}

/// The published selector; panics if the combinators are not one fewer than
/// the steps.
pub fn selector_of(body: &Body) -> Selector {
    let steps = body.steps.iter().map(|held| {
        let mut step = SelectorStep::default()
            .with_classes(held.classes.iter().copied().map(ClassId))
            .with_pseudos(held.pseudos.iter().copied().map(PseudoClassId));
        step.type_tag = held.type_tag.map(TypeTag);
        step.part_tag = held.part_tag.map(PartTag);
        step
    });
    let combinators = body.codes.iter().map(|&code| match code {
        0 => SelectorCombinator::Child,
        _ => SelectorCombinator::Descendant,
    });
    Selector::from_steps_with_combinators(steps, combinators)
}

/// What the entry of a style is for a reader: kind, and the number if it is
/// kept.
pub fn kind_of(style: &Style, id: u16) -> Option<(u32, Option<u32>)> {
    style.value_kind(property(id)).map(read_kind)
}

/// The same of an entry that was found.
pub fn read_kind(kind: StyleValueKind<'_, u32>) -> (u32, Option<u32>) {
    match kind {
        StyleValueKind::Value(&number) => (0, Some(number)),
        StyleValueKind::Resource(ResourceKey(number)) => (1, Some(number)),
        StyleValueKind::Expr(expression) => match expression.as_erased().deps().resources[..] {
            [] => (2, None),
            [number] => (3, Some(number)),
            _ => panic!("no expression here reads several resources"),
        },
        _ => panic!("a kind that document 01 does not know"),
    }
}

/// The entries of a style in the order of their ids, but for one property.
/// Numbers that the style does not keep are the model's.
fn entries_of(style: &Style, model: &[Entry], but: Option<PropertyId>) -> Vec<Entry> {
    let ids = style.property_ids().filter(|&id| Some(id) != but);
    let entry = |(place, id): (usize, PropertyId)| {
        let property = id.index();
        let (kind, number) = kind_of(style, property).expect("a property that was listed");
        let number = number.unwrap_or_else(|| model[place].number);
        Entry {
            property,
            kind,
            number,
        }
    };
    ids.enumerate().map(entry).collect()
}

/// A rule as it is shown.
pub struct ShownRule {
    pub origin: u32,
    pub source: u32,
    pub order: u32,
    pub selector: Selector,
    pub entries: Vec<Entry>,
}

/// A sheet as it is shown.
pub struct Shown {
    pub empty: bool,
    pub directs: Vec<Direct>,
    pub rules: Vec<ShownRule>,
}

impl Shown {
    /// Of a sheet that no published builder makes: styles and selectors are
    /// the published ones, the rest is the model's.
    pub fn of_model(model: &Model) -> Self {
        let direct = |direct: &Direct| Direct {
            entries: entries_of(&style_of(&direct.entries), &direct.entries, None),
            ..direct.clone()
        };
        let rule = |rule: &Rule| ShownRule {
            origin: rule.origin,
            source: rule.source,
            order: rule.order,
            selector: selector_of(&rule.body),
            entries: entries_of(&style_of(&rule.body.entries), &rule.body.entries, None),
        };
        Self {
            empty: model.directs.is_empty() && model.rules.is_empty(),
            directs: model.directs.iter().map(direct).collect(),
            rules: model.rules.iter().map(rule).collect(),
        }
    }
}

/// How many resources the mark of a direct style reads: none of the entries
/// that a case gives reads as many.
const MARK: usize = 2;

/// A direct style with one more entry, which makes the published
/// `expression_entries` show the style.
fn marked(entries: &[Entry]) -> Style {
    let free = (0..).find(|&id| entries.iter().all(|entry| entry.property != id));
    let free = free.expect("a style holds few of all properties");
    let mark = Expr::reading(vec![0; MARK]);
    builder_of(entries).set_expr(property(free), mark).build()
}

/// A selector that every subject fits, which makes the published
/// `matching_rules` show the rule.
fn fitting() -> Selector {
    Selector::single(SelectorStep::default())
}

/// In sheets of at most so many rules each selector is read out of the
/// cascade; in larger ones that takes too long.
const WALKED: usize = 40;

/// The selector of a rule with steps, as the cascade shows it to a subject at
/// the end of a path that is made of those steps. Panics where that is not
/// the model's.
fn walked(plain: &StyleCascade, held: &Rule) -> Selector {
    let selector = selector_of(&held.body);
    let state = selector
        .steps()
        .iter()
        .fold(plain.root_state(), |state, step| {
            let (classes, pseudos) = (&step.required_classes, &step.required_pseudos);
            let subject = SelectorInputs::with_part(
                step.type_tag,
                step.part_tag,
                classes.as_slice(),
                pseudos.as_slice(),
            );
            plain.enter_subject(state, &subject)
        });
    let place = (held.source as usize, held.order);
    let mut rules = plain.matching_rules(state);
    let rule = rules.find(|rule| (rule.source_index(), rule.order()) == place);
    let rule = rule.expect("a rule is listed at the end of its own path");
    assert_eq!(u32::from(rule.origin().0), held.origin);
    assert_eq!(*rule.selector(), selector, "the published selector");
    rule.selector().clone()
}

/// One push.
enum Push<'a> {
    Style(u32, &'a [Entry]),
    Rules(u32, Vec<&'a Body>),
    Cascade(&'a Built),
}

/// Both cascades of a sheet.
#[derive(Clone)]
pub struct Built {
    pub plain: StyleCascade,
    open: StyleCascade,
}

/// The same pushes in two published builders: one given what the case gives,
/// the other the same with marked styles and with selectors that always fit,
/// so that each source can be read.
#[derive(Default)]
pub struct Published {
    plain: StyleCascadeBuilder,
    open: StyleCascadeBuilder,
    /// What has been built since the last push.
    built: Option<Built>,
}

impl Published {
    fn push(&mut self, push: Push<'_>) {
        self.built = None;
        let (plain, open) = (take(&mut self.plain), take(&mut self.open));
        (self.plain, self.open) = match push {
            Push::Style(origin, entries) => (
                plain.push_style(origin_of(origin), style_of(entries)),
                open.push_style(origin_of(origin), marked(entries)),
            ),
            Push::Rules(origin, bodies) => {
                let given = |body: &&Body| (selector_of(body), style_of(&body.entries));
                let shown = |body: &&Body| (fitting(), style_of(&body.entries));
                let origin = origin_of(origin);
                (
                    plain.push_rules(origin, bodies.iter().map(given)),
                    open.push_rules(origin, bodies.iter().map(shown)),
                )
            }
            Push::Cascade(built) => (
                plain.push_cascade(&built.plain),
                open.push_cascade(&built.open),
            ),
        };
    }

    pub fn push_style(&mut self, origin: u32, entries: &[Entry]) {
        self.push(Push::Style(origin, entries));
    }

    pub fn push_rules(&mut self, origin: u32, bodies: &[Body]) {
        self.push(Push::Rules(origin, bodies.iter().collect()));
    }

    /// By the published `push_rule`, which takes no list.
    pub fn push_rule(&mut self, origin: u32, body: &Body) {
        self.built = None;
        let style = style_of(&body.entries);
        let origin = origin_of(origin);
        let (plain, open) = (take(&mut self.plain), take(&mut self.open));
        self.plain = plain.push_rule(origin, selector_of(body), style.clone());
        self.open = open.push_rule(origin, fitting(), style);
    }

    pub fn push_cascade(&mut self, other: &Built) {
        self.push(Push::Cascade(other));
    }

    fn push_empty_groups(&mut self, count: u32) {
        for _ in 0..count {
            self.push(Push::Rules(0, Vec::new()));
        }
    }

    /// Both cascades, built. Building takes the builders, so new ones take
    /// the cascades over; trailing empty groups are pushed again.
    pub fn built(&mut self, model: &Model) -> Built {
        if let Some(built) = &self.built {
            return built.clone();
        }
        let built = Built {
            plain: take(&mut self.plain).build(),
            open: take(&mut self.open).build(),
        };
        self.push_cascade(&built);
        let after = model.sources().max().map_or(0, |largest| largest + 1);
        self.push_empty_groups(model.next - after);
        self.built = Some(built.clone());
        built
    }

    /// A sheet read from words, pushed source by source with empty groups in
    /// its gaps; nothing if no pushes make it.
    pub fn replay(model: &Model) -> Option<Self> {
        let mut pushes: Vec<(u32, Push<'_>)> = Vec::new();
        for direct in &model.directs {
            if let Some(&(last, _)) = pushes.last()
                && last >= direct.source
            {
                return None;
            }
            pushes.push((direct.source, Push::Style(direct.origin, &direct.entries)));
        }
        let directs = pushes.len();
        for rule in &model.rules {
            match pushes[directs..].last_mut() {
                Some((source, Push::Rules(origin, bodies))) if *source == rule.source => {
                    if *origin != rule.origin || bodies.len() as u32 != rule.order {
                        return None;
                    }
                    bodies.push(&rule.body);
                }
                Some(&mut (source, _)) if source > rule.source => return None,
                _ if rule.order != 0 => return None,
                _ => pushes.push((rule.source, Push::Rules(rule.origin, vec![&rule.body]))),
            }
        }
        pushes.sort_by_key(|&(source, _)| source);
        if pushes.windows(2).any(|pair| pair[0].0 == pair[1].0) {
            return None;
        }
        let mut published = Self::default();
        let mut next = 0;
        for (source, push) in pushes {
            published.push_empty_groups(source - next);
            published.push(push);
            next = source + 1;
        }
        published.push_empty_groups(model.next.checked_sub(next)?);
        Some(published)
    }

    /// What the published types show. Panics where that is not the model's.
    pub fn shown(&mut self, model: &Model) -> Shown {
        let Built { plain, open } = self.built(model);
        let mut shown = Shown {
            empty: plain.is_empty(),
            directs: Vec::new(),
            rules: Vec::new(),
        };
        assert_eq!(open.is_empty(), shown.empty);
        let root = open.root_state();
        for mark in open.expression_entries(root) {
            if mark.deps().resources.len() != MARK {
                continue;
            }
            let held = &model.directs[shown.directs.len()];
            shown.directs.push(Direct {
                origin: mark.origin().0.into(),
                source: mark.source_index() as u32,
                entries: entries_of(mark.style(), &held.entries, Some(mark.property())),
            });
        }
        assert_eq!(shown.directs, model.directs, "the published direct styles");
        let inside = open.enter_subject(root, &SelectorInputs::EMPTY);
        let few = model.rules.len() <= WALKED;
        for (rule, held) in open.matching_rules(inside).zip(&model.rules) {
            let selector = if few && !held.body.steps.is_empty() {
                walked(&plain, held)
            } else {
                selector_of(&held.body)
            };
            shown.rules.push(ShownRule {
                origin: rule.origin().0.into(),
                source: rule.source_index() as u32,
                order: rule.order(),
                selector,
                entries: entries_of(rule.style(), &held.body.entries, None),
            });
        }
        assert_eq!(open.matching_rules(inside).count(), model.rules.len());
        for (rule, held) in shown.rules.iter().zip(&model.rules) {
            let place = (rule.origin, rule.source, rule.order);
            assert_eq!(place, (held.origin, held.source, held.order));
            assert_eq!(rule.entries, held.body.entries, "the published entries");
        }
        shown
    }
}
