//! The same walk in the published code.

use std::collections::BTreeMap;

use understory_property::PropertyId;
use understory_style::ResourceKey;
use understory_style::matcher::{
    MatchRule, MatchState, Matcher, MatcherBuilder, StyleCascade, StyleCascadeBuilder,
    StyleSourceRef,
};
use understory_style::selector::{ClassId, PartTag, PseudoClassId, SelectorInputs, TypeTag};
use understory_style::style::{StyleBuilder, StyleValueRef};

use super::changes::{listed, registry};
use super::table::{Row, Subject};
use super::winners::{Holder, Won};
use crate::asking::asked;
use crate::builds::model::{Direct, Model, Refusal, Rule};
use crate::builds::published::{Published, origin_of, property, read_kind, selector_of, style_of};
use crate::paths::{ROW_HEAD, SUBJECT_IDS};

/// A table that build and accepted calls have made, in the published code.
/// The matcher is given the rules alone, and so takes every sheet; the
/// cascade comes from the published builder, if pushes make the sheet. Both
/// number their states in the order of first entry, and have to agree.
pub struct Walked {
    matcher: Matcher,
    states: Vec<MatchState>,
    cascade: Option<(StyleCascade, Vec<MatchState>)>,
    /// A rule's number by its source index and order.
    numbers: BTreeMap<(usize, u32), u32>,
    /// A direct style's number by its source index.
    directs: BTreeMap<usize, usize>,
}

/// A state's number, which is new if it has not come before.
fn number_of(states: &mut Vec<MatchState>, state: MatchState) -> usize {
    let known = states.iter().position(|&known| known == state);
    known.unwrap_or_else(|| {
        states.push(state);
        states.len() - 1
    })
}

impl Walked {
    /// What build makes of a sheet.
    pub fn new(model: &Model) -> Self {
        let builder = model
            .rules
            .iter()
            .fold(MatcherBuilder::new(), |builder, rule| {
                builder.rule(selector_of(&rule.body), StyleBuilder::new().build())
            });
        let matcher = builder.build();
        let cascade = Published::replay(model).map(|mut published| published.built(model).plain);
        let number = |(number, rule): (u32, &Rule)| ((rule.source as usize, rule.order), number);
        let direct = |(number, direct): (usize, &Direct)| (direct.source as usize, number);
        Self {
            states: vec![matcher.root_state()],
            cascade: cascade.map(|cascade| {
                let root = cascade.root_state();
                (cascade, vec![root])
            }),
            numbers: (0..).zip(&model.rules).map(number).collect(),
            directs: (0..).zip(&model.directs).map(direct).collect(),
            matcher,
        }
    }

    /// The number of the state that an accepted entering gives.
    pub fn enter(&mut self, parent: usize, subject: &Subject) -> usize {
        let classes: Vec<ClassId> = subject.classes.iter().copied().map(ClassId).collect();
        let pseudos = subject.pseudos.iter().copied().map(PseudoClassId);
        let pseudos: Vec<PseudoClassId> = pseudos.collect();
        let inputs = SelectorInputs::with_part(
            subject.type_tag.map(TypeTag),
            subject.part_tag.map(PartTag),
            &classes,
            &pseudos,
        );
        let child = self.matcher.enter_subject(self.states[parent], &inputs);
        let number = number_of(&mut self.states, child);
        if let Some((cascade, states)) = &mut self.cascade {
            let child = cascade.enter_subject(states[parent], &inputs);
            assert_eq!(number_of(states, child), number, "matcher and cascade");
        }
        number
    }

    /// The rules that a state lists.
    pub fn matched(&self, state: usize) -> Vec<u32> {
        let rules = self.matcher.matching_rules(self.states[state]);
        let matched: Vec<u32> = rules.map(|rule| rule.order()).collect();
        if let Some((cascade, states)) = &self.cascade {
            let rules = cascade.matching_rules(states[state]);
            let place = |rule: &MatchRule| (rule.source_index(), rule.order());
            let numbers: Vec<u32> = rules.map(|rule| self.numbers[&place(rule)]).collect();
            assert_eq!(numbers, matched, "matcher and cascade");
        }
        matched
    }

    pub fn states(&self) -> usize {
        self.states.len()
    }

    /// The cascade, if pushes make the sheet.
    pub fn cascade(&self) -> Option<Cascade<'_>> {
        let (cascade, states) = self.cascade.as_ref()?;
        Some(Cascade {
            cascade,
            states,
            walked: self,
        })
    }
}

/// What the published cascade answers, under ranking 0.
pub struct Cascade<'a> {
    cascade: &'a StyleCascade,
    states: &'a [MatchState],
    walked: &'a Walked,
}

impl Cascade<'_> {
    /// Who wins a property in a state. The number of an expression of kind 2,
    /// which the published style does not keep, is the sheet's.
    pub fn won(&self, model: &Model, state: usize, id: u16) -> Option<Won> {
        let state = self.states[state];
        let source = self
            .cascade
            .winning_source_for_id(state, PropertyId::new(id));
        let kind = self.cascade.value_kind(state, property(id)).map(read_kind);
        let plain = self.cascade.get_entry_ref(state, property(id));
        let Some(source) = source else {
            assert!(kind.is_none() && plain.is_none(), "nobody's entry");
            return None;
        };
        let (holder, entries) = match source {
            StyleSourceRef::Direct { source_index, .. } => {
                let number = self.walked.directs[&source_index];
                (Holder::Direct(number), &model.directs[number].entries)
            }
            StyleSourceRef::Rule(rule) => {
                let number = self.walked.numbers[&(rule.source_index(), rule.order())] as usize;
                (Holder::Rule(number), &model.rules[number].body.entries)
            }
        };
        let (kind, number) = kind.expect("the winner's entry");
        let given = || entries.iter().find(|entry| entry.property == id);
        let number = number.or_else(|| given().map(|entry| entry.number));
        Some(Won {
            holder,
            source: source.source_index() as u32,
            kind: [kind, number.expect("the winner's entry")],
            plain: plain.map(|plain| match plain {
                StyleValueRef::Value(&number) => [0, number],
                StyleValueRef::Resource(ResourceKey(number)) => [1, number],
            }),
            resource: source.style().resource_key(property(id)).map(|key| key.0),
        })
    }

    /// The properties that changed, and the channels that they affect.
    pub fn changed(&self, old: usize, new: usize) -> Vec<u16> {
        let (old, new) = (self.states[old], self.states[new]);
        listed(&self.cascade.changed_properties(old, new))
    }

    pub fn channels(&self, old: usize, new: usize, masks: &[u32]) -> u32 {
        let (old, new) = (self.states[old], self.states[new]);
        self.cascade.changed_channels(&registry(masks), old, new).0
    }
}

/// Resource-dependent properties of any sheet: neither places nor selectors
/// matter, so the published builder is given every source one by one.
pub fn resource_dependent(model: &Model) -> Vec<u16> {
    let mut builder = StyleCascadeBuilder::new();
    for direct in &model.directs {
        builder = builder.push_style(origin_of(direct.origin), style_of(&direct.entries));
    }
    for rule in &model.rules {
        let (origin, body) = (origin_of(rule.origin), &rule.body);
        builder = builder.push_rule(origin, selector_of(body), style_of(&body.entries));
    }
    listed(&builder.build().resource_dependent_properties())
}

/// Refusal 1 as the published code has it, a panic, of a row whose counts
/// fit.
pub fn test_ascending(row: &Row) -> Result<(), Refusal> {
    let (classes, pseudos) = row[ROW_HEAD..].split_at(SUBJECT_IDS);
    let classes = classes[..row[4] as usize].iter().copied();
    let pseudos = pseudos[..row[5] as usize].iter().copied();
    let classes: Vec<ClassId> = classes.map(ClassId).collect();
    let pseudos: Vec<PseudoClassId> = pseudos.map(PseudoClassId).collect();
    let inputs = asked(|| {
        SelectorInputs::with_part(None, None, &classes, &pseudos)
            .classes
            .len()
    });
    inputs.map(|_| ()).ok_or(1)
}
