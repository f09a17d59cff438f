//! The published cascade.

use understory_property::{Property, PropertyId};
use understory_style::matcher::{MatchState, StyleCascade, StyleCascadeBuilder, StyleSourceRef};
use understory_style::selector::{
    ClassId, PseudoClassId, Selector, SelectorCombinator, SelectorInputs, SelectorStep, TypeTag,
};
use understory_style::style::{Style, StyleBuilder};
use understory_style::stylesheet::StyleOrigin;

use crate::cases::{Call, Rule, Sources, Subject};
use crate::proved::{DIRECT, NOBODY};

/// A subject's ids as the published code lends them.
pub struct Lent {
    type_tag: Option<TypeTag>,
    classes: Vec<ClassId>,
    pseudos: Vec<PseudoClassId>,
}

impl Lent {
    pub fn new(subject: &Subject) -> Self {
        Self {
            type_tag: subject.type_tag.map(TypeTag),
            classes: subject.classes.iter().copied().map(ClassId).collect(),
            pseudos: subject.pseudos.iter().copied().map(PseudoClassId).collect(),
        }
    }

    #[inline(always)]
    pub fn inputs(&self) -> SelectorInputs<'_> {
        SelectorInputs::with_part(self.type_tag, None, &self.classes, &self.pseudos)
    }
}

fn selector_of(rule: &Rule) -> Selector {
    let steps = rule.steps.iter().map(|step| {
        let mut made = SelectorStep::default()
            .with_classes(step.classes.iter().copied().map(ClassId))
            .with_pseudos(step.pseudos.iter().copied().map(PseudoClassId));
        made.type_tag = step.type_tag.map(TypeTag);
        made
    });
    let codes = rule.codes.iter().map(|&code| match code {
        0 => SelectorCombinator::Child,
        _ => SelectorCombinator::Descendant,
    });
    Selector::from_steps_with_combinators(steps, codes)
}

fn style_of(properties: &[u16]) -> Style {
    let set = |style: StyleBuilder, &id: &u16| {
        let property = Property::<u32>::from_id(PropertyId::new(id));
        style.set(property, u32::from(id))
    };
    properties.iter().fold(StyleBuilder::new(), set).build()
}

/// A cascade, and its states in the order of first entry.
pub struct Walked {
    pub cascade: StyleCascade,
    pub states: Vec<MatchState>,
}

impl Walked {
    /// The direct styles come first, with origins 0 and 1 by turns; the rules
    /// are one group of origin 1, so that a rule's order is its number.
    pub fn new(sources: &Sources) -> Self {
        let mut builder = StyleCascadeBuilder::new();
        for (style, k) in sources.styles.iter().zip(0..) {
            builder = builder.push_style(StyleOrigin(k % 2), style_of(style));
        }
        let rules = sources.rules.iter();
        let rules = rules.map(|rule| (selector_of(rule), style_of(&rule.properties)));
        let cascade = builder.push_rules(StyleOrigin(1), rules).build();
        let states = vec![cascade.root_state()];
        Self { cascade, states }
    }

    pub fn enter(&mut self, parent: u32, lent: &Lent) -> u32 {
        let child = self.cascade.enter_subject(self.states[parent as usize], &lent.inputs());
        let known = self.states.iter().position(|&known| known == child);
        let number = known.unwrap_or_else(|| {
            self.states.push(child);
            self.states.len() - 1
        });
        number as u32
    }

    /// With no look at the answer but whether it is the next new state.
    #[inline(always)]
    pub fn enter_known(&mut self, call: &Call) {
        let parent = self.states[call.parent as usize];
        let child = self.cascade.enter_subject(parent, &call.lent.inputs());
        if call.child as usize == self.states.len() {
            self.states.push(child);
        }
    }

    /// The same calls on a new cascade.
    pub fn grown(sources: &Sources, calls: &[Call]) -> Self {
        let mut walked = Self::new(sources);
        for call in calls {
            walked.enter_known(call);
        }
        walked
    }

    pub fn matched(&self, state: u32) -> Vec<u32> {
        let rules = self.cascade.matching_rules(self.states[state as usize]);
        rules.map(|rule| rule.order()).collect()
    }

    /// The winner by the proved side's numbers.
    #[inline(always)]
    pub fn winner(&self, state: u32, property: u16) -> usize {
        let state = self.states[state as usize];
        match self.cascade.winning_source_for_id(state, PropertyId::new(property)) {
            None => NOBODY,
            Some(StyleSourceRef::Rule(rule)) => rule.order() as usize,
            Some(StyleSourceRef::Direct { source_index, .. }) => DIRECT + source_index,
        }
    }

    pub fn changed(&self, old: u32, new: u32) -> Vec<u16> {
        let set = self
            .cascade
            .changed_properties(self.states[old as usize], self.states[new as usize]);
        set.property_ids().iter().map(|id| id.index()).collect()
    }

    /// The ids that change, each one more, added up.
    #[inline(always)]
    pub fn changed_sum(&self, old: u32, new: u32) -> u64 {
        let set = self
            .cascade
            .changed_properties(self.states[old as usize], self.states[new as usize]);
        set.property_ids().iter().map(|id| u64::from(id.index()) + 1).sum()
    }
}
