//! A table as plain lists, and what entering a subject makes of it: 01's
//! "States", worked out without the published code.

use crate::builds::model::{Refusal, Rule, Step, strictly_ascending};
use crate::paths::{ROW_HEAD, SUBJECT_IDS, SUBJECT_ROW};

/// Most states, whatever the room.
pub const STATES: usize = 512;
/// A cursor is one number: its rule times this, plus its step.
pub const CURSOR_STEPS: u32 = 8;

/// A subject as a call gives it.
pub type Row = [u32; SUBJECT_ROW];

/// What a subject is: of its row only what counts.
#[derive(Clone, Debug, Default, PartialEq, Eq)]
pub struct Subject {
    pub type_tag: Option<u32>,
    pub part_tag: Option<u32>,
    pub classes: Vec<u32>,
    pub pseudos: Vec<u32>,
}

impl Subject {
    /// The subject of a row, or refusal 2 or 1.
    pub fn given(row: &Row) -> Result<Self, Refusal> {
        let (classes, pseudos) = row[ROW_HEAD..].split_at(SUBJECT_IDS);
        let classes = classes.get(..row[4] as usize).ok_or(2u32)?;
        let pseudos = pseudos.get(..row[5] as usize).ok_or(2u32)?;
        if !strictly_ascending(classes) || !strictly_ascending(pseudos) {
            return Err(1);
        }
        Ok(Self {
            type_tag: (row[0] != 0).then_some(row[1]),
            part_tag: (row[2] != 0).then_some(row[3]),
            classes: classes.to_vec(),
            pseudos: pseudos.to_vec(),
        })
    }

    fn fits(&self, step: &Step) -> bool {
        let tag = |asked: Option<u32>, has: Option<u32>| asked.is_none() || asked == has;
        let ids = |asked: &[u32], has: &[u32]| asked.iter().all(|id| has.contains(id));
        tag(step.type_tag, self.type_tag)
            && tag(step.part_tag, self.part_tag)
            && ids(&step.classes, &self.classes)
            && ids(&step.pseudos, &self.pseudos)
    }
}

/// What makes a state: two states with these equal are equal.
#[derive(Clone, Debug, Default, PartialEq, Eq)]
pub struct Lists {
    pub cursors: Vec<u32>,
    pub matched: Vec<u32>,
}

#[derive(Clone, Debug, Default, PartialEq, Eq)]
pub struct State {
    pub lists: Lists,
    /// The link to its first transition.
    pub first: u32,
}

#[derive(Clone, Debug, PartialEq, Eq)]
pub struct Transition {
    pub parent: usize,
    pub child: usize,
    pub next: u32,
    pub subject: Subject,
}

#[derive(Clone, Debug, PartialEq, Eq)]
pub struct Table {
    pub stamp: u32,
    pub ranking: u32,
    pub states: Vec<State>,
    pub transitions: Vec<Transition>,
}

/// How much more a table may hold.
pub struct Left {
    pub states: usize,
    pub cursors: usize,
    pub matched: usize,
    pub transitions: usize,
}

/// Where the link to a new transition stands.
#[derive(Copy, Clone, Debug, PartialEq, Eq)]
pub enum Hook {
    State(usize),
    Transition(usize),
}

/// What an accepted entering gives and adds.
pub struct Entered {
    pub child: usize,
    pub new: Option<Lists>,
    pub kept: Option<Hook>,
}

/// The root: a cursor at step 0 of every rule with steps, and no matches.
pub fn root(rules: &[Rule]) -> Lists {
    let with_steps = (0..)
        .zip(rules)
        .filter(|(_, rule)| !rule.body.steps.is_empty());
    Lists {
        cursors: with_steps
            .map(|(number, _)| number * CURSOR_STEPS)
            .collect(),
        matched: Vec::new(),
    }
}

/// Whether a cursor stands at a step that there is.
pub fn cursor_exists(rules: &[Rule], cursor: u32) -> bool {
    let rule = rules.get((cursor / CURSOR_STEPS) as usize);
    rule.is_some_and(|rule| ((cursor % CURSOR_STEPS) as usize) < rule.body.steps.len())
}

fn sorted_and_unique(mut list: Vec<u32>) -> Vec<u32> {
    list.sort();
    list.dedup();
    list
}

impl Table {
    /// 4 if there is no such state.
    pub fn state(&self, number: u32, stamp: u32) -> Result<usize, Refusal> {
        let number = number as usize;
        if stamp != self.stamp || number >= self.states.len() {
            return Err(4);
        }
        Ok(number)
    }

    /// What entering a subject makes of the cursors of the parent and of the
    /// root.
    fn advance(&self, rules: &[Rule], parent: usize, subject: &Subject) -> Lists {
        let mut made = Lists::default();
        let tested = [parent, 0].map(|state| &self.states[state].lists.cursors);
        for &cursor in tested.into_iter().flatten() {
            let body = &rules[(cursor / CURSOR_STEPS) as usize].body;
            let step = (cursor % CURSOR_STEPS) as usize;
            if subject.fits(&body.steps[step]) {
                if step + 1 == body.steps.len() {
                    made.matched.push(cursor / CURSOR_STEPS);
                } else {
                    made.cursors.push(cursor + 1);
                }
            }
            // Kept, match or not, after a descendant combinator.
            if step > 0 && body.codes[step - 1] == 1 {
                made.cursors.push(cursor);
            }
        }
        Lists {
            cursors: sorted_and_unique(made.cursors),
            matched: sorted_and_unique(made.matched),
        }
    }

    /// The transition that a link leads to. 0 and links past the count lead
    /// to none.
    fn linked(&self, link: u32) -> Option<usize> {
        let number = (link as usize).checked_sub(1)?;
        (number < self.transitions.len()).then_some(number)
    }

    /// A state's transitions, link by link, at most as many as there are in
    /// all.
    fn chain(&self, state: usize) -> Vec<usize> {
        let mut chain = Vec::new();
        let mut link = self.states[state].first;
        while chain.len() < self.transitions.len()
            && let Some(number) = self.linked(link)
        {
            chain.push(number);
            link = self.transitions[number].next;
        }
        chain
    }

    /// What entering gives and adds, or refusal 5.
    pub fn enter(
        &self,
        rules: &[Rule],
        parent: usize,
        subject: &Subject,
        left: &Left,
    ) -> Result<Entered, Refusal> {
        let chain = self.chain(parent);
        let transitions = chain.iter().map(|&number| &self.transitions[number]);
        let mut own = transitions.filter(|transition| transition.parent == parent);
        if let Some(held) = own.find(|transition| transition.subject == *subject) {
            return Ok(Entered {
                child: held.child,
                new: None,
                kept: None,
            });
        }
        let lists = self.advance(rules, parent, subject);
        let held = self.states.iter().position(|state| state.lists == lists);
        if held.is_none() {
            let fits = left.states > 0
                && lists.cursors.len() <= left.cursors
                && lists.matched.len() <= left.matched;
            if !fits {
                return Err(5);
            }
        }
        let hook = match chain.last() {
            Some(&last) => Hook::Transition(last),
            None => Hook::State(parent),
        };
        Ok(Entered {
            child: held.unwrap_or(self.states.len()),
            new: held.is_none().then_some(lists),
            kept: (left.transitions > 0).then_some(hook),
        })
    }

    /// The table after an accepted entering.
    pub fn add(&mut self, parent: usize, subject: Subject, entered: &Entered) {
        if let Some(lists) = &entered.new {
            self.states.push(State {
                lists: lists.clone(),
                first: 0,
            });
        }
        if let Some(hook) = entered.kept {
            self.transitions.push(Transition {
                parent,
                child: entered.child,
                next: 0,
                subject,
            });
            let link = self.transitions.len() as u32;
            match hook {
                Hook::State(state) => self.states[state].first = link,
                Hook::Transition(transition) => self.transitions[transition].next = link,
            }
        }
    }
}
