//! Sheets, the calls that grow a table, and the calls that are measured.

use std::collections::HashSet;

use crate::published::{Lent, Walked};

/// A subject, or a step.
#[derive(Clone, Default, PartialEq, Eq, Hash)]
pub struct Subject {
    pub type_tag: Option<u32>,
    pub classes: Vec<u32>,
    pub pseudos: Vec<u32>,
}

/// A rule, and the properties of its style.
pub struct Rule {
    pub steps: Vec<Subject>,
    pub codes: Vec<u32>,
    pub properties: Vec<u16>,
}

/// Direct styles, each by its properties, and one group of rules.
pub struct Sources {
    pub styles: Vec<Vec<u16>>,
    pub rules: Vec<Rule>,
}

/// Properties below this are in many sources; from here on each rule has one
/// of its own, and so has each direct style.
pub const OF_RULE: u16 = 1000;
pub const OF_STYLE: u16 = 2000;
/// No source has these.
pub const OF_NOBODY: u16 = 60_000;

/// Direct styles, and sources of so many entries: one that no other has, the
/// others out of the first `common` properties.
fn dressed(mut rules: Vec<Rule>, styles: usize, entries: usize, common: u32) -> Sources {
    let mut r = Random(0x9E37_79B9_7F4A_7C15);
    let mut properties = |own: u16| {
        let ids = r.ids(entries - 1, common);
        let mut ids: Vec<u16> = ids.into_iter().map(|id| id as u16).collect();
        ids.push(own);
        ids
    };
    let styles = (0..styles).map(|k| properties(OF_STYLE + k as u16)).collect();
    for (rule, k) in rules.iter_mut().zip(0..) {
        rule.properties = properties(OF_RULE + k);
    }
    Sources { styles, rules }
}

/// An entering, and the number of the state that it gives.
pub struct Call {
    pub parent: u32,
    pub row: [u32; 38],
    pub lent: Lent,
    pub child: u32,
}

impl Call {
    pub fn new(parent: u32, subject: &Subject, child: u32) -> Self {
        Self {
            parent,
            row: subject.row38(),
            lent: Lent::new(subject),
            child,
        }
    }
}

pub struct Case {
    pub name: String,
    pub sources: Sources,
    pub grow: Vec<Call>,
    /// Enterings that are cached; not cached, with the state held; not
    /// cached, with a new state.
    pub cached: Vec<Call>,
    pub held: Vec<Call>,
    pub new: Vec<Call>,
    /// Of a walk, the state of each element's previous sibling.
    pub before: Vec<Option<u32>>,
}

pub struct Random(pub u64);

impl Random {
    pub fn below(&mut self, n: u32) -> u32 {
        self.0 ^= self.0 << 13;
        self.0 ^= self.0 >> 7;
        self.0 ^= self.0 << 17;
        ((self.0.wrapping_mul(0x2545_F491_4F6C_DD1D) >> 33) % u64::from(n)) as u32
    }

    /// So many different numbers, ascending.
    fn ids(&mut self, count: usize, below: u32) -> Vec<u32> {
        let mut ids = vec![];
        while ids.len() < count {
            let id = self.below(below);
            if let Err(at) = ids.binary_search(&id) {
                ids.insert(at, id);
            }
        }
        ids
    }
}

pub fn small(_: &mut Random) -> Sources {
    let tag = |t, c: &[u32]| Subject {
        type_tag: Some(t),
        classes: c.to_vec(),
        pseudos: vec![],
    };
    let rule = |steps, code| Rule {
        steps,
        codes: vec![code],
        properties: vec![],
    };
    let rules = vec![
        rule(vec![tag(1, &[]), tag(2, &[1])], 1),
        rule(vec![tag(3, &[]), tag(2, &[])], 0),
    ];
    dressed(rules, 1, 4, 8)
}

pub fn small_subject(r: &mut Random) -> Subject {
    let (n, t) = (r.below(3) as usize, r.below(6));
    Subject {
        type_tag: Some(t),
        classes: r.ids(n, 40),
        pseudos: vec![],
    }
}

pub fn middle(r: &mut Random) -> Sources {
    let step = |r: &mut Random| Subject {
        type_tag: (r.below(3) == 0).then(|| r.below(6)),
        classes: r.ids(1, 24),
        pseudos: vec![],
    };
    let rule = |k: u32| Rule {
        steps: vec![step(r), step(r)],
        codes: vec![k % 2],
        properties: vec![],
    };
    dressed((0..40).map(rule).collect(), 2, 6, 20)
}

pub fn middle_subject(r: &mut Random) -> Subject {
    let (n, t) = (r.below(4) as usize, r.below(6));
    Subject {
        type_tag: Some(t),
        classes: r.ids(n, 30),
        pseudos: vec![],
    }
}

/// As in a book: a type, a class, or a class somewhere within a type; an
/// element has several of them.
pub fn book(r: &mut Random) -> Sources {
    let of_type = |r: &mut Random| Subject {
        type_tag: Some(r.below(8)),
        ..Subject::default()
    };
    let rule = |k: u32| {
        let (types, classes) = (of_type(r), class(&r.ids(1, 12)));
        let steps = match k % 3 {
            0 => vec![types],
            1 => vec![classes],
            _ => vec![types, classes],
        };
        let codes = vec![1; steps.len() - 1];
        Rule {
            steps,
            codes,
            properties: vec![],
        }
    };
    dressed((0..48).map(rule).collect(), 2, 6, 20)
}

pub fn book_subject(r: &mut Random) -> Subject {
    let (n, t) = (1 + r.below(3) as usize, r.below(8));
    Subject {
        type_tag: Some(t),
        classes: r.ids(n, 12),
        pseudos: vec![],
    }
}

/// 1 to 8 steps of one or two classes, every third with a pseudo-class.
pub fn large(r: &mut Random) -> Sources {
    let step = |r: &mut Random| {
        let (n, p) = (1 + r.below(2) as usize, (r.below(3) == 0) as usize);
        Subject {
            type_tag: None,
            classes: r.ids(n, 48),
            pseudos: r.ids(p, 24),
        }
    };
    let mut rule = |k: u32| {
        let steps: Vec<_> = (0..=k % 8).map(|_| step(r)).collect();
        let codes = steps[1..].iter().map(|_| r.below(2)).collect();
        Rule {
            steps,
            codes,
            properties: vec![],
        }
    };
    // 3,960 of the 4,096 entries that a sheet may have
    dressed((0..256).map(&mut rule).collect(), 8, 15, 56)
}

pub fn large_subject(r: &mut Random) -> Subject {
    Subject {
        type_tag: Some(r.below(6)),
        classes: r.ids(16, 48),
        pseudos: r.ids(16, 24),
    }
}

type Draw = fn(&mut Random) -> Subject;

/// Random subjects under random states; every other one is an earlier one
/// with a type that no rule asks for.
struct Drawing {
    random: Random,
    draw: Draw,
    made: Vec<(u32, Subject)>,
    seen: HashSet<(u32, Subject)>,
}

impl Drawing {
    /// One that is not cached, under one of the first so many states.
    fn next(&mut self, states: u32) -> (u32, Subject) {
        loop {
            let r = &mut self.random;
            let pair = if !self.made.is_empty() && r.below(2) == 0 {
                let (parent, mut subject) = self.made[r.below(self.made.len() as u32) as usize].clone();
                subject.type_tag = Some(100 + r.below(1000));
                (parent, subject)
            } else {
                (r.below(states), (self.draw)(r))
            };
            if !self.seen.contains(&pair) {
                return pair;
            }
        }
    }
}

/// A table of so many states and at least so many transitions, as far as they
/// are to be had.
pub fn drawn(name: &str, sources: fn(&mut Random) -> Sources, draw: Draw, states: u32, transitions: usize) -> Case {
    let mut random = Random(88_172_645_463_325_252);
    let sources = sources(&mut random);
    let mut case = Case {
        name: name.into(),
        sources,
        grow: vec![],
        cached: vec![],
        held: vec![],
        new: vec![],
        before: vec![],
    };
    let mut drawing = Drawing {
        random,
        draw,
        made: vec![],
        seen: HashSet::new(),
    };
    let mut walked = Walked::new(&case.sources);
    let mut full = 1;
    for _ in 0..20_000 {
        if full >= states && case.grow.len() >= transitions {
            break;
        }
        let (parent, subject) = drawing.next(full);
        let child = walked.enter(parent, &Lent::new(&subject));
        if child >= states || (child < full && case.grow.len() >= transitions) {
            continue;
        }
        full = full.max(child + 1);
        case.grow.push(Call::new(parent, &subject, child));
        case.cached.push(Call::new(parent, &subject, child));
        drawing.seen.insert((parent, subject.clone()));
        drawing.made.push((parent, subject));
    }
    // the table's own numbers: the walk above may have passed states by
    let mut walked = Walked::new(&case.sources);
    for call in &case.grow {
        assert_eq!(walked.enter(call.parent, &call.lent), call.child);
    }
    for k in (1..case.cached.len()).rev() {
        case.cached.swap(k, drawing.random.below(k as u32 + 1) as usize);
    }
    case.cached.truncate(256);
    for _ in 0..20_000 {
        if case.held.len() == 32 && case.new.len() == 32 {
            break;
        }
        let (parent, subject) = drawing.next(full);
        let before = walked.states.len() as u32;
        let child = walked.enter(parent, &Lent::new(&subject));
        if child < full && case.held.len() < 32 {
            case.held.push(Call::new(parent, &subject, child));
        } else if child == before && case.new.len() < 32 {
            // with the new ones alone, this is its number
            let number = full + case.new.len() as u32;
            case.new.push(Call::new(parent, &subject, number));
        }
        drawing.seen.insert((parent, subject));
    }
    case
}

/// A walk through a tree of elements at most 6 deep, each one of a few
/// subjects, from an empty table on: cached or not, as they come.
pub fn walk(name: &str, sources: fn(&mut Random) -> Sources, draw: Draw, subjects: u32, elements: usize) -> Case {
    let mut r = Random(88_172_645_463_325_252);
    let sources = sources(&mut r);
    let subjects: Vec<Subject> = (0..subjects).map(|_| draw(&mut r)).collect();
    let mut walked = Walked::new(&sources);
    // each element on the path, and the last one under it
    let (mut path, mut calls) = (vec![(0, None)], vec![]);
    let mut before = vec![];
    while calls.len() < elements {
        path.truncate(1 + r.below(path.len() as u32) as usize);
        let last = path.len() - 1;
        let parent = path[last].0;
        let subject = &subjects[r.below(subjects.len() as u32) as usize];
        let child = walked.enter(parent, &Lent::new(subject));
        calls.push(Call::new(parent, subject, child));
        before.push(path[last].1.replace(child));
        if path.len() < 6 {
            path.push((child, None));
        }
    }
    Case {
        name: name.into(),
        sources,
        grow: vec![],
        cached: vec![],
        held: calls,
        new: vec![],
        before,
    }
}

fn class(ids: &[u32]) -> Subject {
    Subject {
        type_tag: None,
        classes: ids.to_vec(),
        pseudos: vec![],
    }
}

/// Rules `.first .99` that a descendant combinator holds.
fn waiting(first: impl Iterator<Item = u32>) -> Sources {
    let rule = |c| Rule {
        steps: vec![class(&[c]), class(&[99])],
        codes: vec![1],
        properties: vec![],
    };
    dressed(first.map(rule).collect(), 0, 1, 1)
}

/// Under the root with so many cursors, a subject that nothing matches.
pub fn cursors(count: u32) -> Case {
    let call = |k: u32, child| Call::new(0, &class(&[1000 + k]), child);
    Case {
        name: format!("root cursors: {count}"),
        sources: waiting((0..count).map(|_| 1)),
        grow: vec![call(0, 1)],
        cached: vec![],
        held: (1..9).map(|k| call(k, 1)).collect(),
        new: vec![],
        before: vec![],
    }
}

/// So many transitions of the root; looked up is the last.
pub fn chain(count: u32) -> Case {
    let call = |k: u32| Call::new(0, &class(&[1000 + k]), 1);
    Case {
        name: format!("transitions of the parent: {count}"),
        sources: waiting([1].into_iter()),
        grow: (0..count).map(call).collect(),
        cached: vec![call(count - 1)],
        held: vec![],
        new: vec![],
        before: vec![],
    }
}

/// So many states, each with a list of its own after `prefix` cursors that
/// all have; the last state is found again under itself.
pub fn search(count: u32, prefix: u32) -> Case {
    let sources = waiting((0..prefix).map(|_| 20).chain(0..10));
    let subject = |k: u32| {
        let mut ids: Vec<u32> = (0..10).filter(|b| k >> b & 1 == 1).collect();
        ids.push(20);
        class(&ids)
    };
    let grow = (1..count).map(|k| Call::new(0, &subject(k), k)).collect();
    let held = (0..8)
        .map(|k| Call::new(count - 1, &class(&[1000 + k]), count - 1))
        .collect();
    Case {
        name: format!("states: {count}, common: {prefix}"),
        sources,
        grow,
        cached: vec![],
        held,
        new: vec![],
        before: vec![],
    }
}
