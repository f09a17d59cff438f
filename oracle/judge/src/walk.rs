//! What the program `walk` has to print for a house-record file.
//!
//! States, matched rules, changes and winners come from the published
//! cascade. Document 01's refusals, its room for states, and its ranking 1
//! are not in the published code: they are worked out here.

use std::collections::BTreeMap;
use std::mem::{replace, take};

use understory_property::PropertyId;
use understory_style::matcher::{MatchState, StyleSourceRef};
use understory_style::selector::{
    ClassId, PartTag, PseudoClassId, SelectorCombinator, SelectorInputs, SelectorInputsOwned,
    TypeTag,
};

use crate::faults::Fault;
use crate::paths::level3_weight;
use crate::records::{Record, read};
use crate::sheet::{Sheet, SheetMaker, Taken};

/// What `walk` lends.
pub const STATES: usize = 512;
pub const CURSORS: usize = 4096;
pub const MATCHED: usize = 4096;
pub const CHANGED: usize = 4096;
/// Most classes of a subject, and most pseudos, as given.
pub const SUBJECT_IDS: usize = 16;

/// What is printed for an input.
pub fn walk(input: &[u8]) -> String {
    walked(input).text
}

/// What is printed for an input, and what was refused in it: the fault, and
/// the byte it is told at, which is the record's kind. There is no such byte
/// at the end of the input.
#[derive(Default)]
pub struct Walked {
    pub text: String,
    pub refused: Vec<(Fault, Option<u8>)>,
    /// Whether the sheet came to its end.
    pub whole: bool,
}

pub fn walked(input: &[u8]) -> Walked {
    let mut walked = Walked::default();
    let mut reader = Reader::default();
    let mut offset = 0;
    while let Some(&kind) = input.get(offset) {
        let piece = read(&input[offset..]);
        match piece.and_then(|(record, _)| reader.take(record)) {
            Ok(line) => {
                walked.text += &line;
                walked.whole = reader.walks();
            }
            Err(fault) => {
                walked.refuse(fault, Some(kind), offset);
                if fault.number() == 10 || !walked.whole {
                    return walked;
                }
            }
        }
        offset += piece.map_or(0, |(_, length)| length);
    }
    if !walked.whole {
        walked.refuse(Fault::NoEnd, None, offset);
    }
    walked
}

impl Walked {
    fn refuse(&mut self, fault: Fault, kind: Option<u8>, offset: usize) {
        self.text += &format!("refused {} at {offset}\n", fault.number());
        self.refused.push((fault, kind));
    }
}

/// A file read so far, record by record.
#[derive(Default)]
pub struct Reader(Phase);

#[derive(Default)]
enum Phase {
    #[default]
    First,
    Making(Box<SheetMaker>),
    Walking(Box<Walker>),
    /// A record of the sheet was refused: nothing is taken any more.
    Over,
}

impl Reader {
    /// The line for one record, mostly none, or its fault. The sheet's first
    /// fault is the last thing to be asked.
    pub fn take(&mut self, record: Record) -> Result<String, Fault> {
        self.0 = match replace(&mut self.0, Phase::Over) {
            Phase::First => Phase::Making(Box::new(SheetMaker::start(record)?)),
            Phase::Making(maker) => match maker.take(record)? {
                Taken::More(maker) => Phase::Making(maker),
                Taken::Whole(sheet) => Phase::Walking(Box::new(Walker::new(*sheet))),
            },
            Phase::Walking(mut walker) => {
                let line = walker.take(record);
                self.0 = Phase::Walking(walker);
                return line;
            }
            Phase::Over => panic!("nothing is taken after a refusal in the sheet"),
        };
        Ok(String::new())
    }

    /// Whether the sheet is whole: its end was taken.
    pub fn walks(&self) -> bool {
        matches!(self.0, Phase::Walking(_))
    }

    /// How many states there are.
    pub fn states(&self) -> usize {
        match &self.0 {
            Phase::Walking(walker) => walker.states.len(),
            _ => 0,
        }
    }
}

/// The items since the last enter.
#[derive(Default)]
struct Items {
    type_tag: Option<u32>,
    part_tag: Option<u32>,
    classes: Vec<u32>,
    pseudos: Vec<u32>,
}

/// A state's two lists: cursors as rule and step, and matched rules.
#[derive(PartialEq, Eq)]
struct Lists {
    cursors: Vec<(usize, usize)>,
    matched: Vec<usize>,
}

/// A source's key under either ranking: origin, weight, source index, order.
type Key = (u8, [usize; 4], usize, usize);

/// Where a winner stands.
#[derive(Copy, Clone, Debug, PartialEq, Eq)]
enum Winner {
    Direct(usize),
    Rule(usize),
}

/// The second half of a file: a finished sheet and the states made so far.
struct Walker {
    sheet: Sheet,
    rule_numbers: BTreeMap<(usize, usize), usize>,
    /// The published states, by 01's number.
    states: Vec<MatchState>,
    /// The same states' lists, which the published code does not show and
    /// whose lengths refusal 5 needs.
    lists: Vec<Lists>,
    items: Items,
}

impl Walker {
    fn new(sheet: Sheet) -> Self {
        let rules = sheet.rules.iter().enumerate();
        let rule_numbers = rules
            .clone()
            .map(|(number, rule)| ((rule.source, rule.order), number))
            .collect();
        let cursors = rules
            .filter(|(_, rule)| !rule.selector.is_empty())
            .map(|(number, _)| (number, 0))
            .collect();
        let root = Lists {
            cursors,
            matched: Vec::new(),
        };
        Self {
            rule_numbers,
            states: vec![sheet.cascade.root_state()],
            lists: vec![root],
            items: Items::default(),
            sheet,
        }
    }

    /// The line for one record, or its refusal.
    fn take(&mut self, record: Record) -> Result<String, Fault> {
        let line = match record {
            Record::Item { which, id } => {
                self.item(which, id)?;
                return Ok(String::new());
            }
            Record::Enter { parent } => {
                let number = self.enter(parent)?;
                let matched = &self.lists[number].matched;
                let list = listed(matched);
                format!("state {number} matched {}:{list}\n", matched.len())
            }
            Record::Changed { old, new } => {
                let changed = self.changed(old, new)?;
                format!("changed {}:{}\n", changed.len(), listed(&changed))
            }
            Record::Winner { state, property } => match self.winner(state, property)? {
                None => format!("winner {property}: none\n"),
                Some(Winner::Direct(source)) => format!("winner {property}: direct {source}\n"),
                Some(Winner::Rule(number)) => {
                    let source = self.sheet.rules[number].source;
                    format!("winner {property}: rule {number} source {source}\n")
                }
            },
            Record::Sheet { .. } => return Err(Fault::SheetAgain),
            // Kinds 2 to 8.
            _ => return Err(Fault::AfterEnd),
        };
        Ok(line)
    }

    /// An item that would be one too many is refused and dropped.
    fn item(&mut self, which: u8, id: u32) -> Result<(), Fault> {
        let (ids, over) = match which {
            0 => {
                self.items.type_tag = Some(id);
                return Ok(());
            }
            1 => {
                self.items.part_tag = Some(id);
                return Ok(());
            }
            2 => (&mut self.items.classes, Fault::Classes),
            3 => (&mut self.items.pseudos, Fault::Pseudos),
            _ => return Err(Fault::Which),
        };
        if ids.len() == SUBJECT_IDS {
            return Err(over);
        }
        ids.push(id);
        Ok(())
    }

    /// The published state of a number, or the fault. A record gives no
    /// stamp, so the number alone can be wrong.
    fn state(&self, number: u32, wrong: Fault) -> Result<MatchState, Fault> {
        self.states.get(number as usize).copied().ok_or(wrong)
    }

    fn enter(&mut self, parent: u32) -> Result<usize, Fault> {
        // Gone whether the enter is accepted or refused.
        let items = take(&mut self.items);
        let parent_state = self.state(parent, Fault::Parent)?;
        let subject = SelectorInputsOwned::with_part(
            items.type_tag.map(TypeTag),
            items.part_tag.map(PartTag),
            items.classes.into_iter().map(ClassId),
            items.pseudos.into_iter().map(PseudoClassId),
        );
        let inputs = subject.as_inputs();

        // The published code has room for every state. So whether 01's room
        // is enough is found first, and only an accepted enter reaches it.
        // A kept transition leads to a state that is held, and so is never
        // refused: whether one is kept needs no answer here.
        let lists = self.advance(parent as usize, &inputs);
        let held = self.lists.iter().position(|held| *held == lists);
        if held.is_none() {
            self.test_room(&lists)?;
        }

        let child = self.sheet.cascade.enter_subject(parent_state, &inputs);
        let known = self.states.iter().position(|&state| state == child);
        assert_eq!(
            known, held,
            "the published code and 01 agree on which states are equal"
        );
        let number = known.unwrap_or(self.states.len());
        let rules = self.sheet.cascade.matching_rules(child);
        let matched: Vec<_> = rules
            .map(|rule| self.number_of(rule.source_index(), rule.order()))
            .collect();
        assert_eq!(
            matched, lists.matched,
            "the published code and 01 agree on the rules that match"
        );
        if known.is_none() {
            self.states.push(child);
            self.lists.push(lists);
        }
        Ok(number)
    }

    fn number_of(&self, source: usize, order: u32) -> usize {
        self.rule_numbers[&(source, order as usize)]
    }

    fn test_room(&self, new: &Lists) -> Result<(), Fault> {
        let cursors: usize = self.lists.iter().map(|held| held.cursors.len()).sum();
        let matched: usize = self.lists.iter().map(|held| held.matched.len()).sum();
        if self.lists.len() == STATES {
            Err(Fault::StateRoom)
        } else if cursors + new.cursors.len() > CURSORS {
            Err(Fault::CursorRoom)
        } else if matched + new.matched.len() > MATCHED {
            Err(Fault::MatchedRoom)
        } else {
            Ok(())
        }
    }

    /// 01's "States": what entering a subject makes of a parent and the root.
    fn advance(&self, parent: usize, inputs: &SelectorInputs<'_>) -> Lists {
        let mut cursors = Vec::new();
        let mut matched = Vec::new();
        let tested = self.lists[parent]
            .cursors
            .iter()
            .chain(&self.lists[0].cursors);
        for &(rule, step) in tested {
            let selector = &self.sheet.rules[rule].selector;
            if selector.steps()[step].matches(inputs) {
                if step + 1 == selector.len() {
                    matched.push(rule);
                } else {
                    cursors.push((rule, step + 1));
                }
            }
            if selector.combinator_before(step) == Some(SelectorCombinator::Descendant) {
                cursors.push((rule, step));
            }
        }
        cursors.sort();
        cursors.dedup();
        matched.sort();
        matched.dedup();
        Lists { cursors, matched }
    }

    fn changed(&self, old: u32, new: u32) -> Result<Vec<u16>, Fault> {
        let old_state = self.state(old, Fault::Old)?;
        let new_state = self.state(new, Fault::New)?;
        let (before, after) = (self.winners(old), self.winners(new));
        let mut changed: Vec<u16> = before
            .keys()
            .chain(after.keys())
            .copied()
            .filter(|property| {
                let key = |winners: &Winners| winners.get(property).map(|&(key, _)| key);
                key(&before) != key(&after)
            })
            .collect();
        changed.sort();
        changed.dedup();
        if self.sheet.ranking == 0 {
            let published = self.sheet.cascade.changed_properties(old_state, new_state);
            let published = published.property_ids().iter();
            let published: Vec<u16> = published.map(|property| property.index()).collect();
            assert_eq!(
                published, changed,
                "the published code and 01 agree on the changed properties"
            );
        }
        if changed.len() > CHANGED {
            return Err(Fault::ChangedRoom);
        }
        Ok(changed)
    }

    fn winner(&self, state: u32, property: u16) -> Result<Option<Winner>, Fault> {
        let published_state = self.state(state, Fault::Asked)?;
        let winners = self.winners(state);
        let winner = winners.get(&property).map(|&(_, winner)| winner);
        if self.sheet.ranking == 0 {
            let id = PropertyId::new(property);
            let source = self
                .sheet
                .cascade
                .winning_source_for_id(published_state, id);
            let published = source.map(|source| match source {
                StyleSourceRef::Direct { source_index, .. } => Winner::Direct(source_index),
                StyleSourceRef::Rule(rule) => {
                    Winner::Rule(self.number_of(rule.source_index(), rule.order()))
                }
            });
            assert_eq!(
                published, winner,
                "the published code and 01 agree on the winner"
            );
        }
        Ok(winner)
    }

    /// Each property's greatest key in a state, and whose it is.
    ///
    /// For ranking 1, Level 3's weight, which the published code lacks, this
    /// is the answer. For ranking 0 the published code answers, and has to
    /// agree: so the code that decides ranking 1 is tested at every turn.
    fn winners(&self, state: u32) -> Winners {
        let mut winners = Winners::new();
        let mut offer = |properties: &[u16], key: Key, winner: Winner| {
            for &property in properties {
                let best = winners.entry(property).or_insert((key, winner));
                if key > best.0 {
                    *best = (key, winner);
                }
            }
        };
        for direct in &self.sheet.directs {
            let key = (direct.origin, [0; 4], direct.source, 0);
            offer(&direct.properties, key, Winner::Direct(direct.source));
        }
        for &number in &self.lists[state as usize].matched {
            let rule = &self.sheet.rules[number];
            let key = (rule.origin, self.weight(number), rule.source, rule.order);
            offer(&rule.properties, key, Winner::Rule(number));
        }
        winners
    }

    /// A rule's weight under the sheet's ranking; places not in use are 0.
    fn weight(&self, number: usize) -> [usize; 4] {
        let selector = &self.sheet.rules[number].selector;
        if self.sheet.ranking == 1 {
            let (b, c) = level3_weight(selector);
            return [b, c, 0, 0];
        }
        let weight = selector.specificity();
        [weight.0, weight.1, weight.2, weight.3].map(|part| part as usize)
    }
}

type Winners = BTreeMap<u16, (Key, Winner)>;

/// A list as it is printed: each number after a space.
fn listed<T: ToString>(numbers: &[T]) -> String {
    numbers
        .iter()
        .map(|number| format!(" {}", number.to_string()))
        .collect()
}
