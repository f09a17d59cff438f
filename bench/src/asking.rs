//! Winners and changes of a table that stands still.

use std::hint::black_box;

use crate::cases::{OF_NOBODY, OF_RULE, OF_STYLE, Random};
use crate::clock::{self, Times, timed};
use crate::entering::Bench;
use crate::proved::{CHANGES, Table};
use crate::published::Walked;
use crate::rows::{CORE, PUBLIC, Part, RUST, Row, SIDES};

/// A question and what both sides answer, as one number.
struct Asked<Q> {
    question: Q,
    answer: u64,
}

type Winner = (u32, u16);
type Change = (u32, u32);

/// The public call reads the whole table each time, so it is only asked
/// every so many'th question.
const FEWER: usize = 16;

/// The answers added up, over every so many'th question.
fn block<Q: Copy>(asked: &[Asked<Q>], step: usize, rounds: usize, mut ask: impl FnMut(Q) -> u64) -> (f64, u64) {
    let mut sum = 0u64;
    let time = timed(rounds * asked.len().div_ceil(step), || {
        for _ in 0..rounds {
            for each in asked.iter().step_by(step) {
                sum = sum.wrapping_add(ask(black_box(each.question)));
            }
        }
    });
    (time, sum)
}

fn step_of(side: usize, questions: usize) -> usize {
    if side == PUBLIC && questions >= 4 * FEWER {
        FEWER
    } else {
        1
    }
}

/// What the four sides answer.
trait Sides: Copy {
    const PART: Part;
    fn public(self, bench: &Bench, table: &Table, out: &mut [u16; CHANGES]) -> u64;
    fn core(self, bench: &Bench, table: &Table, out: &mut [u16; CHANGES]) -> u64;
    fn rust(self, walked: &Walked) -> u64;
}

impl Sides for Winner {
    const PART: Part = Part::Winners;

    #[inline(always)]
    fn public(self, bench: &Bench, table: &Table, _: &mut [u16; CHANGES]) -> u64 {
        table.winner(&bench.sheet, self.0, self.1) as u64
    }

    #[inline(always)]
    fn core(self, bench: &Bench, table: &Table, _: &mut [u16; CHANGES]) -> u64 {
        // whoever measures has tested the table, and asks for its own states
        unsafe { table.held_winner(&bench.sheet, self.0, self.1) as u64 }
    }

    #[inline(always)]
    fn rust(self, walked: &Walked) -> u64 {
        walked.winner(self.0, self.1) as u64
    }
}

/// The ids, each one more, added up.
#[inline(always)]
pub fn added(ids: &[u16]) -> u64 {
    ids.iter().map(|&id| u64::from(id) + 1).sum()
}

impl Sides for Change {
    const PART: Part = Part::Changes;

    #[inline(always)]
    fn public(self, bench: &Bench, table: &Table, out: &mut [u16; CHANGES]) -> u64 {
        let n = table.changed(&bench.sheet, self.0, self.1, out);
        added(&out[..n])
    }

    #[inline(always)]
    fn core(self, bench: &Bench, table: &Table, out: &mut [u16; CHANGES]) -> u64 {
        // as above
        let n = unsafe { table.held_changed(&bench.sheet, self.0, self.1, out) };
        added(&out[..n])
    }

    #[inline(always)]
    fn rust(self, walked: &Walked) -> u64 {
        walked.changed_sum(self.0, self.1)
    }
}

impl Bench<'_> {
    fn states(&self) -> u32 {
        self.grown.counts()[0] as u32
    }

    /// The answers of both sides are compared here, before the clock starts.
    fn winners_asked(&self, walked: &Walked, questions: Vec<Winner>) -> Vec<Asked<Winner>> {
        assert!(self.grown.is_table(&self.sheet), "what the core requires");
        let ask = |(state, property): Winner| {
            let answer = walked.winner(state, property);
            let name = &self.case.name;
            assert_eq!(
                self.grown.winner(&self.sheet, state, property),
                answer,
                "{name}: winner"
            );
            let core = unsafe { self.grown.held_winner(&self.sheet, state, property) };
            assert_eq!(core, answer, "{name}: winner, core");
            Asked {
                question: (state, property),
                answer: answer as u64,
            }
        };
        questions.into_iter().map(ask).collect()
    }

    fn changes_asked(&self, walked: &Walked, questions: Vec<Change>) -> Vec<Asked<Change>> {
        assert!(self.grown.is_table(&self.sheet), "what the core requires");
        let mut out = [0; CHANGES];
        let mut ask = |(old, new): Change| {
            let answer = walked.changed(old, new);
            let name = &self.case.name;
            let n = self.grown.changed(&self.sheet, old, new, &mut out);
            assert_eq!(out[..n], answer, "{name}: changes");
            let n = unsafe { self.grown.held_changed(&self.sheet, old, new, &mut out) };
            assert_eq!(out[..n], answer, "{name}: changes, core");
            Asked {
                question: (old, new),
                answer: added(&answer),
            }
        };
        questions.into_iter().map(&mut ask).collect()
    }

    /// Four properties for every state: in many sources, in one that the
    /// state lists, in none.
    fn questions(&self, walked: &Walked) -> [Vec<Winner>; 3] {
        let all = |of: &dyn Fn(u32, u16) -> u16| {
            let four = |state| (0..4).map(move |k| (state, k));
            let each = (0..self.states()).flat_map(four);
            each.map(|(state, k)| (state, of(state, k))).collect()
        };
        let own = |state: u32, k: u16| {
            let rules = walked.matched(state);
            match rules.len() {
                0 => OF_STYLE + k % self.case.sources.styles.len() as u16,
                n => OF_RULE + rules[usize::from(k) * n / 4] as u16,
            }
        };
        [all(&|_, k| k), all(&own), all(&|_, k| OF_NOBODY + k)]
    }

    pub fn winners(&self, rows: &mut Vec<Row>) {
        let walked = self.walked();
        let mut every = vec![];
        let names = ["in many sources", "in one", "in none"];
        for (what, questions) in names.iter().zip(self.questions(&walked)) {
            let asked = self.winners_asked(&walked, questions);
            rows.push(self.warm(what, &asked));
            every.extend(asked);
        }
        rows.push(self.cold("all three, fresh", &every));
    }

    /// Parent and child, siblings, and states far apart.
    fn pairs(&self) -> [Vec<Change>; 3] {
        let (mut down, mut beside, mut apart) = (vec![], vec![], vec![]);
        let mut last = vec![None; self.states() as usize];
        for call in &self.case.grow {
            down.push((call.parent, call.child));
            if let Some(before) = last[call.parent as usize].replace(call.child) {
                beside.push((before, call.child));
            }
        }
        let mut r = Random(0x2545_F491_4F6C_DD1D);
        for _ in 0..256 {
            apart.push((r.below(self.states()), r.below(self.states())));
        }
        let different = |mut pairs: Vec<Change>| {
            pairs.retain(|(old, new)| old != new);
            pairs.sort();
            pairs.dedup();
            // mixed, so that a side's cache is not asked for one state alone
            let mut r = Random(88_172_645_463_325_252);
            for k in (1..pairs.len()).rev() {
                pairs.swap(k, r.below(k as u32 + 1) as usize);
            }
            pairs.truncate(256);
            pairs
        };
        [down, beside, apart].map(different)
    }

    pub fn changes(&self, rows: &mut Vec<Row>) {
        let walked = self.walked();
        let names = ["parent and child", "siblings", "far apart"];
        for (what, pairs) in names.iter().zip(self.pairs()) {
            let asked = self.changes_asked(&walked, pairs);
            rows.push(self.warm(&format!("{what}, warm"), &asked));
            rows.push(self.cold(&format!("{what}, fresh"), &asked));
        }
    }

    /// The same questions again and again.
    fn warm<Q: Sides>(&self, what: &str, asked: &[Asked<Q>]) -> Row {
        let table = self.table();
        assert!(table.is_table(&self.sheet), "what the core requires");
        let walked = [0, 1].map(|_| self.walked());
        let mut times = Times::new(SIDES);
        let mut out = [0; CHANGES];
        let mut run = |side: usize, rounds: usize| {
            let step = step_of(side, asked.len());
            let (time, sum) = match side {
                PUBLIC => block(asked, step, rounds, |q| q.public(self, &table, &mut out)),
                CORE => block(asked, step, rounds, |q| q.core(self, &table, &mut out)),
                _ => block(asked, step, rounds, |q| q.rust(&walked[side - RUST])),
            };
            let answers: u64 = asked.iter().step_by(step).map(|each| each.answer).sum();
            assert_eq!(sum, answers.wrapping_mul(rounds as u64), "answers");
            time
        };
        let questions = |side| asked.len().div_ceil(step_of(side, asked.len())) as f64;
        let rounds = clock::rounds(|side| run(side, 1) * questions(side));
        for rep in 0..=self.reps {
            for side in clock::turn(SIDES) {
                times.add(rep, side, run(side, rounds[side]));
            }
        }
        self.row(Q::PART, what, &times)
    }

    /// Once on a cascade, or a table, that has just been made; on several of
    /// them where the questions are few.
    fn cold<Q: Sides>(&self, what: &str, asked: &[Asked<Q>]) -> Row {
        let copies = 128usize.div_ceil(asked.len());
        let mut times = Times::new(SIDES);
        let mut out = [0; CHANGES];
        let mut tables: Vec<Table> = (0..copies).map(|_| self.table()).collect();
        for rep in 0..=self.reps {
            for side in clock::turn(SIDES) {
                let step = step_of(side, asked.len());
                let mut sum = 0u64;
                let mut all = |ask: &mut dyn FnMut(Q) -> u64| {
                    // one block a copy would time the clock where the questions are few
                    for each in asked.iter().step_by(step) {
                        sum = sum.wrapping_add(ask(black_box(each.question)));
                    }
                };
                let calls = copies * asked.len().div_ceil(step);
                let time = if side < RUST {
                    for table in &mut tables {
                        table.restore(&self.grown);
                        assert!(table.is_table(&self.sheet), "what the core requires");
                    }
                    timed(calls, || {
                        for table in &tables {
                            match side {
                                PUBLIC => all(&mut |q| q.public(self, table, &mut out)),
                                _ => all(&mut |q| q.core(self, table, &mut out)),
                            }
                        }
                    })
                } else {
                    let walked: Vec<Walked> = (0..copies).map(|_| self.walked()).collect();
                    timed(calls, || {
                        for walked in &walked {
                            all(&mut |q| q.rust(walked));
                        }
                    })
                };
                let answers: u64 = asked.iter().step_by(step).map(|each| each.answer).sum();
                assert_eq!(sum, answers.wrapping_mul(copies as u64), "answers");
                times.add(rep, side, time);
            }
        }
        self.row(Q::PART, what, &times)
    }
}
