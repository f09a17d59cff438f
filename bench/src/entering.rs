//! Entering, matched lists, and the shape test.

use std::hint::black_box;

use crate::cases::{Call, Case};
use crate::clock::{self, Times, timed};
use crate::proved::{Sheet, Table};
use crate::published::Walked;
use crate::rows::{CORE, PUBLIC, Part, RUST, Row, SIDES, Shape, grouped};

pub struct Bench<'a> {
    pub case: &'a Case,
    pub sheet: Sheet,
    pub grown: Table,
    pub reps: usize,
    /// The time of the shape test.
    pub test: f64,
}

impl<'a> Bench<'a> {
    pub fn new(case: &'a Case, reps: usize) -> Self {
        let sheet = Sheet::new(&case.sources);
        let mut grown = Table::new(&sheet);
        for call in &case.grow {
            assert_eq!(
                grown.enter(&sheet, call.parent, &call.row),
                call.child,
                "{}: growing",
                case.name
            );
        }
        Self {
            case,
            sheet,
            grown,
            reps,
            test: 0.0,
        }
    }

    pub fn table(&self) -> Table {
        let mut table = Table::new(&self.sheet);
        table.restore(&self.grown);
        table
    }

    pub fn walked(&self) -> Walked {
        Walked::grown(&self.case.sources, &self.case.grow)
    }

    pub fn row(&self, part: Part, what: &str, times: &Times) -> Row {
        let test = (self.test > 0.0).then_some(self.test);
        Row::new(part, &self.case.name, what, times, test)
    }

    /// Both sides' children and matched lists, call by call; the core's too.
    fn agree(&self, calls: &[Call]) {
        let mut walked = self.walked();
        let (mut public, mut core) = (self.table(), self.table());
        let mut out = [0; 256];
        for call in calls {
            let name = &self.case.name;
            assert_eq!(walked.enter(call.parent, &call.lent), call.child, "{name}: published");
            assert_eq!(
                public.enter(&self.sheet, call.parent, &call.row),
                call.child,
                "{name}: proved"
            );
            assert!(core.is_table(&self.sheet), "what the core requires");
            // the rows of cases keep to their sizes and ascend: the public call has just accepted this one
            assert_eq!(
                unsafe { core.held_enter(&self.sheet, call.parent, &call.row) },
                call.child,
                "{name}: core"
            );
            let n = public.matching(&self.sheet, call.child, &mut out);
            assert_eq!(out[..n], walked.matched(call.child), "{name}: matched");
            let n = core.held_matching(call.child, &mut out);
            assert_eq!(out[..n], walked.matched(call.child), "{name}: matched, core");
        }
    }

    /// Cached calls change nothing, so they are repeated on one table.
    pub fn cached(&self, part: Part, what: &str) -> Option<Row> {
        let calls = &self.case.cached;
        if calls.is_empty() {
            return None;
        }
        self.agree(calls);
        let mut table = self.table();
        let walked = [0, 1].map(|_| self.walked());
        let mut times = Times::new(SIDES);
        let rounds = clock::rounds(|side| self.round(side, calls, 1, &mut table, &walked) * calls.len() as f64);
        for rep in 0..=self.reps {
            for side in clock::turn(SIDES) {
                let time = self.round(side, calls, rounds[side], &mut table, &walked);
                times.add(rep, side, time);
            }
        }
        Some(self.row(part, what, &times))
    }

    fn round(&self, side: usize, calls: &[Call], rounds: usize, table: &mut Table, walked: &[Walked; 2]) -> f64 {
        let sheet = &self.sheet;
        assert!(table.is_table(sheet));
        let mut sum = 0u64;
        let time = match side {
            PUBLIC => timed(rounds * calls.len(), || {
                for _ in 0..rounds {
                    for call in calls {
                        sum += u64::from(table.enter(sheet, call.parent, black_box(&call.row)));
                    }
                }
            }),
            CORE => timed(rounds * calls.len(), || {
                for _ in 0..rounds {
                    for call in calls {
                        sum += u64::from(unsafe { table.held_enter(sheet, call.parent, black_box(&call.row)) });
                    }
                }
            }),
            _ => {
                let Walked { cascade, states } = &walked[side - RUST];
                timed(rounds * calls.len(), || {
                    for _ in 0..rounds {
                        for call in calls {
                            let inputs = black_box(&call.lent).inputs();
                            black_box(cascade.enter_subject(states[call.parent as usize], &inputs));
                        }
                    }
                })
            }
        };
        if side < RUST {
            let all: u64 = calls.iter().map(|call| u64::from(call.child)).sum();
            assert_eq!(sum, all * rounds as u64, "children");
        }
        time
    }

    /// Calls that change the table are made once on each of some copies of
    /// it, which are made anew for every repetition.
    pub fn once(&self, part: Part, what: &str, calls: &[Call]) -> Option<Row> {
        if calls.is_empty() {
            return None;
        }
        self.agree(calls);
        let copies = 128usize.div_ceil(calls.len());
        let mut tables: Vec<Table> = (0..copies).map(|_| self.table()).collect();
        let mut times = Times::new(SIDES);
        let mut children = vec![0; copies * calls.len()];
        for rep in 0..=self.reps {
            for side in clock::turn(SIDES) {
                let time = if side < RUST {
                    for table in &mut tables {
                        table.restore(&self.grown);
                        assert!(table.is_table(&self.sheet));
                    }
                    let time = self.on_tables(side, calls, &mut tables, &mut children);
                    let right = |made: &[u32]| made.iter().zip(calls).all(|(&child, call)| child == call.child);
                    assert!(children.chunks(calls.len()).all(right), "children");
                    time
                } else {
                    let mut walked: Vec<Walked> = (0..copies).map(|_| self.walked()).collect();
                    timed(copies * calls.len(), || {
                        for walked in &mut walked {
                            for call in calls {
                                walked.enter_known(black_box(call));
                            }
                        }
                    })
                };
                times.add(rep, side, time);
            }
        }
        Some(self.row(part, what, &times))
    }

    fn on_tables(&self, side: usize, calls: &[Call], tables: &mut [Table], children: &mut [u32]) -> f64 {
        let sheet = &self.sheet;
        timed(children.len(), || {
            let mut k = 0;
            for table in tables {
                for call in calls {
                    children[k] = match side {
                        PUBLIC => table.enter(sheet, call.parent, black_box(&call.row)),
                        // a table that calls have made stays in shape
                        _ => unsafe { table.held_enter(sheet, call.parent, black_box(&call.row)) },
                    };
                    k += 1;
                }
            }
        })
    }

    /// The matched lists of all states, copied (proved) or gone through
    /// (published), and summed.
    pub fn matched(&self) -> Row {
        let table = self.table();
        let walked = [0, 1].map(|_| self.walked());
        let n = walked[0].states.len() as u32;
        let lists: Vec<_> = (0..n).map(|state| walked[0].matched(state)).collect();
        let all: u64 = lists.iter().flatten().map(|&rule| u64::from(rule)).sum();
        let mut times = Times::new(SIDES);
        let mut out = [0; 256];
        for rep in 0..=self.reps {
            for side in clock::turn(SIDES) {
                let rounds = 1 + if side == PUBLIC { 127 } else { 4000 } / n as usize;
                let mut sum = 0u64;
                let time = timed(rounds * n as usize, || {
                    for _ in 0..rounds {
                        for state in 0..n {
                            let add = |got: &[u32]| got.iter().map(|&rule| u64::from(rule)).sum::<u64>();
                            sum += match side {
                                PUBLIC => {
                                    let got = table.matching(&self.sheet, black_box(state), &mut out);
                                    add(&out[..got])
                                }
                                CORE => {
                                    let got = table.held_matching(black_box(state), &mut out);
                                    add(&out[..got])
                                }
                                _ => {
                                    let Walked { cascade, states } = &walked[side - RUST];
                                    let rules = cascade.matching_rules(states[black_box(state) as usize]);
                                    rules.map(|rule| u64::from(rule.order())).sum()
                                }
                            };
                        }
                    }
                });
                assert_eq!(sum, all * rounds as u64, "matched lists");
                times.add(rep, side, time);
            }
        }
        self.row(Part::Matched, "all states", &times)
    }

    /// The shape test alone: the sheet's part, and both.
    pub fn shape(&self) -> Shape {
        let mut times = Times::new(2);
        let words = self.sheet.used() + self.grown.used();
        let rounds = (200_000 / words).max(1);
        for rep in 0..=self.reps {
            for side in clock::turn(2) {
                let mut all = true;
                let time = timed(rounds, || {
                    for _ in 0..rounds {
                        all &= match side {
                            0 => black_box(&self.sheet).is_sheet(),
                            _ => black_box(&self.grown).is_table(&self.sheet),
                        };
                    }
                });
                assert!(all);
                times.add(rep, side, time);
            }
        }
        let steps: usize = self.case.sources.rules.iter().map(|rule| rule.steps.len()).sum();
        let rules = self.case.sources.rules.len();
        Shape {
            table: self.case.name.clone(),
            sheet: format!("{rules} rules, {} steps", grouped(steps)),
            counts: self.grown.counts(),
            words,
            tests: [times.median(0), times.median(1)],
        }
    }
}
