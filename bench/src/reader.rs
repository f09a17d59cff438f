//! A whole walk as a reader makes it: each element is entered, four
//! properties are looked up, and what changes from the previous sibling.

use std::hint::black_box;

use crate::asking::added;
use crate::cases::{Call, OF_NOBODY};
use crate::clock::{self, Times, timed};
use crate::entering::Bench;
use crate::proved::{CHANGES, Table};
use crate::published::Walked;
use crate::rows::{CORE, PUBLIC, Part, Row, SIDES, Shape};

/// Three that many sources have, one that none has.
const ASKED: [u16; 4] = [0, 1, 2, OF_NOBODY];

impl Bench<'_> {
    fn visits(&self) -> impl Iterator<Item = (&Call, Option<u32>)> {
        self.case.held.iter().zip(self.case.before.iter().copied())
    }

    fn read_public(&self, table: &mut Table, out: &mut [u16; CHANGES]) -> u64 {
        let (sheet, mut sum) = (&self.sheet, 0u64);
        for (call, before) in self.visits() {
            let child = table.enter(sheet, call.parent, black_box(&call.row));
            sum += u64::from(child);
            for property in ASKED {
                sum += table.winner(sheet, child, property) as u64;
            }
            if let Some(before) = before {
                let n = table.changed(sheet, before, child, out);
                sum += added(&out[..n]);
            }
        }
        sum
    }

    /// On a table that is in shape: its own calls keep it so.
    fn read_core(&self, table: &mut Table, out: &mut [u16; CHANGES]) -> u64 {
        let (sheet, mut sum) = (&self.sheet, 0u64);
        for (call, before) in self.visits() {
            let child = unsafe { table.held_enter(sheet, call.parent, black_box(&call.row)) };
            sum += u64::from(child);
            for property in ASKED {
                sum += unsafe { table.held_winner(sheet, child, property) } as u64;
            }
            if let Some(before) = before {
                let n = unsafe { table.held_changed(sheet, before, child, out) };
                sum += added(&out[..n]);
            }
        }
        sum
    }

    fn read_rust(&self, walked: &mut Walked) -> u64 {
        let mut sum = 0u64;
        for (call, before) in self.visits() {
            walked.enter_known(black_box(call));
            sum += u64::from(call.child);
            for property in ASKED {
                sum += walked.winner(call.child, property) as u64;
            }
            if let Some(before) = before {
                sum += walked.changed_sum(before, call.child);
            }
        }
        sum
    }

    /// Every answer of both sides, element by element.
    fn read_alike(&self) {
        let (mut table, mut walked) = (self.table(), self.walked());
        let (sheet, name) = (&self.sheet, &self.case.name);
        let mut out = [0; CHANGES];
        for (call, before) in self.visits() {
            assert_eq!(
                table.enter(sheet, call.parent, &call.row),
                call.child,
                "{name}: entering"
            );
            assert_eq!(walked.enter(call.parent, &call.lent), call.child, "{name}: published");
            for property in ASKED {
                let winner = walked.winner(call.child, property);
                assert_eq!(table.winner(sheet, call.child, property), winner, "{name}: winner");
            }
            if let Some(before) = before {
                let n = table.changed(sheet, before, call.child, &mut out);
                assert_eq!(out[..n], walked.changed(before, call.child), "{name}: changes");
            }
        }
    }

    /// From an empty table on, and the same walk again on the table that it
    /// has left.
    pub fn reads(&self, rows: &mut Vec<Row>) {
        self.read_alike();
        let (mut cold, mut warm) = (Times::new(SIDES), Times::new(SIDES));
        let elements = self.case.held.len();
        let mut table = self.table();
        let mut out = [0; CHANGES];
        let mut first = None;
        for rep in 0..=self.reps {
            for side in clock::turn(SIDES) {
                let mut sums = [0; 2];
                let mut walked = self.walked();
                table.restore(&self.grown);
                assert!(table.is_table(&self.sheet), "what the core requires");
                for (sum, times) in sums.iter_mut().zip([&mut cold, &mut warm]) {
                    let time = timed(elements, || {
                        *sum = match side {
                            PUBLIC => self.read_public(&mut table, &mut out),
                            CORE => self.read_core(&mut table, &mut out),
                            _ => self.read_rust(&mut walked),
                        }
                    });
                    times.add(rep, side, time);
                }
                let all = *first.get_or_insert(sums[0]);
                assert_eq!(sums, [all; 2], "answers");
            }
        }
        rows.push(self.row(Part::Walks, "read, fresh", &cold));
        rows.push(self.row(Part::Walks, "read, again", &warm));
    }

    /// The shape of the table that the walk leaves.
    pub fn left(mut self) -> Shape {
        for call in &self.case.held {
            self.grown.enter(&self.sheet, call.parent, &call.row);
        }
        self.shape()
    }
}
