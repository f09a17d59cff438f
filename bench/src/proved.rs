//! The proved library, crate `bench`: a slice crosses as a pointer and a
//! number of elements, a reference to an array as a pointer.

use crate::cases::{Sources, Subject};

#[link(name = "bench", kind = "static")]
unsafe extern "C" {
    fn bench_new(s: *mut u32, sl: usize) -> u32;
    fn bench_push_style(
        s: *mut u32, sl: usize, origin: u32, p: *const u16, pl: usize, k: *const u32, kl: usize, n: *const u32,
        nl: usize, count: usize,
    ) -> u32;
    fn bench_push_rules(
        s: *mut u32, sl: usize, origin: u32, r: *const u32, rl: usize, count: usize, t: *const u32, tl: usize,
        c: *const u32, cl: usize, p: *const u16, pl: usize, k: *const u32, kl: usize, n: *const u32, nl: usize,
    ) -> u32;
    fn bench_build(
        s: *const u32, sl: usize, stamp: u32, h: *mut u32, st: *mut u32, stl: usize, c: *mut u32, cl: usize,
    ) -> u32;
    fn bench_enter(
        s: *const u32, sl: usize, h: *mut u32, st: *mut u32, stl: usize, c: *mut u32, cl: usize, m: *mut u32,
        ml: usize, t: *mut u32, tl: usize, number: u32, stamp: u32, row: *const u32, rowl: usize,
    ) -> u32;
    fn bench_held_enter(
        s: *const u32, sl: usize, h: *mut u32, hl: usize, st: *mut u32, stl: usize, c: *mut u32, cl: usize,
        m: *mut u32, ml: usize, t: *mut u32, tl: usize, number: u32, row: *const u32, rowl: usize,
    ) -> u32;
    fn bench_matching(
        s: *const u32, sl: usize, h: *const u32, st: *const u32, stl: usize, c: *const u32, cl: usize,
        m: *const u32, ml: usize, t: *const u32, tl: usize, number: u32, stamp: u32, out: *mut u32, outl: usize,
    ) -> usize;
    fn bench_held_matching(
        st: *const u32, stl: usize, m: *const u32, ml: usize, number: u32, out: *mut u32, outl: usize,
    ) -> usize;
    // a property is a u16 there; as a u32 it comes with its upper bits cleared on both kinds of machine
    fn bench_winner(
        s: *const u32, sl: usize, h: *const u32, st: *const u32, stl: usize, c: *const u32, cl: usize,
        m: *const u32, ml: usize, t: *const u32, tl: usize, number: u32, stamp: u32, property: u32,
    ) -> usize;
    fn bench_held_winner(
        s: *const u32, sl: usize, h: *const u32, hl: usize, st: *const u32, stl: usize, c: *const u32, cl: usize,
        m: *const u32, ml: usize, t: *const u32, tl: usize, number: u32, property: u32,
    ) -> usize;
    fn bench_changed(
        s: *const u32, sl: usize, h: *const u32, st: *const u32, stl: usize, c: *const u32, cl: usize,
        m: *const u32, ml: usize, t: *const u32, tl: usize, old: u32, new: u32, stamp: u32, out: *mut u16,
        outl: usize,
    ) -> usize;
    fn bench_held_changed(
        s: *const u32, sl: usize, h: *const u32, hl: usize, st: *const u32, stl: usize, c: *const u32, cl: usize,
        m: *const u32, ml: usize, t: *const u32, tl: usize, old: u32, new: u32, into: *mut u16,
    ) -> usize;
    fn bench_is_sheet(s: *const u32, sl: usize) -> bool;
    fn bench_is_table(
        s: *const u32, sl: usize, h: *const u32, st: *const u32, stl: usize, c: *const u32, cl: usize,
        m: *const u32, ml: usize, t: *const u32, tl: usize,
    ) -> bool;
}

const STAMP: u32 = 7;

/// What stands for no winner, and for the first direct style.
pub const NOBODY: usize = 65_537;
pub const DIRECT: usize = 131_072;

/// How many changes there may be.
pub const CHANGES: usize = 4096;

pub struct Sheet(Vec<u32>);

impl Sheet {
    /// The sources in the order and with the origins that the published side
    /// has; every entry is a value, its number the property's.
    pub fn new(sources: &Sources) -> Self {
        let mut words = vec![0; 67_020];
        let mut told = unsafe { bench_new(words.as_mut_ptr(), words.len()) };
        for (properties, k) in sources.styles.iter().zip(0..) {
            let (kinds, numbers, n) = entries(properties);
            told += unsafe {
                bench_push_style(
                    words.as_mut_ptr(), words.len(), k % 2, properties.as_ptr(), n, kinds.as_ptr(), n,
                    numbers.as_ptr(), n, n,
                )
            };
        }
        let rules = &sources.rules;
        let (mut counts, mut steps, mut codes, mut properties) = (vec![], vec![], vec![], vec![]);
        for rule in rules {
            counts.extend([rule.steps.len(), rule.codes.len(), rule.properties.len()].map(|n| n as u32));
            for step in &rule.steps {
                steps.extend(step.row(8));
            }
            codes.extend(&rule.codes);
            properties.extend(&rule.properties);
        }
        let (kinds, numbers, n) = entries(&properties);
        told += unsafe {
            bench_push_rules(
                words.as_mut_ptr(), words.len(), 1, counts.as_ptr(), counts.len(), rules.len(), steps.as_ptr(),
                steps.len(), codes.as_ptr(), codes.len(), properties.as_ptr(), n, kinds.as_ptr(), n,
                numbers.as_ptr(), n,
            )
        };
        assert_eq!(told, 0, "the sheet is refused");
        Self(words)
    }

    pub fn is_sheet(&self) -> bool {
        unsafe { bench_is_sheet(self.0.as_ptr(), self.0.len()) }
    }

    /// Words in use: counts, rules, steps, entries, direct styles, theirs.
    pub fn used(&self) -> usize {
        let [rules, steps, _, entries, styles, own] = [0, 1, 2, 3, 4, 5].map(|k| self.0[k] as usize);
        8 + 5 * rules + 23 * steps + 3 * entries + 3 * styles + 3 * own
    }
}

fn entries(properties: &[u16]) -> (Vec<u32>, Vec<u32>, usize) {
    let n = properties.len();
    (vec![0; n], properties.iter().map(|&id| u32::from(id)).collect(), n)
}

pub struct Table {
    head: [u32; 8],
    states: Vec<u32>,
    cursors: Vec<u32>,
    matched: Vec<u32>,
    transitions: Vec<u32>,
}

impl Table {
    pub fn new(sheet: &Sheet) -> Self {
        let mut t = Self {
            head: [0; 8],
            states: vec![0; 3 * 512],
            cursors: vec![0; 600_000],
            matched: vec![0; 131_072],
            transitions: vec![0; 41 * 2_048],
        };
        let told = unsafe {
            bench_build(
                sheet.0.as_ptr(), sheet.0.len(), STAMP, t.head.as_mut_ptr(), t.states.as_mut_ptr(), t.states.len(),
                t.cursors.as_mut_ptr(), t.cursors.len(),
            )
        };
        assert_eq!(told, 0, "build is refused");
        t
    }

    #[inline(always)]
    pub fn enter(&mut self, sheet: &Sheet, parent: u32, row: &[u32; 38]) -> u32 {
        unsafe {
            bench_enter(
                sheet.0.as_ptr(), sheet.0.len(), self.head.as_mut_ptr(), self.states.as_mut_ptr(), self.states.len(),
                self.cursors.as_mut_ptr(), self.cursors.len(), self.matched.as_mut_ptr(), self.matched.len(),
                self.transitions.as_mut_ptr(), self.transitions.len(), parent, STAMP, row.as_ptr(), 38,
            )
        }
    }

    /// The caller keeps what the core requires: `is_table`, and a row within
    /// its sizes whose ids ascend.
    #[inline(always)]
    pub unsafe fn held_enter(&mut self, sheet: &Sheet, parent: u32, row: &[u32; 38]) -> u32 {
        unsafe {
            bench_held_enter(
                sheet.0.as_ptr(), sheet.0.len(), self.head.as_mut_ptr(), 8, self.states.as_mut_ptr(),
                self.states.len(), self.cursors.as_mut_ptr(), self.cursors.len(), self.matched.as_mut_ptr(),
                self.matched.len(), self.transitions.as_mut_ptr(), self.transitions.len(), parent, row.as_ptr(), 38,
            )
        }
    }

    #[inline(always)]
    pub fn matching(&self, sheet: &Sheet, state: u32, out: &mut [u32; 256]) -> usize {
        unsafe {
            bench_matching(
                sheet.0.as_ptr(), sheet.0.len(), self.head.as_ptr(), self.states.as_ptr(), self.states.len(),
                self.cursors.as_ptr(), self.cursors.len(), self.matched.as_ptr(), self.matched.len(),
                self.transitions.as_ptr(), self.transitions.len(), state, STAMP, out.as_mut_ptr(), 256,
            )
        }
    }

    #[inline(always)]
    pub fn held_matching(&self, state: u32, out: &mut [u32; 256]) -> usize {
        unsafe {
            bench_held_matching(
                self.states.as_ptr(), self.states.len(), self.matched.as_ptr(), self.matched.len(), state,
                out.as_mut_ptr(), 256,
            )
        }
    }

    #[inline(always)]
    pub fn winner(&self, sheet: &Sheet, state: u32, property: u16) -> usize {
        unsafe {
            bench_winner(
                sheet.0.as_ptr(), sheet.0.len(), self.head.as_ptr(), self.states.as_ptr(), self.states.len(),
                self.cursors.as_ptr(), self.cursors.len(), self.matched.as_ptr(), self.matched.len(),
                self.transitions.as_ptr(), self.transitions.len(), state, STAMP, u32::from(property),
            )
        }
    }

    /// The caller keeps what the core requires: `is_table`, and a state of it.
    #[inline(always)]
    pub unsafe fn held_winner(&self, sheet: &Sheet, state: u32, property: u16) -> usize {
        unsafe {
            bench_held_winner(
                sheet.0.as_ptr(), sheet.0.len(), self.head.as_ptr(), 8, self.states.as_ptr(), self.states.len(),
                self.cursors.as_ptr(), self.cursors.len(), self.matched.as_ptr(), self.matched.len(),
                self.transitions.as_ptr(), self.transitions.len(), state, u32::from(property),
            )
        }
    }

    #[inline(always)]
    pub fn changed(&self, sheet: &Sheet, old: u32, new: u32, out: &mut [u16; CHANGES]) -> usize {
        unsafe {
            bench_changed(
                sheet.0.as_ptr(), sheet.0.len(), self.head.as_ptr(), self.states.as_ptr(), self.states.len(),
                self.cursors.as_ptr(), self.cursors.len(), self.matched.as_ptr(), self.matched.len(),
                self.transitions.as_ptr(), self.transitions.len(), old, new, STAMP, out.as_mut_ptr(), CHANGES,
            )
        }
    }

    /// The caller keeps what the core requires: `is_table`, and two states of it.
    #[inline(always)]
    pub unsafe fn held_changed(&self, sheet: &Sheet, old: u32, new: u32, out: &mut [u16; CHANGES]) -> usize {
        unsafe {
            bench_held_changed(
                sheet.0.as_ptr(), sheet.0.len(), self.head.as_ptr(), 8, self.states.as_ptr(), self.states.len(),
                self.cursors.as_ptr(), self.cursors.len(), self.matched.as_ptr(), self.matched.len(),
                self.transitions.as_ptr(), self.transitions.len(), old, new, out.as_mut_ptr(),
            )
        }
    }

    pub fn is_table(&self, sheet: &Sheet) -> bool {
        unsafe {
            bench_is_table(
                sheet.0.as_ptr(), sheet.0.len(), self.head.as_ptr(), self.states.as_ptr(), self.states.len(),
                self.cursors.as_ptr(), self.cursors.len(), self.matched.as_ptr(), self.matched.len(),
                self.transitions.as_ptr(), self.transitions.len(),
            )
        }
    }

    /// States, cursors, matched numbers, transitions.
    pub fn counts(&self) -> [usize; 4] {
        [2, 3, 4, 5].map(|k| self.head[k] as usize)
    }

    pub fn used(&self) -> usize {
        let [states, cursors, matched, transitions] = self.counts();
        8 + 3 * states + cursors + matched + 41 * transitions
    }

    /// The words in use of another table of the same sheet.
    pub fn restore(&mut self, from: &Self) {
        let [states, cursors, matched, transitions] = from.counts();
        self.head = from.head;
        self.states[..3 * states].copy_from_slice(&from.states[..3 * states]);
        self.cursors[..cursors].copy_from_slice(&from.cursors[..cursors]);
        self.matched[..matched].copy_from_slice(&from.matched[..matched]);
        self.transitions[..41 * transitions].copy_from_slice(&from.transitions[..41 * transitions]);
    }
}

impl Subject {
    pub fn row38(&self) -> [u32; 38] {
        self.row(16).try_into().expect("38 words")
    }

    /// A row with room for so many classes, and as many pseudos.
    fn row(&self, room: usize) -> Vec<u32> {
        let mut row = vec![0; 6 + 2 * room];
        row[0] = self.type_tag.is_some() as u32;
        row[1] = self.type_tag.unwrap_or(0);
        row[4] = self.classes.len() as u32;
        row[5] = self.pseudos.len() as u32;
        row[6..6 + self.classes.len()].copy_from_slice(&self.classes);
        row[6 + room..6 + room + self.pseudos.len()].copy_from_slice(&self.pseudos);
        row
    }
}
