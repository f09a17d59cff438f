//! The rows of all runs, as one table for a reader or in the form that
//! docs/PERFORMANCE.md has.

use crate::clock::{Times, median};

pub const SIDES: usize = 4;
pub const PUBLIC: usize = 0;
pub const CORE: usize = 1;
pub const RUST: usize = 2;
pub const AGAIN: usize = 3;

#[derive(Copy, Clone, PartialEq, Eq)]
pub enum Part {
    Entering,
    Matched,
    Winners,
    Changes,
    Walks,
    Grows,
    Memory,
}

pub const PARTS: [Part; 7] = [
    Part::Entering,
    Part::Matched,
    Part::Winners,
    Part::Changes,
    Part::Walks,
    Part::Grows,
    Part::Memory,
];

impl Part {
    pub fn name(self) -> &'static str {
        match self {
            Part::Entering => "entering",
            Part::Matched => "matched",
            Part::Winners => "winners",
            Part::Changes => "changes",
            Part::Walks => "walks",
            Part::Grows => "grows",
            Part::Memory => "memory",
        }
    }
}

/// What one run has measured of a row.
pub struct Row {
    pub part: Part,
    pub table: String,
    pub what: String,
    times: [f64; SIDES],
    /// Public call, core, Rust again, each to the Rust.
    ratios: [f64; 3],
    /// The time of the shape test, where one table stands still.
    test: Option<f64>,
}

impl Row {
    pub fn new(part: Part, table: &str, what: &str, times: &Times, test: Option<f64>) -> Self {
        Self {
            part,
            table: table.into(),
            what: what.into(),
            times: [PUBLIC, CORE, RUST, AGAIN].map(|side| times.median(side)),
            ratios: [PUBLIC, CORE, AGAIN].map(|side| times.ratio(side, RUST)),
            test,
        }
    }
}

/// What one run has seen of a table.
pub struct Shape {
    pub table: String,
    pub sheet: String,
    /// States, cursors, matched numbers, transitions.
    pub counts: [usize; 4],
    pub words: usize,
    /// Of the sheet, and of both.
    pub tests: [f64; 2],
}

#[derive(Default)]
pub struct Run {
    pub rows: Vec<Row>,
    pub shapes: Vec<Shape>,
}

pub struct Report<'a>(pub &'a [Run]);

/// With commas, and a place or two where it is small.
fn number(x: f64) -> String {
    match x {
        _ if x < 9.95 => format!("{x:.2}"),
        _ if x < 19.95 => format!("{x:.1}"),
        _ => grouped(x.round() as usize),
    }
}

fn whole(x: f64) -> String {
    if x < 9.95 {
        format!("{x:.1}")
    } else {
        grouped(x.round() as usize)
    }
}

pub fn grouped(n: usize) -> String {
    let digits = n.to_string();
    let mut out = String::new();
    for (k, digit) in digits.chars().enumerate() {
        if k > 0 && (digits.len() - k) % 3 == 0 {
            out.push(',');
        }
        out.push(digit);
    }
    out
}

/// Under 1.0 where an entering is cached, at most 1.5 elsewhere.
fn misses(row: &Row, ratio: f64) -> bool {
    if row.what.starts_with("cached") {
        ratio >= 1.0
    } else {
        ratio > 1.5
    }
}

impl Report<'_> {
    fn rows(&self) -> impl Iterator<Item = (usize, &Row)> {
        self.0[0].rows.iter().enumerate()
    }

    fn over(&self, of: impl Fn(&Run) -> f64) -> f64 {
        median(self.0.iter().map(of).collect())
    }

    fn ratio(&self, k: usize, of: usize) -> f64 {
        self.over(|run| run.rows[k].ratios[of])
    }

    /// The median over the runs, and between which runs' ratios lie.
    fn spread(&self, k: usize, of: usize) -> String {
        let all = || self.0.iter().map(|run| run.rows[k].ratios[of]);
        let (low, high) = (all().fold(f64::MAX, f64::min), all().fold(0.0, f64::max));
        format!("{} ({} to {})", number(self.ratio(k, of)), number(low), number(high))
    }

    fn cells(&self, k: usize) -> [String; 7] {
        let time = |side: usize| self.over(|run| run.rows[k].times[side]);
        let tested = |run: &Run| run.rows[k].test.unwrap_or(0.0) / run.rows[k].times[PUBLIC];
        let test = self.0[0].rows[k].test.map(|_| 100.0 * self.over(tested));
        [
            whole(time(PUBLIC)),
            test.map_or("".into(), |part| format!("{part:.0} %")),
            whole(time(CORE)),
            whole(time(RUST)),
            self.spread(k, 0),
            self.spread(k, 2),
            self.spread(k, 1),
        ]
    }

    /// One table, the core's ratio last.
    pub fn print(&self) {
        let head = [
            "",
            "",
            "",
            "public",
            "test",
            "core",
            "Rust",
            "public / Rust",
            "control",
            "core / Rust",
        ];
        let mut lines = vec![head.map(String::from)];
        for (k, row) in self.rows() {
            let [public, test, core, rust, a, b, mut c] = self.cells(k);
            if misses(row, self.ratio(k, 1)) {
                c.push_str(" *");
            }
            lines.push([
                row.part.name().into(),
                row.table.clone(),
                row.what.clone(),
                public,
                test,
                core,
                rust,
                a,
                b,
                c,
            ]);
        }
        let mut wide = [0; 10];
        for line in &lines {
            for (most, cell) in wide.iter_mut().zip(line) {
                *most = cell.len().max(*most);
            }
        }
        for line in &lines {
            let mut out = String::new();
            for (k, cell) in line.iter().enumerate() {
                let room = wide[k];
                out += &match k {
                    0..=2 | 7.. => format!("{cell:room$}  "),
                    _ => format!("{cell:>room$}  "),
                };
            }
            println!("{}", out.trim_end());
        }
        println!();
        for (k, shape) in self.0[0].shapes.iter().enumerate() {
            let [states, cursors, matched, transitions] = shape.counts.map(grouped);
            println!(
                "{}: {}; {states} states, {cursors} cursors, {matched} matched numbers, {transitions} transitions, {} words in use; is_sheet {} ns, is_table {} ns",
                shape.table,
                shape.sheet,
                grouped(shape.words),
                whole(self.over(|run| run.shapes[k].tests[0])),
                whole(self.over(|run| run.shapes[k].tests[1])),
            );
        }
    }

    /// A part's table in the document's form.
    pub fn markdown(&self, part: Part) -> String {
        let mut out = String::from(
            "| table | call | public | test | core | Rust | public / Rust | control | core / Rust |\n|---|---|---|---|---|---|---|---|---|\n",
        );
        for (k, row) in self.rows().filter(|(_, row)| row.part == part) {
            let [public, test, core, rust, a, b, c] = self.cells(k);
            let c = if misses(row, self.ratio(k, 1)) {
                format!("**{c}**")
            } else {
                c
            };
            let (table, what) = (&row.table, &row.what);
            out += &format!("| {table} | {what} | {public} | {test} | {core} | {rust} | {a} | {b} | {c} |\n");
        }
        out
    }

    pub fn shapes(&self) -> String {
        let mut out = String::from(
            "| table | sheet | states | cursors | matched numbers | transitions | words in use | `is_sheet`, ns | `is_table`, ns |\n|---|---|---|---|---|---|---|---|---|\n",
        );
        for (k, shape) in self.0[0].shapes.iter().enumerate() {
            let [states, cursors, matched, transitions] = shape.counts.map(grouped);
            let test = |of: usize| whole(self.over(|run| run.shapes[k].tests[of]));
            let (table, sheet, words) = (&shape.table, &shape.sheet, grouped(shape.words));
            out += &format!(
                "| {table} | {sheet} | {states} | {cursors} | {matched} | {transitions} | {words} | {} | {} |\n",
                test(0),
                test(1),
            );
        }
        out
    }

    /// How far the control has swung, up or down.
    fn swing(&self, k: usize) -> f64 {
        let control = |run: &Run| run.rows[k].ratios[2];
        self.0.iter().map(control).map(|c| c.max(1.0 / c)).fold(1.0, f64::max)
    }

    /// Which rows miss the target, and which meet it by less than the control
    /// has swung.
    pub fn verdict(&self) -> String {
        let name = |(k, row): (usize, &Row)| {
            let ratio = number(self.ratio(k, 1));
            format!("{} {} {} {ratio}", row.part.name(), row.table, row.what)
        };
        let (mut over, mut near) = (vec![], vec![]);
        for (k, row) in self.rows() {
            if misses(row, self.ratio(k, 1)) {
                over.push(name((k, row)));
            } else if misses(row, self.ratio(k, 1) * self.swing(k)) {
                near.push(name((k, row)));
            }
        }
        let all = self.0[0].rows.len();
        let mut told = String::from("Target (core at most 1.5 times the Rust's time, under 1.0 in cached entering): ");
        told += &match over.len() {
            0 => format!("met in all {all} rows"),
            n => format!("missed in {n} of {all} rows: {}", over.join("; ")),
        };
        if !near.is_empty() {
            told += &format!(". Met by less than the control has swung: {}", near.join("; "));
        }
        told + "."
    }
}
