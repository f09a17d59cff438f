//! Measures the proved calls against the published ones: both sides in one
//! run, by turns, over the same calls, whose answers have to agree.

mod asking;
mod cases;
mod clock;
mod entering;
mod memory;
#[rustfmt::skip]
mod proved;
mod published;
mod reader;
mod rows;

use cases::*;
use entering::Bench;
use rows::{PARTS, Part, Report, Run};

/// The table of several hundred states of the largest sheet.
fn largest() -> Case {
    drawn("F", large, large_subject, 400, 800)
}

fn tables() -> [Case; 7] {
    [
        drawn("A", small, small_subject, 4, 8),
        drawn("B", small, small_subject, 6, 400),
        drawn("C", middle, middle_subject, 8, 12),
        drawn("D", middle, middle_subject, 400, 800),
        drawn("E", large, large_subject, 8, 12),
        largest(),
        drawn("G", book, book_subject, 400, 800),
    ]
}

fn walks() -> [Case; 4] {
    [
        walk("small walk", small, small_subject, 40, 2000),
        walk("middle walk", middle, middle_subject, 16, 2000),
        walk("largest walk", large, large_subject, 12, 300),
        walk("book walk", book, book_subject, 16, 2000),
    ]
}

struct Wanted {
    parts: Vec<Part>,
    /// Only these tables; all, if there are none.
    tables: Vec<String>,
    reps: usize,
}

impl Wanted {
    fn has(&self, part: Part) -> bool {
        self.parts.contains(&part)
    }

    fn on_table(&self, case: &Case, run: &mut Run) {
        let mut bench = Bench::new(case, self.reps);
        let shape = bench.shape();
        bench.test = shape.tests[1];
        run.shapes.push(shape);
        if self.has(Part::Entering) {
            run.rows.extend(bench.cached(Part::Entering, "cached"));
            run.rows.extend(bench.once(Part::Entering, "state held", &case.held));
            run.rows.extend(bench.once(Part::Entering, "new state", &case.new));
        }
        if self.has(Part::Matched) {
            run.rows.push(bench.matched());
        }
        // what only grows with the table is the test
        if ["B", "D", "F", "G"].contains(&case.name.as_str()) {
            if self.has(Part::Winners) {
                bench.winners(&mut run.rows);
            }
            if self.has(Part::Changes) {
                bench.changes(&mut run.rows);
            }
        }
    }

    fn growing(&self, run: &mut Run) {
        let mut once = |case: Case| {
            let bench = Bench::new(&case, self.reps);
            run.rows.extend(bench.once(Part::Grows, "state held", &case.held));
        };
        for count in [1, 8, 64, 256] {
            once(cursors(count));
        }
        for (count, prefix) in [(8, 0), (64, 0), (256, 0), (512, 0), (64, 64), (512, 64)] {
            once(search(count, prefix));
        }
        for count in [1, 8, 64, 512] {
            let case = chain(count);
            run.rows
                .extend(Bench::new(&case, self.reps).cached(Part::Grows, "cached"));
        }
    }

    fn run(&self, of: &str) -> Run {
        let mut run = Run::default();
        let on_tables = [Part::Entering, Part::Matched, Part::Winners, Part::Changes];
        if on_tables.iter().any(|&part| self.has(part)) {
            let wanted = |case: &Case| self.tables.is_empty() || self.tables.contains(&case.name);
            for case in tables().into_iter().filter(wanted) {
                eprintln!("{of}: table {}", case.name);
                self.on_table(&case, &mut run);
            }
        }
        if self.has(Part::Walks) {
            for case in walks() {
                eprintln!("{of}: {}", case.name);
                let bench = Bench::new(&case, self.reps);
                run.rows.extend(bench.once(Part::Walks, "entered, fresh", &case.held));
                bench.reads(&mut run.rows);
                run.shapes.push(bench.left());
            }
        }
        if self.has(Part::Grows) {
            eprintln!("{of}: how the cost grows");
            self.growing(&mut run);
        }
        // stable: rows of a part stand together
        run.rows
            .sort_by_key(|row| PARTS.iter().position(|&part| part == row.part));
        run
    }
}

/// The document's tables by their names.
fn pieces(report: &Report, wanted: &Wanted, stacks: &[memory::Stack]) -> Vec<(String, String)> {
    let mut pieces = vec![];
    for part in PARTS {
        if !wanted.has(part) {
            continue;
        }
        let name = part.name();
        if part == Part::Memory {
            pieces.push(("stack".into(), memory::markdown(stacks)));
            pieces.push(("lent".into(), memory::lent_markdown()));
        } else {
            pieces.push((name.into(), report.markdown(part)));
        }
    }
    if !report.0[0].shapes.is_empty() {
        pieces.push(("tables".into(), report.shapes()));
    }
    pieces.push(("verdict".into(), report.verdict() + "\n"));
    pieces
}

/// Each piece in place of what stands between its marks.
fn write(path: &str, pieces: &[(String, String)]) {
    let mut text = std::fs::read_to_string(path).expect("the document");
    for (name, piece) in pieces {
        let (open, close) = (format!("<!-- {name} -->\n"), format!("<!-- end of {name} -->"));
        let from = text.find(&open).unwrap_or_else(|| panic!("no mark {open}")) + open.len();
        let to = text.find(&close).unwrap_or_else(|| panic!("no mark {close}"));
        text.replace_range(from..to, piece);
    }
    std::fs::write(path, text).expect("the document written");
}

fn count(name: &str, or: usize) -> usize {
    std::env::var(name).map_or(or, |word| word.parse().expect("a number"))
}

fn main() {
    if cfg!(debug_assertions) {
        panic!("measure with --release");
    }
    let (mut markdown, mut file) = (false, None);
    let (mut parts, mut tables) = (vec![], vec![]);
    let mut words = std::env::args().skip(1);
    while let Some(word) = words.next() {
        match word.as_str() {
            "--markdown" => markdown = true,
            "--write" => file = Some(words.next().expect("the file after --write")),
            "A" | "B" | "C" | "D" | "E" | "F" | "G" => tables.push(word),
            name => {
                let known = PARTS.into_iter().find(|part| part.name() == name);
                parts.push(known.unwrap_or_else(|| panic!("no part {name}")));
            }
        }
    }
    if parts.is_empty() {
        parts = PARTS.to_vec();
    }
    let (runs, reps) = (count("RUNS", 5).max(1), count("REPS", 5).max(1));
    let wanted = Wanted { parts, tables, reps };
    let stacks = if wanted.has(Part::Memory) {
        memory::stacks(largest)
    } else {
        vec![]
    };
    let runs: Vec<Run> = (1..=runs).map(|k| wanted.run(&format!("run {k} of {runs}"))).collect();
    let report = Report(&runs);
    let pieces = pieces(&report, &wanted, &stacks);
    if let Some(file) = file {
        write(&file, &pieces);
    } else if markdown {
        for (name, piece) in &pieces {
            println!("<!-- {name} -->\n{piece}<!-- end of {name} -->\n");
        }
    } else {
        println!(
            "ns of the thread's own time: a call; for a walk, an element. Medians of {} runs of {reps} repetitions; ratios: the runs' median, and between which they lie. \
             public: with the shape test, which takes the part under `test`. core: without it. control: the Rust against itself.\n",
            runs.len(),
        );
        report.print();
        if wanted.has(Part::Memory) {
            memory::print(&stacks);
        }
    }
    if !markdown {
        println!("\n{}", report.verdict());
    }
}
