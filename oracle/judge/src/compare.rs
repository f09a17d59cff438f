//! Comparing a command with the judge, batch by batch or file by file.

use std::env;
use std::io::{IsTerminal, stderr};
use std::slice;
use std::sync::atomic::{AtomicUsize, Ordering};
use std::thread;
use std::time::{Duration, Instant};

use crate::batches::{Batch, Form};
use crate::records::{pieces, read};
use crate::run::{Output, Runner, Way, run};
use crate::shrink::{drop_some, lower, shrink_file};
use crate::walk::walk;

/// How often the command is run to make a difference small, and for how many seconds
/// unless the environment's `JUDGE_SEARCH` has another number.
const MOST_RUNS: usize = 2000;
const LONGEST_SEARCH: u64 = 60;

/// What is left of the search for something smaller.
struct Search {
    begin: Instant,
    longest: Duration,
    runs: usize,
}

impl Search {
    fn new() -> Self {
        let asked = env::var("JUDGE_SEARCH").ok();
        let seconds = asked.and_then(|text| text.parse().ok());
        Self {
            begin: Instant::now(),
            longest: Duration::from_secs(seconds.unwrap_or(LONGEST_SEARCH)),
            runs: 0,
        }
    }

    /// Counts one more run, if there may be one.
    fn may_go_on(&mut self) -> bool {
        self.runs += 1;
        !self.cut_off()
    }

    fn cut_off(&self) -> bool {
        self.runs > MOST_RUNS || self.begin.elapsed() > self.longest
    }

    fn told(&self) -> &'static str {
        if self.cut_off() {
            "made smaller (there may be a smaller one still)"
        } else {
            "made small"
        }
    }
}

/// A difference, told in full; or nothing.
pub type Difference = Option<String>;

/// Progress for somebody who watches, and for nobody else.
struct Progress {
    shown: bool,
    what: &'static str,
}

impl Progress {
    fn new(what: &'static str) -> Self {
        Self {
            shown: stderr().is_terminal(),
            what,
        }
    }

    fn say(&self, done: usize, of: usize) {
        if self.shown {
            eprint!("\rcompared {done} of {of} {}", self.what);
            if done == of {
                eprintln!();
            }
        }
    }

    fn shrinking(&self) {
        if self.shown {
            eprintln!("\na difference: making it smaller");
        }
    }
}

/// The first line in which two texts differ: its number, and both lines.
struct Line {
    number: usize,
    expected: String,
    actual: String,
}

fn first_difference(expected: &[u8], output: &Output) -> Option<Line> {
    if expected == output.bytes && !output.crashed {
        return None;
    }
    let expected: Vec<&[u8]> = expected.split_inclusive(|&byte| byte == b'\n').collect();
    let actual: Vec<&[u8]> = output
        .bytes
        .split_inclusive(|&byte| byte == b'\n')
        .collect();
    let longer = expected.len().max(actual.len());
    let number = (0..longer).find(|&number| expected.get(number) != actual.get(number));
    let shown = |lines: &[&[u8]], number: usize| match lines.get(number) {
        Some(line) if line.ends_with(b"\n") => {
            String::from_utf8_lossy(&line[..line.len() - 1]).into_owned()
        }
        Some(line) => format!("{} (no end of line)", String::from_utf8_lossy(line)),
        None => "(nothing)".to_string(),
    };
    // Every line may be right, and only the end of the command not.
    let number = number.unwrap_or(longer);
    let mut actual = shown(&actual, number);
    if let Some(trouble) = &output.trouble {
        actual += &format!(" (and the command ended with {trouble})");
    }
    Some(Line {
        number,
        expected: shown(&expected, number),
        actual,
    })
}

/// A difference in a batch.
struct Found {
    /// The number of the case it is in; that of the tail is the number of
    /// whole cases, or more if the tail holds some.
    case: usize,
    /// The lines of that case, or what is left of them at the end.
    expected: String,
    /// As many lines of the command, or what it printed from there on.
    actual: String,
}

/// What is printed after the lines of a case that differs, at the most.
const LINES_TOLD: usize = 6;
/// And of these before the line that differs, at the most.
const LINES_BEFORE: usize = 3;

fn batch_difference<T: Form>(batch: &Batch<T>, command: &str) -> Result<Option<Found>, String> {
    let bytes = batch.bytes();
    let answers = T::answers_to(batch);
    let output = run(command, &bytes)?;
    let Some(line) = first_difference(answers.concat().as_bytes(), &output) else {
        return Ok(None);
    };
    let mut case = 0;
    let mut begin = 0;
    while let Some(answer) = answers.get(case)
        && begin + answer.lines().count() <= line.number
    {
        begin += answer.lines().count();
        case += 1;
    }
    // Of a case with many lines those that are alike are not all told.
    let alike = (line.number - begin).saturating_sub(LINES_BEFORE);
    let actual = String::from_utf8_lossy(&output.bytes);
    let mut actual = told_lines(actual.lines().skip(begin), alike);
    if let Some(trouble) = &output.trouble {
        actual += &format!("  (and the command ended with {trouble})\n");
    }
    Ok(Some(Found {
        case,
        expected: told_lines(
            answers[case..].iter().flat_map(|answer| answer.lines()),
            alike,
        ),
        actual,
    }))
}

/// The first of some lines after those that are left out, each on its own
/// line.
fn told_lines<'a>(lines: impl Iterator<Item = &'a str>, alike: usize) -> String {
    let mut lines = lines.skip(alike);
    let mut told = String::new();
    if alike > 0 {
        told += &format!("  (after {alike} lines alike)\n");
    }
    let before = told.len();
    for line in lines.by_ref().take(LINES_TOLD) {
        told += &format!("  {line:.400}\n");
    }
    if told.len() == before {
        told += "  (nothing)\n";
    }
    match lines.count() {
        0 => told,
        more => told + &format!("  (and {more} more lines)\n"),
    }
}

/// Compares a command's answers to batches of `count` cases with the judge's.
pub fn compare_cases<T: Form>(
    what: &'static str,
    command: &str,
    seed: u64,
    count: usize,
    batches: impl Iterator<Item = Batch<T>>,
) -> Result<Difference, String> {
    let progress = Progress::new("cases");
    let mut done = 0;
    for batch in batches {
        let in_batch = batch.cases.len();
        if let Some(found) = batch_difference(&batch, command)? {
            progress.shrinking();
            let told = tell_batch(what, command, seed, done, batch, found)?;
            return Ok(Some(told));
        }
        done += in_batch;
        progress.say(done, count);
    }
    Ok(None)
}

/// Makes a batch that differs small, and tells of it.
fn tell_batch<T: Form>(
    what: &str,
    command: &str,
    seed: u64,
    done: usize,
    batch: Batch<T>,
    found: Found,
) -> Result<String, String> {
    let mut search = Search::new();
    let mut differs = |batch: &Batch<T>| -> Result<bool, String> {
        Ok(search.may_go_on() && batch_difference(batch, command)?.is_some())
    };
    let place = match batch.cases.get(found.case) {
        Some(_) => format!("case {}", done + found.case),
        None => format!(
            "the end of the batch after case {}",
            done + batch.cases.len()
        ),
    };
    let mut small = batch;
    // Mostly the one case, or the end of the batch, shows it alone.
    let alone = match small.cases.get(found.case) {
        Some(case) => Batch::new(slice::from_ref(case), &[]),
        None => Batch::new(&[], &small.tail),
    };
    if differs(&alone)? {
        small = alone;
    }
    let mut cases = small.cases;
    let tail = drop_some(small.tail, &mut |tail| differs(&Batch::new(&cases, tail)))?;
    cases = drop_some(cases, &mut |cases| differs(&Batch::new(cases, &tail)))?;
    for place in 0..cases.len() {
        let others = cases.clone();
        cases[place] = others[place].clone().shrink(&mut |case| {
            let mut tried = others.clone();
            tried[place] = case.clone();
            differs(&Batch::new(&tried, &tail))
        })?;
    }
    let tail = lower(tail, &mut |tail| differs(&Batch::new(&cases, tail)))?;

    let found = batch_difference(&Batch::new(&cases, &tail), command)?.unwrap_or(found);
    let how = search.told();
    let mut told = format!("a difference in {what}, seed {seed}, {place}; {how}:\n");
    for case in &cases {
        told += &format!("{}\n", case.told());
    }
    if !tail.is_empty() {
        told += &format!("at the end, bytes:{}\n", hex(&tail));
    }
    if cases.is_empty() && tail.is_empty() {
        told += "the empty input\n";
    }
    if cases.len() > 1 {
        told += &format!("differing from case {} of these on\n", found.case);
    }
    told += &format!("expected:\n{}actual:\n{}", found.expected, found.actual);
    Ok(told)
}

fn hex(bytes: &[u8]) -> String {
    bytes.iter().map(|byte| format!(" {byte:02x}")).collect()
}

/// A file that differs, and all there is to tell of it.
pub struct Different {
    pub told: String,
    pub file: Vec<u8>,
}

/// How many files are handed out before differences are looked for.
const FILES_AT_ONCE: usize = 128;

/// Compares a command's output for each house-record file with the judge's.
/// Each file is a run of its own, for that is how `walk` reads; as many run at
/// once as there are cores.
pub fn compare_files(
    way: Way<'_>,
    seed: u64,
    count: usize,
    files: impl Iterator<Item = Vec<u8>>,
) -> Result<Option<Different>, String> {
    let progress = Progress::new("files");
    let cores = thread::available_parallelism().map_or(1, usize::from);
    let runners = (0..cores).map(|number| Runner::start(way, number));
    let mut runners = runners.collect::<Result<Vec<_>, _>>()?;
    let mut files = files.peekable();
    let mut done = 0;
    while files.peek().is_some() {
        let some: Vec<Vec<u8>> = files.by_ref().take(FILES_AT_ONCE).collect();
        for (place, line) in differences(&mut runners, &some)?.into_iter().enumerate() {
            if let Some(line) = line {
                progress.shrinking();
                let file = some[place].clone();
                return tell_file(&mut runners[0], seed, done + place, file, line).map(Some);
            }
        }
        done += some.len();
        progress.say(done, count);
    }
    Ok(None)
}

/// The difference in each of some files, if there is one.
fn differences(runners: &mut [Runner<'_>], files: &[Vec<u8>]) -> Result<Vec<Option<Line>>, String> {
    let next = &AtomicUsize::new(0);
    let mut all = thread::scope(|scope| {
        let mut threads = Vec::new();
        for runner in runners {
            threads.push(scope.spawn(move || {
                let mut found = Vec::new();
                while let place = next.fetch_add(1, Ordering::Relaxed)
                    && let Some(file) = files.get(place)
                {
                    found.push((place, file_difference(runner, file)));
                }
                found
            }));
        }
        let found = threads.into_iter().flat_map(|thread| {
            let found = thread.join();
            found.expect("a comparison goes to its end")
        });
        found.collect::<Vec<_>>()
    });
    all.sort_by_key(|&(place, _)| place);
    all.into_iter().map(|(_, difference)| difference).collect()
}

fn file_difference(runner: &mut Runner<'_>, file: &[u8]) -> Result<Option<Line>, String> {
    let output = runner.run(file)?;
    Ok(first_difference(walk(file).as_bytes(), &output))
}

/// Why a search for something smaller ends early.
const CUT_OFF: &str = "the search is cut off";

/// Makes a file that differs small, and tells of it.
fn tell_file(
    runner: &mut Runner<'_>,
    seed: u64,
    number: usize,
    file: Vec<u8>,
    line: Line,
) -> Result<Different, String> {
    let mut search = Search::new();
    let mut best = file.clone();
    // A large file takes long to go through even if nothing is run any more.
    let shrunk = shrink_file(file, &mut |tried| {
        if !search.may_go_on() {
            return Err(CUT_OFF.to_string());
        }
        let differs = file_difference(runner, tried)?.is_some();
        if differs {
            best = tried.clone();
        }
        Ok(differs)
    });
    let small = match shrunk {
        Ok(small) => small,
        Err(trouble) if trouble == CUT_OFF => best,
        Err(trouble) => return Err(trouble),
    };

    let line = file_difference(runner, &small)?.unwrap_or(line);
    let how = search.told();
    let mut told = format!("a difference in files, seed {seed}, file {number}; {how}:\n");
    told += &told_file(&small);
    told += &format!("in line {} of the output\n", line.number);
    let (expected, actual) = (line.expected, line.actual);
    told += &format!("expected: {expected:.400}\nactual:   {actual:.400}\n");
    Ok(Different { told, file: small })
}

/// A file's bytes are shown up to so many.
const BYTES_TOLD: usize = 2000;

/// The bytes and the records of a file; a record that is repeated is told once.
fn told_file(file: &[u8]) -> String {
    let mut told = match file.len() {
        0..=BYTES_TOLD => format!("bytes:{}\n", hex(file)),
        length => format!("{length} bytes\n"),
    };
    let mut offset = 0;
    for alike in pieces(file).chunk_by(|left, right| left == right) {
        told += &match read(alike[0]) {
            Ok((record, _)) => format!("at {offset}: {record:?}"),
            Err(_) => format!("at {offset}: no record"),
        };
        if alike.len() > 1 {
            told += &format!(", {} times", alike.len());
        }
        told += "\n";
        offset += alike.concat().len();
    }
    told
}
