//! The command line.

use std::collections::BTreeSet;
use std::fs;
use std::io::{self, Read, Write};
use std::path::Path;
use std::process::ExitCode;

use judge::batches::{Batch, Form, build_batches, list_batches, path_batches, walk_batches};
use judge::builds::BuildCase;
use judge::compare::{compare_cases, compare_files};
use judge::generate::random::Random;
use judge::options::{Options, What};
use judge::paths::PathCase;
use judge::run::Way;
use judge::walk;
use judge::walks::WalkCase;
use judge::words::Case;

const HELP: &str = "\
judge: answers test cases from the published code

  judge answer < BATCH
      one line for each case of a batch of lists
  judge paths < INPUT
      what `paths` has to print for a stream of path cases
  judge answer builds < INPUT
      what `builds` has to print for a stream of items about sheets
  judge answer walks < INPUT
      what `walks` has to print for a stream of items about tables; cascades
      are such items too
  judge walk < FILE
      what `walk` has to print for a file of house records
  judge make lists|paths|builds|walks|cascades --seed N --count N
      writes N cases to standard output, one after another
  judge make files --seed N --count N --into DIR
      writes N files of house records into DIR
  judge make files --length-prefixed --seed N --count N
      writes them to standard output one after another, each after its length
      in 4 bytes, little-endian
  judge compare lists|paths|builds|walks|cascades --run COMMAND --seed N
              --count N
      gives N cases, in batches of at most 256 KiB (lists), 1 MiB (paths) or
      4 MiB (the others), to a shell command on its standard input and
      compares its output with the judge's; some batches end inside a case or
      in a wrong one
  judge compare files --run COMMAND|--serve COMMAND --seed N --count N
              [--keep FILE]
      gives N files of house records to a shell command on its standard
      input, one a run and as many runs at once as there are cores, and
      compares its output with the judge's byte for byte; a file that differs
      is kept in FILE, made small. A command that serves is started once for
      each core, in a folder with document 01's example, the file `sample`; for
      each byte that it reads it answers the file `in` there by the file `out`
      and then writes 4 bytes, how the process that did so ended
  judge store lists|paths|builds|walks|cascades --seed N --count N
              --cases FILE --answers FILE
      writes N cases and the judge's answers to them; of builds, walks and
      cascades only small ones
  judge store files --seed N --count N --into FILE
      writes N small files of house records and what is printed for each, one
      after another: length, file, length, output, lengths in 4 bytes,
      little-endian; document 01's example is the first, and each fault that a
      small file can have is among them
  judge --help
      this text

A seed always gives the same cases. With a count of at least twice as many as
there are fixed cases (edges, and all small ones) every one of those is among
them; 20,000 is enough for any, 5,000 for walks and cascades, 3,000 for files. What is made or
stored are whole cases only.

Status: 0 all equal or done; 1 a difference, told on standard output, made as
small as it goes in 2,000 runs and a minute, or JUDGE_SEARCH seconds of the
environment; 2 wrong usage, or something could not be read, written or run.
";

fn main() -> ExitCode {
    let arguments: Vec<String> = std::env::args().skip(1).collect();
    match obey(&arguments) {
        Ok(status) => status,
        Err(trouble) => {
            eprintln!("judge: {trouble}");
            ExitCode::from(2)
        }
    }
}

fn obey(arguments: &[String]) -> Result<ExitCode, String> {
    let words: Vec<&str> = arguments.iter().map(String::as_str).collect();
    match words[..] {
        ["--help" | "-h" | "help"] => write(HELP.as_bytes())?,
        ["answer"] => write(Case::answers(&input()?).concat().as_bytes())?,
        ["answer", "builds"] => write(judge::builds::answer_stream(&input()?).as_bytes())?,
        ["answer", "walks"] => write(judge::walks::answer_stream(&input()?).as_bytes())?,
        ["paths"] => write(PathCase::answers(&input()?).concat().as_bytes())?,
        ["walk"] => write(walk::walk(&input()?).as_bytes())?,
        ["make", what, ..] => make(What::named(what)?, &words[2..])?,
        ["compare", what, ..] => return compare(What::named(what)?, &words[2..]),
        ["store", what, ..] => store(What::named(what)?, &words[2..])?,
        [] => return Err("no command; see `judge --help`".to_string()),
        [other, ..] => {
            return Err(format!(
                "`{other}` with these words is no command; see `judge --help`"
            ));
        }
    }
    Ok(ExitCode::SUCCESS)
}

fn input() -> Result<Vec<u8>, String> {
    let mut bytes = Vec::new();
    match io::stdin().read_to_end(&mut bytes) {
        Ok(_) => Ok(bytes),
        Err(error) => Err(format!("could not read standard input: {error}")),
    }
}

fn write(bytes: &[u8]) -> Result<(), String> {
    let mut out = io::stdout().lock();
    let written = out.write_all(bytes).and_then(|()| out.flush());
    written.map_err(|error| format!("could not write to standard output: {error}"))
}

fn write_file(path: &Path, bytes: &[u8]) -> Result<(), String> {
    fs::write(path, bytes).map_err(|error| format!("could not write {}: {error}", path.display()))
}

fn lists(seed: u64, count: usize) -> impl Iterator<Item = Case> {
    use judge::generate::{lists, stream};
    stream(lists::fixed(), lists::random_case, seed, count)
}

fn paths(seed: u64, count: usize) -> impl Iterator<Item = PathCase> {
    use judge::generate::{paths, stream};
    stream(paths::fixed(), paths::random_case, seed, count)
}

fn builds(seed: u64, count: usize) -> impl Iterator<Item = BuildCase> {
    use judge::generate::{build_edges, builds, stream};
    stream(build_edges::fixed(), builds::random_case, seed, count)
}

fn walks(seed: u64, count: usize) -> impl Iterator<Item = WalkCase> {
    use judge::generate::{stream, walk_edges, walks};
    stream(walk_edges::fixed(), walks::random_case, seed, count)
}

fn cascades(seed: u64, count: usize) -> impl Iterator<Item = WalkCase> {
    use judge::generate::{cascade_edges, cascades, stream};
    stream(cascade_edges::fixed(), cascades::random_case, seed, count)
}

/// Cases that are stored: those for which `fits` holds.
fn small<T: Clone>(
    mut fixed: Vec<T>,
    random: fn(&mut Random) -> T,
    fits: fn(&T) -> bool,
    seed: u64,
    count: usize,
) -> impl Iterator<Item = T> {
    fixed.retain(fits);
    let random = move |source: &mut Random| {
        loop {
            let case = random(source);
            if fits(&case) {
                return case;
            }
        }
    };
    judge::generate::stream(fixed, random, seed, count)
}

/// Most bytes of a case that is stored, and most words of memory it tells.
const MOST_STORED: usize = 4000;
const MOST_TOLD: usize = 4000;

fn small_builds(seed: u64, count: usize) -> impl Iterator<Item = BuildCase> {
    use judge::generate::{build_edges, builds};
    let fits = |case: &BuildCase| case.bytes() <= MOST_STORED;
    let fixed = build_edges::fixed();
    small(fixed, builds::random_case, fits, seed, count)
}

fn is_small_walk(case: &WalkCase) -> bool {
    case.bytes() <= MOST_STORED && case.words_told() <= MOST_TOLD
}

fn small_walks(seed: u64, count: usize) -> impl Iterator<Item = WalkCase> {
    use judge::generate::{walk_edges, walks};
    let fixed = walk_edges::fixed();
    small(fixed, walks::random_case, is_small_walk, seed, count)
}

fn small_cascades(seed: u64, count: usize) -> impl Iterator<Item = WalkCase> {
    use judge::generate::{cascade_edges, cascades};
    let fixed = cascade_edges::fixed();
    small(fixed, cascades::random_case, is_small_walk, seed, count)
}

/// Bytes of whole cases, and what is to be printed for them, case by case.
struct Made {
    bytes: Vec<u8>,
    answers: fn(&[u8]) -> Vec<String>,
}

impl Made {
    fn of<T: Form>(cases: impl Iterator<Item = T>) -> Self {
        let cases: Vec<T> = cases.collect();
        Self {
            bytes: Batch::new(&cases, &[]).bytes(),
            answers: T::answers,
        }
    }

    fn new(what: What, seed: u64, count: usize) -> Result<Self, String> {
        match what {
            What::Lists => Ok(Self::of(lists(seed, count))),
            What::Paths => Ok(Self::of(paths(seed, count))),
            What::Builds => Ok(Self::of(builds(seed, count))),
            What::Walks => Ok(Self::of(walks(seed, count))),
            What::Cascades => Ok(Self::of(cascades(seed, count))),
            What::Files => Err("files are not cases of a batch".to_string()),
        }
    }
}

fn files(seed: u64, count: usize) -> impl Iterator<Item = Vec<u8>> {
    use judge::generate::{file_edges, files, stream};
    stream(file_edges::fixed(), files::random_file, seed, count)
}

/// Bytes after their length.
fn prefixed(bytes: &[u8]) -> Vec<u8> {
    let length = u32::try_from(bytes.len()).expect("a file's length fits a word");
    [&length.to_le_bytes(), bytes].concat()
}

/// Most bytes of a file that is stored, and of what is printed for it; and of
/// one that is stored for a fault in it.
const MOST_OF_FILE: usize = 300;
const MOST_FOR_FAULT: usize = 1200;

/// Files that are stored: 01's example, one for each fault that a small file
/// can have, and any small ones.
fn small_files(seed: u64, count: usize) -> Vec<Vec<u8>> {
    use judge::generate::{file_edges, files};
    let fixed = file_edges::fixed();
    let mut stored = vec![fixed[0].clone()];
    let mut seen = BTreeSet::new();
    for file in fixed.iter().filter(|file| file.len() <= MOST_FOR_FAULT) {
        // Only the number of times that a fault comes does not matter.
        let faults = walk::walked(file).refused;
        if faults
            .into_iter()
            .filter(|&fault| seen.insert(fault))
            .count()
            > 0
        {
            stored.push(file.clone());
        }
    }
    let fits =
        |file: &Vec<u8>| file.len() <= MOST_OF_FILE && walk::walk(file).len() <= MOST_OF_FILE;
    let more = count.saturating_sub(stored.len());
    stored.extend(small(fixed, files::random_file, fits, seed, more));
    stored.truncate(count);
    stored
}

fn store_files(words: &[&str]) -> Result<(), String> {
    let options = Options::read(words, &["--seed", "--count", "--into"])?;
    let mut bytes = Vec::new();
    for file in small_files(options.seed()?, options.count()?) {
        bytes.extend(prefixed(&file));
        bytes.extend(prefixed(walk::walk(&file).as_bytes()));
    }
    write_file(Path::new(options.text("--into")?), &bytes)
}

fn make(what: What, words: &[&str]) -> Result<(), String> {
    if let (What::Files, Some((&"--length-prefixed", words))) = (what, words.split_first()) {
        let options = Options::read(words, &["--seed", "--count"])?;
        for file in files(options.seed()?, options.count()?) {
            write(&prefixed(&file))?;
        }
        return Ok(());
    }
    if what == What::Files {
        let options = Options::read(words, &["--seed", "--count", "--into"])?;
        let (seed, count) = (options.seed()?, options.count()?);
        let into = Path::new(options.text("--into")?);
        fs::create_dir_all(into)
            .map_err(|error| format!("could not make {}: {error}", into.display()))?;
        for (number, file) in files(seed, count).enumerate() {
            write_file(&into.join(format!("{number:06}.house")), &file)?;
        }
        return Ok(());
    }
    let options = Options::read(words, &["--seed", "--count"])?;
    write(&Made::new(what, options.seed()?, options.count()?)?.bytes)
}

fn store(what: What, words: &[&str]) -> Result<(), String> {
    if what == What::Files {
        return store_files(words);
    }
    let options = Options::read(words, &["--seed", "--count", "--cases", "--answers"])?;
    let (seed, count) = (options.seed()?, options.count()?);
    let made = match what {
        What::Builds => Made::of(small_builds(seed, count)),
        What::Walks => Made::of(small_walks(seed, count)),
        What::Cascades => Made::of(small_cascades(seed, count)),
        _ => Made::new(what, seed, count)?,
    };
    write_file(Path::new(options.text("--cases")?), &made.bytes)?;
    let answers = (made.answers)(&made.bytes).concat();
    write_file(Path::new(options.text("--answers")?), answers.as_bytes())
}

fn compare(what: What, words: &[&str]) -> Result<ExitCode, String> {
    if what == What::Files {
        return compare_all_files(words);
    }
    let options = Options::read(words, &["--run", "--seed", "--count"])?;
    let command = options.text("--run")?;
    let (seed, count) = (options.seed()?, options.count()?);
    let name = what.name();
    let difference = match what {
        What::Lists => {
            let batches = list_batches(lists(seed, count), seed);
            compare_cases(name, command, seed, count, batches)?
        }
        What::Paths => {
            let batches = path_batches(paths(seed, count), seed);
            compare_cases(name, command, seed, count, batches)?
        }
        What::Builds => {
            let batches = build_batches(builds(seed, count), seed);
            compare_cases(name, command, seed, count, batches)?
        }
        What::Walks => {
            let batches = walk_batches(walks(seed, count), seed);
            compare_cases(name, command, seed, count, batches)?
        }
        What::Cascades => {
            let batches = walk_batches(cascades(seed, count), seed);
            compare_cases(name, command, seed, count, batches)?
        }
        What::Files => None,
    };
    told(
        difference,
        &format!("compared {count} cases of {name}: no difference\n"),
    )
}

fn compare_all_files(words: &[&str]) -> Result<ExitCode, String> {
    let options = Options::read_or(
        words,
        &["--seed", "--count"],
        &["--run", "--serve", "--keep"],
    )?;
    let (seed, count) = (options.seed()?, options.count()?);
    let way = match (options.text("--run"), options.text("--serve")) {
        (Ok(command), Err(_)) => Way::Each(command),
        (Err(_), Ok(command)) => Way::Served(command),
        _ => return Err("either `--run` or `--serve` is wanted".to_string()),
    };
    let found = compare_files(way, seed, count, files(seed, count))?;
    if let (Some(different), Ok(path)) = (&found, options.text("--keep")) {
        write_file(Path::new(path), &different.file)?;
    }
    let difference = found.map(|different| different.told);
    told(
        difference,
        &format!("compared {count} files: no difference\n"),
    )
}

/// Tells of a difference, or that there is none.
fn told(difference: Option<String>, none: &str) -> Result<ExitCode, String> {
    match difference {
        None => write(none.as_bytes()).map(|()| ExitCode::SUCCESS),
        Some(difference) => write(difference.as_bytes()).map(|()| ExitCode::from(1)),
    }
}
