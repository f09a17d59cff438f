//! The judge run as a program: against itself, and against itself with a
//! planted difference.

use std::process::{Command, Output};

const JUDGE: &str = env!("CARGO_BIN_EXE_judge");

/// As long as it takes: beside other work a search of a minute may end early.
fn judge(words: &[&str]) -> Output {
    let mut command = Command::new(JUDGE);
    let output = command.args(words).env("JUDGE_SEARCH", "86400").output();
    output.expect("the judge can be run")
}

/// Compares with a command that begins with the judge.
fn compare(what: &str, run: &str, count: &str) -> (Option<i32>, String) {
    compare_by("--run", what, run, count)
}

fn compare_by(how: &str, what: &str, run: &str, count: &str) -> (Option<i32>, String) {
    let run = run.replace("JUDGE", &format!("'{JUDGE}'"));
    let output = judge(&["compare", what, how, &run, "--seed", "3", "--count", count]);
    let text = String::from_utf8(output.stdout).expect("the judge writes text");
    (output.status.code(), text)
}

#[test]
fn no_difference_from_itself() {
    for (what, run, count) in [
        ("lists", "JUDGE answer", "2000"),
        ("paths", "JUDGE paths", "2000"),
        ("builds", "JUDGE answer builds", "300"),
        ("walks", "JUDGE answer walks", "300"),
        ("cascades", "JUDGE answer walks", "300"),
    ] {
        let told = format!("compared {count} cases of {what}: no difference\n");
        assert_eq!(compare(what, run, count), (Some(0), told));
    }
    let told = "compared 100 files: no difference\n".to_string();
    assert_eq!(compare("files", "JUDGE walk", "100"), (Some(0), told));
}

#[test]
fn command_that_serves_is_compared_too() {
    let serve = |run: &str| {
        let run = format!("while [ \"$(head -c 1)\" = . ]; do {run}; printf '\\0\\0\\0\\0'; done");
        compare_by("--serve", "files", &run, "100")
    };
    let told = "compared 100 files: no difference\n".to_string();
    assert_eq!(serve("JUDGE walk <in >out"), (Some(0), told));
    let (status, told) = serve("JUDGE walk <in | sed 's/^refused 10/refused 1/' >out");
    assert_eq!(status, Some(1));
    assert!(told.contains("expected: refused 10 at 0\n"), "{told}");
    // One that does not serve is no difference, but told.
    assert_eq!(serve("exit 1"), (Some(2), String::new()));
}

#[test]
fn planted_difference_in_lists_is_made_small() {
    let run = "JUDGE answer | sed 's/^set 3:.*/set 3: 0/'";
    let (status, told) = compare("lists", run, "2000");
    assert_eq!(status, Some(1));
    assert!(told.contains("seed 3"), "{told}");
    assert!(told.contains("kind 1, 3 words: "), "{told}");
    assert!(told.contains("actual:\n  set 3: 0\n"), "{told}");
}

#[test]
fn planted_difference_in_paths_is_made_small() {
    let run = "JUDGE paths | sed 's/MissingSubject 1/MissingSubject 9/'";
    let (status, told) = compare("paths", run, "4000");
    assert_eq!(status, Some(1));
    assert!(told.contains("paths, seed 3, case "), "{told}");
    // Two steps and one subject, all without tags.
    let (steps, subject) = (" 0".repeat(2 * 22), " 0".repeat(38));
    let smallest = format!("case of 89 words: 2 2{steps} 1 1 0 1 1{subject}\n");
    let lines = "expected:\n  match no\n  diagnosis MissingSubject 1 1\n  \
                 weight0 0 0 0 0\n  weight1 0 0\n\
                 actual:\n  match no\n  diagnosis MissingSubject 9 1\n  \
                 weight0 0 0 0 0\n  weight1 0 0\n";
    assert!(told.ends_with(&format!("{smallest}{lines}")), "{told}");

    // An empty selector on one subject whose two classes or pseudos are 0.
    let run = "JUDGE paths | sed 's/refused 1$/refused 7/'";
    let (_, told) = compare("paths", run, "4000");
    let smallest = |counts| {
        let ids = " 0".repeat(32);
        format!("\ncase of 44 words: 0 0 0 0 1 1 0 0 0 0 {counts}{ids}\n")
    };
    assert!(
        told.contains(&smallest("2 0")) || told.contains(&smallest("0 2")),
        "{told}"
    );
}

#[test]
fn planted_difference_at_the_end_of_paths_is_made_small() {
    for (run, bytes, line) in [
        ("sed 's/cut short/cut/'", "00", "cut short"),
        ("sed '/too long/d'", "00 00 00 00 00 02 00 00", "too long"),
    ] {
        let (status, told) = compare("paths", &format!("JUDGE paths | {run}"), "20000");
        assert_eq!(status, Some(1));
        let smallest = format!("at the end, bytes: {bytes}\nexpected:\n  {line}\n");
        assert!(told.contains(&smallest), "{told}");
    }
    // A line too many where there is nothing to say.
    let (status, told) = compare("paths", "JUDGE paths; echo", "1");
    assert_eq!(status, Some(1));
    assert!(
        told.contains("the empty input\nexpected:\n  (nothing)\n"),
        "{told}"
    );
}

#[test]
fn planted_difference_in_builds_is_made_small() {
    // A sheet that is lent, one direct style, and the sheet read.
    let run = "JUDGE answer builds | sed 's/^s 0 0 1 0/s 0 0 1 1/'";
    let (status, told) = compare("builds", run, "2000");
    assert_eq!(status, Some(1));
    let items = "case of 3 items:\nop 1, 2 words: 0 67016\nop 2, 0 words:\nop 7, 0 words:\n";
    assert!(told.contains("builds, seed 3, case "), "{told}");
    assert!(told.contains(items), "{told}");
    // Far down in what is printed for a case.
    let run = "JUDGE answer builds | sed 's/^w 2 1 0 0/w 2 0 0 0/'";
    let (status, told) = compare("builds", run, "2000");
    assert_eq!(status, Some(1));
    let (_, expected) = told.split_once("expected:\n").expect("what is expected");
    let (expected, actual) = expected.split_once("actual:\n").expect("what is printed");
    assert!(expected.contains("  w 2 1 0 0\n"), "{told}");
    assert!(actual.contains("  w 2 0 0 0\n"), "{told}");
    let run = "JUDGE answer builds | sed 's/^too long/long/'";
    let (status, told) = compare("builds", run, "2000");
    assert_eq!(status, Some(1));
    assert!(told.contains("at the end, bytes: "), "{told}");
    assert!(told.contains("expected:\n  too long\n"), "{told}");
}

#[test]
fn planted_difference_in_walks_is_made_small() {
    // A rule that is listed: one step that asks for nothing.
    let run = "JUDGE answer walks | sed 's/^list 0$/list 1/'";
    let (status, told) = compare("walks", run, "2000");
    assert_eq!(status, Some(1));
    assert!(told.contains("walks, seed 3, case "), "{told}");
    let items = "case of 6 items:\nop 1, 3 words: 0 1 1\nop 1, 5 words: 8 0 0 0 1\n\
                 op 2, 4 words: 67016 6 1 1\nop 3, 1 words: 7\n\
                 op 4, 2 words: 0 7\nop 5, 2 words: 1 7\n";
    assert!(told.contains(items), "{told}");
    let (_, expected) = told.split_once("expected:\n").expect("what is expected");
    let (expected, actual) = expected.split_once("actual:\n").expect("what is printed");
    assert!(expected.contains("  list 0\n"), "{told}");
    assert!(actual.contains("  list 1\n"), "{told}");
    let run = "JUDGE answer walks | sed 's/^build 6/build 5/'";
    let (status, told) = compare("walks", run, "2000");
    assert_eq!(status, Some(1));
    let items = "case of 2 items:\nop 2, 1 words: 67016\nop 3, 2 words: 0 2\n";
    assert!(told.contains(items), "{told}");
}

#[test]
fn planted_difference_in_cascades_is_made_small() {
    // A direct style with one entry, a table, and a winner.
    let run = "JUDGE answer walks | sed 's/^winner 0 1 0 0/winner 0 1 0 9/'";
    let (status, told) = compare("cascades", run, "2000");
    assert_eq!(status, Some(1));
    assert!(told.contains("cascades, seed 3, case "), "{told}");
    let items = "case of 5 items:\nop 1, 7 words: 0 0 0 0 0 1 1\nop 1, 4 words: 60680 0 0 1\n\
                 op 2, 2 words: 67016 3\nop 3, 1 words: 7\nop 9, 2 words: 0 7\n";
    assert!(told.contains(items), "{told}");
    let run = "JUDGE answer walks | sed 's/^len 0 3/len 0 4/'";
    let (status, told) = compare("cascades", run, "2000");
    assert_eq!(status, Some(1));
    assert!(told.contains("case of 1 items:\nop 13, "), "{told}");
}

#[test]
fn planted_difference_in_files_is_made_small() {
    let (status, told) = compare("files", "JUDGE walk | sed 's/^state/State/'", "50");
    assert_eq!(status, Some(1));
    let smallest = "bytes: 01 00 00 00 00 00 08 0a 00 00 00 00\n";
    assert!(told.contains(smallest), "{told}");
    // A rule that wins: its group, one step, one entry, one enter.
    let run = "JUDGE walk | sed 's/: rule 1 source/: rule 2 source/'";
    let (status, told) = compare("files", run, "3000");
    assert_eq!(status, Some(1));
    let (_, records) = told.split_once("at 0: ").expect("the records");
    assert!(records.lines().count() <= 14, "{told}");
    assert!(
        told.contains("expected: winner 1: rule 1 source 0\n"),
        "{told}"
    );
    // Far down in a run, and nothing can be left out.
    let run = "JUDGE walk | sed 's/^refused 2 at 5/refused 2 at 6/'";
    let (status, told) = compare("files", run, "3000");
    assert_eq!(status, Some(1));
    assert!(told.contains("refused 2 at 6"), "{told}");
    // The file is kept as it is told.
    let kept = std::env::temp_dir().join(format!("judge-{}.house", std::process::id()));
    let path = kept.to_str().expect("a path of letters");
    let output = judge(&[
        "compare", "files", "--run", "cat", "--seed", "3", "--count", "9", "--keep", path,
    ]);
    let told = String::from_utf8(output.stdout).expect("the judge writes text");
    let bytes = std::fs::read(&kept).expect("the file is there");
    std::fs::remove_file(&kept).expect("it can go");
    assert_eq!(output.status.code(), Some(1));
    let hex: String = bytes.iter().map(|byte| format!(" {byte:02x}")).collect();
    assert!(told.contains(&format!("bytes:{hex}\n")), "{told}");
}

/// Stored files can be read back: length, file, length, output.
#[test]
fn stored_files_replay() {
    let path = std::env::temp_dir().join(format!("judge-{}.stored", std::process::id()));
    let name = path.to_str().expect("a path of letters");
    let output = judge(&[
        "store", "files", "--seed", "1", "--count", "90", "--into", name,
    ]);
    assert_eq!(output.status.code(), Some(0));
    let stored = std::fs::read(&path).expect("the file is there");
    std::fs::remove_file(&path).expect("it can go");
    let mut rest = &stored[..];
    let mut parts = Vec::new();
    while let Some((length, after)) = rest.split_first_chunk::<4>() {
        let (part, after) = after.split_at(u32::from_le_bytes(*length) as usize);
        parts.push(part);
        rest = after;
    }
    assert!(rest.is_empty());
    assert_eq!(parts.len(), 180);
    assert!(
        parts[1].starts_with(b"state 1 matched 0:\nstate 1 matched 0:\nstate 2 matched 2: 0 1\n")
    );
    let faults = parts.iter().skip(1).step_by(2);
    for number in [1, 2, 4, 6, 10] {
        let line = format!("refused {number} at ");
        let has = |text: &&&[u8]| String::from_utf8_lossy(text).contains(&line);
        assert!(faults.clone().any(|text| has(&text)), "{number}");
    }
}

#[test]
fn a_command_that_says_too_little_differs() {
    let (status, told) = compare("lists", "JUDGE answer | head -n 5", "100");
    assert_eq!(status, Some(1));
    assert!(told.contains("actual:\n  (nothing)\n"), "{told}");
}

#[test]
fn wrong_usage_and_missing_commands_give_2() {
    let wrong: [&[&str]; 6] = [
        &[],
        &["nonsense"],
        &["make", "lists"],
        &["make", "lists", "--seed", "x", "--count", "1"],
        &[
            "store", "files", "--seed", "1", "--count", "1", "--cases", "c",
        ],
        &[
            "make", "lists", "--seed", "1", "--count", "1", "--into", "d",
        ],
    ];
    for words in wrong {
        let output = judge(words);
        assert_eq!(output.status.code(), Some(2), "{words:?}");
        assert!(output.stdout.is_empty() && !output.stderr.is_empty());
    }
    let (status, told) = compare("lists", "exec 2>&-; no-such-command-here", "1");
    assert_eq!((status, told), (Some(2), String::new()));
    assert_eq!(judge(&["--help"]).status.code(), Some(0));
}
