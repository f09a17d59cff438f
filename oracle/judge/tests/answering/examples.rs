//! Document 01's own examples, each refusal that a case can meet, and the
//! forms in which cases are given.

use std::collections::BTreeSet;

use judge::batches::{Batch, Form, bytes_of, path_batches};
use judge::generate::files::worked_example;
use judge::generate::random::Random;
use judge::generate::{all_lists, lists, paths, stream};
use judge::paths::{PathCase, answer_stream};
use judge::records::Record::{self, *};
use judge::records::file_of;
use judge::walk::walk;
use judge::words::{Case, answer, answer_batch};

const A: u32 = 1;
const B: u32 = 2;
const C: u32 = 3;

/// A row of a step (22 words) or subject (38 words).
fn row<const LENGTH: usize>(tag: u32, classes: &[u32]) -> [u32; LENGTH] {
    let mut row = [0; LENGTH];
    row[0] = u32::from(tag != 0);
    row[1] = tag;
    row[4] = classes.len() as u32;
    row[6..][..classes.len()].copy_from_slice(classes);
    row
}

/// A stream of one case, with counts that say what is lent.
fn on_path(steps: &[[u32; 22]], codes: &[u32], subjects: &[[u32; 38]]) -> Vec<u32> {
    let mut words = vec![steps.len() as u32; 2];
    words.extend(steps.as_flattened());
    words.extend([codes.len() as u32; 2]);
    words.extend(codes);
    words.extend([subjects.len() as u32; 2]);
    words.extend(subjects.as_flattened());
    words
}

fn types(steps: &[u32], codes: &[u32], path: &[u32]) -> Vec<u32> {
    let steps: Vec<_> = steps.iter().map(|&tag| row(tag, &[])).collect();
    let path: Vec<_> = path.iter().map(|&tag| row(tag, &[])).collect();
    on_path(&steps, codes, &path)
}

/// What is printed for a stream of words.
fn printed(words: &[u32]) -> String {
    answer_stream(&bytes_of(words)).concat()
}

fn line(kind: u32, body: Vec<u32>) -> String {
    answer(&Case::new(kind, body))
}

#[test]
fn worked_example_prints_what_01_lists() {
    let expected = "state 1 matched 0:\n\
                    state 1 matched 0:\n\
                    state 2 matched 2: 0 1\n\
                    state 3 matched 1: 0\n\
                    changed 2: 1 2\n\
                    changed 0:\n\
                    winner 1: rule 1 source 1\n\
                    winner 3: none\n";
    assert_eq!(walk(&file_of(&worked_example())), expected);
}

/// Steps, combinators, path, diagnosis.
type Example = (&'static [u32], &'static [u32], &'static [u32], &'static str);

#[test]
fn marked_examples() {
    let examples: [Example; 6] = [
        (&[], &[], &[], "fits"),
        (&[], &[], &[A], "EmptySelectorWithNonEmptyPath"),
        (&[A, B], &[1], &[A, B, C], "TrailingSubjects 2 2"),
        (&[A, B], &[1], &[A, B, B], "fits"),
        (&[A, B, C], &[1, 0], &[A, B, A, B], "MissingSubject 2 4"),
        (&[A, B, C], &[1, 0], &[A, B, A], "MissingDescendant 1 1"),
    ];
    for (steps, codes, path, diagnosis) in examples {
        let fits = if diagnosis == "fits" { "yes" } else { "no" };
        let n = steps.len();
        let expected =
            format!("match {fits}\ndiagnosis {diagnosis}\nweight0 0 0 0 {n}\nweight1 0 {n}\n");
        assert_eq!(printed(&types(steps, codes, path)), expected);
    }
    // P7, as lists and as a step on a subject.
    for (haystack, answer) in [(&[2, 3, 5][..], "yes"), (&[2, 6], "no")] {
        let lists = [&[2, 2, 5], haystack].concat();
        assert_eq!(line(2, lists), format!("subset {answer}"));
        let on = on_path(&[row(0, &[2, 5])], &[], &[row(0, haystack)]);
        assert!(printed(&on).starts_with(&format!("match {answer}\n")));
    }
    // P8.
    let of_type = |id| Item { which: 0, id };
    let needs_type = |id| Requirement { which: 0, id };
    let child = Step { combinator: 0 };
    let file = [
        Sheet {
            ranking: 0,
            stamp: 0,
        },
        Group { origin: 0 },
        Rule,
        child,
        needs_type(A),
        child,
        needs_type(B),
        End,
        of_type(C),
        Enter { parent: 0 },
        of_type(A),
        Enter { parent: 1 },
        of_type(B),
        Enter { parent: 2 },
    ];
    let expected = "state 1 matched 0:\nstate 2 matched 0:\nstate 3 matched 1: 0\n";
    assert_eq!(walk(&file_of(&file)), expected);
}

/// 01's "Paths" by trying every choice of places: the first step has the
/// first place, the last the last, child means the next, descendant any later.
fn fits_by_places(steps: &[u32], codes: &[u32], path: &[u32]) -> bool {
    if steps.is_empty() {
        return path.is_empty();
    }
    let all: Vec<u32> = (0..path.len() as u32).collect();
    all_lists(&all, steps.len()).iter().any(|places| {
        let order = |(pair, &code): (&[u32], &u32)| match code {
            0 => pair[1] == pair[0] + 1,
            _ => pair[1] > pair[0],
        };
        places.len() == steps.len()
            && places[0] == 0
            && places[places.len() - 1] as usize + 1 == path.len()
            && places.windows(2).zip(codes).all(order)
            && places
                .iter()
                .zip(steps)
                .all(|(&place, &step)| path[place as usize] == step)
    })
}

#[test]
fn published_matching_is_01s_on_every_small_path() {
    let mut compared = 0;
    for steps in all_lists(&[A, B], 3) {
        let between = steps.len().saturating_sub(1);
        let codes = all_lists(&[0, 1], between);
        for codes in codes.iter().filter(|codes| codes.len() == between) {
            for path in all_lists(&[A, B], 4) {
                let fits = fits_by_places(&steps, codes, &path);
                let expected = if fits { "match yes\n" } else { "match no\n" };
                assert!(printed(&types(&steps, codes, &path)).starts_with(expected));
                compared += 1;
            }
        }
    }
    assert_eq!(compared, 43 * 31);
}

/// Sets are counted, part and type apart in one weight and together in the
/// other; an unsorted subject does not matter to a weight.
#[test]
fn weights() {
    let mut step = row(A, &[5, 4, 5]);
    step[2] = u32::MAX;
    step[5] = 4;
    step[14..18].copy_from_slice(&[9, 9, 9, 0]);
    let words = on_path(&[step, row(B, &[])], &[1], &[row(0, &[2, 1])]);
    let expected = "refused 1\nrefused 1\nweight0 2 2 1 2\nweight1 4 3\n";
    assert_eq!(printed(&words), expected);
}

#[test]
fn refusals_of_path_cases() {
    let mut nine = row(0, &[]);
    nine[4] = 9;
    let mut seventeen = row(0, &[]);
    seventeen[5] = 17;
    let one = row(0, &[]);
    let unsorted = [row(0, &[2, 1])];
    let long = [seventeen];
    let weight = |steps: usize| format!("weight0 0 0 0 {steps}\nweight1 0 {steps}\n");
    let untyped = "weight0 0 0 0 0\nweight1 0 0\n".to_string();
    // Each with the faults that come after it.
    let cases = [
        (2, on_path(&[nine], &[7], &long), None),
        (2, types(&[A; 9], &[0; 8], &[]), None),
        (
            2,
            on_path(&[one], &[7], &long),
            Some("refused 3\n".to_string()),
        ),
        (2, types(&[A; 8], &[0; 7], &[A; 33]), Some(weight(8))),
        (3, on_path(&[one, one], &[7, 7], &unsorted), None),
        (6, on_path(&[one, one], &[2], &unsorted), None),
        (1, on_path(&[one, one], &[1], &unsorted), Some(untyped)),
    ];
    for (refusal, words, weight) in cases {
        let refused = format!("refused {refusal}\n");
        let weight = weight.unwrap_or(refused.clone());
        assert_eq!(printed(&words), refused.repeat(2) + &weight);
    }
    // What stands past the counts given is not looked at; more than is lent
    // is 2, also where it is far more than could be lent.
    let mut words = on_path(&[row(0, &[]), nine], &[7], &[row(0, &[]), row(0, &[2, 1])]);
    for place in [0, 2 + 44, 5 + 44] {
        words[place] = u32::from(place != 2 + 44);
    }
    let fits = "match yes\ndiagnosis fits\nweight0 0 0 0 0\nweight1 0 0\n";
    assert_eq!(printed(&words), fits);
    for place in [0, 2 + 44, 5 + 44] {
        let mut past = words.clone();
        past[place] = u32::MAX;
        assert!(printed(&past).starts_with("refused 2\nrefused 2\n"));
    }
}

/// The end of the input or a number over 300, whichever comes first.
#[test]
fn form_of_path_streams() {
    let case = types(&[A], &[], &[A]);
    let fits = "match yes\ndiagnosis fits\nweight0 0 0 0 1\nweight1 0 1\n";
    let bytes = bytes_of(&case);
    assert!(answer_stream(&[]).is_empty());
    for end in 1..bytes.len() {
        assert_eq!(answer_stream(&bytes[..end]), ["cut short\n"]);
        let after = [&bytes[..], &bytes[..end]].concat();
        assert_eq!(answer_stream(&after), [fits, "cut short\n"]);
    }
    assert_eq!(printed(&[&case[..], &case].concat()), fits.repeat(2));
    // The places of the three numbers.
    for place in [1, 3 + 22, 5 + 22] {
        for number in [301, u32::MAX] {
            let mut long = case.clone();
            long[place] = number;
            assert_eq!(printed(&long), "too long\n");
            assert_eq!(printed(&long[..=place]), "too long\n");
            let cut = &bytes_of(&long)[..4 * place + 3];
            assert_eq!(answer_stream(cut), ["cut short\n"]);
        }
        let mut most = case[..place].to_vec();
        most.push(300);
        assert_eq!(printed(&most), "cut short\n");
    }
    let mut lent = on_path(&[row(A, &[]); 300], &[9; 300], &[row(A, &[]); 300]);
    let refused = "refused 2\n".repeat(3);
    assert_eq!(printed(&lent), refused);
    for (place, count) in [(0, 1), (2 + 300 * 22, 0), (4 + 300 * 23, 1)] {
        lent[place] = count;
    }
    assert_eq!(printed(&lent), fits);
}

/// 3, 8, 9 and 11 cannot be met by house records: combinators come with their
/// steps, no list is longer than the 4,096 entries of a sheet, no rule is
/// asked for by number, and sheet and table are never lent by hand.
#[test]
fn refusals_of_house_records() {
    let sheet = Sheet {
        ranking: 0,
        stamp: 0,
    };
    let group = Group { origin: 0 };
    let entry = |property| Entry {
        property,
        kind: 0,
        number: 0,
    };
    let refused = |records: &[Record]| walk(&file_of(records));
    let unsorted = [sheet, Direct { origin: 0 }, entry(2), entry(2), group];
    assert_eq!(refused(&unsorted), "refused 1 at 24\n");
    let mut steps = vec![sheet, group, Rule];
    steps.extend([Step { combinator: 0 }; 9]);
    assert_eq!(refused(&steps), "refused 2 at 25\n");
    let beyond = [sheet, End, Enter { parent: 1 }, Enter { parent: 0 }];
    assert_eq!(refused(&beyond), "refused 4 at 7\nstate 0 matched 0:\n");
    assert_eq!(refused(&[sheet, Group { origin: 8 }]), "refused 6 at 6\n");
    let mut groups = vec![sheet];
    groups.extend(vec![group; 65_537]);
    groups.push(End);
    assert_eq!(refused(&groups), "refused 7 at 131080\n");
    assert_eq!(refused(&[]), "refused 10 at 0\n");
    assert_eq!(refused(&[sheet, Rule]), "refused 10 at 6\n");

    // 5: nine classes, one rule each, give 512 states beside the root.
    let mut rooms = vec![sheet, group];
    for id in 0..9 {
        let needed = Requirement { which: 2, id };
        rooms.extend([Rule, Step { combinator: 0 }, needed]);
    }
    rooms.push(End);
    for bits in 0..512 {
        let classes = (0..9).filter(|id| bits >> id & 1 == 1);
        rooms.extend(classes.map(|id| Item { which: 2, id }));
        rooms.push(Enter { parent: 0 });
    }
    let out = refused(&rooms);
    let lines: Vec<&str> = out.lines().collect();
    assert_eq!(lines.len(), 512);
    assert!(lines[510].starts_with("state 511 "));
    assert!(lines[511].starts_with("refused 5 at "));
}

#[test]
fn form_of_batches() {
    let set = Case::new(1, vec![3, 1, 3]);
    let cases = [
        set.clone(),
        Case::new(10, vec![1]),
        Case::new(1, vec![0; 4097]),
        Case::new(5, vec![2, 1]),
        Case::new(6, vec![65_535, 65_536]),
        set,
    ];
    let batch = Batch::new(&cases, &[]).bytes();
    let cut = &batch[..batch.len() - 1];
    let lines = ["set 2: 1 3", "unknown", "long", "short", "refused", "cut"];
    assert_eq!(answer_batch(cut), lines);
    assert_eq!(answer_batch(&[0]), ["cut"]);
    assert!(answer_batch(&[]).is_empty());
}

#[test]
fn steps_on_subjects() {
    let on = |step: [u32; 22], subject: [u32; 38]| line(7, [&step[..], &subject].concat());
    let step = row(A, &[5, 2, 5]);
    let fits = "step yes w 0 2 0 1 2 1 owned yes";
    assert_eq!(on(step, row(A, &[2, 3, 5])), fits);
    let other = "step no w 0 2 0 1 2 1 owned no";
    assert_eq!(on(step, row(A, &[2, 3])), other);
    assert_eq!(on(step, row(B, &[2, 5])), other);
    let unsorted = "step refused 1 w 0 2 0 1 2 1 owned yes";
    assert_eq!(on(step, row(A, &[5, 2, 2])), unsorted);
    let mut over = row(A, &[5, 2]);
    over[5] = 17;
    let refused = "step refused 2 w 0 2 0 1 2 1 owned refused 2";
    assert_eq!(on(step, over), refused);
    let mut over = step;
    over[4] = 9;
    let refused = "step refused 2 w refused 2 owned refused 2";
    assert_eq!(on(over, row(A, &[5, 2])), refused);
    // A flag of 2 is set, a part is asked for, and a pseudo counts first.
    let mut full = step;
    full[2..6].copy_from_slice(&[2, 0, 3, 1]);
    let mut subject = row(A, &[2, 5]);
    assert_eq!(on(full, subject), "step no w 1 2 1 1 3 2 owned no");
    subject[2] = u32::MAX;
    subject[5] = 1;
    assert_eq!(on(full, subject), "step yes w 1 2 1 1 3 2 owned yes");
    assert_eq!(line(7, vec![0; 59]), "short");
    let empty = "step yes w 0 0 0 0 0 0 owned yes";
    assert_eq!(line(7, vec![0; 60]), empty);
    assert_eq!(line(7, [vec![0; 60], vec![9; 3]].concat()), empty);
    assert_eq!(line(8, vec![0; 60]), "unknown");
}

/// Lists hold what they promise, and matching says yes exactly where there is
/// nothing to diagnose.
#[test]
fn generated_cases_keep_their_bounds() {
    let mut random = Random::new(7);
    for case in (0..3000).map(|_| lists::random_case(&mut random)) {
        assert!((1..=7).contains(&case.kind) && case.body.len() <= 401);
        assert!(matches!(case.kind, 2 | 5) || case.body.len() <= 201);
    }
    for _ in 0..3000 {
        let answer = paths::random_case(&mut random).answer();
        assert_eq!(
            answer.contains("match yes\n"),
            answer.contains("diagnosis fits\n")
        );
    }
}

/// 20,000 cases hold all fixed ones and all fixed ends, and what stands before
/// an end is whole.
#[test]
fn twenty_thousand_hold_everything_fixed() {
    let count = 20_000;
    let cases = || stream(paths::fixed(), paths::random_case, 5, count);
    let held: BTreeSet<Vec<u32>> = cases().map(|case| case.words()).collect();
    assert!(
        paths::fixed()
            .iter()
            .all(|case| held.contains(&case.words()))
    );
    let batches: Vec<_> = path_batches(cases(), 5).collect();
    let whole: usize = batches.iter().map(|batch| batch.cases.len()).sum();
    assert_eq!(whole, count);
    let tails: BTreeSet<&[u8]> = batches.iter().map(|batch| &batch.tail[..]).collect();
    assert!(
        paths::fixed_ends()
            .iter()
            .all(|end| tails.contains(&end[..]))
    );
    assert!(tails.contains(&[][..]));
    for end in paths::fixed_ends() {
        let lines = answer_stream(&end);
        assert!(lines == ["cut short\n"] || lines == ["too long\n"]);
    }
    for batch in batches {
        assert!(
            4 * batch
                .cases
                .iter()
                .map(|case| case.words().len())
                .sum::<usize>()
                <= 1 << 20
        );
    }
    assert_eq!(PathCase::LONGEST_BATCH, 1 << 20);
    println!(
        "{} fixed cases, {} ends",
        paths::fixed().len(),
        paths::fixed_ends().len()
    );
}
