//! Tables: by hand from document 01, and whether the fixed cases are what
//! they are meant to be.

use std::collections::BTreeMap;

use judge::batches::{Form, bytes_of, walk_batches};
use judge::builds::Item;
use judge::builds::model::Rule;
use judge::generate::paths::Tags;
use judge::generate::random::Random;
use judge::generate::stream;
use judge::generate::walk_edges::{
    S, all_clauses, fixed, p8, small_table, start, subject_a, subject_b, subject_c, walk_example,
};
use judge::generate::walks::{
    AMPLE, ROOM, body, build, enter, enter_row, fixed_ends, group, part, random_case, random_end,
    rooms, root, stored, tell, write,
};
use judge::walks::image::{HEAD, Lent, STATE_ROWS, TRANSITION_ROWS};
use judge::walks::table::Row;
use judge::walks::{ENTER, Machine, PART, WalkCase, answer_stream};

fn printed(items: &[Item]) -> String {
    let words: Vec<u32> = items.iter().flat_map(Item::words).collect();
    answer_stream(&bytes_of(&words))
}

/// The lines of the last items, after those of the first.
fn after(before: &[Item], items: &[Item]) -> String {
    let (first, all) = (printed(before), printed(&[before, items].concat()));
    all.strip_prefix(&first)
        .expect("the same lines")
        .to_string()
}

/// A transition's row as it is told.
fn row(begin: [u32; 3], subject: &Tags) -> String {
    let subject: Row = subject.row();
    let words = begin.iter().chain(&subject);
    words.map(|word| format!(" {word}")).collect()
}

#[test]
fn the_example_of_01_by_hand() {
    let lines = printed(&walk_example().items);
    let lists = |state: &str, list: &str| format!("part 0 {state}\nlist{list}\nrules{list}\n");
    let mut expected = "build 0\nenter 0 1 7\nenter 0 1 7\nenter 0 2 7\nenter 0 3 7\n".to_string();
    expected += &lists("0 0", "");
    expected += &lists("0 0", "");
    expected += &lists("0 2", " 0 1");
    expected += &lists("2 3", " 0");
    // Root 0 8; type 1: 9; type 9 there the same; type 5 there: 9 and both.
    expected += "h 7 0 4 4 3 4 0 0\n\
                 s 2 0 1 3 0 2 4 2 0 4 3 0\n\
                 c 0 8 9 9 0 0\n\
                 m 0 1 0 0\n";
    let typed = Tags::of_type;
    let rows = [
        row([0, 1, 4], &typed(1)),
        row([1, 1, 3], &typed(9)),
        row([1, 2, 0], &typed(5)),
        row([0, 3, 0], &typed(5)),
    ];
    expected += &format!("t{}\n", rows.concat());
    assert_eq!(lines, expected);
}

#[test]
fn p8_by_hand() {
    let empty = "part 0 0 0\nlist\nrules\n";
    let expected = format!(
        "build 0\nenter 0 1 7\n{empty}enter 0 2 7\n{empty}enter 0 3 7\n\
         part 0 0 1\nlist 0\nrules 0\n\
         h 7 0 4 2 1 3 0 0\ns 1 0 1 1 0 2 2 0 3 2 1 0\nc 0 1 0 0\nm 0 0\nt\n"
    );
    assert_eq!(printed(&p8().items), expected);
}

#[test]
fn the_small_table_by_hand() {
    let told = [tell([8, 9, 10, 3, 3 * 41])];
    let (a, b) = (subject_a(), subject_b());
    let rows = [row([0, 1, 0], &a), row([1, 2, 0], &b), row([2, 2, 0], &b)];
    let expected = format!(
        "h 7 0 3 10 3 3 0 0\ns 5 0 1 8 2 2 10 3 3\n\
         c 0 8 16 32 40 9 17 41 9 18\nm 0 4 1\nt{}\n",
        rows.concat()
    );
    assert_eq!(after(&small_table(AMPLE), &told), expected);
    assert_eq!(
        printed(&[root(0), root(u32::MAX)]),
        "root 0 0\nroot 0 4294967295\n"
    );
}

/// The first line of an entering of C, and whether it wrote.
fn entered(before: &[Item], number: u32, stamp: u32, row: &Row) -> (String, bool) {
    let told = || tell([u32::MAX; 5]);
    let items = [told(), enter_row(number, stamp, row), told()];
    let lines = after(before, &items);
    let lines: Vec<&str> = lines.lines().collect();
    (lines[5].to_string(), lines[..5] != lines[6..])
}

#[test]
fn refusals_of_an_entering_by_hand() {
    let refused = |refusal: u32| (format!("enter {refusal}"), false);
    let done = || ("enter 0 3 7".to_string(), true);
    let good: Row = subject_c().row();
    let mut not_ascending = good;
    not_ascending[4] = 2;
    not_ascending[7] = 5;
    let mut too_many = not_ascending;
    too_many[5] = 17;
    let full = [&small_table(AMPLE)[..], &[rooms([ROOM, 11, 14, 4, 164])]].concat();
    let broken = [&full[..], &[write(HEAD, 1, &[2])]].concat();
    // Each with all that come after it.
    assert_eq!(entered(&broken, 3, 8, &too_many), refused(11));
    assert_eq!(entered(&full, 3, 8, &too_many), refused(4));
    assert_eq!(entered(&full, 3, 7, &too_many), refused(4));
    assert_eq!(entered(&full, 2, 8, &too_many), refused(4));
    assert_eq!(entered(&full, 2, 7, &too_many), refused(2));
    assert_eq!(entered(&full, 2, 7, &not_ascending), refused(1));
    assert_eq!(entered(&full, 2, 7, &good), refused(5));
    assert_eq!(entered(&small_table(AMPLE), 2, 7, &good), done());
    // Each room, just enough and one short. A transition is no room that an
    // entering needs.
    let enough = [ROOM, 12, 14, 4, 164];
    let lent = |lent: [u32; 5]| [&small_table(AMPLE)[..], &[rooms(lent)]].concat();
    assert_eq!(entered(&lent(enough), 2, 7, &good), done());
    for (piece, refusal) in [(0, 11), (1, 5), (2, 5), (3, 5)] {
        let mut short = enough;
        short[piece] -= 1;
        assert_eq!(entered(&lent(short), 2, 7, &good), refused(refusal));
    }
    let mut short = enough;
    short[4] -= 1;
    assert_eq!(entered(&lent(short), 2, 7, &good), done());
    // Full: a state that is held is given, and nothing written.
    let full = lent([ROOM, 9, 10, 3, 123]);
    let held: Row = Tags {
        part_tag: Some(1),
        ..subject_a()
    }
    .row();
    assert_eq!(
        entered(&full, 0, 7, &held),
        ("enter 0 1 7".to_string(), false)
    );
    assert_eq!(entered(&full, 2, 7, &good), refused(5));
}

#[test]
fn what_an_entering_writes_by_hand() {
    let mut given: Row = subject_c().row();
    given[0] = 5;
    given[3] = 77;
    given[7] = 8;
    given[37] = 9;
    let items = [enter_row(2, S, &given), tell([8, 12, 15, 5, 4 * 41])];
    let lines = after(&small_table(AMPLE), &items);
    let mut kept: Row = given;
    kept[0] = 1;
    kept[3] = 0;
    let kept: String = kept.iter().map(|word| format!(" {word}")).collect();
    let (a, b) = (subject_a(), subject_b());
    let rows = [row([0, 1, 0], &a), row([1, 2, 0], &b), row([2, 2, 4], &b)];
    let expected = format!(
        "enter 0 3 7\nh 7 0 4 14 4 4 0 0\ns 5 0 1 8 2 2 10 3 3 14 4 0\n\
         c 0 8 16 32 40 9 17 41 9 18 9 17 18 41 0\nm 0 4 1 0 0\nt{} 2 3 0{kept}\n",
        rows.concat()
    );
    assert_eq!(lines, expected);
}

#[test]
fn build_and_lists_by_hand() {
    let small = small_table(AMPLE);
    let lists = "part 0 2 3\nlist 1\nrules 1\npart 4\nlist\nrules\npart 4\nlist\nrules\n";
    let asked = [part(2, S), part(3, S), part(2, S + 1)];
    assert_eq!(after(&small, &asked), lists);
    // 11 of the sheet, 6, 5; the table's own words do not matter.
    let lent = |sheet: u32, states: u32, cursors: u32| rooms([sheet, states, cursors, 0, 0]);
    for (item, ranking, line) in [
        (lent(ROOM - 1, 2, 4), 2, "build 11\n"),
        (lent(ROOM, 2, 4), 2, "build 6\n"),
        (lent(ROOM, 2, 5), 1, "build 5\n"),
        (lent(ROOM, 3, 4), 1, "build 5\n"),
        (lent(ROOM, 3, 5), 1, "build 0\n"),
    ] {
        assert_eq!(after(&small, &[item, build(9, ranking)]), line);
    }
    let items = [
        write(HEAD, 1, &[2]),
        part(0, S),
        build(8, 1),
        part(0, 8),
        part(0, S),
    ];
    let lines = "part 11\nlist\nrules\nbuild 0\npart 0 0 0\nlist\nrules\npart 4\nlist\nrules\n";
    assert_eq!(after(&small, &items), lines);
    // Old rows stay, and no old link is followed.
    let items = [build(8, 1), tell([8, 9, 10, 3, 2])];
    let lines = "build 0\nh 8 1 1 5 0 0 0 0\ns 5 0 0 8 2 2 10 3 3\n\
                 c 0 8 16 32 40 9 17 41 9 18\nm 0 4 1\nt 0 1\n";
    assert_eq!(after(&small, &items), lines);
}

#[test]
fn the_512th_state_by_hand() {
    let case = fixed()
        .into_iter()
        .find(|case| case.items.len() > 500)
        .expect("a long walk");
    let lines = printed(&case.items);
    let lines: Vec<&str> = lines.lines().collect();
    for (state, line) in lines.iter().enumerate().take(512).skip(1) {
        assert_eq!(*line, format!("enter 0 {state} 7"));
    }
    // Sets 508 to 511 hold 7, 8, 8 and 9 of the 2,304 numbers in all.
    let rest = [
        "enter 5",
        "enter 0 511 7",
        "enter 5",
        "enter 0 4 7",
        "part 0 2272 2279",
    ];
    assert_eq!(lines[512..517], rest);
}

#[test]
fn tables_that_no_calls_make_by_hand() {
    let small = small_table(AMPLE);
    // A second state 1: the first counts, unless a transition says otherwise.
    let copy = [
        write(2, 10, &[9, 17, 41]),
        write(3, 3, &[0, 4]),
        write(STATE_ROWS, 9, &[13, 5, 0]),
        write(HEAD, 2, &[4, 13, 5]),
    ];
    let other = Tags {
        part_tag: Some(1),
        ..subject_a()
    };
    let asked = [enter(0, S, &subject_a()), enter(0, S, &other)];
    let items = [&copy[..], &asked].concat();
    assert_eq!(after(&small, &items), "enter 0 1 7\nenter 0 1 7\n");
    let items = [&copy[..], &[write(TRANSITION_ROWS, 1, &[3])], &asked].concat();
    assert_eq!(after(&small, &items), "enter 0 3 7\nenter 0 1 7\n");
    // A chain that loops: a new subject is hooked to the third row on the
    // way, row 0; the links 1, 1, 1 lead to it three times.
    let looped = [
        write(TRANSITION_ROWS, 2, &[1]),
        enter(0, S, &other),
        tell([8, 3, 0, 0, 3]),
    ];
    let lines = "enter 0 1 7\nh 7 0 3 10 3 4 0 0\ns 5 0 1\nc\nm\nt 0 1 4\n";
    assert_eq!(after(&small, &looped), lines);
    // Rows 0 and 1 in turn: 0, 1, 0. Row 0 is the third and last.
    let looped = [
        write(TRANSITION_ROWS, 2, &[2]),
        write(TRANSITION_ROWS, 43, &[1]),
        enter(0, S, &other),
        tell([0, 0, 0, 0, 44]),
    ];
    let lines = after(&small, &looped);
    let words: Vec<&str> = lines.lines().last().expect("a line").split(' ').collect();
    assert_eq!((words[3], words[44]), ("4", "1"));
    // A link past the count leads nowhere, and later to what stands there.
    let ahead = [
        write(STATE_ROWS, 5, &[4]),
        enter(0, S, &other),
        enter(1, S, &other),
        enter(1, S, &subject_b()),
        tell([8, 9, 0, 0, 0]),
    ];
    let lines = "enter 0 1 7\nenter 0 3 7\nenter 0 2 7\n\
                 h 7 0 4 14 6 6 0 0\ns 5 0 1 8 2 4 10 3 3\nc\nm\nt\n";
    assert_eq!(after(&small, &ahead), lines);
    // The sheet after build: rule 0 now asks for type 2; B lists it.
    let changed = [stored(1289, &[2]), enter(0, S, &subject_b()), part(3, S)];
    let lines = "enter 0 3 7\npart 0 3 4\nlist 0\nrules 0\n";
    assert_eq!(after(&small, &changed), lines);
}

#[test]
fn descendant_and_child_by_hand() {
    // Under a, b: the child's cursor is gone after one more, the descendant's
    // stays, also where it has matched.
    let typed = Tags::of_type;
    let rule = |code: u32| body(&[typed(1), typed(2)], &[code]);
    let before = start(&group(&[rule(0), rule(1)]), AMPLE);
    let mut items = Vec::new();
    for (parent, tag) in [(0, 1), (1, 2), (2, 2), (1, 3), (4, 2)] {
        items.push(enter(parent, S, &typed(tag)));
    }
    items.extend([2, 3].map(|state| part(state, S)));
    let lines = "enter 0 1 7\nenter 0 2 7\nenter 0 3 7\nenter 0 4 7\nenter 0 3 7\n\
                 part 0 0 2\nlist 0 1\nrules 0 1\npart 0 2 3\nlist 1\nrules 1\n";
    assert_eq!(after(&before, &items), lines);
}

/// The clauses of row 11 that a table breaks, one by one: a second reading,
/// which goes on after the first.
fn broken(rules: &[Rule], lent: Lent<'_>) -> Vec<&'static str> {
    let mut broken = Vec::new();
    let mut test = |holds: bool, name: &'static str| {
        if !holds && !broken.contains(&name) {
            broken.push(name);
        }
    };
    let word = |piece: usize, address: u64| -> u64 {
        let address = usize::try_from(address).expect("an address");
        lent[piece].get(address).copied().unwrap_or(0).into()
    };
    let room = |piece: usize| lent[piece].len() as u64;
    let [ranking, states, cursors, matched, transitions] = [1, 2, 3, 4, 5].map(|at| word(0, at));
    test(ranking <= 1, "ranking");
    test(states >= 1, "a state");
    test(states <= 512, "states");
    test(3 * states <= room(1), "state room");
    test(cursors <= room(2), "cursor room");
    test(matched <= room(3), "matched room");
    test(41 * transitions <= room(4), "transition room");
    let steps = |rule: u64| match rules.get(rule as usize) {
        Some(rule) => rule.body.steps.len() as u64,
        None => 0,
    };
    let ascends = |piece: usize, from: u64, to: u64| {
        let at = |place: u64| word(piece, place);
        (from + 1..to.max(from + 1)).all(|place| at(place - 1) < at(place))
    };
    let names = [
        ["cursor end falls", "cursors ascend", "cursor exists"],
        ["matched end falls", "matched ascend", "rule exists"],
    ];
    for (list, used) in [(0, cursors), (1, matched)] {
        let [falls, ascend, exists] = names[list];
        let piece = 2 + list;
        let mut end = 0;
        for state in 0..states.min(515) {
            let next = word(1, 3 * state + list as u64);
            test(next >= end, falls);
            let to = next.min(used).min(room(piece));
            test(ascends(piece, end, to), ascend);
            let there = |place: u64| match list {
                0 => word(2, place) % 8 < steps(word(2, place) / 8),
                _ => word(3, place) < rules.len() as u64,
            };
            test((end..to).all(there), exists);
            end = next;
        }
        test(
            states == 0 || end == used,
            ["last cursor end", "last matched end"][list],
        );
    }
    if states > 0 {
        let with_steps = (0..rules.len() as u64).filter(|&rule| steps(rule) > 0);
        let wanted: Vec<u64> = with_steps.map(|rule| 8 * rule).collect();
        let end = word(1, 0).min(3000);
        let held: Vec<u64> = (0..end).map(|place| word(2, place)).collect();
        test(held == wanted && word(1, 1) == 0, "root");
    }
    for row in 0..transitions.min(600) {
        let at = 41 * row;
        test(word(4, at) < states, "parent");
        test(word(4, at + 1) < states, "child");
        test(word(4, at + 3) <= 1, "type flag");
        test(word(4, at + 5) <= 1, "part flag");
        let (classes, pseudos) = (word(4, at + 7), word(4, at + 8));
        test(classes <= 16, "classes");
        test(pseudos <= 16, "pseudos");
        test(
            ascends(4, at + 9, at + 9 + classes.min(16)),
            "classes ascend",
        );
        test(
            ascends(4, at + 25, at + 25 + pseudos.min(16)),
            "pseudos ascend",
        );
    }
    broken
}

/// Every clause is broken alone by some case, and each pair's second half is
/// in shape. The two readings agree.
#[test]
fn each_clause_has_its_pair() {
    let mut alone: BTreeMap<&str, usize> = BTreeMap::new();
    let mut machine = Machine::default();
    for clause in all_clauses() {
        let mut run = |items: &[Item]| {
            for item in items {
                machine.item(item.op, &item.payload);
            }
            let rules = machine.look().map(|model| model.rules.clone());
            let line = machine.item(PART, &[0, S]);
            match rules {
                Ok(rules) => (line, broken(&rules, machine.lent())),
                Err(_) => (line, vec!["sheet"]),
            }
        };
        run(&clause.before);
        let (line, bad) = run(&clause.bad);
        assert!(
            line.starts_with("part 11\n") && !bad.is_empty(),
            "{line} {bad:?}"
        );
        let (line, good) = run(&clause.good);
        assert!(line.starts_with("part 0 "), "{line} {bad:?} {good:?}");
        assert!(good.is_empty(), "{good:?}");
        if let [clause] = bad[..] {
            *alone.entry(clause).or_default() += 1;
        }
    }
    let all = [
        "sheet",
        "ranking",
        "a state",
        "states",
        "state room",
        "cursor room",
        "matched room",
        "transition room",
        "cursor end falls",
        "cursors ascend",
        "cursor exists",
        "last cursor end",
        "matched end falls",
        "matched ascend",
        "rule exists",
        "last matched end",
        "root",
        "parent",
        "child",
        "type flag",
        "part flag",
        "classes",
        "pseudos",
        "classes ascend",
        "pseudos ascend",
    ];
    let missing: Vec<_> = all
        .iter()
        .filter(|name| !alone.contains_key(*name))
        .collect();
    assert!(missing.is_empty(), "{missing:?} of {alone:?}");
    println!("{} clauses: {alone:?}", all_clauses().len());
}

/// The two readings of row 11 agree on whatever the cases leave, and the
/// published code is in play often.
#[test]
fn readings_of_the_shape_agree() {
    let mut random = Random::new(11);
    let mut machine = Machine::default();
    let mut in_shape = [0, 0];
    let mut in_play = [0, 0];
    let cases = (0..300).map(|_| random_case(&mut random));
    let fixed = fixed().into_iter().filter(|case| case.items.len() < 400);
    for case in fixed.chain(cases) {
        for item in case.items {
            let played = machine.in_play();
            let line = machine.item(item.op, &item.payload);
            if item.op == ENTER && line.starts_with("enter 0 ") {
                in_play[usize::from(played)] += 1;
            }
            if !matches!(item.op, ENTER | PART) {
                continue;
            }
            if let Ok(model) = machine.look() {
                let rules = model.rules.clone();
                let read = machine.table().is_ok();
                assert_eq!(read, broken(&rules, machine.lent()).is_empty());
                in_shape[usize::from(read)] += 1;
            }
        }
    }
    assert!(in_shape.iter().all(|&count| count > 1000), "{in_shape:?}");
    assert!(in_play.iter().all(|&count| count > 500), "{in_play:?}");
    assert!(in_play[1] > in_play[0], "{in_play:?}");
    println!("in shape {in_shape:?}, in play {in_play:?}");
}

#[test]
fn ends_of_a_stream() {
    assert_eq!(answer_stream(&[]), "");
    assert_eq!(answer_stream(&bytes_of(&[0, 0, 18, 1, 5])), "op 0\nop 18\n");
    assert_eq!(answer_stream(&bytes_of(&[8, 1])), "cut short\n");
    assert_eq!(answer_stream(&bytes_of(&[8, 32_769])), "too long\n");
    assert_eq!(answer_stream(&bytes_of(&[8, 32_768])), "cut short\n");
    for end in fixed_ends() {
        let line = answer_stream(&end);
        assert!(line == "cut short\n" || line == "too long\n", "{end:?}");
    }
    // A payload cut short reads as zeros.
    let lines = "build 11\nenter 11\npart 11\nlist\nrules\nh\ns\nc\nm\nt\nroot 0 0\n";
    let items = [3, 4, 5, 6, 7, 8].map(|op| judge::generate::builds::item(op, &[]));
    assert_eq!(printed(&items), lines);
}

/// 5,000 cases hold all fixed ones and ends, in few batches.
#[test]
fn five_thousand_walks_hold_everything_fixed() {
    let count = 5000;
    let fixed = fixed();
    let cases: Vec<WalkCase> = stream(fixed.clone(), random_case, 5, count).collect();
    assert!(cases[..fixed.len()] == fixed);
    let bytes: Vec<usize> = cases.iter().map(WalkCase::bytes).collect();
    assert!(bytes.iter().all(|&bytes| bytes <= WalkCase::LONGEST_BATCH));
    for case in &cases {
        assert!(case.items.iter().all(|item| item.payload.len() <= 32_768));
    }
    let batches: Vec<_> = walk_batches(cases.into_iter(), 5).collect();
    let whole: usize = batches.iter().map(|batch| batch.cases.len()).sum();
    assert_eq!(whole, count);
    for end in fixed_ends() {
        assert!(batches.iter().any(|batch| batch.tail == end));
    }
    let mut random = Random::new(2);
    let ends: Vec<String> = (0..50)
        .map(|_| answer_stream(&random_end(&mut random)))
        .collect();
    assert!(ends.iter().any(|lines| lines.ends_with("too long\n")));
    assert!(ends.iter().any(|lines| lines.ends_with("cut short\n")));
    println!(
        "{} fixed cases of {} bytes, {} ends, {} batches of {} bytes",
        fixed.len(),
        bytes[..fixed.len()].iter().sum::<usize>(),
        fixed_ends().len(),
        batches.len(),
        bytes.iter().sum::<usize>()
    );
}
