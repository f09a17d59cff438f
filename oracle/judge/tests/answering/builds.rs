//! Sheets: by hand from document 01, and whether the fixed cases are what
//! they are meant to be.

use std::collections::BTreeMap;

use judge::batches::{Form, build_batches, bytes_of};
use judge::builds::image::{self, NEXT, SHEET_WORDS, rule_word, step_word};
use judge::builds::{BuildCase, Item, Machine, STORE, answer_stream};
use judge::generate::build_edges::{clauses, fixed};
use judge::generate::builds::{
    Entries, Given, Group, ROOM, cascade, case, fixed_ends, group, item, look, new, random_case,
    random_end, read, read_rule, rule, store, style,
};
use judge::generate::random::Random;
use judge::generate::stream;

/// What is printed for a case, without its first two lines.
fn printed(items: &[Item]) -> String {
    let printed = answer_stream(&bytes_of(&case(items.to_vec()).words()));
    let (new, rest) = printed.split_at("new 0\nnew 0\n".len());
    assert_eq!(new, "new 0\nnew 0\n");
    rest.to_string()
}

/// The words after each of some tags, one line each.
fn verdicts(items: &[Item]) -> Vec<String> {
    printed(items).lines().map(str::to_string).collect()
}

fn row(words: &[u32]) -> [u32; 22] {
    let mut row = [0; 22];
    row[..words.len()].copy_from_slice(words);
    row
}

fn two_rules() -> [Given; 2] {
    let mut first = [0; 22];
    first[..9].copy_from_slice(&[9, 4, 0, 77, 3, 2, 8, 2, 8]);
    first[14..16].copy_from_slice(&[1, 0]);
    [
        Given {
            rows: vec![first, row(&[0, 0, 1, 6])],
            codes: vec![1],
            entries: vec![[1, 3, 10], [65_536 + 2, 1, 20]],
        },
        Given::default(),
    ]
}

#[test]
fn sources_orders_and_weights_by_hand() {
    let items = [
        style(0, 2, 1),
        group(0, 1, &[]),
        group(0, 7, &two_rules()),
        read(0),
    ];
    // The empty group took index 1. Class 8 is held once.
    let expected = "style 0\ngroup 0\ngroup 0\n\
                    s 0 2 1 0\n\
                    d 2 0 1\n\
                    e 0 0 100\n\
                    r 7 2 0 2 2\n\
                    t 1 4 0 0 2 2 2 8 0 1\n\
                    t 0 0 1 6 0 0\n\
                    c 1\n\
                    e 1 3 10\n\
                    e 2 1 20\n\
                    w 2 2 1 1\n\
                    w 4 2 0 0\n\
                    r 7 2 1 0 0\n\
                    w 0 0 0 0\n\
                    w 0 0 0 0\n";
    assert_eq!(printed(&items), expected);
    assert_eq!(printed(&[read(1)]), "s 0 0 0 1\n");
}

#[test]
fn a_cascade_is_shifted_by_hand() {
    // Sources 1 and 3 onto a sheet whose next index is 2: 3 and 5, then 6. A
    // sheet with only an empty group takes no index.
    let items = [
        group(1, 0, &[]),
        cascade(0),
        style(1, 1, 0),
        group(1, 0, &[]),
        rule(1, 2, &Given::default()),
        style(0, 3, 0),
        style(0, 4, 0),
        cascade(0),
        style(0, 5, 0),
        read(0),
    ];
    let rest = "s 0 1 4 0\nd 3 0 0\nd 4 1 0\nd 1 3 0\nd 5 6 0\n\
                r 2 5 0 0 0\nw 0 0 0 0\nw 0 0 0 0\n";
    let printed = printed(&items);
    assert!(printed.ends_with(rest), "{printed}");
    assert!(!printed.contains("cascade 2") && !printed.contains("cascade 7"));
}

#[test]
fn refusals_by_hand() {
    let refused = |item: Item| verdicts(&[item]).remove(0);
    let entries = Entries::of(&[[5, 0, 0], [5, 4, 0]]);
    assert_eq!(refused(entries.style(0, 8)), "style 6");
    assert_eq!(refused(entries.style(0, 7)), "style 6");
    assert_eq!(
        refused(
            Entries {
                count: 3,
                ..entries
            }
            .style(0, 7)
        ),
        "style 2"
    );
    let entries = Entries::of(&[[5, 0, 0], [5, 3, 0]]);
    assert_eq!(refused(entries.style(0, 7)), "style 1");
    assert_eq!(refused(style(0, 0, 32)), "style 0");
    assert_eq!(refused(style(0, 0, 33)), "style 2");

    let mut wrong = two_rules();
    wrong[0].codes.push(2);
    assert_eq!(refused(group(0, 0, &wrong)), "group 3");
    wrong[0].codes = vec![2];
    wrong[0].entries[1][0] = 1;
    assert_eq!(refused(group(0, 0, &wrong)), "group 6");
    wrong[0].codes = vec![0];
    assert_eq!(refused(group(0, 0, &wrong)), "group 1");
    wrong[0].rows[1][4] = 9;
    assert_eq!(refused(rule(0, 0, &wrong[0])), "rule 2");
    assert_eq!(refused(rule(0, 8, &wrong[0])), "rule 6");
    // The first rule's 1 before the second's 2; the number of rules first.
    let given = [two_rules()[0].clone(), wrong[0].clone()];
    let mut both = Group::of(0, &given);
    assert_eq!(refused(both.item(0)), "group 2");
    both.entries.properties[1] = 1;
    assert_eq!(refused(both.item(0)), "group 1");
    both.count = 3;
    assert_eq!(refused(both.item(0)), "group 2");
    // Nothing of a refused group stays, and it takes no index.
    let after = [group(0, 0, &given), style(0, 1, 0), read(0)];
    assert_eq!(printed(&after), "group 2\nstyle 0\ns 0 0 1 0\nd 1 0 0\n");
}

#[test]
fn the_last_index_by_hand() {
    let mut items = vec![group(0, 0, &[]); 65_537];
    items.extend([style(0, 0, 0), cascade(0), read(0)]);
    let lines = verdicts(&items);
    assert!(lines[..65_536].iter().all(|line| line == "group 0"));
    let rest = ["group 7", "style 7", "cascade 0", "s 0 0 0 1"];
    assert_eq!(lines[65_536..], rest);
}

#[test]
fn rules_and_lookups_by_hand() {
    let items = [
        rule(0, 3, &two_rules()[0]),
        read_rule(0, 0, 1),
        read_rule(0, 0, 2),
        read_rule(0, 1, 2),
    ];
    let expected = "rule 0\nr 3 0 0 2 2\nw 4 2 0 0\nr 3 0 0 2 2\nw 6\nr 9\nw 9\n";
    assert_eq!(printed(&items), expected);
    let found = |kind: &str, value: &str, resource: &str| {
        format!("la 0 1\nlb 0 1\nlc 0 {kind}\nld 0{value}\nle 0{resource}\nlf 0 2\nlg 3 6\n")
    };
    let on = |kind: u32| Entries::of(&[[3, 0, 1], [6, kind, 50]]).look(6);
    assert_eq!(printed(&[on(0)]), found("0 50", " 0 50", ""));
    assert_eq!(printed(&[on(1)]), found("1 50", " 1 50", " 50"));
    assert_eq!(printed(&[on(2)]), found("2 50", "", ""));
    assert_eq!(printed(&[on(3)]), found("3 50", "", ""));
    let refused = "la 6\nlb 6\nlc 6\nld 6\nle 6\nlf 6\nlg\n";
    assert_eq!(printed(&[on(4)]), refused);
    let absent = "la 0 0\nlb 0\nlc 0\nld 0\nle 0\nlf 0 0\nlg\n";
    assert_eq!(printed(&[look(0, 1, 0, 3)]), absent);
}

#[test]
fn rooms_and_stores_by_hand() {
    let items = [
        new(0, ROOM - 1),
        style(0, 0, 0),
        read_rule(0, 0, 0),
        cascade(1),
        new(0, ROOM),
        rule(0, 0, &two_rules()[0]),
        store(0, step_word(0, 0), 2),
        read(0),
        store(0, step_word(0, 0), 0),
        store(0, rule_word(0, 2), u32::MAX),
        read_rule(0, 0, 0),
        store(0, NEXT, 65_537),
        style(0, 0, 0),
    ];
    let expected = "new 11\nstyle 11\nr 11\nw 11\ncascade 11\nnew 0\nrule 0\n\
                    s 11\nr 0 0 4294967295 2 2\nw 2 2 1 0\nstyle 11\n";
    assert_eq!(printed(&items), expected);
}

#[test]
fn ends_of_a_stream() {
    assert_eq!(answer_stream(&[]), "");
    assert_eq!(answer_stream(&bytes_of(&[0, 0, 12, 1, 5])), "op 0\nop 12\n");
    assert_eq!(
        answer_stream(&bytes_of(&[0, 0, 12, 1])),
        "op 0\ncut short\n"
    );
    assert_eq!(answer_stream(&bytes_of(&[9, 32_769])), "too long\n");
    assert_eq!(answer_stream(&bytes_of(&[9, 32_768])), "cut short\n");
    for end in fixed_ends() {
        let line = answer_stream(&end);
        assert!(line == "cut short\n" || line == "too long\n", "{end:?}");
    }
    // A payload cut short reads as zeros, and lists as what is there.
    let short = [
        item(1, &[0, ROOM]),
        item(2, &[]),
        item(2, &[0, 1, 1, 9, 9, 9, 5, 0]),
    ];
    let printed: Vec<u32> = short.iter().flat_map(Item::words).collect();
    assert_eq!(
        answer_stream(&bytes_of(&printed)),
        "new 0\nstyle 0\nstyle 2\n"
    );
}

/// The clauses of row 11 that a sheet breaks, one by one: a second reading,
/// which goes on after the first.
fn broken(words: &[u32]) -> Vec<&'static str> {
    let mut broken = Vec::new();
    let mut test = |holds: bool, name: &'static str| {
        if !holds && !broken.contains(&name) {
            broken.push(name);
        }
    };
    let word = |address: u64| -> u64 {
        let address = usize::try_from(address).expect("an address");
        words.get(address).copied().unwrap_or(0).into()
    };
    let [rules, steps, ids, entries, styles, style_entries, next] = [0, 1, 2, 3, 4, 5, 6].map(word);
    test(rules <= 256, "rules");
    test(steps <= 2048, "steps");
    test(ids <= 8192, "ids");
    test(next <= 65_536, "next");
    test(styles <= 64, "styles");
    test(style_entries <= 2048, "style entries");
    test(entries + style_entries <= 4096, "sum of entries");
    let ascends = |from: u64, count: u64| {
        let at = |place: u64| word(from + place);
        (1..count.min(5000)).all(|place| at(place - 1) < at(place))
    };
    let (mut step_end, mut entry_end) = (0, 0);
    for rule in 0..rules.min(300) {
        let at = 8 + 5 * rule;
        test(word(at) <= 7, "rule origin");
        test(word(at + 1) <= 65_535, "rule source");
        let (next_step, next_entry) = (word(at + 3), word(at + 4));
        test(next_step >= step_end, "step end falls");
        test(next_step <= step_end + 8, "steps of a rule");
        if next_step > step_end && step_end < steps {
            test(word(1288 + 23 * step_end + 22) == 0, "first combinator");
        }
        test(next_entry >= entry_end, "entry end falls");
        test(next_entry <= entry_end + 32, "entries of a rule");
        if next_entry > entry_end {
            let count = next_entry.min(entries) - entry_end.min(entries);
            test(ascends(48_392 + entry_end, count), "rule properties");
        }
        (step_end, entry_end) = (next_step, next_entry);
    }
    test(step_end == steps, "last step end");
    test(entry_end == entries, "last entry end");
    let mut sum = 0;
    for step in 0..steps.min(3000) {
        let at = 1288 + 23 * step;
        let (classes, pseudos) = (word(at + 4), word(at + 5));
        test(word(at) <= 1 && word(at + 2) <= 1, "flags");
        test(classes <= 8, "classes of a step");
        test(pseudos <= 8, "pseudos of a step");
        test(ascends(at + 6, classes.min(8)), "classes ascend");
        test(ascends(at + 14, pseudos.min(8)), "pseudos ascend");
        test(word(at + 22) <= 1, "combinator");
        sum += classes + pseudos;
    }
    test(sum == ids, "sum of ids");
    for entry in 0..entries.min(5000) {
        test(word(48_392 + entry) <= 65_535, "rule property");
        test(word(52_488 + entry) <= 3, "rule kind");
    }
    for entry in 0..style_entries.min(5000) {
        test(word(60_872 + entry) <= 65_535, "style property");
        test(word(62_920 + entry) <= 3, "style kind");
    }
    let mut end = 0;
    for style in 0..styles.min(100) {
        let at = 60_680 + 3 * style;
        test(word(at) <= 7, "style origin");
        test(word(at + 1) <= 65_535, "style source");
        let next = word(at + 2);
        test(next >= end, "style end falls");
        test(next <= end + 32, "entries of a style");
        if next > end {
            let count = next.min(style_entries) - end.min(style_entries);
            test(ascends(60_872 + end, count), "style properties");
        }
        end = next;
    }
    test(end == style_entries, "last style end");
    broken
}

/// Every clause is broken alone by some case, but for two that others imply;
/// and each pair's second half is in shape. The two readings agree.
#[test]
fn each_clause_has_its_pair() {
    let mut alone: BTreeMap<&str, usize> = BTreeMap::new();
    // One after another, as in a stream: the words are kept.
    let mut machine = Machine::default();
    for case in clauses() {
        let mut reads = Vec::new();
        for item in &case.items {
            let lines = machine.item(item.op, &item.payload);
            if item.op == 7 && item.payload == [0] {
                let broken = broken(&machine.words(0)[..SHEET_WORDS]);
                assert_eq!(lines == "s 11\n", !broken.is_empty(), "{broken:?}");
                reads.push(broken);
            }
        }
        let [bad, _, good, ..] = &reads[..] else {
            panic!("{} reads", reads.len());
        };
        assert!(!bad.is_empty() && good.is_empty(), "{bad:?} {good:?}");
        if let [clause] = bad[..] {
            *alone.entry(clause).or_default() += 1;
        }
    }
    let all = [
        "rules",
        "ids",
        "next",
        "styles",
        "sum of entries",
        "rule origin",
        "rule source",
        "step end falls",
        "steps of a rule",
        "first combinator",
        "entry end falls",
        "entries of a rule",
        "rule properties",
        "last step end",
        "last entry end",
        "flags",
        "classes of a step",
        "pseudos of a step",
        "classes ascend",
        "pseudos ascend",
        "combinator",
        "sum of ids",
        "rule property",
        "rule kind",
        "style property",
        "style kind",
        "style origin",
        "style source",
        "style end falls",
        "entries of a style",
        "style properties",
        "last style end",
    ];
    let missing: Vec<_> = all
        .iter()
        .filter(|name| !alone.contains_key(*name))
        .collect();
    assert!(missing.is_empty(), "{missing:?} of {alone:?}");
}

/// The two readings of row 11 agree on what stores by chance leave.
#[test]
fn readings_of_the_shape_agree() {
    let mut random = Random::new(11);
    let mut machine = Machine::default();
    let mut in_shape = [0, 0];
    for _ in 0..2500 {
        for item in random_case(&mut random).items {
            machine.item(item.op, &item.payload);
            if item.op == STORE {
                for which in 0..2 {
                    let words = &machine.words(which)[..SHEET_WORDS];
                    let read = image::read(words).is_some();
                    assert_eq!(read, broken(words).is_empty());
                    in_shape[usize::from(read)] += 1;
                }
            }
        }
    }
    assert!(in_shape.iter().all(|&count| count > 100), "{in_shape:?}");
}

/// 20,000 cases hold all fixed ones and ends, in few batches.
#[test]
fn twenty_thousand_builds_hold_everything_fixed() {
    let count = 20_000;
    let fixed = fixed();
    let cases: Vec<BuildCase> = stream(fixed.clone(), random_case, 5, count).collect();
    assert!(cases[..fixed.len()] == fixed);
    let bytes: Vec<usize> = cases.iter().map(BuildCase::bytes).collect();
    assert!(bytes.iter().all(|&bytes| bytes <= BuildCase::LONGEST_BATCH));
    for case in &cases {
        assert!(case.items.iter().all(|item| item.payload.len() <= 32_768));
    }
    let batches: Vec<_> = build_batches(cases.into_iter(), 5).collect();
    let whole: usize = batches.iter().map(|batch| batch.cases.len()).sum();
    assert_eq!(whole, count);
    for end in fixed_ends() {
        assert!(batches.iter().any(|batch| batch.tail == end));
    }
    let mut random = Random::new(2);
    let ends: Vec<String> = (0..50)
        .map(|_| answer_stream(&random_end(&mut random)))
        .collect();
    assert!(ends.iter().any(|lines| lines.ends_with("too long\n")));
    assert!(ends.iter().any(|lines| lines.ends_with("cut short\n")));
    println!(
        "{} fixed cases of {} bytes, {} ends, {} batches of {} bytes",
        fixed.len(),
        bytes[..fixed.len()].iter().sum::<usize>(),
        fixed_ends().len(),
        batches.len(),
        bytes.iter().sum::<usize>()
    );
}
