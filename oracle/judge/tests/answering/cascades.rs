//! Winners, changes and channels: by hand from document 01, and whether the
//! cases are what they are meant to be.

use std::collections::BTreeMap;

use judge::batches::{Form, bytes_of, walk_batches};
use judge::builds::Item;
use judge::builds::model::{Model, Rule};
use judge::generate::cascade_edges::{
    entry, equal_sheet, example_sheet, example_walk, fixed, rule, start, walk_example,
};
use judge::generate::cascade_lists::{affected, compare, has, set, union};
use judge::generate::cascades::{changed, channels, random_case, resources, winner};
use judge::generate::paths::Tags;
use judge::generate::random::Random;
use judge::generate::stream;
use judge::generate::walk_edges::S;
use judge::generate::walks::{AMPLE, ROOM, enter, rooms, sheet, stored, write};
use judge::walks::image::{HEAD, MATCHED, STATE_ROWS};
use judge::walks::{CHANGED, Machine, WINNER, WalkCase, answer_stream};

fn printed(items: &[Item]) -> String {
    let words: Vec<u32> = items.iter().flat_map(Item::words).collect();
    answer_stream(&bytes_of(&words))
}

/// The lines of the last items, after those of the first.
fn after(before: &[Item], items: &[Item]) -> String {
    let (first, all) = (printed(before), printed(&[before, items].concat()));
    let lines = all.strip_prefix(&first).expect("the same lines");
    lines.to_string()
}

/// The four lines about a winner.
fn won(winner: &str, kind: &str, plain: &str, resource: &str) -> String {
    let line = |tag: &str, rest: &str| format!("{tag} 0{rest}\n");
    let lines = [line("winner", winner), line("kind", kind)];
    lines.concat() + &line("plain", plain) + &line("resource", resource)
}

fn nobody() -> String {
    won(" 0", "", "", "")
}

fn list(tag: &str, ids: &[u32]) -> String {
    let ids: String = ids.iter().map(|id| format!(" {id}")).collect();
    let count = ids.split_whitespace().count();
    format!("{tag} 0 {count}\nids{ids}\npast 0\n")
}

fn refused(tag: &str, refusal: u32) -> String {
    format!("{tag} {refusal}\nids\npast 0\n")
}

fn pair(old: u32, new: u32) -> [u32; 4] {
    [old, S, new, S]
}

#[test]
fn the_example_of_01_by_hand() {
    let lines = printed(&walk_example().items);
    let asked = [
        "build 0\nenter 0 1 7\nenter 0 1 7\nenter 0 2 7\nenter 0 3 7\n".to_string(),
        list("changed", &[1, 2]),
        list("changed", &[]),
        won(" 2 1 1", " 0 30", " 0 30", ""),
        nobody(),
    ];
    assert!(lines.starts_with(&asked.concat()), "{lines}");
    let walk = example_walk(0);
    let items = [winner(0, S, 1), winner(3, S, 1), winner(2, S, 2)];
    let lines = [
        won(" 1 0 0", " 0 10", " 0 10", ""),
        won(" 2 0 1", " 0 20", " 0 20", ""),
        won(" 2 1 1", " 0 40", " 0 40", ""),
    ];
    assert_eq!(after(&walk, &items), lines.concat());
    // Channels of 1 and 2, of none, and past the masks.
    let masks = [1, 6, 0x8000_0000];
    let items = [
        channels(pair(3, 2), &masks),
        channels(pair(0, 1), &masks),
        channels(pair(3, 2), &masks[..2]),
        channels(pair(3, 2), &[]),
        channels([3, S, 4, S], &masks),
    ];
    let lines = "channels 0 2147483654\nnamed 3\nlowest 1\n\
                 channels 0 0\nnamed 0\nlowest none\n\
                 channels 0 6\nnamed 2\nlowest 1\n\
                 channels 0 0\nnamed 0\nlowest none\nchannels 4\n";
    assert_eq!(after(&walk, &items), lines);
}

/// One subject under the root of a sheet, under a ranking.
fn entered(model: &Model, ranking: u32, subject: &Tags) -> Vec<Item> {
    let mut items = start(model, ranking);
    items.push(enter(0, S, subject));
    items
}

#[test]
fn a_winning_expression_by_hand() {
    let subject = Tags::of_type(1);
    for (kind, plain, resource) in [(0, " 0 8", ""), (1, " 1 8", " 8"), (2, "", ""), (3, "", "")] {
        let mut model = Model::default();
        model.push_style(0, vec![entry(5, 0, 9)]);
        model.push_rules(0, vec![rule(&subject, &[entry(5, kind, 8)])]);
        let walk = entered(&model, 0, &subject);
        let lines = won(" 2 0 1", &format!(" {kind} 8"), plain, resource);
        assert_eq!(after(&walk, &[winner(1, S, 5)]), lines);
        let ids: &[u32] = if kind % 2 == 1 { &[5] } else { &[] };
        assert_eq!(after(&walk, &[resources(1)]), list("resources", ids));
    }
}

/// The number of the winning rule of property 0, two rules matching.
fn winning(model: &Model, ranking: u32) -> String {
    let ids: Vec<u32> = (0..4).collect();
    let subject = Tags {
        type_tag: Some(1),
        part_tag: Some(1),
        ..Tags::of_ids(&ids, &ids)
    };
    let lines = after(&entered(model, ranking, &subject), &[winner(1, S, 0)]);
    let line = lines.lines().next().expect("a line");
    line.strip_prefix("winner 0 ")
        .expect("accepted")
        .to_string()
}

#[test]
fn keys_by_hand() {
    let of = |step: Tags| rule(&step, &[entry(0, 0, 1)]);
    let classes = || of(Tags::of_ids(&[1, 2], &[]));
    let pseudo = || of(Tags::of_ids(&[], &[1]));
    let any = || of(Tags::default());
    let sheet = |groups: Vec<(u32, Vec<_>)>| {
        let mut model = Model::default();
        for (origin, bodies) in groups {
            model.push_rules(origin, bodies);
        }
        model
    };
    // An origin beats a greater weight; a weight a later source; a source a
    // later order.
    let model = sheet(vec![(5, vec![any()]), (4, vec![any(), classes()])]);
    assert_eq!(winning(&model, 0), "2 0 0");
    let model = sheet(vec![(5, vec![classes()]), (5, vec![any(), any()])]);
    assert_eq!(winning(&model, 1), "2 0 0");
    let model = sheet(vec![(5, vec![any(), any()]), (5, vec![any()])]);
    assert_eq!(winning(&model, 0), "2 2 1");
    let model = sheet(vec![(5, vec![any(), any()])]);
    assert_eq!(winning(&model, 1), "2 1 0");
    // The rankings disagree on one pseudo against two classes.
    let model = sheet(vec![(0, vec![pseudo(), classes()])]);
    assert_eq!(winning(&model, 0), "2 0 0");
    assert_eq!(winning(&model, 1), "2 1 0");
    // A part beats a type in ranking 0; in ranking 1 they weigh alike, and the
    // later order wins.
    let model = sheet(vec![(0, vec![of(Tags::of_part(1)), of(Tags::of_type(1))])]);
    assert_eq!(winning(&model, 0), "2 0 0");
    assert_eq!(winning(&model, 1), "2 1 0");
    // A direct style and a rule without weight: the later source.
    let mut model = sheet(vec![(0, vec![any()])]);
    model.push_style(0, vec![entry(0, 0, 2)]);
    assert_eq!(winning(&model, 0), "1 0 1");
    model.push_rules(0, vec![any()]);
    assert_eq!(winning(&model, 0), "2 1 2");
}

#[test]
fn equal_keys_by_hand() {
    let mut walk = start(&equal_sheet(), 0);
    for classes in [&[1][..], &[2], &[1, 2, 3]] {
        walk.push(enter(0, S, &Tags::of_ids(classes, &[])));
    }
    let items = [0, 1, 3, 2].map(|id| winner(3, S, id));
    let lines = [
        won(" 1 0 9", " 1 10", " 1 10", " 10"),
        won(" 1 1 9", " 0 11", " 0 11", ""),
        won(" 2 0 9", " 0 20", " 0 20", ""),
        won(" 2 2 9", " 0 22", " 0 22", ""),
    ];
    assert_eq!(after(&walk, &items), lines.concat());
    // Another rule, the same key: no change.
    let items = [winner(2, S, 2), changed(pair(1, 2), 9)];
    let lines = won(" 2 3 9", " 0 23", " 0 23", "") + &list("changed", &[]);
    assert_eq!(after(&walk, &items), lines);
    assert_eq!(
        after(&walk, &[changed(pair(0, 1), 9)]),
        list("changed", &[2, 3, 4])
    );
}

#[test]
fn tables_that_no_calls_make_by_hand() {
    // A state that lists rule 1, which needs a path, at the root's cursors.
    let walk = [
        start(&example_sheet(), 0),
        vec![
            write(MATCHED, 0, &[1]),
            write(STATE_ROWS, 3, &[2, 1, 0]),
            write(HEAD, 2, &[2, 2, 1]),
        ],
    ]
    .concat();
    let items = [winner(1, S, 1), changed(pair(1, 0), 2)];
    let lines = won(" 2 1 1", " 0 30", " 0 30", "") + &list("changed", &[1, 2]);
    assert_eq!(after(&walk, &items), lines);
    // The ranking word decides, whatever build was given.
    let mut model = Model::default();
    let pseudo = rule(&Tags::of_ids(&[], &[1]), &[entry(0, 0, 1)]);
    let classes = rule(&Tags::of_ids(&[1, 2], &[]), &[entry(0, 0, 2)]);
    model.push_rules(0, vec![pseudo, classes]);
    let mut walk = entered(&model, 0, &Tags::of_ids(&[1, 2], &[1]));
    let first = won(" 2 0 0", " 0 1", " 0 1", "");
    let second = won(" 2 1 0", " 0 2", " 0 2", "");
    assert_eq!(after(&walk, &[winner(1, S, 0)]), first);
    walk.push(write(HEAD, 1, &[1]));
    assert_eq!(after(&walk, &[winner(1, S, 0)]), second);
    walk.push(write(HEAD, 1, &[2]));
    let lines = "winner 11\nkind 11\nplain 11\nresource 11\n";
    assert_eq!(after(&walk, &[winner(1, S, 0)]), lines);
    // The table does not matter to resources.
    assert_eq!(after(&walk, &[resources(0)]), list("resources", &[]));
}

#[test]
fn refusals_by_hand() {
    let walk = example_walk(0);
    let broken = [&walk[..], &[write(HEAD, 1, &[2])]].concat();
    let short = [&walk[..], &[rooms([ROOM - 1, 12, 4, 3, 0])]].concat();
    let sheet = [&walk[..], &[stored(8, &[8])]].concat();
    let asked = [4, S, 2, S + 1];
    for walk in [&broken, &short, &sheet] {
        let items = [winner(4, 8, 1), changed(asked, 0), channels(asked, &[1])];
        let lines = "winner 11\nkind 11\nplain 11\nresource 11\n\
                     changed 11\nids\npast 0\nchannels 11\n";
        assert_eq!(after(walk, &items), lines);
    }
    assert_eq!(after(&broken, &[resources(0)]), list("resources", &[]));
    assert_eq!(after(&sheet, &[resources(0)]), refused("resources", 11));
    for (number, stamp) in [(4, S), (2, S + 1), (u32::MAX, S)] {
        let lines = "winner 4\nkind 4\nplain 4\nresource 4\n";
        assert_eq!(after(&walk, &[winner(number, stamp, 1)]), lines);
        let old = [number, stamp, 2, S];
        let new = [3, S, number, stamp];
        let items = [changed(old, 0), changed(new, 0), channels(new, &[])];
        let lines = refused("changed", 4) + &refused("changed", 4) + "channels 4\n";
        assert_eq!(after(&walk, &items), lines);
    }
    let items = [0, 1, 2, 3].map(|room| changed(pair(3, 2), room));
    let (short, full) = (refused("changed", 8), list("changed", &[1, 2]));
    assert_eq!(
        after(&walk, &items),
        [&short[..], &short, &full, &full].concat()
    );
}

#[test]
fn lists_by_hand() {
    let line = |items: Item| printed(&[items]);
    let given = [7, 3, 0x1_0007, 9];
    let rest = "len 0 2\nempty 0 0\n";
    assert_eq!(line(set(3, 2, &given)), list("set", &[3, 7]) + rest);
    assert_eq!(line(set(3, 1, &given)), refused("set", 8) + rest);
    let rest = "len 2\nempty 2\n";
    assert_eq!(line(set(5, 0, &given)), refused("set", 2) + rest);
    let rest = "len 0 0\nempty 0 1\n";
    assert_eq!(line(set(0, 0, &given)), list("set", &[]) + rest);

    let (first, second) = ([4, 2], [2, 65_535]);
    let both = |counts, room| line(union(counts, room, &first, &second));
    assert_eq!(both([2, 2], 3), list("union", &[2, 4, 65_535]));
    assert_eq!(both([1, 1], 3), list("union", &[2, 4]));
    assert_eq!(both([2, 2], 2), refused("union", 8));
    assert_eq!(both([3, 3], 0), refused("union", 2));
    assert_eq!(both([2, 3], 0), refused("union", 2));

    let lines = "affected 2147483652\nnamed 2\nlowest 2\n";
    assert_eq!(line(affected(&[2, 0, 9, 2], &[4, 1, 1 << 31])), lines);
    let lines = "affected 0\nnamed 0\nlowest none\n";
    assert_eq!(line(affected(&[3], &[4, 1, 1])), lines);
    for (channel, mask, line) in [
        (31, 1 << 31, "has 1\n"),
        (30, 1 << 31, "has 0\n"),
        (32, u32::MAX, "has 0\n"),
        (u32::MAX, u32::MAX, "has 0\n"),
        (0, 1, "has 1\n"),
    ] {
        assert_eq!(printed(&[has(channel, mask)]), line);
    }
    let (low, high) = ([1, 9, 9, 9, 9, 9, 9], [2, 0, 0, 0, 0, 0, 0]);
    assert_eq!(line(compare(low, high)), "compare -1\ncompare 1\n");
    assert_eq!(line(compare(high, low)), "compare 1\ncompare -1\n");
    assert_eq!(line(compare(low, low)), "compare 0\ncompare 0\n");
}

#[test]
fn as_many_as_there_can_be_by_hand() {
    let rule_of = |number: u32| {
        let id = |at: u32| (16 * (16 * number + at) + 15) as u16;
        let entries: Vec<_> = (0..16).map(|at| entry(id(at), 1, at)).collect();
        rule(&Tags::default(), &entries)
    };
    let mut model = Model::default();
    model.push_rules(0, (0..256).map(rule_of).collect());
    let walk = entered(&model, 1, &Tags::default());
    let ids: Vec<u32> = (0..4096).map(|at| 16 * at + 15).collect();
    let items = [changed(pair(0, 1), 4096), resources(4096)];
    let lines = list("changed", &ids) + &list("resources", &ids);
    assert_eq!(after(&walk, &items), lines);
    let items = [changed(pair(1, 0), 4095), resources(4095)];
    let lines = refused("changed", 8) + &refused("resources", 8);
    assert_eq!(after(&walk, &items), lines);
    let lines = won(" 2 255 0", " 1 15", " 1 15", " 15");
    assert_eq!(after(&walk, &[winner(1, S, 65_535)]), lines);
    // A list fills a buffer, and no more.
    let many: Vec<u32> = (0..8193).rev().collect();
    let lines = printed(&[set(8192, u32::MAX, &many), set(8193, u32::MAX, &many)]);
    assert!(lines.starts_with("set 0 8192\nids 1 2 "), "{lines:.60}");
    assert!(lines.ends_with("set 8\nids\npast 0\nlen 0 8193\nempty 0 0\n"));
}

/// How often each answer comes, and how often the published cascade gives it.
#[test]
fn cases_are_about_everything() {
    let mut told: BTreeMap<String, usize> = BTreeMap::new();
    let mut in_play = [0, 0];
    let mut random = Random::new(12);
    let cases = (0..1500).map(|_| random_case(&mut random));
    let mut equal = 0;
    for case in cases {
        let mut machine = Machine::default();
        for item in &case.items {
            let lines = machine.item(item.op, &item.payload);
            let line = lines.lines().next().unwrap_or("");
            let words: Vec<&str> = line.split(' ').take(3).collect();
            if item.op == WINNER {
                in_play[usize::from(machine.cascade_in_play())] += 1;
                *told.entry(words.join(" ")).or_default() += 1;
            } else if item.op >= CHANGED {
                // Of a list that is there only whether it is empty.
                let kept = match words[..] {
                    ["affected", ..] => 1,
                    [_, "0", "0"] => 3,
                    _ => 2.min(words.len()),
                };
                *told.entry(words[..kept].join(" ")).or_default() += 1;
            }
        }
        let place = |rule: &Rule| (rule.origin, rule.source, rule.order);
        if let Ok(model) = machine.look() {
            let mut places: Vec<_> = model.rules.iter().map(place).collect();
            places.sort();
            equal += usize::from(places.windows(2).any(|pair| pair[0] == pair[1]));
        }
    }
    for (line, least) in [
        ("winner 0 0", 2000),
        ("winner 0 1", 2000),
        ("winner 0 2", 2000),
        ("winner 4", 100),
        ("winner 11", 100),
        ("changed 0", 1000),
        ("changed 0 0", 500),
        ("changed 4", 100),
        ("changed 8", 500),
        ("changed 11", 50),
        ("channels 0", 200),
        ("channels 4", 100),
        ("channels 11", 50),
        ("resources 0", 200),
        ("resources 8", 200),
        ("resources 11", 20),
        ("set 0", 100),
        ("set 2", 20),
        ("set 8", 50),
        ("union 0", 100),
        ("union 2", 20),
        ("union 8", 50),
        ("affected", 100),
        ("has 0", 20),
        ("has 1", 20),
        ("compare -1", 20),
        ("compare 0", 20),
        ("compare 1", 20),
    ] {
        let count = told.get(line).copied().unwrap_or(0);
        assert!(count >= least, "{line}: {count} of {told:?}");
    }
    assert!(in_play.iter().all(|&count| count > 5000), "{in_play:?}");
    assert!(equal > 60, "{equal}");
    println!("in play {in_play:?}, equal {equal}, {told:?}");
}

/// 6,000 cases hold all fixed ones, in few batches.
#[test]
fn six_thousand_cascades_hold_everything_fixed() {
    let count = 6000;
    let fixed = fixed();
    let cases: Vec<WalkCase> = stream(fixed.clone(), random_case, 5, count).collect();
    assert!(cases[..fixed.len()] == fixed);
    let bytes: Vec<usize> = cases.iter().map(WalkCase::bytes).collect();
    assert!(bytes.iter().all(|&bytes| bytes <= WalkCase::LONGEST_BATCH));
    for case in &cases {
        assert!(case.items.iter().all(|item| item.payload.len() <= 32_768));
    }
    let batches: Vec<_> = walk_batches(cases.into_iter(), 5).collect();
    let whole: usize = batches.iter().map(|batch| batch.cases.len()).sum();
    assert_eq!(whole, count);
    println!(
        "{} fixed cases of {} bytes, {} batches of {} bytes",
        fixed.len(),
        bytes[..fixed.len()].iter().sum::<usize>(),
        batches.len(),
        bytes.iter().sum::<usize>()
    );
}

/// The empty sheet, before a table is built and after.
#[test]
fn the_empty_sheet_by_hand() {
    let mut items = sheet(&Model::default());
    items.extend([rooms(AMPLE), resources(0), winner(0, 0, 0)]);
    let lines = list("resources", &[]) + "winner 11\nkind 11\nplain 11\nresource 11\n";
    assert_eq!(printed(&items), lines);
    let walk = start(&Model::default(), 1);
    let items = [
        winner(0, S, 0),
        changed(pair(0, 0), 0),
        channels(pair(0, 0), &[1]),
    ];
    let channels = "channels 0 0\nnamed 0\nlowest none\n";
    let lines = nobody() + &list("changed", &[]) + channels;
    assert_eq!(after(&walk, &items), lines);
}
