//! Fixed cases of sheets: every size at its edge, every refusal at its place
//! and before the others, every clause of row 11 broken alone and just kept.

use super::builds::{
    Entries, Given, Group, ROOM, cascade, case, group, item, look, new, read, read_rule, rule,
    store, style,
};
use super::paths::Tags;
use crate::builds::given::ROW;
use crate::builds::image::{
    ENTRY_COUNT, HEAD, ID_COUNT, NEXT, RULE_COUNT, STEP_COUNT, STYLE_COUNT, STYLE_ENTRY_COUNT,
    entry_word, rule_word, step_word, style_entry_word, style_word,
};
use crate::builds::{
    BuildCase, CASCADE, GROUP, Item, LONGEST_PAYLOAD, LOOK, LOOK_LENT, Machine, NEW, READ,
    READ_RULE, RULE, STORE, STYLE,
};

pub fn fixed() -> Vec<BuildCase> {
    let mut cases = vec![unlent()];
    cases.extend(rooms());
    cases.extend(small());
    cases.extend(rule_edges());
    cases.extend(style_edges());
    cases.extend(id_edges());
    cases.extend(entry_edges());
    cases.extend(index_edges());
    cases.extend(step_edges());
    cases.extend(lent_edges());
    cases.extend(cascades());
    cases.extend(style_faults());
    cases.extend(group_faults());
    cases.extend(cascade_faults());
    cases.extend(clauses());
    cases.extend(stored_words());
    cases.extend(unmade());
    cases.extend(stale());
    cases.extend(lookups());
    cases.extend(payloads());
    cases
}

/// The first case of a stream, before anything is lent.
fn unlent() -> BuildCase {
    let mut items = vec![store(0, NEXT, 9), item(NEW, &[]), read(0)];
    for which in [0, 1] {
        items.extend(every_call(which));
    }
    BuildCase { items }
}

/// Every call on a sheet.
fn every_call(which: u32) -> Vec<Item> {
    vec![
        read(which),
        style(which, 0, 1),
        group(which, 0, &[typed(1, 1)]),
        rule(which, 0, &typed(2, 0)),
        cascade(which),
        read_rule(which, 0, 0),
        read_rule(which, 0, 2),
        look(which, 0, 0, 0),
        look(which, 1, 0, 0),
        read(which),
    ]
}

/// A rule of one step with a type.
fn typed(tag: u32, entries: usize) -> Given {
    Given::of(&[Tags::of_type(tag).row()], entries)
}

/// Rules that differ: tags and ids of all kinds, both combinators, entries.
fn varied() -> Vec<Given> {
    let mut first = Given::of(
        &[
            Tags::of_ids(&[9, 3, 9], &[4]).row(),
            Tags::of_ids(&[5], &[]).row(),
        ],
        2,
    );
    first.codes = vec![1];
    let mut second = Given::of(&[Tags::of_type(7).row(), Tags::of_part(0).row()], 1);
    second.rows[0][2] = 1;
    second.rows[0][3] = u32::MAX;
    let mut third = Given::of(&[Tags::of_ids(&[], &[2, 1, 0]).row()], 4);
    third.entries = vec![[0, 3, 1], [1, 2, u32::MAX], [0x8000, 1, 0], [0xffff, 0, 5]];
    vec![first, second, third, Given::default()]
}

fn rooms() -> Vec<BuildCase> {
    let mut cases = Vec::new();
    for room in [
        0,
        1,
        7,
        8,
        ROOM - 1,
        ROOM,
        ROOM + 1,
        ROOM + 4,
        ROOM + 5,
        u32::MAX,
    ] {
        let mut items = vec![new(0, room)];
        items.extend(every_call(0));
        items.push(cascade(1));
        // A store within the room, at its end and past it.
        for address in [NEXT, ROOM as usize - 1, ROOM as usize, ROOM as usize + 3] {
            items.extend([store(0, address, 3), read(0), style(0, 1, 0), read(0)]);
        }
        items.extend([store(0, u32::MAX as usize, 1), new(0, ROOM), read(0)]);
        cases.push(case(items));
    }
    // Lent again: too short, and long enough once more.
    let filled = [style(0, 1, 2), group(0, 2, &varied())];
    let mut items = filled.to_vec();
    items.extend([new(0, ROOM - 1), read(0), style(0, 0, 0), store(0, NEXT, 1)]);
    items.extend([read(0), new(0, ROOM), read(0), style(0, 0, 0), read(0)]);
    cases.push(case(items));
    // The number of a sheet counts modulo 2.
    let mut items = Vec::new();
    for which in [2, 3, 0x8000_0000, u32::MAX] {
        items.extend([style(which, 1, 1), rule(which, 1, &typed(3, 1))]);
        items.extend([group(which, 2, &varied()), cascade(which), read(which)]);
        items.extend([read_rule(which, 0, 1), look(which, 1, 0, 0)]);
        items.push(item(STORE, &[which, NEXT as u32, 40_000]));
        items.extend([style(which, 3, 0), read(which), item(NEW, &[which, ROOM])]);
    }
    cases.push(case(items));
    cases
}

/// Pushes of one kind, two of every kind, and empty ones.
fn small() -> Vec<BuildCase> {
    let kinds: [fn(u32) -> Item; 6] = [
        |which| style(which, 1, 0),
        |which| style(which, 2, 3),
        |which| group(which, 3, &[]),
        |which| group(which, 4, &varied()),
        |which| rule(which, 5, &Given::default()),
        |which| rule(which, 6, &varied()[0]),
    ];
    let mut cases = vec![case([read(0), read(1)])];
    for first in kinds {
        for second in kinds {
            cases.push(case([
                first(0),
                read(0),
                second(0),
                read(0),
                cascade(1),
                read(1),
            ]));
        }
    }
    let mut items: Vec<Item> = (0..9).map(|origin| style(0, origin, 1)).collect();
    items.extend((0..9).map(|origin| group(0, origin, &varied()[..2])));
    items.extend((0..9).map(|origin| rule(0, origin, &typed(origin, 0))));
    items.push(read(0));
    for number in [0, 1, 16, 17, 23, 24, 255, 256, u32::MAX] {
        for ranking in [0, 1, 2, 3, u32::MAX] {
            items.push(read_rule(0, number, ranking));
        }
    }
    cases.push(case(items));
    // All tags, and every flag that means set.
    let mut items = Vec::new();
    for flag in [0, 1, 2, 0x100, 0x8000_0000, u32::MAX] {
        let mut row: [u32; ROW] = Tags::of_ids(&[2, 1], &[1, 2]).row();
        row[..4].copy_from_slice(&[flag, 8, 0, 9]);
        let mut other = row;
        other[..4].copy_from_slice(&[0, 8, flag, 9]);
        // What stands past the ids does not count.
        other[8..14].fill(77);
        other[16..22].fill(77);
        items.push(rule(0, 0, &Given::of(&[row, other], 0)));
    }
    items.push(read(0));
    cases.push(case(items));
    cases
}

fn times(count: usize, item: Item) -> Vec<Item> {
    vec![item; count]
}

fn rule_edges() -> Vec<BuildCase> {
    let empty = |count: usize| group(0, 1, &vec![Given::default(); count]);
    let one = rule(0, 2, &Given::default());
    let mut cases = Vec::new();
    for counts in [
        &[255][..],
        &[256],
        &[257],
        &[258],
        &[255, 1, 1],
        &[255, 2],
        &[256, 0, 1],
        &[128, 128, 1],
        &[128, 129],
    ] {
        let mut items: Vec<Item> = counts.iter().map(|&count| empty(count)).collect();
        items.extend([one.clone(), style(0, 0, 1), read(0)]);
        items.extend([read_rule(0, 255, 0), read_rule(0, 256, 0)]);
        cases.push(case(items));
    }
    let mut items = times(257, one);
    items.extend([read(0), empty(0), empty(1), read(0)]);
    cases.push(case(items));
    let mut items = times(257, group(0, 3, &[typed(1, 1)]));
    items.push(read(0));
    cases.push(case(items));
    // 256 rules of 8 steps: all steps that a sheet can hold.
    let long = Given::of(&[Tags::of_type(1).row(); 8], 0);
    let quarter = group(0, 0, &vec![long.clone(); 64]);
    let mut items = times(4, quarter);
    items.extend([read(0), rule(0, 0, &long), rule(0, 0, &Given::default())]);
    items.extend([
        cascade(1),
        read_rule(1, 255, 0),
        read_rule(1, 255, 1),
        cascade(1),
    ]);
    cases.push(case(items));
    cases
}

fn style_edges() -> Vec<BuildCase> {
    let mut items = times(64, style(0, 1, 1));
    items.extend([read(0), style(0, 1, 1), style(0, 1, 0), read(0)]);
    items.extend([rule(0, 0, &typed(1, 1)), cascade(1), read(1), cascade(1)]);
    items.extend([
        style(1, 0, 0),
        look(1, 0, 63, 0),
        look(1, 0, 64, 0),
        read(1),
    ]);
    let both = case(items);
    let mut items = times(32, style(0, 2, 0));
    items.extend(times(33, style(1, 3, 0)));
    items.extend([cascade(0), cascade(1), read(0), read(1)]);
    let sum = case(items);
    let mut items = times(32, style(0, 2, 0));
    items.extend(times(32, style(1, 3, 0)));
    items.extend([cascade(0), read(0), cascade(0), cascade(1), read(1)]);
    vec![both, sum, case(items)]
}

/// A row with so many ids of each kind given, of which as many are held.
fn row_of(classes: usize, pseudos: usize, held: usize) -> [u32; ROW] {
    let ids = |given: usize| -> Vec<u32> {
        let id = |place: usize| (place % held.max(1)) as u32;
        (0..given).rev().map(id).collect()
    };
    Tags::of_ids(&ids(classes), &ids(pseudos)).row()
}

fn id_edges() -> Vec<BuildCase> {
    let mut cases = Vec::new();
    // 64 rules of 8 steps of 16 ids.
    let full = Given::of(&[row_of(8, 8, 8); 8], 0);
    let one_id = Given::of(&[row_of(1, 0, 1)], 0);
    let one_pseudo = Given::of(&[row_of(0, 1, 1)], 0);
    let none = typed(1, 0);
    let mut all = vec![full.clone(); 64];
    let mut items = vec![
        group(0, 0, &all),
        rule(0, 0, &one_id),
        rule(0, 0, &one_pseudo),
    ];
    items.extend([
        rule(0, 0, &none),
        group(0, 0, &[none.clone(), one_id.clone()]),
    ]);
    items.extend([read(0), cascade(1), cascade(0), rule(1, 0, &one_id)]);
    items.extend([new(1, ROOM), rule(1, 0, &one_id), cascade(0), cascade(1)]);
    items.push(read_rule(0, 63, 0));
    cases.push(case(items));
    // One too many in one group: nothing is pushed.
    all.push(one_id.clone());
    let mut items = vec![group(0, 0, &all), read(0)];
    all.pop();
    all.push(none.clone());
    items.push(group(0, 0, &all));
    items.push(read_rule(0, 64, 1));
    cases.push(case(items));
    // 16 ids given a step, 8 held: 128 rules of 8 steps, in two groups.
    let half = vec![Given::of(&[row_of(8, 8, 4); 8], 0); 64];
    let mut last = half.clone();
    last[63].rows[7] = row_of(8, 8, 5);
    let mut items = vec![group(0, 0, &half), group(0, 1, &last)];
    items.extend([group(0, 2, &half), rule(0, 3, &one_id), rule(0, 3, &none)]);
    items.push(read(0));
    cases.push(case(items));
    // 256 rules of 4 steps that hold 8 each.
    let quarter = vec![Given::of(&[row_of(8, 8, 4); 4], 0); 128];
    let mut items = times(2, group(0, 0, &quarter));
    items.push(rule(0, 3, &none));
    items.push(read_rule(0, 255, 0));
    cases.push(case(items));
    // 8,191 held, then one id given eight times, then one more.
    let mut almost = vec![full; 64];
    almost[20].rows[3] = row_of(8, 7, 8);
    let repeated = Given::of(&[row_of(0, 8, 1)], 0);
    let mut items = vec![group(0, 0, &almost), rule(0, 0, &repeated)];
    items.extend([rule(0, 0, &repeated), read_rule(0, 64, 0)]);
    cases.push(case(items));
    // The sum of a cascade.
    for more in [0, 1] {
        let half = vec![Given::of(&[row_of(8, 8, 8); 8], 0); 32];
        let mut other = half.clone();
        other.extend(vec![one_id.clone(); more]);
        let mut items = vec![group(0, 0, &half), group(1, 0, &other)];
        items.extend([
            cascade(0),
            cascade(1),
            read_rule(0, 63, 0),
            rule(0, 0, &one_id),
        ]);
        cases.push(case(items));
    }
    cases
}

fn entry_edges() -> Vec<BuildCase> {
    let mut cases = Vec::new();
    let rules = |count: usize, entries: usize| vec![typed(1, entries); count];
    // All in rules.
    let mut items = vec![group(0, 0, &rules(128, 32)), style(0, 0, 1), style(0, 0, 0)];
    items.extend([rule(0, 0, &typed(1, 1)), rule(0, 0, &typed(1, 0))]);
    items.extend([group(0, 0, &rules(2, 1)), read(0), cascade(1), cascade(1)]);
    items.extend([new(1, ROOM), style(1, 0, 1), cascade(0), cascade(1)]);
    items.extend([new(1, ROOM), style(1, 0, 0), cascade(0), cascade(1)]);
    cases.push(case(items));
    // One too many in one group.
    let mut more = rules(128, 32);
    more.push(typed(1, 1));
    let items = [group(0, 0, &more), read(0)];
    cases.push(case(items));
    // Over both pools.
    let mut items = times(64, style(0, 0, 32));
    items.push(group(0, 0, &rules(64, 32)));
    items.extend([rule(0, 0, &typed(1, 1)), rule(0, 0, &typed(1, 0))]);
    items.extend([group(0, 0, &rules(1, 1)), group(0, 0, &[]), read(0)]);
    cases.push(case(items));
    // 4,095 and one, and two.
    for (last, one) in [(31, style(0, 0, 1)), (31, rule(0, 0, &typed(1, 1)))] {
        let mut almost = rules(127, 32);
        almost.push(typed(1, last));
        let mut items = vec![
            group(0, 0, &almost),
            style(0, 0, 2),
            rule(0, 0, &typed(1, 2)),
        ];
        items.extend([one.clone(), one, read_rule(0, 128, 0), look(0, 0, 0, 0)]);
        cases.push(case(items));
    }
    // The sum of a cascade, over both pools of both.
    for more in [0, 1] {
        let mut items = times(32, style(0, 0, 32));
        items.push(group(0, 0, &rules(32, 32)));
        items.extend(times(31, style(1, 0, 32)));
        items.push(group(1, 0, &rules(33, 32)));
        items.push(style(1, 0, more));
        items.extend([
            cascade(0),
            cascade(1),
            read_rule(0, 64, 0),
            look(0, 0, 62, 3),
        ]);
        cases.push(case(items));
    }
    cases
}

/// Every push at the last source index, and past it.
fn index_edges() -> Vec<BuildCase> {
    let pushes: [fn(u32) -> Item; 6] = [
        |which| style(which, 1, 1),
        |which| group(which, 2, &[]),
        |which| group(which, 2, &varied()),
        |which| rule(which, 3, &typed(2, 1)),
        |which| rule(which, 3, &Given::default()),
        |which| item(CASCADE, &[which]),
    ];
    let mut cases = Vec::new();
    for push in pushes {
        for next in [65_533, 65_534, 65_535, 65_536] {
            let mut items = vec![style(1, 0, 1), group(1, 1, &[])];
            items.extend([store(0, NEXT, next), push(0), read(0), push(0)]);
            items.extend([push(0), read(0), new(1, ROOM), cascade(0), read(0)]);
            cases.push(case(items));
        }
    }
    // A cascade whose own index is the last, onto a sheet that begins.
    for before in [0, 1] {
        let mut items = vec![store(1, NEXT, 65_535), rule(1, 0, &typed(1, 1))];
        items.extend(times(before, group(0, 0, &[])));
        items.extend([cascade(0), read(0), style(0, 0, 0), cascade(0), read(0)]);
        cases.push(case(items));
    }
    // 65,536 empty groups, and one more.
    let mut items = times(65_537, group(0, 7, &[]));
    items.extend([style(0, 0, 0), rule(0, 0, &Given::default()), read(0)]);
    items.extend([cascade(1), cascade(0), style(1, 0, 0), cascade(0), read(1)]);
    cases.push(case(items));
    cases
}

/// Steps, ids of a step as given and entries, at and over their sizes.
fn step_edges() -> Vec<BuildCase> {
    let mut cases = Vec::new();
    for steps in [0, 1, 7, 8, 9, 10] {
        let given = Given::of(&vec![Tags::of_type(3).row(); steps], 1);
        let mut mixed = given.clone();
        for (place, code) in mixed.codes.iter_mut().enumerate() {
            *code = place as u32 % 2;
        }
        let both = [varied()[0].clone(), mixed.clone()];
        let items = [
            rule(0, 0, &given),
            group(0, 0, &[mixed]),
            group(0, 0, &both),
        ];
        cases.push(case(items.into_iter().chain([read(0)])));
    }
    let mut items = Vec::new();
    for count in [
        0,
        1,
        7,
        8,
        9,
        10,
        16,
        0x100,
        0x1_0000,
        0x8000_0000,
        u32::MAX,
    ] {
        for place in [4, 5] {
            // Ids that differ, and ids that repeat.
            for held in [8, 1] {
                let mut row = row_of(8, 8, held);
                row[place] = count;
                let bad = Given::of(&[row], 0);
                let second = Given::of(&[Tags::of_type(1).row(), row], 0);
                items.extend([rule(0, 0, &bad), group(0, 0, &[bad]), rule(0, 0, &second)]);
            }
        }
    }
    items.push(read(0));
    cases.push(case(items));
    for entries in [0, 1, 31, 32, 33, 34] {
        let given = typed(4, entries);
        let mut items = vec![style(0, 0, entries), rule(0, 0, &given)];
        items.extend([group(0, 0, &[varied()[0].clone(), given]), read(0)]);
        cases.push(case(items));
    }
    // Numbers of combinators for numbers of steps.
    for steps in 0..=8 {
        let mut items = Vec::new();
        for codes in 0..=9 {
            let mut given = Given::of(&vec![Tags::of_type(3).row(); steps], 0);
            given.codes = vec![1; codes];
            items.extend([rule(0, 0, &given), group(0, 0, &[given])]);
        }
        items.push(read(0));
        cases.push(case(items));
    }
    cases
}

/// Counts past what is lent, each list one shorter, one longer, and partial
/// rows and triples.
fn lent_edges() -> Vec<BuildCase> {
    let mut cases = Vec::new();
    let rules = varied();
    for list in 0..6 {
        let mut items = Vec::new();
        for change in -3..=3_i32 {
            let mut of_group = Group::of(1, &rules);
            let mut of_rule = Group::of(1, &rules[..1]);
            for group in [&mut of_group, &mut of_rule] {
                let words = &mut *group.lists()[list];
                let length = (words.len() as i32 + change).max(0);
                words.resize(length as usize, 1);
            }
            items.extend([of_group.item(0), of_rule.rule(0)]);
        }
        items.push(read(0));
        cases.push(case(items));
    }
    for count in [
        0,
        1,
        2,
        3,
        4,
        5,
        255,
        256,
        257,
        0x1_0000,
        0x8000_0000,
        u32::MAX,
    ] {
        let mut items = Vec::new();
        let base = Group::of(1, &rules);
        items.push(
            Group {
                count,
                ..base.clone()
            }
            .item(0),
        );
        for place in 0..base.rules.len() {
            let mut group = base.clone();
            group.rules[place] = count;
            items.push(group.item(0));
            if place < 3 {
                items.push(group.rule(0));
            }
        }
        let entries = Entries::plain(3);
        items.push(Entries { count, ..entries }.style(0, 1));
        items.extend([read(0), new(0, ROOM)]);
        cases.push(case(items));
    }
    // Each list of a style shorter than the count.
    let mut items = Vec::new();
    for list in 0..3 {
        for length in [0, 2, 3, 4, 40] {
            let mut entries = Entries::plain(3);
            let lists = [
                &mut entries.properties,
                &mut entries.kinds,
                &mut entries.numbers,
            ];
            for (place, words) in lists.into_iter().enumerate() {
                if place == list {
                    words.resize(length, 4);
                }
            }
            items.extend([entries.style(0, 1), entries.look(3)]);
        }
    }
    items.push(read(0));
    cases.push(case(items));
    cases
}

fn cascades() -> Vec<BuildCase> {
    let mut cases = Vec::new();
    let full = |which| {
        vec![
            style(which, 3, 2),
            group(which, 2, &varied()),
            style(which, 0, 1),
            rule(which, 7, &varied()[2]),
        ]
    };
    // Empty onto empty, empty onto full, full onto empty, and twice.
    let mut items = vec![cascade(0), cascade(1), read(0), read(1)];
    items.extend(full(0));
    items.extend([
        cascade(0),
        read(0),
        cascade(1),
        read(1),
        cascade(1),
        read(1),
    ]);
    items.extend([style(1, 1, 0), cascade(0), read(0), style(0, 5, 1), read(0)]);
    cases.push(case(items));
    // Only empty groups: they are no sources, and no index is taken.
    let mut items = times(3, group(1, 1, &[]));
    items.extend([
        cascade(0),
        style(0, 1, 0),
        cascade(0),
        style(0, 1, 0),
        read(0),
    ]);
    items.extend([
        style(1, 2, 0),
        group(1, 1, &[]),
        group(1, 1, &[]),
        cascade(0),
    ]);
    items.extend([style(0, 3, 0), read(0), cascade(1), read(1)]);
    cases.push(case(items));
    // Gaps in the indexes, in front, between and at the end.
    let mut items = times(2, group(1, 0, &[]));
    items.extend(full(1));
    items.extend(times(3, group(1, 0, &[])));
    items.push(rule(1, 1, &typed(1, 1)));
    items.extend(times(2, group(1, 0, &[])));
    items.extend([group(0, 0, &[]), cascade(0), style(0, 4, 0), cascade(0)]);
    items.extend([rule(0, 4, &typed(2, 0)), read(0), cascade(1), read(1)]);
    cases.push(case(items));
    // To and fro, until a sum is over its size.
    let mut items = full(0);
    for _ in 0..6 {
        items.extend([cascade(1), cascade(0), style(0, 0, 1)]);
    }
    items.extend([read(0), read(1)]);
    cases.push(case(items));
    // A sum of rules.
    for more in [0, 1] {
        let rules = |count| vec![typed(1, 0); count];
        let mut items = vec![group(0, 0, &rules(200)), group(1, 1, &rules(56 + more))];
        items.extend([
            cascade(0),
            cascade(1),
            read(0),
            style(0, 0, 0),
            rule(0, 0, &typed(1, 0)),
        ]);
        cases.push(case(items));
    }
    // Direct styles alone, rules alone.
    let items = [style(1, 1, 1), cascade(0), cascade(0), read(0)];
    cases.push(case(items));
    let items = [rule(1, 1, &typed(1, 1)), cascade(0), cascade(0), read(0)];
    cases.push(case(items));
    cases
}

/// Every set of some faults; as the case's items.
fn every_set(faults: usize) -> impl Iterator<Item = Vec<bool>> {
    (0..1_u32 << faults).map(move |set| (0..faults).map(|fault| set >> fault & 1 == 1).collect())
}

/// Every set of the faults of a style: 11, 6, 2, 6, 1, 7.
fn style_faults() -> Vec<BuildCase> {
    let of_set = |set: Vec<bool>| {
        let mut items = vec![style(0, 1, 1)];
        let mut entries = Entries::of(&[[5, 0, 1], [6, 1, 2], [7, 2, 3]]);
        let origin = if set[1] { 8 } else { 7 };
        if set[2] {
            entries.count = 4;
        }
        if set[3] {
            entries.kinds[2] = 4;
        }
        if set[4] {
            entries.properties[1] = 5;
        }
        if set[5] {
            items.push(store(0, NEXT, 65_536));
        }
        if set[0] {
            items.push(store(0, ID_COUNT, 1));
        }
        items.extend([entries.style(0, origin), read(0), entries.look(7)]);
        items.extend([store(0, ID_COUNT, 0), read(0)]);
        case(items)
    };
    let mut cases: Vec<BuildCase> = every_set(6).map(of_set).collect();
    // Kinds and order past the count do not matter; each place of them does.
    let mut items = Vec::new();
    for place in 0..4 {
        for kind in [3, 4, 0x100, 0x1_0000, u32::MAX] {
            let mut entries = Entries::plain(4);
            entries.count = 3;
            entries.kinds[place] = kind;
            items.extend([entries.style(0, 0), entries.look(3)]);
        }
        let mut entries = Entries::plain(4);
        entries.count = 3;
        entries.properties[place] = 0xffff;
        items.extend([entries.style(0, 0), entries.look(0xffff)]);
        entries.properties[place] = 0;
        items.extend([entries.style(0, 0), entries.look(0)]);
        // The low 16 bits alone.
        entries.properties[place] = 0x1_0000;
        items.extend([entries.style(0, 0), entries.look(0)]);
    }
    items.push(read(0));
    cases.push(case(items));
    cases
}

/// Each two faults of a group of two rules, and all sets of the faults of one
/// rule.
fn group_faults() -> Vec<BuildCase> {
    // 0: 11, 1: origin, 2: number of rules, 3 to 7 the first rule's 2, 3, 6, 6
    // and 1, 8 to 12 the second's, 13: 7, 14: a sum of ids over its size.
    const FAULTS: usize = 15;
    let given = || Given::of(&[Tags::of_type(1).row(), Tags::of_ids(&[4], &[5]).row()], 2);
    let with = |faults: &[usize]| {
        let mut group = Group::of(7, &[given(), given()]);
        let mut items = vec![style(0, 1, 1)];
        if faults.contains(&14) {
            items.push(Group::of(0, &vec![Given::of(&[row_of(8, 8, 8); 8], 0); 64]).item(0));
        }
        let mut stores = Vec::new();
        for &fault in faults {
            let second = usize::from((8..13).contains(&fault));
            match fault {
                0 => stores.push(store(0, STYLE_ENTRY_COUNT, 2)),
                1 => group.origin = 8,
                2 => group.count = 3,
                3 | 8 => group.rows[ROW * 2 * second + 4] = 9,
                4 | 9 => {
                    // One combinator too many, the other rule's left whole.
                    group.rules[3 * second + 1] += 1;
                    group.codes.push(0);
                }
                5 | 10 => group.codes[second] = 2,
                6 | 11 => group.entries.kinds[2 * second + 1] = 4,
                7 | 12 => group.entries.properties[2 * second + 1] = 0,
                13 => items.push(store(0, NEXT, 65_536)),
                _ => {}
            }
        }
        items.extend(stores);
        items.extend([group.item(0), group.rule(0)]);
        items.push(store(0, STYLE_ENTRY_COUNT, 1));
        if !faults.contains(&14) {
            items.push(read(0));
        }
        case(items)
    };
    let mut cases = vec![with(&[])];
    for first in 0..FAULTS {
        cases.push(with(&[first]));
        cases.extend((first + 1..FAULTS).map(|second| with(&[first, second])));
    }
    for set in every_set(5) {
        let faults: Vec<usize> = (0..5)
            .filter(|&fault| set[fault])
            .map(|fault| 8 + fault)
            .collect();
        if faults.len() > 2 {
            cases.push(with(&faults));
        }
    }
    // The second rule is bad: nothing of the first stays, and the words of
    // the next push are as if it had not been.
    let mut items = Vec::new();
    for fault in 8..13 {
        items.extend(with(&[fault]).items.split_off(3));
        items.extend([rule(0, 3, &typed(9, 1)), read(0)]);
    }
    cases.push(case(items));
    cases
}

/// Every set of the faults of a cascade: 11, 11 (the other), 2, 7.
fn cascade_faults() -> Vec<BuildCase> {
    let mut cases = Vec::new();
    for set in every_set(4) {
        let mut items = vec![style(0, 1, 1), style(1, 2, 1), rule(1, 3, &typed(1, 1))];
        if set[2] {
            items.push(group(0, 0, &vec![Given::default(); 256]));
        }
        if set[3] {
            items.push(store(0, NEXT, 65_535));
        }
        if set[0] {
            items.push(store(0, STEP_COUNT, 1));
        }
        if set[1] {
            items.push(store(1, STEP_COUNT, 0));
        }
        items.extend([cascade(0), read_rule(0, 0, 0), look(0, 0, 1, 0)]);
        items.extend([store(0, STEP_COUNT, 0), store(1, STEP_COUNT, 1), cascade(0)]);
        // An empty cascade is refused for nothing but the shape.
        items.extend([new(1, ROOM), cascade(0), store(1, ID_COUNT, 1), cascade(0)]);
        items.push(cascade(1));
        cases.push(case(items));
    }
    cases
}

/// What is stored to break a clause, and to keep it.
type Stores = Vec<(usize, u32)>;

fn pair(before: Vec<Item>, bad: Stores, good: Stores) -> BuildCase {
    let stored = |stores: Stores| {
        let stores = stores.into_iter();
        stores.map(|(address, value)| store(0, address, value))
    };
    let large = before.iter().map(|item| item.payload.len()).sum::<usize>() > 4_000;
    let mut items = before;
    items.extend(stored(bad));
    items.extend(every_call(0));
    items.push(cascade(1));
    items.extend(stored(good));
    items.extend([read(0), cascade(1), read(1), style(0, 6, 1)]);
    items.extend(asked(0, large));
    case(items)
}

/// The whole sheet; of a large one, whose every line costs a test of all its
/// words and which was read before, the rules and entries at some places.
fn asked(which: u32, large: bool) -> Vec<Item> {
    if !large {
        return vec![read(which)];
    }
    let places = [0, 1, 31, 63, 64, 127, 128, 255, 256];
    let rules = places.iter().map(|&number| read_rule(which, number, 0));
    let entries = places
        .iter()
        .flat_map(|&number| [look(which, 0, number, 3), look(which, 1, number, 31)]);
    rules.chain(entries).collect()
}

/// For each clause of row 11, memory that breaks it and, where it can be, no
/// other; and the nearest that breaks none.
pub fn clauses() -> Vec<BuildCase> {
    let rules = |count: usize, entries: usize| vec![typed(1, entries); count];
    let mut cases = Vec::new();
    // Counts at their sizes.
    // The row of a rule too many stands where the first step does.
    let before = vec![group(0, 0, &vec![Given::default(); 256])];
    let zeros = (0..5).map(|column| (rule_word(256, column), 0));
    let bad = zeros.chain([(RULE_COUNT, 257)]).collect();
    cases.push(pair(before, bad, vec![(RULE_COUNT, 256)]));
    let before = times(64, style(0, 0, 0));
    let zeros = (0..3).map(|column| (style_word(64, column), 0));
    let bad = zeros.chain([(STYLE_COUNT, 65)]).collect();
    cases.push(pair(before, bad, vec![(STYLE_COUNT, 64)]));
    let long = Given::of(&[Tags::of_type(1).row(); 8], 0);
    let before = times(4, group(0, 0, &vec![long; 64]));
    let bad = vec![(STEP_COUNT, 2049), (rule_word(255, 3), 2049)];
    let good = vec![(STEP_COUNT, 2048), (rule_word(255, 3), 2048)];
    cases.push(pair(before.clone(), bad, good));
    cases.push(pair(
        before,
        vec![(STEP_COUNT, 2049)],
        vec![(STEP_COUNT, 2048)],
    ));
    let full = Given::of(&[row_of(8, 8, 8); 8], 0);
    let before = vec![group(0, 0, &vec![full; 64]), rule(0, 0, &typed(1, 0))];
    let bad = vec![(step_word(512, 4), 1), (ID_COUNT, 8193)];
    let good = vec![(step_word(511, 5), 7), (ID_COUNT, 8192)];
    cases.push(pair(before, bad, good));
    let before = times(64, style(0, 0, 32));
    let bad = vec![(STYLE_ENTRY_COUNT, 2049), (style_word(63, 2), 2049)];
    let good = vec![(STYLE_ENTRY_COUNT, 2048), (style_word(63, 2), 2048)];
    cases.push(pair(before, bad, good));
    let mut before = times(64, style(0, 0, 32));
    before.extend([group(0, 0, &rules(64, 32)), rule(0, 0, &typed(1, 0))]);
    let sum = |count: u32| {
        let words = (0..3).map(|column| (entry_word(2048, column), 0));
        words
            .chain([(ENTRY_COUNT, count), (rule_word(64, 4), count)])
            .collect()
    };
    cases.push(pair(before, sum(2049), sum(2048)));
    let before = vec![group(0, 0, &rules(128, 32)), rule(0, 0, &typed(1, 0))];
    // An entry too many has its property and kind where others have theirs.
    let sum = |count: u32| {
        let end = (rule_word(128, 4), count);
        vec![(entry_word(0, 2), 0), (ENTRY_COUNT, count), end]
    };
    cases.push(pair(before, sum(4097), sum(4096)));
    let before = vec![group(0, 0, &rules(127, 32)), rule(0, 0, &typed(1, 31))];
    let mut before_and = before;
    before_and.push(style(0, 0, 1));
    let bad = vec![
        (ENTRY_COUNT, 4096),
        (rule_word(127, 4), 4096),
        (entry_word(4095, 0), 100),
        (entry_word(4095, 1), 0),
    ];
    let good = vec![(ENTRY_COUNT, 4095), (rule_word(127, 4), 4095)];
    cases.push(pair(before_and, bad, good));
    let next = |next: u32| vec![(NEXT, next)];
    cases.push(pair(vec![style(0, 0, 1)], next(65_537), next(65_536)));
    cases.push(pair(vec![style(0, 0, 1)], next(u32::MAX), next(0)));

    // Lists of 8 and 9 steps, of 32 and 33 entries, end to end.
    let steps = |first: usize, second: usize| {
        let row = Tags::of_type(1).row();
        [first, second].map(|steps| Given::of(&vec![row; steps], 0))
    };
    let end = |end: u32| vec![(rule_word(0, 3), end)];
    cases.push(pair(vec![group(0, 0, &steps(8, 1))], end(9), end(8)));
    cases.push(pair(vec![group(0, 0, &steps(1, 8))], end(0), end(1)));
    cases.push(pair(vec![group(0, 0, &steps(3, 2))], end(6), end(5)));
    cases.push(pair(vec![group(0, 0, &steps(3, 2))], end(u32::MAX), end(0)));
    let mut entries = [typed(1, 32), typed(2, 0)];
    entries[1].entries = vec![[500, 0, 0]];
    let end = |end: u32| vec![(rule_word(0, 4), end)];
    cases.push(pair(vec![group(0, 0, &entries)], end(33), end(32)));
    entries.reverse();
    entries[0].entries = vec![[0, 0, 0]];
    entries[1]
        .entries
        .iter_mut()
        .for_each(|entry| entry[0] += 1);
    cases.push(pair(vec![group(0, 0, &entries)], end(0), end(1)));
    let entries = [typed(1, 3), typed(2, 2)];
    cases.push(pair(vec![group(0, 0, &entries)], end(6), end(3)));
    cases.push(pair(vec![group(0, 0, &entries)], end(4), end(3)));
    let high = Entries::of(&[[500, 0, 0]]).style(0, 0);
    let end = |end: u32| vec![(style_word(0, 2), end)];
    cases.push(pair(vec![style(0, 0, 32), high.clone()], end(33), end(32)));
    let before = vec![Entries::of(&[]).style(0, 0), style(0, 0, 32), high];
    let ends =
        |first: u32, second: u32| vec![(style_word(0, 2), first), (style_word(1, 2), second)];
    cases.push(pair(before, ends(0, 33), ends(1, 32)));
    let before = vec![style(0, 0, 3), style(0, 0, 2)];
    cases.push(pair(before.clone(), end(6), end(3)));
    cases.push(pair(before, end(4), end(3)));
    // Ends that fall. The properties ascend from one source to the next.
    let mut three = [typed(1, 0), typed(2, 0), typed(3, 0)];
    for (given, properties) in three.iter_mut().zip([&[0, 3][..], &[6], &[9]]) {
        given.entries = properties.iter().map(|&id| [id, 1, 2]).collect();
    }
    for given in &mut three[..2] {
        given.rows.push(Tags::of_part(1).row());
        given.codes = vec![0];
    }
    let before = || {
        let styles = [&[[1, 0, 0]][..], &[[2, 1, 1], [3, 2, 2]], &[[4, 3, 3]]];
        let styles = styles.map(|entries| Entries::of(entries).style(0, 5));
        styles.into_iter().chain([group(0, 0, &three)]).collect()
    };
    cases.push(pair(
        before(),
        vec![(rule_word(1, 3), 1)],
        vec![(rule_word(1, 3), 4)],
    ));
    cases.push(pair(
        before(),
        vec![(rule_word(1, 4), 1)],
        vec![(rule_word(1, 4), 2)],
    ));
    cases.push(pair(
        before(),
        vec![(style_word(1, 2), 0)],
        vec![(style_word(1, 2), 1)],
    ));
    // The last ends and the counts.
    for (count, last) in [
        (STEP_COUNT, rule_word(2, 3)),
        (ENTRY_COUNT, rule_word(2, 4)),
        (STYLE_ENTRY_COUNT, style_word(2, 2)),
    ] {
        let right = if count == STEP_COUNT { 5 } else { 4 };
        for wrong in [right - 1, right + 1] {
            cases.push(pair(before(), vec![(count, wrong)], vec![(count, right)]));
            let both = vec![(last, wrong)];
            cases.push(pair(before(), both, vec![(last, right)]));
        }
    }
    // Counts without rules or styles, and rules and styles without counts.
    for count in [STEP_COUNT, ID_COUNT, ENTRY_COUNT, STYLE_ENTRY_COUNT] {
        cases.push(pair(Vec::new(), vec![(count, 1)], vec![(count, 0)]));
    }
    let before_steps = vec![group(0, 0, &steps(2, 1))];
    let none = vec![(RULE_COUNT, 0)];
    let good = vec![(RULE_COUNT, 0), (STEP_COUNT, 0)];
    cases.push(pair(before_steps.clone(), none, good));
    let good = vec![(RULE_COUNT, 1), (STEP_COUNT, 2)];
    cases.push(pair(before_steps, vec![(RULE_COUNT, 1)], good));
    // The sum of ids.
    for wrong in [4, 6] {
        let ids = |ids: u32| vec![(ID_COUNT, ids)];
        let before = vec![rule(0, 0, &Given::of(&[row_of(2, 3, 3)], 0))];
        cases.push(pair(before, ids(wrong), ids(5)));
    }
    // Rows: origin, source index, combinators, flags, counts, ids, entries.
    let row = |step: usize, column: usize, bad: u32, good: u32| {
        let address = step_word(step, column);
        (vec![(address, bad)], vec![(address, good)])
    };
    let two = Given::of(&[row_of(3, 3, 3), row_of(8, 8, 8)], 3);
    let one = Given::of(&[row_of(1, 1, 1)], 2);
    let before = || {
        let rules = group(0, 2, &[two.clone(), one.clone()]);
        vec![style(0, 1, 3), style(0, 1, 2), rules]
    };
    let word = |address: usize, bad: u32, good: u32| (vec![(address, bad)], vec![(address, good)]);
    let mut pairs = vec![
        row(0, 22, 1, 0),
        row(2, 22, 1, 0),
        row(1, 22, 2, 1),
        row(1, 22, u32::MAX, 0),
        row(0, 0, 2, 1),
        row(0, 2, 2, 1),
        row(2, 0, u32::MAX, 0),
        row(2, 2, u32::MAX, 0),
    ];
    // A ninth class stands where the first pseudo does, and so on.
    for (column, ids) in [(4, [8, 0]), (5, [0, 8])] {
        let given = Given::of(&[row_of(ids[0], ids[1], 8)], 0);
        let address = step_word(0, column);
        let ninth = step_word(0, if column == 4 { 14 } else { 22 });
        let bad = vec![
            (address, 9),
            (ID_COUNT, 9),
            (ninth, u32::from(column == 4) * 50),
        ];
        let good = vec![(address, 8), (ID_COUNT, 8), (ninth, 0)];
        cases.push(pair(vec![rule(0, 0, &given)], bad, good));
    }
    // Ids: equal, and the wrong way round, first and last of a list.
    for (step, column) in [(0, 6), (0, 7), (0, 14), (0, 15), (1, 12), (1, 20)] {
        let place = (column as u32 - 6) % 8;
        pairs.push(row(step, column + 1, place, place + 1));
        pairs.push(row(step, column, u32::MAX, place));
    }
    for number in [0, 1] {
        pairs.push(word(rule_word(number, 0), 8, 7));
        pairs.push(word(rule_word(number, 1), 65_536, 65_535));
        pairs.push(word(style_word(number, 0), 8, 7));
        pairs.push(word(style_word(number, 1), 65_536, 65_535));
        pairs.push(word(rule_word(number, 0), u32::MAX, 0));
        pairs.push(word(style_word(number, 1), u32::MAX, 0));
    }
    for (place, first) in [(0, 0), (1, 0), (2, 0), (3, 3), (4, 3)] {
        let own = 3 * (place as u32 - first);
        for words in [entry_word, style_entry_word] {
            pairs.push(word(words(place, 1), 4, 3));
            pairs.push(word(words(place, 0), 65_536, own));
            if [1, 2, 4].contains(&place) {
                pairs.push(word(words(place, 0), own - 3, own - 2));
            }
            if [2, 4].contains(&place) {
                pairs.push(word(words(place, 0), 65_536, 65_535));
            }
        }
    }
    cases.extend(
        pairs
            .into_iter()
            .map(|(bad, good)| pair(before(), bad, good)),
    );
    cases
}

/// Every word of a small sheet, with many values.
fn stored_words() -> Vec<BuildCase> {
    let pushes = || {
        vec![
            style(0, 1, 2),
            group(0, 2, &varied()),
            style(0, 3, 1),
            rule(0, 4, &typed(6, 1)),
        ]
    };
    let mut machine = Machine::default();
    for item in case(pushes()).items {
        machine.item(item.op, &item.payload);
    }
    let mut addresses: Vec<usize> = (0..HEAD + 1).collect();
    addresses.extend((0..5).flat_map(|rule| (0..5).map(move |column| rule_word(rule, column))));
    addresses.extend((0..7).flat_map(|step| (0..23).map(move |column| step_word(step, column))));
    for words in [entry_word, style_entry_word] {
        addresses.extend((0..9).flat_map(|entry| (0..3).map(move |column| words(entry, column))));
    }
    addresses.extend((0..2).flat_map(|style| (0..3).map(move |column| style_word(style, column))));
    let of_address = |address: usize| {
        let own = machine.words(0)[address];
        let mut items = pushes();
        let near = [own.wrapping_sub(1), own.wrapping_add(1)];
        let values = [0, 1, 2, 3, 4, 7, 8, 9, 33, 65_535, 65_536, 65_537, u32::MAX];
        for value in near.into_iter().chain(values) {
            items.extend([store(0, address, value), read(0)]);
        }
        items.extend([store(0, address, own), read(0), style(0, 0, 0), read(0)]);
        case(items)
    };
    addresses.into_iter().map(of_address).collect()
}

/// Sheets in shape that no pushes make.
fn unmade() -> Vec<BuildCase> {
    let mut cases = Vec::new();
    let base = || {
        vec![
            style(0, 1, 2),
            style(0, 1, 2),
            group(0, 1, &varied()[..3]),
            rule(0, 1, &typed(1, 1)),
        ]
    };
    let changes: [&[(usize, u32)]; 10] = [
        // Two rules, two styles, a style and a rule with equal keys.
        &[(rule_word(1, 2), 0)],
        &[(rule_word(3, 1), 2)],
        &[(style_word(1, 1), 0)],
        &[
            (rule_word(0, 1), 0),
            (rule_word(1, 1), 0),
            (rule_word(2, 1), 0),
        ],
        // Indexes and orders that fall, and any order.
        &[(style_word(0, 1), 40), (style_word(1, 1), 30)],
        &[(rule_word(0, 2), u32::MAX), (rule_word(1, 2), 0x8000_0000)],
        &[(rule_word(0, 2), 2), (rule_word(2, 2), 0)],
        // Two origins in a group; the next index below all.
        &[(rule_word(1, 0), 5)],
        &[(NEXT, 0)],
        &[(NEXT, 2), (rule_word(3, 1), 65_535)],
    ];
    for change in changes {
        let mut items = base();
        let change = change.iter();
        items.extend(change.map(|&(address, value)| store(0, address, value)));
        items.extend([
            read(0),
            read_rule(0, 1, 1),
            look(0, 0, 1, 3),
            cascade(1),
            read(1),
        ]);
        items.extend([style(0, 2, 1), rule(0, 2, &typed(3, 0)), read(0)]);
        items.extend([style(1, 2, 1), cascade(0), read(0), cascade(1), read(1)]);
        cases.push(case(items));
    }
    cases
}

/// What was left in the words by an earlier push shows once it is counted.
fn stale() -> Vec<BuildCase> {
    let mut cases = Vec::new();
    // `new` writes the counts only.
    let mut items = vec![
        style(0, 1, 2),
        group(0, 2, &varied()),
        new(0, ROOM),
        read(0),
    ];
    items.extend([
        store(0, STYLE_COUNT, 1),
        store(0, STYLE_ENTRY_COUNT, 2),
        read(0),
    ]);
    items.extend([
        store(0, RULE_COUNT, 2),
        store(0, STEP_COUNT, 4),
        store(0, ID_COUNT, 4),
    ]);
    items.extend([
        read(0),
        store(0, ENTRY_COUNT, 3),
        read(0),
        style(0, 0, 1),
        read(0),
    ]);
    cases.push(case(items));
    // A step's row is written whole: zeros past its ids and for no tag.
    let full = Given::of(&[row_of(8, 8, 8); 2], 0);
    let mut items = vec![rule(0, 0, &full), new(0, ROOM)];
    items.push(rule(
        0,
        0,
        &Given::of(&[row_of(2, 1, 8), row_of(0, 0, 1)], 0),
    ));
    items.extend([store(0, step_word(0, 4), 3), store(0, ID_COUNT, 4), read(0)]);
    items.extend([
        store(0, step_word(0, 8), 99),
        read(0),
        store(0, step_word(1, 5), 1),
    ]);
    items.extend([store(0, ID_COUNT, 5), read(0)]);
    items.extend([
        store(0, step_word(1, 0), 1),
        store(0, step_word(1, 2), 1),
        read(0),
    ]);
    cases.push(case(items));
    // The numbers of a tag that is not set, as given, are not kept.
    let mut row: [u32; ROW] = Tags::of_ids(&[1], &[]).row();
    row[1] = 41;
    row[3] = 42;
    let mut items = vec![rule(0, 0, &Given::of(&[row], 0))];
    items.extend([
        store(0, step_word(0, 0), 1),
        store(0, step_word(0, 2), 1),
        read(0),
    ]);
    cases.push(case(items));
    // A pushed cascade writes the rows that pushes write, whatever stood past
    // the ids of the other sheet.
    let mut items = vec![rule(1, 0, &Given::of(&[row_of(1, 1, 1)], 0))];
    items.extend([store(1, step_word(0, 1), 41), store(1, step_word(0, 7), 42)]);
    items.extend([store(1, step_word(0, 15), 43), cascade(0), read(0)]);
    items.extend([store(0, step_word(0, 0), 1), store(0, step_word(0, 4), 2)]);
    items.extend([store(0, step_word(0, 5), 2), store(0, ID_COUNT, 4), read(0)]);
    cases.push(case(items));
    // A refused group leaves the words, also those past the counts.
    let mut bad = varied();
    bad[2].entries[3][1] = 4;
    let mut items = vec![rule(0, 0, &typed(1, 1)), group(0, 0, &bad)];
    items.extend([store(0, RULE_COUNT, 2), store(0, STEP_COUNT, 2), read(0)]);
    items.extend([
        store(0, rule_word(1, 3), 2),
        store(0, rule_word(1, 4), 1),
        read(0),
    ]);
    cases.push(case(items));
    cases
}

fn lookups() -> Vec<BuildCase> {
    let mut cases = Vec::new();
    let mut items = vec![style(0, 0, 0), style(0, 0, 32), style(0, 0, 3)];
    items.extend([group(0, 0, &varied()), rule(0, 0, &typed(1, 32))]);
    for number in [0, 1, 2, 3, 4, 5, 63, 64, 255, 256, u32::MAX] {
        for property in [0, 1, 3, 6, 93, 0x7fff, 0x8000, 0xffff] {
            items.extend([look(0, 0, number, property), look(0, 1, number, property)]);
        }
    }
    items.extend([look(1, 0, 0, 0), look(1, 1, 0, 0), store(0, ID_COUNT, 0)]);
    items.extend([look(0, 0, 1, 3), look(0, 1, 0, 3)]);
    cases.push(case(items));
    // On lent lists: each kind, present and absent, at every place.
    for count in [0, 1, 2, 3, 31, 32, 33] {
        let entries = Entries::plain(count);
        let properties = [0, 1, 2, 3, 4, 6, 9, 30, 90, 93, 94, 96, 0xffff];
        cases.push(BuildCase {
            items: properties
                .iter()
                .map(|&property| entries.look(property))
                .collect(),
        });
    }
    let extremes = Entries::of(&[
        [0, 0, u32::MAX],
        [1, 1, u32::MAX],
        [0x7fff, 2, 7],
        [0x8000, 3, 8],
        [0xffff, 1, 0],
    ]);
    let properties = [0, 1, 2, 0x7ffe, 0x7fff, 0x8000, 0xfffe, 0xffff];
    cases.push(BuildCase {
        items: properties
            .iter()
            .map(|&property| extremes.look(property))
            .collect(),
    });
    // Every set of 2, 6, 1, and counts past the lists.
    let mut items = Vec::new();
    for set in every_set(3) {
        let mut entries = Entries::plain(3);
        if set[0] {
            entries.count = 4;
        }
        if set[1] {
            entries.kinds[0] = 4;
        }
        if set[2] {
            entries.properties.swap(1, 2);
        }
        items.push(entries.look(3));
    }
    for count in [0, 1, 2, 3, 4, 32, 33, 0x1_0000, 0x8000_0000, u32::MAX] {
        for entries in [3, 40] {
            let mut entries = Entries::plain(entries);
            entries.count = count;
            items.push(entries.look(3));
        }
    }
    cases.push(BuildCase { items });
    cases
}

/// Payloads too short and too long for what an op reads, and unknown ops.
fn payloads() -> Vec<BuildCase> {
    let mut cases = Vec::new();
    let mut entries = Entries::plain(2);
    entries.properties[1] = 0x5_0006;
    let whole = [
        item(NEW, &[1, ROOM]),
        entries.style(0, 1),
        Group::of(2, &varied()[..2]).item(0),
        Group::of(3, &varied()[..1]).rule(0),
        item(CASCADE, &[1]),
        item(STORE, &[0, NEXT as u32, 9]),
        item(READ, &[1]),
        item(READ_RULE, &[1, 1, 1]),
        item(LOOK, &[1, 1, 1, 3]),
        entries.look(6),
    ];
    for whole in whole {
        let words = whole.payload.len();
        let lengths = (0..words + 3).filter(|&length| length < 24 || length + 6 > words);
        let mut items = vec![style(0, 1, 1), group(1, 0, &varied())];
        for length in lengths {
            let mut cut = whole.clone();
            cut.payload.resize(length, 0x7777);
            items.push(cut);
        }
        items.extend([read(0), read(1)]);
        cases.push(case(items));
    }
    // Lengths of lists past the payload, and as long as can be said.
    for (op, lengths) in [
        (STYLE, 3..6),
        (GROUP, 3..9),
        (RULE, 5..10),
        (LOOK_LENT, 2..5),
    ] {
        let base = match op {
            STYLE => entries.style(0, 1),
            GROUP => Group::of(2, &varied()[..2]).item(0),
            RULE => Group::of(3, &varied()[..1]).rule(0),
            _ => entries.look(6),
        };
        let mut items = Vec::new();
        for place in lengths {
            for length in [0, 1, 2, 3, 21, 22, 23, 500, 0x8000_0000, u32::MAX] {
                let mut one = base.clone();
                one.payload[place] = length;
                items.push(one);
            }
        }
        items.push(read(0));
        cases.push(case(items));
    }
    let mut items = Vec::new();
    for op in [0, 11, 12, 0x100, 0x1_0001, 0x8000_0007, u32::MAX] {
        items.extend([item(op, &[]), item(op, &[0, 1, 2]), read(0)]);
    }
    cases.push(case(items));
    // As long as a payload may be.
    let mut long = style(0, 1, 2);
    long.payload.resize(LONGEST_PAYLOAD as usize, 1);
    let unknown = item(77, &vec![1; LONGEST_PAYLOAD as usize]);
    let mut lists = Group::of(1, &varied());
    lists.rows.resize(LONGEST_PAYLOAD as usize - 100, 3);
    cases.push(case([long, unknown, lists.item(0), lists.rule(0), read(0)]));
    cases
}
