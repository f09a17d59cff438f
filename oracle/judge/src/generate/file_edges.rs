//! Fixed files of house records: every size at its edge, every fault at its
//! place and before the others.

use super::files::{
    CHILD, CLASS, DESCENDANT, PART, PSEUDO, TYPE, enter_classes, entry, has, needs, one_of_each,
    sheet, step, worked_example,
};
use crate::records::Record::{self, *};
use crate::records::file_of;
use crate::sheet::{
    DIRECT_STYLES, ORIGIN, RULES, SHEET_ENTRIES, SHEET_IDS, SOURCE_INDEX, STEP_IDS, STEPS,
    STYLE_ENTRIES,
};
use crate::walk::{CURSORS, MATCHED, STATES, SUBJECT_IDS};

/// A sheet of these records between its first and its end, then the rest.
fn file(made: &[Record], walked: &[Record]) -> Vec<u8> {
    let mut records = vec![sheet()];
    records.extend(made);
    records.push(End);
    records.extend(walked);
    file_of(&records)
}

pub fn fixed() -> Vec<Vec<u8>> {
    let mut files = vec![file_of(&worked_example())];
    files.extend(cuts());
    files.extend(misplaced());
    files.extend(codes());
    files.extend(counts());
    files.extend(closes());
    files.extend(sums());
    files.extend(sources());
    files.extend(rooms());
    files.extend(ranks());
    files.extend(items());
    files.extend(pairs());
    files.extend(deep());
    files
}

/// The worked example cut at every length, and kinds that do not exist, alone
/// and after its end.
fn cuts() -> Vec<Vec<u8>> {
    let whole = file_of(&worked_example());
    let mut files: Vec<Vec<u8>> = (0..whole.len()).map(|end| whole[..end].to_vec()).collect();
    for kind in [0, 13, 127, 128, 255] {
        files.push(vec![kind]);
        let mut unknown = whole.clone();
        unknown.push(kind);
        files.push(unknown);
    }
    files
}

/// Every kind after every beginning: each is placed right or misplaced.
fn misplaced() -> Vec<Vec<u8>> {
    let direct = Direct { origin: 0 };
    let group = Group { origin: 0 };
    let beginnings: Vec<Vec<Record>> = vec![
        vec![],
        vec![sheet()],
        vec![sheet(), direct],
        vec![sheet(), direct, entry(1)],
        vec![sheet(), group],
        vec![sheet(), group, Rule],
        vec![sheet(), group, Rule, step(CHILD)],
        vec![sheet(), group, Rule, step(CHILD), needs(TYPE, 1)],
        vec![sheet(), group, Rule, step(CHILD), needs(TYPE, 1), entry(1)],
        vec![sheet(), group, Rule, entry(1), step(CHILD)],
        vec![sheet(), group, Rule, step(CHILD), Rule],
        vec![sheet(), group, Rule, step(CHILD), group],
        vec![sheet(), group, Rule, step(CHILD), direct],
        vec![sheet(), direct, group],
        vec![sheet(), End],
        vec![sheet(), End, has(TYPE, 1)],
        vec![sheet(), End, Enter { parent: 0 }],
    ];
    let mut files = Vec::new();
    for beginning in &beginnings {
        for record in one_of_each() {
            // Followed by what shows whether it was taken.
            let mut records = beginning.clone();
            records.push(record);
            files.push(file_of(&records));
            records.extend([End, Enter { parent: 0 }]);
            files.push(file_of(&records));
        }
    }
    files
}

/// Every code at, and one over, what it may be, alone and where a misplaced
/// record or a count comes before it.
fn codes() -> Vec<Vec<u8>> {
    let mut files = Vec::new();
    for ranking in [0, 1, 2, 255] {
        let first = Sheet { ranking, stamp: 7 };
        files.push(file_of(&[first, End]));
        files.push(file_of(&[first, first, End]));
        files.push(file_of(&[sheet(), first, End]));
        files.push(file_of(&[sheet(), End, first]));
        files.push(vec![1, ranking, 0]);
    }
    for origin in [0, ORIGIN - 1, ORIGIN, ORIGIN + 1, 255] {
        for opens in [Direct { origin }, Group { origin }] {
            files.push(file(&[opens], &[]));
            files.push(file(&[], &[opens]));
            // The origin's fault comes before that of the style it closes.
            let unsorted = [Direct { origin: 0 }, entry(2), entry(1), opens];
            files.push(file(&unsorted, &[]));
        }
        // The origin's fault comes before the count.
        let mut many = vec![Direct { origin: 0 }; DIRECT_STYLES];
        many.push(Direct { origin });
        files.push(file(&many, &[]));
    }
    for code in [0, 1, 2, 255] {
        let rule = [Group { origin: 0 }, Rule];
        files.push(file(&[&rule[..], &[step(code)]].concat(), &[]));
        files.push(file(&[&rule[..], &[step(CHILD), step(code)]].concat(), &[]));
        let mut many = rule.to_vec();
        many.extend([step(CHILD); STEPS]);
        many.push(step(code));
        files.push(file(&many, &[]));
    }
    for which in [TYPE, PART, CLASS, PSEUDO, 4, 255] {
        let rule = [Group { origin: 0 }, Rule, step(CHILD), needs(which, 1)];
        let enter = Enter { parent: 0 };
        files.push(file(&rule, &[enter, has(which, 1), enter]));
        files.push(file(&rule[..3], &[has(which, 1), enter]));
        files.push(file(
            &[Group { origin: 0 }, Rule, needs(which, 1)],
            &[enter],
        ));
    }
    for kind in [0, 1, 2, 3, 4, 255] {
        let entry = Entry {
            property: 1,
            kind,
            number: u32::MAX,
        };
        let winner = Winner {
            state: 0,
            property: 1,
        };
        files.push(file(&[Direct { origin: 0 }, entry], &[winner]));
        files.push(file(&[Group { origin: 0 }, Rule, entry], &[winner]));
        files.push(file(&[entry], &[winner]));
    }
    files
}

/// Every count of one thing at, one under and one over its size.
fn counts() -> Vec<Vec<u8>> {
    let mut files = Vec::new();
    let around = |size: usize| [size - 1, size, size + 1];
    let group = Group { origin: 0 };
    for count in around(DIRECT_STYLES) {
        let made = vec![Direct { origin: 0 }; count];
        files.push(file(&made, &[]));
        // The last one closes a style whose properties are not ascending.
        let mut made = vec![Direct { origin: 0 }; count - 1];
        made.extend([entry(2), entry(1), Direct { origin: 0 }]);
        files.push(file(&made, &[]));
    }
    for count in around(RULES) {
        let enter = [Enter { parent: 0 }];
        let mut made = vec![group];
        made.extend(vec![Rule; count]);
        files.push(file(&made, &enter));
        let made: Vec<Record> = (0..count)
            .flat_map(|_| [group, Rule, step(CHILD)])
            .collect();
        files.push(file(&made, &enter));
    }
    for count in around(STEPS) {
        for code in [CHILD, DESCENDANT] {
            let mut made = vec![group, Rule, step(CHILD)];
            made.extend(vec![step(code); count - 1]);
            made.push(entry(1));
            let walked: Vec<Record> = (0..10).map(|parent| Enter { parent }).collect();
            files.push(file(&made, &walked));
        }
    }
    for which in [CLASS, PSEUDO] {
        for count in around(STEP_IDS) {
            for repeated in [false, true] {
                let id = |number: usize| if repeated { 3 } else { number as u32 };
                let mut made = vec![group, Rule, step(CHILD)];
                made.extend((0..count).rev().map(|number| needs(which, id(number))));
                let mut walked: Vec<Record> = (0..9).map(|id| has(which, id)).collect();
                walked.push(Enter { parent: 0 });
                files.push(file(&made, &walked));
                // A second step has its own counts.
                made.push(step(CHILD));
                made.extend((0..count).map(|number| needs(which, id(number))));
                files.push(file(&made, &walked));
            }
        }
        for count in [
            SUBJECT_IDS - 1,
            SUBJECT_IDS,
            SUBJECT_IDS + 1,
            SUBJECT_IDS + 2,
        ] {
            for repeated in [false, true] {
                let id = |number: usize| if repeated { 3 } else { number as u32 };
                let mut made = vec![group];
                for id in [3, SUBJECT_IDS as u32 - 1, SUBJECT_IDS as u32] {
                    made.extend([Rule, step(CHILD), needs(which, id)]);
                }
                let mut walked: Vec<Record> =
                    (0..count).map(|number| has(which, id(number))).collect();
                walked.extend([has(TYPE, 1), has(PART, 1), Enter { parent: 0 }]);
                walked.extend([has(which, 3), Enter { parent: 0 }]);
                files.push(file(&made, &walked));
            }
        }
    }
    for count in around(STYLE_ENTRIES) {
        let entries = (0..count).map(|number| entry(number as u16));
        for opens in [&[Direct { origin: 0 }][..], &[group, Rule, step(CHILD)]] {
            let made: Vec<Record> = opens.iter().copied().chain(entries.clone()).collect();
            let walked = [
                Enter { parent: 0 },
                Changed { old: 0, new: 1 },
                Changed { old: 1, new: 1 },
            ];
            files.push(file(&made, &walked));
        }
    }
    files
}

/// Styles that are refused, by each record that closes one.
fn closes() -> Vec<Vec<u8>> {
    let mut files = Vec::new();
    for (first, second) in [(1, 2), (1, 1), (2, 1), (0, 65_535), (65_535, 0)] {
        for opens in [&[Direct { origin: 0 }][..], &[Group { origin: 0 }, Rule]] {
            for closes in [&[][..], &[Direct { origin: 1 }], &[Group { origin: 1 }]] {
                let mut made = opens.to_vec();
                made.extend([entry(first), entry(second)]);
                made.extend(closes);
                files.push(file(&made, &[Enter { parent: 0 }]));
            }
        }
        // The fault is in the first rule; a later rule does not close it.
        let mut made = vec![Group { origin: 0 }, Rule, entry(first), entry(second)];
        made.extend([Rule, entry(1)]);
        files.push(file(&made, &[Enter { parent: 0 }]));
    }
    files
}

/// A rule whose steps hold `ids` required ids, at most 128.
fn rule_of_ids(ids: usize) -> Vec<Record> {
    let mut records = vec![Rule];
    for number in 0..ids {
        if number % (2 * STEP_IDS) == 0 {
            records.push(step(CHILD));
        }
        let which = if number % 2 == 0 { CLASS } else { PSEUDO };
        records.push(needs(which, number as u32));
    }
    records
}

/// The two sums of a whole sheet, at, one under and one over.
fn sums() -> Vec<Vec<u8>> {
    let mut files = Vec::new();
    let in_rule = 2 * STEP_IDS * STEPS;
    for sum in [SHEET_IDS - 1, SHEET_IDS, SHEET_IDS + 1] {
        let mut made = Vec::new();
        let mut left = sum;
        while left > 0 {
            let ids = left.min(in_rule);
            made.push(Group { origin: 0 });
            made.extend(rule_of_ids(ids));
            left -= ids;
        }
        files.push(file(&made, &[Enter { parent: 0 }]));
        // Type and part add nothing to the ids held.
        made.extend([Rule, step(CHILD), needs(TYPE, 1), needs(PART, 1)]);
        files.push(file(&made, &[Enter { parent: 0 }]));
    }
    let mut full: Vec<Record> = vec![Group { origin: 0 }];
    for _ in 0..SHEET_IDS / in_rule - 1 {
        full.extend(rule_of_ids(in_rule));
    }
    full.extend(rule_of_ids(in_rule - 1));
    // Nor does a repeated id: the last one fills the sum, the next is too many.
    let mut repeated = full;
    repeated.extend([Rule, step(CHILD), needs(CLASS, 1), needs(CLASS, 1)]);
    files.push(file(&repeated, &[Enter { parent: 0 }]));
    repeated.push(needs(PSEUDO, 1));
    files.push(file(&repeated, &[Enter { parent: 0 }]));

    for sum in [SHEET_ENTRIES - 1, SHEET_ENTRIES, SHEET_ENTRIES + 1] {
        for directs in [0, 1, DIRECT_STYLES] {
            let mut made = Vec::new();
            let mut property = 0;
            let mut style = 0;
            while property < sum {
                if style < directs {
                    made.push(Direct { origin: 0 });
                } else {
                    if style == directs {
                        made.push(Group { origin: 0 });
                    }
                    made.extend([Rule, step(CHILD)]);
                }
                let end = sum.min(property + STYLE_ENTRIES);
                made.extend((property..end).map(|property| entry(property as u16)));
                property = end;
                style += 1;
            }
            let walked = [
                Enter { parent: 0 },
                Changed { old: 0, new: 1 },
                Winner {
                    state: 1,
                    property: 4095,
                },
            ];
            files.push(file(&made, &walked));
        }
    }
    files
}

/// Source indexes to the last, and one more, with each record that closes.
fn sources() -> Vec<Vec<u8>> {
    let mut files = Vec::new();
    for more in 0..4 {
        let groups = SOURCE_INDEX + more;
        let made = vec![Group { origin: 0 }; groups];
        files.push(file(&made, &[Enter { parent: 0 }]));
    }
    let mut made = vec![Group { origin: 0 }; SOURCE_INDEX];
    made.extend([Group { origin: 0 }, Rule, step(CHILD), entry(1)]);
    let winner = Winner {
        state: 1,
        property: 1,
    };
    files.push(file(&made, &[Enter { parent: 0 }, winner]));
    // 1 comes before 7.
    made.extend([Group { origin: 0 }, Rule, entry(2), entry(1)]);
    files.push(file(&made, &[Enter { parent: 0 }, winner]));
    let mut made = vec![Group { origin: 0 }; SOURCE_INDEX + 1];
    made.extend([Direct { origin: 0 }, entry(1), Direct { origin: 0 }]);
    files.push(file(&made, &[Enter { parent: 0 }]));
    // 6 of the record itself comes before 7 of what it closes.
    made.push(Direct { origin: ORIGIN + 1 });
    made.remove(0);
    files.push(file(&made, &[]));
    // 1 comes before 7 in a direct style as well.
    let mut made = vec![Group { origin: 0 }; SOURCE_INDEX + 1];
    made.extend([Direct { origin: 0 }, entry(2), entry(1)]);
    files.push(file(&made, &[]));
    files
}

/// The room for states, for cursors and for matched numbers, filled to the
/// last place and asked for one more; held states still answer.
fn rooms() -> Vec<Vec<u8>> {
    let mut files = Vec::new();

    // Nine classes, one rule each: 512 lists of matched rules beside the root.
    let mut made = vec![Group { origin: 0 }];
    for id in 0..9 {
        made.extend([Rule, step(CHILD), needs(CLASS, id), entry(id as u16)]);
    }
    let mut walked = Vec::new();
    for bits in 0..STATES {
        walked.extend(enter_classes(bits, 0));
    }
    let last = STATES as u32 - 1;
    for state in [last - 1, last, last + 1, last + 2] {
        walked.extend(enter_classes(5, state));
        walked.push(Changed { old: 0, new: state });
        walked.push(Winner { state, property: 0 });
    }
    walked.extend(enter_classes(STATES - 1, 0));
    // The items of a refused enter are dropped.
    walked.extend([Enter { parent: 0 }, Enter { parent: 3 }]);
    files.push(file(&made, &walked));

    // 256 rules, 16 for each of 16 classes. With one step each, a subject's
    // classes list 16 rules apiece; with two, they leave 16 cursors apiece.
    for steps in [1, 2] {
        let mut made = vec![Group { origin: 0 }];
        for rule in 0..RULES as u32 {
            made.extend([Rule, step(CHILD), needs(CLASS, rule % 16)]);
            if steps == 2 {
                made.extend([step(CHILD), needs(TYPE, 99)]);
            }
        }
        let all = 0xffff;
        let mut walked = Vec::new();
        // 16 subjects that lack one class: 240 of the 256 places of 16. The
        // root's own cursors take the other 16 if there are two steps.
        for lacking in 0..16 {
            walked.extend(enter_classes(all & !(1 << lacking), 0));
        }
        let one_more = enter_classes(1, 0);
        if steps == 1 {
            let mut nearly = walked.clone();
            nearly.extend(enter_classes(all >> 1, 0));
            nearly.extend(enter_classes(all >> 2, 0));
            nearly.extend(one_more.clone());
            nearly.extend(enter_classes(all, 0));
            files.push(file(&made, &nearly));
            walked.extend(enter_classes(all, 0));
        }
        walked.extend(one_more.clone());
        walked.extend(enter_classes(0, 0));
        walked.extend(one_more);
        walked.extend(enter_classes(all & !1, 3));
        walked.extend([has(TYPE, 99), Enter { parent: 1 }]);
        files.push(file(&made, &walked));
    }

    // Class k stands in 2^k rules, so a subject's bits are the length of its
    // list: the room can be filled to one under, and asked for one too many.
    for steps in [1, 2] {
        let mut made = vec![Group { origin: 0 }];
        for rule in 1..RULES as u32 {
            made.extend([Rule, step(CHILD), needs(CLASS, rule.ilog2())]);
            if steps == 2 {
                made.extend([step(CHILD), needs(TYPE, 99)]);
            }
        }
        // With two steps the root has taken 255 of the cursors.
        let mut left = if steps == 1 { MATCHED } else { CURSORS - 255 };
        let mut walked = Vec::new();
        for bits in (200..RULES).rev() {
            if left > 2 * bits {
                walked.extend(enter_classes(bits, 0));
                left -= bits;
            }
        }
        for bits in [left / 2, left - left / 2 - 1, 2, 1, 3, 0, 1] {
            walked.extend(enter_classes(bits, 0));
        }
        files.push(file(&made, &walked));
    }

    // Long descendant rules: cursors pile up as the walk goes down.
    let mut made = vec![Group { origin: 0 }];
    for rule in 0..64 {
        made.extend([Rule, step(CHILD)]);
        for number in 1..STEPS as u32 {
            made.extend([step(DESCENDANT), needs(TYPE, (rule + number) % 5)]);
        }
        made.push(entry(rule as u16));
    }
    let mut walked = Vec::new();
    for depth in 0..40 {
        walked.extend([has(TYPE, depth % 5), Enter { parent: depth }]);
    }
    walked.push(Changed { old: 0, new: 8 });
    files.push(file(&made, &walked));
    files
}

/// Tags that are replaced, in a step and in a subject; and how long items
/// last: to the next enter, accepted or not, and past everything else.
fn items() -> Vec<Vec<u8>> {
    let mut files = Vec::new();
    let enter = Enter { parent: 0 };
    for which in [TYPE, PART, CLASS, PSEUDO] {
        for (needed, given) in [([1, 2], [2, 2]), ([2, 1], [2, 1]), ([2, 2], [1, 2])] {
            let made = [
                Group { origin: 0 },
                Rule,
                step(CHILD),
                needs(which, needed[0]),
                needs(which, needed[1]),
                entry(1),
            ];
            let subject = [has(which, given[0]), has(which, given[1])];
            let changed = Changed { old: 0, new: 0 };
            let winner = Winner {
                state: 0,
                property: 1,
            };
            let betweens: [&[Record]; 6] = [
                &[],
                &[changed],
                &[winner],
                &[Changed { old: 9, new: 0 }, winner, changed],
                &[enter],
                &[Enter { parent: 9 }],
            ];
            for between in betweens {
                let mut walked = subject.to_vec();
                walked.extend(between);
                walked.extend([enter, enter, winner]);
                files.push(file(&made, &walked));
            }
        }
    }
    files
}

/// Pairs of sources that each part of the key decides, under both rankings.
fn ranks() -> Vec<Vec<u8>> {
    let mut files = Vec::new();
    let weights: [&[Record]; 7] = [
        &[],
        &[needs(TYPE, 1)],
        &[needs(PART, 1)],
        &[needs(CLASS, 1)],
        &[needs(PSEUDO, 1)],
        &[needs(TYPE, 1), needs(PART, 1)],
        &[needs(CLASS, 1), needs(CLASS, 2)],
    ];
    let subject = [
        has(TYPE, 1),
        has(PART, 1),
        has(CLASS, 2),
        has(CLASS, 1),
        has(PSEUDO, 1),
        Enter { parent: 0 },
    ];
    let asked = [
        Winner {
            state: 1,
            property: 1,
        },
        Changed { old: 0, new: 1 },
        Changed { old: 1, new: 0 },
    ];
    for ranking in [0, 1] {
        for left in weights {
            for right in weights {
                for (origin, same_group) in [(0, true), (0, false), (1, false)] {
                    let stamp = u32::MAX;
                    let mut records = vec![Sheet { ranking, stamp }, Group { origin }, Rule];
                    records.push(step(CHILD));
                    records.extend(left);
                    records.push(entry(1));
                    if !same_group {
                        records.push(Group { origin: 0 });
                    }
                    records.extend([Rule, step(CHILD)]);
                    records.extend(right);
                    records.extend([entry(1), Direct { origin: 0 }, entry(1), End]);
                    records.extend(subject);
                    records.extend(asked);
                    files.push(file_of(&records));
                }
            }
        }
    }
    files
}

/// Two faults at one record: the one that comes first by their order.
fn pairs() -> Vec<Vec<u8>> {
    let mut files = Vec::new();
    let group = Group { origin: 0 };
    let direct = Direct { origin: 0 };
    let wrong_entry = Entry {
        property: 0,
        kind: 4,
        number: 0,
    };
    // One entry too many, out of order, or of a kind that there is not.
    for opens in [&[direct][..], &[group, Rule]] {
        let mut made = opens.to_vec();
        made.extend((0..STYLE_ENTRIES as u16).map(entry));
        for last in [entry(0), entry(99), wrong_entry] {
            files.push(file(&[&made[..], &[last]].concat(), &[]));
        }
        // Out of order before the last: told only by what closes it.
        made.swap(opens.len(), opens.len() + 1);
        for last in [entry(99), direct, Group { origin: 8 }, Rule] {
            files.push(file(&[&made[..], &[last]].concat(), &[]));
        }
    }
    // One rule too many, where none may stand.
    let mut made = vec![group];
    made.extend([Rule; RULES]);
    for last in [&[Rule][..], &[direct, Rule], &[group, Rule]] {
        files.push(file(&[&made[..], last].concat(), &[]));
    }
    // One id too many for the step, while there is room in the sheet or not.
    for which in [CLASS, PSEUDO] {
        let mut made = vec![group, Rule, step(CHILD)];
        made.extend([needs(which, 1); STEP_IDS]);
        for last in [needs(which, 1), needs(4, 1), needs(TYPE, 1)] {
            files.push(file(&[&made[..], &[last]].concat(), &[]));
        }
        let mut walked = vec![has(which, 1); SUBJECT_IDS];
        for last in [has(which, 2), has(4, 1), has(TYPE, 1)] {
            walked.push(last);
            walked.push(Enter { parent: 0 });
            files.push(file(&made, &walked));
            walked.truncate(SUBJECT_IDS);
        }
    }
    files
}

/// Walks of many levels, whose states come again and again.
fn deep() -> Vec<Vec<u8>> {
    let mut files = Vec::new();
    for (combinator, ranking) in [(CHILD, 0), (DESCENDANT, 1)] {
        let mut records = vec![Sheet { ranking, stamp: 0 }, Group { origin: 3 }];
        for (number, types) in [[1, 2], [2, 1], [2, 2], [1, 3]].into_iter().enumerate() {
            records.extend([Rule, step(CHILD), needs(TYPE, types[0])]);
            records.extend([step(combinator), needs(TYPE, types[1])]);
            records.push(entry(number as u16));
        }
        records.push(End);
        // With child only the last two types count; with descendant, which
        // types came before.
        let mut state = 0;
        let mut reader = crate::walk::Reader::default();
        for &record in &records {
            reader.take(record).expect("the sheet is whole");
        }
        for level in 0..600 {
            let item = has(TYPE, 1 + level * level % 5);
            let enter = Enter { parent: state };
            reader.take(item).expect("one type");
            let line = reader.take(enter).expect("few states");
            let number = line.split(' ').nth(1).expect("the state");
            let child = number.parse().expect("a number");
            records.extend([
                item,
                enter,
                Changed {
                    old: state,
                    new: child,
                },
            ]);
            state = child;
        }
        files.push(file_of(&records));
    }
    files
}
