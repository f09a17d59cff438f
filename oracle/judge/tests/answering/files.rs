//! House-record files: document 01's sentences about them one by one, and
//! what the files of a run meet.

use std::collections::{BTreeMap, BTreeSet};

use judge::faults::Fault;
use judge::generate::files::{random_file, worked_example};
use judge::generate::{file_edges, stream};
use judge::records::Record::{self, *};
use judge::records::{file_of, pieces, read};
use judge::walk::{walk, walked};

const TYPE: u8 = 0;
const PART: u8 = 1;
const CLASS: u8 = 2;
const PSEUDO: u8 = 3;

const SHEET: Record = Sheet {
    ranking: 0,
    stamp: 7,
};
const DIRECT: Record = Direct { origin: 0 };
const GROUP: Record = Group { origin: 0 };
const CHILD: Record = Step { combinator: 0 };
const DESCENDANT: Record = Step { combinator: 1 };
const ENTER: Record = Enter { parent: 0 };
const SAME: Record = Changed { old: 0, new: 0 };
const ASKED: Record = Winner {
    state: 0,
    property: 1,
};

fn entry(property: u16) -> Record {
    Entry {
        property,
        kind: 0,
        number: 9,
    }
}

fn needs(which: u8, id: u32) -> Record {
    Requirement { which, id }
}

fn has(which: u8, id: u32) -> Record {
    Item { which, id }
}

/// The records before the last one, and the refusal of that one, at its first
/// byte, as the only line.
fn ends_with(refusal: u32, records: &[Record]) {
    let before = file_of(&records[..records.len() - 1]);
    let mut rest = records.to_vec();
    // Nothing is read after a refusal that ends the program.
    for _ in 0..2 {
        let line = format!("refused {refusal} at {}\n", before.len());
        assert_eq!(walk(&file_of(&rest)), line, "{records:?}");
        rest.extend([End, ENTER, ASKED]);
    }
}

fn prints(records: &[Record], lines: &str) {
    assert_eq!(walk(&file_of(records)), lines, "{records:?}");
}

/// The records of a sheet, its end, and more.
fn sheet_and(made: &[Record], walked: &[Record]) -> Vec<Record> {
    [&[SHEET], made, &[End], walked].concat()
}

fn at(records: &[Record]) -> usize {
    file_of(records).len()
}

/// "10: a house record ... has a code out of range (origin and ranking: 6)".
#[test]
fn codes_out_of_range() {
    for combinator in [1, 2, 255] {
        ends_with(10, &[SHEET, GROUP, Rule, Step { combinator }]);
    }
    for combinator in [2, 255] {
        ends_with(10, &[SHEET, GROUP, Rule, CHILD, Step { combinator }]);
    }
    prints(&sheet_and(&[GROUP, Rule, CHILD, DESCENDANT], &[]), "");
    for which in [4, 255] {
        ends_with(10, &[SHEET, GROUP, Rule, CHILD, needs(which, 1)]);
        // Also where others are dropped: 10 always ends the program.
        ends_with(10, &[SHEET, End, has(which, 1)]);
    }
    for kind in [4, 255] {
        let wrong = Entry {
            property: 1,
            kind,
            number: 0,
        };
        ends_with(10, &[SHEET, DIRECT, wrong]);
        ends_with(10, &[SHEET, GROUP, Rule, wrong]);
    }
    for ranking in [2, 255] {
        ends_with(6, &[Sheet { ranking, stamp: 7 }]);
        // The second sheet is misplaced, whatever it says.
        ends_with(10, &[SHEET, Sheet { ranking, stamp: 7 }]);
        ends_with(10, &[SHEET, End, Sheet { ranking, stamp: 7 }]);
    }
    for origin in [8, 255] {
        ends_with(6, &[SHEET, Direct { origin }]);
        ends_with(6, &[SHEET, Group { origin }]);
        ends_with(10, &[Group { origin }]);
        ends_with(10, &[SHEET, End, Direct { origin }]);
    }
}

/// "input that ends before 8 (at its length)"; a record that is cut short or
/// unknown, at its first byte.
#[test]
fn ends_of_the_input() {
    assert_eq!(walk(&[]), "refused 10 at 0\n");
    let records = worked_example();
    let file = file_of(&records);
    let end = at(&records[..16]);
    let mut boundaries = vec![0];
    for count in 1..=records.len() {
        boundaries.push(at(&records[..count]));
    }
    for length in 0..file.len() {
        let begin = *boundaries.iter().rfind(|&&place| place <= length).unwrap();
        let refused = format!("refused 10 at {begin}\n");
        let text = walk(&file[..length]);
        if length < end {
            assert_eq!(text, refused);
        } else {
            assert_eq!(text.ends_with(&refused), begin < length, "{length}");
            assert_eq!(text.contains("refused"), begin < length, "{length}");
        }
        for kind in [0, 13, 200] {
            let mut unknown = file[..length].to_vec();
            unknown.push(kind);
            if begin == length {
                assert!(walk(&unknown).ends_with(&refused));
            }
        }
    }
    // Cut short comes before every other fault of the record.
    assert_eq!(walk(&[1, 9]), "refused 10 at 0\n");
    assert_eq!(walk(&[2]), "refused 10 at 0\n");
    assert_eq!(walk(&[1, 0, 0, 0, 0, 0, 3]), "refused 10 at 6\n");
}

/// "Misplaced: ...", each with what is accepted beside it.
#[test]
fn misplaced() {
    for first in [DIRECT, GROUP, Rule, CHILD, needs(TYPE, 1), entry(1), End] {
        ends_with(10, &[first]);
        ends_with(10, &[SHEET, End, first]);
    }
    for later in [has(TYPE, 1), ENTER, SAME, ASKED] {
        ends_with(10, &[later]);
        ends_with(10, &[SHEET, later]);
        ends_with(10, &[SHEET, GROUP, Rule, CHILD, later]);
    }
    ends_with(10, &[SHEET, SHEET]);
    for before in [
        &[SHEET][..],
        &[SHEET, DIRECT],
        &[SHEET, GROUP, Rule, DIRECT],
    ] {
        for record in [Rule, CHILD, needs(TYPE, 1)] {
            ends_with(10, &[before, &[record]].concat());
        }
    }
    ends_with(10, &[SHEET, GROUP, CHILD]);
    ends_with(10, &[SHEET, GROUP, Rule, GROUP, CHILD]);
    ends_with(10, &[SHEET, GROUP, Rule, needs(TYPE, 1)]);
    ends_with(10, &[SHEET, GROUP, Rule, CHILD, Rule, needs(TYPE, 1)]);
    ends_with(10, &[SHEET, entry(1)]);
    ends_with(10, &[SHEET, GROUP, entry(1)]);
    ends_with(10, &[SHEET, DIRECT, GROUP, entry(1)]);
    // 5, 6 and 7 may come by turns: an entry is the rule's, a requirement the
    // last step's, wherever they stand.
    let rule = [
        GROUP,
        Rule,
        entry(1),
        CHILD,
        entry(2),
        needs(TYPE, 1),
        entry(3),
        DESCENDANT,
        entry(4),
        needs(TYPE, 2),
    ];
    let walked = [
        has(TYPE, 1),
        ENTER,
        has(TYPE, 2),
        Enter { parent: 1 },
        Changed { old: 1, new: 2 },
    ];
    let lines = "state 1 matched 0:\nstate 2 matched 1: 0\nchanged 4: 1 2 3 4\n";
    prints(&sheet_and(&rule, &walked), lines);
}

/// "A record's own faults come first, in the order of refusals 10, 6, 2; then
/// the style or group that a 2, 3 or 8 closes is pushed, or refused there."
#[test]
fn order_of_faults() {
    for (left, right) in [(1, 1), (2, 1), (65_535, 0)] {
        for opens in [&[DIRECT][..], &[GROUP, Rule], &[GROUP, Rule, Rule, CHILD]] {
            let mut made = [&[SHEET], opens, &[entry(left), entry(right)]].concat();
            for closes in [DIRECT, GROUP, End] {
                made.push(closes);
                ends_with(1, &made);
                made.pop();
            }
            // A fault of its own comes first; a rule closes nothing.
            for closes in [Direct { origin: 8 }, Group { origin: 8 }] {
                made.push(closes);
                ends_with(6, &made);
                made.pop();
            }
            made.push(SHEET);
            ends_with(10, &made);
            made.pop();
            if opens.len() > 1 {
                made.extend([Rule, entry(1), Direct { origin: 1 }]);
                ends_with(1, &made);
            }
        }
    }
    // The 65th direct style is 2 there, whatever it closes.
    let mut styles = vec![SHEET];
    styles.extend([DIRECT; 64]);
    prints(&[&styles[..], &[End]].concat(), "");
    ends_with(2, &[&styles[..], &[DIRECT]].concat());
    let unsorted = [&styles[..], &[entry(2), entry(1)]].concat();
    ends_with(2, &[&unsorted[..], &[DIRECT]].concat());
    ends_with(6, &[&unsorted[..], &[Direct { origin: 8 }]].concat());
    ends_with(1, &[&unsorted[..], &[GROUP]].concat());
    ends_with(1, &[&unsorted[..], &[End]].concat());
    // A code out of range comes before a count.
    let mut steps = vec![SHEET, GROUP, Rule];
    steps.extend([CHILD; 8]);
    ends_with(2, &[&steps[..], &[CHILD]].concat());
    ends_with(10, &[&steps[..], &[Step { combinator: 2 }]].concat());
}

/// "a count at the record that brings it over its size".
#[test]
fn counts() {
    // Rules held and open together.
    let held = [&[SHEET, GROUP][..], &[Rule; 200], &[GROUP], &[Rule; 56]].concat();
    prints(&[&held[..], &[End]].concat(), "");
    ends_with(2, &[&held[..], &[Rule]].concat());
    ends_with(2, &[&held[..], &[GROUP, Rule]].concat());
    let all = [&[SHEET, GROUP][..], &[Rule; 257]].concat();
    ends_with(2, &all);
    // Ids of a step as given: repeats count, types and parts do not.
    for (which, other) in [(CLASS, PSEUDO), (PSEUDO, CLASS)] {
        for id in [|_| 5, |number| number] {
            let mut ids = vec![SHEET, GROUP, Rule, CHILD];
            ids.extend((0..8).map(|number| needs(which, id(number))));
            ids.extend([needs(TYPE, 1), needs(PART, 1), needs(TYPE, 2)]);
            ids.extend([1; 8].map(|id| needs(other, id)));
            prints(&[&ids[..], &[End]].concat(), "");
            ends_with(2, &[&ids[..], &[needs(which, 5)]].concat());
            ends_with(2, &[&ids[..], &[needs(other, 1)]].concat());
            // The next step has counts of its own.
            ids.extend([CHILD, needs(which, 5), End]);
            prints(&ids, "");
        }
    }
    for opens in [&[DIRECT][..], &[GROUP, Rule]] {
        let mut entries = [&[SHEET], opens].concat();
        entries.extend((0..32).map(entry));
        prints(&[&entries[..], &[End]].concat(), "");
        ends_with(2, &[&entries[..], &[entry(32)]].concat());
    }
}

/// "In a whole sheet: required ids 0 to 8,192, entries 0 to 4,096, as held."
#[test]
fn sums() {
    // 128 rules of 8 steps of 8 ids held, each given twice.
    let mut ids = vec![SHEET, GROUP];
    for _ in 0..128 {
        ids.push(Rule);
        for _ in 0..8 {
            ids.push(CHILD);
            for id in [0, 0, 1, 1, 2, 3, 2, 3] {
                ids.push(needs(PSEUDO, id));
            }
            for id in 0..4 {
                ids.push(needs(CLASS, id));
            }
        }
    }
    prints(&[&ids[..], &[End]].concat(), "");
    // A type and a part are no ids, and an id that is there adds nothing.
    ids.extend([needs(TYPE, 9), needs(PART, 9), needs(CLASS, 3)]);
    prints(&[&ids[..], &[End]].concat(), "");
    ends_with(2, &[&ids[..], &[needs(CLASS, 4)]].concat());
    ends_with(2, &[&ids[..], &[Rule, CHILD, needs(PSEUDO, 0)]].concat());
    ends_with(
        2,
        &[&ids[..], &[GROUP, Rule, CHILD, needs(CLASS, 0)]].concat(),
    );

    let mut entries = vec![SHEET];
    for number in 0..128 {
        match number {
            0..64 => entries.push(DIRECT),
            64 => entries.extend([GROUP, Rule]),
            _ => entries.push(Rule),
        }
        entries.extend((0..32).map(entry));
    }
    prints(&[&entries[..], &[End]].concat(), "");
    ends_with(2, &[&entries[..], &[entry(32)]].concat());
    ends_with(2, &[&entries[..], &[Rule, entry(0)]].concat());
    ends_with(2, &[&entries[..], &[GROUP, Rule, CHILD, entry(0)]].concat());
}

/// "7: a push would use a source index over 65,535", at what closes it.
#[test]
fn source_indexes() {
    let mut groups = vec![SHEET];
    groups.extend(vec![GROUP; 65_536]);
    let all = groups.len();
    prints(&[&groups[..], &[End]].concat(), "");
    groups.push(GROUP);
    for closes in [GROUP, DIRECT, End] {
        ends_with(7, &[&groups[..], &[closes]].concat());
    }
    ends_with(6, &[&groups[..], &[Direct { origin: 9 }]].concat());
    groups.truncate(all);
    groups.push(DIRECT);
    ends_with(7, &[&groups[..], &[End]].concat());
    // 1 comes before 7.
    ends_with(1, &[&groups[..], &[entry(1), entry(1), End]].concat());
}

/// Items: the last type and part, sorted ids, how long they last, and that
/// one too many is dropped alone.
#[test]
fn items() {
    let rule = |which, id| [Rule, CHILD, needs(which, id)];
    let made: Vec<Record> = [GROUP]
        .into_iter()
        .chain([rule(TYPE, 1), rule(PART, 1), rule(CLASS, 1), rule(CLASS, 2)].concat())
        .chain(rule(PSEUDO, 1))
        .collect();
    let walked = |walked: &[Record], lines: &str| prints(&sheet_and(&made, walked), lines);
    let replaced = [
        has(TYPE, 1),
        has(TYPE, 2),
        has(PART, 2),
        has(PART, 1),
        ENTER,
    ];
    walked(&replaced, "state 1 matched 1: 1\n");
    let unsorted = [
        has(CLASS, 2),
        has(CLASS, 1),
        has(CLASS, 2),
        has(PSEUDO, 1),
        ENTER,
    ];
    walked(&unsorted, "state 1 matched 3: 2 3 4\n");
    let lasting = [has(CLASS, 1), SAME, ASKED, ENTER, ENTER];
    let lines = "changed 0:\nwinner 1: none\nstate 1 matched 1: 2\nstate 2 matched 0:\n";
    walked(&lasting, lines);
    // Refused questions do not touch them, a refused enter drops them.
    let wrong = Changed { old: 0, new: 9 };
    let whole = sheet_and(&made, &[]);
    let offset = |walked: &[Record]| at(&[&whole[..], walked].concat());
    let records = [has(CLASS, 1), wrong, ENTER];
    let lines = format!(
        "refused 4 at {}\nstate 1 matched 1: 2\n",
        offset(&records[..1])
    );
    walked(&records, &lines);
    let records = [has(CLASS, 1), Enter { parent: 1 }, ENTER];
    let lines = format!(
        "refused 4 at {}\nstate 1 matched 0:\n",
        offset(&records[..1])
    );
    walked(&records, &lines);
    // The 17th as given, repeated or not; the walk goes on.
    for (which, matched) in [(CLASS, "2: 2 3"), (PSEUDO, "1: 4")] {
        let mut records = vec![has(which, 1), has(which, 2)];
        records.extend([has(which, 2); 14]);
        records.extend([
            has(which, 7),
            has(which, 1),
            has(TYPE, 2),
            ENTER,
            has(which, 7),
            ENTER,
        ]);
        let (first, second) = (offset(&records[..16]), offset(&records[..17]));
        let lines = format!(
            "refused 2 at {first}\nrefused 2 at {second}\nstate 1 matched {matched}\n\
             state 2 matched 0:\n"
        );
        walked(&records, &lines);
    }
}

/// "4 ..., its number is not below the state count", for each call.
#[test]
fn numbers_of_states() {
    let whole = sheet_and(&[DIRECT, entry(1)], &[]);
    let enter = at(&whole);
    let lines = |wrong: &[Record]| {
        let mut offset = enter;
        let mut lines = String::new();
        for record in wrong {
            lines += &format!("refused 4 at {offset}\n");
            offset += at(&[*record]);
        }
        lines + "winner 1: direct 0\n"
    };
    for number in [1, 2, 511, 512, u32::MAX] {
        let wrong = [
            Enter { parent: number },
            Changed {
                old: number,
                new: 0,
            },
            Changed {
                old: 0,
                new: number,
            },
            Changed {
                old: number,
                new: number,
            },
            Winner {
                state: number,
                property: 1,
            },
        ];
        let records = [&whole[..], &wrong, &[ASKED]].concat();
        prints(&records, &lines(&wrong));
    }
}

/// 5: 512 states, 4,096 cursors, 4,096 matched numbers; the items are dropped,
/// a held state needs no room.
#[test]
fn rooms() {
    // Nine classes, one rule each: 512 lists beside the root's.
    let mut records = vec![SHEET, GROUP];
    for id in 0..9 {
        records.extend([Rule, CHILD, needs(CLASS, id)]);
    }
    records.push(End);
    let classes = |bits: u32| {
        let set = (0..9).filter(move |id| bits >> id & 1 == 1);
        set.map(|id| has(CLASS, id)).chain([ENTER])
    };
    records.extend((0..512).flat_map(classes));
    let last = at(&records) - at(&[ENTER]);
    records.extend([ENTER, has(CLASS, 0), ENTER]);
    let text = walk(&file_of(&records));
    let lines: Vec<&str> = text.lines().skip(510).collect();
    let refused = format!("refused 5 at {last}");
    let full = "state 511 matched 8: 1 2 3 4 5 6 7 8";
    assert_eq!(
        lines,
        [full, &refused, "state 1 matched 0:", "state 2 matched 1: 0"]
    );
    // 256 rules that all match, or all go on: sixteen lists fill the room. A
    // type is in the next step, and the root's own cursors take one part.
    for (steps, most) in [(1, 16), (2, 15)] {
        let mut records = vec![SHEET, GROUP];
        for rule in 0..256 {
            records.extend([Rule, CHILD]);
            // One rule less for each class, so that each list differs.
            records.extend((rule < 20).then(|| needs(PSEUDO, rule)));
            if steps == 2 {
                records.extend([CHILD, needs(TYPE, 9)]);
            }
        }
        records.push(End);
        let list = 256 - 20;
        let mut held = if steps == 2 { 256 } else { 0 };
        let mut entered = 0;
        let mut lines = String::new();
        for pseudo in 0..20 {
            records.push(has(PSEUDO, pseudo));
            let offset = at(&records);
            records.push(ENTER);
            if held + list + 1 > 4096 {
                lines += &format!("refused 5 at {offset}\n");
                continue;
            }
            held += list + 1;
            entered += 1;
            let rules = [pseudo].into_iter().chain(20..256);
            let rules: String = rules.map(|rule| format!(" {rule}")).collect();
            lines += &match steps {
                1 => format!("state {entered} matched {}:{rules}\n", list + 1),
                _ => format!("state {entered} matched 0:\n"),
            };
        }
        assert!(entered == most + 1 && lines.contains("refused 5"));
        prints(&records, &lines);
    }
}

/// How many files a run has at least.
const RUN: usize = 3000;

fn run(seed: u64) -> impl Iterator<Item = Vec<u8>> {
    stream(file_edges::fixed(), random_file, seed, RUN)
}

/// Each fault with each kind of record that can have it.
fn all_faults() -> BTreeSet<(Fault, Option<u8>)> {
    use Fault::*;
    let with: &[(Fault, &[u8])] = &[
        (Cut, &[1, 2, 3, 5, 6, 7, 9, 10, 11, 12]),
        (OtherFirst, &[2, 3, 4, 5, 6, 7, 8, 9, 10, 11, 12]),
        (SheetAgain, &[1]),
        (RuleOutsideGroup, &[4]),
        (StepOutsideRule, &[5]),
        (RequirementWithoutStep, &[6]),
        (EntryOutsideStyle, &[7]),
        (AfterEnd, &[2, 3, 4, 5, 6, 7, 8]),
        (BeforeEnd, &[9, 10, 11, 12]),
        (FirstCombinator, &[5]),
        (Combinator, &[5]),
        (Which, &[6, 9]),
        (EntryKind, &[7]),
        (Ranking, &[1]),
        (Origin, &[2, 3]),
        (Styles, &[2]),
        (Rules, &[4]),
        (Steps, &[5]),
        (Classes, &[6, 9]),
        (Pseudos, &[6, 9]),
        (Entries, &[7]),
        (SheetIds, &[6]),
        (SheetEntries, &[7]),
        (Ascending, &[2, 3, 8]),
        (SourceIndex, &[2, 3, 8]),
        (Parent, &[10]),
        (Old, &[11]),
        (New, &[11]),
        (Asked, &[12]),
        (StateRoom, &[10]),
        (CursorRoom, &[10]),
        (MatchedRoom, &[10]),
    ];
    let pairs = with
        .iter()
        .flat_map(|&(fault, kinds)| kinds.iter().map(move |&kind| (fault, Some(kind))));
    pairs.chain([(Unknown, None), (NoEnd, None)]).collect()
}

/// Every fault of the list occurs in a run, with every kind of record that
/// can have it, and no other does; each but the last index also where chance
/// puts it. And a run has files of all sorts that are not refused.
#[test]
fn a_run_has_every_fault_and_files_of_all_sorts() {
    let fixed = file_edges::fixed().len();
    assert!(fixed <= RUN / 2, "{fixed}");
    let mut counted = BTreeMap::new();
    let mut by_chance = BTreeSet::new();
    let mut sorts = BTreeMap::new();
    let mut unrefused = 0;
    for (number, file) in run(1).enumerate() {
        let walked = walked(&file);
        for &(fault, kind) in &walked.refused {
            let known = kind.filter(|_| fault != Fault::Unknown);
            *counted.entry((fault, known)).or_insert(0) += 1;
            if number >= fixed {
                by_chance.insert(fault);
            }
        }
        if walked.whole {
            unrefused += usize::from(walked.refused.is_empty());
            for sort in sorts_of(&file, &walked.text) {
                *sorts.entry(sort).or_insert(0) += 1;
            }
        }
    }
    println!("{fixed} fixed files, {unrefused} of all without a refusal");
    for ((fault, kind), count) in &counted {
        println!("{} {fault:?} {kind:?}: {count}", fault.number());
    }
    println!("{sorts:#?}");

    let found: BTreeSet<_> = counted.into_keys().collect();
    let all = all_faults();
    let absent: Vec<_> = all.difference(&found).collect();
    assert!(absent.is_empty(), "no {absent:?}");
    let unknown: Vec<_> = found.difference(&all).collect();
    assert!(unknown.is_empty(), "not listed: {unknown:?}");
    let every: BTreeSet<Fault> = all.iter().map(|&(fault, _)| fault).collect();
    let never: Vec<_> = every.difference(&by_chance).collect();
    assert_eq!(never, [&Fault::SourceIndex]);

    for sort in all_sorts() {
        assert!(sorts.get(&sort).is_some_and(|&count| count >= 3), "{sort}");
    }
    assert!(unrefused > RUN / 4, "{unrefused}");
}

/// What there is in a file whose sheet is whole.
fn sorts_of(file: &[u8], text: &str) -> BTreeSet<String> {
    let mut seen = BTreeSet::new();
    let mut before = None;
    for piece in pieces(file) {
        let Ok((record, _)) = read(piece) else { break };
        match (before, record) {
            (_, Sheet { ranking, .. }) => seen.insert(format!("ranking {ranking}")),
            (_, Direct { origin }) => seen.insert(format!("direct of origin {origin}")),
            (Some(Group { .. }), Group { .. } | End) => seen.insert("empty group".into()),
            (_, Group { origin }) => seen.insert(format!("group of origin {origin}")),
            (Some(Rule), Rule | End) => seen.insert("empty rule".into()),
            (_, Step { combinator }) => seen.insert(format!("combinator {combinator}")),
            (_, Requirement { which, .. }) => seen.insert(format!("requirement {which}")),
            (_, Entry { kind, .. }) => seen.insert(format!("entry of kind {kind}")),
            (_, Item { which, .. }) => seen.insert(format!("item {which}")),
            _ => false,
        };
        before = Some(record);
    }
    let mut enters = 0;
    for line in text.lines() {
        let words: Vec<&str> = line.split([' ', ':']).collect();
        let length = |word: &str| word.parse::<usize>().expect("a length");
        let seen = &mut seen;
        match words[..] {
            ["state", _, "matched", rules, ..] => {
                enters += 1;
                length(rules) == 256 && seen.insert("256 rules listed".into())
            }
            ["changed", count, ..] if length(count) == 4096 => seen.insert("4,096 changed".into()),
            ["changed", count, ..] => length(count) > 300 && seen.insert("hundreds changed".into()),
            ["winner", _, "", who, ..] => seen.insert(format!("winner {who}")),
            _ => false,
        };
    }
    if enters > 200 {
        seen.insert("over 200 enters".into());
    }
    seen
}

fn all_sorts() -> Vec<String> {
    let mut wanted: Vec<String> = [
        "empty group",
        "empty rule",
        "256 rules listed",
        "4,096 changed",
        "hundreds changed",
        "winner direct",
        "winner rule",
        "winner none",
        "over 200 enters",
    ]
    .map(String::from)
    .into();
    for number in 0..8 {
        wanted.push(format!("direct of origin {number}"));
        wanted.push(format!("group of origin {number}"));
        if number < 4 {
            wanted.push(format!("requirement {number}"));
            wanted.push(format!("item {number}"));
            wanted.push(format!("entry of kind {number}"));
        }
        if number < 2 {
            wanted.push(format!("ranking {number}"));
            wanted.push(format!("combinator {number}"));
        }
    }
    wanted
}
