//! Fixed cases of cascades: 01's example, every place of a key against the
//! next, every kind of a winner, presence, equal keys, lists and rankings that
//! no call makes, every refusal before the others, and the largest sheets.

use super::builds::item;
use super::cascade_lists::{self, UNWRITTEN};
use super::cascades::{Pair, changed, channels, resources, winner};
use super::paths::Tags;
use super::walk_edges::S;
use super::walks::{AMPLE, ROOM, body, build, enter, part, rooms, sheet, stored, tell, write};
use crate::builds::Item;
use crate::builds::image::{entry_word, rule_word, style_entry_word, style_word};
use crate::builds::model::{Body, Direct, Entry, Model, Rule};
use crate::walks::image::{CURSORS, HEAD, MATCHED, RANKING, STAMP, STATE_COUNT, STATE_ROWS};
use crate::walks::{CHANGED, CHANNELS, RESOURCES, WINNER, WalkCase};

pub fn fixed() -> Vec<WalkCase> {
    let mut cases = vec![unlent(), walk_example()];
    cases.extend(kinds());
    cases.extend(presence());
    cases.extend(key_places());
    cases.extend([weights(), both_rankings()]);
    cases.extend(equal_keys());
    cases.extend([listed_by_no_path(), ranking_after_build()]);
    cases.extend(cascades_pushed());
    cases.extend(faults());
    cases.extend(damaged());
    cases.extend(odd_ids());
    cases.extend(large());
    cases.extend(payloads());
    cases.extend(cascade_lists::fixed());
    cases
}

fn case(items: impl IntoIterator<Item = Item>) -> WalkCase {
    WalkCase {
        items: items.into_iter().collect(),
    }
}

pub fn entry(property: u16, kind: u32, number: u32) -> Entry {
    Entry {
        property,
        kind,
        number,
    }
}

/// A rule of one step.
pub fn rule(step: &Tags, entries: &[Entry]) -> Body {
    Body {
        entries: entries.to_vec(),
        ..body(std::slice::from_ref(step), &[])
    }
}

/// A step that every subject matches.
fn any() -> Tags {
    Tags::default()
}

/// A subject that has whatever is asked here: type and part 1, classes and
/// pseudos 0 to 7.
fn everything() -> Tags {
    let ids: Vec<u32> = (0..8).collect();
    Tags {
        type_tag: Some(1),
        part_tag: Some(1),
        ..Tags::of_ids(&ids, &ids)
    }
}

/// A sheet stored, all rooms, and a table built.
pub fn start(model: &Model, ranking: u32) -> Vec<Item> {
    let mut items = sheet(model);
    items.extend([rooms(AMPLE), build(S, ranking)]);
    items
}

fn pair(old: u32, new: u32) -> Pair {
    [old, S, new, S]
}

/// The first case of a stream, before anything is lent.
fn unlent() -> WalkCase {
    let asked = || {
        let pair = [0; 4];
        let mut items = vec![winner(0, 0, 0), changed(pair, 0), changed(pair, 3)];
        items.extend([channels(pair, &[1]), resources(0), resources(3)]);
        items.extend([winner(0, S, 1), changed([0, S, 0, S], 0)]);
        items
    };
    let mut items = asked();
    // All zeros are the empty sheet; a table without a state is refused.
    items.push(rooms([ROOM, 3, 0, 0, 0]));
    items.extend(asked());
    items.push(build(S, 1));
    items.extend(asked());
    case(items)
}

/// 01's `walk`: the sheet.
pub fn example_sheet() -> Model {
    let typed = |tags: &[u32], codes: &[u32], entries: &[Entry]| {
        let steps: Vec<Tags> = tags.iter().map(|&tag| Tags::of_type(tag)).collect();
        Body {
            entries: entries.to_vec(),
            ..body(&steps, codes)
        }
    };
    let mut model = Model::default();
    model.push_style(0, vec![entry(1, 0, 10)]);
    let second = typed(&[1, 5], &[1], &[entry(1, 0, 30), entry(2, 0, 40)]);
    model.push_rules(0, vec![typed(&[5], &[], &[entry(1, 0, 20)]), second]);
    model
}

/// The sheet built, and the four subjects.
pub fn example_walk(ranking: u32) -> Vec<Item> {
    let mut items = start(&example_sheet(), ranking);
    for (tag, parent) in [(1, 0), (9, 1), (5, 1), (5, 0)] {
        items.push(enter(parent, S, &Tags::of_type(tag)));
    }
    items
}

/// 01's questions; then every one that there is, under both rankings.
pub fn walk_example() -> WalkCase {
    let mut items = example_walk(0);
    items.extend([changed(pair(3, 2), 4096), changed(pair(0, 1), 4096)]);
    items.extend([winner(2, S, 1), winner(2, S, 3)]);
    for ranking in [0, 1] {
        items.extend(example_walk(ranking));
        items.extend(all_asked(4, &[0, 1, 2, 3, 0xffff]));
        items.push(tell([8, 12, 6, 4, 4 * 41]));
    }
    case(items)
}

/// Every property in every state, every pair of states, resources.
fn all_asked(states: u32, properties: &[u32]) -> Vec<Item> {
    let mut items = Vec::new();
    for state in 0..states {
        items.extend(properties.iter().map(|&id| winner(state, S, id)));
    }
    for old in 0..states {
        for new in 0..states {
            items.extend([0, 1, 2, 3].map(|room| changed(pair(old, new), room)));
            items.push(channels(pair(old, new), &[1, 2, 4, 8]));
        }
    }
    items.extend([0, 1, 2, 3].map(resources));
    items
}

/// A winner of every kind over a next source of every kind, direct and rule:
/// a winning expression gives nothing, and the next source is not tried.
fn kinds() -> Vec<WalkCase> {
    let mut cases = Vec::new();
    for ranking in [0, 1] {
        let mut items = Vec::new();
        for top in 0..4 {
            for next in 0..4 {
                let low = entry(5, next, 100 + next);
                let high = entry(5, top, 200 + top);
                let mut model = Model::default();
                model.push_style(1, vec![entry(4, 3, 9), low]);
                model.push_style(1, vec![high]);
                model.push_rules(1, vec![rule(&any(), &[low])]);
                model.push_rules(1, vec![rule(&Tags::of_type(1), &[high, entry(6, top, 0)])]);
                items.extend(start(&model, ranking));
                items.push(enter(0, S, &any()));
                items.push(enter(0, S, &Tags::of_type(1)));
                items.extend(all_asked(3, &[4, 5, 6, 7]));
            }
        }
        cases.push(case(items));
    }
    cases
}

/// Properties held on one side only; the same value from different sources,
/// which is a change; and from the same one, which is none.
fn presence() -> Vec<WalkCase> {
    let same = |id| entry(id, 0, 77);
    let mut model = Model::default();
    model.push_rules(2, vec![rule(&Tags::of_type(1), &[same(1), same(2)])]);
    model.push_rules(2, vec![rule(&Tags::of_type(2), &[same(1), same(3)])]);
    model.push_rules(2, vec![rule(&Tags::of_ids(&[4], &[]), &[same(0)])]);
    let with_style = |origin| {
        let mut model = model.clone();
        model.push_style(origin, vec![same(1), same(4)]);
        model
    };
    let subjects = [
        Tags::of_type(1),
        Tags::of_type(2),
        Tags::of_ids(&[4], &[]),
        Tags {
            type_tag: Some(1),
            ..Tags::of_ids(&[4], &[])
        },
    ];
    let models = [model.clone(), with_style(0), with_style(2), with_style(3)];
    let mut cases = Vec::new();
    for model in models {
        let mut items = start(&model, 0);
        items.extend(subjects.iter().map(|subject| enter(0, S, subject)));
        items.extend(all_asked(5, &[0, 1, 2, 3, 4, 5]));
        cases.push(case(items));
    }
    cases
}

/// One place of the key against all after it: an origin that beats a greater
/// weight, source and order, and so on; direct styles against rules too.
fn key_places() -> Vec<WalkCase> {
    let heavy = Tags::of_ids(&[1, 2], &[3]);
    let light = Tags::of_ids(&[1], &[]);
    let low = [entry(1, 0, 1)];
    let high = [entry(1, 0, 2)];
    let groups = |groups: &[(u32, Vec<Body>)]| {
        let mut model = Model::default();
        for (origin, bodies) in groups {
            model.push_rules(*origin, bodies.clone());
        }
        model
    };
    let mut models = vec![
        // Origin, weight, source and order, each against those after it.
        groups(&[
            (7, vec![rule(&light, &high)]),
            (6, vec![rule(&any(), &[]), rule(&heavy, &low)]),
        ]),
        groups(&[
            (3, vec![rule(&heavy, &high)]),
            (3, vec![rule(&any(), &[]), rule(&light, &low)]),
        ]),
        groups(&[
            (3, vec![rule(&any(), &[]), rule(&light, &low)]),
            (3, vec![rule(&light, &high)]),
        ]),
        groups(&[(3, vec![rule(&light, &low), rule(&light, &high)])]),
    ];
    // A direct style before and after rules of no weight and of some.
    for (style, rules) in [(0, 0), (1, 0), (0, 1), (7, 7)] {
        for step in [&any(), &light] {
            for first in [true, false] {
                let mut model = Model::default();
                if first {
                    model.push_style(style, high.to_vec());
                }
                model.push_rules(rules, vec![rule(step, &low)]);
                if !first {
                    model.push_style(style, high.to_vec());
                }
                models.push(model);
            }
        }
    }
    let asked = |model: &Model| {
        let mut items = Vec::new();
        for ranking in [0, 1] {
            items.extend(start(model, ranking));
            items.push(enter(0, S, &everything()));
            items.extend([winner(0, S, 1), winner(1, S, 1)]);
            items.extend([changed(pair(0, 1), 1), changed(pair(1, 1), 0)]);
        }
        case(items)
    };
    models.iter().map(asked).collect()
}

/// Rules of two steps with 0 to 2 pseudos, classes, parts and types in all,
/// each against 16 others on a property of their own: 81 weights.
fn weights() -> WalkCase {
    let body_of = |number: u32| {
        let count = |place: u32| number / 3u32.pow(place) % 3;
        let step = |place: u32| Tags {
            type_tag: (count(0) > place).then_some(1),
            part_tag: (count(1) > place).then_some(1),
            classes: (0..count(2))
                .filter(|id| (id + place).is_multiple_of(2))
                .collect(),
            pseudos: (0..count(3))
                .filter(|id| (id + place).is_multiple_of(2))
                .collect(),
        };
        body(&[step(0), step(1)], &[0])
    };
    let mut bodies: Vec<Body> = (0..81).map(body_of).collect();
    let mut id = 0;
    for number in 0..81 {
        for further in 1..=16 {
            for number in [number, (number + further) % 81] {
                bodies[number].entries.push(entry(id, 0, id.into()));
            }
            id += 1;
        }
    }
    for body in &mut bodies {
        body.entries.sort_by_key(|entry| entry.property);
    }
    let mut model = Model::default();
    model.push_rules(0, bodies);
    let mut items = sheet(&model);
    items.push(rooms(AMPLE));
    for ranking in [0, 1] {
        items.push(build(S, ranking));
        items.extend([enter(0, S, &everything()), enter(1, S, &everything())]);
        items.extend((0..id).map(|id| winner(2, S, id.into())));
        items.extend([changed(pair(0, 2), 1296), changed(pair(0, 2), 1295)]);
    }
    case(items)
}

/// `:1` and `.1.2`, and a part against a type and a part: the two rankings
/// disagree.
fn both_rankings() -> WalkCase {
    let both = Tags {
        type_tag: Some(1),
        ..Tags::of_part(1)
    };
    let mut model = Model::default();
    let pseudo = rule(&Tags::of_ids(&[], &[1]), &[entry(0, 0, 1)]);
    let classes = rule(&Tags::of_ids(&[1, 2], &[]), &[entry(0, 0, 2)]);
    model.push_rules(0, vec![classes.clone(), pseudo.clone()]);
    model.push_rules(0, vec![pseudo, classes]);
    model.push_rules(1, vec![rule(&Tags::of_part(1), &[entry(1, 1, 3)])]);
    model.push_rules(1, vec![rule(&both, &[entry(1, 1, 4)])]);
    model.push_rules(1, vec![rule(&Tags::of_type(1), &[entry(1, 1, 5)])]);
    let mut items = Vec::new();
    let subjects = [
        everything(),
        Tags::of_ids(&[1, 2], &[]),
        Tags::of_ids(&[], &[1]),
        Tags::of_part(1),
        Tags::of_type(1),
    ];
    for ranking in [0, 1] {
        items.extend(start(&model, ranking));
        items.extend(subjects.iter().map(|subject| enter(0, S, subject)));
        items.extend(all_asked(6, &[0, 1]));
    }
    case(items)
}

fn direct(origin: u32, source: u32, entries: &[Entry]) -> Direct {
    Direct {
        origin,
        source,
        entries: entries.to_vec(),
    }
}

fn held(origin: u32, source: u32, order: u32, body: &Body) -> Rule {
    Rule {
        origin,
        source,
        order,
        body: body.clone(),
    }
}

/// Two direct styles and three rules with one key, where no pushes make it:
/// the first counts, direct before rules; and where another rule is listed,
/// the key is the same, so that nothing has changed.
pub fn equal_sheet() -> Model {
    let of = |class: u32, number: u32, ids: &[u16]| {
        let entries: Vec<Entry> = ids.iter().map(|&id| entry(id, 0, number)).collect();
        rule(&Tags::of_ids(&[class], &[]), &entries)
    };
    let weightless = |number| rule(&any(), &[entry(0, 0, number), entry(3, 0, number)]);
    Model {
        directs: vec![
            direct(2, 9, &[entry(0, 1, 10)]),
            direct(2, 9, &[entry(0, 0, 11), entry(1, 0, 11)]),
            direct(2, 9, &[entry(1, 0, 12)]),
        ],
        rules: vec![
            held(2, 9, 0, &weightless(20)),
            held(2, 9, 0, &weightless(21)),
            held(2, 9, 4, &of(1, 22, &[2, 4])),
            held(2, 9, 4, &of(2, 23, &[2, 4])),
            held(2, 9, 4, &of(3, 24, &[2])),
            // Greater in ranking 0 alone: a pseudo.
            held(2, 9, 4, &rule(&Tags::of_ids(&[], &[1]), &[entry(2, 2, 25)])),
        ],
        next: 0,
    }
}

fn equal_keys() -> Vec<WalkCase> {
    let subjects = [
        Tags::of_ids(&[1], &[]),
        Tags::of_ids(&[2], &[]),
        Tags::of_ids(&[1, 2, 3], &[]),
        Tags::of_ids(&[3], &[1]),
        any(),
    ];
    let mut cases = Vec::new();
    let mut orders = vec![equal_sheet(); 3];
    orders[1].rules.reverse();
    orders[1].directs.reverse();
    // The order beats, as far as a word goes.
    for (order, rule) in orders[2].rules.iter_mut().enumerate() {
        rule.order = [0, u32::MAX, 0x8000_0000, 0x7fff_ffff, 1, 2][order];
    }
    for model in orders {
        for ranking in [0, 1] {
            let mut items = start(&model, ranking);
            items.extend(subjects.iter().map(|subject| enter(0, S, subject)));
            items.extend(all_asked(6, &[0, 1, 2, 3, 4, 5]));
            cases.push(case(items));
        }
    }
    cases
}

/// The example's table, with eight states that list every set of three rules;
/// one of them has no steps.
fn listed_by_no_path() -> WalkCase {
    let mut model = example_sheet();
    let steady = Body {
        entries: vec![entry(2, 3, 1), entry(3, 1, 2)],
        ..Body::default()
    };
    model.push_rules(1, vec![steady]);
    let mut items = start(&model, 0);
    let (mut rows, mut lists) = (Vec::new(), Vec::new());
    for set in 0..8u32 {
        lists.extend((0..3).filter(|rule| set >> rule & 1 == 1));
        rows.extend([2, lists.len() as u32, 0]);
    }
    items.extend([write(MATCHED, 0, &lists), write(STATE_ROWS, 0, &rows)]);
    items.push(write(HEAD, STATE_COUNT, &[8, 2, lists.len() as u32, 0]));
    for ranking in [0, 1] {
        items.push(write(HEAD, RANKING, &[ranking]));
        items.extend(all_asked(8, &[1, 2, 3]));
    }
    case(items)
}

/// The ranking word changed after build: it decides alone.
fn ranking_after_build() -> WalkCase {
    let mut model = Model::default();
    let pseudo = rule(&Tags::of_ids(&[], &[1]), &[entry(0, 0, 1)]);
    let classes = rule(&Tags::of_ids(&[1, 2], &[]), &[entry(0, 0, 2)]);
    model.push_rules(0, vec![classes, pseudo]);
    let mut items = start(&model, 0);
    let classes = Tags::of_ids(&[1, 2], &[]);
    items.extend([enter(0, S, &everything()), enter(0, S, &classes)]);
    for ranking in [0, 1, 0, 2, 1, u32::MAX, 0] {
        items.push(write(HEAD, RANKING, &[ranking]));
        items.extend([winner(1, S, 0), winner(2, S, 0)]);
        items.extend([changed(pair(1, 2), 1), channels(pair(1, 2), &[8])]);
        items.push(resources(0));
    }
    case(items)
}

/// Cascades pushed into sheets: their indexes go on after those before them,
/// and empty groups leave gaps.
fn cascades_pushed() -> Vec<WalkCase> {
    let id = |number| [entry(0, 0, number), entry(0xffff, 1, number)];
    let mut inner = Model::default();
    inner.push_rules(3, Vec::new());
    inner.push_style(3, id(1).to_vec());
    inner.push_rules(
        3,
        vec![rule(&any(), &id(2)), rule(&Tags::of_type(1), &id(3))],
    );
    inner.push_rules(3, Vec::new());
    let mut twice = inner.clone();
    twice.push_cascade(&inner);
    let mut last = Model::default();
    last.push_rules(3, vec![rule(&any(), &id(4))]);
    last.push_cascade(&twice);
    last.push_style(3, id(5).to_vec());
    last.push_cascade(&Model::default());
    let mut far = Model::default();
    for _ in 0..65_535 {
        far.push_rules(0, Vec::new());
    }
    far.push_style(3, id(6).to_vec());
    let mut cases = Vec::new();
    for model in [inner, twice, last, far] {
        let mut items = Vec::new();
        for ranking in [0, 1] {
            items.extend(start(&model, ranking));
            items.extend([enter(0, S, &any()), enter(0, S, &Tags::of_type(1))]);
            items.extend(all_asked(3, &[0, 1, 0xffff]));
        }
        cases.push(case(items));
    }
    cases
}

/// Every set of faults of each call at once.
fn faults() -> Vec<WalkCase> {
    let mut cases = Vec::new();
    for broken in 0..4 {
        let mut items = example_walk(0);
        match broken {
            0 => {}
            1 => items.push(rooms([ROOM - 1, 12, 5, 3, 0])),
            2 => items.push(write(HEAD, RANKING, &[2])),
            _ => items.push(stored(rule_word(0, 0), &[8])),
        }
        let states = [(2, S), (4, S), (2, S + 1), (u32::MAX, 0)];
        for (old, old_stamp) in states {
            items.extend([1, 0xffff].map(|id| winner(old, old_stamp, id)));
            for (new, new_stamp) in [(3, S), (4, S), (0, S ^ 0x8000_0000)] {
                let pair = [old, old_stamp, new, new_stamp];
                items.extend([0, 1, 2, 3].map(|room| changed(pair, room)));
                items.push(channels(pair, &[1, 2, 4]));
            }
        }
        items.extend([0, 1].map(resources));
        items.push(tell([8, 12, 6, 4, 0]));
        cases.push(case(items));
    }
    // The stamp's other values; the room of each piece, just enough and not.
    let mut items = example_walk(0);
    for stamp in [0, 1, S, u32::MAX] {
        items.push(write(HEAD, STAMP, &[stamp]));
        items.extend([winner(2, S, 1), winner(2, stamp, 1)]);
        items.push(changed([2, stamp, 3, stamp], 2));
        items.extend([changed([2, S, 3, stamp], 2), changed([2, stamp, 3, S], 2)]);
        items.push(channels([2, stamp, 3, S], &[0, 1]));
    }
    items.push(write(HEAD, STAMP, &[S]));
    let enough = [ROOM, 12, 4, 3, 4 * 41];
    for piece in 0..5 {
        for less in [0, 1] {
            let mut lent = enough;
            lent[piece] -= less;
            items.extend([rooms(lent), winner(2, S, 1), changed(pair(2, 3), 2)]);
            items.extend([channels(pair(2, 3), &[0, 1, 2]), resources(0)]);
        }
    }
    cases.push(case(items));
    cases
}

/// Every word of the example's sources and entries overwritten.
fn damaged() -> Vec<WalkCase> {
    let mut places = Vec::new();
    for rule in 0..2 {
        places.extend((0..5).map(|column| rule_word(rule, column)));
    }
    places.extend((0..3).map(|column| style_word(0, column)));
    for column in 0..3 {
        places.extend((0..3).map(|number| entry_word(number, column)));
        places.push(style_entry_word(0, column));
    }
    places.extend(0..7);
    let of = |place: usize| {
        let mut items = Vec::new();
        for value in [0, 1, 2, 3, 4, 7, 8, 65_535, 65_536, u32::MAX] {
            items.extend(example_walk(0));
            items.push(stored(place, &[value]));
            for state in [0, 2, 3] {
                items.extend([1, 2].map(|id| winner(state, S, id)));
            }
            items.extend([changed(pair(0, 2), 3), changed(pair(2, 3), 3)]);
            items.extend([channels(pair(0, 2), &[1, 2, 4, 8]), resources(2)]);
        }
        case(items)
    };
    let mut cases: Vec<WalkCase> = places.into_iter().map(of).collect();
    // A table that no calls make: numbers of rules and cursors.
    let mut items = Vec::new();
    for value in [0, 1, 2, 3, u32::MAX] {
        for (piece, address) in [(MATCHED, 0), (MATCHED, 1), (MATCHED, 2), (CURSORS, 2)] {
            items.extend(example_walk(1));
            items.push(write(piece, address, &[value]));
            items.extend([winner(2, S, 1), winner(3, S, 1)]);
            items.extend([changed(pair(3, 2), 2), resources(0)]);
        }
    }
    cases.push(case(items));
    cases
}

/// Ids at both ends and one that looks unwritten; words over 16 bits; rooms
/// over the buffer.
fn odd_ids() -> Vec<WalkCase> {
    let ids = [0, 1, 0x7fff, 0x8000, UNWRITTEN, 0xfffe, 0xffff];
    let of = |number| -> Vec<Entry> {
        let entry = |&id: &u32| entry(id as u16, id % 4, number);
        ids.iter().map(entry).collect()
    };
    let mut model = Model::default();
    model.push_style(0, of(1));
    model.push_rules(0, vec![rule(&Tags::of_type(1), &of(2))]);
    let mut items = start(&model, 0);
    items.push(enter(0, S, &Tags::of_type(1)));
    for id in ids.into_iter().chain([2, UNWRITTEN + 1, 0xfffd]) {
        for high in [0, 0x1_0000, 0xffff_0000] {
            items.extend([0, 1].map(|state| winner(state, S, id | high)));
        }
    }
    for room in [0, 6, 7, 8, 8191, 8192, 8193, 0x1_0000, u32::MAX] {
        items.extend([changed(pair(0, 1), room), resources(room)]);
    }
    // As many masks as a payload holds.
    for length in [0, 1, 2, 32_763, 32_764] {
        items.push(channels(pair(0, 1), &vec![1 << 31; length]));
    }
    vec![case(items)]
}

/// The sheet of so many direct styles and rules, each with its entries.
fn big(directs: usize, rules: usize, of: impl Fn(usize) -> Vec<Entry>) -> Model {
    let mut model = Model::default();
    for number in 0..directs {
        model.push_style((number % 8) as u32, of(number));
    }
    // Four groups; each rule is listed after its type, or after any.
    for group in 0..4 {
        let body = |number: usize| {
            let step = match number % 2 {
                0 => any(),
                _ => Tags::of_type(1),
            };
            rule(&step, &of(directs + number))
        };
        let numbers = group * rules / 4..(group + 1) * rules / 4;
        model.push_rules(group as u32 * 2, numbers.map(body).collect());
    }
    model
}

/// The largest sheets: all properties different, few that all hold, and 4,096
/// that change at once.
fn large() -> Vec<WalkCase> {
    let asked = |model: &Model, ranking: u32| {
        let mut items = start(model, ranking);
        items.extend([
            enter(0, S, &Tags::of_type(2)),
            enter(0, S, &Tags::of_type(1)),
        ]);
        items
    };
    let pairs = [[0, 1], [1, 0], [0, 2], [1, 2], [2, 2]];
    let pairs = pairs.map(|[old, new]| pair(old, new));
    // Entries end to end: 4,096 ids from 15 to 65,535.
    let spread = |number: usize, count: usize| -> Vec<Entry> {
        let id = |at: usize| 16 * at + 15;
        let ids = (number * count..(number + 1) * count).map(id);
        ids.map(|id| entry(id as u16, id as u32 / 16 % 4, id as u32))
            .collect()
    };
    let mut cases = Vec::new();
    for ranking in [0, 1] {
        // 64 direct styles of 32 and 256 rules of 8.
        let full = big(64, 256, |number| match number {
            0..64 => spread(number, 32),
            _ => spread(256 + number - 64, 8),
        });
        let mut items = asked(&full, ranking);
        let step = if ranking == 0 { 1 } else { 37 };
        let ids = (0..4096).step_by(step).map(|at| 16 * at + 15);
        items.extend(ids.map(|id| winner(2, S, id)));
        items.extend((0..0x1_0000).step_by(601).map(|id| winner(1, S, id)));
        for pair in pairs {
            items.extend([1023, 1024, 2047, 2048].map(|room| changed(pair, room)));
            items.push(channels(pair, &vec![1; 32_000]));
        }
        items.extend([2047, 2048].map(resources));
        cases.push(case(items));

        // 12 properties that all 320 sources hold.
        let few = |number: usize| -> Vec<Entry> {
            let number = number as u32;
            let entry = |id: u16| entry(5461 * id, (number + u32::from(id)) % 4, number);
            (0..12).map(entry).collect()
        };
        let shared = big(64, 256, few);
        let mut items = asked(&shared, ranking);
        for state in 0..3 {
            items.extend((0..12).map(|id| winner(state, S, 5461 * id)));
        }
        for pair in pairs {
            items.extend([11, 12].map(|room| changed(pair, room)));
        }
        items.extend([11, 12].map(resources));
        cases.push(case(items));

        // 256 rules of 16: all change at once.
        let rules = big(0, 256, |number| spread(number, 16));
        let mut items = asked(&rules, ranking);
        for pair in pairs {
            let rooms = [0, 2047, 2048, 4095, 4096, 4097];
            items.extend(rooms.map(|room| changed(pair, room)));
            items.push(channels(pair, &vec![1 << 31; 20_000]));
        }
        items.extend((0..4096).step_by(61).map(|at| winner(2, S, 16 * at + 15)));
        items.extend([2047, 2048].map(resources));
        cases.push(case(items));
    }
    // Every entry of every source a resource.
    let reading = big(64, 256, |number| match number {
        0..64 => spread(number, 32),
        _ => spread(256 + number - 64, 8),
    });
    let mut reading = reading;
    let directs = reading.directs.iter_mut().map(|direct| &mut direct.entries);
    let rules = reading.rules.iter_mut().map(|rule| &mut rule.body.entries);
    for entry in directs.chain(rules).flatten() {
        entry.kind |= 1;
    }
    let mut items = sheet(&reading);
    items.push(rooms([ROOM, 0, 0, 0, 0]));
    items.extend([0, 4095, 4096, 4097, 8192, u32::MAX].map(resources));
    cases.push(case(items));
    // As many as there can be of everything but entries.
    let mut items = asked(&big(64, 256, |_| Vec::new()), 0);
    items.extend([winner(2, S, 0), changed(pair(0, 2), 0), resources(0)]);
    items.extend([channels(pair(0, 2), &[1]), part(2, S)]);
    cases.push(case(items));
    cases
}

/// Payloads that are short or long.
fn payloads() -> Vec<WalkCase> {
    let mut cases = Vec::new();
    for stamp in [0, 1, S] {
        let mut items = example_walk(0);
        items.push(write(HEAD, STAMP, &[stamp]));
        for op in [WINNER, CHANGED, CHANNELS, RESOURCES] {
            for words in [&[][..], &[1], &[2, S], &[2, S, 1], &[2, S, 3, S], &[1; 9]] {
                items.push(item(op, words));
            }
        }
        items.push(tell([8, 12, 6, 4, 0]));
        cases.push(case(items));
    }
    cases
}
