//! Making an input that shows a difference as small as it goes.
//!
//! Everything here tries something smaller and keeps it if the difference is
//! still there. `still` answers that, and runs the command.

use crate::builds::model::Model;
use crate::builds::{BuildCase, GROUP, Item, MOST_ROOM, STYLE};
use crate::generate::walks::sheet;
use crate::paths::{PathCase, ROW_HEAD, STEP_IDS, STEP_ROW, SUBJECT_IDS};
use crate::records::{numbers_of, pieces, with_numbers};
use crate::walks::{Machine, ROOMS, SHEET, WalkCase};
use crate::words::{Case, split};

/// Whether an input still shows the difference; an error if that cannot be
/// found out.
pub type Still<'a, T> = &'a mut dyn FnMut(&T) -> Result<bool, String>;

/// Leaves out runs of elements: all, halves, quarters, down to single ones.
pub fn drop_some<T: Clone>(list: Vec<T>, still: Still<'_, Vec<T>>) -> Result<Vec<T>, String> {
    let mut list = list;
    let mut size = list.len();
    while size > 0 {
        let mut start = 0;
        while start < list.len() {
            let end = list.len().min(start + size);
            let mut shorter = list[..start].to_vec();
            shorter.extend_from_slice(&list[end..]);
            if still(&shorter)? {
                list = shorter;
            } else {
                start = end;
            }
        }
        size /= 2;
    }
    Ok(list)
}

/// Lowers each number: to nothing if that will do, else bit by bit.
pub fn lower<T>(list: Vec<T>, still: Still<'_, Vec<T>>) -> Result<Vec<T>, String>
where
    T: Copy + Into<u64> + TryFrom<u64>,
{
    let mut list = list;
    for place in 0..list.len() {
        let from: u64 = list[place].into();
        let smaller = [0, 1, from / 2, from.saturating_sub(1)];
        for number in smaller.into_iter().filter(|&number| number < from) {
            let Ok(number) = T::try_from(number) else {
                continue;
            };
            let mut lowered = list.clone();
            lowered[place] = number;
            if still(&lowered)? {
                list = lowered;
                break;
            }
        }
    }
    Ok(list)
}

/// The smallest case of lists found: its lists first, then its words.
pub fn shrink_case(case: Case, still: Still<'_, Case>) -> Result<Case, String> {
    let kind = case.kind;
    let mut case = case;
    loop {
        let before = case.clone();
        if matches!(kind, 2 | 5) {
            case = shrink_lists(case, still)?;
        }
        let mut words = |body: &Vec<u32>| still(&Case::new(kind, body.clone()));
        let body = drop_some(case.body, &mut words)?;
        case = Case::new(kind, lower(body, &mut words)?);
        if case == before {
            return Ok(case);
        }
    }
}

/// Shortens both lists of a case, with the first one's count in step.
fn shrink_lists(case: Case, still: Still<'_, Case>) -> Result<Case, String> {
    let lists = case.body.split_first();
    let Some((left, right)) = lists.and_then(|(&count, rest)| split(rest, count)) else {
        return Ok(case);
    };
    let made = |left: &[u32], right: &[u32]| {
        let mut body = vec![left.len() as u32];
        body.extend(left);
        body.extend(right);
        Case::new(case.kind, body)
    };
    let left = drop_some(left.to_vec(), &mut |left| still(&made(left, right)))?;
    let right = drop_some(right.to_vec(), &mut |right| still(&made(&left, right)))?;
    Ok(made(&left, &right))
}

/// The smallest case of paths found: its rows first, then its combinators,
/// then the ids in its rows, then its counts and words.
pub fn shrink_path(case: PathCase, still: Still<'_, PathCase>) -> Result<PathCase, String> {
    let mut case = case;
    loop {
        let before = case.clone();
        case = shrink_rows(case, still)?;
        case = shrink_ids(case, still)?;
        let base = case.clone();
        let words: Vec<u32> = changeable(&mut case)
            .into_iter()
            .map(|word| *word)
            .collect();
        let with = |words: &Vec<u32>| {
            let mut case = base.clone();
            for (word, &new) in changeable(&mut case).into_iter().zip(words) {
                *word = new;
            }
            case
        };
        let words = lower(words, &mut |words| still(&with(words)))?;
        case = with(&words);
        if case == before {
            return Ok(case);
        }
    }
}

/// All words of a case but the numbers of what is lent.
pub fn changeable(case: &mut PathCase) -> Vec<&mut u32> {
    let mut words = vec![&mut case.steps, &mut case.combinators, &mut case.places];
    words.extend(&mut case.codes);
    words.extend(case.step_rows.as_flattened_mut());
    words.extend(case.subject_rows.as_flattened_mut());
    words
}

/// Leaves out subjects, then steps (each with the combinator before it), then
/// combinators alone. A count falls with what it counts, and with nothing
/// else.
fn shrink_rows(case: PathCase, still: Still<'_, PathCase>) -> Result<PathCase, String> {
    let base = case;
    let with_subjects = |kept: &Vec<usize>| PathCase {
        places: fewer(base.places, base.subject_rows.len(), kept),
        subject_rows: kept_of(&base.subject_rows, kept),
        ..base.clone()
    };
    let all = (0..base.subject_rows.len()).collect();
    let kept = drop_some(all, &mut |kept| still(&with_subjects(kept)))?;
    let base = with_subjects(&kept);

    let with_steps = |kept: &Vec<usize>| {
        let between = kept.iter().skip(1).map(|step| step - 1);
        let past = base.step_rows.len().saturating_sub(1)..base.codes.len();
        let codes = between.chain(past).filter(|&code| code < base.codes.len());
        let codes: Vec<usize> = codes.collect();
        PathCase {
            steps: fewer(base.steps, base.step_rows.len(), kept),
            step_rows: kept_of(&base.step_rows, kept),
            combinators: fewer(base.combinators, base.codes.len(), &codes),
            codes: kept_of(&base.codes, &codes),
            ..base.clone()
        }
    };
    let all = (0..base.step_rows.len()).collect();
    let kept = drop_some(all, &mut |kept| still(&with_steps(kept)))?;
    let base = with_steps(&kept);

    let with_codes = |kept: &Vec<usize>| PathCase {
        combinators: fewer(base.combinators, base.codes.len(), kept),
        codes: kept_of(&base.codes, kept),
        ..base.clone()
    };
    let all = (0..base.codes.len()).collect();
    let kept = drop_some(all, &mut |kept| still(&with_codes(kept)))?;
    Ok(with_codes(&kept))
}

fn kept_of<T: Copy>(list: &[T], kept: &[usize]) -> Vec<T> {
    kept.iter().map(|&place| list[place]).collect()
}

/// A count of the first elements of a list, less those of them not kept.
fn fewer(count: u32, length: usize, kept: &[usize]) -> u32 {
    let counted = |&place: &usize| place < count as usize;
    let gone = (0..length).filter(counted).count() - kept.iter().copied().filter(counted).count();
    count - gone as u32
}

/// Leaves out single ids of rows, the ones after them moving up.
fn shrink_ids(case: PathCase, still: Still<'_, PathCase>) -> Result<PathCase, String> {
    let mut case = case;
    let (steps, subjects) = (case.step_rows.len(), case.subject_rows.len());
    for number in 0..steps + subjects {
        for list in [0, 1] {
            let room = if number < steps {
                STEP_IDS
            } else {
                SUBJECT_IDS
            };
            for place in (0..room).rev() {
                let mut tried = case.clone();
                let row = match number.checked_sub(steps) {
                    None => &mut tried.step_rows[number][..],
                    Some(number) => &mut tried.subject_rows[number][..],
                };
                let count = row[4 + list] as usize;
                if place >= count || count > room {
                    continue;
                }
                row[4 + list] -= 1;
                let ids = &mut row[ROW_HEAD + list * room..][..room];
                ids[place..].rotate_left(1);
                if still(&tried)? {
                    case = tried;
                }
            }
        }
    }
    Ok(case)
}

/// The smallest case of builds found: its items first, then the words of each
/// item, then how big they are. A payload's end reads as zeros, so words can
/// be left out anywhere.
pub fn shrink_build(case: BuildCase, still: Still<'_, BuildCase>) -> Result<BuildCase, String> {
    let mut case = case;
    loop {
        let before = case.clone();
        let mut whole = |items: &Vec<Item>| {
            still(&BuildCase {
                items: items.clone(),
            })
        };
        case.items = drop_some(case.items, &mut whole)?;
        for place in 0..case.items.len() {
            case = shrink_rules(case, place, still)?;
            let mut whole = |items: &Vec<Item>| {
                still(&BuildCase {
                    items: items.clone(),
                })
            };
            case.items = shrink_payload(case.items, place, &mut whole)?;
        }
        if case == before {
            return Ok(case);
        }
    }
}

/// The smallest case of walks found: its items first, then the sources of its
/// sheet, then the words of each item, the last items before the sheet.
pub fn shrink_walk(case: WalkCase, still: Still<'_, WalkCase>) -> Result<WalkCase, String> {
    let mut items = case.items;
    let mut whole = |items: &Vec<Item>| {
        still(&WalkCase {
            items: items.clone(),
        })
    };
    loop {
        let before = items.clone();
        items = drop_some(items, &mut whole)?;
        items = shrink_sheet(items, &mut whole)?;
        for place in (0..items.len()).rev() {
            items = shrink_payload(items, place, &mut whole)?;
        }
        if items == before {
            return Ok(WalkCase { items });
        }
    }
}

/// Leaves out rules and direct styles, and then steps and entries, of the
/// first sheet that items store, if its words are in shape.
fn shrink_sheet(items: Vec<Item>, still: Still<'_, Vec<Item>>) -> Result<Vec<Item>, String> {
    let stores = |item: &Item| item.op == SHEET;
    let begin = items.iter().position(stores).unwrap_or(items.len());
    let length = items[begin..].iter().take_while(|item| stores(item));
    let end = begin + length.count();
    let mut machine = Machine::default();
    let lent = [MOST_ROOM as u32];
    machine.item(ROOMS, &lent);
    for item in &items[begin..end] {
        machine.item(item.op, &item.payload);
    }
    let Ok(model) = machine.look().cloned() else {
        return Ok(items);
    };
    let with = |model: &Model| [&items[..begin], &sheet(model), &items[end..]].concat();
    if model == Model::default() || !still(&with(&model))? {
        return Ok(items);
    }
    let mut small = model.clone();
    small = shrink_part(small, |model| &mut model.rules, &with, still)?;
    small = shrink_part(small, |model| &mut model.directs, &with, still)?;
    small = shrink_steps(small, &with, still)?;
    for number in 0..small.rules.len() {
        small = shrink_part(
            small,
            |model| &mut model.rules[number].body.entries,
            &with,
            still,
        )?;
    }
    for number in 0..small.directs.len() {
        small = shrink_part(
            small,
            |model| &mut model.directs[number].entries,
            &with,
            still,
        )?;
    }
    if small == model {
        return Ok(items);
    }
    Ok(with(&small))
}

/// Leaves out elements of one list of a sheet.
fn shrink_part<T: Clone>(
    mut model: Model,
    part: impl Fn(&mut Model) -> &mut Vec<T>,
    with: &dyn Fn(&Model) -> Vec<Item>,
    still: Still<'_, Vec<Item>>,
) -> Result<Model, String> {
    let list = part(&mut model).clone();
    let base = model.clone();
    *part(&mut model) = drop_some(list, &mut |list| {
        let mut tried = base.clone();
        *part(&mut tried) = list.clone();
        still(&with(&tried))
    })?;
    Ok(model)
}

/// Leaves out single steps, each with a combinator beside it.
fn shrink_steps(
    mut model: Model,
    with: &dyn Fn(&Model) -> Vec<Item>,
    still: Still<'_, Vec<Item>>,
) -> Result<Model, String> {
    for number in 0..model.rules.len() {
        for step in (0..model.rules[number].body.steps.len()).rev() {
            let mut tried = model.clone();
            let body = &mut tried.rules[number].body;
            body.steps.remove(step);
            if !body.codes.is_empty() {
                body.codes.remove(step.saturating_sub(1));
            }
            if still(&with(&tried))? {
                model = tried;
            }
        }
    }
    Ok(model)
}

/// Leaves out words of an item's payload, then lowers them.
fn shrink_payload(
    items: Vec<Item>,
    place: usize,
    still: Still<'_, Vec<Item>>,
) -> Result<Vec<Item>, String> {
    let with = |payload: &Vec<u32>| {
        let mut items = items.clone();
        items[place].payload = payload.clone();
        items
    };
    let payload = items[place].payload.clone();
    let payload = drop_some(payload, &mut |payload| still(&with(payload)))?;
    let payload = lower(payload, &mut |payload| still(&with(payload)))?;
    Ok(with(&payload))
}

/// Leaves out whole rules of a group, and entries of a style, with what they
/// count.
fn shrink_rules(
    case: BuildCase,
    place: usize,
    still: Still<'_, BuildCase>,
) -> Result<BuildCase, String> {
    let item = &case.items[place];
    // Where the lengths of the lists stand, and how much of each list belongs
    // to each piece.
    let (lengths, pieces): (usize, Vec<Vec<usize>>) = match (item.op, &item.payload[..]) {
        (GROUP, [_, _, _, rules, ..]) => {
            let rules = item.payload.get(9..9 + *rules as usize).unwrap_or(&[]);
            let (rules, _) = rules.as_chunks::<3>();
            let sizes = |&[steps, codes, entries]: &[u32; 3]| {
                let [steps, codes, entries] = [steps, codes, entries].map(|count| count as usize);
                vec![
                    3,
                    STEP_ROW.saturating_mul(steps),
                    codes,
                    entries,
                    entries,
                    entries,
                ]
            };
            (3, rules.iter().map(sizes).collect())
        }
        (STYLE, [_, _, count, ..]) if *count <= 100 => (3, vec![vec![1; 3]; *count as usize]),
        _ => return Ok(case),
    };
    let lists = if item.op == GROUP { 6 } else { 3 };
    let base = case.clone();
    let with = |kept: &Vec<usize>| {
        let payload = &base.items[place].payload;
        let mut begin = lengths + lists;
        let mut head = payload[..begin.min(payload.len())].to_vec();
        let mut words = Vec::new();
        for list in 0..lists {
            let length = payload.get(lengths + list).copied().unwrap_or(0) as usize;
            let all = payload.get(begin..).unwrap_or(&[]);
            let mut rest = &all[..length.min(all.len())];
            begin += rest.len();
            let before = words.len();
            for (number, sizes) in pieces.iter().enumerate() {
                let (piece, after) = rest.split_at(sizes[list].min(rest.len()));
                if kept.contains(&number) {
                    words.extend(piece);
                }
                rest = after;
            }
            words.extend(rest);
            if let Some(word) = head.get_mut(lengths + list) {
                *word = (words.len() - before) as u32;
            }
        }
        head[2] = fewer(head[2], pieces.len(), kept);
        let mut case = base.clone();
        case.items[place].payload = [head, words].concat();
        case
    };
    let all = (0..pieces.len()).collect();
    let kept = drop_some(all, &mut |kept| still(&with(kept)))?;
    if kept.len() == pieces.len() {
        return Ok(case);
    }
    Ok(with(&kept))
}

/// A file's bytes are tried one by one only if there are not many.
const FEW_BYTES: usize = 300;

/// The smallest file found: whole sources, rules and enters first, then single
/// records, then the numbers in them, then bytes.
pub fn shrink_file(file: Vec<u8>, still: Still<'_, Vec<u8>>) -> Result<Vec<u8>, String> {
    let mut file = file;
    loop {
        let before = file.clone();
        for cut in [before_source, before_rule, after_line] {
            let blocks = drop_some(blocks(&file, cut), &mut |kept| still(&kept.concat()))?;
            file = blocks.concat();
        }
        let mut records: Vec<Vec<u8>> = pieces(&file).iter().map(|piece| piece.to_vec()).collect();
        records = drop_some(records, &mut |kept| still(&kept.concat()))?;
        for place in 0..records.len() {
            let others = records.clone();
            let with = |numbers: &Vec<u32>| {
                let mut tried = others.clone();
                tried[place] = with_numbers(&others[place], numbers);
                tried
            };
            let numbers = numbers_of(&records[place]);
            if !numbers.is_empty() {
                let numbers = lower(numbers, &mut |numbers| still(&with(numbers).concat()))?;
                records = with(&numbers);
            }
        }
        file = records.concat();
        if file.len() <= FEW_BYTES {
            file = drop_some(file, still)?;
            file = lower(file, still)?;
        }
        if file == before {
            return Ok(file);
        }
    }
}

/// The records of a file in blocks that begin where `cut` says so of the kinds
/// of two neighbours.
fn blocks(file: &[u8], cut: fn(u8, u8) -> bool) -> Vec<Vec<u8>> {
    let mut blocks: Vec<Vec<u8>> = Vec::new();
    let mut before = None;
    for piece in pieces(file) {
        match (blocks.last_mut(), before) {
            (Some(block), Some(before)) if !cut(before, piece[0]) => block.extend(piece),
            _ => blocks.push(piece.to_vec()),
        }
        before = Some(piece[0]);
    }
    blocks
}

fn before_source(before: u8, kind: u8) -> bool {
    matches!(kind, 2 | 3 | 8) || before == 8
}

fn before_rule(before: u8, kind: u8) -> bool {
    before_source(before, kind) || kind == 4
}

/// After each record that has a line: items stay with their enter.
fn after_line(before: u8, _: u8) -> bool {
    matches!(before, 8 | 10 | 11 | 12)
}
