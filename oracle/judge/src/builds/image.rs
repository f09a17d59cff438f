//! A sheet in words: where a push writes what, and what words mean that no
//! push may have written.

use super::model::{
    Body, COMBINATOR, Direct, Entry, KIND, Model, ORIGIN, RULES, Rule, SHEET_ENTRIES, SHEET_IDS,
    SOURCE_INDEX, STEP_IDS, STEPS, STYLE_ENTRIES, STYLES, Step, properties_ascend,
    strictly_ascending,
};

/// The first words: what is counted, and the next source index.
pub const RULE_COUNT: usize = 0;
pub const STEP_COUNT: usize = 1;
pub const ID_COUNT: usize = 2;
pub const ENTRY_COUNT: usize = 3;
pub const STYLE_COUNT: usize = 4;
pub const STYLE_ENTRY_COUNT: usize = 5;
pub const NEXT: usize = 6;
/// How many words `new` writes.
pub const HEAD: usize = 7;

const RULE_ROW: usize = 5;
const STEP_WIDTH: usize = 23;
const STYLE_ROW: usize = 3;
const RULE_ROWS: usize = 8;
const STEP_ROWS: usize = 1288;
const ENTRY_POOL: usize = 48_392;
const STYLE_ROWS: usize = 60_680;
const STYLE_ENTRY_POOL: usize = 60_872;
/// Words in a sheet.
pub const SHEET_WORDS: usize = 67_016;

/// Most of all steps, and most entries of all direct styles.
const ALL_STEPS: usize = RULES * STEPS;
const ALL_STYLE_ENTRIES: usize = STYLES * STYLE_ENTRIES;

/// Where rule `number`'s word `column` stands: origin, source index, order,
/// step end, entry end.
pub fn rule_word(number: usize, column: usize) -> usize {
    RULE_ROWS + RULE_ROW * number + column
}

/// Where step `number`'s word `column` stands: type flag, type, part flag,
/// part, class count, pseudo count, 8 classes, 8 pseudos, combinator.
pub fn step_word(number: usize, column: usize) -> usize {
    STEP_ROWS + STEP_WIDTH * number + column
}

/// Where rule entry `number`'s property (column 0), kind or number stands.
pub fn entry_word(number: usize, column: usize) -> usize {
    ENTRY_POOL + SHEET_ENTRIES * column + number
}

/// Where direct style `number`'s word `column` stands: origin, source index,
/// entry end.
pub fn style_word(number: usize, column: usize) -> usize {
    STYLE_ROWS + STYLE_ROW * number + column
}

/// Where style entry `number`'s property (column 0), kind or number stands.
pub fn style_entry_word(number: usize, column: usize) -> usize {
    STYLE_ENTRY_POOL + ALL_STYLE_ENTRIES * column + number
}

fn word(number: usize) -> u32 {
    u32::try_from(number).expect("a count fits a word")
}

/// Writes what a push has added to a model: the sources from these numbers
/// on, and the counts. All other words are left.
pub fn write_added(words: &mut [u32], model: &Model, directs: usize, rules: usize) {
    let mut steps = words[STEP_COUNT] as usize;
    let mut entries = words[ENTRY_COUNT] as usize;
    for (number, rule) in model.rules.iter().enumerate().skip(rules) {
        for (place, step) in rule.body.steps.iter().enumerate() {
            let code = match place {
                0 => 0,
                _ => rule.body.codes[place - 1],
            };
            let row = &mut words[step_word(steps, 0)..][..STEP_WIDTH];
            write_step(row, step, code);
            steps += 1;
        }
        for entry in &rule.body.entries {
            words[entry_word(entries, 0)] = entry.property.into();
            words[entry_word(entries, 1)] = entry.kind;
            words[entry_word(entries, 2)] = entry.number;
            entries += 1;
        }
        let row = [
            rule.origin,
            rule.source,
            rule.order,
            word(steps),
            word(entries),
        ];
        words[rule_word(number, 0)..][..RULE_ROW].copy_from_slice(&row);
    }
    let mut style_entries = words[STYLE_ENTRY_COUNT] as usize;
    for (number, direct) in model.directs.iter().enumerate().skip(directs) {
        for entry in &direct.entries {
            words[style_entry_word(style_entries, 0)] = entry.property.into();
            words[style_entry_word(style_entries, 1)] = entry.kind;
            words[style_entry_word(style_entries, 2)] = entry.number;
            style_entries += 1;
        }
        let row = [direct.origin, direct.source, word(style_entries)];
        words[style_word(number, 0)..][..STYLE_ROW].copy_from_slice(&row);
    }
    words[..HEAD].copy_from_slice(&[
        word(model.rules.len()),
        word(steps),
        word(model.ids()),
        word(entries),
        word(model.directs.len()),
        word(style_entries),
        model.next,
    ]);
}

/// A step's row whole: zeros past its ids and for a tag that is not set.
fn write_step(row: &mut [u32], step: &Step, code: u32) {
    row.fill(0);
    row[0] = step.type_tag.is_some().into();
    row[1] = step.type_tag.unwrap_or(0);
    row[2] = step.part_tag.is_some().into();
    row[3] = step.part_tag.unwrap_or(0);
    row[4] = word(step.classes.len());
    row[5] = word(step.pseudos.len());
    row[6..][..step.classes.len()].copy_from_slice(&step.classes);
    row[6 + STEP_IDS..][..step.pseudos.len()].copy_from_slice(&step.pseudos);
    row[6 + 2 * STEP_IDS] = code;
}

/// What the words of a lent sheet mean; nothing if a clause of row 11 fails.
pub fn read(words: &[u32]) -> Option<Model> {
    if words.len() < SHEET_WORDS {
        return None;
    }
    let count = |place: usize, most: usize| {
        let count = words[place] as usize;
        (count <= most).then_some(count)
    };
    let rules = count(RULE_COUNT, RULES)?;
    let steps = count(STEP_COUNT, ALL_STEPS)?;
    let ids = count(ID_COUNT, SHEET_IDS)?;
    let entries = count(ENTRY_COUNT, SHEET_ENTRIES)?;
    let styles = count(STYLE_COUNT, STYLES)?;
    let style_entries = count(STYLE_ENTRY_COUNT, ALL_STYLE_ENTRIES)?;
    count(NEXT, SOURCE_INDEX as usize + 1)?;
    if entries + style_entries > SHEET_ENTRIES {
        return None;
    }
    let all_steps: Option<Vec<(Step, u32)>> = (0..steps).map(|at| read_step(words, at)).collect();
    let all_steps = all_steps?;
    let held: usize = all_steps.iter().map(|(step, _)| step.ids()).sum();
    let pool = |count: usize, place: fn(usize, usize) -> usize| -> Option<Vec<Entry>> {
        let columns = |at| [0, 1, 2].map(|column| words[place(at, column)]);
        (0..count).map(|at| read_entry(columns(at))).collect()
    };
    let all_entries = pool(entries, entry_word)?;
    let all_style_entries = pool(style_entries, style_entry_word)?;

    let mut model = Model {
        next: words[NEXT],
        ..Model::default()
    };
    let (mut step_end, mut entry_end) = (0, 0);
    for number in 0..rules {
        let column = |column| words[rule_word(number, column)];
        let steps = part(&all_steps, &mut step_end, column(3), STEPS)?;
        let entries = part(&all_entries, &mut entry_end, column(4), STYLE_ENTRIES)?;
        let first = steps.first().map_or(0, |(_, code)| *code);
        if !source_fits(column(0), column(1)) || first != 0 || !properties_ascend(entries) {
            return None;
        }
        model.rules.push(Rule {
            origin: column(0),
            source: column(1),
            order: column(2),
            body: Body {
                steps: steps.iter().map(|(step, _)| step.clone()).collect(),
                codes: steps.iter().skip(1).map(|(_, code)| *code).collect(),
                entries: entries.to_vec(),
            },
        });
    }
    let mut style_end = 0;
    for number in 0..styles {
        let column = |column| words[style_word(number, column)];
        let entries = part(&all_style_entries, &mut style_end, column(2), STYLE_ENTRIES)?;
        if !source_fits(column(0), column(1)) || !properties_ascend(entries) {
            return None;
        }
        model.directs.push(Direct {
            origin: column(0),
            source: column(1),
            entries: entries.to_vec(),
        });
    }
    let ends = (step_end, entry_end, style_end);
    (ends == (steps, entries, style_entries) && held == ids).then_some(model)
}

/// The part of a pool from one end to the next, which has to be neither
/// before it nor past the pool, nor the part too long.
fn part<'a, T>(pool: &'a [T], end: &mut usize, next: u32, most: usize) -> Option<&'a [T]> {
    let part = pool.get(*end..next as usize)?;
    *end = next as usize;
    (part.len() <= most).then_some(part)
}

fn source_fits(origin: u32, source: u32) -> bool {
    origin <= ORIGIN && source <= SOURCE_INDEX
}

fn read_entry([property, kind, number]: [u32; 3]) -> Option<Entry> {
    let property = u16::try_from(property).ok()?;
    (kind <= KIND).then_some(Entry {
        property,
        kind,
        number,
    })
}

fn read_step(words: &[u32], number: usize) -> Option<(Step, u32)> {
    let row = &words[step_word(number, 0)..][..STEP_WIDTH];
    let (classes, rest) = row[6..].split_at(STEP_IDS);
    let (pseudos, code) = rest.split_at(STEP_IDS);
    let classes = classes.get(..row[4] as usize)?;
    let pseudos = pseudos.get(..row[5] as usize)?;
    let fits = row[0] <= 1
        && row[2] <= 1
        && strictly_ascending(classes)
        && strictly_ascending(pseudos)
        && code[0] <= COMBINATOR;
    let step = Step {
        type_tag: (row[0] != 0).then_some(row[1]),
        part_tag: (row[2] != 0).then_some(row[3]),
        classes: classes.to_vec(),
        pseudos: pseudos.to_vec(),
    };
    fits.then_some((step, code[0]))
}
