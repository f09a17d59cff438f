//! A table in words: what a call writes where, and what words mean that no
//! call may have written.

use super::table::{
    Entered, Hook, Left, Lists, Row, STATES, State, Subject, Table, Transition, cursor_exists, root,
};
use crate::builds::model::{Rule, strictly_ascending};
use crate::paths::SUBJECT_ROW;

/// The pieces of a table, in the order of their numbers.
pub const HEAD: usize = 0;
pub const STATE_ROWS: usize = 1;
pub const CURSORS: usize = 2;
pub const MATCHED: usize = 3;
pub const TRANSITION_ROWS: usize = 4;
/// How many words each piece has.
pub const SIZES: [usize; 5] = [8, 1545, 16_384, 8192, 24_600];

/// The words of the head; two more hold nothing.
pub const STAMP: usize = 0;
pub const RANKING: usize = 1;
pub const STATE_COUNT: usize = 2;
pub const CURSOR_COUNT: usize = 3;
pub const MATCHED_COUNT: usize = 4;
pub const TRANSITION_COUNT: usize = 5;

/// Cursor end, matched end, link.
pub const STATE_ROW: usize = 3;
/// Parent, child, link, and a subject's row.
pub const TRANSITION_ROW: usize = 3 + SUBJECT_ROW;

/// The codes of rankings and flags.
const CODE: u32 = 1;

/// What is lent of each piece.
pub type Lent<'a> = [&'a [u32]; 5];

/// Whole pieces, lent or not.
pub type Pieces = [Vec<u32>; 5];

fn word(number: usize) -> u32 {
    u32::try_from(number).expect("a count fits a word")
}

/// The first rows of a piece; nothing if they are not all lent.
fn rows<const WIDTH: usize>(lent: &[u32], count: u32) -> Option<&[[u32; WIDTH]]> {
    let (rows, _) = lent.as_chunks();
    rows.get(..count as usize)
}

/// What the words of a lent table mean, given its sheet's rules; nothing if a
/// clause of row 11 fails.
pub fn read(rules: &[Rule], lent: Lent<'_>) -> Option<Table> {
    let head = lent[HEAD];
    let state_rows = rows::<STATE_ROW>(lent[STATE_ROWS], head[STATE_COUNT])?;
    let cursors = lent[CURSORS].get(..head[CURSOR_COUNT] as usize)?;
    let matched = lent[MATCHED].get(..head[MATCHED_COUNT] as usize)?;
    let transition_rows = rows(lent[TRANSITION_ROWS], head[TRANSITION_COUNT])?;
    if state_rows.len() > STATES || head[RANKING] > CODE {
        return None;
    }
    let states = read_states(rules, state_rows, cursors, matched)?;
    if states.first()?.lists != root(rules) {
        return None;
    }
    let transition = |row| read_transition(row, states.len());
    let transitions: Option<Vec<Transition>> = transition_rows.iter().map(transition).collect();
    Some(Table {
        stamp: head[STAMP],
        ranking: head[RANKING],
        transitions: transitions?,
        states,
    })
}

/// The states, whose lists stand end to end and take all that is used.
fn read_states(
    rules: &[Rule],
    rows: &[[u32; STATE_ROW]],
    cursors: &[u32],
    matched: &[u32],
) -> Option<Vec<State>> {
    let (mut cursor_end, mut matched_end) = (0, 0);
    let mut states = Vec::new();
    for &[next_cursor, next_matched, first] in rows {
        let lists = Lists {
            cursors: part(cursors, &mut cursor_end, next_cursor)?,
            matched: part(matched, &mut matched_end, next_matched)?,
        };
        let rule_exists = |&rule: &u32| (rule as usize) < rules.len();
        let exist = lists.cursors.iter().all(|&at| cursor_exists(rules, at))
            && lists.matched.iter().all(rule_exists);
        if !exist || !strictly_ascending(&lists.cursors) || !strictly_ascending(&lists.matched) {
            return None;
        }
        states.push(State { lists, first });
    }
    (cursor_end == cursors.len() && matched_end == matched.len()).then_some(states)
}

/// The part of a piece from one end to the next, which has to be neither
/// before it nor past what is used.
fn part(used: &[u32], end: &mut usize, next: u32) -> Option<Vec<u32>> {
    let part = used.get(*end..next as usize)?;
    *end = next as usize;
    Some(part.to_vec())
}

fn read_transition(row: &[u32; TRANSITION_ROW], states: usize) -> Option<Transition> {
    let (&[parent, child, next], subject) = row.split_first_chunk()?;
    let subject: &Row = subject.try_into().ok()?;
    let (parent, child) = (parent as usize, child as usize);
    let fits = parent < states && child < states && subject[0] <= CODE && subject[2] <= CODE;
    // Counts over their sizes and ids that do not ascend break the shape.
    let subject = Subject::given(subject).ok()?;
    fits.then_some(Transition {
        parent,
        child,
        next,
        subject,
    })
}

/// Writes what build does: the first six words of the head, the root's row
/// and its cursors.
pub fn write_root(pieces: &mut Pieces, stamp: u32, ranking: u32, root: &Lists) {
    let cursors = root.cursors.len();
    pieces[HEAD][..6].copy_from_slice(&[stamp, ranking, 1, word(cursors), 0, 0]);
    pieces[STATE_ROWS][..STATE_ROW].copy_from_slice(&[word(cursors), 0, 0]);
    pieces[CURSORS][..cursors].copy_from_slice(&root.cursors);
}

/// How much more a lent table may hold.
pub fn left(lent: Lent<'_>) -> Left {
    let head = lent[HEAD];
    let left = |room: usize, count: usize| room - head[count] as usize;
    let states = (lent[STATE_ROWS].len() / STATE_ROW).min(STATES);
    Left {
        states: left(states, STATE_COUNT),
        cursors: left(lent[CURSORS].len(), CURSOR_COUNT),
        matched: left(lent[MATCHED].len(), MATCHED_COUNT),
        transitions: left(
            lent[TRANSITION_ROWS].len() / TRANSITION_ROW,
            TRANSITION_COUNT,
        ),
    }
}

/// Writes what an accepted entering adds: a new state, a kept transition.
pub fn write_entered(pieces: &mut Pieces, parent: usize, given: &Row, entered: &Entered) {
    let [_, _, states, cursors, matched, transitions, ..] =
        [0, 1, 2, 3, 4, 5].map(|place| pieces[HEAD][place] as usize);
    if let Some(lists) = &entered.new {
        let cursor_end = cursors + lists.cursors.len();
        let matched_end = matched + lists.matched.len();
        pieces[CURSORS][cursors..cursor_end].copy_from_slice(&lists.cursors);
        pieces[MATCHED][matched..matched_end].copy_from_slice(&lists.matched);
        let row = [word(cursor_end), word(matched_end), 0];
        pieces[STATE_ROWS][STATE_ROW * states..][..STATE_ROW].copy_from_slice(&row);
        pieces[HEAD][STATE_COUNT] = word(states + 1);
        pieces[HEAD][CURSOR_COUNT] = word(cursor_end);
        pieces[HEAD][MATCHED_COUNT] = word(matched_end);
    }
    if let Some(hook) = entered.kept {
        let row = &mut pieces[TRANSITION_ROWS][TRANSITION_ROW * transitions..][..TRANSITION_ROW];
        row[..3].copy_from_slice(&[word(parent), word(entered.child), 0]);
        row[3..].copy_from_slice(&kept_row(given));
        let link = word(transitions + 1);
        match hook {
            Hook::State(state) => pieces[STATE_ROWS][STATE_ROW * state + 2] = link,
            Hook::Transition(last) => pieces[TRANSITION_ROWS][TRANSITION_ROW * last + 2] = link,
        }
        pieces[HEAD][TRANSITION_COUNT] = link;
    }
}

/// A subject's row as it is kept: flags 1 or 0, the number of a tag that is
/// not set 0, all id words as given.
fn kept_row(given: &Row) -> Row {
    let mut row = *given;
    for flag in [0, 2] {
        if row[flag] == 0 {
            row[flag + 1] = 0;
        } else {
            row[flag] = 1;
        }
    }
    row
}
