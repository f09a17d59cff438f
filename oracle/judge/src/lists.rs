//! Cases about lists of ids (kinds 1 to 6), answered by `IdSet`, by the
//! order of slices, by `SelectorInputs` and by `PropertyId`.
//!
//! Each answers nothing if the body is too short for its own counts.

use std::cmp::Ordering;

use understory_property::PropertyId;
use understory_style::selector::{ClassId, IdSet, SelectorInputs};

use crate::asking::asked;
use crate::words::split;

fn classes(ids: &[u32]) -> Vec<ClassId> {
    ids.iter().copied().map(ClassId).collect()
}

fn set_of(ids: &[u32]) -> IdSet<ClassId> {
    IdSet::from_ids(classes(ids))
}

pub fn yes_or_no(answer: bool) -> &'static str {
    if answer { "yes" } else { "no" }
}

fn sign(order: Ordering) -> i32 {
    match order {
        Ordering::Less => -1,
        Ordering::Equal => 0,
        Ordering::Greater => 1,
    }
}

/// Kind 1: the ids sorted and made unique.
pub fn set(body: &[u32]) -> Option<String> {
    let set = set_of(body);
    let mut line = format!("set {}:", set.len());
    for id in set.as_slice() {
        line += &format!(" {}", id.0);
    }
    Some(line)
}

/// Kind 2: is the set of the first k ids contained in that of the rest?
pub fn subset(body: &[u32]) -> Option<String> {
    let (&count, rest) = body.split_first()?;
    let (needles, haystack) = split(rest, count)?;
    let answer = set_of(needles).is_subset_of_slice(set_of(haystack).as_slice());
    Some(format!("subset {}", yes_or_no(answer)))
}

/// Kind 3: is the first id in the set of the rest?
pub fn contains(body: &[u32]) -> Option<String> {
    let (&id, ids) = body.split_first()?;
    let answer = set_of(ids).contains(ClassId(id));
    Some(format!("contains {}", yes_or_no(answer)))
}

/// Kind 4: would a subject with these classes be taken without a panic?
pub fn ascending(body: &[u32]) -> Option<String> {
    let ids = classes(body);
    let answer = asked(|| SelectorInputs::new(None, &ids, &[])).is_some();
    Some(format!("ascending {}", yes_or_no(answer)))
}

/// Kind 5: the order of two lists.
pub fn compare(body: &[u32]) -> Option<String> {
    let (&count, rest) = body.split_first()?;
    let (left, right) = split(rest, count)?;
    let order = classes(left).cmp(&classes(right));
    Some(format!("compare {}", sign(order)))
}

/// Kind 6: two property numbers and their order.
pub fn property(body: &[u32]) -> Option<String> {
    let [left, right, ..] = *body else {
        return None;
    };
    let (Ok(left), Ok(right)) = (u16::try_from(left), u16::try_from(right)) else {
        return Some("refused".to_string());
    };
    let (left, right) = (PropertyId::new(left), PropertyId::new(right));
    let order = sign(left.cmp(&right));
    Some(format!(
        "property {} {} {order}",
        left.index(),
        right.index()
    ))
}
