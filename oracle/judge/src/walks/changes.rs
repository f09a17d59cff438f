//! Change lists and channels, without a sheet: the published change set on
//! what is given, and the lines of an answer's list.

use std::collections::BTreeSet;

use invalidation::ChannelSet;
use understory_property::{PropertyId, PropertyRegistry};
use understory_style::matcher::StyleChangeSet;
use understory_style::selector::Specificity;

use super::winners::{Key, channels};
use crate::builds::model::Refusal;
use crate::builds::{Payload, numbered};

/// Most half words of a buffer for an answer's list.
pub const MOST_LISTED: usize = 8192;

/// Words in a key.
const KEY: usize = 7;

/// The ids that words stand for: the low 16 bits.
fn ids_of(words: &[u32]) -> Vec<u16> {
    words.iter().map(|&word| word as u16).collect()
}

/// The first ids of a list, or refusal 2.
fn counted(ids: &[u16], count: u32) -> Result<&[u16], Refusal> {
    ids.get(..count as usize).ok_or(2)
}

/// The first words, as far as they are there, and the rest.
fn split(words: &[u32], count: u32) -> (&[u32], &[u32]) {
    words.split_at(words.len().min(count as usize))
}

pub fn listed(set: &StyleChangeSet) -> Vec<u16> {
    set.property_ids().iter().map(|id| id.index()).collect()
}

/// The published change set of some ids, which has to be what sorting and
/// making unique gives.
fn set_of(ids: &[u16]) -> StyleChangeSet {
    let set = StyleChangeSet::from_property_ids(ids.iter().copied().map(PropertyId::new));
    let plain: BTreeSet<u16> = ids.iter().copied().collect();
    assert!(plain.into_iter().eq(listed(&set)), "the published set");
    set
}

/// The published registry for a lent table of masks.
pub fn registry(masks: &[u32]) -> PropertyRegistry {
    PropertyRegistry(masks.iter().copied().map(ChannelSet).collect())
}

/// The lines of a list in a buffer of so many half words: 8 if that is too
/// short. No call writes past its answer, and none that is refused writes.
pub fn list_lines(tag: &str, list: Result<Vec<u16>, Refusal>, room: u32) -> String {
    let room = MOST_LISTED.min(room as usize);
    let fits = |list: &Vec<u16>| list.len() <= room;
    let list = list.and_then(|list| if fits(&list) { Ok(list) } else { Err(8) });
    match list {
        Ok(list) => {
            let length = format!("{tag} 0 {}\n", list.len());
            length + &numbered("ids", list) + "past 0\n"
        }
        Err(refusal) => format!("{tag} {refusal}\nids\npast 0\n"),
    }
}

/// The lines of a channel set, after a tag.
pub fn channel_lines(tag: &str, set: u32) -> String {
    let named: Vec<u32> = (0..32).filter(|&channel| has(channel, set)).collect();
    let lowest = named.first().map_or("none".to_string(), u32::to_string);
    format!("{tag} {set}\nnamed {}\nlowest {lowest}\n", named.len())
}

/// Whether a set has a channel; there are 32.
fn has(channel: u32, set: u32) -> bool {
    set.checked_shr(channel)
        .is_some_and(|rest| !rest.is_multiple_of(2))
}

/// Op 13.
pub fn set_lines(mut payload: Payload<'_>) -> String {
    let [count, room] = payload.words();
    let ids = ids_of(payload.0);
    let set = counted(&ids, count).map(set_of);
    let answer = |tag: &str, answer: &dyn Fn(&StyleChangeSet) -> usize| match &set {
        Ok(set) => format!("{tag} 0 {}\n", answer(set)),
        Err(refusal) => format!("{tag} {refusal}\n"),
    };
    let length = answer("len", &|set| set.len());
    let empty = answer("empty", &|set| set.is_empty().into());
    let list = set.as_ref().map(listed).map_err(|&refusal| refusal);
    list_lines("set", list, room) + &length + &empty
}

/// Op 14: 2 (the first list), 2 (the second), 8.
pub fn union_lines(mut payload: Payload<'_>) -> String {
    let [first_count, second_count, room, length] = payload.words();
    let (first, second) = split(payload.0, length);
    let (first, second) = (ids_of(first), ids_of(second));
    let union = || -> Result<Vec<u16>, Refusal> {
        let first = counted(&first, first_count)?;
        let second = counted(&second, second_count)?;
        let union = set_of(first).union(&set_of(second));
        assert_eq!(
            union,
            set_of(&[first, second].concat()),
            "the published union"
        );
        Ok(listed(&union))
    };
    list_lines("union", union(), room)
}

/// Op 15.
pub fn affected_lines(mut payload: Payload<'_>) -> String {
    let length = payload.word();
    let (ids, masks) = split(payload.0, length);
    let ids = ids_of(ids);
    let affected = set_of(&ids).affected_channels(&registry(masks)).0;
    assert_eq!(affected, channels(&ids, masks), "the published channels");
    channel_lines("affected", affected)
}

/// Op 16.
pub fn has_line(mut payload: Payload<'_>) -> String {
    let [channel, set] = payload.words();
    format!("has {}\n", u32::from(has(channel, set)))
}

/// Op 17. The order of weights is the published one.
pub fn compare_lines(mut payload: Payload<'_>) -> String {
    let mut key = || -> (Key, Specificity) {
        let words: [u32; KEY] = payload.words();
        let [origin, a, b, c, d, source, order] = words;
        let key = Key {
            origin,
            weight: [a, b, c, d],
            source,
            order,
        };
        (key, Specificity(a, b, c, d))
    };
    let keys = [key(), key()];
    let line = |[left, right]: [(Key, Specificity); 2]| {
        let parts = left.0.origin.cmp(&right.0.origin);
        let parts = parts
            .then(left.1.cmp(&right.1))
            .then(left.0.source.cmp(&right.0.source))
            .then(left.0.order.cmp(&right.0.order));
        assert_eq!(parts, left.0.cmp(&right.0), "the published weights");
        format!("compare {}\n", parts as i8)
    };
    line(keys) + &line([keys[1], keys[0]])
}
