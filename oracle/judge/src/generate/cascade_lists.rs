//! Items about change lists, channels and keys, which need no sheet: by
//! chance, and at every edge.

use super::builds::item;
use super::random::Random;
use super::{EXTREMES, all_lists};
use crate::builds::{Item, LONGEST_PAYLOAD};
use crate::walks::changes::MOST_LISTED;
use crate::walks::{AFFECTED, COMPARE, HAS, SET, UNION, WalkCase};

/// What the half words of a buffer are at first: as an id it must not be
/// taken for one that was not written.
pub const UNWRITTEN: u32 = 43_981;

pub fn set(count: u32, room: u32, ids: &[u32]) -> Item {
    item(SET, &[&[count, room], ids].concat())
}

/// Two lists, with counts and a room.
pub fn union(counts: [u32; 2], room: u32, first: &[u32], second: &[u32]) -> Item {
    let head = [counts[0], counts[1], room, first.len() as u32];
    item(UNION, &[&head, first, second].concat())
}

pub fn affected(ids: &[u32], masks: &[u32]) -> Item {
    item(AFFECTED, &[&[ids.len() as u32], ids, masks].concat())
}

pub fn has(channel: u32, mask: u32) -> Item {
    item(HAS, &[channel, mask])
}

pub fn compare(left: [u32; 7], right: [u32; 7]) -> Item {
    item(COMPARE, &[left, right].concat())
}

fn distinct(ids: &[u32]) -> u32 {
    let mut ids: Vec<u16> = ids.iter().map(|&id| id as u16).collect();
    ids.sort();
    ids.dedup();
    ids.len() as u32
}

/// A room that is just enough, one short, nothing, or more.
pub fn random_room(random: &mut Random, enough: u32) -> u32 {
    match random.below(8) {
        0..=2 => enough,
        3 | 4 => enough.saturating_sub(1),
        5 => 0,
        6 => enough + random.between(1, 9) as u32,
        _ => random.pick(&[8191, 8192, 8193, 0x1_0000, u32::MAX]),
    }
}

/// A count of a list: mostly all of it, else less or past its end.
fn random_count(random: &mut Random, length: usize) -> u32 {
    let length = length as u32;
    match random.below(12) {
        0 => length + 1,
        1 => random.pick(&EXTREMES),
        2 => length.saturating_sub(1),
        3 | 4 => random.below(length as usize + 1) as u32,
        _ => length,
    }
}

/// Ids in any order and repeated, now and then thousands of them.
fn random_ids(random: &mut Random) -> Vec<u32> {
    let length = match random.below(60) {
        0 => random.between(1000, 9000),
        1..=5 => random.between(20, 200),
        _ => random.below(10),
    };
    let near = random.pick(&[2, 5, 12, 300, 0x1_0000]);
    let high = random.once_in(4);
    let id = |random: &mut Random| {
        let id = match random.below(20) {
            0 => random.pick(&[0, 0xffff, 0x8000, 0x7fff, UNWRITTEN]),
            _ => random.below(near) as u32,
        };
        match high && random.once_in(3) {
            true => id | random.word() << 16,
            false => id,
        }
    };
    (0..length).map(|_| id(random)).collect()
}

/// Masks for some ids, mostly fewer or more than needed.
pub fn random_masks(random: &mut Random) -> Vec<u32> {
    let length = match random.below(2000) {
        0 => 32_000,
        1..=100 => 0,
        101..=200 => random.between(40, 300),
        _ => random.below(14),
    };
    let mask = |random: &mut Random| match random.below(8) {
        0 | 1 => 0,
        2 => random.word(),
        3 => random.pick(&[1, 0x8000_0000, u32::MAX, 0x7fff_ffff]),
        _ => 1 << random.below(32),
    };
    (0..length).map(|_| mask(random)).collect()
}

fn random_key(random: &mut Random) -> [u32; 7] {
    let odd = random.once_in(3);
    [0; 7].map(|_| match odd {
        true => random.pick(&EXTREMES),
        false => random.below(3) as u32,
    })
}

/// One item about lists, channels or keys.
pub fn random_item(random: &mut Random) -> Item {
    match random.below(10) {
        0..=2 => {
            let ids = random_ids(random);
            let count = random_count(random, ids.len());
            let counted = &ids[..ids.len().min(count as usize)];
            set(count, random_room(random, distinct(counted)), &ids)
        }
        3..=5 => {
            let (first, second) = (random_ids(random), random_ids(random));
            let counts = [&first, &second].map(|ids| random_count(random, ids.len()));
            let all = [&first[..], &second].concat();
            union(counts, random_room(random, distinct(&all)), &first, &second)
        }
        6 | 7 => affected(&random_ids(random), &random_masks(random)),
        8 => {
            let channel = random.pick(&[0, 1, 15, 16, 30, 31, 32, 33, 63, 64, 256, u32::MAX]);
            has(channel, random.word() | random.pick(&[0, 1, 1 << 31]))
        }
        _ => {
            let left = random_key(random);
            let mut right = left;
            for _ in 0..random.below(3) {
                right[random.below(7)] = random_key(random)[0];
            }
            compare(left, right)
        }
    }
}

pub fn fixed() -> Vec<WalkCase> {
    let parts = [sets(), unions(), long(), channels(), keys(), payloads()];
    parts.map(|items| WalkCase { items }).to_vec()
}

/// Every list of at most three of three ids, with every count and room near.
fn sets() -> Vec<Item> {
    let mut items = Vec::new();
    for ids in all_lists(&[0, 1, 0xffff], 3) {
        for count in 0..=ids.len() as u32 + 1 {
            for room in 0..=count {
                items.push(set(count, room, &ids));
            }
        }
    }
    // The low 16 bits count, and ids that look unwritten are ids.
    let odd = [0x1_0001, 1, 0xffff_0000, 0, UNWRITTEN, 0x5_0000 + UNWRITTEN];
    for count in 0..8 {
        for room in [0, 1, 2, 3, 4, u32::MAX] {
            items.push(set(count, room, &odd));
        }
    }
    for count in EXTREMES {
        items.extend([set(count, 9, &[2, 1]), set(count, 0, &[2, 1])]);
        items.extend([set(count, 9, &[]), set(count, 0, &[])]);
    }
    items
}

/// Every two lists of at most two of three ids; every set of faults.
fn unions() -> Vec<Item> {
    let mut items = Vec::new();
    let lists = all_lists(&[0, 1, 0xffff], 2);
    for first in &lists {
        for second in &lists {
            let counts = [first.len() as u32, second.len() as u32];
            let both = [&first[..], second].concat();
            let enough = distinct(&both);
            items.push(union(counts, enough, first, second));
            items.push(union(counts, enough.saturating_sub(1), first, second));
        }
    }
    for first in [1, 2, 3, u32::MAX] {
        for second in [1, 2, 3, 0x8000_0000] {
            for room in [0, 1, 2, 3, 4] {
                items.push(union([first, second], room, &[7, 3], &[3, 9]));
            }
        }
    }
    // A first list longer than what is there leaves none for the second.
    for length in [0, 1, 2, 3, 4, 5, u32::MAX] {
        for counts in [[0, 0], [1, 1], [2, 2], [4, 0], [0, 4], [5, 0]] {
            let head = [counts[0], counts[1], 4, length];
            items.push(item(UNION, &[&head[..], &[4, 3, 2, 1]].concat()));
        }
    }
    items
}

/// Lists as long as a payload holds, and as a buffer does.
fn long() -> Vec<Item> {
    let most = LONGEST_PAYLOAD - 2;
    let falling: Vec<u32> = (0..most).rev().collect();
    let mut items = vec![set(most, u32::MAX, &falling), set(most + 1, 0, &falling)];
    let upper: Vec<u32> = (0x1_0000 - most..0x1_0000).collect();
    items.push(set(most, 8192, &upper));
    let listed = MOST_LISTED as u32;
    for count in [listed - 1, listed, listed + 1] {
        for room in [listed - 1, listed, listed + 1, u32::MAX] {
            items.push(set(count, room, &falling[..9000]));
        }
    }
    items.push(set(most, 1, &vec![0xffff; most as usize]));
    items.push(set(most, 0, &vec![0xffff; most as usize]));
    let few: Vec<u32> = (0..most).map(|at| at * 7919 % 4099).collect();
    items.extend([set(most, 4099, &few), set(most, 4098, &few)]);
    let half: Vec<u32> = (0..4096).map(|at| 2 * at).collect();
    let other: Vec<u32> = half.iter().rev().map(|id| id + 1).collect();
    for room in [8191, 8192, 8193] {
        items.push(union([4096, 4096], room, &half, &other));
        items.push(union([4096, 4095], room, &half, &other));
    }
    items.push(union([4096, 4096], 4096, &half, &half));
    items.push(union([4096, 4096], 4095, &half, &half));
    let masks: Vec<u32> = (0..32).map(|at| 1 << at).collect();
    let ids = &falling[..most as usize - 40];
    items.extend([affected(ids, &masks), affected(&upper[..30_000], &masks)]);
    items.push(affected(&[most - 3], &vec![1; most as usize - 1]));
    items
}

/// Every channel alone, in a change list and as a set; masks shorter than the
/// ids.
fn channels() -> Vec<Item> {
    let mut items = Vec::new();
    for channel in 0..34 {
        let mask = 1u32.checked_shl(channel).unwrap_or(0);
        items.push(affected(&[1], &[u32::MAX, mask]));
        for set in [mask, !mask, 0, u32::MAX] {
            items.push(has(channel, set));
        }
    }
    for channel in EXTREMES {
        for set in EXTREMES {
            items.push(has(channel, set));
        }
    }
    let masks = [1, 2, 4, 0x8000_0000];
    for ids in all_lists(&[0, 2, 3, 4, 0xffff], 2) {
        for length in 0..=masks.len() {
            items.push(affected(&ids, &masks[..length]));
        }
    }
    items.push(affected(&[0x1_0002, 0xffff_0000], &masks));
    items.push(affected(&[3, 3, 3], &masks));
    // Words that are ids as far as they are there.
    for length in [0, 1, 2, 3, 4, u32::MAX] {
        items.push(item(AFFECTED, &[length, 1, 0, 5]));
    }
    items
}

/// Keys that differ in one place, and in two that pull apart.
fn keys() -> Vec<Item> {
    let base = [3, 3, 3, 3, 3, 3, 3];
    let mut items = vec![compare(base, base), compare([0; 7], [0; 7])];
    for place in 0..7 {
        for value in [0, 2, 3, 4, 0x7fff_ffff, 0x8000_0000, u32::MAX] {
            let mut other = base;
            other[place] = value;
            items.push(compare(base, other));
            for lower in place + 1..7 {
                for value in [2, 4, u32::MAX] {
                    let mut two = other;
                    two[lower] = value;
                    items.push(compare(base, two));
                }
            }
        }
    }
    for left in EXTREMES {
        for right in EXTREMES {
            items.push(compare([left; 7], [right; 7]));
            let only = |last| [0, 0, 0, 0, 0, 0, last];
            items.push(compare(only(left), only(right)));
        }
    }
    items
}

/// Nothing at all, a word or two, more than is read.
fn payloads() -> Vec<Item> {
    let mut items = Vec::new();
    for op in [SET, UNION, AFFECTED, HAS, COMPARE] {
        for words in [&[][..], &[1], &[0, 1], &[1, 1], &[1; 3], &[1; 14], &[2; 40]] {
            items.push(item(op, words));
        }
    }
    items.extend([item(COMPARE, &[0, 0, 0, 0, 0, 0, 0, 1]), item(18, &[1])]);
    items
}
