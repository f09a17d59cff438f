//! Cases from a seed.
//!
//! Each of lists, paths, builds, walks, cascades and files has fixed cases (all
//! small ones, and the edges of every size) and random ones (valid and
//! damaged). A stream of cases begins with all fixed ones if they are at most
//! half of what was asked for; otherwise every second case, by chance, is a
//! fixed one.

pub mod build_edges;
pub mod builds;
pub mod cascade_edges;
pub mod cascade_lists;
pub mod cascades;
pub mod damage;
pub mod file_edges;
pub mod files;
pub mod lists;
pub mod paths;
pub mod random;
pub mod steps;
pub mod walk_edges;
pub mod walks;

use random::Random;

/// Numbers at which a mistaken width, sign or carry shows.
pub const EXTREMES: [u32; 9] = [
    0,
    1,
    0x7fff,
    0xffff,
    0x1_0000,
    0x7fff_ffff,
    0x8000_0000,
    u32::MAX - 1,
    u32::MAX,
];

/// `count` cases from a seed.
pub fn stream<T: Clone>(
    fixed: Vec<T>,
    random: impl Fn(&mut Random) -> T,
    seed: u64,
    count: usize,
) -> impl Iterator<Item = T> {
    let mut source = Random::new(seed);
    let all_fixed = fixed.len() <= count / 2;
    (0..count).map(move |number| {
        let place = if all_fixed {
            (number < fixed.len()).then_some(number)
        } else {
            (!fixed.is_empty() && source.once_in(2)).then(|| source.below(fixed.len()))
        };
        match place {
            Some(place) => fixed[place].clone(),
            None => random(&mut source),
        }
    })
}

/// Every list of up to `longest` of the given values, the short ones first.
pub fn all_lists(values: &[u32], longest: usize) -> Vec<Vec<u32>> {
    let mut lists = vec![Vec::new()];
    let mut begin = 0;
    for _ in 0..longest {
        let end = lists.len();
        for place in begin..end {
            for &value in values {
                let mut longer = lists[place].clone();
                longer.push(value);
                lists.push(longer);
            }
        }
        begin = end;
    }
    lists
}
