//! Recipes for survivor sets. Many of them seal, some do not.

use super::random::Random;
use crate::sets::{Group, MOST_SETS, group_of_number, outside};

/// A random group of `size` out of `n` controllers.
pub fn group_of_size(rng: &mut Random, n: usize, size: usize) -> Group {
    let mut all: Group = (0..n).collect();
    rng.shuffle(&mut all);
    all.truncate(size);
    all.sort();
    all
}

/// A group that each controller joins so many times in a thousand.
fn group_by_chance(rng: &mut Random, n: usize, in_thousand: usize) -> Group {
    (0..n).filter(|_| rng.chance(in_thousand)).collect()
}

/// Up to `most` different groups of `size` out of `n`: all of them if they
/// are so few, else random ones.
pub fn groups_of_size(rng: &mut Random, n: usize, size: usize, most: usize) -> Vec<Group> {
    let mut numbers: Vec<u32> = (0..1u32 << n)
        .filter(|number| number.count_ones() as usize == size)
        .collect();
    rng.shuffle(&mut numbers);
    numbers.truncate(most);
    numbers.into_iter().map(group_of_number).collect()
}

/// As many may fail at once as a yard of `n` can bear.
pub fn bearable(n: usize) -> usize {
    (n - 1) / 3
}

/// Controllers stand in cabinets; some cabinets fail whole, few at a time.
fn cabinets(rng: &mut Random, n: usize) -> Vec<Group> {
    let count = rng.between(1, n);
    let cabinet_of: Vec<usize> = (0..n).map(|_| rng.below(count)).collect();
    let failing = if rng.chance(800) {
        bearable(count)
    } else {
        rng.below(count)
    };
    groups_of_size(rng, count, failing, 21)
        .into_iter()
        .map(|down| (0..n).filter(|&c| !down.contains(&cabinet_of[c])).collect())
        .collect()
}

/// The yards worked by hand, with their sizes.
const WORKED: [(usize, &[u32]); 5] = [
    (4, &[7, 11, 13, 14]),
    (1, &[1]),
    (3, &[3, 5, 6]),
    (2, &[1, 2]),
    (6, &[56, 55, 47, 31]),
];

/// A full draft for 15 controllers that seals with four leads, found by long
/// search: the controllers outside the sets hold every three controllers, and
/// no three such groups hold all.
#[rustfmt::skip]
pub const FOUR_LEADS: [u32; 64] = [
    24497, 32178, 21467, 28515, 30879, 16332, 20429, 28499,
    5999, 27323, 23015, 27893, 11583, 7101, 19838, 31594,
    30515, 11769, 20206, 18942, 13239, 29295, 26031, 24125,
    29673, 14266, 31698, 24158, 15598, 20472, 11103, 18422,
    30661, 32422, 15100, 28124, 30043, 4030, 23159, 13983,
    30450, 14835, 31949, 32345, 30524, 7639, 24335, 21949,
    31629, 7803, 28311, 9981, 16267, 23787, 11239, 16244,
    27453, 13559, 25563, 31093, 31853, 29166, 18047, 29598,
];

/// A yard with three leads or four.
fn many_leads(rng: &mut Random) -> (usize, Vec<Group>) {
    if rng.chance(700) {
        let n = rng.between(7, 9);
        return (n, groups_of_size(rng, n, n - bearable(n), MOST_SETS));
    }
    let mut names: Vec<usize> = (0..15).collect();
    rng.shuffle(&mut names);
    let sets = FOUR_LEADS.iter().map(|&number| {
        let mut set: Group = group_of_number(number).iter().map(|&c| names[c]).collect();
        set.sort();
        set
    });
    (15, sets.collect())
}

/// A yard that takes few lines.
pub fn small_family(rng: &mut Random) -> (usize, Vec<Group>) {
    if rng.chance(400) {
        return (1, vec![vec![0]]);
    }
    if rng.chance(500) {
        let n = rng.between(2, 4);
        let size = rng.between(1, n);
        return (n, vec![group_of_size(rng, n, size)]);
    }
    worked(rng)
}

/// One of the yards worked by hand.
fn worked(rng: &mut Random) -> (usize, Vec<Group>) {
    let &(n, numbers) = rng.pick(&WORKED);
    (n, numbers.iter().map(|&s| group_of_number(s)).collect())
}

/// A yard's size and sets for its draft, at most 72 of them.
pub fn family(rng: &mut Random) -> (usize, Vec<Group>) {
    let n = if rng.chance(400) {
        rng.between(4, 7)
    } else {
        rng.between(1, 16)
    };
    let most = *rng.pick(&[3, 5, 8, 8, 12, 20]);
    let mut sets = match rng.below(100) {
        // So many may fail as the yard can bear, or one more.
        0..25 => groups_of_size(rng, n, n - bearable(n), most),
        25..31 => groups_of_size(rng, n, (n - bearable(n) - 1).max(1), most),
        31..36 => return many_leads(rng),
        36..52 => cabinets(rng, n),
        52..66 => {
            let share = rng.between(600, 950);
            (0..most).map(|_| group_by_chance(rng, n, share)).collect()
        }
        // All sets have one controller in common.
        66..74 => {
            let share = rng.between(200, 800);
            let common = rng.below(n);
            (0..most)
                .map(|_| {
                    let mut group = group_by_chance(rng, n, share);
                    group.push(common);
                    group.sort();
                    group.dedup();
                    group
                })
                .collect()
        }
        74..84 => return worked(rng),
        84..90 => {
            let size = rng.between(1, n);
            vec![group_of_size(rng, n, size)]
        }
        // Few fail, and not alike: the rest of small groups.
        90..94 => (0..most)
            .map(|_| {
                let size = rng.below(n.div_ceil(3));
                outside(&group_of_size(rng, n, size), n)
            })
            .collect(),
        94..96 => (0..most).map(|_| group_by_chance(rng, n, 500)).collect(),
        // The draft full, and more than full.
        _ => {
            let n = rng.between(9, 16);
            let size = if rng.chance(700) {
                n - bearable(n)
            } else {
                n / 2
            };
            let most = rng.between(63, 72);
            return (n, groups_of_size(rng, n, size, most));
        }
    };
    rng.shuffle(&mut sets);
    (n, sets)
}
