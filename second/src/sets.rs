//! Groups of controllers, drafts of survivor sets, and sealing.

use crate::refusal::Refusal;

/// The most controllers a yard can have.
pub const MOST_CONTROLLERS: usize = 16;

/// The most sets a draft can have.
pub const MOST_SETS: usize = 64;

/// A group of controllers: their numbers, rising.
pub type Group = Vec<usize>;

/// Is every member of `part` in `whole`?
pub fn within(part: &[usize], whole: &[usize]) -> bool {
    part.iter().all(|c| whole.contains(c))
}

/// Do the two groups share a controller?
pub fn meets(one: &[usize], other: &[usize]) -> bool {
    one.iter().any(|c| other.contains(c))
}

/// The controllers that are in both groups.
pub fn common(one: &[usize], other: &[usize]) -> Group {
    one.iter().copied().filter(|c| other.contains(c)).collect()
}

/// The controllers of a yard of `n` that are not in the group.
pub fn outside(group: &[usize], n: usize) -> Group {
    (0..n).filter(|c| !group.contains(c)).collect()
}

/// The group that a number stands for: bit i stands for controller i.
pub fn group_of_number(number: u32) -> Group {
    (0..MOST_CONTROLLERS)
        .filter(|&c| (number >> c) & 1 == 1)
        .collect()
}

/// A yard being drafted: its size and the survivor sets so far.
#[derive(Clone, Debug, PartialEq, Eq)]
pub struct Draft {
    n: usize,
    sets: Vec<Group>,
}

impl Draft {
    /// A draft for `n` controllers, without a set.
    pub fn new(n: usize) -> Result<Draft, Refusal> {
        if n == 0 || n > MOST_CONTROLLERS {
            return Err(Refusal::ControllerCount);
        }
        Ok(Draft {
            n,
            sets: Vec::new(),
        })
    }

    pub fn n(&self) -> usize {
        self.n
    }

    pub fn sets(&self) -> &[Group] {
        &self.sets
    }

    /// Adds a set, whose members must rise.
    pub fn add(&mut self, set: Group) -> Result<(), Refusal> {
        if set.is_empty() || set.iter().any(|&c| c >= self.n) {
            return Err(Refusal::BadSet);
        }
        if self.sets.len() == MOST_SETS {
            return Err(Refusal::DraftFull);
        }
        for (index, old) in self.sets.iter().enumerate() {
            if within(&set, old) || within(old, &set) {
                return Err(Refusal::Comparable { place: index + 1 });
            }
        }
        self.sets.push(set);
        Ok(())
    }

    /// Seals a copy of the draft.
    pub fn seal(&self) -> Result<Sealed, Refusal> {
        if self.sets.is_empty() {
            return Err(Refusal::NoSet);
        }
        if !every_three_share(&self.sets) {
            return Err(Refusal::NoCommon);
        }
        Ok(Sealed {
            n: self.n,
            sets: self.sets.clone(),
            leads: least_core(self.n, &self.sets),
        })
    }
}

/// Does every choice of three sets, one set more than once if need be, share
/// a controller?
fn every_three_share(sets: &[Group]) -> bool {
    for (i, first) in sets.iter().enumerate() {
        for (j, second) in sets.iter().enumerate().skip(i) {
            let both = common(first, second);
            if sets[j..].iter().any(|third| !meets(&both, third)) {
                return false;
            }
        }
    }
    true
}

/// Does the group meet every set?
fn meets_all(group: &[usize], sets: &[Group]) -> bool {
    sets.iter().all(|set| meets(group, set))
}

/// Is the group a core: does it meet every set, while no proper part does?
/// A part that meets every set stays so when it grows, so it is enough to try
/// the parts with one member less.
fn is_core(group: &[usize], sets: &[Group]) -> bool {
    meets_all(group, sets)
        && group.iter().all(|&left_out| {
            let part: Group = group.iter().copied().filter(|&c| c != left_out).collect();
            !meets_all(&part, sets)
        })
}

/// The core of least size, among equals the one of least number: every group
/// of the yard is tried, by size and then by number.
fn least_core(n: usize, sets: &[Group]) -> Group {
    for size in 1..=n as u32 {
        for number in 1..(1u32 << n) {
            if number.count_ones() == size {
                let group = group_of_number(number);
                if is_core(&group, sets) {
                    return group;
                }
            }
        }
    }
    unreachable!("sets that are not empty have a core")
}

/// A sealed table: every three of its sets share a controller.
#[derive(Clone, Debug, PartialEq, Eq)]
pub struct Sealed {
    n: usize,
    sets: Vec<Group>,
    leads: Group,
}

impl Sealed {
    pub fn n(&self) -> usize {
        self.n
    }

    pub fn sets(&self) -> &[Group] {
        &self.sets
    }

    pub fn leads(&self) -> &[usize] {
        &self.leads
    }

    /// A group is enough when it contains a survivor set.
    pub fn enough(&self, group: &[usize]) -> bool {
        self.sets.iter().any(|set| within(set, group))
    }
}
