//! Which group of crates stands on which: what the picture of the house is drawn from.

use crate::groups::Group;

/// The groups, by their numbers, with what flows from one to another.
pub struct Flows {
    pub groups: Vec<Group>,
    /// From a group to one that stands on it: the crates that are stood on.
    carried: Vec<Vec<Vec<String>>>,
    /// From a group to all that stand on it, at once or by others.
    reaches: Vec<Vec<bool>>,
}

impl Flows {
    pub fn of(groups: Vec<Group>) -> Flows {
        let count = groups.len();
        let carried: Vec<Vec<Vec<String>>> = (0..count)
            .map(|from| (0..count).map(|to| carried_between(&groups, from, to)).collect())
            .collect();
        let mut reaches: Vec<Vec<bool>> =
            carried.iter().map(|row| row.iter().map(|names| !names.is_empty()).collect()).collect();
        for by in 0..count {
            for from in 0..count {
                for to in 0..count {
                    reaches[from][to] |= reaches[from][by] && reaches[by][to];
                }
            }
        }
        Flows { groups, carried, reaches }
    }

    /// The crates of one group that crates of another stand on.
    pub fn carried(&self, from: usize, to: usize) -> &[String] {
        &self.carried[from][to]
    }

    /// True of a group and itself, and of two that stand on each other, though no two crates do.
    fn is_one(&self, a: usize, b: usize) -> bool {
        a == b || (self.reaches[a][b] && self.reaches[b][a])
    }

    /// From the ground up the groups of each floor: those that stand on each other, or not at all.
    pub fn floors(&self) -> Vec<Vec<usize>> {
        let mut floors: Vec<Vec<usize>> = Vec::new();
        for group in 0..self.groups.len() {
            let floor = self.floor_of(group);
            floors.resize_with(floors.len().max(floor + 1), Vec::new);
            floors[floor].push(group);
        }
        floors
    }

    /// One floor above the highest that it stands on.
    fn floor_of(&self, group: usize) -> usize {
        let below = (0..self.groups.len())
            .filter(|&other| self.reaches[other][group] && !self.is_one(other, group));
        below.map(|other| self.floor_of(other) + 1).max().unwrap_or(0)
    }

    /// From a group to one that stands on it, but for what follows from others: where a third lies between the two.
    pub fn arrows(&self) -> Vec<(usize, usize)> {
        let all = 0..self.groups.len();
        let pairs = all.clone().flat_map(|from| all.clone().map(move |to| (from, to)));
        pairs
            .filter(|&(from, to)| !self.carried(from, to).is_empty())
            .filter(|&(from, to)| !all.clone().any(|by| self.lies_between(from, by, to)))
            .collect()
    }

    fn lies_between(&self, from: usize, by: usize, to: usize) -> bool {
        let is_third = !self.is_one(from, by) && !self.is_one(by, to);
        is_third && self.reaches[from][by] && self.reaches[by][to]
    }
}

fn carried_between(groups: &[Group], from: usize, to: usize) -> Vec<String> {
    if from == to {
        return Vec::new();
    }
    let is_used = |name: &String| groups[to].crates.iter().any(|other| other.on.contains(name));
    let names = groups[from].crates.iter().map(|known| &known.name);
    names.filter(|name| is_used(name)).cloned().collect()
}
