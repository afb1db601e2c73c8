//! The dependencies of each package and name, together.

use super::graph::{Dependency, Graph};

/// Lists, one after the other in one array.
struct Lists<T> {
    items: Vec<T>,
    // where each list ends
    ends: Vec<u32>,
}

impl<T> Lists<T> {
    fn with_room(items: usize, lists: usize) -> Lists<T> {
        Lists {
            items: Vec::with_capacity(items),
            ends: Vec::with_capacity(lists),
        }
    }

    /// Where a list begins.
    #[inline]
    fn begin(&self, list: u32) -> usize {
        let before = (list as usize).checked_sub(1);
        before.map_or(0, |before| self.ends[before] as usize)
    }

    #[inline]
    fn get(&self, list: u32) -> &[T] {
        &self.items[self.begin(list)..self.ends[list as usize] as usize]
    }

    /// Makes a list of the items that stand behind the last one.
    fn close(&mut self) {
        self.ends.push(self.items.len() as u32);
    }
}

/// For each group its dependencies, those of them that are optional, and the packages that they lead to.
pub struct Groups {
    members: Lists<u32>,
    optional: Lists<u32>,
    ends: Lists<u16>,
}

impl Groups {
    /// The groups of a graph, whose ends are all there.
    pub fn of(graph: &Graph<'_>) -> Groups {
        let (dependencies, count) = (&graph.dependencies, graph.groups.len());
        let mut groups = Groups {
            members: members(graph),
            optional: Lists::with_room(dependencies.len(), count),
            ends: Lists::with_room(dependencies.len(), count),
        };
        for group in 0..count as u32 {
            groups.add(dependencies, group);
        }
        groups
    }

    /// Makes the other lists of a group whose members are there.
    fn add(&mut self, dependencies: &[Dependency], group: u32) {
        let Groups {
            members,
            optional,
            ends,
        } = self;
        let first = ends.items.len();
        for member in members.get(group) {
            let dependency = &dependencies[*member as usize];
            ends.items.push(dependency.end);
            if dependency.optional {
                optional.items.push(*member);
            }
        }
        let distinct = sort_and_thin(&mut ends.items[first..]);
        ends.items.truncate(first + distinct);
        ends.close();
        optional.close();
    }

    /// The dependencies of a group, in file order.
    #[inline]
    pub fn members(&self, group: u32) -> &[u32] {
        self.members.get(group)
    }

    /// Those of them that are optional.
    #[inline]
    pub fn optional(&self, group: u32) -> &[u32] {
        self.optional.get(group)
    }

    /// The packages that they lead to, each once.
    #[inline]
    pub fn ends(&self, group: u32) -> &[u16] {
        self.ends.get(group)
    }
}

/// The dependencies group by group.
fn members(graph: &Graph<'_>) -> Lists<u32> {
    let mut sum = 0;
    let begins = graph.groups.iter().map(|group| {
        sum += group.count;
        sum - group.count
    });
    // each list begins empty, and its end moves on with each member
    let (mut ends, mut items) = (
        begins.collect::<Vec<u32>>(),
        vec![0; graph.dependencies.len()],
    );
    for (number, dependency) in graph.dependencies.iter().enumerate() {
        let end = &mut ends[dependency.group as usize];
        items[*end as usize] = number as u32;
        *end += 1;
    }
    Lists { items, ends }
}

/// Sorts, and moves each number once to the front. The answer is how many there are.
fn sort_and_thin(numbers: &mut [u16]) -> usize {
    numbers.sort_unstable();
    let mut kept = 0;
    for place in 0..numbers.len() {
        if kept == 0 || numbers[place] != numbers[kept - 1] {
            numbers[kept] = numbers[place];
            kept += 1;
        }
    }
    kept
}
