//! The second reading: each reference is looked up once, what it leads to takes the place of its names, and the rule
//! rows are counted.

use super::graph::{
    DEFAULT, Dependency, Feature, Form, Graph, Group, Package, Place, Value, part, part_mut,
};
use super::groups::Groups;
use super::names::{Hash, Names};
use super::refusals::{Reason, Refusal};
use super::tables::Table;

/// What a graph is looked up by, once it is read.
pub struct Links {
    pub groups: Groups,
    /// The feature `default` of each package that has one.
    pub defaults: Vec<Option<u32>>,
    /// How many rule rows there are.
    pub rows: u64,
    hash: Hash,
    // the features by package and name
    features: Table,
    // pairs of a group and the name of a feature that all its ends are known to have, so that it is looked up once
    known: Vec<(u32, u32)>,
    known_table: Table,
}

/// Looks up all references of a graph. The first in the file that leads to nothing is refused.
pub fn link(graph: &mut Graph<'_>, file: &[u8]) -> Result<Links, Refusal> {
    check_ends(graph)?;
    let mut links = Links::of(graph);
    for package in 0..graph.packages.len() {
        let asks = links.link_asks(graph, package);
        let values = links.link_values(graph, package);
        let nothing = [asks, values].into_iter().filter_map(Result::err);
        if let Some((place, number)) = nothing.min_by_key(|(place, _)| place.record) {
            return Err(unknown(file, place, number));
        }
    }
    Ok(links)
}

fn check_ends(graph: &Graph<'_>) -> Result<(), Refusal> {
    let is_bad = |it: &&Dependency| usize::from(it.end) >= graph.packages.len();
    match graph.dependencies.iter().find(is_bad) {
        None => Ok(()),
        Some(bad) => Err(Refusal {
            reason: Reason::Unknown,
            record: bad.place.record,
            byte: bad.place.start as usize + 6,
        }),
    }
}

/// The refusal of a string that refers to nothing: so many strings after those that come first in its list.
#[cold]
fn unknown(file: &[u8], place: Place, number: usize) -> Refusal {
    let start = place.start as usize;
    let name = start + if file[start + 4] == 3 { 11 } else { 6 };
    let after = |place: usize| place + 1 + usize::from(file[place]);
    let list = after(name) + 1;
    Refusal {
        reason: Reason::Unknown,
        record: place.record,
        byte: (0..number).fold(list, |place, _| after(place)) + 1,
    }
}

/// A reference to nothing: the record that it is in, and its number in the list there.
type Nothing = (Place, usize);

impl Links {
    /// The groups and features of a graph whose ends are all there.
    fn of(graph: &Graph<'_>) -> Links {
        let mut features = Table::with_room(graph.features.len());
        let mut defaults = vec![None; graph.packages.len()];
        for (number, feature) in graph.features.iter().enumerate() {
            let number = number as u32;
            features.put(graph.hash.pair(feature.owner, feature.name), number);
            if feature.name == DEFAULT {
                defaults[feature.owner as usize] = Some(number);
            }
        }
        Links {
            groups: Groups::of(graph),
            defaults,
            rows: 0,
            hash: graph.hash,
            features,
            known: Vec::new(),
            known_table: Table::with_room(0),
        }
    }

    /// The feature of a package by the number of its name.
    #[inline]
    pub fn feature(&self, features: &[Feature], owner: u16, name: u32) -> Option<u32> {
        let owner = u32::from(owner);
        self.features.get(self.hash.pair(owner, name), |it| {
            let feature = &features[it as usize];
            feature.owner == owner && feature.name == name
        })
    }

    fn link_asks(&mut self, graph: &mut Graph<'_>, package: usize) -> Result<(), Nothing> {
        let Graph {
            packages,
            dependencies,
            asks,
            features,
            ..
        } = graph;
        for dependency in part(dependencies, &packages[package].dependencies) {
            let default =
                dependency.defaults && self.defaults[usize::from(dependency.end)].is_some();
            self.rows += 1 + u64::from(!dependency.optional) + u64::from(default);
            for (number, ask) in part_mut(asks, &dependency.asks).iter_mut().enumerate() {
                let feature = self.feature(features, dependency.end, *ask);
                *ask = feature.ok_or((dependency.place, number))?;
                self.rows += 1;
            }
        }
        Ok(())
    }

    fn link_values(&mut self, graph: &mut Graph<'_>, package: usize) -> Result<(), Nothing> {
        let Graph {
            packages,
            groups,
            features,
            values,
            names,
            ..
        } = graph;
        let package = &packages[package];
        for group in package.groups.clone() {
            names.noted_mut(groups[group as usize].name).group = group;
        }
        for feature in package.features.clone() {
            names.noted_mut(features[feature as usize].name).feature = feature;
        }
        for feature in part(features, &package.features) {
            for (number, value) in part_mut(values, &feature.values).iter_mut().enumerate() {
                let own = Own { package, names };
                let linked = self.value(features, &own, value);
                *value = linked.ok_or((feature.place, number))?;
                self.rows += rows_of(groups, value);
            }
        }
        Ok(())
    }

    /// A value with what its names lead to.
    #[inline]
    fn value(&mut self, features: &[Feature], own: &Own<'_, '_>, value: &Value) -> Option<Value> {
        let Value {
            form,
            dependency,
            feature,
        } = *value;
        if form == Form::Plain {
            let feature = own.feature(feature)?;
            return Some(Value {
                form,
                dependency,
                feature,
            });
        }
        let group = own.group(dependency)?;
        let feature = match form {
            Form::Switch => feature,
            _ => self.goal(features, group, feature)?,
        };
        Some(Value {
            form,
            dependency: group,
            feature,
        })
    }

    /// The feature of a name in the end of a group, or still the name where there are several ends; none if one of
    /// them lacks it.
    #[inline]
    fn goal(&mut self, features: &[Feature], group: u32, name: u32) -> Option<u32> {
        match self.groups.ends(group) {
            [end] => self.feature(features, *end, name),
            _ => self.is_in_all(features, group, name).then_some(name),
        }
    }

    fn is_in_all(&mut self, features: &[Feature], group: u32, name: u32) -> bool {
        let (hash, known) = (self.hash.pair(group, name), &self.known);
        let found = self
            .known_table
            .get(hash, |it| known[it as usize] == (group, name));
        if found.is_some() {
            return true;
        }
        let mut ends = self.groups.ends(group).iter();
        let all = ends.all(|end| self.feature(features, *end, name).is_some());
        if all {
            self.known_table.put(hash, self.known.len() as u32);
            self.known.push((group, name));
        }
        all
    }
}

/// A package, with the names for which its groups and features are noted.
struct Own<'g, 'a> {
    package: &'g Package,
    names: &'g Names<'a>,
}

impl Own<'_, '_> {
    #[inline]
    fn feature(&self, name: u32) -> Option<u32> {
        let feature = self.names.noted(name).feature;
        self.package.features.contains(&feature).then_some(feature)
    }

    #[inline]
    fn group(&self, name: u32) -> Option<u32> {
        let group = self.names.noted(name).group;
        self.package.groups.contains(&group).then_some(group)
    }
}

/// How many rule rows a linked value gives.
#[inline]
fn rows_of(groups: &[Group], value: &Value) -> u64 {
    if value.form == Form::Plain {
        return 1;
    }
    let group = &groups[value.dependency as usize];
    let (all, optional) = (u64::from(group.count), u64::from(group.optional));
    match value.form {
        Form::Switch => optional,
        Form::Weak => all,
        _ => all + optional,
    }
}
