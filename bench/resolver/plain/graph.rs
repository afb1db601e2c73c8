//! A graph in flat arrays, in which names are numbers.

use super::names::{Hash, Names};
use std::ops::Range;

/// The number of the name `default`, which is the first.
pub const DEFAULT: u32 = 0;

/// Numbers of what stands together in an array.
pub type Span = Range<u32>;

/// The part of an array that a span tells.
#[inline]
pub fn part<'a, T>(array: &'a [T], span: &Span) -> &'a [T] {
    &array[span.start as usize..span.end as usize]
}

/// The same, to be changed.
#[inline]
pub fn part_mut<'a, T>(array: &'a mut [T], span: &Span) -> &'a mut [T] {
    &mut array[span.start as usize..span.end as usize]
}

/// A package: its proc mark, its dependencies with the groups that they make by their names, and its features.
pub struct Package {
    pub is_macro: bool,
    pub dependencies: Span,
    pub groups: Span,
    pub features: Span,
}

/// The number of a record, and where it starts in the file.
#[derive(Clone, Copy)]
pub struct Place {
    pub record: u32,
    pub start: u32,
}

/// A dependency, with the group that it is in.
pub struct Dependency {
    pub end: u16,
    pub kind: u8,
    pub optional: bool,
    pub defaults: bool,
    pub group: u32,
    pub asks: Span,
    pub place: Place,
}

/// A feature.
pub struct Feature {
    pub owner: u32,
    pub name: u32,
    pub values: Span,
    pub place: Place,
}

/// The forms of a feature string.
#[derive(Clone, Copy, PartialEq, Eq)]
pub enum Form {
    Plain,
    Switch,
    Strong,
    Weak,
}

/// A value. Reading puts in the numbers of its names, or 0 where it has none, and linking what they lead to.
#[derive(Clone, Copy)]
pub struct Value {
    pub form: Form,
    /// The dependency's name; once linked, the group of the dependencies of that name.
    pub dependency: u32,
    /// The feature's name; once linked, that feature, unless the dependencies lead to several packages.
    pub feature: u32,
}

/// All dependencies of one package and name: how many they are, and how many of them are optional.
pub struct Group {
    pub name: u32,
    pub count: u32,
    pub optional: u32,
}

/// The arrays of a graph.
pub struct Graph<'a> {
    pub packages: Vec<Package>,
    pub dependencies: Vec<Dependency>,
    pub groups: Vec<Group>,
    /// The names that are asked for; once linked, the features.
    pub asks: Vec<u32>,
    pub features: Vec<Feature>,
    pub values: Vec<Value>,
    pub names: Names<'a>,
    pub hash: Hash,
}

impl<'a> Graph<'a> {
    /// No graph yet, with room for what a file of so many bytes often has.
    pub fn with_room(bytes: usize) -> Graph<'a> {
        let hash = Hash::new();
        let mut names = Names::with_room(hash, bytes / 64);
        names.number(b"default");
        Graph {
            packages: Vec::with_capacity(bytes / 256),
            dependencies: Vec::with_capacity(bytes / 64),
            groups: Vec::with_capacity(bytes / 64),
            asks: Vec::with_capacity(bytes / 64),
            features: Vec::with_capacity(bytes / 64),
            values: Vec::with_capacity(bytes / 16),
            names,
            hash,
        }
    }

    /// A package without dependencies and features.
    pub fn add_package(&mut self, is_macro: bool) {
        let dependencies = self.dependencies.len() as u32;
        let groups = self.groups.len() as u32;
        let features = self.features.len() as u32;
        self.packages.push(Package {
            is_macro,
            dependencies: dependencies..dependencies,
            groups: groups..groups,
            features: features..features,
        });
    }

    /// A dependency of the last package.
    pub fn add_dependency(&mut self, dependency: Dependency) {
        let owner = self.packages.len() - 1;
        self.packages[owner].dependencies.end += 1;
        self.dependencies.push(dependency);
    }

    /// The group of a name in the last package, which a dependency joins.
    pub fn join_group(&mut self, name: u32, optional: bool) -> u32 {
        let owner = self.packages.len() - 1;
        let groups = &mut self.packages[owner].groups;
        let last = &mut self.names.noted_mut(name).group;
        if !groups.contains(last) {
            *last = groups.end;
            groups.end += 1;
            self.groups.push(Group {
                name,
                count: 0,
                optional: 0,
            });
        }
        let group = &mut self.groups[*last as usize];
        group.count += 1;
        group.optional += u32::from(optional);
        *last
    }

    /// A feature of the last package, without values; false if there is one of that name.
    pub fn add_feature(&mut self, name: u32, place: Place) -> bool {
        let owner = self.packages.len() - 1;
        let features = &mut self.packages[owner].features;
        let last = &mut self.names.noted_mut(name).feature;
        if features.contains(last) {
            return false;
        }
        *last = features.end;
        features.end += 1;
        let values = self.values.len() as u32;
        self.features.push(Feature {
            owner: owner as u32,
            name,
            values: values..values,
            place,
        });
        true
    }

    /// The lane of a dependency: its edge kind, and whether its end is a procedural macro.
    #[inline]
    pub fn lane(&self, dependency: &Dependency) -> u32 {
        let end = &self.packages[usize::from(dependency.end)];
        u32::from(dependency.kind) + 3 * u32::from(end.is_macro)
    }
}
