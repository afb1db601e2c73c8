//! Rule rows, as docs/rule-rows.md has them: five words each, package by package.

use super::graph::{Dependency, Form, Graph, Package, Value, part};
use super::linking::Links;
use std::slice::IterMut;

/// The word that means none.
pub const NONE: u32 = u32::MAX;

/// The lane of rows that are about no dependency.
pub const NO_LANE: u32 = 6;

/// Writes the rows of a graph to the front of words, one after the other.
pub struct Writer<'a> {
    graph: &'a Graph<'a>,
    links: &'a Links,
    rows: IterMut<'a, [u32; 5]>,
    // the items of the first dependency and the first feature
    dependencies: u32,
    features: u32,
}

impl<'a> Writer<'a> {
    /// A writer to words that have room for all rows.
    pub fn new(graph: &'a Graph<'a>, links: &'a Links, words: &'a mut [u32]) -> Writer<'a> {
        let dependencies = graph.packages.len() as u32;
        Writer {
            graph,
            links,
            rows: words.as_chunks_mut().0.iter_mut(),
            dependencies,
            features: dependencies + graph.dependencies.len() as u32,
        }
    }

    /// Writes all rows.
    pub fn write(mut self) {
        for (unit, package) in self.graph.packages.iter().enumerate() {
            for dependency in package.dependencies.clone() {
                self.write_dependency(unit as u32, dependency);
            }
            self.write_features(package);
        }
    }

    #[inline]
    fn put(&mut self, from: u32, with: u32, to: u32, lane: u32, cross: u32) {
        if let Some(row) = self.rows.next() {
            *row = [from, with, to, lane, cross];
        }
    }

    fn write_dependency(&mut self, unit: u32, number: u32) {
        let Writer { graph, links, .. } = *self;
        let dependency = &graph.dependencies[number as usize];
        let (item, lane) = (self.dependencies + number, graph.lane(dependency));
        if !dependency.optional {
            self.put(unit, NONE, item, lane, 0);
        }
        self.put(item, NONE, u32::from(dependency.end), lane, 1);
        let default = links.defaults[usize::from(dependency.end)].filter(|_| dependency.defaults);
        for feature in default.iter().chain(part(&graph.asks, &dependency.asks)) {
            self.put(item, NONE, self.features + feature, lane, 1);
        }
    }

    fn write_features(&mut self, package: &Package) {
        for number in package.features.clone() {
            let item = self.features + number;
            for value in part(
                &self.graph.values,
                &self.graph.features[number as usize].values,
            ) {
                match value.form {
                    Form::Plain => self.put(item, NONE, self.features + value.feature, NO_LANE, 0),
                    Form::Switch => self.write_switches(item, value.dependency),
                    _ => self.write_group(item, value),
                }
            }
        }
    }

    /// The rows that switch on the optional dependencies of a group.
    fn write_switches(&mut self, from: u32, group: u32) {
        let Writer { graph, links, .. } = *self;
        for number in links.groups.optional(group) {
            let lane = graph.lane(&graph.dependencies[*number as usize]);
            self.put(from, NONE, self.dependencies + number, lane, 0);
        }
    }

    /// The rows of a strong or weak value at each dependency of a group.
    fn write_group(&mut self, from: u32, value: &Value) {
        let Writer { graph, links, .. } = *self;
        for number in links.groups.members(value.dependency) {
            let dependency = &graph.dependencies[*number as usize];
            let (item, lane) = (self.dependencies + number, graph.lane(dependency));
            if value.form == Form::Strong && dependency.optional {
                self.put(from, NONE, item, lane, 0);
            }
            if let Some(feature) = self.feature(dependency, value) {
                self.put(from, item, self.features + feature, lane, 1);
            }
        }
    }

    /// The feature of a value in the end of a dependency.
    #[inline]
    fn feature(&self, dependency: &Dependency, value: &Value) -> Option<u32> {
        let Writer { graph, links, .. } = *self;
        match links.groups.ends(value.dependency) {
            [_] => Some(value.feature),
            _ => links.feature(&graph.features, dependency.end, value.feature),
        }
    }
}
