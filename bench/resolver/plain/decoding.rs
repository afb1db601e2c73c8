//! The first reading: a file is parsed once, into the arrays of a graph. References are not looked up.

use super::fields::Record;
use super::graph::{Dependency, Form, Graph, Value};
use super::limits::{MAX_DEPENDENCIES, MAX_FEATURES, MAX_PACKAGES};
use super::names::Names;
use super::refusals::{Reason, Refusal};
use super::strings::FeatureString;

/// Reads the records up to the end record, and answers the graph and how many bytes were read.
pub fn decode(file: &[u8]) -> Result<(Graph<'_>, usize), Refusal> {
    let mut graph = Graph::with_room(file.len());
    let (mut start, mut number) = (0, 0);
    loop {
        let mut record = Record::at(file, start, number)?;
        match record.kind {
            1 if number == 0 => read_header(&mut record)?,
            2 if number > 0 => read_package(&mut graph, &mut record)?,
            3 if !graph.packages.is_empty() => read_dependency(&mut graph, &mut record)?,
            4 if !graph.packages.is_empty() => read_feature(&mut graph, &mut record)?,
            5 if number > 0 => return Ok((graph, record.close()?)),
            _ => return Err(record.fault(Reason::Stray, start)),
        }
        start = record.close()?;
        number += 1;
    }
}

/// Checks that there is room for one more of what is limited.
fn check_limit(record: &Record<'_>, count: usize, most: usize) -> Result<(), Refusal> {
    match count {
        count if count < most => Ok(()),
        _ => Err(record.fault(Reason::Many, record.start())),
    }
}

fn read_header(record: &mut Record<'_>) -> Result<(), Refusal> {
    match record.pair()? {
        1 => Ok(()),
        _ => Err(record.fault(Reason::Mark, record.next() - 2)),
    }
}

fn read_package(graph: &mut Graph<'_>, record: &mut Record<'_>) -> Result<(), Refusal> {
    check_limit(record, graph.packages.len(), MAX_PACKAGES)?;
    let is_macro = record.switch()?;
    record.name()?;
    graph.add_package(is_macro);
    Ok(())
}

fn read_dependency<'a>(graph: &mut Graph<'a>, record: &mut Record<'a>) -> Result<(), Refusal> {
    check_limit(record, graph.dependencies.len(), MAX_DEPENDENCIES)?;
    let (end, kind) = (record.pair()?, record.up_to(2)?);
    let (optional, defaults) = (record.switch()?, record.switch()?);
    let name = graph.names.number(record.name()?);
    let first = graph.asks.len() as u32;
    for _ in 0..record.byte()? {
        graph.asks.push(graph.names.number(record.name()?));
    }
    let group = graph.join_group(name, optional);
    graph.add_dependency(Dependency {
        end,
        kind,
        optional,
        defaults,
        group,
        asks: first..graph.asks.len() as u32,
        place: record.beginning(),
    });
    Ok(())
}

fn read_feature<'a>(graph: &mut Graph<'a>, record: &mut Record<'a>) -> Result<(), Refusal> {
    check_limit(record, graph.features.len(), MAX_FEATURES)?;
    let name = record.name()?;
    let byte = record.next() - name.len();
    let name = graph.names.number(name);
    if !graph.add_feature(name, record.beginning()) {
        return Err(record.fault(Reason::Twice, byte));
    }
    for _ in 0..record.byte()? {
        let value = value_of(&mut graph.names, record.feature_string()?);
        graph.values.push(value);
    }
    if let Some(feature) = graph.features.last_mut() {
        feature.values.end = graph.values.len() as u32;
    }
    Ok(())
}

/// A feature string with its names as numbers.
#[inline]
fn value_of<'a>(names: &mut Names<'a>, string: FeatureString<'a>) -> Value {
    let (form, dependency, feature) = match string {
        FeatureString::Plain(g) => (Form::Plain, 0, names.number(g)),
        FeatureString::Switch(n) => (Form::Switch, names.number(n), 0),
        FeatureString::Strong(n, g) => (Form::Strong, names.number(n), names.number(g)),
        FeatureString::Weak(n, g) => (Form::Weak, names.number(n), names.number(g)),
    };
    Value {
        form,
        dependency,
        feature,
    }
}
