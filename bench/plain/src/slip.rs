//! The slip of a run.

use crate::check::Rule;
use crate::machine::{End, Run, Value};
use std::fmt::Write;

/// Labels in the order of finding.
struct Found {
    handles: Vec<u16>,
    labels: Vec<Option<usize>>,
}

impl Found {
    fn label(&mut self, handle: u16) -> usize {
        *self.labels[usize::from(handle)].get_or_insert_with(|| {
            self.handles.push(handle);
            self.handles.len() - 1
        })
    }
}

pub fn slip(rule: &Rule, run: &Run) -> String {
    let steps = run.steps;
    let value = match run.end {
        End::Stopped(end, node) => return format!("end {end} node {node} steps {steps}\n"),
        End::Unfinished => return format!("end 1 node - steps {steps}\n"),
        End::Finished(value) => value,
    };
    let mut out = format!("end 0 node - steps {steps}\n");
    let mut found = Found { handles: vec![], labels: vec![None; run.store.len()] };
    let first = match value {
        Value::Int(n) => format!("int {n}"),
        Value::Boolean(b) => format!("boolean {b}"),
        Value::Null => "null".to_string(),
        Value::Object(handle) => format!("object {}", found.label(handle)),
    };
    out += &first;
    out.push('\n');
    let mut line = 0;
    while line < found.handles.len() {
        record(rule, run, line, &mut found, &mut out);
        line += 1;
    }
    out
}

fn record(rule: &Rule, run: &Run, line: usize, found: &mut Found, out: &mut String) {
    let handle = found.handles[line];
    let class = &rule.classes[usize::from(run.store.class_of(handle))];
    let _ = write!(out, "{line} {}", class.name);
    for (&(name, _), &cell) in class.fields.iter().zip(run.store.cells_of(handle, class.fields.len())) {
        let _ = match cell {
            Value::Int(n) => write!(out, " {name}={n}"),
            Value::Boolean(b) => write!(out, " {name}={b}"),
            Value::Null => write!(out, " {name}=null"),
            Value::Object(other) => write!(out, " {name}=#{}", found.label(other)),
        };
    }
    out.push('\n');
}
