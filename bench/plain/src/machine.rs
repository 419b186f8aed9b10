//! The step machine: one line of docs/ENGINE.md a step.

use crate::book::Type;
use crate::check::{Node, Rule};
use crate::{MOST_CELLS, MOST_RECORDS, MOST_ROWS};

#[derive(Clone, Copy, PartialEq)]
pub enum Value {
    Int(i32),
    Boolean(bool),
    Null,
    Object(u16),
}

#[derive(Clone, Copy)]
enum Hand {
    Go(u16),
    Have(Value),
    Done,
}

/// What is still to be finished for a node.
#[derive(Clone, Copy)]
enum Row {
    /// Part a is worked (stage 1).
    First(u16),
    /// Part a gave the value, part b is worked (stage 2).
    Second(u16, Value),
    /// A while's body is worked (stage 2).
    Body(u16),
    /// A method's command is worked; the caller's object and parameter (stage 3).
    Command { method: u16, object: Value, parameter: Value },
    /// A method's returned expression is worked (stage 4).
    Returned { object: Value, parameter: Value },
}

pub enum End {
    Finished(Value),
    Unfinished,
    Stopped(u32, u16),
}

/// Records end to end.
#[derive(Default)]
pub struct Store {
    records: Vec<(u16, usize)>,
    cells: Vec<Value>,
}

pub struct Run {
    pub end: End,
    pub steps: u32,
    pub store: Store,
}

impl Store {
    fn make(&mut self, class: u16, fields: &[(&str, Type)]) -> Option<u16> {
        if self.records.len() == MOST_RECORDS || self.cells.len() + fields.len() > MOST_CELLS {
            return None;
        }
        self.records.push((class, self.cells.len()));
        self.cells.extend(fields.iter().map(|&(_, typed)| match typed {
            Type::Int => Value::Int(0),
            Type::Boolean => Value::Boolean(false),
            Type::Class(_) => Value::Null,
        }));
        Some(self.records.len() as u16 - 1)
    }

    pub fn len(&self) -> usize {
        self.records.len()
    }

    pub fn class_of(&self, handle: u16) -> u16 {
        self.records[usize::from(handle)].0
    }

    /// The cell of a record's field.
    pub fn cell(&mut self, handle: u16, slot: u16) -> &mut Value {
        &mut self.cells[self.records[usize::from(handle)].1 + usize::from(slot)]
    }

    pub fn cells_of(&self, handle: u16, count: usize) -> &[Value] {
        let from = self.records[usize::from(handle)].1;
        &self.cells[from..from + count]
    }
}

struct Machine<'a> {
    rule: &'a Rule<'a>,
    readings: &'a [i32],
    rows: Vec<Row>,
    store: Store,
    /// Null at the top, where a checked rule never looks at them.
    object: Value,
    parameter: Value,
}

/// Works a rule over its day until it ends or has made so many steps.
pub fn run(rule: &Rule, readings: &[i32], allowance: u32) -> Run {
    let rows = Vec::with_capacity(MOST_ROWS);
    let mut machine = Machine { rule, readings, rows, store: Store::default(), object: Value::Null, parameter: Value::Null };
    let mut hand = Hand::Go(rule.nodes.len() as u16 - 1);
    let mut steps = 0;
    let end = loop {
        if let (Hand::Have(v), true) = (hand, machine.rows.is_empty()) {
            break End::Finished(v);
        }
        if steps == allowance {
            break End::Unfinished;
        }
        steps += 1;
        match machine.step(hand) {
            Ok(next) => hand = next,
            Err((end, node)) => break End::Stopped(end, node),
        }
    };
    Run { end, steps, store: machine.store }
}

type Step = Result<Hand, (u32, u16)>;

impl Machine<'_> {
    fn step(&mut self, hand: Hand) -> Step {
        if let Hand::Go(k) = hand {
            return self.go(k);
        }
        match (self.rows.pop().expect("a row"), hand) {
            (Row::First(k), Hand::Have(v)) => self.first(k, v),
            (Row::Second(k, kept), Hand::Have(v)) => self.second(k, kept, v),
            (Row::Returned { object, parameter }, Hand::Have(v)) => {
                (self.object, self.parameter) = (object, parameter);
                Ok(Hand::Have(v))
            }
            (Row::First(k), _) => match self.node(k) {
                Node::Sequence(_, b) => Ok(Hand::Go(b)),
                _ => unreachable!("only a sequence starts with a command"),
            },
            (Row::Body(k), _) => match self.node(k) {
                Node::While(a, _) => self.put(Row::First(k), a),
                _ => unreachable!("only a while has a body"),
            },
            (Row::Command { method, object, parameter }, _) => {
                self.put(Row::Returned { object, parameter }, self.rule.methods[usize::from(method)].returned)
            }
            _ => unreachable!("a value where a command ends"),
        }
    }

    fn node(&self, k: u16) -> Node {
        self.rule.nodes[usize::from(k)]
    }

    /// Puts back the row that was taken off, at its next stage.
    fn put(&mut self, row: Row, next: u16) -> Step {
        self.rows.push(row);
        Ok(Hand::Go(next))
    }

    fn go(&mut self, k: u16) -> Step {
        let a = match self.node(k) {
            Node::Literal(n) => return Ok(Hand::Have(Value::Int(n))),
            Node::This => return Ok(Hand::Have(self.object)),
            Node::Parameter => return Ok(Hand::Have(self.parameter)),
            Node::New(c) => {
                let made = self.store.make(c, &self.rule.classes[usize::from(c)].fields).ok_or((34, k))?;
                return Ok(Hand::Have(Value::Object(made)));
            }
            Node::Skip => return Ok(Hand::Done),
            Node::Minus(a, _) | Node::Less(a, _) | Node::Equal(a, _) | Node::Sequence(a, _) | Node::While(a, _) => a,
            Node::IsNull(a) | Node::Reading(a) | Node::FieldRead(a, _) => a,
            Node::Call(a, _, _) | Node::FieldWrite(a, _, _) | Node::If(a, _, _) => a,
        };
        if self.rows.len() == MOST_ROWS {
            return Err((35, k));
        }
        self.put(Row::First(k), a)
    }

    fn first(&mut self, k: u16, v: Value) -> Step {
        match (self.node(k), v) {
            (Node::Minus(_, b) | Node::Less(_, b) | Node::Equal(_, b), _) => self.put(Row::Second(k, v), b),
            (Node::IsNull(_), _) => Ok(Hand::Have(Value::Boolean(v == Value::Null))),
            (Node::FieldRead(..) | Node::Call(..) | Node::FieldWrite(..), Value::Null) => Err((31, k)),
            (Node::FieldRead(_, slot), Value::Object(handle)) => Ok(Hand::Have(*self.store.cell(handle, slot))),
            (Node::Call(_, b, _) | Node::FieldWrite(_, b, _), _) => self.put(Row::Second(k, v), b),
            (Node::Reading(_), Value::Int(n)) => {
                let reading = usize::try_from(n).ok().and_then(|n| self.readings.get(n)).ok_or((32u32, k))?;
                Ok(Hand::Have(Value::Int(*reading)))
            }
            (Node::If(_, b, d), _) => Ok(Hand::Go(if v == Value::Boolean(true) { b } else { d })),
            (Node::While(_, b), Value::Boolean(true)) => self.put(Row::Body(k), b),
            (Node::While(..), _) => Ok(Hand::Done),
            _ => unreachable!("a value of another type"),
        }
    }

    fn second(&mut self, k: u16, kept: Value, v: Value) -> Step {
        match (self.node(k), kept, v) {
            (Node::Minus(..), Value::Int(m), Value::Int(n)) => Ok(Hand::Have(Value::Int(m.checked_sub(n).ok_or((33u32, k))?))),
            (Node::Less(..), Value::Int(m), Value::Int(n)) => Ok(Hand::Have(Value::Boolean(m < n))),
            (Node::Equal(..), Value::Int(m), Value::Int(n)) => Ok(Hand::Have(Value::Boolean(m == n))),
            (Node::Call(_, _, method), target, argument) => {
                let row = Row::Command { method, object: self.object, parameter: self.parameter };
                (self.object, self.parameter) = (target, argument);
                self.put(row, self.rule.methods[usize::from(method)].command)
            }
            (Node::FieldWrite(_, _, slot), Value::Object(handle), _) => {
                *self.store.cell(handle, slot) = v;
                Ok(Hand::Done)
            }
            _ => unreachable!("a kept value of another type"),
        }
    }
}
