//! Checking a book's types: the rule with every name resolved, or one of the refusals 11 to 16.
//! A strip's nodes are typed in their order, parts first, so the first refusal found holds.

use crate::book::{Book, Raw, Type};
use crate::Refusal;
use std::collections::HashSet;
use std::ops::Range;

/// A node with its parts, a field by its place in the record, a method by its number in the rule.
#[derive(Clone, Copy)]
pub enum Node {
    Literal(i32),
    Minus(u16, u16),
    Less(u16, u16),
    Equal(u16, u16),
    IsNull(u16),
    This,
    Parameter,
    FieldRead(u16, u16),
    Call(u16, u16, u16),
    New(u16),
    Reading(u16),
    FieldWrite(u16, u16, u16),
    Sequence(u16, u16),
    If(u16, u16, u16),
    While(u16, u16),
    Skip,
}

pub struct Method {
    pub command: u16,
    pub returned: u16,
}

pub struct Class<'a> {
    pub name: &'a str,
    pub fields: Vec<(&'a str, Type)>,
}

pub struct Rule<'a> {
    pub classes: Vec<Class<'a>>,
    pub methods: Vec<Method>,
    pub nodes: Vec<Node>,
}

/// Where a strip stands: the class and parameter type of its method, none at the top.
type Place = Option<(u16, Type)>;

struct Checker<'a, 'b> {
    book: &'b Book<'a>,
    types: Vec<Option<Type>>,
    nodes: Vec<Node>,
}

pub fn check<'a>(book: &Book<'a>) -> Result<Rule<'a>, Refusal> {
    if let Some(entry) = repeated_entry(book) {
        return Err(Refusal(11, entry));
    }
    let mut checker = Checker { book, types: vec![None; book.nodes.len()], nodes: vec![Node::Skip; book.nodes.len()] };
    for (c, class) in book.classes.iter().enumerate() {
        for method in &book.methods[class.methods.clone()] {
            let place = Some((c as u16, method.parameter));
            checker.strip(method.command.clone(), place)?;
            checker.strip(method.returned.clone(), place)?;
            let root = method.returned.end - 1;
            if checker.types[root] != Some(method.result) {
                return Err(Refusal(16, root));
            }
        }
    }
    checker.strip(book.top.clone(), None)?;
    let nodes = checker.nodes;
    let class = |c: &crate::book::Class| Class {
        name: book.names[c.name],
        fields: book.fields[c.fields.clone()].iter().map(|f| (book.names[f.name], f.typed)).collect(),
    };
    let method = |m: &crate::book::Method| Method { command: m.command.end as u16 - 1, returned: m.returned.end as u16 - 1 };
    Ok(Rule { classes: book.classes.iter().map(class).collect(), methods: book.methods.iter().map(method).collect(), nodes })
}

fn repeated_entry(book: &Book) -> Option<usize> {
    fn repeated(names: impl Iterator<Item = usize>) -> Option<usize> {
        let mut seen = HashSet::new();
        names.enumerate().find(|&(_, name)| !seen.insert(name)).map(|(i, _)| i)
    }
    let (fields_from, methods_from) = (book.classes.len(), book.classes.len() + book.fields.len());
    repeated(book.classes.iter().map(|c| c.name)).or_else(|| {
        book.classes.iter().find_map(|class| {
            let (fields, methods) = (class.fields.clone(), class.methods.clone());
            let field = repeated(fields.clone().map(|f| book.fields[f].name)).map(|f| fields_from + fields.start + f);
            field.or_else(|| repeated(methods.clone().map(|m| book.methods[m].name)).map(|m| methods_from + methods.start + m))
        })
    })
}

impl Checker<'_, '_> {
    fn strip(&mut self, strip: Range<usize>, place: Place) -> Result<(), Refusal> {
        for k in strip {
            let (node, typed) = self.node(self.book.nodes[k], place).map_err(|number| Refusal(number, k))?;
            (self.nodes[k], self.types[k]) = (node, typed);
        }
        Ok(())
    }

    /// A node and its type (none: a command), or the number of its refusal.
    fn node(&self, raw: Raw, place: Place) -> Result<(Node, Option<Type>), u32> {
        let Raw { kind, a, b, d } = raw;
        let (int, boolean) = (Some(Type::Int), Some(Type::Boolean));
        Ok(match kind {
            0 => (Node::Literal((u32::from(b) | u32::from(d) << 16) as i32), int),
            1 => (Node::Minus(self.wants(a, Type::Int)?, self.wants(b, Type::Int)?), int),
            2 => (Node::Less(self.wants(a, Type::Int)?, self.wants(b, Type::Int)?), boolean),
            3 => (Node::Equal(self.wants(a, Type::Int)?, self.wants(b, Type::Int)?), boolean),
            4 => self.class_of(a).map(|_| (Node::IsNull(a), boolean))?,
            5 => (Node::This, Some(Type::Class(place.ok_or(15u32)?.0))),
            6 => (Node::Parameter, Some(place.ok_or(15u32)?.1)),
            7 => {
                let (slot, typed) = self.field(a, d, place)?;
                (Node::FieldRead(a, slot), Some(typed))
            }
            8 => {
                let (method, parameter, result) = self.method(a, d)?;
                if self.types[usize::from(b)] != Some(parameter) {
                    return Err(14);
                }
                (Node::Call(a, b, method), Some(result))
            }
            9 => (Node::New(d), Some(Type::Class(d))),
            10 => (Node::Reading(self.wants(a, Type::Int)?), int),
            11 => {
                let (slot, typed) = self.field(a, d, place)?;
                if self.types[usize::from(b)] != Some(typed) {
                    return Err(14);
                }
                (Node::FieldWrite(a, b, slot), None)
            }
            12 => (Node::Sequence(a, b), None),
            13 => (Node::If(self.wants(a, Type::Boolean)?, b, d), None),
            14 => (Node::While(self.wants(a, Type::Boolean)?, b), None),
            _ => (Node::Skip, None),
        })
    }

    fn wants(&self, part: u16, typed: Type) -> Result<u16, u32> {
        if self.types[usize::from(part)] == Some(typed) {
            Ok(part)
        } else {
            Err(12)
        }
    }

    fn class_of(&self, target: u16) -> Result<u16, u32> {
        match self.types[usize::from(target)] {
            Some(Type::Class(c)) => Ok(c),
            _ => Err(12),
        }
    }

    /// The slot and type of a field of the current class.
    fn field(&self, target: u16, name: u16, place: Place) -> Result<(u16, Type), u32> {
        let class = self.class_of(target)?;
        if place.map(|(current, _)| current) != Some(class) {
            return Err(13);
        }
        let fields = &self.book.fields[self.book.classes[usize::from(class)].fields.clone()];
        let slot = fields.iter().position(|f| f.name == usize::from(name)).ok_or(13u32)?;
        Ok((slot as u16, fields[slot].typed))
    }

    /// The number, parameter type and result type of a method of the target's class.
    fn method(&self, target: u16, name: u16) -> Result<(u16, Type, Type), u32> {
        let class = self.class_of(target)?;
        let mut methods = self.book.classes[usize::from(class)].methods.clone();
        let number = methods.find(|&m| self.book.methods[m].name == usize::from(name)).ok_or(13u32)?;
        let method = &self.book.methods[number];
        Ok((number as u16, method.parameter, method.result))
    }
}
