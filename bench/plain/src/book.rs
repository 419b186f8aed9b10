//! Reading a book: the file's parts decoded, or the first of the faults 1 to 7.

use crate::Refusal;
use std::collections::HashSet;
use std::ops::Range;

pub struct Class {
    pub name: usize,
    pub fields: Range<usize>,
    pub methods: Range<usize>,
}

#[derive(Clone, Copy, PartialEq)]
pub enum Type {
    Int,
    Boolean,
    Class(u16),
}

pub struct Field {
    pub name: usize,
    pub typed: Type,
}

pub struct Method {
    pub name: usize,
    pub result: Type,
    pub parameter: Type,
    pub command: Range<usize>,
    pub returned: Range<usize>,
}

/// A node's four numbers as they stand in the file.
#[derive(Clone, Copy)]
pub struct Raw {
    pub kind: u16,
    pub a: u16,
    pub b: u16,
    pub d: u16,
}

pub struct Book<'a> {
    pub classes: Vec<Class>,
    pub fields: Vec<Field>,
    pub methods: Vec<Method>,
    pub nodes: Vec<Raw>,
    pub names: Vec<&'a str>,
    pub top: Range<usize>,
}

#[derive(Clone, Copy, PartialEq)]
enum Sort {
    Expression,
    Command,
}

pub fn read(file: &[u8]) -> Result<Book<'_>, Refusal> {
    let header = read_header(file)?;
    let [_, c, f, m, n, b, _, fields_at, methods_at, nodes_at, names_at, t] = header;
    let names = read_names(&file[names_at..], b)?;
    let words: Vec<u16> = file[24..names_at].chunks_exact(2).map(|w| u16::from_le_bytes([w[0], w[1]])).collect();
    let part = |from: usize, to: usize| &words[(from - 24) / 2..(to - 24) / 2];

    let mut book = Book { classes: vec![], fields: vec![], methods: vec![], nodes: vec![], names, top: n.saturating_sub(t)..n };
    let (mut fields, mut methods, mut nodes) = (0, 0, 0);
    for w in part(24, fields_at).chunks_exact(6 / 2) {
        book.classes.push(Class { name: w[0].into(), fields: next(&mut fields, w[1]), methods: next(&mut methods, w[2]) });
    }
    for w in part(fields_at, methods_at).chunks_exact(4 / 2) {
        book.fields.push(Field { name: w[0].into(), typed: type_of(w[1]) });
    }
    for w in part(methods_at, nodes_at).chunks_exact(10 / 2) {
        book.methods.push(Method {
            name: w[0].into(),
            result: type_of(w[1]),
            parameter: type_of(w[2]),
            command: next(&mut nodes, w[3]),
            returned: next(&mut nodes, w[4]),
        });
    }
    for w in part(nodes_at, names_at).chunks_exact(8 / 2) {
        book.nodes.push(Raw { kind: w[0], a: w[1], b: w[2], d: w[3] });
    }
    for (place, total, wanted) in [(2, fields, f), (3, methods, m), (4, nodes + t, n)] {
        if total != wanted {
            return Err(Refusal(5, place));
        }
    }
    if let Some(entry) = faulty_entry(&book, c, b) {
        return Err(Refusal(6, entry));
    }
    match faulty_node(&book) {
        Some(node) => Err(Refusal(7, node)),
        None => Ok(book),
    }
}

fn read_header(file: &[u8]) -> Result<[usize; 12], Refusal> {
    if file.len() < 24 {
        return Err(Refusal(1, 0));
    }
    let header: [usize; 12] = std::array::from_fn(|p| u16::from_le_bytes([file[2 * p], file[2 * p + 1]]).into());
    if header[0] != 1 {
        return Err(Refusal(1, 0));
    }
    for (place, limit) in [(1, 64), (2, 512), (3, 256), (4, 4_000), (5, 512)] {
        if header[place] > limit {
            return Err(Refusal(2, place));
        }
    }
    if header[11] == 0 {
        return Err(Refusal(2, 11));
    }
    let mut at = 24;
    for (place, size) in [(6, 0), (7, 6 * header[1]), (8, 4 * header[2]), (9, 10 * header[3]), (10, 8 * header[4])] {
        at += size;
        if header[place] != at {
            return Err(Refusal(3, place));
        }
    }
    if at > file.len() {
        return Err(Refusal(3, 10));
    }
    Ok(header)
}

fn read_names(mut rest: &[u8], count: usize) -> Result<Vec<&str>, Refusal> {
    let mut names = Vec::with_capacity(count);
    let mut seen = HashSet::new();
    for number in 0..count {
        let (name, after) = first_name(rest).ok_or(Refusal(4, number))?;
        if !seen.insert(name) {
            return Err(Refusal(4, number));
        }
        names.push(name);
        rest = after;
    }
    if rest.is_empty() {
        Ok(names)
    } else {
        Err(Refusal(4, count))
    }
}

fn first_name(bytes: &[u8]) -> Option<(&str, &[u8])> {
    let (&length, rest) = bytes.split_first()?;
    let (name, after) = rest.split_at_checked(length.into())?;
    let letters = name.iter().all(|&b| b.is_ascii_alphanumeric() || b == b'_');
    if (1..=31).contains(&length) && letters && !name[0].is_ascii_digit() {
        Some((std::str::from_utf8(name).ok()?, after))
    } else {
        None
    }
}

/// The next stretch of a part, which begins where the last one ended.
fn next(at: &mut usize, count: u16) -> Range<usize> {
    let from = *at;
    *at += usize::from(count);
    from..*at
}

fn type_of(number: u16) -> Type {
    match number {
        0 => Type::Int,
        1 => Type::Boolean,
        _ => Type::Class(number - 2),
    }
}

fn faulty_entry(book: &Book, classes: usize, names: usize) -> Option<usize> {
    let missing = |t: Type| matches!(t, Type::Class(c) if usize::from(c) >= classes);
    let in_classes = book.classes.iter().map(|c| c.name >= names);
    let in_fields = book.fields.iter().map(|f| f.name >= names || missing(f.typed));
    let in_methods = book
        .methods
        .iter()
        .map(|m| m.name >= names || missing(m.result) || missing(m.parameter) || m.command.is_empty() || m.returned.is_empty());
    in_classes.chain(in_fields).chain(in_methods).position(|faulty| faulty)
}

/// The parts of a node with the sort each has to be; none for a kind that is not there.
fn parts(node: Raw) -> Vec<(usize, Sort)> {
    use Sort::{Command, Expression};
    let (a, b, d) = (node.a.into(), node.b.into(), node.d.into());
    match node.kind {
        1..=3 | 8 | 11 => vec![(a, Expression), (b, Expression)],
        4 | 7 | 10 => vec![(a, Expression)],
        12 => vec![(a, Command), (b, Command)],
        13 => vec![(a, Expression), (b, Command), (d, Command)],
        14 => vec![(a, Expression), (b, Command)],
        _ => vec![],
    }
}

fn sort(node: Raw) -> Option<Sort> {
    match node.kind {
        0..=10 => Some(Sort::Expression),
        11..=15 => Some(Sort::Command),
        _ => None,
    }
}

/// Whether the kind is there, spare numbers are 0, and names and classes are there.
fn numbers_right(book: &Book, node: Raw) -> bool {
    let Raw { kind, a, b, d } = node;
    match kind {
        0 => a == 0,
        1..=3 | 12 | 14 => d == 0,
        4 | 10 => b == 0 && d == 0,
        5 | 6 | 15 => a == 0 && b == 0 && d == 0,
        7 => b == 0 && usize::from(d) < book.names.len(),
        8 | 11 => usize::from(d) < book.names.len(),
        9 => a == 0 && b == 0 && usize::from(d) < book.classes.len(),
        13 => true,
        _ => false,
    }
}

/// The lowest node against the node rules, or not once a part.
fn faulty_node(book: &Book) -> Option<usize> {
    let strips = || {
        let of_methods = book.methods.iter().flat_map(|m| [(m.command.clone(), Sort::Command), (m.returned.clone(), Sort::Expression)]);
        of_methods.chain([(book.top.clone(), Sort::Expression)])
    };
    let mut uses = vec![0; book.nodes.len()];
    for (strip, _) in strips() {
        for k in strip.clone() {
            for (part, _) in parts(book.nodes[k]) {
                if (strip.start..k).contains(&part) {
                    uses[part] += 1;
                }
            }
        }
    }
    for (strip, of_root) in strips() {
        for k in strip.clone() {
            let node = book.nodes[k];
            let placed = if k + 1 == strip.end { sort(node) == Some(of_root) } else { uses[k] == 1 };
            let parts_right =
                parts(node).iter().all(|&(part, wanted)| (strip.start..k).contains(&part) && sort(book.nodes[part]) == Some(wanted));
            if !(placed && parts_right && numbers_right(book, node)) {
                return Some(k);
            }
        }
    }
    None
}
