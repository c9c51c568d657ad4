//! `show`: a type's fields with their places.

use super::counted;
use crate::blocks::word;
use crate::desk::Desk;
use crate::json::Json;
use crate::told::{Failure, Told};
use std::fmt::Write;
use typebook::{Category, TypeRef};

/// As many lines are shown.
const MOST_LINES: usize = 10_000;
/// As deep a read goes.
const DEEPEST: usize = 64;

/// A part of a value: its name, its place in the whole, its size and its type's name.
struct Part<'b> {
    name: &'b str,
    offset: u64,
    size: u32,
    declared: &'b str,
}

/// What is shown of a type's tree.
struct Tree<'b> {
    desk: &'b Desk,
    depth: usize,
    text: String,
    lines: usize,
    /// The types that the part lies in.
    open: Vec<u32>,
}

/// A type's fields with their places, as a tree.
pub fn show(desk: &Desk, name: &str, depth: usize) -> Result<Told, Failure> {
    let root = desk.find(name)?;
    let mut tree = Tree {
        desk,
        depth: depth.min(DEEPEST),
        text: String::new(),
        lines: 0,
        open: Vec::new(),
    };
    let part = Part {
        name,
        offset: 0,
        size: root.size(),
        declared: name,
    };
    let json = tree.put(&part, Some(root));
    if tree.lines >= MOST_LINES {
        let _ = writeln!(tree.text, ".. and more; --depth shows less of each");
    }
    Ok(Told::new(tree.text, json))
}

impl<'b> Tree<'b> {
    /// A line for a part, and those of what lies in it.
    fn put(&mut self, part: &Part<'b>, t: Option<TypeRef<'b>>) -> Json {
        let level = self.open.len();
        self.lines += 1;
        let told = self.told(part, t);
        let _ = match level {
            0 => writeln!(self.text, "{}: {told}", part.name),
            _ => {
                let indent = 2 * level;
                writeln!(self.text, "{:indent$}{:>5}  {} : {told}", "", part.offset, part.name)
            }
        };
        let parts = match t.and_then(|t| self.desk.resolve(t).ok()) {
            Some(t) if level < self.depth && !self.open.contains(&t.block()) => self.inside(part, t),
            _ => Vec::new(),
        };
        Json::object([
            ("name", Json::text(part.name)),
            ("offset", Json::number(part.offset)),
            ("size", Json::number(part.size)),
            ("declared", Json::text(part.declared)),
            ("told", Json::text(&told)),
            ("parts", Json::list(parts)),
        ])
    }

    /// The parts of a part.
    fn inside(&mut self, part: &Part<'b>, t: TypeRef<'b>) -> Vec<Json> {
        let book = &self.desk.book;
        let parts: Vec<Part> = match self.desk.category(t) {
            Category::Struct | Category::Union | Category::FunctionBlock => t
                .declared_fields()
                .map(|f| Part {
                    name: f.name,
                    offset: part.offset + u64::from(f.offset),
                    size: f.size,
                    declared: f.type_name,
                })
                .collect(),
            Category::Array => book
                .find(t.type_name())
                .map(|element| Part {
                    name: "[0]",
                    offset: part.offset,
                    size: element.size(),
                    declared: element.name(),
                })
                .into_iter()
                .collect(),
            _ => Vec::new(),
        };
        self.open.push(t.block());
        let mut out = Vec::new();
        for part in parts {
            if self.lines >= MOST_LINES {
                break;
            }
            out.push(self.put(&part, book.find(part.declared)));
        }
        self.open.pop();
        out
    }

    /// What a part is: its declared type, what that comes to, its category, its size.
    fn told(&self, part: &Part, t: Option<TypeRef>) -> String {
        let size = counted(part.size, "byte");
        let Some(t) = t else {
            return format!("{}, not in the book, {size}", part.declared);
        };
        let Ok(resolved) = self.desk.resolve(t) else {
            return format!("{}, an alias that comes to nothing, {size}", part.declared);
        };
        let name = match (self.open.is_empty(), resolved.block() == t.block()) {
            (true, true) => String::new(),
            (true, false) => format!("alias of {}, ", resolved.name()),
            (false, true) => format!("{}, ", part.declared),
            (false, false) => format!("{} = {}, ", part.declared, resolved.name()),
        };
        let counts: Vec<String> = resolved.dimensions().map(|n| n.to_string()).collect();
        let kind = match self.desk.category(resolved) {
            Category::Array => format!("array of {}", counts.join(" x ")),
            category => word(category).into(),
        };
        let again = match self.open.contains(&resolved.block()) {
            true => ", which holds itself",
            false => "",
        };
        format!("{name}{kind}, {size}{again}")
    }
}
