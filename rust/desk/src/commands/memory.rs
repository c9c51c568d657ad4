//! `read` and `write`: a memory by its type.

use super::{after, counted};
use crate::args::Call;
use crate::desk::Desk;
use crate::json::Json;
use crate::told::{Failure, Told};
use std::fmt::Write;
use typebook::{New, Record, Refusal, Tape, TypeRef, Value};

/// A refusal of a write, and of which value.
fn refused(what: &str, refusal: Refusal) -> Failure {
    Failure::numbered(Some(refusal.number()), format!("{what}: {refusal}"))
}

/// Reads a memory; a refusal says where.
fn tape<'d>(desk: &Desk, root: TypeRef<'d>, memory: &[u8]) -> Result<Tape<'d>, Failure> {
    desk.read(root, memory).map_err(|error| {
        let number = error.refusal.number();
        let words = match &error.path[..] {
            "" => format!("{}: refusal {number}: {error}", root.name()),
            _ => format!("{}: refusal {number} at {error}", root.name()),
        };
        Failure::numbered(Some(number), words)
    })
}

/// The values of a memory.
pub fn read(desk: &Desk, name: &str, memory: &[u8]) -> Result<Told, Failure> {
    let root = desk.find(name)?;
    let tape = tape(desk, root, memory)?;
    let mut shown = Shown {
        desk,
        text: String::new(),
        records: tape.iter().collect(),
        at: 0,
    };
    let json = shown.value(0, name, root.name());
    let json = Json::object([("bytes", Json::count(memory.len())), ("root", json)]);
    Ok(Told::new(shown.text, json))
}

/// The records of a tape, while they are shown.
struct Shown<'s> {
    desk: &'s Desk,
    text: String,
    records: Vec<Record<'s>>,
    at: usize,
}

impl<'s> Shown<'s> {
    fn next(&mut self) -> Record<'s> {
        self.at += 1;
        self.records[self.at - 1]
    }

    /// The value that is next: of a field or an element of that name, declared with that type.
    fn value(&mut self, level: usize, name: &str, declared: &'s str) -> Json {
        let record = self.next();
        let head = match level {
            0 => name.to_string(),
            _ => format!("{:1$}{name} : {declared}", "", 2 * level),
        };
        let mut members = vec![("name", Json::text(name)), ("declared", Json::text(declared))];
        match record.value {
            Value::Map(count) => {
                let _ = writeln!(self.text, "{head}, {}", counted(count, "field"));
                members.push(("fields", self.fields(level, count)));
            }
            Value::Array(count) => {
                let (counts, element) = array(self.desk, declared);
                let shown: Vec<String> = counts.iter().map(u32::to_string).collect();
                let _ = writeln!(self.text, "{head}, array of {}", shown.join(" x "));
                let mut out = Vec::new();
                self.elements(level, count, &mut Vec::new(), counts.len(), element, &mut out);
                members.push(("elements", Json::List(out)));
            }
            value => {
                members.push(("value", leaf(value)));
                let _ = match record.moment() {
                    Some(moment) => {
                        members.push(("moment", Json::text(&moment.to_string())));
                        writeln!(self.text, "{head} = {value} ({moment})")
                    }
                    None => writeln!(self.text, "{head} = {value}"),
                };
                if let Value::Text { clipped: true, .. } = value {
                    members.push(("clipped", Json::Bool(true)));
                }
            }
        }
        Json::Object(members)
    }

    fn fields(&mut self, level: usize, count: u64) -> Json {
        let mut out = Vec::new();
        for _ in 0..count {
            let key = self.next();
            let (name, declared) = match (key.value, key.block) {
                (Value::Key(name), Some(field)) => (name, self.desk.book.type_name(field)),
                _ => ("", ""),
            };
            out.push(self.value(level + 1, name, declared));
        }
        self.next();
        Json::List(out)
    }

    /// The elements of an array, all dimensions in one: `[1,2]`.
    fn elements(
        &mut self,
        level: usize,
        count: u64,
        outer: &mut Vec<String>,
        dimensions: usize,
        element: &'s str,
        out: &mut Vec<Json>,
    ) {
        for index in 0..count {
            outer.push(index.to_string());
            if dimensions > 1 {
                if let Value::Array(inner) = self.next().value {
                    self.elements(level, inner, outer, dimensions - 1, element, out);
                }
            } else {
                let name = format!("[{}]", outer.join(","));
                out.push(self.value(level + 1, &name, element));
            }
            outer.pop();
        }
        self.next();
    }
}

/// The counts of an array's dimensions, and the type that its elements are declared with.
fn array<'d>(desk: &'d Desk, declared: &str) -> (Vec<u32>, &'d str) {
    let resolved = desk.book.find(declared).and_then(|t| desk.resolve(t).ok());
    resolved.map_or((Vec::new(), ""), |t| (t.dimensions().collect(), t.type_name()))
}

/// A value without parts.
fn leaf(value: Value) -> Json {
    match value {
        Value::Bool(value) => Json::Bool(value),
        Value::Int { value, .. } => Json::number(value),
        Value::Nat { value, .. } => Json::number(value),
        Value::Real32(bits) => Json::real(value.to_string(), f32::from_bits(bits).is_finite()),
        Value::Real64(bits) => Json::real(value.to_string(), f64::from_bits(bits).is_finite()),
        Value::Text { text, .. } | Value::Enum(text) => Json::text(text),
        _ => Json::Null,
    }
}

/// Changes values of an image.
pub fn write(desk: &Desk, name: &str, image: &[u8], values: &[(String, String)], call: &Call) -> Result<Told, Failure> {
    let root = desk.find(name)?;
    let read = tape(desk, root, image)?;
    let mut edited = read.clone();
    for (path, word) in values {
        edit(&mut edited, path, word)?;
    }
    let written = desk.write(root, image, &edited.edits());
    let output = written.map_err(|refusal| refused(&culprit(desk, root, image, &read, values), refusal))?;
    let told = changes(desk, root, image, &output, values)?;
    after(call, &output, told)
}

/// Which of the values a write is refused for: the first that is refused by itself.
fn culprit(desk: &Desk, root: TypeRef, image: &[u8], read: &Tape, values: &[(String, String)]) -> String {
    for (path, word) in values {
        let mut tape = read.clone();
        if edit(&mut tape, path, word).is_err() {
            continue;
        }
        match (desk.write(root, image, &tape.edits()), read.at(path)) {
            (Err(Refusal::Size), Ok(Value::Text { .. })) => return format!("{path}: the text is too long"),
            (Err(_), _) => return path.clone(),
            _ => {}
        }
    }
    root.name().into()
}

fn edit(tape: &mut Tape, path: &str, word: &str) -> Result<(), Failure> {
    let wrong = |why: String| Failure::told(format!("{path}: {why}"));
    let old = tape.at(path).map_err(|error| wrong(error.to_string()))?;
    let new = new_value(old, word).ok_or_else(|| wrong(format!("{word:?} is no value in place of {old}")))?;
    tape.edit(path, new).map_err(|error| wrong(error.to_string()))
}

/// A word as a value of the old one's kind.
fn new_value<'w>(old: Value, word: &'w str) -> Option<New<'w>> {
    Some(match old {
        Value::Bool(_) => New::Bool(match &word.to_ascii_lowercase()[..] {
            "true" | "1" => true,
            "false" | "0" => false,
            _ => return None,
        }),
        Value::Int { .. } | Value::Nat { .. } => New::Int(whole(word)?),
        Value::Real32(_) | Value::Real64(_) => New::Real(word.parse().ok()?),
        _ => New::Text(word),
    })
}

/// A whole number, decimal, or hexadecimal as `16#FF` or `0xFF`.
fn whole(word: &str) -> Option<i128> {
    let digits = word.strip_prefix("16#").or_else(|| word.strip_prefix("0x"));
    match digits {
        Some(digits) => u64::from_str_radix(digits, 16).ok().map(i128::from),
        None => word.parse().ok(),
    }
}

/// What was changed: the values, and the bytes.
fn changes(
    desk: &Desk,
    root: TypeRef,
    image: &[u8],
    output: &[u8],
    values: &[(String, String)],
) -> Result<Told, Failure> {
    let (old, new) = (tape(desk, root, image)?, tape(desk, root, output)?);
    let (mut text, mut told) = (String::new(), Vec::new());
    for (path, _) in values {
        let (Ok(was), Ok(is)) = (old.at(path), new.at(path)) else {
            continue;
        };
        let _ = writeln!(text, "{path}: {was} -> {is}");
        told.push(Json::object([
            ("path", Json::text(path)),
            ("was", leaf(was)),
            ("is", leaf(is)),
        ]));
    }
    let mut spans = Vec::new();
    for (at, was, is) in runs(image, output) {
        let _ = writeln!(text, "{}: {} -> {}", span(at, was.len()), hex(was), hex(is));
        spans.push(Json::object([
            ("offset", Json::count(at)),
            ("was", Json::text(&hex(was))),
            ("is", Json::text(&hex(is))),
        ]));
    }
    if spans.is_empty() {
        text += "no byte changes\n";
    }
    let json = Json::object([("values", Json::List(told)), ("bytes", Json::List(spans))]);
    Ok(Told::new(text, json))
}

/// The runs of bytes that differ.
fn runs<'i>(image: &'i [u8], output: &'i [u8]) -> Vec<(usize, &'i [u8], &'i [u8])> {
    let differs = |at: usize| image[at] != output[at];
    let (mut out, mut at) = (Vec::new(), 0);
    while at < image.len() {
        let end = (at..image.len()).find(|&k| !differs(k)).unwrap_or(image.len());
        if end > at {
            out.push((at, &image[at..end], &output[at..end]));
        }
        at = end + 1;
    }
    out
}

fn span(at: usize, len: usize) -> String {
    match len {
        1 => format!("byte {at}"),
        _ => format!("bytes {at} to {}", at + len - 1),
    }
}

fn hex(bytes: &[u8]) -> String {
    let figures: Vec<String> = bytes.iter().map(|b| format!("{b:02X}")).collect();
    figures.join(" ")
}
