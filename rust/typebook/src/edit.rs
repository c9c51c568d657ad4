//! Values of a tape, changed by the path of their names.

use crate::book::name_in;
use crate::ffi::total;
use crate::tape::{ENDED, RECORD, Tape, Value, record};
use std::error::Error;
use std::fmt;

/// A step of a path: into the field of a name, or the element of an index. Indexes count from 0, as the tape's elements do; the book
/// doesn't say where the controller's count begins.
#[derive(Debug, Clone, Copy, PartialEq, Eq)]
pub enum Step<'p> {
    /// The field of a name.
    Key(&'p str),
    /// The element of an index, from 0 on.
    Index(u64),
}

/// A new value. A text also names an enumeration's entry.
#[derive(Debug, Clone, Copy, PartialEq)]
#[allow(missing_docs)]
pub enum New<'n> {
    Bool(bool),
    Int(i128),
    Real(f64),
    Text(&'n str),
}

macro_rules! from {
    ($case:ident: $($ty:ty),*) => { $(impl From<$ty> for New<'_> {
        fn from(value: $ty) -> Self {
            New::$case(value.into())
        }
    })* };
}
from!(Bool: bool);
from!(Int: i8, i16, i32, i64, u8, u16, u32, u64);
from!(Real: f32, f64);

impl<'n> From<&'n str> for New<'n> {
    fn from(text: &'n str) -> Self {
        New::Text(text)
    }
}

/// Why a tape wasn't changed.
#[non_exhaustive]
#[derive(Debug, Clone, PartialEq, Eq)]
pub enum EditError {
    /// The path can't be read as one.
    Path(String),
    /// The tape has no field of this name there.
    UnknownField(String),
    /// The map has two fields of this name: which is meant can't be told, and a write takes the first for both.
    Doubled(String),
    /// The array has no element of this index.
    NoElement(u64),
    /// A field is asked for where no map is, an element where no array is, or a value where a map or an array is.
    NotThere,
    /// The new value is of another kind than the old one.
    Kind,
    /// The number doesn't fit the width of the old one.
    OutOfRange,
    /// The enumeration has no entry of this name.
    UnknownEntry(String),
}

impl fmt::Display for EditError {
    fn fmt(&self, f: &mut fmt::Formatter<'_>) -> fmt::Result {
        match self {
            EditError::Path(path) => write!(f, "{path:?} is no path: names parted by dots, indexes in brackets"),
            EditError::UnknownField(name) => write!(f, "there is no field {name:?}"),
            EditError::Doubled(name) => write!(f, "there are two fields {name:?}"),
            EditError::NoElement(index) => write!(f, "there is no element {index} (the first is 0)"),
            EditError::NotThere => f.write_str("the path leads to no value, or goes on where there is nothing in it"),
            EditError::Kind => f.write_str("the new value is of another kind than the old one"),
            EditError::OutOfRange => f.write_str("the number doesn't fit"),
            EditError::UnknownEntry(name) => write!(f, "the enumeration has no entry {name:?}"),
        }
    }
}

impl Error for EditError {}

/// The steps of a path such as `Nozzles[2].Flow` or `Pattern[1,2]`.
fn steps(path: &str) -> Option<Vec<Step<'_>>> {
    let (mut steps, mut rest) = (Vec::new(), path);
    loop {
        if let Some(inside) = rest.strip_prefix('[') {
            let (indexes, after) = inside.split_once(']')?;
            for index in indexes.split(',') {
                steps.push(Step::Index(index.trim().parse().ok()?));
            }
            rest = after;
        } else {
            // A name stands at the start or after a dot.
            let named = if steps.is_empty() {
                rest
            } else {
                rest.strip_prefix('.')?
            };
            let end = named.find(['.', '[', ']']).unwrap_or(named.len());
            if end == 0 {
                return None;
            }
            steps.push(Step::Key(&named[..end]));
            rest = &named[end..];
        }
        if rest.is_empty() {
            return Some(steps);
        }
    }
}

impl Tape<'_> {
    /// Changes the value that a path of names and indexes leads to; indexes count from 0. The new value is of the old one's kind: an
    /// integer that fits its width, a real, a bool, a text, or the name of an entry of the same enumeration.
    ///
    /// A write of the tape then writes all of its values; one of its [`edits`](Tape::edits) writes those that were changed.
    ///
    /// ```
    /// use typebook::{EditError, Step, TypeBook, Value};
    /// # let folder = concat!(env!("CARGO_MANIFEST_DIR"), "/../../examples/glue/");
    /// # let file = |name: &str| std::fs::read(format!("{folder}{name}"));
    /// let book = TypeBook::new(file("book.bin")?, 8)?;
    /// let (recipe, image) = (book.root(0)?, file("mem.bin")?);
    /// let mut tape = recipe.read(&image)?;
    /// tape.edit("Title", "Spine 8")?;
    /// tape.edit("Glue", "COLD")?;
    /// tape.edit("Tank.Heated", false)?;
    /// tape.edit("Nozzles[2].Offset", -3)?;
    /// tape.edit_at(&[Step::Key("Pattern"), Step::Index(1), Step::Index(2)], 9)?;
    /// assert_eq!(tape.at("Pattern[1,2]")?, Value::Int { bits: 16, value: 9 });
    ///
    /// // What was written is read again.
    /// let again = recipe.read(&recipe.write(&image, &tape.edits())?)?;
    /// assert_eq!(again.at("Title")?, Value::Text { text: "Spine 8", clipped: false });
    ///
    /// // What can't be is an error at once, and the tape stays as it is.
    /// assert_eq!(tape.edit("Nozzles[2].Offset", 40_000), Err(EditError::OutOfRange));
    /// assert_eq!(tape.edit("Nozzles[3].Offset", 1), Err(EditError::NoElement(3)));
    /// assert_eq!(tape.edit("Glue", "WARM"), Err(EditError::UnknownEntry("WARM".into())));
    /// assert_eq!(tape.edit("Tank.Target", "hot"), Err(EditError::Kind));
    /// # Ok::<(), Box<dyn std::error::Error>>(())
    /// ```
    pub fn edit<'n>(&mut self, path: &str, new: impl Into<New<'n>>) -> Result<(), EditError> {
        let steps = steps(path).ok_or_else(|| EditError::Path(path.into()))?;
        self.edit_at(&steps, new)
    }

    /// The same by the steps of a path, for names with dots or brackets in them. No steps lead to the root itself.
    pub fn edit_at<'n>(&mut self, steps: &[Step], new: impl Into<New<'n>>) -> Result<(), EditError> {
        let at = self.place(steps)?;
        let mut bytes = self.changed(at, new.into())?;
        // The declared type stays.
        bytes[4..8].copy_from_slice(&self.records[at + 4..at + 8]);
        self.records[at..at + RECORD].copy_from_slice(&bytes);
        self.edited.insert(at);
        Ok(())
    }

    /// The tape of what was changed alone: the fields on the way to a changed value, and no others, so that a write leaves all else
    /// as the image has it. Arrays on the way are written whole where their elements aren't structs.
    ///
    /// This also writes into types of which not every value can be written back: those that hold something without meaning
    /// (refusal 17), and texts that fill their field to the last byte (refusal 10).
    ///
    /// ```
    /// use typebook::{Refusal, TypeBook};
    /// # let folder = concat!(env!("CARGO_MANIFEST_DIR"), "/../../examples/glue/");
    /// # let file = |name: &str| std::fs::read(format!("{folder}{name}"));
    /// # let book = TypeBook::new(file("book.bin")?, 8)?;
    /// # let (recipe, image) = (book.root(0)?, file("mem.bin")?);
    /// let mut tape = recipe.read(&image)?;
    /// tape.edit("Nozzles[2].Flow", 7)?;
    /// // A map of one field, of an array of three maps, of which the last has one field.
    /// assert_eq!(format!("{:?}", tape.edits()), "[Map(1), Key(\"Nozzles\"), Array(3), Map(0), End, Map(0), End, \
    ///     Map(1), Key(\"Flow\"), Nat { bits: 16, value: 7 }, End, End, End]");
    /// assert!(recipe.write(&image, &tape.edits()).is_ok());
    ///
    /// // The whole tape can't be written: a text in it fills its bytes to the last, and has no room for its zero.
    /// assert_eq!(tape.at("Operator")?.to_string(), "\"M. Fische\" (clipped)");
    /// assert_eq!(recipe.write(&image, &tape), Err(Refusal::Size));
    /// # Ok::<(), Box<dyn std::error::Error>>(())
    /// ```
    pub fn edits(&self) -> Self {
        let mut records = Vec::new();
        self.put_edits(0, &mut records);
        Tape::new(self.book.clone(), self.declares, records, self.text.clone())
    }

    /// Puts the value at a place, of maps only the keys with something changed, and gives the place after it.
    fn put_edits(&self, at: usize, out: &mut Vec<u8>) -> usize {
        let start = out.len();
        let mut next = at + RECORD;
        out.extend_from_slice(&self.records[at..next]);
        match self.records[at] {
            1 => {
                while self.records[next] != 2 {
                    next = self.put_edits(next, out);
                }
            }
            3 => {
                let mut keys = 0u64;
                while self.records[next] == 4 {
                    let value = next + RECORD;
                    let after = self.after(value);
                    if self.edited.range(value..after).next().is_some() {
                        out.extend_from_slice(&self.records[next..value]);
                        self.put_edits(value, out);
                        keys += 1;
                    }
                    next = after;
                }
                out[start + 8..start + 16].copy_from_slice(&keys.to_le_bytes());
            }
            _ => return next,
        }
        out.extend_from_slice(&self.records[next..next + RECORD]);
        next + RECORD
    }

    /// The value that a path leads to.
    pub fn at(&self, path: &str) -> Result<Value<'_>, EditError> {
        let steps = steps(path).ok_or_else(|| EditError::Path(path.into()))?;
        Ok(self.value(self.place(&steps)?).1)
    }

    /// Where the record stands that some steps lead to.
    fn place(&self, steps: &[Step]) -> Result<usize, EditError> {
        let mut at = 0;
        for step in steps {
            at = match (step, self.records[at]) {
                (Step::Key(name), 3) => self.member(at, name)?,
                (Step::Index(index), 1) => self.element(at, *index)?,
                _ => return Err(EditError::NotThere),
            };
        }
        Ok(at)
    }

    /// Where the value after this one stands.
    fn after(&self, mut at: usize) -> usize {
        let mut open = 0;
        loop {
            match self.records[at] {
                1 | 3 => open += 1,
                2 | 5 => open -= 1,
                _ => {}
            }
            let key = self.records[at] == 4;
            at += RECORD;
            if open == 0 && !key {
                return at;
            }
        }
    }

    fn member(&self, map: usize, name: &str) -> Result<usize, EditError> {
        let (mut at, mut found) = (map + RECORD, None);
        while self.records[at] == 4 {
            if self.value(at).1 == Value::Key(name) && found.replace(at + RECORD).is_some() {
                return Err(EditError::Doubled(name.into()));
            }
            at = self.after(at + RECORD);
        }
        found.ok_or_else(|| EditError::UnknownField(name.into()))
    }

    fn element(&self, array: usize, index: u64) -> Result<usize, EditError> {
        if self.number(array + 8) <= index {
            return Err(EditError::NoElement(index));
        }
        Ok((0..index).fold(array + RECORD, |at, _| self.after(at)))
    }

    /// The record at a place with a new value, without its declared type.
    fn changed(&mut self, at: usize, new: New) -> Result<[u8; RECORD], EditError> {
        let (kind, width) = (self.records[at], self.records[at + 1]);
        let bits = 8 * u32::from(width);
        match (kind, new) {
            (6, New::Bool(value)) => Ok(record(6, 0, 0, value.into())),
            (7, New::Int(value)) => {
                let half = 1i128 << (bits - 1);
                fits((-half..half).contains(&value))?;
                Ok(record(7, width, 0, value as i64 as u64))
            }
            (8, New::Int(value)) => {
                fits((0..1i128 << bits).contains(&value))?;
                Ok(record(8, width, 0, value as u64))
            }
            (9, New::Real(value)) => {
                let single = value as f32;
                fits(single.is_finite() || !value.is_finite())?;
                Ok(record(9, 0, 0, single.to_bits().into()))
            }
            (10, New::Real(value)) => Ok(record(10, 0, 0, value.to_bits())),
            (11, New::Text(text)) => {
                let start = self.text.len() as u64;
                self.text.extend_from_slice(text.as_bytes());
                Ok(record(11, ENDED, start, text.len() as u64))
            }
            (12, New::Text(name)) => Ok(record(12, 0, self.entry(at, name)?.into(), 0)),
            (1 | 3, _) => Err(EditError::NotThere),
            _ => Err(EditError::Kind),
        }
    }

    /// The entry of a name in the enumeration of the entry that a record names: its entries stand side by side.
    fn entry(&self, at: usize, name: &str) -> Result<u32, EditError> {
        let old = self.number(at + 8) as usize;
        let is_entry = |n: &usize| self.book.get(n * 512) == Some(&3);
        let first = (0..=old).rev().take_while(is_entry).last().unwrap_or(old);
        let mut entries = (first..).take_while(is_entry).map(|n| n as u32);
        entries
            .find(|&n| name_in(&self.book, n, total::name) == name)
            .ok_or_else(|| EditError::UnknownEntry(name.into()))
    }
}

fn fits(fine: bool) -> Result<(), EditError> {
    fine.then_some(()).ok_or(EditError::OutOfRange)
}

#[cfg(test)]
mod tests {
    use super::*;
    use crate::{Refusal, TypeBook};
    use model::make::{Type, book, int};

    #[test]
    fn paths() {
        use Step::{Index, Key};
        let told = |path| steps(path).unwrap_or_default();
        assert_eq!(told("A"), [Key("A")]);
        assert_eq!(told("A.b[2].c"), [Key("A"), Key("b"), Index(2), Key("c")]);
        assert_eq!(told("[1][2]"), [Index(1), Index(2)]);
        assert_eq!(told("x[1, 2]"), [Key("x"), Index(1), Index(2)]);
        for bad in ["", ".", "A.", ".A", "A..b", "A[", "A[]", "A[x]", "A]", "A[1]b", "A[-1]"] {
            assert!(steps(bad).is_none(), "{bad}");
        }
    }

    /// A book with one value of each kind, in a map that stands twice in an array.
    fn tape<'a>(book: &'a TypeBook) -> Tape<'a> {
        book.root(0).expect("a type").read(&[0; 30]).expect("read")
    }

    fn all_kinds() -> Vec<u8> {
        let s = Type::new("S")
            .size(15)
            .field("i", "SINT", 0, 1)
            .field("u", "USINT", 1, 1);
        let s = s
            .field("r", "REAL", 2, 4)
            .field("l", "LREAL", 6, 8)
            .field("e", "E", 14, 1);
        let e = Type::new("E")
            .id(17)
            .size(1)
            .flags(4)
            .entry("off", &[0])
            .entry("on", &[1]);
        let other = Type::new("F").id(17).size(1).flags(4).entry("far", &[0]);
        book(&[
            Type::new("ROOT").of("S").size(30).dimensions(&[2]),
            s,
            e,
            other,
            Type::new("SINT").id(16).size(1),
            Type::new("USINT").id(17).size(1),
            Type::new("REAL").id(4).size(4),
            Type::new("LREAL").id(5).size(8),
        ])
    }

    #[test]
    fn each_kind_at_its_edges() {
        let book = TypeBook::new(all_kinds(), 8).expect("valid");
        let mut tape = tape(&book);
        for (path, new, fine) in [
            ("[1].i", New::Int(-128), true),
            ("[1].i", New::Int(127), true),
            ("[1].i", New::Int(-129), false),
            ("[1].i", New::Int(128), false),
            ("[0].u", New::Int(255), true),
            ("[0].u", New::Int(256), false),
            ("[0].u", New::Int(-1), false),
            ("[0].r", New::Real(f64::from(f32::MAX)), true),
            ("[0].r", New::Real(f64::INFINITY), true),
            ("[0].r", New::Real(1e39), false),
            ("[0].l", New::Real(1e300), true),
        ] {
            let wanted = if fine { Ok(()) } else { Err(EditError::OutOfRange) };
            assert_eq!(tape.edit(path, new), wanted, "{path} {new:?}");
        }
        assert_eq!(tape.edit("[1].e", "on"), Ok(()));
        assert_eq!(tape.edit("[1].e", "far"), Err(EditError::UnknownEntry("far".into())));
        let root = book.root(0).expect("a type");
        let mut wanted = [0; 30];
        wanted[1] = 255;
        wanted[2..6].copy_from_slice(&f32::INFINITY.to_le_bytes());
        wanted[6..14].copy_from_slice(&1e300f64.to_le_bytes());
        wanted[15] = 127;
        wanted[29] = 1;
        assert_eq!(root.write(&[0; 30], &tape), Ok(wanted.to_vec()));
    }

    #[test]
    fn what_is_not_there() {
        let book = TypeBook::new(all_kinds(), 8).expect("valid");
        let mut tape = tape(&book);
        let before = tape.bytes().to_vec();
        for (path, wanted) in [
            ("[2].i", EditError::NoElement(2)),
            ("[0].z", EditError::UnknownField("z".into())),
            ("[0]", EditError::NotThere),
            ("[0].i.x", EditError::NotThere),
            ("i", EditError::NotThere),
            ("[0][0]", EditError::NotThere),
            ("[0].e", EditError::Kind),
            ("[0].r", EditError::Kind),
            ("[0", EditError::Path("[0".into())),
        ] {
            assert_eq!(tape.edit(path, 1), Err(wanted), "{path}");
        }
        assert_eq!(tape.bytes(), before);
    }

    /// A struct with a field that holds nothing readable and a text without zero: only its edits can be written.
    #[test]
    fn edits_pass_by_what_can_not_be_written() {
        let s = Type::new("S").size(11).field("a", "INT", 0, 2).field("n", "N", 2, 6);
        let types = [
            s.field("t", "STRING", 8, 3),
            int(),
            Type::new("N").size(6),
            Type::new("STRING").id(30).size(3),
        ];
        let book = TypeBook::new(book(&types), 8).expect("valid");
        let root = book.root(0).expect("a type");
        let image = *b"\x01\x00abcdefxyz";
        let mut tape = root.read(&image).expect("read");
        assert_eq!(root.write(&image, &tape.edits()), Ok(image.to_vec()));
        tape.edit("a", 5).expect("an integer");
        assert_eq!(root.write(&image, &tape), Err(Refusal::Mismatch));
        let wanted = b"\x05\x00abcdefxyz".to_vec();
        assert_eq!(root.write(&image, &tape.edits()), Ok(wanted));
        tape.edit("t", "ab").expect("a text");
        let wanted = b"\x05\x00abcdefab\0".to_vec();
        assert_eq!(root.write(&image, &tape.edits()), Ok(wanted));
    }

    #[test]
    fn doubled_names_are_not_guessed() {
        let s = Type::new("S").size(4).field("a", "INT", 0, 2).field("a", "INT", 2, 2);
        let book = TypeBook::new(book(&[s, int()]), 8).expect("valid");
        let mut tape = book.root(0).expect("a type").read(&[0; 4]).expect("read");
        assert_eq!(tape.edit("a", 1), Err(EditError::Doubled("a".into())));
    }
}
