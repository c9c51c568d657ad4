//! A type book of an upload: which part of an entry goes where, and which types hold themselves.

use super::{Upload, UploadAttribute, UploadEntry, UploadError, UploadFault, UploadFlags};
use crate::{BookBuilder, Category, TypeBook, TypeBuilder, type_id};
use std::borrow::Cow;
use std::collections::{HashMap, HashSet};

/// The attribute by which a function block says that it implements interfaces.
const IMPLEMENTS: &str = "TcImplements";
/// The attribute of a STRING that says how its characters stand in the bytes.
const ENCODING: &str = "TcEncoding";
/// What is put behind the name of a type that a field uses in UTF-8, though the type itself isn't marked.
const UTF_8: &str = " UTF-8";
/// As many aliases and arrays are followed to a STRING.
const MOST_HOPS: usize = 32;
/// How many names of a cycle are told.
const MOST_TOLD: usize = 32;

impl UploadEntry {
    /// Whether an attribute says that its characters are UTF-8.
    pub fn is_utf_8(&self) -> bool {
        let said = |name: &str, value: &str| name == ENCODING && value.eq_ignore_ascii_case("UTF-8");
        self.attributes.iter().any(|a| said(&a.name, &a.value))
    }

    /// The same type in UTF-8, under a name of its own.
    fn in_utf_8(&self) -> Self {
        let mut out = self.clone();
        out.name += UTF_8;
        match out.type_name.is_empty() {
            true => out.attributes.push(UploadAttribute {
                name: ENCODING.into(),
                value: "UTF-8".into(),
            }),
            false => out.type_name += UTF_8,
        }
        out
    }

    /// Whether it has bytes of its own in a value: statics lie elsewhere, properties are calls.
    fn has_bytes(&self) -> bool {
        !self.flags.has(UploadFlags::STATIC | UploadFlags::PROP_ITEM)
    }

    /// A number of bytes, unless bits are counted that aren't whole bytes.
    fn bytes(&self, number: u32) -> Option<u32> {
        match self.flags.has(UploadFlags::BIT_VALUES) {
            true => number.is_multiple_of(8).then_some(number / 8),
            false => Some(number),
        }
    }

    /// The type that it describes, as a builder makes it.
    fn builder(&self) -> Result<TypeBuilder, UploadFault> {
        // A type of some bits takes whole bytes where it stands alone.
        let size = self.bytes(self.size).unwrap_or(self.size / 8 + 1);
        let mut out = TypeBuilder::new(&self.name)
            .type_name(&self.type_name)
            .id(self.id)
            .size(size);
        out = with(out, self.flags.has(UploadFlags::PLC_POINTER_TYPE), TypeBuilder::pointer);
        out = with(out, self.flags.has(UploadFlags::REFERENCE_TO), TypeBuilder::reference);
        out = with(out, self.flags.has(UploadFlags::ENUM_INFOS), TypeBuilder::enumeration);
        out = with(out, self.methods > 0, TypeBuilder::methods);
        out = with(out, self.has_attribute(IMPLEMENTS), TypeBuilder::tc_implements);
        out = with(out, self.id == type_id::STRING && self.is_utf_8(), TypeBuilder::utf_8);
        out = self.dimensions.iter().fold(out, |out, d| out.dimension(d.elements));
        for item in self.items.iter().filter(|i| i.has_bytes()) {
            let (Some(offset), Some(size)) = (item.bytes(item.offset), item.bytes(item.size)) else {
                let field = item.name.clone();
                return Err(UploadFault::Bits { field });
            };
            out = out.field(&item.name, &item.type_name, offset, size);
        }
        let infos = self.enum_infos.iter();
        Ok(infos.fold(out, |out, info| out.entry(&info.name, &info.value)))
    }

    /// The same, tested against the form of a book.
    fn fitting(&self) -> Result<TypeBuilder, UploadFault> {
        let made = self.builder()?;
        made.blocks().map_err(UploadFault::Form)?;
        Ok(made)
    }

    /// The names of the types whose bytes are bytes of this one.
    fn parts(&self, category: Category) -> Vec<&str> {
        match category {
            Category::Array if self.dimensions.iter().any(|d| d.elements == 0) => Vec::new(),
            Category::Alias | Category::Array => vec![&self.type_name[..]],
            Category::Struct | Category::Union | Category::FunctionBlock => {
                let fields = self.items.iter().filter(|i| i.has_bytes());
                fields.map(|i| &i.type_name[..]).collect()
            }
            _ => Vec::new(),
        }
    }

    fn error(&self, fault: UploadFault) -> UploadError {
        UploadError::new(self.at, std::slice::from_ref(&self.name), fault)
    }
}

/// Entries that fit a book, each with its builder.
type Kept<'u> = Vec<(&'u UploadEntry, TypeBuilder)>;

impl Upload {
    /// The book of all types, in the order of the upload; two entries of one name and one definition count once. The first thing that
    /// doesn't fit a book is the error. `width` is the controller's pointer width.
    pub fn book(&self, width: u8) -> Result<TypeBook<'static>, UploadError> {
        let upload = self.marked();
        let (kept, unfit) = upload.parted()?;
        match unfit.into_iter().min_by_key(|error| error.at) {
            None => built(&kept, width),
            Some(error) => Err(error),
        }
    }

    /// The book of those types that fit one, and what is wrong with each of the others. A type that is left out is lacking: no question
    /// that comes to it is answered by "no".
    ///
    /// Of entries that have one name and differ none is taken.
    pub fn fitting(&self, width: u8) -> Result<(TypeBook<'static>, Vec<UploadError>), UploadError> {
        let upload = self.marked();
        let (kept, unfit) = upload.parted()?;
        Ok((built(&kept, width)?, unfit))
    }

    /// The upload with types of its own for those that a field, an alias or an array uses in UTF-8: in a book the mark is the type's, in an
    /// upload it is mostly the field's.
    fn marked(&self) -> Cow<'_, Upload> {
        let said = |e: &UploadEntry| e.is_utf_8() && !e.type_name.is_empty();
        if !self.entries.iter().any(|e| said(e) || e.items.iter().any(said)) {
            return Cow::Borrowed(self);
        }
        let known: HashMap<&str, &UploadEntry> = self.entries.iter().map(|e| (&e.name[..], e)).collect();
        let (mut out, mut made, mut names) = (self.clone(), Vec::new(), HashSet::new());
        let mut mark = |entry: &mut UploadEntry| {
            let ways = string_of(&known, &entry.type_name).unwrap_or_default();
            if said(entry) && !ways.is_empty() {
                entry.type_name += UTF_8;
                made.extend(
                    ways.into_iter()
                        .filter(|way| names.insert(way.at))
                        .map(UploadEntry::in_utf_8),
                );
            }
        };
        for entry in &mut out.entries {
            mark(entry);
            entry.items.iter_mut().for_each(&mut mark);
        }
        out.entries.extend(made);
        Cow::Owned(out)
    }

    /// The entries that fit and the others.
    fn parted(&self) -> Result<(Kept<'_>, Vec<UploadError>), UploadError> {
        let (mut kept, mut unfit) = self.builders();
        if !kept.is_empty() {
            let endless = endless(&kept)?;
            for (entry, _) in &kept {
                if let Some(names) = endless.get(&entry.name[..]) {
                    unfit.push(entry.error(UploadFault::Cycle(names.clone())));
                }
            }
            kept.retain(|(entry, _)| !endless.contains_key(&entry.name[..]));
        }
        Ok((kept, unfit))
    }

    /// The entries that fit by themselves, with their builders, and the others.
    fn builders(&self) -> (Kept<'_>, Vec<UploadError>) {
        let (mut made, mut unfit) = (Vec::new(), Vec::new());
        for entry in self.entries() {
            match entry.fitting() {
                Ok(builder) => made.push((entry, builder)),
                Err(fault) => unfit.push(entry.error(fault)),
            }
        }
        let mut first: HashMap<&str, &TypeBuilder> = HashMap::new();
        let mut differ = HashSet::new();
        for (entry, builder) in &made {
            if first.entry(&entry.name).or_insert(builder) != &builder {
                differ.insert(&entry.name[..]);
            }
        }
        let (mut kept, mut seen) = (Vec::new(), HashSet::new());
        for (entry, builder) in &made {
            let again = !seen.insert(&entry.name[..]);
            if differ.contains(&entry.name[..]) {
                unfit.push(entry.error(UploadFault::Doubled));
            } else if !again {
                kept.push((*entry, builder.clone()));
            }
        }
        (kept, unfit)
    }
}

/// The aliases and arrays from a name on, up to the STRING that they are of; none if they are of something else, or of one that is marked.
fn string_of<'u>(known: &HashMap<&str, &'u UploadEntry>, name: &str) -> Option<Vec<&'u UploadEntry>> {
    let (mut ways, mut at) = (Vec::new(), *known.get(name)?);
    for _ in 0..MOST_HOPS {
        ways.push(at);
        if at.type_name.is_empty() {
            return (at.id == type_id::STRING && !at.is_utf_8()).then_some(ways);
        }
        if at.is_utf_8()
            || !at.items.is_empty()
            || at.flags.has(UploadFlags::PLC_POINTER_TYPE | UploadFlags::REFERENCE_TO)
        {
            return None;
        }
        at = known.get(&at.type_name[..])?;
    }
    None
}

/// A builder with a flag, if that is due.
fn with(out: TypeBuilder, is: bool, set: fn(TypeBuilder) -> TypeBuilder) -> TypeBuilder {
    if is { set(out) } else { out }
}

fn built(types: &[(&UploadEntry, TypeBuilder)], width: u8) -> Result<TypeBook<'static>, UploadError> {
    let book: BookBuilder = types.iter().map(|(_, builder)| builder.clone()).collect();
    book.build(width)
        .map_err(|error| UploadError::new(0, &[], UploadFault::Form(error)))
}

impl TypeBook<'static> {
    /// The book of a type list as ADS uploads it (`ADSIGRP_SYM_DT_UPLOAD`): data type entries one after the other. Names that don't fit a
    /// book, lengths that lie, entries that are cut off and types that hold themselves are errors. `width` is the controller's pointer
    /// width in bytes.
    ///
    /// What an upload has and a book can't hold is left out: comments, lower bounds, attributes, GUIDs, copy masks, the methods' names
    /// (docs/UPLOAD.md). For a book of what fits see [`Upload::fitting`].
    ///
    /// ```
    /// use typebook::{TypeBook, UploadFault};
    /// # let file = concat!(env!("CARGO_MANIFEST_DIR"), "/../../examples/upload/station.upload");
    /// let upload = std::fs::read(file)?;
    /// let book = TypeBook::from_upload(&upload, 8)?;
    /// assert!(book.find("FB_Count").is_some());
    ///
    /// let cut = TypeBook::from_upload(&upload[..upload.len() - 1], 8).unwrap_err();
    /// assert!(matches!(cut.fault, UploadFault::Short { .. }));
    /// # Ok::<(), Box<dyn std::error::Error>>(())
    /// ```
    pub fn from_upload(upload: &[u8], width: u8) -> Result<Self, UploadError> {
        Upload::parse(upload)?.book(width)
    }
}

/// The types that hold themselves, or hold one that does, each with the names on the way to the one that comes again. A type whose
/// category depends on the pointer width counts only if it holds itself for both widths.
fn endless<'u>(kept: &[(&'u UploadEntry, TypeBuilder)]) -> Result<HashMap<&'u str, Vec<String>>, UploadError> {
    let narrow = built(kept, 4)?;
    let open = endless_in(&narrow, kept);
    let mut wide = endless_in(&narrow.with_width(8), kept);
    wide.retain(|name, _| open.contains_key(name));
    Ok(wide)
}

/// The same by a book of the kept types, in their order, and its width.
fn endless_in<'u>(book: &TypeBook, kept: &[(&'u UploadEntry, TypeBuilder)]) -> HashMap<&'u str, Vec<String>> {
    let known: HashSet<&str> = kept.iter().map(|(t, _)| &t.name[..]).collect();
    let parts: HashMap<&str, Vec<&str>> = kept
        .iter()
        .zip(book.types())
        .map(|((entry, _), t)| {
            let mut parts = entry.parts(t.category());
            parts.retain(|part| known.contains(part));
            (&entry.name[..], parts)
        })
        .collect();
    let mut held_by: HashMap<&str, Vec<&str>> = HashMap::new();
    let mut open: HashMap<&str, usize> = HashMap::new();
    for (&name, parts) in &parts {
        open.insert(name, parts.len());
        parts
            .iter()
            .for_each(|&part| held_by.entry(part).or_default().push(name));
    }
    // Those without parts end, and those whose parts all end.
    let mut ended: Vec<&str> = open.iter().filter(|(_, n)| **n == 0).map(|(&name, _)| name).collect();
    while let Some(part) = ended.pop() {
        open.remove(part);
        for &name in held_by.get(part).into_iter().flatten() {
            if let Some(left) = open.get_mut(name) {
                *left -= 1;
                if *left == 0 {
                    ended.push(name);
                }
            }
        }
    }
    let names: HashSet<&str> = open.into_keys().collect();
    names
        .iter()
        .map(|&name| (name, path_to_itself(name, &parts, &names)))
        .collect()
}

/// The names from one on, each a part of the one before, up to the first that comes twice, or the first 32 and dots.
fn path_to_itself(name: &str, parts: &HashMap<&str, Vec<&str>>, open: &HashSet<&str>) -> Vec<String> {
    let (mut path, mut at) = (vec![name.to_string()], name);
    let mut met = HashSet::from([name]);
    while let Some(&next) = parts[at].iter().find(|part| open.contains(*part)) {
        path.push(next.into());
        if !met.insert(next) {
            break;
        }
        if path.len() == MOST_TOLD {
            path.push("..".into());
            break;
        }
        at = next;
    }
    path
}
