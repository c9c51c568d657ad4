//! Times the port against the original Rust: both walks, the walk with a lent index, plans of a save, reads by a visitor that accepts all, and writes of what was read. The book is checked (the
//! port) and decoded into the library's own descriptions behind a HashMap (the original) beforehand; what that takes is
//! printed beside.

use serde::Serialize;
use serde::de::{DeserializeSeed, Deserializer, EnumAccess, Error, MapAccess, SeqAccess, VariantAccess, Visitor};
use serde::ser::{SerializeMap, SerializeSeq, Serializer};
use speed::{head, keep, line, pair, shown, turns};
use std::fmt;
use tcads_core::{
    AdsArrayInfo, AdsAttribute, AdsEnumInfo, AdsFieldInfo, AdsMethodInfo, AdsTypeFlags, AdsTypeId, AdsTypeInfo,
};
use tcads_serde::de::AdsDeserializer;
use tcads_serde::resolvers::{missing_types, requires_read_modify_write};
use tcads_serde::ser::AdsSerializer;
use tcads_serde::{AdsTypeCache, TypeProvider};
use model::block;
use typebook::{Scratch, Tape, TypeBook, Value, calls};

const WIDTH: u8 = 8;

fn text(bytes: &[u8]) -> String {
    String::from_utf8_lossy(bytes).into_owned()
}

/// A type block with its fields and entries, as the library describes it.
fn described(book: &[u8], t: u32) -> AdsTypeInfo {
    let first = t + 1 + block::fields(book, t);
    AdsTypeInfo {
        name: text(block::name(book, t)),
        type_name: text(block::type_name(book, t)),
        type_id: AdsTypeId::from(block::id(book, t)),
        size: block::size(book, t),
        flags: AdsTypeFlags {
            plc_pointer_type: block::flag(book, t, 0),
            reference_to: block::flag(book, t, 1),
            enum_infos: block::flag(book, t, 2),
        },
        array_infos: block::dimensions(book, t)
            .into_iter()
            .map(|element_count| AdsArrayInfo { element_count })
            .collect(),
        field_infos: (t + 1..first)
            .map(|f| AdsFieldInfo {
                name: text(block::name(book, f)),
                type_name: text(block::type_name(book, f)),
                offset: block::offset(book, f),
                size: block::size(book, f),
            })
            .collect(),
        enum_infos: (first..first + block::entries(book, t))
            .map(|e| AdsEnumInfo {
                name: text(block::name(book, e)),
                value: block::value(book, e).to_vec(),
            })
            .collect(),
        method_infos: block::flag(book, t, 3).then_some(AdsMethodInfo).into_iter().collect(),
        attributes: block::flag(book, t, 4)
            .then(|| AdsAttribute {
                name: "TcImplements".into(),
            })
            .into_iter()
            .collect(),
    }
}

fn cache(book: &[u8]) -> AdsTypeCache {
    let mut cache = AdsTypeCache::new(WIDTH);
    let types = (0..block::count(book)).filter(|&n| block::kind(book, n) == 1);
    cache.insert_all(types.map(|t| described(book, t)));
    cache
}

fn root(cache: &AdsTypeCache, book: &[u8]) -> AdsTypeInfo {
    cache
        .get_type_info(&text(block::name(book, 0)))
        .expect("the root")
        .clone()
}

/// What the visitor makes of the values.
trait Sink {
    fn record(&mut self, kind: u8, width: u8, a: u64, b: u64);
    fn text(&mut self, text: &str);
    fn name(&mut self, kind: u8, name: &str);
}

/// Nothing is kept but a count.
#[derive(Default)]
struct Counted {
    records: u64,
    sum: u64,
}

impl Sink for Counted {
    fn record(&mut self, _: u8, _: u8, a: u64, b: u64) {
        self.records += 1;
        self.sum = self.sum.wrapping_add(a).wrapping_add(b);
    }

    fn text(&mut self, text: &str) {
        self.record(11, 0, 0, text.len() as u64);
    }

    fn name(&mut self, kind: u8, name: &str) {
        self.record(kind, 0, name.len() as u64, 0);
    }
}

/// Records as document 01 has them, but with the length of a name in the place of its block, which the library doesn't tell.
struct Taped<'t> {
    tape: &'t mut [u8],
    text: &'t mut [u8],
    filled: usize,
    texts: usize,
}

impl Sink for Taped<'_> {
    fn record(&mut self, kind: u8, width: u8, a: u64, b: u64) {
        let place = &mut self.tape[self.filled..self.filled + 24];
        place[..8].copy_from_slice(&[kind, width, 0, 0, 0, 0, 0, 0]);
        place[8..16].copy_from_slice(&a.to_le_bytes());
        place[16..].copy_from_slice(&b.to_le_bytes());
        self.filled += 24;
    }

    fn text(&mut self, text: &str) {
        let start = self.texts;
        self.text[start..start + text.len()].copy_from_slice(text.as_bytes());
        self.texts += text.len();
        self.record(11, 0, start as u64, text.len() as u64);
    }

    fn name(&mut self, kind: u8, name: &str) {
        self.record(kind, 0, name.len() as u64, 0);
    }
}

/// Accepts all, and descends by `deserialize_any`.
struct Seed<'s, S>(&'s mut S);

impl<'de, S: Sink> DeserializeSeed<'de> for Seed<'_, S> {
    type Value = ();

    fn deserialize<D: Deserializer<'de>>(self, deserializer: D) -> Result<(), D::Error> {
        deserializer.deserialize_any(self)
    }
}

macro_rules! numbers {
    ($($visit:ident($ty:ident) $kind:literal $width:literal;)*) => {$(
        fn $visit<E: Error>(self, v: $ty) -> Result<(), E> {
            self.0.record($kind, $width, 0, v as u64);
            Ok(())
        }
    )*};
}

impl<'de, S: Sink> Visitor<'de> for Seed<'_, S> {
    type Value = ();

    fn expecting(&self, f: &mut fmt::Formatter<'_>) -> fmt::Result {
        f.write_str("anything")
    }

    numbers! {
        visit_i8(i8) 7 1; visit_i16(i16) 7 2; visit_i32(i32) 7 4; visit_i64(i64) 7 8;
        visit_u8(u8) 8 1; visit_u16(u16) 8 2; visit_u32(u32) 8 4; visit_u64(u64) 8 8; visit_bool(bool) 6 0;
    }

    fn visit_f32<E: Error>(self, v: f32) -> Result<(), E> {
        self.0.record(9, 0, 0, u64::from(v.to_bits()));
        Ok(())
    }

    fn visit_f64<E: Error>(self, v: f64) -> Result<(), E> {
        self.0.record(10, 0, 0, v.to_bits());
        Ok(())
    }

    fn visit_str<E: Error>(self, v: &str) -> Result<(), E> {
        self.0.text(v);
        Ok(())
    }

    fn visit_unit<E: Error>(self) -> Result<(), E> {
        self.0.record(13, 0, 0, 0);
        Ok(())
    }

    fn visit_seq<A: SeqAccess<'de>>(self, mut seq: A) -> Result<(), A::Error> {
        let sink = self.0;
        sink.record(1, 0, seq.size_hint().unwrap_or(0) as u64, 0);
        while seq.next_element_seed(Seed(sink))?.is_some() {}
        sink.record(2, 0, 0, 0);
        Ok(())
    }

    fn visit_map<A: MapAccess<'de>>(self, mut map: A) -> Result<(), A::Error> {
        let sink = self.0;
        sink.record(3, 0, map.size_hint().unwrap_or(0) as u64, 0);
        while map.next_key_seed(Name(sink, 4))?.is_some() {
            map.next_value_seed(Seed(sink))?;
        }
        sink.record(5, 0, 0, 0);
        Ok(())
    }

    fn visit_enum<A: EnumAccess<'de>>(self, data: A) -> Result<(), A::Error> {
        data.variant_seed(Name(self.0, 12))?.1.unit_variant()
    }
}

struct Name<'s, S>(&'s mut S, u8);

impl<'de, S: Sink> DeserializeSeed<'de> for Name<'_, S> {
    type Value = ();

    fn deserialize<D: Deserializer<'de>>(self, deserializer: D) -> Result<(), D::Error> {
        deserializer.deserialize_any(self)
    }
}

impl<'de, S: Sink> Visitor<'de> for Name<'_, S> {
    type Value = ();

    fn expecting(&self, f: &mut fmt::Formatter<'_>) -> fmt::Result {
        f.write_str("a name")
    }

    fn visit_str<E: Error>(self, v: &str) -> Result<(), E> {
        self.0.name(self.1, v);
        Ok(())
    }
}

fn walks() {
    let bytes = speed::reached();
    let (book, cache) = (TypeBook::new(&bytes[..], WIDTH).expect("valid"), cache(&bytes));
    let (port, original) = (book.root(0).expect("a type"), root(&cache, &bytes));
    let mut scratch = Scratch::new();
    assert_eq!(port.requires_read_modify_write(), Ok(false));
    assert!(!requires_read_modify_write(&original, &cache).expect("no refusal"));
    let missing = port.missing_types().expect("no refusal");
    assert_eq!((missing.blocks.len(), missing.count), (0, speed::TYPES));
    assert!(missing_types(&original, &cache).is_empty());

    head("walks, 4,096 types of four fields, all reached", "original");
    pair(
        "requires_read_modify_write, book checked before",
        41,
        || port.requires_read_modify_write_with(&mut scratch),
        || requires_read_modify_write(&original, &cache),
    );
    pair(
        "missing_types, book checked before",
        41,
        || port.missing_types_with(&mut scratch),
        || missing_types(&original, &cache),
    );
    let names_only = TypeBook::names_only(&bytes[..], WIDTH).expect("valid");
    let by_names = names_only.root(0).expect("a type");
    pair(
        "requires_read_modify_write, by an index of names only",
        41,
        || by_names.requires_read_modify_write_with(&mut scratch),
        || requires_read_modify_write(&original, &cache),
    );
    pair(
        "missing_types, by an index of names only",
        41,
        || by_names.missing_types_with(&mut scratch),
        || missing_types(&original, &cache),
    );
    let (mut numbers, mut list, mut index) = (vec![0; 8_192], vec![0; 4_096], vec![0; typebook::calls::INDEX]);
    assert_eq!(typebook::calls::build_index(&bytes, bytes.len(), &mut index), 0);
    pair(
        "missing_types, whole call with its checks",
        15,
        || {
            typebook::calls::missing_types(
                &bytes,
                bytes.len(),
                &index,
                WIDTH,
                0,
                &mut numbers,
                &mut list,
                &mut [0; 3],
            )
        },
        || missing_types(&original, &cache),
    );
    prepared(&bytes);
}

/// What each side does once for a book.
fn prepared(bytes: &[u8]) {
    pair(
        "once: checks, index; decoding into the HashMap",
        7,
        || TypeBook::new(bytes, WIDTH),
        || cache(bytes),
    );
    pair(
        "once: checks, names only; decoding into the HashMap",
        7,
        || TypeBook::names_only(bytes, WIDTH),
        || cache(bytes),
    );
}

/// `missing_types` with a lent index, the checks of the book apart (they are timed in the same turns and taken off) and the building of the
/// index counted in, against the original's walk by its HashMap, which is made beforehand, and then with the making counted in too.
fn lent(what: &str, rounds: usize, bytes: &[u8]) {
    let (made, len) = (cache(bytes), bytes.len());
    let original = root(&made, bytes);
    let (mut scratch, mut list, mut values) = (vec![0; 8_192], vec![0; 4_096], [0; 3]);
    let mut index = vec![0; calls::INDEX];
    let mut listed = 0;
    let t = turns(
        rounds,
        &mut [
            &mut || {
                assert_eq!(calls::build_index(bytes, len, &mut index), 0);
                let (s, l) = (&mut scratch, &mut list);
                assert_eq!(calls::missing_types(bytes, len, &index, WIDTH, 0, s, l, &mut values), 0);
            },
            &mut || (0..2).for_each(|_| keep(calls::check_book(bytes, len))),
            &mut || listed = missing_types(&original, &made).len(),
            &mut || keep(missing_types(&original, &cache(bytes))),
        ],
    );
    assert_eq!(values[0] as usize, listed);
    let port = t[0].saturating_sub(t[1]);
    line(what, port, t[2]);
    line("  the making of its HashMap counted in", port, t[3]);
}

fn indexes() {
    head("missing_types, checks apart, building counted in", "original");
    lent("4,096 types of four fields, all reached", 15, &speed::reached());
    lent("4,096 fields of lacking names among 4,096 types", 15, &speed::lacking());
    lent("4,000 of 20,000 types reached", 5, &speed::among_20_000());
    lent(
        "4,096 types of four fields, names of one hash",
        3,
        &speed::reached_by(model::hostile::name),
    );
}

/// The gateway of today: asks by the library's walk over its HashMap, inserts the listed types, decoded from the controller's list, asks again,
/// until none is listed; then read-modify-write.
fn loop_of_today(ours: &[u8], controller: &model::Book) -> bool {
    let mut cache = cache(ours);
    let root = root(&cache, ours);
    loop {
        let names = missing_types(&root, &cache);
        if names.is_empty() {
            return requires_read_modify_write(&root, &cache).expect("no refusal");
        }
        let found = names.iter().filter_map(|name| controller.find(name.as_bytes()));
        cache.insert_all(found.map(|t| described(controller.bytes, t)));
    }
}

fn plan(what: &str, rounds: usize, ours: &[u8], controller: &[u8]) {
    let (len, theirs) = (ours.len(), controller.len());
    let mut buffer = [ours, &vec![0; theirs]].concat();
    let (mine, whole) = (
        TypeBook::new(ours, WIDTH).expect("valid"),
        TypeBook::new(controller, WIDTH).expect("valid"),
    );
    let types = mine.types().count() + whole.types().count();
    let (mut scratch, mut index, mut values) = (vec![0; 8_192], vec![0; 8 * types], [0; 2]);
    let (s, i, v) = (&mut scratch, &mut index, &mut values);
    pair(
        what,
        rounds,
        || typebook::calls::plan_save(&mut buffer, len, controller, theirs, WIDTH, 0, s, i, v),
        || loop_of_today(ours, &model::Book::new(controller)),
    );
    assert_eq!(
        (values[0] == 1, values[1]),
        (loop_of_today(ours, &model::Book::new(controller)), theirs as u64)
    );
}

fn plans() {
    head("plan_save, whole call; asks and inserts", "original");
    let all = speed::reached();
    plan(
        "from the root alone to 4,096 types of four fields",
        15,
        &all[..5 * 512],
        &all,
    );
    let (ours, all) = speed::alternating(2_000);
    plan("types of ours alternate with lacking ones, 2,000 times", 1, &ours, &all);
}

fn reads(what: &str, (bytes, memory): (Vec<u8>, Vec<u8>)) {
    let (book, cache) = (TypeBook::new(&bytes[..], WIDTH).expect("valid"), cache(&bytes));
    let (port, original) = (book.root(0).expect("a type"), root(&cache, &bytes));
    let tape = port.read(&memory).expect("read");
    let (mut records, mut text) = (vec![0; tape.bytes().len()], vec![0; tape.text().len()]);
    let (mut other, mut other_text) = (records.clone(), text.clone());
    let counted = || {
        let mut counted = Counted::default();
        Seed(&mut counted)
            .deserialize(AdsDeserializer::new(&memory, &original, &cache))
            .map(|()| counted)
    };
    let mut taped = || {
        let mut sink = Taped {
            tape: &mut other,
            text: &mut other_text,
            filled: 0,
            texts: 0,
        };
        Seed(&mut sink).deserialize(AdsDeserializer::new(&memory, &original, &cache))
    };
    assert_eq!(counted().expect("read").records as usize, tape.len());

    head(&format!("read, {what}: {} records", tape.len()), "original");
    let port = &mut || port.read_into(&memory, &mut records, &mut text);
    pair(
        "book checked before; the visitor keeps nothing",
        101,
        &mut *port,
        counted,
    );
    pair("book checked before; the visitor makes records", 101, port, &mut taped);
    assert_eq!(other_text, tape.text());
    whole_read(&bytes, &memory, tape.bytes().len(), tape.text().len());
}

fn whole_read(bytes: &[u8], memory: &[u8], records: usize, texts: usize) {
    let (mut tape, mut text, len) = (vec![0; records], vec![0; texts], bytes.len());
    let t = turns(
        9,
        &mut [
            &mut || {
                keep(typebook::calls::read(
                    bytes,
                    len,
                    WIDTH,
                    0,
                    memory,
                    &mut tape,
                    &mut text,
                    &mut [0; 2],
                ))
            },
            &mut || keep(typebook::calls::check_book(bytes, len)),
        ],
    );
    println!(
        "{:58} {:>12} of which the check {}",
        "whole call",
        shown(t[0]),
        shown(t[1])
    );
}

/// A value as a program holds it that writes it with the original: made of a tape before anything is timed.
enum Held<'t> {
    Array(Vec<Held<'t>>),
    Map(Vec<(&'t str, Held<'t>)>),
    Leaf(Value<'t>),
}

/// The value that begins at a record, and how many records it has.
fn held<'t>(records: &[Value<'t>]) -> (Held<'t>, usize) {
    let mut at = 1;
    match records[0] {
        Value::Array(_) => {
            let mut items = Vec::new();
            while records[at] != Value::End {
                let (item, taken) = held(&records[at..]);
                items.push(item);
                at += taken;
            }
            (Held::Array(items), at + 1)
        }
        Value::Map(_) => {
            let mut items = Vec::new();
            while let Value::Key(key) = records[at] {
                let (item, taken) = held(&records[at + 1..]);
                items.push((key, item));
                at += 1 + taken;
            }
            (Held::Map(items), at + 1)
        }
        leaf => (Held::Leaf(leaf), 1),
    }
}

impl Serialize for Held<'_> {
    fn serialize<S: Serializer>(&self, s: S) -> Result<S::Ok, S::Error> {
        match self {
            Held::Array(items) => {
                let mut seq = s.serialize_seq(None)?;
                items.iter().try_for_each(|item| seq.serialize_element(item))?;
                seq.end()
            }
            Held::Map(items) => {
                let mut map = s.serialize_map(None)?;
                for (key, item) in items {
                    map.serialize_key(key)?;
                    map.serialize_value(item)?;
                }
                map.end()
            }
            Held::Leaf(leaf) => leaf_by(*leaf, s),
        }
    }
}

fn leaf_by<S: Serializer>(leaf: Value, s: S) -> Result<S::Ok, S::Error> {
    match leaf {
        Value::Bool(v) => s.serialize_bool(v),
        Value::Int { bits: 8, value } => s.serialize_i8(value as i8),
        Value::Int { bits: 16, value } => s.serialize_i16(value as i16),
        Value::Int { bits: 32, value } => s.serialize_i32(value as i32),
        Value::Int { value, .. } => s.serialize_i64(value),
        Value::Nat { bits: 8, value } => s.serialize_u8(value as u8),
        Value::Nat { bits: 16, value } => s.serialize_u16(value as u16),
        Value::Nat { bits: 32, value } => s.serialize_u32(value as u32),
        Value::Nat { value, .. } => s.serialize_u64(value),
        Value::Real32(bits) => s.serialize_f32(f32::from_bits(bits)),
        Value::Real64(bits) => s.serialize_f64(f64::from_bits(bits)),
        Value::Text { text, .. } => s.serialize_str(text),
        // No enumeration is timed: serde wants static names for their entries.
        _ => s.serialize_unit(),
    }
}

fn writes(what: &str, (bytes, memory): (Vec<u8>, Vec<u8>)) {
    let (book, cache) = (TypeBook::new(&bytes[..], WIDTH).expect("valid"), cache(&bytes));
    let (port, original) = (book.root(0).expect("a type"), root(&cache, &bytes));
    let tape = port.read(&memory).expect("read");
    let values: Vec<Value> = tape.iter().map(|r| r.value).collect();
    let value = held(&values).0;
    let image = vec![0x5A; memory.len()];
    let (mut output, mut other) = (image.clone(), image.clone());

    head(&format!("write, {what}: {} records", tape.len()), "original");
    pair(
        "book checked before; the original from values in memory",
        101,
        || port.write_into(&image, tape.bytes(), tape.text(), &mut output),
        || {
            other.copy_from_slice(&image);
            value.serialize(AdsSerializer::new(&mut other, &original, &cache))
        },
    );
    assert_eq!(output, other);
    form_alone(&tape, port, &image);
    whole_write(&bytes, &image, &tape);
}

/// The form alone: one record more at the end, so that 16 is found when all is looked at; the image is copied once more.
fn form_alone(tape: &Tape, port: typebook::TypeRef, image: &[u8]) {
    let mut longer = tape.bytes().to_vec();
    longer.extend_from_slice(&[13, 0, 0, 0, 0, 0, 0, 0, 0, 0, 0, 0, 0, 0, 0, 0, 0, 0, 0, 0, 0, 0, 0, 0]);
    let mut output = image.to_vec();
    let form = || keep(port.write_into(image, &longer, tape.text(), &mut output));
    let t = turns(101, &mut [&mut { form }]);
    println!(
        "{:58} {:>12}",
        "  of which the form of the tape, with a copy of the image",
        shown(t[0])
    );
}

fn whole_write(bytes: &[u8], image: &[u8], tape: &Tape) {
    let (mut output, len) = (image.to_vec(), bytes.len());
    let (records, text) = (tape.bytes(), tape.text());
    let whole = || {
        let values = &mut [0; 1];
        keep(typebook::calls::write(
            bytes,
            len,
            WIDTH,
            0,
            image,
            records,
            text,
            &mut output,
            values,
        ))
    };
    let t = turns(
        9,
        &mut [&mut { whole }, &mut || keep(typebook::calls::check_book(bytes, len))],
    );
    println!(
        "{:58} {:>12} of which the check {}",
        "whole call",
        shown(t[0]),
        shown(t[1])
    );
}

/// A tape of a million records: an array of INTs.
fn million() {
    let (bytes, memory) = speed::array_of_ints(999_998);
    let book = TypeBook::new(&bytes[..], WIDTH).expect("valid");
    let port = book.root(0).expect("a type");
    let tape = port.read(&memory).expect("read");
    let cache = cache(&bytes);
    let original = root(&cache, &bytes);
    let values: Vec<Value> = tape.iter().map(|r| r.value).collect();
    let value = held(&values).0;
    let (mut output, mut other) = (memory.clone(), memory.clone());
    let t = turns(
        9,
        &mut [
            &mut || keep(port.write_into(&memory, tape.bytes(), tape.text(), &mut output)),
            &mut || {
                other.copy_from_slice(&memory);
                keep(value.serialize(AdsSerializer::new(&mut other, &original, &cache)))
            },
        ],
    );
    assert!(output == memory && other == memory);
    head("write, an array of 999,998 INTs: 1,000,000 records", "original");
    speed::line("book checked before; the original from values in memory", t[0], t[1]);
    let rate = tape.len() as f64 / t[0].as_secs_f64() / 1e6;
    println!("{:58} {rate:>9.1} million records a second", "  by its rate");
    form_alone(&tape, port, &memory);
}

/// A struct of very many fields, all named in order: the port alone.
fn long() {
    let (bytes, memory) = speed::struct_of_65_000();
    let book = TypeBook::new(&bytes[..], WIDTH).expect("valid");
    let port = book.root(0).expect("a type");
    let tape = port.read(&memory).expect("read");
    let mut output = memory.clone();
    let write = || keep(port.write_into(&memory, tape.bytes(), tape.text(), &mut output));
    let t = turns(5, &mut [&mut { write }]);
    println!(
        "\nwrite, a struct of 65,000 fields, all named in order: {}",
        shown(t[0])
    );
}

/// All tables, or those that are named: walks, index, plan, struct, array, write-struct, write-array, write-million, write-long.
fn main() {
    let named: Vec<String> = std::env::args().skip(1).collect();
    let wanted = |table: &str| named.is_empty() || named.iter().any(|n| n == table);
    if wanted("walks") {
        walks();
    }
    if wanted("index") {
        indexes();
    }
    if wanted("plan") {
        plans();
    }
    if wanted("struct") {
        reads("a struct of 200 fields among 4,096 types", speed::struct_of_200());
    }
    if wanted("array") {
        reads("an array of 10,000 structs of 6 fields", speed::array_of_10_000());
    }
    if wanted("write-struct") {
        writes("a struct of 200 fields among 4,096 types", speed::struct_of_200());
    }
    if wanted("write-array") {
        writes("an array of 10,000 structs of 6 fields", speed::array_of_10_000());
    }
    if wanted("write-million") {
        million();
    }
    if wanted("write-long") {
        long();
    }
}
