//! Types made by the builder: whatever it gives passes the check, is what the model makes of the same type, and nothing that fits the
//! form is turned away.

use model::make::{self, Type};
use model::random::Rng;
use typebook::{Misfit, TypeBook, TypeBuilder, TypeError, calls};

/// A name of mostly the allowed characters, mostly short enough.
fn name(rng: &mut Rng, wild: bool) -> String {
    let len = match rng.below(8) {
        0 => 200 + usize::from(wild && rng.chance(500)),
        1 => 0,
        _ => rng.below(30),
    };
    let mut name: String = (0..len).map(|_| (b' ' + rng.below(95) as u8) as char).collect();
    if wild && rng.chance(100) {
        name.insert(0, rng.pick(&['\u{1f}', '\u{7f}', '\t', '\u{e4}', '\u{20ac}']));
    }
    name
}

fn number(rng: &mut Rng) -> u32 {
    match rng.below(3) {
        0 => rng.number() as u32,
        1 => rng.pick(&[0, 1, u32::MAX]),
        _ => rng.below(100) as u32,
    }
}

/// The same type for the model and for the builder.
fn both(rng: &mut Rng, wild: bool) -> (Type, TypeBuilder) {
    let mut model = Type::new(&name(rng, wild))
        .of(&name(rng, wild))
        .id(if rng.chance(300) { 30 } else { number(rng) })
        .size(number(rng));
    let counts: Vec<u32> = (0..rng.below(9 + usize::from(wild))).map(|_| number(rng)).collect();
    let flags = if model.id == 30 || wild && rng.chance(100) {
        64
    } else {
        32
    };
    model = model.flags(rng.below(flags) as u8).dimensions(&counts);
    for _ in 0..rng.below(5) {
        model = model.field(&name(rng, wild), &name(rng, wild), number(rng), number(rng));
    }
    for _ in 0..rng.below(5) {
        let len = rng.below(9 + usize::from(wild));
        model = model.entry(&name(rng, wild), &rng.bytes(len));
    }
    let built = built(&model);
    (model, built)
}

/// A model's type, given to the builder call by call.
fn built(model: &Type) -> TypeBuilder {
    type Flag = fn(TypeBuilder) -> TypeBuilder;
    let mut one = TypeBuilder::new(&model.name)
        .type_name(&model.type_name)
        .id(model.id)
        .size(model.size);
    let flags: [Flag; 6] = [
        TypeBuilder::pointer,
        TypeBuilder::reference,
        TypeBuilder::enumeration,
        TypeBuilder::methods,
        TypeBuilder::tc_implements,
        TypeBuilder::utf_8,
    ];
    for (bit, flag) in flags.iter().enumerate() {
        if model.flags >> bit & 1 == 1 {
            one = flag(one);
        }
    }
    one = model.dimensions.iter().fold(one, |t, &n| t.dimension(n));
    for (name, type_name, offset, size) in &model.fields {
        one = one.field(name, type_name, *offset, *size);
    }
    model.entries.iter().fold(one, |t, (name, value)| t.entry(name, value))
}

fn names(t: &Type) -> Vec<&str> {
    let fields = t.fields.iter().flat_map(|(name, type_name, ..)| [&name[..], type_name]);
    let entries = t.entries.iter().map(|(name, _)| &name[..]);
    [&t.name[..], &t.type_name]
        .into_iter()
        .chain(fields)
        .chain(entries)
        .collect()
}

/// Whether a type has a block form, by document 01's table.
fn fits(t: &Type) -> bool {
    let named = |name: &&str| name.len() <= 200 && name.bytes().all(|b| (0x20..=0x7E).contains(&b));
    let values = t.entries.iter().all(|(_, value)| value.len() <= 8);
    let marked = t.flags < 32 || t.id == 30;
    names(t).iter().all(named) && t.dimensions.len() <= 8 && values && marked
}

#[test]
fn every_type_that_fits_passes_the_check() {
    let rng = &mut Rng::new(28);
    for _ in 0..3_000 {
        let (model, one) = both(rng, false);
        let blocks = one.blocks().expect("it fits");
        assert_eq!(blocks, model.bytes());
        assert_eq!(calls::check_book(&blocks, blocks.len()), 0);
        assert_eq!(one.count() * 512, blocks.len());
    }
}

#[test]
fn what_is_refused_is_what_does_not_fit() {
    let rng = &mut Rng::new(29);
    let (mut fine, mut kinds) = (0, [0; 5]);
    for _ in 0..4_000 {
        let (model, one) = both(rng, true);
        match one.blocks() {
            Ok(blocks) => {
                assert!(fits(&model), "{model:?}");
                assert_eq!(calls::check_book(&blocks, blocks.len()), 0);
                fine += 1;
            }
            Err(TypeError::Misfit { name, what }) => {
                assert!(!fits(&model), "{what}");
                assert_eq!(name, model.name);
                match what {
                    Misfit::LongName { name, .. } => {
                        assert!(200 < name.len() && names(&model).contains(&&name[..]));
                        kinds[0] += 1;
                    }
                    Misfit::Character { name, character, .. } => {
                        assert!(name.contains(character) && names(&model).contains(&&name[..]));
                        kinds[1] += 1;
                    }
                    Misfit::Dimensions(n) => {
                        assert_eq!((n, model.dimensions.len()), (9, 9));
                        kinds[2] += 1;
                    }
                    Misfit::LongValue { entry, len } => {
                        assert_eq!((len, model.entries[entry].1.len()), (9, 9));
                        kinds[3] += 1;
                    }
                    Misfit::Utf8(id) => {
                        assert!(id != 30 && (id, model.flags & 32) == (model.id, 32));
                        kinds[4] += 1;
                    }
                    other => panic!("{other}"),
                }
            }
            Err(other) => panic!("{other}"),
        }
    }
    assert!(500 < fine && kinds.iter().all(|&n| 20 < n), "{fine} {kinds:?}");
}

#[test]
fn every_book_passes_the_check() {
    let rng = &mut Rng::new(30);
    let mut doubled = 0;
    for _ in 0..500 {
        let made: Vec<_> = (0..1 + rng.below(12)).map(|_| both(rng, false)).collect();
        let builder = made.iter().fold(TypeBook::builder(), |b, (_, one)| b.with(one.clone()));
        let types: Vec<Type> = made.into_iter().map(|(model, _)| model).collect();
        let bytes = make::book(&types);
        match builder.bytes() {
            Ok(told) => {
                assert_eq!(calls::check_book(&told, told.len()), 0);
                assert_eq!(told, bytes);
                let book = builder.build(8).expect("valid");
                assert_eq!(book.types().count(), types.len());
            }
            Err(TypeError::Doubled(name)) => {
                assert_eq!(calls::check_book(&bytes, bytes.len()), 4);
                assert_eq!(builder.build(8).unwrap_err(), TypeError::Doubled(name.clone()));
                assert!(1 < types.iter().filter(|t| t.name == name).count());
                doubled += 1;
            }
            Err(other) => panic!("{other}"),
        }
    }
    assert!(20 < doubled && doubled < 480, "{doubled}");
}
