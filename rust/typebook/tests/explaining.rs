//! Where a read was refused: by hand, and for random reads that a part of the value is refused as the whole was.

use model::make::{Type, book};
use model::random::{Rng, made, memory};
use typebook::{ReadError, Refusal, TypeBook, TypeRef};

fn told(types: &[Type], memory: &[u8]) -> String {
    let book = TypeBook::new(book(types), 8).expect("valid");
    let root = book.root(0).expect("a type");
    let error = root.explain(memory).expect("refused");
    assert_eq!(root.read(memory).err(), Some(error.refusal));
    error.to_string()
}

fn uint() -> Type {
    Type::new("UINT").id(18).size(2)
}

#[test]
fn a_field_in_an_element() {
    let nozzle = |size| {
        Type::new("ST_Nozzle")
            .size(4)
            .field("Open", "BOOL", 0, 1)
            .field("Flow", "UINT", 1, size)
    };
    let types = |size| {
        [
            Type::new("ST_Glue")
                .size(10)
                .field("Temp", "UINT", 0, 2)
                .field("Nozzles", "NOZZLES", 2, 8),
            Type::new("NOZZLES").of("ST_Nozzle").size(8).dimensions(&[2]),
            nozzle(size),
            Type::new("BOOL").id(33).size(1),
            uint(),
        ]
    };
    assert_eq!(told(&types(3), &[0; 10]), "Nozzles[0].Flow: 3 bytes where UINT has 2");
    assert_eq!(told(&types(2), &[0; 9]), "9 bytes where ST_Glue has 10");
    assert_eq!(
        told(&types(4), &[0; 10]),
        "Nozzles[0].Flow: 3 bytes are left where the field, of type UINT, has 4"
    );
    let missing = &types(2)[..4];
    assert_eq!(
        told(missing, &[0; 10]),
        "Temp: the type book lacks the type UINT: fetch it and add it"
    );
}

#[test]
fn the_second_element_of_the_second_row() {
    let types = [
        Type::new("S").size(8).field("Pattern", "PATTERN", 0, 8),
        Type::new("PATTERN").of("E_Step").size(8).dimensions(&[2, 4]),
        Type::new("E_Step").of("E").id(17).size(1),
        Type::new("E")
            .id(17)
            .size(1)
            .flags(4)
            .entry("off", &[0])
            .entry("on", &[1]),
    ];
    let error = told(&types, &[0, 1, 0, 1, 0, 2, 0, 0]);
    assert!(
        error.starts_with("Pattern[1,1]: a value of E_Step: refusal 12: "),
        "{error}"
    );
    let alias = [
        Type::new("Bar").of("REAL").id(4).size(4),
        Type::new("REAL").id(4).size(4),
    ];
    assert_eq!(told(&alias, &[0; 3]), "3 bytes where Bar has 4");
    let pointers = [
        Type::new("S").size(4).field("p", "POINTER TO S", 0, 4),
        Type::new("POINTER TO S").of("S").size(8).flags(1),
    ];
    assert_eq!(told(&pointers, &[0; 4]), "p: 4 bytes where POINTER TO S has 8");
}

#[test]
fn an_array_whose_product_is_another() {
    let types = [Type::new("A").of("UINT").size(6).dimensions(&[2, 2]), uint()];
    assert_eq!(told(&types, &[0; 6]), "6 bytes where A has 8");
    // A missing element type is named; so is the alias at which a chain broke off.
    let lacks = [
        Type::new("S").size(6).field("x", "A", 0, 6),
        Type::new("A").of("FOO").size(6).dimensions(&[3]),
    ];
    assert_eq!(
        told(&lacks, &[0; 6]),
        "x: the type book lacks the type FOO: fetch it and add it"
    );
    let chain = [
        Type::new("S").size(2).field("x", "B", 0, 2),
        Type::new("B").of("GONE").id(2).size(2),
    ];
    assert_eq!(
        told(&chain, &[0; 2]),
        "x: the type book lacks the type GONE: fetch it and add it"
    );
}

#[test]
fn a_type_that_holds_itself() {
    let types = [Type::new("S").size(2).field("x", "S", 0, 2)];
    let book = TypeBook::new(book(&types), 8).expect("valid");
    let error = book.root(0).expect("a type").explain(&[0; 2]).expect("refused");
    assert_eq!(error.refusal, Refusal::TooDeep);
    assert_eq!(error.path.split('.').count(), 64);
}

/// The type and the bytes that a path leads to, by the book's own offsets; none where two fields have one name.
fn part<'b, 'm>(
    mut t: TypeRef<'b>,
    mut memory: &'m [u8],
    path: &str,
    book: &'b TypeBook,
) -> Option<(TypeRef<'b>, &'m [u8])> {
    let mut rest = path;
    while !rest.is_empty() {
        let resolved = t.resolve_alias().ok()?;
        if let Some(inside) = rest.strip_prefix('[') {
            let (indexes, after) = inside.split_once(']')?;
            let of = book.find(resolved.type_name())?;
            let at = indexes
                .split(',')
                .zip(resolved.dimensions())
                .fold(0, |at, (i, n)| at * n as usize + i.parse::<usize>().expect("an index"));
            let size = of.resolve_alias().ok()?.size() as usize;
            (t, memory, rest) = (of, &memory[at * size..(at + 1) * size], after);
        } else {
            let named = rest.strip_prefix('.').unwrap_or(rest);
            let end = named.find(['.', '[']).unwrap_or(named.len());
            let mut fields = resolved.declared_fields().filter(|f| f.name == &named[..end]);
            let field = fields.next()?;
            if fields.next().is_some() {
                return None;
            }
            let start = field.offset as usize;
            memory = memory.get(start..start + field.size as usize)?;
            (t, rest) = (book.find(field.type_name)?, &named[end..]);
        }
    }
    Some((t, memory))
}

#[test]
fn the_place_is_refused_as_the_whole_was() {
    let (mut refused, mut inside, mut found) = (0, 0, 0);
    for seed in 0..2_000 {
        let rng = &mut Rng::new(seed + 30_000_000);
        let made = made(rng);
        let memory = memory(rng, &made);
        let book = TypeBook::new(&made.book[..], made.width).expect("valid");
        let root = book.root(u64::from(made.root)).expect("a type");
        let told = root.explain(&memory);
        assert_eq!(told.as_ref().map(|e| e.refusal), root.read(&memory).err());
        let Some(ReadError {
            refusal,
            path,
            declared,
            ..
        }) = told
        else {
            continue;
        };
        refused += 1;
        // A field without a name leaves no trace in a path.
        if book.types().any(|t| t.declared_fields().any(|f| f.name.is_empty())) {
            continue;
        }
        inside += usize::from(!path.is_empty());
        if let Refusal::NotFound { block } = refusal {
            assert_eq!(declared, book.type_name(block));
        } else if let Some((t, bytes)) = part(root, &memory, &path, &book) {
            // A place is a value that is refused by itself for the same reason.
            if refusal != Refusal::TooDeep {
                assert_eq!(t.read(bytes).err(), Some(refusal), "{seed}: {path}");
                assert_eq!(t.name(), declared);
                found += 1;
            }
        }
    }
    assert!(
        400 < refused && 60 < inside && 150 < found,
        "{refused}, {inside} inside, {found} found"
    );
}
