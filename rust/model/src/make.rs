//! Books made by hand.

use crate::block::BLOCK;

/// A type to be made into blocks.
///
/// ```
/// use model::make::Type;
/// let book = [Type::new("S").size(2).field("x", "INT", 0, 2).bytes(), Type::new("INT").id(2).size(2).bytes()].concat();
/// assert_eq!(model::check::check_book(&book, book.len()), 0);
/// ```
#[derive(Debug, Clone, Default)]
pub struct Type {
    /// Its name.
    pub name: String,
    /// Its type name.
    pub type_name: String,
    /// Its id.
    pub id: u32,
    /// Its size.
    pub size: u32,
    /// Bits: 1 pointer, 2 reference, 4 enum, 8 has methods, 16 TcImplements.
    pub flags: u8,
    /// The counts of its dimensions.
    pub dimensions: Vec<u32>,
    /// Its fields: name, type name, offset, size.
    pub fields: Vec<(String, String, u32, u32)>,
    /// Its enumeration entries: name, value.
    pub entries: Vec<(String, Vec<u8>)>,
}

impl Type {
    /// A type of that name, id 65.
    pub fn new(name: &str) -> Self {
        Self {
            name: name.into(),
            id: 65,
            ..Self::default()
        }
    }

    /// With that type name.
    pub fn of(mut self, type_name: &str) -> Self {
        self.type_name = type_name.into();
        self
    }

    /// With that id.
    pub fn id(mut self, id: u32) -> Self {
        self.id = id;
        self
    }

    /// With that size.
    pub fn size(mut self, size: u32) -> Self {
        self.size = size;
        self
    }

    /// With those flags.
    pub fn flags(mut self, flags: u8) -> Self {
        self.flags = flags;
        self
    }

    /// With those counts of elements.
    pub fn dimensions(mut self, counts: &[u32]) -> Self {
        self.dimensions = counts.to_vec();
        self
    }

    /// With one more field.
    pub fn field(mut self, name: &str, type_name: &str, offset: u32, size: u32) -> Self {
        self.fields.push((name.into(), type_name.into(), offset, size));
        self
    }

    /// With one more entry.
    pub fn entry(mut self, name: &str, value: &[u8]) -> Self {
        self.entries.push((name.into(), value.to_vec()));
        self
    }

    /// The number of its blocks.
    pub fn blocks(&self) -> u32 {
        (1 + self.fields.len() + self.entries.len()) as u32
    }

    /// Its blocks.
    pub fn bytes(&self) -> Vec<u8> {
        let mut own = [0; BLOCK];
        own[0] = 1;
        own[1] = self.flags;
        own[2] = self.dimensions.len() as u8;
        let numbers = [self.id, self.size, self.fields.len() as u32, self.entries.len() as u32];
        for (i, n) in numbers.iter().chain(&self.dimensions).enumerate() {
            own[4 + 4 * i..8 + 4 * i].copy_from_slice(&n.to_le_bytes());
        }
        let mut out = finish(own, &self.name, &self.type_name);
        for (name, type_name, offset, size) in &self.fields {
            let mut b = [0; BLOCK];
            b[0] = 2;
            b[4..8].copy_from_slice(&offset.to_le_bytes());
            b[8..12].copy_from_slice(&size.to_le_bytes());
            out.extend(finish(b, name, type_name));
        }
        for (name, value) in &self.entries {
            let mut b = [0; BLOCK];
            b[0] = 3;
            b[1] = value.len() as u8;
            b[20..20 + value.len()].copy_from_slice(value);
            out.extend(finish(b, name, ""));
        }
        out
    }
}

fn finish(mut b: [u8; BLOCK], name: &str, type_name: &str) -> Vec<u8> {
    b[52] = name.len() as u8;
    b[53] = type_name.len() as u8;
    b[54..54 + name.len()].copy_from_slice(name.as_bytes());
    b[254..254 + type_name.len()].copy_from_slice(type_name.as_bytes());
    mend(&mut b);
    b.to_vec()
}

/// Makes a block's sum right.
pub fn mend(block: &mut [u8]) {
    let sum: u32 = block[..508].iter().map(|&b| u32::from(b)).sum();
    block[508..BLOCK].copy_from_slice(&sum.to_le_bytes());
}

/// The blocks of types, one after the other.
pub fn book(types: &[Type]) -> Vec<u8> {
    types.iter().flat_map(Type::bytes).collect()
}

/// INT.
pub fn int() -> Type {
    Type::new("INT").id(2).size(2)
}

/// The book of document 01's example: S with the INTs A and B.
pub fn example() -> Vec<u8> {
    book(&[
        Type::new("S").size(4).field("A", "INT", 0, 2).field("B", "INT", 2, 2),
        int(),
    ])
}

/// A struct with a DATE, by way of an alias.
pub fn dated() -> Vec<u8> {
    book(&[
        Type::new("S").size(4).field("Made", "DAY", 0, 4),
        Type::new("DAY").of("DATE").id(19).size(4),
        Type::new("DATE").id(19).size(4),
    ])
}

/// So many aliases A0, A1 and on, each of the next, the last of `end`.
pub fn chain(hops: usize, end: &str) -> Vec<Type> {
    let name = |i: usize| if i == hops { end.to_string() } else { format!("A{i}") };
    (0..hops)
        .map(|i| Type::new(&name(i)).of(&name(i + 1)).id(2).size(2))
        .collect()
}

/// A struct ROOT with so many fields, each of a type of its own: T0, T1 and on.
pub fn wide(fields: u32) -> Type {
    (0..fields).fold(Type::new("ROOT").size(2 * fields), |t, i| {
        t.field(&format!("f{i}"), &format!("T{i}"), 2 * i, 2)
    })
}

/// Structs S0, S1 and on in one another, so that the INT in the innermost stands on that level.
pub fn deep(level: usize) -> Vec<Type> {
    let below = |i: usize| {
        if i == level - 2 {
            "INT".to_string()
        } else {
            format!("S{}", i + 1)
        }
    };
    let structs = (0..level - 1).map(|i| Type::new(&format!("S{i}")).size(2).field("x", &below(i), 0, 2));
    structs.chain([int()]).collect()
}
