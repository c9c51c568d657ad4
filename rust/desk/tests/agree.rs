//! The walk for the paths against the proved calls and against the model, on random books: its yes and no are the proved call's, its
//! refusals, its list and its count too, and its places are all those that there are.

use desk::Desk;
use desk::why::{Outcome, Place, Walk};
use model::category::{Category, determine};
use model::make::{Type, book, chain, wide};
use model::random::{Made, Rng, chaos, made};
use model::{Book, Stop, block, resolve};
use std::collections::{BTreeSet, HashSet};
use typebook::Refusal;

/// What the proved call says, in the walk's words.
fn proved(desk: &Desk, root: u32) -> Outcome {
    match desk.read_modify_write(desk.book.root(u64::from(root)).expect("a type")) {
        Ok(true) => Outcome::Yes,
        Ok(false) => Outcome::No,
        Err(Refusal::NotFound { block }) => Outcome::Lacking(block),
        Err(Refusal::AliasChain) => Outcome::Chain,
        Err(Refusal::TooManyTypes) => Outcome::TooMany,
        Err(refusal) => panic!("{refusal}"),
    }
}

/// A place as it is compared: its path, the declared type's name and the block.
type Told = (String, String, u32);

fn told(place: &Place) -> Told {
    (place.path.clone(), place.declared.into(), place.block)
}

/// All places, found by the model: every way from the root on, no name twice on one way.
struct Ways<'a> {
    book: Book<'a>,
    width: u8,
    /// Function blocks, or lacking types.
    blocks: BTreeSet<Told>,
    lacking: BTreeSet<Told>,
    steps: usize,
}

impl Ways<'_> {
    /// Whether all could be gone.
    fn go(&mut self, name: &[u8], by: u32, path: &str, open: &mut Vec<Vec<u8>>) -> bool {
        self.steps += 1;
        if self.steps > 20_000 || open.iter().any(|o| o == name) {
            return self.steps <= 20_000;
        }
        let declared = String::from_utf8_lossy(name).into_owned();
        let found = self.book.find(name).ok_or(Stop::Missing(by));
        let t = match found.and_then(|t| resolve::resolve(&self.book, self.width, t, false)) {
            Ok(t) => t,
            Err(Stop::Missing(by)) => {
                self.lacking.insert((path.into(), declared, by));
                return true;
            }
            Err(_) => return true,
        };
        let bytes = self.book.bytes;
        let category = determine(bytes, self.width, t);
        if category == Category::FunctionBlock {
            self.blocks.insert((path.into(), declared, t));
        }
        let parts: Vec<(u32, String)> = match category {
            Category::Array => vec![(t, format!("{path}[..]"))],
            Category::Struct | Category::Union | Category::FunctionBlock => (t + 1..=t + block::fields(bytes, t))
                .map(|f| {
                    let field = String::from_utf8_lossy(block::name(bytes, f)).into_owned();
                    let dot = if path.is_empty() { "" } else { "." };
                    (f, format!("{path}{dot}{field}"))
                })
                .collect(),
            _ => Vec::new(),
        };
        open.push(name.to_vec());
        for (by, path) in parts {
            let name = block::type_name(bytes, by).to_vec();
            if !self.go(&name, by, &path, open) {
                return false;
            }
        }
        open.pop();
        true
    }
}

/// Holds one root's walk against the calls; the outcome.
fn hold(made: &Made, seed: u64) -> Outcome {
    let desk = Desk::new(made.book.clone(), made.width).expect("a valid book");
    let root = desk.book.root(u64::from(made.root)).expect("a type");
    let walk = Walk::new(&desk, root);
    assert_eq!(walk.outcome, proved(&desk, made.root), "seed {seed}");
    let missing = desk.missing(root).expect("no refusal is left");
    assert_eq!(
        (walk.lacking(), walk.whole, walk.names()),
        (missing.blocks, missing.whole, missing.count),
        "seed {seed}"
    );
    let blocks = walk.function_blocks(1_000);
    let lacking = walk.lacking_places(1_000);
    if walk.outcome == Outcome::Yes {
        assert!(!blocks.shown.is_empty(), "seed {seed}: a yes has a place");
    }
    if walk.outcome == Outcome::No {
        assert!(
            blocks.shown.is_empty() && lacking.shown.is_empty(),
            "seed {seed}: a no has none"
        );
    }
    let mut ways = Ways {
        book: Book::new(&made.book),
        width: made.width,
        blocks: BTreeSet::new(),
        lacking: BTreeSet::new(),
        steps: 0,
    };
    let name = block::name(&made.book, made.root).to_vec();
    if ways.go(&name, made.root, "", &mut Vec::new()) && blocks.all && lacking.all {
        let shown: BTreeSet<Told> = blocks.shown.iter().map(told).collect();
        assert_eq!(shown, ways.blocks, "seed {seed}: the places of function blocks");
        let named = |places: &BTreeSet<Told>| -> BTreeSet<(String, String)> {
            places
                .iter()
                .map(|(path, name, _)| (path.clone(), name.clone()))
                .collect()
        };
        let shown: BTreeSet<Told> = lacking.shown.iter().map(told).collect();
        assert_eq!(
            named(&shown),
            named(&ways.lacking),
            "seed {seed}: the places of lacking types"
        );
    }
    walk.outcome
}

#[test]
fn random_books() {
    let mut seen = [0; 4];
    for seed in 0..5_000 {
        let rng = &mut Rng::new(seed);
        let made = if seed % 3 == 0 { chaos(rng) } else { made(rng) };
        seen[match hold(&made, seed) {
            Outcome::Yes => 0,
            Outcome::No => 1,
            Outcome::Lacking(_) => 2,
            Outcome::Chain => 3,
            Outcome::TooMany => unreachable!("the books are small"),
        }] += 1;
    }
    // Each of the four often enough.
    assert!(seen.iter().all(|&n| n >= 25), "{seen:?}");
}

/// 31 and 32 hops, and the last of 32 missing.
#[test]
fn chains() {
    for (hops, end, wanted) in [
        (31, "INT", Outcome::No),
        (32, "INT", Outcome::Chain),
        (32, "GONE", Outcome::Lacking(31)),
    ] {
        let types = [chain(hops, end), vec![model::make::int()]].concat();
        let made = Made {
            book: book(&types),
            root: 0,
            width: 8,
        };
        assert_eq!(hold(&made, 0), wanted);
    }
}

/// 4,096 names and one more.
#[test]
fn many_names() {
    for (fields, wanted) in [(4_095, Outcome::No), (4_096, Outcome::TooMany)] {
        let leaves = (0..fields).map(|i| Type::new(&format!("T{i}")).id(2).size(2));
        let types: Vec<Type> = [wide(fields)].into_iter().chain(leaves).collect();
        let made = Made {
            book: book(&types),
            root: 0,
            width: 8,
        };
        assert_eq!(hold(&made, 0), wanted);
    }
}

/// More places than are shown: each function block has one, and it is said that these are not all.
#[test]
fn many_places() {
    // Ten levels of two fields each: 1,024 ways to the one block, and another by itself at the end.
    let mut types = vec![
        Type::new("ROOT")
            .size(8)
            .field("a", "L0", 0, 4)
            .field("z", "FB_Last", 4, 4),
    ];
    for i in 0..10 {
        let below = if i == 9 {
            "FB".to_string()
        } else {
            format!("L{}", i + 1)
        };
        types.push(
            Type::new(&format!("L{i}"))
                .size(8)
                .field("l", &below, 0, 4)
                .field("r", &below, 4, 4),
        );
    }
    types.push(Type::new("FB").size(12));
    types.push(Type::new("FB_Last").size(12));
    let made = Made {
        book: book(&types),
        root: 0,
        width: 8,
    };
    assert_eq!(hold(&made, 0), Outcome::Yes);
    let desk = Desk::new(made.book, 8).expect("valid");
    let walk = Walk::new(&desk, desk.book.root(0).expect("a type"));
    let places = walk.function_blocks(2_000);
    assert_eq!((places.shown.len(), places.all), (1_025, true));
    let few = walk.function_blocks(10);
    assert!(!few.all);
    let names: HashSet<&str> = few.shown.iter().map(|p| p.declared).collect();
    assert_eq!(names, HashSet::from(["FB", "FB_Last"]));
    assert_eq!(few.shown.last().expect("a place").path, "z");
}

/// Types that hold each other in many ways: the search ends.
#[test]
fn knots() {
    // Each of forty types has a field of every other: the ways are beyond counting.
    let name = |i: usize| format!("K{i}");
    let mut types: Vec<Type> = (0..40)
        .map(|i| {
            (0..40)
                .filter(|&j| j != i)
                .fold(Type::new(&name(i)).size(4), |t, j| t.field(&name(j), &name(j), 0, 4))
                .field("b", "FB", 0, 4)
        })
        .collect();
    // Fields at offset 0 with a type's name: structs, not unions.
    types.iter_mut().for_each(|t| t.fields[1].2 = 4);
    types.push(Type::new("FB").size(12));
    let made = Made {
        book: book(&types),
        root: 0,
        width: 8,
    };
    let desk = Desk::new(made.book.clone(), 8).expect("valid");
    let walk = Walk::new(&desk, desk.book.root(0).expect("a type"));
    assert_eq!(walk.outcome, proved(&desk, 0));
    let places = walk.function_blocks(1_000);
    assert!(!places.all && !places.shown.is_empty());
}
